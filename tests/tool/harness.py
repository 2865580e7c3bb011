"""What the tests of the tool share: the program run from outside, and what it gave held against what it should.

    yard(words, ..)          -> Run(status, out, err), the bytes that it wrote
    check(label, found, wanted)
    differences()            -> how many there were
"""
import subprocess
import sys
from collections import namedtuple
from pathlib import Path

ROOT = Path(__file__).resolve().parent.parent.parent
YARD = ROOT / 'target' / 'yard'
sys.path.insert(0, str(ROOT / 'tests'))

GOOD, REFUSED, FAILED = 0, 1, 2

Run = namedtuple('Run', 'status out err')

counts = {'runs': 0, 'comparisons': 0, 'differences': 0}


def yard(*words, data=b'', **options):
    """Runs the program on these words with the data as its standard input. The options are those of a process."""
    counts['runs'] += 1
    piped = {} if 'stdin' in options else {'input': data}
    streams = {'stdout': subprocess.PIPE, 'stderr': subprocess.PIPE}
    done = subprocess.run([str(YARD), *map(str, words)], **{**piped, **streams, **options}, timeout=60)
    return Run(done.returncode, done.stdout or b'', done.stderr or b'')


def check(label, found, wanted):
    counts['comparisons'] += 1
    if found == wanted:
        return True
    counts['differences'] += 1
    print(f'{label}:\n  found  {shown(found)}\n  wanted {shown(wanted)}')
    return False


def shown(value):
    text = repr(value)
    return text if len(text) < 600 else f'{text[:300]} .. {text[-280:]}'
