"""The man page names every command, every option and every field of the JSON that the program has, and is well-formed
where mandoc is there to say so."""
import json
import re
import shutil
import subprocess

from harness import GOOD, ROOT, check, yard

PAGE = ROOT / 'tool' / 'yard.1'
M7 = ROOT / 'examples' / 'maps' / 'm7.map'
BAD = ROOT / 'examples' / 'plate' / 'yard.map'


def commands():
    """The commands, by the overview."""
    return re.findall(r'^  (\w+) +\w', yard('--help').out.decode(), re.M)


def options():
    found = {'--help', '--version'}
    for command in commands():
        found |= set(re.findall(r'^  (-o|--\w+)', yard(command, '--help').out.decode(), re.M))
    return found


def fields(value):
    """The names in a value that was read from JSON."""
    if isinstance(value, list):
        return set().union(*map(fields, value))
    if isinstance(value, dict):
        return set(value).union(*map(fields, value.values()))
    return set()


def json_fields():
    printed = [yard('check', '--json', M7, BAD), yard('route', '--json', M7, 0, 6), yard('times', '--json', M7, 0),
               yard('lists', '--json', M7, 0), yard('lists', '--json', BAD, 396)]
    return set().union(*(fields(json.loads(run.out)) for run in printed))


def run():
    words = set(re.findall(r'[-\w]+', PAGE.read_text().replace(r'\-', '-').replace(r'\fB', ' ')))
    check('commands', sorted(commands()), sorted('check show make route times lists order records dot'.split()))
    check('options', sorted(options()), sorted('--json --length --frames --from -o --help --version'.split()))
    for kind, names in (('command', commands()), ('option', options()), ('field', json_fields())):
        for name in names:
            check(f'the man page names the {kind} {name}', name in words, True)
    if shutil.which('mandoc'):
        lint = subprocess.run(['mandoc', '-Tlint', str(PAGE)], capture_output=True, text=True)
        check('mandoc', (lint.returncode, lint.stdout, lint.stderr), (GOOD, '', ''))
    else:
        print('manual: no mandoc here to look at the man page')
