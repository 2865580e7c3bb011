"""What every generator of test cases does with the files that it made.

    keep(content, files)    writes them; with the argument --check it only compares them with those that are stored

`files` is a list of pairs, path and bytes; `content` says what is in them. Either way one line is printed, and a
difference ends the program with status 1.
"""
import sys
from pathlib import Path

ROOT = Path(__file__).resolve().parent.parent


def said(what):
    """The program's name and what it did, as its one line."""
    return f'{Path(sys.argv[0]).name}: {what}'


def check(content, files):
    differing = [str(path.relative_to(ROOT)) for path, data in files
                 if not path.exists() or path.read_bytes() != data]
    if differing:
        sys.exit(said('stored otherwise: ' + ', '.join(differing)))
    print(said(f'{content}, {len(files)} files as stored'))


def keep(content, files):
    if sys.argv[1:] == ['--check']:
        check(content, files)
        return
    if sys.argv[1:]:
        sys.exit(said('the only argument is --check'))
    for path, data in files:
        path.parent.mkdir(parents=True, exist_ok=True)
        path.write_bytes(data)
    print(said(f'{content}, {len(files)} files written'))
