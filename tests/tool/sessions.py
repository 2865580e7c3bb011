"""Sessions: commands and what they print, as a person would see them. They stand in tests/tool/sessions, one file a
subject, and in the blocks that begin with ```console of the documents.

    run()      runs each and compares
    write()    runs each and stores what it printed

A line that begins with `$ ` is a command for the shell, and the lines up to the next one are what it has to print,
standard error before standard output, with its status in brackets if that is not 0. All commands of a file or a
document run in one folder, which is empty at first but for the examples.
"""
import os
import subprocess
import tempfile
from pathlib import Path

from harness import ROOT, check, counts

SESSIONS = sorted((ROOT / 'tests' / 'tool' / 'sessions').glob('*.txt'))
DOCUMENTS = [ROOT / name for name in ('README.md', 'docs/map-text.md', 'docs/course.md')]
BEGIN, END = '```console', '```'


def printed(command, folder):
    """What the command prints, as it is to stand behind it."""
    counts['runs'] += 1
    path = f"{ROOT / 'target'}{os.pathsep}{os.environ['PATH']}"
    done = subprocess.run(['bash', '-c', command], cwd=folder, env={**os.environ, 'PATH': path, 'LC_ALL': 'C.UTF-8'},
                          stdin=subprocess.DEVNULL, capture_output=True, timeout=60)
    lines = (done.stderr + done.stdout).decode('utf-8', 'backslashreplace').splitlines()
    return lines + ([f'[{done.returncode}]'] if done.returncode else [])


def commands(lines):
    """The lines of a session, as pairs of a command and the lines behind it."""
    made = []
    for line in lines:
        if line.startswith('$ '):
            made.append((line[2:], []))
        elif made:
            made[-1][1].append(line)
    return made


def parts(path):
    """The file cut into what is a session and what is not: pairs of a truth and lines."""
    lines = path.read_text(encoding='utf-8').split('\n')
    if path in SESSIONS:
        head = next((k for k, line in enumerate(lines) if line.startswith('$ ')), len(lines))
        return [(False, lines[:head]), (True, lines[head:-1]), (False, lines[-1:])]
    made, inside = [(False, [])], False
    for line in lines:
        if inside and line == END:
            inside = False
            made.append((False, []))
        made[-1][1].append(line)
        if line == BEGIN:
            inside = True
            made.append((True, []))
    return made


def folder_with_examples():
    folder = tempfile.TemporaryDirectory()
    os.symlink(ROOT / 'examples', Path(folder.name) / 'examples')
    return folder


def run():
    for path in SESSIONS + DOCUMENTS:
        with folder_with_examples() as folder:
            for is_session, lines in parts(path):
                for command, wanted in commands(lines) if is_session else []:
                    check(f'{path.relative_to(ROOT)}, $ {command}', printed(command, folder), wanted)


def write():
    for path in SESSIONS + DOCUMENTS:
        made = []
        with folder_with_examples() as folder:
            for is_session, lines in parts(path):
                if not is_session:
                    made += lines
                for command, _ in commands(lines) if is_session else []:
                    made += [f'$ {command}', *printed(command, folder)]
        path.write_text('\n'.join(made), encoding='utf-8')
