"""Files and streams that fail: what `yard` writes to both streams, with which status it ends, and what is left of the
files.

    run()    files that cannot be read or written, files that are too long, streams that are closed, full or read by
             nobody, and disks that are full

Whatever happens, a file is either as it was or whole, and no other file stands beside it.
"""
import contextlib
import json
import os
import resource
import shutil
import signal
import stat
import subprocess
import tempfile
import threading
import time
from pathlib import Path

from harness import FAILED, GOOD, REFUSED, YARD, check, counts, yard

from answers.made import normal
from make_coils_examples import largest, record
from make_search_cases import M7

TEXT = normal(M7).encode()
CSV, COILS = b'coil,length,station\n7,8120,0\n8,8120,7\n', record(7, 8120, 0) + record(8, 8120, 7)
OLD = b'what stood here before\n'
M7_IS_GOOD = 'good: 7 stations, 2 pages, 8 moves; page 0 is the fullest, with 38 of 256 bytes\n'
MOST_TEXT_BYTES = 16777216

# Who may not do everything, as the one who runs the tests may.
NOBODY = 65534


class Place:
    """A folder with good files of every kind."""

    def __init__(self, folder):
        self.folder = folder
        os.chmod(folder, 0o755)
        files = (('m7.map', M7), ('m7.txt', TEXT), ('coils.csv', CSV), ('coils', COILS))
        self.map, self.text, self.csv, self.coils = (self.put(name, data) for name, data in files)

    def put(self, name, data):
        path = self.folder / name
        path.write_bytes(data)
        return path

    def empty(self, name):
        """A new folder in it."""
        path = self.folder / name
        path.mkdir()
        return path


def reading_map(path):
    """A call of each command that reads a map."""
    return [('check', path), ('check', '--json', path), ('show', path), ('route', path, 0, 6), ('times', path, 0),
            ('times', path, 0, '--json'), ('lists', path, 0, '--frames', 2), ('order', path), ('dot', path),
            ('dot', path, '--from', 0)]


def reading_text(path):
    return [('make', path, '-o', '-'), ('records', 'make', path)]


def reading(path):
    """A call of each command that reads a file."""
    return [*reading_map(path), *reading_text(path), ('records', 'show', path)]


def writing(place):
    """A call of each command, on good files: each prints something."""
    return [('--help',), ('--version',), ('help', 'check'), ('check', '--help'), *reading_map(place.map),
            ('route', place.map, 6, 0), ('route', place.map, 0, 7), ('times', place.map, 7), ('check', place.text),
            ('make', place.text, '-o', '-'), ('records', 'make', place.csv), ('records', 'make', place.csv, '-o', '-'),
            ('records', 'show', place.coils)]


def label_of(words):
    return 'yard ' + ' '.join(Path(word).name if isinstance(word, Path) else str(word) for word in words)


def failed(what):
    """What a failure has to give: nothing but a line on standard error."""
    return FAILED, b'', f'yard: {what}\n'.encode()


def check_unreadable(what, words, message, **options):
    """A call that cannot read its file. A list in JSON is whole even then."""
    status, _, err = failed(message)
    out = b'[]\n' if words[1] == '--json' else b''
    check(f'{what}, {label_of(words)}', yard(*words, **options), (status, out, err))


def bytes_of(path):
    """What stands in a file; None if there is no such file."""
    return path.read_bytes() if path.is_file() else None


def contents(folder):
    """All below a folder: rights, and the bytes or where a link leads."""
    made = {}
    for path in sorted(folder.rglob('*')):
        mode = path.lstat().st_mode
        content = path.read_bytes() if stat.S_ISREG(mode) else os.readlink(path) if stat.S_ISLNK(mode) else None
        made[str(path.relative_to(folder))] = oct(mode), content
    return made


# Files that are read

def run_unreadable(place):
    """Files that cannot be opened or read."""
    folder = place.empty('a folder')
    loop = place.folder / 'loop'
    loop.symlink_to('loop')
    odd = os.fsdecode(b'not \xff\xfe UTF-8')
    rows = [('missing', place.folder / 'missing', 'No such file or directory'),
            ('a missing folder', place.folder / 'missing' / 'm7.map', 'No such file or directory'),
            ('a folder', folder, 'Is a directory'), ('below a file', place.map / 'm7.map', 'Not a directory'),
            ('a loop of links', loop, 'Too many levels of symbolic links'),
            ('no name', '', 'No such file or directory'),
            ('a name that is too long', 'x' * 256, 'File name too long'),
            ('a name that is not UTF-8', odd, 'No such file or directory')]
    for what, path, message in rows:
        shown = str(path).replace('\udcff\udcfe', '\ufffd\ufffd')
        for words in reading(path):
            check_unreadable(what, words, f'{shown}: {message}', cwd=place.folder)


def run_unreadable_among_others(place):
    """The other files of a call are answered all the same."""
    missing, bad = place.folder / 'missing', place.put('bad', b'\1')
    err = f'yard: {missing}: No such file or directory\n'
    refused = f'{bad}: refused 1: the file has less than 4 bytes\n  1 byte here\n'
    good = f'{place.map}: {M7_IS_GOOD}'
    for words in ((missing, bad, place.map), (bad, missing, place.map), (place.map, bad, missing)):
        out = ''.join({missing: '', bad: refused, place.map: good}[path] for path in words)
        check(f'check {label_of(words)}', yard('check', *words), (FAILED, out.encode(), err.encode()))
        said = ''.join({missing: err, bad: f'yard: {refused}', place.map: ''}[path] for path in words)
        check(f'order {label_of(words)}', yard('order', *words), (FAILED, f'{place.map}\n'.encode(), said.encode()))


def names_in(data):
    """The names of the maps in JSON; None if it is none."""
    try:
        return [row['map'] for row in json.loads(data)]
    except ValueError:
        return None


def run_odd_names(place):
    """Names are shown so that a line stays a line and a terminal gets no command, and JSON has them as they are."""
    odd = 'two\nlines \x1b[31m'
    place.put(odd, M7)
    for words in (('check', odd), ('order', odd), ('check', f'{odd} missing'), ('times', odd, 7),
                  ('make', odd, '-o', '-'), ('records', 'show', odd)):
        found = yard(*words, cwd=place.folder)
        with_name = found.err or found.out
        front = with_name.split(b'lines')[0]
        check(f'{label_of(words)!r}: the name on one line', (b'two' in front, b'\n' in front, b'\x1b' in with_name),
              (True, False, False))
    found = yard('check', '--json', odd, cwd=place.folder)
    check('check --json of an odd name', (found.status, names_in(found.out)), (GOOD, [odd]))
    place.put(os.fsdecode(b'\xff.map'), M7)
    for words in (('check', os.fsdecode(b'\xff.map')), ('order', os.fsdecode(b'\xff.map'))):
        found = yard(*words, cwd=place.folder)
        check(f'{words[0]} of a name that is not UTF-8', (found.status, found.out.startswith('\ufffd.map'.encode())),
              (GOOD, True))
    # letters of every kind are no commands: composed and decomposed accents, other scripts, quotes
    for letters in ('\u00e9t\u00e9', 'e\u0301te\u0301', '\u65e5\u672c', "it's \"a\" \\ map"):
        place.put(letters, M7)
        check(f'check of a name {letters}', yard('check', letters, cwd=place.folder),
              (GOOD, f'{letters}: {M7_IS_GOOD}'.encode(), b''))
        check(f'order of a name {letters}', yard('order', letters, cwd=place.folder),
              (GOOD, f'{letters}\n'.encode(), b''))
    place.put('-', M7)
    check('a file named -', yard('check', './-', cwd=place.folder), (GOOD, f'./-: {M7_IS_GOOD}'.encode(), b''))
    place.put('--json', M7)
    check('a file named --json', yard('check', '--', '--json', cwd=place.folder),
          (GOOD, f'--json: {M7_IS_GOOD}'.encode(), b''))


def run_not_allowed(place):
    """Files that may not be read or written."""
    options = as_nobody(place)
    if options is None:
        print('broken: no other user can be taken on, and so all files may be read and written')
        return
    secret, closed = place.put('secret', M7), place.empty('closed')
    secret.chmod(0)
    (closed / 'm7.map').write_bytes(M7)
    closed.chmod(0)
    for path in (secret, closed / 'm7.map'):
        for words in reading(path):
            check_unreadable('not to be read', words, f'{path}: Permission denied', **options)
    secret.chmod(0o644)
    for words in reading(secret):
        check(f'to be read, {label_of(words)}', yard(*words, **options)[:2] == failed('')[:2], False)
    closed.chmod(0o755)
    run_not_writable(place, options)


def run_not_writable(place, options):
    open_folder, closed = place.empty('open'), place.empty('not to be written')
    open_folder.chmod(0o777)
    for folder in (open_folder, closed):
        (folder / 'read-only').write_bytes(OLD)
        (folder / 'read-only').chmod(0o444)
    (closed / 'writable').write_bytes(OLD)
    (closed / 'writable').chmod(0o666)
    closed.chmod(0o555)
    before = contents(place.folder)
    for path in (open_folder / 'read-only', closed / 'read-only', closed / 'writable', closed / 'new'):
        for words in saving(place, path):
            check(f'not to be written, {label_of(words)}', yard(*words, **options),
                  failed(f'{path}: Permission denied'))
    check('not to be written: all as it was', contents(place.folder), before)
    closed.chmod(0o755)
    for words, data in zip(saving(place, open_folder / 'new'), (M7, COILS)):
        check(f'to be written, {label_of(words)}', yard(*words, **options), (GOOD, b'', b''))
        check(f'to be written, the file of {label_of(words)}', bytes_of(open_folder / 'new'), data)


def as_nobody(place):
    """How to run yard as one who may not do everything; None if that cannot be. One who is not root is such a one."""
    if os.geteuid() != 0:
        return {}
    copy = place.folder / 'yard'
    shutil.copy(YARD, copy)
    copy.chmod(0o755)
    options = {'executable': str(copy), 'user': NOBODY, 'group': NOBODY, 'extra_groups': []}
    try:
        return options if yard('--version', **options).status == GOOD else None
    except OSError:
        return None


def run_empty(place):
    """Files without a byte."""
    path = place.put('nothing', b'')
    refused = f'{path}: refused 1: the file has less than 4 bytes\n  0 bytes here\n'.encode()
    for words in reading_map(path):
        found = yard(*words)
        is_said = words[0] in ('show', 'order', 'dot')
        if '--json' not in words:
            check(f'empty, {label_of(words)}', found,
                  (REFUSED, b'' if is_said else refused, b'yard: ' + refused if is_said else b''))
    check('empty, make', yard('make', path, '-o', '-'),
          (REFUSED, b'', f'yard: {path}, line 1: there is no station in this text\n'.encode()))
    check('empty, records make', yard('records', 'make', path), (GOOD, b'', b''))
    check('empty, records show', yard('records', 'show', path), (GOOD, b'coil,length,station\n', b''))


def within(seconds, label, *words, **options):
    begin = time.monotonic()
    found = yard(*words, **options)
    check(f'{label}: at once', time.monotonic() - begin < seconds, True)
    return found


def run_long(place):
    """Files that are longer than any map or text may be, or have no end."""
    zeros = ('refused 2: the number of stations is 0 or over 2,048\n  0 stations\n'
             '  >     0  00 00                 0 stations\n        2  00 00                 0 pages\n')
    more = ('refused 4: the file is not as long as its numbers of stations and pages say\n'
            '  2048 stations and 240 pages take 63492 bytes, and the file has more than 63492\n'
            '        0  00 08                 2048 stations\n        2  F0 00                 240 pages\n')
    full = largest()
    paths = [(Path('/dev/zero'), zeros), (place.put('a byte more', full + b'\0'), more),
             (place.put('millions more', full + bytes(5000000)), more)]
    for path, refused in paths:
        text = f'{path}: {refused}'.encode()
        for words in reading_map(path):
            if '--json' not in words:
                is_said = words[0] in ('show', 'order', 'dot')
                check(f'too long, {label_of(words)}', within(2, label_of(words), *words),
                      (REFUSED, b'' if is_said else text, b'yard: ' + text if is_said else b''))
        with open(path, 'rb') as stream:
            check(f'too long, standard input, {path.name}', within(2, 'check -', 'check', '-', stdin=stream)[:2],
                  (REFUSED, f'standard input: {refused}'.encode()))
    run_long_texts(place)


def little_memory():
    """A quarter of what the messages about 8 million wrong lines would take."""
    resource.setrlimit(resource.RLIMIT_AS, (2**28, 2**28))


def run_many_mistakes():
    for words in (('make', '-', '-o', '-'), ('records', 'make', '-')):
        found = yard(*words, data=b'x\n' * (MOST_TEXT_BYTES // 2), preexec_fn=little_memory)
        last = found.err.splitlines()[-1:]
        check(f'8 million wrong lines, {label_of(words)}', (found.status, found.out, last),
              (REFUSED, b'', [b'yard: standard input: and 8388588 more mistakes']))


def run_long_texts(place):
    longest = TEXT + b'#' * (MOST_TEXT_BYTES - len(TEXT))
    check('the longest text', within(5, 'the longest text', 'make', '-', '-o', '-', data=longest), (GOOD, M7, b''))
    longest = CSV + b'#' * (MOST_TEXT_BYTES - len(CSV))
    check('the longest list of coils', yard('records', 'make', '-', data=longest), (GOOD, COILS, b''))
    for path in (Path('/dev/zero'), place.put('a long text', b'#' * (MOST_TEXT_BYTES + 1))):
        for words in reading_text(path):
            check(f'too long, {label_of(words)}', within(5, label_of(words), *words),
                  failed(f'{path}: longer than {MOST_TEXT_BYTES} bytes'))
    many = COILS * 100000
    found = yard('records', 'show', '-', data=many)
    check('200,000 records', (found.status, found.out == b'coil,length,station\n' + b'7,8120,0\n8,8120,7\n' * 100000),
          (GOOD, True))


# Standard streams

@contextlib.contextmanager
def opened(path, flags):
    descriptor = os.open(path, flags)
    try:
        yield descriptor
    finally:
        os.close(descriptor)


def run_input(place):
    """Standard input that is closed, cannot be read, or is asked for twice."""
    closed = {'stdin': None, 'preexec_fn': lambda: os.close(0)}
    with opened('/', os.O_RDONLY) as folder, opened('/dev/null', os.O_WRONLY) as only_written:
        for words in reading('-'):
            check_unreadable('a folder as standard input', words, 'standard input: Is a directory', stdin=folder)
            for what, options in (('closed', closed), ('open for writing only', {'stdin': only_written})):
                found = yard(*words, **options)
                check(f'standard input {what}, {label_of(words)}',
                      (found.status, found.err.startswith(b'yard: standard input: '), found.err.count(b'\n')),
                      (FAILED, True, 1))
    check('standard input closed, and not asked for', yard('check', place.map, **closed),
          (GOOD, f'{place.map}: {M7_IS_GOOD}'.encode(), b''))
    for command in ('check', 'order'):
        for words in (('-', '-'), ('-', place.map, '-'), (place.map, '-', '--', '-')):
            check(f'twice, {label_of((command, *words))}', yard(command, *words, data=M7),
                  failed(f"standard input, -, can be read only once; try 'yard {command} --help'"))
    check('in and out', yard('make', '-', '-o', '-', data=TEXT), (GOOD, M7, b''))


def run_output(place):
    """Standard output that is closed, full, not to be written or read by nobody, for every command."""
    closed = {'stdout': None, 'preexec_fn': lambda: os.close(1)}
    before = contents(place.folder)
    for words in writing(place):
        check(f'standard output closed, {label_of(words)}', yard(*words, **closed), failed('standard output: closed'))
        with opened('/dev/full', os.O_WRONLY) as full:
            check(f'standard output full, {label_of(words)}', yard(*words, stdout=full),
                  failed('standard output: No space left on device'))
        with opened('/dev/null', os.O_RDONLY) as only_read:
            found = yard(*words, stdout=only_read)
            check(f'standard output open for reading only, {label_of(words)}',
                  (found.status, found.err.startswith(b'yard: standard output: ')), (FAILED, True))
        reader, writer = os.pipe()
        os.close(reader)
        check(f'standard output read by nobody, {label_of(words)}', yard(*words, stdout=writer), (FAILED, b'', b''))
        os.close(writer)
    check('standard output: all files as they were', contents(place.folder), before)
    run_output_not_asked_for(place)
    run_error(place)


def run_output_not_asked_for(place):
    """Standard output that cannot be written does not matter to those who write to a file."""
    with opened('/dev/full', os.O_WRONLY) as full:
        streams = {'closed': {'stdout': None, 'preexec_fn': lambda: os.close(1)}, 'full': {'stdout': full}}
        for what, options in streams.items():
            path = place.folder / what
            for words, data in zip(saving(place, path), (M7, COILS)):
                check(f'standard output {what}, {label_of(words)}', yard(*words, **options), (GOOD, b'', b''))
                check(f'standard output {what}, the bytes by {words[0]}', bytes_of(path), data)


def run_error(place):
    """Standard error that cannot be written: the status says it all."""
    with opened('/dev/full', os.O_WRONLY) as full:
        streams = {'closed': {'stderr': None, 'preexec_fn': lambda: os.close(2)}, 'full': {'stderr': full}}
        for what, options in streams.items():
            check(f'standard error {what}, missing', yard('check', place.map, 'missing', **options),
                  (FAILED, f'{place.map}: {M7_IS_GOOD}'.encode(), b''))
            check(f'standard error {what}, usage', yard('nothing', **options), (FAILED, b'', b''))
            check(f'standard error {what}, refused', yard('show', place.text, **options), (REFUSED, b'', b''))
    both = {'stdout': None, 'stderr': None, 'preexec_fn': lambda: (os.close(1), os.close(2))}
    check('both closed', yard('check', place.map, **both), (FAILED, b'', b''))


def run_reader_leaves():
    """One who reads a little of what has no end, as `head` does."""
    counts['runs'] += 1
    words = [str(YARD), 'records', 'show', '/dev/zero']
    program = subprocess.Popen(words, stdout=subprocess.PIPE, stderr=subprocess.PIPE)
    front = program.stdout.read(26)
    program.stdout.close()
    err = program.stderr.read()
    program.stderr.close()
    check('a reader that leaves', (front, program.wait(20), err), (b'coil,length,station\n0,0,0\n', FAILED, b''))


def run_as_it_comes():
    """A record is shown when its last byte is there, though the stream stays open."""
    counts['runs'] += 1
    words = [str(YARD), 'records', 'show', '-']
    program = subprocess.Popen(words, stdin=subprocess.PIPE, stdout=subprocess.PIPE, stderr=subprocess.PIPE)
    lines = []
    for part, wanted in ((COILS[:11], 2), (COILS[11:] + COILS[:1], 1)):
        program.stdin.write(part)
        program.stdin.flush()
        lines += [program.stdout.readline() for _ in range(wanted)]
    check('records as they come', lines, [b'coil,length,station\n', b'7,8120,0\n', b'8,8120,7\n'])
    out, err = program.communicate(timeout=20)
    check('records as they come, the end', (program.returncode, out, err),
          (REFUSED, b'', b'yard: standard input: the last record is short: it has 1 byte, not 8\n'))


# Files that are written

def saving(place, path):
    """A call of each command that writes a file."""
    return [('make', place.text, '-o', path), ('records', 'make', place.csv, '-o', path)]


def check_not_saved(place, what, path, message):
    """Nothing is written, and all is as it was."""
    before = contents(place.folder)
    for words in saving(place, path):
        check(f'{what}, {label_of(words)}', yard(*words, cwd=place.folder), failed(f'{path}: {message}'))
    check(f'{what}: all as it was', contents(place.folder), before)


def run_not_saved(place):
    folder = place.empty('output')
    (folder / 'loop').symlink_to('loop')
    (folder / 'file').write_bytes(OLD)
    rows = [('onto a folder', folder, 'Is a directory'), ('onto the folder itself', '.', 'Is a directory'),
            ('onto a folder, with a slash', f'{folder}/', 'Is a directory'),
            ('into no folder', folder / 'missing' / 'x', 'No such file or directory'),
            ('a folder that is not there', f'{folder}/new/', 'Not a directory'),
            ('below a file', folder / 'file' / 'x', 'Not a directory'),
            ('onto a loop of links', folder / 'loop', 'Too many levels of symbolic links'),
            ('onto no name', '', 'No such file or directory'),
            ('above no folder', f'{folder}/missing/..', 'No such file or directory'),
            ('a name that is too long', folder / ('x' * 256), 'File name too long')]
    for what, path, message in rows:
        check_not_saved(place, what, path, message)


def check_saved(place, what, path, data_is_at=None):
    """Both commands write the file whole."""
    for words, data in zip(saving(place, path), (M7, COILS)):
        check(f'{what}, {words[0]}', yard(*words), (GOOD, b'', b''))
        check(f'{what}, the bytes by {words[0]}', bytes_of(data_is_at or path), data)


def run_saved(place):
    """New files and files that are replaced, as wholes and with the rights that they had."""
    folder = place.empty('saved')
    check_saved(place, 'a new file', folder / 'new')
    check_saved(place, 'a name of 255 bytes', folder / ('x' * 255))
    check_saved(place, 'a name that is not UTF-8', folder / os.fsdecode(b'\xff'))
    words = ('make', place.text, '-o', folder / 'with a mask')
    check('a mask', yard(*words, preexec_fn=lambda: os.umask(0o027)), (GOOD, b'', b''))
    check('a mask, rights', oct((folder / 'with a mask').stat().st_mode & 0o7777), oct(0o640))
    for mode in (0o600, 0o644, 0o664, 0o755):
        path, other = folder / 'old', folder / 'hard link'
        path.write_bytes(OLD)
        path.chmod(mode)
        os.link(path, other)
        inode = path.stat().st_ino
        check_saved(place, f'onto a file of rights {mode:o}', path)
        found = path.stat()
        check(f'onto a file of rights {mode:o}: rights, another file, and the old one as it was',
              (oct(found.st_mode & 0o7777), found.st_ino != inode, other.read_bytes()), (oct(mode), True, OLD))
        other.unlink()
    if os.geteuid() == 0:
        # else its owner could no longer read it
        (folder / 'old').chmod(0o600)
        os.chown(folder / 'old', NOBODY, NOBODY)
        check_saved(place, "onto another's file", folder / 'old')
        found = (folder / 'old').stat()
        check("onto another's file: whose it is", (found.st_uid, found.st_gid, oct(found.st_mode & 0o7777)),
              (NOBODY, NOBODY, oct(0o600)))
    check('saved: no other file', sorted(os.listdir(folder)),
          sorted(['new', 'old', 'with a mask', 'x' * 255, os.fsdecode(b'\xff')]))


def run_saved_by_link(place):
    """A link stays, and what it leads to is replaced, or made if there is nothing."""
    folder, other = place.empty('links'), place.empty('behind the links')
    (other / 'target').write_bytes(OLD)
    (other / 'target').chmod(0o640)
    (folder / 'link').symlink_to('../behind the links/target')
    (folder / 'link to a link').symlink_to('link')
    (folder / 'dangling').symlink_to('../behind the links/new')
    links = {path.name: os.readlink(path) for path in folder.iterdir()}
    check_saved(place, 'onto a link', folder / 'link', other / 'target')
    check_saved(place, 'onto a link to a link', folder / 'link to a link', other / 'target')
    check('onto a link, rights', oct((other / 'target').stat().st_mode & 0o7777), oct(0o640))
    words, _ = saving(place, folder / 'dangling')
    check('onto a link to nothing', yard(*words), (GOOD, b'', b''))
    check('onto a link to nothing, its target', bytes_of(other / 'new'), M7)
    check('links stay', {path.name: path.is_symlink() and os.readlink(path) for path in folder.iterdir()}, links)
    check('links: no other file', sorted(os.listdir(other)), ['new', 'target'])


def run_saved_to_stream(place):
    """Pipes are written to, and stay. The link is as /dev/stdout is, which a wrong tool could replace if it may."""
    link = place.folder / 'stdout'
    link.symlink_to('/proc/self/fd/1')
    for path in (link, '-'):
        for words, data in zip(saving(place, path), (M7, COILS)):
            check(label_of(words), yard(*words), (GOOD, data, b''))
            (place.folder / 'file').write_bytes(OLD)
            with open(place.folder / 'file', 'wb') as file:
                check(f'{label_of(words)}, a file', yard(*words, stdout=file), (GOOD, b'', b''))
            check(f'{label_of(words)}, the bytes of the file', bytes_of(place.folder / 'file'), data)
    check('the link to standard output stays', link.is_symlink() and os.readlink(link), '/proc/self/fd/1')
    pipe, got = place.folder / 'pipe', []
    os.mkfifo(pipe)
    reader = threading.Thread(target=lambda: got.append(pipe.read_bytes()), daemon=True)
    reader.start()
    check('onto a named pipe', yard('make', place.text, '-o', pipe), (GOOD, b'', b''))
    reader.join(20)
    check('onto a named pipe: the bytes, and the pipe stays', (got, pipe.is_fifo()), ([M7], True))


def run_saved_to_device(place):
    """Devices are written to. All this is done as one who may not replace them, should the tool be wrong."""
    options = as_nobody(place)
    if options is None:
        print('broken: no other user can be taken on, and so no device was written to')
        return
    for words in saving(place, '/dev/null'):
        check(label_of(words), yard(*words, **options), (GOOD, b'', b''))
    for words in saving(place, '/dev/full'):
        check(label_of(words), yard(*words, **options), failed('/dev/full: No space left on device'))
    folder = place.empty('open to all')
    folder.chmod(0o777)
    for words, data in zip(saving(place, '/dev/stdout'), (M7, COILS)):
        (folder / 'file').write_bytes(OLD)
        (folder / 'file').chmod(0o666)
        with open(folder / 'file', 'wb') as file:
            check(label_of(words), yard(*words, stdout=file, **options), (GOOD, b'', b''))
        check(f'{label_of(words)}, the bytes of the file', bytes_of(folder / 'file'), data)


def run_mistakes_keep_the_file(place):
    """A text with a mistake, or one that cannot be read, leaves the file that is there."""
    folder = place.empty('kept')
    path = folder / 'old'
    path.write_bytes(OLD)
    before = contents(folder), path.stat()
    wrong, missing = place.put('wrong', b'staton 0\n'), place.folder / 'missing'
    check('a mistake, make', yard('make', wrong, '-o', path)[:2], (REFUSED, b''))
    check('a mistake, records make', yard('records', 'make', wrong, '-o', path)[:2], (REFUSED, b''))
    for words in (('make', missing, '-o', path), ('records', 'make', missing, '-o', path)):
        check_unreadable('a missing text', words, f'{missing}: No such file or directory')
    check('usage, make', yard('make', place.text, '-o', path, 'more').status, FAILED)
    after = contents(folder), path.stat()
    check('a mistake keeps the file', (after[0], after[1].st_ino, after[1].st_mtime_ns),
          (before[0], before[1].st_ino, before[1].st_mtime_ns))


# Full disks

def small_files():
    """Files end behind their hundredth byte, and who writes on is told so instead of being killed."""
    signal.signal(signal.SIGXFSZ, signal.SIG_IGN)
    resource.setrlimit(resource.RLIMIT_FSIZE, (100, 100))


def check_full(what, place, folder, message, **options):
    """Neither an old nor a new file is changed, and no other is left."""
    many = place.put('many coils', b'7,8120,0\n' * 3000)
    (folder / 'old').write_bytes(OLD)
    before = contents(folder), (folder / 'old').stat().st_mtime_ns
    for path in (folder / 'old', folder / 'new'):
        for words in (('make', place.put('largest.txt', normal(largest()).encode()), '-o', path),
                      ('records', 'make', many, '-o', path)):
            check(f'{what}, {label_of(words)}', yard(*words, **options), failed(f'{path}: {message}'))
    check(f'{what}: all as it was', (contents(folder), (folder / 'old').stat().st_mtime_ns), before)


def run_full(place):
    check_full('files of a hundred bytes', place, place.empty('small'), 'File too large', preexec_fn=small_files)
    words = ('records', 'make', place.csv, '-o', place.folder / 'small' / 'old')
    check('files of a hundred bytes, two records', yard(*words, preexec_fn=small_files), (GOOD, b'', b''))
    check('files of a hundred bytes, the bytes', bytes_of(place.folder / 'small' / 'old'), COILS)
    disk = place.empty('disk')
    mounted = shutil.which('mount') and subprocess.run(
        ['mount', '-t', 'tmpfs', '-o', 'size=16k', 'yard-test', str(disk)], capture_output=True).returncode == 0
    if not mounted:
        print('broken: no disk can be mounted, and so none was full')
        return
    try:
        check_full('a full disk', place, disk, 'No space left on device')
    finally:
        subprocess.run(['umount', str(disk)], check=True)


def run_inputs_stay(place):
    """No command changes what it reads."""
    paths = (place.map, place.text, place.csv, place.coils)
    before = [(path.read_bytes(), path.stat()) for path in paths]
    for words in (*writing(place), *reading(place.map), *reading(place.text), *reading(place.coils)):
        yard(*words)
    for path, (data, old) in zip(paths, before):
        new = path.stat()
        check(f'{path.name} stays', (path.read_bytes(), new.st_mtime_ns, new.st_ino, new.st_mode),
              (data, old.st_mtime_ns, old.st_ino, old.st_mode))


def run():
    parts = (run_unreadable, run_unreadable_among_others, run_odd_names, run_not_allowed, run_empty, run_long,
             run_input, run_output, run_not_saved, run_saved, run_saved_by_link, run_saved_to_stream,
             run_saved_to_device, run_mistakes_keep_the_file, run_full, run_inputs_stay)
    for part in parts:
        with tempfile.TemporaryDirectory() as name:
            part(Place(Path(name)))
    run_reader_leaves()
    run_as_it_comes()
    run_many_mistakes()
