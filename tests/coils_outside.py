"""Runs the two builds of the program coils from outside on maps, inputs and streams of every kind, and compares all
that they write, on standard error too, and their statuses.

    python3 tests/coils_outside.py    exit 1 on a difference

target/coils is built by LLVM, target/by-rattle/coils by the compiler that is written in Rattle. The expected output comes
from coils.py; where document 01 fixes a line, the case states it by hand too.
"""
import contextlib
import os
import pty
import random
import select
import subprocess
import sys
import tempfile
import time
import tty
from pathlib import Path

from coils import LONGEST, printed
from limits import random_limits, strips_about
from make_coils_examples import largest, plate_yard, record
from make_search_cases import (M7, M7_LIMITED, WORKED_THROUGH, damaged, drawn, page_begins, random_change,
                               random_map)

TARGET = Path(__file__).resolve().parent.parent / 'target'
BUILDS = TARGET / 'coils', TARGET / 'by-rattle' / 'coils'
# The status of a run in which a read or a write failed.
FAILED = 1
FROM_0, FROM_7 = record(7, 8120, 0), record(8, 8120, 7)
LINE_0, LINE_7 = b'coil 7 length 8120 from 0 pages 3 reached 7\n', b'coil 8 refused 6\n'


@contextlib.contextmanager
def yard(file):
    """A folder with the map; None: with none."""
    with tempfile.TemporaryDirectory() as folder:
        if file is not None:
            (Path(folder) / 'yard.map').write_bytes(file)
        yield folder


def started(build, folder, **streams):
    piped = dict.fromkeys(('stdin', 'stdout', 'stderr'), subprocess.PIPE)
    return subprocess.Popen([str(build)], cwd=folder, **{**piped, **streams})


def compare(label, found, wanted):
    if found == wanted:
        return True
    print(f'{label}: {str(found)[-200:]}, not {str(wanted)[-200:]}')
    return False


def ends(label, program, data, out, err=b'', status=0):
    """What the program writes from here on, once it has got the data and the end of its input, and its status."""
    found = program.communicate(data, timeout=60)
    return compare(f'{label}, {program.args[0]}', (found[0] or b'', found[1], program.returncode), (out, err, status))


def row(label, file, data, wanted=None):
    return label, file, data, printed(file, data) if wanted is None else wanted


def cases():
    rng = random.Random(8)
    both = FROM_0 + FROM_7
    full = largest()
    assert len(full) == LONGEST
    bad = damaged(M7, (page_begins(M7, 1), 7))
    limited = drawn([0, 1], '0-1/1/100')
    # 2 and 3 have time 5, 2 by two moves and 3 by one
    tied = drawn([0, 0, 1, 2], '0-1/2 1-2/3 0-3/5')
    made = [
        row('document 01', M7, both, LINE_0 + LINE_7),
        row('no map', None, both, b'coil 7 refused 1\ncoil 8 refused 1\n'),
        row('an empty map', b'', FROM_0, b'coil 7 refused 1\n'),
        row('an empty input', M7, b'', b''),
        row('no map and an empty input', None, b'', b''),
        row('a map of 70,000 bytes', full + bytes(70000 - LONGEST), FROM_0, b'coil 7 refused 4\n'),
        row('a map of 63,493 bytes', full + b'\0', FROM_0, b'coil 7 refused 4\n'),
        row('a map of 63,492 bytes', full, FROM_0, b'coil 7 length 8120 from 0 pages 2048 reached 2048\n'),
        row('the longest line', full, record(4294967295, 65535, 2047),
            b'coil 4294967295 length 65535 from 2047 pages 2048 reached 2048\n'),
        row('M7, page 1 bad', bad, FROM_0 + record(9, 1, 6), b'coil 7 refused 8\ncoil 9 refused 8\n'),
        row('lengths about two limits', M7_LIMITED,
            b''.join(record(*one) for one in [(1, 8119, 0), (2, 8120, 0), (3, 8121, 0), (4, 0, 4), (5, 65535, 4)]),
            b'coil 1 length 8119 from 0 pages 3 reached 7\ncoil 2 length 8120 from 0 pages 2 reached 7\n'
            b'coil 3 length 8121 from 0 pages 2 reached 6\ncoil 4 length 0 from 4 pages 2 reached 5\n'
            b'coil 5 length 65535 from 4 pages 1 reached 3\n'),
        row('a bad page behind a limit', damaged(limited, (page_begins(limited, 1), 7)),
            record(1, 100, 0) + record(2, 101, 0), b'coil 1 refused 8\ncoil 2 length 101 from 0 pages 1 reached 1\n'),
        row('a limit of 0', drawn([0, 1], '0-1/1/0'), record(1, 0, 0) + record(2, 1, 1),
            b'coil 1 refused 18\ncoil 2 length 1 from 1 pages 1 reached 1\n'),
        row('fewer moves at the same time: a page fetched again', WORKED_THROUGH, FROM_0,
            b'coil 7 length 8120 from 0 pages 3 reached 7\n'),
        row('fewer moves at the same time: another bad page',
            damaged(tied, (page_begins(tied, 1), 7), (page_begins(tied, 2), 0)), FROM_0, b'coil 7 refused 10\n'),
        row('M7 less its last byte', M7[:-1], both, b'coil 7 refused 4\ncoil 8 refused 4\n'),
        row('M7, station 3 on no page', damaged(M7, (7, 2)), FROM_0, b'coil 7 refused 5\n'),
        row('2,000 records', M7, b''.join(record(k * 1000003 % 2**32, k, k % 9) for k in range(2000))),
        row('records of random bytes', plate_yard(), rng.randbytes(803)),
    ]
    for size in range(1, 8):
        made.append(row(f'{size} bytes', M7, FROM_0[:size], b'short\n'))
        made.append(row(f'a record and {size} bytes', M7, FROM_7 + FROM_0[:size], LINE_7 + b'short\n'))
    for size in (3, 4, 300, LONGEST, 65000):
        made.append(row(f'a map of {size} random bytes', rng.randbytes(size), both))
    return made + [damaged_map(rng, number) for number in range(200)]


def damaged_map(rng, number):
    """A random map, every other one with limits, with up to three bytes changed, and a record from each station and
    from one that it lacks."""
    limits = random_limits(rng) if number % 2 else ()
    data, _ = random_map(rng, limits)
    changes = dict(random_change(rng, data) for _ in range(rng.randint(0, 3)))
    stations = int.from_bytes(data[:2], 'little') + 1
    strips = strips_about(limits) + [rng.randrange(2**16)]
    records = [record(rng.randrange(2**32), rng.choice(strips), station) for station in range(stations)]
    return row(f'random map {number}', damaged(data, *changes.items()), b''.join(records))


def run(build, label, file, data, wanted):
    with yard(file) as folder:
        program = started(build, folder)
        if file is None:
            return ends(label, program, data, wanted, b'yard.map: No such file or directory\n', FAILED)
        return ends(label, program, data, wanted)


def seen(program, seconds):
    """What the program has written within the time; nothing if it waits."""
    ready, _, _ = select.select([program.stdout], [], [], seconds)
    return os.read(program.stdout.fileno(), 4096) if ready else b''


def run_slowly(build):
    """Records byte by byte: each line is there before the next record begins, whole in one piece, and not before its
    record's last byte. Then five bytes, and the end."""
    good = True
    with yard(M7) as folder:
        program = started(build, folder)
        for one, wanted in ((FROM_0, LINE_0), (FROM_7, LINE_7), (FROM_0, LINE_0)):
            for k, byte in enumerate(one):
                time.sleep(0.02)
                program.stdin.write(bytes([byte]))
                program.stdin.flush()
                if k == 6:
                    good &= compare('slowly, before the last byte', seen(program, 0.2), b'')
            good &= compare('slowly, after the last byte', seen(program, 20), wanted)
        return ends('slowly, at the end', program, FROM_0[:5], b'short\n') and good


def opened_by_reader(path, seconds):
    """The pipe, open for writing once the program reads it; None if it doesn't within the time."""
    end = time.monotonic() + seconds
    while time.monotonic() < end:
        try:
            return os.open(path, os.O_WRONLY | os.O_NONBLOCK)
        except OSError:  # nobody reads it yet
            time.sleep(0.01)
    return None


def run_pipe(build):
    """A map that arrives in pieces is read to its end."""
    with yard(None) as folder:
        path = Path(folder) / 'yard.map'
        os.mkfifo(path)
        program = started(build, folder)
        pipe = opened_by_reader(path, 20)
        if pipe is not None:
            for at in range(0, len(M7), 100):
                os.write(pipe, M7[at:at + 100])
                time.sleep(0.02)
            os.close(pipe)
        return ends('a map in pieces', program, FROM_0, LINE_0)


def run_folder(build):
    """A folder in the map's place opens and can't be read: it is empty too."""
    with yard(None) as folder:
        (Path(folder) / 'yard.map').mkdir()
        return ends('a folder for a map', started(build, folder), FROM_0, b'coil 7 refused 1\n',
                    b'yard.map: Is a directory\n', FAILED)


def run_streams(build):
    """Streams that fail from the start on: a line on standard error, and no line of a record."""
    full, place = os.open('/dev/full', os.O_WRONLY), os.open('/', os.O_RDONLY)
    rows = [('a full disk', {'stdout': full}, b'standard output: No space left on device\n'),
            ('a closed output', {'preexec_fn': lambda: os.close(1)}, b'standard output: Bad file descriptor\n'),
            ('a closed input', {'preexec_fn': lambda: os.close(0)}, b'standard input: Bad file descriptor\n'),
            ('a folder for the input', {'stdin': place}, b'standard input: Is a directory\n')]
    with yard(M7) as folder:
        results = [ends(label, started(build, folder, **streams), None if 'stdin' in streams else FROM_0, b'', err,
                        FAILED) for label, streams, err in rows]
    os.close(full)
    os.close(place)
    return results


def run_reader_gone(build):
    """A pipe that nobody reads: a write that fails, and not a signal that ends the program."""
    reading, writing = os.pipe()
    os.close(reading)
    with yard(M7) as folder:
        program = started(build, folder, stdout=writing)
        os.close(writing)
        return ends('a reader gone', program, FROM_0, b'', b'standard output: Broken pipe\n', FAILED)


def run_broken_off(build):
    """An input that fails after eleven bytes, as a terminal's other side does: the record is answered before, and the
    three bytes are left over."""
    ours, theirs = pty.openpty()
    tty.setraw(theirs)
    with yard(M7) as folder:
        program = started(build, folder, stdin=ours)
        os.close(ours)
        os.write(theirs, FROM_0 + FROM_7[:3])
        good = compare('broken off, the record', seen(program, 20), LINE_0)
        os.close(theirs)
        return ends('broken off', program, None, b'short\n', b'standard input: Input/output error\n',
                    FAILED) and good


def run_input_not_ready(build):
    """An input that doesn't block, from a slow writer."""
    reading, writing = os.pipe()
    os.set_blocking(reading, False)
    with yard(M7) as folder:
        program = started(build, folder, stdin=reading)
        os.close(reading)
        with contextlib.suppress(BrokenPipeError):  # a program that gave up shows by what it wrote
            for part in (FROM_0[:3], FROM_0[3:], FROM_7, FROM_0[:1]):
                time.sleep(0.1)
                os.write(writing, part)
        os.close(writing)
        return ends('an input that is not ready', program, None, LINE_0 + LINE_7 + b'short\n')


def run_output_not_ready(build):
    """An output that doesn't block and has room for less than all lines, to a slow reader."""
    count = 5000
    reading, writing = os.pipe()
    os.set_blocking(writing, False)
    with yard(M7) as folder:
        (Path(folder) / 'records').write_bytes(FROM_0 * count)
        with open(Path(folder) / 'records', 'rb') as records:
            program = started(build, folder, stdin=records, stdout=writing)
        os.close(writing)
        time.sleep(0.3)
        with open(reading, 'rb') as lines:
            good = compare('an output that is not ready', lines.read(), LINE_0 * count)
        return ends('an output that is not ready', program, None, b'') and good


def main():
    alone = (run_slowly, run_pipe, run_folder, run_reader_gone, run_broken_off, run_input_not_ready,
             run_output_not_ready)
    made = cases()
    results = []
    for build in BUILDS:
        results += [run(build, *case) for case in made] + [one(build) for one in alone] + run_streams(build)
    print(f'{len(results)} runs of coils, {results.count(False)} with a difference')
    sys.exit(1 if False in results else 0)


if __name__ == '__main__':
    main()
