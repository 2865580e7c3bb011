"""Writes the input of the program handles_test, crates/handles_test/stdin, and the text that it must print, stdout beside.

    python3 tests/make_handles_cases.py            write both files
    python3 tests/make_handles_cases.py --check    only compare them with what would be written; exit 1 on a difference

The text on the handle of `main` is put together while the input is, by what the head of cases_io says of both; that on
the other handles was found by hand, and stands below.
"""
import random

from maps import u16, u32
from stored import ROOT, keep

FOLDER = ROOT / 'crates' / 'handles_test'


def call(image, changes, number):
    """What prints these changes of an image and the image behind them, with the call's number; and the image itself."""
    image, text = bytearray(image), b''
    for at, value in changes:
        text += b'  byte %d becomes %d\n' % (at, value)
        if at < len(image):
            image[at] = value
    return text + b'image %d:' % number + b''.join(b' %d' % byte for byte in image) + b'\n', bytes(image)


def spelled(changes):
    return b''.join(u32(at) + bytes([value]) for at, value in changes)


def a_map(label, image, calls):
    """A map and its calls, numbered from 1, and what they print."""
    stream = bytes([len(label)]) + u16(len(calls)) + u32(len(image)) + label + image
    text = label + b'\n'
    for k, changes in enumerate(calls):
        number = (k + 1) % 256
        lines, image = call(image, changes, number)
        stream, text = stream + bytes([len(changes), number]) + spelled(changes), text + lines
    return stream, text


def random_map(rng):
    label = bytes(rng.choices(b'abcdefgh ', k=rng.choice([0, 1, 7, 30, 255])))
    image = rng.randbytes(rng.choice([0, 1, 2, 9, 40]))
    ends = [0, len(image), len(image) + 1, 2 ** 32 - 1]
    calls = [[(rng.choice([*ends, *range(len(image))]), rng.randrange(256)) for _ in range(rng.choice([0, 1, 2, 5]))]
             for _ in range(rng.choice([1, 1, 2, 4]))]
    return a_map(label, image, calls)


# What the program prints on the other handles, by their own bytes
OTHERS = b'''\
[2 bytes][]
[cut off]
[  byte 0 becomes 0]
[image 0:][ 0][ 7][]
[1 bytes][]
[  byte 50332161 becomes 0]
[image 2:][ 1][ 2][ 0][]
answer told: true
told after 0: true
told after 1: true
told after 2: true
told after 3: false
change told: true
'''


def parts():
    """What comes before the maps: a label, an image, and two changes; an image that is too long; the other handles."""
    image, changes = b'\1\2\3\4', [(3, 200), (4, 0)]
    text = b'first\n' + call(image, changes, 0)[0] + b'cut off\nread: false\nl\n'
    return b'first' + image + spelled(changes) + b'\5\6l', text + OTHERS


def maps():
    rng = random.Random(1)
    made = [
        a_map(b'', b'', [[]]),
        a_map(b'l' * 255, b'\5\6\7', [[(0, 9), (2, 255)], [(3, 1), (2 ** 32 - 1, 2)], []]),
        a_map(b'many changes', bytes(300), [[(k, k) for k in range(255)], [(299, 1)]]),
        a_map(b'many calls', b'\1', [[]] * 300),
    ]
    made += [random_map(rng) for _ in range(40)]
    made.append(a_map(b'no calls', b'\1\2\3', []))
    return made


def main():
    made = maps()
    both = [parts(), *made]
    # the last map, which has no calls, ends the input: what comes behind it is not read
    stream = b''.join(part for part, _ in both) + a_map(b'behind', b'\1', [[]])[0]
    text = b''.join(lines for _, lines in both)
    keep(f'{len(made)} maps', [(FOLDER / 'stdin', stream), (FOLDER / 'stdout', text)])


if __name__ == '__main__':
    main()
