"""What the tests of answers share: a folder for maps, the program's answers as text and as JSON, and maps, by hand and
by chance, good and bad."""
import json
import re
from collections import namedtuple
from pathlib import Path

from harness import check, yard

from limits import random_limits
from make_coils_examples import largest, plate_yard
from make_search_cases import C6, C8, M7, M7_LIMITED, S, damaged, faults, handover_map, random_change, random_map
from maps import image, move, page, station
from reader import PAGE

LONGEST = 63492

# A map and the file that it stands in; and a search of it, of a strip of some length or, if that is None, of none.
Stored = namedtuple('Stored', 'label path image')
Asked = namedtuple('Asked', 'map source strip')


class Folder:
    """A folder that maps are put in, each under a name of its own."""

    def __init__(self, name):
        self.path, self.count = Path(name), 0

    def put(self, label, data):
        self.count += 1
        path = self.path / f'{self.count}.map'
        path.write_bytes(data)
        return Stored(label, path, data)


def as_text(label, *words):
    """The status and the text that is printed. Nothing is said on standard error."""
    done = yard(*words)
    check(f'{label}: nothing on standard error', done.err, b'')
    return done.status, done.out.decode()


def as_json(label, *words):
    """The status and the JSON that is printed."""
    status, text = as_text(label, *words, '--json')
    check(f'{label}: JSON on one line', text.count('\n'), 1)
    return status, json.loads(text)


def counted(count, noun):
    return f"{count} {noun}{'' if count == 1 else 's'}"


def numbers_in(sentence):
    """The numbers of a sentence, decimal ones and bytes of two hexadecimal digits."""
    return re.findall(r'\b[0-9A-F]+\b', sentence)


# Maps

def good_map(rng, number):
    """A good map by chance, the limits of its moves, and a station that reaches many others. Every other map has
    limits, and on every third many moves take no time."""
    limits = random_limits(rng) if number % 2 else ()
    data, first = (random_map if number % 3 else handover_map)(rng, limits)
    return data, limits, first


def with_fault(own, bad, target=1):
    """A map whose page 1 is the bad one, with those stations, 1 among them. 2 leads to 0, and 0 to the target: to 1,
    or to 2 where the bad page is not to be reached."""
    n = max(own + [2]) + 1
    directory = [0] + [1 if s in own else 2 for s in range(1, n)]
    others = [s for s in range(3, n) if s not in own]
    last = page(station(2), move(0, 1), *map(station, others))
    return image(directory, page(station(0), move(target, 1)), bad, last)


def random_heading(rng):
    """Bytes by chance behind a heading whose numbers are about their bounds, as many as it says or not."""
    n, p = rng.choice([0, 1, 5, 2047, 2048, 2049]), rng.choice([0, 1, 3, 239, 240, 241])
    size = max(0, n + PAGE * p + rng.choice([0, 0, 0, -1, 1, -256]))
    return n.to_bytes(2, 'little') + p.to_bytes(2, 'little') + rng.randbytes(size)


def random_pages(rng):
    """A good heading and directory, and on the pages bytes by chance, mostly of commands."""
    n, p = rng.randint(1, 12), rng.randint(1, 4)
    body = bytes(rng.choice([0, 0, 1, 1, 2, 3, rng.randrange(256)]) for _ in range(PAGE * p))
    return image([rng.randrange(p) for _ in range(n)], *[body[PAGE * k:PAGE * (k + 1)] for k in range(p)])


def named_maps():
    """Maps by hand, good and bad."""
    full = largest()
    maps = [('M7', M7), ('S', S), ('M7 with limits', M7_LIMITED), ('C6', C6), ('C8', C8),
            ('a plate yard', plate_yard()), ('the largest map', full), ('the largest map and a byte', full + b'\0'),
            ('the largest map and a megabyte', full + bytes(2**20)), ('no byte', b''), ('one byte', M7[:1]),
            ('three bytes', M7[:3]), ('four bytes', M7[:4]), ('S less its last byte', S[:-1]),
            ('M7 and a byte', M7 + b'\0'), ('M7, the last station on no page', damaged(M7, (10, 2))),
            ('M7, no station on a page', damaged(M7, *[(at, 255) for at in range(4, 11)])),
            ('the largest map, its last byte', damaged(full, (LONGEST - 1, 1)))]
    return maps + [(f'fault {label}', with_fault(own, bad)) for label, _, own, bad in faults()]


def maps_to_check(rng):
    """Maps of every kind: label and bytes."""
    maps = named_maps()
    for number in range(100):
        data, _, _ = good_map(rng, number)
        maps.append((f'random map {number}', data))
        for k in (1, 2):
            changes = [random_change(rng, data) for _ in range(rng.randint(1, 3))]
            maps.append((f'random map {number}, damaged {k}', damaged(data, *changes)))
    for number in range(40):
        maps.append((f'random bytes {number}', rng.randbytes(rng.choice([0, 1, 2, 3, 4, 5, 261, 300, LONGEST]))))
        maps.append((f'random heading {number}', random_heading(rng)))
        maps.append((f'random pages {number}', random_pages(rng)))
    return maps
