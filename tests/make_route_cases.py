"""Writes the cases of the program route_test, crates/route_test/stdin, and the text that it must print, stdout beside.

    python3 tests/make_route_cases.py            write both files
    python3 tests/make_route_cases.py --check    only compare them with what would be written; exit 1 on a difference

The expected text comes from `route` below, which was written from document 01 and goes another way than the crate: it
takes a chain for endless where a station comes up a second time. Each case by hand also states its answer, and the
generator stops where `route` says otherwise.
"""
import random

from stored import ROOT, keep

FOLDER = ROOT / 'crates' / 'route_test'
SOURCE, NONE, CANARY = 65534, 65535, 43690
MOST = 2048


# The rules of document 01

def chain(table, station):
    """The stations from the source to the station, or None where the chain does not lead to a source."""
    passed = {}  # in the order of the steps
    while station < len(table) and station not in passed:
        passed[station] = True
        if table[station] == SOURCE:
            return list(passed)[::-1]
        station = table[station]
    return None


def route(table, station, room):
    """The answer's text and the stations to be written."""
    if not 1 <= len(table) <= MOST or station >= len(table):
        return 'refused 15', []
    if table[station] == NONE:
        return 'no route', []
    stations = chain(table, station)
    if stations is None:
        return 'refused 16', []
    if room < len(stations):
        return 'refused 17', []
    return f'found {len(stations)}', stations


# Cases by hand: table, station, the output's length, the answer

def row(n):
    """Station 0 is the source, and every other one follows the one before it."""
    return [SOURCE] + list(range(n - 1))


def ring(n):
    """Every station follows the one before it, and station 0 the last."""
    return [n - 1] + list(range(n - 1))


def changed(table, at, entry):
    return table[:at] + [entry] + table[at + 1:]


C1 = [SOURCE, 0, 4, 2, 0, 4, 5]

BY_HAND = [
    # C10, and the other stations of C1
    (C1, 6, 4, 'found 4'), (C1, 6, 7, 'found 4'), (C1, 6, 3, 'refused 17'), (C1, 6, 0, 'refused 17'),
    (C1, 0, 7, 'found 1'), (C1, 3, 7, 'found 4'), (C1, 1, 2, 'found 2'), (C1, 7, 7, 'refused 15'),
    # the examples of rows 15 to 17
    ([SOURCE], 1, 1, 'refused 15'), ([0], 0, 1, 'refused 16'), ([SOURCE], 0, 0, 'refused 17'),
    # 15: n 0, 1, 2,048 and 2,049; station n - 1 and n
    ([], 0, 3, 'refused 15'), ([], SOURCE, 3, 'refused 15'), ([SOURCE], 0, 1, 'found 1'), ([SOURCE], 0, 3, 'found 1'),
    (row(2048), 2047, 2048, 'found 2048'), (row(2048), 2047, 2047, 'refused 17'), (row(2048), 2048, 2048, 'refused 15'),
    (row(2048), 2047, 2051, 'found 2048'), (row(2049), 2048, 2049, 'refused 15'), (row(2049), 0, 1, 'refused 15'),
    ([SOURCE] + [NONE] * 2047, 2047, 1, 'no route'), ([SOURCE] + [NONE] * 2048, 2048, 1, 'refused 15'),
    (row(5), 4, 5, 'found 5'), (row(5), 5, 5, 'refused 15'), (row(5), 65535, 5, 'refused 15'),
    (row(5), 65534, 5, 'refused 15'),
    # "no route" before 16 and 17, behind 15
    ([NONE], 0, 0, 'no route'), ([NONE], 0, 3, 'no route'), ([NONE], 1, 3, 'refused 15'),
    ([SOURCE, NONE, 1], 1, 3, 'no route'), ([SOURCE, NONE, 1], 2, 3, 'refused 16'),
    ([SOURCE, NONE, 1], 3, 3, 'refused 15'),
    # 16: 65,535 or another number not below n, as the own entry and in the middle; 16 before 17
    ([SOURCE, 2], 1, 2, 'refused 16'), ([SOURCE, 3], 1, 2, 'refused 16'), ([SOURCE, 65533], 1, 2, 'refused 16'),
    ([SOURCE, 65533], 1, 0, 'refused 16'), (changed(row(9), 4, NONE), 8, 9, 'refused 16'),
    (changed(row(9), 4, NONE), 3, 9, 'found 4'), (changed(row(9), 4, 9), 8, 9, 'refused 16'),
    (changed(row(9), 4, 65533), 8, 0, 'refused 16'), (changed(row(9), 4, 2048), 8, 9, 'refused 16'),
    (changed(row(9), 4, SOURCE), 8, 9, 'found 5'), (changed(row(2048), 1, 2048), 2047, 2048, 'refused 16'),
    # 16: the source after n - 1 steps, and never
    (row(2), 1, 2, 'found 2'), (ring(2), 1, 2, 'refused 16'), (ring(5), 4, 5, 'refused 16'),
    (ring(5), 0, 0, 'refused 16'),
    (ring(2048), 2047, 2048, 'refused 16'), (changed(row(5), 0, 0), 4, 5, 'refused 16'),
    (changed(row(2048), 0, 0), 2047, 2048, 'refused 16'), (changed(row(6), 3, 4), 5, 6, 'refused 16'),
    # 17: one too short, exactly long enough, longer
    (row(9), 8, 8, 'refused 17'), (row(9), 8, 9, 'found 9'), (row(9), 8, 10, 'found 9'), (row(9), 8, 40, 'found 9'),
]


# Random tables

def tree(rng, n):
    """A table in which most stations lead to one source, and the others have no predecessor."""
    order = rng.sample(range(n), n)
    table = [NONE] * n
    table[order[0]] = SOURCE
    reached = rng.randint((3 * n + 3) // 4, n)
    for k in range(1, reached):
        table[order[k]] = order[rng.randint(max(0, k - 3), k - 1)]
    return table


def random_case(rng):
    n = rng.randint(1, 60)
    table = tree(rng, n)
    for _ in range(rng.choice([0, 0, 1, 3, 8])):
        table[rng.randrange(n)] = rng.choice([rng.randrange(n), rng.randrange(n), n, n + 1, SOURCE, NONE, 65533])
    station = rng.randrange(n) if rng.random() < 0.95 else rng.randint(n, n + 2)
    stations = chain(table, station) if station < n else None
    room = max(0, len(stations or []) + rng.choice([-1, 0, 0, 1, 5]))
    return table, station, room


def cases():
    made = []
    for table, station, room, answer in BY_HAND:
        told = route(table, station, room)[0]
        assert told == answer, (table[:10], station, room, answer, told)
        made.append((table, station, room))
    rng = random.Random(1)
    made += [random_case(rng) for _ in range(300)]
    for _ in range(3):
        table = tree(rng, MOST)
        made += [(table, station, MOST) for station in rng.sample(range(MOST), 2)]
    return made


def encoded(table, station, room):
    return b''.join(number.to_bytes(2, 'little') for number in [len(table), *table, station, room])


def line(table, station, room):
    answer, stations = route(table, station, room)
    output = stations + [CANARY] * (room - len(stations))
    return answer + ':' + ''.join(f' {entry}' for entry in output) + '\n'


def main():
    made = cases()
    stream = b''.join(encoded(*case) for case in made)
    text = ''.join(line(*case) for case in made).encode()
    keep(f'{len(made):,} routes', [(FOLDER / 'stdin', stream), (FOLDER / 'stdout', text)])


if __name__ == '__main__':
    main()
