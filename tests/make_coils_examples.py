"""Writes the examples of the program coils: document 01's (crates/coils: data/yard.map, stdin, stdout), a map one byte
too long with a record cut short (crates/coils_test, likewise) and a plate yard's (examples/plate: yard.map, records,
expected).

    python3 tests/make_coils_examples.py            write the files
    python3 tests/make_coils_examples.py --check    only compare them with what would be written; exit 1 if they differ

The expected lines come from coils.py, and document 01's are stated here by hand too.
"""
import random

from coils import LONGEST, ROOM, line, printed
from make_search_cases import M7, spelled
from maps import u16, u32
from searches import NO_TIME, df
from stored import ROOT, keep

# The plate yard: a grid of one-way lanes, its stations numbered by rows and dealt out to the pages by threes, so that
# a search enters each page again and again; and a siding of four stations on a page of their own, which leads into the
# grid and to which nothing leads. Some rows and columns take strips of up to a limit in decimetres. Two stations, one
# below the other and on two pages, are the numbers of one turntable stop.
ROWS, COLUMNS, SIDING = 18, 22, 4
GRID_PAGES = 23
ROW_LIMIT, COLUMN_LIMIT = 8440, 12000
TURNTABLE = 181, 203


def record(coil, length, station):
    return u32(coil) + u16(length) + u16(station)


def document_example():
    data = bytes.fromhex('07 00 00 00 B8 1F 00 00  08 00 00 00 B8 1F 07 00')
    expected = printed(M7, data)
    assert expected == b'coil 7 length 8120 from 0 pages 3 reached 7\ncoil 8 refused 6\n', expected
    return M7, data, expected


def largest():
    """A map of 2,048 stations on 240 pages, 63,492 bytes: a ring that passes all pages again and again."""
    n, pages = 2048, 240
    moves = {s: [((s + 1) % n, 65535)] for s in range(n)}
    return spelled([s % pages for s in range(n)], moves, pages)


def too_long_example():
    """The largest map and a byte more, which a reader of 63,492 bytes would take for good; a record and seven bytes."""
    full = largest()
    data = record(7, 8120, 0) + record(8, 8120, 7)[:7]
    assert len(full) == LONGEST
    assert printed(full, data) == b'coil 7 length 8120 from 0 pages 2048 reached 2048\nshort\n'
    file = full + b'\0'
    expected = printed(file, data)
    assert expected == b'coil 7 refused 4\nshort\n', expected
    return file, data, expected


def lane_moves(rng):
    """Even rows lead to the right and odd ones to the left; even columns lead up and odd ones down. Every sixth row and
    every seventh column has its limit."""
    moves = {}
    for row in range(ROWS):
        for column in range(COLUMNS):
            across = (row, column + (1 if row % 2 == 0 else -1), ROW_LIMIT if row % 6 == 3 else None)
            along = (row + (-1 if column % 2 == 0 else 1), column, COLUMN_LIMIT if column % 7 == 6 else None)
            moves[row * COLUMNS + column] = [
                (r * COLUMNS + c, rng.randint(20, 400), limit) for r, c, limit in (across, along)
                if 0 <= r < ROWS and 0 <= c < COLUMNS]
    return moves


def add_turntable(moves):
    """Lets the lane from its first station to the other take no time, and adds a move back that takes none either."""
    one, other = TURNTABLE
    moves[one] = [(target, 0 if target == other else time, limit) for target, time, limit in moves[one]]
    moves[other].append((one, 0, None))


def plate_yard():
    """The yard's map. The last move of the siding's page leads to its own station: refusal 12 for whoever reaches that
    page."""
    rng = random.Random(400)
    grid = ROWS * COLUMNS
    directory = [s // 3 % GRID_PAGES for s in range(grid)] + [GRID_PAGES] * SIDING
    moves = lane_moves(rng)
    add_turntable(moves)
    for k in range(SIDING):
        moves[grid + k] = [(k * COLUMNS, 50)]
    last = grid + SIDING - 1
    moves[last] = [(last, 50)]
    return spelled(directory, moves, GRID_PAGES + 1)


def check_turntable(outcomes):
    """"A turntable stop has two station numbers and nothing moves between them.": their times are equal, and in some
    search the way to either is by the other."""
    one, other = TURNTABLE
    assert all(outcome.times[one] == outcome.times[other] < NO_TIME for outcome in outcomes)
    for before, behind in ((one, other), (other, one)):
        assert any(outcome.predecessors[behind] == before for outcome in outcomes)


def plate_example():
    yard = plate_yard()
    grid = ROWS * COLUMNS
    rows = [(1201, 8120, 0), (1202, 7995, 21), (1203, 12040, 197), (1204, 65535, grid - 1), (1205, 1, grid),
            (1206, 8120, 310), (0, 0, 88), (4294967295, 65535, grid + SIDING - 1), (1207, 9000, grid + SIDING),
            (1208, 9000, 65535), (1209, ROW_LIMIT, 203), (1210, ROW_LIMIT + 1, 203), (1201, 640, 0)]
    data = b''.join(record(*row) for row in rows)
    outcomes = {row[1:]: df(yard, row[2], row[1], ROOM) for row in rows if row[2] < grid}
    answers = {asked: outcome.answer for asked, outcome in outcomes.items()}
    for (length, _), (_, count, reached) in answers.items():
        # a page is entered four times or more on average, and a strip that each column takes reaches the whole grid
        assert count >= 4 * GRID_PAGES and (reached == grid) == (length <= COLUMN_LIMIT), answers
    # a decimetre more, and there are other ways
    assert answers[ROW_LIMIT, 203] != answers[ROW_LIMIT + 1, 203], answers
    check_turntable(outcomes.values())
    assert line(yard, record(*rows[4])) == 'coil 1205 refused 12\n'
    assert line(yard, record(*rows[8])) == 'coil 1207 refused 6\n'
    data += data[:3]
    return yard, data, printed(yard, data)


def program_paths(name):
    folder = ROOT / 'crates' / name
    return [folder / 'data' / 'yard.map', folder / 'stdin', folder / 'stdout']


def files():
    plate = ROOT / 'examples' / 'plate'
    paths = program_paths('coils') + program_paths('coils_test') + \
        [plate / 'yard.map', plate / 'records', plate / 'expected']
    return list(zip(paths, document_example() + too_long_example() + plate_example()))


def main():
    keep('2 examples', files())


if __name__ == '__main__':
    main()
