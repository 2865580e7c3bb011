"""Writes the cases of the program page_test, crates/page_test/stdin, and the text that it must print, stdout beside it.

    python3 tests/make_page_cases.py            write both files
    python3 tests/make_page_cases.py --check    only compare them with what would be written; exit 1 on a difference

The expected text comes from reader.py. Each case below also states the whole check's answer by hand, from document 01
and document 02, C-11 and C-15, and each good map the content that it was built from; the generator stops where
reader.py says otherwise.
"""
import random

from limits import random_limit, random_limits
from maps import image, move, page, station, u16
from reader import PAGE, parse, read_page, whole_check
from stored import ROOT, keep

FOLDER = ROOT / 'crates' / 'page_test'
ANSWERS, SWEEP = 1, 2  # the kinds of case


# Maps and pages

def spelled(directory, moves, p):
    """Page p of a map whose station s has the moves moves.get(s): (target, time), or (target, time, limit) for `03`."""
    own = [s for s in range(len(directory)) if directory[s] == p]
    return page(*[station(s) + b''.join(move(*m) for m in moves.get(s, [])) for s in own])


def built(directory, moves, pages):
    """The image of a good map, whose reading must give back the content that it was built from."""
    directory = bytes(directory)
    made = image(directory, *[spelled(directory, moves, p) for p in range(pages)])
    for p, data in enumerate(parse(made)[3]):
        content = [(s, [(*m, None)[:3] for m in moves.get(s, [])]) for s in range(len(directory)) if directory[s] == p]
        assert read_page(len(directory), directory, p, data) == ('good', content)
    return made


def damaged(data, *changes):
    """The bytes with each change (offset, value) made."""
    data = bytearray(data)
    for at, value in changes:
        data[at] = value
    return bytes(data)


# The expected text

def words(number, station=None, page=None, offset=None):
    """An answer as the program prints it."""
    if number == 0:
        return 'good'
    parts = [('refused', number), ('station', station), ('page', page), ('offset', offset)]
    return ' '.join(f'{name} {value}' for name, value in parts if value is not None)


def check_words(data):
    """The whole check's answer."""
    answer = whole_check(data)
    if answer[0] == 'good':
        return words(0)
    number, place = answer[1], answer[2:]
    names = ('station',) if number == 5 else ('page', 'offset')
    return words(number, **dict(zip(names, place)))


def page_words(n, directory, p, data):
    """The page reader's answer for one page."""
    reading = read_page(n, directory, p, data)
    return words(0) if reading[0] == 'good' else words(reading[1], offset=reading[2])


def runs(answers):
    """Numbers from 0 on with an answer for each, as runs of equal answers: `0 good, 1-255 refused 4`."""
    texts, begin = [], 0
    for i, answer in enumerate(answers):
        if i + 1 == len(answers) or answers[i + 1] != answer:
            texts.append((f'{begin}' if begin == i else f'{begin}-{i}') + f' {answer}')
            begin = i + 1
    return ', '.join(texts)


def lines(kind, label, data):
    """The lines that the program prints for a case."""
    yield label
    yield f'  whole check: {check_words(data)}'
    parts = parse(data)
    if parts[0] == 'good':
        _, n, directory, pages = parts
        yield f'  pages: {runs([page_words(n, directory, p, data) for p, data in enumerate(pages)])}'
    if kind == SWEEP:
        for at in range(len(data)):
            yield f'  at {at}: {runs([check_words(damaged(data, (at, value))) for value in range(256)])}'


# The cases

CASES = []  # (kind, label, image)


def case(label, data, expected, kind=ANSWERS):
    """Adds a case; `expected` is the whole check's answer by document 01."""
    assert check_words(data) == expected, (label, check_words(data), expected)
    CASES.append((kind, label, data))


def on_page_0(label, fault, *parts, n=1):
    """A map of n stations, all on its only page, and that page's parts; the fault is (number, offset), or None."""
    case(label, image([0] * n, page(*parts)), 'refused {} page 0 offset {}'.format(*fault) if fault else 'good')


def moves_to(first, count):
    """So many moves, to the stations from `first` on."""
    return b''.join(move(first + k, 1) for k in range(count))


def filled(stations, moves, tail=b''):
    """A map whose page 0 has so many stations, the last one so many moves, and at 3 * stations + 5 * moves a tail.

    All targets, and one station more, are on page 1.
    """
    n = stations + moves + 1
    commands = b''.join(map(station, range(stations))) + moves_to(stations, moves)
    return image([0] * stations + [1] * (moves + 1), page(commands, tail), page(*map(station, range(stations, n))))


# "S is the 261-byte map `01 00 01 00 00` and a page `01 00 00 00` then zeros."
S = bytes.fromhex('01 00 01 00 00  01 00 00 00') + bytes(252)

# "M7: stations 0 to 3 on page 0, 4 to 6 on page 1; from-target/time: 0-1/4, 0-4/2, 1-2/3, .."
M7_DIRECTORY = [0, 0, 0, 0, 1, 1, 1]
M7_MOVES = {0: [(1, 4), (4, 2)], 1: [(2, 3)], 2: [(3, 3)], 3: [(5, 3)], 4: [(2, 1), (5, 6)], 5: [(6, 1)]}
M7 = built(M7_DIRECTORY, M7_MOVES, 2)


def heading_cases():
    """Refusals 1 to 5."""
    case('S', S, 'good')

    # 1, "image under 4 bytes", and its example `01 00 01`
    case('1: an empty image', b'', 'refused 1')
    case('1: an image of 1 byte', b'\x01', 'refused 1')
    case('1: an image of 2 bytes', b'\x01\x00', 'refused 1')
    case('1: an image of 3 bytes, 01 00 01', b'\x01\x00\x01', 'refused 1')
    case('1: 3 zeros, before N 0', bytes(3), 'refused 1')
    case('4: an image of 4 bytes, the heading of S', S[:4], 'refused 4')

    # 2, "N is 0 or over 2,048", and its example `00 00 01 00`
    case('2: 00 00 01 00', b'\x00\x00\x01\x00', 'refused 2')
    case('2: N 0 in an image of the right length', image([], page()), 'refused 2')
    case('2: N 0 and P 0', bytes(4), 'refused 2')
    case('2: N 2,049', image([0] * 2049, page()), 'refused 2')
    case('2: N 65,535', b'\xff\xff\x01\x00', 'refused 2')
    case('2: N 2,049 and P 241', u16(2049) + u16(241), 'refused 2')
    case('N 2,048 on 25 pages', built([s // 85 for s in range(2048)], {}, 25), 'good')

    # 3, "P is 0 or over 240", and its example `01 00 00 00`
    case('3: 01 00 00 00', b'\x01\x00\x00\x00', 'refused 3')
    case('3: P 0 in an image of the right length', image([0]), 'refused 3')
    case('3: P 0, and the wrong length', image([0], page(), p=0), 'refused 3')
    case('3: P 241', image([240], *[page()] * 240, page(station(0))), 'refused 3')
    case('3: P 241 in a heading alone', u16(1) + u16(241), 'refused 3')
    case('3: P 65,535', u16(1) + u16(65535), 'refused 3')
    case('P 240, the station on the last page', built([239], {}, 240), 'good')
    case('4: N 2,048 and P 240 in a heading alone', u16(2048) + u16(240), 'refused 4')

    # 4, "wrong total length", and its example "S less its last byte"
    case('4: S less its last byte', S[:-1], 'refused 4')
    case('4: S and one byte more', S + b'\x00', 'refused 4')
    case('4: S and one page more', S + page(), 'refused 4')
    case('4: M7 less its last page', M7[:-PAGE], 'refused 4')
    case('4: M7 with N one less', damaged(M7, (0, 6)), 'refused 4')
    case('4: S less its last byte, directory 01', damaged(S, (4, 1))[:-1], 'refused 4')

    # 5, "directory byte not below P (answer: lowest such station)", and its example "S, directory `01`"
    case('5: S, directory 01', damaged(S, (4, 1)), 'refused 5 station 0')
    case('5: S, directory FF', damaged(S, (4, 255)), 'refused 5 station 0')
    case('5: M7, stations 3, 5 and 6 on no page',
         damaged(M7, (4 + 3, 2), (4 + 5, 255), (4 + 6, 2)), 'refused 5 station 3')
    case('5: M7, the last station on no page', damaged(M7, (4 + 6, 2)), 'refused 5 station 6')
    case('5: M7, every station on no page', damaged(M7, *[(4 + s, 7) for s in range(7)]), 'refused 5 station 0')
    case('5: M7, station 6 on no page, and page 0 begins 07', damaged(M7, (4 + 6, 2), (11, 7)), 'refused 5 station 6')
    case('5: N 300, station 258 on no page', image([0] * 258 + [1] + [0] * 41, page()), 'refused 5 station 258')


def page_cases():
    """Refusals 8 to 14 in the table's order, each at its boundaries; where 13 stood, the times."""
    # 8, "unknown code", and its example "page `07`"
    on_page_0('8: page 07', (8, 0), b'\x07')
    on_page_0('8: code 04 behind a station', (8, 3), station(0), b'\x04')
    on_page_0('8: code FF behind a move', (8, 8), station(0), move(1, 1), b'\xff', n=2)

    # 9, "command passes byte 255, or no `00` (offset 256)", and its example "86 stations on one page: offset 255"
    stations = b''.join(station(s) for s in range(86))
    case('85 stations on one page', built([0] * 85, {}, 1), 'good')
    case('9: 86 stations on one page', image([0] * 86, stations[:PAGE]), 'refused 9 page 0 offset 255')
    case('the 00 is byte 254', filled(3, 49), 'good')
    case('the 00 is byte 255', filled(5, 48), 'good')
    case('9: no 00, a move ends at byte 255', filled(2, 50), 'refused 9 page 0 offset 256')
    case('9: no 00, a station ends at byte 255',
         image([0, 0] + [1] * 50, page(station(0), moves_to(2, 50), station(1)), page(*map(station, range(2, 52)))),
         'refused 9 page 0 offset 256')
    case('9: a station cut off behind its code', filled(5, 48, b'\x01'), 'refused 9 page 0 offset 255')
    case('9: a station cut off in its number', filled(3, 49, b'\x01\x03'), 'refused 9 page 0 offset 254')
    case('9: a move cut off behind its code', filled(5, 48, b'\x02'), 'refused 9 page 0 offset 255')
    case('9: a move cut off in its target', filled(3, 49, b'\x02\x34'), 'refused 9 page 0 offset 254')
    case('9: a move cut off before its time', filled(1, 50, b'\x02\x33\x00'), 'refused 9 page 0 offset 253')
    case('9: a move cut off in its time', filled(4, 48, b'\x02\x34\x00\x01'), 'refused 9 page 0 offset 252')
    case('9: a move cut off, its time 0 so far', filled(4, 48, b'\x02\x34\x00\x00'), 'refused 9 page 0 offset 252')

    # 10, "not the next station, or one missing at `00`", and its example "S, page all zero: offset 0"
    on_page_0('10: S, page all zero', (10, 0))
    on_page_0('10: the second station missing at the 00', (10, 3), station(0), n=2)
    on_page_0('10: stations 1 and 0 in falling order', (10, 0), station(1), station(0), n=2)
    on_page_0('10: station 1 left out', (10, 3), station(0), station(2), n=3)
    on_page_0('10: station 0 twice', (10, 3), station(0), station(0), n=2)
    on_page_0('10: station 0 twice, no other', (10, 3), station(0), station(0))
    on_page_0('10: behind all its stations a station N', (10, 3), station(0), station(1))
    on_page_0('10: behind all its stations a station 65,535', (10, 3), station(0), station(65535))
    on_page_0('10: station 256 for station 0', (10, 0), station(256), n=1)
    case('10: a station of the other page',
         image([0, 1, 0], page(station(0), station(1), station(2)), page(station(1))), 'refused 10 page 0 offset 3')
    case('10: a station of the other page, which is page 0',
         image([0, 1, 0], page(station(0), station(2)), page(station(0))), 'refused 10 page 1 offset 0')

    # 11, "move before a station", and its example "page `02 00 00 01 00`"
    on_page_0('11: page 02 00 00 01 00', (11, 0), bytes.fromhex('02 00 00 01 00'))
    on_page_0('11: a good move, before its station', (11, 0), move(1, 4), station(0), station(1), n=2)
    on_page_0('11: a move before a station, time 0', (11, 0), move(1, 0), station(0), n=2)

    # 12, "target not below N, own station, or not rising", and its example "S, page `01 00 00 02 00 00 01 00`"
    on_page_0('12: S, page 01 00 00 02 00 00 01 00', (12, 3), bytes.fromhex('01 00 00 02 00 00 01 00'))
    on_page_0('12: target N', (12, 3), station(0), move(2, 1), station(1), n=2)
    on_page_0('12: target 65,535', (12, 3), station(0), move(65535, 1), station(1), n=2)
    on_page_0('12: target 257 for 1', (12, 3), station(0), move(257, 1), station(1), n=2)
    on_page_0('12: own station, behind a lower target', (12, 11),
              station(0), station(1), move(0, 1), move(1, 1), station(2), n=3)
    on_page_0('12: own station, the last one', (12, 6), station(0), station(1), move(1, 1), n=2)
    on_page_0('12: the same target twice', (12, 8), station(0), move(1, 1), move(1, 2), station(1), n=2)
    on_page_0('12: targets fall', (12, 8), station(0), move(2, 1), move(1, 1), station(1), station(2), n=3)
    on_page_0('12: targets fall to 0', (12, 11), station(0), station(1), move(2, 1), move(0, 1), station(2), n=3)
    on_page_0('12: target not below N, time 0', (12, 3), station(0), move(2, 0), station(1), n=2)
    on_page_0('12: own station, time 0', (12, 3), station(0), move(0, 0), station(1), n=2)
    on_page_0('12: not rising, time 0', (12, 8), station(0), move(1, 1), move(1, 0), station(1), n=2)
    on_page_0('12: not rising behind a move of time 0', (12, 8), station(0), move(1, 0), move(1, 1), station(1), n=2)
    on_page_0('targets of the next station begin anew', None,
              station(0), move(2, 1), station(1), move(0, 1), move(2, 1), station(2), move(0, 1), n=3)
    case('targets 255, 256 and 511 of 512 stations',
         built([s // 80 for s in range(512)], {0: [(255, 1), (256, 1), (511, 1)], 256: [(0, 1), (257, 1)]}, 7), 'good')

    # "Time 0 is accepted in `02` and `03`, so 13 no longer occurs.", and the page of its example, "N 2, page `01 00 00
    # 02 01 00 00 00`", is good if station 1 is on another page; if it is on this one, it is missing at the `00`
    former = bytes.fromhex('01 00 00 02 01 00 00 00')
    case('time 0: N 2, page 01 00 00 02 01 00 00 00', image([0, 1], page(former), page(station(1))), 'good')
    on_page_0('10: N 2, page 01 00 00 02 01 00 00 00, and station 1 missing', (10, 8), former, n=2)
    on_page_0('time 0 of the second move', None, station(0), move(1, 1), move(2, 0), station(1), station(2), n=3)
    on_page_0('time 0 of both moves, and both ways', None,
              station(0), move(1, 0), move(2, 0), station(1), move(0, 0), station(2), move(0, 0), n=3)
    on_page_0('8: an unknown code behind a move of time 0', (8, 8), station(0), move(1, 0), b'\x07', n=2)
    on_page_0('time 65,535', None, station(0), move(1, 65535), station(1), n=2)
    on_page_0('time 1', None, station(0), move(1, 1), station(1), n=2)
    on_page_0('time 256, whose low byte is 0', None, station(0), move(1, 256), station(1), n=2)

    # 14, "byte not 00 after the end", and its example "S, page `01 00 00 00 05`: offset 3, that of the `00`"
    on_page_0('14: S, page 01 00 00 00 05', (14, 3), bytes.fromhex('01 00 00 00 05'))
    on_page_0('14: the last byte of the page is 01', (14, 3), station(0), bytes(252), b'\x01')
    on_page_0('14: a station behind the 00', (14, 3), station(0), b'\x00', station(0))
    case('14: the 00 is byte 254, byte 255 is FF', filled(3, 49, b'\x00\xff'), 'refused 14 page 0 offset 254')


def limit_cases():
    """Command `03` of document 02, C-11: its limit, its end, and the rules that it shares with `02`; C-15: time 0."""
    # "u16 longest strip in decimetres"; page_test's pages are read for a strip of 65,535
    for limit in (1, 2, 255, 256, 8119, 8120, 8121, 65534, 65535):
        on_page_0(f'limit {limit:,}', None, station(0), move(1, 1, limit), station(1), n=2)
    # "It refuses a limit of 0 with 18"
    on_page_0('18: limit 0', (18, 3), station(0), move(1, 1, 0), station(1), n=2)
    on_page_0('18: limit 0 behind a move without a limit', (18, 8),
              station(0), move(1, 1), move(2, 1, 0), station(1), station(2), n=3)
    on_page_0('18: limit 0 behind a move with a limit', (18, 10),
              station(0), move(1, 1, 7), move(2, 1, 0), station(1), station(2), n=3)
    on_page_0('18: limit 0 of the last station', (18, 6), station(0), station(1), move(0, 65535, 0), n=2)
    on_page_0('18: limit 0, time 0 too', (18, 3), station(0), move(1, 0, 0), station(1), n=2)
    on_page_0('18: limit 0, time 0 too, behind a move of time 0', (18, 10),
              station(0), move(1, 0, 9), move(2, 0, 0), station(1), station(2), n=3)

    # "(7 bytes)"
    case('the 00 is byte 255, behind 36 moves with a limit',
         built([0] + [1] * 36, {0: [(target, 1, 3) for target in range(1, 37)]}, 2), 'good')
    case('the 00 is byte 255, behind a move with a limit', filled(1, 49, move(50, 1, 1)), 'good')
    case('9: no 00, a move with a limit ends at byte 255', filled(3, 48, move(51, 1, 1)), 'refused 9 page 0 offset 256')
    for stations, moves in ((5, 47), (2, 49), (4, 48), (1, 50), (3, 49), (5, 48)):
        at = 3 * stations + 5 * moves
        case(f'9: a move with a limit at {at} is cut off at 255',
             filled(stations, moves, move(stations + moves, 257, 257)[:PAGE - at]), f'refused 9 page 0 offset {at}')
    on_page_0('8: code 04 behind a move with a limit', (8, 10), station(0), move(1, 1, 1), b'\x04', n=2)
    on_page_0('10: a station missing behind a move with a limit', (10, 10), station(0), move(1, 1, 1), n=2)
    on_page_0('14: 03 behind the 00', (14, 13), station(0), move(1, 1, 1), station(1), b'\x00\x03', n=2)

    # "under all rules of `02`"
    on_page_0('11: a move with a limit before its station', (11, 0), move(1, 4, 9), station(0), station(1), n=2)
    on_page_0('12: target N, with a limit', (12, 3), station(0), move(2, 1, 9), station(1), n=2)
    on_page_0('12: own station, with a limit', (12, 6), station(0), station(1), move(1, 1, 9), n=2)
    on_page_0('12: the same target by 02 and 03', (12, 8), station(0), move(1, 1), move(1, 2, 9), station(1), n=2)
    on_page_0('12: the same target by 03 and 02', (12, 10), station(0), move(1, 1, 9), move(1, 2), station(1), n=2)
    on_page_0('12: the same target by 03 twice, limits 8 and 9', (12, 10),
              station(0), move(1, 1, 8), move(1, 1, 9), station(1), n=2)
    on_page_0('12: targets fall from 02 to 03', (12, 8),
              station(0), move(2, 1), move(1, 1, 9), station(1), station(2), n=3)
    on_page_0('12: targets fall from 03 to 02', (12, 10),
              station(0), move(2, 1, 9), move(1, 1), station(1), station(2), n=3)
    on_page_0('targets rise through 02 and 03 alike', None, station(0), move(1, 1, 9), move(2, 1), move(3, 1, 1),
              station(1), move(0, 1), move(2, 1, 65535), move(3, 1), station(2), station(3), n=4)
    on_page_0('12: own station, time 0, with a limit', (12, 6), station(0), station(1), move(1, 0, 9), n=2)
    # "Time 0 is accepted in `02` and `03`"
    on_page_0('time 0, with a limit', None, station(0), move(1, 0, 9), station(1), n=2)
    on_page_0('time 0 of the second move, with a limit', None,
              station(0), move(1, 1, 9), move(2, 0, 9), station(1), station(2), n=3)
    on_page_0('time 0 by 02 and 03 alike', None, station(0), move(1, 0, 1), move(2, 0), move(3, 0, 65535),
              station(1), move(0, 0), move(2, 0, 256), station(2), station(3), move(0, 0, 255), n=4)


def order_cases():
    """Two conditions at once."""
    # "At one command: 8, then 9"
    case('8 before 9: an unknown code in the last byte', filled(5, 48, b'\x04'), 'refused 8 page 0 offset 255')
    case('9 before 10: a station cut off that is not the next one',
         filled(3, 49, b'\x01\x09'), 'refused 9 page 0 offset 254')
    case('9 before 12: a move cut off, to its own station',
         filled(4, 48, b'\x02\x03\x00\x01'), 'refused 9 page 0 offset 252')
    # "for `02`: 11, 12, 13", of which 13 "no longer occurs"
    on_page_0('11 before 12: a move before a station, target not below N', (11, 0), move(9, 1), station(0))
    on_page_0('11 before 12: a move before a station, target not below N, time 0', (11, 0), move(9, 0), station(0))
    # the same for `03`, and then 18, "tried after 13", so now after 12
    case('9 before 12 and 18: a move with a limit cut off, to its own station, time 0 and limit 0 so far',
         filled(5, 47, move(4, 0, 0)[:6]), 'refused 9 page 0 offset 250')
    on_page_0('11 before 12 and 18: target not below N, time 0, limit 0', (11, 0), move(9, 0, 0), station(0))
    on_page_0('11 before 18: a move before a station, limit 0', (11, 0), move(1, 1, 0), station(0), n=2)
    on_page_0('12 before 18: not rising, time 0, limit 0', (12, 8),
              station(0), move(1, 1), move(1, 0, 0), station(1), n=2)
    on_page_0('12 before 18: own station, limit 0', (12, 3), station(0), move(0, 1, 0), station(1), n=2)
    # "for `00`: 10 if a station is still missing, then 14"
    on_page_0('10 before 14: a station missing and rubbish behind the 00', (10, 3), station(0), b'\x00', b'\x05', n=2)
    on_page_0('10 before 14: the missing station behind the 00', (10, 3), station(0), b'\x00', station(1), n=2)
    # "reading stops at the first command at fault"
    on_page_0('the first command at fault: 12, then 8', (12, 3), station(0), move(0, 1), b'\x07', n=2)
    on_page_0('the first command at fault: 8, then 10', (8, 3), station(0), b'\x07', station(0), n=2)
    on_page_0('the first command at fault: 18, then 12', (18, 3), station(0), move(1, 1, 0), move(1, 0), n=3)


def map_cases():
    """Maps of several pages."""
    case('M7', M7, 'good')
    # C7: "M7, page 1 begins `07`"
    case('M7, page 1 begins 07', damaged(M7, (11 + PAGE, 7)), 'refused 8 page 1 offset 0')
    case('two bad pages of M7: the lower one is answered',
         damaged(M7, (11 + 13, 9), (11 + PAGE, 7)), 'refused 8 page 0 offset 13')
    case('two bad pages, the fault of page 1 at the lower offset',
         damaged(M7, (11 + 255, 1), (11 + PAGE, 7)), 'refused 14 page 0 offset 37')
    # C8: "N 2, P 2, station i on page i, no moves, page 1 begins `07`"
    case('N 2, P 2, station i on page i, page 1 begins 07',
         image([0, 1], page(station(0)), page(b'\x07')), 'refused 8 page 1 offset 0')
    # C6: "N 4, one page: 0-1/6, 0-2/5, 1-3/4, 2-3/5"
    case('N 4, one page, 0-1/6, 0-2/5, 1-3/4, 2-3/5',
         built([0] * 4, {0: [(1, 6), (2, 5)], 1: [(3, 4)], 2: [(3, 5)]}, 1), 'good')
    case('the pages of M7 exchanged', M7[:11] + M7[11 + PAGE:] + M7[11:11 + PAGE], 'refused 10 page 0 offset 0')

    # "a page with no station is all zero"
    empty = [page(station(0)), page(), page(station(1))]
    case('a page with no station that is all zero', image([0, 2], *empty), 'good')
    for label, data, fault in [
            ('its byte 1 is 05', page(b'\x00\x05'), 'refused 14 page 1 offset 0'),
            ('its last byte is 01', page(bytes(255), b'\x01'), 'refused 14 page 1 offset 0'),
            ('it names station 0', page(station(0)), 'refused 10 page 1 offset 0'),
            ('it names station N', page(station(2)), 'refused 10 page 1 offset 0'),
            ('it has a move', page(move(1, 1)), 'refused 11 page 1 offset 0'),
            ('it has a move with a limit', page(move(1, 1, 1)), 'refused 11 page 1 offset 0'),
            ('it begins 07', page(b'\x07'), 'refused 8 page 1 offset 0')]:
        case(f'a page with no station, and {label}', image([0, 2], empty[0], data, empty[2]), fault)

    # A full map: 63,492 bytes, the stations dealt out over the pages.
    directory = [s % 240 for s in range(2048)]
    moves = {}
    for s in range(2048):
        targets = sorted((s * 7 + k * 311 + 1) % 2048 for k in range(4))
        moves[s] = [(t, (s * 31 + t * 977) % 65535 + 1) for t in targets if t != s]
    full = built(directory, moves, 240)
    assert len(full) == 63492
    case('a full map: N 2,048 and P 240', full, 'good')
    end = read_end(full, 239)
    case('a full map, its last byte 01', damaged(full, (63491, 1)), f'refused 14 page 239 offset {end}')


def read_end(data, p):
    """The offset of the `00` on a good page: 3 for each station and 5 or 7 for each move."""
    _, n, directory, pages = parse(data)
    return sum(3 + sum(len(move(*m)) for m in moves) for _, moves in read_page(n, directory, p, pages[p])[1])


def sweep_cases():
    """Every byte of two small good maps takes all 256 values.

    In the first even stations are on page 0, odd ones on page 1, whose commands reach up to a few bytes before its end,
    as those of the only page of the second do, two thirds of whose moves have a limit.
    """
    n = 11
    directory = [s % 2 for s in range(n)]
    moves = {s: [(t, 100 * s + t) for t in range(n) if t != s] for s in (1, 3, 5, 7)}
    moves[9] = [(t, 0x0100 * t + 0x0100) for t in range(7)]
    moves.update({0: [(1, 4), (4, 65535)], 4: [(0, 1), (10, 300)], 10: [(9, 2)]})
    data = built(directory, moves, 2)
    assert read_end(data, 0) == 43 and read_end(data, 1) == 250
    case('every byte of a map of two pages at all 256 values', data, 'good', kind=SWEEP)

    limits = [1, 0x0100, 0x0203, 8120, 3, 65535]
    moves = {s: [(t, 0x0101 * s + t + 1) if (s + t) % 3 == 0 else (t, 256 * t + s + 1, limits[(s + 2 * t) % 6])
                 for t in range(7) if t != s] for s in range(6)}
    data = built([0] * 7, moves, 1)
    assert read_end(data, 0) == 249
    case('every byte of a map with both kinds of move at all 256 values', data, 'good', kind=SWEEP)


def random_map(rng, limits=()):
    """A good map of a few stations on one to three pages. Its moves have the limits by chance, if any are given; a page
    holds 10 stations with three such moves each."""
    n, pages = rng.randint(1, 10 if limits else 12), rng.randint(1, 3)
    directory = [rng.randrange(pages) for _ in range(n)]
    moves = {}
    for s in range(n):
        targets = [t for t in range(n) if t != s]
        few = rng.sample(targets, rng.randint(0, min(3, len(targets))))
        moves[s] = [(t, rng.choice([1, 255, 256, 65535, rng.randint(1, 65535)]), random_limit(rng, limits))
                    for t in sorted(few)]
    return built(directory, moves, pages)


def random_change(rng, data):
    """An offset and another value of its byte: mostly a byte in use, mostly a value near those in use."""
    used = [at for at in range(len(data)) if any(data[at:at + 6])]
    at = rng.choice(used) if rng.random() < 0.85 else rng.randrange(len(data))
    near = [0, 1, 2, 3, 5, 10, 11, 12, 255, (data[at] + 1) % 256, (data[at] - 1) % 256]
    value = rng.choice(near) if rng.random() < 0.7 else rng.randrange(256)
    return at, value


def random_case(rng, number, data, label):
    """A small map, good if its number is a multiple of 3, otherwise damaged at one to three bytes."""
    if number % 3:
        changes = [random_change(rng, data) for _ in range(rng.randint(1, 3))]
        data = damaged(data, *changes)
        label += ', ' + ', '.join(f'byte {at} {value:02X}' for at, value in changes)
    case(label, data, check_words(data))


def random_cases():
    """200 small maps without limits and 100 with limits."""
    rng = random.Random(8120)
    for number in range(1, 201):
        random_case(rng, number, random_map(rng), f'random map {number}')
    rng = random.Random(8121)
    for number in range(1, 101):
        random_case(rng, number, random_map(rng, random_limits(rng)), f'random map {number} with limits')


def stream():
    """The cases as the program reads them: kind, label's length, image's length (u32), label, image."""
    parts = []
    for kind, label, data in CASES:
        text = label.encode('ascii')
        parts += [bytes([kind, len(text)]), len(data).to_bytes(4, 'little'), text, data]
    return b''.join(parts)


def text():
    return ''.join(line + '\n' for made in CASES for line in lines(*made)).encode('ascii')


def main():
    heading_cases()
    page_cases()
    limit_cases()
    order_cases()
    map_cases()
    sweep_cases()
    random_cases()
    keep(f'{len(CASES):,} maps', [(FOLDER / 'stdin', stream()), (FOLDER / 'stdout', text())])


if __name__ == '__main__':
    main()
