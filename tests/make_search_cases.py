"""Writes the cases of the program search_test, crates/search_test/stdin, and what it must print, stdout beside it.

    python3 tests/make_search_cases.py            write both files
    python3 tests/make_search_cases.py --check    only compare them with what would be written; exit 1 on a difference

The expected text comes from searches.py. demands.py holds each outcome against what the documents promise, and any two
for two lengths of the strip on one map from one source; where document 01 or document 02, C-11, C-14 or C-15, states an
answer, a list, times, moves or predecessors, the case below states them by hand. The generator stops where one of these
says otherwise, and where no case needs a part of C-14's order or of C-15 (variants.py).
"""
import random
from collections import Counter, namedtuple
from itertools import combinations

from demands import check, check_lengths
from limits import LONGEST_STRIP, random_limit, random_limits, strips_about
from maps import image, move, page, station, u16, u32
from reader import PAGE
from searches import NO_TIME, df, plain
from stored import ROOT, keep
from variants import NEEDED, differences

FOLDER = ROOT / 'crates' / 'search_test'

# The length of the strip in calls that name no other: that of document 01's example.
STRIP = 8120

# What stands in each table before a call: times, moves, predecessors, marks, page list.
BEFORE = (2863311530, 52428, 43690, 170, 187)
NAMES = ('times', 'moves', 'predecessors', 'marks', 'list')
TABLES = len(NAMES)
# Larger images are not searched again by variants of the searches, for the time that it takes.
SMALL_MAP = 12000
MOST_RUNS = 64
PRIME = 4294967291


# Maps and pages

def spelled(directory, moves, pages):
    """The image of a map whose station s has the moves moves.get(s), in any order: (target, time), or (target, time,
    limit), which is `03` if the limit is not None."""
    made = []
    for p in range(pages):
        own = [s for s in range(len(directory)) if directory[s] == p]
        made.append(page(*[station(s) + b''.join(move(*m) for m in sorted(moves.get(s, []))) for s in own]))
    return image(directory, *made)


def drawn(directory, text, pages=None):
    """The image of a map written as document 01 writes one, `0-1/4, 0-4/2`, and a limit behind the time: `0-4/2/9`."""
    moves = {}
    for one in text.replace(',', ' ').split():
        way, *numbers = one.split('/')
        begin, target = map(int, way.split('-'))
        moves.setdefault(begin, []).append((target, *map(int, numbers)))
    return spelled(directory, moves, max(directory) + 1 if pages is None else pages)


def damaged(data, *changes):
    """The bytes with each change (offset, value) made."""
    data = bytearray(data)
    for at, value in changes:
        data[at] = value
    return bytes(data)


def page_begins(data, p):
    """Where page p begins."""
    return 4 + int.from_bytes(data[:2], 'little') + PAGE * p


# The expected text

def answer_words(answer):
    if answer[0] == 'accepted':
        return 'accepted, count {}, reached {}'.format(*answer[1:])
    names = {1: (), 2: ('station',), 4: ('page', 'offset', 'count')}[len(answer) - 1]
    return ', '.join([f'refused {answer[1]}'] + [f'{name} {value}' for name, value in zip(names, answer[2:])])


def runs(entries):
    """The entries as runs of equal ones: (value, count) pairs."""
    made = []
    for entry in entries:
        if made and made[-1][0] == entry:
            made[-1][1] += 1
        else:
            made.append([entry, 1])
    return made


def run_words(value, count):
    return f' {value}' if count == 1 else f' {value}*{count}'


def table_words(entries):
    """A table as the program prints it: its runs, or its length, digest and last run."""
    parts = runs(entries)
    if len(parts) <= MOST_RUNS:
        return ''.join(run_words(*part) for part in parts)
    digest = 0
    for entry in entries:
        digest = (digest * 65599 + entry + 1) % PRIME
    return f' length {len(entries)}, digest {digest}, last{run_words(*parts[-1])}'


def after(outcome, lengths):
    """All entries of the five tables after a call."""
    for written, length, before in zip(outcome[1:], lengths, BEFORE):
        assert len(written) <= length
        yield list(written) + [before] * (length - len(written))


def call_lines(call, lengths, outcomes):
    """The lines that the program prints for a call."""
    yield f' from {call.source}, strip {call.strip}, tables ' + ' '.join(map(str, lengths))
    for at, value in call.changes:
        yield f'  byte {at} becomes {value}'
    for name, outcome in zip(('plain', 'df'), outcomes):
        yield f'  {name}: {answer_words(outcome.answer)}'
        for table, entries in zip(NAMES, after(outcome, lengths)):
            yield f'   {table}{table_words(entries)}'


# The cases

# A call of both searches that was made.
Made = namedtuple('Made', 'strip source image outcomes')


def compare_lengths(calls):
    """Compares any two of the calls that have one image and one source, but two lengths."""
    for one, other in combinations(sorted(calls, key=lambda call: call.strip), 2):
        if one.strip < other.strip and (one.source, one.image) == (other.source, other.image):
            for shorter, longer in zip(one.outcomes, other.outcomes):
                check_lengths(shorter, longer)


class Cases:
    """The maps with their calls: the bytes that the program reads, and the lines that it must print."""

    def __init__(self):
        self.searches, self.stream, self.lines = 0, [], []
        self.rng = random.Random(240)  # the bytes of unlisted pages in second images
        self.needs = Counter()  # how many calls need which part of C-14's order or of C-15, and for what

    def add(self, label, data, calls):
        text = label.encode('ascii')
        self.stream += [bytes([len(text)]), u16(len(calls)), u32(len(data)), text, data]
        self.lines.append(label)
        made = []
        for one in calls:
            data = damaged(data, *one.changes)
            made.append(Made(one.strip, one.source, data, self.add_call(label, data, one)))
        compare_lengths(made)

    def add_call(self, label, data, one):
        lengths = one.lengths
        if lengths is None:
            lengths = (int.from_bytes(data[:2], 'little'),) * TABLES
        outcomes = check(data, one.source, one.strip, lengths, plain, df, self.rng)
        one.compare(label, outcomes)
        if len(data) <= SMALL_MAP:
            self.needs.update(differences(data, one.source, one.strip, lengths, outcomes))
        self.stream += [u16(one.source), u16(one.strip), *map(u16, lengths), bytes([len(one.changes)])]
        self.stream += [u32(at) + bytes([value]) for at, value in one.changes]
        self.lines += call_lines(one, lengths, outcomes)
        self.searches += len(outcomes)
        return outcomes

    def check_needs(self):
        for variant, names in NEEDED.items():
            for name in names:
                assert self.needs[variant, name], f'no case in which {variant.__name__} has another {name}'


class Call:
    """A call of both searches.

    `lengths` are those of the lent tables, N each if not given. `changes` are made to the image first and stay. `strip`
    is the strip's length. `wanted` is stated by hand: answer (of both searches, or how it begins), times, moves,
    predecessors, list, plain_list.
    """

    def __init__(self, source, lengths=None, changes=(), strip=STRIP, **wanted):
        self.source, self.lengths, self.changes, self.strip, self.wanted = source, lengths, changes, strip, wanted

    def compare(self, label, outcomes):
        of_plain, of_df = outcomes
        asked = self.source, self.strip
        found = {'times': of_df.times, 'moves': of_df.moves, 'predecessors': of_df.predecessors, 'list': of_df.list,
                 'plain_list': of_plain.list}
        for name, value in self.wanted.items():
            if name == 'answer':
                for outcome in outcomes:
                    words = answer_words(outcome.answer)
                    assert words == value or words.startswith(value + ','), (label, *asked, words, value)
            else:
                numbers = [int(word) for word in value.split()]
                assert found[name] == numbers, (label, *asked, name, found[name], numbers)


def number_words(numbers):
    """The numbers of a table or a list, as a case states them."""
    return ' '.join(map(str, numbers))


def from_all(n, lengths=None):
    return [Call(source, lengths) for source in range(n)]


# "S is the 261-byte map `01 00 01 00 00` and a page `01 00 00 00` then zeros."
S = bytes.fromhex('01 00 01 00 00  01 00 00 00') + bytes(252)

# "M7: stations 0 to 3 on page 0, 4 to 6 on page 1"
M7 = drawn([0, 0, 0, 0, 1, 1, 1], '0-1/4, 0-4/2, 1-2/3, 2-3/3, 3-5/3, 4-2/1, 4-5/6, 5-6/1')
M7_PAGES = [page_begins(M7, 0), page_begins(M7, 1)]

# M7, where 0-4 takes strips of up to 8120 and 4-2 of up to 8119
M7_LIMITED = drawn([0, 0, 0, 0, 1, 1, 1], '0-1/4, 0-4/2/8120, 1-2/3, 2-3/3, 3-5/3, 4-2/1/8119, 4-5/6, 5-6/1')

# "N 4, one page, from 0: 0-1/6, 0-2/5, 1-3/4, 2-3/5"
C6 = drawn([0] * 4, '0-1/6, 0-2/5, 1-3/4, 2-3/5')

# First bytes of a page with stations that make it bad: a station is missing, a move comes first, the code is unknown.
BAD_BEGINNINGS = [0, 2, 3, 4, 255]

# "N 2, P 2, station i on page i, no moves, page 1 begins `07`"
C8 = image([0, 1], page(station(0)), page(b'\x07'))


def course_cases(cases):
    """C1 to C9."""
    cases.add('C1 to C4: M7', M7, [
        Call(0, answer='accepted', times='0 4 3 6 2 8 9', moves='0 1 2 3 1 2 3', predecessors='65534 0 4 2 0 4 5',
             list='0 1 0', plain_list='0 1 0 0 0 1 1'),
        Call(6, answer='accepted, count 1, reached 1', moves='65535 65535 65535 65535 65535 65535 0', list='1',
             plain_list='1'),
        *from_all(7, (9, 11, 8, 10, 12)),
        Call(0, (2100,) * 5)])
    cases.add('C5: S', S, [
        Call(0, answer='accepted, count 1, reached 1', times='0', moves='0', list='0'), Call(0, (4, 6, 3, 2, 5))])
    cases.add('C6', C6, [
        # both ways to 3 have two moves: its predecessor is still 1
        Call(0, answer='accepted', times='0 6 5 10', moves='0 1 1 2', predecessors='65534 0 0 1', list='0',
             plain_list='0 0 0 0'),
        *from_all(4, (5, 9, 6, 7, 8))])
    bad = damaged(M7, (M7_PAGES[1], 7))
    cases.add('C7: M7, page 1 begins 07', bad, [
        Call(0, answer='refused 8, page 1, offset 0, count 2', list='0 1', plain_list='0 1'),
        *from_all(7, (8, 12, 9, 10, 11)),
        Call(0, (2100,) * 5)])
    cases.add('C8 and C9', C8, [
        Call(0, answer='accepted, count 1, reached 1', list='0', plain_list='0'),
        Call(1, answer='refused 8, page 1, offset 0, count 1', list='1', plain_list='1'),
        Call(0, (5, 7, 4, 3, 6)), Call(1, (5, 7, 4, 3, 6))])


def lent(n):
    """Table lengths about n: exactly n, one short in each table and in all, longer, and none at all."""
    rows = [(n,) * TABLES]
    rows += [tuple(n - (k == short) for k in range(TABLES)) for short in range(TABLES)]
    rows += [tuple(n + 5 * (k != short) - (k == short) for k in range(TABLES)) for short in range(TABLES)]
    return rows + [(n - 1,) * TABLES, (n + 1, n + 5, n + 2, n + 3, n + 4), (0,) * TABLES]


def refusal_cases(cases):
    """Rows 1 to 7, in order, and that a lower row is answered before a higher one."""
    def row(label, data, answer, source=0, lengths=(3, 7, 4, 5, 6)):
        cases.add(label, data, [Call(source, lengths, answer=answer), Call(source, (0,) * TABLES, answer=answer),
                                Call(65535, lengths, answer=answer)])

    row('1: an empty image', b'', 'refused 1')
    row('1: 3 bytes, 01 00 01', b'\x01\x00\x01', 'refused 1')
    row('2: 00 00 01 00', b'\x00\x00\x01\x00', 'refused 2')
    row('2: N 0 in an image of the right length', image([], page()), 'refused 2')
    row('2: N 2,049', image([0] * 2049, page()), 'refused 2', lengths=(2100,) * 5)
    row('2: N 2,049 and P 241', u16(2049) + u16(241), 'refused 2')
    row('3: 01 00 00 00', b'\x01\x00\x00\x00', 'refused 3')
    row('3: P 0 in an image of the right length', image([0]), 'refused 3')
    row('3: P 241', u16(1) + u16(241) + b'\x00', 'refused 3')
    row('3: P 241 in an image of the right length', image([240], *[page()] * 240, page(station(0))), 'refused 3')
    row('3: P 65,535', u16(1) + u16(65535), 'refused 3')
    row('4: S less its last byte', S[:-1], 'refused 4')
    row('4: S and one byte more', S + b'\x00', 'refused 4')
    row('4: the heading of S alone', S[:4], 'refused 4')
    row('4: S less its last byte, directory 01', damaged(S, (4, 1))[:-1], 'refused 4')
    row('5: S, directory 01', damaged(S, (4, 1)), 'refused 5, station 0')
    row('5: M7, stations 3 and 5 on no page', damaged(M7, (7, 2), (9, 255)), 'refused 5, station 3')
    row('5: M7, the last station on no page, page 0 begins 07', damaged(M7, (10, 2), (11, 7)), 'refused 5, station 6')

    six = [Call(source, lengths, answer='refused 6')
           for source in (1, 2, 256, 32768, 65534, 65535) for lengths in ((1,) * 5, (3, 7, 4, 5, 6), (0,) * 5)]
    cases.add('6: S, source 1 and above', S, six)
    cases.add('6: M7, source 6, then 7 and above', M7, [
        Call(6, answer='accepted'), Call(7, answer='refused 6'), Call(8, (7, 11, 8, 9, 10), answer='refused 6'),
        Call(256, answer='refused 6'), Call(65535, answer='refused 6'), Call(7, (0,) * 5, answer='refused 6')])

    def seven(n, otherwise):
        return [Call(0, lengths, answer='refused 7' if min(lengths) < n else otherwise) for lengths in lent(n)]

    cases.add('7: S, a list of 0 entries', S, [Call(0, (1, 1, 1, 1, 0), answer='refused 7'), *seven(1, 'accepted')])
    cases.add('7: M7, tables of about 7 entries', M7, seven(7, 'accepted'))
    # "A fifth table, u16 moves per station (none 65,535), is lent; a short one is refusal 7"
    cases.add('7: M7, moves alone too short, or alone longer', M7, [
        *[Call(0, (7, short, 7, 7, 7), answer='refused 7') for short in (0, 1, 6)],
        Call(0, (2100, 6, 2100, 2100, 2100), answer='refused 7'),
        Call(0, (7, 2100, 7, 7, 7), answer='accepted'), Call(6, (7, 8, 7, 7, 7), answer='accepted')])
    cases.add('7: M7 with two bad pages, tables of about 7 entries', damaged(M7, *[(at, 7) for at in M7_PAGES]),
              seven(7, 'refused 8, page 0, offset 0, count 1'))


def faults():
    """Bad pages for page 1 of a map: label, number and offset, the page's stations, the page.

    Limits are 0 or closed to the strip: a move that is closed is judged all the same.
    """
    many = [1] + list(range(3, 88))
    full = page(station(1), b''.join(move(target, 1) for target in range(2, 52)), station(52))
    last_byte = page(station(1), b''.join(move(target, 1) for target in range(2, 50)), *map(station, range(50, 54)),
                     b'\x03')
    return [
        ('8: page 07', (8, 0), [1], page(b'\x07')),
        ('8: code 04 behind a station', (8, 3), [1], page(station(1), b'\x04')),
        ('9: 86 stations on one page', (9, 255), many, b''.join(map(station, many))[:PAGE]),
        ('9: no 00', (9, 256), [1, 52], full),
        ('9: code 03 in the last byte', (9, 255), [1, *range(50, 54)], last_byte),
        ('10: page all zero', (10, 0), [1], page()),
        ('10: not the next station', (10, 0), [1], page(station(2))),
        ('10: one missing at 00', (10, 3), [1, 3], page(station(1))),
        ('11: page 02 00 00 01 00', (11, 0), [1], page(bytes.fromhex('02 00 00 01 00'))),
        ('11: a move with a limit', (11, 0), [1], page(move(2, 1, 1))),
        ('12: target N', (12, 3), [1], page(station(1), move(3, 1))),
        ('12: target N, with a limit', (12, 3), [1], page(station(1), move(3, 1, 1))),
        ('12: own station', (12, 3), [1], page(station(1), move(1, 1))),
        ('12: not rising', (12, 8), [1], page(station(1), move(2, 1), move(2, 1))),
        ('12: the same target by 02 and 03', (12, 8), [1], page(station(1), move(2, 1), move(2, 1, 1))),
        ('12: the same target by 03 and 02', (12, 10), [1], page(station(1), move(2, 1, 1), move(2, 1))),
        ('12: own station, time 0', (12, 3), [1], page(station(1), move(1, 0))),
        ('12: not rising, time 0', (12, 10), [1], page(station(1), move(2, 0, 1), move(2, 0))),
        ('14: byte not 00 after the end', (14, 3), [1], page(station(1), b'\x00\x05')),
        ('14: the last byte of the page', (14, 3), [1], page(station(1), bytes(252), b'\x01')),
        ('18: limit 0', (18, 3), [1], page(station(1), move(2, 1, 0))),
        ('18: limit 0, time 0 too', (18, 3), [1], page(station(1), move(2, 0, 0)))]


def page_refusal_cases(cases):
    """Rows 8 to 12, 14 and 18 on a page that is reached, and on one that is not.

    Station 0 is on page 0, station 1 on page 1 with the fault, station 2 on page 2. The moves are 0-1/1 and 2-0/1, or
    0-2/1 and 2-0/1 where the fault is not to be reached.
    """
    for label, (number, offset), own, bad in faults():
        n = max(own + [2]) + 1
        directory = [0] + [1 if s in own else 2 for s in range(1, n)]
        others = [s for s in range(3, n) if s not in own]
        last = page(station(2), move(0, 1), *map(station, others))
        refused = f'refused {number}, page 1, offset {offset}'
        roomy = (n + 1, n + 4, n + 2, n, n + 3)
        cases.add(label + ', reached', image(directory, page(station(0), move(1, 1)), bad, last), [
            Call(0, answer=refused + ', count 2', list='0 1', plain_list='0 1'),
            Call(1, roomy, answer=refused + ', count 1', list='1', plain_list='1'),
            Call(2, roomy, answer=refused + ', count 3', list='2 0 1', plain_list='2 0 1')])
        cases.add(label + ', not reached', image(directory, page(station(0), move(2, 1)), bad, last), [
            Call(0, answer='accepted, count 2, reached 2', list='0 2', plain_list='0 2'),
            Call(2, roomy, answer='accepted, count 2, reached 2', list='2 0', plain_list='2 0')])

    # 2 and 3 both have time 5; then the move 0-3 takes 4
    two = drawn([0, 0, 1, 2, 3], '0-2/5 0-3/5 0-4/5 0-1/1 1-3/4 4-0/1')
    cases.add('which of two bad pages is refused: least time, then lowest number', two, [
        Call(0, changes=[(page_begins(two, p), 9) for p in (1, 2)], answer='refused 8, page 1, offset 0',
             list='0 1', plain_list='0 0 1'),
        Call(0, changes=[(page_begins(two, 0) + 16, 4)], answer='refused 8, page 2, offset 0', list='0 2'),
        Call(4, (6, 10, 7, 8, 9), list='3 0 2')])


def tie_cases(cases):
    """Equal sums and ties of every kind."""
    # an equal sum that made station 2 not fresh would give the list 1 0 1
    cases.add('an equal sum leaves a station fresh', drawn([0, 1, 1, 1], '1-0/1, 1-3/1, 3-2/1, 0-2/1'), [
        Call(1, answer='accepted', times='1 0 2 1', moves='1 0 2 1', predecessors='1 65534 0 1', list='1 0',
             plain_list='1 0 1 1'),
        *from_all(4, (4, 8, 5, 6, 7))])
    cases.add('an equal sum from a higher station keeps the predecessor', drawn(
        [0, 0, 1, 1], '0-1/1, 0-2/1, 1-3/1, 2-3/1'), [
            Call(0, times='0 1 1 2', predecessors='65534 0 0 1'), *from_all(4, (4, 8, 5, 6, 7))])
    cases.add('equal sums from the highest station on down', drawn(
        [0, 1, 2, 0, 1, 2, 0], '6-5/1 6-4/2 6-3/3 6-2/4 6-1/5 5-0/9 4-0/8 3-0/7 2-0/6 1-0/5'), [
            Call(6, times='10 5 4 3 2 1 0', predecessors='1 6 6 6 6 6 65534'), *from_all(6, (9, 9, 9, 9, 9))])
    cases.add('a settled station gets a lower predecessor by an equal sum only from an earlier time',
              drawn([0, 1, 0, 1, 0], '3-4/1 4-0/1 3-1/1 1-0/1 3-2/1 2-0/1 0-1/1'),
              [Call(3, times='2 1 1 0 1', moves='2 1 1 0 1', predecessors='1 3 3 65534 3'), *from_all(3)])
    cases.add('all stations at the same time', spelled(
        [s % 3 for s in range(12)], {11: [(target, 5) for target in range(11)]}, 3), [
            Call(11, predecessors='11 11 11 11 11 11 11 11 11 11 11 65534'), Call(0)])
    cases.add('all moves between 8 stations, each of time 1', spelled(
        [0, 0, 0, 0, 1, 1, 1, 1], {s: [(t, 1) for t in range(8) if t != s] for s in range(8)}, 2),
        from_all(8, (8, 12, 9, 10, 11)))
    grid = grid_moves(6, [(1, 0, 2), (-1, 0, 2), (0, 1, 2), (0, -1, 2)])
    quarters = [s % 6 // 3 + 2 * (s // 18) for s in range(36)]
    cases.add('a grid of 6 by 6 in four pages, all times equal', spelled(quarters, grid, 4),
              [Call(s, (36, 40, 37, 38, 39)) for s in (0, 14, 21, 35)])
    cases.add('the same grid, a page for each row', spelled([s // 6 for s in range(36)], grid, 6), [Call(0), Call(20)])
    cases.add('the same grid, a page for each column', spelled([s % 6 for s in range(36)], grid, 6),
              [Call(0), Call(20)])


def grid_moves(side, steps):
    """The moves of a square grid: from each station by each step (to the right, down, time) that stays on the grid."""
    moves = {}
    for s in range(side * side):
        near = [(s % side + right, s // side + down, time) for right, down, time in steps]
        moves[s] = [(side * y + x, time) for x, y, time in near if 0 <= x < side and 0 <= y < side]
    return moves


def moves_cases(cases):
    """Ways of equal time and unequal numbers of moves (document 02, C-14)."""
    # "Crane drivers prefer, at equal time, the way with fewer moves.": to 4 by 3, not by 2
    cases.add('fewer moves by a higher station', drawn([0, 0, 0, 1, 1], '0-1/1 1-2/1 2-4/1 0-3/2 3-4/1'), [
        Call(0, times='0 1 2 2 3', moves='0 1 2 1 2', predecessors='65534 0 1 0 3', list='0 1', plain_list='0 0 1 0 1'),
        *from_all(2, (5, 9, 6, 7, 8))])
    cases.add('fewer moves by a higher station that is settled later', drawn(
        [0] * 5, '0-1/1 1-2/1 2-4/2 0-3/3 3-4/1'), [
            Call(0, times='0 1 2 3 4', moves='0 1 2 1 2', predecessors='65534 0 1 0 3'), Call(1)])
    cases.add('one move from the source, or two by either lower station', drawn(
        [0, 1, 0, 1], '3-0/2 3-1/1 1-0/1 3-2/1 2-0/1 0-1/1'), [
            Call(3, times='2 1 1 0', moves='1 1 1 0', predecessors='3 3 3 65534'), *from_all(3)])
    # "The predecessor is the lowest station that gives both numbers.": 2 gives only the time of 5
    cases.add('the lowest of two stations that give both numbers, and a lower one', drawn(
        [0, 0, 1, 1, 0, 1], '0-1/1 1-2/1 2-5/1 0-3/2 3-5/1 0-4/2 4-5/1'), [
            Call(0, times='0 1 2 2 2 3', moves='0 1 2 1 1 2', predecessors='65534 0 1 0 0 3'),
            Call(0, (7, 11, 8, 9, 10))])
    # "Less means less time, then fewer moves"
    cases.add('less time by more moves', drawn([0, 1, 0, 1], '0-3/4 0-1/1 1-2/1 2-3/1'), [
        Call(0, times='0 1 2 3', moves='0 1 2 3', predecessors='65534 0 1 2', list='0 1 0 1')])
    cases.add('an equal time by more moves changes nothing', drawn([0, 1, 1], '1-0/1, 1-2/2, 0-2/1'), [
        Call(1, times='1 0 2', moves='1 0 1', predecessors='1 65534 1', list='1 0', plain_list='1 0 1'),
        Call(0, (4, 8, 5, 6, 7))])
    # 3 and 4, by one move, come before 2, by two
    cases.add('chosen by time, then moves, then number', drawn([0, 0, 1, 2, 3], '0-1/1 1-2/1 0-3/2 0-4/2'), [
        Call(0, times='0 1 2 2 2', moves='0 1 2 1 1', list='0 2 3 1', plain_list='0 0 2 3 1'),
        Call(0, (5, 9, 6, 7, 8))])
    # the same time for both lengths, and not fewer moves for the longer
    cases.add('one move for strips of up to 100, and two in the same time for all', drawn(
        [0, 1, 0], '0-1/1 1-2/1 0-2/2/100'), [
            Call(0, strip=100, times='0 1 2', moves='0 1 1', predecessors='65534 0 0', list='0 1'),
            Call(0, strip=101, times='0 1 2', moves='0 1 2', predecessors='65534 0 1', list='0 1 0')])


# From 0, page 0 is worked through: 4 has time 4 by three moves, and 5 has time 5 by 3. Then 6 gives 4 its time by two
# moves, and 5 is reached by 4. A station 4 that stayed fresh would leave 5 to 3 and give the list 0 1.
WORKED_THROUGH = drawn([0, 0, 0, 0, 0, 0, 1], '0-1/1 1-2/1 2-3/1 2-4/2 3-5/2 4-5/1 0-6/2 6-4/2')


def fresh_cases(cases):
    """Stations that get fewer moves at the same time after their page was worked through (document 02, C-14)."""
    cases.add('a station worked through gets fewer moves at the same time', WORKED_THROUGH, [
        Call(0, times='0 1 2 3 4 5 2', moves='0 1 2 3 2 3 1', predecessors='65534 0 1 2 6 4 0', list='0 1 0',
             plain_list='0 0 1 0 0 0 0'),
        Call(0, (7, 11, 8, 9, 10)), Call(2)])
    # the same, and 5 is on a page of its own
    cases.add('a station worked through gets fewer moves, and so does one on the next page', drawn(
        [0, 0, 0, 0, 0, 2, 1], '0-1/1 1-2/1 2-3/1 2-4/2 3-5/2 4-5/1 0-6/2 6-4/2'), [
            Call(0, times='0 1 2 3 4 5 2', moves='0 1 2 3 2 3 1', predecessors='65534 0 1 2 6 4 0', list='0 1 0 2',
                 plain_list='0 0 1 0 0 0 2')])
    # 1, 2 and 3 get fewer moves from 10, 11 and 12, one after the other
    cases.add('a page fetched again and again for fewer moves alone', drawn(
        [0] * 10 + [1, 2, 3], '0-4/1 4-5/1 5-1/1 1-6/1 6-7/1 7-2/1 2-8/1 8-9/1 9-3/1 '
        '0-10/1 10-1/2 0-11/4 11-2/2 0-12/7 12-3/2'), [
            Call(0, times='0 3 6 9 1 2 4 5 7 8 1 4 7', moves='0 2 2 2 1 2 3 4 3 4 1 1 1',
                 predecessors='65534 10 11 12 0 4 1 6 2 8 0 0 0', list='0 1 0 2 0 3 0'),
            Call(0, (13, 17, 14, 15, 16))])


def two_bad_pages(cases, when, moves):
    """Which of two bad pages is refused, at one time. From 0, station 2 is reached by two moves and station 3 by one;
    from 4 both by one. Their pages are bad, by 8 and by 10."""
    for label, directory in [('the lower number on the lower page', [0, 0, 1, 2, 3]),
                             ('the lower number on the higher page', [0, 0, 2, 1, 3])]:
        of_2, of_3 = directory[2], directory[3]
        tied = drawn(directory, moves)
        bad = damaged(tied, (page_begins(tied, of_2), 7), (page_begins(tied, of_3), 0))
        cases.add(f'which of two bad pages is refused {when}: fewest moves, then lowest number; {label}', bad, [
            Call(0, answer=f'refused 10, page {of_3}, offset 0', list=f'0 {of_3}', plain_list=f'0 0 {of_3}'),
            Call(4, answer=f'refused 8, page {of_2}, offset 0, count 2', list=f'3 {of_2}', plain_list=f'3 {of_2}'),
            Call(0, (6, 10, 7, 8, 9)), Call(4, (6, 10, 7, 8, 9))])


def refused_at_equal_time_cases(cases):
    """Which of the bad pages is refused whose stations have the same time (document 02, C-14)."""
    two_bad_pages(cases, 'at equal time', '0-1/2 1-2/3 0-3/5 4-2/5 4-3/5')
    rng = random.Random(14)
    for number in range(1, 11):
        data, row, first = tied_pages_map(rng)
        roomy = roomy_tables(rng, int.from_bytes(data[:2], 'little'), number)
        cases.add(f'bad pages at the same time {number}', data, [
            Call(row[0], list=f'{data[4 + row[0]]} {data[4 + first]}'), Call(rng.choice(row[1:]), roomy)])


def tied_pages_map(rng):
    """A map of five stations in a row on a good page and of bad pages with one station each, which a move from one of
    the five leads to: by one to five moves, and always at time 9. With it the row, and the bad pages' first station."""
    n = rng.randint(7, 10)
    order = rng.sample(range(n), n)
    row, others = order[:5], order[5:]
    moves = {s: [] for s in row}
    for u, v in zip(row, row[1:]):
        moves[u].append((v, 1))
    before = {v: rng.randrange(5) for v in others}  # the moves up to the station of the row
    for v, k in before.items():
        moves[row[k]].append((v, 9 - k))
    places = rng.sample(range(n - 4), n - 4)
    directory = [places[max(0, order.index(s) - 4)] for s in range(n)]
    data = spelled(directory, moves, n - 4)
    bad = [(page_begins(data, p), rng.choice(BAD_BEGINNINGS)) for p in places[1:]]
    return damaged(data, *bad), row, min(before, key=lambda v: (before[v], v))


def many_ties_cases(cases):
    """Maps on which nearly all ways tie, by equal or unequal numbers of moves (document 02, C-14)."""
    side = 20
    blocks = [s % side // 5 + 4 * (s // side // 2) for s in range(side * side)]
    turn = [s % 40 for s in range(side * side)]
    cases.add('a grid of 20 by 20 in 40 pages, all times equal', spelled(
        blocks, grid_moves(side, [(1, 0, 7), (-1, 0, 7), (0, 1, 7), (0, -1, 7)]), 40), [Call(0), Call(210)])
    # From the last station all ways to a station take the same time, and those by steps of two have the fewest moves.
    # The lowest station that gives both numbers is to the right, next to it if as many steps as lie there are odd, or
    # else two steps away; in the last column, where nothing is to the right, it is below, likewise.
    jumps = grid_moves(side, [(-1, 0, 1), (-2, 0, 2), (0, -1, 1), (0, -2, 2)])
    away = [(side - 1 - s % side, side - 1 - s // side) for s in range(side * side)]
    times = [right + down for right, down in away]
    moves = [(right + 1) // 2 + (down + 1) // 2 for right, down in away]
    predecessors = [s + (2 - right % 2 if right else side * (2 - down % 2)) for s, (right, down) in enumerate(away)]
    stated = [number_words(times), number_words(moves), number_words(predecessors[:-1] + [65534])]
    for label, directory in [('in 40 blocks', blocks), ('on 40 pages in turn', turn)]:
        cases.add(f'a grid of 20 by 20 {label}, one step in time 1 and two in time 2', spelled(directory, jumps, 40), [
            Call(399, times=stated[0], moves=stated[1], predecessors=stated[2]), Call(210)])
    for label, most in [('dense', 9), ('sparse', 2)]:
        directory = [s % 20 for s in range(100)]
        targets = dealt_moves(directory, random.Random(most), most=most)
        for which, most_time in [('all times 1', 1), ('times 1 and 2', 2), ('times 1 to 3', 3)]:
            timed = {u: [(v, (u * 31 + v * 977) % most_time + 1) for v in leaving] for u, leaving in targets.items()}
            cases.add(f'a {label} map of 100 stations, {which}', spelled(directory, timed, 20),
                      [Call(0), Call(50, (100, 104, 101, 102, 103))])


def page_again_cases(cases):
    """Pages that are entered again and again, and lowered stations."""
    zigzag = {s: [(s + 1, 1)] for s in range(39)}
    cases.add('a chain that changes page at each move', spelled([s % 2 for s in range(40)], zigzag, 2), [
        Call(0, list=' '.join(str(s % 2) for s in range(40))), Call(39, list='1'), Call(17, (41, 45, 42, 43, 44))])
    back = {s: [(s - 1, 3)] for s in range(1, 40)}
    cases.add('a chain that falls, on 8 pages in turn', spelled([s % 8 for s in range(40)], back, 8), [
        Call(39), Call(0), Call(8)])
    cases.add('a chain page by page', spelled([s // 8 for s in range(40)], zigzag, 5), [
        Call(0, list='0 1 2 3 4'), Call(39), Call(12)])
    cases.add('a station lowered by one page after another', drawn(
        [0, 1, 2, 3, 4, 0, 0], '0-1/1 0-2/2 0-3/3 0-4/4 0-5/50 1-5/40 2-5/30 3-5/20 4-5/10 5-6/1'), [
            Call(0, times='0 1 2 3 4 14 15', predecessors='65534 0 0 0 0 4 5', list='0 1 2 3 4 0'),
            *from_all(7, (7, 11, 8, 9, 10))])
    cases.add('a page worked through at once, and each station lowered later', drawn(
        [0, 0, 0, 0, 0, 1, 1, 1, 1], '0-1/10 1-2/10 2-3/10 3-4/10 0-5/1 5-1/1 0-6/3 6-2/2 0-7/5 7-3/2 0-8/7 8-4/2'), [
            Call(0, times='0 2 5 7 9 1 3 5 7'), *from_all(9, (9, 9, 9, 9, 9))])
    cases.add('lowered by its own page while that is worked through', drawn(
        [0, 0, 0, 0], '0-3/9 0-1/1 1-3/7 1-2/1 2-3/5'), [Call(0, times='0 1 2 7', list='0'), Call(1), Call(2)])
    both = {}
    for s in range(18):
        both[s] = [(18 + s, 1), ((s + 1) % 18, 4)]
        both[18 + s] = [((s + 1) % 18, 1), (18 + (s + 1) % 18, 4)]
    cases.add('two rings on two pages, the short way across', spelled([s // 18 for s in range(36)], both, 2),
              [Call(0), Call(25, (36, 40, 50, 60, 70))])
    cases.add('stations that no walk reaches', drawn([0, 1, 2, 0, 1, 2], '0-1/7 1-0/7 3-4/1 4-5/1 5-3/1 5-0/2', 4), [
        Call(0, answer='accepted, count 2, reached 2', times='0 7 4294967295 4294967295 4294967295 4294967295',
             moves='0 1 65535 65535 65535 65535', predecessors='65534 0 65535 65535 65535 65535'),
        *from_all(6, (7, 7, 7, 7, 7))])
    cases.add('no moves at all', drawn([0, 1, 2, 0, 1, 2], ''), from_all(6))


def limit_cases(cases):
    """Moves that are open to some lengths and closed to others (document 02, C-11)."""
    # "use a move only if its limit isn't below it; `02` has no limit": the moves to stations below `first` are closed
    rows = [(0, 1), (1, 1), (2, 2), (8118, 2), (8119, 2), (8120, 3), (8121, 4), (8122, 5), (65534, 5), (65535, 5)]
    cases.add('limits 1, 8119, 8120, 8121 and 65,535, and none', drawn(
        [0, 1, 1, 1, 0, 0, 0], '0-1/1/1 0-2/2/8119 0-3/3/8120 0-4/4/8121 0-5/5/65535 0-6/6'), [
            Call(0, strip=strip, times=' '.join(map(str, [0] + [NO_TIME] * (first - 1) + list(range(first, 7)))))
            for strip, first in rows])
    cases.add('18: a limit of 0, at every length', image([0, 0], page(station(0), move(1, 1, 0), station(1))), [
        Call(0, strip=strip, answer='refused 18, page 0, offset 3, count 1') for strip in (0, 1, 8120, LONGEST_STRIP)])

    cases.add('M7, 0-4 for strips of up to 8120, 4-2 of up to 8119', M7_LIMITED, [
        Call(0, strip=8119, times='0 4 3 6 2 8 9', predecessors='65534 0 4 2 0 4 5', list='0 1 0',
             plain_list='0 1 0 0 0 1 1'),
        Call(0, strip=8120, times='0 4 7 10 2 8 9', predecessors='65534 0 1 2 0 4 5', list='0 1',
             plain_list='0 1 0 0 1 1 0'),
        Call(0, strip=8121, times=f'0 4 7 10 {NO_TIME} 13 14', predecessors='65534 0 1 2 65535 3 5', list='0 1',
             plain_list='0 0 0 0 1 1'),
        Call(4, strip=8119, times=f'{NO_TIME} {NO_TIME} 1 4 0 6 7', list='1 0'),
        Call(4, strip=8120, times=f'{NO_TIME} {NO_TIME} {NO_TIME} {NO_TIME} 0 6 7', list='1')])
    cases.add('C6, 1-3 for strips of up to 500: the predecessor at equal time', drawn(
        [0] * 4, '0-1/6, 0-2/5, 1-3/4/500, 2-3/5'), [
            Call(0, strip=500, times='0 6 5 10', predecessors='65534 0 0 1'),
            Call(0, strip=501, times='0 6 5 10', predecessors='65534 0 0 2')])
    cases.add('a station lowered by fewer pages, the longer the strip', drawn(
        [0, 1, 2, 3, 4, 0, 0], '0-1/1 0-2/2 0-3/3 0-4/4 0-5/50 1-5/40/40 2-5/30/30 3-5/20/20 4-5/10/10 5-6/1'), [
            Call(0, strip=strip, times=f'0 1 2 3 4 {time} {time + 1}', list=made) for strip, time, made in [
                (10, 14, '0 1 2 3 4 0'), (11, 23, '0 1 2 3 4 0'), (30, 32, '0 1 2 3 4 0'), (40, 41, '0 1 2 3 4 0'),
                (41, 50, '0 1 2 3 4')]])
    # for a strip of 6 the source is the only entry station
    cases.add('a chain that changes page at each move, or stays on its page', drawn(
        [0, 1, 0, 1, 0], '0-1/1/5 1-2/1/5 2-3/1/5 3-4/1/5 0-2/9 1-3/9 2-4/9'), [
            Call(0, strip=5, times='0 1 2 3 4', list='0 1 0 1 0', plain_list='0 1 0 1 0'),
            Call(0, strip=6, times=f'0 {NO_TIME} 9 {NO_TIME} 18', list='0', plain_list='0 0 0')])
    cases.add('all moves between 8 stations, each of time 1 and a limit by how far it leads', spelled(
        [0, 0, 0, 0, 1, 1, 1, 1], {s: [(t, 1, 100 * abs(s - t)) for t in range(8) if t != s] for s in range(8)}, 2), [
            Call(s, (8, 12, 9, 10, 11), strip=strip)
            for s in (0, 3) for strip in (0, 101, 201, 301, 400, 401, 700, 701)])
    behind = drawn([0, 1, 2], '0-1/1/100 0-2/2/200')
    cases.add('two bad pages behind limits 100 and 200: which is refused, or none', behind, [
        Call(0, strip=100, changes=[(page_begins(behind, p), 7) for p in (1, 2)],
             answer='refused 8, page 1, offset 0, count 2'),
        Call(0, strip=0, answer='refused 8, page 1, offset 0, count 2'),
        Call(0, strip=101, answer='refused 8, page 2, offset 0, count 2'),
        Call(0, strip=200, answer='refused 8, page 2, offset 0, count 2'),
        Call(0, strip=201, answer='accepted, count 1, reached 1'),
        Call(0, strip=LONGEST_STRIP, answer='accepted, count 1, reached 1')])


# Tables with room for more than 2,048 stations.
ROOMY = (2100, 2060, 2090, 2080, 2070)


def long_chain_cases(cases):
    """Chains of 2,048 stations."""
    n = 2048
    chain = {s: [(s + 1, 65535)] for s in range(n - 1)}
    turn = [s % 240 for s in range(n)]
    data = spelled(turn, chain, 240)
    times = [65535 * s for s in range(n)]
    assert times[-1] == 134150145
    # Later 2000-2001 and 2001-2002 take 32,767 and 32,768, and 2000-2002 takes 65,535: the way there is a move shorter.
    # 2000 and 2001 are the last stations of pages 80 and 81, and each has one move, of which the time comes last.
    ends = [page_begins(data, p) + 8 * turn.count(p) for p in (80, 81)]
    shortcut = [*zip(range(ends[0] - 2, ends[0] + 5), u16(32767) + move(2002, 65535)),
                *zip(range(ends[1] - 2, ends[1]), u16(32768))]
    cases.add('the longest chain: N 2,048 on 240 pages, times 65,535', data, [
        Call(0, ROOMY, answer='accepted, count 2048, reached 2048', times=number_words(times),
             moves=number_words(range(n)), predecessors=number_words([65534, *range(n - 1)])),
        Call(2047, answer='accepted, count 1, reached 1'),
        Call(2048, ROOMY, answer='refused 6'),
        Call(0, (2048, 2048, 2048, 2048, 2047), answer='refused 7'),
        Call(0, (2048, 2047, 2048, 2048, 2048), answer='refused 7'),
        Call(1000, answer='accepted, count 1048, reached 1048'),
        Call(0, changes=shortcut, answer='accepted, count 2048, reached 2048',
             times=number_words([*times[:2001], times[2000] + 32767, *times[2001:-1]]),
             moves=number_words([*range(2002), *range(2001, n - 1)]),
             predecessors=number_words([65534, *range(2001), 2000, *range(2002, n - 1)]))])
    cases.add('a chain page by page: N 2,048 on 67 pages', spelled(
        [s // 31 for s in range(n)], {s: [(s + 1, 1)] for s in range(n - 1)}, 67), [
            Call(0, ROOMY, answer='accepted', times=number_words(range(n)), moves=number_words(range(n)),
                 list=number_words(range(67))),
            Call(1000)])
    cases.add('the same chain back, from the last station', spelled(
        [s // 31 for s in range(n)], {s: [(s - 1, 255)] for s in range(1, n)}, 67), [Call(2047), Call(31, ROOMY)])


def tied_chain_cases(cases):
    """A chain of 2,048 stations from the last one back, in moves of time 1; every 30th station also has a move over 30
    of them in their time, and the last station one to station 0 in the time of all."""
    n = 2048
    back = {s: [(s - 1, 1)] for s in range(1, n)}
    for s in range(n - 1, 29, -30):
        back[s].append((s - 30, 30))
    back[n - 1].append((0, n - 1))
    away = [n - 1 - s for s in range(n)]
    fewest = [k // 30 + k % 30 for k in away]
    before = [s + (1 if k % 30 else 30) for s, k in enumerate(away)]
    cases.add('a chain back, and moves that take the time of 30 and of all', spelled(
        [k // 30 for k in away], back, 69), [
            Call(2047, ROOMY, answer='accepted', times=number_words(away), moves=number_words([1, *fewest[1:]]),
                 predecessors=number_words([2047, *before[1:-1], 65534])),
            Call(1000)])


def large_cases(cases):
    """Full maps of 2,048 stations on 240 pages."""
    n = 2048
    turn = [s % 240 for s in range(n)]
    moves = dealt_moves(turn, random.Random(2048))
    for label, time in [('small times', lambda u, v: (u * 31 + v * 977) % 3 + 1),
                        ('large times', lambda u, v: 65535 - (u * 31 + v * 977) % 5000),
                        ('equal times', lambda u, v: 65535)]:
        data = spelled(turn, {u: [(v, time(u, v)) for v in targets] for u, targets in moves.items()}, 240)
        assert len(data) == 63492
        calls = [Call(0, ROOMY), Call(2047)]
        if label == 'small times':
            calls += [Call(1234, ROOMY, changes=[(page_begins(data, 239) + 255, 1)]),
                      Call(1234, changes=[(page_begins(data, 239) + 255, 0), (page_begins(data, 17), 4)])]
        cases.add('a full map: N 2,048 on 240 pages, ' + label, data, calls)
    moves = {u: [(v, (u * 31 + v * 977) % 9 + 1, (u * 977 + v * 31) % 65535 + 1 if (u + v) % 4 else None)
                 for v in targets] for u, targets in dealt_moves(turn, random.Random(2049), 7).items()}
    cases.add('a full map with limits: N 2,048 on 240 pages', spelled(turn, moves, 240), [
        Call(0, ROOMY, strip=strip) for strip in (0, 1, 8120, 30000, LONGEST_STRIP)])


def dealt_moves(directory, rng, size=5, most=5):
    """Targets for the stations of a map, so many each at most, as far as the pages hold moves of so many bytes."""
    room = {p: PAGE - 1 - 3 * directory.count(p) for p in set(directory)}
    moves = {}
    for s, p in enumerate(directory):
        count = min(most, room[p] // size)
        room[p] -= size * count
        moves[s] = sorted(rng.sample([t for t in range(len(directory)) if t != s], count))
    return moves


def random_directory(rng, n, pages):
    """Pages in turn, one after the other, or by chance."""
    kind = rng.randrange(3)
    return [s % pages if kind == 0 else s * pages // n if kind == 1 else rng.randrange(pages) for s in range(n)]


def random_times(rng, n):
    """A function that gives a move from u to v its time.

    Mostly each station has a height, and a move takes the difference of the heights, so that all ways up take equal
    sums, or a little more, so that times are lowered later.
    """
    if rng.random() < 0.3:
        times = rng.choice([[1], [1, 2], [5, 10, 15], [1, 65535], range(1, 10), range(1, 65536)])
        return lambda u, v: rng.choice(times)
    height = [rng.randint(0, rng.choice([3, 10, 30])) for _ in range(n)]
    more = rng.choice([[0], [0, 0, 0, 1], [0, 0, 1, 2, 5], [0, 3, 10, 20]])
    return lambda u, v: max(1, height[v] - height[u]) + rng.choice(more)


def random_map(rng, limits=(), times=()):
    """A good map of 1 to 40 stations on 1 to 8 pages, and a station that reaches many others by all moves. The moves
    have the limits and the times by chance, if any are given."""
    n, pages = rng.randint(1, rng.choice([4, 10, 20, 40])), rng.choice([1, 2, 2, 2, 3, 3, 4, 4, 5, 6, 8])
    directory = random_directory(rng, n, pages)
    time = (lambda u, v: rng.choice(times)) if times else random_times(rng, n)
    order = rng.sample(range(n), n)
    wanted = [(order[rng.randrange(k)], order[k]) for k in range(1, n) if rng.random() < 0.95]
    wanted += [(rng.randrange(n), rng.randrange(n)) for _ in range(rng.choice([0, n, 2 * n, 4 * n]))]
    return fitted(rng, directory, pages, wanted, time, limits), order[0]


def fitted(rng, directory, pages, wanted, time, limits):
    """The image of a map that has the moves wanted (from, target) as far as its pages have room."""
    room = {p: PAGE - 1 - 3 * directory.count(p) for p in range(pages)}
    moves = {}
    for u, v in wanted:
        limit = random_limit(rng, limits)
        size = 5 if limit is None else 7
        if u != v and v not in moves.setdefault(u, {}) and room[directory[u]] >= size:
            room[directory[u]] -= size
            moves[u][v] = v, time(u, v), limit
    return spelled(directory, {u: leaving.values() for u, leaving in moves.items()}, pages)


def rising_map(rng, limits=(), level=False):
    """A good map on which every move takes the difference of two heights, and so every way to a station the same time;
    and its lowest station. On a page one station leads to the next; to other pages it is often further, and so pages
    that were worked through get fewer moves from others. A map with level parts also has stations of one height that
    lead to each other, on one page or on two: these moves take no time."""
    n, pages = rng.choice([(rng.randint(8, 20), rng.randint(2, 6)), (rng.randint(80, 100), 8)])
    directory = random_directory(rng, n, pages)
    order = rng.sample(range(n), n)
    least, steps = 1, [0, 1, 1, 2]
    if level:
        least, steps = 0, rng.choice([[0, 0, 0, 1, 2], [0] * 9 + [3], [0] * 30 + [1]])
    height = {order[0]: 0}
    for below, s in zip(order, order[1:]):
        height[s] = max(least, height[below] + rng.choice(steps))
    own = [[s for s in order if directory[s] == p] for p in range(pages)]
    wanted = [pair for stations in own for pair in zip(stations, stations[1:])]
    wanted += [(order[rng.randrange(k)], order[k]) for k in range(1, n) for _ in range(2)]
    if level:
        wanted = [pair for u, v in wanted for pair in ((u, v), (v, u))]
    rising = [(u, v) for u, v in wanted if height[v] - height[u] >= least]
    return fitted(rng, directory, pages, rising, lambda u, v: height[v] - height[u], limits), order[0]


# What moves take on maps on which many ways tie, and on those of them on which many moves take no time.
SMALL_TIMES = [(1,), (1, 2), (1, 2, 3), (1, 2, 3)]
HANDOVER_TIMES = [(0,), (0, 1), (0, 0, 0, 5)]


def tying_map(rng, limits=(), times=SMALL_TIMES, level=False):
    """A good map on which many ways tie: one of small times, or one that rises."""
    if rng.random() < 0.5:
        return random_map(rng, limits, rng.choice(times))
    return rising_map(rng, limits, level)


def handover_map(rng, limits=()):
    """A good map on which many moves take no time, some of them in cycles (document 02, C-15)."""
    return tying_map(rng, limits, HANDOVER_TIMES, level=True)


def random_change(rng, data):
    """An offset and another value of its byte: mostly a byte in use, mostly a value near those in use, seldom of the
    heading or directory."""
    n = int.from_bytes(data[:2], 'little')
    used = [at for at in range(4 + n, len(data)) if any(data[at:at + 4])] or [len(data) - 1]
    at = rng.choice(used) if rng.random() < 0.93 else rng.randrange(len(data))
    near = [0, 1, 2, 3, (data[at] + 1) % 256, (data[at] - 1) % 256]
    return at, rng.choice(near) if rng.random() < 0.85 else rng.randrange(256)


def roomy_tables(rng, n, number):
    """Lengths of tables that have up to three entries more than the map stations: that of the moves by the number of
    the case, the others by chance."""
    times, *others = [n + rng.randint(0, 3) for _ in range(4)]
    return (times, n + number % 4, *others)


def random_bad_pages(rng, data, source):
    """Changes that make half of the pages bad, by unlike faults, but not that of the source."""
    own = data[4 + source]
    pages = [p for p in range(int.from_bytes(data[2:4], 'little')) if p != own]
    return [(page_begins(data, p), rng.choice(BAD_BEGINNINGS)) for p in rng.sample(pages, (len(pages) + 1) // 2)]


def random_case(cases, rng, number, label, kind, bad_pages):
    """A good map of the kind, then damaged at one to three bytes; or half of its pages are made bad instead."""
    data, first = kind(rng)
    n = int.from_bytes(data[:2], 'little')
    roomy = roomy_tables(rng, n, number)
    changes = dict(random_change(rng, data) for _ in range(rng.randint(1, 3)))
    if bad_pages:
        changes = dict(random_bad_pages(rng, data, first))
    cases.add(label, data, [
        Call(first, answer='accepted'), Call(rng.randrange(n), roomy, answer='accepted'),
        Call(first, roomy, changes=list(changes.items()))])


def random_cases(cases):
    """Some 150 good maps, each then damaged at one to three bytes. On the last 30 many ways tie, and on every other of
    these half of the pages are made bad instead."""
    rng = random.Random(7763)
    for number in range(1, 156):
        ties = number > 125
        random_case(cases, rng, number, f'random map {number}', tying_map if ties else random_map, ties and number % 2)


def random_limit_case(cases, rng, number, label, kind, lengths):
    """A good map of the kind with limits, for so many lengths of every kind, and then damaged at one to three bytes."""
    limits = random_limits(rng)
    data, first = kind(rng, limits)
    n = int.from_bytes(data[:2], 'little')
    roomy = roomy_tables(rng, n, number)
    strips = rng.sample(strips_about(limits), lengths)
    changes = dict(random_change(rng, data) for _ in range(rng.randint(1, 3)))
    cases.add(label, data, [
        *[Call(first, strip=strip, answer='accepted') for strip in strips],
        Call(rng.randrange(n), roomy, strip=rng.choice(strips), answer='accepted'),
        Call(first, roomy, changes=list(changes.items()), strip=strips[0]), Call(first, roomy, strip=strips[1])])


def random_limit_cases(cases):
    """60 good maps with limits, each for lengths of every kind, and then damaged at one to three bytes. On the last 15
    many ways tie; they are searched for two lengths, the others for four."""
    rng = random.Random(8121)
    for number in range(1, 61):
        ties = number > 45
        random_limit_case(cases, rng, number, f'random map {number} with limits', tying_map if ties else random_map,
                          2 if ties else 4)


# "A turntable stop has two station numbers and nothing moves between them."
TURNTABLE = '0-1/0 1-0/0'


def handover_cases(cases):
    """Two stations with moves of time 0 both ways, and single moves of time 0 (document 02, C-15)."""
    # "Time 0 is accepted in `02` and `03`, so 13 no longer occurs."
    cases.add('time 0 is accepted', drawn([0, 1, 2], '0-1/1 1-2/0 2-0/1'), [
        Call(0, answer='accepted, count 3, reached 3', times='0 1 1', moves='0 1 2', predecessors='65534 0 1',
             list='0 1 2', plain_list='0 1 2'),
        *from_all(3, (3, 7, 4, 5, 6))])
    cases.add('a turntable on one page, from either number', drawn([0, 0], TURNTABLE), [
        Call(0, times='0 0', moves='0 1', predecessors='65534 0', list='0', plain_list='0 0'),
        Call(1, times='0 0', moves='1 0', predecessors='1 65534', list='0', plain_list='0 0'),
        *from_all(2, (4, 5, 3, 2, 6))])
    cases.add('a turntable on two pages, from either number', drawn([0, 1], TURNTABLE), [
        Call(0, times='0 0', moves='0 1', predecessors='65534 0', list='0 1', plain_list='0 1'),
        Call(1, times='0 0', moves='1 0', predecessors='1 65534', list='1 0', plain_list='1 0'),
        *from_all(2, (4, 5, 3, 2, 6))])
    # by time alone 0 and 1 would be each other's predecessors, and neither's chain would end at 2
    cases.add('a turntable entered at both its numbers', drawn([0, 1, 2], TURNTABLE + ' 2-0/4 2-1/4'), [
        Call(2, times='4 4 0', moves='1 1 0', predecessors='2 2 65534', list='2 0 1', plain_list='2 0 1'),
        Call(0, times=f'0 0 {NO_TIME}', moves='0 1 65535', predecessors='65534 0 65535', list='0 1')])
    cases.add('a turntable on one page entered at both its numbers', drawn([0, 0, 1], TURNTABLE + ' 2-0/4 2-1/4'), [
        Call(2, times='4 4 0', moves='1 1 0', predecessors='2 2 65534', list='1 0', plain_list='1 0 0')])
    cases.add('a turntable entered at its higher number', drawn([0, 1, 2], TURNTABLE + ' 2-1/4'), [
        Call(2, times='4 4 0', moves='2 1 0', predecessors='1 2 65534', list='2 1 0', plain_list='2 1 0')])
    cases.add('a turntable on the page of the station that leads to it', drawn([0] * 3, TURNTABLE + ' 2-1/4'), [
        Call(2, times='4 4 0', moves='2 1 0', predecessors='1 2 65534', list='0', plain_list='0 0 0'),
        *from_all(3, (3, 7, 4, 5, 6))])
    cases.add('the lowest of two stations that give both numbers, in no time', drawn(
        [0, 1, 0, 1], '3-0/1 3-1/1 0-2/0 1-2/0 2-0/0 2-1/0'), [
            Call(3, times='1 1 1 0', moves='1 1 2 0', predecessors='3 3 0 65534', list='1 0', plain_list='1 0 1 0'),
            *from_all(4, (4, 8, 5, 6, 7))])
    # "Less means less time, then fewer moves"
    cases.add('less time by two moves that take none', drawn([0, 1, 0], '0-2/1 0-1/0 1-2/0'), [
        Call(0, times='0 0 0', moves='0 1 2', predecessors='65534 0 1', list='0 1 0', plain_list='0 1 0')])
    cases.add('a move that takes no time is one more at equal time', drawn([0, 1, 0], '0-2/3 0-1/3 1-2/0'), [
        Call(0, times='0 3 3', moves='0 1 1', predecessors='65534 0 0', list='0 1', plain_list='0 1 0')])


def handover_cycle_cases(cases):
    """"The page list rule includes cycles of such moves, and every predecessor chain still ends at the source."
    (document 02, C-15), the source in such a cycle or outside."""
    cases.add('a cycle of time 0 through three pages', drawn([0, 1, 2, 3], '0-1/0 1-2/0 2-0/0 3-1/6'), [
        Call(0, times=f'0 0 0 {NO_TIME}', moves='0 1 2 65535', predecessors='65534 0 1 65535', list='0 1 2'),
        Call(1, times=f'0 0 0 {NO_TIME}', moves='2 0 1 65535', predecessors='2 65534 1 65535', list='1 2 0'),
        Call(2, times=f'0 0 0 {NO_TIME}', moves='1 2 0 65535', predecessors='2 0 65534 65535', list='2 0 1'),
        Call(3, times='6 6 6 0', moves='3 1 2 0', predecessors='2 3 1 65534', list='3 1 2 0', plain_list='3 1 2 0'),
        *from_all(4, (5, 9, 6, 7, 8))])
    cases.add('a cycle of time 0 through three pages, both ways', drawn(
        [0, 1, 2, 3], '0-1/0 0-2/0 1-0/0 1-2/0 2-0/0 2-1/0 3-1/6'), [
            Call(0, times=f'0 0 0 {NO_TIME}', moves='0 1 1 65535', predecessors='65534 0 0 65535', list='0 1 2'),
            Call(2, times=f'0 0 0 {NO_TIME}', moves='1 1 0 65535', predecessors='2 2 65534 65535', list='2 0 1'),
            Call(3, times='6 6 6 0', moves='2 1 2 0', predecessors='1 3 1 65534', list='3 1 0 2',
                 plain_list='3 1 0 2')])
    cases.add('a cycle of time 0 that passes each of three pages twice', drawn(
        [0, 1, 2, 0, 1, 2, 3], '0-1/0 1-2/0 2-3/0 3-4/0 4-5/0 5-0/0 6-0/2 6-3/2'), [
            Call(0, times=f'0 0 0 0 0 0 {NO_TIME}', moves='0 1 2 3 4 5 65535', predecessors='65534 0 1 2 3 4 65535',
                 list='0 1 2 0 1 2', plain_list='0 1 2 0 1 2'),
            Call(4, moves='2 3 4 5 0 1 65535', predecessors='5 0 1 2 65534 4 65535', list='1 2 0 1 2 0'),
            Call(6, times='2 2 2 2 2 2 0', moves='1 2 3 1 2 3 0', predecessors='6 0 1 6 3 4 65534', list='3 0 1 2',
                 plain_list='3 0 0 1 1 2 2')])
    cases.add('all moves between 8 stations, each of time 0', spelled(
        [0, 0, 0, 0, 1, 1, 1, 1], {s: [(t, 0) for t in range(8) if t != s] for s in range(8)}, 2), [
            Call(0, times='0 0 0 0 0 0 0 0', moves='0 1 1 1 1 1 1 1', predecessors='65534 0 0 0 0 0 0 0', list='0 1',
                 plain_list='0 0 0 0 1 1 1 1'),
            Call(5, times='0 0 0 0 0 0 0 0', moves='1 1 1 1 1 0 1 1', predecessors='5 5 5 5 5 65534 5 5', list='1 0',
                 plain_list='1 0 0 0 0 1 1 1'),
            *from_all(8, (8, 12, 9, 10, 11))])
    # the lowest neighbour that is nearer to 0 is the one above, or in the first row the one to the left
    places = [(s % 6, s // 6) for s in range(36)]
    cases.add('a grid of 6 by 6 in four pages, all moves of time 0', spelled(
        [x // 3 + 2 * (y // 3) for x, y in places], grid_moves(6, [(1, 0, 0), (-1, 0, 0), (0, 1, 0), (0, -1, 0)]), 4), [
            Call(0, times=number_words([0] * 36), moves=number_words(x + y for x, y in places),
                 predecessors=number_words([65534, *[s - 6 if s >= 6 else s - 1 for s in range(1, 36)]])),
            *[Call(s, (36, 40, 37, 38, 39)) for s in (0, 14, 35)]])


def handover_limit_cases(cases):
    """Command `03` with time 0, open and closed (document 02, C-11 and C-15)."""
    cases.add('a turntable for strips of up to 100', drawn([0, 1], '0-1/0/100 1-0/0/100'), [
        *[Call(0, strip=strip, times='0 0', moves='0 1', predecessors='65534 0', list='0 1')
          for strip in (0, 1, 99, 100)],
        *[Call(0, strip=strip, times=f'0 {NO_TIME}', moves='0 65535', predecessors='65534 65535', list='0')
          for strip in (101, LONGEST_STRIP)],
        Call(1, strip=100, times='0 0', predecessors='1 65534', list='1 0'), Call(1, strip=101, list='1')])
    cases.add('a turntable for strips of up to 100, and a way around it', drawn(
        [0, 1, 2], '0-1/0/100 1-0/0/100 0-2/3 2-1/4'), [
            Call(0, strip=100, times='0 0 3', moves='0 1 1', predecessors='65534 0 0', list='0 1 2'),
            Call(0, strip=101, times='0 7 3', moves='0 2 1', predecessors='65534 2 0', list='0 2 1')])
    cases.add('a cycle of time 0 that longer strips enter elsewhere', drawn(
        [0, 1, 2, 3], '0-1/0 1-2/0 2-0/0 3-0/0/200 3-2/5'), [
            Call(3, strip=200, times='0 0 0 0', moves='1 2 3 0', predecessors='3 0 1 65534', list='3 0 1 2'),
            Call(3, strip=201, times='5 5 5 0', moves='2 3 1 0', predecessors='2 0 3 65534', list='3 2 0 1')])


def handover_refusal_cases(cases):
    """Bad pages that are reached in no time (document 02, C-14 and C-15)."""
    two_bad_pages(cases, 'in no time', '0-1/0 1-2/0 0-3/0 4-2/0 4-3/0')
    sooner = drawn([0, 0, 1, 2], '0-1/0 1-2/0 0-3/1')
    cases.add('which of two bad pages is refused: no time by two moves, before time 1 by one', sooner, [
        Call(0, changes=[(page_begins(sooner, p), 7) for p in (1, 2)], answer='refused 8, page 1, offset 0',
             list='0 1', plain_list='0 0 1')])
    cycle = drawn([0, 1, 2], '0-1/0 1-2/0 2-0/0')
    cases.add('a cycle of time 0 through a bad page', damaged(cycle, (page_begins(cycle, 2), 7)), [
        Call(0, answer='refused 8, page 2, offset 0, count 3', list='0 1 2', plain_list='0 1 2'),
        Call(1, answer='refused 8, page 2, offset 0, count 2', list='1 2', plain_list='1 2'),
        Call(2, answer='refused 8, page 2, offset 0, count 1', list='2', plain_list='2'),
        *from_all(3, (3, 7, 4, 5, 6))])
    behind = drawn([0, 1], '0-1/0/100')
    cases.add('a bad page behind a move of time 0 and a limit of 100', behind, [
        Call(0, strip=100, changes=[(page_begins(behind, 1), 7)], answer='refused 8, page 1, offset 0, count 2'),
        Call(0, strip=101, answer='accepted, count 1, reached 1')])


def handover_page_cases(cases):
    """Stations that get fewer moves in no time after their page was worked through (document 02, C-15)."""
    # From 0, page 0 is worked through: 4 and 5 are reached by four moves. Then 6 reaches 4 by two, and 4 reaches 5.
    cases.add('a station worked through gets fewer moves in no time', drawn(
        [0, 0, 0, 0, 0, 0, 1], '0-1/0 1-2/0 2-3/0 3-4/0 3-5/0 4-5/0 0-6/0 6-4/0'), [
            Call(0, times='0 0 0 0 0 0 0', moves='0 1 2 3 2 3 1', predecessors='65534 0 1 2 6 4 0', list='0 1 0',
                 plain_list='0 0 1 0 0 0 0'),
            Call(0, (7, 11, 8, 9, 10)), Call(2)])
    # page 0 is a row, 0 4 5 1 6 7 2 8 9 3; 10, 11 and 12 lead past two stations of it, to 1, 2 and 3, one by one
    cases.add('a page fetched again and again for fewer moves in no time', drawn(
        [0] * 10 + [1, 2, 3], '0-4/0 4-5/0 5-1/0 1-6/0 6-7/0 7-2/0 2-8/0 8-9/0 9-3/0 '
        '0-10/0 10-1/0 1-11/0 11-2/0 2-12/0 12-3/0'), [
            Call(0, times='0 0 0 0 0 0 0 0 0 0 0 0 0', moves='0 2 4 6 1 2 3 4 5 6 1 3 5',
                 predecessors='65534 10 11 12 0 4 1 6 2 8 0 1 2', list='0 1 0 2 0 3 0',
                 plain_list='0 0 1 0 0 0 2 0 0 0 3 0 0'),
            Call(0, (13, 17, 14, 15, 16))])


def handover_chain_cases(cases):
    """A chain of 2,048 stations by moves of time 0, then closed to a cycle, then with a jump (document 02, C-15)."""
    n = 2048
    turn = [s % 240 for s in range(n)]
    data = spelled(turn, {s: [(s + 1, 0)] for s in range(n - 1)}, 240)
    none = number_words([0] * n)

    def more(s, target):
        """Behind the moves of the last station of its page, one more. Stations have 8 bytes, but for the last of all,
        which has no move yet."""
        at = page_begins(data, turn[s]) + 8 * turn.count(turn[s]) - (5 if s == n - 1 else 0)
        return list(zip(range(at, at + 5), move(target, 0)))

    cases.add('the longest chain in no time: N 2,048 on 240 pages, times 0', data, [
        Call(0, ROOMY, answer='accepted, count 2048, reached 2048', times=none, moves=number_words(range(n)),
             predecessors=number_words([65534, *range(n - 1)])),
        Call(2047, answer='accepted, count 1, reached 1'),
        # 2047-0: the source keeps 65,534
        Call(0, changes=more(2047, 0), answer='accepted, count 2048, reached 2048', times=none,
             moves=number_words(range(n)), predecessors=number_words([65534, *range(n - 1)])),
        Call(1000, answer='accepted, count 2048, reached 2048', times=none,
             moves=number_words([(s - 1000) % n for s in range(n)]),
             predecessors=number_words([65534 if s == 1000 else (s - 1) % n for s in range(n)])),
        # 2000-2002: from there on a move fewer
        Call(0, ROOMY, changes=more(2000, 2002), answer='accepted, count 2048, reached 2048', times=none,
             moves=number_words([*range(2002), *range(2001, n - 1)]),
             predecessors=number_words([65534, *range(2001), 2000, *range(2002, n - 1)]))])


def random_handover_cases(cases):
    """25 good maps on which many moves take no time and 15 with limits too, each then damaged at one to three bytes; on
    every third of the 25 half of the pages are made bad instead (document 02, C-15)."""
    rng = random.Random(15)
    for number in range(1, 26):
        random_case(cases, rng, number, f'random map {number} with time 0', handover_map, number % 3 == 0)
    for number in range(1, 16):
        random_limit_case(cases, rng, number, f'random map {number} with time 0 and limits', handover_map, 2)


def main():
    cases = Cases()
    for part in (course_cases, refusal_cases, page_refusal_cases, tie_cases, moves_cases, fresh_cases,
                 refused_at_equal_time_cases, many_ties_cases, page_again_cases, limit_cases, long_chain_cases,
                 tied_chain_cases, large_cases, random_cases, random_limit_cases, handover_cases, handover_cycle_cases,
                 handover_limit_cases, handover_refusal_cases, handover_page_cases, handover_chain_cases,
                 random_handover_cases):
        part(cases)
    cases.check_needs()
    stream = b''.join(cases.stream)
    text = ''.join(line + '\n' for line in cases.lines).encode('ascii')
    keep(f'{cases.searches:,} searches', [(FOLDER / 'stdin', stream), (FOLDER / 'stdout', text)])


if __name__ == '__main__':
    main()
