"""Writes the cases of the program order_test, crates/order_test/stdin, and what it must print, stdout beside it.

    python3 tests/make_order_cases.py            write both files
    python3 tests/make_order_cases.py --check    only compare them with what would be written; exit 1 on a difference

The expected text comes from order.py, which also finds each answer by other ways. Of every pair the program gets the
swapped pair too. Where a map's rank among the others of its case, or its refusal, is plain to see, the case states it
by hand, from document 02, C-17, and document 01. The generator stops where one of these says otherwise, where searches
of two maps that are called equal differ, and where no case needs a part of C-17 (order_variants.py).

The input is a row of cases: the label's length (u8), the number of calls (u16), the number of bytes (u32), the label,
the bytes, which are images one behind the other, and the calls. A call is four u32, offset and length of the first
image and of the second, the number of its changes (u8), and the changes, each an offset (u32) and the byte that stands
there from this call on.
"""
import random
from collections import Counter
from itertools import accumulate, product

from limits import random_limits, strips_about
from make_coils_examples import plate_yard
from make_records_cases import drawn_records, refused_image_cases
from make_search_cases import C6, C8, M7, M7_LIMITED, S, damaged, drawn, page_begins, random_change, random_map, spelled
from make_search_cases import table_words
from maps import u16, u32
from order import Draft, Order, agreement, answer_words, check
from order_variants import VARIANTS, differences
from reader import PAGE
from records import records_of, write
from stored import ROOT, keep

FOLDER = ROOT / 'crates' / 'order_test'

MOST = 65535

# The refusals that the whole check can give.
REFUSALS = (1, 2, 3, 4, 5, 8, 9, 10, 11, 12, 14, 18)

# Larger maps are searched for one source and one length only, for the time that it takes.
SMALL_MAP = 12000


# The cases

def stated(first, second):
    """What is to be answered, by what is stated of each image: a rank among good maps or, as text, a refusal."""
    if isinstance(first, str):
        return f'first refused {first}'
    if isinstance(second, str):
        return f'second refused {second}'
    return 'equal' if first == second else 'first less' if first < second else 'second less'


class Call:
    """A call on two images of a case, by their index. `standings` is what is stated of the two, None where order.py
    alone has it. The changes (index of the image, offset, byte) are made for this call alone."""

    def __init__(self, first, second, standings=None, changes=()):
        self.images, self.standings, self.changes = (first, second), standings, changes

    def both_ways(self):
        """The call and, if it has two images, the swapped one: their images, and what is to be answered."""
        yield self.images, self.standings and stated(*self.standings)
        if self.images[0] != self.images[1]:
            yield self.images[::-1], self.standings and stated(*self.standings[::-1])


class Cases:
    """The cases: the bytes that the program reads, the lines that it must print, and what came up."""

    def __init__(self):
        self.stream, self.lines = [], []
        self.drafts = {}  # by their bytes
        self.answers = Counter()  # how many calls got which answer: its kind and, of a refusal, the number
        self.both_refused = Counter()  # how many calls had two bad images, by the numbers of their refusals
        self.unneeded = set(VARIANTS)  # the variants that answered each call as it ought to be
        self.searched, self.lists_differ = set(), Counter()
        self.rng = random.Random(17)  # the sources and lengths for which equal maps are searched

    def add(self, label, images, calls):
        text, data = label.encode('ascii'), b''.join(images)
        begins = [0, *accumulate(map(len, images))]
        made = [(call, *way) for call in calls for way in call.both_ways()]
        self.stream += [bytes([len(text)]), u16(len(made)), u32(len(data)), text, data]
        self.lines.append(label)
        before = {}
        for call, indices, answer in made:
            wanted = {begins[i] + at: value for i, at, value in call.changes}
            now = damaged(data, *wanted.items())
            # what an earlier call changed is as it was, but for what this one changes
            changes = [(at, now[at]) for at in sorted(before | wanted) if before.get(at, data[at]) != now[at]]
            before = wanted
            self.add_call(label, now, [(begins[i], len(images[i])) for i in indices], answer, changes)

    def add_call(self, label, data, places, stated_answer, changes):
        first, second = (self.draft(data[at:at + length]) for at, length in places)
        check(first, second)
        answer = Order().named(first, second)
        words = answer_words(answer)
        assert stated_answer in (None, words), (label, places, words, stated_answer)
        self.stream += [*[u32(number) for place in places for number in place], bytes([len(changes)])]
        self.stream += [u32(at) + bytes([value]) for at, value in changes]
        self.lines += [f'  byte {at} becomes {value}' for at, value in changes]
        where = ', '.join(f'{length} bytes at {at}' for at, length in places)
        handed = Order().handed_back(first, second)
        self.lines.append(f' {where}: {words}, handed back{table_words(list(handed.data))}')
        self.count(answer, first, second)

    def draft(self, data):
        if data not in self.drafts:
            self.drafts[data] = Draft(data)
        return self.drafts[data]

    def count(self, answer, first, second):
        self.answers[answer[:2]] += 1
        if first.refusal and second.refusal:
            self.both_refused[first.refusal[0], second.refusal[0]] += 1
        self.unneeded.difference_update(differences(first, second, self.unneeded))
        if answer == ('equal',):
            self.search(first, second)

    def search(self, first, second):
        """Searches two different images that are equal as maps, for some sources and lengths, once for the pair."""
        pair = frozenset((first.data, second.data))
        if len(pair) == 1 or pair in self.searched:
            return
        self.searched.add(pair)
        strips = strips_about({record[3] for record in first.records} - {0})
        if max(map(len, pair)) <= SMALL_MAP:
            sources = self.rng.sample(range(first.n), min(first.n, 3))
            strips = self.rng.sample(strips, min(len(strips), 3))
        else:
            sources, strips = [first.records[-1][0]], [1]
        self.lists_differ.update(agreement(first, second, sources, strips))

    def compare_all(self, label, standings):
        """Every image with every image, itself too; a standing is an image and what is stated of it."""
        images = [data for data, _ in standings]
        self.add(label, images, [Call(i, j, (standings[i][1], standings[j][1]))
                                 for i in range(len(images)) for j in range(i, len(images))])

    def compare_rising(self, label, images):
        """The same, of maps each of which is above the one before."""
        self.compare_all(label, [(data, rank) for rank, data in enumerate(images)])

    def check_all(self):
        """That each answer comes up, and each part of C-17 is needed."""
        for kind in ('first less', 'second less', 'equal'):
            assert self.answers[kind,], kind
        for number in REFUSALS:
            for kind in ('first refused', 'second refused'):
                assert self.answers[kind, number], (kind, number)
            for other in REFUSALS:
                assert self.both_refused[number, other], (number, other)
        assert not self.unneeded, f'no case in which these answer otherwise: {sorted(self.unneeded)}'
        # "though page lists may differ"
        assert self.lists_differ['plain'] and self.lists_differ['df']


# Maps

def laid_out(n, p, directory, records):
    """The image of the records; None where a page does not hold them."""
    answer = write(n, p, bytes(directory), 4 + n + PAGE * p, records)
    return answer[1] if answer[0] == 'written' else None


def on_one_page(n, records):
    return laid_out(n, 1, [0] * n, records)


def on_few_pages(n, records):
    """With 80 stations a page, which leaves room for three moves."""
    return laid_out(n, (n + 79) // 80, [s // 80 for s in range(n)], records)


def command_begins(data, begin, target):
    """The offset of a move in a good image."""
    at, found = 4 + int.from_bytes(data[:2], 'little'), None
    while True:
        numbers = [int.from_bytes(data[k:k + 2], 'little') for k in range(at + 1, at + 1 + 2 * data[at], 2)]
        if len(numbers) == 1:
            found = numbers[0]
        elif numbers and (found, numbers[0]) == (begin, target):
            return at
        at += 1 + 2 * len(numbers)


# Course maps, and the same moves on other pages

M7_MOVES = drawn_records('0-1/4 0-4/2 1-2/3 2-3/3 3-5/3 4-2/1 4-5/6 5-6/1')

# Places for the seven stations of M7: pages, directory.
M7_PLACES = [(2, [0, 0, 0, 0, 1, 1, 1]), (1, [0] * 7), (2, [1, 1, 1, 1, 0, 0, 0]), (3, [0, 0, 0, 0, 1, 1, 1]),
             (2, [0, 1, 0, 1, 0, 1, 0]), (7, [0, 1, 2, 3, 4, 5, 6]), (7, [6, 5, 4, 3, 2, 1, 0]),
             (9, [8, 8, 3, 3, 8, 0, 3])]


def course_cases(cases):
    """The course maps, good and bad."""
    yard = plate_yard()
    last_target = len(yard) - PAGE + 24 + 4
    good_yard = damaged(yard, (last_target, 0), (last_target + 1, 0))
    bad_m7 = damaged(M7, (page_begins(M7, 1), 7))
    cases.compare_all('course maps: S, C6, M7, M7 with limits, the plate yard put right; C7, C8, the plate yard', [
        (S, 1), (C6, 4), (M7, 7), (M7_LIMITED, 7.5), (good_yard, 397), (bad_m7, '8, page 1, offset 0'),
        (C8, '8, page 1, offset 0'), (yard, '12, page 23, offset 27')])


def other_page_cases(cases):
    """The same moves on other pages, and pages that no station is on."""
    maps = [laid_out(7, p, directory, M7_MOVES) for p, directory in M7_PLACES]
    assert maps[0] == M7
    cases.compare_all('M7 on its own pages and on seven others', [(data, 0) for data in maps])
    wide = laid_out(7, 240, [239, 0, 120, 7, 7, 0, 239], M7_MOVES)
    cases.add('M7, and M7 on 240 pages', [M7, wide], [Call(0, 1, (0, 0)), Call(1, 1, (0, 0))])
    # one move changed or added, whichever pages the two maps have
    for label, moves in [('a slower first move', '0-1/5 0-4/2 1-2/3 2-3/3 3-5/3 4-2/1 4-5/6 5-6/1'),
                         ('a slower last move', '0-1/4 0-4/2 1-2/3 2-3/3 3-5/3 4-2/1 4-5/6 5-6/2'),
                         ('one more move', '0-1/4 0-4/2 1-2/3 2-3/3 3-5/3 4-2/1 4-5/6 5-6/1 6-0/1'),
                         ('a later second move', '0-1/4 0-5/2 1-2/3 2-3/3 3-5/3 4-2/1 4-5/6 5-6/1')]:
        others = [laid_out(7, p, directory, drawn_records(moves)) for p, directory in M7_PLACES]
        cases.add(f'M7 and M7 with {label}, on all pages', maps + others, [
            Call(i, len(maps) + j, (0, 1)) for i in range(len(maps)) for j in range(len(others)) if (i + j) % 3 != 1])
    none = [laid_out(3, p, directory, []) for p, directory in [(1, [0] * 3), (2, [1, 0, 1]), (9, [5, 5, 3])]]
    cases.compare_all('three stations and no moves, on 1, 2 and 9 pages', [(data, 0) for data in none])


# Lists and their front parts

def rising_lists(options, before=()):
    """Every list of records that rises by (from, target), in order: a list, and behind it those that it is a front
    part of, by the record that comes next."""
    yield list(before)
    for record in options:
        if not before or record[:2] > before[-1][:2]:
            yield from rising_lists(options, (*before, record))


def all_lists_cases(cases):
    """Few moves, and every list that can be made of them: each with each."""
    lists = list(rising_lists(drawn_records('0-1/5 0-2/4 1-0/3 1-2/2 2-1/1')))
    assert len(lists) == 32 and lists[:3] == [[], [(0, 1, 5, 0)], [(0, 1, 5, 0), (0, 2, 4, 0)]]
    cases.compare_rising('N 3: every list of five moves', [on_one_page(3, records) for records in lists])
    lists = list(rising_lists(drawn_records('0-1/1 0-1/1/5 0-1/2 1-0/0/1 1-0/1 1-0/1/9')))
    assert len(lists) == 16
    cases.compare_rising('N 2: every list of two moves, each of three kinds',
                         [laid_out(2, 2, [1, 0], records) for records in lists])


def front_part_cases(cases):
    """Lists that are front parts of others, whatever pages the maps have."""
    fronts = [laid_out(7, *M7_PLACES[k % 8], M7_MOVES[:k]) for k in range(9)]
    cases.compare_rising('M7: its first 0 to 8 moves', fronts)
    # stations without moves are no records: the last of them, the first, all
    texts = ['', '0-1/9', '0-1/9 0-2/9', '0-1/9 0-2/9 0-3/9', '0-1/9 0-2/9 1-0/1', '0-1/9 0-2/9 3-0/0', '0-1/9 1-0/1',
             '0-1/9 3-0/0', '0-1/9 3-0/0/1', '1-0/1', '3-0/0', '3-0/0 3-2/0']
    cases.compare_rising('front parts where the first or the last stations have no moves',
                         [laid_out(4, 2, [0, 1, 0, 1], drawn_records(text)) for text in texts])
    # where a station has one more move, the other map goes on with a later station: the map with more moves is lesser
    texts = ['0-1/1', '0-1/1 0-2/9 1-0/1', '0-1/1 0-2/9 1-0/1 2-0/1', '0-1/1 0-2/9 2-0/1', '0-1/1 1-0/1 1-2/9 2-0/1',
             '0-1/1 1-0/1 2-0/1']
    cases.compare_rising('a station with one more move, and later stations with moves',
                         [laid_out(3, 3, [2, 0, 1], drawn_records(text)) for text in texts])
    full = [(s, t, 100 * s + t, 0) for s in range(85) for t in range(3) if s != t]
    pages = [s // 12 for s in range(85)]
    counts = [0, 1, 127, 128, 200, 250, 252]
    cases.compare_rising('the first 0 to 252 of 252 moves', [laid_out(85, 8, pages, full[:k]) for k in counts])


# The first number that differs

# About the bounds of a byte and of a sign.
NUMBERS = (0, 1, 2, 254, 255, 256, 257, 511, 512, 32767, 32768, 65279, 65280, 65534, 65535)


def number_cases(cases):
    """One number rises, and what is compared behind it falls."""
    cases.compare_rising('time from 0 to 65,535, limit falling', [
        on_one_page(2, [(0, 1, time, MOST - time)]) for time in NUMBERS])
    cases.compare_rising('limit from 0 to 65,535, the next move falling', [
        on_one_page(2, [(0, 1, 7, limit), (1, 0, MOST - limit, MOST - limit)]) for limit in NUMBERS])
    # stations of N 520 and of N 2,048: the only move is on another page each time
    few = (0, 1, 2, 254, 255, 256, 257, 511, 512, 519)
    cases.compare_rising('target from 0 to 519, time falling', [
        on_few_pages(520, [(300, target, MOST - target, 0)]) for target in few])
    cases.compare_rising('from 0 to 519, target falling', [
        on_few_pages(520, [(begin, 518 - begin // 2, 5, 0)]) for begin in few])
    last = (255, 256, 1791, 1792, 2046, 2047)
    cases.compare_rising('from 255 to 2,047, target falling', [
        on_few_pages(2048, [(begin, 2045 - begin // 2, 5, 0)]) for begin in last])
    records = list(product((0, 1), (2, 3), (1, 256), (0, 7)))
    cases.compare_rising('every move of two froms, targets, times and limits', [
        on_one_page(4, [record]) for record in records])
    behind = [[(0, 1, 9, 9), record, (3, 0, MOST - at, 0)] for at, record in enumerate(records[8:])]
    cases.compare_rising('the same behind an equal move, and a last move falling', [
        laid_out(4, 3, [2, 0, 1, 0], records) for records in behind])


def station_count_cases(cases):
    """N before the records."""
    counts = (1, 2, 3, 254, 255, 256, 257, 511, 512, 2047, 2048)
    cases.compare_rising('N from 1 to 2,048, no moves', [on_few_pages(n, []) for n in counts])
    cases.compare_rising('N from 2 to 2,048, the only move falling', [
        on_few_pages(n, [(1, 0, MOST - i, 0)]) for i, n in enumerate(counts[1:])])
    cases.compare_rising('N from 2 to 5, the lists falling', [
        on_one_page(n, drawn_records(text)) for n, text in [(2, '1-0/9/9'), (3, '1-0/9'), (4, '0-1/1'), (5, '')]])
    cases.compare_all('N from 7 to 9, the moves of M7 on one page and on three', [
        (laid_out(n, p, [s % p for s in range(n)], M7_MOVES), n) for n in (7, 8, 9) for p in (1, 3)])


def limit_cases(cases):
    """`02` is limit 0, below every limit; no search tells it from limit 65,535."""
    texts = ['0-1/4 1-0/4', '0-1/4 1-0/4/1', '0-1/4 1-0/4/8119', '0-1/4 1-0/4/8120', '0-1/4 1-0/4/65535',
             '0-1/4/1', '0-1/4/8120 1-0/4/8120', '0-1/4/65535', '0-1/4/65535 1-0/4', '0-1/5']
    cases.compare_rising('moves with and without limits', [on_one_page(2, drawn_records(text)) for text in texts])
    # the time before the limit, though the move is open to fewer strips
    texts = ['0-1/0/1', '0-1/0/9', '0-1/1', '0-1/1/1', '0-1/2']
    cases.compare_rising('time before limit, and moves of time 0', [
        on_one_page(2, drawn_records(text)) for text in texts])


# Refusals

class Collected:
    """Stands in for the `Cases` of make_records_cases.py: keeps its bad images with what is stated of them."""

    def __init__(self):
        self.standings = []

    def add(self, label, data, calls):
        self.standings.append((data, calls[0].answer.removeprefix('refused ')))


def refusal_cases(cases):
    """Every refusal of the whole check in the first image, in the second and in both, with good maps between."""
    collected = Collected()
    refused_image_cases(collected)
    small = drawn([0, 0], '0-1/1')
    cases.compare_all('every refusal, S, a map of two stations and M7', [
        *collected.standings, (S, 1), (small, 2), (M7, 7)])


def late_refusal_cases(cases):
    """The whole check comes first, though an earlier record or N already tells which map is the lesser."""
    quick, slow = drawn([0] * 4 + [1] * 3, '0-1/3 5-6/1'), drawn([0] * 4 + [1] * 3, '0-1/5 5-6/1')
    fewer = drawn([0, 0, 0, 1, 1, 1], '0-1/4 4-5/1')
    end = page_begins(M7, 1) + 255
    bad = [(damaged(M7, (end, 1)), '14, page 1, offset 24'), (damaged(M7, (end - 255, 4)), '8, page 1, offset 0'),
           (damaged(M7, (10, 2)), '5, station 6'), (M7[:-1], '4'), (M7 + b'\0', '4')]
    cases.compare_all('M7 damaged at its end, and maps that a first record or N sets apart', [
        (fewer, 6), (quick, 7), (M7, 7.4), (slow, 7.5), *bad])
    # the fault is on the last page, the difference in the heading or on the first
    cases.compare_all('M7 with its last page bad, and with a lesser or greater first move', [
        (damaged(data, (end, 1)), words) for data, words in [
            (M7, '14, page 1, offset 24'), (quick, '14, page 1, offset 14'), (slow, '14, page 1, offset 14')]]
        + [(M7, 1), (quick, 0), (slow, 2)])


def cut_off_cases(cases):
    """Every length of S from 0 to 262 bytes, with S before and behind it."""
    images = [S] + [(S + b'\0')[:length] for length in (0, 1, 2, 3, 4, 5, 6, 8, 9, 260, 261, 262)]
    words = [0] + ['1'] * 4 + ['4'] * 6 + [0, '4']
    cases.compare_all('S cut off', list(zip(images, words)))


# Large maps

def full_moves(directory):
    """Moves with and without limits for the stations of a map, the last station's first, as far as the pages hold
    them."""
    n = len(directory)
    room = {p: PAGE - 1 - 3 * directory.count(p) for p in set(directory)}
    records = []
    for s in sorted(range(n), key=lambda s: (-s % 4, -s)):
        for t in sorted({(s * 13 + k * 311 + 1) % n for k in range(8)} - {s}):
            limit = 0 if (s + t) % 3 else (s * 977 + t * 31) % 65535 + 1
            size = 7 if limit else 5
            if room[directory[s]] >= size:
                room[directory[s]] -= size
                records.append((s, t, (s * 31 + t * 977) % 65536, limit))
    return sorted(records)


def word_changes(i, data, record, place, number):
    """The changes that give a move of image i another target (place 1), time (2) or limit (3)."""
    at = command_begins(data, *record[:2]) + 2 * place - 1
    return [(i, at, number % 256), (i, at + 1, number // 256)]


def last_move_calls(images, record):
    """Calls on two equal maps of 240 pages, images 0 and 1, whose last move is this one."""
    def put(i, place, number):
        return word_changes(i, images[i], record, place, number)

    _, target, time, limit = record
    bad_page = [(1, page_begins(images[1], 239), 7)]
    calls = [Call(0, 0, (0, 0)), Call(0, 1, (0, 0)), Call(1, 1, (0, 0)),
             Call(0, 1, (0, 1), put(0, 2, 255) + put(1, 2, 256)), Call(0, 1, (1, 0), put(0, 2, 512) + put(1, 2, 511)),
             Call(0, 1, (0, 1), put(1, 2, time + 1)), Call(0, 1, (1, 0), put(1, 2, time - 1)),
             Call(0, 1, (0, 0), put(0, 2, 7) + put(1, 2, 7)),
             Call(0, 1, (0, 1), put(1, 1, target + 1)), Call(0, 1, (1, 0), put(1, 1, target - 1)),
             Call(0, 1, (0, '8, page 239, offset 0'), bad_page),
             Call(0, 1, (0, '8, page 239, offset 0'), bad_page + put(0, 2, time + 1)), Call(0, 1, (0, 0))]
    if limit:
        calls += [Call(0, 1, (0, 1), put(1, 3, limit + 1)), Call(0, 1, (1, 0), put(1, 3, limit - 1))]
    return calls


def full_cases(cases):
    """Maps of 2,048 stations on 240 pages that differ in their last move or not at all."""
    n = 2048
    turn = [s * 7 % 240 for s in range(n)]
    other = [(p * 101 + 17) % 240 for p in turn]
    assert sorted(set(turn)) == sorted(set(other)) == list(range(240))
    records = full_moves(turn)
    images = [laid_out(n, 240, directory, records) for directory in (turn, other)]
    assert all(len(data) == 63492 for data in images) and records[-1][0] == 2047 and records[-1][3]
    calls = last_move_calls(images, records[-1])
    # without its last move, which is the last command of its page, the map is a front part
    at = command_begins(images[1], *records[-1][:2])
    calls.append(Call(0, 1, (1, 0), [(1, at + k, 0) for k in range(7)]))
    empty = [on_few_pages(n, []), on_few_pages(n - 1, [(0, 1, 0, 0)])]
    calls += [Call(0, 2, (1, 0)), Call(1, 2, (1, 0)), Call(0, 3, (1, 0)), Call(2, 3, (1, 0))]
    cases.add('full maps: N 2,048 on 240 pages in two orders', images + empty, calls)


def most_records_cases(cases):
    """Maps of 12,000 moves that differ in their last move or not at all."""
    n = 240
    records = sorted((s, (s + k) % n, (s * 31 + k * 977) % 65536, 0) for s in range(n) for k in range(1, 100, 2))
    assert len(records) == 12000
    images = [laid_out(n, 240, directory, records) for directory in (range(n), [(s * 77 + 5) % n for s in range(n)])]
    cases.add('the most moves: 50 on each of 240 pages, in two orders', images,
              last_move_calls(images, records[-1]))


# By chance

def redrawn(rng, n, records):
    """The records on pages by chance."""
    p = rng.choice([1, 1, 2, 3])
    while True:
        kind = rng.randrange(3)
        directory = [s % p if kind == 0 else s * p // n if kind == 1 else rng.randrange(p) for s in range(n)]
        data = laid_out(n, p, directory, records)
        if data:
            return data
        p += 1


def near(rng, number, least=0):
    """Another number, mostly near to it or with a byte in common."""
    others = [number - 1, number + 1, number + 256, number - 256, number ^ 255, number ^ 65280, rng.randint(0, MOST)]
    return rng.choice([other for other in others if least <= other <= MOST and other != number])


def changed_move(rng, n, records):
    """The records with one time, limit or target changed."""
    i = rng.randrange(len(records))
    s, t, time, limit = records[i]
    kind = rng.randrange(4)
    if kind == 0:
        put = s, t, near(rng, time), limit
    elif kind == 1:
        put = s, t, time, near(rng, limit)
    else:
        taken = {record[1] for record in records if record[0] == s} | {s}
        put = s, rng.choice([v for v in range(n) if v not in taken] or [t]), time, limit
    return sorted(records[:i] + [put] + records[i + 1:])


def with_move(rng, n, records):
    """The records with one more, if there is room for one."""
    ways = {(s, t) for s in range(n) for t in range(n) if s != t} - {record[:2] for record in records}
    return sorted([*records, (*rng.choice(sorted(ways)), rng.choice([0, 1, 255, 256]), 0)]) if ways else records


def drafts_of(rng, data):
    """Drafts of one yard: the map, the same moves on other pages, and one move changed, added or dropped; without
    its last move; with one station more; and two with bytes damaged."""
    n, records = int.from_bytes(data[:2], 'little'), records_of(data)
    drafts = [data, redrawn(rng, n, records), redrawn(rng, n, with_move(rng, n, records)),
              redrawn(rng, n + 1, records)]
    if records:
        i = rng.randrange(len(records))
        drafts += [redrawn(rng, n, changed_move(rng, n, records)), redrawn(rng, n, changed_move(rng, n, records)),
                   redrawn(rng, n, records[:i] + records[i + 1:]), redrawn(rng, n, records[:-1])]
    for draft in (drafts[0], drafts[-1]):
        drafts.append(damaged(draft, *[random_change(rng, draft) for _ in range(rng.randint(1, 3))]))
    return drafts


def random_draft_cases(cases):
    """Drafts of 24 yards, each with each of its yard."""
    rng = random.Random(1700)
    for number in range(1, 25):
        data = random_map(rng, random_limits(rng) if number % 2 else (), (0, 1, 2, 255, 256, 8120, MOST))[0]
        drafts = drafts_of(rng, data)
        cases.add(f'drafts of random yard {number}', drafts, [
            Call(i, j) for i in range(len(drafts)) for j in range(i, len(drafts))])


def random_tiny_cases(cases):
    """Maps of one to three stations with few numbers to choose from, so that many are equal on other pages or differ in
    one number."""
    rng = random.Random(1717)
    for number in range(1, 9):
        maps = []
        for _ in range(12):
            n = rng.choice([1, 2, 2, 2, 3, 3])
            ways = [(s, t) for s in range(n) for t in range(n) if s != t]
            chosen = sorted(rng.sample(ways, rng.randint(0, min(3, len(ways)))))
            records = [(*way, rng.choice([0, 1, 256]), rng.choice([0, 0, 1, 256])) for way in chosen]
            maps.append(redrawn(rng, n, records))
        cases.add(f'random maps of few stations {number}', maps, [
            Call(i, j) for i in range(len(maps)) for j in range(i, len(maps))])


def main():
    cases = Cases()
    for part in (course_cases, other_page_cases, all_lists_cases, front_part_cases, number_cases, station_count_cases,
                 limit_cases, refusal_cases, late_refusal_cases, cut_off_cases, full_cases, most_records_cases,
                 random_draft_cases, random_tiny_cases):
        part(cases)
    cases.check_all()
    stream = b''.join(cases.stream)
    text = ''.join(line + '\n' for line in cases.lines).encode('ascii')
    keep(f'{sum(cases.answers.values()):,} calls', [(FOLDER / 'stdin', stream), (FOLDER / 'stdout', text)])


if __name__ == '__main__':
    main()
