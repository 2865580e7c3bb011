"""Writes the cases of the program store_test, crates/store_test/stdin, and what it must print, stdout beside it.

    python3 tests/make_store_cases.py            write both files
    python3 tests/make_store_cases.py --check    only compare them with what would be written; exit 1 on a difference

The expected text comes from replay.py, which also finds each answer by other ways. Where the reads of a call or its
refusal are plain to see, the case states them by hand, from document 02, C-20. The generator stops where one of these
says otherwise, and where no case needs a part of C-20 (replay_variants.py).

The input is a row of cases: the label's length (u8), the number of calls (u16), the number of bytes (u32), the label,
the bytes and the calls. A call is four u32, offset and length of the page list and of the distance table, where the
list has a byte and the table a u32 an entry and lengths are numbers of entries; P and F (two u64), D (u32), the number
of its changes (u8), and the changes, each an offset (u32) and the byte that stands there from this call on. Past the
end of the bytes the entries of a table are 0.
"""
import random
from collections import Counter
from itertools import product
from struct import pack, unpack_from

from maps import u16, u32
from replay import Call, Replay, answer_words, check
from replay_variants import VARIANTS, differences
from stored import ROOT, keep

FOLDER = ROOT / 'crates' / 'store_test'

# What store_test has room for: bytes of a case, and entries of a table.
MOST_BYTES, MOST_ENTRIES = 310000, 66000

# The greatest distance and threshold.
MOST = 2 ** 32 - 1


# The cases

class Asked:
    """A call and what is stated of it: the reads, or a refusal as text; None where replay.py alone has it. The changes
    ('list' or 'table', index, entry) are made for this call alone."""

    def __init__(self, entries, pages, frames, distances, threshold, stated=None, changes=()):
        self.call = Call(bytes(entries), pages, frames, tuple(distances), threshold)
        self.stated = f'reads {stated}' if isinstance(stated, int) else stated
        self.changes = changes


def table_bytes(distances):
    return pack(f'<{len(distances)}I', *distances)


def laid_out(pieces):
    """Bytes in which every piece occurs."""
    data = b''
    for piece in sorted(pieces, key=lambda piece: (-len(piece), piece)):
        if piece not in data:
            data += piece
    return data


class Cases:
    """The cases: the bytes that the program reads, the lines that it must print, and what came up."""

    def __init__(self):
        self.stream, self.lines = [], []
        self.calls = 0
        self.refused = Counter()  # how many calls had which of P, F, list and table bad
        self.frames = set()  # the numbers of frames that were accepted
        self.unneeded = set(VARIANTS)  # the variants that answered each call as it ought to be

    def add(self, label, asked):
        text = label.encode('ascii')
        # a table of zeros lies past the end, unless it is changed
        tables = {one.call.distances for one in asked if any(one.call.distances) or one.changes}
        data = laid_out({*map(table_bytes, tables), *[one.call.list for one in asked]})
        assert len(data) <= MOST_BYTES and len(asked) < 65536, label
        self.stream += [bytes([len(text)]), u16(len(asked)), u32(len(data)), text, data]
        self.lines.append(label)
        begins = {distances: data.find(table_bytes(distances)) for distances in tables}
        before = {}
        for one in asked:
            at, table_at = data.find(one.call.list), begins.get(one.call.distances, len(data))
            wanted = dict(changed_bytes(one.changes, at, table_at))
            now = data
            for place, value in wanted.items():
                now = now[:place] + bytes([value]) + now[place + 1:]
            # what an earlier call changed is as it was, but for what this one changes
            changes = [(place, now[place]) for place in sorted(before | wanted)
                       if before.get(place, data[place]) != now[place]]
            before = wanted
            self.add_call(label, one, at, table_at, changes, now)

    def add_call(self, label, one, at, table_at, changes, data):
        call = one.call
        if one.changes:
            call = call._replace(list=data[at:at + len(call.list)],
                                 distances=unpack_from(f'<{len(call.distances)}I', data, table_at))
        check(call)
        words = answer_words(Replay().answer(call))
        assert one.stated in (None, words), (label, call.pages, call.frames, call.threshold, words, one.stated)
        length, size = len(call.list), len(call.distances)
        assert size <= MOST_ENTRIES
        self.stream += [pack('<4I2QIB', at, length, table_at, size, *call[1:3], call.threshold, len(changes))]
        self.stream += [u32(place) + bytes([value]) for place, value in changes]
        self.lines += [f'  byte {place} becomes {value}' for place, value in changes]
        self.lines.append(f' list {length} at {at}, table {size} at {table_at}, P {call.pages}, F {call.frames}, '
                          f'D {call.threshold}: {words}')
        self.count(call)

    def count(self, call):
        self.calls += 1
        replay = Replay()
        tests = (replay.is_bad_page_count, replay.is_bad_frame_count, replay.is_bad_list, replay.is_bad_table)
        bad = tuple(is_bad(call) for is_bad in tests)
        self.refused[bad] += 1
        if not any(bad):
            self.frames.add(call.frames)
        self.unneeded.difference_update(differences(call, self.unneeded))

    def check_all(self):
        """That each way to be refused comes up with each of the others, each number of frames, and each part of C-20 is
        needed."""
        for bad in product((False, True), repeat=4):
            assert self.refused[bad], bad
        assert self.frames == set(range(1, 65))
        assert not self.unneeded, f'no case in which these answer otherwise: {sorted(self.unneeded)}'


def changed_bytes(changes, at, table_at):
    """The offsets and bytes of changed entries."""
    for where, index, entry in changes:
        if where == 'list':
            yield at + index, entry
        else:
            yield from enumerate(u32(entry), table_at + 4 * index)


# Tables and lists

def table(pages, far=None, rest=0):
    """A table with some distances, by (page last referred to, page), and one distance for the rest."""
    far = far or {}
    return tuple(far.get((last, page), rest) for last in range(pages) for page in range(pages))


def drawn(text):
    """A list as it is written, '0 1 2'."""
    return bytes(map(int, text.split()))


def every_list(pages, length):
    """A list of which every list of this length is a part."""
    whole = [0] * length
    seen = {tuple(whole)}
    while len(seen) < pages ** length:
        part = next(part for part in ((*whole[len(whole) - length + 1:], page) for page in reversed(range(pages)))
                    if part not in seen)
        seen.add(part)
        whole.append(part[-1])
    return whole


def parts(whole, length):
    return [whole[i:i + length] for i in range(len(whole) - length + 1)]


def random_walk(rng, pages, length):
    """A list that goes mostly from page to neighbouring page."""
    walk = [pages // 2]
    while len(walk) < length:
        step = rng.choice([1, -1, 16, -16, 0]) if rng.random() < 0.98 else rng.randrange(pages)
        walk.append((walk[-1] + step) % pages)
    return walk


# The course cases, and one rule at a time

def course_cases(cases):
    """Plain least recently used, by the request's last words on D."""
    rows = [('0 1 0 2 0', (5, 3, 3)), ('0 1 2 0', (4, 4, 3)), ('', (0, 0, 0)), ('2', (1, 1, 1)), ('1 1 1', (1, 1, 1)),
            ('0 1 2 0 1 2', (6, 6, 3)), ('0 1 0 1 2 1 0', (7, 4, 3)), ('0 0 1 1 2 2', (3, 3, 3)),
            ('2 1 0 0 1 2', (5, 4, 3)), ('0 1 2 1 0', (5, 4, 3))]
    for name, distances, threshold in [('above every distance', table(3), MOST), ('at every distance', table(3), 0),
                                       ('at every distance, the greatest', table(3, rest=MOST), MOST),
                                       ('below every distance', table(3, rest=1), 0)]:
        cases.add(f'course: lists with one, two and three frames, D {name}', [
            Asked(drawn(text), 3, frames, distances, threshold, reads)
            for text, counts in rows for frames, reads in enumerate(counts, 1)])


def one_page_cases(cases):
    """With one frame the reads are the one-page reads, whatever the distances."""
    rows = [('', 0), ('0', 1), ('1', 1), ('0 0', 1), ('0 1', 2), ('1 0 1', 3), ('0 0 0 1 1 0', 3), ('1 1 0 0 1 0', 4)]
    for far in [(), (0,), (1,), (2,), (3,), (0, 3), (1, 2), (0, 1, 2, 3)]:
        distances = [7 if i in far else 3 for i in range(4)]
        cases.add(f'one frame, two pages, {len(far)} of the four distances far', [
            Asked(drawn(text), 2, 1, distances, threshold, reads)
            for text, reads in rows for threshold in (0, 3, 6, 7)])


# Of four pages and three frames, with D 4: what is far, a list, and its reads. The first three pages fill the frames;
# the last entry shows whether its page left at the fourth page's miss.
RULES = [
    ('no page is far: the least recently used leaves', {}, [('0 1 2 3 0', 5), ('0 1 2 3 1', 4), ('0 1 2 3 2', 4)]),
    ('one is far and leaves', {(2, 1): 5}, [('0 1 2 3 0', 4), ('0 1 2 3 1', 5), ('0 1 2 3 2', 4)]),
    ('at D it is not far', {(2, 1): 4}, [('0 1 2 3 0', 5), ('0 1 2 3 1', 4), ('0 1 2 3 2', 4)]),
    ('two are far: the less recently used leaves', {(2, 0): 5, (2, 1): 5}, [('0 1 2 3 0', 5), ('0 1 2 3 1', 4)]),
    ('two are far, one was used again', {(2, 0): 5, (2, 1): 5}, [('0 1 0 2 3 0', 4), ('0 1 0 2 3 1', 5)]),
    ('of the far ones not the farthest', {(2, 0): 5, (2, 1): 9}, [('0 1 2 3 0', 5), ('0 1 2 3 1', 4)]),
    ('of the far ones not the nearest', {(2, 0): 9, (2, 1): 5}, [('0 1 2 3 0', 5), ('0 1 2 3 1', 4)]),
    ('the farthest was used last', {(2, 1): 5, (2, 2): 9}, [('0 1 2 3 1', 5), ('0 1 2 3 2', 4), ('0 1 2 3 0', 4)]),
    ('a page is far from itself and leaves', {(2, 2): 5}, [('0 1 2 3 2', 5), ('0 1 2 3 0', 4), ('0 1 2 3 1', 4)]),
    ('a page is far from itself, and so is another', {(2, 2): 5, (2, 1): 5}, [('0 1 2 3 2', 4), ('0 1 2 3 1', 5)]),
    ('the distance back does not count', {(0, 2): 5, (1, 2): 5}, [('0 1 2 3 0', 5), ('0 1 2 3 1', 4)]),
    ('nor does the way to the page that misses', {(2, 3): 5, (3, 3): 5}, [('0 1 2 3 0', 5), ('0 1 2 3 1', 4)]),
    ('nor the way from it', {(3, 1): 5}, [('0 1 2 3 0', 5), ('0 1 2 3 1', 4)]),
    ('nor the way from earlier pages', {(0, 1): 5, (1, 2): 5}, [('0 1 2 3 0', 5), ('0 1 2 3 1', 4), ('0 1 2 3 2', 4)]),
    ('a hit before the miss is the page last referred to', {(1, 2): 5}, [('0 1 2 1 3 0', 4), ('0 1 2 1 3 2', 5)]),
    ('after a hit the page last read does not count', {(2, 1): 5}, [('0 1 2 0 3 1', 5), ('0 1 2 0 3 2', 4)]),
    ('a page far from itself that was hit', {(0, 0): 5}, [('0 1 2 0 3 0', 5), ('0 1 2 0 3 1', 4)]),
    ('none leaves while a frame is free', dict.fromkeys(product(range(4), repeat=2), 5), [
        ('0 1 0 1', 2), ('0 1 2 0 1 2', 3), ('3 0 1 3 1 0', 3)]),
    ('one leaves at each miss, not all that are far', {(2, 0): 5, (2, 1): 5, (2, 2): 5}, [
        ('0 1 2 3 1 2', 4), ('0 1 2 3 2 1', 4)]),
    ('one that came back was used last', {(3, 0): 5, (3, 1): 5}, [('0 1 2 3 0 3 1', 6), ('0 1 2 3 0 2', 5)])]


def rule_cases(cases):
    for name, far, rows in RULES:
        cases.add(f'three frames: {name}', [Asked(drawn(text), 4, 3, table(4, far), 4, reads) for text, reads in rows])


# About the bounds of a byte, of two, three and four, and of a sign; and where 32-bit floats leave numbers out.
NUMBERS = (0, 1, 2, 127, 128, 255, 256, 257, 32767, 32768, 65535, 65536, 2 ** 24 - 1, 2 ** 24, 2 ** 24 + 1,
           2 ** 31 - 1, 2 ** 31, 2 ** 31 + 1, MOST - 1, MOST)


def threshold_cases(cases):
    """The only distance that may be far is that of page 1 from itself: if it is, page 1 leaves and page 0 stays."""
    cases.add('every distance of a row of numbers against every D of it', [
        Asked(drawn('0 1 2 0'), 3, 2, table(3, {(1, 1): distance}), threshold, 3 if distance > threshold else 4)
        for distance in NUMBERS for threshold in NUMBERS])
    cases.add('the same against the greatest distances, one of which is D', [
        Asked(drawn('0 1 2 0'), 3, 2, table(3, {(1, 1): MOST}, rest=MOST - 1), threshold, reads)
        for threshold, reads in [(MOST, 4), (MOST - 1, 3), (MOST - 2, 4), (0, 4)]])


def all_cases(cases):
    """Every list of five entries of three pages, and every table of three pages with near and far ones."""
    lists = every_list(3, 5)
    for name, far in [('each page far from itself', {(0, 0), (1, 1), (2, 2)}),
                      ('each page far from the next', {(0, 1), (1, 2), (2, 0)}),
                      ('page 0 far from all, page 2 from page 1', {(0, 0), (0, 1), (0, 2), (2, 1)})]:
        distances = table(3, dict.fromkeys(far, 10), rest=9)
        cases.add(f'every list of five entries, two frames, {name}', [
            Asked(lists, 3, 2, distances, 9), *[Asked(part, 3, 2, distances, 9) for part in parts(lists, 5)]])
    rng = random.Random(2020)
    entries = [rng.randrange(3) for _ in range(40)]
    tables = every_list(2, 9)
    cases.add('every table of near and far, three pages, two frames', [
        Asked(entries, 3, 2, tables, 0, 'refused 23'), *[Asked(entries, 3, 2, part, 0) for part in parts(tables, 9)]])


# The numbers F and P

# Each over 64, and many with a good number of frames in their low bits.
LARGE_FRAMES = (65, 66, 96, 127, 128, 240, 255, 256, 257, 320, 65535, 65536, 65538, 65600, 2 ** 31, 2 ** 31 + 2,
                2 ** 32 - 1, 2 ** 32, 2 ** 32 + 1, 2 ** 32 + 64, 2 ** 48 + 2, 2 ** 63, 2 ** 63 + 2, 2 ** 64 - 64,
                2 ** 64 - 1)


def frame_cases(cases):
    """Every number of frames, on lists that go round and round."""
    for count in (64, 65):
        entries, distances = list(range(count)) * 3, table(count, rest=3)
        cases.add(f'{count} pages three times round, plain least recently used', [
            Asked(entries, count, frames, distances, MOST, 3 * count if frames < count else count)
            for frames in range(1, 65)] + [
            Asked(entries, count, frames, distances, MOST, 'refused 23') for frames in (0, *LARGE_FRAMES)])
    # the page last referred to leaves, so that the first pages stay
    last_leaves = table(70, {(page, page): 1 for page in range(70)})
    cases.add('70 pages twice round, each far from itself', [
        Asked(list(range(70)) * 2, 70, frames, last_leaves, 0, 140 - frames if frames > 1 else 140)
        for frames in range(1, 65)])
    rng = random.Random(64)
    distances = [rng.randrange(100) for _ in range(80 ** 2)]
    entries = random_walk(rng, 80, 600)
    cases.add('80 pages by chance', [
        Asked(entries, 80, frames, distances, threshold) for threshold in (20, 99) for frames in range(1, 65)])
    cases.add('more frames than pages', [
        Asked(drawn('2 0 1 0 2 1'), 3, frames, table(3, rest=9), threshold, 3)
        for frames in (3, 4, 5, 32, 63, 64) for threshold in (0, 8, 9)])


LARGE_PAGES = (241, 242, 255, 256, 257, 480, 496, 65535, 65536, 65537, 65537 + 255, 2 ** 31, 2 ** 31 + 1, 2 ** 32 - 1,
               2 ** 32, 2 ** 32 + 1, 2 ** 48 + 1, 2 ** 63, 2 ** 63 + 1, 2 ** 64 - 256, 2 ** 64 - 1)


def page_count_cases(cases):
    """Every number of pages up to 240, and larger ones with tables of a length that is right or right in low bits."""
    asked = []
    for pages in range(1, 241):
        entries = [pages - 1, 0, pages // 2, pages - 1]
        asked += [Asked(entries, pages, 4, [0] * pages ** 2, 0, len(set(entries))),
                  Asked([pages], pages, 4, [0] * pages ** 2, 0, 'refused 23')]
    cases.add('P from 1 to 240', asked)
    asked = []
    for pages in (0, *LARGE_PAGES):
        square = pages ** 2
        sizes = {0, 1, 4, pages % 256, square % 256, square % 65536, min(square, MOST_ENTRIES)}
        asked += [Asked(entries, pages, 2, [0] * size, MOST, 'refused 3')
                  for entries in ([], [0], [0, 0]) for size in sorted(sizes)]
    cases.add('P 0 and over 240', asked)


# Refusals

def refusal_cases(cases):
    """Each way to be refused with each of the others: 3 before 23."""
    asked = []
    # the first of each row is good; 58,081 is 241 times 241
    for pages, frames, entry, size in product((2, 0, 241, 258, 2 ** 16 + 2, 2 ** 32 + 2, 2 ** 64 - 1),
                                              (2, 0, 65, 258, 2 ** 32 + 2), (0, 255), (4, 0, 3, 5, 58081)):
        is_good = (frames, entry, size) == (2, 0, 4)
        stated = 'refused 3' if pages != 2 else 2 if is_good else 'refused 23'
        asked.append(Asked([0, 1, entry], pages, frames, [0] * size, 0, stated))
    cases.add('P, F, an entry and the table, each good and bad', asked)
    cases.add('P 0 with nothing else amiss and with F amiss', [
        Asked([], 0, frames, [], 0, 'refused 3') for frames in (0, 1, 64, 65, 2 ** 32)])


def entry_cases(cases):
    """An entry that is not below P, at every place."""
    for pages, entries in [(1, [0] * 4), (2, [1, 0, 1, 1, 0]), (3, [0, 1, 2, 2, 1, 0, 1, 0, 2]), (239, [238, 0, 1]),
                           (240, [239, 0, 238, 239])]:
        good = len(set(entries))
        distances = table(pages)
        cases.add(f'P {pages}, every entry in turn not below P', [Asked(entries, pages, 3, distances, 0, good)] + [
            Asked(entries[:at] + [bad] + entries[at + 1:], pages, 3, distances, 0, 'refused 23')
            for at in range(len(entries)) for bad in sorted({pages, min(pages + 1, 255), 255})])
    cases.add('an entry below P that is the only one', [
        Asked([page], pages, 1, table(pages), 0, 1 if page < pages else 'refused 23')
        for pages in (1, 2, 7, 128, 240) for page in (0, 1, 2, 6, 7, 8, 127, 128, 239, 240, 241, 254, 255)])


def table_length_cases(cases):
    """Tables of other lengths than P·P, as near to it as an entry, a row, a byte or two bytes."""
    for pages in (1, 2, 3, 15, 16, 17, 21, 240):
        square = pages ** 2
        sizes = {0, 1, pages - 1, pages, pages + 1, 2 * pages, square - pages, square - 2, square - 1, square,
                 square + 1, square + 2, square + pages, pages * (pages - 1), pages * (pages + 1) // 2,
                 (pages + 1) ** 2, (pages - 1) ** 2, square % 256, square + 256, square + 65536, 57600}
        cases.add(f'P {pages}, tables of every length about P*P', [
            Asked(entries, pages, 2, [0] * size, 0, len(entries) if size == square else 'refused 23')
            for size in sorted(sizes) if 0 <= size <= MOST_ENTRIES for entries in ([], [0], [0, pages - 1][:pages])])


# By chance

def random_table(rng, pages):
    kind = rng.randrange(6)
    places = [(rng.randrange(20), rng.randrange(20)) for _ in range(pages)]
    way = [[abs(a - c) + abs(b - d) for c, d in places] for a, b in places]
    rows = range(pages)
    if kind == 0:  # on a plane
        return [way[last][page] for last in rows for page in rows]
    if kind == 1:  # on a plane, and each page farther from itself than some others
        return [way[last][page] if last != page else rng.randrange(20) for last in rows for page in rows]
    if kind == 2:  # round a track one way
        return [(page - last) % pages * 100 for last in rows for page in rows]
    if kind == 3:
        return [rng.randrange(3) for _ in rows for _ in rows]
    if kind == 4:
        return [MOST - rng.randrange(4) for _ in rows for _ in rows]
    return [rng.choice([rng.randrange(300), rng.randrange(70000), rng.randint(0, MOST)]) for _ in rows for _ in rows]


def random_pages(rng, pages, length):
    """A list of any pages, of neighbours, round and round, of a few pages for a while, or with runs."""
    kind = rng.randrange(5)
    entries = [rng.randrange(pages)]
    few = rng.sample(range(pages), min(pages, 4))
    while len(entries) < length:
        if kind == 0:
            page = rng.randrange(pages)
        elif kind == 1:
            page = entries[-1] + rng.choice([-1, 0, 1, 1, -1, 2])
        elif kind == 2:
            page = entries[-1] + 1 if rng.random() < 0.9 else rng.randrange(pages)
        elif kind == 3:
            if rng.random() < 0.05:
                few = rng.sample(range(pages), min(pages, 4))
            page = rng.choice(few)
        else:
            page = entries[-1] if rng.random() < 0.4 else rng.randrange(pages)
        entries.append(page % pages)
    return entries[:length]


def thresholds_about(rng, distances):
    """Thresholds of every kind: the ends, and a distance of the table with the numbers beside it."""
    one = rng.choice(distances)
    return sorted({0, max(one - 1, 0), one, min(one + 1, MOST), sorted(distances)[len(distances) // 2],
                   max(max(distances) - 1, 0), max(distances), MOST})


def random_cases(cases):
    rng = random.Random(20)
    for number in range(1, 41):
        pages = rng.choice([1, 2, 3, 4, 5, 6, 7, 8, 10, 12])
        distances = random_table(rng, pages)
        lists = [random_pages(rng, pages, rng.choice([5, 12, 30, 60])) for _ in range(4)]
        cases.add(f'random lists of few pages {number}', [
            Asked(entries, pages, frames, distances, threshold) for entries in lists
            for frames in sorted(rng.sample(range(1, pages + 3), 3))
            for threshold in rng.sample(thresholds_about(rng, distances), 2)])


def random_larger_cases(cases):
    rng = random.Random(202)
    for number in range(1, 13):
        pages = rng.randint(20, 75)
        distances = random_table(rng, pages)
        lists = [random_pages(rng, pages, rng.randint(300, 1500)) for _ in range(3)]
        cases.add(f'random lists of many pages {number}', [
            Asked(entries, pages, frames, distances, threshold) for entries in lists
            for frames in sorted(rng.sample(range(1, 65), 3))
            for threshold in rng.sample(thresholds_about(rng, distances), 2)])


def random_damaged_cases(cases):
    """Entries of a list and of its table changed at random, some of them to what is refused."""
    rng = random.Random(2002)
    for number in range(1, 9):
        pages = rng.randint(3, 9)
        distances = random_table(rng, pages)
        entries = random_pages(rng, pages, 40)
        threshold = rng.choice(thresholds_about(rng, distances))
        asked = [Asked(entries, pages, frames, distances, threshold) for frames in (2, 3)]
        for _ in range(10):
            changes = [('list', rng.randrange(40), rng.randrange(pages + 1)) for _ in range(rng.randint(0, 3))]
            changes += [('table', rng.randrange(pages ** 2), rng.choice([threshold, threshold // 2, MOST, 0]))
                        for _ in range(rng.randint(0, 3))]
            asked += [Asked(entries, pages, frames, distances, threshold, None, changes) for frames in (2, 3)]
        cases.add(f'random list {number}, entries and distances changed', asked)


# Long lists and full tables

# Pairs of pages whose distance is about the bounds of a byte and of 15 bits in a table of 240 pages, and its ends.
PAIRS = [(0, 1), (1, 0), (1, 15), (1, 16), (1, 17), (0, 239), (239, 0), (136, 127), (136, 128), (136, 129), (128, 136),
         (127, 200), (200, 127), (238, 239), (239, 238)]


def one_far_calls(distances):
    """One distance above D in a full table: the page of its column leaves at a miss behind that of its row."""
    for last, page in PAIRS:
        first, missed = [other for other in range(2, 240) if other not in (last, page)][:2]
        entries = [first, page, last, missed, page]
        yield Asked(entries, 240, 3, distances, MOST - 1, 4)
        yield Asked(entries, 240, 3, distances, MOST - 1, 5, [('table', last * 240 + page, MOST)])


def full_table_cases(cases):
    """240 pages, and distances that are as large as they can be."""
    rng = random.Random(240)
    distances = [rng.randrange(MOST) for _ in range(57600)]
    entries = [rng.randrange(240) for _ in range(12000)]
    asked = [*one_far_calls(distances)]
    asked += [Asked(entries, 240, frames, distances, threshold) for frames, threshold in [
        (2, 2 ** 31), (33, 2 ** 31), (63, 2 ** 31), (64, 2 ** 31), (64, 0), (64, 2 ** 32 - 2 ** 26), (64, MOST - 1)]]
    asked += [Asked([page % pages for page in entries[:200]], pages, rng.randint(1, min(pages, 64)),
                    distances[:pages ** 2], rng.randrange(MOST)) for pages in range(1, 240)]
    cases.add('full size: one distance above D, and lists by chance for every P', asked)


def long_cases(cases):
    """A list of more than 65,536 entries, so that reads and times of references pass two bytes."""
    rng = random.Random(70000)
    entries = [0]
    while len(entries) < 70000:
        entries.append((entries[-1] + rng.choice([1, 1, 2, 3, 4])) % 5)
    distances = [rng.randrange(8) for _ in range(25)]
    asked = [Asked(entries, 5, 2, distances, 3, 'refused 23', [('list', at, 5)])
             for at in (0, 63, 64, 254, 255, 256, 32766, 32767, 32768, 65534, 65535, 65536, 69999)]
    asked += [Asked(entries, 5, frames, distances, threshold) for frames, threshold in [(3, 3), (2, 3), (4, 3), (3, 7)]]
    asked += [Asked(entries[:length], 5, 1, distances, 3, length) for length in (65535, 65536, 65537, 70000)]
    asked.append(Asked(entries, 5, 5, distances, 3, 5))
    cases.add('a list of 70,000 entries', asked)


def walk_cases(cases):
    """240 pages on a grid of 16 by 15, and a list that goes mostly from page to neighbouring page."""
    rng = random.Random(1615)
    grid = [10 * (abs(a % 16 - b % 16) + abs(a // 16 - b // 16)) for a in range(240) for b in range(240)]
    walk = random_walk(rng, 240, 30000)
    around = list(range(240)) * 8
    asked = [Asked(walk, 240, frames, grid, threshold) for frames, threshold in [
        (1, 50), (2, 50), (63, 50), (64, 50), (64, 0), (64, 289), (64, 290)]]
    asked += [Asked(around, 240, frames, grid, threshold) for frames in (1, 2, 63, 64) for threshold in (0, 70, MOST)]
    asked += [Asked(walk, 240, frames, grid, 50, 'refused 23') for frames in (0, 65, 240, 2 ** 32 + 64)]
    asked += [Asked(walk, 240, 64, grid[:-1], 50, 'refused 23'), Asked(walk, 240, 64, [*grid, 0], 50, 'refused 23'),
              Asked(walk, 241, 64, grid, 50, 'refused 3'), Asked(walk, 239, 64, grid, 50, 'refused 23'),
              Asked(walk, 65536 + 240, 64, grid, 50, 'refused 3')]
    asked += [Asked(walk, 240, 64, grid, 50, 'refused 23', [('list', at, bad)])
              for at in (0, 20000, 29999) for bad in (240, 255)]
    cases.add('full size: 240 pages on a grid, a walk of 30,000 entries', asked)


def main():
    cases = Cases()
    for part in (course_cases, one_page_cases, rule_cases, threshold_cases, all_cases, refusal_cases, entry_cases,
                 table_length_cases, page_count_cases, random_cases, random_damaged_cases, long_cases,
                 full_table_cases, frame_cases, random_larger_cases, walk_cases):
        part(cases)
    cases.check_all()
    stream = b''.join(cases.stream)
    text = ''.join(line + '\n' for line in cases.lines).encode('ascii')
    keep(f'{cases.calls:,} calls', [(FOLDER / 'stdin', stream), (FOLDER / 'stdout', text)])


if __name__ == '__main__':
    main()
