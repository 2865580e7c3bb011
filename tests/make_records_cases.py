"""Writes the cases of the program records_test, crates/records_test/stdin, and what it must print, stdout beside it.

    python3 tests/make_records_cases.py            write both files
    python3 tests/make_records_cases.py --check    only compare them with what would be written; exit 1 on a difference

The expected text comes from records.py. Each case also states its answer by hand, from document 02, C-16, and document
01. What is read has to be written back as it was, and what is written has to be good and to be read back as it was. The
generator stops where one of these says otherwise, and where no case needs a part of C-16 (record_variants.py).

The input is a row of cases: the label's length (u8), the number of calls (u16), the number of bytes (u32), the label,
the bytes, and the calls. A call is six u16, its kind (u8), the number of its changes (u8), and the changes, each an
offset (u32) and the byte that stands there from this call on. Kind 1 reads the bytes as an image; the sixth u16 is the
room for records. Kind 2 writes; its u16 are N, P, the directory's length, the offset of the first record, the number of
records, and the buffer's length. The directory is at the front of the bytes, and a record is four u16.
"""
import random
from collections import Counter

from limits import random_limit, random_limits
from make_coils_examples import plate_yard
from make_search_cases import C6, C8, M7, M7_LIMITED, S, damaged, drawn, page_begins, random_change, random_map, spelled
from make_search_cases import table_words
from maps import image, move, page, station, u16, u32
from reader import PAGE, parse, whole_check
from record_variants import VARIANTS, reader_differences, writer_differences
from records import answer_words, read, records_of, write
from stored import ROOT, keep

FOLDER = ROOT / 'crates' / 'records_test'

READ, WRITE = 1, 2  # the kinds of call

# What stands in a buffer before a call.
BYTE_BEFORE = 187

MOST = 65535


# Records as bytes

def record_bytes(record):
    return b''.join(map(u16, record))


def parse_record(data):
    return tuple(int.from_bytes(data[at:at + 2], 'little') for at in range(0, 8, 2))


def drawn_records(text):
    """Records written as document 01 writes moves, `0-1/4 0-4/2`, and a limit behind the time: `0-4/2/9`."""
    records = []
    for one in text.replace(',', ' ').split():
        way, *numbers = one.split('/')
        records.append((*map(int, way.split('-')), *[*map(int, numbers), 0][:2]))
    return records


# The calls

class Read:
    """A call of the reader, for a list with room for so many records. The changes are made to the bytes of the case
    for this call alone. The answer is stated by hand; None where records.py alone has it."""

    def __init__(self, room, answer, changes=()):
        self.room, self.answer, self.changes = room, answer, changes

    def changed(self, data):
        return damaged(data, *self.changes)

    def head(self):
        return b''.join(map(u16, (0, 0, 0, 0, 0, self.room))) + bytes([READ])

    def title(self):
        return f' read, room {self.room}'

    def run(self, data):
        """The answer, the lines behind it, and the variants that answer otherwise."""
        answer = read(data, self.room)
        lines = []
        if answer[0] == 'listed':
            _, n, directory, pages = parse(data)
            back = write(n, len(pages), directory, len(data), answer[1])
            # "Reading any wholly good image into records and writing them gives its bytes"
            assert back == ('written', data) and len(answer[1]) <= self.room
            lines = [records_line(answer[1]), '  written back: written', *image_lines(data, answer[1])]
        return answer, lines, reader_differences(data, self.room)


class Write:
    """A call of the writer on a drawing. Its numbers are the drawing's own, but for those that are given: n, p, and the
    lengths of directory, records and buffer. For this call alone `put` has other records, by their index, and `on`
    other pages, by their station. The answer is as for Read."""

    def __init__(self, answer, put=(), on=(), **numbers):
        self.answer, self.put, self.on, self.numbers = answer, dict(put), dict(on), numbers

    def draw(self, drawing):
        """Takes the rest from the drawing."""
        n, p = drawing.n, drawing.p
        own = {'n': n, 'p': p, 'directory': n, 'records': len(drawing.records), 'buffer': 4 + n + PAGE * p}
        self.drawing, self.numbers = drawing, own | self.numbers
        return self

    def changed(self, data):
        data = bytearray(data)
        for s, p in self.on.items():
            data[s] = p
        for i, record in self.put.items():
            at = self.drawing.first + 8 * i
            data[at:at + 8] = record_bytes(record)
        return bytes(data)

    def head(self):
        n, p, directory, records, buffer = self.numbers.values()
        return b''.join(map(u16, (n, p, directory, self.drawing.first, records, buffer))) + bytes([WRITE])

    def title(self):
        return ' write, N {n}, P {p}, directory {directory}, records {records}, buffer {buffer}'.format(**self.numbers)

    def run(self, data):
        """The answer, the lines behind it, and the variants that answer otherwise."""
        n, p, directory, count, buffer = self.numbers.values()
        first = self.drawing.first
        assert directory <= first and first + 8 * count <= len(data)
        records = [parse_record(data[first + 8 * i:first + 8 * i + 8]) for i in range(count)]
        asked = n, p, data[:directory], buffer, records
        answer = write(*asked)
        if answer[0] == 'refused':
            # "touches no lent memory"
            return answer, [buffer_line([BYTE_BEFORE] * buffer)], writer_differences(*asked)
        made = answer[1]
        # "reading a written image gives the records"
        assert len(made) == buffer and whole_check(made) == ('good',) and read(made, count) == ('listed', records)
        return answer, image_lines(made, records), writer_differences(*asked)


def records_line(records):
    return '   records' + table_words([number for record in records for number in record])


def buffer_line(data):
    return '   buffer' + table_words(list(data))


def image_lines(data, records):
    """A written image, which is then read."""
    return [buffer_line(data), f'  read back: listed {len(records)}', records_line(records)]


class Drawing:
    """Records and a directory for so many pages; spare bytes behind the directory."""

    def __init__(self, directory, records, p=None, spare=b'\0'):
        self.directory, self.records = bytes(directory), records
        self.n, self.p = len(directory), max(directory) + 1 if p is None else p
        self.first = self.n + len(spare)
        self.data = self.directory + spare + b''.join(map(record_bytes, records))


class Cases:
    """The cases: the bytes that the program reads, the lines that it must print, and what came up."""

    def __init__(self):
        self.stream, self.lines = [], []
        self.answers = Counter()  # how many calls of either kind got which answer
        self.needs = Counter()  # how many calls need which part

    def add(self, label, data, calls):
        text = label.encode('ascii')
        self.stream += [bytes([len(text)]), u16(len(calls)), u32(len(data)), text, data]
        self.lines.append(label)
        now = data
        for call in calls:
            wanted = call.changed(data)
            changes = [(at, wanted[at]) for at in range(len(data)) if now[at] != wanted[at]]
            now = wanted
            self.add_call(label, now, call, changes)

    def add_call(self, label, data, call, changes):
        answer, lines, differing = call.run(data)
        words = answer_words(answer)
        assert call.answer in (None, words), (label, call.title(), words, call.answer)
        self.stream += [call.head(), bytes([len(changes)]), *[u32(at) + bytes([value]) for at, value in changes]]
        self.lines += [call.title(), *[f'  byte {at} becomes {value}' for at, value in changes]]
        self.lines += [f'  answer: {words}', *lines]
        number = answer[1] if answer[0] == 'refused' else 0
        self.answers[type(call), number] += 1
        self.needs.update(differing)

    def draw(self, label, drawing, calls):
        """A case of the writer."""
        self.add(label, drawing.data, [call.draw(drawing) for call in calls])

    def check_needs(self):
        for variant in VARIANTS:
            assert self.needs[variant], f'no case in which {variant.__name__} answers otherwise'


# Reading

def rooms(data):
    """A good image for lists of about as many records as it has: exact, one more, the most, one less, and none."""
    count = len(records_of(data))
    listed = f'listed {count}'
    calls = [Read(room, listed) for room in (count, count + 1, MOST)]
    return calls + [Read(room, 'refused 7') for room in sorted({count - 1, 0}) if 0 <= room < count]


def course_cases(cases):
    """The course maps."""
    assert records_of(M7) == drawn_records('0-1/4 0-4/2 1-2/3 2-3/3 3-5/3 4-2/1 4-5/6 5-6/1')
    cases.add('S', S, [Read(0, 'listed 0'), Read(1, 'listed 0'), Read(MOST, 'listed 0')])
    cases.add('M7', M7, [*rooms(M7), Read(8, 'listed 8')])
    cases.add('M7, two of its moves with limits', M7_LIMITED, rooms(M7_LIMITED))
    cases.add('C6', C6, rooms(C6))
    bad = damaged(M7, (page_begins(M7, 1), 7))
    cases.add('C7: M7, page 1 begins 07', bad, [Read(room, 'refused 8, page 1, offset 0') for room in (0, 8, MOST)])
    cases.add('C8', C8, [Read(0, 'refused 8, page 1, offset 0')])
    yard = plate_yard()
    offset = len(yard) - PAGE + 24
    cases.add('the plate yard: its last move leads to its own station', yard, [
        Read(MOST, 'refused 12, page 23, offset 27'), Read(0, 'refused 12, page 23, offset 27')])
    good = damaged(yard, (offset + 4, 0), (offset + 5, 0))
    cases.add('the plate yard, its last move to station 0', good, rooms(good))


def refused_image_cases(cases):
    """Each refusal of the whole check: whatever room the list has, 7 comes after it."""
    def row(label, data, answer):
        cases.add(label, data, [Read(MOST, answer), Read(0, answer)])

    row('1: an empty image', b'', 'refused 1')
    row('1: 3 bytes', b'\x01\x00\x01', 'refused 1')
    row('2: 00 00 01 00', b'\x00\x00\x01\x00', 'refused 2')
    row('2: N 2,049', image([0] * 2049, page()), 'refused 2')
    row('3: 01 00 00 00', b'\x01\x00\x00\x00', 'refused 3')
    row('3: P 241', u16(1) + u16(241) + b'\x00', 'refused 3')
    row('4: S less its last byte', S[:-1], 'refused 4')
    row('4: M7 and one byte more', M7 + b'\x00', 'refused 4')
    row('5: S, directory 01', damaged(S, (4, 1)), 'refused 5, station 0')
    row('5: M7, stations 3 and 5 on no page', damaged(M7, (7, 2), (9, 255)), 'refused 5, station 3')
    for label, fault, parts in [
            ('8: page 07', '8, page 0, offset 0', [b'\x07']),
            ('8: code 04 behind a move', '8, page 0, offset 8', [station(0), move(1, 1), b'\x04']),
            ('10: page all zero', '10, page 0, offset 0', []),
            ('10: station 1 missing', '10, page 0, offset 8', [station(0), move(1, 1)]),
            ('11: a move before its station', '11, page 0, offset 0', [move(1, 1), station(0), station(1)]),
            ('12: target N', '12, page 0, offset 3', [station(0), move(2, 1), station(1)]),
            ('12: targets not rising', '12, page 0, offset 8', [station(0), move(1, 1), move(1, 2), station(1)]),
            ('14: a byte behind the end', '14, page 0, offset 6', [station(0), station(1), b'\x00\x05']),
            ('18: a limit of 0', '18, page 0, offset 3', [station(0), move(1, 1, 0), station(1)])]:
        row(label, image([0, 0], page(*parts)), f'refused {fault}')
    row('9: 86 stations on one page', image([0] * 86, b''.join(map(station, range(86)))[:PAGE]),
        'refused 9, page 0, offset 255')
    row('9: no 00', image([0, 0] + [1] * 50, page(station(0), *[move(t, 1) for t in range(2, 52)], station(1)),
                          page(*map(station, range(2, 52)))), 'refused 9, page 0, offset 256')
    two = damaged(M7, (page_begins(M7, 0) + 255, 1), (page_begins(M7, 1), 7))
    row('two bad pages: the lower one', two, 'refused 14, page 0, offset 37')
    row('a page without stations has a byte', damaged(drawn([0, 2], '0-1/4', 3), (6 + PAGE, 1)),
        'refused 10, page 1, offset 0')


def full_page_images(cases):
    """Pages as full as they can be, of each command."""
    one = spelled([0] + [1] * 50, {0: [(t, 100 * t) for t in range(1, 51)]}, 2)
    cases.add('50 moves of one station', one, rooms(one))
    stations = spelled([0] * 85, {}, 1)
    cases.add('85 stations on one page', stations, rooms(stations))
    limits = spelled([0] + [1] * 36, {0: [(t, t, 1000 + t) for t in range(1, 37)]}, 2)
    cases.add('36 moves with limits of one station', limits, rooms(limits))
    five = spelled([0] * 5 + [1] * 50, {4: [(t, 1) for t in range(5, 53)]}, 2)
    cases.add('5 stations and 48 moves of the last one', five, rooms(five))


def scattered_images(cases):
    """Stations that are on their pages in another order than by number; empty pages; pages without moves."""
    turn = [4, 0, 2, 4, 0, 2, 4, 0, 2, 4]
    moves = {s: [(t, 10 * s + t, 7 * t or None) for t in range(10) if (s + t) % 3 == 1 and t != s] for s in range(10)}
    data = spelled(turn, moves, 6)
    cases.add('stations in turn on pages 4, 0 and 2 of 6', data, rooms(data))
    back = drawn([3, 2, 1, 0], '0-3/1 0-2/2/9 1-0/0 2-1/65535/65535 3-0/1/1 3-2/256/256')
    cases.add('pages in falling order', back, rooms(back))
    last = drawn([5, 5, 3], '1-0/3 1-2/4', 9)
    cases.add('9 pages, 7 of them empty, 1 without moves', last, rooms(last))
    only = drawn([0, 1, 2, 3], '3-1/5')
    cases.add('only the last of 4 stations has a move', only, rooms(only))
    none = drawn([1, 0, 1], '', 2)
    cases.add('no moves on either page', none, rooms(none))


def limits_of_numbers(cases):
    """Times and limits of every kind, as an image and as records."""
    text = '0-1/0 0-2/1 0-3/65535 1-0/255/1 1-2/256/65535 1-3/0/255 2-0/0/256 2-1/65535/65535 3-0/1/1'
    data = drawn([0, 0, 1, 1], text)
    cases.add('times 0, 1 and 65,535, limits 0, 1 and 65,535', data, rooms(data))
    drawing = Drawing([0, 0, 1, 1], drawn_records(text))
    cases.draw('times 0, 1 and 65,535, limits 0, 1 and 65,535, written', drawing, [Write('written')] + [
        Write('written', put={3: (1, 0, time, limit)})
        for time in (0, 1, 255, 256, MOST) for limit in (0, 1, 255, 256, MOST)])


# Writing

M7_DIRECTORY = [0, 0, 0, 0, 1, 1, 1]
M7_DRAWING = Drawing(M7_DIRECTORY, records_of(M7))
SMALL = Drawing([0, 1, 0, 1], drawn_records('0-1/4 0-3/2/9 1-0/3 1-2/3 2-3/1/8120 3-0/7'))


def course_drawings(cases):
    cases.draw('M7 written', M7_DRAWING, [
        Write('written'), Write('written', records=7), Write('written', records=1), Write('written', records=0)])
    assert write(7, 2, bytes(M7_DIRECTORY), len(M7), records_of(M7)) == ('written', M7)
    cases.draw('S written', Drawing([0], []), [Write('written')])
    assert write(1, 1, b'\0', len(S), []) == ('written', S)


def no_record_cases(cases):
    """No records at all."""
    cases.draw('no records: N 1 on the last of 240 pages', Drawing([239], []), [Write('written')])
    cases.draw('no records: N 3 on 9 pages', Drawing([5, 5, 3], [], p=9), [Write('written')])
    for label, directory in [('240 pages in turn', [s % 240 for s in range(2048)]),
                             ('25 pages, 85 each', [s // 85 for s in range(2048)])]:
        cases.draw(f'no records: N 2,048 on {label}', Drawing(directory, []), [Write('written')])


def heading_refusals(cases):
    """2 to 5 of the writer."""
    def room(n, p):
        return 4 + n + PAGE * p

    # 2, "N is 0 or over 2,048"
    cases.draw('2: N 0, and its directory and buffer', SMALL, [
        Write('refused 2', n=0, directory=0, records=0, buffer=room(0, 2)), Write('refused 2', n=0)])
    wide = Drawing([s % 25 for s in range(2049)], drawn_records('0-1/1 2047-0/1'), spare=b'')
    cases.draw('2: N 2,049 and 65,535; N 2,048', wide, [
        Write('refused 2'), Write('refused 2', n=MOST), Write('refused 2', records=0), Write('refused 4', n=2048),
        Write('written', n=2048, directory=2048, buffer=room(2048, 25))])
    # 3, "P is 0 or over 240"
    cases.draw('3: P 0, 241 and 65,535; P 240', SMALL, [
        Write('refused 3', p=0, buffer=room(4, 0)), Write('refused 3', p=0),
        Write('refused 3', p=241, buffer=room(4, 241)), Write('refused 3', p=241), Write('refused 3', p=MOST),
        Write('written', p=240, buffer=room(4, 240))])
    # 4, "(the buffer, or a directory not N bytes long)"
    right = room(4, 2)
    cases.draw('4: the buffer is too short or too long', SMALL, [
        Write('refused 4', buffer=buffer) for buffer in (right - 1, right + 1, right - PAGE, right + PAGE, 0, 4, MOST)]
        + [Write('written', buffer=right)])
    cases.draw('4: the directory is too short or too long', SMALL, [
        Write('refused 4', directory=3), Write('refused 4', directory=5), Write('refused 4', directory=0),
        Write('refused 4', directory=3, buffer=right - 1), Write('refused 4', directory=5, buffer=right + 1),
        Write('refused 4', n=3), Write('refused 4', n=5), Write('refused 4', p=1), Write('refused 4', p=3),
        Write('refused 4', n=3, directory=3), Write('refused 4', n=3, buffer=right - 1), Write('written')])
    # 5, "directory byte not below P (answer: lowest such station)"
    cases.draw('5: the first, the last, the lower of two stations on no page', SMALL, [
        Write('refused 5, station 0', on={0: 2}), Write('refused 5, station 3', on={3: 2}),
        Write('refused 5, station 1', on={1: 255, 2: 2}), Write('refused 5, station 0', on={s: 240 for s in range(4)}),
        Write('refused 5, station 1', p=1, buffer=room(4, 1)), Write('written')])
    far = Drawing([s // 85 for s in range(300)], [])
    cases.draw('5: station 258 of 300 on no page', far, [Write('refused 5, station 258', on={258: 4})])


def record_refusals(cases):
    """19: "the first record whose from or target isn't below N, whose target is its from, or that isn't above its
    predecessor by (from, target)"."""
    for i, (begin, target, time, limit) in enumerate(SMALL.records):
        ways = [(4, target), (MOST, target), (256 + begin, target), (begin, 4), (begin, MOST), (begin, 256 + target),
                (begin, begin), (4, 4)]
        cases.draw(f'19: record {i} has a from or target not below N, or its from as target', SMALL, [
            Write(f'refused 19, record {i}', put={i: (*way, time, limit)}) for way in ways])
    for i, (begin, target, _, _) in enumerate(SMALL.records[:-1], 1):
        # equal to its predecessor, with other numbers; a lower target; a lower from
        below = [(begin, target, 9, 9), (begin, target, 0, 0), (begin, target, MOST, MOST)]
        below += [(begin, t, 5, 0) for t in range(target) if t != begin]
        below += [(s, t, 5, 0) for s in range(begin) for t in range(4) if t != s]
        cases.draw(f'19: record {i} is not above its predecessor', SMALL, [
            Write(f'refused 19, record {i}', put={i: record}) for record in below])
    same = Drawing([0, 0], drawn_records('0-1/1 0-1/1 0-1/1'))
    cases.draw('19: all records are the same', same, [Write('refused 19, record 1'), Write('written', records=1)])
    higher = Drawing([0, 0], drawn_records('0-1/1/1 0-1/1/2 0-1/2/0'))
    cases.draw('19: records rise by time or by limit alone', higher, [
        Write('refused 19, record 1'), Write('refused 19, record 1', put={1: (0, 1, 2, 0)})])
    order = Drawing([0, 0, 0], drawn_records('0-1/1 0-2/1 1-0/1 1-2/1 2-0/1 2-1/1'))
    by_target = drawn_records('1-0/1 2-0/1 0-1/1 2-1/1 0-2/1 1-2/1')
    cases.draw('19: by target and then by from', order, [
        Write('written'), Write('refused 19, record 2', put=dict(enumerate(by_target)))])


def first_record_refusals(cases):
    """19: which record is the first, and which stations are below N."""
    cases.draw('19: the first of several faults', SMALL, [
        Write('refused 19, record 2', put={2: (4, 0, 1, 0), 4: (2, 2, 1, 0), 5: (0, 1, 1, 0)}),
        Write('refused 19, record 0', put={0: (0, 0, 4, 0), 5: (0, 4, 1, 0)}),
        Write('refused 19, record 1', put={0: (3, 2, 4, 0)}),
        Write('refused 19, record 3', put={2: (3, 2, 4, 0)}),
        Write('refused 19, record 0', put={i: (4, 4, 4, 4) for i in range(6)})])
    cases.draw('19: a fault behind the records that are lent', SMALL, [
        Write('written', records=5, put={5: (9, 9, 9, 9)}), Write('refused 19, record 5', put={5: (9, 9, 9, 9)}),
        Write('written', records=0, put={0: (9, 9, 9, 9)})])
    one = Drawing([0], drawn_records('0-0/1'))
    cases.draw('19: N 1 has no move', one, [Write('written', records=0)] + [
        Write('refused 19, record 0', put={0: (*way, 1, 0)}) for way in [(0, 0), (0, 1), (1, 0), (1, 1)]])
    far = Drawing([s // 80 for s in range(2048)], drawn_records('0-2047/1 2046-2047/1 2047-0/1 2047-2046/1'))
    cases.draw('19: stations about 2,048', far, [
        Write('written'), Write('refused 19, record 0', put={0: (0, 2048, 1, 0)}),
        Write('refused 19, record 1', put={1: (2046, 2048, 1, 0)}),
        Write('refused 19, record 3', put={3: (2048, 0, 1, 0)}),
        Write('refused 19, record 3', put={3: (2047, 2047, 1, 0)})])


def packed(stations, moves, limited, of=0):
    """A drawing whose page 0 has so many stations, and moves without and behind them with limits, all of one station.
    The targets are on other pages."""
    records = [(of, stations + k, k, 0 if k < moves else k) for k in range(moves + limited)]
    others = [1 + k // 85 for k in range(max(len(records), 1))]
    return Drawing([0] * stations + others, records)


def page_refusals(cases):
    """20: "the lowest page that needs more than 256 bytes", "its `00` counted (85 stations fit a page, 86 do not)"."""
    # stations, moves without and with a limit; the moves are of the last station or of the first, and so the page's
    # last command is a move or a station
    for counts in [(85, 0, 0), (5, 48, 0), (50, 21, 0), (1, 0, 36), (1, 49, 1), (2, 47, 2)]:
        for of in sorted({0, counts[0] - 1}):
            packed_page(cases, counts, of, 256)
    for counts in [(2, 50, 0), (52, 20, 0), (1, 3, 34), (3, 48, 1)]:
        for of in sorted({0, counts[0] - 1}):
            packed_page(cases, counts, of, 257)
    packed_page(cases, (1, 51, 0), 0, 259)
    packed_page(cases, (86, 0, 0), 0, 259)
    packed_page(cases, (1, 0, 37), 0, 263)


def packed_page(cases, counts, of, need):
    """A page that needs so many bytes, as it is and, if that is too many, with one move less."""
    stations, moves, limited = counts
    assert need == 1 + 3 * stations + 5 * moves + 7 * limited
    drawing = packed(*counts, of)
    calls = [Write('written')] if need <= PAGE else [Write('refused 20, page 0')]
    if need > PAGE and drawing.records:
        calls.append(Write('written', records=len(drawing.records) - 1))
    label = f'{stations} stations, {moves} moves and {limited} with limits of station {of} need {need} bytes'
    cases.draw(label if need <= PAGE else '20: ' + label, drawing, calls)


def limits_cases(cases):
    """A limit takes two bytes more."""
    fits = packed(1, 50, 0)  # 254 bytes
    cases.draw('20: 254 bytes, and limits: one fits, two do not', fits, [
        Write('written'), Write('written', put={0: (0, 1, 0, 1)}), Write('written', put={49: (0, 50, 0, MOST)}),
        Write('refused 20, page 0', put={0: (0, 1, 0, 1), 49: (0, 50, 0, 1)})])
    tight = packed(3, 49, 0)  # 255 bytes
    cases.draw('20: 255 bytes, and a limit', tight, [
        Write('written'), *[Write('refused 20, page 0', put={i: (*tight.records[i][:3], 1)}) for i in (0, 24, 48)]])


def station_cases(cases):
    """A station takes three bytes, though it has no move."""
    records = packed(1, 50, 0).records
    cases.draw('20: 254 bytes, and one station more on the page', Drawing([0] + [1] * 51, records), [
        Write('written'), *[Write('refused 20, page 0', on={s: 0}) for s in (1, 26, 51)],
        Write('written', records=49, on={1: 0}), Write('refused 20, page 0', records=49, on={1: 0, 2: 0, 3: 0})])
    cases.draw('20: 85 stations, and one more on their page', Drawing([0] * 85 + [1], []), [
        Write('written'), Write('refused 20, page 0', on={85: 0})])
    cases.draw('20: 86 stations on the last of three pages', Drawing([2] * 86, []), [Write('refused 20, page 2')])
    for label, directory in [('one page', [0] * 2048), ('24 pages', [s // 86 for s in range(2048)])]:
        cases.draw(f'20: 2,048 stations on {label}', Drawing(directory, []), [Write('refused 20, page 0')])


def two_full_pages(cases):
    """Of two full pages the lowest, whichever of their stations is lower."""
    for label, first, second in [('lower', 1, 3), ('higher', 3, 1)]:
        records = [(s, t, 1, 0) for s in (0, 1) for t in range(2, 54)]
        drawing = Drawing([first, second] + [0] * 29 + [2] * 29, records, p=5)
        cases.draw(f'20: two full pages, the lower station on the {label} one', drawing, [
            Write('refused 20, page 1'), Write(f'refused 20, page {first}', records=102),
            Write(f'refused 20, page {first}', records=52), Write('written', records=50),
            Write('refused 20, page 0', on={s: 0 for s in (0, *range(31, 60))}),
            # with 19 present, 19 wins, at whatever record
            Write('refused 19, record 103', put={103: (1, 1, 1, 0)}),
            Write('refused 19, record 51', put={51: (0, 2, 1, 0)}),
            Write('refused 19, record 0', put={0: (0, 60, 1, 0)})])


def order_cases(cases):
    """Each refusal before the next: everything is at fault at first, then one fault after the other is put right."""
    full = Drawing([0, 0] + [1] * 51, [(0, t, 1, 0) for t in range(2, 53)], p=2)
    right = 4 + 53 + 2 * PAGE
    bad_record, no_page = {50: (0, 0, 1, 0)}, {52: 2}
    cases.draw('2, 3, 4, 5, 19 and 20 at once, and put right one by one', full, [
        Write('refused 2', n=0, p=0, buffer=0, directory=52, put=bad_record, on=no_page),
        Write('refused 2', n=2049, p=241, buffer=0, directory=52, put=bad_record, on=no_page),
        Write('refused 3', p=0, buffer=0, directory=52, put=bad_record, on=no_page),
        Write('refused 3', p=241, buffer=right, put=bad_record, on=no_page),
        Write('refused 4', buffer=0, directory=52, put=bad_record, on=no_page),
        Write('refused 4', buffer=right + 1, put=bad_record, on=no_page),
        Write('refused 4', directory=54, put=bad_record, on=no_page),
        Write('refused 5, station 52', put=bad_record, on=no_page),
        Write('refused 19, record 50', put=bad_record),
        Write('refused 20, page 0'),
        Write('written', records=49)])
    # and one before another
    small, bad_move, off = 4 + 4 + 2 * PAGE, {5: (3, 3, 7, 0)}, {3: 2}
    cases.draw('2 before 3', SMALL, [Write('refused 2', n=0, p=0, directory=0, records=0, buffer=4)])
    cases.draw('3 before 4', SMALL, [Write('refused 3', p=0), Write('refused 3', p=241)])
    cases.draw('4 before 5', SMALL, [
        Write('refused 4', buffer=small - 1, on=off), Write('refused 4', directory=5, on=off)])
    cases.draw('4 before 19', SMALL, [Write('refused 4', buffer=small + 1, put=bad_move)])
    cases.draw('5 before 19', SMALL, [Write('refused 5, station 3', on=off, put=bad_move)])
    cases.draw('2 before 20', full, [Write('refused 2', n=2049)])
    cases.draw('3 before 20', full, [Write('refused 3', p=241)])
    cases.draw('4 before 20', full, [Write('refused 4', buffer=right - 1), Write('refused 4', directory=52)])
    cases.draw('5 before 20', full, [Write('refused 5, station 52', on=no_page)])
    cases.draw('19 before 20', full, [Write('refused 19, record 50', put=bad_record)])


# Large maps

def large_cases(cases):
    """As many records as a map can have, and more than it can have."""
    n = 240
    moves = {s: [((s + k) % n, (s * 31 + k * 977) % 65536) for k in range(1, 51)] for s in range(n)}
    most = spelled(list(range(n)), moves, 240)
    assert len(records_of(most)) == 12000
    at = page_begins(most, 239) + 255
    cases.add('the most records: 50 moves on each of 240 pages', most, [
        *rooms(most), Read(12000, 'refused 14, page 239, offset 253', changes=[(at, 1)]), Read(12000, 'listed 12000')])
    turn = [s * 7 % 240 for s in range(2048)]
    full = spelled(turn, dealt(turn), 240)
    assert len(full) == 63492
    cases.add('a full map with limits: N 2,048 on 240 pages', full, rooms(full))
    many_record_cases(cases)


def dealt(directory):
    """Moves with and without limits for the stations of a map, as far as their pages hold them."""
    room = {p: PAGE - 1 - 3 * directory.count(p) for p in set(directory)}
    n = len(directory)
    moves = {}
    for s in sorted(range(n), key=lambda s: (s % 5, s)):
        targets = sorted({(s * 13 + k * 311 + 1) % n for k in range(8)} - {s})
        for t in targets:
            limit = (s * 977 + t * 31) % 65535 + 1 if (s + t) % 3 else None
            size = 7 if limit else 5
            if room[directory[s]] >= size:
                room[directory[s]] -= size
                moves.setdefault(s, []).append((t, (s * 31 + t * 977) % 65536, limit))
    return moves


def many_record_cases(cases):
    """N 2,048 on 240 pages. Stations 1 to 217 are alone on their pages, with 50 moves each; 217 goes on to more
    targets, and behind all these come 50 moves of station 2047, which is on page 0 with station 0."""
    n = 2048
    directory = [*range(218), *[218 + (s - 218) // 85 for s in range(218, 2047)], 0]
    assert max(directory) == 239
    records = [(s, (s + 1 + 37 * k) % n, (s * 31 + k) % 65536, 0) for s in range(1, 217) for k in range(50)]
    records = sorted(records) + [(217, t, t, 0) for t in range(1442) if t != 217]
    assert len(records) == 12241
    records += [(2047, 40 * k, k, 0) for k in range(50)]
    drawing = Drawing(directory, records, p=240)
    fitting = 217 * 50
    two_limits = {0: (*records[0][:3], 1), 49: (*records[49][:3], 8120)}
    cases.draw('N 2,048 on 240 pages, and 12,291 records', drawing, [
        Write('written', records=fitting), Write('refused 20, page 217', records=fitting + 1),
        Write('refused 20, page 217', records=12239), Write('refused 20, page 217', records=12240),
        Write('refused 20, page 217', records=12241), Write('refused 20, page 217', records=12290),
        # the last record of all fills page 0, which is lower
        Write('refused 20, page 0'),
        Write('refused 19, record 12239', put={12239: (217, 217, 1, 0)}),
        Write('refused 19, record 12240', put={12240: (217, 217, 1, 0)}),
        Write('refused 19, record 12241', put={12241: (2047, 2048, 1, 0)}),
        Write('refused 19, record 12290', put={12290: records[12289]}),
        Write('refused 19, record 0', put={0: (0, 0, 1, 0), 12290: (2047, 2047, 1, 0)}),
        Write('written', records=fitting, put={0: two_limits[0]}),
        Write('refused 20, page 1', records=fitting, put=two_limits), Write('refused 20, page 0', put=two_limits),
        Write('refused 5, station 2047', on={2047: 240}), Write('refused 4', directory=2047),
        Write('refused 4', buffer=63491), Write('refused 4', buffer=63493), Write('refused 2', n=2049),
        Write('refused 3', p=241), Write('written', records=fitting)])


# By chance

def random_image_cases(cases):
    """36 good maps, on every other one moves with limits; each then damaged at one to three bytes, three times."""
    rng = random.Random(16)
    for number in range(1, 37):
        data = random_map(rng, random_limits(rng) if number % 2 else (), (0, 1, 2, 255, 256, 8120, MOST))[0]
        count = len(records_of(data))
        bad = [[random_change(rng, data) for _ in range(rng.randint(1, 3))] for _ in range(3)]
        cases.add(f'random map {number}', data, [
            *rooms(data)[-2:], Read(count, f'listed {count}'),
            *[Read(rng.choice([0, count, MOST]), None, changes=changes) for changes in bad]])


def random_drawing(rng):
    """Records by chance, in order, and a directory; sometimes more of them than the pages hold."""
    n, p = rng.randint(1, rng.choice([3, 8, 20, 60])), rng.choice([1, 1, 2, 2, 3, 4, 6])
    directory = [rng.randrange(p) for _ in range(n)]
    limits = rng.choice([(), random_limits(rng)])
    ways = [(s, t) for s in range(n) for t in range(n) if s != t]
    chosen = sorted(rng.sample(ways, min(len(ways), rng.choice([0, 3, 10, 25 * p, 48 * p]))))
    times = [0, 1, 255, 256, MOST, rng.randint(0, MOST)]
    return Drawing(directory, [(s, t, rng.choice(times), random_limit(rng, limits) or 0) for s, t in chosen], p=p)


def random_put(rng, drawing):
    """Records that take the place of others: one or two, mostly near to good ones."""
    n, put = drawing.n, {}
    for _ in range(rng.randint(1, 2)):
        i = rng.randrange(len(drawing.records))
        record = list(rng.choice([drawing.records[i], rng.choice(drawing.records)]))
        if rng.random() < 0.8:
            place = rng.randrange(4)
            record[place] = rng.choice([0, 1, record[place] ^ 1, record[place] + 1, n - 1, n, n + 255, MOST]) % 65536
        put[i] = tuple(record)
    return put


def random_drawing_cases(cases):
    """90 drawings, each as it is, with fewer records, and with one or two records or a directory byte damaged."""
    rng = random.Random(1616)
    for number in range(1, 91):
        drawing = random_drawing(rng)
        count = len(drawing.records)
        calls = [Write(None), Write(None, records=rng.randint(0, count))]
        if count:
            calls += [Write(None, put=random_put(rng, drawing)) for _ in range(3)]
        calls += [Write(None, on={rng.randrange(drawing.n): rng.choice([0, drawing.p - 1, drawing.p, 255])})]
        cases.draw(f'random drawing {number}', drawing, calls)


def main():
    cases = Cases()
    for part in (course_cases, refused_image_cases, full_page_images, scattered_images, limits_of_numbers,
                 course_drawings, no_record_cases, heading_refusals, record_refusals, first_record_refusals,
                 page_refusals, limits_cases, station_cases, two_full_pages, order_cases, large_cases,
                 random_image_cases, random_drawing_cases):
        part(cases)
    cases.check_needs()
    stream = b''.join(cases.stream)
    text = ''.join(line + '\n' for line in cases.lines).encode('ascii')
    keep(f'{sum(cases.answers.values()):,} calls', [(FOLDER / 'stdin', stream), (FOLDER / 'stdout', text)])


if __name__ == '__main__':
    main()
