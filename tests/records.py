"""An independent reader and writer of move records, written from document 02, C-16, and document 01.

    read(image, room)                               -> ('listed', records) or a refusal
    write(n, p, directory, room, records)           -> ('written', image) or a refusal
    answer_words(answer)                            -> the answer as records_test prints it

A record is (from, target, time, limit), and "limit 0 means `02`". `room` is how many records the list has room for, or
how many bytes the buffer has. A refusal is ('refused', number) and the place that it names: a station for 5, a page and
an offset for 8 to 14 and 18, the index of a record for 19, a page for 20.
"""
from maps import image, move, page, station
from reader import PAGE, parse, read_page, whole_check

# Bytes of a station, of a move without and of one with a limit, and of the `00`.
STATION_BYTES, MOVE_BYTES, LIMITED_BYTES, END_BYTES = 3, 5, 7, 1

PLACES = {5: ('station',), 19: ('record',), 20: ('page',)}


def records_of(data):
    """The records of a good image, by (from, target) rising."""
    _, n, directory, pages = parse(data)
    found = []
    for p, content in enumerate(pages):
        for s, moves in read_page(n, directory, p, content)[1]:
            found += [(s, target, time, limit or 0) for target, time, limit in moves]
    return sorted(found)


class Reader:
    def answer(self, data, room):
        # "Reading does the whole check, only then refuses too short a record list with 7, writes the records to the
        # list's front and answers their count."
        refusal = whole_check(data)
        if refusal[0] != 'good':
            return refusal
        records = self.in_order(data)
        if self.is_short(room, len(records)):
            return ('refused', 7)
        return ('listed', records)

    def in_order(self, data):
        return records_of(data)

    def is_short(self, room, count):
        return room < count


class Writer:
    def refusal(self, n, p, directory, room, records):
        """What the writer refuses, or None."""
        # "The writer refuses by 2, 3, 4 (the buffer, or a directory not N bytes long) and 5 first, then with 19 the
        # first record .., then with 20 the lowest page .."
        if not 1 <= n <= 2048:
            return ('refused', 2)  # N is 0 or over 2,048
        if not 1 <= p <= 240:
            return ('refused', 3)  # P is 0 or over 240
        if self.is_mismatch(n, p, directory, room):
            return ('refused', 4)
        outside = [s for s in range(n) if directory[s] >= p]
        if outside:
            return ('refused', 5, outside[0])  # directory byte not below P (answer: lowest such station)
        return self.of_records(n, p, directory, records)

    def of_records(self, n, p, directory, records):
        return self.bad_record(n, records) or self.full_page(p, directory, records)

    def is_mismatch(self, n, p, directory, room):
        return room != 4 + n + PAGE * p or len(directory) != n

    def bad_record(self, n, records):
        # "with 19 the first record whose from or target isn't below N, whose target is its from, or that isn't above
        # its predecessor by (from, target)"
        for i, record in enumerate(records):
            if self.is_bad(n, record) or i > 0 and not self.is_above(records[i - 1], record):
                return ('refused', 19, i)
        return None

    def is_bad(self, n, record):
        begin, target = record[:2]
        return begin >= n or target >= n or target == begin

    def is_above(self, before, record):
        return record[:2] > before[:2]

    def full_page(self, p, directory, records):
        # "with 20 the lowest page that needs more than 256 bytes"
        needs = self.needs(p, directory, records)
        full = [k for k in range(p) if needs[k] > PAGE]
        return ('refused', 20, full[0]) if full else None

    def needs(self, p, directory, records):
        """The bytes that each page needs, its `00` counted."""
        needs = [END_BYTES] * p
        for k in directory:
            needs[k] += STATION_BYTES
        for begin, _, _, limit in records:
            needs[directory[begin]] += LIMITED_BYTES if limit else MOVE_BYTES
        return needs


def written(p, directory, records):
    """The image: on each page its stations by the directory, rising, each with its moves."""
    moves = {}
    for begin, target, time, limit in records:
        moves.setdefault(begin, []).append(move(target, time, limit or None))
    content = [[] for _ in range(p)]
    for s, k in enumerate(directory):
        content[k] += [station(s), *moves.get(s, [])]
    return image(directory, *[page(*parts) for parts in content])


def read(data, room):
    return Reader().answer(data, room)


def write(n, p, directory, room, records):
    return Writer().refusal(n, p, directory, room, records) or ('written', written(p, directory, records))


def answer_words(answer):
    if answer[0] == 'written':
        return 'written'
    if answer[0] == 'listed':
        return f'listed {len(answer[1])}'
    names = PLACES.get(answer[1], ('page', 'offset'))
    return ', '.join([f'refused {answer[1]}'] + [f'{name} {value}' for name, value in zip(names, answer[2:])])
