"""Readers and writers of records that leave out a part of document 02, C-16: where one of them answers otherwise, a
case needs the part.

    reader_differences(image, room)                             -> the readers that answer otherwise
    writer_differences(n, p, directory, room, records)          -> the writers that refuse otherwise

VARIANTS are all of them: each has to answer otherwise in some case.
"""
from reader import PAGE, parse, read_page
from records import MOVE_BYTES, Reader, Writer


class RoomFirst(Reader):
    """Refuses a list without room for a record before the whole check."""

    def answer(self, data, room):
        return ('refused', 7) if room == 0 else super().answer(data, room)


class RoomForOneMore(Reader):
    """Wants room for one record more."""

    def is_short(self, room, count):
        return room <= count


class PageByPage(Reader):
    """Lists the records by page."""

    def in_order(self, data):
        _, n, directory, pages = parse(data)
        return [(s, target, time, limit or 0) for p, content in enumerate(pages)
                for s, moves in read_page(n, directory, p, content)[1] for target, time, limit in moves]


class LimitLost(Reader):
    """Lists every record as one of `02`."""

    def in_order(self, data):
        return [(*record[:3], 0) for record in super().in_order(data)]


class AnyBuffer(Writer):
    """Takes a longer buffer."""

    def is_mismatch(self, n, p, directory, room):
        return room < 4 + n + PAGE * p or len(directory) != n


class AnyDirectory(Writer):
    """Takes a longer directory."""

    def is_mismatch(self, n, p, directory, room):
        return room != 4 + n + PAGE * p or len(directory) < n


class PagesFirst(Writer):
    """Tries 20 before 19, as far as the records have stations."""

    def of_records(self, n, p, directory, records):
        known = [record for record in records if record[0] < n]
        return self.full_page(p, directory, known) or self.bad_record(n, records)


class FromAnywhere(Writer):
    def is_bad(self, n, record):
        return record[1] >= n or record[1] == record[0]

    def full_page(self, p, directory, records):
        return super().full_page(p, directory, [record for record in records if record[0] < len(directory)])


class TargetAnywhere(Writer):
    def is_bad(self, n, record):
        return record[0] >= n or record[1] == record[0]


class OwnTarget(Writer):
    def is_bad(self, n, record):
        return record[0] >= n or record[1] >= n


class FromAlone(Writer):
    """Records are not compared by target."""

    def is_above(self, before, record):
        return record[0] >= before[0]


class TargetAlone(Writer):
    """Targets have to rise from station to station."""

    def is_above(self, before, record):
        return record[0] >= before[0] and record[1] > before[1]


class EqualRecords(Writer):
    """A record may have from and target of its predecessor."""

    def is_above(self, before, record):
        return record[:2] >= before[:2]


class ByTimeToo(Writer):
    """Records of one from and target may rise by time and limit."""

    def is_above(self, before, record):
        return record > before


class LastFault(Writer):
    """Names the last record at fault."""

    def bad_record(self, n, records):
        for i in reversed(range(len(records))):
            if self.is_bad(n, records[i]) or i > 0 and not self.is_above(records[i - 1], records[i]):
                return ('refused', 19, i)
        return None


class HighestPage(Writer):
    """Names the highest page that is full."""

    def full_page(self, p, directory, records):
        needs = self.needs(p, directory, records)
        full = [k for k in range(p) if needs[k] > PAGE]
        return ('refused', 20, full[-1]) if full else None


class WithoutEnd(Writer):
    """The `00` is not counted."""

    def needs(self, p, directory, records):
        return [need - 1 for need in super().needs(p, directory, records)]


class LessThanAPage(Writer):
    """A page that needs 256 bytes is refused."""

    def needs(self, p, directory, records):
        return [need + 1 for need in super().needs(p, directory, records)]


class LimitsFree(Writer):
    """Every move is counted as one without a limit."""

    def needs(self, p, directory, records):
        return super().needs(p, directory, [(*record[:3], 0) for record in records])


class LimitsEverywhere(Writer):
    """Every move is counted as one with a limit."""

    def needs(self, p, directory, records):
        return super().needs(p, directory, [(*record[:3], 1) for record in records])


class MovesAlone(Writer):
    """Stations without a move are not counted."""

    def needs(self, p, directory, records):
        with_moves = {record[0] for record in records}
        needs = super().needs(p, directory, records)
        for s, k in enumerate(directory):
            needs[k] -= 0 if s in with_moves else 3
        return needs


class NoMoreThanAMapHas(Writer):
    """Of more than 12,240 records the first so many are counted."""

    def needs(self, p, directory, records):
        return super().needs(p, directory, records[:240 * (PAGE - 1) // MOVE_BYTES])


READERS = [RoomFirst, RoomForOneMore, PageByPage, LimitLost]
WRITERS = [AnyBuffer, AnyDirectory, PagesFirst, FromAnywhere, TargetAnywhere, OwnTarget, FromAlone, TargetAlone,
           EqualRecords, ByTimeToo, LastFault, HighestPage, WithoutEnd, LessThanAPage, LimitsFree, LimitsEverywhere,
           MovesAlone, NoMoreThanAMapHas]
VARIANTS = READERS + WRITERS


def reader_differences(image, room):
    ours = Reader().answer(image, room)
    return [variant for variant in READERS if variant().answer(image, room) != ours]


def writer_differences(n, p, directory, room, records):
    ours = Writer().refusal(n, p, directory, room, records)
    return [variant for variant in WRITERS if variant().refusal(n, p, directory, room, records) != ours]
