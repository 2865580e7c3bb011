"""Orders of maps that leave out or misread a part of document 02, C-17: where one of them answers otherwise, a case
needs the part.

    differences(first, second, names)   -> those of the names whose orders answer otherwise for two drafts of order.py

VARIANTS has all of them by name: each has to answer otherwise in some case. To answer otherwise is to name another
answer or to hand back other bytes, for order_test can print no more than that.
"""
from itertools import groupby
from operator import itemgetter

from order import EQUAL, FIRST_LESS, FIRST_REFUSED, SECOND_LESS, SECOND_REFUSED, Order
from reader import parse, read_page, u16


def page_count(data):
    return u16(data, 2)


def directory(data):
    return data[4:4 + u16(data, 0)]


# What is compared of a number

NUMBERS = ('N', 'from', 'target', 'time', 'limit')


class Ranked(Order):
    """One number of a map is compared by something else than its size."""

    def __init__(self, name, misread):
        self.name, self.misread = name, misread

    def rank(self, name, number):
        return self.misread(number) if name == self.name else number


MISREADINGS = {
    'left out': lambda number: 0,
    'falling': lambda number: -number,
    'by its low byte alone': lambda number: number % 256,
    'by its high byte alone': lambda number: number // 256,
    'by its low byte first, as the bytes of an image would be': lambda number: number.to_bytes(2, 'little'),
}


def signed(number):
    return number - 65536 if number >= 32768 else number


def unlimited(above):
    """`02` has no limit, and so would be above all limits; but "limit 0 means `02`", and 0 is compared."""
    return lambda limit: limit or above


RANKED = {f'{name} {how}': Ranked(name, misread) for how, misread in MISREADINGS.items() for name in NUMBERS} | {
    'time with a sign': Ranked('time', signed), 'limit with a sign': Ranked('limit', signed),
    'limit 0 above all limits': Ranked('limit', unlimited(65536)),
    # no search tells these two apart, but the records do
    'limit 0 as limit 65,535': Ranked('limit', unlimited(65535)),
    'whether there is a limit': Ranked('limit', bool)}


class Fields(Order):
    """The numbers of a record are compared in another order."""

    def __init__(self, *fields):
        self.fields = fields


FIELD_ORDERS = {
    'target before from': Fields('target', 'from', 'time', 'limit'),
    'time before target': Fields('from', 'time', 'target', 'limit'),
    'time before from': Fields('time', 'from', 'target', 'limit'),
    'limit before time': Fields('from', 'target', 'limit', 'time'),
    'limit before target': Fields('from', 'limit', 'target', 'time')}


# Which records are compared

class Listed(Order):
    """Other records are compared, or the same ones in another order."""

    def __init__(self, listed):
        self.listed = listed


def such(test):
    """Only the records that pass a test of theirs."""
    return Listed(lambda draft: [record for record in draft.records if test(*record)])


def up_to(count):
    return Listed(lambda draft: draft.records[:count])


def page_by_page(draft):
    """The records as they stand on the pages."""
    _, n, pages_of, pages = parse(draft.data)
    return [(s, target, time, limit or 0) for p, content in enumerate(pages)
            for s, moves in read_page(n, pages_of, p, content)[1] for target, time, limit in moves]


def before_idle_station(draft):
    """The records of the stations before the first that has no move."""
    busy = {record[0] for record in draft.records}
    idle = next(s for s in range(draft.n + 1) if s not in busy)
    return [record for record in draft.records if record[0] < idle]


def off_page(choose):
    """The records of all stations but those of one page, which is chosen from the page numbers."""
    def listed(draft):
        pages = directory(draft.data)
        left_out = choose(range(page_count(draft.data)))
        return [record for record in draft.records if pages[record[0]] != left_out]
    return Listed(listed)


def of_each_station(part):
    """A part of each station's records."""
    return Listed(lambda draft: [record for _, records in groupby(draft.records, itemgetter(0))
                                 for record in list(records)[part]])


LISTS = {
    'page by page': Listed(page_by_page),
    'listed by target': Listed(lambda draft: sorted(draft.records, key=itemgetter(1, 0))),
    'listed from the last record on': Listed(lambda draft: draft.records[::-1]),
    'only moves open to every length': such(lambda begin, target, time, limit: limit in (0, 65535)),
    'only moves open to strips of 8,120': such(lambda begin, target, time, limit: limit == 0 or limit >= 8120),
    'only moves without a limit': such(lambda begin, target, time, limit: limit == 0),
    'only moves with a limit': such(lambda begin, target, time, limit: limit > 0),
    'only moves that take time': such(lambda begin, target, time, limit: time > 0),
    'only moves to higher stations': such(lambda begin, target, time, limit: target > begin),
    'all stations but the first': such(lambda begin, target, time, limit: begin > 0),
    'all stations but the last': Listed(lambda draft: [one for one in draft.records if one[0] < draft.n - 1]),
    'the stations before the first without a move': Listed(before_idle_station),
    'all pages but the first': off_page(min),
    'all pages but the last': off_page(max),
    'the first move of each station': of_each_station(slice(1)),
    'all moves of each station but the last': of_each_station(slice(-1)),
    'all records but the first': Listed(lambda draft: draft.records[1:]),
    'all records but the last': Listed(lambda draft: draft.records[:-1])} | {
    f'the first {count:,} records': up_to(count) for count in (1, 255, 2048, 8192, 11999)}


# How the lists are compared

class LongerFirst(Order):
    """A list comes before its front parts."""

    def by_length(self, ours, theirs):
        return super().by_length(theirs, ours)


class FrontPartIsEqual(Order):
    def by_length(self, ours, theirs):
        return None


class NoMovesLast(Order):
    """A map without a move comes after those that have one."""

    def by_length(self, ours, theirs):
        return super().by_length(ours or theirs + 1, theirs or ours + 1)


class FewerFirst(Order):
    """The number of records is compared before the records."""

    def by_records(self, ours, theirs):
        return self.by_length(len(ours), len(theirs)) or super().by_records(ours, theirs)


class StationByStation(Order):
    """The moves of one station after the other are compared as lists, so that a station with fewer moves comes first
    though later stations have more."""

    def by_records(self, ours, theirs):
        ours, theirs = ({s: list(moves) for s, moves in groupby(records, itemgetter(0))} for records in (ours, theirs))
        for s in sorted(ours.keys() | theirs.keys()):
            lesser = super().by_records(ours.get(s, []), theirs.get(s, []))
            if lesser:
                return lesser
        return None


class LastDifference(Order):
    """The last two records that differ decide, not the first two."""

    def by_records(self, ours, theirs):
        pairs = [(one, other) for one, other in zip(ours, theirs) if one != other]
        return self.by_record(*pairs[-1]) if pairs else self.by_length(len(ours), len(theirs))


class SharedMoves(Order):
    """Only moves between the same two stations are compared, and then how many there are."""

    def by_records(self, ours, theirs):
        shared = {record[:2] for record in ours} & {record[:2] for record in theirs}
        return super().by_records(*[[record for record in records if record[:2] in shared]
                                    for records in (ours, theirs)]) or self.by_length(len(ours), len(theirs))


# What else is compared

def lesser_of(one, other):
    return FIRST_LESS if one < other else SECOND_LESS if other < one else None


class NLast(Order):
    def compared(self, first, second):
        return self.by_records(first.records, second.records) or self.by_number('N', first.n, second.n)


class Beside(Order):
    """Something else of the image is compared: instead, before N, between N and the records, or where both are the
    same."""

    def __init__(self, part, when):
        self.part, self.when = part, when

    def compared(self, first, second):
        other = lesser_of(self.part(first.data), self.part(second.data))
        by_n = self.by_number('N', first.n, second.n)
        by_records = self.by_records(first.records, second.records)
        return {'instead': other, 'first': other or by_n or by_records, 'after N': by_n or other or by_records,
                'last': by_n or by_records or other}[self.when]


PARTS = {'pages': page_count, 'directory': directory, 'length of the image': len, 'bytes of the image': bytes}
BESIDE = {f'{name} compared, {when}': Beside(part, when) for name, part in PARTS.items()
          for when in ('instead', 'first', 'after N', 'last')}


# Refusals

class SecondCheckedFirst(Order):
    def refused(self, first, second):
        if second.refusal:
            return (SECOND_REFUSED, *second.refusal)
        return super().refused(first, second)


class SecondUncheckedByN(Order):
    """The second image is not checked where its N is another one."""

    def refused(self, first, second):
        if not first.refusal and len(second.data) >= 2:
            return self.by_number('N', first.n, u16(second.data, 0)) or super().refused(first, second)
        return super().refused(first, second)


def heading_refusal(draft):
    """That of 1 to 5."""
    return draft.refusal if draft.refusal and draft.refusal[0] <= 5 else ()


class PagesUncheckedByN(Order):
    """The pages are not checked where N differs."""

    def refused(self, first, second):
        if heading_refusal(first) or heading_refusal(second):
            return super().refused(first, second)
        return self.by_number('N', u16(first.data, 0), u16(second.data, 0)) or super().refused(first, second)


class HeadingsBeforePages(Order):
    """Both headings are checked before any page."""

    def refused(self, first, second):
        if heading_refusal(second) and not heading_refusal(first):
            return (SECOND_REFUSED, *second.refusal)
        return super().refused(first, second)


class LowestRefusal(Order):
    """Of two refusals the one of the lower number is told."""

    def refused(self, first, second):
        if first.refusal and second.refusal and second.refusal[0] < first.refusal[0]:
            return (SECOND_REFUSED, *second.refusal)
        return super().refused(first, second)


class ToldAsTheFirst(Order):
    """The second's refusal is told as the first's."""

    def refused(self, first, second):
        return (FIRST_REFUSED, *(first.refusal or second.refusal)) if first.refusal or second.refusal else None


class ToldAsTheSecond(Order):
    """The first's refusal is told as the second's."""

    def refused(self, first, second):
        return (SECOND_REFUSED, *(first.refusal or second.refusal)) if first.refusal or second.refusal else None


class SameIsEqual(Order):
    """An image is equal to itself, good or not."""

    def refused(self, first, second):
        return EQUAL if first.data == second.data else super().refused(first, second)


class BadIsGreatest(Order):
    """A second image that is refused comes last, and only two of them are refused."""

    def refused(self, first, second):
        return FIRST_LESS if second.refusal and not first.refusal else super().refused(first, second)


# What is handed back

class HandsBack(Order):
    """Names as it ought to, but hands back by a rule of its own: where the answer begins so, the second if the rule
    says so for the two drafts, else the first."""

    def __init__(self, beginnings, is_second):
        self.beginnings, self.is_second = beginnings, is_second

    def chosen(self, answer, first, second):
        if answer[0] in self.beginnings:
            return second if self.is_second(first, second) else first
        return super().chosen(answer, first, second)


LESS = (*FIRST_LESS, *SECOND_LESS)
HANDED = {
    'the first in any case': HandsBack(SECOND_LESS, lambda first, second: False),
    'the second in any case': HandsBack((*LESS, *EQUAL, FIRST_REFUSED, SECOND_REFUSED), lambda first, second: True),
    'the greater': HandsBack(LESS, lambda first, second: Order().named(first, second) == FIRST_LESS),
    'the second of equals': HandsBack(EQUAL, lambda first, second: True),
    'the shorter of equals': HandsBack(EQUAL, lambda first, second: len(second.data) < len(first.data)),
    'the lesser bytes of equals': HandsBack(EQUAL, lambda first, second: second.data < first.data),
    'the second if the first is refused': HandsBack((FIRST_REFUSED,), lambda first, second: True),
    'the good one if the first is refused': HandsBack((FIRST_REFUSED,), lambda first, second: not second.refusal),
    'the second if it is refused': HandsBack((SECOND_REFUSED,), lambda first, second: True),
    'the second if both are refused': HandsBack((FIRST_REFUSED,), lambda first, second: bool(second.refusal))}

CLASSES = [LongerFirst, FrontPartIsEqual, NoMovesLast, FewerFirst, StationByStation, LastDifference, SharedMoves, NLast,
           SecondCheckedFirst, SecondUncheckedByN, PagesUncheckedByN, HeadingsBeforePages, LowestRefusal,
           ToldAsTheFirst, ToldAsTheSecond, SameIsEqual, BadIsGreatest]
VARIANTS = {kind.__name__: kind() for kind in CLASSES} | RANKED | FIELD_ORDERS | LISTS | BESIDE | HANDED


def answers(order, first, second):
    answer = order.named(first, second)
    return answer, order.chosen(answer, first, second).data


def differences(first, second, names):
    ours = answers(Order(), first, second)
    return [name for name in names if answers(VARIANTS[name], first, second) != ours]
