"""The order of maps, written from document 02, C-17.

    Draft(image)                        an image as the order sees it
    Order().named(first, second)        -> what the naming call answers for two drafts
    Order().handed_back(first, second)  -> the draft whose image the other call hands back
    answer_words(answer)                -> the naming call's answer as order_test prints it
    check(first, second)                stops by an AssertionError where other ways to the order say otherwise
    agreement(first, second, ..)        does so where searches of two maps that are called equal differ

An answer is ('first less',), ('second less',), ('equal',), or ('first refused', number) and ('second refused', number)
with the place behind the number: a station for 5, a page and an offset for 8 to 12, 14 and 18.

`Order` goes record by record, as the request says it. `check` takes no step of it: it reads the commands of a page by
their lengths alone, lets Python compare lists, and then looks only at which moves the two maps do not share.
"""
from functools import cache

from demands import Map, first_refusal, number_at
from reader import PAGE, u16, whole_check
from records import records_of
from searches import df, plain

FIRST_LESS, SECOND_LESS, EQUAL = ('first less',), ('second less',), ('equal',)
FIRST_REFUSED, SECOND_REFUSED = 'first refused', 'second refused'

# "(from, target, time, limit)"
FIELDS = ('from', 'target', 'time', 'limit')


class Draft:
    """An image as the order sees it. Of one that is refused only the refusal is known: its number and its place."""

    def __init__(self, data):
        self.data = data
        self.refusal = whole_check(data)[1:]
        if not self.refusal:
            self.n, self.records = u16(data, 0), records_of(data)


class Order:
    """Both calls. What of them can be misread is a function of its own."""

    fields = FIELDS

    def named(self, first, second):
        return self.refused(first, second) or self.compared(first, second) or EQUAL

    def refused(self, first, second):
        # "The naming call refuses by the whole check, the first image first, saying which and where."
        if first.refusal:
            return (FIRST_REFUSED, *first.refusal)
        if second.refusal:
            return (SECOND_REFUSED, *second.refusal)
        return None

    def compared(self, first, second):
        # "Maps are ordered by N, then by their records as a list"
        return self.by_number('N', first.n, second.n) or self.by_records(self.listed(first), self.listed(second))

    def listed(self, draft):
        return draft.records

    def by_records(self, ours, theirs):
        # "record by record on (from, target, time, limit)"
        for one, other in zip(ours, theirs):
            if one != other:
                lesser = self.by_record(one, other)
                if lesser:
                    return lesser
        return self.by_length(len(ours), len(theirs))

    def by_record(self, one, other):
        for name in self.fields:
            place = FIELDS.index(name)
            lesser = self.by_number(name, one[place], other[place])
            if lesser:
                return lesser
        return None

    def by_length(self, ours, theirs):
        # "a list that is a front part of another coming first"
        return FIRST_LESS if ours < theirs else SECOND_LESS if theirs < ours else None

    def by_number(self, name, one, other):
        one, other = self.rank(name, one), self.rank(name, other)
        return FIRST_LESS if one < other else SECOND_LESS if other < one else None

    def rank(self, name, number):
        """What is compared of a number of a map."""
        return number

    def handed_back(self, first, second):
        return self.chosen(self.named(first, second), first, second)

    def chosen(self, answer, first, second):
        # "another hands back that image itself, not a copy; of equals, or if refused, the first"
        return second if answer == SECOND_LESS else first


def answer_words(answer):
    kind, *numbers = answer
    if not numbers:
        return kind
    number, *place = numbers
    names = ('station',) if number == 5 else ('page', 'offset')
    return ', '.join([f'{kind} {number}'] + [f'{name} {value}' for name, value in zip(names, place)])


# Other ways

@cache
def first_fault(image):
    """The refusal of the whole check, from the rows of document 01 and the lowest bad page, or None."""
    # source 0 and tables of 2,048 entries: neither is what an image is refused for
    heading = first_refusal(image, 0, (2048,))
    if heading:
        return heading
    faults = Map(image, 0).faults
    return (faults[min(faults)][0], min(faults), faults[min(faults)][1]) if faults else None


@cache
def moves_of(image):
    """The moves of a good image: (from, target) -> (time, limit). Nothing is judged: "A known code c has length 1 +
    2*c", and so has c numbers."""
    moves = {}
    for begin in range(4 + number_at(image, 0), len(image), PAGE):
        at = begin
        while image[at]:
            numbers = [number_at(image, at + 1 + 2 * k) for k in range(image[at])]
            if len(numbers) == 1:
                station = numbers[0]
            else:
                target, *time_and_limit = numbers
                moves[station, target] = (*time_and_limit, 0)[:2]
            at += 1 + 2 * len(numbers)
    return moves


@cache
def by_list(image):
    """What Python compares as maps are ordered: tuples and lists have the same rule for a front part."""
    return number_at(image, 0), sorted((*way, *numbers) for way, numbers in moves_of(image).items())


def by_unshared(first, second):
    """The lesser by the moves that the maps do not share. The map that has the least of them is the lesser if the other
    has a record behind it; if not, the other is a front part of it."""
    n, m = number_at(first, 0), number_at(second, 0)
    if n != m:
        return FIRST_LESS if n < m else SECOND_LESS
    ours, theirs = ({(*way, *numbers) for way, numbers in moves_of(image).items()} for image in (first, second))
    if ours == theirs:
        return EQUAL
    least = min(ours ^ theirs)
    is_ours = least in ours
    goes_on = any(record > least for record in (theirs if is_ours else ours))
    return FIRST_LESS if is_ours == goes_on else SECOND_LESS


def check(first, second):
    answer, handed = Order().named(first, second), Order().handed_back(first, second)
    faults = first_fault(first.data), first_fault(second.data)
    if any(faults):
        which = 0 if faults[0] else 1
        assert answer == ((FIRST_REFUSED, SECOND_REFUSED)[which], *faults[which]), (answer, faults)
        assert handed is first
        return
    ours, theirs = by_list(first.data), by_list(second.data)
    assert answer == (FIRST_LESS if ours < theirs else SECOND_LESS if theirs < ours else EQUAL), answer
    assert answer == by_unshared(first.data, second.data), answer
    # "Equal holds exactly when N and the moves are the same"
    assert (answer == EQUAL) == (ours == theirs)
    assert handed is (second if theirs < ours else first)


def agreement(first, second, sources, strips):
    """Searches of two maps that are equal. "then all times, moves and predecessors agree for each source and length,
    though page lists may differ": says which of the two searches, by name, have differing lists."""
    differing = set()
    lengths = (first.n,) * 5
    for source in sources:
        for strip in strips:
            for search in (plain, df):
                ours, theirs = (search(draft.data, source, strip, lengths) for draft in (first, second))
                assert ours.answer[0] == theirs.answer[0] == 'accepted'
                assert (ours.times, ours.moves, ours.predecessors) == (theirs.times, theirs.moves, theirs.predecessors)
                if ours.list != theirs.list:
                    differing.add(search.__name__)
    return differing
