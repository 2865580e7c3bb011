"""Store replay, written from document 02, C-20.

    Call(list, pages, frames, distances, threshold)     what the call is given; the list is bytes
    Replay().answer(call)                               -> ('reads', count) or ('refused', number)
    answer_words(answer)                                -> the answer as store_test prints it
    check(call)                                         stops by an AssertionError where other ways say otherwise

`Replay` goes reference by reference, as the request says it, and keeps the time of each page's last reference. `check`
finds the reads in other ways: it looks back through the list for the least recently used page; in one pass it finds at
which depth of a stack each page lies, which gives the reads for every number of frames; it counts the reads of plain
least recently used by the pages that come between two references to one page, and those of one frame by neighbours in
the list. And no store reads less than one that knows the references to come.
"""
from collections import namedtuple
from functools import cache
from math import inf

Call = namedtuple('Call', 'list pages frames distances threshold')

MOST_PAGES, MOST_FRAMES = 240, 64


class Store:
    """The frames at one moment: the pages that they hold, in the order in which they came, and the reads so far. And
    of every page the time of its last reference."""

    def __init__(self, call):
        self.call = call
        self.held, self.reads = [], 0
        self.used = {}


class Replay:
    """The call. What of it can be misread is a function of its own."""

    # "It refuses by 3, then with 23"
    order = ('P', 'F', 'list', 'table')
    numbers = {'P': 3, 'F': 23, 'list': 23, 'table': 23}

    def answer(self, call):
        call = self.taken(call)
        number = self.refusal(call)
        return ('refused', number) if number else ('reads', self.result(self.store_after(call)))

    def taken(self, call):
        """What is taken of the arguments."""
        return call

    def refusal(self, call):
        is_bad = {'P': self.is_bad_page_count(call), 'F': self.is_bad_frame_count(call),
                  'list': self.is_bad_list(call), 'table': self.is_bad_table(call)}
        return next((self.numbers[name] for name in self.order if is_bad[name]), None)

    def is_bad_page_count(self, call):
        return call.pages == 0 or call.pages > MOST_PAGES

    def is_bad_frame_count(self, call):
        # "an F of 0 or over 64"
        return call.frames == 0 or call.frames > MOST_FRAMES

    def is_bad_list(self, call):
        # "a list entry not below P"
        return any(page >= call.pages for page in call.list)

    def is_bad_table(self, call):
        # "a distance table not P·P long"
        return len(call.distances) != call.pages * call.pages

    def store_after(self, call):
        store = Store(call)
        for moment, page in enumerate(call.list):
            if page in store.held:
                self.hit(store, moment, page)
            else:
                self.miss(store, moment, page)
        return store

    def result(self, store):
        # "The result is the number of reads."
        return store.reads

    def hit(self, store, moment, page):
        store.used[page] = moment

    def miss(self, store, moment, page):
        store.reads += 1
        # "only when all frames hold pages does one leave"
        if len(store.held) == store.call.frames:
            store.held.remove(self.leaving(store, moment, page))
        store.held.append(page)
        store.used[page] = moment

    def leaving(self, store, moment, page):
        return self.chosen(store, self.candidates(self.far(store, moment, page), store.held))

    def far(self, store, moment, page):
        # "those farther than D from the page last referred to before the miss"
        last = self.last_page(store, moment, page)
        return [other for other in store.held if self.is_far(self.distance(store.call, last, other), store.call)]

    def last_page(self, store, moment, page):
        return store.call.list[moment - 1]

    def distance(self, call, last, page):
        # "a u32 table of page distances (row: page last referred to)"
        return call.distances[last * call.pages + page]

    def is_far(self, distance, call):
        return distance > call.threshold

    def candidates(self, far, held):
        # "or of all if none is"
        return far or held

    def chosen(self, store, pages):
        # "the least recently used"
        return min(pages, key=store.used.get)


def answer_words(answer):
    kind, number = answer
    return f'{kind} {number}'


# Other ways

def refusal_by_ranges(call):
    """The number of the refusal, or None."""
    if call.pages not in range(1, 241):
        return 3
    fits = (call.frames in range(1, 65) and set(call.list) <= set(range(call.pages))
            and len(call.distances) == call.pages ** 2)
    return None if fits else 23


def reads_looking_back(call):
    """The reads of a store without times: of the pages that may leave, those met on the way back through the list stay,
    all but the one that would be met last."""
    pages, rows = call.list, call.distances
    held, reads = set(), 0
    for moment, page in enumerate(pages):
        if page not in held:
            reads += 1
            if len(held) >= call.frames:
                row = pages[moment - 1] * call.pages
                may_leave = {other for other in held if rows[row + other] > call.threshold} or set(held)
                back = moment
                while len(may_leave) > 1:
                    back -= 1
                    may_leave.discard(pages[back])
                held -= may_leave
            held.add(page)
    return reads


def sunk(pages, rank):
    """The upper pages of a stack once another comes upon them. The first of them sinks; where it meets one of lower
    rank, it takes that one's place, and that one sinks on."""
    places, sinking = pages[1:], pages[:1]
    for i, page in enumerate(places):
        if rank[page] < rank[sinking[0]]:
            places[i], sinking = sinking[0], [page]
    return places + sinking


@cache
def stack_depths(pages, count, distances, threshold):
    """For each entry of a list the depth at which its page lies in a stack, without end at a page's first reference. A
    store holds the uppermost pages, as many as it has frames: which of two pages would leave first, a far one or else
    the less recently used, is the same for all numbers of frames, so that a store with one frame more lets the same
    page leave or the one that it alone holds."""
    used, stack, depths = {}, [], []
    for moment, page in enumerate(pages):
        depth = stack.index(page) if page in stack else inf
        depths.append(depth)
        upper = stack if depth == inf else stack[:depth]
        row = pages[moment - 1] * count
        rank = {other: (distances[row + other] <= threshold, used[other]) for other in upper}
        stack = [page, *sunk(upper, rank), *stack[len(upper) + 1:]]
        used[page] = moment
    return depths


@cache
def pages_between(pages):
    """For each entry of a list the number of different pages since the last reference to its page, without end at the
    first."""
    recent, counts = [], []
    for page in pages:
        counts.append(recent.index(page) if page in recent else inf)
        if page in recent:
            recent.remove(page)
        recent.insert(0, page)
    return counts


@cache
def plain_reads(pages, frames):
    """The reads of plain least recently used: where at least as many other pages were referred to since as there are
    frames."""
    return sum(count >= frames for count in pages_between(pages))


@cache
def one_page_reads(pages):
    """1 for the first entry, and 1 for each that is unlike the one before."""
    return len(pages[:1]) + sum(page != before for before, page in zip(pages, pages[1:]))


@cache
def fewest_reads(pages, frames):
    """The reads of a store that lets the page leave whose next reference is the latest: none makes fewer."""
    coming, following = {}, []
    for moment in reversed(range(len(pages))):
        following.append(coming.get(pages[moment], len(pages)))
        coming[pages[moment]] = moment
    held, reads = {}, 0
    for page, after in zip(pages, reversed(following)):
        if page not in held:
            reads += 1
            if len(held) == frames:
                del held[max(held, key=held.get)]
        held[page] = after
    return reads


def check(call):
    answer, number = Replay().answer(call), refusal_by_ranges(call)
    if number:
        assert answer == ('refused', number), (answer, number)
        return
    pages, frames = call.list, call.frames
    reads = reads_looking_back(call)
    assert answer == ('reads', reads), (answer, reads)
    depths = stack_depths(pages, call.pages, call.distances, call.threshold)
    assert reads == sum(depth >= frames for depth in depths), reads
    # "With F 1 it equals the one-page reads."
    most = one_page_reads(pages)
    assert reads == most if frames == 1 else reads <= most
    different = len(set(pages))
    assert reads == different if different <= frames else reads >= different
    assert reads >= fewest_reads(pages, frames)
    # "With D at least every distance it is plain least recently used"; so it is where every distance is above D
    if call.threshold >= max(call.distances) or call.threshold < min(call.distances):
        assert reads == plain_reads(pages, frames)
    # "and there more frames never read more": by the stack this is so for every D
    if frames < MOST_FRAMES:
        assert Replay().answer(call._replace(frames=frames + 1))[1] <= reads
