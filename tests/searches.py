"""The plain search (Dijkstra's) and the DF search, written from document 01, "The two searches", and document 02, C-11,
C-14 and C-15.

    plain(image, source, strip, lengths)    -> Outcome
    df(image, source, strip, lengths)       -> Outcome

`strip` is the strip's length in decimetres; `lengths` are those of the five lent tables: times, moves, predecessors,
marks, page list. demands.py holds the outcomes against what the documents promise, by other means.
"""
from collections import namedtuple

from reader import parse, read_page

NO_TIME, NO_MOVES = 4294967295, 65535
SOURCE, NOBODY = 65534, 65535

# answer: ('accepted', count, reached), ('refused', number), ('refused', 5, station) or
#         ('refused', number, page, offset, count).
# times, moves, predecessors, marks: the entries written, from the first on: one for each station, or none at all.
# list: the page references made.
Outcome = namedtuple('Outcome', 'answer times moves predecessors marks list')


class BadPage(Exception):
    """A page at fault: its number, the refusal and the offset."""


def untouched(*answer):
    return Outcome(('refused',) + answer, [], [], [], [], [])


class Search:
    """The state of a search, and what both searches do alike.

    A station that has a time has a way: the time and the number of moves.
    """

    def __init__(self, n, directory, pages, source, strip):
        self.n, self.directory, self.pages, self.strip = n, directory, pages, strip
        # "At the start the source has time 0 and nothing is settled or fresh.": its way is of no move
        self.way = {source: (0, 0)}
        self.predecessor = {source: SOURCE}
        self.settled, self.fresh = set(), set()
        self.open = {source}  # the stations that have a time and are not settled
        self.list = []
        self.contents = {}  # what was read of each page: its stations with their moves

    def rank(self, way):
        """What is compared of a way. "Less means less time, then fewer moves", and so Python compares pairs."""
        return way

    def with_move(self, way, time):
        """The way and a move behind it. One of time 0 is a move too, and so every move makes a way more."""
        return way[0] + time, way[1] + 1

    def least(self, stations):
        """The station of least time, then fewest moves, then lowest number."""
        return min(stations, key=lambda s: (self.rank(self.way[s]), s))

    def refer(self, p):
        """Appends a page to the list and reads it."""
        self.list.append(p)
        if p not in self.contents:
            reading = read_page(self.n, self.directory, p, self.pages[p])
            if reading[0] == 'bad':
                raise BadPage(p, *reading[1:])
            self.contents[p] = dict(reading[1])
        return self.contents[p]

    def relax(self, u, v, time):
        total = self.with_move(self.way[u], time)
        # "If v has no time, or sum is less, v gets sum and predecessor u, and v is not fresh."
        if v not in self.way or self.rank(total) < self.rank(self.way[v]):
            self.way[v], self.predecessor[v] = total, u
            self.fresh.discard(v)
            if v not in self.settled:
                self.open.add(v)
        # "If sum equals v's time and u is below v's predecessor, only the predecessor becomes u", but "Two ways are now
        # equal only if time and number of moves agree.": no sum equals the source's way, which is of no move, and so it
        # keeps 65,534
        elif self.rank(total) == self.rank(self.way[v]) and u < self.predecessor[v]:
            self.predecessor[v] = u

    def relax_moves(self, u, content):
        for v, time, limit in content[u]:
            # "use a move only if its limit isn't below it; `02` has no limit"
            if limit is None or not limit < self.strip:
                self.relax(u, v, time)

    def settle_next(self):
        """"Choose the unsettled station of least time, then lowest number", by C-14's order, and settle it."""
        u = self.least(self.open)
        self.open.remove(u)
        self.settled.add(u)
        return u


def plain_step(search):
    u = search.settle_next()
    content = search.refer(search.directory[u])
    search.relax_moves(u, content)


def df_step(search):
    u = search.settle_next()
    if u in search.fresh:
        return
    content = search.refer(search.directory[u])
    search.fresh.add(u)
    search.relax_moves(u, content)
    # "Then, while this page has a station that has a time and isn't fresh, take the one of least time, .."
    while True:
        stale = [s for s in content if s in search.way and s not in search.fresh]
        if not stale:
            return
        s = search.least(stale)
        search.fresh.add(s)
        search.relax_moves(s, content)


def run(step, image, source, strip, lengths, kind=Search):
    parts = parse(image)
    if parts[0] == 'refused':
        return untouched(*parts[1:])
    _, n, directory, pages = parts
    if source >= n:
        return untouched(6)
    if any(length < n for length in lengths):
        return untouched(7)
    search = kind(n, directory, pages, source, strip)
    try:
        while search.open:  # "if none has a time, end"
            step(search)
    except BadPage as bad:
        p, number, offset = bad.args
        answer = ('refused', number, p, offset, len(search.list))
        # "times all none, predecessors all 65,535, marks 0", and "a page refusal fills its first N with 65,535"
        return Outcome(answer, [NO_TIME] * n, [NO_MOVES] * n, [NOBODY] * n, [0] * n, search.list)
    answer = ('accepted', len(search.list), len(search.way))
    times, moves = zip(*[search.way.get(s, (NO_TIME, NO_MOVES)) for s in range(n)])
    predecessors = [search.predecessor.get(s, NOBODY) for s in range(n)]
    return Outcome(answer, list(times), list(moves), predecessors, [0] * n, search.list)


def plain(image, source, strip, lengths):
    return run(plain_step, image, source, strip, lengths)


def df(image, source, strip, lengths):
    return run(df_step, image, source, strip, lengths)
