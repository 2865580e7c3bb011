"""What documents 00 and 01 and document 02, C-11, C-14 and C-15, promise of the two searches, checked without the steps
of a search.

    check(image, source, strip, lengths, plain, df, rng)    what is promised of a call
    check_lengths(shorter, longer)                          and of two outcomes, for a shorter and a longer strip

Both stop by an AssertionError where a promise is broken. A way is a pair, time and number of moves: "Less means less
time, then fewer moves", and so Python compares pairs; a move makes a way more even if it takes no time, and so nothing
here needs times above 0. Least ways come from rounds over all open moves until nothing falls (Bellman and Ford),
predecessors from the least ways alone, the refused page from document 01's sentence, Dijkstra's list from the order of
the least ways, and ours from the ways that are known after each reference; moves are also counted along the
predecessors, and chains of predecessors walked back to the source. `plain` and `df` are the searches under check; they
are called again on images whose unlisted pages hold other bytes.
"""
from collections import Counter

from reader import PAGE, read_page

NO_TIME, NO_MOVES = 4294967295, 65535
SOURCE, NOBODY = 65534, 65535


def number_at(image, at):
    return image[at] + 256 * image[at + 1]


def first_refusal(image, source, lengths):
    """1 to 7, "tried in this order": the first that holds, with its place, or None."""
    if len(image) < 4:
        return (1,)
    n, p = number_at(image, 0), number_at(image, 2)
    no_page = [s for s, page in enumerate(image[4:4 + n]) if page >= p]
    rows = [(2, n == 0 or n > 2048), (3, p == 0 or p > 240), (4, len(image) != 4 + n + 256 * p), (5, no_page),
            (6, source >= n), (7, min(lengths) < n)]
    for number, holds in rows:
        if holds:
            return (5, no_page[0]) if number == 5 else (number,)
    return None


class Map:
    """An image that 1 to 5 accept: its directory, its bad pages' faults and its good pages' moves open to a length.

    "Walks, entry stations and both lists are those of the moves open to that length."
    """

    def __init__(self, image, strip):
        self.n, pages = number_at(image, 0), number_at(image, 2)
        self.directory = image[4:4 + self.n]
        self.faults, self.moves = {}, []  # page -> (number, offset); (from, target, time)
        for p in range(pages):
            at = 4 + self.n + PAGE * p
            reading = read_page(self.n, self.directory, p, image[at:at + PAGE])
            if reading[0] == 'bad':
                self.faults[p] = reading[1:]
            else:
                self.moves += [(u, v, time) for u, leaving in reading[1] for v, time, limit in leaving
                               if limit is None or limit >= strip]

    def is_bad(self, s):
        return self.directory[s] in self.faults


def with_move(way, time):
    """The way and a move of that time behind it."""
    return way[0] + time, way[1] + 1


def lower(ways, moves):
    """Lowers ways along the moves until none falls."""
    falls = True
    while falls:
        falls = False
        for u, v, time in moves:
            if u in ways and (v not in ways or with_move(ways[u], time) < ways[v]):
                ways[v] = with_move(ways[u], time)
                falls = True


def least_ways(yard, source):
    """"Least .. over walks that leave only stations on good pages": only those have moves here."""
    ways = {source: (0, 0)}
    lower(ways, yard.moves)
    return ways


def lowest_predecessors(yard, source, ways):
    """"source 65,534; none 65,535", and "The predecessor is the lowest station that gives both numbers.\""""
    found = [NOBODY] * yard.n
    for u, v, time in yard.moves:
        if u in ways and with_move(ways[u], time) == ways[v]:
            found[v] = min(found[v], u)
    found[source] = SOURCE
    return found


def settled_order(yard, ways):
    """The stations by least way and number, up to the first on a bad page."""
    order = []
    for s in sorted(ways, key=lambda s: (ways[s], s)):
        order.append(s)
        if yard.is_bad(s):
            break
    return order


def df_list(yard, source, order):
    """Our list, from the ways known after each reference.

    A reference to a page makes known all ways that walks on that page give, from the ways known before. A station of
    the order calls for one unless its page was referred to and its way hasn't fallen since.
    """
    on_page = {}
    for u, v, time in yard.moves:
        on_page.setdefault(yard.directory[u], []).append((u, v, time))
    known, after, made = {source: (0, 0)}, {}, []
    for s in order:
        p = yard.directory[s]
        if p in after and after[p].get(s) == known[s]:
            continue
        made.append(p)
        lower(known, on_page.get(p, []))
        after[p] = {v: way for v, way in known.items() if yard.directory[v] == p}
    return made


def one_page_reads(pages):
    """"1 for its first entry, 1 for each entry unlike the one before\""""
    return sum(1 for i, p in enumerate(pages) if i == 0 or pages[i - 1] != p)


def is_part_of(part, whole):
    """Whether striking entries from `whole` can leave `part`."""
    rest = iter(whole)
    return all(any(entry == other for other in rest) for entry in part)


def entry_stations(yard, source, listed):
    """How many entry stations each listed page has: the source, and the targets of moves from other listed pages."""
    entries = {source}
    for u, v, _ in yard.moves:
        if yard.directory[u] in listed and yard.directory[u] != yard.directory[v]:
            entries.add(v)
    return Counter(yard.directory[s] for s in entries if yard.directory[s] in listed)


def spelled_ways(yard, predecessors):
    """The ways that the predecessors spell, from the source outwards: the moves' times added up, the moves counted."""
    time_of = {(u, v): time for u, v, time in yard.moves}
    behind = {}
    for v, u in enumerate(predecessors):
        behind.setdefault(u, []).append(v)
    ways, rest = {}, [(source, (0, 0)) for source in behind.get(SOURCE, [])]
    while rest:
        u, way = rest.pop()
        ways[u] = way
        rest += [(v, with_move(way, time_of[u, v])) for v in behind.get(u, []) if (u, v) in time_of]
    return ways


def check_chains(source, times, predecessors):
    """"Every predecessor chain still ends at the source.": on the way back from each station that has a time the source
    is met within N - 1 steps. It alone has 65,534, and a station without a time has 65,535."""
    n = len(times)
    assert [s for s in range(n) if predecessors[s] == SOURCE] == [source]
    assert all((predecessors[s] == NOBODY) == (times[s] == NO_TIME) for s in range(n))
    met = {s for s in range(n) if times[s] != NO_TIME}
    for _ in range(n - 1):
        met = {s if s == source else predecessors[s] for s in met}
        assert max(met) < n
    assert met == {source}


def other_image(image, listed, rng):
    """An image of the same length, heading and directory that has other bytes on all pages but the listed ones."""
    begin = 4 + (number_at(image, 0) if len(image) >= 4 else 0)
    made = bytearray(image)
    for at in range(begin, len(made), PAGE):
        if (at - begin) // PAGE not in listed:
            made[at:at + PAGE] = rng.randbytes(len(made[at:at + PAGE]))
    return bytes(made)


def check_accepted(yard, source, ways, outcome):
    """Demand 2, and the moves: those of the least way, which are those of the walk that the predecessors spell."""
    n = yard.n
    assert outcome.answer == ('accepted', len(outcome.list), len(ways))
    assert outcome.times == [ways[s][0] if s in ways else NO_TIME for s in range(n)]
    assert outcome.moves == [ways[s][1] if s in ways else NO_MOVES for s in range(n)]
    assert outcome.predecessors == lowest_predecessors(yard, source, ways)
    assert outcome.marks == [0] * n
    assert spelled_ways(yard, outcome.predecessors) == ways
    check_chains(source, outcome.times, outcome.predecessors)


def check_refused(yard, place, outcome):
    n = yard.n
    p = yard.directory[place]
    number, offset = yard.faults[p]
    assert outcome.answer == ('refused', number, p, offset, len(outcome.list))
    assert outcome.list[-1] == p and p not in outcome.list[:-1]
    assert (outcome.times, outcome.moves) == ([NO_TIME] * n, [NO_MOVES] * n)
    assert (outcome.predecessors, outcome.marks) == ([NOBODY] * n, [0] * n)


def check_list(yard, source, ours, dijkstras):
    """Demand 3, up to the two images."""
    assert is_part_of(ours, dijkstras)
    entries = entry_stations(yard, source, set(ours))
    assert all(often <= entries[p] for p, often in Counter(ours).items())
    assert one_page_reads(ours) <= one_page_reads(dijkstras)


def check_map(yard, source, plain, df):
    ways = least_ways(yard, source)
    order = settled_order(yard, ways)
    bad = [s for s in ways if yard.is_bad(s)]
    for outcome in (plain, df):
        if bad:
            # "of all on bad pages, least by time and then number", by C-14's order
            check_refused(yard, min(bad, key=lambda s: (ways[s], s)), outcome)
        else:
            check_accepted(yard, source, ways, outcome)
    assert plain.list == [yard.directory[s] for s in order]
    assert df.list == df_list(yard, source, order)
    check_list(yard, source, df.list, plain.list)


def check(image, source, strip, lengths, plain, df, rng):
    outcomes = plain(image, source, strip, lengths), df(image, source, strip, lengths)
    refusal = first_refusal(image, source, lengths)
    if refusal:
        assert all(outcome == (('refused',) + refusal, [], [], [], [], []) for outcome in outcomes)
    else:
        check_map(Map(image, strip), source, *outcomes)
    # "Where demand 3 .. compares searches or images, all have the same strip length too"
    for search, outcome in zip((plain, df), outcomes):
        assert search(other_image(image, set(outcome.list), rng), source, strip, lengths) == outcome
    return outcomes


def check_lengths(shorter, longer):
    """"For two lengths on one map from one source, both accepted, the longer never has a lesser time.", nor, where the
    times are equal, fewer moves: each of its walks is one for the shorter, too."""
    if shorter.answer[0] == longer.answer[0] == 'accepted':
        # "Where times are compared, none is above all.", and so is its number
        assert all(time <= other for time, other in zip(shorter.times, longer.times))
        rows = zip(shorter.times, longer.times, shorter.moves, longer.moves)
        assert all(moves <= others for time, other, moves, others in rows if time == other)
