"""Writes the cases of the program panel_test, crates/panel_test/stdin, and what it must print, stdout beside it.

    python3 tests/make_panel_cases.py            write both files
    python3 tests/make_panel_cases.py --check    only compare them with what would be written; exit 1 on a difference

The expected text comes from panel.py, which also holds each float against least times found another way. Where the
answers are plain to see, the case below states them, as the program prints them; maps that are taken over from
make_search_cases.py bring what is stated there. The generator stops where one of these says otherwise.
"""
import random
import struct

from limits import LONGEST_STRIP, random_limits, strips_about
from make_search_cases import (C8, M7, M7_LIMITED, M7_PAGES, PRIME, S, STRIP, course_cases, damaged, handover_cases,
                               handover_limit_cases, handover_map, handover_refusal_cases, large_cases, limit_cases,
                               page_refusal_cases, random_change, random_map, refusal_cases,
                               refused_at_equal_time_cases, run_words, runs, spelled)
from maps import image, page, station, u16, u32
from panel import GREATEST_TIME, answers, check
from searches import NO_TIME
from stored import ROOT, keep

FOLDER = ROOT / 'crates' / 'panel_test'

# The greatest number that a station or a source can be called by.
LAST_NUMBER = 65535


# The expected text

def digest(floats):
    """A digest of all their bits, of which the program takes 32 at a time, the upper half of a float first."""
    made = 0
    for x in floats:
        for half in struct.unpack('>II', struct.pack('>d', x)):
            made = (made * 65599 + half + 1) % PRIME
    return made


def words(numbers):
    """Whole numbers as runs of equal ones, such as `0 4 -1*5`."""
    return ''.join(run_words(*run) for run in runs(map(int, numbers)))[1:]


# The cases

class Cases:
    """The maps with their calls: the bytes that the program reads, and the lines that it must print."""

    def __init__(self):
        self.answers, self.stream, self.lines = 0, [], []

    def add(self, label, data, calls):
        assert calls  # the program takes a map without calls for the end of its input
        text = label.encode('ascii')
        self.stream += [bytes([len(text)]), u16(len(calls)), u32(len(data)), text, data]
        self.lines.append(label)
        for one in calls:
            data = damaged(data, *one.changes)
            self.add_call(label, data, one)

    def add_call(self, label, data, one):
        floats = answers(data, one.source, one.strip, one.stations)
        check(data, one.source, one.strip, one.stations, floats)
        one.compare(label, floats)
        first, number = one.stations[0], len(one.stations)
        self.stream += [*map(u16, (one.source, one.strip, first, number)), bytes([len(one.changes)])]
        for at, value in one.changes:
            self.stream.append(u32(at) + bytes([value]))
            self.lines.append(f'  byte {at} becomes {value}')
        self.lines.append(f' from {one.source}, strip {one.strip}, stations {first} to {one.stations[-1]}:'
                          f' {words(floats)}, digest {digest(floats)}')
        self.answers += number


class Call:
    """The panel's call for one station after the other, up to the last.

    `changes` are made to the image first and stay. `floats` are stated by hand, as the program prints them.
    """

    def __init__(self, source, first, last, floats=None, changes=(), strip=STRIP):
        assert first <= last <= LAST_NUMBER
        self.source, self.stations, self.floats = source, range(first, last + 1), floats
        self.changes, self.strip = changes, strip

    def compare(self, label, found):
        if self.floats is not None:
            assert words(found) == self.floats, (label, self.source, self.strip, words(found), self.floats)


def count_of(data):
    """N, whatever the map."""
    return int.from_bytes(data[:2], 'little')


class TakenOver:
    """Stands in for the `Cases` of make_search_cases.py: a search of one of its maps becomes calls for stations of that
    map and for two that it does not have, and what is stated of the search is stated of them.

    `beginning` is how the labels of the maps begin that are taken.
    """

    def __init__(self, cases, beginning=''):
        self.cases, self.beginning = cases, beginning

    def add(self, label, data, searches):
        # 7 is about lent tables, and here none is lent
        if not label.startswith(self.beginning) or label.startswith('7: '):
            return
        calls, asked = [], set()
        for one in searches:
            if one.changes:
                asked.clear()
            # searches that differ only by their tables are one call
            if (one.source, one.strip) not in asked:
                asked.add((one.source, one.strip))
                calls += calls_for(one, count_of(data))
        self.cases.add(label, data, calls)


def calls_for(search, n):
    """What takes the place of a search on a map of n stations: calls for all of them, or for some if there are many."""
    changes = search.changes
    for first, last in [(0, n + 1)] if n < 100 else [(0, 9), (n - 10, n + 1)]:
        yield Call(search.source, first, last, stated(search.wanted, n, range(first, last + 1)), changes, search.strip)
        changes = ()


def stated(wanted, n, stations):
    """What is stated of a search, told of these stations, or None."""
    if wanted.get('answer', '').startswith('refused'):
        number = int(wanted['answer'].replace(',', ' ').split()[1])
        return words(-100 - number if number < 6 or s < n else -106 for s in stations)
    if 'times' in wanted:
        times = [-1 if time == str(NO_TIME) else time for time in wanted['times'].split()]
        return words(times[s] if s < n else -106 for s in stations)
    return None


def taken_over_cases(cases):
    """Document 01's maps; every refusal, its page reached or not; which of two bad pages is refused; strips about the
    limits; a full map; moves of time 0, by which stations other than the source have time 0 (document 02, C-15)."""
    for part in (course_cases, refusal_cases, page_refusal_cases, limit_cases):
        part(TakenOver(cases))
    refused_at_equal_time_cases(TakenOver(cases, 'which of two bad pages is refused at equal time'))
    large_cases(TakenOver(cases, 'a full map with limits'))
    for part in (handover_cases, handover_limit_cases, handover_refusal_cases):
        part(TakenOver(cases))


# Numbers that are no station of a small map; the low bytes of some are.
NOWHERE = [(7, 8), (254, 263), (32768, 32775), (65530, LAST_NUMBER)]


def same(number, source, first, last):
    """A call that answers this number for every station."""
    return Call(source, first, last, words([number] * (last + 1 - first)))


def station_cases(cases):
    """Sources and stations that the map does not have: 6, after 1 to 5 and before any page."""
    bad = [(at, 7) for at in M7_PAGES]
    # what stations 0 to 8 answer, from 0 and from 6
    for label, data, from_0, from_6 in [
            ('6: M7', M7, '0 4 3 6 2 8 9 -106*2', '-1*6 0 -106*2'),
            ('6 comes before any page: M7, both pages begin 07', damaged(M7, *bad), '-108*7 -106*2', '-108*7 -106*2'),
            ('6 comes before any page: M7, page 0 begins 07', damaged(M7, bad[0]), '-108*7 -106*2', '-1*6 0 -106*2')]:
        cases.add(label, data, [
            Call(0, 0, 8, from_0), Call(6, 0, 8, from_6),
            *[same(-106, source, *stations) for source in (0, 6) for stations in NOWHERE],
            *[same(-106, source, *stations) for source in (7, 256, LAST_NUMBER) for stations in [(0, 8), *NOWHERE]]])
    for number, label, data in [
            (1, 'an empty image', b''), (2, '00 00 01 00', b'\x00\x00\x01\x00'),
            (3, '01 00 00 00', b'\x01\x00\x00\x00'), (4, 'S less its last byte', S[:-1]),
            (5, 'S, directory 01', damaged(S, (4, 1))),
            (5, 'M7, the last station on no page, page 0 begins 07', damaged(M7, (4 + 6, 2), bad[0]))]:
        cases.add(f'{number} comes before 6: {label}', data, [
            same(-100 - number, source, *stations)
            for source in (0, 7, LAST_NUMBER) for stations in [(0, 8), *NOWHERE]])
    cases.add('a bad page that is not reached, and from there', C8, [
        Call(0, 0, 3, '0 -1 -106*2'), Call(1, 0, 3, '-108*2 -106*2'), Call(2, 0, 3, '-106*4')])
    cases.add('N 1: S', S, [Call(0, 0, 2, '0 -106*2'), same(-106, 1, 0, 2), same(-106, LAST_NUMBER, 0, 2),
                            same(-106, 0, LAST_NUMBER, LAST_NUMBER)])
    cases.add('N 1, on the last of 3 pages', image([2], page(), page(b'\x07'), page(station(0))), [
        Call(0, 0, 1, '0 -106'), Call(0, 0, 1, '-110 -106', changes=[(4 + 1 + 512, 0)])])


def strip_cases(cases):
    """M7 with limits of 8120 and 8119: one map, one station, other lengths."""
    cases.add('M7, 0-4 for strips of up to 8120, 4-2 of up to 8119: the way to 4 and to 2', M7_LIMITED, [
        Call(0, number, number, floats, strip=strip) for number, strip, floats in [
            (4, 8119, '2'), (4, 8120, '2'), (4, 8121, '-1'), (4, LONGEST_STRIP, '-1'), (4, 0, '2'),
            (2, 8118, '3'), (2, 8119, '3'), (2, 8120, '7'), (2, 8121, '7'), (2, LONGEST_STRIP, '7'), (2, 0, '3')]])


def chain_cases(cases):
    """The greatest times: every one of 2,048 stations follows the one before it, in 65,535 tenths.

    Every 128th move has a limit, the later the lower, so that the chain is longer, the shorter the strip. All stations
    are asked for, each for a strip that ends the chain soon after it: that takes half the time of whole chains.
    """
    n, part = 2048, 128
    times = [65535 * s for s in range(n)]
    assert times[-1] == GREATEST_TIME
    moves = {s: [(s + 1, 65535, None if (s + 1) % part else n - s)] for s in range(n - 1)}
    # a decimetre over the limit of the move to `end`
    calls = [Call(0, end - part, end, words([*times[end - part:end], -1]), strip=n - end + 2)
             for end in range(part, n, part)]
    # just the lowest limit: the whole chain
    calls += [Call(0, n - part, n + 1, words([*times[n - part:], -106, -106]), strip=part + 1),
              Call(0, 0, 9, words(times[:10]), strip=part + 1),
              Call(1000, 998, 1002, '-1*2 0 65535 131070', strip=part + 1),
              Call(n - 1, n - 2, n, '-1 0 -106', strip=0), Call(n, n - 2, n + 1, '-106*4', strip=0)]
    data = spelled([s // 31 for s in range(n)], moves, 67)
    cases.add('the longest chain: N 2,048, times 65,535, every station', data, calls)


def random_case(cases, rng, label, kind, limits):
    """A good map of the kind, then damaged at one to three bytes; every station."""
    data, first = kind(rng, limits)
    last = count_of(data) + 1
    strips = rng.sample(strips_about(limits), 2)
    changes = dict(random_change(rng, data) for _ in range(rng.randint(1, 3)))
    cases.add(label, data, [
        *[Call(first, 0, last, strip=strip) for strip in strips],
        Call(rng.randrange(last - 1), 0, last, strip=strips[0]),
        Call(first, 0, last, changes=list(changes.items()), strip=strips[1]),
        Call(rng.randrange(last - 1), 0, last, strip=strips[1])])


def random_cases(cases):
    """20 good maps without limits and 20 with them, each then damaged at one to three bytes; every station."""
    rng = random.Random(12)
    for number in range(1, 41):
        limits = random_limits(rng) if number % 2 == 0 else []
        random_case(cases, rng, f'random map {number}{" with limits" if limits else ""}', random_map, limits)


def random_handover_cases(cases):
    """Three good maps without limits and three with them on which many moves take no time (document 02, C-15)."""
    rng = random.Random(1512)
    for number in range(1, 7):
        limits = random_limits(rng) if number % 2 == 0 else []
        label = f'random map {number} with time 0{" and limits" if limits else ""}'
        random_case(cases, rng, label, handover_map, limits)


def main():
    cases = Cases()
    for part in (taken_over_cases, station_cases, strip_cases, random_cases, random_handover_cases, chain_cases):
        part(cases)
    stream = b''.join(cases.stream)
    text = ''.join(line + '\n' for line in cases.lines).encode('ascii')
    keep(f'{cases.answers:,} answers', [(FOLDER / 'stdin', stream), (FOLDER / 'stdout', text)])


if __name__ == '__main__':
    main()
