"""What docs/course.md says beside its commands: of wrong programs on the strip and the plate map, that the strip does
not show them, and what they give on the plate; and that the map on which the shorter list reads more is the smallest.
"""
from itertools import combinations, product

from harness import ROOT, check

from reader import parse
from replay import Call, Replay
from searches import NO_TIME, Search, df, df_step
from searches import run as search


class StaysFresh(Search):
    """The belief "a lowered station may stay fresh"."""

    def relax(self, u, v, time):
        was_fresh = v in self.fresh
        super().relax(u, v, time)
        if was_fresh:
            self.fresh.add(v)


def seen_once(image):
    """The times of a search that stops when each page has been seen once."""
    _, n, directory, pages = parse(image)
    stopped = Search(n, directory, pages, 0, 0)
    while stopped.open and len(set(stopped.list)) < len(pages):
        df_step(stopped)
    return [stopped.way.get(station, (NO_TIME, 0))[0] for station in range(n)]


def wrong(image, times):
    """The stations with another time than the least, each with that time."""
    right = df(image, 0, 0, (16,) * 5).times
    return {station: time for station, time in enumerate(times) if time != right[station]}


def reads(pages, frames):
    """With the least recently used page leaving: no page is far from another."""
    count = max(pages) + 1
    return Replay().answer(Call(bytes(pages), count, frames, [0] * count * count, 0))[1]


def reading_more(size):
    """The lists of so many entries of which a part reads more, with some number of frames, and such parts. Pages are
    numbered in the order in which they come."""
    found = set()
    for pages in product(range(size), repeat=size):
        if any(page > max(pages[:k], default=-1) + 1 for k, page in enumerate(pages)):
            continue
        for left in range(1, size):
            for part in combinations(pages, left):
                if any(reads(part, frames) > reads(pages, frames) for frames in range(1, size + 1)):
                    found.add((pages, part))
    return found


def check_smallest():
    """Dijkstra's list has an entry for each station that is reached. Only one list of five entries or fewer has a part
    that reads more, so that five stations on three pages are needed, and four moves to reach the four others."""
    check('lists of up to four entries', [reading_more(size) for size in range(1, 5)], [set()] * 4)
    check('lists of five entries', reading_more(5), {((0, 1, 0, 2, 0), (0, 1, 2, 0))})
    _, n, _, pages = parse((ROOT / 'examples' / 'maps' / 'shorter.map').read_bytes())
    check('the smallest map', (n, len(pages)), (5, 3))


def run():
    check_smallest()
    strip, plate = ((ROOT / 'examples' / 'maps' / name).read_bytes() for name in ('strip.map', 'plate.map'))
    stays = {image: search(df_step, image, 0, 0, (16,) * 5, StaysFresh).times for image in (strip, plate)}
    check('strip, seen once', wrong(strip, seen_once(strip)), {})
    check('strip, stays fresh', wrong(strip, stays[strip]), {})
    check('plate, seen once', wrong(plate, seen_once(plate)), {4: NO_TIME, 8: NO_TIME, 9: NO_TIME, 12: NO_TIME, 13: 27})
    check('plate, stays fresh', wrong(plate, stays[plate]), {8: 30, 9: 32, 12: 29, 13: 27})
    check('plate, least times', [df(plate, 0, 0, (16,) * 5).times[station] for station in (8, 9, 12, 13)],
          [25, 27, 24, 22])
