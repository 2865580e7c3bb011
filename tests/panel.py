"""The panel's call, written from document 02, C-12, C-14 and C-15.

    answers(image, source, strip, stations)          -> the float for each of the stations
    check(image, source, strip, stations, floats)    stops by an AssertionError where a float is not what it ought to be

`answers` looks into the outcome of the DF search of searches.py. `check` takes no step of a search: as demands.py does,
it takes least ways from rounds over all open moves, and the refusals from the documents' sentences.
"""
from demands import Map, first_refusal, least_ways
from reader import parse
from searches import NO_TIME, df

# "with tables of its own": they have room for every map
TABLES = (2048,) * 5

# that of 2,047 moves of 65,535 tenths
GREATEST_TIME = 134150145


def refusal(number):
    # "refusal n is -100 - n, its place left out"
    return float(-100 - number)


def answer(n, outcome, station):
    # "Station numbers not below N count as refusal 6", which is tried before any page
    if station >= n:
        return refusal(6)
    if outcome.answer[0] == 'refused':
        return refusal(outcome.answer[1])
    # "either a time as a 64-bit float or no route, the float equal to the whole number of tenths", and "no route is -1"
    time = outcome.times[station]
    return -1.0 if time == NO_TIME else float(time)


def answers(image, source, strip, stations):
    parts = parse(image)
    if parts[0] == 'refused':
        return [refusal(parts[1])] * len(stations)
    # "The new entry runs the full DF search"
    outcome = df(image, source, strip, TABLES)
    return [answer(parts[1], outcome, station) for station in stations]


def refused_page(yard, ways):
    """"That of the station, of all on bad pages, least by time and then number", and by moves between, C-14: its
    refusal, or None."""
    bad = [(way, s) for s, way in ways.items() if yard.is_bad(s)]
    return yard.faults[yard.directory[min(bad)[1]]][0] if bad else None


def by_walks(image, source, strip, stations):
    """The numbers that the floats have to equal."""
    first = first_refusal(image, source, TABLES)
    if first:
        return [-100 - first[0]] * len(stations)
    yard = Map(image, strip)
    ways = least_ways(yard, source)
    times = {s: time for s, (time, _) in ways.items()}
    page = refused_page(yard, ways)
    found = times if page is None else dict.fromkeys(range(yard.n), -100 - page)
    return [found.get(s, -1) if s < yard.n else -106 for s in stations]


def check(image, source, strip, stations, floats):
    numbers = by_walks(image, source, strip, stations)
    assert floats == numbers, (source, strip, stations, floats, numbers)
    # 7 is about lent tables, and "13 no longer occurs"
    assert all(-1 <= x <= GREATEST_TIME or -118 <= x <= -101 and x not in (-107, -113) for x in floats)
