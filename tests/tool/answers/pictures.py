"""Drawings for Graphviz, taken apart again: every station, every move, and what a search marks in them."""
import random
import re
import shutil
import subprocess
from collections import namedtuple

from harness import GOOD, check

from limits import strips_about
from make_search_cases import M7, M7_LIMITED, S, drawn
from reader import u16
from records import records_of
from searches import NO_TIME, SOURCE, df

from answers.found import full_map, label_of, outcome
from answers.given import Asked, as_text, good_map

Drawing = namedtuple('Drawing', 'pages edges')


def read_drawing(text):
    """Pages: number -> label and stations with what they look like; edges: (from, target, label, look)."""
    pages, edges = {}, []
    for cluster, body in re.findall(r'^  subgraph cluster_(\d+) \{\n(.*?)^  \}\n', text, re.S | re.M):
        label = re.search(r'^    label="(.*)"$', body, re.M)[1]
        pages[int(cluster)] = label, re.findall(r'^    (\d+)(.*)$', body, re.M)
    for begin, target, label, look in re.findall(r'^  (\d+) -> (\d+) \[label="([^"]*)"(.*)\]$', text, re.M):
        edges.append((int(begin), int(target), label, look))
    return Drawing(pages, edges)


def ordinal(number):
    endings = {1: 'st', 2: 'nd', 3: 'rd'}
    return f"{number}{'th' if number // 10 % 10 == 1 else endings.get(number % 10, 'th')}"


def check_drawing(asked, text, ours):
    """`ours` is the search, or None if none was asked for."""
    label = f'dot, {label_of(asked)}'
    data, strip = asked.map.image, asked.strip or 0
    found = read_drawing(text)
    directory, records = list(data[4:4 + u16(data, 0)]), records_of(data)
    check(f'{label}, pages', list(found.pages), list(range(u16(data, 2))))
    check(f'{label}, stations', [(int(s), p) for p, (_, stations) in found.pages.items() for s, _ in stations],
          sorted(enumerate(directory), key=lambda pair: (pair[1], pair[0])))
    check(f'{label}, moves', [edge[:3] for edge in found.edges],
          [(u, v, f'{time}\\n\u2264 {limit} dm' if limit else str(time)) for u, v, time, limit in records])
    check(f'{label}, dashed', {edge[:2] for edge in found.edges if 'dashed' in edge[3]},
          {(u, v) for u, v, _, limit in records if limit and limit < strip})
    bold = [edge[:2] for edge in found.edges if 'penwidth' in edge[3]]
    tree = [] if ours is None else [(before, s) for s, before in enumerate(ours.predecessors) if before < SOURCE]
    check(f'{label}, bold', bold, sorted(tree))
    check_looks(label, asked, found, ours)
    check(f'{label}, braces', (text[:14], text[-2:], text.count('{'), text.count('}')),
          ('digraph yard {', '}\n', len(found.pages) + 1, len(found.pages) + 1))


def check_looks(label, asked, found, ours):
    """The labels of pages and stations: of a search, places in its list and times."""
    looks = {int(s): look for _, stations in found.pages.values() for s, look in stations}
    if ours is None:
        check(f'{label}, labels of pages', [name for name, _ in found.pages.values()],
              [f'page {p}' for p in found.pages])
        check(f'{label}, stations without a look', set(looks.values()), {''})
        return
    places = {p: [ordinal(k) for k, entry in enumerate(ours.list, 1) if entry == p] for p in found.pages}
    check(f'{label}, labels of pages', [name for name, _ in found.pages.values()],
          [f"page {p}, fetched {', '.join(of_page)}" if of_page else f'page {p}, not fetched'
           for p, of_page in places.items()])
    times = {s: int(time) for s, look in looks.items()
             for name, time in re.findall(r'label="(\d+)\\n\D*(\d+)"', look) if int(name) == s}
    check(f'{label}, times of stations', times, {s: time for s, time in enumerate(ours.times) if time != NO_TIME})
    check(f'{label}, the source', [s for s, look in looks.items() if 'double' in look], [asked.source])
    check(f'{label}, not reached', sorted(s for s, look in looks.items() if 'grey' in look),
          [s for s, time in enumerate(ours.times) if time == NO_TIME])


# A drawing of more moves is only parsed by Graphviz, for the time that it takes to lay it out.
MOST_MOVES_DRAWN = 500


def check_graphviz(label, text):
    """Graphviz draws it, and has nothing to complain of."""
    words = ['dot', '-Tsvg'] if text.count(' -> ') <= MOST_MOVES_DRAWN else ['nop']
    if shutil.which(words[0]):
        done = subprocess.run(words, input=text.encode(), capture_output=True, timeout=60)
        check(f'{label}, {words[0]} of Graphviz', (done.returncode, done.stderr, len(done.stdout) > 0), (0, b'', True))


def run_drawings(folder):
    rng = random.Random(46)
    if not shutil.which('dot'):
        print('answers: Graphviz is not installed, and so drew nothing')
    maps = [('M7', M7, (), 0), ('M7 with limits', M7_LIMITED, (8119, 8120), 0), ('S', S, (), 0),
            ('an empty page', drawn([0, 2], '0-1/3', 4), (), 1), ('a full map', full_map(), (5000,), 0),
            ('a ring', drawn([s % 6 for s in range(150)], ' '.join(f'{s}-{(s + 1) % 150}/1' for s in range(150))),
             (), 5)]
    for number in range(60):
        data, limits, first = good_map(rng, number)
        maps.append((f'random map {number}', data, limits, first))
    for label, data, limits, first in maps:
        one = folder.put(label, data)
        strip = rng.choice([None, *strips_about(limits)])
        length = () if strip is None else ('--length', strip)
        for source in (None, first):
            words = length if source is None else (*length, '--from', source)
            status, text = as_text(label, 'dot', one.path, *words)
            check(f'dot, {label}, status', status, GOOD)
            asked = Asked(one, source, strip)
            check_drawing(asked, text, None if source is None else outcome(df, asked))
            check_graphviz(f'dot, {label_of(asked)}', text)
