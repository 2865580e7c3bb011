"""What searches find: times, routes and page lists, held against searches.py and replay.py. Ways, entry stations and
reads with the least recently used page leaving are found here, by a few lines of their own."""
import random
import re

from harness import GOOD, REFUSED, check

from coils import ROOM
from limits import strips_about
from make_coils_examples import largest, plate_yard
from make_search_cases import (C6, C8, M7, WORKED_THROUGH, damaged, faults, page_begins, random_bad_pages,
                               random_change, spelled)
from reader import parse, read_page, u16, whole_check
from replay import Call, Replay
from searches import NOBODY, NO_MOVES, NO_TIME, SOURCE, df, plain

from answers.given import Asked, as_json, as_text, counted, good_map, numbers_in, with_fault
from answers.refusals import check_refusal, page_of, refusal_text


def words_of(command, asked, *more):
    length = () if asked.strip is None else ('--length', asked.strip)
    return (command, asked.map.path, asked.source, *more, *length)


def label_of(asked):
    return f'{asked.map.label} from {asked.source}, length {asked.strip}'


def asked_json(asked):
    """What every answer of a search in JSON begins with. No length is 0, to which all moves are open."""
    return {'map': str(asked.map.path), 'from': asked.source, 'length': asked.strip or 0}


def outcome(search, asked):
    return search(asked.map.image, asked.source, asked.strip or 0, ROOM)


def refusal_of(answer):
    """The refusal of an outcome, without the count of a page refusal; nothing if it is accepted."""
    return answer[1:4] if answer[0] == 'refused' else ()


def open_moves(data, strip):
    """The moves of the good pages that are open to a strip: (from, target) -> time. `02` has no limit."""
    n, pages = u16(data, 0), u16(data, 2)
    moves = {}
    for p in range(pages):
        reading = read_page(n, data[4:4 + n], p, page_of(data, p))
        for s, leaving in reading[1] if reading[0] == 'good' else []:
            moves.update({(s, target): time for target, time, limit in leaving if limit is None or limit >= strip})
    return moves


def check_refused(label, asked, found, text, refusal, about=None):
    """A refused search: JSON, of which what is not of the refusal is handed back, and text."""
    check(f'{label}, asked', {name: found[name] for name in ('map', 'from', 'length')}, asked_json(asked))
    check_refusal(label, asked.map.image, refusal, found['refusal'], asked.source if about is None else about)
    head = f'{asked.map.path}: {refusal_text(found["refusal"])}'
    check(f'{label}, text', text[:len(head)], head)
    others = {name: value for name, value in found.items() if name not in (*asked_json(asked), 'refusal')}
    return others, text[len(head):]


def or_none(value, none):
    return None if value == none else value


def check_times(asked, ours):
    label = f'times, {label_of(asked)}'
    words = words_of('times', asked)
    (status, found), (text_status, text) = (call(label, *words) for call in (as_json, as_text))
    refusal = refusal_of(ours.answer)
    check(f'{label}, status', (status, text_status), (REFUSED,) * 2 if refusal else (GOOD,) * 2)
    if refusal:
        check(f'{label}, no more', check_refused(label, asked, found, text, refusal), ({}, ''))
        return
    stations = [
        {'station': s, 'page': asked.map.image[4 + s], 'time': or_none(time, NO_TIME),
         'moves': or_none(moves, NO_MOVES), 'predecessor': None if before in (SOURCE, NOBODY) else before}
        for s, (time, moves, before) in enumerate(zip(ours.times, ours.moves, ours.predecessors))]
    check(label, found, {**asked_json(asked), 'stations': stations, 'reached': ours.answer[2], 'list': ours.list})
    check(f'{label}, text', times_of_text(text), times_of_json(found))


def times_of_text(text):
    heading, *rows, last = text.splitlines()
    return heading.split(), [row.split() for row in rows], numbers_in(last)


def times_of_json(found):
    """The same words by the JSON."""
    rows = []
    for row in found['stations']:
        before = 'source' if row['station'] == found['from'] else row['predecessor']
        words = [row['station'], row['page'], row['time'], row['moves'], before]
        rows.append(['-' if word is None else str(word) for word in words])
    last = [found['reached'], len(found['stations']), len(found['list'])]
    return 'station page tenths moves predecessor'.split(), rows, [str(number) for number in last]


def way_to(predecessors, target):
    """The stations from the source to a station, back along the predecessors; none if it has no predecessor."""
    way = []
    while target != SOURCE:
        if target == NOBODY:
            return None
        way.insert(0, target)
        target = predecessors[target]
    return way


def check_route(asked, ours, target, moves):
    """`moves` are those that are open."""
    label = f'route, {label_of(asked)} to {target}'
    words = words_of('route', asked, target)
    (status, found), (text_status, text) = (call(label, *words) for call in (as_json, as_text))
    refusal = refusal_of(ours.answer) or (() if target < u16(asked.map.image, 0) else (15,))
    if refusal:
        check(f'{label}, status', (status, text_status), (REFUSED,) * 2)
        about = target if refusal == (15,) else None
        more = check_refused(label, asked, found, text, refusal, about)
        check(f'{label}, no more', more, ({'to': target}, ''))
        return
    way = way_to(ours.predecessors, target)
    check(f'{label}, status', (status, text_status), (GOOD if way else REFUSED,) * 2)
    route = way and [{'station': s, 'page': asked.map.image[4 + s], 'time': ours.times[s]} for s in way]
    time, count = (ours.times[target], ours.moves[target]) if way else (None, None)
    check(label, found,
          {**asked_json(asked), 'to': target, 'route': route, 'time': time, 'moves': count, 'list': ours.list})
    check(f'{label}, text', text, route_text(found))
    if way:
        check(f'{label}, a walk', walk_faults(found, moves), [])


def walk_faults(found, moves):
    """What is not as it should be of a route, by the map's moves alone."""
    rows = found['route']
    faults_found = [] if rows[0]['station'] == found['from'] and rows[0]['time'] == 0 else ['begin']
    for one, after in zip(rows, rows[1:]):
        time = moves.get((one['station'], after['station']))
        if time is None or one['time'] + time != after['time']:
            faults_found.append((one, after))
    is_end = rows[-1]['station'] == found['to'] and rows[-1]['time'] == found['time']
    return faults_found + ([] if is_end and len(rows) == found['moves'] + 1 else ['end'])


def route_text(found):
    if found['route'] is None:
        return 'no route\n'
    rows = [('station', 'page', 'tenths')] + [tuple(row.values()) for row in found['route']]
    widths = [max(len(str(row[k])) for row in rows) for k in range(3)]
    table = ['  '.join(f'{word:>{width}}' for word, width in zip(row, widths)) for row in rows]
    seconds = f"{found['time'] // 10}.{found['time'] % 10} s"
    last = (f"total {counted(found['time'], 'tenth')} of a second ({seconds}), {counted(found['moves'], 'move')}, "
            f"{counted(len(found['list']), 'page')} fetched")
    return '\n'.join([*table, last]) + '\n'


# Page lists

def one_page_reads(pages):
    """1 for the first entry, 1 for each unlike the one before."""
    return sum(k == 0 or pages[k - 1] != p for k, p in enumerate(pages))


def reads(pages, frames):
    """The reads of a store of which the least recently used page leaves."""
    held, count = [], 0  # the page last referred to is the last
    for p in pages:
        if p in held:
            held.remove(p)
        else:
            count += 1
            held = held[1:] if len(held) == frames else held
        held.append(p)
    return count


def kept(whole, part):
    """Which entries of the whole list the part keeps, each the first that fits."""
    rest, marks = list(part), []
    for p in whole:
        marks.append(rest[:1] == [p])
        rest = rest[1:] if marks[-1] else rest
    return marks


def entry_stations(asked, ours, moves):
    """"one of its stations that is the source or the target of a move from a station on another listed page; it counts
    once": page by page. `moves` are those that are open."""
    directory = asked.map.image[4:4 + u16(asked.map.image, 0)]
    listed = set(ours.list)
    entries = {asked.source} | {v for u, v in moves if directory[u] in listed and directory[u] != directory[v]}
    return [sorted(s for s in entries if directory[s] == p) for p in range(u16(asked.map.image, 2))]


def lists_json(asked, frames, dijkstras, ours, moves):
    """What `lists` has to give."""
    def of(made):
        return {'list': made.list, 'references': len(made.list), 'one_page_reads': one_page_reads(made.list),
                'reads': None if frames is None else reads(made.list, frames)}
    entries = entry_stations(asked, ours, moves)
    return {**asked_json(asked), 'frames': frames,
            'dijkstras': {**of(dijkstras), 'kept': kept(dijkstras.list, ours.list)}, 'ours': of(ours),
            'pages': [{'page': p, 'in_dijkstras': dijkstras.list.count(p), 'in_ours': ours.list.count(p),
                       'entry_stations': stations} for p, stations in enumerate(entries)]}


def check_lists(asked, dijkstras, ours, frames, moves):
    """Both page lists; `moves` are those that are open."""
    label = f'lists, {label_of(asked)}, frames {frames}'
    words = words_of('lists', asked) + (() if frames is None else ('--frames', frames))
    (status, found), (text_status, text) = (call(label, *words) for call in (as_json, as_text))
    refusal = refusal_of(ours.answer)
    is_bad_store = not refusal and frames not in (None, *range(1, 65))
    check(f'{label}, status', (status, text_status), (REFUSED,) * 2 if refusal or is_bad_store else (GOOD,) * 2)
    if is_bad_store:
        check(f'{label}, no more', check_refused(label, asked, found, text, (23,), frames), ({}, ''))
    elif refusal:
        check_refused_lists(label, asked, dijkstras, ours, (found, text))
    else:
        check(label, found, lists_json(asked, frames, dijkstras, ours, moves))
        check_demand(label, found)
        check(f'{label}, text', lists_of_text(text), lists_of_json(found))
        check(f'{label}, width', max(map(len, text.split('\n\n')[0].splitlines())) <= 100, True)
        check_replay(label, asked, found)


def check_refused_lists(label, asked, dijkstras, ours, printed_both):
    """At a page refusal the references that were made, in JSON and text; at others there are none."""
    others, text = check_refused(label, asked, *printed_both, refusal_of(ours.answer))
    check(f'{label}, references made', others, {'dijkstras': {'list': dijkstras.list}, 'ours': {'list': ours.list}})
    _, *parts = re.split(r'(?:Dijkstra\'s|our) list up to the refused page:\n', text)
    check(f'{label}, text of the lists', [list(map(int, part.split())) for part in parts],
          [made.list for made in (dijkstras, ours) if made.list])


def check_demand(label, found):
    """Demand 3, from what is printed alone: what is kept is our list; no page stands in it more often than it has
    entry stations; and with one page held it is read no more often."""
    dijkstras, ours = found['dijkstras'], found['ours']
    check(f'{label}, a mark for each entry', len(dijkstras['kept']), len(dijkstras['list']))
    check(f'{label}, what is kept', [p for p, stays in zip(dijkstras['list'], dijkstras['kept']) if stays],
          ours['list'])
    check(f'{label}, pages listed too often', [
        row for row in found['pages'] if row['in_ours'] > len(row['entry_stations'])], [])
    check(f'{label}, no more reads', ours['one_page_reads'] <= dijkstras['one_page_reads'], True)


def check_replay(label, asked, found):
    """The reads once more, by the reference of C-20: no page is far from another."""
    pages, frames = u16(asked.map.image, 2), found['frames']
    for made in (found['dijkstras'], found['ours']):
        for count, store in ((made['one_page_reads'], 1), (made['reads'], frames)):
            if store is not None:
                call = Call(bytes(made['list']), pages, store, [0] * pages ** 2, 0)
                check(f'{label}, replay with {store}', ('reads', count), Replay().answer(call))


def lists_of_text(text):
    """Numbers of the text: Dijkstra's list with marks, ours, the table of counts, the table of pages."""
    lists, counts, pages = text.split('\n\n')
    dijkstras, ours = lists.split('our list:\n')
    marked = [(int(word.strip('[]')), word.isdigit()) for word in dijkstras.split('\n', 1)[1].split()]
    table = [re.fullmatch(r' *(\S.*?) +(\d+) +(\d+)', line).groups() for line in counts.splitlines()[1:]]
    rows = [list(map(int, line.split())) for line in pages.splitlines()[1:]]
    return marked, list(map(int, ours.split())), table, rows


def lists_of_json(found):
    dijkstras, ours, frames = found['dijkstras'], found['ours'], found['frames']
    names = [('references', 'references'), ('one-page reads', 'one_page_reads')]
    if frames is not None:
        names.append((f"reads with {counted(frames, 'frame')}", 'reads'))
    table = [(name, str(dijkstras[key]), str(ours[key])) for name, key in names]
    rows = [[row['page'], row['in_dijkstras'], row['in_ours'], *row['entry_stations']] for row in found['pages']]
    return list(zip(dijkstras['list'], dijkstras['kept'])), ours['list'], table, rows


# Which searches

def check_search(asked, frames, targets):
    """All three commands for one search. True if it was accepted."""
    dijkstras, ours = outcome(plain, asked), outcome(df, asked)
    is_map = parse(asked.map.image)[0] == 'good'
    moves = open_moves(asked.map.image, asked.strip or 0) if is_map else {}
    check_times(asked, ours)
    check_lists(asked, dijkstras, ours, frames, moves)
    for target in targets:
        check_route(asked, ours, target, moves)
    return not refusal_of(ours.answer)


def targets_on(rng, n):
    """Every station of a small map, three of a larger one, and one that the map lacks."""
    stations = range(n) if n <= 10 else rng.sample(range(n), 3)
    return [*stations, rng.choice([n, 65535])]


def random_search(rng, number, folder):
    """A map by chance, searched for a length about its limits; then damaged in one way and another. Counts those that
    are accepted although a page is bad."""
    data, limits, first = good_map(rng, number)
    n = u16(data, 0)
    strip = rng.choice([None, *strips_about(limits)])
    frames = rng.choice([None, 1, 2, 3, 8, 64])
    check_search(Asked(folder.put(f'random map {number}', data), first, strip), frames, targets_on(rng, n))
    changes = [random_change(rng, data) for _ in range(rng.randint(1, 3))]
    hurt = folder.put(f'random map {number}, damaged', damaged(data, *changes))
    half = folder.put(f'random map {number}, bad pages', damaged(data, *random_bad_pages(rng, data, first)))
    accepted = 0
    for one, source in ((hurt, first), (half, first), (half, rng.randrange(n))):
        done = check_search(Asked(one, source, rng.choice([None, strip])), 2, [rng.randrange(n)])
        accepted += done and whole_check(one.image) != ('good',)
    check_search(Asked(hurt, rng.choice([n, n + 1, 65535]), strip), frames, [rng.randrange(n)])
    return accepted


def full_map():
    """2,048 stations on 240 pages in turn, each with five moves if its page has room, and many ways that tie."""
    n, pages = 2048, 240
    moves = {s: [((s + k * k * 31 + 1) % n, (s * 31 + k) % 4, 5000 if (s + k) % 7 == 0 else None) for k in range(4)]
             for s in range(n)}
    return spelled([s % pages for s in range(n)], moves, pages)


def run_searches(folder):
    rng = random.Random(42)
    accepted = sum(random_search(rng, number, folder) for number in range(90))
    check('searches that come to no bad page are accepted', accepted > 20, True)
    for label, _, own, bad in faults():
        for target in (1, 2):
            one = folder.put(f'fault {label}, 0 leads to {target}', with_fault(own, bad, target))
            results = [check_search(Asked(one, source, None), None, [0]) for source in (0, 1, 2)]
            check(f'{one.label}, accepted from 0, 1 and 2', results, [target == 2, False, target == 2])
    for label, data, source, strip in [
            ('a plate yard', plate_yard(), 0, 8440), ('a plate yard', plate_yard(), 203, 8441),
            ('a plate yard, the siding', plate_yard(), 396, None), ('the largest map', largest(), 2047, 65535),
            ('a full map', full_map(), 0, None), ('a full map', full_map(), 1234, 5001),
            ('a page fetched again', WORKED_THROUGH, 0, None), ('too long', largest() + b'\0', 0, None)]:
        check_search(Asked(folder.put(label, data), source, strip), 64, [0, 17, 395, 2047])
    for frames in (0, 65, 65535):
        check_search(Asked(folder.put('M7', M7), 0, None), frames, [])


def run_course(folder):
    """C1 to C9 of document 01 by hand."""
    asked = Asked(folder.put('M7', M7), 0, None)
    _, times = as_json('C1', *words_of('times', asked))
    check('C1, times', [row['time'] for row in times['stations']], [0, 4, 3, 6, 2, 8, 9])
    check('C1, predecessors', [row['predecessor'] for row in times['stations']], [None, 0, 4, 2, 0, 4, 5])
    _, lists = as_json('C2', *words_of('lists', asked))
    check('C2', (lists['ours']['list'], lists['ours']['one_page_reads']), ([0, 1, 0], 3))
    check('C3', (lists['dijkstras']['list'], lists['dijkstras']['one_page_reads']), ([0, 1, 0, 0, 0, 1, 1], 4))
    _, times = as_json('C4', *words_of('times', asked._replace(source=6)))
    check('C4', (times['reached'], times['list']), (1, [1]))
    _, times = as_json('C6', 'times', folder.put('C6', C6).path, 0)
    check('C6', times['stations'][3], {'station': 3, 'page': 0, 'time': 10, 'moves': 2, 'predecessor': 1})
    bad = folder.put('C7', damaged(M7, (page_begins(M7, 1), 7)))
    status, lists = as_json('C7', 'lists', bad.path, 0)
    check('C7', (status, [lists['refusal'][name] for name in ('number', 'page', 'offset')], lists['ours']['list']),
          (REFUSED, [8, 1, 0], [0, 1]))
    status, times = as_json('C8', 'times', folder.put('C8', C8).path, 0)
    check('C8', (status, times['list']), (GOOD, [0]))
    status, times = as_json('C9', 'times', folder.put('C9', C8).path, 1)
    check('C9', (status, times['refusal']['number']), (REFUSED, 8))
    _, route = as_json('C10', *words_of('route', asked, 6))
    check('C10', [row['station'] for row in route['route']], [0, 4, 5, 6])
