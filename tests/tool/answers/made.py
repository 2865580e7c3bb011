"""What is made: texts of maps and maps of texts, held against records.py; the order of maps, against order.py; coil
records, and the lines of coils for them, against coils.py."""
import random
import re
import subprocess
from functools import cmp_to_key
from itertools import groupby, product

from harness import GOOD, REFUSED, ROOT, check, yard

from coils import printed
from make_coils_examples import largest, record
from make_order_cases import drafts_of, laid_out
from make_search_cases import M7, M7_LIMITED, S, drawn
from order import EQUAL, FIRST_LESS, SECOND_LESS, Draft, Order
from reader import PAGE, u16, whole_check
from records import records_of, write

from answers.checks import fullest
from answers.found import full_map
from answers.given import as_text, good_map


def normal(data):
    """The text of a good map."""
    n = u16(data, 0)
    moves = {s: [] for s in range(n)}
    for begin, target, time, limit in records_of(data):
        moves[begin].append(f'  move {begin} to {target} time {time}' + (f' limit {limit}' if limit else '') + '\n')
    stations = [f'station {s} page {data[4 + s]}\n' + ''.join(moves[s]) for s in range(n)]
    return f'stations {n}\npages {u16(data, 2)}\n' + ''.join(stations)


def untidy(rng, data):
    """The same lines in another order and with other blanks, comments and ends; without the numbers of stations and
    pages where these can be told by the others."""
    lines = normal(data).splitlines()
    spare = 2 if max(data[4:4 + u16(data, 0)]) + 1 == u16(data, 2) else 1
    lines = lines[rng.randint(0, spare):]
    lines += [rng.choice(['', '   ', '\t', '# move 0 to 1 time 2', ' #', '#\tstations 9 # pages 9'])
              for _ in range(rng.randint(0, 9))]
    rng.shuffle(lines)
    blanks = (' ', '  ', '\t', ' \t ')
    made = [rng.choice(['', ' ', '\t']) + re.sub(' +', lambda _: rng.choice(blanks), line.strip())
            + rng.choice(['', '', ' ', '#', ' # stations 7', '\t# \u00e9t\u00e9']) for line in lines]
    end = rng.choice(['\n', '\r\n'])
    return (rng.choice(['', '\ufeff']) + end.join(made) + rng.choice(['', end])).encode()


def filled(data, more):
    """The image of a map's records on pages filled in the order of the stations, and so many empty pages behind."""
    n, records = u16(data, 0), records_of(data)
    directory, used, p = [], 0, 0
    for s in range(n):
        size = 3 + sum(7 if limit else 5 for begin, _, _, limit in records if begin == s)
        if used + size > 255:
            used, p = 0, p + 1
        used += size
        directory.append(p)
    pages = p + 1 + more
    return write(n, pages, bytes(directory), 4 + n + PAGE * pages, records)[1]


def check_made(label, text, data):
    done = yard('make', '-', '-o', '-', data=text)
    check(label, (done.status, done.out == data, done.err), (GOOD, True, b''))


def check_texts(rng, one, folder):
    """A good map to text and back, by way of texts that say the same."""
    check(f'{one.label}, show', as_text(one.label, 'show', one.path), (GOOD, normal(one.image)))
    check_made(f'{one.label}, make of what show prints', normal(one.image).encode(), one.image)
    for k in range(3):
        check_made(f'{one.label}, an untidy text {k}', untidy(rng, one.image), one.image)
    more = rng.choice([0, 0, 1, 3])
    placed = filled(one.image, more)
    text = re.sub(r'(station \d+) page \d+', r'\1', normal(one.image).split('\n', 2)[2])
    text += f'pages {u16(placed, 2)}\n' if more else ''
    path, made = folder.path / 'text', folder.path / 'made'
    path.write_text(text)
    check(f'{one.label}, make of no pages', yard('make', path, '-o', made), (GOOD, b'', b''))
    check(f'{one.label}, the image of no pages', made.read_bytes() == placed, True)
    check(f'{one.label}, show of it', as_text(one.label, 'show', made), (GOOD, normal(placed)))


def most_records():
    """240 stations on as many pages, each with 50 moves: 12,000 records."""
    n = 240
    return laid_out(n, n, range(n), sorted((s, (s + k) % n, s * k % 65536, 0) for s in range(n) for k in range(1, 51)))


def run_texts(folder):
    rng = random.Random(43)
    maps = [('M7', M7), ('S', S), ('the largest map', largest()), ('12,000 records', most_records()),
            ('a full map', full_map()), ('numbers at the bounds', drawn([239, 0], '0-1/0/1, 1-0/65535/65535', 240)),
            ('a page full to its last byte', laid_out(60, 4, [0] + [1 + s % 3 for s in range(59)], [
                (0, s, 65535, 0 if s < 50 else 1) for s in range(1, 51)]))]
    check('12,000 records', len(records_of(maps[3][1])), 12000)
    check('a page full to its last byte', fullest(maps[6][1]), {'page': 0, 'bytes': 256})
    maps += [(f'random map {number}', good_map(rng, number)[0]) for number in range(80)]
    for label, data in maps:
        check_texts(rng, folder.put(label, data), folder)


# The order of maps

def in_order(drafts):
    """Lines of paths, by order.py; equal ones in the order of the arguments."""
    signs = {FIRST_LESS: -1, EQUAL: 0, SECOND_LESS: 1}
    key = cmp_to_key(lambda one, other: signs[Order().named(Draft(one.image), Draft(other.image))])
    return [' = '.join(str(one.path) for one in group) for _, group in groupby(sorted(drafts, key=key), key)]


def check_order(label, drafts):
    """What is wrong with a bad map is said as `check` says it, on standard error."""
    good = [one for one in drafts if whole_check(one.image) == ('good',)]
    bad = [one for one in drafts if one not in good]
    _, text = as_text(label, 'check', *[one.path for one in bad]) if bad else (GOOD, '')
    err = ''.join(line if line.startswith(' ') else f'yard: {line}' for line in text.splitlines(True))
    found = yard('order', *[one.path for one in drafts])
    check(f'{label}, order', found,
          (REFUSED if bad else GOOD, ''.join(f'{line}\n' for line in in_order(good)).encode(), err.encode()))
    return len(good) - found.out.count(b'\n')


def run_orders(folder):
    """Drafts of one yard: the same moves on other pages, a front part, one move changed, added or dropped, one station
    more, damaged bytes. Then those of several yards, and maps of few numbers."""
    rng = random.Random(44)
    yards = []
    for number in range(30):
        data, _, _ = good_map(rng, number)
        drafts = [folder.put(f'yard {number}', draft) for draft in drafts_of(rng, data)]
        rng.shuffle(drafts)
        equal = check_order(f'drafts of yard {number}', drafts)
        check(f'drafts of yard {number}, some are equal', equal > 0, True)
        yards += drafts[:3]
    check_order('drafts of all yards', yards)
    tiny = [folder.put('tiny', drawn([s % p for s in range(n)], moves, p)) for n in (2, 3) for p in (1, 2)
            for moves in ('', '0-1/1', '0-1/0', '0-1/256', '0-1/1/1', '0-1/1/256', '1-0/1', '0-1/1 1-0/1',
                          '0-1/1 1-0/0')]
    rng.shuffle(tiny)
    check_order('maps of few numbers', tiny)
    large = [folder.put(label, data) for label, data in (('12,000 records', most_records()), ('full', full_map()),
                                                         ('largest', largest()), ('full again', full_map()))]
    check_order('large maps', large)
    found = yard('order', large[1].path, '-', data=full_map())
    check('order with standard input', found, (GOOD, f'{large[1].path} = standard input\n'.encode(), b''))


# Coil records

HEADING = 'coil,length,station\n'


def csv(rows):
    return HEADING + ''.join('{},{},{}\n'.format(*row) for row in rows)


def run_records(folder):
    rng = random.Random(45)
    bounds = list(product((0, 1, 65536, 2**32 - 1), (0, 255, 65535), (0, 256, 65535)))
    chance = [(rng.randrange(2**32), rng.randrange(2**16), rng.randrange(2**16)) for _ in range(3000)]
    for label, rows in (('no record', []), ('one record', [(7, 8120, 0)]), ('bounds', bounds), ('by chance', chance)):
        data = b''.join(record(*row) for row in rows)
        check(f'records make, {label}', yard('records', 'make', '-', data=csv(rows).encode()), (GOOD, data, b''))
        check(f'records show, {label}', yard('records', 'show', '-', data=data), (GOOD, csv(rows).encode(), b''))
        untidy_text = '\ufeff# coils\r\n\r\n' + csv(rows).replace(',', ' ,\t').replace('\n', ' # \u00e9t\u00e9\r\n')
        path, made = folder.path / 'coils.csv', folder.path / 'coils'
        path.write_bytes(untidy_text.encode())
        check(f'records make, {label}, untidy', yard('records', 'make', path, '-o', made), (GOOD, b'', b''))
        check(f'records make, {label}, the file', made.read_bytes(), data)
        check(f'records show, {label}, the file', yard('records', 'show', made).out, csv(rows).encode())
    check('records make without a heading', yard('records', 'make', '-', data=b'7,8120,0'),
          (GOOD, record(7, 8120, 0), b''))
    run_coils(folder, list(product((0, 4294967295), (0, 8119, 8120, 8121, 65535), (*range(8), 65535))))


def run_coils(folder, rows):
    """The program coils on records that yard made."""
    builds = [ROOT / 'target' / name for name in ('coils', 'bin/coils')]
    program = next((path for path in builds if path.exists()), None)
    if program is None:
        print('answers: the program coils is not built, and so read no records')
        return
    (folder.path / 'yard.map').write_bytes(M7_LIMITED)
    data = yard('records', 'make', '-', data=csv(rows).encode()).out
    done = subprocess.run([str(program)], cwd=folder.path, input=data, capture_output=True, timeout=60)
    check('coils on the records made', (done.stdout, done.stderr), (printed(M7_LIMITED, data), b''))
