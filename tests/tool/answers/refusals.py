"""A refusal held against the reference: its number, its place, the numbers in what is said of it, and its rows of
bytes. Of a sentence that says what is wrong, only the numbers are compared: how it is put is for the sessions to keep."""
from harness import check

from make_search_cases import page_begins
from reader import PAGE, u16

from answers.given import LONGEST, numbers_in

# Refusals. One is (number,), (5, station) or (number, page, offset).

# What each of them is about, as its meaning has to say.
ABOUT = {1: 'less than 4 bytes', 2: 'number of stations', 3: 'number of pages', 4: 'not as long', 5: 'directory',
         6: 'starts from a station', 8: 'unknown', 9: 'last byte', 10: 'not the next one', 11: 'before any station',
         12: "a move's target", 14: "after the page's end", 15: 'leads to a station', 18: 'limit', 23: 'frames'}


def page_of(data, p):
    begin = page_begins(data, p)
    return data[begin:begin + PAGE]


def commands_before(content, offset):
    """The commands of a page before an offset: code and numbers. A known code c has c numbers."""
    at, made = 0, []
    while at < offset:
        made.append((content[at], [u16(content, at + 1 + 2 * k) for k in range(content[at])]))
        at += 1 + 2 * content[at]
    return made


def said_of_heading(data, number, place):
    """The numbers that belong to a fault of heading and directory."""
    if number == 1:
        return [len(data)]
    n, p = u16(data, 0), u16(data, 2)
    if number == 5:
        return [data[4 + place[0]], 0, p - 1]
    return {2: [n], 3: [p], 4: [n, p, 4 + n + PAGE * p, min(len(data), LONGEST)]}[number]


def said_of_station(data, p, content, offset):
    """Those of refusal 10: the station that stands there, and the one that should."""
    stations = [s for s in range(u16(data, 0)) if data[4 + s] == p]
    passed = [code for code, _ in commands_before(content, offset)].count(1)
    found = [u16(content, offset + 1)] if content[offset] == 1 else []
    return found + stations[passed:passed + 1]


def said_of_target(data, content, offset):
    """Those of refusal 12."""
    before = commands_before(content, offset)
    latest = max(k for k, (code, _) in enumerate(before) if code == 1)
    target, own = u16(content, offset + 1), before[latest][1][0]
    if target >= u16(data, 0):
        return [target, 0, u16(data, 0) - 1]
    return [target] if target == own else [target, before[-1][1][0]]


def said_of_page(data, number, p, offset):
    """The numbers that belong to a fault of a page."""
    content = page_of(data, p)
    if offset == PAGE:
        return [PAGE]
    code = f'{content[offset]:02X}'
    behind = next((at for at in range(offset + 1, PAGE) if content[at]), 0)
    made = {8: lambda: [code, '00', '01', '02', '03'],
            9: lambda: [code, 1 + 2 * content[offset], PAGE - offset],
            10: lambda: said_of_station(data, p, content, offset),
            11: lambda: [],
            12: lambda: said_of_target(data, content, offset),
            14: lambda: [f'{content[behind]:02X}', behind],
            18: lambda: [1, '02']}
    return made[number]()


def said(data, refusal, asked):
    """The numbers that the sentence about this refusal has; `asked` is the station or number that was asked for."""
    number, *place = refusal
    if number in (6, 15):
        return [asked, 0, u16(data, 0) - 1]
    if number == 23:
        return [asked]
    return said_of_page(data, number, *place) if len(place) == 2 else said_of_heading(data, number, place)


def place_of(data, refusal):
    """The place as JSON has it, and where in the file it is."""
    number, *place = refusal
    if number == 5:
        return {'station': place[0], 'byte': 4 + place[0]}
    if len(place) == 2:
        return {'page': place[0], 'offset': place[1], 'byte': page_begins(data, place[0]) + place[1]}
    return {}


def rows_at_fault(data, refusal):
    """Where the bytes at fault begin, in their page or else in the file, and how many they are."""
    number, *place = refusal
    if len(place) < 2:
        return {2: [(0, 2)], 3: [(2, 2)], 5: [(4 + sum(place), 1)]}.get(number, [])
    code = page_of(data, place[0])[place[1]] if place[1] < PAGE else None
    length = 0 if code is None else min(1 + 2 * code, PAGE - place[1]) if code <= 3 else 1
    return [(place[1], length)]


def numbers_of_row(data, refusal, row, content):
    """The numbers that the words of a row have: those of a whole command, or what heading and directory say."""
    if len(refusal) == 2:
        return [row['at'] - 4, *content]
    if len(refusal) == 1:
        return [u16(content, 0)]
    is_behind = row['at'] > refusal[2]
    is_whole = content and content[0] <= 3 and len(content) == 1 + 2 * content[0]
    return [u16(content, 1 + 2 * k) for k in range(content[0])] if is_whole and not is_behind else []


def check_rows(label, data, refusal, rows):
    """Each row has bytes of the file and says what they are, and one stands behind the other."""
    begin = page_begins(data, refusal[1]) if len(refusal) == 3 else 0
    contents = [bytes.fromhex(row['bytes']) for row in rows]
    places = [row['at'] for row in rows]
    check(f'{label}, the bytes', contents,
          [data[begin + at:begin + at + len(content)] for at, content in zip(places, contents)])
    check(f'{label}, row by row', places[1:], [at + len(content) for at, content in zip(places, contents)][:-1])
    check(f'{label}, what the rows say', [numbers_in(row['words']) for row in rows],
          [[str(number) for number in numbers_of_row(data, refusal, row, content)]
           for row, content in zip(rows, contents)])
    check(f'{label}, at fault', [(row['at'], len(content)) for row, content in zip(rows, contents) if row['at_fault']],
          rows_at_fault(data, refusal))
    if len(refusal) == 3:
        before = len(commands_before(page_of(data, refusal[1]), refusal[2]))
        check(f'{label}, rows before', len([at for at in places if at < refusal[2]]), min(before, 3))


def check_refusal(label, data, refusal, found, asked=None):
    """A refusal in JSON: number, meaning, sentence, place and bytes."""
    label = f'{label}, refusal'
    check(f'{label}, number', found['number'], refusal[0])
    check(f'{label}, meaning', ABOUT[refusal[0]] in found['meaning'], True)
    check(f'{label}, sentence', numbers_in(found['here']), [str(number) for number in said(data, refusal, asked)])
    others = ('number', 'meaning', 'here', 'rows')
    check(f'{label}, place', {name: value for name, value in found.items() if name not in others},
          place_of(data, refusal))
    check_rows(label, data, refusal, found['rows'])


def refusal_text(found):
    """The text of a refusal that is given in JSON."""
    byte = f" (byte {found['byte']} of the file)" if 'byte' in found else ''
    lines = [f"refused {found['number']}: {found['meaning']}"]
    if 'page' in found:
        lines.append(f"  page {found['page']}, offset {found['offset']}{byte}")
    if 'station' in found:
        lines.append(f"  station {found['station']}{byte}")
    lines.append(f"  {found['here']}")
    for row in found['rows']:
        mark = '>' if row['at_fault'] else ' '
        lines.append(f"  {mark} {row['at']:>5}  {row['bytes']:<20}  {row['words']}")
    return '\n'.join(lines) + '\n'
