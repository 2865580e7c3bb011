"""An independent reader of map images, written from document 01 ("Map image" and "What is turned down") and from
document 02, C-11 and C-15.

    parse(image)                        -> ('good', n, directory, pages) or a refusal 1 to 5
    whole_check(image)                  -> ('good',) or a refusal
    read_page(n, directory, p, page)    -> ('good', [(station, moves), ..]) or ('bad', number, offset)

A move is (target, time, limit), its limit None for `02`. A refusal is ('refused', number) for 1 to 4, ('refused', 5,
station), and ('refused', number, page, offset) for 8 to 12, 14 and 18.
"""

PAGE = 256

# "The lengths 1, 3, 5 stand in a constant table.", and "Command `03` .. (7 bytes)"
END, STATION, MOVE, LIMITED_MOVE = 0x00, 0x01, 0x02, 0x03
LENGTHS = {END: 1, STATION: 3, MOVE: 5, LIMITED_MOVE: 7}


def u16(data, at):
    # "Whole numbers are little-endian"
    return int.from_bytes(data[at:at + 2], 'little')


def parse(image):
    # 1 to 5, "tried in this order before any page"
    if len(image) < 4:
        return ('refused', 1)  # image under 4 bytes
    n, p = u16(image, 0), u16(image, 2)
    if not 1 <= n <= 2048:
        return ('refused', 2)  # N is 0 or over 2,048
    if not 1 <= p <= 240:
        return ('refused', 3)  # P is 0 or over 240
    if len(image) != 4 + n + PAGE * p:
        return ('refused', 4)  # wrong total length
    directory, body = image[4:4 + n], image[4 + n:]
    for station, page in enumerate(directory):
        if page >= p:
            return ('refused', 5, station)  # directory byte not below P (answer: lowest such station)
    return ('good', n, directory, [body[PAGE * k:PAGE * (k + 1)] for k in range(p)])


def read_page(n, directory, p, page):
    # "On a page, reading stops at the first command at fault and gives its offset."
    stations = [station for station in range(n) if directory[station] == p]
    content = []
    at = 0
    while at < PAGE:
        code = page[at]
        if code not in LENGTHS:
            return ('bad', 8, at)  # unknown code
        after = at + LENGTHS[code]
        if after > PAGE:
            return ('bad', 9, at)  # command passes byte 255
        missing = stations[len(content):]
        if code == STATION:
            station = u16(page, at + 1)
            if missing[:1] != [station]:
                return ('bad', 10, at)  # not the next station
            content.append((station, []))
        elif code in (MOVE, LIMITED_MOVE):  # "Command `03`, under all rules of `02`"
            if not content:
                return ('bad', 11, at)  # move before a station
            target, time = u16(page, at + 1), u16(page, at + 3)
            limit = u16(page, at + 5) if code == LIMITED_MOVE else None  # "`02` has no limit"
            station, moves = content[-1]  # "It belongs to the latest station."
            if target >= n or target == station or (moves and target <= moves[-1][0]):
                return ('bad', 12, at)  # target not below N, own station, or not rising
            # "Time 0 is accepted in `02` and `03`, so 13 no longer occurs.", and 18 is tried after 12
            if limit == 0:
                return ('bad', 18, at)  # "It refuses a limit of 0 with 18"
            moves.append((target, time, limit))
        else:
            if missing:
                return ('bad', 10, at)  # one missing at `00`
            if any(page[after:]):
                return ('bad', 14, at)  # byte not 00 after the end; the offset is that of the `00`
            return ('good', content)
        at = after
    return ('bad', 9, PAGE)  # no `00` (offset 256)


def whole_check(image):
    # "Whole check does 1 to 5, then the pages by rising number."
    parts = parse(image)
    if parts[0] != 'good':
        return parts
    _, n, directory, pages = parts
    for p, page in enumerate(pages):
        reading = read_page(n, directory, p, page)
        if reading[0] == 'bad':
            _, number, offset = reading
            return ('refused', number, p, offset)
    return ('good',)
