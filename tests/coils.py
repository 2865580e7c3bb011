"""What the program `coils` prints, written from document 01, "Route, whole check, program", and document 02, C-11 and
C-14.

    printed(file, data)    -> the whole output, for the bytes of `yard.map` (None: it can't be opened) and of the input
"""
from searches import df

LONGEST = 63492
RECORD = 8
ROOM = (2048,) * 5  # tables with an entry for each station of the largest map


def image_of(file):
    # "a file that can't be opened is empty; past 63,492 bytes it counts as 63,493 long"
    return b'' if file is None else file[:LONGEST + 1]


def fields(record):
    # "u32 coil, u16 length in decimetres, u16 station"; "Whole numbers are little-endian"
    return [int.from_bytes(record[begin:end], 'little') for begin, end in ((0, 4), (4, 6), (6, 8))]


def line(image, record):
    coil, length, station = fields(record)
    # "the rule that length has no bearing on the way is withdrawn"
    answer = df(image, station, length, ROOM).answer
    if answer[0] == 'refused':
        # "at every refusal only coil and refusal number"
        return f'coil {coil} refused {answer[1]}\n'
    _, count, reached = answer
    return f'coil {coil} length {length} from {station} pages {count} reached {reached}\n'


def printed(file, data):
    image = image_of(file)
    whole = len(data) // RECORD * RECORD
    lines = [line(image, data[at:at + RECORD]) for at in range(0, whole, RECORD)]
    # "One to seven bytes left over print a last line `short`."
    if whole < len(data):
        lines.append('short\n')
    return ''.join(lines).encode('ascii')
