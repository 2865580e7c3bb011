"""Maps, byte by byte, as the generators of test cases write them: commands, pages and images, good or not."""
from reader import PAGE


def u16(number):
    return number.to_bytes(2, 'little')


def u32(number):
    return number.to_bytes(4, 'little')


def station(number):
    return b'\x01' + u16(number)


def move(target, time, limit=None):
    """A move without a limit, `02`, or with one, `03`."""
    if limit is None:
        return b'\x02' + u16(target) + u16(time)
    return b'\x03' + u16(target) + u16(time) + u16(limit)


def page(*parts):
    """The parts, and zeros to the end of the page."""
    data = b''.join(parts)
    assert len(data) <= PAGE
    return data + bytes(PAGE - len(data))


def image(directory, *pages, p=None):
    """An image; p stands in for the true page count."""
    p = len(pages) if p is None else p
    return u16(len(directory)) + u16(p) + bytes(directory) + b''.join(pages)
