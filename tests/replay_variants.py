"""Replays that leave out or misread a part of document 02, C-20: where one of them answers otherwise, a case needs the
part.

    differences(call, names)    -> those of the names whose replays answer otherwise for a call of replay.py

VARIANTS has all of them by name: each has to answer otherwise in some case. One that breaks off, such as at an entry
past a table's end, answers otherwise too.
"""
from collections import Counter
from struct import pack, unpack

from replay import Replay, Store


class Variant(Replay):
    """A replay with other functions or data in place of some of its own, under the same names."""

    def __init__(self, **others):
        self.__dict__.update(others)


RIGHT = Replay()


def low_bits(bits):
    return lambda number: number % 2 ** bits


def signed(number):
    return number - 2 ** 32 if number >= 2 ** 31 else number


# Arguments

def with_argument(name, misread):
    """One of the arguments is taken as something else."""
    return Variant(taken=lambda call: call._replace(**{name: misread(getattr(call, name))}))


ARGUMENTS = {f'{name} in {bits} bits': with_argument(field, low_bits(bits))
             for name, field in (('P', 'pages'), ('F', 'frames')) for bits in (8, 16, 32)} | {
    f'D in {bits} bits': with_argument('threshold', low_bits(bits)) for bits in (8, 16, 31)} | {
    f'the first {count:,} entries of the list': with_argument('list', lambda pages, count=count: pages[:count])
    for count in (1, 255, 256, 32767, 65535, 65536)} | {
    'all entries but the first': with_argument('list', lambda pages: pages[1:]),
    'all entries but the last': with_argument('list', lambda pages: pages[:-1]),
    'one frame more': Variant(store_after=lambda call: RIGHT.store_after(call._replace(frames=call.frames + 1))),
    'one frame less': Variant(store_after=lambda call: RIGHT.store_after(call._replace(frames=call.frames - 1 or 1))),
    '64 frames at any F': Variant(store_after=lambda call: RIGHT.store_after(call._replace(frames=64))),
    'F over 32 as 32': with_argument('frames', lambda frames: min(frames, 32)),
    'F over 63 as 63': with_argument('frames', lambda frames: min(frames, 63)),
    'F over 64 as 64': with_argument('frames', lambda frames: min(frames, 64)),
    'F 0 as 1': with_argument('frames', lambda frames: frames or 1),
    'P over 240 as 240': with_argument('pages', lambda pages: min(pages, 240))}


# Refusals

def never(call):
    return False


def listed_below(most):
    """Tests the entries against a number of its own."""
    return Variant(is_bad_list=lambda call: any(page >= most for page in call.list))


def some_tested(part):
    """Tests a part of the entries."""
    return Variant(is_bad_list=lambda call: any(page >= call.pages for page in call.list[part]))


def table_length(wanted):
    return Variant(is_bad_table=lambda call: len(call.distances) != wanted(call.pages))


JUDGED = {
    'P 0 accepted': Variant(is_bad_page_count=lambda call: call.pages > 240),
    'P 1 refused': Variant(is_bad_page_count=lambda call: not 2 <= call.pages <= 240),
    'P 240 refused': Variant(is_bad_page_count=lambda call: not 1 <= call.pages < 240),
    'P 241 accepted': Variant(is_bad_page_count=lambda call: not 1 <= call.pages <= 241),
    'P up to 256': Variant(is_bad_page_count=lambda call: not 1 <= call.pages <= 256),
    'P of any number': Variant(is_bad_page_count=never),
    'F 0 accepted': Variant(is_bad_frame_count=lambda call: call.frames > 64),
    'F 1 refused': Variant(is_bad_frame_count=lambda call: not 2 <= call.frames <= 64),
    'F 64 refused': Variant(is_bad_frame_count=lambda call: not 1 <= call.frames < 64),
    'F 65 accepted': Variant(is_bad_frame_count=lambda call: not 1 <= call.frames <= 65),
    'F up to 240': Variant(is_bad_frame_count=lambda call: not 1 <= call.frames <= 240),
    'F of any number above 0': Variant(is_bad_frame_count=lambda call: call.frames == 0),
    'F above P refused': Variant(is_bad_frame_count=lambda call: not 1 <= call.frames <= min(call.pages, 64)),
    'F of P refused': Variant(is_bad_frame_count=lambda call: not 1 <= call.frames < min(call.pages, 65)),
    'entry P accepted': Variant(is_bad_list=lambda call: any(page > call.pages for page in call.list)),
    'entry P - 1 refused': Variant(is_bad_list=lambda call: any(page >= call.pages - 1 for page in call.list)),
    'entries below 240 accepted': listed_below(240),
    'entries below 255 accepted': listed_below(255),
    'entries untested': Variant(is_bad_list=never),
    'only the first entry tested': some_tested(slice(1)),
    'only the last entry tested': some_tested(slice(-1, None)),
    'the first entry untested': some_tested(slice(1, None)),
    'the last entry untested': some_tested(slice(-1)),
    'entries tested up to a frame count': Variant(is_bad_list=lambda call: any(
        page >= call.pages for page in call.list[:call.frames])),
    'empty list refused': Variant(is_bad_list=lambda call: not call.list or RIGHT.is_bad_list(call)),
    'shorter table accepted': Variant(is_bad_table=lambda call: len(call.distances) > call.pages ** 2),
    'longer table accepted': Variant(is_bad_table=lambda call: len(call.distances) < call.pages ** 2),
    'empty table accepted': Variant(is_bad_table=lambda call: call.distances and RIGHT.is_bad_table(call)),
    'table of any length': Variant(is_bad_table=never),
    'table of whole rows': Variant(is_bad_table=lambda call: call.pages and len(call.distances) % call.pages > 0),
    'table without a diagonal': table_length(lambda pages: pages * (pages - 1)),
    'table of a half': table_length(lambda pages: pages * (pages + 1) // 2),
    'table of a row': table_length(lambda pages: pages),
    'table of 57,600 for any P': table_length(lambda pages: 57600),
    'table with one entry more': table_length(lambda pages: pages * pages + 1),
    'length of the table in 8 bits': Variant(is_bad_table=lambda call: (len(call.distances) - call.pages ** 2) % 256),
    'length of the table in 16 bits': Variant(is_bad_table=lambda call: (
        len(call.distances) - call.pages ** 2) % 65536),
    'P·P in 8 bits': table_length(lambda pages: pages * pages % 256)} | {
    f'the first {count:,} entries tested': some_tested(slice(count)) for count in (64, 255, 256, 32767, 65535, 65536)}

NUMBERS = Replay.numbers
TOLD = {
    'F before P': Variant(order=('F', 'P', 'list', 'table')),
    'list before P': Variant(order=('list', 'P', 'F', 'table')),
    'table before P': Variant(order=('table', 'P', 'F', 'list')),
    '23 before 3': Variant(order=('F', 'list', 'table', 'P'))} | {
    f'{name} told as {number}': Variant(numbers=NUMBERS | {name: number})
    for name in NUMBERS for number in (3, 4, 23) if number != NUMBERS[name]}


# What is counted

class HitsAreReads(Replay):
    def hit(self, store, moment, page):
        store.reads += 1
        super().hit(store, moment, page)


class OnlyWherePagesLeave(Replay):
    """Pages that come into free frames are not counted."""

    def result(self, store):
        return store.reads - len(store.held)


class CountsHits(Replay):
    def result(self, store):
        return len(store.call.list) - store.reads


COUNTED = {
    'hits are reads too': HitsAreReads(),
    'only where pages leave': OnlyWherePagesLeave(),
    'hits in place of reads': CountsHits(),
    'without the first read': Variant(result=lambda store: max(store.reads - 1, 0)),
    'one read at least': Variant(result=lambda store: max(store.reads, 1)),
    'the different pages': Variant(result=lambda store: len(set(store.call.list)))} | {
    f'reads in {bits} bits': Variant(result=lambda store, bits=bits: store.reads % 2 ** bits) for bits in (8, 16)} | {
    'the one-page reads at any F': Variant(
        store_after=lambda call: RIGHT.store_after(call._replace(frames=1)))}


# What is held at first

class HoldsAtFirst(Replay):
    """The store is not empty at first: it holds a page that was never read."""

    def __init__(self, page):
        self.page = page

    def store_after(self, call):
        return super().store_after(call._replace(list=bytes([self.page]) + call.list)) if call.list else Store(call)

    def result(self, store):
        return max(store.reads - 1, 0)


class FirstPageInAllFrames(Replay):
    """The first page fills all frames, so that each further page sends one out."""

    def miss(self, store, moment, page):
        if not store.held:
            store.held = [page] * (store.call.frames - 1)
        super().miss(store, moment, page)


class ZeroIsFree(Replay):
    """A frame with page 0 counts as free."""

    def miss(self, store, moment, page):
        super().miss(store, moment, page)
        if page == 0:
            store.held.remove(0)


def pages_in(bits):
    """Pages are told apart by their low bits."""
    return Variant(store_after=lambda call: RIGHT.store_after(
        call._replace(list=bytes(page % 2 ** bits for page in call.list))))


HELD = {'page 0 held at first': HoldsAtFirst(0), 'page 1 held at first': HoldsAtFirst(1),
        'the first page in all frames': FirstPageInAllFrames(), 'a frame with page 0 is free': ZeroIsFree()} | {
    f'pages in {bits} bits': pages_in(bits) for bits in (5, 6, 7)}


# When a page leaves

class WhileFree(Replay):
    """As in the document's figure 3.1: at a miss a far page leaves though frames are free, and only if none is far do
    the frames have to be full. From the page before, as the request has it."""

    def miss(self, store, moment, page):
        far = self.far(store, moment, page) if store.held else []
        if far and len(store.held) < store.call.frames:
            store.held.remove(self.chosen(store, far))
        super().miss(store, moment, page)


class Figure(WhileFree):
    """The figure itself: distances from the page that is referred to."""

    def last_page(self, store, moment, page):
        return page


class AtHits(Replay):
    """A far page leaves at a hit too, once the frames are full; not the page that is hit."""

    def hit(self, store, moment, page):
        far = [other for other in self.far(store, moment, page) if other != page]
        if far and len(store.held) == store.call.frames:
            store.held.remove(self.chosen(store, far))
        super().hit(store, moment, page)


class AllFarLeave(Replay):
    """All far pages leave, not one."""

    def miss(self, store, moment, page):
        if len(store.held) == store.call.frames:
            far = self.far(store, moment, page)
            store.held = [other for other in store.held if other not in far]
        super().miss(store, moment, page)


class OneFrameKeptFree(Replay):
    """A page leaves once only one frame is free, behind the miss."""

    def miss(self, store, moment, page):
        super().miss(store, moment, page)
        if len(store.held) == store.call.frames > 1:
            store.held.remove(self.leaving(store, moment + 1, page))


class NoneLeaves(Replay):
    """If none is far, none leaves, and the store grows."""

    def miss(self, store, moment, page):
        if len(store.held) >= store.call.frames:
            far = self.far(store, moment, page)
            if not far:
                store.held.append(page)
                store.used[page] = moment
                store.reads += 1
                return
            while len(store.held) > store.call.frames:
                store.held.remove(self.leaving(store, moment, page))
        super().miss(store, moment, page)


class NotKept(Replay):
    """If none is far, the page is read and not kept."""

    def miss(self, store, moment, page):
        if len(store.held) == store.call.frames and not self.far(store, moment, page):
            store.reads += 1
            store.used[page] = moment
        else:
            super().miss(store, moment, page)


class Emptied(Replay):
    """If none is far, all leave."""

    def miss(self, store, moment, page):
        if len(store.held) == store.call.frames and not self.far(store, moment, page):
            store.held.clear()
        super().miss(store, moment, page)


class ComesFirst(Replay):
    """The page comes before one leaves, and so may leave at once."""

    def miss(self, store, moment, page):
        store.reads += 1
        store.held.append(page)
        store.used[page] = moment
        if len(store.held) > store.call.frames:
            store.held.remove(self.leaving(store, moment, page))


WHEN = {kind.__name__: kind() for kind in (
    WhileFree, Figure, AtHits, AllFarLeave, OneFrameKeptFree, NoneLeaves, NotKept, Emptied, ComesFirst)}


# From which page distances are measured

def from_page(last_page):
    return Variant(last_page=last_page)


def before(count):
    """The page so many references before the miss, the first if there are fewer."""
    return from_page(lambda store, moment, page: store.call.list[max(moment - count, 0)])


def last_other(store, moment, page):
    """The page referred to before the last one was, where that was referred to several times in a row."""
    pages = store.call.list
    back = moment - 1
    while back > 0 and pages[back] == pages[moment - 1]:
        back -= 1
    return pages[back]


class FromLastRead(Replay):
    """From the page last read, whatever was referred to since."""

    def last_page(self, store, moment, page):
        return store.held[-1]


FROM = {
    'from the page that misses': from_page(lambda store, moment, page: page),
    'from two references before': before(2),
    'from three references before': before(3),
    'from the page before the last': from_page(last_other),
    'from the page last read': FromLastRead(),
    'from the page held longest': from_page(lambda store, moment, page: store.held[0]),
    'from the least recently used': from_page(lambda store, moment, page: min(store.held, key=store.used.get)),
    'from the first page of the list': before(2 ** 32),
    'from page 0': from_page(lambda store, moment, page: 0)}


# Which distance is looked up

def looked_up(index):
    """Another place in the table, by P, the page last referred to and the page that may leave; 0 past the end."""
    def distance(call, last, page):
        at = index(call.pages, last, page)
        return call.distances[at] if at < len(call.distances) else 0
    return Variant(distance=distance)


def put_together(join):
    """Something of the distances of both directions, or of one of them."""
    return Variant(distance=lambda call, last, page: join(
        RIGHT.distance(call, last, page), RIGHT.distance(call, page, last), last, page))


def as_number(misread):
    return Variant(distance=lambda call, last, page: misread(RIGHT.distance(call, last, page)))


LOOKED_UP = {
    'by column': looked_up(lambda p, last, page: page * p + last),
    'rows of P - 1': looked_up(lambda p, last, page: last * (p - 1) + page),
    'rows of P + 1': looked_up(lambda p, last, page: last * (p + 1) + page),
    'rows of 240': looked_up(lambda p, last, page: last * 240 + page),
    'rows of 256': looked_up(lambda p, last, page: last * 256 + page),
    'rows from 1': looked_up(lambda p, last, page: (last - 1) * p + page if last else 0),
    'the next entry': looked_up(lambda p, last, page: last * p + page + 1),
    'the next row': looked_up(lambda p, last, page: (last + 1) * p + page),
    'the last row': looked_up(lambda p, last, page: (p - 1) * p + page),
    'the diagonal': looked_up(lambda p, last, page: page * p + page),
    'the lesser of both directions': put_together(lambda there, back, last, page: min(there, back)),
    'the greater of both directions': put_together(lambda there, back, last, page: max(there, back)),
    'the sum of both directions': put_together(lambda there, back, last, page: there + back),
    'the upper half': put_together(lambda there, back, last, page: there if last <= page else back),
    'the lower half': put_together(lambda there, back, last, page: there if last >= page else back),
    'no distance from a page to itself': put_together(
        lambda there, back, last, page: there if last != page else 0)} | {
    f'place in the table in {bits} bits': looked_up(lambda p, last, page, bits=bits: (last * p + page) % 2 ** bits)
    for bits in (8, 15)} | {
    f'row times P in {bits} bits': looked_up(lambda p, last, page, bits=bits: last * p % 2 ** bits + page)
    for bits in (8, 15)} | {
    f'distances in {bits} bits': as_number(low_bits(bits)) for bits in (8, 16, 24, 31)}


# What is far

def far_if(is_far):
    return Variant(is_far=lambda distance, call: is_far(distance, call.threshold))


def as_float(number):
    return unpack('f', pack('f', number))[0]


FAR = {
    'far from D on': far_if(lambda distance, threshold: distance >= threshold),
    'far above D + 1': far_if(lambda distance, threshold: distance > threshold + 1),
    'far below D': far_if(lambda distance, threshold: distance < threshold),
    'far if not D': far_if(lambda distance, threshold: distance != threshold),
    'far with a sign': far_if(lambda distance, threshold: signed(distance) > signed(threshold)),
    'far by the sign of the difference': far_if(
        lambda distance, threshold: signed((distance - threshold) % 2 ** 32) > 0),
    'D with a sign': far_if(lambda distance, threshold: distance > signed(threshold)),
    'distances with a sign': far_if(lambda distance, threshold: signed(distance) > threshold),
    'far by 32-bit floats': far_if(lambda distance, threshold: as_float(distance) > as_float(threshold)),
    'D 0 is plain least recently used': far_if(lambda distance, threshold: distance > threshold > 0),
    'distance 0 is far': far_if(lambda distance, threshold: distance == 0 or distance > threshold),
    '4,294,967,295 is never far': far_if(lambda distance, threshold: 2 ** 32 - 1 > distance > threshold),
    '4,294,967,295 is always far': far_if(
        lambda distance, threshold: distance == 2 ** 32 - 1 or distance > threshold)}


# Which page leaves

class Slots(Replay):
    """A page takes the frame of the one that left, and of several frames the first or last is chosen."""

    def __init__(self, place):
        self.place = place

    def miss(self, store, moment, page):
        if len(store.held) == store.call.frames:
            store.reads += 1
            store.held[store.held.index(self.leaving(store, moment, page))] = page
            store.used[page] = moment
        else:
            super().miss(store, moment, page)

    def chosen(self, store, pages):
        return pages[self.place]


class Farthest(Replay):
    """The farthest page leaves: of the far ones, or of all if none is, or of all in any case. Or the nearest. Of equals
    the least recently used."""

    def __init__(self, sign, is_of_all):
        self.sign, self.is_of_all = sign, is_of_all

    def leaving(self, store, moment, page):
        last = self.last_page(store, moment, page)
        far = self.far(store, moment, page)
        if not far and not self.is_of_all:
            return self.chosen(store, store.held)
        return min(store.held if self.is_of_all else far, key=lambda other: (
            -self.sign * self.distance(store.call, last, other), store.used[other]))


class WhereNoneIsFar(Replay):
    """Goes by the rule where a page is far, and by another choice if none is; or the other way round."""

    def __init__(self, other, is_for_far):
        self.other, self.is_for_far = other, is_for_far

    def leaving(self, store, moment, page):
        far = self.far(store, moment, page)
        choose = self.other if bool(far) == self.is_for_far else self.chosen
        return choose(store, far or store.held)


def least_often_used(store, pages):
    """By references to the page so far; of equals the least recently used."""
    counts = Counter(store.call.list[:1 + max(store.used.values())])
    return min(pages, key=lambda page: (counts[page], store.used[page]))


CHOICES = {
    'the most recently used': lambda store, pages: max(pages, key=store.used.get),
    # so it is too where a hit does not renew a page
    'the first that came': lambda store, pages: pages[0],
    'the last that came': lambda store, pages: pages[-1],
    'the least recently used but one': lambda store, pages: sorted(pages, key=store.used.get)[:2][-1],
    'the least often used': least_often_used,
    'the lowest page': lambda store, pages: min(pages),
    'the highest page': lambda store, pages: max(pages),
    'the first referred to in the list': lambda store, pages: min(pages, key=store.call.list.index),
    'by times in 8 bits': lambda store, pages: min(pages, key=lambda page: store.used[page] % 256),
    'by times in 16 bits': lambda store, pages: min(pages, key=lambda page: store.used[page] % 65536)}

CHOSEN = {name: Variant(chosen=choice) for name, choice in CHOICES.items()} | {
    f'{name}, if none is far': WhereNoneIsFar(choice, False) for name, choice in CHOICES.items()} | {
    f'{name}, if one is far': WhereNoneIsFar(choice, True) for name, choice in CHOICES.items()} | {
    'the first frame': Slots(0), 'the last frame': Slots(-1),
    'the farthest of the far': Farthest(1, False), 'the farthest of all': Farthest(1, True),
    'the nearest of the far': Farthest(-1, False), 'the nearest of all': Farthest(-1, True),
    'the near ones first': Variant(candidates=lambda far, held: [page for page in held if page not in far] or held),
    'any page, far or not': Variant(candidates=lambda far, held: held)}


# When a page was used

class OldTimeKept(Replay):
    """A page that comes back has the time of its last reference before until it is hit."""

    def miss(self, store, moment, page):
        time = store.used.get(page, moment)
        super().miss(store, moment, page)
        store.used[page] = time


class FarHitDoesNotRenew(Replay):
    """A hit on a page that is far from the one before does not renew it."""

    def hit(self, store, moment, page):
        if not self.is_far(self.distance(store.call, self.last_page(store, moment, page), page), store.call):
            super().hit(store, moment, page)


class NearHitDoesNotRenew(Replay):
    """A hit on a page that is near to the one before does not renew it."""

    def hit(self, store, moment, page):
        if self.is_far(self.distance(store.call, self.last_page(store, moment, page), page), store.call):
            super().hit(store, moment, page)


USED = {kind.__name__: kind() for kind in (OldTimeKept, FarHitDoesNotRenew, NearHitDoesNotRenew)}

GROUPS = (ARGUMENTS, JUDGED, TOLD, COUNTED, HELD, WHEN, FROM, LOOKED_UP, FAR, CHOSEN, USED)
VARIANTS = {name: replay for group in GROUPS for name, replay in group.items()}
assert len(VARIANTS) == sum(map(len, GROUPS))


def answer_of(replay, call):
    try:
        return replay.answer(call)
    except (IndexError, ValueError, ZeroDivisionError):
        return ('broken off',)


def differences(call, names):
    ours = RIGHT.answer(call)
    return [name for name in names if answer_of(VARIANTS[name], call) != ours]
