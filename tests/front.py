"""Vectors for header, directories, profile and the arrival of blocks, and what docs/SPECIFICATION.md says of each.

The model is written from its rules (groups 2 and 3; 5.1, 5.2 and 8.2) on whole lists and unbounded numbers. It
follows no code of this repository: a group of bytes is looked at byte by byte, a directory is a list of
entries that is judged as a whole, and blocks are counted by laying them out, so that an error of the code's
places, tests of sizes and divisions can't be repeated here.
"""
import collections
import struct

from common import TOP, Draw, record_of

Limits = collections.namedtuple('Limits', 'input output dimension directories tags segments')
Record = collections.namedtuple('Record', 'tag page limits budget file blocks')
Range = collections.namedtuple('Range', 'tag start count size blocks')

# ---- model ----

class Refused(Exception):
    """A check that is not met, with its number."""

SLOTS = (256, 257, 258, 259, 262, 266, 273, 274, 277, 278, 279, 284, 317, 322, 323, 324, 325, 338, 339)
# The slots of one number, and what it is where there is no entry (rules 2.10 and 3.1).
SCALARS = {0: 0, 1: 0, 3: 1, 4: 0, 5: 1, 7: 1, 8: 1, 9: 4294967295, 11: 1, 12: 1, 13: 0, 14: 0, 17: 0}
# How many bytes a value of each type has.
SIZES = {3: 2, 4: 4}

# The heads (rule 3.9): slots 4 and 8, of which the second is the channels, and p and b.
Head = collections.namedtuple('Head', 'photometric channels planes bytes')
HEADS = COLOUR, MONO = Head(32845, 3, 4, 6), Head(32844, 1, 2, 2)

# How a record says which: by a number.
def head_of(which):
    return MONO if which == 1 else COLOUR

Entry = collections.namedtuple('Entry', 'place tag kind count field')
Format = collections.namedtuple('Format', 'width height tiled block_width block_height across segments output order offsets counts entries head')

# Arrival (rules 2.1, 8.2 and 8.3): a byte came if its block did, and all came where nothing is said of any block.
def came(blocks, place):
    if len(blocks) == 0:
        return True
    return place // 512 < len(blocks) and blocks[place // 512] == 1

def reach(size, blocks, start, count):
    if start + count > size:
        return 'outside'
    if not all(came(blocks, place) for place in range(start, start + count)):
        return 'missing'
    return 'inside'

class Reading:
    """A file as it came, the order of its numbers and the units that are left."""
    def __init__(self, file, blocks, left):
        self.file, self.blocks, self.left, self.order = file, blocks, left, None

    def part(self, start, count):
        where = reach(len(self.file), self.blocks, start, count)
        if where == 'outside':
            raise Refused(1)
        if where == 'missing':
            raise Refused(8)
        return self.file[start:start + count]

    def number(self, part):
        return int.from_bytes(part, self.order)

    def charge(self, units):
        if units > self.left:
            raise Refused(7)
        self.left -= units

# Limits that are tested before any byte is looked at (rule 2.2).
def limited(size, page, limits):
    if size > limits.input:
        raise Refused(4)
    if page >= limits.directories:
        raise Refused(4)

# Header (rules 2.3 to 2.5): it sets the order, and says where the first directory is.
def header(r):
    head = r.part(0, 8)
    mark = head[:4]
    if mark == b'II*\x00':
        r.order = 'little'
    elif mark == b'MM\x00*':
        r.order = 'big'
    elif mark in (b'II+\x00', b'MM\x00+'):
        raise Refused(3)
    else:
        raise Refused(2)
    return r.number(head[4:8])

def entry(r, place, part):
    return Entry(place, r.number(part[0:2]), r.number(part[2:4]), r.number(part[4:8]), part[8:12])

# Directory (rule 2.7): its known entries by slot, how many entries there are in all, and where the next one is.
def directory(r, at, limits):
    n = r.number(r.part(at, 2))
    if n == 0:
        raise Refused(2)
    if n > limits.tags:
        raise Refused(4)
    body = r.part(at + 2, 12 * n + 4)
    r.charge(n + 1)
    entries = [entry(r, at + 2 + 12 * i, body[12 * i:12 * i + 12]) for i in range(n)]
    known = [e for e in entries if e.tag in SLOTS]
    if any(e.kind == 0 for e in known):
        raise Refused(2)
    if len(set(e.tag for e in known)) < len(known):
        raise Refused(2)
    return {SLOTS.index(e.tag): e for e in known}, n, r.number(body[12 * n:12 * n + 4])

def directories(r, page, limits):
    at = header(r)
    for turn in range(page + 1):
        if at == 0:
            raise Refused(5)
        slots, n, at = directory(r, at, limits)
    return slots, n

# Profile, first step (rule 3.1): all numbers that stand alone.
def scalars(r, slots):
    values = {}
    for slot, default in SCALARS.items():
        e = slots.get(slot)
        if e is None:
            values[slot] = default
            continue
        if e.kind not in SIZES:
            raise Refused(2)
        if e.count != 1:
            raise Refused(2)
        values[slot] = r.number(e.field[:SIZES[e.kind]])
    return values

# Value k of an array (rules 2.12 and 2.13). Where all fit into the field they stand there.
def value(r, array, k):
    size = SIZES[array.kind]
    if size * array.count <= 4:
        return r.number(array.field[size * k:size * (k + 1)])
    return r.number(r.part(r.number(array.field) + size * k, size))

# Profile, fourth step (rule 3.4): values of one number, as many as the head has channels.
def alike(r, e, n, wanted):
    if e is None or e.kind not in SIZES or e.count != n:
        raise Refused(3)
    for k in range(n):
        if value(r, e, k) != wanted:
            raise Refused(3)

def picture(r, page, limits):
    slots, n = directories(r, page, limits)
    r.charge(128)
    slot = scalars(r, slots)
    width, height = slot[0], slot[1]
    if width < 1 or width > limits.dimension:
        raise Refused(3)
    if height < 1 or height > limits.dimension:
        raise Refused(3)
    if slot[3] != 34676:
        raise Refused(3)
    heads = [h for h in HEADS if slot[4] == h.photometric and slot[8] == h.channels]
    if not heads:
        raise Refused(3)
    head = heads[0]
    if slot[5] != 1 or slot[7] != 1 or slot[11] != 1 or slot[12] != 1:
        raise Refused(3)
    if 17 in slots:
        raise Refused(3)
    alike(r, slots.get(2), head.channels, 16)
    alike(r, slots.get(18), head.channels, 2)
    tiled = 15 in slots
    block_width = slot[13] if tiled else width
    block_height = slot[14] if tiled else min(slot[9], height)
    if block_width < 1 or block_width > 16384:
        raise Refused(3)
    if block_height < 1 or block_height > 16384:
        raise Refused(3)
    if tiled and (6 in slots or 10 in slots):
        raise Refused(2)
    if tiled and (block_width % 16 > 0 or block_height % 16 > 0):
        raise Refused(2)
    if not tiled and (13 in slots or 14 in slots or 16 in slots):
        raise Refused(2)
    across, down = len(range(0, width, block_width)), len(range(0, height, block_height))
    segments, output = across * down, head.bytes * width * height
    if segments > limits.segments:
        raise Refused(4)
    if output > limits.output:
        raise Refused(4)
    offsets, counts = (slots.get(15), slots.get(16)) if tiled else (slots.get(6), slots.get(10))
    for array in (offsets, counts):
        if array is None:
            raise Refused(2)
        if array.kind not in SIZES:
            raise Refused(2)
        if array.count != segments:
            raise Refused(2)
    return Format(width, height, tiled, block_width, block_height, across, segments, output, r.order, offsets, counts, n, head)

# What the program writes of a picture's sizes, of its format, and of a record.
def sizes_of(f):
    return ' %d x %d, %s %d x %d, %d across, %d segments, %d bytes, %d channels' % (
        f.width, f.height, 'tiles' if f.tiled else 'strips', f.block_width, f.block_height, f.across, f.segments, f.output, f.head.channels)

def format_of(f):
    return '%s, %s, offsets %d, counts %d, entries %d' % (sizes_of(f), f.order, f.offsets.place, f.counts.place, f.entries)

def line(kind, record):
    if kind == 'range':
        return '%-16s %s' % (record.tag, reach(record.size, record.blocks, record.start, record.count))
    r = Reading(record.file, record.blocks, record.budget)
    try:
        limited(len(record.file), record.page, record.limits)
        said = format_of(picture(r, record.page, record.limits))
    except Refused as why:
        said = ' refused %d' % why.args[0]
    return '%-16s%s, left %d' % (record.tag, said, r.left)

# ---- end of the model ----

# ---- a writer of files ----

GARBAGE = b'\xab\xcd'   # stands where no one may look: in the rest of a field, between the parts of a file

def tiff(pages, big=False, first=None, size=None):
    """A file of pages (place, entries, next offset). An entry is (tag, type, count, value): bytes are the field
    itself, a number is written into it, a list too where it fits, else it is put behind the directory, a pair (place, list)
    always at its place."""
    order, file = '>' if big else '<', bytearray()

    def put(at, part):
        file.extend((GARBAGE * (at + len(part)))[len(file):at + len(part)])
        file[at:at + len(part)] = part
        return at + len(part)

    def field(kind, count, value, free):
        if isinstance(value, bytes):
            return value, free
        if isinstance(value, (list, tuple)):
            place, items = (free, value) if isinstance(value, list) else value
            part = b''.join(struct.pack(order + ('I' if kind == 4 else 'H'), x) for x in items)
            if isinstance(value, list) and len(part) <= 4:
                return (part + GARBAGE)[:4], free
            end = put(place, part)
            return struct.pack(order + 'I', place), end if place == free else free
        if kind == 3 and count == 1:
            return struct.pack(order + 'H', value) + GARBAGE, free
        return struct.pack(order + 'I', value), free

    put(0, (b'MM\x00*' if big else b'II*\x00') + struct.pack(order + 'I', pages[0][0] if first is None else first))
    for at, entries, after in pages:
        body, free = b'', at + 2 + 12 * len(entries) + 4
        for tag, kind, count, value in entries:
            part, free = field(kind, count, value, free)
            body += struct.pack(order + 'HHI', tag, kind, count) + part
        put(at, struct.pack(order + 'H', len(entries)) + body + struct.pack(order + 'I', after))
    if size is not None:
        put(size, b'')
    return bytes(file[:size])

# The entries of a small picture in strips, and of one in tiles. Nobody looks here at what their arrays hold.
STRIPS = ((256, 3, 1, 3), (257, 3, 1, 5), (258, 3, 3, [16] * 3), (259, 3, 1, 34676), (262, 3, 1, 32845), (273, 4, 3, 0),
          (277, 3, 1, 3), (278, 3, 1, 2), (279, 4, 3, 0), (339, 3, 3, [2] * 3))
TILES = ((256, 3, 1, 17), (257, 3, 1, 5), (258, 3, 3, [16] * 3), (259, 3, 1, 34676), (262, 3, 1, 32845), (277, 3, 1, 3),
         (322, 3, 1, 16), (323, 3, 1, 16), (324, 4, 2, 0), (325, 4, 2, 0), (339, 3, 3, [2] * 3))
NOTE = (305, 2, 1, 0)   # an entry that nobody knows

def of_head(head):
    """The entries in which a picture of one head differs from one of the other."""
    n = head.channels
    return (258, 3, n, [16] * n), (262, 3, 1, head.photometric), (277, 3, 1, n), (339, 3, n, [2] * n)

LIMITS = Limits(input=4096, output=100000, dimension=20000, directories=4, tags=50, segments=1000)
WIDE = dict(input=TOP, output=TOP, dimension=TOP, directories=TOP, tags=TOP, segments=TOP)

def but(entries, *changes):
    """The entries with some put in the place of those with their tag, and those of a bare tag left out."""
    for change in changes:
        bare = isinstance(change, int)
        entries = [e for e in entries if e[0] != (change if bare else change[0])] + ([] if bare else [change])
    return sorted(entries, key=lambda e: e[0])

def record(tag, file, page=0, budget=1000, blocks=b'', **limits):
    return Record(tag, page, LIMITS._replace(**limits), budget, bytes(file), bytes(blocks))

def strips(tag, *changes, big=False, **rest):
    return record(tag, tiff([(8, but(STRIPS, *changes), 0)], big), **rest)

def tiles(tag, *changes, big=False, **rest):
    return record(tag, tiff([(8, but(TILES, *changes), 0)], big), **rest)

def mono_strips(tag, *changes, **rest):
    return strips(tag, *of_head(MONO), *changes, **rest)

def mono_tiles(tag, *changes, **rest):
    return tiles(tag, *of_head(MONO), *changes, **rest)

# ---- vectors ----

LITTLE, BIG = tiff([(8, STRIPS, 0)]), tiff([(8, STRIPS, 0)], True)

def patched(file, at, part):
    return file[:at] + bytes(part) + file[at + len(part):]

def headers():
    yield record('little', LITTLE)
    yield record('big', BIG)
    # too short for a header, whatever stands in it
    for n in range(8):
        yield record('cut-%d' % n, (BIG if n % 2 else LITTLE)[:n])
    yield record('cut-8', LITTLE[:8])
    yield record('cut-9', BIG[:9])
    yield record('cut-7-bad-mark', b'?' * 7)
    yield record('cut-7-64-bit', b'II+\x00\x08\x00\x00')
    yield record('8-first-0', b'II*\x00\x00\x00\x00\x00')
    yield record('8-bad-mark', b'?' * 8)
    yield record('8-64-bit', b'MM\x00+\x00\x00\x00\x08')
    # marks
    for name, mark in (('II+0', b'II+\x00'), ('MM0+', b'MM\x00+'), ('II0*', b'II\x00*'), ('MM*0', b'MM*\x00'), ('IM*0', b'IM*\x00'),
                       ('MI*0', b'MI*\x00'), ('IM0*', b'IM\x00*'), ('MI0*', b'MI\x00*'), ('II0+', b'II\x00+'), ('MM+0', b'MM+\x00'),
                       ('ii*0', b'ii*\x00'), ('mm0*', b'mm\x00*'), ('II,0', b'II,\x00'), ('MM0,', b'MM\x00,'), ('II*1', b'II*\x01'),
                       ('MM1*', b'MM\x01*'), ('II**', b'II**'), ('MM00', b'MM\x00\x00'), ('II00', b'II\x00\x00'), ('II+1', b'II+\x01'),
                       ('MM1+', b'MM\x01+'), ('IM+0', b'IM+\x00'), ('0000', b'\x00' * 4), ('MI0+', b'MI\x00+'), ('II)0', b'II)\x00')):
        yield record('mark-' + name, patched(BIG if mark[1:2] == b'M' else LITTLE, 0, mark))
    # the first offset: 0, and each of its bytes
    for big in (False, True):
        s = 'b' if big else 'l'
        yield record('first-0-' + s, tiff([(8, STRIPS, 0)], big, first=0))
        yield record('first-264-' + s, tiff([(264, STRIPS, 0)], big))
        yield record('first-2^16-' + s, tiff([(8, STRIPS, 0)], big, first=65536 + 8))
        yield record('first-2^24-' + s, tiff([(8, STRIPS, 0)], big, first=2 ** 24 + 8))
        yield record('first-hi-' + s, tiff([(8, STRIPS, 0)], big, first=2 ** 24))
        yield record('first-top-' + s, tiff([(8, STRIPS, 0)], big, first=2 ** 32 - 1))
    yield record('first-0-bad', patched(tiff([(8, STRIPS, 0)], first=0), 0, b'II0\x00'))
    yield record('first-0-64-bit', patched(tiff([(8, STRIPS, 0)], first=0), 0, b'II+\x00'))
    yield record('first-0-page-1', tiff([(8, STRIPS, 0)], first=0), page=1)
    yield record('first-0-budget-0', tiff([(8, STRIPS, 0)], first=0), budget=0)
    # the input's length
    size = len(LITTLE)
    yield record('input-exact', LITTLE, input=size)
    yield record('input-more', LITTLE, input=size - 1)
    yield record('input-0', LITTLE, input=0)
    yield record('input-top', LITTLE, input=TOP)
    yield record('input-empty-0', b'', input=0)
    yield record('input-short-4', b'II*', input=2)
    yield record('input-7-of-7', LITTLE[:7], input=7)
    yield record('input-bad-mark', patched(LITTLE, 0, b'?'), input=size - 1)
    yield record('input-units', LITTLE, input=size - 1, budget=TOP)
    # the page's number
    yield record('page-below', LITTLE, page=0, directories=1)
    yield record('page-at', LITTLE, page=1, directories=1)
    yield record('page-0-of-0', LITTLE, page=0, directories=0)
    yield record('page-above', LITTLE, page=5, directories=4)
    yield record('page-top', LITTLE, page=TOP, directories=TOP)
    yield record('page-top-1', LITTLE, page=TOP - 1, directories=TOP)
    yield record('page-top-dirs-1', LITTLE, page=TOP, directories=1)
    yield record('page-and-empty', b'', page=4)
    yield record('page-and-7', LITTLE[:7], page=4)
    yield record('page-and-mark', patched(LITTLE, 0, b'?'), page=4)
    yield record('page-units', LITTLE, page=4, budget=77)
    yield record('page-7-3', b'?' * 7, page=3)
    # every limit at the top
    yield record('all-top', LITTLE, budget=TOP, **WIDE)
    yield record('all-0', LITTLE, 0, 0, input=0, output=0, dimension=0, directories=0, tags=0, segments=0)

def places():
    # a directory in the last bytes of the file, and beyond them
    for big in (False, True):
        s = 'b' if big else 'l'
        last = tiff([(20, but(STRIPS, (258, 3, 3, (8, [16] * 3)), (339, 3, 3, (14, [2] * 3))), 0)], big)
        yield record('dir-last-' + s, last)
        yield record('dir-cut-1-' + s, last[:-1])
        yield record('dir-cut-4-' + s, last[:-4])
        yield record('dir-cut-5-' + s, last[:-5])
        yield record('dir-cut-body-' + s, last[:22])
        yield record('dir-cut-count-' + s, last[:21])
        yield record('dir-cut-all-' + s, last[:20])
        yield record('dir-cut-more-' + s, last[:19])
        yield record('dir-one-more-' + s, last + b'\x00')
    yield record('dir-least', tiff([(8, [NOTE], 0)]))
    yield record('dir-least-cut', tiff([(8, [NOTE], 0)])[:-1])
    # a count of its own, in the last two bytes
    for name, n in (('0', 0), ('1', 1), ('50', 50), ('51', 51), ('65535', 65535)):
        yield record('last-n-' + name, b'II*\x00\x08\x00\x00\x00' + struct.pack('<H', n))
        yield record('last-n-' + name + '-b', b'MM\x00*\x00\x00\x00\x08' + struct.pack('>H', n), tags=65535)
    # places near the largest number of four bytes
    for k in (1, 2, 3, 4, 5, 6, 7, 8, 10, 12, 14, 18, 126):
        yield record('dir-at-top-%d' % k, tiff([(8, STRIPS, 0)], k % 2 == 1, first=2 ** 32 - k))
    for k in (1, 2, 6, 126):
        yield record('next-at-top-%d' % k, tiff([(8, STRIPS, 2 ** 32 - k)], k % 2 == 0), page=1)
    yield record('next-2^16', tiff([(8, STRIPS, 65536 + 8)]), page=1)
    yield record('next-2^24-b', tiff([(8, STRIPS, 2 ** 24 + 8)], True), page=1)
    yield record('next-2^24-0', tiff([(8, STRIPS, 2 ** 24)]), page=1)
    # inside the header, and at odd places
    for big in (False, True):
        s = 'b' if big else 'l'
        # the count, 42, is of the mark, and the first entry's tag and type are the offset
        own = [(0, 2, 0, 0) if big else (2, 0, 0, 0)] + list(STRIPS) + [(5000 + i, 0, i, i) for i in range(31)]
        yield record('dir-at-2-' + s, tiff([(2, own, 0)], big))
        yield record('dir-at-2-42-' + s, tiff([(2, own, 0)], big), tags=42)
        yield record('dir-at-2-41-' + s, tiff([(2, own, 0)], big), tags=41)
        yield record('dir-at-1-' + s, tiff([(8, STRIPS, 0)], big, first=1))
        yield record('dir-at-3-' + s, tiff([(8, STRIPS, 0)], big, first=3), tags=TOP)
        yield record('dir-at-4-' + s, tiff([(8, STRIPS, 0)], big, first=4))
        yield record('dir-at-6-' + s, tiff([(8, STRIPS, 0)], big, first=6), tags=TOP)
        yield record('dir-at-9-' + s, tiff([(9, STRIPS, 0)], big))
        yield record('dir-at-33-' + s, tiff([(33, TILES, 0)], big))

def counts():
    # how many entries there are, against max_tags
    yield record('tags-exact', LITTLE, tags=10)
    yield record('tags-above', LITTLE, tags=9)
    yield record('tags-above-b', BIG, tags=9)
    yield record('tags-top', LITTLE, tags=TOP)
    yield record('tags-0', LITTLE, tags=0)
    yield record('tags-1', tiff([(8, [NOTE], 0)]), tags=1)
    yield record('tags-0-of-0', patched(LITTLE, 8, b'\x00\x00'), tags=0)
    yield record('count-0', patched(LITTLE, 8, b'\x00\x00'))
    yield record('count-0-budget-0', patched(BIG, 8, b'\x00\x00'), budget=0)
    yield record('count-65535', patched(LITTLE, 8, b'\xff\xff'), tags=65535)
    yield record('count-65535-4', patched(BIG, 8, b'\xff\xff'), tags=65534)
    yield record('count-65535-top', patched(BIG, 8, b'\xff\xff'), tags=TOP)
    yield record('count-256', patched(LITTLE, 8, b'\x00\x01'), tags=256)
    yield record('count-256-4', patched(LITTLE, 8, b'\x00\x01'), tags=255)
    yield record('count-1-of-256', patched(BIG, 8, b'\x01\x00'), tags=255)
    yield record('count-11', patched(LITTLE, 8, b'\x0b\x00'))
    yield record('count-9', patched(LITTLE, 8, b'\x09\x00'))
    yield record('count-12-outside', patched(LITTLE, 8, b'\x0c\x00'))
    yield record('outside-and-7', patched(LITTLE, 8, b'\x0c\x00'), budget=0)
    yield record('tags-and-outside', patched(LITTLE, 8, b'\x0c\x00'), tags=11)
    yield record('tags-and-7', LITTLE, tags=9, budget=0)
    yield record('full-50', tiff([(8, list(STRIPS) + [(5000 + i, 0, i, i) for i in range(40)], 0)]))
    yield record('full-51', tiff([(8, list(STRIPS) + [(5000 + i, 0, i, i) for i in range(41)], 0)]))

def tags():
    # order is free, and what nobody knows is passed over
    yield record('order-reversed', tiff([(8, STRIPS[::-1], 0)]))
    yield record('order-reversed-b', tiff([(8, TILES[::-1], 0)], True))
    yield record('order-mixed', tiff([(8, STRIPS[5:] + STRIPS[:5], 0)]))
    yield record('order-mixed-t', tiff([(8, TILES[3::4] + TILES[2::4] + TILES[1::4] + TILES[::4], 0)]))
    strange = [(tag, 0, 0, 0) for tag in (0, 1, 255, 260, 261, 263, 265, 267, 272, 275, 276, 280, 283, 285, 316, 318, 321, 326, 337,
                                           340, 512, 513, 514, 528, 1, 255, 340, 65535, 65535, 32768)]
    yield record('unknown-last', tiff([(8, list(STRIPS) + strange, 0)]))
    yield record('unknown-first', tiff([(8, strange + list(TILES), 0)], True))
    between = [e for pair in zip(STRIPS, strange) for e in pair]
    yield record('unknown-between', tiff([(8, between, 0)]))
    yield record('unknown-twice', tiff([(8, [NOTE, NOTE] + list(STRIPS) + [NOTE], 0)]))
    yield record('unknown-type-0', tiff([(8, [(305, 0, 1, 0)] + list(STRIPS), 0)]))
    yield record('unknown-types', tiff([(8, list(STRIPS) + [(700, kind, 1, 0) for kind in (0, 1, 2, 3, 4, 5, 13, 65535)], 0)], True))
    # a known one twice, and with type 0; the units left tell that no profile was looked at
    spare = {266: (266, 3, 1, 1), 274: (274, 3, 1, 1), 284: (284, 3, 1, 1), 317: (317, 3, 1, 1), 322: (322, 3, 1, 16), 323: (323, 3, 1, 16),
             324: (324, 4, 2, 0), 325: (325, 4, 2, 0), 338: (338, 3, 1, 0)}
    for slot, tag in enumerate(SLOTS):
        own = ([e for e in STRIPS if e[0] == tag] or [spare[tag]])[0]
        base = but(STRIPS, own)
        yield record('twice-%d' % tag, tiff([(8, base + [own] if slot % 2 else [own] + base, 0)], slot % 4 < 2))
        yield record('type-0-%d' % tag, tiff([(8, but(STRIPS, (tag, 0) + own[2:]), 0)], slot % 4 > 1))
    yield record('twice-one-bad', tiff([(8, list(STRIPS) + [(256, 7, 9, 0)], 0)]))
    yield record('twice-first-bad', tiff([(8, [(256, 7, 9, 0)] + list(STRIPS), 0)]))
    yield record('twice-near', tiff([(8, STRIPS[:1] + STRIPS[:1] + STRIPS[1:], 0)]))
    yield record('thrice', tiff([(8, STRIPS[:1] * 3 + STRIPS[1:], 0)]))
    yield record('type-0-count-0', tiff([(8, but(STRIPS, (256, 0, 0, 0)), 0)]))
    yield record('type-0-last', tiff([(8, STRIPS[:9] + ((339, 0, 3, 0),), 0)]))
    yield record('type-256', tiff([(8, but(STRIPS, (273, 256, 3, 0)), 0)]))
    yield record('type-768', tiff([(8, but(STRIPS, (277, 768, 1, 3)), 0)], True))
    yield record('tag-low-byte', tiff([(8, but(STRIPS, 256) + [(1, 3, 1, 3)], 0)]))
    yield record('tag-swapped', tiff([(8, but(STRIPS, 262) + [(0x0601, 3, 1, 32845)], 0)], True))

def chained(entries, spare, afters=None):
    """Some directories one after the other, each of its own length, the last with the entries given."""
    pages, at = [], 8
    for i in range(spare):
        own = [(600 + i, 0, 0, 0)] * (i + 1)
        pages.append([at, own, 0])
        at += 2 + 12 * len(own) + 4
    pages.append([at, entries, 0])
    for i in range(spare):
        pages[i][2] = pages[i + 1][0]
    for i, after in (afters or {}).items():
        pages[i][2] = after
    return [tuple(p) for p in pages]

def pages():
    two = chained(STRIPS, 1)
    for big in (False, True):
        s = 'b' if big else 'l'
        yield record('second-' + s, tiff(two, big), page=1)
        yield record('second-first-' + s, tiff(two, big), page=0)
        yield record('second-third-' + s, tiff(two, big), page=2)
        yield record('fourth-' + s, tiff(chained(TILES, 3), big), page=3)
        yield record('fourth-at-max-' + s, tiff(chained(TILES, 3), big), page=3, directories=3)
        yield record('end-before-' + s, tiff([(8, STRIPS, 0)], big), page=1)
        yield record('loop-self-' + s, tiff([(8, STRIPS, 8)], big), page=3)
        yield record('loop-self-0-' + s, tiff([(8, STRIPS, 8)], big), page=0)
    yield record('end-before-3', tiff(chained(STRIPS, 1)), page=3)
    yield record('end-and-loop', tiff(chained(STRIPS, 2, afters={1: 0})), page=2)
    # each turn of a loop is charged
    yield record('loop-at-max', tiff([(8, STRIPS, 8)]), page=4)
    yield record('loop-long', tiff([(8, STRIPS, 8)]), page=50, directories=51)
    yield record('loop-long-7', tiff([(8, STRIPS, 8)]), page=90, directories=91)
    yield record('loop-exact', tiff([(8, STRIPS, 8)]), page=9, directories=10, budget=238)
    yield record('loop-short-1', tiff([(8, STRIPS, 8)]), page=9, directories=10, budget=237)
    yield record('loop-short-dirs', tiff([(8, STRIPS, 8)]), page=9, directories=10, budget=109)
    yield record('loop-exact-dirs', tiff([(8, STRIPS, 8)]), page=9, directories=10, budget=110)
    yield record('loop-endless', tiff([(8, STRIPS, 8)]), page=TOP - 1, directories=TOP)
    yield record('loop-back', tiff(chained(STRIPS, 2, afters={2: 8})), page=2)
    yield record('loop-back-3', tiff(chained(STRIPS, 2, afters={2: 8})), page=3)
    yield record('loop-back-5', tiff(chained(STRIPS, 2, afters={2: 8})), page=5, directories=6)
    yield record('loop-backwards', tiff([(200, [NOTE], 8), (8, STRIPS, 0)]), page=1)
    yield record('overlap', tiff([(8, STRIPS, 130)], size=146), page=1)
    # one page has nothing of another
    yield record('own-only', tiff([(8, STRIPS, 160), (160, but(STRIPS, 256), 0)]), page=1)
    yield record('own-values', tiff([(8, STRIPS, 160), (160, but(TILES, (256, 3, 1, 40), (324, 4, 3, 0), (325, 4, 3, 0)), 0)]), page=1)
    yield record('own-values-0', tiff([(8, STRIPS, 160), (160, TILES, 0)]), page=0)
    yield record('own-tiles', tiff([(8, TILES, 160), (160, STRIPS, 0)]), page=1)
    yield record('own-next-any', tiff([(8, STRIPS, 2 ** 32 - 1)]), page=0)
    yield record('own-twice', tiff([(8, [STRIPS[0]], 30), (30, STRIPS, 0)]), page=1)
    # what is wrong with an earlier directory, and with a later one
    def after_bad(tag, entries, page=1, **rest):
        return record(tag, tiff([(8, entries, 200), (200, STRIPS, 0)]), page=page, **rest)
    yield after_bad('early-twice', [NOTE, STRIPS[0], STRIPS[0]])
    yield after_bad('early-type-0', [(273, 0, 1, 0)])
    yield after_bad('early-tags', [NOTE] * 11, tags=10)
    yield after_bad('early-unfit', [(256, 9, 9, 0), (258, 1, 7, 0), (338, 7, 7, 0)])
    yield after_bad('early-budget', [NOTE] * 9, budget=9)
    yield after_bad('early-budget-10', [NOTE] * 9, budget=10)
    yield record('early-count-0', patched(tiff([(8, [NOTE], 200), (200, STRIPS, 0)]), 8, b'\x00\x00'), page=1)
    yield record('early-cut', patched(tiff([(8, [NOTE], 200), (200, STRIPS, 0)]), 8, b'\xff\x00'), page=1, tags=255)
    yield record('early-bad-and-0', tiff([(8, [NOTE, STRIPS[0], STRIPS[0]], 0)]), page=1)
    yield record('early-7-and-0', tiff([(8, [NOTE, STRIPS[0]], 0)]), page=1, budget=2)
    yield record('early-paid-and-0', tiff([(8, [NOTE, STRIPS[0]], 0)]), page=1, budget=3)
    yield record('late-bad', tiff([(8, STRIPS, 160), (160, [STRIPS[0]] * 2, 0)]))
    yield record('late-bad-1', tiff([(8, STRIPS, 160), (160, [STRIPS[0]] * 2, 0)]), page=1)
    yield record('late-outside', tiff([(8, STRIPS, 147)]), page=1)
    yield record('late-outside-0', tiff([(8, STRIPS, 147)]), page=0)
    yield record('late-tags', tiff([(8, [NOTE], 30), (30, STRIPS, 0)]), page=1, tags=9)

def budgets():
    # 10 entries and one more, then 128
    for units in (0, 1, 10, 11, 12, 127, 128, 138, 139, 140, TOP):
        yield record('units-%s' % (units if units < TOP else 'top'), LITTLE, budget=units)
    for units in (0, 11, 12, 139, 140, TOP):
        yield record('units-t-%s' % (units if units < TOP else 'top'), tiff([(8, TILES, 0)], True), budget=units)
    # 2, then 11, then 128
    two = tiff(chained(STRIPS, 1))
    for units in (0, 1, 2, 3, 12, 13, 14, 140, 141, 142):
        yield record('units-two-%d' % units, two, page=1, budget=units)
    # 2, 3, 4, then 12, then 128
    four = tiff(chained(TILES, 3), True)
    for units in (1, 2, 4, 5, 8, 9, 20, 21, 148, 149):
        yield record('units-four-%d' % units, four, page=3, budget=units)
    # the charge comes before the tags, and 128 before the profile
    yield record('units-and-tags', tiff([(8, list(STRIPS) + [STRIPS[0]], 0)]), budget=11)
    yield record('units-then-tags', tiff([(8, list(STRIPS) + [STRIPS[0]], 0)]), budget=12)
    yield strips('units-and-bad', (256, 2, 1, 0), budget=138)
    yield strips('units-then-bad', (256, 2, 1, 0), budget=139)
    yield strips('units-and-width', (256, 3, 1, 0), budget=138)
    yield strips('units-and-size', budget=138, output=1)
    yield record('units-and-end', tiff([(8, STRIPS, 0)]), page=1, budget=11)
    yield record('units-and-end-7', tiff([(8, STRIPS, 0)]), page=1, budget=10)
    yield record('units-all-ones', tiff([(8, STRIPS, 8)]), page=3, budget=TOP)

ONES = ((256, 3), (257, 5), (259, 34676), (262, 32845), (266, 1), (274, 1), (277, 3), (278, 2), (284, 1), (317, 1))
SIDES = ((322, 16), (323, 16))

def values():
    # a type or a count that a single number can't have; for a picture without the entry, one is put in
    i = 0
    for tag, value in ONES + SIDES + ((338, 0),):
        for name, kind, count in (('t1', 1, 1), ('t2', 2, 1), ('t5', 5, 1), ('c0', 3, 0), ('c2', 3, 2), ('4c0', 4, 0)):
            make = tiles if tag in (322, 323) or i % 3 == 0 and tag != 278 else strips
            yield make('%s-%d' % (name, tag), (tag, kind, count, value), big=i % 2 == 1)
            i += 1
    for tag in (256, 278, 317, 338):
        yield strips('top-count-%d' % tag, (tag, 4, 2 ** 32 - 1, 1))
        yield strips('top-type-%d' % tag, (tag, 65535, 1, 1))
        yield strips('count-257-%d' % tag, (tag, 3, 257, 1))
        yield strips('count-2^16-%d' % tag, (tag, 3, 65537, 1), big=True)
    # of the tiles' sides in strips, and of slot 9 in tiles, type and count are looked at too
    yield strips('side-t2-322', (322, 2, 1, 16))
    yield strips('side-c2-323', (323, 3, 2, 16))
    yield tiles('rows-t2', (278, 2, 1, 16))
    yield tiles('rows-c2', (278, 3, 2, 16))
    yield tiles('rows-c0', (278, 4, 0, 16), big=True)
    yield tiles('rows-0', (278, 3, 1, 0))
    yield tiles('rows-3', (278, 3, 1, 3), big=True)
    yield tiles('rows-top', (278, 4, 1, 2 ** 32 - 1))
    # such an entry counts before a number that is out of the profile, whichever comes first in the file
    yield strips('bad-and-width-0', (256, 3, 1, 0), (338, 2, 1, 0))
    yield strips('bad-and-samples', (277, 3, 1, 1), (278, 2, 1, 0))
    yield strips('bad-and-tall', (257, 4, 1, 30000), (317, 3, 2, 1))
    yield strips('bad-and-bits', 258, (323, 3, 2, 1))
    yield strips('bad-and-side', (322, 7, 1, 1), (278, 3, 1, 0))
    # numbers of four bytes, of two, and what stands in the rest of a field
    for big in (False, True):
        s = 'b' if big else 'l'
        yield record('four-strips-' + s, tiff([(8, but(STRIPS, *((t, 4, 1, v) for t, v in ONES)), 0)], big))
        yield record('four-tiles-' + s, tiff([(8, but(TILES, *((t, 4, 1, v) for t, v in SIDES + ((256, 17), (257, 5)))), 0)], big))
        yield record('two-strips-' + s, tiff([(8, but(STRIPS, *((t, 3, 1, v) for t, v in ONES)), 0)], big))
        order = '>H' if big else '<H'
        for name, rest in (('0', b'\x00\x00'), ('f', b'\xff\xff'), ('1', b'\x01\x00'), ('2', b'\x00\x01')):
            fields = ((t, 3, 1, struct.pack(order, v) + rest) for t, v in ONES)
            yield record('rest-%s-%s' % (name, s), tiff([(8, but(STRIPS, *fields), 0)], big))
        # the number in the other half
        yield strips('half-width-' + s, (256, 3, 1, b'\x00\x00' + struct.pack(order, 3)), big=big)
        yield strips('half-pred-' + s, (317, 3, 1, b'\x00\x00' + struct.pack(order, 1)), big=big)
        yield strips('half-rows-' + s, (278, 3, 1, b'\x00\x00' + struct.pack(order, 2)), big=big)
        yield strips('swapped-width-' + s, (256, 4, 1, 3 * 2 ** 24), big=big)
    for tag, value in ONES:
        if tag != 278:
            yield strips('2^16+%d' % tag, (tag, 4, 1, 65536 + value), big=tag % 2 == 1, dimension=60000)

def profile():
    # left out: the default
    for tag in (256, 257, 259, 262, 277):
        yield strips('no-%d' % tag, tag)
        yield tiles('no-t-%d' % tag, tag, big=True)
    yield strips('no-278', 278, (273, 4, 1, 0), (279, 4, 1, 0))
    for tag in (266, 274, 284, 317):
        for value in (0, 1, 2, 3, 65535):
            yield (strips if value < 3 else tiles)('is-%d-%d' % (tag, value), (tag, 3, 1, value), big=value == 2)
    for tag, others in ((259, (0, 1, 5, 34675, 34677, 65535)), (262, (0, 2, 32844, 32846, 65535)), (277, (0, 1, 2, 4, 65535))):
        for i, value in enumerate(others):
            yield strips('is-%d-%d' % (tag, value), (tag, 3, 1, value), big=i % 2 == 1)
    for value in (0, 1, 2):
        yield strips('alpha-%d' % value, (338, 3, 1, value))
    yield tiles('alpha-four', (338, 4, 1, 0), big=True)
    yield strips('alpha-two', (338, 3, 2, 0))
    yield tiles('alpha-type-1', (338, 1, 1, 0))
    # width and height
    for tag, name in ((256, 'width'), (257, 'height')):
        far = {256: (), 257: ((273, 4, 1, 0), (279, 4, 1, 0))}[tag]
        yield strips(name + '-0', (tag, 3, 1, 0))
        yield tiles(name + '-0-tiles', (tag, 4, 1, 0))
        yield strips(name + '-1', (tag, 3, 1, 1), (278, 3, 1, 5), (273, 4, 1, 0), (279, 4, 1, 0))
        yield strips(name + '-max', (tag, 3, 1, 77), (278, 3, 1, 99), (273, 4, 1, 0), (279, 4, 1, 0), dimension=77)
        yield strips(name + '-above', (tag, 3, 1, 78), (278, 3, 1, 99), (273, 4, 1, 0), (279, 4, 1, 0), dimension=77)
        yield strips(name + '-max-t4', (tag, 4, 1, 70000), (278, 3, 1, 5000), *far, dimension=69999, **{k: TOP for k in ('output', 'segments')})
        yield tiles(name + '-top', (tag, 4, 1, 2 ** 32 - 1), dimension=2 ** 32 - 1, output=TOP, segments=TOP)
        yield tiles(name + '-top-less', (tag, 4, 1, 2 ** 32 - 1), dimension=2 ** 32 - 2, output=TOP, segments=TOP)
    yield strips('dimension-0', dimension=0)
    yield strips('dimension-4', dimension=4)
    yield strips('dimension-5', dimension=5)
    yield tiles('dimension-16', dimension=16)
    yield tiles('dimension-17', dimension=17)
    yield strips('rows-above-dim', (256, 3, 1, 5), (278, 3, 1, 60000), (273, 4, 1, 0), (279, 4, 1, 0), dimension=5)
    # what is out of the profile comes before the arrays of three
    for name, change in (('width', (256, 3, 1, 0)), ('height', (257, 4, 1, 20001)), ('samples', (277, 3, 1, 1)), ('compress', (259, 3, 1, 1)),
                         ('photo', (262, 3, 1, 2)), ('fill', (266, 3, 1, 2)), ('orient', (274, 3, 1, 3)), ('planar', (284, 3, 1, 2)),
                         ('predict', (317, 3, 1, 2)), ('alpha', (338, 3, 1, 0))):
        yield strips(name + '-bits', change, (258, 3, 3, 5000))
        yield strips(name + '-side', change, (322, 3, 1, 16), 273, 279)

def threes():
    # the places of both arrays, by tag, in a file of their own
    for tag, right in ((258, 16), (339, 2)):
        for kind in (3, 4):
            size = {3: 2, 4: 4}[kind]
            for big in (False, True):
                s = '%d%s' % (kind, 'b' if big else 'l')
                name = {258: 'bits', 339: 'form'}[tag]
                yield strips('%s-%s' % (name, s), (tag, kind, 3, [right] * 3), big=big)
                # the last bytes of the file, and one byte beyond, two, ...
                whole = tiff([(8, but(STRIPS, (tag, kind, 3, (150, [right] * 3))), 0)], big)
                assert len(whole) == 150 + 3 * size
                yield record('%s-end-%s' % (name, s), whole)
                for cut in sorted({1, size, size + 1, 2 * size, 2 * size + 1, 3 * size}):
                    yield record('%s-cut%d-%s' % (name, cut, s), whole[:-cut])
                for k in range(3):
                    wrong = [right + (i == k) for i in range(3)]
                    yield strips('%s-bad%d-%s' % (name, k, s), (tag, kind, 3, wrong), big=big)
        # numbers that are right in one half only
        yield strips('high-%d' % tag, (tag, 4, 3, [right, right + 65536, right]))
        yield strips('swap-%d' % tag, (tag, 3, 3, [right, right, right * 256]))
        yield strips('swap-b-%d' % tag, (tag, 4, 3, [right * 2 ** 24, right, right]), big=True)
        yield strips('read-as-4-%d' % tag, (tag, 3, 3, [right, 0, right, 0, right, 0]))
        yield strips('read-as-2-%d' % tag, (tag, 4, 3, [right * 65537, right * 65537, right]))
        # left out, another type, another count
        yield strips('none-%d' % tag, tag)
        for kind in (1, 2, 5, 8):
            yield strips('three-t%d-%d' % (kind, tag), (tag, kind, 3, [right] * 3), big=kind == 2)
        for count in (0, 1, 2, 4, 65539):
            yield strips('three-c%d-%d' % (count, tag), (tag, 3, count, [right] * 4), big=count == 2)
        yield strips('one-%d' % tag, (tag, 3, 1, right))
        yield strips('one-four-%d' % tag, (tag, 4, 1, right))
        yield strips('two-in-%d' % tag, (tag, 3, 2, struct.pack('<HH', right, right)))
        # far away, where a sum of 32 bits would come back
        for k in (1, 2, 3, 4, 6, 8, 12):
            yield strips('far-%d-%d' % (k, tag), (tag, 3 + k % 2, 3, 2 ** 32 - k), big=k % 3 == 1)
        yield strips('at-2^31-%d' % tag, (tag, 3, 3, 2 ** 31))
        yield strips('at-0-%d' % tag, (tag, 3, 3, 0))
        # the values in order, and the first that is amiss counts
        file = tiff([(8, but(STRIPS, (tag, 3, 3, (150, [right, right + 1]))), 0)])
        yield record('bad-out-%d' % tag, file)
        yield record('bad-half-out-%d' % tag, file + bytes([right]))
        yield record('bad0-out-%d' % tag, patched(file, 150, b'\x00\x00')[:152])
        yield record('good-out-%d' % tag, patched(file, 152, struct.pack('<H', right)))
    # all of slot 2 before slot 18
    yield strips('bits-out-form-0', (258, 3, 3, 5000), 339)
    yield strips('bits-out-form-t', (258, 3, 3, 5000), (339, 2, 3, 0))
    yield strips('bits-out-form-c', (258, 3, 3, 5000), (339, 3, 2, 0))
    yield strips('bits-x-form-out', (258, 3, 3, [16, 16, 8]), (339, 3, 3, 5000))
    yield strips('bits-0-form-out', 258, (339, 3, 3, 5000))
    yield strips('bits-t-form-out', (258, 1, 3, 0), (339, 3, 3, 5000))
    yield strips('bits-ok-form-out', (339, 3, 3, 5000))
    yield strips('bits-and-form', (258, 3, 3, 5000), (339, 3, 3, 5000))
    yield strips('same-array', (339, 3, 3, 134))
    yield strips('swapped-arrays', (258, 3, 3, (140, [16] * 3)), (339, 3, 3, (134, [2] * 3)))
    yield strips('crossed-arrays', (258, 3, 3, (134, [2] * 3)), (339, 3, 3, (140, [16] * 3)))
    # both before the sides
    yield strips('form-out-side', (339, 3, 3, 5000), (278, 3, 1, 0))
    yield strips('form-out-strips', (339, 3, 3, 5000), (322, 3, 1, 16))
    yield strips('form-bad-strips', (339, 3, 3, [2, 2, 1]), (322, 3, 1, 16))
    yield strips('form-out-size', (339, 3, 3, 5000), output=1)
    yield strips('form-out-arrays', (339, 3, 3, 5000), 273)
    yield tiles('form-out-tiles', (339, 3, 3, 5000), (322, 3, 1, 15))
    yield tiles('bits-out-tiles', (258, 3, 3, 5000), (322, 3, 1, 0))

def arrays(offsets, counts, n, kind=4):
    return (offsets, kind, n, 0), (counts, kind, n, 0)

def sides():
    # strips: the block is as wide as the picture, as high as slot 9 says or the picture is
    for rows, n in ((1, 5), (2, 3), (3, 2), (4, 2), (5, 1), (6, 1), (65535, 1)):
        yield strips('rows-%d' % rows, (278, 3, 1, rows), *arrays(273, 279, n), big=rows % 2 == 0)
    yield strips('rows-zero', (278, 3, 1, 0), *arrays(273, 279, 1))
    yield strips('rows-zero-four', (278, 4, 1, 0), *arrays(273, 279, 1))
    yield strips('rows-2^16', (278, 4, 1, 65536), *arrays(273, 279, 1))
    yield strips('rows-2^32-1', (278, 4, 1, 2 ** 32 - 1), *arrays(273, 279, 1))
    yield strips('mark9', (257, 3, 1, 5), (278, 3, 1, 2), *arrays(273, 279, 3))
    yield strips('mark9-absent', (257, 3, 1, 5), 278, *arrays(273, 279, 1))
    yield tiles('mark10')
    yield tiles('mark10-big', big=True)
    for width in (16383, 16384, 16385, 20000):
        yield strips('wide-%d' % width, (256, 3, 1, width), (257, 3, 1, 1), *arrays(273, 279, 1), output=TOP)
    for rows in (16383, 16384, 16385):
        yield strips('high-%d' % rows, (256, 3, 1, 1), (257, 3, 1, rows), 278, *arrays(273, 279, 1))
        yield strips('high-17000-%d' % rows, (256, 3, 1, 1), (257, 3, 1, 17000), (278, 3, 1, rows), *arrays(273, 279, 2), output=TOP)
    yield strips('high-top-rows', (256, 3, 1, 1), (257, 3, 1, 16385), (278, 4, 1, 2 ** 32 - 1), *arrays(273, 279, 1))
    # tiles: the sides
    for side in (0, 1, 8, 15, 16, 17, 24, 31, 32, 48, 16368, 16376, 16383, 16384, 16385, 16392, 16400, 16416, 32768, 65520):
        for tag in (322, 323):
            n = 2 if tag == 323 or side == 16 else 1
            yield tiles('side-%d-%d' % (tag, side), (tag, 3, 1, side), *arrays(324, 325, n), big=side % 3 == 0)
    yield tiles('side-2^16+16', (322, 4, 1, 65552))
    yield tiles('side-2^32-16', (323, 4, 1, 2 ** 32 - 16))
    yield tiles('side-both-16384', (322, 3, 1, 16384), (323, 3, 1, 16384), *arrays(324, 325, 1))
    yield tiles('side-15-16400', (322, 3, 1, 15), (323, 3, 1, 16400))
    yield tiles('side-16400-15', (322, 3, 1, 16400), (323, 3, 1, 15))
    yield tiles('side-32-16', (322, 3, 1, 32), (256, 3, 1, 33), (257, 3, 1, 47), *arrays(324, 325, 6))
    yield tiles('side-16-32', (323, 3, 1, 32), (256, 3, 1, 33), (257, 3, 1, 47), *arrays(324, 325, 6), big=True)
    yield tiles('no-322', 322)
    yield tiles('no-323', 323)
    yield tiles('no-side', 322, 323, big=True)
    yield tiles('no-322-big-width', 322, (256, 3, 1, 32))
    yield tiles('no-323-rows', 323, (278, 3, 1, 16))
    yield tiles('no-322-strip-tag', 322, (273, 4, 1, 0))
    # tags of the other kind
    yield tiles('tiles-and-273', (273, 4, 2, 0))
    yield tiles('tiles-and-279', (279, 4, 2, 0), big=True)
    yield tiles('tiles-and-both', (273, 4, 2, 0), (279, 4, 2, 0))
    yield tiles('tiles-273-odd', (273, 2, 7, 0))
    yield tiles('tiles-279-none', (279, 7, 0, 0))
    yield tiles('tiles-273-side-0', (273, 4, 2, 0), (322, 3, 1, 0))
    yield tiles('tiles-279-16400', (279, 4, 2, 0), (323, 3, 1, 16400))
    yield tiles('tiles-273-size', (273, 4, 2, 0), output=1)
    yield tiles('tiles-279-size', (279, 4, 2, 0), segments=1)
    yield tiles('tiles-15-size', (322, 3, 1, 15), output=1)
    yield tiles('tiles-h15-size', (323, 3, 1, 15), output=1)
    for tag in (322, 323):
        for value in (0, 1, 16, 20000):
            yield strips('strips-%d-%d' % (tag, value), (tag, 3, 1, value), big=value == 1)
        yield strips('strips-%d-four' % tag, (tag, 4, 1, 2 ** 32 - 1))
        yield strips('strips-%d-size' % tag, (tag, 3, 1, 16), output=1)
        yield strips('strips-%d-rows' % tag, (tag, 3, 1, 16), (278, 3, 1, 0))
        yield strips('strips-%d-wide' % tag, (tag, 3, 1, 16), (256, 3, 1, 16385))
    yield strips('strips-325', (325, 4, 3, 0))
    yield strips('strips-325-odd', (325, 7, 9, 0))
    yield strips('strips-325-size', (325, 4, 3, 0), segments=1)
    yield strips('strips-325-rows', (325, 4, 3, 0), (278, 3, 1, 0))
    yield strips('strips-324', (324, 4, 3, 0))
    yield strips('strips-324-odd', (324, 2, 0, 0))
    yield strips('strips-all', (322, 3, 1, 16), (323, 3, 1, 16), (325, 4, 3, 0))
    yield tiles('no-324', 324)
    yield tiles('no-324-325', 324, 325)
    yield tiles('only-324', 322, 323, 325)

def sizes():
    # the output: 3 x 5 has 90 bytes, 17 x 5 has 510
    for n in (0, 89, 90, 91):
        yield strips('output-%d' % n, output=n)
    for n in (509, 510, 511):
        yield tiles('output-t-%d' % n, output=n, big=True)
    # segments: 3 and 2
    for n in (0, 2, 3, 4):
        yield strips('segments-%d' % n, segments=n)
    for n in (1, 2, 3):
        yield tiles('segments-t-%d' % n, segments=n)
    yield tiles('across-down', (256, 3, 1, 49), (257, 3, 1, 48), *arrays(324, 325, 12), segments=12)
    yield tiles('across-down-less', (256, 3, 1, 49), (257, 3, 1, 48), *arrays(324, 325, 12), segments=11)
    yield tiles('across-down-33', (256, 3, 1, 33), (257, 3, 1, 33), *arrays(324, 325, 9))
    yield tiles('across-down-32', (256, 3, 1, 32), (257, 3, 1, 32), *arrays(324, 325, 4))
    yield tiles('across-3-down-2', (256, 3, 1, 33), (257, 3, 1, 32), *arrays(324, 325, 6))
    yield tiles('across-2-down-3', (256, 3, 1, 32), (257, 3, 1, 33), *arrays(324, 325, 6))
    # too large, and the arrays wrong as well: the size counts
    yield strips('output-no-273', 273, output=89)
    yield strips('segments-no-279', 279, segments=2)
    yield tiles('output-t-no-325', 325, output=509)
    yield tiles('segments-count', (324, 4, 3, 0), segments=1)
    # numbers near 2^64: 6 x width x height just below it, just above, and above by so much that little is left of it
    top = 2 ** 32 - 1
    def huge(tag, width, height, n=0, side=16, **limits):
        return tiles(tag, (256, 4, 1, width), (257, 4, 1, height), (322, 3, 1, side), (323, 3, 1, side), *arrays(324, 325, n), **{**WIDE, **limits})
    yield huge('huge-below', top, 715827882)
    yield huge('huge-above', top, 715827883)
    yield huge('huge-above-turn', 715827883, top)
    yield huge('huge-halves', 2 ** 31, 2 ** 31)
    yield huge('huge-square', top, top)
    yield huge('huge-sq-16384', top, top, side=16384)
    yield huge('huge-wraps-limit', top, 715827883, output=2 ** 63)
    yield huge('huge-max-output', top, 715827882, output=6 * top * 715827882)
    yield huge('huge-max-less', top, 715827882, output=6 * top * 715827882 - 1)
    # as many segments as a count can say, and more than it can
    yield huge('most-segments', 16384 * 65535, 16384 * 65537, n=2 ** 32 - 1, side=16384)
    yield huge('most-just', 16384 * 65534 + 1, 16384 * 65536 + 1, n=2 ** 32 - 1, side=16384)
    yield huge('most-limit', 16384 * 65535, 16384 * 65537, n=2 ** 32 - 1, side=16384, segments=2 ** 32 - 1)
    yield huge('most-less-1', 16384 * 65535, 16384 * 65537, n=2 ** 32 - 1, side=16384, segments=2 ** 32 - 2)
    yield huge('most-plus-1', 16384 * 65536, 16384 * 65536, n=2 ** 32 - 1, side=16384)
    yield huge('most-as-0', 16384 * 65536, 16384 * 65536, n=0, side=16384)
    yield huge('wrapped-count', 320, 16 * 214748365, n=4)
    yield huge('wrapped-limit', 320, 16 * 214748365, n=4, segments=2 ** 32 + 4)
    yield huge('wrapped-limit-1', 320, 16 * 214748365, n=4, segments=2 ** 32 + 3)
    yield huge('wrapped-small', 320, 16 * 214748365, n=4, segments=100)
    # the arrays: left out, one more, one less, another type; what they hold is not looked at
    for make, n, both in ((strips, 3, (273, 279)), (tiles, 2, (324, 325))):
        for tag in both:
            yield make('array-no-%d' % tag, tag)
            for count in (0, n - 1, n + 1, 65536 + n, 2 ** 24 + n):
                yield make('%d-of-%d' % (count, tag), (tag, 4, count, 0), big=count == n + 1)
            for kind in (1, 2, 5, 16):
                yield make('array-%d-t%d' % (tag, kind), (tag, kind, n, 0), big=kind == 2)
            yield make('array-%d-two' % tag, (tag, 3, n, 0), big=tag % 2 == 1)
            yield make('array-%d-far' % tag, (tag, 4, n, 2 ** 32 - 1))
        yield make('arrays-two-%d' % n, *arrays(*both, n, kind=3))
        yield make('arrays-none-%d' % n, *both)
        # two values of type 3 are the field itself (rule 2.12), which is outside the file where it is taken for a place
        for s, big in (('l', False), ('b', True)):
            yield make('inline-%d-%s' % (both[0], s), (278, 3, 1, 3), *((tag, 3, 2, [tag, 9]) for tag in both), big=big)
    yield strips('single', (278, 3, 1, 5), *arrays(273, 279, 1, kind=3), big=True)
    yield strips('single-four', (278, 3, 1, 5), *arrays(273, 279, 1))
    yield strips('single-and-2', (278, 3, 1, 5), (273, 4, 1, 0), (279, 4, 2, 0))
    yield tiles('single-tile', (256, 3, 1, 16), *arrays(324, 325, 1))
    yield tiles('single-tile-less', (256, 3, 1, 16), (324, 4, 1, 0), (325, 4, 0, 0))

LOST = (0, 2, 255, 254, 3, 128)   # what else than 1 a map can say

def spread(place, bits=20, form=30, entries=STRIPS, after=0, big=False, size=None, more=()):
    """A file of one directory, with the two arrays of three at places of their own."""
    entries = but(entries, (258, 3, 3, (bits, [16] * 3)), (339, 3, 3, (form, [2] * 3))) + list(more)
    return tiff([(place, entries, after)], big, size=size)

def arrivals():
    # the header's block, in files of one
    yield record('one-came', LITTLE, blocks=[1])
    for other in LOST:
        yield record('one-lost-%d' % other, LITTLE, blocks=[other])
    yield record('lost-cut-7', LITTLE[:7], blocks=[0])
    yield record('came-cut-7', LITTLE[:7], blocks=[1])
    yield record('lost-8', LITTLE[:8], blocks=[0])
    yield record('lost-bad-mark', patched(LITTLE, 0, b'?'), blocks=[0])
    yield record('lost-64-bit', patched(LITTLE, 2, b'+'), blocks=[2])
    yield record('lost-first-0', tiff([(8, STRIPS, 0)], first=0), blocks=[0])
    yield record('lost-and-input', LITTLE, blocks=[0], input=100)
    yield record('lost-and-page', LITTLE, blocks=[0], page=4)
    # three blocks: the arrays in the third, the directory across the first two
    file, other = spread(450, 1030, 1040), spread(450, 1030, 1040, entries=TILES, big=True)
    for k in range(8):
        blocks = [k // 4, k // 2 % 2, k % 2]
        yield record('three-%d%d%d' % tuple(blocks), file, blocks=blocks)
        yield record('three-b-%d%d%d' % tuple(blocks), other, blocks=[1 if b else LOST[k % 6] for b in blocks])
    yield record('three-none', file)
    yield record('three-2-2-2', file, blocks=[2, 2, 2])
    yield record('three-1-255-1', file, blocks=[1, 255, 1])
    yield record('three-short', file, blocks=[1, 1])
    yield record('three-shorter', file, blocks=[1])
    yield record('three-long', file, blocks=[1, 1, 1, 0])
    # the count: its block lost, one byte of two lost, and outside as well
    for place in (510, 511, 512, 513):
        file = spread(place)
        for blocks in ([1, 0], [1, 1], [0, 1]):
            yield record('count-%d-%d%d' % (place, *blocks), file, blocks=blocks)
    file = spread(511)
    yield record('count-out', file[:512], blocks=[1])
    yield record('count-out-lost', patched(bytes(1024), 0, b'MM\x00*\x00\x00\x03\xff'), blocks=[1, 0])
    yield record('count-half-lost', patched(file, 4, struct.pack('<I', 512))[:513], blocks=[1, 0])
    yield record('count-half-came', patched(file, 4, struct.pack('<I', 512))[:513], blocks=[1, 1])
    yield record('count-end-lost', patched(file, 4, struct.pack('<I', 514))[:514], blocks=[1, 0])
    yield record('count-far-lost', patched(file, 4, struct.pack('<I', 2 ** 32 - 1))[:600], blocks=[1, 0])
    yield record('count-lost-is-0', patched(spread(512), 512, b'\x00\x00'), blocks=[1, 0])
    yield record('count-lost-tags', spread(512), blocks=[1, 0], tags=9)

def arrivals_of_body():
    # the body: its first byte came, and not its last; from the next offset's last byte on
    for place in (386, 387, 388, 389, 390, 391, 392, 400, 509, 510):
        yield record('body-%d' % place, spread(place, size=max(513, place + 126)), blocks=[1, 0])
        yield record('body-%d-came' % place, spread(place, size=max(513, place + 126), big=True), blocks=[1, 1])
    yield record('body-first-lost', patched(patched(spread(512), 4, struct.pack('<I', 510)), 510, b'\x0a\x00'), blocks=[1, 0])
    body = spread(450)
    yield record('body-lost-is-0', patched(body, 450, b'\x00\x00'), blocks=[1, 0])
    yield record('body-lost-tags', body, blocks=[1, 0], tags=9)
    yield record('body-lost-units', body, blocks=[1, 0], budget=0)
    yield record('body-lost-out', patched(body, 450, b'\x28\x00'), blocks=[1, 0])
    yield record('body-out-came', patched(body, 450, b'\x28\x00'), blocks=[1, 1])
    yield record('body-lost-twice', patched(body, 452, body[464:476]), blocks=[1, 0])
    yield record('body-end-lost', body[:575], blocks=[1, 0])
    yield record('body-exact-lost', body[:576], blocks=[1, 0])
    yield record('next-lost-0', spread(388, after=2 ** 32 - 1), blocks=[1, 0])
    yield record('unknown-lost', spread(380, more=[(800, 0, 0, 0)] * 20), blocks=[1, 0])
    yield record('unknown-came', spread(380, more=[(800, 0, 0, 0)] * 20), blocks=[1, 1])
    yield record('middle-lost', spread(380, more=[(800, 0, 0, 0)] * 39), blocks=[1, 0, 1])
    yield record('middle-came', spread(380, more=[(800, 0, 0, 0)] * 39), blocks=[1, 1, 1])
    # the lost block holds nothing but entries that nobody knows
    apart = tiff([(450, [(5, 0, 0, 0)] * 48 + but(STRIPS, (258, 3, 3, (20, [16] * 3)), (339, 3, 3, (30, [2] * 3))), 0)])
    yield record('no-one-knows', apart, blocks=[1, 0, 1], tags=60)
    yield record('no-one-knows-in', apart, blocks=[1, 1, 1], tags=60)
    # earlier and later directories
    two = tiff([(8, [NOTE], 600), (600, but(STRIPS, (258, 3, 3, (40, [16] * 3)), (339, 3, 3, (50, [2] * 3))), 0)])
    yield record('second-lost', two, page=1, blocks=[1, 0])
    yield record('second-lost-0', two, page=0, blocks=[1, 0])
    yield record('second-came', two, page=1, blocks=[1, 1])
    yield record('second-lost-7', two, page=1, blocks=[1, 0], budget=1)
    turned = tiff([(600, [NOTE], 8), (8, STRIPS, 0)])
    yield record('first-lost', turned, page=1, blocks=[1, 0])
    yield record('first-came', turned, page=1, blocks=[1, 1])
    yield record('loop-lost', tiff([(8, STRIPS, 600)], size=700), page=1, blocks=[1, 0])
    # what nobody needs may be lost
    yield record('arrays-lost', tiff([(8, but(STRIPS, (273, 4, 3, 600), (279, 4, 3, 700)), 0)], size=1025), blocks=[1, 0, 0])
    for s, big, pair in (('l', False, [600, 0]), ('b', True, [0, 600])):
        fields = but(STRIPS, (278, 3, 1, 3), (273, 3, 2, pair), (279, 3, 2, pair))
        yield record('inline-lost-' + s, tiff([(8, fields, 0)], big, size=700), blocks=[1, 0])
    yield record('rest-lost', LITTLE + bytes(1500), blocks=[1, 0, 255, 2])
    yield record('exact-512', LITTLE + bytes(512 - len(LITTLE)), blocks=[1])
    yield record('exact-513', LITTLE + bytes(513 - len(LITTLE)), blocks=[1, 0])

def arrivals_of_three():
    # the arrays of three: a value lost, half lost, outside as well; a wrong value before a lost one, and a lost one that is wrong
    for tag in (258, 339):
        right = {258: 16, 339: 2}[tag]
        def lone(values, place, kind=3, size=None, **rest):
            return tiff([(8, but(STRIPS, (tag, kind, 3, (place, values)), (597 - tag, 3, 3, (160, [18 - right] * 3))), 0)], size=size, **rest)
        for place in (506, 507, 508, 509, 510, 511, 512):
            yield record('value-%d-%d' % (place, tag), lone([right] * 3, place, size=520), blocks=[1, 0])
            yield record('value-%d-%d-c' % (place, tag), lone([right] * 3, place, big=True, size=520), blocks=[1, 1])
        for place in (500, 501, 504, 505, 508, 509, 512):
            yield record('four-%d-%d' % (place, tag), lone([right] * 3, place, kind=4, big=place % 2 == 1, size=530), blocks=[1, 0])
        yield record('bad-lost-%d' % tag, lone([right, right + 1, right], 508), blocks=[1, 0])
        yield record('lost-is-bad-%d' % tag, lone([right, right, right + 1], 508), blocks=[1, 0])
        yield record('lost-bad-%d' % tag, lone([right, right, right + 1], 510), blocks=[1, 0])
        yield record('bad-lost-one-%d' % tag, lone([right + 1, right, right], 512), blocks=[1, 0])
        yield record('lost-out-%d' % tag, lone([right] * 3, 600, size=603), blocks=[1, 0])
        yield record('lost-is-out-%d' % tag, lone([right] * 3, 600, size=601), blocks=[1, 0])
        yield record('lost-all-out-%d' % tag, lone([right] * 3, 600, size=600), blocks=[1, 0])
        yield record('came-is-out-%d' % tag, lone([right] * 3, 600, size=601), blocks=[1, 1])
        yield record('came-out-%d' % tag, lone([right] * 3, 600, size=605), blocks=[1, 1])
        yield record('count-2-lost-%d' % tag, patched(lone([right] * 3, 600), 38 if tag == 258 else 122, b'\x02'), blocks=[1, 0])
    bits = but(STRIPS, (258, 3, 3, (600, [16] * 3)))
    yield record('bits-lost-form-0', tiff([(8, but(bits, 339), 0)]), blocks=[1, 0])
    yield record('bits-lost-form-x', tiff([(8, but(bits, (339, 3, 3, 5000)), 0)]), blocks=[1, 0])
    yield record('bits-lost-side', tiff([(8, but(bits, (278, 3, 1, 0)), 0)]), blocks=[1, 0])
    yield record('bits-lost-pred', tiff([(8, but(bits, (317, 3, 1, 2)), 0)]), blocks=[1, 0])
    yield record('bits-lost-malfor', tiff([(8, but(bits, (317, 3, 2, 2)), 0)]), blocks=[1, 0])
    yield record('bits-lost-units', tiff([(8, bits, 0)]), blocks=[1, 0], budget=100)
    yield record('form-lost-size', tiff([(8, but(STRIPS, (339, 3, 3, (600, [2] * 3))), 0)]), blocks=[1, 0], output=1)

def ranges():
    # nothing is said of any block
    for size, start, count in ((0, 0, 0), (0, 0, 1), (0, 1, 0), (1, 0, 1), (1, 1, 0), (1, 1, 1), (1, 2, 0), (1, 0, 2), (512, 0, 512), (512, 0, 513),
                               (512, 512, 0), (512, 513, 0), (512, 512, 1), (1300, 0, 1300), (1300, 1299, 1), (1300, 1299, 2), (1300, 1300, 0),
                               (1300, 1301, 0)):
        yield Range('all-%d-%d-%d' % (size, start, count), start, count, size, b'')
    # near the largest number, with sums that come out small where they wrap
    for i, (start, count) in enumerate(((TOP, 0), (TOP, 1), (TOP, 2), (TOP, TOP), (0, TOP), (1, TOP), (2, TOP), (2 ** 63, 2 ** 63), (TOP - 1, 2), (TOP - 3, 4),
                                        (TOP - 3, 5), (2 ** 32, 0), (2 ** 32, 1), (0, 2 ** 32), (1, 2 ** 64 - 512), (512, 2 ** 64 - 512), (513, 2 ** 64 - 512),
                                        (2 ** 64 - 512, 512), (2 ** 64 - 512, 513), (100, TOP - 99), (100, TOP - 98), (2 ** 63, 0), (0, 2 ** 63))):
        yield Range('far-%d' % i, start, count, 1300, b'')
        yield Range('far-map-%d' % i, start, count, 1300, b'\x01\x01\x01')
        yield Range('far-lost-%d' % i, start, count, 1300, b'\x00\x00\x00')
    # at and across the edges of blocks, under every map of three
    for k in range(8):
        blocks = bytes((k // 4, k // 2 % 2, k % 2))
        name = '%d%d%d' % tuple(blocks)
        for start, count in ((0, 1), (0, 512), (0, 513), (511, 1), (511, 2), (512, 1), (512, 512), (512, 513), (511, 513), (511, 514), (1023, 1), (1023, 2),
                             (1024, 1), (1024, 276), (0, 1300), (1299, 1), (1299, 2), (1300, 0), (512, 0), (1024, 0), (600, 0)):
            yield Range('%s-%d-%d' % (name, start, count), start, count, 1300, blocks)
    # what else a map can say
    for other in (2, 3, 127, 128, 129, 254, 255):
        yield Range('says-%d-in' % other, 512, 10, 1300, bytes((1, other, 1)))
        yield Range('says-%d-before' % other, 512, 10, 1300, bytes((other, 1, other)))
        yield Range('says-%d-last' % other, 500, 600, 1300, bytes((1, 1, other)))
    # maps too short, too long, and those of a file of whole blocks
    yield Range('short-in', 0, 512, 1300, b'\x01')
    yield Range('short-over', 511, 2, 1300, b'\x01')
    yield Range('short-beyond', 512, 1, 1300, b'\x01')
    yield Range('short-last', 1299, 1, 1300, b'\x01\x01')
    yield Range('short-none', 1299, 0, 1300, b'\x01')
    yield Range('short-none-end', 1300, 0, 1300, b'\x00')
    yield Range('short-out', 1299, 2, 1300, b'\x01')
    yield Range('short-all', 0, 4096, 4096, b'\x01\x01')
    yield Range('long-in', 0, 1300, 1300, b'\x01' * 5)
    yield Range('long-lost-after', 0, 1300, 1300, b'\x01\x01\x01\x00\x00')
    yield Range('long-out', 1299, 2, 1300, b'\x01' * 5)
    yield Range('exact-1024', 0, 1024, 1024, b'\x01\x01')
    yield Range('exact-1024-lost', 1023, 1, 1024, b'\x01\x00')
    yield Range('exact-1024-out', 1024, 1, 1024, b'\x01\x01')
    yield Range('exact-1024-end', 1024, 0, 1024, b'\x00\x00')
    yield Range('more-1025', 1024, 1, 1025, b'\x01\x01\x00')
    yield Range('empty-map-1', 0, 0, 0, b'\x01')
    yield Range('empty-map-0', 0, 0, 0, b'\x00')
    yield Range('empty-map-out', 0, 1, 0, b'\x01')
    yield Range('eight', 0, 4096, 4096, b'\x01' * 8)
    for k in range(8):
        yield Range('eight-less-%d' % k, 0, 4096, 4096, bytes(1 - (i == k) for i in range(8)))
        yield Range('eight-only-%d' % k, 512 * k, 512, 4096, bytes(i == k for i in range(8)))
        yield Range('eight-two-%d' % k, 512 * k, 513, 4096, bytes(1 - (i == k + 1) for i in range(8)))

ORDERS = ('l', False), ('b', True)

def pair(photometric, samples, n, kind=3):
    """Slots 4 and 8, and slots 2 and 18 with so many right values each."""
    return (262, kind, 1, photometric), (277, kind, 1, samples), (258, 3, n, [16] * n), (339, 3, n, [2] * n)

def mono_heads():
    # both kinds and orders, numbers of four bytes, tags in any order
    for s, big in ORDERS:
        yield mono_strips('strips-' + s, big=big)
        yield mono_tiles('tiles-' + s, big=big)
        fours = (258, 4, 1, 16), (262, 4, 1, 32844), (277, 4, 1, 1), (339, 4, 1, 2)
        yield mono_strips('strips-four-' + s, *fours, big=big)
        yield mono_tiles('tiles-four-' + s, *fours, big=big)
        yield record('reversed-' + s, tiff([(8, but(STRIPS, *of_head(MONO))[::-1], 0)], big))
        yield mono_strips('spares-' + s, *((tag, 3, 1, 1) for tag in (266, 274, 284, 317)), NOTE, big=big)
        # slot 8 is 1 where it is absent, and slot 4 is 0
        yield mono_strips('no-277-' + s, 277, big=big)
        yield mono_tiles('no-277-t-' + s, 277, big=big)
        yield mono_strips('no-262-' + s, 262, big=big)
        yield mono_tiles('no-both-t-' + s, 262, 277, big=big)
    yield strips('no-277-of-1', *pair(32845, 1, 1), 277)
    yield strips('no-277-of-3', 277)
    yield strips('no-277-mono-of-3', (262, 3, 1, 32844), 277)
    # slots 4 and 8 together, with as many values in slots 2 and 18 as either head has channels
    for photometric in (32844, 32845):
        for samples in (0, 1, 2, 3, 4, 65535):
            for n in (1, 2, 3) if samples == 2 else (1, 3):
                yield strips('%d-%d-of-%d' % (photometric, samples, n), *pair(photometric, samples, n), big=(samples + n) % 2 == 1)
    for photometric in (0, 1, 2, 3, 32803, 32843, 32846, 65535, 0x4C80):
        yield mono_strips('photo-%d' % photometric, (262, 3, 1, photometric), big=photometric % 2 == 1)
    for i, (photometric, samples) in enumerate(((65536 + 32844, 1), (32844 * 65536, 1), (32844, 65537), (32844, 65536), (32844, 256),
                                                (32844, 2 ** 24 + 1), (32844, 2 ** 32 - 1), (2 ** 31 + 32844, 1))):
        for s, big in ORDERS:
            yield mono_strips('high-%d-%s' % (i, s), *pair(photometric, samples, 1, kind=4), big=big)
    yield mono_strips('samples-swapped', (277, 3, 1, 256), big=True)
    # what else step 2 tests
    for name, change in (('width-0', (256, 3, 1, 0)), ('height-0', (257, 3, 1, 0)), ('wide', (256, 3, 1, 20001)), ('high', (257, 3, 1, 20001)),
                         ('compression-1', (259, 3, 1, 1)), ('compression-77', (259, 3, 1, 34677)), ('no-259', 259)):
        yield mono_strips(name, change)
    # and step 3
    for tag, n in ((266, 2), (274, 2), (284, 2), (317, 2), (317, 0), (338, 0)):
        yield mono_strips('is-%d-%d' % (tag, n), (tag, 3, 1, n))
    # malformed numbers come before a pair that is no head's, the pair before what follows, and slots 2 and 18 before the sides
    for photometric, samples in ((32844, 3), (32844, 2), (32845, 1), (2, 1)):
        own, t = pair(photometric, samples, samples), '%d-%d' % (photometric, samples)
        yield strips(t + '-bad', *own, (338, 2, 1, 0))
        yield strips(t + '-bad-rows', *own, (278, 3, 2, 2), big=True)
        yield strips(t + '-far', *own, (258, 3, 3, 5000))
        yield strips(t + '-far-form', *own, (339, 3, 3, 5000), big=True)
        yield strips(t + '-side', *own, (322, 3, 1, 16))
        yield strips(t + '-size', *own, output=1)
        yield strips(t + '-array', *own, 273)
        yield strips(t + '-units', *own, budget=138)
        yield tiles(t + '-tiles', *own, (322, 3, 1, 15))
    for tag in (262, 277, 256, 278, 338):
        yield mono_strips('t2-%d' % tag, (tag, 2, 1, 1))
        yield mono_strips('c2-%d' % tag, (tag, 3, 2, 1), big=True)

def mono_values():
    # slots 2 and 18: a single value, which stands in the field
    for tag, right in ((258, 16), (339, 2)):
        name = {258: 'bits', 339: 'form'}[tag]
        for kind in (3, 4):
            for s, big in ORDERS:
                t, order = '%s-%d%s' % (name, kind, s), '>' if big else '<'
                for n in (0, 1, right - 1, right, right + 1, 2 * right, 65535):
                    if n != 1 or right != 2:
                        yield mono_strips('%s-%d' % (t, n), (tag, kind, 1, [n]), big=big)
                # right in one half, and read in the other order
                own = struct.pack(order + 'H', right)
                for way, field in (('rest-0', own + bytes(2)), ('rest-f', own + b'\xff\xff'), ('rest-1', own + b'\x01\x00'), ('rest-2', own + b'\x00\x01'),
                                   ('half', bytes(2) + own), ('twice', own + own), ('swap', (own + bytes(2))[::-1]),
                                   ('turn', own[::-1] + bytes(2))):
                    yield mono_strips('%s-%s' % (t, way), (tag, kind, 1, field), big=big)
                # a field that would be the place of a right value: in the file, outside it
                yield mono_strips(t + '-place', (tag, kind, 1, (150, [right])), big=big)
                yield mono_strips(t + '-far', (tag, kind, 1, 5000), big=big)
                # other counts
                for count in (0, 2, 3, 4):
                    yield mono_strips('%s-c%d' % (t, count), (tag, kind, count, [right] * max(1, count)), big=big)
                yield mono_strips(t + '-c0-far', (tag, kind, 0, 5000), big=big)
                yield mono_strips(t + '-c3-far', (tag, kind, 3, 5000), big=big)
        for count in (256, 257, 65537, 2 ** 24 + 1, 2 ** 32 - 1):
            yield mono_strips('%s-c%d' % (name, count), (tag, 3, count, [right]), big=count % 2 == 0)
        for kind in (0, 1, 2, 5, 6, 8, 9, 16, 256, 259, 768, 65535):
            yield mono_strips('%s-t%d' % (name, kind), (tag, kind, 1, struct.pack('>HH', right, 0) if kind % 2 else right), big=kind % 2 == 1)
        yield mono_strips('no-%d' % tag, tag)
        yield mono_tiles('no-t-%d' % tag, tag, big=True)
        # before the sides, the tags of the other kind, the sizes and the arrays of segments
        for way, wrong in (('none', tag), ('value', (tag, 3, 1, right + 1)), ('count', (tag, 3, 3, [right] * 3))):
            yield mono_strips('%s-%s-side' % (name, way), wrong, (322, 3, 1, 16))
            yield mono_strips('%s-%s-size' % (name, way), wrong, output=1)
            yield mono_strips('%s-%s-array' % (name, way), wrong, 279)
            yield mono_tiles('%s-%s-tile' % (name, way), wrong, (323, 3, 1, 15))
    yield mono_strips('no-both', 258, 339)
    yield mono_strips('swapped', (258, 3, 1, 2), (339, 3, 1, 16))
    yield mono_strips('both-far', (258, 4, 1, 5000), (339, 4, 1, 5000))

def mono_sizes():
    # the steps that follow
    for rows, n in ((1, 5), (4, 2), (9, 1)):
        yield mono_strips('rows-%d' % rows, (278, 3, 1, rows), *arrays(273, 279, n))
    yield mono_strips('rows-0', (278, 3, 1, 0))
    yield mono_strips('no-278', 278, *arrays(273, 279, 1), big=True)
    yield mono_strips('side', (323, 3, 1, 16))
    yield mono_strips('no-273', 273)
    yield mono_strips('count-4', (279, 4, 4, 0))
    yield mono_tiles('side-15', (322, 3, 1, 15))
    yield mono_tiles('side-32', (322, 3, 1, 32), *arrays(324, 325, 1))
    yield mono_tiles('wide-16384', (322, 3, 1, 16384), (323, 3, 1, 16384), *arrays(324, 325, 1))
    yield mono_tiles('wide-16400', (322, 3, 1, 16400))
    for s, big in ORDERS:
        yield mono_strips('inline-' + s, (278, 3, 1, 3), (273, 3, 2, [273, 9]), (279, 3, 2, [279, 9]), big=big)
    # the output: 3 x 5 has 30 bytes, 17 x 5 has 170
    for n in (0, 29, 30, 31, 89, 90):
        yield mono_strips('output-%d' % n, output=n)
    for n in (169, 170, 171, 509, 510):
        yield mono_tiles('output-t-%d' % n, output=n, big=True)
    for n in (2, 3):
        yield mono_strips('segments-%d' % n, segments=n)
    yield mono_strips('output-no-273', 273, output=29)
    yield mono_strips('output-side', (322, 3, 1, 16), output=29)
    # numbers near 2^64: 2 x width x height just below it, just above, and above by so much that little is left of it
    top = 2 ** 32 - 1
    def huge(tag, width, height, make=mono_tiles, **limits):
        return make(tag, (256, 4, 1, width), (257, 4, 1, height), *arrays(324, 325, 0), **{**WIDE, **limits})
    yield huge('huge-below', top, 2 ** 31)
    yield huge('huge-above', top, 2 ** 31 + 1)
    yield huge('huge-below-turn', 2 ** 31, top)
    yield huge('huge-above-turn', 2 ** 31 + 1, top)
    yield huge('huge-halves', 2 ** 31, 2 ** 31)
    yield huge('huge-square', top, top)
    yield huge('huge-sixth', top, 715827882)
    yield huge('huge-sixth+', top, 715827883)
    yield huge('huge-sixth-col', top, 715827882, make=tiles)
    yield huge('huge-sixth+-col', top, 715827883, make=tiles)
    yield huge('huge-wraps', 3037000500, 3037000500)
    yield huge('huge-wraps-max', 3037000500, 3037000500, output=2 ** 63)
    yield huge('huge-max-output', top, 2 ** 31, output=2 * top * 2 ** 31)
    yield huge('huge-max-less', top, 2 ** 31, output=2 * top * 2 ** 31 - 1)
    # units
    for units in (0, 10, 11, 12, 138, 139, 140):
        yield mono_strips('units-%d' % units, budget=units)

GREY = but(STRIPS, *of_head(MONO))

def mono_pages():
    # pages of both heads, and none has anything of another
    for s, big in ORDERS:
        for page in range(4):
            file = tiff([(8, STRIPS, 160), (160, GREY, 300), (300, but(TILES, *of_head(MONO)), 450), (450, TILES, 0)], big)
            yield record('mixed-%d-%s' % (page, s), file, page=page)
        for name, first, second in (('277', STRIPS, but(GREY, 277)), ('262', GREY, but(STRIPS, 262)), ('258', GREY, but(STRIPS, 258)),
                                    ('339', STRIPS, but(GREY, 339)), ('all', GREY, but(STRIPS, 258, 262, 277, 339)),
                                    ('277-m', GREY, but(STRIPS, 277)), ('262-m', STRIPS, but(GREY, 262))):
            yield record('own-%s-%s' % (name, s), tiff([(8, first, 160), (160, second, 0)], big), page=1)

def mono_arrivals():
    for s, big in ORDERS:
        # the two fields across the edge of a block, which came and which did not
        for name, at in (('bits', 476), ('bits-end', 474), ('form', 392), ('form-end', 390)):
            file = tiff([(at, GREY, 0)], big)
            for blocks in ([1, 1], [1, 0], [0, 1]):
                yield record('%s-%s-%d%d' % (name, s, *blocks), file, blocks=blocks)
        # fields that would be places in a block that did not come: the values are not right, and no byte is asked for
        for tag, right in ((258, 16), (339, 2)):
            for kind in (3, 4):
                for way, count, place in (('in', 1, 520), ('edge', 1, 511), ('end', 1, 530), ('three', 3, 520)):
                    own = but(GREY, (tag, kind, count, place))
                    yield record('%d-%d-%s-%s' % (tag, kind, way, s), tiff([(8, own, 0)], big, size=530), blocks=[1, 0])
        # right values, and nothing else came
        yield record('rest-lost-' + s, tiff([(8, GREY, 0)], big, size=1500), blocks=[1, 0, 0])
        yield record('first-lost-' + s, tiff([(8, GREY, 0)], big, size=1500), blocks=[0, 1, 1])
    # what a colour picture still needs, and a monochrome one does not
    bits = (258, 3, 3, (520, [16] * 3))
    for way, entries in (('colour', but(STRIPS, bits)), ('grey', but(GREY, bits)), ('pair', but(STRIPS, bits, (277, 3, 1, 1)))):
        yield record('lost-' + way, tiff([(8, entries, 0)], size=530), blocks=[1, 0])
        yield record('came-' + way, tiff([(8, entries, 0)], size=530), blocks=[1, 1])
        yield record('out-' + way, tiff([(8, entries, 0)], size=522))

def drawn(draw, small, head=COLOUR, mixed=False):
    """A file that is fine, its page to read, how many entries that has and where it is. Mixed, it has entries of the other head."""
    tiled, big = draw.below(2) == 1, draw.below(2) == 1
    width, height = draw.between(1, 70), draw.between(1, 70)
    kind = draw.of((3, 4))
    if tiled:
        side, high = 16 * draw.between(1, 3), 16 * draw.between(1, 3)
        n = len(range(0, width, side)) * len(range(0, height, high))
        entries = but(TILES, (322, kind, 1, side), (323, 3, 1, high), *arrays(324, 325, n))
    else:
        rows = draw.of((1, 2, 5, 16, 70, 65535))
        n = len(range(0, height, min(rows, height)))
        entries = but(STRIPS, (278, kind, 1, rows), *arrays(273, 279, n, kind=draw.of((3, 4))))
    entries = but(entries, *of_head(head), (256, 3, 1, width), (257, kind, 1, height))
    for tag in (266, 274, 284, 317):
        if draw.below(3) == 0:
            entries = but(entries, (tag, draw.of((3, 4)), 1, 1))
    if draw.below(3) == 0:
        entries = but(entries, (258, 4, head.channels, [16] * head.channels))
    if mixed:
        other = of_head(COLOUR if head == MONO else MONO)
        entries = but(entries, *(e for e in other if draw.below(2)))
    entries = list(entries) + [(draw.between(400, 60000), draw.below(14), draw.below(9), draw.below(99)) for _ in range(draw.of((0, 0, 1, 3)))]
    for i in range(len(entries)):
        j = draw.below(len(entries))
        if draw.below(2):
            entries[i], entries[j] = entries[j], entries[i]
    page = draw.of((0, 0, 0, 1, 2))
    chain = chained(entries, page)
    shift = 0 if small else draw.between(300, 520)
    return tiff([(at + shift, own, after + shift if after else 0) for at, own, after in chain], big), page, len(entries), chain[page][0] + shift

def damaged(draw, file, at, n):
    """One place of the header, the directory or its arrays changed."""
    place = draw.of((draw.below(8), at + draw.below(2), at + 2 + 12 * draw.below(n) + draw.below(12), at + 2 + 12 * draw.below(n) + draw.of((0, 1, 2, 3, 4)),
                     draw.below(len(file)), at + 2 + 12 * n + draw.below(12)))
    place = min(place, len(file) - 1)
    kind = draw.below(8)
    if kind == 0:
        return file[:place]
    if kind == 1:
        other = at + 2 + 12 * draw.below(n)
        return patched(file, at + 2 + 12 * draw.below(n), file[other:other + draw.of((2, 4, 8, 12))])
    if kind == 2:
        return file + draw.some(3)
    return patched(file, place, bytes([draw.of((file[place] ^ 1 << draw.below(8), draw.below(256), 0, 1, 255))]))

def random(name, seed, how_many, small, mono=False):
    draw = Draw(seed)
    for i in range(how_many):
        file, page, n, at = drawn(draw, small, *((MONO, i % 4 == 0) if mono else ()))
        kind = draw.below(6)
        limits = LIMITS
        if kind == 0:
            limits = limits._replace(output=draw.of((6, 600, 3000, 20000)), segments=draw.of((1, 4, 16)))
        elif kind == 1:
            limits = limits._replace(tags=draw.between(8, 16), dimension=draw.between(20, 80))
        elif kind == 2:
            limits = limits._replace(directories=draw.between(0, 3), input=draw.of((len(file), len(file) + 1, len(file) - 1, TOP)))
        budget = draw.of((1000, 1000, 1000, n + 129, n + 128, n + 131, n + 134, draw.below(200)))
        for _ in range(draw.of((0, 1, 1, 1, 2, 3))):
            if len(file) > at + 2 + 12 * n:
                file = damaged(draw, file, at, n)
        page = draw.of((page, page, page, page, page, draw.below(5)))
        blocks = b''
        if draw.below(2 if small else 5) > 0:
            blocks = bytes(draw.of((1, 1, 1, 1, 1, 1, 0, 2, 255)) for _ in range((len(file) + 511) // 512))
            blocks = b'\x01' * min(len(blocks), 1) + blocks[1:] if draw.below(4) else blocks
        yield Record('%s-%03d' % (name, i), page, limits, budget, file, blocks)

# In the order in which the program runs them: a file's name, what its records are, and the records.
def files():
    return [(name, kind, list(made)) for name, kind, made in (
        ('headers.bin', 'front', headers()),
        ('places.bin', 'front', list(places()) + list(counts())),
        ('tags.bin', 'front', tags()),
        ('pages.bin', 'front', list(pages()) + list(budgets())),
        ('values.bin', 'front', values()),
        ('profile.bin', 'front', profile()),
        ('threes.bin', 'front', threes()),
        ('sides.bin', 'front', sides()),
        ('sizes.bin', 'front', sizes()),
        ('arrivals.bin', 'front', arrivals()),
        ('arrivals_body.bin', 'front', arrivals_of_body()),
        ('arrivals_three.bin', 'front', arrivals_of_three()),
        ('random_small.bin', 'front', random('small', 1, 200, True)),
        ('random_large.bin', 'front', random('large', 2, 70, False)),
        ('ranges.bin', 'range', ranges()),
        ('mono_heads.bin', 'front', mono_heads()),
        ('mono_values.bin', 'front', mono_values()),
        ('mono_sizes.bin', 'front', list(mono_sizes()) + list(mono_pages())),
        ('mono_arrivals.bin', 'front', mono_arrivals()),
        ('mono_random.bin', 'front', list(random('small', 3, 120, True, mono=True)) + list(random('large', 4, 40, False, mono=True))))]

def packed(r):
    if isinstance(r, Range):
        assert r.size <= 4096, r.tag
        return record_of(r.tag, (r.start, r.count, r.size), (), b'', r.blocks)
    return record_of(r.tag, (r.page, *r.limits, r.budget), (), r.file, r.blocks)

# Mistakes, each a change of one place of the model: what they are, the text and what stands there instead.
PAIR, EACH = 'slot[4] == h.photometric and slot[8] == h.channels', 'for k in range(n):'
BITS, FORM = '    alike(r, slots.get(2), head.channels, 16)\n', '    alike(r, slots.get(18), head.channels, 2)\n'
FITS, FIELD = 'if size * array.count <= 4:', 'r.number(array.field[size * k:size * (k + 1)])'
PLACE, OUTPUT = 'r.number(r.part(r.number(array.field) + size * k, size))', 'head.bytes * width * height\n'
WRONG = (
    # arrival
    ('nothing said is nothing came', 'return True\n', 'return False\n'),
    ('blocks of 511', 'return place // 512 < len(blocks) and blocks[place // 512]',
     'return place // 511 < len(blocks) and blocks[place // 511]'),
    ('blocks of 513', 'return place // 512 < len(blocks) and blocks[place // 512]',
     'return place // 513 < len(blocks) and blocks[place // 513]'),
    ('blocks of 1024', 'return place // 512 < len(blocks) and blocks[place // 512]',
     'return place // 1024 < len(blocks) and blocks[place // 1024]'),
    ('not 0 is came', 'blocks[place // 512] == 1', 'blocks[place // 512] != 0'),
    ('odd is came', 'blocks[place // 512] == 1', 'blocks[place // 512] % 2 == 1'),
    ('2 is came', 'blocks[place // 512] == 1', 'blocks[place // 512] in (1, 2)'),
    ('255 is came', 'blocks[place // 512] == 1', 'blocks[place // 512] in (1, 255)'),
    ('0 is came', 'blocks[place // 512] == 1', 'blocks[place // 512] == 0'),
    ('all came after a short map', 'place // 512 < len(blocks) and', 'place // 512 >= len(blocks) or'),
    ('the map is not looked at', 'return place // 512 < len(blocks) and blocks[place // 512] == 1', 'return True'),
    ('the last byte is outside', 'if start + count > size:', 'if start + count >= size:'),
    ('one byte more is inside', 'if start + count > size:', 'if start + count > size + 1:'),
    ('ends wrap at 2^64', 'if start + count > size:', 'if (start + count) % 2 ** 64 > size:'),
    ('ends wrap at 2^32', 'if start + count > size:', 'if (start + count) % 2 ** 32 > size:'),
    ('only the start is looked at', 'if start + count > size:', 'if start > size:'),
    ('only the count is looked at', 'if start + count > size:', 'if count > size:'),
    ('an empty range is inside', 'if start + count > size:', 'if count and start + count > size:'),
    ('an empty range at the end is outside', 'if start + count > size:', 'if start + count > size or start == size:'),
    ('only the first block', 'for place in range(start, start + count)', 'for place in range(start, start + min(count, 1))'),
    ('only the last block', 'for place in range(start, start + count)', 'for place in range(start + max(count, 1) - 1, start + count)'),
    ('first and last block', 'for place in range(start, start + count)', 'for place in ({start, start + count - 1} if count else ())'),
    ('the first byte is not looked at', 'for place in range(start, start + count)', 'for place in range(start + 1, start + count)'),
    ('the last byte is not looked at', 'for place in range(start, start + count)', 'for place in range(start, start + count - 1)'),
    ('one byte more is looked at', 'for place in range(start, start + count)', 'for place in range(start, start + count + 1)'),
    ('one byte before is looked at', 'for place in range(start, start + count)', 'for place in range(max(start - 1, 0), start + count)'),
    ('all of the file must come', 'for place in range(start, start + count)', 'for place in range(size)'),
    ('missing before outside', "    if start + count > size:\n        return 'outside'\n",
     "    if start < size and not all(came(blocks, place) for place in range(start, min(start + count, size))):\n"
     "        return 'missing'\n    if start + count > size:\n        return 'outside'\n"),
    ('outside is 8', 'raise Refused(1)', 'raise Refused(8)'),
    ('outside is 2', 'raise Refused(1)', 'raise Refused(2)'),
    ('missing is 1', 'raise Refused(8)', 'raise Refused(1)'),
    ('missing is 9', 'raise Refused(8)', 'raise Refused(9)'),
    ('missing is not tested', "if where == 'missing':", 'if False:'),
    # numbers and charges
    ('numbers are little-endian', 'return int.from_bytes(part, self.order)', "return int.from_bytes(part, 'little')"),
    ('numbers are big-endian', 'return int.from_bytes(part, self.order)', "return int.from_bytes(part, 'big')"),
    ('halves are swapped in four bytes', 'return int.from_bytes(part, self.order)',
     "return int.from_bytes(part[2:4] + part[0:2] if len(part) == 4 and self.order == 'big' else part, self.order)"),
    ('numbers of two bytes', 'return int.from_bytes(part, self.order)', 'return int.from_bytes(part, self.order) % 65536'),
    ('numbers of three bytes', 'return int.from_bytes(part, self.order)', 'return int.from_bytes(part, self.order) % 2 ** 24'),
    ('a charge of all is refused', 'if units > self.left:', 'if units >= self.left:'),
    ('a charge of one more is let pass', 'if units > self.left:', 'if units > self.left + 1:'),
    ('short of units is 4', 'raise Refused(7)', 'raise Refused(4)'),
    ('a failed charge is taken', '            raise Refused(7)\n', '            self.left = 0\n            raise Refused(7)\n'),
    ('a charge takes one', 'self.left -= units', 'self.left -= 1'),
    ('nothing is charged', 'self.left -= units', 'self.left -= 0'),
    # first limits
    ('input at the limit', 'if size > limits.input:', 'if size >= limits.input:'),
    ('input one above the limit', 'if size > limits.input:', 'if size > limits.input + 1:'),
    ('input is not tested', 'if size > limits.input:', 'if False:'),
    ('input is 1', 'if size > limits.input:\n        raise Refused(4)', 'if size > limits.input:\n        raise Refused(1)'),
    ('page at the limit', 'if page >= limits.directories:', 'if page > limits.directories:'),
    ('page one below the limit', 'if page >= limits.directories:', 'if page + 1 >= limits.directories:'),
    ('page is 5', 'if page >= limits.directories:\n        raise Refused(4)', 'if page >= limits.directories:\n        raise Refused(5)'),
    ('the page is not tested', 'if page >= limits.directories:', 'if page > 1000:'),
    ('short before limits', 'def limited(size, page, limits):\n',
     'def limited(size, page, limits):\n    if size < 8:\n        raise Refused(1)\n'),
    ('short between limits', '    if page >= limits.directories:',
     '    if size < 8:\n        raise Refused(1)\n    if page >= limits.directories:'),
    # header
    ('four bytes are a header', 'head = r.part(0, 8)\n', 'head = r.part(0, 4) + r.file[4:8]\n'),
    ('a header of seven', 'head = r.part(0, 8)\n', 'head = r.part(0, 7) + r.file[7:8]\n'),
    ('a header of nine', 'head = r.part(0, 8)\n', 'head = r.part(0, 9)\n'),
    ('the mark before the length', '    head = r.part(0, 8)\n',
     "    if r.file[:2] not in (b'II', b'MM'):\n        raise Refused(2)\n    head = r.part(0, 8)\n"),
    ('orders swapped', "r.order = 'little'", "r.order = 'big'"),
    ('little for big', "r.order = 'big'", "r.order = 'little'"),
    ('little by three bytes', "if mark == b'II*\\x00':", "if mark[:3] == b'II*':"),
    ('little by two bytes', "if mark == b'II*\\x00':", "if mark[:2] == b'II' and b'+' not in mark:"),
    ('little by the first and the rest', "if mark == b'II*\\x00':", "if mark[:1] + mark[2:] == b'I*\\x00':"),
    ('little by the second and the rest', "if mark == b'II*\\x00':", "if mark[1:] == b'I*\\x00':"),
    ('little without its third byte', "if mark == b'II*\\x00':", "if mark[:2] + mark[3:] == b'II\\x00' and mark[2:3] != b'+':"),
    ('big by three bytes', "elif mark == b'MM\\x00*':", "elif mark[:3] == b'MM\\x00' and mark[3:] != b'+':"),
    ('big without its third byte', "elif mark == b'MM\\x00*':", "elif mark[:2] + mark[3:] == b'MM*':"),
    ('big without its first byte', "elif mark == b'MM\\x00*':", "elif mark[1:] == b'M\\x00*':"),
    ('big without its second byte', "elif mark == b'MM\\x00*':", "elif mark[:1] + mark[2:] == b'M\\x00*':"),
    ('42 in either order', "if mark == b'II*\\x00':", "if mark in (b'II*\\x00', b'II\\x00*'):"),
    ('42 in either order, big', "elif mark == b'MM\\x00*':", "elif mark in (b'MM\\x00*', b'MM*\\x00'):"),
    ('64 bits is 2', "elif mark in (b'II+\\x00', b'MM\\x00+'):", 'elif False:'),
    ('64 bits little only', "elif mark in (b'II+\\x00', b'MM\\x00+'):", "elif mark == b'II+\\x00':"),
    ('64 bits big only', "elif mark in (b'II+\\x00', b'MM\\x00+'):", "elif mark == b'MM\\x00+':"),
    ('64 bits in any order', "elif mark in (b'II+\\x00', b'MM\\x00+'):",
     "elif mark in (b'II+\\x00', b'MM\\x00+', b'II\\x00+', b'MM+\\x00'):"),
    ('64 bits by three bytes', "elif mark in (b'II+\\x00', b'MM\\x00+'):", "elif mark[:3] == b'II+' or mark == b'MM\\x00+':"),
    ('any other mark is 3', "    else:\n        raise Refused(2)\n    return r.number(head[4:8])",
     "    else:\n        raise Refused(3)\n    return r.number(head[4:8])"),
    ('any other mark is 1', "    else:\n        raise Refused(2)\n    return r.number(head[4:8])",
     "    else:\n        raise Refused(1)\n    return r.number(head[4:8])"),
    ('the first offset has two bytes', 'return r.number(head[4:8])', "return r.number(head[4:6] if r.order == 'little' else head[6:8])"),
    ('the first directory is at 8', 'return r.number(head[4:8])', 'return r.number(head[4:8]) and 8'),
    ('odd first offsets are 2', '    return r.number(head[4:8])',
     '    if r.number(head[4:8]) % 2:\n        raise Refused(2)\n    return r.number(head[4:8])'),
    ('first offsets below 8 are 2', '    return r.number(head[4:8])',
     '    if 0 < r.number(head[4:8]) < 8:\n        raise Refused(2)\n    return r.number(head[4:8])'),
    # directories
    ('tag and type swapped', 'Entry(place, r.number(part[0:2]), r.number(part[2:4]),',
     'Entry(place, r.number(part[2:4]), r.number(part[0:2]),'),
    ('tags of one byte', 'Entry(place, r.number(part[0:2]),', 'Entry(place, r.number(part[0:2]) % 256 + 256,'),
    ('types of one byte', 'r.number(part[2:4]), r.number(part[4:8])', 'r.number(part[2:4]) % 256, r.number(part[4:8])'),
    ('types by their high byte too', 'r.number(part[2:4]), r.number(part[4:8])',
     'r.number(part[2:4]) // 256 or r.number(part[2:4]), r.number(part[4:8])'),
    ('counts of two bytes', 'r.number(part[4:8]), part[8:12])', 'r.number(part[4:8]) % 65536, part[8:12])'),
    ('counts of three bytes', 'r.number(part[4:8]), part[8:12])', 'r.number(part[4:8]) % 2 ** 24, part[8:12])'),
    ('places are those of the fields', 'return Entry(place,', 'return Entry(place + 8,'),
    ('the count has four bytes', 'n = r.number(r.part(at, 2))', 'n = r.number(r.part(at, 4)[:2])'),
    ('the count has a byte', 'n = r.number(r.part(at, 2))', "n = r.number(r.part(at, 1) + r.file[at + 1:at + 2])"),
    ('an empty directory is fine', 'if n == 0:\n', 'if False:\n'),
    ('an empty directory is 1', 'if n == 0:\n        raise Refused(2)', 'if n == 0:\n        raise Refused(1)'),
    ('one entry is too few', 'if n == 0:\n', 'if n <= 1:\n'),
    ('tags at the limit', 'if n > limits.tags:', 'if n >= limits.tags:'),
    ('one tag above the limit', 'if n > limits.tags:', 'if n > limits.tags + 1:'),
    ('tags above the limit are 3', 'if n > limits.tags:\n        raise Refused(4)', 'if n > limits.tags:\n        raise Refused(3)'),
    ('tags are not limited', 'if n > limits.tags:', 'if False:'),
    ('empty where no tags are allowed is 4', 'if n == 0:\n        raise Refused(2)', 'if n == 0:\n        raise Refused(2 if limits.tags else 4)'),
    ('empty after the body', '    if n == 0:\n        raise Refused(2)\n    if n > limits.tags:\n        raise Refused(4)\n    body = r.part(at + 2, 12 * n + 4)\n',
     '    if n > limits.tags:\n        raise Refused(4)\n    body = r.part(at + 2, 12 * n + 4)\n    if n == 0:\n        raise Refused(2)\n'),
    ('the limit after the body', '    if n > limits.tags:\n        raise Refused(4)\n    body = r.part(at + 2, 12 * n + 4)\n',
     '    body = r.part(at + 2, 12 * n + 4)\n    if n > limits.tags:\n        raise Refused(4)\n'),
    ('the limit after the charge', '    if n > limits.tags:\n        raise Refused(4)\n    body = r.part(at + 2, 12 * n + 4)\n    r.charge(n + 1)\n',
     '    body = r.part(at + 2, 12 * n + 4)\n    r.charge(n + 1)\n    if n > limits.tags:\n        raise Refused(4)\n'),
    ('the body without the next offset', 'body = r.part(at + 2, 12 * n + 4)',
     'body = r.part(at + 2, 12 * n) + (r.file[at + 2 + 12 * n:at + 6 + 12 * n])'),
    ('the body and two bytes of the next offset', 'body = r.part(at + 2, 12 * n + 4)',
     'body = r.part(at + 2, 12 * n + 2) + r.file[at + 4 + 12 * n:at + 6 + 12 * n]'),
    ('the body and three bytes of the next offset', 'body = r.part(at + 2, 12 * n + 4)',
     'body = r.part(at + 2, 12 * n + 3) + r.file[at + 5 + 12 * n:at + 6 + 12 * n]'),
    ('the body and one byte more', 'body = r.part(at + 2, 12 * n + 4)', 'body = r.part(at + 2, 12 * n + 5)'),
    ('entries and the next offset apart', 'body = r.part(at + 2, 12 * n + 4)',
     'body = r.part(at + 2, 12 * n) + r.part(at + 2 + 12 * n, 4)'),
    ('only known entries are needed', 'body = r.part(at + 2, 12 * n + 4)',
     "body = r.file[at + 2:at + 6 + 12 * n] if at + 6 + 12 * n <= len(r.file) else r.part(at + 2, 12 * n + 4)\n"
     "    [r.part(at + 2 + 12 * i, 12) for i in range(n) if r.number(body[12 * i:12 * i + 2]) in SLOTS]\n    r.part(at + 2 + 12 * n, 4)"),
    ('the charge is n', 'r.charge(n + 1)', 'r.charge(n)'),
    ('the charge is 12n', 'r.charge(n + 1)', 'r.charge(12 * n)'),
    ('the charge is n + 2', 'r.charge(n + 1)', 'r.charge(n + 2)'),
    ('the charge before the body', '    body = r.part(at + 2, 12 * n + 4)\n    r.charge(n + 1)\n',
     '    r.charge(n + 1)\n    body = r.part(at + 2, 12 * n + 4)\n'),
    ('a directory is free', 'r.charge(n + 1)', 'r.charge(0)'),
    ('a second time before the charge', '    r.charge(n + 1)\n',
     '    own = [r.number(body[12 * i:12 * i + 2]) for i in range(n)]\n    if any(own.count(tag) > 1 for tag in SLOTS):\n        raise Refused(2)\n'
     '    r.charge(n + 1)\n'),
    ('unknown tags are free', 'r.charge(n + 1)', 'r.charge(1 + sum(r.number(body[12 * i:12 * i + 2]) in SLOTS for i in range(n)))'),
    ('type 0 is let pass', 'if any(e.kind == 0 for e in known):', 'if False:'),
    ('type 0 of any tag', 'if any(e.kind == 0 for e in known):', 'if any(e.kind == 0 for e in entries):'),
    ('type 0 is 3', 'if any(e.kind == 0 for e in known):\n        raise Refused(2)',
     'if any(e.kind == 0 for e in known):\n        raise Refused(3)'),
    ('a second time is let pass', 'if len(set(e.tag for e in known)) < len(known):', 'if False:'),
    ('a second time of any tag', 'if len(set(e.tag for e in known)) < len(known):', 'if len(set(e.tag for e in entries)) < len(entries):'),
    ('a second time with another type', 'if len(set(e.tag for e in known)) < len(known):',
     'if len(set((e.tag, e.kind) for e in known)) < len(known):'),
    ('a second time is 3', 'if len(set(e.tag for e in known)) < len(known):\n        raise Refused(2)',
     'if len(set(e.tag for e in known)) < len(known):\n        raise Refused(3)'),
    ('a second time next to the first', 'if len(set(e.tag for e in known)) < len(known):',
     'if any(a.tag == b.tag for a, b in zip(known, known[1:])):'),
    ('tags must ascend', 'if len(set(e.tag for e in known)) < len(known):',
     'if any(a.tag >= b.tag for a, b in zip(entries, entries[1:])):'),
    ('known tags must ascend', 'if len(set(e.tag for e in known)) < len(known):',
     'if any(a.tag >= b.tag for a, b in zip(known, known[1:])):'),
    ('unknown tags are 2', 'if any(e.kind == 0 for e in known):', 'if len(known) < len(entries):'),
    ('the entries are only the known', '{SLOTS.index(e.tag): e for e in known}, n,', '{SLOTS.index(e.tag): e for e in known}, len(known),'),
    ('the next offset has two bytes', 'r.number(body[12 * n:12 * n + 4])', "r.number(body[12 * n:12 * n + 4]) % 65536"),
    ('there is no next directory', 'r.number(body[12 * n:12 * n + 4])', '0'),
    ('only the page is looked at', 'slots, n, at = directory(r, at, limits)',
     'slots, n, at = directory(r, at, limits) if turn in (0, page) else (slots, n, r.number(r.part(at + 2 + 12 * r.number(r.part(at, 2)), 4)))'),
    ('one directory too far', 'for turn in range(page + 1):', 'for turn in range(page + 2):'),
    ('one directory too few', 'for turn in range(page + 1):', 'for turn in range(max(page, 1)):'),
    ('no directory is 1', 'raise Refused(5)', 'raise Refused(1)'),
    ('no directory is 2', 'raise Refused(5)', 'raise Refused(2)'),
    ('the page itself must not be last', '    return slots, n\n', '    if at == 0:\n        raise Refused(5)\n    return slots, n\n'),
    ('loops are 2', '        slots, n, at = directory(r, at, limits)\n',
     '        been = [at] if turn == 0 else been + [at]\n        if at in been[:-1]:\n            raise Refused(2)\n        slots, n, at = directory(r, at, limits)\n'),
    ('a turn of a loop is free', '        slots, n, at = directory(r, at, limits)\n',
     '        been = [at] if turn == 0 else been + [at]\n        held = r.left\n        again = at in been[:-1]\n'
     '        slots, n, at = directory(r, at, limits)\n        r.left = held if again else r.left\n'),
    ('a page has what another has', '        slots, n, at = directory(r, at, limits)\n',
     '        own, n, at = directory(r, at, limits)\n        slots = own if turn == 0 else {**slots, **own}\n'),
    ('few tags are not checked', '    known = [e for e in entries if e.tag in SLOTS]\n',
     '    known = [e for e in entries if e.tag in SLOTS]\n    known = known if len(known) > 3 else []\n'),
    # profile
    ('127 for the profile', 'r.charge(128)', 'r.charge(127)'),
    ('129 for the profile', 'r.charge(128)', 'r.charge(129)'),
    ('the profile is free', 'r.charge(128)', 'r.charge(0)'),
    ('the profile is charged for each page', 'r.charge(128)', 'r.charge(128 * (page + 1))'),
    ('the profile is charged first', '    slots, n = directories(r, page, limits)\n    r.charge(128)\n',
     '    r.charge(128)\n    slots, n = directories(r, page, limits)\n'),
    ('128 after the numbers', '    r.charge(128)\n    slot = scalars(r, slots)\n', '    slot = scalars(r, slots)\n    r.charge(128)\n'),
    ('any type is a number', '        if e.kind not in SIZES:\n            raise Refused(2)\n        if e.count',
     '        if e.kind in SIZES and False:\n            raise Refused(2)\n        e = e._replace(kind=e.kind if e.kind in SIZES else 3)\n        if e.count'),
    ('a type is 3', '        if e.kind not in SIZES:\n            raise Refused(2)\n        if e.count',
     '        if e.kind not in SIZES:\n            raise Refused(3)\n        if e.count'),
    ('type 1 is a number', 'SIZES = {3: 2, 4: 4}', 'SIZES = {1: 1, 3: 2, 4: 4}'),
    ('type 5 is a number', 'SIZES = {3: 2, 4: 4}', 'SIZES = {3: 2, 4: 4, 5: 8}'),
    ('type 2 is a number', 'SIZES = {3: 2, 4: 4}', 'SIZES = {2: 1, 3: 2, 4: 4}'),
    ('type 4 is no number', 'SIZES = {3: 2, 4: 4}', 'SIZES = {3: 2}'),
    ('type 3 is no number', 'SIZES = {3: 2, 4: 4}', 'SIZES = {4: 4}'),
    ('type 3 has four bytes', 'SIZES = {3: 2, 4: 4}', 'SIZES = {3: 4, 4: 4}'),
    ('type 4 has two bytes', 'SIZES = {3: 2, 4: 4}', 'SIZES = {3: 2, 4: 2}'),
    ('any count of a number', 'if e.count != 1:\n            raise Refused(2)', 'if False:\n            raise Refused(2)'),
    ('count 0 of a number', 'if e.count != 1:\n', 'if e.count > 1:\n'),
    ('count 2 of a number', 'if e.count != 1:\n', 'if e.count < 1:\n'),
    ('a count is 3', 'if e.count != 1:\n            raise Refused(2)', 'if e.count != 1:\n            raise Refused(3)'),
    ('a short number right-justified', 'r.number(e.field[:SIZES[e.kind]])', 'r.number(e.field[-SIZES[e.kind]:])'),
    ('a short number right-justified if big', 'r.number(e.field[:SIZES[e.kind]])',
     "r.number(e.field[-SIZES[e.kind]:] if r.order == 'big' else e.field[:SIZES[e.kind]])"),
    ('a number is the whole field', 'r.number(e.field[:SIZES[e.kind]])', 'r.number(e.field)'),
    ('no width is 1', 'SCALARS = {0: 0, 1: 0,', 'SCALARS = {0: 1, 1: 0,'),
    ('no height is 1', 'SCALARS = {0: 0, 1: 0,', 'SCALARS = {0: 0, 1: 1,'),
    ('no compression is ours', ' 3: 1, 4: 0,', ' 3: 34676, 4: 0,'),
    ('no photometric is ours', ' 3: 1, 4: 0,', ' 3: 1, 4: 32845,'),
    ('no fill order is 0', ' 5: 1, 7: 1, 8: 1,', ' 5: 0, 7: 1, 8: 1,'),
    ('no orientation is 0', ' 5: 1, 7: 1, 8: 1,', ' 5: 1, 7: 0, 8: 1,'),
    ('no samples is 3', ' 5: 1, 7: 1, 8: 1,', ' 5: 1, 7: 1, 8: 3,'),
    ('no rows is 0', '9: 4294967295,', '9: 0,'),
    ('no rows is 1', '9: 4294967295,', '9: 1,'),
    ('no rows is 4', '9: 4294967295,', '9: 4,'),
    ('no planar is 0', '11: 1, 12: 1,', '11: 0, 12: 1,'),
    ('no predictor is 0', '11: 1, 12: 1,', '11: 1, 12: 0,'),
    ('no tile width is 16', '13: 0, 14: 0,', '13: 16, 14: 0,'),
    ('no tile height is 16', '13: 0, 14: 0,', '13: 0, 14: 16,'),
    ('slot 17 is not a number', '14: 0, 17: 0}', '14: 0}'),
    ('width is not limited', 'if width < 1 or width > limits.dimension:', 'if width < 1:'),
    ('width at the limit', 'if width < 1 or width > limits.dimension:', 'if width < 1 or width >= limits.dimension:'),
    ('width one above', 'if width < 1 or width > limits.dimension:', 'if width < 1 or width > limits.dimension + 1:'),
    ('width 1', 'if width < 1 or width > limits.dimension:', 'if width <= 1 or width > limits.dimension:'),
    ('width is 4', 'if width < 1 or width > limits.dimension:\n        raise Refused(3)',
     'if width < 1 or width > limits.dimension:\n        raise Refused(4)'),
    ('width 0 is 2', 'if width < 1 or width > limits.dimension:\n        raise Refused(3)',
     'if width < 1 or width > limits.dimension:\n        raise Refused(3 if width else 2)'),
    ('height is not limited', 'if height < 1 or height > limits.dimension:', 'if height < 1:'),
    ('height at the limit', 'if height < 1 or height > limits.dimension:', 'if height < 1 or height >= limits.dimension:'),
    ('height one above', 'if height < 1 or height > limits.dimension:', 'if height < 1 or height > limits.dimension + 1:'),
    ('height 1', 'if height < 1 or height > limits.dimension:', 'if height <= 1 or height > limits.dimension:'),
    ('height is 4', 'if height < 1 or height > limits.dimension:\n        raise Refused(3)',
     'if height < 1 or height > limits.dimension:\n        raise Refused(4)'),
    ('height 0 is 2', 'if height < 1 or height > limits.dimension:\n        raise Refused(3)',
     'if height < 1 or height > limits.dimension:\n        raise Refused(3 if height else 2)'),
    ('width and height swapped', 'width, height = slot[0], slot[1]', 'height, width = slot[0], slot[1]'),
    ('any samples: the head by slot 4 alone', PAIR, 'slot[4] == h.photometric'),
    ('samples of 4 too', PAIR, 'slot[4] == h.photometric and slot[8] in (h.channels, 4)'),
    ('samples of 1 too', PAIR, 'slot[4] == h.photometric and slot[8] in (h.channels, 1)'),
    ('any compression', 'if slot[3] != 34676:', 'if False:'),
    ('compression 34677 too', 'if slot[3] != 34676:', 'if slot[3] not in (34676, 34677):'),
    ('any photometric: the head by slot 8 alone', PAIR, 'slot[8] == h.channels'),
    ('photometric 32844 too', PAIR, 'slot[4] in (h.photometric, 32844) and slot[8] == h.channels'),
    ('the profile is 2', 'if not heads:\n        raise Refused(3)', 'if not heads:\n        raise Refused(2)'),
    ('another compression is 2', 'if slot[3] != 34676:\n        raise Refused(3)', 'if slot[3] != 34676:\n        raise Refused(2)'),
    ('any fill order', 'if slot[5] != 1 or slot[7]', 'if slot[7]'),
    ('fill order 2 too', 'if slot[5] != 1 or slot[7]', 'if slot[5] not in (1, 2) or slot[7]'),
    ('any orientation', 'slot[7] != 1 or slot[11]', 'slot[11]'),
    ('any planar', 'slot[11] != 1 or slot[12]', 'slot[12]'),
    ('any predictor', ' or slot[12] != 1:', ':'),
    ('predictor 0 too', ' or slot[12] != 1:', ' or slot[12] > 1:'),
    ('orders and the rest are 2', 'or slot[12] != 1:\n        raise Refused(3)', 'or slot[12] != 1:\n        raise Refused(2)'),
    ('slot 17 is fine', 'if 17 in slots:', 'if False:'),
    ('slot 17 of 0 is fine', 'if 17 in slots:', 'if slot[17]:'),
    ('slot 17 is 2', 'if 17 in slots:\n        raise Refused(3)', 'if 17 in slots:\n        raise Refused(2)'),
    ('slot 17 before the numbers', '    slot = scalars(r, slots)\n',
     '    if 17 in slots:\n        raise Refused(3)\n    slot = scalars(r, slots)\n'),
    ('width before the other numbers', '    slot = scalars(r, slots)\n',
     '    slot = scalars(r, {0: slots[0]} if 0 in slots else {})\n    if slot[0] < 1:\n        raise Refused(3)\n    slot = scalars(r, slots)\n'),
    ('the arrays before step 2', '    width, height = slot[0], slot[1]\n',
     '    alike(r, slots.get(2), slot[8], 16)\n    width, height = slot[0], slot[1]\n'),
    ('the arrays before the predictor', '    if slot[5] != 1 or', '    alike(r, slots.get(2), head.channels, 16)\n    if slot[5] != 1 or'),
    ('the arrays before slot 17', '    if 17 in slots:', '    alike(r, slots.get(2), head.channels, 16)\n    if 17 in slots:'),
    ('strip tags before step 2', '    width, height = slot[0], slot[1]\n',
     '    if 15 not in slots and 13 in slots:\n        raise Refused(2)\n    width, height = slot[0], slot[1]\n'),
    # three values
    ('no array is fine', 'if e is None or e.kind not in SIZES or e.count != n:',
     'if e is None:\n        return\n    if e.kind not in SIZES or e.count != n:'),
    ('an array of another type is 2', 'if e is None or e.kind not in SIZES or e.count != n:\n        raise Refused(3)',
     'if e is None or e.kind not in SIZES or e.count != n:\n        raise Refused(2)'),
    ('no array is 2', 'if e is None or e.kind not in SIZES or e.count != n:',
     'if e is None:\n        raise Refused(2)\n    if e.kind not in SIZES or e.count != n:'),
    ('arrays of type 3 alone', 'if e is None or e.kind not in SIZES or e.count != n:', 'if e is None or e.kind != 3 or e.count != n:'),
    ('an array of three or more', 'if e is None or e.kind not in SIZES or e.count != n:',
     'if e is None or e.kind not in SIZES or e.count < n:'),
    ('an array of one too', 'if e is None or e.kind not in SIZES or e.count != n:',
     'n = 1 if e is not None and e.count == 1 else n\n    if e is None or e.kind not in SIZES or e.count != n:'),
    ('an array of up to three', 'if e is None or e.kind not in SIZES or e.count != n:',
     'n = n if e is None else min(n, e.count)\n    if e is None or e.kind not in SIZES or e.count != n:'),
    ('an array of two in the field too', 'if e is None or e.kind not in SIZES or e.count != n:',
     'if e is not None and e.kind == 3 and e.count == 2 and r.number(e.field[:2]) == r.number(e.field[2:]) == wanted:\n'
     '        return\n    if e is None or e.kind not in SIZES or e.count != n:'),
    ('the first two of three stand in the field', 'if value(r, e, k) != wanted:',
     'if value(r, e._replace(count=2) if e.kind == 3 and k < 2 else e, k) != wanted:'),
    ('three values side by side in two bytes', 'size = SIZES[array.kind]', 'size = 2'),
    ('three values in four bytes', 'size = SIZES[array.kind]', 'size = 4'),
    ('the base has two bytes', PLACE, PLACE.replace('field)', 'field) % 65536')),
    ('the base is counted from the directory', PLACE, PLACE.replace('field)', 'field) + 8')),
    ('two values are looked at', EACH, 'for k in range(min(n, 2)):'),
    ('one value is looked at', EACH, 'for k in range(1):'),
    ('the values backwards', EACH, 'for k in range(n)[::-1]:'),
    ('the first is not looked at', EACH, 'for k in range(n > 1, n):'),
    ('the middle is not looked at', EACH, 'for k in {0, n - 1}:'),
    ('all three inside first', '    ' + EACH, '    if n > 1:\n        r.part(r.number(e.field), n * SIZES[e.kind])\n    ' + EACH),
    ('all three inside the file first', '    ' + EACH,
     '    if n > 1 and r.number(e.field) + n * SIZES[e.kind] > len(r.file):\n        raise Refused(1)\n    ' + EACH),
    ('a value is its low half', '!= wanted:\n            raise Refused(3)', '% 65536 != wanted:\n            raise Refused(3)'),
    ('unequal is 2', '!= wanted:\n            raise Refused(3)', '!= wanted:\n            raise Refused(2)'),
    ('values at most', '!= wanted:', '> wanted:'),
    ('values at least', '!= wanted:', '< wanted:'),
    ('slot 18 before slot 2', BITS + FORM, FORM + BITS),
    ('both types before both values', BITS + FORM,
     '    if any(slots.get(s) is None or slots[s].kind not in SIZES or slots[s].count != head.channels for s in (2, 18)):\n'
     '        raise Refused(3)\n' + BITS + FORM),
    ('slot 2 is not looked at', BITS, ''),
    ('slot 18 is not looked at', FORM, ''),
    ('slot 18 may be 16', FORM, FORM.replace(' 2)', ' 16)')),
    # sides
    ('tiled by slot 13', 'tiled = 15 in slots', 'tiled = 13 in slots'),
    ('tiled by slot 16', 'tiled = 15 in slots', 'tiled = 16 in slots'),
    ('tiled by slots 13 and 15', 'tiled = 15 in slots', 'tiled = 15 in slots and 13 in slots'),
    ('tiled without slot 6', 'tiled = 15 in slots', 'tiled = 15 in slots and 6 not in slots'),
    ('tiled by a fit slot 15', 'tiled = 15 in slots', 'tiled = 15 in slots and slots[15].kind in SIZES and slots[15].count > 0'),
    ('slot 13 or the width', 'block_width = slot[13] if tiled else width', 'block_width = slot[13] or width'),
    ('slot 13 in strips too', 'block_width = slot[13] if tiled else width', 'block_width = slot[13] if 13 in slots else width'),
    ('the width in tiles without slot 13', 'block_width = slot[13] if tiled else width',
     'block_width = slot[13] if tiled and 13 in slots else width'),
    ('slot 14 in strips too', 'block_height = slot[14] if tiled else', 'block_height = slot[14] if 14 in slots else'),
    ('the rows in tiles without slot 14', 'block_height = slot[14] if tiled else',
     'block_height = slot[14] if tiled and 14 in slots else'),
    ('sides swapped', 'block_height = slot[14] if tiled else', 'block_height = slot[13] if tiled else'),
    ('rows above the height stay', 'min(slot[9], height)', 'slot[9]'),
    ('the greater of rows and height', 'min(slot[9], height)', 'max(slot[9], height)'),
    ('rows are the height', 'min(slot[9], height)', 'height'),
    ('tiles are no higher than slot 9', 'block_height = slot[14] if tiled else min(slot[9], height)',
     'block_height = min(slot[14] if tiled else height, slot[9])'),
    ('tiles are no higher than the picture', 'block_height = slot[14] if tiled else min(slot[9], height)',
     'block_height = min(slot[14] if tiled else slot[9], height)'),
    ('tiles are no wider than the picture', 'block_width = slot[13] if tiled else width',
     'block_width = min(slot[13], width) if tiled else width'),
    ('blocks of 16384 are too wide', 'if block_width < 1 or block_width > 16384:', 'if block_width < 1 or block_width >= 16384:'),
    ('blocks of 16385 are fine', 'if block_width < 1 or block_width > 16384:', 'if block_width < 1 or block_width > 16385:'),
    ('any width of blocks', 'if block_width < 1 or block_width > 16384:', 'if block_width < 1:'),
    ('strips may be wide', 'if block_width < 1 or block_width > 16384:', 'if block_width < 1 or tiled and block_width > 16384:'),
    ('tiles may be wide', 'if block_width < 1 or block_width > 16384:', 'if block_width < 1 or not tiled and block_width > 16384:'),
    ('wide blocks are 4', 'if block_width < 1 or block_width > 16384:\n        raise Refused(3)',
     'if block_width < 1 or block_width > 16384:\n        raise Refused(4)'),
    ('no width of blocks is 2', 'if block_width < 1 or block_width > 16384:\n        raise Refused(3)',
     'if block_width < 1 or block_width > 16384:\n        raise Refused(3 if block_width else 2)'),
    ('blocks of 16384 are too high', 'if block_height < 1 or block_height > 16384:', 'if block_height < 1 or block_height >= 16384:'),
    ('blocks of height 16385 are fine', 'if block_height < 1 or block_height > 16384:', 'if block_height < 1 or block_height > 16385:'),
    ('strips may be high', 'if block_height < 1 or block_height > 16384:', 'if block_height < 1 or tiled and block_height > 16384:'),
    ('tiles may be high', 'if block_height < 1 or block_height > 16384:', 'if block_height < 1 or not tiled and block_height > 16384:'),
    ('no height of blocks is 2', 'if block_height < 1 or block_height > 16384:\n        raise Refused(3)',
     'if block_height < 1 or block_height > 16384:\n        raise Refused(3 if block_height else 2)'),
    ('the height of blocks is 4', 'if block_height < 1 or block_height > 16384:\n        raise Refused(3)',
     'if block_height < 1 or block_height > 16384:\n        raise Refused(4)'),
    ('tiles with slot 6', 'if tiled and (6 in slots or 10 in slots):', 'if tiled and 10 in slots:'),
    ('tiles with slot 10', 'if tiled and (6 in slots or 10 in slots):', 'if tiled and 6 in slots:'),
    ('tiles with slots 6 and 10 only', 'if tiled and (6 in slots or 10 in slots):', 'if tiled and 6 in slots and 10 in slots:'),
    ('tiles with slot 9 are 2', 'if tiled and (6 in slots or 10 in slots):', 'if tiled and (6 in slots or 10 in slots or 9 in slots):'),
    ('tiles with strip tags are 3', 'if tiled and (6 in slots or 10 in slots):\n        raise Refused(2)',
     'if tiled and (6 in slots or 10 in slots):\n        raise Refused(3)'),
    ('any side of tiles', 'if tiled and (block_width % 16 > 0 or block_height % 16 > 0):', 'if False:'),
    ('any width of tiles', 'if tiled and (block_width % 16 > 0 or block_height % 16 > 0):', 'if tiled and block_height % 16 > 0:'),
    ('any height of tiles', 'if tiled and (block_width % 16 > 0 or block_height % 16 > 0):', 'if tiled and block_width % 16 > 0:'),
    ('sides of 8 too', 'if tiled and (block_width % 16 > 0 or block_height % 16 > 0):',
     'if tiled and (block_width % 8 > 0 or block_height % 8 > 0):'),
    ('sides of 32 only', 'if tiled and (block_width % 16 > 0 or block_height % 16 > 0):',
     'if tiled and (block_width % 32 > 0 or block_height % 32 > 0):'),
    ('strips of 16 only', 'if tiled and (block_width % 16 > 0 or block_height % 16 > 0):',
     'if block_width % 16 > 0 or block_height % 16 > 0:'),
    ('sides are 3', 'if tiled and (block_width % 16 > 0 or block_height % 16 > 0):\n        raise Refused(2)',
     'if tiled and (block_width % 16 > 0 or block_height % 16 > 0):\n        raise Refused(3)'),
    ('multiples before the bound', '    if block_width < 1 or block_width > 16384:',
     '    if tiled and (block_width % 16 > 0 or block_height % 16 > 0):\n        raise Refused(2)\n    if block_width < 1 or block_width > 16384:'),
    ('other tags before the sides', '    if block_width < 1 or block_width > 16384:',
     '    if tiled and (6 in slots or 10 in slots) or not tiled and 13 in slots:\n        raise Refused(2)\n    if block_width < 1 or block_width > 16384:'),
    ('other tags between the sides', '    if block_height < 1 or block_height > 16384:',
     '    if tiled and 10 in slots or not tiled and 14 in slots:\n        raise Refused(2)\n    if block_height < 1 or block_height > 16384:'),
    ('strips with slot 13', 'if not tiled and (13 in slots or 14 in slots or 16 in slots):',
     'if not tiled and (14 in slots or 16 in slots):'),
    ('strips with slot 14', 'if not tiled and (13 in slots or 14 in slots or 16 in slots):',
     'if not tiled and (13 in slots or 16 in slots):'),
    ('strips with slot 16', 'if not tiled and (13 in slots or 14 in slots or 16 in slots):',
     'if not tiled and (13 in slots or 14 in slots):'),
    ('strips with slot 13 of 0', 'if not tiled and (13 in slots or 14 in slots or 16 in slots):',
     'if not tiled and (slot[13] or 14 in slots or 16 in slots):'),
    ('strips with slot 14 of 0', 'if not tiled and (13 in slots or 14 in slots or 16 in slots):',
     'if not tiled and (13 in slots or slot[14] or 16 in slots):'),
    ('strips with tile tags are 3', 'if not tiled and (13 in slots or 14 in slots or 16 in slots):\n        raise Refused(2)',
     'if not tiled and (13 in slots or 14 in slots or 16 in slots):\n        raise Refused(3)'),
    # sizes
    ('across rounded down', 'len(range(0, width, block_width)), len', 'max(width // block_width, 1), len'),
    ('down rounded down', 'len(range(0, height, block_height))\n', 'max(height // block_height, 1)\n'),
    ('across one more', 'len(range(0, width, block_width)), len', 'width // block_width + 1, len'),
    ('down one more', 'len(range(0, height, block_height))\n', 'height // block_height + 1\n'),
    ('across by the height', 'len(range(0, width, block_width)), len', 'len(range(0, width, block_height)), len'),
    ('down is across', 'segments, output = across * down,', 'segments, output = across * across,'),
    ('segments are added', 'segments, output = across * down,', 'segments, output = across + down - 1,'),
    ('segments wrap at 2^32', 'segments, output = across * down,', 'segments, output = across * down % 2 ** 32,'),
    ('output wraps at 2^64', OUTPUT, OUTPUT.replace('\n', ' % 2 ** 64\n')),
    ('output wraps at 2^32', OUTPUT, OUTPUT.replace('\n', ' % 2 ** 32\n')),
    ('four bytes a pixel', OUTPUT, '4 * width * height\n'),
    ('output of whole blocks', OUTPUT, 'head.bytes * across * block_width * down * block_height\n'),
    ('segments at the limit', 'if segments > limits.segments:', 'if segments >= limits.segments:'),
    ('segments one above', 'if segments > limits.segments:', 'if segments > limits.segments + 1:'),
    ('segments are not limited', 'if segments > limits.segments:', 'if False:'),
    ('segments are 3', 'if segments > limits.segments:\n        raise Refused(4)',
     'if segments > limits.segments:\n        raise Refused(3)'),
    ('across and down limited apart', 'if segments > limits.segments:', 'if across > limits.segments or down > limits.segments:'),
    ('output at the limit', 'if output > limits.output:', 'if output >= limits.output:'),
    ('output one above', 'if output > limits.output:', 'if output > limits.output + 1:'),
    ('output is not limited', 'if output > limits.output:', 'if False:'),
    ('output is 6', 'if output > limits.output:\n        raise Refused(4)', 'if output > limits.output:\n        raise Refused(6)'),
    ('output before the sides', '    if block_width < 1 or block_width > 16384:',
     '    if head.bytes * width * height > limits.output:\n        raise Refused(4)\n    if block_width < 1 or block_width > 16384:'),
    ('output before the tags of tiles', '    if tiled and (6 in slots or 10 in slots):',
     '    if head.bytes * width * height > limits.output:\n        raise Refused(4)\n    if tiled and (6 in slots or 10 in slots):'),
    ('output before the tags of strips', '    if not tiled and (13 in slots',
     '    if head.bytes * width * height > limits.output:\n        raise Refused(4)\n    if not tiled and (13 in slots'),
    ('output before the arrays of three', BITS,
     '    if head.bytes * width * height > limits.output:\n        raise Refused(4)\n' + BITS),
    # arrays
    ('the arrays before the sizes', '    if segments > limits.segments:',
     '    if any(s not in slots for s in ((15, 16) if tiled else (6, 10))):\n        raise Refused(2)\n    if segments > limits.segments:'),
    ('the output after the arrays', '    if output > limits.output:',
     '    if any(s not in slots for s in ((15, 16) if tiled else (6, 10))):\n        raise Refused(2)\n    if output > limits.output:'),
    ('no array is 3', 'if array is None:\n            raise Refused(2)', 'if array is None:\n            raise Refused(3)'),
    ('arrays of any type', 'if array.kind not in SIZES:', 'if False:'),
    ('arrays of type 4 alone', 'if array.kind not in SIZES:', 'if array.kind != 4:'),
    ('an array of another type is 3', 'if array.kind not in SIZES:\n            raise Refused(2)',
     'if array.kind not in SIZES:\n            raise Refused(3)'),
    ('arrays of both the same type', 'if array.kind not in SIZES:',
     'if array.kind not in SIZES or counts is None or counts.kind != offsets.kind:'),
    ('arrays that are longer', 'if array.count != segments:', 'if array.count < segments:'),
    ('arrays that are shorter', 'if array.count != segments:', 'if array.count > segments:'),
    ('arrays of any count', 'if array.count != segments:', 'if False:'),
    ('an array of another count is 1', 'if array.count != segments:\n            raise Refused(2)',
     'if array.count != segments:\n            raise Refused(1)'),
    ('only the offsets', 'for array in (offsets, counts):', 'for array in (offsets, counts) if counts is None else (offsets,):'),
    ('only the counts', 'for array in (offsets, counts):', 'for array in (offsets, counts) if offsets is None else (counts,):'),
    ('the arrays must be inside', '        if array.count != segments:\n',
     '        if array.count > 1:\n            r.part(r.number(array.field), array.count * SIZES[array.kind])\n        if array.count != segments:\n'),
    ('two shorts must be inside', '        if array.count != segments:\n',
     '        if array.kind == 3 and array.count == 2:\n            r.part(r.number(array.field), 0)\n'
     '        if array.count != segments:\n'),
    ('two shorts must have come', '        if array.count != segments:\n',
     '        if array.kind == 3 and array.count == 2 and r.number(array.field) < len(r.file):\n'
     '            r.part(r.number(array.field), 1)\n        if array.count != segments:\n'),
    ('arrays without values', 'if array.count != segments:', 'if array.count not in (0, segments):'),
    ('offsets and counts swapped', 'r.order, offsets, counts, n, head)', 'r.order, counts, offsets, n, head)'),
    ('tiles by the strips\' slots', "(slots.get(15), slots.get(16)) if tiled else", "(slots.get(6), slots.get(10)) if tiled else"),
    ('a refusal gives the units back', "return '%-16s%s, left %d' % (record.tag, said, r.left)",
     "return '%-16s%s, left %d' % (record.tag, said, record.budget if said.startswith(' refused') else r.left)"),
    # heads
    ('the head by slot 4 or by slot 8', PAIR, PAIR.replace('and', 'or')),
    ('the head by slot 4, and either number of samples', PAIR, 'slot[4] == h.photometric and slot[8] in (1, 3)'),
    ('the head by slot 8, and either photometric', PAIR, 'slot[8] == h.channels and slot[4] in (32844, 32845)'),
    ('colour with three samples, mono with any', PAIR, 'slot[4] == h.photometric and (h == MONO or slot[8] == 3)'),
    ('mono with one sample, colour with any', PAIR, 'slot[4] == h.photometric and (h == COLOUR or slot[8] == 1)'),
    ('mono with no samples too', PAIR, PAIR.replace('slot[8]', 'max(1, slot[8])')),
    ('mono with two samples too', PAIR, 'slot[4] == h.photometric and slot[8] in (h.channels, 2)'),
    ('up to as many samples', PAIR, PAIR.replace('slot[8] ==', 'slot[8] <=')),
    ('at least as many samples', PAIR, PAIR.replace('slot[8] ==', 'slot[8] >=')),
    ('samples of two bytes', PAIR, PAIR.replace('slot[8]', 'slot[8] % 65536')),
    ('samples of a byte', PAIR, PAIR.replace('slot[8]', 'slot[8] % 256')),
    ('photometrics of two bytes', PAIR, PAIR.replace('slot[4]', 'slot[4] % 65536')),
    ('photometrics of 31 bits', PAIR, PAIR.replace('slot[4]', 'slot[4] % 2 ** 31')),
    ('mono by 0 too', PAIR, 'slot[4] in (h.photometric, 0) and slot[8] == h.channels'),
    ('mono by 1 too', PAIR, 'slot[4] in (h.photometric, 1) and slot[8] == h.channels'),
    ('mono by 32845 too', PAIR, 'slot[4] in (h.photometric, 32845) and slot[8] == h.channels'),
    ('mono by 32843', 'Head(32844, 1,', 'Head(32843, 1,'),
    ('mono with two samples', 'Head(32844, 1,', 'Head(32844, 2,'),
    ('no mono', 'for h in HEADS if', 'for h in HEADS[:1] if'),
    ('no colour', 'for h in HEADS if', 'for h in HEADS[1:] if'),
    ('all is colour', 'head = heads[0]', 'head = COLOUR'),
    ('all is mono', 'head = heads[0]', 'head = MONO'),
    ('mono is 3', 'head = heads[0]\n', 'head = heads[0]\n    if head == MONO:\n        raise Refused(3)\n'),
    ('mono must say its samples', 'head = heads[0]\n', 'head = heads[0]\n    if 8 not in slots:\n        raise Refused(3)\n'),
    ('no photometric is LogL', ' 3: 1, 4: 0,', ' 3: 1, 4: 32844,'),
    ('no samples is none', ' 5: 1, 7: 1, 8: 1,', ' 5: 1, 7: 1, 8: 0,'),
    ('any compression of mono', 'if slot[3] != 34676:', 'if slot[3] != 34676 and slot[4] != 32844:'),
    ('the head before the other numbers', '    slot = scalars(r, slots)\n',
     '    slot = scalars(r, {s: slots[s] for s in (4, 8) if s in slots})\n'
     '    if all((slot[4], slot[8]) != (h.photometric, h.channels) for h in HEADS):\n        raise Refused(3)\n'
     '    slot = scalars(r, slots)\n'),
    ('the head after slots 2 and 18', '    if not heads:\n        raise Refused(3)\n    head = heads[0]\n',
     '    head = heads[0] if heads else COLOUR\n    if not heads:\n' + BITS.replace('  al', '      al') + '        raise Refused(3)\n'),
    ('a page has the head of the first', '        slots, n, at = directory(r, at, limits)\n',
     '        slots, n, at = directory(r, at, limits)\n        first = slots if turn == 0 else first\n'
     '        slots.update({s: first[s] for s in (4, 8) if s in first})\n'),
    # a single value
    ('mono wants three values', 'e.count != n:', 'e.count != 3:'),
    ('mono takes three values too', 'e.count != n:', 'e.count not in (n, 3):'),
    ('mono takes two values too', 'e.count != n:', 'e.count not in (n, 2 if n == 1 else n):'),
    ('mono takes no value too', 'e.count != n:', 'e.count not in (n, 0 if n == 1 else n):'),
    ('mono takes any count', 'e.count != n:', '(n > 1 and e.count != n):'),
    ('mono takes one value or more', 'e.count != n:', '(e.count < 1 if n == 1 else e.count != n):'),
    ('mono takes none where the entry is absent', '    if e is None or e.kind', '    if e is None and n == 1:\n        return\n    if e is None or e.kind'),
    ('the value of mono is not looked at', EACH, 'for k in range(n if n > 1 else 0):'),
    ('three values of mono are looked at', EACH, 'for k in range(3):'),
    ('a single value is a short', 'e.kind not in SIZES or e.count != n:', 'e.kind not in ((3,) if n == 1 else SIZES) or e.count != n:'),
    ('a single value is a long', 'e.kind not in SIZES or e.count != n:', 'e.kind not in ((4,) if n == 1 else SIZES) or e.count != n:'),
    ('a single value has any type', 'e.kind not in SIZES or e.count != n:',
     'e.kind not in SIZES and n > 1 or e.count != n:\n        raise Refused(3)\n    e = e._replace(kind=e.kind if e.kind in SIZES else 4)\n    if False:'),
    ('a single value stands at the place that the field holds', FITS, 'if False:'),
    ('a single short stands at the place that the field holds', FITS, 'if size * array.count == 4:'),
    ('a single long stands at the place that the field holds', FITS, 'if size * array.count < 4:'),
    ('three shorts stand in the field', FITS, 'if size * array.count <= 6:'),
    ('a single value is the whole field', FIELD, 'r.number(array.field)'),
    ('a single value has two bytes', FIELD, 'r.number(array.field[:2])'),
    ('a single value is the last bytes', FIELD, 'r.number(array.field[-size:])'),
    ('a single value is the last bytes if big', FIELD, "r.number(array.field[-size:] if r.order == 'big' else array.field[:size])"),
    ('a single value is little-endian', FIELD, "int.from_bytes(array.field[:size], 'little')"),
    ('a single value is big-endian', FIELD, "int.from_bytes(array.field[:size], 'big')"),
    ('a single value has a byte', FIELD, "r.number(array.field[:size]) % 256"),
    ('the field of a single value must be a place inside', FITS, FITS + '\n        r.part(r.number(array.field), 0)'),
    ('the field of a single value is lost with the place that it would be', FITS,
     FITS + '\n        if r.number(array.field) < len(r.file):\n            r.part(r.number(array.field), 1)'),
    ('a wrong single value is looked for at the place', FIELD, 'r.number(array.field[:size]) if r.number(array.field[:size]) in (2, 16) else '
     + PLACE),
    ('a wrong single value is 2', '!= wanted:\n            raise Refused(3)', '!= wanted:\n            raise Refused(3 if n > 1 else 2)'),
    ('slot 2 of mono is not looked at', BITS, '    if head == COLOUR:\n    ' + BITS),
    ('slot 18 of mono is not looked at', FORM, '    if head == COLOUR:\n    ' + FORM),
    ('slot 2 of mono is 8', BITS, BITS.replace('16', '16 if head == COLOUR else 8')),
    ('slot 18 of mono is 1', FORM, FORM.replace(' 2)', ' 2 if head == COLOUR else 1)')),
    ('slots 2 and 18 of mono after the sides', BITS + FORM + '    tiled = 15 in slots\n',
     '    tiled = 15 in slots\n    if head == MONO and not tiled and (13 in slots or 14 in slots):\n        raise Refused(2)\n' + BITS + FORM),
    ('slots 2 and 18 of mono after the sizes', BITS,
     '    if head == MONO and head.bytes * width * height > limits.output:\n        raise Refused(4)\n' + BITS),
    # bytes and channels
    ('six bytes a pixel of mono', 'Head(32844, 1, 2, 2)', 'Head(32844, 1, 2, 6)'),
    ('four bytes a pixel of mono', 'Head(32844, 1, 2, 2)', 'Head(32844, 1, 2, 4)'),
    ('one byte a pixel of mono', 'Head(32844, 1, 2, 2)', 'Head(32844, 1, 2, 1)'),
    ('six bytes a pixel of either head', OUTPUT, '6 * width * height\n'),
    ('two bytes a pixel of either head', OUTPUT, '2 * width * height\n'),
    ('mono is limited by six bytes a pixel', 'if output > limits.output:', 'if 6 * width * height > limits.output:'),
    ('either head may be limited by two bytes a pixel', 'if output > limits.output:', 'if 2 * width * height > limits.output:'),
    ('mono above 2^64 by six bytes a pixel', 'if output > limits.output:', 'if output > limits.output or 6 * width * height > 2 ** 64 - 1:'),
    ('three channels of mono', 'f.output, f.head.channels)', 'f.output, 3)'),
    ('two channels of mono', 'f.output, f.head.channels)', 'f.output, max(2, f.head.channels))'),
)
