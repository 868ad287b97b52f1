"""Vectors for strict reading, and what docs/SPECIFICATION.md says of each.

The model is written from its rules (groups 4 to 6, and 7.1 to 7.5) on whole lists and unbounded numbers, over the models of
the front part and of packets and pixels. It follows no code of this repository: a strip has the rows of the
picture that lie in it, a segment is expanded whole before anyone looks for a pixel in it, each byte of the
output is looked up by itself, and a handle is right if inspection gives the same one, so that an error of the
code's running sums, parts of buffers and counters can't be repeated here.
"""
import collections
import inspect
import zlib

from common import FILL, TOP, Draw, record_of
from front import (COLOUR, GARBAGE, LIMITS, MONO, NOTE, SIZES, STRIPS, TILES, WIDE, Limits, Reading, Refused, but, directories, head_of,
                   limited, of_head, patched, picture, sizes_of, tiff, value)
from leaf import CASE1, CASE14, CASE15, counted, expanded, good, listed, literal, packets, pixels, run

# What inspection is asked for, what is done to its handle or to the limits, and what decode is given: its units, the lengths
# of both buffers and, where it is not the same one, another file.
Record = collections.namedtuple('Record', 'tag page limits units field value decode_units output scratch file other', defaults=(b'',))

# ---- model ----

Handle = collections.namedtuple('Handle', 'width height block_width block_height tiled across segments output big offsets counts'
                                ' entries page scratch work head')
NUMBERS = Handle._fields[:-1]
FIELDS = NUMBERS + tuple('max_' + name for name in Limits._fields) + ('head',)

# What scratch has for each pixel of a block (rule 7.3): a byte of each plane, and the pixel.
def per_pixel(f):
    return f.head.planes + f.head.bytes

# Segments (rule 4.1): a strip has those rows of the picture that lie in it, a tile has all of its own.
def rows(f, k):
    if f.tiled:
        return f.block_height
    return len(range(f.height)[k * f.block_height:(k + 1) * f.block_height])

# Segments (rule 4.2): one by itself, up to its last packet; its stored bytes, its area and its fee.
def segment(r, f, limits, k):
    offset = value(r, f.offsets, k)
    count = value(r, f.counts, k)
    stored = r.part(offset, count)
    area = f.block_width * rows(f, k)
    if per_pixel(f) * area > limits.output:
        raise Refused(4)
    fee = count + 2 * per_pixel(f) * area + 1
    if fee > TOP:
        raise Refused(4)
    r.charge(fee)
    answer = packets(stored, 0, count, f.block_width, f.head.planes * area)
    if answer > 0:
        raise Refused(answer)
    return stored, area, fee

# Inspection (rules 7.1 to 7.3): the handle, and for decode the format and the stored bytes of each segment.
def inspected(r, page, limits):
    limited(len(r.file), page, limits)
    f = picture(r, page, limits)
    stored, areas, fees = zip(*(segment(r, f, limits, k) for k in range(f.segments)))
    scratch, work = max(per_pixel(f) * area for area in areas), sum(fees)
    return Handle(f.width, f.height, f.block_width, f.block_height, f.tiled, f.across, f.segments, f.output, f.order == 'big',
                  f.offsets.place, f.counts.place, f.entries, page, scratch, work, f.head), f, stored

# Pixels (rules 6.5 and 6.6): those of each segment, and where each byte of the picture lies among them.
def shown(f, stored):
    b = f.head.bytes
    segments = [pixels(f.head, expanded(part), f.block_width, rows(f, k), [FILL] * (b * f.block_width * rows(f, k)))[1]
                for k, part in enumerate(stored)]
    def byte(x, y, c):
        place = ((y % f.block_height) * f.block_width + x % f.block_width) * b + c
        return segments[y // f.block_height * f.across + x // f.block_width][place]
    return [byte(x, y, c) for y in range(f.height) for x in range(f.width) for c in range(b)]

# Strict decode (rules 7.4 and 7.5): the number, 0 where there is none, the units left, output and scratch.
def decoded(file, limits, handle, units, output, scratch):
    try:
        own, f, stored = inspected(Reading(file, b'', TOP), handle.page, limits)
    except Refused:
        return 2, units, output, scratch
    if handle != own:
        return 2, units, output, scratch
    if len(output) < handle.output:
        return 6, units, output, scratch
    if len(scratch) < handle.scratch:
        return 6, units, output, scratch
    if units < handle.work:
        return 7, units, output, scratch
    whole = shown(f, stored)
    return 0, units - handle.work, whole + output[len(whole):], [0] * handle.scratch + scratch[handle.scratch:]

# The work limit (rule 5.7): upstream's formula, where it is at most the largest number.
def work_limit(page, limits):
    bound = (page + 1) * (limits.tags + 1) + 128 + limits.segments * (limits.input + 2 * limits.output + 1)
    return 'over' if bound > TOP else '%d' % bound

# A handle, or the limits of decode, with one field changed: they are counted from 1, and 0 stands for none.
def altered(handle, limits, field, n):
    if field == 0:
        return handle, limits
    name = FIELDS[field - 1]
    if name == 'head':
        return handle._replace(head=head_of(n)), limits
    if name in NUMBERS:
        return handle._replace(**{name: n == 1 if name in ('tiled', 'big') else n}), limits
    return handle, limits._replace(**{name[4:]: n})

# What the program writes of a handle, and of a record.
def handle_of(h):
    return '%s, entries %d, page %d, scratch %d, work %d' % (sizes_of(h), h.entries, h.page, h.scratch, h.work)

def line(kind, r):
    if kind == 'bound':
        return '%-16s %s' % (r.tag, work_limit(r.page, r.limits))
    handle, said = Handle(*(0,) * len(NUMBERS), COLOUR), ''
    if kind != 'forged':
        reading = Reading(r.file, b'', r.units)
        try:
            handle, f, stored = inspected(reading, r.page, r.limits)
        except Refused as why:
            return '%-16s refused %d, left %d' % (r.tag, why.args[0], reading.left)
        said = '%s, left %d;' % (handle_of(handle), reading.left)
    handle, limits = altered(handle, r.limits, r.field, r.value)
    answer, left, output, scratch = decoded(r.other or r.file, limits, handle, r.decode_units, [FILL] * r.output, [FILL] * r.scratch)
    return '%-16s%s %s, left %d, output %08x, scratch %08x' % (
        r.tag, said, 'refused %d' % answer if answer > 0 else 'decoded', left,
        zlib.crc32(bytes(output)), zlib.crc32(bytes(scratch)))

# ---- end of the model ----

# ---- a writer of files ----

LOTS = 1000000      # units that suffice for any inspection here

def coded(width, height, seed, head=COLOUR):
    """Packets of a block: each row of a plane is a literal, a run, or two of these."""
    made = b''
    for i in range(head.planes * height):
        row, way = counted(width, 3 * seed + i), (seed + i) % 4 if width > 2 else 0
        if way == 0:
            made += literal(row)
        elif way == 1:
            made += run(width, row[0])
        elif way == 2:
            made += literal(row[:1]) + run(width - 1, row[1])
        else:
            made += literal(row[:-1]) + literal(row[-1:])
    return made

def flat(width, height, seed, head=COLOUR):
    """Packets of a block: each row of a plane is one run."""
    return b''.join(run(width, (50 * seed + 37 * i) % 256) for i in range(head.planes * height))

def strips(width, height, high, make=coded, seed=0, head=COLOUR):
    """The entries of a picture in strips of so many rows, and the packets of each."""
    parts = [make(width, min(high, height - y), seed + k, head) for k, y in enumerate(range(0, height, high))]
    return but(STRIPS, *of_head(head), (256, 3, 1, width), (257, 3, 1, height), (278, 3, 1, high)), parts

def tiles(width, height, make=flat, seed=0, wide=16, high=16, head=COLOUR):
    """The same of a picture in tiles."""
    n = len(range(0, width, wide)) * len(range(0, height, high))
    sides = (256, 3, 1, width), (257, 3, 1, height), (322, 3, 1, wide), (323, 3, 1, high)
    return but(TILES, *of_head(head), *sides), [make(wide, high, seed + k, head) for k in range(n)]

def laid(*pages, big=False, kinds=(4, 4), last=None, after=0):
    """A file of pages: each has a directory, its arrays and its segments behind that, and the array of the tag last behind these,
    but for arrays that fit into the field."""
    at, made, data = 8, [], []
    for entries, parts in pages:
        tags = (324, 325) if any(e[0] == 324 for e in entries) else (273, 279)

        def directory(offsets, end):
            columns = zip(tags, kinds, (offsets, [len(part) for part in parts]))
            return but(entries, *((tag, kind, len(c), (end, c) if tag == last and end and SIZES[kind] * len(c) > 4 else c)
                                  for tag, kind, c in columns))

        base = len(tiff([(at, directory([0] * len(parts), None), 0)], big))
        offsets = [base + len(b''.join(parts[:k])) for k in range(len(parts))]
        end = base + len(b''.join(parts))
        made.append((at, directory(offsets, end)))
        data.append((base, b''.join(parts)))
        at = end + (4 * len(parts) if last else 0)
    starts = [at for at, entries in made] + [after]
    file = tiff([(at, entries, starts[i + 1]) for i, (at, entries) in enumerate(made)], big)
    for base, part in data:
        file = patched(file, base, part)
    return file

def placed(page, offsets=None, counts=None, at=None, kinds=(4, 4), directory=8, big=False, size=None):
    """A file of one page. The arrays stand in their fields where they fit, else behind the directory, or at places of their own. The
    segments stand behind all that, from a place on, or each at a place of its own."""
    entries, parts = page
    tags = (324, 325) if any(e[0] == 324 for e in entries) else (273, 279)

    def made(starts):
        columns = zip((starts, [len(part) for part in parts]), (offsets, counts))
        values = [c if place is None else (place, c) for c, place in columns]
        return tiff([(directory, but(entries, *((tag, kind, len(parts), v) for tag, kind, v in zip(tags, kinds, values))), 0)], big)

    if not isinstance(at, (list, tuple)):
        base = len(made([0] * len(parts))) if at is None else at
        at = [base + len(b''.join(parts[:k])) for k in range(len(parts))]
    file = made(at)
    for start, part in zip(at, parts):
        file += (GARBAGE * start)[len(file):start + len(part)]
        file = patched(file, start, part)
    file += (GARBAGE * (size or 0))[len(file):]
    return file[:size]

OFFSETS, COUNTS = 0, 1

def array_of(file, which, page=0):
    """An array of a page, as its entry; and a reading of the file, which knows the order of its numbers."""
    r = Reading(file, b'', TOP)
    slots = directories(r, page, Limits(**WIDE))[0]
    return r, slots[((6, 10), (15, 16))[15 in slots][which]]

def place_of(file, which, k, page=0):
    """Where value k of an array stands, and how many bytes it has."""
    r, e = array_of(file, which, page)
    size = SIZES[e.kind]
    return (e.place + 8 if size * e.count <= 4 else r.number(e.field)) + size * k, size

def value_of(file, which, k, page=0):
    r, e = array_of(file, which, page)
    return value(r, e, k)

def with_value(file, which, k, n, page=0):
    """The file with another number as value k of an array."""
    place, size = place_of(file, which, k, page)
    return patched(file, place, n.to_bytes(size, array_of(file, which, page)[0].order))

def with_base(file, which, n):
    """The file with another number as the place of an array, which is too long for its field."""
    r, e = array_of(file, which)
    assert SIZES[e.kind] * e.count > 4
    return patched(file, e.place + 8, n.to_bytes(4, r.order))

def with_range(file, k, offset, count):
    return with_value(with_value(file, OFFSETS, k, offset), COUNTS, k, count)

def with_part(file, k, part):
    """The file with other packets as segment k, put at its end."""
    return with_range(file, k, len(file), len(part)) + part

def record(tag, file, page=0, units=LOTS, change=None, to=None, more=(0, 0, 0), other=b'', **limits):
    """A record whose decode has the units, the output and the scratch that the handle asks for, and so many more. A change is a
    field's name and how much is added to it; to, the name of a field or a limit and its new number."""
    limits, handle = LIMITS._replace(**limits), None
    try:
        handle = inspected(Reading(file, b'', units), page, limits)[0]
        lent = [max(0, need + n) for need, n in zip((handle.work, handle.output, handle.scratch), more)]
    except Refused:
        lent = 0, 0, 0
    if change and handle:
        to = change[0], getattr(handle, change[0]) + change[1]
    field, n = (FIELDS.index(to[0]) + 1, to[1]) if to else (0, 0)
    return Record(tag, page, limits, units, field, n, *lent, file, other)

# ---- vectors ----

STRIP3, STRIP2, TILE2 = strips(3, 5, 2), strips(3, 4, 2, seed=2), tiles(17, 5)
ORDERS = ('l', False), ('b', True)
KINDS = (4, 4), (3, 3), (3, 4), (4, 3)

def drawn_block(width, height, seed, head=COLOUR):
    """Packets of a block that may be wider than a packet is long."""
    return good(Draw(seed + 1), head.planes * width * height, width, (40, 127, 128, 129))

def marked(part, head=COLOUR, **rest):
    """The file of two pixels, with the packets of a marked case."""
    return laid((strips(2, 1, 1, head=head)[0], [part]), **rest)

CASE13 = strips(2, 2, 1)[0], [CASE1, bytes.fromhex('020101800780038002')]

def layouts():
    # both orders, and arrays of either type: three strips, one, two, and two tiles
    for s, big in ORDERS:
        for kinds in KINDS:
            t = '%d%d%s' % (kinds + (s,))
            yield record('strips-' + t, laid(STRIP3, big=big, kinds=kinds))
            yield record('strip-' + t, laid(strips(3, 5, 5, seed=1), big=big, kinds=kinds))
            yield record('two-strips-' + t, laid(STRIP2, big=big, kinds=kinds))
            yield record('tiles-' + t, laid(TILE2, big=big, kinds=kinds))
        yield record('tile-' + s, laid(tiles(5, 16, coded), big=big))
        yield record('edge-tiles-' + s, laid(tiles(17, 17, coded), big=big))
    # one pixel, one row, one column, last strips that are full or short by some rows, one row to a strip
    for width, height, high in ((1, 1, 1), (1, 5, 2), (1, 7, 3), (2, 2, 1), (2, 9, 4), (3, 3, 2), (3, 6, 2), (4, 7, 1), (5, 5, 4),
                                (7, 1, 9), (8, 8, 8), (9, 10, 3), (127, 2, 1)):
        yield record('%dx%d-by-%d' % (width, height, high), laid(strips(width, height, high, seed=height), big=width % 2 == 0))
    for width, height, high in ((128, 1, 1), (129, 2, 2), (130, 3, 2), (300, 1, 1)):
        yield record('%dx%d-by-%d' % (width, height, high), laid(strips(width, height, high, drawn_block), big=width % 2 == 1))
    yield record('no-rows', laid((but(STRIPS, 278), [coded(3, 5, 3)])))
    yield record('many-strips', laid(strips(1, 60, 1)))
    # tiles that are whole, that stick out to the right, below and both, and sides that differ
    for width, height, wide, high in ((16, 16, 16, 16), (1, 1, 16, 16), (15, 17, 16, 16), (32, 32, 16, 16), (33, 5, 16, 16),
                                      (5, 33, 16, 16), (33, 17, 32, 16), (17, 33, 16, 32), (40, 3, 48, 16)):
        yield record('%dx%d-%dx%d' % (width, height, wide, high), laid(tiles(width, height, seed=width, wide=wide, high=high)))
    yield record('tiles-detailed', laid(tiles(20, 3, coded, wide=16)))
    yield record('tiles-32-detail', laid(tiles(33, 2, coded, wide=32), big=True))
    # pages
    three = laid(STRIP3, TILE2, strips(4, 3, 2, seed=5))
    for page in range(4):
        yield record('three-pages-%d' % page, three, page=page)
    for page in range(2):
        yield record('two-pages-%d' % page, laid(strips(2, 3, 1), strips(3, 2, 2), big=True), page=page)
    for page in range(5):
        yield record('loop-%d' % page, laid(strips(2, 3, 2), after=8), page=page)
    yield record('loop-7', laid(strips(2, 3, 2), after=8), page=7, directories=8)
    # where the parts of a file stand is free: arrays behind the segments, segments backwards, twice, one inside another
    yield record('offsets-last', laid(STRIP3, last=273))
    yield record('counts-last', laid(STRIP3, last=279, big=True))
    file = laid(strips(3, 6, 2, flat))
    ranges_of = [(value_of(file, OFFSETS, k), value_of(file, COUNTS, k)) for k in range(3)]
    yield record('backwards', with_range(with_range(file, 0, *ranges_of[2]), 2, *ranges_of[0]))
    yield record('all-the-same', with_range(with_range(file, 0, *ranges_of[1]), 2, *ranges_of[1]))
    one = laid(strips(1, 3, 1))
    yield record('overlapping', with_range(with_range(one, 1, value_of(one, OFFSETS, 0) + 2, 8), 2, value_of(one, OFFSETS, 0) + 4, 8))
    yield record('bytes-behind', laid(STRIP3) + b'?' * 9)
    yield record('bytes-between', with_part(with_part(laid(STRIP3), 0, STRIP3[1][0]) + b'??', 1, STRIP3[1][1]))
    # entries that nobody knows are counted
    yield record('unknown', laid((STRIP3[0] + [NOTE] * 7, STRIP3[1])))
    yield record('unknown-tiles', laid((TILE2[0] + [(700, 0, 0, 0)], TILE2[1]), big=True))
    # the marked cases, and control 0 at each place
    yield record('mark1', marked(CASE1))
    yield record('mark2', marked(CASE1 + b'\x00'))
    yield record('mark3', marked(b'\x83' + CASE1[1:]))
    yield record('mark4-two-less', marked(CASE1[:-2]))
    yield record('mark4-one-less', marked(CASE1[:-1]))
    yield record('mark5', marked(CASE1 + b'\x01\x09'))
    yield record('mark6', marked(b''))
    yield record('zero-first', marked(b'\x00' + CASE1))
    yield record('zero-between', marked(CASE1[:4] + b'\x00\x00' + CASE1[4:]))
    yield record('zero-in-row', marked(b'\x01\x07\x00\x01\x07' + CASE1[2:]))
    yield record('zero-many', marked(b'\x00' * 40 + CASE1 + b'\x00' * 40))
    for k in range(3):
        yield record('zero-strip-%d' % k, with_part(laid(STRIP3), k, b'\x00' + STRIP3[1][k] + b'\x00\x00'))
    for k in range(2):
        yield record('zero-tile-%d' % k, with_part(laid(TILE2), k, TILE2[1][k] + b'\x00'))
    # the marked case of two strips
    for s, big in ORDERS:
        yield record('mark13-' + s, laid(CASE13, big=big, kinds=(3, 3)))

def entries():
    # an array at the end of the file, which is cut inside its last value, its last but one and its first
    for which, last in ((OFFSETS, 273), (COUNTS, 279)):
        for s, big in ORDERS:
            for kinds in KINDS[:2]:
                whole = laid(STRIP3, big=big, kinds=kinds, last=last)
                size = SIZES[kinds[which]]
                for cut in (0, 1, size, size + 1, 2 * size, 2 * size + 1, 3 * size):
                    yield record('%s-%d%d%s-%d' % (('offset', 'count')[which], *kinds, s, cut), whole[:len(whole) - cut])
    for last in (324, 325):
        whole = laid(TILE2, last=last)
        for cut in (0, 1, 4, 5, 8):
            yield record('tile-%d-%d' % (last, cut), whole[:len(whole) - cut])
    # places of arrays near the largest number of four bytes, where a sum of 32 bits would come back
    for which in (OFFSETS, COUNTS):
        for k in (1, 4, 6, 8, 12):
            yield record('far-%d-%s' % (k, ('offset', 'count')[which]), with_base(laid(STRIP3, kinds=(3 + k % 2, 4)), which, 2 ** 32 - k))
        yield record('base-0-%s' % ('offset', 'count')[which], with_base(laid(STRIP3), which, 0))
    # what is wrong with an earlier segment counts before an entry of a later one, and the other way round
    for last, name in ((273, 'offset'), (279, 'count')):
        whole = laid(STRIP3, last=last)
        bad = whole.replace(STRIP3[1][0], b'\xff' + STRIP3[1][0][1:])
        for cut in (1, 5, 12):
            yield record('bad-0-%s-%d' % (name, cut), bad[:-cut])
        bad = whole.replace(STRIP3[1][2], b'\xff' + STRIP3[1][2][1:])
        yield record('bad-2-%s-1' % name, bad[:-1])
        yield record('bad-2-%s-5' % name, bad[:-5])
        yield record('units-%s-12' % name, whole[:-12], units=139)

def ranges():
    # outside by one, by much, and just inside, in each segment; an empty range at the file's end is inside
    for name, file in (('strip', laid(STRIP3)), ('strip-b', laid(STRIP3, big=True)), ('tile', laid(TILE2))):
        n = len(file)
        for k in (0, 1, 2) if name != 'tile' else (0, 1):
            offset, count = value_of(file, OFFSETS, k), value_of(file, COUNTS, k)
            for way, start, size in (('to-end', offset, n - offset), ('out-1', offset, n - offset + 1), ('end-0', n, 0), ('end-1', n, 1),
                                     ('past-0', n + 1, 0), ('last-1', n - 1, 1), ('last-2', n - 1, 2), ('empty', offset, 0),
                                     ('far-0', 2 ** 32 - 1, 0), ('far-wrap', 2 ** 32 - 8, count + 8), ('far-count', offset, 2 ** 32 - 1),
                                     ('short', offset, count - 1), ('later', offset + 1, count - 1)):
                if name != 'strip-b' or way in ('to-end', 'out-1', 'end-0', 'past-0'):
                    yield record('%s%d-%s' % (name, k, way), with_range(file, k, start, size))
    for which in (OFFSETS, COUNTS):
        short = laid(STRIP3, kinds=(3, 3))
        yield record('two-bytes-%d' % which, with_value(short, which, 2, 65535))
    yield record('one-out', with_range(laid(strips(3, 5, 5)), 0, 200, 2000))
    yield record('one-end', with_range(laid(strips(3, 5, 5)), 0, len(laid(strips(3, 5, 5))), 0))
    # 10A against max_output, where that is more than the picture's own bytes
    single, most, tile = laid(strips(3, 5, 5)), laid(strips(3, 3, 2)), laid(TILE2)
    for n in (89, 90, 91, 149, 150, 151):
        yield record('strip-10A-%d' % n, single, output=n)
    for n in (53, 54, 59, 60, 61):
        yield record('strips-10A-%d' % n, most, output=n)
    for n in (509, 510, 2559, 2560, 2561):
        yield record('tiles-10A-%d' % n, tile, output=n)
    for n in (89, 90):
        yield record('small-10A-%d' % n, laid(STRIP3), output=n)
    for name, file, n in (('strips', most, 59), ('tiles', tile, 2559)):
        yield record('%s-10A-out' % name, with_range(file, 0, len(file), 1), output=n)
        yield record('%s-10A-out-1' % name, with_range(file, 1, len(file), 1), output=n)
        yield record('%s-10A-base' % name, with_base(file, OFFSETS, 5000), output=n)
        yield record('%s-10A-count' % name, with_base(file, COUNTS, 5000), output=n)
        yield record('%s-10A-bad' % name, with_range(file, 0, 8, 2), output=n)
        yield record('%s-10A-units' % name, file, output=n, units=141)
        yield record('%s-10A-128' % name, file, output=n, units=138)

class Charged(Reading):
    """A reading with units for anything, which keeps its charges."""
    def __init__(self, file):
        super().__init__(file, b'', TOP)
        self.taken = []

    def charge(self, units):
        super().charge(units)
        self.taken.append(units)

def at_each_charge(name, file, page=0):
    """Units one short at each charge, just enough, none and all."""
    r = Charged(file)
    inspected(r, page, LIMITS)
    for i in range(len(r.taken)):
        enough = sum(r.taken[:i + 1])
        for way, units in (('less', enough - 1), ('just', enough), ('more', enough + 1)):
            if way != 'more' or i + 1 == len(r.taken):
                yield record('%s-%s-%d' % (name, way, i), file, page=page, units=units)
    yield record(name + '-0', file, page=page, units=0)
    yield record(name + '-top', file, page=page, units=TOP)

def budgets():
    bases = (('strips', laid(STRIP3), 0), ('tiles', laid(TILE2, big=True), 0), ('one', laid(strips(2, 3, 3)), 0),
             ('second', laid(strips(1, 2, 2), STRIP3), 1), ('loop', laid(strips(2, 3, 2), after=8), 2))
    for base in bases:
        yield from at_each_charge(*base)
    # the fee comes after the range and before the packets, segment by segment
    file, heights = laid(STRIP3), (2, 2, 1)
    fees = [len(part) + 60 * height + 1 for part, height in zip(STRIP3[1], heights)]
    for k in range(3):
        before = 139 + sum(fees[:k])
        bad, fee = with_part(file, k, b'\xff'), 1 + 60 * heights[k] + 1
        yield record('bad-less-%d' % k, bad, units=before + fee - 1)
        yield record('bad-just-%d' % k, bad, units=before + fee)
        out = with_range(file, k, len(file), 1)
        yield record('out-less-%d' % k, out, units=before)
        yield record('out-more-%d' % k, out, units=before + 500)
        yield record('next-bad-%d' % k, with_part(file, (k + 1) % 3, b'\xff'), units=before + fees[k])

def wrong_parts(width, plane_rows):
    """Packets of a segment by what is amiss with them; fine and full-zero are accepted."""
    lines = [counted(width, i) for i in range(plane_rows)]
    whole = [literal(line) for line in lines]
    most, end = b''.join(whole[:-1]), lines[-1]
    yield 'fine', most + whole[-1]
    yield 'past-lit', most + bytes([width]) + end[:-1]
    yield 'past-run', most + bytes([width + 126])
    yield 'past-long', most + b'\x7f' + end
    yield 'past-first', b'\x03'
    yield 'full-lit', most + whole[-1] + literal(b'?')
    yield 'full-run', most + whole[-1] + run(2, 7)
    yield 'full-past', most + whole[-1] + b'\x01'
    yield 'full-zero', most + whole[-1] + b'\x00'
    yield 'long-end', most + literal(end + b'?')
    yield 'long-first', run(129, 7) + most
    yield 'cross-first', literal(lines[0][:-1]) + run(2, 7) + literal(lines[1][1:]) + b''.join(whole[2:])
    yield 'cross-last', b''.join(whole[:-2]) + literal(lines[-2][:-1]) + literal(b'??') + literal(end[1:])
    yield 'cross-row', literal(lines[0] + lines[1]) + b''.join(whole[2:])
    yield 'left-row', most
    yield 'left-byte', most + literal(end[:-1])
    yield 'nothing', b''
    yield 'zeros', b'\x00' * 5

def packets_refused():
    for name, file, width, heights in (('s', laid(STRIP3), 3, (2, 2, 1)), ('t', laid(TILE2), 16, (16, 16))):
        for k, height in enumerate(heights):
            for way, part in wrong_parts(width, 4 * height):
                if name == 's' or way in ('fine', 'past-lit', 'full-lit', 'full-zero', 'cross-first', 'cross-row', 'left-byte', 'nothing'):
                    yield record('%s%d-%s' % (name, k, way), with_part(file, k, part))
    # a short last tile, a full last strip, strips one row short or longer
    yield record('short-tile', laid((TILE2[0], [flat(16, 5, 0), flat(16, 5, 1)])))
    yield record('short-second', with_part(laid(TILE2), 1, flat(16, 5, 1)))
    yield record('narrow-tile', with_part(laid(TILE2), 1, literal(b'x') * 64))
    yield record('full-strip', with_part(laid(STRIP3), 2, coded(3, 2, 2)))
    yield record('short-first', with_part(laid(STRIP3), 0, coded(3, 1, 0)))
    yield record('short-second-s', with_part(laid(STRIP3), 1, coded(3, 1, 0)))
    # the boundary is that of the block's width: not of a row of planes, nor of the picture
    yield record('stride-12', with_part(laid(STRIP3), 1, literal(counted(12, 1)) * 2))
    yield record('stride-6', with_part(laid(STRIP3), 1, literal(counted(6, 1)) * 4))
    yield record('stride-17', with_part(laid(TILE2), 0, literal(counted(17, 1)) * 60 + literal(b'abcd')))
    yield record('stride-8', with_part(laid(TILE2), 0, literal(counted(8, 1)) * 128))
    yield record('own-start', with_part(laid(STRIP3), 0, literal(b'a') + literal(b'bcd') * 7 + literal(b'ef')))
    # two segments that are wrong: the first counts
    one, two = b'\x03', b'\xff\x00'
    for i, j in ((0, 1), (0, 2), (1, 2)):
        yield record('1-at-%d-2-at-%d' % (i, j), with_part(with_part(laid(STRIP3), i, one), j, two))
        yield record('2-at-%d-1-at-%d' % (i, j), with_part(with_part(laid(STRIP3), i, two), j, one))
        yield record('2-at-%d-out-%d' % (i, j), with_range(with_part(laid(STRIP3), i, two), j, 4000, 9))
        yield record('out-%d-2-at-%d' % (i, j), with_range(with_part(laid(STRIP3), j, two), i, 4000, 9))

def headed(big, tiled=False, kinds=(3, 3), head=COLOUR):
    """A picture of two segments, one of which begins with the header: the mark's first byte is a literal's control. Its offset is 0,
    so that a field with both offsets is the other's place if it is taken for one number. The two numbers there are 0 and 257, in
    either byte order, and at these places are good segments too."""
    n, high = b'IM'[big], 16 if tiled else 1
    wide = 80 if tiled else n
    entries = tiles(100, 3, wide=wide, head=head)[0] if tiled else strips(wide, 2, 1, head=head)[0]
    first = tiff([(480, [NOTE], 0)], big)[:n + 1] + (run(wide - n, 9) if tiled else b'') + flat(wide, high, 1, head)[2:]
    other = bytes(2) + literal(b'\x01') + run(wide - 1, 7) + flat(wide, high, 2, head)[2:]
    turn = -1 if big else 1
    parts, at = [other.ljust(len(first), b'\x00'), first][::turn], [1024, 0][::turn]
    file = placed((entries, parts), at=at, kinds=kinds, directory=480, big=big)
    return patched(file, 257, flat(wide, high, 3, head).ljust(len(first), b'\x00'))

def emptied(big, tiled=False, kinds=(3, 3), head=COLOUR):
    """A picture of two segments, one of which is empty, so that a field with both counts is the other's count if it is taken for one
    number. At that place are two counts with which both segments would be good."""
    entries, parts = tiles(17, 5, head=head) if tiled else strips(3, 4, 2, seed=2, head=head)
    long = [part.ljust(600, b'\x00') if k == big else part for k, part in enumerate(parts)]
    file = placed((entries, long), at=[1024 if k == big else 640 for k in range(2)], kinds=kinds, big=big)
    counts = (len(part).to_bytes(2, 'big' if big else 'little') for part in parts)
    return with_value(patched(file, 600, b''.join(counts)), COUNTS, 1 - big, 0)

PAIRS = ('s', STRIP2, (273, 279)), ('t', TILE2, (324, 325))

def inlines():
    """Two values of type 3, which stand in the field (rule 2.12)."""
    for s, big in ORDERS:
        # each byte of a field counts: offsets and counts above 255, of which no two bytes are alike
        parts = [part.ljust(n, b'\x00') for part, n in zip(STRIP2[1], (0x107, 0x209))]
        yield record('bytes-' + s, placed((STRIP2[0], parts), at=[0x123, 0x345], kinds=(3, 3), big=big))
        # a field that would be a place in the file
        for name, tiled in (('s', False), ('t', True)):
            for kinds in ((3, 3), (3, 4)):
                yield record('zero-%s-%d%d%s' % (name, *kinds, s), headed(big, tiled, kinds))
            for kinds in ((3, 3), (4, 3)):
                yield record('empty-%s-%d%d%s' % (name, *kinds, s), emptied(big, tiled, kinds))
        # pages after the first
        for kinds in KINDS[1:]:
            file = laid(STRIP3, STRIP2, TILE2, big=big, kinds=kinds)
            for page in (1, 2):
                yield record('page-%d-%d%d%s' % (page, *kinds, s), file, page=page)
        # the end of the file cuts the other array, and where both stand in their fields the last segment
        for name, page, tags in PAIRS:
            for which, kinds in ((OFFSETS, (4, 3)), (COUNTS, (3, 4))):
                whole = laid(page, big=big, kinds=kinds, last=tags[which])
                for cut in (1, 5):
                    yield record('cut-%s-%d%d%s-%d' % (name, *kinds, s, cut), whole[:-cut])
            yield record('cut-%s-33%s-1' % (name, s), laid(page, big=big, kinds=(3, 3))[:-1])

def inline_ranges():
    """Segments whose offsets and counts stand in the field."""
    yield record('above-2^15', placed(STRIP2, at=[33000, 33100], kinds=(3, 3)), input=TOP)
    # outside and just inside, with packets that are refused, and with those of the other segment
    for s, big in ORDERS:
        for name, page, tags in PAIRS:
            file = laid(page, big=big, kinds=(3, 3))
            n = len(file)
            for k in range(2):
                for way, start, size in (('end', n, 0), ('past', n + 1, 0), ('last', n - 1, 2), ('top', 65535, 65535)):
                    if name == 's' or way == 'past':
                        yield record('%s%d-%s-%s' % (name, k, way, s), with_range(file, k, start, size))
                yield record('%s%d-bad-%s' % (name, k, s), with_part(file, k, run(129, 7)))
                yield record('%s%d-other-%s' % (name, k, s), with_part(file, k, page[1][1 - k]))
    yield from at_each_charge('strips', laid(STRIP2, kinds=(3, 3)))
    yield from at_each_charge('tiles', laid(TILE2, kinds=(3, 3), big=True))
    # decode by a handle with other entries, of a file with other offsets, and of one whose arrays stand elsewhere
    file, apart = (laid(strips(3, 4, 2, flat), kinds=kinds) for kinds in ((3, 3), (4, 4)))
    offsets, counts = (array_of(file, which)[1].place for which in (OFFSETS, COUNTS))
    for tag, field, n in (('offsets+', 'offsets', offsets + 1), ('counts+', 'counts', counts + 1), ('big', 'big', 1),
                          ('offsets-counts', 'offsets', counts), ('counts-offsets', 'counts', offsets)):
        yield record(tag, file, to=(field, n), more=(9, 9, 9))
    first, second = (value_of(file, OFFSETS, k) for k in range(2))
    turned = with_value(with_value(file, OFFSETS, 0, second), OFFSETS, 1, first)
    yield record('file-turned', file, other=turned)
    yield record('file-out', file, other=with_value(file, OFFSETS, 1, 65535))
    yield record('file-apart', file, other=apart)
    yield record('file-inline', apart, other=turned)

def brief(field):
    return field.replace('block_', 'b')

def handles():
    # each field altered, in strips and in tiles; what decode is lent suffices either way
    for name, file, page in (('s', laid(STRIP3), 0), ('t', laid(TILE2, big=True), 0), ('p', laid(strips(1, 1, 1), strips(2, 3, 2)), 1)):
        yield record(name + '-own', file, page=page)
        for field in NUMBERS:
            for way, n in (('+', 1), ('-', -1), ('+2^32', 2 ** 32)):
                if field in ('tiled', 'big') and n != 1 or name != 's' and n == 2 ** 32 or field == 'page' and page + n < 0:
                    continue
                yield record('%s-%s%s' % (name, brief(field), way), file, page=page, change=(field, n), more=(9, 9, 9))
    for field in NUMBERS:
        yield record('zero-' + brief(field), laid(STRIP3, big=True), to=(field, 0), more=(9, 9, 9))
    # a small need does not help
    yield record('no-output', laid(STRIP3), to=('output', 0), more=(0, -90, 0))
    yield record('no-scratch', laid(STRIP3), to=('scratch', 0), more=(0, 0, -60))
    yield record('no-work', laid(STRIP3), to=('work', 0), more=(-LOTS, 0, 0))
    # another page: of another picture, of one that is like it, the same directory again, and beyond the last
    yield record('other-page', laid(STRIP3, TILE2), to=('page', 1), more=(9, 9, 9))
    yield record('page-alike', laid(STRIP3, STRIP3), to=('page', 1), more=(9, 9, 9))
    yield record('page-back', laid(STRIP3, STRIP3), page=1, to=('page', 0), more=(9, 9, 9))
    for page in (0, 1, 2, 3, 4, TOP):
        yield record('same-page-%s' % (page if page < TOP else 'top'), laid(STRIP3, after=8), to=('page', page), more=(9, 9, 9))
    yield record('same-page-from-2', laid(STRIP3, after=8), page=2, to=('page', 1))
    yield record('same-page-last', laid(STRIP3, after=8), page=1, to=('page', 0), directories=2)
    yield record('same-page-limit', laid(STRIP3, after=8), page=1, to=('page', 2), directories=2)

def decodes():
    # the limits of decode: what just suffices, what does not, and the largest
    for name, file, page in (('s', laid(STRIP3), 0), ('o', laid(strips(3, 5, 5), STRIP3), 0), ('t', laid(STRIP3, TILE2), 1)):
        h, f, stored = inspected(Reading(file, b'', TOP), page, LIMITS)
        for limit, n in zip(Limits._fields, (len(file), max(h.output, h.scratch), max(h.width, h.height), page + 1, h.entries, h.segments)):
            for way, m in (('just', n), ('less', n - 1), ('top', TOP)):
                if name == 's' or way != 'top':
                    yield record('%s-max-%s-%s' % (name, limit[:4], way), file, page=page, to=('max_' + limit, m), more=(9, 9, 9))
    # another file: other pixels, bytes behind the last, packets that are wrong, counts that differ, the other order, no file at all
    file, pale = laid(strips(3, 5, 2, flat)), laid(strips(3, 5, 2, flat, seed=9))
    yield record('file-pixels', file, other=pale)
    yield record('file-longer', file, other=file + b'?')
    yield record('file-shorter', file + b'?', other=file)
    yield record('file-cut', file, other=file[:-1])
    yield record('file-packets', file, other=file[:-2] + b'\xff?')
    yield record('file-first', file, other=with_value(file, COUNTS, 0, 15))
    yield record('file-work', with_part(file, 1, flat(3, 2, 1) + b'\x00'), other=file)
    yield record('file-same-work', with_part(file, 1, flat(3, 2, 1) + b'\x00'), other=with_part(file, 2, flat(3, 1, 2) + b'\x00'))
    yield record('file-moved', file, other=with_range(file, 0, value_of(file, OFFSETS, 1), value_of(file, COUNTS, 1)))
    yield record('file-order', laid(STRIP3), other=laid(STRIP3, big=True))
    yield record('file-none', file, other=b'?')
    yield record('file-header', file, other=patched(file, 0, b'MM'))
    yield record('file-pages', file, other=laid(strips(3, 5, 2, flat), TILE2))
    yield record('file-unknown', file, other=laid((strips(3, 5, 2, flat)[0] + [NOTE], STRIP3[1])))

def buffers():
    # buffers and units, one short, more and none at all; bytes behind what is needed stay
    for name, file in (('s', laid(STRIP3)), ('t', laid(TILE2)), ('b', laid(strips(2, 3, 2), big=True))):
        for way, n in (('less', -1), ('none', -LOTS), ('more', 1), ('much', 100)):
            yield record('%s-output-%s' % (name, way), file, more=(0, n, 0))
            yield record('%s-scratch-%s' % (name, way), file, more=(0, 0, n))
            yield record('%s-units-%s' % (name, way), file, more=(n, 0, 0))
            yield record('%s-both-%s' % (name, way), file, more=(0, n, n))
            yield record('%s-all-%s' % (name, way), file, more=(n, n, n))
        yield record(name + '-units-top', file)._replace(decode_units=TOP)
        yield record(name + '-long', file, more=(7, 1000, 2000))
        yield record(name + '-6-and-7', file, more=(-1, 9, -1))
        yield record(name + '-6-and-7-too', file, more=(-1, -1, 9))
        yield record(name + '-2-and-6', file, change=('entries', 1), more=(9, -1, -1))
        yield record(name + '-2-and-7', file, change=('offsets', 1), more=(-1, 9, 9))
        yield record(name + '-2-6-7', file, change=('counts', 1), more=(-1, -1, -1))
        yield record(name + '-2-none', file, change=('width', 1), more=(-LOTS, -LOTS, -LOTS))
    # few units for inspection are as good as many, and those of decode are its own
    r = Charged(laid(STRIP3))
    inspected(r, 0, LIMITS)
    whole = sum(r.taken)
    yield record('units-exact', laid(STRIP3), units=whole)
    yield record('units-exact-less', laid(STRIP3), units=whole, more=(-1, 0, 0))
    yield record('units-apart', laid(STRIP3), units=TOP, more=(1, 0, 0))

def forged():
    """Handles of zeros, as after a refusal, but for one field."""
    def zero(tag, file, to=(None, 0), lent=(0, 0, 0), **limits):
        field = FIELDS.index(to[0]) + 1 if to[0] else 0
        return Record(tag, 0, LIMITS._replace(**limits), 0, field, to[1], *lent, bytes(file))
    own = laid(STRIP3)
    for name, file in (('fine', own), ('packets', with_part(own, 2, b'')), ('tiles', laid(TILE2)), ('header', own[:7]), ('none', b''),
                       ('first-0', patched(own, 4, bytes(4))), ('mark', b'?' * 40), ('entries', own[:60]),
                       ('width-0', patched(own, 18, b'\x00')), ('range', own[:-1])):
        yield zero('zeros-' + name, file)
        yield zero('lent-' + name, file, lent=(LOTS, 90, 60))
    for field, n in zip(NUMBERS, inspected(Charged(own), 0, LIMITS)[0]):
        yield zero('only-' + brief(field), own, to=(field, n), lent=(LOTS, 90, 60))
    yield zero('zeros-input', own, input=0)
    yield zero('zeros-dirs', own, directories=0)
    yield zero('zeros-page-top', own, to=('page', TOP))

def bounds():
    """Upstream's formula near 2^64, and where a part of it is large and the whole is not."""
    def bound(tag, page, **limits):
        return Record(tag, page, Limits(**{**dict.fromkeys(Limits._fields, 0), **limits}), *(0,) * 6, b'')
    yield bound('zeros', 0)
    yield bound('usual', 0, **LIMITS._asdict())
    yield bound('usual-3', 3, **LIMITS._asdict())
    yield bound('all-top', TOP, **WIDE)
    yield bound('limits-top', 0, **WIDE)
    for name in Limits._fields:
        yield bound('one-' + name, 0, **{name: 1})
        yield bound('top-' + name, 0, **{name: TOP})
        yield bound('two-' + name, 4, **{**dict(input=5, output=7, tags=11, segments=3), name: 2})
        yield bound('none-' + name, 4, **{**dict(input=5, output=7, dimension=9, directories=6, tags=11, segments=3), name: 0})
    # pages and tags: (page + 1)(max_tags + 1) + 128
    for n in (TOP - 130, TOP - 129, TOP - 128, TOP - 127, TOP - 1, TOP):
        yield bound('page-top-%d' % (TOP - n), n)
        yield bound('tags-top-%d' % (TOP - n), 0, tags=n)
    half = 2 ** 32
    for page, tags in ((half - 1, half - 1), (half - 2, half), (half - 2, half - 1), (half - 2, half - 2), (half, half - 2),
                       (half - 3, half + 1), (1, 2 ** 63 - 66), (1, 2 ** 63 - 65), (1, 2 ** 63 - 1), (2 ** 63 - 66, 1), (2 ** 63 - 65, 1),
                       (2, TOP // 3 - 43), (2, TOP // 3 - 44)):
        yield bound('p%d-t%d' % (page % 1000, tags % 1000), page, tags=tags)
    # no segments: whatever their bytes may be
    yield bound('none-wide', 0, input=TOP, output=TOP)
    yield bound('none-wide-just', TOP - 129, input=TOP, output=TOP)
    yield bound('none-wide-over', TOP - 128, input=TOP, output=TOP)
    yield bound('none-all-top', 0, **{**WIDE, 'segments': 0, 'tags': 0})
    yield bound('none-tags-top', 0, **{**WIDE, 'segments': 0})
    # segments: max_segments (max_input + 2 max_output + 1)
    for n in (TOP - 131, TOP - 130, TOP - 129, TOP - 128, TOP - 1):
        yield bound('input-%d' % (TOP - n), 0, segments=1, input=n)
        yield bound('segments-%d' % (TOP - n), 0, segments=n)
        yield bound('output-%d' % (TOP - n), 0, segments=1, output=n // 2, input=n % 2)
    for name, segments, values in (
            ('half-half', half, dict(input=half)), ('half-less', half, dict(input=half - 2)), ('half-out', half, dict(output=half // 2)),
            ('half-out-less', half, dict(output=half // 2 - 1)), ('out-wraps', 1, dict(output=2 ** 63)),
            ('out-wraps-2', 2, dict(output=2 ** 62)), ('out-top', 1, dict(output=TOP)), ('sum-wraps', 5, dict(input=TOP)),
            ('in-and-out', 1, dict(input=2 ** 63, output=2 ** 62)), ('in-out-less', 1, dict(input=2 ** 63 - 200, output=2 ** 62)),
            ('sum-wraps-0', 1, dict(input=1, output=2 ** 63 - 1)), ('thirds', 3, dict(input=TOP // 3 - 44)),
            ('thirds-over', 3, dict(input=TOP // 3 - 43)), ('all-parts', 1000, dict(input=10 ** 10, output=10 ** 12, tags=10 ** 9))):
        yield bound(name, 0, segments=segments, **values)
        yield bound(name + '-p', 3, segments=segments, **values)

# Pictures of the monochrome head
GREY3, GREY2, GREY_TILE2 = strips(3, 5, 2, head=MONO), strips(3, 4, 2, seed=2, head=MONO), tiles(17, 5, head=MONO)

def mono_layouts():
    # both orders, and arrays of either type: three strips, one, two, and two tiles
    for s, big in ORDERS:
        for kinds in KINDS:
            t = '%d%d%s' % (kinds + (s,))
            yield record('strips-' + t, laid(GREY3, big=big, kinds=kinds))
            yield record('strip-' + t, laid(strips(3, 5, 5, seed=1, head=MONO), big=big, kinds=kinds))
            yield record('two-strips-' + t, laid(GREY2, big=big, kinds=kinds))
            yield record('tiles-' + t, laid(GREY_TILE2, big=big, kinds=kinds))
        yield record('tile-' + s, laid(tiles(5, 16, coded, head=MONO), big=big))
        yield record('edge-tiles-' + s, laid(tiles(17, 17, coded, head=MONO), big=big))
        # marked cases 14 and 15
        yield record('mark14-' + s, marked(CASE14, MONO, big=big))
        yield record('mark15-' + s, marked(CASE15, MONO, big=big))
    # one pixel, one row, one column, last strips that are full or short by some rows, one row to a strip
    for width, height, high in ((1, 1, 1), (1, 5, 2), (1, 7, 3), (2, 2, 1), (2, 9, 4), (3, 3, 2), (3, 6, 2), (4, 7, 1), (5, 5, 4),
                                (7, 1, 9), (8, 8, 8), (9, 10, 3), (127, 2, 1)):
        yield record('%dx%d-by-%d' % (width, height, high), laid(strips(width, height, high, seed=height, head=MONO), big=width % 2 == 0))
    for width, height, high in ((128, 1, 1), (129, 2, 2), (130, 3, 2), (300, 1, 1)):
        yield record('%dx%d-by-%d' % (width, height, high), laid(strips(width, height, high, drawn_block, head=MONO), big=width % 2 == 1))
    yield record('no-rows', laid((but(GREY3[0], 278), [coded(3, 5, 3, MONO)])))
    yield record('many-strips', laid(strips(1, 60, 1, head=MONO)))
    # tiles that are whole, that stick out to the right, below and both, and sides that differ
    for width, height, wide, high in ((16, 16, 16, 16), (1, 1, 16, 16), (15, 17, 16, 16), (32, 32, 16, 16), (33, 5, 16, 16),
                                      (5, 33, 16, 16), (33, 17, 32, 16), (17, 33, 16, 32), (40, 3, 48, 16)):
        yield record('%dx%d-%dx%d' % (width, height, wide, high), laid(tiles(width, height, seed=width, wide=wide, high=high, head=MONO)))
    yield record('tiles-detailed', laid(tiles(20, 3, coded, wide=16, head=MONO), big=True))
    # pages of both heads, of which some are alike but for that
    for s, big in ORDERS:
        for page in range(5):
            yield record('mixed-%d-%s' % (page, s), laid(STRIP3, GREY3, GREY_TILE2, TILE2, big=big), page=page, directories=5)
        for page in range(2):
            yield record('first-%d-%s' % (page, s), laid(GREY2, STRIP2, big=big, kinds=(3, 3)), page=page)
    for page in (0, 1, 3):
        yield record('loop-%d' % page, laid(strips(2, 3, 2, head=MONO), after=8), page=page)
    # where the parts of a file stand is free
    yield record('offsets-last', laid(GREY3, last=273))
    yield record('counts-last', laid(GREY3, last=279, big=True))
    file = laid(strips(3, 6, 2, flat, head=MONO))
    ranges_of = [(value_of(file, OFFSETS, k), value_of(file, COUNTS, k)) for k in range(3)]
    yield record('backwards', with_range(with_range(file, 0, *ranges_of[2]), 2, *ranges_of[0]))
    yield record('all-the-same', with_range(with_range(file, 0, *ranges_of[1]), 2, *ranges_of[1]))
    yield record('unknown', laid((GREY3[0] + [NOTE] * 7, GREY3[1])))
    # slot 8 absent, slots 2 and 18 of four bytes
    yield record('no-samples', laid((but(GREY3[0], 277), GREY3[1])))
    yield record('no-samples-t', laid((but(GREY_TILE2[0], 277), GREY_TILE2[1]), big=True))
    for s, big in ORDERS:
        yield record('four-' + s, laid((but(GREY3[0], (258, 4, 1, 16), (339, 4, 1, 2)), GREY3[1]), big=big))
    # no head: colour packets under one that is none, and the other way round
    yield record('32844-3', laid((but(STRIP3[0], (262, 3, 1, 32844)), STRIP3[1])))
    yield record('32845-1', laid((but(GREY3[0], (262, 3, 1, 32845)), GREY3[1])))
    # a picture of zeros, in parts and whole, and the largest numbers
    zeros = run(3, 0) * 4
    yield record('zeros', laid((GREY2[0], [zeros, zeros])))
    yield record('zeros-first', laid((GREY2[0], [zeros, GREY2[1][1]])))
    yield record('ones', laid((GREY2[0], [run(3, 255) * 4] * 2), big=True))
    yield record('signs', laid((GREY2[0], [run(3, 128) + run(3, 0) + run(3, 127) + run(3, 255)] * 2)))
    # control 0 at each place, and packets after the last, of either case
    for name, part in (('2', CASE14 + b'\x00'), ('3', b'\x83' + CASE14[1:]), ('4', CASE14[:-2]), ('4-one', CASE14[:-1]), ('5', CASE14 + b'\x01\x09'),
                       ('6', b''), ('first', b'\x00' + CASE14), ('between', CASE14[:2] + b'\x00\x00' + CASE14[2:]), ('colour', CASE1),
                       ('twice', CASE14 + CASE14), ('half', CASE14[:2]), ('across', b'\x82\x07')):
        yield record('mark14-' + name, marked(part, MONO))
    yield record('mark14-in-colour', marked(CASE14))
    yield record('mark14-2-colour', marked(CASE14 + CASE14))

def mono_ranges():
    # an array that the end of the file cuts
    for which, last in ((OFFSETS, 273), (COUNTS, 279)):
        whole = laid(GREY3, last=last, big=which == COUNTS)
        for cut in (1, 4, 5, 12):
            yield record('%s-%d' % (('offset', 'count')[which], cut), whole[:-cut])
    # segments outside by one, just inside, empty
    for name, page in (('s', GREY3), ('t', GREY_TILE2)):
        file = laid(page)
        n = len(file)
        for k in range(len(page[1])):
            offset, count = value_of(file, OFFSETS, k), value_of(file, COUNTS, k)
            for way, start, size in (('out-1', offset, n - offset + 1), ('end-0', n, 0), ('past-0', n + 1, 0), ('last-2', n - 1, 2),
                                     ('empty', offset, 0), ('short', offset, count - 1), ('later', offset + 1, count - 1)):
                if name == 's' or way in ('out-1', 'end-0', 'short'):
                    yield record('%s%d-%s' % (name, k, way), with_range(file, k, start, size))
    # 4A against max_output, where that is more than the picture's own bytes; 10A is not asked for
    single, most, tile = laid(strips(3, 5, 5, head=MONO)), laid(strips(3, 3, 2, head=MONO)), laid(GREY_TILE2)
    for n in (29, 30, 31, 59, 60, 61, 149):
        yield record('strip-4A-%d' % n, single, output=n)
    for n in (17, 18, 23, 24, 25, 59):
        yield record('strips-4A-%d' % n, most, output=n)
    for n in (169, 170, 1023, 1024, 1025, 2559):
        yield record('tiles-4A-%d' % n, tile, output=n)
    for n in (29, 30):
        yield record('small-4A-%d' % n, laid(GREY3), output=n)
    for name, file, n in (('strips', most, 23), ('tiles', tile, 1023)):
        yield record('%s-4A-out' % name, with_range(file, 0, len(file), 1), output=n)
        yield record('%s-4A-out-1' % name, with_range(file, 1, len(file), 1), output=n)
        yield record('%s-4A-base' % name, with_base(file, OFFSETS, 5000), output=n)
        yield record('%s-4A-count' % name, with_base(file, COUNTS, 5000), output=n)
        yield record('%s-4A-bad' % name, with_range(file, 0, 8, 2), output=n)
        yield record('%s-4A-units' % name, file, output=n, units=141)
        yield record('%s-4A-128' % name, file, output=n, units=138)

def mono_budgets():
    mono = strips(2, 3, 2, head=MONO)
    for base in (('strips', laid(GREY3), 0), ('tiles', laid(GREY_TILE2, big=True), 0), ('one', laid(strips(2, 3, 3, head=MONO)), 0),
                 ('second', laid(strips(1, 2, 2), GREY3), 1), ('colour', laid(mono, strips(1, 2, 2)), 1), ('loop', laid(mono, after=8), 2)):
        yield from at_each_charge(*base)
    # the fee comes after the range and before the packets, segment by segment
    file, heights = laid(GREY3), (2, 2, 1)
    fees = [len(part) + 24 * height + 1 for part, height in zip(GREY3[1], heights)]
    for k in range(3):
        before = 139 + sum(fees[:k])
        bad, fee = with_part(file, k, b'\xff'), 1 + 24 * heights[k] + 1
        yield record('bad-less-%d' % k, bad, units=before + fee - 1)
        yield record('bad-just-%d' % k, bad, units=before + fee)
        yield record('out-less-%d' % k, with_range(file, k, len(file), 1), units=before)
        yield record('next-bad-%d' % k, with_part(file, (k + 1) % 3, b'\xff'), units=before + fees[k])

def mono_packets():
    for name, file, width, heights in (('s', laid(GREY3), 3, (2, 2, 1)), ('t', laid(GREY_TILE2), 16, (16, 16))):
        for k, height in enumerate(heights):
            for way, part in wrong_parts(width, 2 * height):
                if name == 's' or way in ('fine', 'past-lit', 'full-lit', 'full-zero', 'cross-first', 'cross-row', 'left-byte', 'nothing'):
                    yield record('%s%d-%s' % (name, k, way), with_part(file, k, part))
            # as many planes as the other head has, one, three, and the rows of one plane after those of the other
            for planes in (1, 3, 4):
                yield record('%s%d-planes-%d' % (name, k, planes), with_part(file, k, literal(counted(width, 1)) * (planes * height)))
    for k in range(3):
        yield record('colour-%d' % k, with_part(laid(GREY3), k, STRIP3[1][k]))
        yield record('in-colour-%d' % k, with_part(laid(STRIP3), k, GREY3[1][k]))
    # a short last tile, a full last strip
    yield record('short-tile', laid((GREY_TILE2[0], [flat(16, 5, 0, MONO), flat(16, 5, 1, MONO)])))
    yield record('full-strip', with_part(laid(GREY3), 2, coded(3, 2, 2, MONO)))
    yield record('short-first', with_part(laid(GREY3), 0, coded(3, 1, 0, MONO)))
    # the boundary is that of the block's width: not of a row of planes, nor of the picture
    yield record('stride-6', with_part(laid(GREY3), 1, literal(counted(6, 1)) * 2))
    yield record('stride-12', with_part(laid(GREY3), 1, literal(counted(12, 1))))
    yield record('stride-32', with_part(laid(GREY_TILE2), 0, literal(counted(32, 1)) * 16))
    yield record('stride-17', with_part(laid(GREY_TILE2), 0, literal(counted(17, 1)) * 30 + literal(b'ab')))
    yield record('stride-8', with_part(laid(GREY_TILE2), 0, literal(counted(8, 1)) * 64))
    yield record('own-start', with_part(laid(GREY3), 0, literal(b'a') + literal(b'bcd') * 3 + literal(b'ef')))
    # two segments that are wrong: the first counts
    one, two = b'\x03', b'\xff\x00'
    for i, j in ((0, 1), (1, 2)):
        yield record('1-at-%d-2-at-%d' % (i, j), with_part(with_part(laid(GREY3), i, one), j, two))
        yield record('2-at-%d-1-at-%d' % (i, j), with_part(with_part(laid(GREY3), i, two), j, one))

def mono_handles():
    # each field altered, in strips and in tiles; what decode is lent suffices either way
    second = laid(strips(1, 1, 1), strips(2, 3, 2, head=MONO))
    for name, file, page in (('s', laid(GREY3), 0), ('t', laid(GREY_TILE2, big=True), 0), ('p', second, 1)):
        yield record(name + '-own', file, page=page)
        for field in NUMBERS:
            for way, n in (('+', 1), ('-', -1)):
                if field in ('tiled', 'big') and n != 1 or field == 'page' and page + n < 0 or name == 'p' and field != 'page' and n == 1:
                    continue
                yield record('%s-%s%s' % (name, brief(field), way), file, page=page, change=(field, n), more=(9, 9, 9))
    # the head: 1 is mono, and all else is colour
    for name, file, other in (('mono', laid(GREY3), 0), ('colour', laid(STRIP3), 1), ('mono-t', laid(GREY_TILE2), 0),
                              ('colour-t', laid(TILE2, big=True), 1)):
        for n in (0, 1, 2, 255, 2 ** 32 + 1, TOP):
            yield record('%s-is-%d' % (name, n % 1000), file, to=('head', n), more=(9, 9, 9))
        yield record(name + '-6', file, to=('head', other), more=(0, -1, -1))
        yield record(name + '-7', file, to=('head', other), more=(-1, 0, 0))
    # numbers as the other head has them
    for name, file, page in (('grey', laid(GREY3), STRIP3), ('many', laid(STRIP3), GREY3)):
        other = inspected(Charged(laid(page)), 0, LIMITS)[0]
        for field in ('output', 'scratch', 'work', 'offsets', 'counts'):
            yield record('%s-%s' % (name, field), file, to=(field, getattr(other, field)), more=(LOTS, 90, 90))
    # another page, which is like it but for the head
    for page in (0, 1):
        yield record('page-%d' % page, laid(STRIP3, GREY3), page=page, to=('page', 1 - page), more=(LOTS, 90, 90))

def mono_decodes():
    # the limits of decode
    for name, file, page in (('s', laid(GREY3), 0), ('o', laid(strips(3, 5, 5, head=MONO), STRIP3), 0), ('t', laid(STRIP3, GREY_TILE2), 1)):
        h, f, stored = inspected(Reading(file, b'', TOP), page, LIMITS)
        for limit, n in zip(Limits._fields, (len(file), max(h.output, h.scratch), max(h.width, h.height), page + 1, h.entries, h.segments)):
            for way, m in (('just', n), ('less', n - 1)):
                yield record('%s-max-%s-%s' % (name, limit[:4], way), file, page=page, to=('max_' + limit, m), more=(9, 9, 9))
    # another file: of the other head, with other pixels, packets that are wrong, one head's entry changed
    grey, many = laid(strips(3, 5, 2, flat, head=MONO)), laid(strips(3, 5, 2, flat))
    yield record('file-colour', grey, other=many, more=(LOTS, 90, 90))
    yield record('file-mono', many, other=grey, more=(LOTS, 90, 90))
    yield record('file-tiles', laid(GREY_TILE2), other=laid(TILE2), more=(LOTS, 900, 9000))
    yield record('file-mono-tiles', laid(TILE2), other=laid(GREY_TILE2), more=(LOTS, 900, 9000))
    yield record('file-pixels', grey, other=laid(strips(3, 5, 2, flat, seed=9, head=MONO)))
    yield record('file-zeros', grey, other=laid((GREY3[0], [run(3, 0) * 4] * 2 + [run(3, 0) * 2])))
    yield record('file-longer', grey, other=grey + b'?')
    yield record('file-cut', grey, other=grey[:-1])
    yield record('file-packets', grey, other=grey[:-2] + b'\xff?')
    yield record('file-order', laid(GREY3), other=laid(GREY3, big=True))
    entries, parts = strips(3, 5, 2, flat, head=MONO)
    for tag, n in ((262, 32845), (277, 3), (258, 8), (339, 1)):
        yield record('file-%d' % tag, grey, other=laid((but(entries, (tag, 3, 1, n)), parts)))
    yield record('file-samples', grey, other=laid((but(entries, 277), parts)))

def mono_buffers():
    # buffers and units, one short, more and none at all; bytes behind what is needed stay
    for name, file in (('s', laid(GREY3)), ('t', laid(GREY_TILE2)), ('b', laid(strips(2, 3, 2, head=MONO), big=True))):
        for way, n in (('less', -1), ('none', -LOTS), ('more', 1), ('much', 100)):
            yield record('%s-output-%s' % (name, way), file, more=(0, n, 0))
            yield record('%s-scratch-%s' % (name, way), file, more=(0, 0, n))
            yield record('%s-units-%s' % (name, way), file, more=(n, 0, 0))
            yield record('%s-all-%s' % (name, way), file, more=(n, n, n))
        yield record(name + '-long', file, more=(7, 1000, 2000))
        yield record(name + '-6-and-7', file, more=(-1, 9, -1))
        yield record(name + '-6-and-7-too', file, more=(-1, -1, 9))
        yield record(name + '-2-6-7', file, to=('head', 0), more=(-1, -1, -1))
    r = Charged(laid(GREY3))
    inspected(r, 0, LIMITS)
    yield record('units-exact', laid(GREY3), units=sum(r.taken))
    yield record('units-exact-less', laid(GREY3), units=sum(r.taken), more=(-1, 0, 0))

def mono_forged():
    """Handles of zeros, but for the head or for one number."""
    own = laid(GREY3)
    for tag, file, field, n in (('mono-zeros', own, 'head', 0), ('mono-head', own, 'head', 1), ('mono-head-colour', laid(STRIP3), 'head', 1),
                                ('mono-head-none', b'', 'head', 1), ('mono-head-bad', with_part(own, 2, b''), 'head', 1)):
        yield Record(tag, 0, LIMITS, 0, FIELDS.index(field) + 1, n, LOTS, 90, 60, file)
    for field, n in zip(NUMBERS, inspected(Charged(own), 0, LIMITS)[0]):
        if field in ('width', 'output', 'scratch', 'work'):
            yield Record('m-only-' + field, 0, LIMITS, 0, FIELDS.index(field) + 1, n, LOTS, 90, 60, own)

def drawn(draw, head=COLOUR):
    """A page: entries and packets."""
    if draw.below(4) == 0:
        long, short = draw.between(1, 36), draw.between(1, 16)
        entries, parts = tiles(long, short, head=head) if draw.below(2) else tiles(short, long, head=head)
        return entries, [good(draw, head.planes * 16 * 16, 16, (4, 9, 40, 40, 40)) for _ in parts]
    width, height = draw.between(1, 9), draw.between(1, 9)
    high = draw.of((1, 2, 3, height, 9))
    entries, parts = strips(width, height, high, head=head)
    return entries, [good(draw, head.planes * width * min(high, height - y), width) for y in range(0, height, high)]

def drawn_pages(draw, heads):
    """One page or two, of heads that are drawn too where there is more than one."""
    return [drawn(draw, draw.of(heads) if len(heads) > 1 else heads[0]) for _ in range(draw.of((1, 1, 1, 2)))]

def damaged(draw, file, h):
    """One place changed: a value of an array, a byte of a segment, any byte, or the file's end."""
    kind, which, k = draw.below(8), draw.below(2), draw.below(h.segments)
    place = draw.below(len(file))
    if kind == 0:
        return file[:-draw.between(1, 3)]
    if kind < 3:
        n, top = value_of(file, which, k, h.page), 256 ** place_of(file, which, k, h.page)[1] - 1
        return with_value(file, which, k, min(top, draw.of((max(0, n - 1), n + 1, n + 2, 0, len(file), top))), h.page)
    if kind < 7:
        place = value_of(file, OFFSETS, k, h.page) + draw.below(value_of(file, COUNTS, k, h.page))
    return patched(file, place, [draw.of((file[place] ^ 1 << draw.below(8), draw.below(256), 0, 128))])

def random(name, seed, how_many, heads=(COLOUR,)):
    draw = Draw(seed)
    for i in range(how_many):
        own = drawn_pages(draw, heads)
        page = draw.below(len(own))
        file = laid(*own, big=draw.below(2) == 1, kinds=draw.of(KINDS), last=draw.of((None, None, 273, 279, 324, 325)))
        r = Charged(file)
        h = inspected(r, page, LIMITS)[0]
        if draw.below(4) > 0:
            file = damaged(draw, file, h)
        limits = {}
        if draw.below(6) == 0:
            limits['output'] = draw.of((h.output, h.output - 1, h.scratch, h.scratch - 1, h.scratch + 1))
        if draw.below(9) == 0:
            limits['segments'] = draw.of((h.segments, h.segments - 1))
        whole = sum(r.taken)
        units = draw.of((LOTS, LOTS, LOTS, LOTS, LOTS, whole, whole - 1, sum(r.taken[:-1]), draw.below(whole), whole + draw.below(9)))
        more = draw.of(((0, 0, 0), (0, 0, 0), (3, 20, 5), (-1, 0, 0), (0, -1, 0), (0, 0, -1), (9, 0, 9)))
        change = (draw.of(NUMBERS), draw.of((1, 2, 16))) if draw.below(4) == 0 else None
        to = ('head', draw.below(3)) if len(heads) > 1 and not change and draw.below(8) == 0 else None
        yield record('%s-%03d' % (name, i), file, page, units, change, to, more=more, **limits)

# In the order in which the program runs them: a file's name, what its records are, and the records.
def files():
    return [(name, kind, list(made)) for name, kind, made in (
        ('layouts.bin', 'strict', layouts()),
        ('entries.bin', 'strict', entries()),
        ('inline.bin', 'strict', inlines()),
        ('inline_ranges.bin', 'strict', inline_ranges()),
        ('ranges.bin', 'strict', ranges()),
        ('budgets.bin', 'strict', budgets()),
        ('packets.bin', 'strict', packets_refused()),
        ('handles.bin', 'strict', handles()),
        ('decodes.bin', 'strict', decodes()),
        ('buffers.bin', 'strict', buffers()),
        ('forged.bin', 'forged', list(forged()) + list(mono_forged())),
        ('bounds.bin', 'bound', bounds()),
        ('random_a.bin', 'strict', random('a', 1, 70)),
        ('random_b.bin', 'strict', random('b', 2, 70)),
        ('mono_layouts.bin', 'strict', mono_layouts()),
        ('mono_ranges.bin', 'strict', list(mono_ranges()) + list(mono_budgets())),
        ('mono_packets.bin', 'strict', mono_packets()),
        ('mono_handles.bin', 'strict', mono_handles()),
        ('mono_decodes.bin', 'strict', list(mono_decodes()) + list(mono_buffers())),
        ('mono_random.bin', 'strict', random('m', 3, 80, (MONO, MONO, COLOUR))))]

def packed(r):
    return record_of(r.tag, (r.page, *r.limits, r.units, r.field, r.value, r.decode_units), (r.output, r.scratch), r.file, r.other)

# Mistakes, each a change of one place of the model: what they are, the text and what stands there instead. Two of them need `listed`.
FITS = 'if size * array.count <= 4:'
FIELD = 'r.number(array.field[size * k:size * (k + 1)])'
IN_FIELD = FITS + '\n        return ' + FIELD
PLACE = 'r.number(r.part(r.number(array.field) + size * k, size))'
NEED = 'f.head.planes * area)\n    if answer'
EACH = 'f.head.planes + f.head.bytes'
FEE, OVER = 'fee = count + 2 * per_pixel(f) * area + 1', 'if per_pixel(f) * area > limits.output:'
MOST = 'scratch, work = max(per_pixel(f) * area for area in areas),'
VALUES_WRONG = (
    # which values stand in the field
    ('a single value stands elsewhere', FITS, 'if size * array.count <= 4 and array.count > 1:'),
    ('a single short stands elsewhere', FITS, 'if size * array.count == 4:'),
    ('only a single value stands in the field', FITS, 'if array.count == 1:'),
    ('values that fill the field stand elsewhere', FITS, 'if size * array.count < 4:'),
    ('no value stands in the field', FITS, 'if False:'),
    ('every value stands in the field', FITS, 'if True:'),
    ('two values of either type stand in the field', FITS, 'if array.count <= 2:'),
    ('two values of either type are the field, again and again', IN_FIELD,
     'if array.count <= 2:\n        return r.number((array.field * 2)[size * k:size * (k + 1)])'),
    ('two values of either type stand in the field and behind it', IN_FIELD,
     'if array.count <= 2:\n        return r.number(r.file[array.place + 8 + size * k:][:size])'),
    ('three shorts stand in the field', FITS, 'if size * array.count <= 6:'),
    ('three shorts stand in the field and behind it', IN_FIELD,
     'if size * array.count <= 6:\n        return r.number(r.file[array.place + 8 + size * k:][:size])'),
    ('the first two of three shorts stand in the field', FITS,
     'if size * array.count <= 4 or size * (k + 1) <= 4 and array.count == 3:'),
) + tuple(('two shorts stand in the field %s only' % name, FITS, 'if array.count == 1 or size * array.count <= 4 and %s:' % where)
          for name, where in (('of offsets', 'array.tag in (273, 324)'), ('of counts', 'array.tag in (279, 325)'),
                              ('of strips', 'array.tag in (273, 279)'), ('of tiles', 'array.tag in (324, 325)'),
                              ('of little-endian files', "r.order == 'little'"), ('of big-endian files', "r.order == 'big'"))) + (
    # where in the field
    ('a single value has four bytes', FIELD,
     'r.number(array.field if array.count == 1 else array.field[size * k:size * (k + 1)])'),
    ('a single value has two bytes', FIELD, 'r.number(array.field[2 * k:2 * (k + 1)])'),
    ('a single value is the last two bytes', FIELD, 'r.number(array.field[4 - size * (array.count - k):][:size])'),
    ('the second of two is the first', FIELD, 'r.number(array.field[:size])'),
    ('the first of two is the second', FIELD, 'r.number(array.field[size * (array.count - 1):][:size])'),
    ('two are swapped', FIELD, 'r.number(array.field[size * (array.count - 1 - k):][:size])'),
    ('two are halves of a number, the low one first', FIELD,
     'r.number(array.field[:size]) if array.count == 1 else r.number(array.field) >> 16 * k & 65535'),
    ('two are halves of a number, the high one first', FIELD,
     'r.number(array.field[:size]) if array.count == 1 else r.number(array.field) >> 16 * (1 - k) & 65535'),
    ('two are the whole field', FIELD, 'r.number(array.field)'),
    ('the second begins at the next byte', FIELD, 'r.number(array.field[k:k + size])'),
    ('values of the field are little-endian', FIELD, "int.from_bytes(array.field[size * k:size * (k + 1)], 'little')"),
    ('values of the field are big-endian', FIELD, "int.from_bytes(array.field[size * k:size * (k + 1)], 'big')"),
    ('values of the field have a byte', FIELD, FIELD + ' % 256'),
    ('values of the field have 15 bits', FIELD, FIELD + ' % 32768'),
    ('values stand where the count is', FIELD, 'r.number(r.file[array.place + 4 + size * k:][:size])'),
    ('values stand two bytes before the field', FIELD, 'r.number(r.file[array.place + 6 + size * k:][:size])'),
    ('values stand two bytes into the field', FIELD, 'r.number(r.file[array.place + 10 + size * k:][:size])'),
    ('values stand in the next field', FIELD, 'r.number(r.file[array.place + 20 + size * k:][:size])'),
    # the field is no place
    ('the second stands at the place that the field holds', FIELD,
     'r.number(r.part(r.number(array.field), size) if k else array.field[:size])'),
    ('the second stands behind the place that the field holds', FIELD,
     'r.number(r.part(r.number(array.field) + size, size) if k else array.field[:size])'),
    ('the first stands at the place that the field holds', FIELD,
     'r.number(r.part(r.number(array.field), size) if array.count == 2 and k == 0 else array.field[size * k:size * (k + 1)])'),
    ('the field must be a place inside', IN_FIELD,
     IN_FIELD.replace('return', 'r.part(r.number(array.field), 0)\n        return')),
    ('the field of two must be a place inside', IN_FIELD,
     IN_FIELD.replace('return', 'r.part(r.number(array.field) if array.count == 2 else 0, 0)\n        return')),
    ('the field of two is a place where it lies inside', FITS,
     'if size * array.count <= 4 and (array.count == 1 or r.number(array.field) > len(r.file)):'),
    ('a value of 0 stands at the place that the field holds', IN_FIELD,
     FITS + '\n        own = array.field[size * k:size * (k + 1)]\n'
     '        return r.number(own if any(own) else r.part(r.number(array.field), size))'),
    # values elsewhere
    ('every value is the first', PLACE, PLACE.replace('size * k', 'size * 0')),
    ('values from the second on', PLACE, PLACE.replace('size * k', 'size * (k + 1)')),
    ('values four bytes apart', PLACE, PLACE.replace('size * k', '4 * k')),
    ('values two bytes apart', PLACE, PLACE.replace('size * k', '2 * k')),
    ('values of four bytes', '    size = SIZES[array.kind]\n', '    size = 4\n'),
    ('values of two bytes', '    size = SIZES[array.kind]\n', '    size = 2\n'),
    ('the whole array is inside', '    return ' + PLACE,
     '    r.part(r.number(array.field), size * array.count)\n    return ' + PLACE),
    ('values are cut at the end of the file', PLACE, 'r.number(r.file[r.number(array.field) + size * k:][:size])'),
)
VALUE = inspect.getsource(value)

def values_wrong(user, wrong):
    """Mistakes of the value of an array, which is of tests/front.py: the wrong function stands before the one that uses it."""
    return tuple((name, user, VALUE.replace(old, new) + user) for name, old, new in wrong)

WRONG = values_wrong('def segment(r, f, limits, k):\n', VALUES_WRONG) + (
    # rows
    ('tiles are as high as the picture', '    if f.tiled:\n        return f.block_height\n',
     '    if f.tiled:\n        return min(f.block_height, f.height)\n'),
    ('the last tile is short', '    if f.tiled:\n        return f.block_height\n',
     '    if f.tiled:\n        return min(f.block_height, f.height - k // f.across * f.block_height)\n'),
    ('the last strip is full', 'return len(range(f.height)[k * f.block_height:(k + 1) * f.block_height])', 'return f.block_height'),
    ('the last strip has what is left over', 'return len(range(f.height)[k * f.block_height:(k + 1) * f.block_height])',
     'return f.height % f.block_height if k + 1 == f.segments else f.block_height'),
    # a segment
    ('offsets and counts swapped', 'offset = value(r, f.offsets, k)\n    count = value(r, f.counts, k)',
     'offset = value(r, f.counts, k)\n    count = value(r, f.offsets, k)'),
    ('all counts are the first', 'count = value(r, f.counts, k)', 'count = value(r, f.counts, 0)'),
    ('all offsets are the first', 'offset = value(r, f.offsets, k)', 'offset = value(r, f.offsets, 0)'),
    ('ranges are cut at the end of the file', 'stored = r.part(offset, count)',
     'stored = r.file[offset:offset + count]\n    count = len(stored)'),
    ('the end of a range wraps at 2^32', 'stored = r.part(offset, count)',
     'stored = r.part(offset, count) if offset + count < 2 ** 32 else r.file[:(offset + count) % 2 ** 32]'),
    ('an empty range at the end is outside', 'stored = r.part(offset, count)', 'stored = r.part(offset, max(count, 1))[:count]'),
    ('an empty range lies anywhere', 'stored = r.part(offset, count)', "stored = r.part(offset, count) if count else b''"),
    ('the last byte is outside', 'stored = r.part(offset, count)', 'stored = r.part(offset, count + 1)[:count]'),
    ('a range outside is 2', '    stored = r.part(offset, count)\n',
     '    if offset + count > len(r.file):\n        raise Refused(2)\n    stored = r.part(offset, count)\n'),
    ('a range outside is charged', '    stored = r.part(offset, count)\n    area = f.block_width * rows(f, k)\n',
     '    area = f.block_width * rows(f, k)\n    if offset + count > len(r.file):\n        r.charge(count + 2 * per_pixel(f) * area + 1)\n'
     '    stored = r.part(offset, count)\n'),
    ('an empty range is a segment without pixels', '    area = f.block_width * rows(f, k)\n',
     "    area = f.block_width * rows(f, k)\n    if count == 0:\n        return b'', area, 0\n"),
    ('10A before the range',
     '    stored = r.part(offset, count)\n    area = f.block_width * rows(f, k)\n    if per_pixel(f) * area > limits.output:\n'
     '        raise Refused(4)\n',
     '    area = f.block_width * rows(f, k)\n    if per_pixel(f) * area > limits.output:\n        raise Refused(4)\n'
     '    stored = r.part(offset, count)\n'),
    ('10A before the entries', '    offset = value(r, f.offsets, k)\n',
     '    if per_pixel(f) * f.block_width * rows(f, k) > limits.output:\n        raise Refused(4)\n    offset = value(r, f.offsets, k)\n'),
    ('10A after the charge',
     '    if per_pixel(f) * area > limits.output:\n        raise Refused(4)\n    fee = count + 2 * per_pixel(f) * area + 1\n    if fee > TOP:\n'
     '        raise Refused(4)\n    r.charge(fee)\n',
     '    fee = count + 2 * per_pixel(f) * area + 1\n    r.charge(fee)\n    if per_pixel(f) * area > limits.output:\n        raise Refused(4)\n'),
    ('10A at the limit', OVER, OVER.replace('>', '>=')),
    ('10A one above the limit', OVER, OVER.replace(':', ' + 1:')),
    ('10A is not limited', OVER, 'if False:'),
    ('6A is limited', OVER, OVER.replace('per_pixel(f)', 'f.head.bytes')),
    ('4A is limited', OVER, OVER.replace('per_pixel(f)', 'f.head.planes')),
    ('10A above the limit is 6', 'per_pixel(f) * area > limits.output:\n        raise Refused(4)',
     'per_pixel(f) * area > limits.output:\n        raise Refused(6)'),
    ('10A above the limit is 3', 'per_pixel(f) * area > limits.output:\n        raise Refused(4)',
     'per_pixel(f) * area > limits.output:\n        raise Refused(3)'),
    ('the fee is one less', FEE, FEE.replace(' + 1', '')),
    ('the fee without the count', FEE, FEE.replace('count + ', '')),
    ('the fee by 10A', FEE, FEE.replace('2 * ', '')),
    ('the fee by 21A', FEE, FEE.replace(' + 1', ' + area + 1')),
    ('the fee by twice the count', FEE, FEE.replace('count', '2 * count')),
    ('the fee of a whole block', FEE, FEE.replace('area', 'f.block_width * f.block_height')),
    ('the fee of what is seen of a tile', FEE, FEE.replace('area', 'min(f.block_width, f.width) * rows(f, k)')),
    ('the charge after the packets', '    r.charge(fee)\n',
     '    if packets(stored, 0, count, f.block_width, f.head.planes * area) == 0:\n        r.charge(fee)\n'),
    ('only the first fee is charged', 'r.charge(fee)', 'r.charge(fee if k == 0 else 0)'),
    ('only the last fee is charged', 'r.charge(fee)', 'r.charge(fee if k + 1 == f.segments else 0)'),
    ('packets are not looked at', 'answer = packets(stored, 0, count, f.block_width, f.head.planes * area)', 'answer = 0'),
    ('packets of the first segment alone', 'if answer > 0:', 'if answer > 0 and k == 0:'),
    ('packets but those of the first segment', 'if answer > 0:', 'if answer > 0 and k > 0:'),
    ('packets but those of the last segment', 'if answer > 0:', 'if answer > 0 and k + 1 < f.segments:'),
    ('packets need 3A', NEED, NEED.replace('planes', 'channels')),
    ('packets need 6A', NEED, NEED.replace('planes', 'bytes')),
    ('packets need a whole block', NEED, NEED.replace('area', 'f.block_width * f.block_height')),
    ('packets need what is seen of a tile', NEED, NEED.replace('area', 'min(f.block_width, f.width) * rows(f, k)')),
    ('the stride is a row of planes', 'packets(stored, 0, count, f.block_width,', 'packets(stored, 0, count, f.head.planes * f.block_width,'),
    ('the stride is half of the width', 'packets(stored, 0, count, f.block_width,',
     'packets(stored, 0, count, max(1, f.block_width // 2),'),
    ("the stride is the picture's width", 'packets(stored, 0, count, f.block_width,', 'packets(stored, 0, count, f.width,'),
    ('no stride', 'packets(stored, 0, count, f.block_width,', 'packets(stored, 0, count, TOP,'),
    ('the last byte of a range is left out', 'packets(stored, 0, count, f.block_width,',
     'packets(stored, 0, max(count, 1) - 1, f.block_width,'),
    ('control 0 is refused', '    if answer > 0:\n',
     '    if answer == 0 and any(c == 0 for c, _, _, _ in listed(stored)):\n        answer = 2\n    if answer > 0:\n'),
    ('control 0 at the end is refused', '    if answer > 0:\n',
     '    if answer == 0 and listed(stored)[-1][0] == 0:\n        answer = 2\n    if answer > 0:\n'),
    ('bad packets are 1', 'raise Refused(answer)', 'raise Refused(1)'),
    ('bad packets are 2', 'raise Refused(answer)', 'raise Refused(2)'),
    ('bad packets are 3', 'raise Refused(answer)', 'raise Refused(3)'),
    # inspection
    ('the first limits are not tested', '    limited(len(r.file), page, limits)\n', ''),
    ('the input is not limited', 'limited(len(r.file), page, limits)', 'limited(0, page, limits)'),
    ('the page is not limited', 'limited(len(r.file), page, limits)', 'limited(len(r.file), 0, limits)'),
    ('always the first page', 'f = picture(r, page, limits)', 'f = picture(r, 0, limits)'),
    ('segments backwards', 'for k in range(f.segments)))', 'for k in range(f.segments)[::-1]))'),
    ('all ranges before all packets', '    stored, areas, fees = zip',
     '    for k in range(f.segments):\n        r.part(value(r, f.offsets, k), value(r, f.counts, k))\n    stored, areas, fees = zip'),
    ('all entries before all ranges', '    stored, areas, fees = zip',
     '    for k in range(f.segments):\n        value(r, f.offsets, k), value(r, f.counts, k)\n    stored, areas, fees = zip'),
    ('one charge at the end', '    stored, areas, fees = zip',
     '    left, r.left = r.left, TOP\n    charged = [segment(r, f, limits, k)[2] for k in range(f.segments)]\n    r.left = left\n'
     '    r.charge(sum(charged))\n    r.left = left\n    stored, areas, fees = zip'),
    ('scratch is the sum', MOST, MOST.replace('max', 'sum')),
    ('scratch is the last', MOST, 'scratch, work = per_pixel(f) * areas[-1],'),
    ('scratch is the least', MOST, MOST.replace('max', 'min')),
    ('scratch is 4A', MOST, MOST.replace('per_pixel(f)', 'f.head.planes')),
    ('scratch is 6A', MOST, MOST.replace('per_pixel(f)', 'f.head.bytes')),
    ('work has the 128', 'sum(fees)\n', 'sum(fees) + 128\n'),
    ('work is all that is charged', 'sum(fees)\n', 'sum(fees) + 128 + f.entries + 1\n'),
    ('work is the largest fee', 'sum(fees)\n', 'max(fees)\n'),
    ('work is the last fee', 'sum(fees)\n', 'fees[-1]\n'),
    ('the page is always 0', 'f.entries, page, scratch, work,', 'f.entries, 0, scratch, work,'),
    ('the page is counted from 1', 'f.entries, page, scratch, work,', 'f.entries, page + 1, scratch, work,'),
    ('no more than eleven entries are counted', 'f.counts.place, f.entries,', 'f.counts.place, min(f.entries, 11),'),
    # pixels
    ('segments column by column', 'segments[y // f.block_height * f.across + x // f.block_width]',
     'segments[x // f.block_width * (len(segments) // f.across) + y // f.block_height]'),
    ('one row of segments', 'segments[y // f.block_height * f.across + x // f.block_width]', 'segments[x // f.block_width]'),
    ('one column of segments', 'segments[y // f.block_height * f.across + x // f.block_width]', 'segments[y // f.block_height * f.across]'),
    ('segments of a row backwards', 'segments[y // f.block_height * f.across + x // f.block_width]',
     'segments[y // f.block_height * f.across + f.across - 1 - x // f.block_width]'),
    ("rows of the picture's width", '* f.block_width + x % f.block_width) * b + c',
     '* min(f.width, f.block_width) + x % f.block_width) * b + c'),
    ('only the first row of a segment', '((y % f.block_height) * f.block_width', '(0 * f.block_width'),
    ('only the first column of a segment', '+ x % f.block_width) * b + c', ') * b + c'),
    ("columns from the segment's right", '+ x % f.block_width) * b + c', '+ f.block_width - 1 - x % f.block_width) * b + c'),
    ('bytes of a sample swapped', '* b + c\n', '* b + (c ^ 1)\n'),
    ('u and v swapped', '* b + c\n', '* b + (0, 1, 4, 5, 2, 3)[c]\n'),
    ('planes of a whole segment', 'pixels(f.head, expanded(part), f.block_width, rows(f, k),',
     'pixels(f.head, expanded(part), f.block_width * rows(f, k), 1,'),
    ('columns before rows', 'for y in range(f.height) for x in range(f.width) for c',
     'for x in range(f.width) for y in range(f.height) for c'),
    ('the picture from below', 'for y in range(f.height) for x', 'for y in range(f.height)[::-1] for x'),
    ('tiles with their padding', 'for x in range(f.width) for c in range(b)]',
     'for x in range(-(-f.width // f.block_width) * f.block_width) for c in range(b)]'),
    ('the last row is left out', 'for y in range(f.height) for x', 'for y in range(max(1, f.height - 1)) for x'),
    ('the last column is left out', 'for x in range(f.width) for c', 'for x in range(max(1, f.width - 1)) for c'),
    ('the first segment for all', 'return segments[y //', 'return segments[0 * y //'),
    # decode
    ('the handle is inspected with its own units', "inspected(Reading(file, b'', TOP), handle.page, limits)",
     "inspected(Reading(file, b'', units), handle.page, limits)"),
    ('the handle is inspected with its own work', "inspected(Reading(file, b'', TOP), handle.page, limits)",
     "inspected(Reading(file, b'', handle.work), handle.page, limits)"),
    ("the handle's page is 0", "inspected(Reading(file, b'', TOP), handle.page, limits)", "inspected(Reading(file, b'', TOP), 0, limits)"),
    ("a handle that can't be is 1", 'except Refused:\n        return 2,', 'except Refused:\n        return 1,'),
    ('a handle of a refused page passes its number', 'except Refused:\n        return 2,',
     'except Refused as why:\n        return why.args[0],'),
    ('a forged handle is 3', 'if handle != own:\n        return 2,', 'if handle != own:\n        return 3,'),
    ('any handle of an accepted page', 'if handle != own:', 'if False:'),
    ('a forged handle zeroes output', 'if handle != own:\n        return 2, units, output, scratch',
     'if handle != own:\n        return 2, units, [0] * len(output), scratch'),
    ('a forged handle zeroes scratch', 'if handle != own:\n        return 2, units, output, scratch',
     'if handle != own:\n        return 2, units, output, [0] * len(scratch)'),
    ('a forged handle takes its work', 'if handle != own:\n        return 2, units,',
     'if handle != own:\n        return 2, max(0, units - handle.work),'),
    ('a forged handle takes all units', 'if handle != own:\n        return 2, units,', 'if handle != own:\n        return 2, 0,'),
    ('a handle of zeros is empty', '    try:\n        own',
     '    if not any(handle[:-1]):\n        return 0, units, output, scratch\n    try:\n        own'),
    ('buffers before the handle', '    try:\n        own',
     '    if len(output) < handle.output or len(scratch) < handle.scratch:\n        return 6, units, output, scratch\n    try:\n'
     '        own'),
    ('units before the handle', '    try:\n        own',
     '    if units < handle.work:\n        return 7, units, output, scratch\n    try:\n        own'),
    ('units before the buffers', '    if len(output) < handle.output:\n',
     '    if units < handle.work:\n        return 7, units, output, scratch\n    if len(output) < handle.output:\n'),
    ('units between the buffers', '    if len(scratch) < handle.scratch:\n',
     '    if units < handle.work:\n        return 7, units, output, scratch\n    if len(scratch) < handle.scratch:\n'),
    ('output is not tested', 'if len(output) < handle.output:', 'if False:'),
    ('output must be exact', 'if len(output) < handle.output:', 'if len(output) != handle.output:'),
    ('output must be longer', 'if len(output) < handle.output:', 'if len(output) <= handle.output:'),
    ('output may be one short', 'if len(output) < handle.output:', 'if len(output) + 1 < handle.output:'),
    ('output short is 4', 'if len(output) < handle.output:\n        return 6,', 'if len(output) < handle.output:\n        return 4,'),
    ('scratch is not tested', 'if len(scratch) < handle.scratch:', 'if False:'),
    ('scratch must be exact', 'if len(scratch) < handle.scratch:', 'if len(scratch) != handle.scratch:'),
    ('scratch may be one short', 'if len(scratch) < handle.scratch:', 'if len(scratch) + 1 < handle.scratch:'),
    ('scratch short is 4', 'if len(scratch) < handle.scratch:\n        return 6,', 'if len(scratch) < handle.scratch:\n        return 4,'),
    ('short scratch is zeroed', 'if len(scratch) < handle.scratch:\n        return 6, units, output, scratch',
     'if len(scratch) < handle.scratch:\n        return 6, units, output, [0] * len(scratch)'),
    ('short buffers are charged', 'if len(output) < handle.output:\n        return 6, units,',
     'if len(output) < handle.output:\n        return 6, max(0, units - handle.work),'),
    ('units must be more', 'if units < handle.work:', 'if units <= handle.work:'),
    ('one unit short is let pass', 'if units < handle.work:', 'if units + 1 < handle.work:'),
    ('units short are 4', 'if units < handle.work:\n        return 7,', 'if units < handle.work:\n        return 4,'),
    ('units short are taken', 'if units < handle.work:\n        return 7, units,', 'if units < handle.work:\n        return 7, 0,'),
    ('the picture before the charge', 'if units < handle.work:\n        return 7, units, output, scratch',
     'if units < handle.work:\n        return 7, units, shown(f, stored) + output[handle.output:], scratch'),
    ('output is zeroed before the charge', 'if units < handle.work:\n        return 7, units, output, scratch',
     'if units < handle.work:\n        return 7, units, [0] * handle.output + output[handle.output:], scratch'),
    ('scratch is zeroed before the charge', 'if units < handle.work:\n        return 7, units, output, scratch',
     'if units < handle.work:\n        return 7, units, output, [0] * handle.scratch + scratch[handle.scratch:]'),
    ('decode is free', 'return 0, units - handle.work,', 'return 0, units,'),
    ('decode takes all units', 'return 0, units - handle.work,', 'return 0, 0,'),
    ('decode takes one more', 'return 0, units - handle.work,', 'return 0, max(0, units - handle.work - 1),'),
    ('bytes behind the picture are zeroed', 'whole + output[len(whole):]', 'whole + [0] * (len(output) - len(whole))'),
    ('output stays', 'whole + output[len(whole):]', 'output'),
    ('scratch stays', '[0] * handle.scratch + scratch[handle.scratch:]\n', 'scratch\n'),
    ('scratch is zeroed whole', '[0] * handle.scratch + scratch[handle.scratch:]\n', '[0] * len(scratch)\n'),
    ('scratch is zeroed but for a byte', '[0] * handle.scratch + scratch[handle.scratch:]\n',
     '[0] * (handle.scratch - 1) + scratch[handle.scratch - 1:]\n'),
    ('scratch keeps the last planes', '[0] * handle.scratch + scratch[handle.scratch:]\n',
     '(expanded(stored[-1]) + [0] * handle.scratch)[:handle.scratch] + scratch[handle.scratch:]\n'),
    ('only the planes are zeroed', '[0] * handle.scratch + scratch[handle.scratch:]\n',
     '[0] * (handle.scratch // per_pixel(f) * f.head.planes) + scratch[handle.scratch // per_pixel(f) * f.head.planes:]\n'),
    # the work limit
    ('the bound without the page itself', 'bound = (page + 1) *', 'bound = max(1, page) *'),
    ('the bound without the count of entries', '* (limits.tags + 1) +', '* limits.tags +'),
    ('the bound without 128', '+ 128 + limits.segments', '+ limits.segments'),
    ('the bound with max_output once', '+ 2 * limits.output + 1)', '+ limits.output + 1)'),
    ('the bound with 20 max_output', '+ 2 * limits.output + 1)', '+ 20 * limits.output + 1)'),
    ('the bound without one for each segment', '+ 2 * limits.output + 1)', '+ 2 * limits.output)'),
    ('the bound with one segment', 'limits.segments * (limits.input', '(limits.input'),
    ('the bound without max_input', '(limits.input + 2 *', '(2 *'),
    ('the bound with one directory', '(page + 1) * (limits.tags + 1)', '(limits.tags + 1)'),
    ('the bound by max_directories', '(page + 1) * (limits.tags + 1)', 'limits.directories * (limits.tags + 1)'),
    ('the bound at most 2^64', "return 'over' if bound > TOP", "return 'over' if bound > TOP + 1"),
    ('the bound below 2^64-1', "return 'over' if bound > TOP", "return 'over' if bound >= TOP"),
    ('the bound wraps', "return 'over' if bound > TOP", "bound %= TOP + 1\n    return 'over' if bound > TOP"),
    ('a segment alone may be over', "return 'over' if bound > TOP",
     "return 'over' if limits.input + 2 * limits.output + 1 > TOP or bound > TOP"),
    ('twice max_output may be over', "return 'over' if bound > TOP", "return 'over' if 2 * limits.output > TOP or bound > TOP"),
    ('twice max_output wraps', '+ 2 * limits.output + 1)', '+ 2 * limits.output % 2 ** 64 + 1)'),
    ('a segment wraps', '(limits.input + 2 * limits.output + 1)', '((limits.input + 2 * limits.output + 1) % 2 ** 64)'),
    ('the segments wrap', 'limits.segments * (limits.input + 2 * limits.output + 1)',
     'limits.segments * (limits.input + 2 * limits.output + 1) % 2 ** 64'),
    ('the directories wrap', '(page + 1) * (limits.tags + 1)', '(page + 1) * (limits.tags + 1) % 2 ** 64'),
    ('the next page wraps', '(page + 1) * (limits.tags + 1)', '((page + 1) % 2 ** 64) * (limits.tags + 1)'),
    ('one more tag wraps', '(page + 1) * (limits.tags + 1)', '(page + 1) * ((limits.tags + 1) % 2 ** 64)'),
    # heads
    ('scratch and fees of colour for either head', EACH, '10'),
    ('scratch and fees of mono for either head', EACH, '4'),
    ('scratch and fees without the planes', EACH, 'f.head.bytes'),
    ('10A of mono is limited', OVER, OVER.replace('per_pixel(f)', '10')),
    ('4A of colour is limited', OVER, OVER.replace('per_pixel(f)', '4')),
    ('2A of mono is limited', OVER, OVER.replace('per_pixel(f)', '(per_pixel(f) if f.head == COLOUR else 2)')),
    ('6A of mono is limited', OVER, OVER.replace('per_pixel(f)', 'max(6, per_pixel(f))')),
    ('4A of mono is not limited', OVER, OVER.replace('if', 'if f.head == COLOUR and')),
    ('4A of mono at the limit', OVER, OVER.replace('> limits.output', '> limits.output - (f.head == MONO)')),
    ('4A of mono one above the limit', OVER, OVER.replace('> limits.output', '> limits.output + (f.head == MONO)')),
    ('4A of mono after the charge', '    ' + OVER,
     '    if f.head == MONO and 4 * area > limits.output:\n        r.charge(count + 8 * area + 1)\n    ' + OVER),
    ('4A of mono before the range', '    stored = r.part(offset, count)\n',
     '    if f.head == MONO and 4 * f.block_width * rows(f, k) > limits.output:\n        raise Refused(4)\n    stored = r.part(offset, count)\n'),
    ('the fee of colour for mono', FEE, FEE.replace('per_pixel(f)', '10')),
    ('the fee of mono for colour', FEE, FEE.replace('per_pixel(f)', '4')),
    ('the fee of mono by 4A', FEE, FEE.replace('2 *', '(1 + (f.head == COLOUR)) *')),
    ('the fee of mono by 2A', FEE, FEE.replace('2 * per_pixel(f)', '(20 if f.head == COLOUR else 2)')),
    ('the fee of mono by 9A', FEE, FEE.replace('2 * per_pixel(f)', '(20 if f.head == COLOUR else 9)')),
    ('the fee of mono by 12A', FEE, FEE.replace('2 * per_pixel(f)', '(20 if f.head == COLOUR else 12)')),
    ('the fee of mono without one', FEE, FEE.replace('+ 1', '+ (f.head == COLOUR)')),
    ('the fee of mono without the count', FEE, FEE.replace('count', '(f.head == COLOUR) * count')),
    ('a segment of mono is free', 'r.charge(fee)', 'r.charge(fee if f.head == COLOUR else 0)'),
    ('mono is charged after its packets', '    r.charge(fee)\n',
     '    if f.head == COLOUR or packets(stored, 0, count, f.block_width, f.head.planes * area) == 0:\n        r.charge(fee)\n'),
    ('packets of mono need 4A', NEED, NEED.replace('f.head.planes', '4')),
    ('packets of mono need A', NEED, NEED.replace('f.head.planes', '(4 if f.head == COLOUR else 1)')),
    ('packets of mono need 3A', NEED, NEED.replace('f.head.planes', 'max(3, f.head.planes)')),
    ('packets of colour need 2A', NEED, NEED.replace('f.head.planes', '2')),
    ('packets of mono need 2A or 4A', '    if answer > 0:\n',
     '    if f.head == MONO and answer > 0 and packets(stored, 0, count, f.block_width, 4 * area) == 0:\n        answer = 0\n    if answer > 0:\n'),
    ('packets of mono are not looked at', 'if answer > 0:', 'if answer > 0 and f.head == COLOUR:'),
    ('the stride of mono is two rows', 'packets(stored, 0, count, f.block_width,',
     'packets(stored, 0, count, (1 + (f.head == MONO)) * f.block_width,'),
    ('no stride for mono', 'packets(stored, 0, count, f.block_width,',
     'packets(stored, 0, count, f.block_width if f.head == COLOUR else TOP,'),
    ('scratch of colour for mono', MOST, MOST.replace('per_pixel(f)', '10')),
    ('scratch of mono for colour', MOST, MOST.replace('per_pixel(f)', '4')),
    ('scratch of mono is 2A', MOST, MOST.replace('per_pixel(f)', '(10 if f.head == COLOUR else 2)')),
    ('scratch of mono is 6A', MOST, MOST.replace('per_pixel(f)', 'max(6, per_pixel(f))')),
    ('scratch of mono is 8A', MOST, MOST.replace('per_pixel(f)', 'max(8, per_pixel(f))')),
    ('every handle is of colour', 'scratch, work, f.head)', 'scratch, work, COLOUR)'),
    ('every handle is of mono', 'scratch, work, f.head)', 'scratch, work, MONO)'),
    ('heads of handles swapped', 'scratch, work, f.head)', 'scratch, work, MONO if f.head == COLOUR else COLOUR)'),
    ('a handle has the head of the first page', '    f = picture(r, page, limits)\n',
     '    f = picture(r, page, limits)\n    first = Reading(r.file, b\'\', TOP)\n'
     '    f = f._replace(head=picture(first, 0, limits).head if page == 1 else f.head)\n'),
    ('mono has six bytes a pixel', '    b = f.head.bytes\n', '    b = 6\n'),
    ('only every third pixel of mono', '* b + c\n', '* b + c\n        place -= place // b % 3 * b if f.head == MONO else 0\n'),
    ('bytes of L swapped for mono', '* b + c\n', '* b + (c if f.head == COLOUR else c ^ 1)\n'),
    ('bytes of L swapped for big-endian mono', '* b + c\n', "* b + (c ^ 1 if f.head == MONO and f.order == 'big' else c)\n"),
    ('planes of mono from the end', 'pixels(f.head, expanded(part),', 'pixels(f.head, expanded(part)[::-1 if f.head == MONO else 1],'),
    ('planes of mono of a whole segment', 'pixels(f.head, expanded(part), f.block_width, rows(f, k),',
     'pixels(f.head, expanded(part), *((f.block_width, rows(f, k)) if f.head == COLOUR else (f.block_width * rows(f, k), 1)),'),
    ('pixels of mono that are zero stay', 'whole = shown(f, stored)\n',
     'whole = shown(f, stored)\n    whole = whole if f.head == COLOUR else [new or old for new, old in zip(whole, output)]\n'),
    ('mono is written over six bytes a pixel', 'whole + output[len(whole):]',
     'whole + [0] * ((len(output) - len(whole)) if f.head == MONO else 0) + output[len(whole):] * (f.head == COLOUR)'),
    ('mono zeroes scratch of colour', '[0] * handle.scratch + scratch[handle.scratch:]\n',
     '([0] * (10 * f.block_width * f.block_height) + scratch[10 * f.block_width * f.block_height:])[:len(scratch)]\n'),
    ('mono leaves scratch', '[0] * handle.scratch + scratch[handle.scratch:]\n',
     '[0] * handle.scratch + scratch[handle.scratch:] if f.head == COLOUR else scratch\n'),
    ('output of mono is tested by six bytes a pixel', 'if len(output) < handle.output:', 'if len(output) < 6 * handle.width * handle.height:'),
    ('scratch is tested by ten bytes a pixel', 'if len(scratch) < handle.scratch:', 'if len(scratch) < 10 * f.block_width * f.block_height:'),
    ('scratch is tested by four bytes a pixel', 'if len(scratch) < handle.scratch:', 'if len(scratch) < 4 * f.block_width * f.block_height:'),
    ('a handle is right for a file of the other head', 'if handle != own:',
     "if handle != own and not (handle.head != own.head and handle[:7] == own[:7]):"),
    ('a handle of zeros but for the head is empty', '    try:\n        own',
     '    if handle.head == MONO and not any(handle[:-1]):\n        return 0, units, output, scratch\n    try:\n        own'),
    # what is written
    ('a refusal gives the units back', "'%-16s refused %d, left %d' % (r.tag, why.args[0], reading.left)",
     "'%-16s refused %d, left %d' % (r.tag, why.args[0], r.units)"),
    ('decode goes by the first limits', 'decoded(r.other or r.file, limits, handle', 'decoded(r.other or r.file, r.limits, handle'),
) + tuple(('the %s of a handle is not looked at' % field.replace('_', ' '), 'if handle != own:',
           'if handle._replace(%s=own.%s) != own:' % (field, field)) for field in Handle._fields if field != 'page')
