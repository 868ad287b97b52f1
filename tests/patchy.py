"""Vectors for patchy reading, and what docs/SPECIFICATION.md says of each.

The model is written from its rules (group 8, and 5.6) on whole lists and unbounded numbers, over the models
of the front part, of segments and of packets and pixels. It follows no code of this repository:
the blocks of a file are counted by laying them out, every segment is judged before the one charge is made,
and the picture is made whole, byte by byte, before it is put over the output, so that an error of the code's
walks, running sums and parts of buffers can't be repeated here.

The script stops where two rules do not hold of its own answers: bytes that did not come change nothing (rule
8.10), and with everything arrived all codes are 1 exactly if strict inspection succeeds, and the units left and
the pixels are then those of strict reading, by the model of tests/strict.py (rule 8.11). Of libtiff's pictures
the pixels are libtiff's own, by its CRC-32.
"""
import collections
import zlib

import front
import strict
from common import FILL, ROOM, TOP, Draw, record_of
from front import COLOUR, MONO, NOTE, SIZES, STRIPS, WIDE, Limits, Reading, Refused, but, limited, patched, picture, tiff, value
from leaf import CASE1, CASE14, CASE15, expanded, literal, packets, run
from libtiff import file_of, vouched
from strict import (CASE13, COUNTS, GREY3, GREY_TILE2, IN_FIELD, KINDS, LOTS, OFFSETS, ORDERS, PAIRS, STRIP2, STRIP3, TILE2,
                    VALUES_WRONG, coded, drawn_pages, emptied, flat, headed, inspected, laid, marked, per_pixel, placed, rows, shown,
                    strips, tiles, values_wrong, with_base, with_part, with_range, wrong_parts)

# What is asked for, the lengths of the three buffers, the file and its map. Of libtiff's pictures, the CRC-32 of the pixels.
Record = collections.namedtuple('Record', 'tag page limits units output scratch quality file blocks crc', defaults=(None,))

# ---- model ----

# Quality (rule 8.6): what a segment is whose entry or range a check for 1 or for 8 refuses.
CODES = {1: 3, 8: 2}

# Quality of a segment, the first that applies (rules 8.6 and 5.6); its charge; its stored bytes where it is good.
def judged(r, f, k):
    try:
        offset = value(r, f.offsets, k)
        count = value(r, f.counts, k)
        stored = r.part(offset, count)
    except Refused as why:
        return CODES[why.args[0]], 1, b''
    area = f.block_width * rows(f, k)
    fee = count + 2 * per_pixel(f) * area + 1
    if packets(stored, 0, count, f.block_width, f.head.planes * area) > 0:
        return 4, fee, b''
    return 1, fee, stored

# The picture (rule 8.7): what a good segment shows, and zero bytes for each pixel of any other.
def patched_up(f, codes, parts):
    b = f.head.bytes
    own = [y // f.block_height * f.across + x // f.block_width for y in range(f.height) for x in range(f.width) for c in range(b)]
    return [byte if codes[k] == 1 else 0 for k, byte in zip(own, shown(f, parts))]

# A map has a byte for each block, or none at all (rules 8.2 and 8.3).
def mapped(r):
    blocks = len(range(0, len(r.file), 512))
    if len(r.blocks) > 0 and len(r.blocks) != blocks:
        raise Refused(9)

# All that can refuse, in order (rules 2.2 and 8.3 to 8.5): the format, and of each segment its quality and its stored bytes.
def admitted(r, page, limits, output, scratch, quality):
    limited(len(r.file), page, limits)
    mapped(r)
    f = picture(r, page, limits)
    needed = per_pixel(f) * f.block_width * f.block_height
    if needed > limits.output:
        raise Refused(4)
    if len(output) < f.output:
        raise Refused(6)
    if len(scratch) < needed:
        raise Refused(6)
    if len(quality) < f.segments:
        raise Refused(6)
    codes, charges, parts = zip(*(judged(r, f, k) for k in range(f.segments)))
    if sum(charges) > TOP:
        raise Refused(4)
    r.charge(sum(charges))
    return f, codes, parts, needed

# Patchy reading (rules 8.7 to 8.9, and 1.3): the format or the number of a refusal, and what is then in output, scratch and quality.
def patchy(r, page, limits, output, scratch, quality):
    try:
        f, codes, parts, needed = admitted(r, page, limits, output, scratch, quality)
    except Refused as why:
        return why.args[0], output, scratch, [0] * len(quality)
    whole = patched_up(f, codes, parts)
    behind = len(quality) - len(codes)
    return f, whole + output[len(whole):], [0] * needed + scratch[needed:], list(codes) + [0] * behind

# What the program writes of a record.
def line(kind, r):
    reading = Reading(r.file, r.blocks, r.units)
    f, output, scratch, quality = patchy(reading, r.page, r.limits, [FILL] * r.output, [FILL] * r.scratch, [FILL] * r.quality)
    if isinstance(f, int):
        said = 'refused %d' % f
    else:
        said = '%d x %d, blocks %d x %d, %d segments, %d channels' % (
            f.width, f.height, f.block_width, f.block_height, f.segments, f.head.channels)
    return '%-16s %s, left %d, output %08x, scratch %08x, codes %s, quality %08x' % (
        r.tag, said, reading.left, zlib.crc32(bytes(output)) if r.crc is None else r.crc, zlib.crc32(bytes(scratch)),
        ''.join(map(str, quality[:64])), zlib.crc32(bytes(quality)))

# ---- end of the model ----

# ---- a writer of files ----

LIMITS = front.LIMITS._replace(input=65536)

def blocks_in(file):
    return len(range(0, len(file), 512))

def all_but(file, *lost, says=0):
    """A map of the file on which some blocks did not come."""
    return bytes(says if i in lost else 1 for i in range(blocks_in(file)))

def turned(page, big=False):
    """A file whose segments stand behind the header, and the directory and its arrays behind them."""
    return placed(page, at=8, directory=8 + len(b''.join(page[1])), big=big)

def apart(entries, bits, form):
    """Entries whose two arrays of three stand at places of their own."""
    return but(entries, (258, 3, 3, (bits, [16] * 3)), (339, 3, 3, (form, [2] * 3)))

def needs_of(file, page):
    """The lengths of the buffers that a page asks for."""
    f = picture(Reading(file, b'', TOP), page, Limits(**WIDE))
    return f.output, per_pixel(f) * f.block_width * f.block_height, f.segments

def record(tag, file, blocks=b'', page=0, units=LOTS, more=(7, 5, 3), **limits):
    """A record whose buffers have the lengths that the page asks for, and so many more bytes."""
    try:
        needs = needs_of(file, page)
    except Refused:
        needs = 90, 60, 3
    lent = (min(ROOM, max(0, need + n)) for need, n in zip(needs, more))
    return Record(tag, page, LIMITS._replace(**limits), units, *lent, bytes(file), bytes(blocks))

def taken(r):
    """The units that a record's reading takes where it has as many as it wants."""
    reading = Reading(r.file, r.blocks, TOP)
    patchy(reading, r.page, r.limits, [FILL] * r.output, [FILL] * r.scratch, [FILL] * r.quality)
    return TOP - reading.left

# ---- vectors ----

STRIPED, TILED, SINGLE = laid(STRIP3), laid(TILE2, big=True), laid(strips(3, 5, 5))
NONE = (-LOTS,) * 3     # no buffer has a byte

def limits_and_maps():
    # the two first limits, and a wrong map behind them
    n = len(STRIPED)
    yield record('input-just', STRIPED, input=n)
    yield record('input-less', STRIPED, input=n - 1)
    yield record('input-0', b'', input=0)
    yield record('input-map', STRIPED, b'\x01\x01', input=n - 1)
    yield record('page-just', STRIPED, directories=1)
    yield record('page-limit', STRIPED, directories=0)
    yield record('page-4', STRIPED, page=4)
    yield record('page-top', STRIPED, page=TOP, directories=TOP)
    yield record('page-map', STRIPED, b'\x01\x01', page=4)
    yield record('page-map-none', b'', b'\x01', page=4)
    yield record('input-lent-0', STRIPED, input=n - 1, more=NONE)
    # the map: one short, right, one long, and none; at both sides of a block's end, and of an empty file
    for size, lengths in ((0, (0, 1, 2)), (1, (0, 1, 2)), (8, (1, 2)), (511, (1, 2)), (512, (0, 1, 2)), (513, (1, 2, 3)), (1025, (3, 4))):
        for long in lengths:
            yield record('map-%d-of-%d' % (long, size), (STRIPED + b'?' * 1025)[:size], b'\x01' * long)
    yield record('map-of-bytes', STRIPED, b'\x01' * n)
    yield record('map-512', STRIPED, b'\x01' * 512)
    yield record('map-0-long', STRIPED, bytes(2))
    yield record('map-empty-0', b'', bytes(1))
    yield record('map-empty-512', b'', b'\x01' * 512)
    # a wrong map before all that follows
    yield record('map-cut-7', STRIPED[:7], b'\x01\x01')
    yield record('map-mark', b'?' * 600, b'\x01')
    yield record('map-lost', STRIPED, bytes(3))
    yield record('map-first-0', patched(STRIPED, 4, bytes(4)), b'\x01\x01')
    yield record('map-units', STRIPED, b'\x01\x01', units=0)
    yield record('map-lent', STRIPED, b'\x01\x01', more=(-1, -1, -1))
    yield record('map-lent-0', STRIPED, b'\x01\x01', more=NONE)

def fronts():
    # header: 1, 8, the mark, the first offset
    for n in (0, 1, 7):
        yield record('head-cut-%d-lost' % n, STRIPED[:n], bytes(blocks_in(STRIPED[:n])))
    yield record('head-8-lost', STRIPED[:8], b'\x00')
    yield record('head-8-came', STRIPED[:8], b'\x01')
    for name, start in (('mark', b'?'), ('64', b'II+\x00'), ('64-b', b'MM\x00+'), ('first-0', b'II*\x00' + bytes(4))):
        yield record('%s-lost' % name, patched(STRIPED, 0, start), b'\x00')
        yield record('%s-came' % name, patched(STRIPED, 0, start), b'\x01')
    # a directory in the second block: each of its refusals where it came, and where it did not
    at = 512
    file = placed((apart(STRIP3[0], 20, 30), STRIP3[1]), directory=at)
    twice = patched(file, at + 14, file[at + 2:at + 4])
    for name, other, rest in (
            ('fine', file, {}), ('out', file[:at], {}), ('half', file[:at + 1], {}), ('count-0', patched(file, at, b'\x00\x00'), {}),
            ('tags', file, dict(tags=9)), ('body', file[:at + 125], {}), ('units', file, dict(units=10)), ('twice', twice, {}),
            ('twice-7', twice, dict(units=10)), ('page-1', file, dict(page=1)), ('width-0', patched(file, at + 10, b'\x00'), {})):
        if name not in ('out', 'half', 'tags'):
            yield record('dir-%s' % name, other, all_but(other), **rest)
        yield record('dir-%s-lost' % name, other, all_but(other, 1), **rest)
    # a directory across two blocks: its count came
    across = placed((apart(STRIP3[0], 20, 30), STRIP3[1]), directory=500)
    for name, other, rest in (('fine', across, {}), ('none', patched(across, 500, b'\x00\x00'), {}), ('tags', across, dict(tags=9)),
                              ('out', across[:625], {}), ('units', across, dict(units=10)),
                              ('twice', patched(across, 502, across[514:516]), {})):
        yield record('body-%s-lost' % name, other, all_but(other, 1), **rest)
    # the arrays of three in the second block: 1, 8, 3, value by value
    for tag in (258, 339):
        def three(values, place, size=None):
            own = but(STRIP3[0], (258, 3, 3, (20, [16] * 3)), (339, 3, 3, (30, [2] * 3)), (tag, 3, 3, (place, values)))
            return placed((own, STRIP3[1]), at=160)[:size]
        right = {258: 16, 339: 2}[tag]
        for name, other in (('lost', three([right] * 3, 512)), ('wrong', three([right] * 2 + [9], 508)), ('wrong-first', three([9] * 3, 510)),
                            ('out', three([right] * 3, 512, 513)), ('third', three([right] * 3, 508)), ('half', three([right] * 3, 507))):
            yield record('%d-%s' % (tag, name), other, all_but(other, 1))
    # profile: a refusal of each step, and what would refuse later
    for name, change, rest in (('scalar', (257, 5, 1, 5), {}), ('dimension', (259, 3, 1, 1), {}), ('ones', (266, 3, 1, 2), {}),
                               ('bits', (258, 3, 2, 0), {}),
                               ('rows', (278, 3, 1, 0), {}), ('tile-tag', (325, 4, 3, 0), {}), ('segments', NOTE, dict(segments=2)),
                               ('output', NOTE, dict(output=89)), ('offsets', 273, {}), ('counts', (279, 4, 2, 0), {})):
        yield record('step-' + name, tiff([(8, but(STRIPS, change), 0)]), units=141, more=(-1, -1, -1), **rest)

def rooms():
    # 10 x bw x bh against max_output, where that is more than the picture's own bytes
    short, tile = laid(strips(3, 3, 2)), laid(TILE2)
    for name, file, sizes in (('single', SINGLE, (89, 90, 149, 150, 151)), ('strips', short, (53, 54, 59, 60, 61)),
                              ('tiles', tile, (509, 510, 2559, 2560, 2561))):
        for n in sizes:
            yield record('%s-10A-%d' % (name, n), file, output=n)
    # it comes before everything that follows, and after the arrays of the profile; strict reading has another order
    for name, file, n in (('strips', short, 59), ('tiles', tile, 2559)):
        yield record('%s-10A-6' % name, file, output=n, more=(-1, -1, -1))
        yield record('%s-10A-none' % name, file, output=n, more=NONE)
        yield record('%s-10A-7' % name, file, output=n, units=141)
        yield record('%s-10A-128' % name, file, output=n, units=138)
        yield record('%s-10A-out' % name, with_range(file, 0, 4000, 1), output=n)
        yield record('%s-10A-base' % name, with_base(file, OFFSETS, 5000), output=n)
        yield record('%s-10A-bad' % name, with_range(file, 0, 8, 2), output=n)
    entries = but(strips(3, 3, 2)[0], (273, 4, 2, 9), (279, 4, 1, 9))
    yield record('array-10A', tiff([(8, entries, 0)]), output=59)
    yield record('array-6', tiff([(8, entries, 0)]), more=(-1, -1, -1))
    # buffers: each one short, just right, one more, none; and none of the units for what follows
    for name, file in (('s', STRIPED), ('t', TILED), ('o', SINGLE)):
        for which, buffer in enumerate(('output', 'scratch', 'quality')):
            for way, n in (('less', -1), ('just', 0), ('one', 1), ('none', -LOTS), ('much', 200))[:5 if name == 's' else 2]:
                yield record('%s-%s-%s' % (name, buffer, way), file, more=tuple(n if i == which else 9 for i in range(3)))
            yield record('%s-%s-7' % (name, buffer), file, units=200, more=tuple(-1 if i == which else 9 for i in range(3)))
    yield record('all-less', STRIPED, more=(-1, -1, -1))
    yield record('all-just', STRIPED, more=(0, 0, 0))
    yield record('all-none', STRIPED, more=NONE)
    yield record('lost-6', SINGLE + b'?' * 512, all_but(SINGLE + b'?' * 512, 1), more=(0, 0, -1))
    # a buffer counts by what the picture asks for, be its segments good or not
    for way, more in (('output', (-1, 0, 0)), ('scratch', (0, -1, 0)), ('quality', (0, 0, -1)), ('just', (0, 0, 0))):
        yield record('no-good-' + way, with_base(STRIPED, OFFSETS, 5000), more=more)

def around(name, file, blocks):
    """Units one short of all that is charged, just enough and one more."""
    all_of_it = taken(record(name, file, blocks))
    for way, n in (('less', -1), ('just', 0), ('one', 1)):
        yield record('%s-%s' % (name, way), file, blocks, units=all_of_it + n)

def charged():
    # one short, just enough and one more: at each charge of the front part, and at the one charge of all segments
    far = placed(STRIP3, at=[180, 512, 560])
    bad = with_part(STRIPED, 1, b'\xff')
    cases = (('good', STRIPED, b''), ('tiles', TILED, b'\x01'), ('single', SINGLE, b''), ('bad', bad, b''), ('lost', far, b'\x01\x00'),
             ('out', with_range(STRIPED, 1, 5000, 1), b''), ('no-offsets', with_base(STRIPED, OFFSETS, 5000), b''),
             ('no-counts', with_base(STRIPED, COUNTS, 5000), b'\x01'), ('empty', with_range(STRIPED, 2, 0, 0), b''),
             ('all-bad', with_base(STRIPED, OFFSETS, 0), b''), ('out-and-bad', with_range(bad, 0, 5000, 1), b''))
    for case in cases:
        yield from around(*case)
    for units in (0, 10, 11, 138, 139, 140, TOP):
        yield record('units-%s' % (units if units < TOP else 'top'), STRIPED, b'\x01', units=units)
    # one charge for all: units for the first segment, or for all but the last, are not taken
    fees = [len(part) + 60 * height + 1 for part, height in zip(STRIP3[1], (2, 2, 1))]
    for k in range(3):
        yield record('first-%d-paid' % k, STRIPED, units=139 + sum(fees[:k + 1]) - (k == 2))
    for page, units in ((0, LOTS), (2, LOTS), (2, 22), (2, 33), (2, 160), (2, 161)):
        yield record('loop-%d-%d' % (page, units), laid(strips(2, 3, 2), after=8), page=page, units=units)

def arrays():
    # an array across the end of the first block, of which the second did not come: which of its values are there
    for name in ('offset', 'count'):
        for s, big in ORDERS:
            for kind, size in SIZES.items():
                for into in (size, 2 * size - 1, 2 * size, 3 * size) if big == (kind == 3) else (2 * size,):
                    file = placed(STRIP3, kinds=(kind, kind), big=big, at=180, size=530, **{name + 's': 512 - into})
                    yield record('%s-%d%s-%d' % (name, kind, s, into), file, b'\x01\x00')

def ends():
    # an array that the end of the file cuts, in a block that came and in one that did not
    for which, name in ((OFFSETS, 'offset'), (COUNTS, 'count')):
        for cut in (1, 6, 12):
            file = placed(STRIP3, at=180, **{name + 's': 512})[:524 - cut]
            yield record('%s-cut-%d' % (name, cut), file, all_but(file))
            yield record('%s-%d-lost' % (name, cut), file, all_but(file, 1))
        for base in (2 ** 32 - 6, 5000):
            yield record('%s-at-%d' % (name, base % 10000), with_base(STRIPED, which, base), b'\x01')
    # the offset's entry before the count's: outside and lost, lost and outside
    both = placed(STRIP3, offsets=512, counts=530, at=180)
    yield record('both-lost', both, b'\x01\x00')
    yield record('offset-lost', with_base(both, COUNTS, 5000), b'\x01\x00')
    yield record('count-lost', with_base(both, OFFSETS, 5000), b'\x01\x00')
    yield record('offset-out', with_base(both, OFFSETS, 5000), b'\x01\x01')
    yield record('count-out', with_base(both, COUNTS, 5000), b'\x01\x01')
    # an entry that did not come before a range that is outside, by what its bytes would say
    far = with_range(with_range(both, 0, 9000, 9), 2, 9000, 9)
    yield record('entries-lost-far', far, b'\x01\x00')
    yield record('entries-far', far, b'\x01\x01')
    counts_lost = placed(STRIP3, counts=512, at=180)
    yield record('count-lost-far', with_range(counts_lost, 1, 9000, 9), b'\x01\x00')
    yield record('count-came-far', with_range(counts_lost, 1, 9000, 9), b'\x01\x01')
    # lost entries whose bytes name good packets
    yield record('count-lost-fine', counts_lost, b'\x01\x00')
    yield record('offset-lost-fine', placed(STRIP3, offsets=512, at=180), b'\x01\x00')

def inlines():
    """Two values of type 3, which stand in the field and came with the directory (rule 2.12)."""
    for s, big in ORDERS:
        # a field that would be a place in a block: one that came, and one that did not
        for name, tiled in (('s', False), ('t', True)):
            zero, empty = headed(big, tiled, (3, 4)), emptied(big, tiled, (4, 3))
            yield record('zero-%s-%s' % (name, s), zero, all_but(zero))
            yield record('zero-%s-%s-none' % (name, s), zero)
            yield record('zero-%s-%s-lost' % (name, s), zero, all_but(zero, 2))
            yield record('empty-%s-%s' % (name, s), empty, all_but(empty))
            yield record('empty-%s-%s-lost' % (name, s), empty, all_but(empty, 1))
        # two blocks with the edge between the two values of a field
        for name, at in (('offsets', 440), ('counts', 404)):
            file = placed(STRIP2, kinds=(3, 3), directory=at, big=big)
            yield record('%s-%s' % (name, s), file, b'\x01\x01')
            yield record('%s-%s-lost' % (name, s), file, b'\x01\x00')
        # pages after the first, of which the last directory is in the second block
        file = laid(STRIP3, STRIP2, TILE2, big=big, kinds=(3, 3))
        for page in (1, 2):
            yield record('page-%d-%s' % (page, s), file, b'\x01\x01', page)
            yield record('page-%d-%s-lost' % (page, s), file, b'\x01\x00', page)

def inline_blocks():
    # header, directory and both segments in blocks of their own, in two orders, of which one did not come
    for s, big in ORDERS:
        for name, (entries, parts), tags in PAIRS:
            directory, at = (1536, [512, 1024]) if big else (512, [1024, 1536])
            file = placed((apart(entries, 20, 30), parts), kinds=(3, 3), directory=directory, at=at, big=big)
            yield record('%s-%s-none' % (name, s), file)
            yield record('%s-%s-all' % (name, s), file, all_but(file))
            for i in range(4):
                yield record('%s-%s-no-%d' % (name, s, i), file, all_but(file, i))
    # the other array is of type 4: across the edge of a block, and where the end of the file cuts it
    for kinds, other in (((4, 3), 'offsets'), ((3, 4), 'counts')):
        for s, big in ORDERS:
            for name, page, tags in PAIRS:
                t, file = '%s-%d%d%s' % (name, *kinds, s), placed(page, kinds=kinds, at=[200, 340], big=big, **{other: 508})
                yield record('edge-' + t, file, b'\x01\x01')
                yield record('edge-%s-lost' % t, file, b'\x01\x00')
        for (s, big), (name, page, tags) in zip(ORDERS, PAIRS):
            t, file = '%s-%d%d%s' % (name, *kinds, s), placed(page, kinds=kinds, at=[200, 340], big=big, **{other: 512})
            yield record('cut-' + t, file[:-1], b'\x01\x01')
            yield record('cut-%s-lost' % t, file[:-1], b'\x01\x00')
            yield record('no-' + t, file[:512], b'\x01')

def inline_ranges():
    # counts above 2^15, of bytes that are all the control of one literal
    parts = [b'\x7f' * n for n in (32800, 33000)]
    yield record('above-2^15', placed((STRIP2[0], parts), kinds=(3, 3), at=[300, 400], big=True))
    # a segment outside, not arrived, empty and with packets that are refused; the other one is good
    for k, big in enumerate((False, True)):
        file = placed(STRIP2, kinds=(3, 3), at=[200, 240], big=big, size=560)
        for name, start, count in (('out', 559, 2), ('past', 561, 0), ('top', 65535, 65535), ('lost', 559, 1),
                                   ('before', 200, 312), ('before-1', 200, 313), ('empty', 520, 0), ('bad', 8, 9)):
            other = with_range(file, k, start, count)
            yield record('%d-%s' % (k, name), other, b'\x01\x00')
            if name in ('out', 'lost', 'empty'):
                yield record('%d-%s-came' % (k, name), other, b'\x01\x01')
    # units
    file, far = laid(STRIP2, kinds=(3, 3)), placed(STRIP2, kinds=(3, 3), at=[200, 512])
    for case in (('good', file, b''), ('tiles', laid(TILE2, kinds=(3, 3), big=True), b'\x01'), ('lost', far, b'\x01\x00'),
                 ('out', with_range(file, 1, 5000, 1), b''), ('bad', with_part(file, 0, run(129, 7)), b''),
                 ('empty', with_range(file, 0, 0, 0), b'')):
        yield from around(*case)
    for units in (10, 11, 138, 139):
        yield record('units-%d' % units, file, b'\x01', units=units)

def ranges():
    # a range outside the file, whose first bytes did not come; in each segment, with the others good
    base = placed(STRIP3, at=[180, 512, 560])
    n = len(base)
    for k in range(3):
        for name, start, count in (('out-1', 512, n - 511), ('out-lost', n - 1, 2), ('end', n, 0), ('end-1', n, 1), ('past', n + 1, 0),
                                   ('lost-1', n - 1, 1), ('before', 200, 312), ('before-1', 200, 313), ('all', 0, n),
                                   ('empty-lost', 520, 0), ('empty-edge', 512, 0), ('far-wrap', 2 ** 32 - 8, 40)):
            if k == 1 or name in ('out-lost', 'before', 'before-1', 'empty-lost'):
                yield record('%d-%s' % (k, name), with_range(base, k, start, count), b'\x01\x00')
    # each segment in a block of its own, of which one or more did not come
    for name, file in (('s', placed(STRIP3, at=[300, 600, 1024])), ('t', placed(TILE2, at=[384, 512], big=True))):
        for k in range(2 ** (blocks_in(file) - 1)):
            blocks = b'\x01' + bytes(k >> i & 1 for i in range(blocks_in(file) - 1))
            yield record('own-%s-%d' % (name, k), file, blocks)
    # ranges at the edges of blocks: up to the last byte of one, from the first of the next, over three with the middle lost
    part = STRIP3[1][0]
    for shift in (-1, 0, 1):
        file = placed(STRIP3, at=[512 - len(part) + shift, 560, 600])
        yield record('edge-%d-lost' % (shift + 1), file, b'\x01\x00')
    long = b'\x00' * 600 + part
    file = placed((STRIP3[0], [long] + STRIP3[1][1:]), at=[500, 180, 220])
    for i, blocks in enumerate((b'\x01\x01\x01', b'\x01\x00\x01', b'\x01\x01\x00')):
        yield record('over-three-%d' % i, file, blocks)

def packets_bad():
    # packets that are refused: in a segment that came, in one that did not, and beside one
    file = placed(STRIP3, at=[180, 512, 560])
    for way, part in wrong_parts(3, 8):
        if way in ('past-lit', 'full-lit', 'full-zero', 'long-end', 'cross-first', 'cross-row', 'left-byte', 'nothing', 'zeros'):
            yield record('of-0-' + way, with_part(STRIPED, 0, part))
    bad = patched(file, 512, b'\xff')
    yield record('bad-came', bad, b'\x01\x01')
    yield record('bad-lost', bad, b'\x01\x00')
    bad = patched(file, 180, b'\xff')
    yield record('bad-and-lost', bad, b'\x01\x00')
    yield record('bad-and-came', bad, b'\x01\x01')
    yield record('full-strip', with_part(STRIPED, 2, coded(3, 2, 2)))
    yield record('short-tile', with_part(laid(TILE2), 1, flat(16, 5, 1)))
    yield record('bad-tile', with_part(laid(TILE2), 0, b'\xff'))
    yield record('bad-tile-1', with_part(laid(TILE2), 1, flat(16, 16, 1) + literal(b'?')))
    for name, part in (('1', CASE1), ('2', CASE1 + b'\x00'), ('3', b'\x83' + CASE1[1:]), ('4', CASE1[:-2]), ('4-one', CASE1[:-1]),
                       ('5', CASE1 + b'\x01\x09'), ('6', b'')):
        yield record('mark' + name, marked(part), b'\x01')
    for s, big in ORDERS:
        yield record('mark13-' + s, laid(CASE13, big=big, kinds=(3, 3)), b'\x01')
    # every code in one picture, in both orders of segments
    for name, turn in (('up', 1), ('down', -1)):
        at = [300, 320, 512, 340, 360, 530, 380, 400][::turn]
        mixed = patched(placed(strips(2, 8, 1), at=at), at[1], b'\xff')
        mixed = with_range(mixed, (3, 4)[turn < 0], 5000, 1)
        yield record('codes-' + name, mixed, b'\x01\x00')
        yield record('codes-%s-came' % name, mixed, b'\x01\x01')

def singles():
    # a single segment: its values stand in the entry itself, so they came if the directory did
    for s, big in ORDERS:
        page, tile = strips(3, 2, 2), placed(tiles(5, 16), at=400, big=big)
        for kinds in KINDS:
            yield record('one-%d%d%s' % (kinds + (s,)), placed(page, at=512, kinds=kinds, big=big), b'\x01\x01')
        yield record('one-%s-lost' % s, placed(page, at=512, big=big), b'\x01\x00')
        yield record('tile-' + s, tile, b'\x01\x01')
        yield record('tile-%s-lost' % s, tile, b'\x01\x00')
        yield record('one-out-' + s, with_range(placed(page, at=512, big=big), 0, 500, 2000), b'\x01\x00')
    # tiles whose arrays are in another block or across its edge, and tiles that stick out to the right and below
    for name, at in (('offsets', 512), ('counts', 508)):
        for s, big in ORDERS:
            yield record('t-%s-%s' % (name, s), placed(TILE2, at=200, big=big, **{name: at}), b'\x01\x00')
    places = [256, 384, 512, 640]
    file = placed(tiles(17, 17), at=places)
    yield record('edges-came', file, b'\x01\x01')
    yield record('edges-lost', file, b'\x01\x00')
    for k, place in enumerate(places):
        yield record('edges-bad-%d' % k, patched(file, place, b'\xff'))

def metadata():
    # header, directory, the arrays of three, offsets, counts and strips in blocks of their own
    file = placed((apart(STRIP3[0], 1024, 1536), STRIP3[1]), directory=512, offsets=2048, counts=2560, at=3072)
    yield record('all-came', file, all_but(file))
    for i, name in enumerate(('header', 'directory', 'bits', 'form', 'offsets', 'counts', 'strips')):
        yield record('no-' + name, file, all_but(file, i, says=(0, 2, 255)[i % 3]))
    # three directories, each in a block of its own: those up to the page are needed, and no later one
    places, sizes = [160, 200, 240], [len(part) for part in STRIP3[1]]
    own = apart(but(STRIP3[0], (273, 4, 3, (60, places)), (279, 4, 3, (90, sizes))), 30, 40)
    three = tiff([(8, [NOTE], 512), (512, [NOTE, NOTE], 1024), (1024, own, 0)])
    for place, part in zip(places, STRIP3[1]):
        three = patched(three, place, part)
    for page, lost in ((0, (1,)), (1, (1,)), (1, (2,)), (2, ()), (2, (1,)), (2, (2,))):
        yield record('page-%d-no-%s' % (page, ''.join(map(str, lost))), three, all_but(three, *lost), page=page)
    # what a map can say: 1 alone is arrived
    small = placed(STRIP3, at=[180, 512, 560])
    for says in (0, 1, 2, 3, 128, 129, 255):
        yield record('says-%d' % says, small, all_but(small, 1, says=says))
    for says in (0, 2, 255):
        yield record('first-says-%d' % says, small, all_but(small, 0, says=says))
    # directory last and across blocks, with arrays across the edge
    last = placed(STRIP3, at=8, directory=440, big=True)
    for i in range(4):
        yield record('across-%d' % i, last, bytes((1 - i // 2, 1 - i % 2)))
    # bytes that nobody needs may be lost
    longer = STRIPED + b'?' * 1100
    yield record('rest-lost', longer, all_but(longer, 1, 2))
    between = placed(STRIP3, at=[180, 1024, 1060])
    yield record('between-lost', between, all_but(between, 1))

BLOCKY = strips(60, 34, 2)

def single(make):
    """Each block of a file of seventeen strips lost by itself."""
    file = make(BLOCKY)
    for i in range(blocks_in(file)):
        yield record('lost-%d' % i, file, all_but(file, i))

SPREAD = dict(directory=8, offsets=500, counts=540, at=[580, 760, 900, 1030])

def stale_bases():
    page, former = strips(8, 12, 3), strips(8, 12, 3, flat, seed=7)
    return (('first', placed(page, **SPREAD), placed(former, **{**SPREAD, 'at': [1030, 580, 640, 700]}), ((1,), (2,), (0,))),
            ('last', placed(page, at=8, directory=420), placed(former, at=8, directory=420), ((0,), (1,))),
            ('tiles', placed(TILE2, at=[400, 560], big=True), placed(tiles(17, 5, seed=3), at=[400, 530], big=True), ((1,),)),
            ('codes', with_range(placed(page, **SPREAD), 1, 700, 3), laid(TILE2), ((2,), (1, 2))),
            ('inline', headed(False), emptied(False), ((2,),)))

def stale(seed, bases):
    """Losses, with four kinds of bytes in the lost blocks: the answer is the same for all four."""
    draw = Draw(seed)
    for name, file, before, losses in bases:
        before = (before + b'?' * len(file))[:len(file)]
        for lost in losses:
            said = set()
            assert max(lost) < blocks_in(file), (name, lost)
            n = len(file)
            for way, bytes_of in (('zeros', bytes(n)), ('ones', b'\xff' * n), ('before', before), ('drawn', draw.some(n))):
                other = b''.join((bytes_of if i // 512 in lost else file)[i:i + 1] for i in range(n))
                r = record('%s-%s-%s' % (name, ''.join(map(str, lost)), way), file, all_but(file, *lost))._replace(file=other)
                said.add(line('patchy', r)[16:])
                yield r
            assert len(said) == 1, (name, lost, said)

def agrees(r):
    """A record of which everything came, held to strict reading by the model of it."""
    reading, own = Reading(r.file, r.blocks, r.units), Reading(r.file, b'', r.units)
    f, output, scratch, quality = patchy(reading, r.page, r.limits, [FILL] * r.output, [FILL] * r.scratch, [FILL] * r.quality)
    try:
        h, g, stored = inspected(own, r.page, r.limits)
    except Refused:
        assert isinstance(f, int) or set(quality[:f.segments]) != {1}, r.tag
        return r
    assert quality[:g.segments] == [1] * g.segments and reading.left == own.left, r.tag
    assert output[:g.output] == shown(g, stored), r.tag
    if r.crc is not None:
        assert zlib.crc32(bytes(output)) == r.crc, r.tag
    return r

def came(tag, r):
    """A record of strict reading as one of patchy reading: everything arrived, by a map of ones or by none."""
    blocks = b'\x01' * blocks_in(r.file) if len(tag) % 2 else b''
    return record(tag, r.file, blocks, r.page, r.units)._replace(limits=r.limits)

def pictured(mono):
    """libtiff's pictures: those whose names begin with m, or all others."""
    for name, pages in vouched().items():
        if name.startswith('m') != mono:
            continue
        short = name.split('/')[-1].split('_')[0]
        file = file_of(name)
        for page, (numbers, crc, sha) in enumerate(pages):
            if len(file) < 2000 or page == 1:
                for way, blocks in (('map', all_but(file)), ('none', b'')) if len(file) < 300 else (('map', all_but(file)),):
                    yield agrees(record('%s-%d-%s' % (short, page, way), file, blocks, page=page, more=(0, 5, 3))._replace(crc=crc))

def whole():
    # some files of strict reading, of those that it accepts and of those that it refuses
    for i, r in enumerate(strict.layouts()):
        if len(r.file) < 700 and i % 4 == 0:
            yield agrees(came(r.tag, r))
    for made, step in ((strict.entries, 11), (strict.ranges, 11), (strict.budgets, 9), (strict.packets_refused, 8),
                       (strict.inlines, 3), (strict.inline_ranges, 5)):
        for i, r in enumerate(made()):
            if len(r.file) < 2000 and i % step == 0:
                yield agrees(came('%d %s' % (i, r.tag[:12]), r))
    yield from pictured(False)

# Pictures of the monochrome head
GREYED, GREY_TILED, GREY_SINGLE = laid(GREY3), laid(GREY_TILE2, big=True), laid(strips(3, 5, 5, head=MONO))

def mono_rooms():
    # 4 x bw x bh against max_output, where that is more than the picture's own bytes; ten bytes a pixel are not asked for
    short, tile = laid(strips(3, 3, 2, head=MONO)), laid(GREY_TILE2)
    for name, file, sizes in (('single', GREY_SINGLE, (29, 30, 59, 60, 61, 149)), ('strips', short, (17, 18, 23, 24, 25, 59)),
                              ('tiles', tile, (169, 170, 1023, 1024, 1025, 2559))):
        for n in sizes:
            yield record('%s-4A-%d' % (name, n), file, output=n)
    # it comes before everything that follows
    for name, file, n in (('strips', short, 23), ('tiles', tile, 1023)):
        yield record('%s-4A-6' % name, file, output=n, more=(-1, -1, -1))
        yield record('%s-4A-7' % name, file, output=n, units=141)
        yield record('%s-4A-128' % name, file, output=n, units=138)
        yield record('%s-4A-out' % name, with_range(file, 0, 4000, 1), output=n)
        yield record('%s-4A-bad' % name, with_range(file, 0, 8, 2), output=n)
    # buffers: each one short, just right, one more, none; and none of the units for what follows
    for name, file in (('s', GREYED), ('t', GREY_TILED), ('o', GREY_SINGLE)):
        for which, buffer in enumerate(('output', 'scratch', 'quality')):
            for way, n in (('less', -1), ('just', 0), ('one', 1), ('none', -LOTS), ('much', 200))[:5 if name == 's' else 2]:
                yield record('%s-%s-%s' % (name, buffer, way), file, more=tuple(n if i == which else 9 for i in range(3)))
            yield record('%s-%s-7' % (name, buffer), file, units=200, more=tuple(-1 if i == which else 9 for i in range(3)))
    yield record('all-less', GREYED, more=(-1, -1, -1))
    yield record('all-just', GREYED, more=(0, 0, 0))
    yield record('all-none', GREYED, more=NONE)
    yield record('as-colour', GREYED, more=(60, 36, 0))
    for way, more in (('output', (-1, 0, 0)), ('scratch', (0, -1, 0)), ('quality', (0, 0, -1)), ('just', (0, 0, 0))):
        yield record('no-good-' + way, with_base(GREYED, OFFSETS, 5000), more=more)
    # units one short of all that is charged, just enough and one more
    far = placed(GREY3, at=[180, 512, 560])
    bad = with_part(GREYED, 1, b'\xff')
    for case in (('good', GREYED, b''), ('tiles', GREY_TILED, b'\x01'), ('single', GREY_SINGLE, b''), ('bad', bad, b''), ('lost', far, b'\x01\x00'),
                 ('out', with_range(GREYED, 1, 5000, 1), b''), ('no-offsets', with_base(GREYED, OFFSETS, 5000), b''),
                 ('empty', with_range(GREYED, 2, 0, 0), b''), ('all-bad', with_base(GREYED, OFFSETS, 0), b''),
                 ('out-and-bad', with_range(bad, 0, 5000, 1), b'')):
        yield from around(*case)
    for units in (0, 10, 11, 138, 139, 140, TOP):
        yield record('units-%s' % (units if units < TOP else 'top'), GREYED, b'\x01', units=units)
    fees = [len(part) + 24 * height + 1 for part, height in zip(GREY3[1], (2, 2, 1))]
    for k in range(3):
        yield record('first-%d-paid' % k, GREYED, units=139 + sum(fees[:k + 1]) - (k == 2))
    for page, units in ((0, LOTS), (2, LOTS), (2, 160), (2, 161)):
        yield record('loop-%d-%d' % (page, units), laid(strips(2, 3, 2, head=MONO), after=8), page=page, units=units)
    # profile: a refusal of each step, and what would refuse later
    for name, change, rest in (('scalar', (257, 5, 1, 5), {}), ('photometric', (262, 3, 1, 32845), {}), ('samples', (277, 3, 1, 3), {}),
                               ('ones', (266, 3, 1, 2), {}), ('bits', (258, 3, 3, 0), {}), ('bits-8', (258, 3, 1, 8), {}), ('form', 339, {}),
                               ('rows', (278, 3, 1, 0), {}), ('tile-tag', (325, 4, 3, 0), {}), ('segments', NOTE, dict(segments=2)),
                               ('output', NOTE, dict(output=29)), ('offsets', 273, {}), ('counts', (279, 4, 2, 0), {})):
        yield record('step-' + name, tiff([(8, but(front.GREY, change), 0)]), units=141, more=(-1, -1, -1), **rest)

def mono_quality():
    # ranges outside, not arrived, empty, at the edge of a block
    base = placed(GREY3, at=[180, 512, 560])
    n = len(base)
    for k in range(3):
        for name, start, count in (('out-1', 512, n - 511), ('out-lost', n - 1, 2), ('end', n, 0), ('past', n + 1, 0), ('lost-1', n - 1, 1),
                                   ('before', 200, 312), ('before-1', 200, 313), ('empty-lost', 520, 0), ('far-wrap', 2 ** 32 - 8, 40)):
            if k == 1 or name in ('out-lost', 'before'):
                yield record('%d-%s' % (k, name), with_range(base, k, start, count), b'\x01\x00')
    # each segment in a block of its own, of which one or more did not come
    for name, file in (('s', placed(GREY3, at=[300, 600, 1024])), ('t', placed(GREY_TILE2, at=[384, 512], big=True))):
        for k in range(2 ** (blocks_in(file) - 1)):
            blocks = b'\x01' + bytes(k >> i & 1 for i in range(blocks_in(file) - 1))
            yield record('own-%s-%d' % (name, k), file, blocks)
    # packets that are refused, those of the other head among them
    for way, part in wrong_parts(3, 4):
        if way in ('past-lit', 'full-lit', 'full-zero', 'long-end', 'cross-first', 'cross-row', 'left-byte', 'nothing', 'zeros'):
            yield record('of-0-' + way, with_part(GREYED, 0, part))
    for k in range(3):
        yield record('colour-%d' % k, with_part(GREYED, k, STRIP3[1][k]))
        yield record('in-colour-%d' % k, with_part(STRIPED, k, GREY3[1][k]))
    yield record('full-strip', with_part(GREYED, 2, coded(3, 2, 2, MONO)))
    yield record('short-tile', with_part(laid(GREY_TILE2), 1, flat(16, 5, 1, MONO)))
    yield record('bad-tile', with_part(laid(GREY_TILE2), 0, b'\xff'))
    for name, part in (('14', CASE14), ('15', CASE15), ('14-zero', CASE14 + b'\x00'), ('14-83', b'\x83' + CASE14[1:]), ('14-less', CASE14[:-2]),
                       ('14-more', CASE14 + b'\x01\x09'), ('14-none', b''), ('14-twice', CASE14 * 2), ('14-colour', CASE1)):
        yield record('mark' + name, marked(part, MONO), b'\x01')
    for s, big in ORDERS:
        yield record('mark14-' + s, marked(CASE14, MONO, big=big))
        yield record('mark15-' + s, marked(CASE15, MONO, big=big))
    # every code in one picture, in both orders of segments: with packets that differ, and with zeros, which are good all the same
    for name, turn, parts in (('up', 1, strips(2, 8, 1, head=MONO)[1]), ('down', -1, strips(2, 8, 1, head=MONO)[1]),
                              ('zeros', 1, [CASE15] * 8), ('zeros-d', -1, [CASE15] * 8), ('some', 1, [CASE15, CASE14] * 4)):
        at = [300, 320, 512, 340, 360, 530, 380, 400][::turn]
        mixed = patched(placed((strips(2, 8, 1, head=MONO)[0], parts), at=at), at[1], b'\xff')
        mixed = with_range(mixed, (3, 4)[turn < 0], 5000, 1)
        yield record('codes-' + name, mixed, b'\x01\x00')
        yield record('codes-%s-in' % name, mixed, b'\x01\x01')
    # tiles beside each other and below, each of them lost, bad or outside by itself: the neighbours keep their pixels
    places = [200, 270, 340, 410, 512, 582]
    file = placed(tiles(33, 17, head=MONO), at=places)
    yield record('edges-came', file, b'\x01\x01')
    yield record('edges-lost', file, b'\x01\x00')
    for k, place in enumerate(places):
        yield record('edges-bad-%d' % k, patched(file, place, b'\xff'))
        yield record('edges-out-%d' % k, with_range(file, k, 9999, 9))
    # strips below each other, whose rows are short
    for width in (1, 2, 3):
        file = laid(strips(width, 6, 1, flat if width > 1 else coded, head=MONO))
        for k in range(6):
            if width == 1 or k % 2:
                yield record('narrow-%d-%d' % (width, k), with_range(file, k, 9999, 9))

def mono_blocks():
    # header, directory, offsets, counts and strips in blocks of their own: slots 2 and 18 stand in the directory
    file = placed(GREY3, directory=512, offsets=1024, counts=1536, at=2048)
    yield record('all-came', file, all_but(file))
    for i, name in enumerate(('header', 'directory', 'offsets', 'counts', 'strips')):
        yield record('no-' + name, file, all_but(file, i, says=(0, 2, 255)[i % 3]))
    # what would be their place did not come, or is outside: of right values that is never asked, and wrong ones are 3
    for tag, right in ((258, 16), (339, 2)):
        for kind in (3, 4):
            for way, field in (('right', [right]), ('place', 600), ('out', 5000), ('three', (600, [right] * 3))):
                own = but(GREY3[0], (tag, kind, 3 if way == 'three' else 1, field))
                file = placed((own, GREY3[1]), at=180, size=640, big=kind == 3)
                yield record('%d-%d-%s' % (tag, kind, way), file, b'\x01\x00')
    # a directory across two blocks
    for at in (392, 440, 476):
        file = placed(GREY3, directory=at, at=8)
        for blocks in (b'\x01\x01', b'\x01\x00'):
            yield record('across-%d-%d' % (at, blocks[1]), file, blocks)
    # values of arrays in the field
    for s, big in ORDERS:
        zero, empty = headed(big, False, (3, 3), MONO), emptied(big, True, (3, 3), MONO)
        yield record('zero-' + s, zero, all_but(zero))
        yield record('zero-%s-lost' % s, zero, all_but(zero, 2))
        yield record('empty-' + s, empty, all_but(empty))
        yield record('empty-%s-lost' % s, empty, all_but(empty, 1))

def mono_pages():
    # pages of both heads, with each block lost
    mixed = laid(STRIP3, GREY3, GREY_TILE2, TILE2)
    for page in range(4):
        for lost in range(-1, blocks_in(mixed)):
            yield record('mixed-%d-no-%d' % (page, lost) if lost >= 0 else 'mixed-%d' % page, mixed, all_but(mixed, lost), page=page)
    for says in (0, 1, 2, 3, 255):
        small = placed(GREY3, at=[180, 512, 560])
        yield record('says-%d' % says, small, all_but(small, 1, says=says))
    # each block of a file of seventeen strips lost by itself
    for name, make in (('first', laid), ('last', turned)):
        file = make(strips(60, 34, 2, head=MONO))
        for i in range(blocks_in(file)):
            yield record('%s-no-%d' % (name, i), file, all_but(file, i))

def mono_stale_bases():
    page, former = strips(8, 12, 3, head=MONO), strips(8, 12, 3, flat, seed=7, head=MONO)
    zeros = [run(8, 0) * 2 * 3] * 4
    return (('first', placed(page, **SPREAD), placed(former, **{**SPREAD, 'at': [1030, 580, 640, 700]}), ((1,), (2,), (0,))),
            ('colour', placed(page, **SPREAD), placed(strips(8, 12, 3), **SPREAD), ((1,), (2,))),
            ('last', placed(page, at=8, directory=420), placed(former, at=8, directory=420), ((0,), (1,))),
            ('tiles', placed(GREY_TILE2, at=[400, 560], big=True), placed(TILE2, at=[400, 530], big=True), ((1,),)),
            ('zeros', placed((page[0], zeros), **SPREAD), placed(page, **SPREAD), ((1,), (2,))),
            ('inline', headed(False, head=MONO), emptied(False), ((2,),)))

def mono_whole():
    # some files of strict reading, of those that it accepts and of those that it refuses
    for made, step, most in ((strict.mono_layouts, 3, 500), (strict.mono_ranges, 5, 2000), (strict.mono_budgets, 6, 2000),
                             (strict.mono_packets, 5, 2000), (strict.mono_handles, 40, 2000)):
        for i, r in enumerate(made()):
            if len(r.file) < most and i % step == 0:
                yield agrees(came('%d %s' % (i, r.tag[:12]), r))
    yield from pictured(True)

def random(name, seed, how_many, heads=(COLOUR,)):
    draw = Draw(seed)
    for i in range(how_many):
        own = drawn_pages(draw, heads)
        page, big, kinds = draw.below(len(own)), draw.below(2) == 1, draw.of(KINDS)
        way = draw.below(4)
        if way == 0:
            own, page = own[:1], 0
            at = 8 + draw.below(500)
            file = placed(own[0], at=at, directory=at + len(b''.join(own[0][1])), kinds=kinds, big=big)
        else:
            file = laid(*own, big=big, kinds=kinds, last=draw.of((None, 273, 279, 324, 325)))
        whole_units = taken(record('', file, page=page))
        h = inspected(Reading(file, b'', TOP), page, LIMITS)[0]
        for _ in range(draw.of((0, 0, 1, 1, 2))):
            file = strict.damaged(draw, file, h)
            if not same_page(file, h):
                break
        if draw.below(6) == 0:
            place = draw.below(min(len(file), 160))
            file = patched(file, place, [draw.of((file[place] ^ 1 << draw.below(8), draw.below(256), 0, 1))])
        limits = {}
        if draw.below(8) == 0:
            limits['output'] = draw.of((h.output, h.output - 1, h.scratch, h.scratch - 1))
        if draw.below(9) == 0:
            limits['segments'] = draw.of((h.segments, h.segments - 1))
        blocks = b''
        if draw.below(4) > 0:
            blocks = bytes(draw.of((1, 1, 0, 2)) for _ in range(blocks_in(file)))
            blocks = b'\x01' * min(1, len(blocks)) + blocks[1:] if draw.below(4) else blocks
            blocks = draw.of((blocks, blocks, blocks, blocks, blocks, blocks, blocks, blocks[:-1], blocks + b'\x01'))
        r = record('%s-%03d' % (name, i), file, blocks, page,
                   more=draw.of(((0, 0, 0), (0, 0, 0), (9, 3, 2), (20, 0, 70), (-1, 0, 0), (0, -1, 0), (0, 0, -1))), **limits)
        wants = taken(r)
        yield r._replace(units=draw.of((LOTS, LOTS, LOTS, wants, wants, max(1, wants) - 1, whole_units, draw.below(wants + 1))))

def same_page(file, h):
    """Whether a page still has the segments that a handle says."""
    try:
        return picture(Reading(file, b'', TOP), h.page, LIMITS).segments == h.segments
    except Refused:
        return False

def both(*made):
    return (r for records in made for r in records)

# In the order in which the program runs them: a file's name, what its records are, and the records.
def files():
    return [(name, 'patchy', list(made)) for name, made in (
        ('order.bin', both(limits_and_maps(), fronts())),
        ('rooms.bin', both(rooms(), charged())),
        ('entries.bin', both(arrays(), ends())),
        ('inline.bin', inlines()),
        ('inline_blocks.bin', inline_blocks()),
        ('inline_ranges.bin', inline_ranges()),
        ('quality.bin', both(ranges(), packets_bad(), singles())),
        ('metadata.bin', metadata()),
        ('single_first.bin', single(laid)),
        ('single_last.bin', single(turned)),
        ('stale.bin', stale(5, stale_bases())),
        ('whole.bin', whole()),
        ('random.bin', random('drawn', 1, 40)),
        ('mono_rooms.bin', mono_rooms()),
        ('mono_quality.bin', mono_quality()),
        ('mono_blocks.bin', mono_blocks()),
        ('mono_pages.bin', mono_pages()),
        ('mono_stale.bin', stale(7, mono_stale_bases())),
        ('mono_whole.bin', mono_whole()),
        ('mono_random.bin', random('mono', 2, 80, (MONO, MONO, COLOUR))))]

def packed(r):
    return record_of(r.tag, (r.page, *r.limits, r.units), (r.output, r.scratch, r.quality), r.file, r.blocks)

# Mistakes, each a change of one place of the model: what they are, the text and what stands there instead. Two of them need `expanded`.
READ = ("        offset = value(r, f.offsets, k)\n        count = value(r, f.counts, k)\n        stored = r.part(offset, count)\n")
SEEN_WHOLE = "    bare = Reading(r.file, b'', r.left)\n    bare.order = r.order\n"   # the same file, as if everything had come
READ_BARE = READ.replace('r.part(offset, count)', "Reading(r.file, b'', 0).part(offset, count)")
ROOMS = ("    if len(output) < f.output:\n        raise Refused(6)\n    if len(scratch) < needed:\n        raise Refused(6)\n"
         "    if len(quality) < f.segments:\n        raise Refused(6)\n")
LIMIT = "    if needed > limits.output:\n        raise Refused(4)\n"
CHARGE = "    r.charge(sum(charges))\n"
ROOM_OF = '    needed = per_pixel(f) * f.block_width * f.block_height\n'
FEE, NEED = 'fee = count + 2 * per_pixel(f) * area + 1', 'f.head.planes * area) > 0:'
ACCEPTED = 'if packets(stored, 0, count, f.block_width, ' + NEED
SHOWN, SAID = 'if codes[k] == 1 else 0 for k, byte in zip(own, shown(f, parts))]', (
    'f.width, f.height, f.block_width, f.block_height, f.segments, f.head.channels)')
ASKED_WRONG = tuple((name, IN_FIELD, IN_FIELD.replace('return', asked + '\n        return')) for name, asked in (
    ('values of the field are lost with the place that it would be',
     'if r.number(array.field) < len(r.file):\n            r.part(r.number(array.field), 1)'),
    ('two values of the field are lost with the place that it would be',
     'if array.count == 2 and r.number(array.field) < len(r.file):\n            r.part(r.number(array.field), 1)'),
    ('the second value of the field is lost with the place that it would be',
     'if k == 1 and r.number(array.field) < len(r.file):\n            r.part(r.number(array.field), 1)'),
    ('a block behind the field is to come', 'if array.place + 512 < len(r.file):\n            r.part(array.place + 512, 1)'),
    ('all up to the field is to come', 'r.part(0, array.place + 12)'),
    ('all from the field on is to come', 'r.part(array.place, len(r.file) - array.place)'),
    ('the last block is to come', 'r.part(len(r.file) - 1, 1)')))
WRONG = values_wrong('def judged(r, f, k):\n', VALUES_WRONG + ASKED_WRONG) + (
    # the quality of a segment
    ('outside is 2', 'CODES = {1: 3, 8: 2}', 'CODES = {1: 2, 8: 2}'),
    ('not arrived is 3', 'CODES = {1: 3, 8: 2}', 'CODES = {1: 3, 8: 3}'),
    ('2 and 3 swapped', 'CODES = {1: 3, 8: 2}', 'CODES = {1: 2, 8: 3}'),
    ('outside is 4', 'CODES = {1: 3, 8: 2}', 'CODES = {1: 4, 8: 2}'),
    ('not arrived is 4', 'CODES = {1: 3, 8: 2}', 'CODES = {1: 3, 8: 4}'),
    ('not arrived is 0', 'CODES = {1: 3, 8: 2}', 'CODES = {1: 3, 8: 0}'),
    ('outside is 0', 'CODES = {1: 3, 8: 2}', 'CODES = {1: 0, 8: 2}'),
    ("the number of the refusal is the code", 'return CODES[why.args[0]], 1, b\'\'', "return why.args[0], 1, b''"),
    ('arrival of the offset entry is not looked at', '    try:\n        offset = value(r, f.offsets, k)\n',
     SEEN_WHOLE + '    try:\n        offset = value(bare, f.offsets, k)\n'),
    ('arrival of the count entry is not looked at', '    try:\n' + READ,
     SEEN_WHOLE + '    try:\n' + READ.replace('value(r, f.counts', 'value(bare, f.counts')),
    ('arrival of the entries is not looked at', '    try:\n' + READ, SEEN_WHOLE + '    try:\n' + READ.replace('value(r', 'value(bare')),
    ('arrival of the range is not looked at', '    try:\n' + READ, SEEN_WHOLE + '    try:\n' + READ.replace('r.part', 'bare.part')),
    ('arrival is looked at nowhere', '    try:\n' + READ,
     SEEN_WHOLE + '    try:\n' + READ.replace('value(r', 'value(bare').replace('r.part', 'bare.part')),
    ('only the first byte of a range', READ, READ_BARE + '        r.part(offset, min(count, 1))\n'),
    ('only the last byte of a range', READ, READ_BARE + '        r.part(offset + max(count, 1) - 1, min(count, 1))\n'),
    ('only the first and the last byte of a range', READ,
     READ_BARE + '        r.part(offset, min(count, 1)), r.part(offset + max(count, 1) - 1, min(count, 1))\n'),
    ('the block after a range too', 'stored = r.part(offset, count)',
     'stored = r.part(offset, count)\n        if offset + count < len(r.file):\n            r.part(offset, count + 1)'),
    ('the block before a range too', 'stored = r.part(offset, count)',
     'stored = r.part(offset, count)\n        if 0 < offset:\n            r.part(offset - 1, count + 1)'),
    ('the block of an empty range too', 'stored = r.part(offset, count)',
     'stored = r.part(offset, count)\n        if offset < len(r.file):\n            r.part(offset, max(1, count))'),
    ('an empty range is outside', 'stored = r.part(offset, count)', 'stored = r.part(offset if count else TOP, count)'),
    ('an empty range is good', ACCEPTED, ACCEPTED.replace('if', 'if count and')),
    ('an empty range at the end is outside', 'stored = r.part(offset, count)',
     'stored = r.part(offset, max(count, 1) if offset >= len(r.file) else count)'),
    ('a range that is outside lost first', 'stored = r.part(offset, count)',
     'r.part(offset, max(0, min(count, len(r.file) - offset))) if offset < len(r.file) else 0\n        stored = r.part(offset, count)'),
    ('the count before the offset', READ[:READ.index('        stored')],
     '        count = value(r, f.counts, k)\n        offset = value(r, f.offsets, k)\n'),
    ('outside of both entries before arrival of either', '    try:\n' + READ,
     SEEN_WHOLE + '    try:\n        value(bare, f.offsets, k), value(bare, f.counts, k)\n' + READ),
    ('outside of all before arrival of any', '    try:\n' + READ,
     SEEN_WHOLE + '    try:\n        bare.part(value(bare, f.offsets, k), value(bare, f.counts, k))\n' + READ),
    ('the whole array of offsets is to come', READ,
     '        if SIZES[f.offsets.kind] * f.segments > 4:\n'
     '            r.part(r.number(f.offsets.field), SIZES[f.offsets.kind] * f.segments)\n' + READ),
    ('the whole array of counts is to come', '        stored = ',
     '        if SIZES[f.counts.kind] * f.segments > 4:\n'
     '            r.part(r.number(f.counts.field), SIZES[f.counts.kind] * f.segments)\n        stored = '),
    ('a range of the first segment for all', 'offset = value(r, f.offsets, k)', 'offset = value(r, f.offsets, 0)'),
    ('a count of the first segment for all', 'count = value(r, f.counts, k)', 'count = value(r, f.counts, 0)'),
    ('the first segment is always good', '    try:\n' + READ,
     SEEN_WHOLE + '    if k > 0:\n        bare = r\n    try:\n' + READ.replace('r,', 'bare,').replace('r.part', 'bare.part')),
    ('a segment after a bad one is bad', 'return 1, fee, stored',
     "return (1, fee, stored) if k == 0 or judged(r, f, k - 1)[0] == 1 else (4, fee, b'')"),
    ('refused packets are 2', 'return 4, fee', 'return 2, fee'),
    ('refused packets are 3', 'return 4, fee', 'return 3, fee'),
    ('packets are not looked at', ACCEPTED, 'if False:'),
    ('only short packets are refused', NEED, NEED.replace('> 0', '== 1')),
    ('only bad packets are refused', NEED, NEED.replace('> 0', '== 2')),
    ('good is 0', 'return 1, fee, stored', 'return 0, fee, stored'),
    ('all segments that came are good', "return 4, fee, b''", "return 1, fee, stored"),
    ('no segment is good', 'return 1, fee, stored', "return 2, 1, b''"),
    ('every segment is lost where one is', "        return CODES[why.args[0]], 1, b''\n",
     "        return CODES[why.args[0]], 1, b''\n    if any(b != 1 for b in r.blocks):\n        return 2, 1, b''\n"),
    ('full strips', 'area = f.block_width * rows(f, k)', 'area = f.block_width * f.block_height'),
    ('short tiles', 'area = f.block_width * rows(f, k)', 'area = f.block_width * min(rows(f, k), f.height)'),
    # the charge
    ('a lost segment is free', "return CODES[why.args[0]], 1, b''", "return CODES[why.args[0]], 0, b''"),
    ('a lost segment costs two', "return CODES[why.args[0]], 1, b''", "return CODES[why.args[0]], 2, b''"),
    ('a segment outside is free', "return CODES[why.args[0]], 1, b''", "return CODES[why.args[0]], 1 if why.args[0] == 8 else 0, b''"),
    ('a segment not arrived is free', "return CODES[why.args[0]], 1, b''", "return CODES[why.args[0]], 1 if why.args[0] == 1 else 0, b''"),
    ('a lost segment costs its area', "return CODES[why.args[0]], 1, b''",
     "return CODES[why.args[0]], 2 * per_pixel(f) * f.block_width * rows(f, k) + 1, b''"),
    ('refused packets cost one', "return 4, fee, b''", "return 4, 1, b''"),
    ('refused packets are free', "return 4, fee, b''", "return 4, 0, b''"),
    ('good segments cost one', 'return 1, fee, stored', 'return 1, 1, stored'),
    ('the fee without one', FEE, FEE.replace(' + 1', '')),
    ('the fee without the count', FEE, FEE.replace('count + ', '')),
    ('the fee by 10A', FEE, FEE.replace('2 * ', '')),
    ('the fee of a whole block', FEE, FEE.replace('area', 'f.block_width * f.block_height')),
    ('the first charge alone', 'r.charge(sum(charges))', 'r.charge(charges[0])'),
    ('the last charge is left out', 'r.charge(sum(charges))', 'r.charge(sum(charges[:-1]))'),
    ('the largest charge', 'r.charge(sum(charges))', 'r.charge(max(charges))'),
    ('a charge for each segment', 'r.charge(sum(charges))', 'for units in charges:\n        r.charge(units)'),
    ('the charge of good segments', 'r.charge(sum(charges))', 'r.charge(sum(c for code, c in zip(codes, charges) if code == 1))'),
    ('the charge is not tested', CHARGE, '    r.left = max(0, r.left - sum(charges))\n'),
    ('nothing is charged', CHARGE, '    left = r.left\n    r.charge(sum(charges))\n    r.left = left\n'),
    ('nothing is charged and nothing tested', CHARGE, ''),
    ('one unit short is let pass', CHARGE, '    r.left += r.left + 1 == sum(charges)\n' + CHARGE),
    ('units must be more than the charge', CHARGE, '    if r.left == sum(charges):\n        raise Refused(7)\n' + CHARGE),
    ('units short are taken', CHARGE, '    if r.left < sum(charges):\n        r.left = 0\n        raise Refused(7)\n' + CHARGE),
    ('units short give all back', CHARGE,
     '    if r.left < sum(charges):\n        r.left += 128 + f.entries + 1\n        raise Refused(7)\n' + CHARGE),
    ('units short are 4', CHARGE, '    if r.left < sum(charges):\n        raise Refused(4)\n' + CHARGE),
    ('units short are 6', CHARGE, '    if r.left < sum(charges):\n        raise Refused(6)\n' + CHARGE),
    ('strict reading\'s fees of all', CHARGE, '    r.charge(sum(2 * per_pixel(f) * f.block_width * rows(f, k) + 1 for k in range(f.segments)))\n'),
    # the picture
    ('the previous picture under code 2', 'if codes[k] == 1 else 0', 'if codes[k] in (1, 2) else 0'),
    ('the previous picture under code 3', 'if codes[k] == 1 else 0', 'if codes[k] in (1, 3) else 0'),
    ('the previous picture under code 4', 'if codes[k] == 1 else 0', 'if codes[k] in (1, 4) else 0'),
    ('the previous picture under any code', 'if codes[k] == 1 else 0', 'if True else 0'),
    ('a lost segment is 255', 'if codes[k] == 1 else 0', 'if codes[k] == 1 else 255'),
    ('a lost segment has the colour of 0', SHOWN,
     'if codes[k] == 1 else (0, 0, 39, 0, 39, 0)[i % b] for i, (k, byte) in enumerate(zip(own, shown(f, parts)))]'),
    ('only the L of a lost segment is zero', SHOWN,
     'if codes[k] == 1 or i % b > 1 else 0 for i, (k, byte) in enumerate(zip(own, shown(f, parts)))]'),
    ('only the first row of a lost segment is zero', SHOWN,
     'if codes[k] == 1 or i // (b * f.width) % f.block_height else 0 for i, (k, byte) in enumerate(zip(own, shown(f, parts)))]'),
    ('the last row of a lost segment stays', SHOWN,
     'if codes[k] == 1 or i // (b * f.width) == f.height - 1 else 0 for i, (k, byte) in enumerate(zip(own, shown(f, parts)))]'),
    ('the segments of a row are blank together', 'if codes[k] == 1 else 0',
     'if all(c == 1 for c in codes[k // f.across * f.across:][:f.across]) else 0'),
    ('the picture is blank where a segment is', 'if codes[k] == 1 else 0', 'if set(codes) == {1} else 0'),
    ('the segment after a lost one is blank', 'if codes[k] == 1 else 0', 'if codes[k] == 1 and codes[max(0, k - 1)] == 1 else 0'),
    ('segments column by column', 'y // f.block_height * f.across + x // f.block_width for y',
     'x // f.block_width * (f.segments // f.across) + y // f.block_height for y'),
    ('a segment in the place of the one before', 'shown(f, parts))]', 'shown(f, parts[1:] + parts[:1]))]'),
    ('only the first segment is shown', 'if codes[k] == 1 else 0', 'if codes[k] == 1 and k == 0 else 0'),
    ('the last segment is not shown', 'if codes[k] == 1 else 0', 'if codes[k] == 1 and k + 1 < max(2, f.segments) else 0'),
    # the map
    ('blocks are rounded down', 'blocks = len(range(0, len(r.file), 512))', 'blocks = len(r.file) // 512'),
    ('a block more', 'blocks = len(range(0, len(r.file), 512))', 'blocks = len(r.file) // 512 + 1'),
    ('blocks of 511', 'blocks = len(range(0, len(r.file), 512))', 'blocks = len(range(0, len(r.file), 511))'),
    ('blocks of 513', 'blocks = len(range(0, len(r.file), 512))', 'blocks = len(range(0, len(r.file), 513))'),
    ('a map must be there', 'if len(r.blocks) > 0 and len(r.blocks) != blocks:', 'if len(r.blocks) != blocks:'),
    ('a map may be longer', 'len(r.blocks) != blocks:', 'len(r.blocks) < blocks:'),
    ('a map may be shorter', 'len(r.blocks) != blocks:', 'len(r.blocks) > blocks:'),
    ('any map', 'if len(r.blocks) > 0 and len(r.blocks) != blocks:', 'if False:'),
    ('any map of an empty file', 'if len(r.blocks) > 0 and', 'if len(r.blocks) > 0 and len(r.file) > 0 and'),
    ('a wrong map is 4', 'raise Refused(9)', 'raise Refused(4)'),
    ('a wrong map is 8', 'raise Refused(9)', 'raise Refused(8)'),
    ('a wrong map is 2', 'raise Refused(9)', 'raise Refused(2)'),
    ('a wrong map is 1', 'raise Refused(9)', 'raise Refused(1)'),
    ('no map is nothing arrived', '    mapped(r)\n', "    mapped(r)\n    r.blocks = r.blocks or bytes(len(range(0, len(r.file), 512)))\n"),
    ('all but 0 is arrived', '    mapped(r)\n', '    mapped(r)\n    r.blocks = bytes(b > 0 for b in r.blocks)\n'),
    ('odd is arrived', '    mapped(r)\n', '    mapped(r)\n    r.blocks = bytes(b % 2 for b in r.blocks)\n'),
    ('255 is arrived', '    mapped(r)\n', '    mapped(r)\n    r.blocks = bytes(b in (1, 255) for b in r.blocks)\n'),
    ('0 is arrived', '    mapped(r)\n', '    mapped(r)\n    r.blocks = bytes(b == 0 for b in r.blocks)\n'),
    ('the map is not looked at', '    mapped(r)\n', "    mapped(r)\n    r.blocks = b''\n"),
    ('blocks one late', '    mapped(r)\n', '    mapped(r)\n    r.blocks = r.blocks[:1] + r.blocks[:-1]\n'),
    ('the map backwards', '    mapped(r)\n', '    mapped(r)\n    r.blocks = r.blocks[::-1]\n'),
    ('the last block always came', '    mapped(r)\n', "    mapped(r)\n    r.blocks = r.blocks and r.blocks[:-1] + b'\\x01'\n"),
    # the order of refusals
    ('the first limits are not tested', '    limited(len(r.file), page, limits)\n', ''),
    ('the map before the limits', '    limited(len(r.file), page, limits)\n    mapped(r)\n',
     '    mapped(r)\n    limited(len(r.file), page, limits)\n'),
    ('the map after the front part', '    mapped(r)\n    f = picture(r, page, limits)\n',
     '    f = picture(r, page, limits)\n    mapped(r)\n'),
    ('the map after the header', '    mapped(r)\n', '    if len(r.file) < 8:\n        raise Refused(1)\n    mapped(r)\n'),
    ('the map between the limits', '    limited(len(r.file), page, limits)\n    mapped(r)\n',
     '    limited(len(r.file), 0, limits._replace(directories=1))\n    mapped(r)\n    limited(len(r.file), page, limits)\n'),
    ('the buffers before the front part', '    f = picture(r, page, limits)\n',
     '    if len(output) == 0 or len(scratch) == 0 or len(quality) == 0:\n        raise Refused(6)\n    f = picture(r, page, limits)\n'),
    ('the units before the front part', '    f = picture(r, page, limits)\n',
     '    if r.left < 150:\n        raise Refused(7)\n    f = picture(r, page, limits)\n'),
    ('always the first page', 'f = picture(r, page, limits)', 'f = picture(r, 0, limits)'),
    ('arrival of the front part is not looked at', '    f = picture(r, page, limits)\n',
     "    seen, r.blocks = r.blocks, b''\n    f = picture(r, page, limits)\n    r.blocks = seen\n"),
    ('scratch is not limited', 'if needed > limits.output:', 'if False:'),
    ('scratch at the limit', 'if needed > limits.output:', 'if needed >= limits.output:'),
    ('scratch one above the limit', 'if needed > limits.output:', 'if needed > limits.output + 1:'),
    ('scratch above the limit is 6', 'if needed > limits.output:\n        raise Refused(4)',
     'if needed > limits.output:\n        raise Refused(6)'),
    ('scratch above the limit is 3', 'if needed > limits.output:\n        raise Refused(4)',
     'if needed > limits.output:\n        raise Refused(3)'),
    ('6A is limited', 'if needed > limits.output:', 'if needed // per_pixel(f) * f.head.bytes > limits.output:'),
    ('the buffers before the limit of scratch', LIMIT + ROOMS, ROOMS + LIMIT),
    ('the output before the limit of scratch', LIMIT, '    if len(output) < f.output:\n        raise Refused(6)\n' + LIMIT),
    ('the limit of scratch after the charge', LIMIT + ROOMS,
     ROOMS + "    if sum(judged(r, f, k)[1] for k in range(f.segments)) > r.left:\n        raise Refused(7)\n" + LIMIT),
    ('the range before the limit of scratch', LIMIT,
     '    if needed > limits.output and judged(r, f, 0)[0] == 3:\n        raise Refused(1)\n' + LIMIT),
    ('10A of good segments alone', 'if needed > limits.output:', 'if needed > limits.output and judged(r, f, 0)[0] in (1, 4):'),
    ('output is not tested', 'if len(output) < f.output:', 'if False:'),
    ('output must be exact', 'if len(output) < f.output:', 'if len(output) != f.output:'),
    ('output must be longer', 'if len(output) < f.output:', 'if len(output) <= f.output:'),
    ('output may be one short', 'if len(output) < f.output:', 'if len(output) + 1 < f.output:'),
    ('output short is 4', 'if len(output) < f.output:\n        raise Refused(6)', 'if len(output) < f.output:\n        raise Refused(4)'),
    ('scratch is not tested', 'if len(scratch) < needed:', 'if False:'),
    ('scratch must be exact', 'if len(scratch) < needed:', 'if len(scratch) != needed:'),
    ('scratch may be one short', 'if len(scratch) < needed:', 'if len(scratch) + 1 < needed:'),
    ('scratch may be short where no segment is good', 'if len(scratch) < needed:',
     'if len(scratch) < needed and any(judged(r, f, k)[0] == 1 for k in range(f.segments)):'),
    ('scratch for the planes', 'if len(scratch) < needed:', 'if len(scratch) < needed // per_pixel(f) * f.head.planes:'),
    ('scratch short is 4', 'if len(scratch) < needed:\n        raise Refused(6)', 'if len(scratch) < needed:\n        raise Refused(4)'),
    ('quality is not tested', 'if len(quality) < f.segments:', 'if False:'),
    ('quality must be exact', 'if len(quality) < f.segments:', 'if len(quality) != f.segments:'),
    ('quality must be longer', 'if len(quality) < f.segments:', 'if len(quality) <= f.segments:'),
    ('quality may be one short', 'if len(quality) < f.segments:', 'if len(quality) + 1 < f.segments:'),
    ('quality short is 4', 'if len(quality) < f.segments:\n        raise Refused(6)',
     'if len(quality) < f.segments:\n        raise Refused(4)'),
    ('the charge before the buffers', ROOMS,
     "    if sum(judged(r, f, k)[1] for k in range(f.segments)) > r.left:\n        raise Refused(7)\n" + ROOMS),
    ('the charge before quality', '    if len(quality) < f.segments:\n',
     "    if sum(judged(r, f, k)[1] for k in range(f.segments)) > r.left:\n        raise Refused(7)\n    if len(quality) < f.segments:\n"),
    ('short buffers are charged', ROOMS,
     "    paid = min(r.left, sum(judged(r, f, k)[1] for k in range(f.segments)))\n    r.left -= paid\n" + ROOMS + "    r.left += paid\n"),
    # what is left in the buffers
    ('a refusal gives the units back', 'return why.args[0], output, scratch, [0] * len(quality)',
     'r.left = r.left if why.args[0] != 7 else r.left + 139\n        return why.args[0], output, scratch, [0] * len(quality)'),
    ('a refusal zeroes output', 'return why.args[0], output,', 'return why.args[0], [0] * len(output),'),
    ('a refusal for units zeroes output', 'return why.args[0], output,',
     'return why.args[0], [0] * len(output) if why.args[0] == 7 else output,'),
    ('a refusal zeroes scratch', 'return why.args[0], output, scratch,', 'return why.args[0], output, [0] * len(scratch),'),
    ('a refusal for room zeroes scratch', 'return why.args[0], output, scratch,',
     'return why.args[0], output, [0] * len(scratch) if why.args[0] == 6 else scratch,'),
    ('a refusal leaves quality', 'output, scratch, [0] * len(quality)\n', 'output, scratch, quality\n'),
) + tuple(('a refusal with %d leaves quality' % n, 'output, scratch, [0] * len(quality)\n',
           'output, scratch, quality if why.args[0] == %d else [0] * len(quality)\n' % n) for n in range(1, 10)) + (
    ('a refusal marks all 2', 'output, scratch, [0] * len(quality)\n', 'output, scratch, [2] * len(quality)\n'),
    ('a refusal leaves the last quality byte', 'output, scratch, [0] * len(quality)\n',
     'output, scratch, [0] * (len(quality) - 1) + quality[:1]\n'),
    ('bytes behind the picture are zeroed', 'whole + output[len(whole):]', 'whole + [0] * (len(output) - len(whole))'),
    ('output stays', 'whole + output[len(whole):]', 'output'),
    ('scratch stays', '[0] * needed + scratch[needed:]', 'scratch'),
    ('scratch is zeroed whole', '[0] * needed + scratch[needed:]', '[0] * len(scratch)'),
    ('scratch is zeroed but for a byte', '[0] * needed + scratch[needed:]', '[0] * (needed - 1) + scratch[needed - 1:]'),
    ('only the planes are zeroed', '[0] * needed + scratch[needed:]',
     '[0] * (needed // per_pixel(f) * f.head.planes) + scratch[needed // per_pixel(f) * f.head.planes:]'),
    ('scratch stays where no segment is good', '[0] * needed + scratch[needed:]',
     '([0] * needed if 1 in codes else scratch[:needed]) + scratch[needed:]'),
    ('quality bytes behind the last segment stay', '[0] * behind\n', 'quality[:behind]\n'),
    ('quality bytes behind the last segment are 1', '[0] * behind\n', '[1] * behind\n'),
    ('quality bytes behind the last segment are 2', '[0] * behind\n', '[2] * behind\n'),
    ('one quality byte behind the last segment', '[0] * behind\n', '[0] * min(1, behind) + quality[:max(0, behind - 1)]\n'),
    ('the codes backwards', 'list(codes) + [0]', 'list(codes)[::-1] + [0]'),
    ('the first code for all', 'list(codes) + [0]', '[codes[0]] * len(codes) + [0]'),
    ('the last code is left out', 'list(codes) + [0]', 'list(codes[:-1]) + [0, 0]'),
    # the answer
    ('the sides are swapped', SAID, SAID.replace('f.width, f.height', 'f.height, f.width')),
    ('the sides of blocks are swapped', SAID, SAID.replace('f.block_width, f.block_height', 'f.block_height, f.block_width')),
    ('segments that are good', SAID, SAID.replace('f.segments', 'quality.count(1)')),
    ('segments across', SAID, SAID.replace('f.segments', 'f.across')),
    # heads
    ('three channels of mono', SAID, SAID.replace('f.head.channels', '3')),
    ('one channel of colour', SAID, SAID.replace('f.head.channels', '1')),
    ('the bytes for the channels', SAID, SAID.replace('channels', 'bytes')),
    ('the fee of colour for mono', FEE, FEE.replace('per_pixel(f)', '10')),
    ('the fee of mono for colour', FEE, FEE.replace('per_pixel(f)', '4')),
    ('the fee of mono by 4A', FEE, FEE.replace('2 *', '(1 + (f.head == COLOUR)) *')),
    ('the fee of mono by 2A', FEE, FEE.replace('2 * per_pixel(f)', '(20 if f.head == COLOUR else 2)')),
    ('the fee of mono by 12A', FEE, FEE.replace('2 * per_pixel(f)', '(20 if f.head == COLOUR else 12)')),
    ('the fee of mono without one', FEE, FEE.replace('+ 1', '+ (f.head == COLOUR)')),
    ('mono is free', CHARGE, CHARGE.replace('sum(charges)', 'sum(charges) if f.head == COLOUR else 0')),
    ('packets of mono need 4A', NEED, NEED.replace('f.head.planes', '4')),
    ('packets of mono need A', NEED, NEED.replace('f.head.planes', '(4 if f.head == COLOUR else 1)')),
    ('packets of colour need 2A', NEED, NEED.replace('f.head.planes', '2')),
    ('packets of mono need 2A or 4A', ACCEPTED,
     ACCEPTED[:-1] + ' and (f.head == COLOUR or packets(stored, 0, count, f.block_width, 4 * area) > 0):'),
    ('packets of mono are not looked at', ACCEPTED, ACCEPTED[:-1] + ' and f.head == COLOUR:'),
    ('a stride of two rows for mono', 'packets(stored, 0, count, f.block_width,',
     'packets(stored, 0, count, (1 + (f.head == MONO)) * f.block_width,'),
    ('scratch of colour for mono', ROOM_OF, '    needed = 10 * f.block_width * f.block_height\n'),
    ('scratch of mono for colour', ROOM_OF, '    needed = 4 * f.block_width * f.block_height\n'),
    ('scratch of mono is 2A', ROOM_OF, ROOM_OF.replace('per_pixel(f)', '(10 if f.head == COLOUR else 2)')),
    ('scratch of mono is 6A', ROOM_OF, ROOM_OF.replace('per_pixel(f)', 'max(6, per_pixel(f))')),
    ('10A of mono is limited', 'if needed > limits.output:', 'if 10 * f.block_width * f.block_height > limits.output:'),
    ('4A of colour is limited', 'if needed > limits.output:', 'if 4 * f.block_width * f.block_height > limits.output:'),
    ('4A of mono is not limited', 'if needed > limits.output:', 'if needed > limits.output and f.head == COLOUR:'),
    ('4A of mono at the limit', 'if needed > limits.output:', 'if needed > limits.output - (f.head == MONO):'),
    ('4A of mono one above the limit', 'if needed > limits.output:', 'if needed > limits.output + (f.head == MONO):'),
    ('4A of mono after the buffers', LIMIT + ROOMS,
     '    if f.head == COLOUR:\n' + LIMIT.replace('    ', '        ', 1).replace('        raise', '            raise') + ROOMS + LIMIT),
    ('output of mono is tested by six bytes a pixel', 'if len(output) < f.output:', 'if len(output) < 6 * f.width * f.height:'),
    ('output of colour is tested by two bytes a pixel', 'if len(output) < f.output:', 'if len(output) < 2 * f.width * f.height:'),
    ('scratch of mono is tested by ten bytes a pixel', 'if len(scratch) < needed:', 'if len(scratch) < 10 * f.block_width * f.block_height:'),
    ('scratch of mono is not tested', 'if len(scratch) < needed:', 'if len(scratch) < needed and f.head == COLOUR:'),
    ('scratch of colour is zeroed for mono', '[0] * needed + scratch[needed:]',
     '([0] * (10 * f.block_width * f.block_height) + scratch[10 * f.block_width * f.block_height:])[:len(scratch)]'),
    ('scratch of mono stays', '[0] * needed + scratch[needed:]', '([0] * needed if f.head == COLOUR else scratch[:needed]) + scratch[needed:]'),
    ('six zero bytes at each lost pixel of mono', SHOWN,
     'if all(codes[j] == 1 for j in own[max(0, i // b * b - 4):i + 1]) else 0 for i, byte in enumerate(shown(f, parts))]'),
    ('four zero bytes at each lost pixel of mono', SHOWN,
     'if all(codes[j] == 1 for j in own[max(0, i // b * b - 2 * (b == 2)):i + 1]) else 0 for i, byte in enumerate(shown(f, parts))]'),
    ('one zero byte at each lost pixel of mono', SHOWN,
     'if codes[k] == 1 or b == 2 and i % 2 else 0 for i, (k, byte) in enumerate(zip(own, shown(f, parts)))]'),
    ('only a third of the lost pixels of mono', SHOWN,
     'if codes[k] == 1 or b == 2 and i // 2 % 3 else 0 for i, (k, byte) in enumerate(zip(own, shown(f, parts)))]'),
    ('lost rows of mono by six bytes a pixel', SHOWN,
     'if codes[own[min(i * 6 // b, len(own) - 1)]] == 1 else 0 for i, byte in enumerate(shown(f, parts))]'),
    ('lost segments of mono stay', 'if codes[k] == 1 else 0', 'if codes[k] == 1 or b == 2 else 0'),
    ('lost segments of mono are 255', 'if codes[k] == 1 else 0', 'if codes[k] == 1 else 255 * (b == 2)'),
    ('a segment of zeros is not good', 'return 1, fee, stored',
     "return (1, fee, stored) if f.head == COLOUR or any(expanded(stored)) else (4, fee, b'')"),
    ('a segment of zeros did not come', 'return 1, fee, stored',
     "return (1, fee, stored) if f.head == COLOUR or any(expanded(stored)) else (2, 1, b'')"),
    ('pixels of zeros are not written for mono', 'whole = patched_up(f, codes, parts)\n',
     'whole = patched_up(f, codes, parts)\n    whole = whole if f.head == COLOUR else [new or old for new, old in zip(whole, output)]\n'),
    ('L of mono is swapped', '    return [byte ' + SHOWN,
     '    seen = shown(f, parts)\n    return [seen[i ^ (b == 2)] if codes[k] == 1 else 0 for i, k in enumerate(own)]'),
    ('mono wants a block behind its directory', '    f = picture(r, page, limits)\n',
     '    f = picture(r, page, limits)\n    if f.head == MONO:\n        r.part(0, min(len(r.file), f.counts.place + 512))\n'),
)
