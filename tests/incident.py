#!/usr/bin/env python3
"""The files of the program incident, and what it is to write.

usage: incident.py [--write]

Without a word it computes crates/incident/data/*.tif and crates/incident/stdout, the same bytes at every run, compares them with
what is there, writes nothing, and exits with 1 where something differs. --write writes them.

data/camera.tif is a copy of libtiff's c01_640x480_ring_l.tif, as a program is run with its own crate's files alone. Its pixels are
libtiff's: the script stops where those of its model have another CRC-32 than libtiff's report says. It stops as well where the lost
block is not strip 31's alone, and where the model does not mark strip 31 and no other, leave it blank and the others as they are in
the whole picture.
"""
import sys
import zlib

sys.dont_write_bytecode = True  # no folder of compiled modules beside the scripts
from common import hold_or_write
from front import STRIPS, Limits, Reading, but, picture, value
from leaf import literal, run
from libtiff import CAMERA, file_of, vouched
from patchy import all_but, blocks_in, patchy, turned

LIMITS = Limits(input=65536, output=1843200, dimension=640, directories=1, tags=20, segments=60)
UNITS, LOST, STRIP = 10000000, 44, 31
SHARE = 6 * 640 * 8     # the bytes of a strip in the picture

def row_packets(row):
    """Packets of a row of a plane: runs where a byte stands at least twice, else literals."""
    made, single = b'', b''
    while row:
        n = next((i for i in range(1, min(129, len(row))) if row[i] != row[0]), min(129, len(row)))
        if n == 1:
            single += row[:1]
        if single and (n > 1 or len(single) == 127 or len(row) == 1):
            made, single = made + literal(single), b''
        if n > 1:
            made += run(n, row[0])
        row = row[n:]
    return made

def previous():
    """A bright ring on a dark ground, as in the camera's picture, at another place."""
    def planes(y):
        inside = [90 ** 2 < (x - 250) ** 2 + (y - 275) ** 2 < 120 ** 2 for x in range(640)]
        levels = (0x44, 0x2f), (0x80 + y % 8, 0x10), (92, 70), (210, 190)
        return [bytes(bright if there else dark for there in inside) for bright, dark in levels]
    parts = [b''.join(row_packets(plane) for y in range(top, top + 8) for plane in planes(y)) for top in range(0, 480, 8)]
    return turned((but(STRIPS, (256, 3, 1, 640), (257, 3, 1, 480), (278, 3, 1, 8)), parts))

def shown(what, file, blocks, before):
    """The lines of one reading into a buffer, and what the buffer then has."""
    r = Reading(file, blocks, UNITS)
    f, output, scratch, quality = patchy(r, 0, LIMITS, list(before), [0] * 51200, [0] * 60)
    after = bytes(output)
    strip = after[STRIP * SHARE:(STRIP + 1) * SHARE]
    return after, quality, '\n'.join((
        what, '  %d x %d, strips %d x %d, %d in all, left %d' % (f.width, f.height, f.block_width, f.block_height, f.segments, r.left),
        '  quality ' + ''.join(map(str, quality)), '  picture %08x, strips 0 to 30 %08x, strips 32 to 59 %08x, strip 31 %08x, %s' % (
            zlib.crc32(after), zlib.crc32(after[:STRIP * SHARE]), zlib.crc32(after[(STRIP + 1) * SHARE:]), zlib.crc32(strip),
            'not blank' if any(strip) else 'each byte zero'), ''))

def made():
    camera, before, start = file_of(CAMERA), previous(), 512 * LOST
    r = Reading(camera, b'', UNITS)
    f = picture(r, 0, LIMITS)
    ranges = [(value(r, f.offsets, k), value(r, f.counts, k)) for k in range(60)]
    assert [k for k, (offset, count) in enumerate(ranges) if offset < start + 512 and offset + count > start] == [STRIP]
    assert start + 512 <= ranges[STRIP][0] + ranges[STRIP][1] and blocks_in(camera) == 85 and len(before) < 65536

    none = bytes(LIMITS.output)
    whole, codes, camera_lines = shown("the camera's picture, whole", camera, b'', none)
    assert zlib.crc32(whole) == vouched()[CAMERA][0].crc and codes == [1] * 60
    old, codes, old_lines = shown('the previous picture, whole', before, b'', none)
    assert codes == [1] * 60
    text = camera_lines
    for what, stale in (("the camera's picture, block 44 lost, the previous file's bytes in its place", before[start:start + 512]),
                        ("the camera's picture, block 44 lost, other bytes in its place", b'\xff' * 512)):
        file = camera[:start] + stale + camera[start + 512:]
        after, codes, lines = shown(what, file, all_but(file, LOST), old)
        assert codes == [1] * STRIP + [2] + [1] * (59 - STRIP)
        for k in range(60):
            part = after[k * SHARE:(k + 1) * SHARE]
            assert part == (bytes(SHARE) if k == STRIP else whole[k * SHARE:(k + 1) * SHARE]), k
        assert old[STRIP * SHARE:(STRIP + 1) * SHARE] != whole[STRIP * SHARE:(STRIP + 1) * SHARE]
        text += old_lines + lines
    return {'data/camera.tif': camera, 'data/previous.tif': before, 'stdout': text.encode()}

if __name__ == '__main__':
    sys.exit(hold_or_write('incident', made, sys.argv[1:], 'incident.py [--write]'))
