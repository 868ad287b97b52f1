"""What the program vectors is to write of libtiff's pictures: each page read strictly and patchily, and the page after the last.

The pixels are libtiff's own: those of the models of strict and of patchy reading have to be the same, and the script stops where
they are not, by length, CRC-32 and SHA-256, and byte by byte where libtiff's pixels are here. The charges and all else are the
models'.
"""
import hashlib
import zlib

import patchy
import strict
from front import Limits, Reading, Refused
from libtiff import CAMERA, file_of, pixels_of, vouched

# What the program asks for with each of them, and the lengths of its whole buffers: output, scratch and quality.
LIMITS = Limits(input=65536, output=1843200, dimension=1000, directories=4, tags=20, segments=100)
WHOLE = LIMITS.output, 51200, 60

def units_for(name):
    return 10000000 if name == CAMERA else 1000000

def strictly(name, page, file):
    """The line of strict reading, and the lengths of the buffers that all readings of the page are lent."""
    try:
        h = strict.inspected(Reading(file, b'', units_for(name)), page, LIMITS)[0]
        lent, room = (h.work, h.output, h.scratch), (h.output, h.scratch, h.segments)
    except Refused:
        lent, room = (0, 0, 0), WHOLE
    return strict.line('strict', strict.Record('page %d' % page, page, LIMITS, units_for(name), 0, 0, *lent, file)), room

def patchily(tag, name, page, file, blocks, room):
    return patchy.line('patchy', patchy.Record(tag, page, LIMITS, units_for(name), *room, file, blocks))

def readings(name, page, file):
    """The line of each reading of a page."""
    said, room = strictly(name, page, file)
    return [said, patchily('no map', name, page, file, b'', room),
            patchily('map of ones', name, page, file, patchy.all_but(file), room)]

def pixels(name, page, file):
    """The pixels that the model of strict reading has, and the sizes that libtiff's report has too."""
    h, f, stored = strict.inspected(Reading(file, b'', units_for(name)), page, LIMITS)
    assert h.output == 2 * h.head.channels * h.width * h.height, (name, page)
    return bytes(strict.shown(f, stored)), (h.width, h.height, h.block_width, h.block_height, h.segments, h.output)

def page_lines(name, page, file, vouch):
    """The lines of a page that libtiff vouches for."""
    whole, numbers = pixels(name, page, file)
    raw = pixels_of(name, page)
    assert numbers == vouch.numbers and len(whole) == numbers[-1], (name, page)
    assert zlib.crc32(whole) == vouch.crc and hashlib.sha256(whole).hexdigest() == vouch.sha, (name, page)
    assert raw in (whole, None), (name, page)
    lines = readings(name, page, file)
    assert all(', output %08x,' % vouch.crc in said for said in lines), lines
    return [words for said in lines for words in [said] + ["  libtiff's pixels"] * (raw is not None)]

def next_page_lines(name, page, file):
    """The lines of the page after the last."""
    lines = readings(name, page, file)
    assert all(said[16:].startswith(' refused 5,') for said in lines), lines
    return lines

def lines():
    said = []
    for name, pages in vouched().items():
        file = file_of(name)
        said.append('pictures/' + name)
        for page, vouch in enumerate(pages):
            said += page_lines(name, page, file, vouch)
        said += next_page_lines(name, len(pages), file)
    return said
