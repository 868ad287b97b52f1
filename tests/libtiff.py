"""libtiff's pictures, and its words on them: it vouches for acceptance, sizes and pixels, and for nothing else."""
import collections
import os

from common import content, folder

PICTURES = os.path.join(folder('vectors'), 'data', 'pictures')
CAMERA = 'c01_640x480_ring_l.tif'

# Of a page: width, height, block width, block height, segments and length of the pixels; CRC-32 and SHA-256 of these.
Page = collections.namedtuple('Page', 'numbers crc sha')

def vouched():
    """The pages of each picture, in the order of libtiff's report."""
    found = {}
    for words in content(PICTURES, 'expected.txt').decode().splitlines():
        if not words.startswith('#'):
            name, page, *numbers, crc, sha = words.split()
            assert int(page) == len(found.setdefault(name, [])), words
            found[name].append(Page(tuple(map(int, numbers)), int(crc, 16), sha))
    return found

def file_of(name):
    return content(PICTURES, name)

def pixels_of(name, page):
    """libtiff's pixels of a page, or None where only their checksums are here."""
    path = os.path.join(PICTURES, 'raw', '%s.%d.raw' % (os.path.basename(name)[:-len('.tif')], page))
    return content(path) if os.path.exists(path) else None
