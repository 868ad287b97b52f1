"""Vectors for the receiver of a bus, and what docs/SPECIFICATION.md says of each.

The model is written from its rules (group 11) on whole lists and unbounded numbers. It follows no code of this repository:
the blocks of a picture are the places where they start, all messages of a trace are listed before the first is answered, and
what a block leaves is made anew for each byte of the file buffer and of the map, so that an error of the code's offsets,
products and parts of buffers can't be repeated here.

The script stops where its own answers break what the rules promise of a trace: after one with an accepted start the map has 1
exactly for the blocks accepted since the last accepted start, and these hold the bytes accepted last.
"""
import collections
import struct
import zlib

from common import FILL, ROOM, TOP, Draw, record_of
from leaf import counted, shown

TAIL = 0x5A     # what the program appends to a block or a trace: a block can be longer than a file of records
LONGEST = 66560 # the longest block or trace with what is appended

# The state and the buffers that are lent, the length of a start or the number of a block, the bytes of a block or a trace, and how
# many bytes TAIL come after them. Of the file buffer it is the length, of the map what it has.
Record = collections.namedtuple('Record', 'tag started length file came number data tail')

# ---- model ----

# What a receiver is and was lent (rule 11.1): the file buffer, and a map of the blocks that came.
Reception = collections.namedtuple('Reception', 'started length file came')

# The blocks of a picture (rule 11.1): where each starts.
def places(length):
    return range(0, length, 512)

# The buffers are too short for a picture (rule 11.3).
def too_short(s, length):
    return len(s.file) < length or len(s.came) < len(places(length))

# A start (rules 11.2, 11.3 and 11.6): the answer, and what is there after it.
def start(s, length):
    if too_short(s, length):
        return 10, s
    return 0, Reception(True, length, s.file, [0 for byte in s.came])

# A block (rules 11.2 to 11.6).
def block(s, number, data):
    if s.started and too_short(s, s.length):
        return 10, s
    if not s.started or number >= len(places(s.length)):
        return 11, s
    at = places(s.length)[number]
    if len(data) != min(512, s.length - at):
        return 12, s
    file = [data[i - at] if at <= i < at + len(data) else byte for i, byte in enumerate(s.file)]
    came = [1 if i == number else byte for i, byte in enumerate(s.came)]
    return 0, s._replace(file=file, came=came)

# A number in a trace: the least significant byte first.
def number_of(part):
    return sum(byte * 256 ** i for i, byte in enumerate(part))

# The messages of a trace (rule 11.7), and how it ends.
def listed(trace):
    found, rest = [], list(trace)
    while rest:
        kind, body = rest[0], rest[1:]
        if kind not in (1, 2):
            return found, 2
        if len(body) < {1: 8, 2: 10}[kind]:
            return found, 1
        first = number_of(body[:8])
        if kind == 1:
            found.append((start, first))
            rest = body[8:]
            continue
        size, after = number_of(body[8:10]), body[10:]
        if len(after) < size:
            return found, 1
        found.append((block, first, after[:size]))
        rest = after[size:]
    return found, 0

# Every message of a trace has its answer, which is not the trace's (rule 11.8).
def replayed(s, trace):
    messages, ending = listed(trace)
    for call, *words in messages:
        answer, s = call(s, *words)
    return ending, s

# What a trace begins with.
def begun(trace):
    messages, ending = listed(trace)
    if not messages:
        return {0: 'over', 1: 'cut', 2: 'foreign'}.get(ending, 'other')
    call, number, *data = messages[0]
    return 'start %d' % number if call is start else 'block %d of %d' % (number, len(data[0]))

def lent(r):
    return Reception(r.started, r.length, [FILL] * r.file, list(r.came))

def whole(r):
    return list(r.data) + [TAIL] * r.tail

# What the program writes of a record.
def line(kind, r):
    before, data, said = lent(r), whole(r), ''
    if kind == 'start':
        answer, after = start(before, r.number)
    elif kind == 'block':
        answer, after = block(before, r.number, data)
    else:
        answer, after = replayed(before, data)
        said = ' ' + begun(data) + ';'
    return '%-16s%s %d, %s %d, file %08x, map%s' % (
        r.tag, said, answer, 'started' if after.started else 'idle', after.length, zlib.crc32(bytes(after.file)), shown(after.came))

# ---- end of the model ----

# ---- vectors ----

IDLE = False, 0

def blocks_of(length):
    return (length + 511) // 512

def any_map(n, seed=0):
    """A map as a caller may lend it: not every byte is 0 or 1."""
    return bytes((2, 0, 1, 255, 165, 0, 1, 128, 7)[(i + seed) % 9] for i in range(n))

def record(tag, state, file, came, number=0, data=b'', tail=0):
    """A record over a file buffer of this length, and over this map or one of this length."""
    came = any_map(came) if isinstance(came, int) else bytes(came)
    assert file <= ROOM and len(came) <= ROOM and len(data) + tail <= LONGEST, tag
    return Record(tag, *state, file, came, number, bytes(data), tail)

# Lengths around multiples of a block, and those near 2^64 and to which a narrower number makes small ones.
LENGTHS = 0, 1, 2, 255, 256, 511, 512, 513, 1023, 1024, 1025, 1536, 2000
HUGE = (('top', TOP), ('top-1', TOP - 1), ('64-511', TOP - 510), ('64-512', TOP - 511), ('64-513', TOP - 512), ('63', 2 ** 63), ('63-1', 2 ** 63 - 1),
        ('55', 2 ** 55), ('41', 2 ** 41), ('32', 2 ** 32), ('32+512', 2 ** 32 + 512), ('16+512', 2 ** 16 + 512), ('63+512', 2 ** 63 + 512))

def starts():
    for n in LENGTHS:
        b = blocks_of(n)
        for way, file, came in (('just', n, b), ('more', n + 3, b + 2), ('file-more', n + 1, b), ('map-more', n, b + 1), ('file-less', n - 1, b),
                                ('map-less', n, b - 1), ('less', n - 1, b - 1), ('file-none', 0, b), ('map-none', n, 0),
                                ('file-less+', n - 1, b + 9), ('map-less+', n + 512, b - 1)):
            if min(file, came) >= 0:
                yield record('%d-%s' % (n, way), IDLE, file, came, n)
    # a map with a byte for each byte, or for each byte of a block
    yield record('map-of-bytes', IDLE, 600, 600, 600)
    yield record('map-512', IDLE, 512, 512, 512)
    yield record('40-blocks', IDLE, ROOM, 40, ROOM)
    yield record('40-map-less', IDLE, ROOM, 39, ROOM)
    yield record('40-file-less', IDLE, ROOM - 1, 40, ROOM)
    yield record('room-and-one', IDLE, ROOM, 41, ROOM + 1)
    for name, n in HUGE:
        for way, file, came in (('none', 0, 0), ('one', 512, 1), ('room', ROOM, 40)):
            yield record('%s-%s' % (name, way), IDLE, file, came, n)
    # what is lent as the state before: accepted it is forgotten, refused it stays
    for name, state in (('idle', IDLE), ('idle-7', (False, 700)), ('empty', (True, 0)), ('same', (True, 600)), ('shorter', (True, 5)),
                        ('longer', (True, 1400)), ('beyond', (True, TOP))):
        yield record('%s-accepted' % name, state, 1400, 3, 600)
        yield record('%s-zero' % name, state, 1400, 3, 0)
        yield record('%s-refused' % name, state, 1400, 3, 1401)
        yield record('%s-ref-map' % name, state, 1600, 3, 1537)
        yield record('%s-ref-top' % name, state, 1400, 3, TOP)
    # the map before: each byte that it can have
    for k in range(0, 256, 64):
        yield record('map-%d' % k, IDLE, 64, bytes(range(k, k + 64)), 64)
        yield record('map-%d-refused' % k, IDLE, 63, bytes(range(k, k + 64)), 64)

def blocks():
    # each block of a picture, and sizes that are not its own
    for n in LENGTHS:
        b = blocks_of(n)
        for number in sorted({0, 1, b - 2, b - 1, b, b + 1} & set(range(b + 2))):
            own = min(512, n - 512 * number) if number < b else 512
            for size in sorted({own - 1, own, own + 1, 0, 1, n % 512, 512, 513} if number in (b - 1, b) else {own - 1, own, own + 1}):
                if size >= 0:
                    there = size if size == own and number == b - 1 else min(size, 40)
                    yield record('%d-%d-%d' % (n, number, size), (True, n), n + 5, b + 2, number, counted(there, number), size - there)
    # numbers that a product with 512, or a narrower number, makes small
    for name, number in (('top', TOP), ('55', 2 ** 55), ('55+1', 2 ** 55 + 1), ('55+2', 2 ** 55 + 2), ('55-1', 2 ** 55 - 1), ('54', 2 ** 54), ('63', 2 ** 63),
                         ('63+1', 2 ** 63 + 1), ('32', 2 ** 32), ('32+1', 2 ** 32 + 1), ('32+2', 2 ** 32 + 2), ('31+1', 2 ** 31 + 1),
                         ('16', 2 ** 16), ('16+1', 2 ** 16 + 1), ('8', 2 ** 8), ('8+1', 2 ** 8 + 1), ('23', 2 ** 23), ('23+1', 2 ** 23 + 1),
                         ('512', 512), ('1024', 1024), ('3', 3), ('4', 4)):
        for size in (512, 276, 0):
            yield record('no-%s-%d' % (name, size), (True, 1300), 2048, 5, number, tail=size)
    # sizes that a narrower number makes right
    for name, n, number, size in (('16-bit', 1300, 0, 65536 + 512), ('16-bit-last', 1300, 2, 65536 + 276), ('8-bit-last', 1300, 2, 256 + 276),
                                  ('8-bit', 1300, 2, 20), ('65535', 1300, 0, 65535), ('65536', 1300, 0, 65536), ('longest', 1300, 0, LONGEST),
                                  ('all', 1024, 0, 1024), ('1024-1', 1024, 1, 1024)):
        yield record('size-' + name, (True, n), 2048, 4, number, tail=size)
    # what the map had: the block's own byte becomes 1, all others stay
    for k in range(0, 256, 64):
        for at in (0, 17, 63):
            yield record('map-%d-%d' % (k, at), (True, ROOM), ROOM, bytes(range(k, k + 64)), min(at, 39), tail=512)
    for at in (0, 1, 2):
        for byte in (0, 1, 2, 128, 255):
            yield record('was-%d-%d' % (at, byte), (True, 1030), 1030, [byte] * 5, at, tail=6 if at == 2 else 512)

def rooms():
    # buffers that are exact, longer and short by one; one that is short comes before a number outside and a wrong size
    for n in (1, 512, 700, 1024):
        b = blocks_of(n)
        last = n - 512 * (b - 1)
        for way, file, came in (('just', n, b), ('f-more', n + 700, b), ('m-more', n, b + 70), ('f-less', n - 1, b), ('m-less', n, b - 1),
                                ('less', n - 1, b - 1), ('f-none', 0, b), ('m-none', n, 0), ('none', 0, 0), ('f-less+', n - 1, b + 5),
                                ('m-less+', n + 512, b - 1)):
            yield record('%d-0-%s' % (n, way), (True, n), file, came, 0, tail=min(512, n))
            yield record('%d-end-%s' % (n, way), (True, n), file, came, b - 1, tail=last)
            yield record('%d-out-%s' % (n, way), (True, n), file, came, b, tail=last)
            yield record('%d-12-%s' % (n, way), (True, n), file, came, 0, tail=min(512, n) - 1)
            yield record('%d-top-%s' % (n, way), (True, n), file, came, TOP)
    # a picture that no buffer holds
    for name, n in HUGE:
        for way, number, size in (('first', 0, 512), ('last', blocks_of(n) - 1, n - 512 * (blocks_of(n) - 1)), ('out', blocks_of(n), 512), ('size', 0, 0)):
            yield record('%s-%s' % (name, way), (True, n), 1024, 2, number, tail=size)
    # before any start: 11, whatever the buffers are
    for name, state in (('idle', IDLE), ('i1', (False, 1024)), ('itop', (False, TOP))):
        for way, file, came in (('whole', 1024, 2), ('f-less', 1023, 2), ('m-less', 1024, 1), ('none', 0, 0)):
            for what, number, size in (('0', 0, 512), ('1', 1, 512), ('none', 0, 0), ('top', TOP, 512)):
                yield record('%s-%s-%s' % (name, way, what), state, file, came, number, tail=size)
    # a picture without blocks
    for number in (0, 1, TOP):
        for size in (0, 1, 512):
            for way, file, came in (('none', 0, 0), ('some', 600, 2)):
                yield record('0-%s-%s-%d' % ('top' if number == TOP else number, way, size), (True, 0), file, came, number, tail=size)

# ---- traces ----

def begin(length):
    return b'\x01' + struct.pack('<Q', length)

def sent(number, data, size=None):
    """A block, with a size of its own or another in its place."""
    return b'\x02' + struct.pack('<QH', number, len(data) if size is None else size) + data

def cuts():
    # each message cut at each byte: a start and a block, first and later, accepted and refused
    small = begin(5) + sent(0, b'abcde') + begin(3) + sent(0, b'xyz')
    for n in range(len(small) + 1):
        yield record('small-%d' % n, IDLE, 9, 3, data=small[:n])
    going_on = sent(1, b'last') + begin(700)
    for n in range(len(going_on) + 1):
        yield record('going-on-%d' % n, (True, 516), 600, 4, data=going_on[:n])
    refused = sent(9, b'none') + begin(TOP) + sent(1, b'las') + sent(1, b'last')
    for n in range(len(refused) + 1):
        yield record('refused-%d' % n, (True, 516), 600, 4, data=refused[:n])
    nothing = sent(0, b'') + begin(0) + sent(0, b'') + begin(2)
    for n in range(len(nothing) + 1):
        yield record('nothing-%d' % n, IDLE, 1, 1, data=nothing[:n])
    # a whole block, whose bytes are there so far
    for n in (0, 1, 2, 9, 10, 11, 127, 128, 255, 256, 257, 509, 510, 511, 512, 513, 514):
        yield record('block-%d' % n, IDLE, 1030, 3, data=begin(1024) + sent(1, b'', 512), tail=n)
        yield record('twice-%d' % n, (True, 1024), 1030, 3, data=sent(1, counted(512, 8)) + sent(1, b'', 512), tail=n)
    # what is there of a cut block has the right size
    for name, length, number, there in (('only', 5, 0, 5), ('first', 700, 0, 512), ('last', 700, 1, 188), ('whole', 1024, 1, 512), ('none', 0, 0, 0)):
        for size in sorted({there + 1, 513, there + 256, 65535}):
            yield record('as-%s-%d' % (name, size), (True, length), 1024, 2, data=sent(number, b'', size), tail=there)
    # a cut block that would be refused: before any start, outside, over short buffers
    for name, state, file, number in (('idle', IDLE, 600, 0), ('out', (True, 600), 600, 2), ('top', (True, 600), 600, TOP), ('short', (True, 600), 599, 0),
                                      ('size', (True, 600), 600, 0)):
        for size in (1, 511, 600):
            yield record('cut-%s-%d' % (name, size), state, file, 2, data=begin(TOP) + sent(number, b'', size), tail=size - 1)
            yield record('all-%s-%d' % (name, size), state, file, 2, data=begin(TOP) + sent(number, b'', size), tail=size)
    # a start that is cut is not taken, and leaves the one before
    for n in (1, 8, 9):
        yield record('start-later-%d' % n, IDLE, 20, 3, data=begin(12) + sent(0, counted(12, 1)) + begin(20)[:n])

def foreign():
    # another first byte: alone, before what would be a message, and after messages
    for byte in (0, 3, 4, 5, 9, 16, 17, 18, 49, 50, 127, 128, 129, 130, 253, 254, 255):
        one = bytes([byte])
        yield record('alone-%d' % byte, (True, 3), 3, 1, data=one)
        yield record('start-%d' % byte, (True, 3), 9, 2, data=one + begin(5)[1:])
        yield record('block-%d' % byte, (True, 3), 3, 1, data=one + sent(0, b'abc')[1:])
        yield record('before-%d' % byte, (True, 3), 3, 1, data=one + sent(0, b'abc'))
        yield record('after-start-%d' % byte, IDLE, 3, 1, data=begin(2) + one + sent(0, b'ab'))
        yield record('after-block-%d' % byte, (True, 3), 3, 1, data=sent(0, b'abc') + one + sent(0, b'xyz'))
        yield record('after-ref-%d' % byte, (True, 3), 3, 1, data=sent(1, b'abc') + one + sent(0, b'xyz'))
    yield record('after-all', (True, 3), 3, 1, data=begin(3) + sent(0, b'abc') + b'\x00' + begin(0))

def sizes():
    # sizes up to the largest: passed over whole, as the answer at its end shows
    for size in (0, 1, 2, 255, 256, 257, 511, 512, 513, 767, 768, 1024, 32767, 32768, 65279, 65280, 65534, 65535):
        for way, tail in (('less', size - 1), ('just', size), ('more', size + 1)):
            if tail >= 0:
                yield record('%d-%s' % (size, way), (True, 1030), 1030, 3, data=sent(0, b'', size), tail=tail)
    yield record('65535-later', IDLE, 1030, 3, data=begin(1030) + sent(2, b'rested') + sent(7, b'', 65535), tail=65535)
    yield record('65535-idle', IDLE, 1030, 3, data=sent(0, b'', 65535), tail=65535)
    yield record('65535-short', (True, 1030), 1029, 3, data=sent(0, b'', 65535), tail=65535)
    # messages inside the bytes of a block are bytes, of one that is refused and of one that is taken
    inner = begin(0) + sent(0, b'abc') + b'\xff'
    for name, state, number in (('idle', IDLE, 0), ('out', (True, 3), 1), ('size', (True, 3), 0), ('taken', (True, len(inner)), 0)):
        yield record('inner-%s' % name, state, 40, 2, data=sent(number, inner) + sent(0, b'xyz'))
    yield record('inner-short', (True, 3), 2, 2, data=sent(0, inner) + begin(2) + sent(0, b'zz'))
    yield record('inner-start', (True, 1024), 1024, 2, data=sent(1, (begin(3) * 60)[:512]) + sent(0, (sent(0, b'abc') * 40)[:512]))
    # a size of 0 between others, wrong and never right
    yield record('zero-between', (True, 3), 3, 1, data=sent(0, b'') + sent(0, b'abc') + sent(0, b'') + sent(0, b'') + begin(3))
    yield record('zero-only', (True, 3), 3, 1, data=sent(0, b'') * 5)

# Both blocks of a picture of 522 bytes.
ONE, TEN = counted(512, 2), counted(10, 1)
PAIR = sent(0, ONE) + sent(1, TEN)

def orders():
    yield record('empty-idle', IDLE, 0, 0)
    yield record('empty-idle-lent', IDLE, 9, 2)
    yield record('empty-started', (True, 700), 900, 3)
    yield record('empty-short', (True, 700), 0, 0)
    yield record('blocks-idle', IDLE, 522, 2, data=PAIR)
    yield record('blocks-idle-522', (False, 522), 522, 2, data=PAIR)
    yield record('blocks-started', (True, 522), 522, 2, data=PAIR)
    yield record('blocks-backwards', (True, 522), 600, 4, data=sent(1, TEN) + sent(0, ONE))
    yield record('blocks-start', (True, 522), 600, 4, data=PAIR + begin(522))
    yield record('start-blocks', IDLE, 600, 4, data=begin(522) + PAIR)
    yield record('blocks-first', IDLE, 600, 4, data=PAIR + begin(522) + sent(1, TEN))
    # last blocks of 1, 511 and 512 bytes, of one block and of several, and the wrong one of each two
    for n in (1, 511, 512, 513, 1023, 1024, 1025):
        b = blocks_of(n)
        last = n - 512 * (b - 1)
        yield record('last-%d' % n, IDLE, n, b, data=begin(n) + sent(b - 1, counted(last, 4)))
        yield record('last-less-%d' % n, IDLE, n, b, data=begin(n) + sent(b - 1, counted(last - 1, 4)))
        yield record('last-more-%d' % n, IDLE, n + 1, b, data=begin(n) + sent(b - 1, counted(last + 1, 4)))
        yield record('last-zero-%d' % n, IDLE, n, b, data=begin(n) + sent(b - 1, b''))
        yield record('after-last-%d' % n, IDLE, n + 512, b + 1, data=begin(n) + sent(b, b'') + sent(b, counted(last, 4)), tail=0)
        yield record('late-whole-%d' % n, IDLE, n + 512, b + 1, data=begin(n) + sent(b, b'', 512), tail=512)
        yield record('all-%d' % n, IDLE, n + 9, b + 2,
                     data=begin(n) + b''.join(sent(i, counted(min(512, n - 512 * i), 20 + i)) for i in reversed(range(b))))
    # repeats: the bytes that came last
    yield record('repeat', (True, 522), 522, 2, data=sent(1, TEN) + sent(1, TEN))
    yield record('repeat-other', (True, 522), 522, 2, data=sent(1, TEN) + sent(1, b'0123456789'))
    yield record('repeat-first', (True, 522), 522, 2, data=sent(1, b'0123456789') + sent(0, ONE) + sent(1, TEN))
    yield record('repeat-both', (True, 522), 522, 2, data=PAIR + sent(0, counted(512, 9)) + sent(1, b'0123456789') + sent(0, counted(512, 10)))
    yield record('repeat-refused', (True, 522), 522, 2, data=sent(1, TEN) + sent(1, b'012345678') + sent(1, b'0123456789a'))
    # two starts: the second one shorter, longer, the same, empty or refused
    for name, file, came, second in (('shorter', 600, 3, 5), ('longer', 1100, 4, 1030), ('same', 600, 3, 522), ('empty', 600, 3, 0), ('one-less', 600, 3, 521),
                                     ('refused', 600, 3, 601), ('ref-map', 2000, 3, 1537), ('ref-top', 600, 3, TOP), ('64-512', 600, 3, TOP - 511)):
        yield record('second-%s' % name, IDLE, file, came, data=begin(522) + PAIR + begin(second))
        yield record('on-%s' % name, IDLE, file, came, data=begin(522) + sent(1, TEN) + begin(second) + sent(0, ONE) + sent(1, TEN) + sent(0, b'fives'))
        yield record('then-%s' % name, IDLE, file, came, data=begin(522) + begin(second) + sent(1, TEN))
    yield record('thrice', IDLE, 600, 3, data=begin(522) + sent(1, TEN) + begin(3) + sent(0, b'abc') + begin(522) + sent(0, ONE))
    yield record('refused-first', IDLE, 521, 2, data=begin(522) + PAIR)
    yield record('refused-map-1st', IDLE, 522, 1, data=begin(522) + PAIR)
    yield record('refused-fine', IDLE, 521, 2, data=begin(522) + PAIR + begin(4) + sent(0, b'four'))
def lendings():
    # a picture of no bytes
    for way, file, came in (('none', 0, 0), ('some', 600, 3)):
        for what, data in (('start', b''), ('size-0', sent(0, b'')), ('size-1', sent(0, b'a')), ('top', sent(TOP, b'')), ('whole', sent(0, ONE)),
                           ('on', sent(0, b'') + begin(0) + sent(1, b''))):
            yield record('0-%s-%s' % (way, what), IDLE, file, came, data=begin(0) + data)
    # a state for which the buffers are too short: refused until a start that they hold
    for way, file, came in (('file', 521, 2), ('map', 522, 1), ('both', 521, 1), ('none', 0, 0)):
        yield record('short-%s' % way, (True, 522), file, came, data=PAIR)
        yield record('short-%s-out' % way, (True, 522), file, came, data=sent(2, TEN) + sent(0, b''))
        yield record('short-%s-start' % way, (True, 522), file, came, data=PAIR + begin(10) + sent(0, TEN) + sent(1, TEN))
        yield record('short-%s-ref' % way, (True, 522), file, came, data=begin(523) + PAIR)
    yield record('beyond', (True, TOP), 600, 3, data=sent(0, ONE) + sent(2 ** 55 - 1, counted(511, 3)))
    # numbers and lengths near 2^64, and which of them a narrower number makes small
    for name, number in (('top', TOP), ('55', 2 ** 55), ('55+1', 2 ** 55 + 1), ('32+1', 2 ** 32 + 1), ('63+1', 2 ** 63 + 1), ('2', 2), ('256', 256),
                         ('big', 2 ** 56)):
        yield record('number-%s' % name, (True, 522), 600, 3, data=sent(number, TEN) + sent(number, ONE))
    for name, length in HUGE:
        yield record('length-%s' % name, (True, 522), 600, 3, data=begin(length) + sent(1, TEN))
    yield record('length-bytes', IDLE, 600, 3, data=begin(0x0102))
    yield record('length-bytes-2', IDLE, 600, 3, data=begin(0x0201) + sent(0x0100, TEN) + sent(0, ONE) + sent(1, b'?'))
    # the map before: a start clears all of it, a block only sets its own, and nothing else is said of it
    for name, came in (('ones', b'\x01' * 6), ('255', b'\xff' * 6), ('mixed', b'\x02\x00\x80\x01\x07\xfe'), ('long', any_map(80)), ('64', any_map(64)),
                       ('65', any_map(65))):
        yield record('map-%s-start' % name, IDLE, 600, came, data=begin(522))
        yield record('map-%s-none' % name, IDLE, 600, came, data=begin(0))
        yield record('map-%s-block' % name, (True, 522), 600, came, data=sent(1, TEN))
        yield record('map-%s-ref' % name, (True, 522), 600, came, data=begin(601) + sent(2, TEN) + sent(0, TEN))
        yield record('map-%s-both' % name, IDLE, 600, came, data=begin(522) + sent(1, TEN))

def drawn_message(draw, s, pictures):
    """A message to a receiver, mostly one that it takes; whole blocks are rarer than the last one, as they are long."""
    room, last = len(s.file), max(0, blocks_of(s.length) - 1)
    if draw.below(5) == 0:
        length = draw.of(pictures)
        return begin(draw.of((length, length, length, room, room + 1, max(0, room - 1), 0, TOP, 2 ** 32 + length)))
    number = draw.of((last, last, last, draw.below(last + 1), last + 1, draw.of((last + 2, TOP, 2 ** 55, 2 ** 32 + last))))
    own = min(512, max(0, s.length - 512 * number))
    return sent(number, draw.some(draw.of((own,) * 9 + (own + 1, max(0, own - 1), draw.of((0, 3, 512))))))

def random(name, seed, how_many):
    draw = Draw(seed)
    for i in range(how_many):
        room = draw.of((0, 1, 5, 40, 511, 512, 513, 530, 700, 1024, 1040, 1100, 1537))
        came = any_map(max(0, blocks_of(room) + draw.of((0, 0, 0, 1, 3, 70, -1))), draw.below(9))
        pictures = [draw.of((room, room - room % 512 + draw.below(room % 512 + 1), draw.below(min(40, room + 1)), draw.below(room + 1))) for _ in range(3)]
        state = draw.of((IDLE, IDLE, (True, pictures[0]), (True, pictures[0]), (True, room + 1), (False, room)))
        s, trace = Reception(*state, [FILL] * room, list(came)), b''
        if draw.below(3):
            trace += begin(pictures[1])
        for _ in range(draw.between(1, 9)):
            trace += drawn_message(draw, replayed(s, trace)[1], pictures) if draw.below(40) else bytes([draw.of((0, 3, 255))])
        yield record('%s-%03d' % (name, i), state, room, came, data=trace[:draw.below(len(trace))] if draw.below(4) == 0 else trace)

def promised(records):
    """Traces, each held to what the rules promise: 1 exactly for what was accepted since the last accepted start, and the bytes accepted last."""
    for r in records:
        s, since = lent(r), None
        for call, number, *data in listed(whole(r))[0]:
            answer, s = call(s, number, *data)
            if answer == 0 and call is start:
                since, bytes_then = {}, s.file
            elif answer == 0 and since is not None:
                since[number] = data[0]
        assert replayed(lent(r), whole(r))[1] == s, r.tag
        if since is not None:
            assert s.came == [int(i in since) for i in range(len(r.came))], r.tag
            assert s.file == [since[i // 512][i % 512] if i // 512 in since and i < s.length else bytes_then[i] for i in range(r.file)], r.tag
        yield r

# In the order in which the program runs them: a file's name, what its records are, and the records.
def files():
    return [('starts.bin', 'start', list(starts())), ('blocks.bin', 'block', list(blocks())), ('rooms.bin', 'block', list(rooms()))] + [
        (name, 'trace', list(promised(made))) for name, made in (
            ('cuts.bin', cuts()),
            ('foreign.bin', foreign()),
            ('sizes.bin', sizes()),
            ('orders.bin', orders()),
            ('lendings.bin', lendings()),
            ('random_a.bin', random('a', 1, 100)),
            ('random_b.bin', random('b', 2, 100)),
            ('random_c.bin', random('c', 3, 100)))]

def packed(r):
    return record_of(r.tag, (int(r.started), r.length, r.number, r.tail), (r.file,), r.data, r.came)

# Mistakes, each a change of one place of the model: what they are, the text and what stands there instead.
SHORT = 'len(s.file) < length or len(s.came) < len(places(length))'
CLEARED = '[0 for byte in s.came]'
PART_CLEARED = '[0 if i < len(places(length)) else byte for i, byte in enumerate(s.came)]'
ACCEPTED = "    return 0, Reception(True, length, s.file, [0 for byte in s.came])\n"
REFUSED_START = "    if too_short(s, length):\n        return 10, s\n"
REFUSED_SHORT = "    if s.started and too_short(s, s.length):\n        return 10, s\n"
BLOCK_SHORT = 'len(s.file) < min(s.length, 512 * number + len(data))'     # for the bytes of this block alone, and for its mark
MARK_SHORT = 'len(s.came) <= min(number, len(places(s.length)) - 1)'
REFUSED_NUMBER = "    if not s.started or number >= len(places(s.length)):\n        return 11, s\n"
REFUSED_SIZE = "    if len(data) != min(512, s.length - at):\n        return 12, s\n"
PLACED = '[data[i - at] if at <= i < at + len(data) else byte for i, byte in enumerate(s.file)]'
MARKED = '[1 if i == number else byte for i, byte in enumerate(s.came)]'
FOREIGN = "        if kind not in (1, 2):\n            return found, 2\n"
HEAD = "        if len(body) < {1: 8, 2: 10}[kind]:\n            return found, 1\n"
CUT = "        if len(after) < size:\n            return found, 1\n"
LISTED = "    messages, ending = listed(trace)\n    for"
APPLIED = "        answer, s = call(s, *words)\n"
ENDED = "    return ending, s\n"
WRONG = (
    # the blocks of a picture
    ('blocks are rounded down', 'range(0, length, 512)', 'range(0, length - length % 512, 512)'),
    ('a block more', 'range(0, length, 512)', 'range(0, length + 512, 512)'),
    ('a block more after a multiple', 'range(0, length, 512)', 'range(0, length + 1, 512)'),
    ('a block for no bytes', 'range(0, length, 512)', 'range(0, max(1, length), 512)'),
    ('blocks of 511', 'range(0, length, 512)', 'range(0, length, 511)'),
    ('blocks of 513', 'range(0, length, 512)', 'range(0, length, 513)'),
    ('blocks of 256', 'range(0, length, 512)', 'range(0, length, 256)'),
    ('blocks of 1024', 'range(0, length, 512)', 'range(0, length, 1024)'),
    # buffers that are too short
    ('a file buffer short by one is taken', SHORT, SHORT.replace('len(s.file)', 'len(s.file) + 1')),
    ('a file buffer short by the last block is taken', SHORT, SHORT.replace('< length', '< length - length % 512')),
    ('an exact file buffer is short', SHORT, SHORT.replace('len(s.file) <', 'length > 0 and len(s.file) <=')),
    ('the file buffer is to have whole blocks', SHORT, SHORT.replace('< length', '< 512 * len(places(length))')),
    ('the file buffer is to be exact', SHORT, SHORT.replace('len(s.file) <', 'len(s.file) !=')),
    ('the file buffer is not tested', SHORT, 'len(s.came) < len(places(length))'),
    ('a map short by one is taken', SHORT, SHORT.replace('len(s.came)', 'len(s.came) + 1')),
    ('an exact map is short', SHORT, SHORT.replace('len(s.came) <', 'length > 0 and len(s.came) <=')),
    ('the map is to be exact', SHORT, SHORT.replace('len(s.came) <', 'len(s.came) !=')),
    ('the map is not tested', SHORT, 'len(s.file) < length'),
    ('a map for whole blocks alone', SHORT, SHORT.replace('len(places(length))', 'length // 512')),
    ('a map with one byte more', SHORT, SHORT.replace('len(places(length))', 'length // 512 + 1')),
    ('a map with a byte for each byte', SHORT, SHORT.replace('len(places(length))', 'length')),
    ('a map with a bit for each block', SHORT, SHORT.replace('len(places(length))', '(len(places(length)) + 7) // 8')),
    ('both buffers are to be short', SHORT, SHORT.replace(' or ', ' and ')),
    ('a map is to be there', SHORT, SHORT + ' or not s.came'),
    ('a file buffer is to be there', SHORT, SHORT + ' or not s.file'),
    ('a length is 32 bits', SHORT, SHORT.replace('length', 'length % 2 ** 32')),
    ('a length is 63 bits', SHORT, SHORT.replace('length', 'length % 2 ** 63')),
    ('a length is 16 bits', SHORT, SHORT.replace('length', 'length % 2 ** 16')),
    ('a length is signed', SHORT, SHORT.replace('length', '(length - length // 2 ** 63 * 2 ** 64)')),
    ('a length is rounded up and wraps', SHORT, 'len(s.file) < min(length, 512 * %s) or len(s.came) < %s' % (('((length + 511) % 2 ** 64 // 512)',) * 2)),
    # a start
    ('a start over short buffers is taken', REFUSED_START, ''),
    ('a start over short buffers is 6', REFUSED_START, REFUSED_START.replace('10', '6')),
    ('a start over short buffers is 11', REFUSED_START, REFUSED_START.replace('10', '11')),
    ('a start over short buffers is 12', REFUSED_START, REFUSED_START.replace('10', '12')),
    ('a start over short buffers is fine', REFUSED_START, REFUSED_START.replace('10', '0')),
    ('a start over a short map is 9', REFUSED_START, REFUSED_START.replace('10', '10 if len(s.file) < length else 9')),
    ('a start of no bytes is refused', REFUSED_START, REFUSED_START.replace('if ', 'if length == 0 or ')),
    ('a start of no bytes does nothing', REFUSED_START, '    if length == 0:\n        return 0, s\n' + REFUSED_START),
    ('a start of no bytes leaves no picture', ACCEPTED, ACCEPTED.replace('True', 'length > 0')),
    ('a start of no bytes leaves the map', ACCEPTED, ACCEPTED.replace(CLEARED, CLEARED + ' if length else s.came')),
    ('a start of no bytes wants a map', REFUSED_START, REFUSED_START.replace('if ', 'if len(s.came) == 0 or ')),
    ('a refused start ends the picture', REFUSED_START, REFUSED_START.replace('10, s', '10, s._replace(started=False)')),
    ('a refused start ends and empties the picture', REFUSED_START, REFUSED_START.replace('10, s', '10, s._replace(started=False, length=0)')),
    ('a refused start sets the length', REFUSED_START, REFUSED_START.replace('10, s', '10, s._replace(length=length)')),
    ('a refused start begins a picture', REFUSED_START, REFUSED_START.replace('10, s', '10, s._replace(started=True, length=length)')),
    ('a refused start counts as a start', REFUSED_START, REFUSED_START.replace('10, s', '10, s._replace(started=True)')),
    ('a refused start clears the map', REFUSED_START, REFUSED_START.replace('10, s', '10, s._replace(came=%s)' % CLEARED)),
    ('a refused start clears the file buffer', REFUSED_START, REFUSED_START.replace('10, s', '10, s._replace(file=[0] * len(s.file))')),
    ('a second start is refused', REFUSED_START, REFUSED_START + '    if s.started:\n        return 10, s\n'),
    ('a second start is passed over', REFUSED_START, REFUSED_START + '    if s.started:\n        return 0, s\n'),
    ('a start of the same length is passed over', REFUSED_START, REFUSED_START + '    if s.started and length == s.length:\n        return 0, s\n'),
    ('a start does not begin', ACCEPTED, ACCEPTED.replace('True', 's.started')),
    ('a start leaves the length', ACCEPTED, ACCEPTED.replace('True, length', 'True, s.length')),
    ('a start never shortens', ACCEPTED, ACCEPTED.replace('True, length', 'True, max(s.length, length)')),
    ('a start never lengthens', ACCEPTED, ACCEPTED.replace('True, length', 'True, min(s.length, length) if s.started else length')),
    ('a start rounds the length up', ACCEPTED, ACCEPTED.replace('True, length', 'True, 512 * len(places(length))')),
    ('a start takes the length of the file buffer', ACCEPTED, ACCEPTED.replace('True, length', 'True, len(s.file)')),
    ('a start leaves the map', ACCEPTED, ACCEPTED.replace(CLEARED, 's.came')),
    ("a start clears the picture's part of the map", ACCEPTED, ACCEPTED.replace(CLEARED, PART_CLEARED)),
    ("a start clears one byte past the picture's part", ACCEPTED, ACCEPTED.replace(CLEARED, PART_CLEARED.replace('i <', 'i <='))),
    ('a start leaves the last byte of the map', ACCEPTED, ACCEPTED.replace(CLEARED, '[0] * (len(s.came) - 1) + s.came[-1:]')),
    ('a start leaves the first byte of the map', ACCEPTED, ACCEPTED.replace(CLEARED, 's.came[:1] + [0] * (len(s.came) - 1)')),
    ('a start clears 64 bytes of the map', ACCEPTED, ACCEPTED.replace(CLEARED, '[0] * min(64, len(s.came)) + s.came[64:]')),
    ('a start clears only ones', ACCEPTED, ACCEPTED.replace(CLEARED, '[0 if byte == 1 else byte for byte in s.came]')),
    ('a start sets the map', ACCEPTED, ACCEPTED.replace(CLEARED, '[1 for byte in s.came]')),
    ('only the first start clears the map', ACCEPTED, ACCEPTED.replace(CLEARED, 's.came if s.started else ' + CLEARED)),
    ('only a longer start clears the map', ACCEPTED, ACCEPTED.replace(CLEARED, 's.came if s.started and length <= s.length else ' + CLEARED)),
    ('a start clears the file buffer', ACCEPTED, ACCEPTED.replace('s.file', '[0] * len(s.file)')),
    ("a start clears the picture's bytes", ACCEPTED, ACCEPTED.replace('s.file', '[0] * length + s.file[length:]')),
    ('a start clears the bytes past the picture', ACCEPTED, ACCEPTED.replace('s.file', 's.file[:length] + [0] * (len(s.file) - length)')),
    # a block over short buffers
    ('a block over short buffers is taken', REFUSED_SHORT, ''),
    ('a block over short buffers is 6', REFUSED_SHORT, REFUSED_SHORT.replace('10', '6')),
    ('a block over short buffers is 11', REFUSED_SHORT, REFUSED_SHORT.replace('10', '11')),
    ('a block over short buffers is 12', REFUSED_SHORT, REFUSED_SHORT.replace('10', '12')),
    ('the file buffer is tested at a start alone', REFUSED_SHORT, REFUSED_SHORT.replace('too_short(s, s.length)', 'len(s.came) < len(places(s.length))')),
    ('the map is tested at a start alone', REFUSED_SHORT, REFUSED_SHORT.replace('too_short(s, s.length)', 'len(s.file) < s.length')),
    ('the buffers need hold this block alone', REFUSED_SHORT, REFUSED_SHORT.replace('too_short(s, s.length)', '(%s or %s)' % (BLOCK_SHORT, MARK_SHORT))),
    ('the file buffer needs hold this block alone', REFUSED_SHORT,
     REFUSED_SHORT.replace('too_short(s, s.length)', '(%s or len(s.came) < len(places(s.length)))' % BLOCK_SHORT)),
    ('the map needs hold this block alone', REFUSED_SHORT, REFUSED_SHORT.replace('too_short(s, s.length)', '(len(s.file) < s.length or %s)' % MARK_SHORT)),
    ('the number before short buffers', REFUSED_SHORT + REFUSED_NUMBER, REFUSED_NUMBER + REFUSED_SHORT),
    ('the size before short buffers', REFUSED_SHORT,
     '    if s.started and number < len(places(s.length)) and len(data) != min(512, s.length - 512 * number):\n        return 12, s\n' + REFUSED_SHORT),
    ('short buffers before any start', REFUSED_SHORT, REFUSED_SHORT.replace('s.started and ', '')),
    ('no buffers before any start are 10', REFUSED_SHORT, REFUSED_SHORT.replace('s.started and', 'not s.file or')),
    ('short buffers end the picture', REFUSED_SHORT, REFUSED_SHORT.replace('10, s', '10, s._replace(started=False)')),
    ('short buffers shorten the picture', REFUSED_SHORT, REFUSED_SHORT.replace('10, s', '10, s._replace(length=len(s.file))')),
    # the number of a block
    ('a block before any start is taken', REFUSED_NUMBER, REFUSED_NUMBER.replace('not s.started or ', '')),
    ('a block before any start is 10', REFUSED_NUMBER, REFUSED_NUMBER.replace('return 11', 'return 11 if s.started else 10')),
    ('a block before any start is 12', REFUSED_NUMBER, REFUSED_NUMBER.replace('return 11', 'return 11 if s.started else 12')),
    ('a block before any start is 2', REFUSED_NUMBER, REFUSED_NUMBER.replace('return 11', 'return 11 if s.started else 2')),
    ('a block before any start is fine', REFUSED_NUMBER, REFUSED_NUMBER.replace('return 11', 'return 11 if s.started else 0')),
    ('a block before any start begins', REFUSED_NUMBER, REFUSED_NUMBER.replace('11, s', '11, s._replace(started=True)')),
    ('a number outside is 10', REFUSED_NUMBER, REFUSED_NUMBER.replace('return 11', 'return 10 if s.started else 11')),
    ('a number outside is 12', REFUSED_NUMBER, REFUSED_NUMBER.replace('return 11', 'return 12 if s.started else 11')),
    ('a number outside is 1', REFUSED_NUMBER, REFUSED_NUMBER.replace('return 11', 'return 1 if s.started else 11')),
    ('a number outside is fine', REFUSED_NUMBER, REFUSED_NUMBER.replace('return 11', 'return 0 if s.started else 11')),
    ('a number outside marks the map', REFUSED_NUMBER, REFUSED_NUMBER.replace('11, s', '11, s._replace(came=%s)' % MARKED)),
    ('a number outside ends the picture', REFUSED_NUMBER, REFUSED_NUMBER.replace('11, s', '11, s._replace(started=False)')),
    ('the last number is outside', REFUSED_NUMBER, REFUSED_NUMBER.replace('number >=', 'number + 1 >=')),
    ('one after the last is the last', REFUSED_NUMBER + '    at =', REFUSED_NUMBER.replace('number >=', 'number >') +
     '    number = min(number, len(places(s.length)) - 1)\n    if number < 0:\n        return 11, s\n    at ='),
    ('numbers from 1', REFUSED_NUMBER, '    number = number - 1 if number else TOP\n' + REFUSED_NUMBER),
    ('a number is 32 bits', REFUSED_NUMBER, '    number %= 2 ** 32\n' + REFUSED_NUMBER),
    ('a number is 16 bits', REFUSED_NUMBER, '    number %= 2 ** 16\n' + REFUSED_NUMBER),
    ('a number is 8 bits', REFUSED_NUMBER, '    number %= 2 ** 8\n' + REFUSED_NUMBER),
    ('a number is 63 bits', REFUSED_NUMBER, '    number %= 2 ** 63\n' + REFUSED_NUMBER),
    ('the place of a number wraps', REFUSED_NUMBER, '    number = number * 512 % 2 ** 64 // 512\n' + REFUSED_NUMBER),
    ('the place of a number is 32 bits', REFUSED_NUMBER, '    number = number * 512 % 2 ** 32 // 512\n' + REFUSED_NUMBER),
    ('numbers go round', REFUSED_NUMBER, '    number %= max(1, len(places(s.length)))\n' + REFUSED_NUMBER),
    ('a number up to the map', REFUSED_NUMBER + '    at = places(s.length)[number]\n',
     REFUSED_NUMBER.replace('len(places(s.length))', 'len(s.came)') + '    at = 512 * number\n'),
    ('a size that no block has before the number', REFUSED_NUMBER,
     '    if s.started and number >= len(places(s.length)) and len(data) != 512:\n        return 12, s\n' + REFUSED_NUMBER),
    ('no bytes before the number', REFUSED_NUMBER, '    if s.started and len(data) == 0:\n        return 12, s\n' + REFUSED_NUMBER),
    ('no bytes before any start', REFUSED_NUMBER, '    if len(data) == 0:\n        return 12, s\n' + REFUSED_NUMBER),
    # the size of a block
    ('a wrong size is 10', REFUSED_SIZE, REFUSED_SIZE.replace('12', '10')),
    ('a wrong size is 11', REFUSED_SIZE, REFUSED_SIZE.replace('return 12', 'return 11')),
    ('a wrong size is 1', REFUSED_SIZE, REFUSED_SIZE.replace('return 12', 'return 1')),
    ('a wrong size is 2', REFUSED_SIZE, REFUSED_SIZE.replace('return 12', 'return 2')),
    ('a wrong size is fine', REFUSED_SIZE, REFUSED_SIZE.replace('return 12', 'return 0')),
    ('a wrong size marks the map', REFUSED_SIZE, REFUSED_SIZE.replace('12, s', '12, s._replace(came=%s)' % MARKED)),
    ('a wrong size takes the mark away', REFUSED_SIZE, REFUSED_SIZE.replace('12, s', '12, s._replace(came=%s)' % MARKED.replace('1 if', '0 if'))),
    ('a wrong size leaves its bytes', REFUSED_SIZE, REFUSED_SIZE.replace('12, s', '12, s._replace(file=%s)' % PLACED)),
    ('every size is taken', REFUSED_SIZE, ''),
    ('shorter sizes are taken', REFUSED_SIZE, REFUSED_SIZE.replace('!=', '>')),
    ('longer sizes are taken', REFUSED_SIZE, REFUSED_SIZE.replace('!=', '<')),
    ('longer sizes are cut', REFUSED_SIZE, '    data = data[:min(512, s.length - at)]\n' + REFUSED_SIZE),
    ('a size of 0 is taken', REFUSED_SIZE, REFUSED_SIZE.replace('if ', 'if data and ')),
    ('the last block may be whole', REFUSED_SIZE, REFUSED_SIZE.replace('if ', 'if len(data) != 512 and ')),
    ('the last block is to be whole', REFUSED_SIZE, REFUSED_SIZE.replace('min(512, s.length - at)', '512')),
    ('the last block may be shorter', REFUSED_SIZE, REFUSED_SIZE.replace('if ', 'if len(data) > s.length - at or at + 512 <= s.length and ')),
    ('the last block is the remainder', REFUSED_SIZE, REFUSED_SIZE.replace('min(512, s.length - at)', '(512 if at + 512 < s.length else s.length % 512)')),
    ('the last block is one less', REFUSED_SIZE, REFUSED_SIZE.replace('min(512, s.length - at)', 'min(512, s.length - at - 1)')),
    ('the last block is one more', REFUSED_SIZE, REFUSED_SIZE.replace('min(512, s.length - at)', 'min(512, s.length - at + 1)')),
    ('the first block is the rest', REFUSED_SIZE, REFUSED_SIZE.replace('min(512, s.length - at)', '((s.length - 1) % 512 + 1 if at == 0 else 512)')),
    ('all that is left is taken', REFUSED_SIZE, REFUSED_SIZE.replace('if ', 'if len(data) != s.length - at and ')),
    ('a size is 16 bits', REFUSED_SIZE, REFUSED_SIZE.replace('len(data)', 'len(data) % 65536')),
    ('a size is 8 bits', REFUSED_SIZE, REFUSED_SIZE.replace('len(data) !=', 'len(data) % 256 !=').replace('s.length - at)', 's.length - at) % 256')),
    # what a block leaves
    ('no bytes are written', PLACED, 's.file'),
    ('the bytes are written at the start', PLACED, PLACED.replace('i - at', 'i').replace('at <= i < at + ', 'i < ')),
    ('the bytes are written one later', PLACED, PLACED.replace('at <= i < at', 'at < i <= at').replace('[i - at]', '[i - at - 1]')),
    ('the bytes are written one earlier', PLACED, PLACED.replace('at <= i <', 'at <= i + 1 <').replace('[i - at]', '[i - at + 1]')),
    ('the bytes are written at 511 apart', PLACED, PLACED.replace('i - at', 'i - at + number').replace('at <= i <', 'at <= i + number <')),
    ('the last byte is not written', PLACED, PLACED.replace('at + len(data)', 'at + len(data) - 1')),
    ('the first byte is not written', PLACED, PLACED.replace('at <= i', 'at < i')),
    ('the bytes are written backwards', PLACED, PLACED.replace('data[i - at]', 'data[at - i - 1]')),
    ('one byte for all', PLACED, PLACED.replace('data[i - at]', 'data[0]')),
    ('the bytes are added', PLACED, PLACED.replace('data[i - at]', '(data[i - at] | byte)')),
    ('the bytes are written only over what no start left', PLACED, PLACED.replace('if at <= i', 'if byte == FILL and at <= i')),
    ('a block is filled up with zeros', PLACED, PLACED.replace('else byte', 'else 0 if at <= i < at + 512 else byte')),
    ('a zero after the bytes', PLACED, PLACED.replace('else byte', 'else 0 if i == at + len(data) else byte')),
    ('the bytes behind a block are cleared', PLACED, PLACED.replace('else byte', 'else byte if i < at else 0')),
    ('the bytes before a block are cleared', PLACED, PLACED.replace('else byte', 'else byte if i >= at else 0')),
    ('the map is not marked', MARKED, 's.came'),
    ('the map is marked with 255', MARKED, MARKED.replace('[1 if', '[255 if')),
    ('the map counts', MARKED, MARKED.replace('[1 if', '[(byte + 1) % 256 if')),
    ('the map is turned', MARKED, MARKED.replace('[1 if', '[1 - min(byte, 1) if')),
    ('the map gets a bit', MARKED, MARKED.replace('[1 if', '[byte | 1 if')),
    ('only a zero is marked', MARKED, MARKED.replace('[1 if i == number', '[1 if i == number and byte == 0')),
    ('the block after is marked', MARKED, MARKED.replace('i == number', 'i == number + 1')),
    ('the block before is marked', MARKED, MARKED.replace('i == number', 'i == max(0, number - 1)')),
    ('all blocks up to it are marked', MARKED, MARKED.replace('i == number', 'i <= number')),
    ('all blocks from it are marked', MARKED, MARKED.replace('i == number', 'i >= number')),
    ('the last block marks the rest', MARKED, MARKED.replace('i == number', 'i == number or i > number == len(places(s.length)) - 1')),
    ('the first byte is marked', MARKED, MARKED.replace('i == number', 'i == 0')),
    ('the map from its end', MARKED, MARKED.replace('i == number', 'i == len(s.came) - 1 - number')),
    ('other marks are made 1', MARKED, MARKED.replace('else byte', 'else min(byte, 1)')),
    ('other marks than 1 are cleared', MARKED, MARKED.replace('else byte', 'else int(byte == 1)')),
    ('the map past the picture is cleared', MARKED, MARKED.replace('else byte', 'else byte if i < len(places(s.length)) else 0')),
    ('the other blocks are cleared', MARKED, MARKED.replace('else byte', 'else 0')),
    ('a block that came stays', REFUSED_SIZE, REFUSED_SIZE + '    if s.came[number] == 1:\n        return 0, s\n'),
    ('a block that came is refused', REFUSED_SIZE, REFUSED_SIZE + '    if s.came[number] == 1:\n        return 11, s\n'),
    ('only an unmarked block is written', REFUSED_SIZE, REFUSED_SIZE + '    if s.came[number]:\n        return 0, s\n'),
    ('a whole picture ends', 's._replace(file=file, came=came)', 's._replace(file=file, came=came, started=0 in came[:len(places(s.length))])'),
    ('a block shortens the picture', 's._replace(file=file, came=came)', 's._replace(file=file, came=came, length=s.length - len(data))'),
    ('a last block ends the picture', 's._replace(file=file, came=came)', 's._replace(file=file, came=came, started=number + 1 < len(places(s.length)))'),
    # the numbers in a trace
    ('numbers are big-endian', 'enumerate(part)', 'enumerate(part[::-1])'),
    ('lengths and numbers are big-endian', 'first = number_of(body[:8])', 'first = number_of(body[7::-1])'),
    ('sizes are big-endian', 'number_of(body[8:10])', 'number_of(body[9:7:-1])'),
    ('lengths and numbers have four bytes', 'first = number_of(body[:8])', 'first = number_of(body[:4])'),
    ('lengths and numbers have seven bytes', 'first = number_of(body[:8])', 'first = number_of(body[:7])'),
    ('lengths have seven bytes', 'found.append((start, first))', 'found.append((start, first % 2 ** 56))'),
    ('numbers have seven bytes', 'found.append((block, first,', 'found.append((block, first % 2 ** 56,'),
    ('the top bit of a number is lost', 'first = number_of(body[:8])', 'first = number_of(body[:8]) % 2 ** 63'),
    ('sizes have one byte', 'number_of(body[8:10]), body[10:]', 'number_of(body[8:9]), body[10:]'),
    ('sizes are signed', 'number_of(body[8:10]), body[10:]', 'number_of(body[8:10]) % 32768, body[10:]'),
    ('the size before the number', 'first = number_of(body[:8])', 'first = number_of(body[:8] if kind == 1 else body[2:10])'),
    ('numbers are counted from one byte later', 'first = number_of(body[:8])', 'first = number_of(body[1:9])'),
    # the first byte of a message
    ('0 is a start', FOREIGN, '        kind = kind or 1\n' + FOREIGN),
    ('3 is a block', FOREIGN, '        kind = 2 if kind == 3 else kind\n' + FOREIGN),
    ('all but 1 is a block', FOREIGN, '        kind = min(kind, 2) or 2\n' + FOREIGN),
    ('255 is a block', FOREIGN, '        kind = 2 if kind == 255 else kind\n' + FOREIGN),
    ('the first byte without its top bit', FOREIGN, '        kind %= 128\n' + FOREIGN),
    ('the low half of the first byte', FOREIGN, '        kind %= 16\n' + FOREIGN),
    ('digits as first bytes', FOREIGN, '        kind = kind - 48 if kind in (49, 50) else kind\n' + FOREIGN),
    ('start and block swapped', FOREIGN, '        kind = {1: 2, 2: 1}.get(kind, kind)\n' + FOREIGN),
    ('another first byte is 1', FOREIGN, FOREIGN.replace('found, 2', 'found, 1')),
    ('another first byte is 0', FOREIGN, FOREIGN.replace('found, 2', 'found, 0')),
    ('another first byte is 3', FOREIGN, FOREIGN.replace('found, 2', 'found, 3')),
    ('another first byte is passed over', FOREIGN, FOREIGN.replace('return found, 2', 'rest = body\n            continue')),
    ('zeros are passed over', FOREIGN, '        if kind == 0:\n            rest = body\n            continue\n' + FOREIGN),
    ('another first byte undoes what was before', FOREIGN, FOREIGN.replace('found, 2', '[], 2')),
    ('another first byte undoes the message before', FOREIGN, FOREIGN.replace('found, 2', 'found[:-1], 2')),
    ('another first byte is cut where it is the last', FOREIGN, '        if not body:\n            return found, 1\n' + FOREIGN),
    ('another first byte is cut where no block would fit', FOREIGN, '        if len(body) < 10 and kind != 1:\n            return found, 1\n' + FOREIGN),
    # a message that is cut
    ('a cut message is 2', HEAD, HEAD.replace('found, 1', 'found, 2')),
    ('a cut message is 0', HEAD, HEAD.replace('found, 1', 'found, 0')),
    ('a cut message undoes what was before', HEAD, HEAD.replace('found, 1', '[], 1')),
    ('a message cut after its first byte is 0', HEAD, '        if not body:\n            return found, 0\n' + HEAD),
    ('a start may lack a byte', HEAD, HEAD.replace('1: 8', '1: 7')),
    ('a start may lack its length', HEAD, HEAD.replace('1: 8', '1: 0')),
    ('a start wants a byte more', HEAD, HEAD.replace('1: 8', '1: 9')),
    ('a start wants as much as a block', HEAD, HEAD.replace('1: 8', '1: 10')),
    ('a block may lack a byte of its size', HEAD, HEAD.replace('2: 10', '2: 9')),
    ('a block may lack its size', HEAD, HEAD.replace('2: 10', '2: 8')),
    ('a block may lack all', HEAD, HEAD.replace('2: 10', '2: 0')),
    ('a block wants a byte', HEAD, HEAD.replace('2: 10', '2: 11')),
    ('a block cut in its bytes is 2', CUT, CUT.replace('found, 1', 'found, 2')),
    ('a block cut in its bytes is 0', CUT, CUT.replace('found, 1', 'found, 0')),
    ('a block cut in its bytes undoes what was before', CUT, CUT.replace('found, 1', '[], 1')),
    ('a block cut in its bytes undoes the message before', CUT, CUT.replace('found, 1', 'found[:-1], 1')),
    ('a block cut in its bytes is taken', CUT, ''),
    ('what is there of a cut block is taken', CUT, CUT.replace('return found,', 'return found + [(block, first, after)],')),
    ('a block may lack its last byte', CUT, CUT.replace('len(after) <', 'len(after) + 1 <')),
    ('a block that the trace ends with is cut', CUT, CUT.replace('<', '<=')),
    ('an empty block that the trace ends with is cut', CUT, CUT.replace('len(after) < size', 'len(after) < max(1, size)')),
    ('a block cut after 512 bytes is whole', CUT, CUT.replace('len(after) < size', 'len(after) < min(512, size)')),
    # how far a message goes
    ('a start has a byte more', 'rest = body[8:]', 'rest = body[9:]'),
    ('a start has a byte less', 'rest = body[8:]', 'rest = body[7:]'),
    ('a start has as many bytes as a block', 'rest = body[8:]', 'rest = body[10:]'),
    ('a start ends the trace', 'rest = body[8:]', 'rest = []'),
    ('a block has a byte more', 'rest = after[size:]', 'rest = after[size + 1:]'),
    ('a block has a byte less', 'rest = after[size:]', 'rest = after[max(0, size - 1):]'),
    ('a block ends the trace', 'rest = after[size:]', 'rest = []'),
    ('a block has 512 bytes', 'rest = after[size:]', 'rest = after[512:]'),
    ('a block has at most 512 bytes', 'rest = after[size:]', 'rest = after[min(512, size):]'),
    ('the bytes of a block begin one later', 'after[:size]', 'after[1:size + 1]'),
    ('the bytes of a block are one fewer', 'after[:size]', 'after[:max(0, size - 1)]'),
    ('a block gets all that is left', 'after[:size]', 'after'),
    ('at most 512 bytes of a block', 'after[:size]', 'after[:min(512, size)]'),
    ('an empty block is no message', 'found.append((block', 'size and found.append((block'),
    # message after message
    ('an empty trace is 1', ENDED, '    return (ending if trace else 1), s\n'),
    ('an empty trace is 2', ENDED, '    return (ending if trace else 2), s\n'),
    ('a trace without messages is 1', ENDED, '    return (ending or int(not messages)), s\n'),
    ('a replay begins before any start', LISTED, '    s = s._replace(started=False, length=0)\n' + LISTED),
    ('a replay begins with a map of zeros', LISTED, '    s = s._replace(came=[0] * len(s.came))\n' + LISTED),
    ('a replay begins with a buffer of zeros', LISTED, '    s = s._replace(file=[0] * len(s.file))\n' + LISTED),
    ('a trace begins with a start', '    for call, *words', '    if messages and messages[0][0] is not start:\n        return 2, s\n    for call, *words'),
    ('blocks before the first start are left out', '    for call, *words',
     '    while any(m[0] is start for m in messages) and messages[0][0] is not start:\n        messages = messages[1:]\n    for call, *words'),
    ('messages backwards', 'in messages:\n', 'in messages[::-1]:\n'),
    ('the first message is left out', 'in messages:\n', 'in messages[1:]:\n'),
    ('the last message is left out', 'in messages:\n', 'in messages[:-1]:\n'),
    ('starts before blocks', 'in messages:\n', 'in sorted(messages, key=lambda m: m[0] is block):\n'),
    ('the first start alone', 'in messages:\n',
     'in [m for i, m in enumerate(messages) if m[0] is block or all(n[0] is block for n in messages[:i])]:\n'),
    ('the first of equal numbers', 'in messages:\n', 'in [m for i, m in enumerate(messages) if m[:2] not in [n[:2] for n in messages[:i]]]:\n'),
    ('a refused message is the result', APPLIED + ENDED, APPLIED + '        ending = answer or ending\n' + ENDED),
    ('the last answer is the result', APPLIED + ENDED, APPLIED + '    if messages:\n        ending = ending or answer\n' + ENDED),
    ('a refused message stops the replay', APPLIED, APPLIED + '        if answer:\n            return answer, s\n'),
    ('a refused message stops the replay quietly', APPLIED, APPLIED + '        if answer:\n            return ending, s\n'),
    ('10 stops the replay', APPLIED, APPLIED + '        if answer == 10:\n            return 10, s\n'),
    ('11 stops the replay', APPLIED, APPLIED + '        if answer == 11:\n            return 11, s\n'),
    ('12 stops the replay', APPLIED, APPLIED + '        if answer == 12:\n            return 12, s\n'),
    ('a refused start stops the replay', APPLIED, APPLIED + '        if answer and call is start:\n            return ending, s\n'),
    ('a refused block stops the replay', APPLIED, APPLIED + '        if answer and call is block:\n            return ending, s\n'),
    ('a replay that ends badly changes nothing', LISTED, LISTED.replace('    for', '    if ending:\n        return ending, s\n    for')),
)
