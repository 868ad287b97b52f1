"""Vectors for packets, planes and predictors, and what docs/SPECIFICATION.md says of each.

The model is written from its rules (4.3 to 4.8, groups 6, 9 and 10) on whole lists and unbounded numbers. It
follows no code of this repository: packets are listed before they are judged, a boundary of the stride is
looked for at each place inside a packet, and a predicted sample is the sum of all samples since its sum
began, so that an error of the code's running sums and counters can't be repeated here.
"""
import collections
import struct
import zlib

from common import FILL, TOP, Draw, record_of
from front import COLOUR, MONO, head_of

# numbers are the call's own, in the order of its parameters; out and scratch the lengths of what is lent.
Record = collections.namedtuple('Record', 'tag numbers data out scratch')

# ---- model ----

# Packets (rules 4.3 to 4.8): a control below 128 is followed by as many bytes, any other by the one byte that it repeats.
def listed(part):
    """A range's packets: control, how long it is expanded, how many bytes it wants and those that are there."""
    found, rest = [], list(part)
    while rest:
        control, rest = rest[0], rest[1:]
        long, wanted = (control, control) if control < 128 else (control - 126, 1)
        found.append((control, long, wanted, rest[:wanted]))
        rest = rest[wanted:]
    return found

def packets(data, start, count, stride, needed):
    if stride == 0:
        return 2
    if start > len(data) or count > len(data) - start:
        return 1
    sent = 0
    for control, long, wanted, payload in listed(data[start:start + count]):
        if len(payload) < wanted:
            return 1
        if sent + long > needed:
            return 2
        # A boundary is where a multiple of the stride is left to the end: none lies inside a packet.
        if any((needed - place) % stride == 0 for place in range(sent + 1, sent + long)):
            return 2
        sent += long
    return 1 if sent < needed else 0

def expanded(part):
    whole = []
    for control, long, wanted, payload in listed(part):
        whole += payload if control < 128 else payload * long
    return whole

def decoded(data, start, count, stride, needed, out):
    answer = packets(data, start, count, stride, needed)
    if answer:
        return answer, out
    if len(out) < needed:
        return 6, out
    whole = expanded(data[start:start + count])
    return 0, whole + out[len(whole):]

# Pixels (rule 6.3): the two colour bytes stand for the middles of 256 equal steps.
def uv(x):
    return (2 * x + 1) * 8192 // 205

# Pixels (rule 6.2): L and, for the colour head, u and v, each a 16-bit number.
def pixel(high, low, *colour):
    return [byte for n in (high * 256 + low, *map(uv, colour)) for byte in struct.pack('<H', n)]

# Pixels (rules 6.1, 6.2 and 6.8): the planes of a row become pixels.
def pixels(head, planes, w, rows, out):
    p, b = head.planes, head.bytes
    if b * w * rows > TOP:
        return 4, out
    if len(planes) < p * w * rows:
        return 1, out
    if len(out) < b * w * rows:
        return 6, out
    whole = []
    for y in range(rows if w > 0 else 0):
        row = planes[p * w * y:p * w * (y + 1)]
        for x in range(w):
            whole += pixel(*row[x::w])
    return 0, whole + out[len(whole):]

# Predictor 64 (rules 9.1 to 9.3): a predicted sample is the whole sum of its channel since the last reset.
def predictor64(raw, w, h, ch, reset, flags, out):
    little, predict = flags % 2 == 1, flags // 2 % 2 == 1
    if not 1 <= ch <= 4:
        return 3, out
    if w == 0 or h == 0 or reset == 0:
        return 2, out
    size = 8 * w * h * ch
    if size > TOP:
        return 4, out
    if len(raw) < size:
        return 1, out
    if len(out) < size:
        return 6, out
    def value(y, x, c):
        at = 8 * ((y * w + x) * ch + c)
        return int.from_bytes(bytes(raw[at:at + 8]), 'little' if little else 'big')
    whole = []
    for y in range(h):
        for x in range(w):
            began = x - x % reset if predict else x
            for c in range(ch):
                whole += list((sum(value(y, k, c) for k in range(began, x + 1)) % 2 ** 64).to_bytes(8, 'little'))
    return 0, whole + out[len(whole):]

# Predictor 3 (rules 9.4 and 9.5): sums along a row first, and from those the samples, one plane for each byte of a sample.
def predictor3(raw, row, ch, size, little, scratch, out):
    if size not in (2, 3, 4, 8) or not 1 <= ch <= 64 or row == 0:
        return 3, scratch, out
    if row % (ch * size) or len(raw) % row:
        return 2, scratch, out
    if len(out) < len(raw) or len(scratch) < len(raw):
        return 6, scratch, out
    sums, whole = [], []
    for y in range(len(raw) // row):
        line = raw[row * y:row * (y + 1)]
        line = [sum(line[i % ch:i + 1:ch]) % 256 for i in range(row)]
        planes = [line[k * (row // size):(k + 1) * (row // size)] for k in range(size)]
        for sample in zip(*planes):
            whole += sample[::-1] if little == 1 else sample
        sums += line
    return 0, sums + scratch[len(sums):], whole + out[len(whole):]

# What the program writes of a buffer, and of a record.
def shown(buffer):
    if not buffer:
        return ' -'
    if len(buffer) > 64:
        return ' #%08x %s' % (zlib.adler32(bytes(buffer)), bytes(buffer[:16]).hex())
    return ' ' + bytes(buffer).hex()

def line(kind, r):
    data, out, scratch = list(r.data), [FILL] * r.out, [FILL] * r.scratch
    if kind == 'packets':
        answer, after = decoded(data, *r.numbers, out)
        said = ' %d %d%s' % (packets(data, *r.numbers), answer, shown(after))
    elif kind == 'planes':
        w, rows, which = r.numbers
        answer, after = pixels(head_of(which), data, w, rows, out)
        said = ' %d%s' % (answer, shown(after))
    elif kind == 'uv':
        said = ''.join(' %d' % uv(x) for x in data)
    elif kind == 'predictor64':
        answer, after = predictor64(data, *r.numbers, out)
        said = ' %d%s' % (answer, shown(after))
    else:
        answer, sums, after = predictor3(data, *r.numbers, scratch, out)
        said = ' %d%s%s' % (answer, shown(after), shown(sums))
    return '%-16s%s' % (r.tag, said)

# ---- end of the model ----

# ---- vectors ----

def counted(n, seed):
    """n bytes that differ from their neighbours, so that a shifted copy shows."""
    return bytes((seed * 7 + i * 13 + 1) % 256 for i in range(n))

def literal(payload):
    assert len(payload) < 128
    return bytes([len(payload)]) + bytes(payload)

def run(n, byte):
    assert 2 <= n <= 129
    return bytes([n + 126, byte])

def length(control):
    return control if control < 128 else control - 126

def by_control(control):
    return bytes([control]) + (counted(control, control) if control < 128 else bytes([255 - control]))

# Each control alone in its range, accepted: the stride is its length, more, or the largest.
def packets_accepted():
    for n in range(256):
        need = length(n)
        before, after = counted(n % 3, 1), counted(n % 2, 2)
        packet = by_control(n)
        stride = (max(need, 1), need + 1, 16384, TOP)[n % 4]
        yield Record('accept-%03d' % n, (len(before), len(packet), stride, need), before + packet + after, need + n % 3, 0)

# Each control refused: for a payload that is short, for being longer than what is left or than what is left to a boundary,
# or, which is all that can happen to control 0, for leaving something.
def packets_refused():
    for n in range(256):
        need, packet = length(n), by_control(n)
        ways = ['short', 'long', 'cross', 'left']
        if n == 0:
            ways = ['left']
        elif need == 1:
            ways = ['short', 'long', 'left']
        elif n not in (2, 3, 63, 64, 65, 126, 127, 128, 129, 130, 191, 192, 254, 255):
            ways = [ways[n % 3]]
        for way in ways:
            if way == 'short':
                yield Record('short-%03d' % n, (0, len(packet) - 1, 16384, need), packet, need, 0)
            elif way == 'long':
                yield Record('long-%03d' % n, (0, len(packet), 16384, need - 1), packet, need, 0)
            elif way == 'cross':
                # two strides of one less than the packet, and a packet that would make up the length
                more = literal(counted(need - 2, 5)) if need > 2 else b''
                yield Record('cross-%03d' % n, (0, len(packet + more), need - 1, 2 * (need - 1)), packet + more, 2 * need, 0)
            else:
                yield Record('left-%03d' % n, (0, len(packet), 16384, need + 1), packet, need + 1, 0)

CASE1, CASE14, CASE15 = map(bytes.fromhex, ('8007800180028003', '80078001', '80008000'))

def packets_edges():
    def plain(tag, data, stride, needed, out=None, start=0, count=None):
        count = len(data) - start if count is None else count
        out = needed if out is None else out
        return Record(tag, (start, count, stride, needed), bytes(data), min(out, 64), 0)

    # marked cases 1 to 7
    yield plain('mark1', CASE1, 2, 8)
    yield plain('mark2', CASE1 + b'\x00', 2, 8)
    yield plain('mark3', b'\x83' + CASE1[1:], 2, 8)
    yield plain('mark4-two-less', CASE1[:-2], 2, 8)
    yield plain('mark4-one-less', CASE1[:-1], 2, 8)
    yield plain('mark5', CASE1 + b'\x01\x09', 2, 8, 9)
    yield plain('mark6-needed-0', b'', 2, 0)
    yield plain('mark6-needed-1', b'', 2, 1)
    yield Record('mark7-127', (0, 128, 127, 127), literal(counted(127, 0)), 127, 0)
    yield plain('mark7-128', run(2, 9), 2, 2)
    yield Record('mark7-255', (0, 2, 129, 129), run(129, 9), 129, 0)

    # payload past the range: the first, a middle and the last packet, literal and run
    abc = literal(b'abc')
    yield plain('past-lit-first', literal(b'wxyz')[:-1], 12, 12)
    yield plain('past-lit-middle', abc + literal(b'wxyz')[:-1], 12, 12)
    yield plain('past-lit-last', abc + abc + literal(b'wxyz')[:-1], 12, 10)
    yield plain('past-lit-all', abc + b'\x04', 12, 7)
    yield plain('past-lit-1', abc + b'\x01', 12, 4)
    yield plain('past-run-first', run(4, 7)[:-1], 12, 12)
    yield plain('past-run-middle', abc + run(4, 7)[:-1], 12, 12)
    yield plain('past-run-last', abc + abc + run(4, 7)[:-1], 12, 10)
    # the bytes are there, but after the range
    yield plain('past-lit-in-file', abc + b'\x04wxyz', 12, 7, count=8)
    yield plain('past-run-in-file', abc + run(4, 7), 12, 7, count=5)
    yield plain('past-lit-in-fil0', abc + b'\x04wxyz', 12, 7, count=5)
    # 1 comes before 2 in a packet, and an earlier packet's 2 before a later one's 1
    yield plain('past-and-long', abc + b'\x04wxy', 12, 6)
    yield plain('past-and-long-r', abc + b'\x82', 12, 6)
    yield plain('past-and-full', abc + b'\x01', 12, 3)
    yield plain('past-and-full-r', abc + b'\x80', 12, 3)
    yield plain('past-and-cross', abc + b'\x04wxy', 5, 10)
    yield plain('past-and-cross-r', abc + b'\x82', 5, 10)
    yield plain('long-then-past', literal(b'abcd') + b'\x04wxy', 12, 3)
    yield plain('cross-then-past', literal(b'abcd') + b'\x04wxy', 3, 6)

    # longer than what is left: the first packet and a later one, by one and by much, and where nothing is left
    yield plain('long-lit-first', literal(b'abcd'), 12, 3)
    yield plain('long-lit-much', literal(counted(127, 3)), 12, 1)
    yield plain('long-run-first', run(4, 7), 12, 3)
    yield plain('long-run-much', run(129, 7), 12, 1)
    yield plain('long-lit-later', abc + literal(b'abcd'), 12, 6)
    yield plain('long-run-later', abc + run(4, 7), 12, 6)
    yield plain('long-lit-full', abc + literal(b'a'), 12, 3, 4)
    yield plain('long-run-full', abc + run(2, 7), 12, 3, 5)
    yield plain('long-needed-0', literal(b'a'), 12, 0, 1)
    yield plain('long-needed-0-r', run(2, 7), 12, 0, 2)
    yield plain('long-all-after-0', b'\x00' + abc + b'\x00' + literal(b'a'), 12, 3, 4)

    # past a boundary of the stride: the first packet and a later one; and just up to it
    yield plain('cross-lit-first', literal(b'abcd') + abc + literal(b'ef'), 3, 9)
    yield plain('cross-run-first', run(4, 7) + abc + literal(b'ef'), 3, 9)
    yield plain('cross-lit-later', abc + literal(b'abcd') + literal(b'ef'), 3, 9)
    yield plain('cross-run-later', abc + run(4, 7) + literal(b'ef'), 3, 9)
    yield plain('cross-mid-row', literal(b'a') + literal(b'bcd') + literal(b'ef'), 3, 6)
    yield plain('cross-mid-row-r', literal(b'a') + run(3, 7) + literal(b'ef'), 3, 6)
    yield plain('cross-last-row', abc + literal(b'ab') + literal(b'cd') + literal(b'ef'), 3, 9)
    yield plain('cross-two', literal(b'abcdefg') + literal(b'hi'), 3, 9)
    yield plain('cross-all', run(9, 5), 3, 9)
    yield plain('meet-each', abc + run(3, 7) + abc, 3, 9)
    yield plain('meet-in-parts', literal(b'a') + run(2, 7) + literal(b'bc') + literal(b'd') + abc, 3, 9)

    # what is left over a whole number of strides: counted from the end
    yield plain('end-1-2-2', literal(b'a') + literal(b'bc') + run(2, 7), 2, 5)
    yield plain('end-2-2-1', literal(b'ab') + run(2, 7) + literal(b'c'), 2, 5)
    yield plain('end-1-3-3', literal(b'a') + abc + run(3, 7), 3, 7)
    yield plain('end-3-3-1', abc + run(3, 7) + literal(b'a'), 3, 7)
    yield plain('end-2-3', literal(b'ab') + abc, 3, 5)
    yield plain('end-3-2', abc + literal(b'ab'), 3, 5)
    yield plain('end-1-1-3', literal(b'a') + literal(b'b') + abc, 3, 5)
    # the stride counted from the packet's start would take these
    yield plain('own-start-1-2-1', literal(b'a') + literal(b'bc') + literal(b'd'), 2, 4)
    yield plain('own-start-2-3-1', literal(b'ab') + run(3, 7) + literal(b'd'), 3, 6)
    yield plain('own-start-late', abc + literal(b'ab') + run(3, 7) + literal(b'c'), 3, 9)

    # the range used up with something left
    yield plain('left-empty', b'', 4, 4)
    yield plain('left-one', abc, 4, 4)
    yield plain('left-row', abc + abc, 3, 9)
    yield plain('left-zeros', b'\x00\x00', 4, 1)
    yield plain('left-after-0', abc + b'\x00', 4, 4)

    # control 0 at the start, in the middle, at a boundary, at the end, and nothing else
    yield plain('zero-start', b'\x00' + abc, 3, 3)
    yield plain('zero-middle', literal(b'a') + b'\x00' + run(2, 7), 3, 3)
    yield plain('zero-boundary', abc + b'\x00' + abc, 3, 6)
    yield plain('zero-end', abc + b'\x00', 3, 3)
    yield plain('zero-many', b'\x00\x00' + literal(b'a') + b'\x00\x00\x00' + run(2, 7) + b'\x00\x00', 3, 3)
    yield plain('zero-alone', b'\x00', 3, 0)
    yield plain('zero-alone-many', b'\x00' * 20, 1, 0)
    yield plain('zero-as-payload', literal(b'\x00\x00') + run(2, 0), 4, 4)

    # empty ranges, ranges at the end of the file, and those outside it
    yield plain('range-empty', abc, 3, 0, start=0, count=0)
    yield plain('range-empty-1', abc, 3, 1, start=0, count=0)
    yield plain('range-empty-mid', abc, 3, 0, start=2, count=0)
    yield plain('range-at-end', abc, 3, 0, start=4, count=0)
    yield plain('range-at-end-1', abc, 3, 1, start=4, count=0)
    yield plain('range-at-end-c1', abc, 3, 0, start=4, count=1)
    yield plain('range-beyond', abc, 3, 0, start=5, count=0)
    yield plain('range-of-nothing', b'', 3, 0, start=0, count=0)
    yield plain('range-beyond-0', b'', 3, 0, start=1, count=0)
    yield plain('range-count-1', b'', 3, 0, start=0, count=1)
    yield plain('range-last', b'\x81\x82' + abc, 3, 3, start=2)
    yield plain('range-last-byte', abc + b'\x00', 3, 0, start=4)
    yield plain('range-inside', b'\x81\x82' + abc + b'\x83\x84', 3, 3, start=2, count=4)
    yield plain('range-one-more', b'\x81\x82' + abc, 3, 3, start=2, count=5)
    yield plain('range-count-long', abc, 3, 3, start=0, count=5)
    yield plain('range-count-top', abc, 3, 3, start=0, count=TOP)
    yield plain('range-count-63', abc, 3, 3, start=0, count=2 ** 63)
    yield plain('range-start-top', abc, 3, 0, start=TOP, count=0)
    yield plain('range-start-63', abc, 3, 0, start=2 ** 63, count=0)
    yield plain('range-start-32', abc, 3, 3, start=2 ** 32, count=4)
    # sums that come out small where they wrap
    yield plain('wrap-to-0', abc, 3, 0, start=TOP, count=1)
    yield plain('wrap-to-4', abc, 3, 3, start=TOP, count=5)
    yield plain('wrap-to-2', abc, 3, 0, start=TOP - 1, count=4)
    yield plain('wrap-by-count', abc, 3, 0, start=1, count=TOP)
    yield plain('wrap-by-count-2', abc, 3, 0, start=2, count=TOP)
    yield plain('wrap-both', abc, 3, 0, start=2 ** 63, count=2 ** 63)
    yield plain('wrap-both-top', abc, 3, 0, start=TOP, count=TOP)

    # strides
    yield plain('stride-0', abc, 0, 3)
    yield plain('stride-0-beyond', abc, 0, 3, start=9, count=0)
    yield plain('stride-0-empty', b'', 0, 0)
    yield plain('stride-0-bad', b'\x04', 0, 3)
    yield plain('stride-1', literal(b'a') + literal(b'b') + literal(b'c'), 1, 3)
    yield plain('stride-1-two', literal(b'a') + literal(b'bc'), 1, 3)
    yield plain('stride-1-run', literal(b'a') + run(2, 7), 1, 3)
    yield plain('stride-1-zero', b'\x00' + literal(b'a') + b'\x00', 1, 1)
    yield plain('stride-16384', abc + run(2, 7), 16384, 5)
    yield Record('stride-16384-all', (0, 258, 16384, 16384), run(128, 7) * 128 + b'\x00\x00', 64, 0)
    yield Record('stride-16384-two', (0, 512, 16384, 32768), run(128, 7) * 256, 64, 0)
    yield Record('stride-16384-x', (0, 512, 16384, 32768), run(127, 7) + run(128, 7) * 255, 64, 0)
    yield Record('stride-16383', (0, 258, 16383, 16384), run(128, 7) * 128 + b'\x00\x00', 64, 0)
    yield plain('stride-top', abc + run(2, 7), TOP, 5)
    yield plain('stride-63', abc + run(2, 7), 2 ** 63, 5)
    yield plain('stride-is-need', run(5, 7), 5, 5)
    yield plain('stride-less-1', run(5, 7), 4, 5)
    yield plain('stride-more-1', run(5, 7), 6, 5)

    # needed near the largest number
    yield plain('need-top', abc + run(2, 7), TOP, TOP, 8)
    yield plain('need-top-s1', literal(b'a') + literal(b'b'), 1, TOP, 8)
    yield plain('need-top-s1-run', run(2, 7), 1, TOP, 8)
    yield plain('need-top-s2', literal(b'a') + run(2, 7), 2, TOP, 8)
    yield plain('need-top-s2-x', run(2, 7), 2, TOP, 8)
    yield plain('need-top-s16384', run(129, 7), 16384, TOP, 8)
    yield plain('need-top-short', abc + b'\x04', TOP, TOP, 8)
    yield plain('need-top-zeros', b'\x00\x00', 7, TOP, 8)
    yield plain('need-top-empty', b'', 7, TOP, 8)
    yield plain('need-top-less-1', abc, TOP, TOP - 1, 8)
    yield plain('need-63', run(4, 7), 4, 2 ** 63, 8)
    yield plain('need-63-x', run(5, 7), 4, 2 ** 63, 8)
    yield plain('need-32', run(2, 7), 4, 2 ** 32 + 2, 8)
    yield plain('need-32-x', run(3, 7), 4, 2 ** 32 + 2, 8)
    yield plain('need-wraps', abc, 3, 2 ** 64 - 3, 8)

    # the buffer: exact, one short, empty, longer; and a refusal of the packets comes first
    for out in (0, 1, 7, 8, 9, 20):
        yield plain('out-%d-of-8' % out, CASE1, 2, 8, out)
    yield plain('out-0-of-0', b'\x00', 2, 0, 0)
    yield plain('out-5-of-0', b'\x00', 2, 0, 5)
    yield plain('out-short-and-1', CASE1[:-1], 2, 8, 7)
    yield plain('out-short-and-2', b'\x83' + CASE1[1:], 2, 8, 7)
    yield plain('out-short-left', CASE1[:-2], 2, 8, 6)
    yield plain('out-short-stride', CASE1, 0, 8, 7)
    yield plain('out-short-range', CASE1, 2, 8, 7, start=0, count=9)
    yield Record('out-whole', (0, 32, 2048, 2048), run(128, 3) * 16, 2048, 0)
    yield Record('out-whole-less-1', (0, 32, 2048, 2048), run(128, 3) * 16, 2047, 0)

    # every way to cut five bytes into packets, against every stride up to six
    for cuts in range(16):
        lengths, n = [], 1
        for bit in range(4):
            if cuts >> bit & 1:
                lengths.append(n)
                n = 0
            n += 1
        lengths.append(n)
        made = b''.join(run(n, 65 + i) if n > 1 and i % 2 else literal(counted(n, i)) for i, n in enumerate(lengths))
        for stride in range(1, 7):
            yield plain('cut-%s-s%d' % (''.join(map(str, lengths)), stride), made, stride, 5)

    # marked cases 14 and 15, and where the bytes of the other head are needed
    yield plain('mark14', CASE14, 2, 4)
    yield plain('mark15', CASE15, 2, 4)
    yield plain('mark14-of-8', CASE14, 2, 8)
    yield plain('mark1-of-4', CASE1, 2, 4)

# Sequences that are right by the way they are made: packets that fill what is needed and stop at each boundary.
def good(draw, needed, stride, lengths=(1, 1, 2, 3, 4, 9, 40, 127, 128, 129)):
    made, left = b'', needed
    while left:
        room = left % stride or stride
        n = min(room, draw.of(lengths))
        if n > 127 or n > 1 and draw.below(2):
            made += run(n, draw.below(256))
        else:
            made += literal(draw.some(n))
        if draw.below(9) == 0:
            made += b'\x00'
        left -= n
    return made

def damaged(draw, data, start, count, stride, needed):
    kind, at = draw.below(9), draw.below(max(1, len(data)))
    if kind == 0 and data:
        data = data[:at] + bytes([draw.below(256)]) + data[at + 1:]
    elif kind == 1 and data:
        data = data[:at] + data[at + 1:]
    elif kind == 2:
        data = data[:at] + bytes([draw.of((0, 1, 2, 128, 129, 255))]) + data[at:]
    elif kind == 3:
        needed += 1
    elif kind == 4:
        needed = max(0, needed - 1)
    elif kind == 5:
        stride = max(1, stride - 1)
    elif kind == 6:
        count = max(0, count - 1)
    elif kind == 7:
        start += 1
    else:
        stride += 1
    return data, start, count, stride, needed

def packets_random():
    draw = Draw(1)
    for i in range(110):
        stride = draw.of((1, 2, 3, 5, 8, 16, 50, 150))
        needed = min(stride, 8) * draw.below(6) + (draw.below(stride + 1) if draw.below(3) == 0 else 0)
        packet = good(draw, needed, stride)
        before, after = draw.some(draw.below(4)), draw.some(draw.below(3))
        whole = (before + packet + after, len(before), len(packet), stride, needed)
        for mark in ('', 'a', 'b'):
            data, start, count, s, n = whole if mark == '' else damaged(draw, *whole)
            name = 'good-%03d' % i if mark == '' else 'bad-%03d%s' % (i, mark)
            yield Record(name, (start, count, s, n), data, n + draw.below(3) - (draw.below(8) == 0 and n > 0), 0)
    # short words over the controls that matter
    for i in range(120):
        data = bytes(draw.of((0, 1, 1, 2, 3, 128, 128, 129)) for _ in range(draw.below(8)))
        yield Record('tiny-%03d' % i, (0, len(data), draw.between(1, 4), draw.below(9)), data, 8, 0)

def planes():
    draw = Draw(2)
    def plain(tag, data, w, rows, out, which=0):
        return Record(tag, (w, rows, which), bytes(data), out, 0)

    yield plain('mark1', bytes.fromhex('0707010102020303'), 2, 1, 12)
    yield plain('mark8', bytes([1, 2, 3, 4, 5, 6, 0, 1, 255, 255, 1, 0]), 3, 1, 18)
    yield plain('w0-rows0', b'', 0, 0, 0)
    yield plain('w0-rows0-out', b'abcd', 0, 0, 6)
    yield plain('w0-rows3', b'', 0, 3, 4)
    yield plain('w5-rows0', b'', 5, 0, 4)
    yield plain('w-top-rows0', b'', TOP, 0, 4)
    yield plain('w0-rows-1000', b'', 0, 1000, 4)
    yield plain('w0-rows-top', b'', 0, TOP, 4)
    yield plain('w1-rows1', [0x12, 0x34, 0x56, 0x78], 1, 1, 6)
    yield plain('w1-rows4', draw.some(16), 1, 4, 24)
    yield plain('w2-rows3', draw.some(24), 2, 3, 36)
    yield plain('w3-rows2', draw.some(24), 3, 2, 36)
    yield plain('w5-rows2', counted(40, 1), 5, 2, 60)
    yield plain('w10-rows1', draw.some(40), 10, 1, 60)
    yield plain('w7-rows11', draw.some(308), 7, 11, 462)
    yield plain('w341-rows1', draw.some(1364), 341, 1, 2046)
    yield plain('w1-rows341', draw.some(1364), 1, 341, 2048)

    # lengths: exact, one short, longer, of each and of both
    for more in (-1, 0, 1, 5):
        for room in (-1, 0, 1, 5):
            yield plain('in%+d-out%+d' % (more, room), counted(24 + more, 9), 2, 3, 36 + room)
    yield plain('in-none', b'', 2, 3, 36)
    yield plain('out-none', counted(24, 3), 2, 3, 0)
    yield plain('none', b'', 2, 3, 0)

    # sizes whose pixels are just below and above 2^64-1 bytes, and products that come out small where they wrap
    sixth = TOP // 6
    for tag, w, rows in (
            ('w-top', TOP, 1), ('rows-top', 1, TOP), ('both-top', TOP, TOP), ('w-sixth', sixth, 1), ('w-sixth+1', sixth + 1, 1),
            ('rows-sixth', 1, sixth), ('rows-sixth+1', 1, sixth + 1), ('w-half-sixth', sixth // 2, 2),
            ('w-half-sixth+1', sixth // 2 + 1, 2), ('w32-rows32', 2 ** 32, 2 ** 32), ('w31-rows31', 2 ** 31, 2 ** 31),
            ('w31-rows30', 2 ** 31, 2 ** 30), ('w63-rows1', 2 ** 63, 1), ('w63-rows2', 2 ** 63, 2), ('w2-rows63', 2, 2 ** 63),
            ('w62-rows1', 2 ** 62, 1), ('w61-rows1', 2 ** 61, 1), ('w62-rows4', 2 ** 62, 4), ('wraps-to-2', sixth + 1, 1),
            ('wraps-in-all', 2 ** 63 + 1, 2)):
        yield plain(tag, counted(48, 5), w, rows, 48)

    # every u and every v
    for k in range(32):
        u = bytes(range(8 * k, 8 * k + 8))
        v = bytes(255 - x for x in u)
        yield plain('uv-%03d' % (8 * k), counted(8, k) + counted(8, k + 1) + u + v, 8, 1, 48)

    # widths about 4, 64 and 128, as rows are made in blocks, four pixels at a time
    for w in (*range(1, 10), *range(60, 73), *range(124, 134)):
        yield plain('w%d' % w, draw.some(8 * w), w, 2, 12 * w)

def mono_planes():
    draw = Draw(6)
    def plain(tag, data, w, rows, out, which=1):
        return Record('m-' + tag, (w, rows, which), bytes(data), out, 0)

    yield plain('mark14', bytes.fromhex('07070101'), 2, 1, 4)
    yield plain('mark15', bytes(4), 2, 1, 4)
    yield plain('w0-rows0', b'', 0, 0, 0)
    yield plain('w0-rows0-out', b'abcd', 0, 0, 6)
    yield plain('w0-rows3', b'', 0, 3, 4)
    yield plain('w5-rows0', b'', 5, 0, 4)
    yield plain('w-top-rows0', b'', TOP, 0, 4)
    yield plain('w0-rows-top', b'', 0, TOP, 4)
    yield plain('w1-rows1', [0x12, 0x34], 1, 1, 2)
    yield plain('w1-rows1-long', [0x12, 0x34, 0x56, 0x78], 1, 1, 6)
    yield plain('w1-rows4', draw.some(8), 1, 4, 8)
    yield plain('w2-rows3', draw.some(12), 2, 3, 12)
    yield plain('w3-rows2', draw.some(12), 3, 2, 12)
    yield plain('w5-rows2', counted(20, 1), 5, 2, 20)
    yield plain('w7-rows11', draw.some(154), 7, 11, 154)
    yield plain('w341-rows1', draw.some(682), 341, 1, 682)
    yield plain('w1-rows341', draw.some(682), 1, 341, 684)

    # lengths: exact, one short, longer, of each and of both; and those of colour
    for more in (-1, 0, 1, 12):
        for room in (-1, 0, 1, 24):
            yield plain('in%+d-out%+d' % (more, room), counted(12 + more, 9), 2, 3, 12 + room)
    yield plain('in-none', b'', 2, 3, 12)
    yield plain('out-none', counted(12, 3), 2, 3, 0)
    yield plain('none', b'', 2, 3, 0)

    # sizes whose pixels are just below and above 2^64-1 bytes, and products that come out small where they wrap
    half, sixth = TOP // 2, TOP // 6
    for tag, w, rows in (
            ('w-top', TOP, 1), ('rows-top', 1, TOP), ('both-top', TOP, TOP), ('w-half', half, 1), ('w-half+1', half + 1, 1),
            ('w-half+2', half + 2, 1), ('rows-half', 1, half), ('rows-half+1', 1, half + 1), ('w-quarter', half // 2, 2), ('w-quarter+1', half // 2 + 1, 2),
            ('w32-rows32', 2 ** 32, 2 ** 32), ('w32-rows31', 2 ** 32, 2 ** 31), ('w31-rows31', 2 ** 31, 2 ** 31), ('w63-rows2', 2 ** 63, 2),
            ('w2-rows63', 2, 2 ** 63), ('w62-rows1', 2 ** 62, 1), ('w62-rows2', 2 ** 62, 2), ('w-sixth', sixth, 1), ('w-sixth+1', sixth + 1, 1),
            ('wraps-in-all', 2 ** 62 + 1, 4)):
        yield plain(tag, counted(48, 5), w, rows, 48)

    # every high and every low byte of L
    for k in range(16):
        high = bytes(range(16 * k, 16 * k + 16))
        yield plain('L-%03d' % (16 * k), high + bytes(255 - x for x in high), 16, 1, 32)
        yield plain('L-%03d-rows' % (16 * k), bytes(byte for x in high for byte in (x, x ^ 0x5A)), 1, 16, 32)

    # what else the third number can be is colour
    for which in (2, 3, 256, 2 ** 32 + 1, TOP):
        yield plain('of-%d' % (which % 1000), counted(8, which % 7), 2, 1, 12, which)

def every_uv():
    for k in range(16):
        yield Record('uv-%03d' % (16 * k), (), bytes(range(16 * k, 16 * k + 16)), 0, 0)
    yield Record('mark8', (), bytes([0, 1, 255]), 0, 0)

LITTLE, PREDICT = 1, 2

def words(values, flags):
    return b''.join((x % 2 ** 64).to_bytes(8, 'little' if flags & LITTLE else 'big') for x in values)

def predictor64_records():
    draw = Draw(3)
    def plain(tag, data, w, h, ch, reset, flags, out):
        return Record(tag, (w, h, ch, reset, flags), bytes(data), out, 0)

    yield plain('mark11', words([TOP, 2], 1), 2, 1, 1, 2, LITTLE | PREDICT, 16)
    yield plain('mark11-big', words([TOP, 2], 0), 2, 1, 1, 2, PREDICT, 16)
    yield plain('mark11-alone', words([TOP, 2], 1), 2, 1, 1, 1, LITTLE | PREDICT, 16)
    yield plain('mark11-plain', words([TOP, 2], 1), 2, 1, 1, 2, LITTLE, 16)

    # sums that wrap, by one and many times, and carries from byte to byte
    for flags in range(4):
        yield plain('wrap-%d' % flags, words([TOP] * 6, flags), 6, 1, 1, 6, flags, 48)
        yield plain('halves-%d' % flags, words([2 ** 63, 2 ** 63, 2 ** 63, 1], flags), 4, 1, 1, 4, flags, 32)
        yield plain('carry-%d' % flags, words([0x00FF00FF00FF00FF, 0x0001000100010001, 255, 1], flags), 4, 1, 1, 9, flags, 32)
        yield plain('order-%d' % flags, bytes(range(1, 17)), 2, 1, 1, 2, flags, 17)

    # channels
    for ch in (0, 1, 2, 3, 4, 5, 6, 255, 256, 2 ** 32 + 1, TOP):
        name = {2 ** 32 + 1: 'ch-32+1', TOP: 'ch-top'}.get(ch, 'ch-%d' % ch)
        yield plain(name, counted(64, 5), 2, 1, ch, 2, LITTLE | PREDICT, 64)

    # a size of 0, alone and before or after other refusals
    for tag, w, h, ch, reset, flags in (
            ('w0', 0, 1, 1, 1, 3), ('h0', 1, 0, 1, 1, 3), ('reset0', 1, 1, 1, 0, 3), ('reset0-plain', 1, 1, 1, 0, 1),
            ('all0', 0, 0, 0, 0, 0), ('w0-ch0', 0, 1, 0, 1, 3), ('w0-ch5', 0, 1, 5, 1, 3), ('w0-h-top', 0, TOP, 4, 1, 3),
            ('h0-w-top', TOP, 0, 4, 1, 3), ('reset0-over', TOP, TOP, 4, 0, 3), ('ch5-over', TOP, TOP, 5, 1, 3),
            ('ch5-reset0', 1, 1, 5, 0, 3)):
        yield plain(tag, counted(8, 1), w, h, ch, reset, flags, 8)
    yield plain('reset0-short', b'', 1, 1, 1, 0, 3, 0)
    yield plain('w0-empty', b'', 0, 1, 1, 1, 3, 0)

    # 8*w*h*ch just below and above 2^64-1, and products that come out small where they wrap
    for tag, w, h, ch in (
            ('w61', 2 ** 61, 1, 1), ('w61-1', 2 ** 61 - 1, 1, 1), ('w61+1', 2 ** 61 + 1, 1, 1), ('w32-h32', 2 ** 32, 2 ** 32, 1),
            ('w60-ch2', 2 ** 60, 1, 2), ('w60-1-ch2', 2 ** 60 - 1, 1, 2), ('w59-ch4', 2 ** 59, 1, 4), ('w59-ch3', 2 ** 59, 1, 3),
            ('w59-1-ch4', 2 ** 59 - 1, 1, 4), ('h61', 1, 2 ** 61, 1), ('h61-1', 1, 2 ** 61 - 1, 1), ('h59-ch4', 1, 2 ** 59, 4),
            ('w30-h31', 2 ** 30, 2 ** 31, 1), ('w30-h30', 2 ** 30, 2 ** 30, 1), ('w-top', TOP, 1, 1), ('h-top', 1, TOP, 1),
            ('both-top', TOP, TOP, 4), ('w62-h4', 2 ** 62, 4, 1), ('w63-h2', 2 ** 63, 2, 1), ('w2-h63', 2, 2 ** 63, 1),
            ('w32+1-h32', 2 ** 32 + 1, 2 ** 32, 1), ('third', TOP // 24, 1, 3), ('third+1', TOP // 24 + 1, 1, 3)):
        yield plain(tag, counted(64, 2), w, h, ch, 1, LITTLE, 64)

    # lengths: exact, one short, longer, of each and of both
    for more in (-1, 0, 1, 9):
        for room in (-1, 0, 1, 9):
            yield plain('in%+d-out%+d' % (more, room), counted(48 + more, 6), 3, 2, 1, 2, PREDICT, 48 + room)
    yield plain('in-none', b'', 3, 2, 1, 2, 0, 48)
    yield plain('out-none', counted(48, 6), 3, 2, 1, 2, 0, 0)
    yield plain('ch4-in-1', counted(63, 6), 2, 1, 4, 2, 3, 64)
    yield plain('ch4-out-1', counted(64, 6), 2, 1, 4, 2, 3, 63)

    # reset widths: every column, dividing, not dividing, the width, one more, the largest; over two rows
    for reset in (1, 2, 3, 4, 5, 6, 7, 2 ** 32, TOP):
        for flags in (PREDICT, LITTLE | PREDICT, LITTLE):
            name = {2 ** 32: '32', TOP: 'top'}.get(reset, str(reset))
            yield plain('reset-%s-%d' % (name, flags), words(range(1, 13), flags), 6, 2, 1, reset, flags, 96)

    # channels, rows and resets together
    for i in range(24):
        w, h, ch, flags = draw.between(1, 5), draw.between(1, 3), i % 4 + 1, i // 4 % 4
        reset = draw.between(1, w + 1)
        size = 8 * w * h * ch
        yield plain('mix-%02d' % i, draw.some(size + draw.below(3)), w, h, ch, reset, flags, size + draw.below(3))
    for flags in range(4):
        yield plain('one-%d' % flags, draw.some(32), 1, 1, 4, 1, flags, 32)
        yield plain('small-%d' % flags, draw.some(64), 2, 2, 2, 2, flags, 64)
    yield plain('whole', draw.some(2048), 64, 2, 2, 5, LITTLE | PREDICT, 2048)

def predictor3_records():
    draw = Draw(4)
    def plain(tag, data, row, ch, size, little, out=None, scratch=None):
        out = len(data) if out is None else out
        scratch = len(data) if scratch is None else scratch
        return Record(tag, (row, ch, size, little), bytes(data), out, scratch)

    for little in (1, 0):
        yield plain('mark12-%d' % little, b'\x01\x01\x01\x01', 4, 1, 2, little)

    # sample sizes, with a row that each divides
    for size in (0, 1, 2, 3, 4, 5, 6, 7, 8, 9, 12, 16, 2 ** 32 + 2, TOP):
        name = {2 ** 32 + 2: '32+2', TOP: 'top'}.get(size, str(size))
        yield plain('size-' + name, counted(48, 3), 48, 1, size, 1)

    # channels, with a row that each divides
    for ch in (0, 1, 2, 3, 31, 32, 63, 64, 65, 128, 2 ** 32 + 1, TOP):
        name = {2 ** 32 + 1: '32+1', TOP: 'top'}.get(ch, str(ch))
        row = 2 * ch if 0 < ch < 129 else 8
        yield plain('ch-' + name, draw.some(row), row, ch, 2, 1)
    yield plain('ch-65-size-8', draw.some(520), 520, 65, 8, 0)
    yield plain('ch-64-size-8', draw.some(512), 512, 64, 8, 0)
    yield plain('ch-64-size-3', draw.some(384), 192, 64, 3, 1)

    # rows: 0, not a whole number of samples of all channels, not a whole number of them in the input
    yield plain('row-0', counted(8, 1), 0, 1, 2, 1)
    yield plain('row-0-empty', b'', 0, 1, 2, 1)
    yield plain('row-1', counted(8, 1), 1, 1, 2, 1)
    yield plain('row-odd', counted(9, 1), 9, 1, 2, 1)
    yield plain('row-by-size', counted(12, 1), 12, 4, 2, 1)
    yield plain('row-by-ch', counted(12, 1), 12, 3, 8, 1)
    yield plain('row-by-both', counted(12, 1), 12, 6, 4, 1)
    yield plain('row-12-3x4', counted(24, 1), 12, 3, 4, 1)
    yield plain('row-12-4x3', counted(24, 1), 12, 4, 3, 0)
    yield plain('row-less', counted(4, 1), 4, 2, 4, 1)
    yield plain('length-less', counted(7, 1), 8, 1, 2, 1)
    yield plain('length-more', counted(9, 1), 8, 1, 2, 1)
    yield plain('length-half', counted(12, 1), 8, 1, 2, 1)
    yield plain('row-longer', counted(8, 1), 16, 1, 2, 1)
    yield plain('row-top', counted(8, 1), TOP, 1, 3, 1)
    yield plain('row-63', counted(8, 1), 2 ** 63, 1, 2, 1)
    yield plain('row-32', counted(8, 1), 2 ** 32 + 8, 1, 2, 1)

    # an empty input, with empty and other buffers, and what is refused all the same
    yield plain('empty', b'', 8, 1, 2, 1)
    yield plain('empty-buffers', b'', 8, 1, 2, 0, 3, 5)
    yield plain('empty-row-63', b'', 2 ** 63, 64, 8, 0, 3, 5)
    yield plain('empty-row-top', b'', TOP, 5, 3, 0, 3, 5)
    yield plain('empty-row-9', b'', 9, 1, 2, 1, 3, 5)
    yield plain('empty-size-1', b'', 8, 1, 1, 1, 3, 5)
    yield plain('empty-ch-0', b'', 8, 0, 2, 1, 3, 5)

    # which refusal comes first
    yield plain('3-before-2', counted(9, 1), 7, 0, 2, 1)
    yield plain('3-before-2-size', counted(9, 1), 7, 1, 5, 1)
    yield plain('3-before-6', counted(8, 1), 8, 65, 2, 1, 0, 0)
    yield plain('2-before-6', counted(8, 1), 7, 1, 2, 1, 0, 0)
    yield plain('2-before-6-len', counted(9, 1), 8, 1, 2, 1, 0, 0)

    # both buffers: exact, one short, longer, empty
    for room in (-8, -1, 0, 1, 5):
        for other in (-8, -1, 0, 1, 5):
            yield plain('out%+d-scr%+d' % (room, other), counted(8, 4), 4, 1, 2, 1, 8 + room, 8 + other)

    # sizes, channels, rows and orders together; the sums wrap
    for size in (2, 3, 4, 8):
        for ch in (1, 2, 3, 4, 7):
            for little in (0, 1):
                row = size * ch * draw.between(1, 3)
                rows = draw.between(1, 2)
                more = draw.below(3)
                yield plain('mix-%dx%d-%d' % (size, ch, little), draw.some(row * rows), row, ch, size, little, row * rows + more,
                            row * rows + draw.below(3))
    for little in (0, 1):
        yield plain('small-%d' % little, draw.some(48), 12, 2, 3, little)
        yield plain('wraps-%d' % little, b'\xff' * 32, 16, 1, 4, little)
        yield plain('halves-%d' % little, b'\x80' * 32, 32, 2, 8, little)
    yield plain('little-2', counted(8, 4), 8, 1, 2, 2)
    yield plain('whole', draw.some(2048), 256, 4, 8, 1)

# In the order in which the program runs them: a file's name, what its records are, and the records.
def files():
    return [(name, kind, list(made)) for name, kind, made in (
        ('packets_accepted.bin', 'packets', packets_accepted()),
        ('packets_refused.bin', 'packets', packets_refused()),
        ('packets_edges.bin', 'packets', packets_edges()),
        ('packets_random.bin', 'packets', packets_random()),
        ('planes.bin', 'planes', list(planes()) + list(mono_planes())),
        ('uv.bin', 'uv', every_uv()),
        ('predictor64.bin', 'predictor64', predictor64_records()),
        ('predictor3.bin', 'predictor3', predictor3_records()))]

def packed(r):
    return record_of(r.tag, (tuple(r.numbers) + (0,) * 5)[:5], (r.out, r.scratch), r.data)

# Mistakes, each a change of one place of the model: what they are, the text and what stands there instead. Some need COLOUR and MONO.
MANY, ROW, SIDES = 'if b * w * rows > TOP:', 'pixel(*row[x::w])', 'p, b = head.planes, head.bytes'
WRONG = (
    ('control 128 is a literal', 'if control < 128 else (control - 126, 1)', 'if control <= 128 else (control - 126, 1)'),
    ('control 127 is a run', '(control, control) if control < 128', '(control, control) if control < 127'),
    ('runs are one longer', '(control - 126, 1)', '(control - 125, 1)'),
    ('runs are one shorter', '(control - 126, 1)', '(control - 127, 1)'),
    ('runs as in PackBits', '(control - 126, 1)', '(257 - control, 1)'),
    ('a literal has one byte more', '(control, control) if', '(control + 1, control + 1) if'),
    ('a run is copied as a literal', 'payload if control < 128 else payload * long', 'payload'),
    ('stride 0 is 1', 'if stride == 0:\n        return 2', 'if stride == 0:\n        return 1'),
    ('stride 0 is passed over', 'if stride == 0:\n        return 2', 'if stride == 0:\n        stride = TOP'),
    ('stride 0 after the range', 'if stride == 0:\n        return 2',
     'if stride == 0:\n        return 1 if start > len(data) or count > len(data) - start else 2'),
    ('start at the end is outside', 'if start > len(data) or', 'if start >= len(data) or'),
    ('a range up to the end is outside', 'count > len(data) - start', 'count >= len(data) - start'),
    ('start plus count wraps', 'start > len(data) or count > len(data) - start', '(start + count) % 2 ** 64 > len(data)'),
    ('a count is 32 bits', 'start > len(data) or count > len(data) - start',
     'start % 2 ** 32 > len(data) or count % 2 ** 32 > len(data) - start % 2 ** 32'),
    ('a range outside is 2', 'count > len(data) - start:\n        return 1', 'count > len(data) - start:\n        return 2'),
    ('a range outside is cut short', 'if start > len(data) or count > len(data) - start:\n        return 1',
     'start, count = min(start, len(data)), min(count, len(data))'),
    ('the payload is looked for in the file', 'in listed(data[start:start + count]):\n        if len(payload) < wanted:',
     'in listed(data[start:start + count]):\n        if len(data) - start < 1 + wanted:'),
    ('a short payload is 2', 'if len(payload) < wanted:\n            return 1', 'if len(payload) < wanted:\n            return 2'),
    ('only literals have a payload', 'if len(payload) < wanted:', 'if control < 128 and len(payload) < wanted:'),
    ('only runs have a payload', 'if len(payload) < wanted:', 'if control > 127 and len(payload) < wanted:'),
    ('a payload may lack its last byte', 'if len(payload) < wanted:', 'if len(payload) + 1 < wanted:'),
    ('too long comes before the payload', 'if len(payload) < wanted:',
     'if sent + long > needed:\n            return 2\n        if len(payload) < wanted:'),
    ('the boundary comes before the payload', 'if len(payload) < wanted:',
     'if long > ((needed - sent) % stride or stride):\n            return 2\n        if len(payload) < wanted:'),
    ('too long is 1', 'if sent + long > needed:\n            return 2', 'if sent + long > needed:\n            return 1'),
    ('one too many is taken', 'if sent + long > needed:', 'if sent + long > needed + 1:'),
    ('the last byte is too many', 'if sent + long > needed:', 'if sent + long >= needed > 0:'),
    ('a full output ends it', 'if sent + long > needed:', 'if sent == needed:\n            return 0\n        if sent + long > needed:'),
    ('the stride from the start of the output', '(needed - place) % stride == 0', 'place % stride == 0'),
    ('the stride from the start of the packet', 'if any((needed - place) % stride == 0 for place in range(sent + 1, sent + long)):',
     'if long > stride:'),
    ('no boundary where nothing is left over', 'if any(', 'if needed % stride and any('),
    ('no boundary but where nothing is left over', 'if any(', 'if needed % stride == 0 and any('),
    ('no stride', 'if any(', 'if False and any('),
    ('a boundary may not be met', 'range(sent + 1, sent + long)', 'range(sent + 1, sent + long + 1)'),
    ('a boundary may be passed by one', 'range(sent + 1, sent + long)', 'range(sent + 1, sent + long - 1)'),
    ('only runs mind the boundary', 'if any(', 'if control > 127 and any('),
    ('only literals mind the boundary', 'if any(', 'if control < 128 and any('),
    ('only the first packet minds it', 'if any(', 'if sent == 0 and any('),
    ('only later packets mind it', 'if any(', 'if sent and any('),
    ('needed is 32 bits', 'sent = 0\n    for', 'sent, needed = 0, needed % 2 ** 32\n    for'),
    ('something left is fine', 'return 1 if sent < needed else 0', 'return 0'),
    ('something left is 2', 'return 1 if sent < needed else 0', 'return 2 if sent < needed else 0'),
    ('one byte left is fine', 'return 1 if sent < needed else 0', 'return 1 if sent + 1 < needed else 0'),
    ('an empty range is 1', 'sent = 0\n    for', 'sent = 0\n    if count == 0:\n        return 1\n    for'),
    ('control 0 is refused', 'if len(payload) < wanted:', 'if control == 0:\n            return 2\n        if len(payload) < wanted:'),
    ('control 0 is refused with nothing left', 'if len(payload) < wanted:',
     'if control == 0 and sent == needed:\n            return 2\n        if len(payload) < wanted:'),
    ('control 0 ends it', 'if len(payload) < wanted:',
     'if control == 0:\n            return 1 if sent < needed else 0\n        if len(payload) < wanted:'),
    ('control 128 does nothing', 'if len(payload) < wanted:', 'if control == 128:\n            continue\n        if len(payload) < wanted:'),
    ('an exact buffer is short', 'if len(out) < needed:', 'if len(out) <= needed:'),
    ('a short buffer is taken', 'if len(out) < needed:\n        return 6, out',
     'if len(out) < needed:\n        return 0, expanded(data[start:start + count])[:len(out)]'),
    ('the buffer comes first', '    answer = packets(', '    if len(out) < needed:\n        return 6, out\n    answer = packets('),
    ('a refusal clears the buffer', 'if answer:\n        return answer, out', 'if answer:\n        return answer, [0] * len(out)'),
    ('a refusal leaves what was read', 'if answer:\n        return answer, out',
     'if answer and start + count <= len(data):\n        e = expanded(data[start:start + count])[:len(out)]\n'
     '        return answer, e + out[len(e):]\n    if answer:\n        return answer, out'),
    ('the rest of the buffer is cleared', "return 0, whole + out[len(whole):]\n\n# Pixels (rule 6.3): the two", "return 0, whole + [0] * (len(out) - needed)\n\n# Pixels (rule 6.3): the two"),
    ('uv is rounded', '8192 // 205', '8192 // 205 if x % 7 else round((2 * x + 1) * 8192 / 205)'),
    ('uv without its half step', '(2 * x + 1) * 8192', '(2 * x) * 8192'),
    ('uv over 410 of whole steps', '(2 * x + 1) * 8192 // 205', 'x * 16384 // 205 + 39'),
    ('uv: one number is one too much', '8192 // 205', '8192 // 205 + (x == 126)'),
    ('uv: one place off', '(2 * x + 1) * 8192', '(2 * min(x + 1, 255) + 1) * 8192'),
    ('L is swapped', 'high * 256 + low', 'low * 256 + high'),
    ('every block shows the first 64 pixels', ROW, 'pixel(*row[x % 64::w])'),
    ('every four pixels are the first of them', ROW, 'pixel(*row[x // 4 * 4::w])'),
    ('what is left of a row by fours is 0', ROW, 'pixel(*row[x::w]) if x < w // 4 * 4 else [0] * b'),
    ('what is left of a row begins a place early', ROW, 'pixel(*row[x if x < w // 4 * 4 else max(0, x - 1)::w])'),
    ('u and v are swapped', '*map(uv, colour)', '*map(uv, colour[::-1])'),
    ('pixels are big-endian', "'<H'", "'>H'"),
    ('planes of the whole segment', ROW, 'pixel(*planes[y * w + x::rows * w][:p])'),
    ('pixels side by side', ROW, 'pixel(*row[p * x:p * x + p])'),
    ('pixels wrap', MANY, 'if b * w > TOP:'),
    ('pixels wrap by the width', MANY, 'if b * (w % 2 ** 61) * rows > TOP:'),
    ('4 where the planes wrap', MANY, 'if p * w * rows > TOP:'),
    ('4 without rows', MANY, 'if b * w * max(1, rows) > TOP:'),
    ('planes before the limit', '    ' + MANY, '    if len(planes) < p * w * rows:\n        return 1, out\n    ' + MANY),
    ('out before the planes', '    if len(planes) < p * w * rows:\n',
     '    if len(out) < b * w * rows:\n        return 6, out\n    if len(planes) < p * w * rows:\n'),
    ('planes must be exact', 'if len(planes) < p * w * rows:', 'if len(planes) != p * w * rows:'),
    ('pixels: out must be exact', 'if len(out) < b * w * rows:', 'if len(out) != b * w * rows:'),
    ('no width is 2', MANY, 'if w == 0:\n        return 2, out\n    ' + MANY),
    ('no rows is 2', MANY, 'if rows == 0:\n        return 2, out\n    ' + MANY),
    ('all planes are of colour', SIDES, 'p, b = COLOUR.planes, COLOUR.bytes'),
    ('all planes are mono', SIDES, 'head = MONO\n    ' + SIDES),
    ('mono has four planes', SIDES, 'p, b = 4, head.bytes'),
    ('mono has three planes', SIDES, 'p, b = max(3, head.planes), head.bytes'),
    ('mono has six bytes', SIDES, 'p, b = head.planes, 6'),
    ('mono has four bytes', SIDES, 'p, b = head.planes, max(4, head.bytes)'),
    ('mono: 4 by six bytes a pixel', MANY, 'if 6 * w * rows > TOP:'),
    ('mono: 4 above 2^63', MANY, 'if b * w * rows > (TOP if head == COLOUR else 2 ** 63):'),
    ('mono: 2^64 is taken', MANY, 'if b * w * rows > TOP + 1:'),
    ('mono: pixels wrap', MANY, 'if (b * w * rows > TOP if head == COLOUR else b * w * rows % 2 ** 64 > TOP):'),
    ('mono: planes of colour are asked for', 'if len(planes) < p * w * rows:', 'if len(planes) < 4 * w * rows:'),
    ('mono: planes may lack a byte', 'if len(planes) < p * w * rows:',
     'planes = planes + [0] * (head == MONO)\n    if len(planes) < p * w * rows:'),
    ('mono: planes must be exact', 'if len(planes) < p * w * rows:', 'if len(planes) < p * w * rows or head == MONO and len(planes) > p * w * rows:'),
    ('mono: out must be exact', 'if len(out) < b * w * rows:', 'if len(out) < b * w * rows or head == MONO and len(out) > b * w * rows:'),
    ('mono: out before the planes', '    if len(planes) < p * w * rows:\n',
     '    if head == MONO and len(out) < b * w * rows:\n        return 6, out\n    if len(planes) < p * w * rows:\n'),
    ('mono: out of colour is asked for', 'if len(out) < b * w * rows:', 'if len(out) < 6 * w * rows:'),
    ('mono: L is swapped', ROW, 'pixel(*row[x::w] if head == COLOUR else row[x::w][::-1])'),
    ('mono: the low byte alone', ROW, 'pixel(*row[x::w] if head == COLOUR else (0, row[w + x]))'),
    ('mono: the high byte alone', ROW, 'pixel(*row[x::w] if head == COLOUR else (row[x], 0))'),
    ('mono: the high byte twice', ROW, 'pixel(*row[x::w] if head == COLOUR else (row[x], row[x]))'),
    ('mono: no sign', ROW, 'pixel(*row[x::w] if head == COLOUR else (row[x] & 127, row[w + x]))'),
    ('mono: pixels side by side', ROW, 'pixel(*row[x::w] if head == COLOUR else row[2 * x:2 * x + 2])'),
    ('mono: planes of the whole segment', ROW, 'pixel(*row[x::w] if head == COLOUR else planes[y * w + x::rows * w][:2])'),
    ('mono: rows of colour', 'row = planes[p * w * y:p * w * (y + 1)]', 'row = (planes + planes)[4 * w * y:4 * w * y + p * w]'),
    ('mono: a colour that is none', ROW, 'pixel(*row[x::w]) if head == COLOUR else pixel(*row[x::w], 0, 0)'),
    ('mono: uv of the low byte', ROW, 'pixel(*row[x::w]) if head == COLOUR else pixel(*divmod(uv(row[w + x]), 256))'),
    ('mono: three numbers, of which two are 0', ROW, 'pixel(*row[x::w]) if head == COLOUR else pixel(*row[x::w]) + [0] * 4'),
    ('five channels', 'if not 1 <= ch <= 4:', 'if not 1 <= ch <= 5:'),
    ('three channels', 'if not 1 <= ch <= 4:', 'if not 1 <= ch <= 3:'),
    ('channels are 32 bits', 'if not 1 <= ch <= 4:', 'if not 1 <= ch % 2 ** 32 <= 4:'),
    ('channels are 2', 'if not 1 <= ch <= 4:\n        return 3', 'if not 1 <= ch <= 4:\n        return 2'),
    ('sizes of 0 before channels', '    if not 1 <= ch <= 4:', '    if w == 0 or h == 0 or reset == 0:\n        return 2, out\n    if not 1 <= ch <= 4:'),
    ('width 0 is taken', 'if w == 0 or h == 0 or', 'if w == 0 and h > 9 or h == 0 or'),
    ('height 0 is taken', 'if w == 0 or h == 0 or', 'if w == 0 or'),
    ('reset 0 matters to prediction only', 'or reset == 0:', 'or reset == 0 and predict:'),
    ('reset 0 is none', 'or reset == 0:', 'or reset == 0 and not predict:\n        return 2, out\n    reset = reset or TOP\n    if w == 0 or h == 0:'),
    ('64: the limit before sizes of 0', 'if w == 0 or h == 0 or', 'if max(1, w) * max(1, h) * ch * 8 > TOP:\n        return 4, out\n    if w == 0 or h == 0 or'),
    ('64: sizes wrap', 'if size > TOP:\n        return 4, out', 'if size > TOP:\n        return (1 if len(raw) < size % 2 ** 64 else 0), out'),
    ('64: only samples are counted', 'if size > TOP:', 'if w * h * ch > TOP:'),
    ('64: channels are not counted', 'if size > TOP:', 'if 8 * w * h > TOP:'),
    ('64: 2^64 is taken', 'if size > TOP:', 'if size > TOP + 1:'),
    ('64: raw before the limit', 'if size > TOP:\n        return 4, out\n    if len(raw) < size:\n        return 1, out',
     'if len(raw) < size:\n        return 1, out\n    if size > TOP:\n        return 4, out'),
    ('64: raw must be exact', 'if len(raw) < size:', 'if len(raw) != size:'),
    ('64: out must be exact', 'if len(out) < size:', 'if len(out) != size:'),
    ('64: out before raw', '    if len(raw) < size:', '    if len(out) < size:\n        return 6, out\n    if len(raw) < size:'),
    ('64: orders swapped', "'little' if little else 'big')", "'big' if little else 'little')"),
    ('64: input is always little', "'little' if little else 'big')", "'little')"),
    ('64: always predicted', 'x - x % reset if predict else x', 'x - x % reset'),
    ('64: never predicted', 'x - x % reset if predict else x', 'x'),
    ('64: no reset', 'x - x % reset if predict else x', '0 if predict else x'),
    ('64: reset counts from 1', 'x - x % reset if predict else x', 'max(0, x - (x + 1) % reset) if predict else x'),
    ('64: the previous alone is added', 'for k in range(began, x + 1)', 'for k in range(max(began, x - 1), x + 1)'),
    ('64: channels are summed together', 'sum(value(y, k, c) for k in range(began, x + 1))',
     'sum(value(y, k, d) for k in range(began, x + 1) for d in range(ch if k < x else c + 1))'),
    ('64: rows are summed together', 'sum(value(y, k, c) for k in range(began, x + 1))',
     'sum(value(z, k, c) for z in range(y + 1) for k in range(began, x + 1))'),
    ('64: planar channels', 'at = 8 * ((y * w + x) * ch + c)', 'at = 8 * (c * w * h + y * w + x)'),
    ('64: sums saturate', '% 2 ** 64).to_bytes', ').__class__(min(TOP, sum(value(y, k, c) for k in range(began, x + 1)))).to_bytes'),
    ('3: two bytes are refused', 'if size not in (2, 3, 4, 8)', 'if size not in (3, 4, 8)'),
    ('3: three bytes are refused', 'if size not in (2, 3, 4, 8)', 'if size not in (2, 4, 8)'),
    ('3: one byte is taken', 'if size not in (2, 3, 4, 8)', 'if size not in (1, 2, 3, 4, 8)'),
    ('3: any size up to 8', 'if size not in (2, 3, 4, 8)', 'if size not in (2, 3, 4, 5, 6, 7, 8)'),
    ('3: sixteen bytes are taken', 'if size not in (2, 3, 4, 8)', 'if size not in (2, 3, 4, 8, 16)'),
    ('3: a size is 32 bits', 'if size not in (2, 3, 4, 8)', 'if size % 2 ** 32 not in (2, 3, 4, 8)'),
    ('3: 65 channels', 'not 1 <= ch <= 64', 'not 1 <= ch <= 65'),
    ('3: 63 channels', 'not 1 <= ch <= 64', 'not 1 <= ch <= 63'),
    ('3: channels are 32 bits', 'not 1 <= ch <= 64', 'not 1 <= ch % 2 ** 32 <= 64'),
    ('3: row 0 is 2', 'or row == 0:\n        return 3, scratch, out', ':\n        return 3, scratch, out\n    if row == 0:\n        return 2, scratch, out'),
    ('3: rows by the size alone', 'if row % (ch * size) or', 'if row % size or'),
    ('3: rows by channels alone', 'if row % (ch * size) or', 'if row % ch or'),
    ('3: rows by each alone', 'if row % (ch * size) or', 'if row % ch or row % size or'),
    ('3: a last row may be short', 'or len(raw) % row:', 'or False:'),
    ('3: a bad row is 3', 'len(raw) % row:\n        return 2', 'len(raw) % row:\n        return 3'),
    ('3: an empty input is refused', 'or len(raw) % row:', 'or len(raw) % row or not raw:'),
    ('3: buffers before rows', '    if row % (ch * size) or',
     '    if len(out) < len(raw) or len(scratch) < len(raw):\n        return 6, scratch, out\n    if row % (ch * size) or'),
    ('3: out is not tested', 'if len(out) < len(raw) or len(scratch)', 'if len(scratch)'),
    ('3: scratch is not tested', 'or len(scratch) < len(raw):', 'or False:'),
    ('3: scratch need hold a row', 'or len(scratch) < len(raw):', 'or len(scratch) < min(row, len(raw)):'),
    ('3: out must be exact', 'if len(out) < len(raw) or', 'if len(out) != len(raw) or'),
    ('3: scratch must be exact', 'or len(scratch) < len(raw):', 'or len(scratch) != len(raw):'),
    ('3: summed at distance 1', 'sum(line[i % ch:i + 1:ch])', 'sum(line[:i + 1])'),
    ('3: summed within a plane', 'sum(line[i % ch:i + 1:ch])', 'sum(line[i - i % (row // size) + i % (row // size) % ch:i + 1:ch])'),
    ('3: not summed', 'sum(line[i % ch:i + 1:ch])', 'line[i]'),
    ('3: summed at the size', 'sum(line[i % ch:i + 1:ch])', 'sum(line[i % (ch * size):i + 1:ch * size])'),
    ('3: only the previous is added', 'sum(line[i % ch:i + 1:ch])', 'sum(line[i % ch:i + 1:ch][-2:])'),
    ('3: orders swapped', 'sample[::-1] if little == 1', 'sample[::-1] if little != 1'),
    ('3: always little', 'sample[::-1] if little == 1 else sample', 'sample[::-1]'),
    ('3: not gathered', 'for sample in zip(*planes):', 'for sample in zip(*(line[k::size] for k in range(size))):'),
    ('3: rows are summed together', 'line = [sum(line[i % ch:i + 1:ch]) % 256 for i in range(row)]',
     'line = [sum(raw[(row * y + i) % ch:row * y + i + 1:ch]) % 256 for i in range(row)]'),
    ('3: scratch stays', 'return 0, sums + scratch[len(sums):],', 'return 0, scratch,'),
    ('3: scratch is cleared', 'return 0, sums + scratch[len(sums):],', 'return 0, [0] * len(sums) + scratch[len(sums):],'),
    ('3: the rest of scratch is cleared', 'sums + scratch[len(sums):]', 'sums + [0] * (len(scratch) - len(sums))'),
    ('3: the rest of out is cleared', "whole + out[len(whole):]\n\n# What", "whole + [0] * (len(out) - len(whole))\n\n# What"),
)
