#!/usr/bin/env python3
"""The trace of the program replay, and what it is to write.

usage: trace.py [--write]

Without a word it computes crates/replay/data/demo.trace and crates/replay/stdout, the same bytes at every run, compares them with what
is there, writes nothing, and exits with 1 where something differs. --write writes them.

The trace sends the camera's picture over a bus on which much goes wrong. The answers are those of the model of receiver.py; the
picture's report and its PNG file are those of the models of patchy.py and png.py. The script stops where the receiver is not left with
the picture's own bytes in each block that came, and where another block is missing than the two that the trace loses for good.
"""
import sys

sys.dont_write_bytecode = True  # no folder of compiled modules beside the scripts
from common import TOP, hold_or_write
from libtiff import CAMERA, file_of
from png import read, written
from receiver import Reception, begin, blocks_of, listed, sent

MOST = 2097152              # the program's file buffer; the model's is shorter, and nothing in this trace tells the two apart
FILE, MAP = 65536, 4096
LOST = {44: 31, 21: 17}     # blocks that never come as they should, and the one strip that has bytes of each

def demo(camera):
    """The messages of the trace, in their order."""
    blocks = [camera[at:at + 512] for at in range(0, len(camera), 512)]
    last = len(blocks) - 1
    right = lambda *numbers: b''.join(sent(k, blocks[k]) for k in numbers)
    return b''.join((
        right(83),                                  # the end of a picture whose start was not recorded
        begin(len(camera)),
        right(*range(12)), right(13, 12),           # two change places
        right(*range(14, 21)),
        sent(21, blocks[21][:500]),                 # cut on its way, and not sent again
        right(*range(22, 30)),
        sent(30, bytes(255 - b for b in blocks[30])),  # other bytes; the right ones come later
        right(*range(31, 44)),                      # 44 is lost, and not sent again
        begin(MOST + 1),                            # another picture, too long to be taken; this one goes on
        right(*range(45, 60)),                      # 60 and 61 are lost at first
        right(62, 62, 63, 63),                      # each sent twice
        sent(last + 1, blocks[0]),                  # just outside the picture
        sent(TOP, blocks[0]),                       # far outside
        right(*range(64, last)),
        sent(last, blocks[last] + bytes(512 - len(blocks[last]))),  # the last one filled up to 512 bytes
        right(last),
        right(61, 60, 30)))                         # what was asked for again, out of order

def marks(codes):
    """The line of marks of at most 60 segments."""
    assert len(codes) <= 60
    return ' '.join(''.join('.' if c == 1 else str(c) for c in codes[at:at + 10]) for at in range(0, len(codes), 10))

def column(number, meaning):
    return '%9d   %s' % (number, meaning)

def made():
    camera, state, answers = file_of(CAMERA), Reception(False, 0, [0] * FILE, [0] * MAP), []
    trace = demo(camera)
    messages, ending = listed(trace)
    assert ending == 0
    for call, *words in messages:
        answer, state = call(state, *words)
        answers.append(answer)
    length, blocks = state.length, blocks_of(state.length)
    file, came = bytes(state.file[:length]), bytes(state.came[:blocks])
    assert [k for k in range(blocks) if not came[k]] == sorted(LOST)
    assert all(file[512 * k:512 * k + 512] == camera[512 * k:512 * k + 512] for k in range(blocks) if came[k]) and length == len(camera)
    f, output, quality, charged = read(file, came)
    codes = quality[:f.segments]
    assert [k for k, code in enumerate(codes) if code != 1] == sorted(LOST.values())
    text = '\n'.join((
        'demo.trace', '  messages  %d, of which %d were accepted' % (len(answers), answers.count(0)),
        column(answers.count(10), 'too long for the buffers (10)'), column(answers.count(11), 'outside the picture, or before any start (11)'),
        column(answers.count(12), 'of a wrong size (12)'), '  trace     ends after a whole message',
        '  picture   %d bytes in %d blocks' % (length, blocks), '  pixels    %d x %d' % (f.width, f.height),
        '  segments  %d, each at most %d x %d' % (f.segments, f.block_width, f.block_height),
        '  blocks    %d, of which %d did not come' % (blocks, came.count(0)), '  quality   ' + marks(codes),
        column(codes.count(1), 'good (1, a dot)'), column(codes.count(2), 'did not come (2)'), column(codes.count(3), 'outside the file (3)'),
        column(codes.count(4), 'packets not accepted (4)'), '  charged   %d units' % charged, written(f, output, quality), ''))
    return {'data/demo.trace': trace, 'stdout': text.encode()}

if __name__ == '__main__':
    sys.exit(hold_or_write('replay', made, sys.argv[1:], 'trace.py [--write]'))
