#!/usr/bin/env python3
"""Looks at the machine code of the library: no innermost loop in which pixels are made may divide or multiply.

    tests/loops.py ARCHIVE

An innermost loop is what stands between a jump back and where it goes, with no other such jump in it. The functions looked at are those
into which the compiler puts the loops over pixels, whatever it makes of them: those of the crates below. That the loop which reads the
table of uv was among them is required too, else nothing was shown. It knows the names of instructions of x86-64 and of Arm."""
import re
import subprocess
import sys

CRATES = ('pixel', 'pixel_rows', 'luv', 'paint', 'showing')
SLOW = re.compile(r'(i?div|i?mul|mulx|v?pmul|v?pmadd|[us]div|[us]?mul|[us]?m(add|sub|neg)|mneg|ml[as]|[us]ml[as])')
JUMP = re.compile(r'(j\w+|b(\.\w+)?|cbn?z|tbn?z)$')
HALF = ('movzwl', 'ldrh')  # reads 16 bits; eight of them are the u and v of four pixels

def functions(archive):
    """The functions of the archive: their instructions by place, as (place, name, operands)."""
    text = subprocess.run(['objdump', '-d', '--no-show-raw-insn', archive], check=True, capture_output=True, text=True).stdout
    found, own = {}, None
    for line in text.split('\n'):
        start = re.match(r'[0-9a-f]+ <(.+)>:$', line)
        step = re.match(r'\s*([0-9a-f]+):\s+(\S+)\s*(.*)', line)
        if start:
            own = found.setdefault(start[1], [])
        elif step and own is not None:
            own.append((int(step[1], 16), step[2], step[3]))
    return found

def innermost_loops(steps):
    """The loops of a function that hold no other."""
    places = {place for place, _, _ in steps}
    back = set()
    for place, name, operands in steps:
        goal = re.search(r'\b(?:0x)?([0-9a-f]+) <', operands)
        if JUMP.match(name) and goal and int(goal[1], 16) <= place and int(goal[1], 16) in places:
            back.add((int(goal[1], 16), place))
    for first, last in sorted(back):
        if not any((a, b) != (first, last) and first <= a and b <= last for a, b in back):
            yield [step for step in steps if first <= step[0] <= last]

def main():
    if len(sys.argv) != 2:
        sys.exit('usage: tests/loops.py ARCHIVE')
    loops = slow = lookups = 0
    for function, steps in sorted(functions(sys.argv[1]).items()):
        if function.split('::')[0] not in CRATES:
            continue
        for loop in innermost_loops(steps):
            loops += 1
            lookups += sum(name in HALF for _, name, _ in loop) >= 8
            for place, name, operands in loop:
                if SLOW.match(name):
                    slow += 1
                    print('%s, at %x: %s %s' % (function, place, name, operands))
    if lookups == 0:
        sys.exit('loops: no loop that looks up u and v of four pixels was found, so nothing is shown')
    print('loops: %d innermost loops in which pixels are made, %d of them by the table; %s'
          % (loops, lookups, 'they divide or multiply, as shown' if slow else 'none divides or multiplies'))
    sys.exit(1 if slow else 0)

main()
