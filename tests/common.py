"""What the scripts that write vectors share: drawn numbers, records, the files of a crate, and mistakes put into a model."""
import os
import struct
import sys

TOP = 2 ** 64 - 1   # the largest number a caller can pass
FILE = 65536        # the longest file that a program reads
FILL = 0xA5         # what the program fills its buffers with before a call
ROOM = 20480        # the longest buffer that a record can ask for

class Draw:
    """Numbers drawn by a rule of our own, so that the files are the same with every Python."""
    def __init__(self, seed):
        self.state = seed

    def below(self, n):
        self.state = (self.state * 6364136223846793005 + 1442695040888963407) % 2 ** 64
        return (self.state >> 33) % n

    def between(self, a, b):
        return a + self.below(b - a + 1)

    def of(self, things):
        return things[self.below(len(things))]

    def some(self, n):
        return bytes(self.below(256) for _ in range(n))

def record_of(tag, numbers, lent, file, more=b''):
    """A record as it stands in its file: the call's numbers and the lengths of what it is lent, its file or input, and perhaps a map
    or another file."""
    assert len(tag) <= 16 and all(0 <= n <= TOP for n in numbers) and all(n <= ROOM for n in lent), tag
    numbers = struct.pack('<%dQ' % len(numbers + lent), *numbers, *lent)
    rest = numbers + file + more
    return tag.ljust(16).encode() + struct.pack('<3Q', len(rest), len(numbers), len(file)) + rest

def unnoticed(all_files, script):
    """The mistakes with which every line of a group still comes out right. The script is given as its globals."""
    with open(script['__file__']) as f:
        text = f.read()
    model = text[text.index('# ---- model ----'):text.index('# ---- end of the model ----')]
    right, missed = [(kind, r, script['line'](kind, r)) for _, kind, records in all_files for r in records], []
    for name, old, new in script['WRONG']:
        assert model.count(old) == 1, (name, model.count(old))
        names = dict(script)
        exec(model.replace(old, new), names)
        noticed = next((i for i, (kind, r, said) in enumerate(right) if names['line'](kind, r) != said), None)
        if noticed is None:
            missed.append(name)
        else:
            right.insert(0, right.pop(noticed))  # it may well notice the next one too
    return missed

def folder(crate):
    return os.path.join(os.path.dirname(os.path.abspath(__file__)), '..', 'crates', crate)

def content(*path):
    with open(os.path.join(*path), 'rb') as f:
        return f.read()

def hold(root, made):
    """Compares files with what is there; the exit status."""
    differing = [name for name, body in made.items() if not os.path.exists(os.path.join(root, name)) or content(root, name) != body]
    for name in differing:
        print('differs:', name)
    print('%s: %d files computed, %d differ from what is there' % (os.path.basename(root), len(made), len(differing)))
    return 1 if differing else 0

def write(root, made):
    """Writes files; the exit status."""
    for name, body in made.items():
        path = os.path.join(root, name)
        os.makedirs(os.path.dirname(path), exist_ok=True)
        with open(path, 'wb') as f:
            f.write(body)
        print('%-28s %6d bytes' % (name, len(body)))
    return 0

def hold_or_write(crate, made, words, usage):
    """What a script does with the files of a crate that made() computes: without a word it compares, with --write it writes."""
    if words not in ([], ['--write']):
        print('usage:', usage, file=sys.stderr)
        return 2
    return (write if words else hold)(folder(crate), made())
