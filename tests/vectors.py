#!/usr/bin/env python3
"""The vectors of the program vectors, and what it is to write.

usage: vectors.py [--wrong | --write]

Without a word it computes crates/vectors/data/GROUP/*.bin and crates/vectors/stdout, the same bytes at every
run, compares them with what is there, and writes nothing. --wrong puts one mistake after another into the
models of the groups and names those that no vector of the group would notice. Both exit with 1 where something
is amiss. --write writes the files.

Each group's script has its records, and a model that says what is to come of them; libtiff's pictures are
given, and libtiff vouches for their pixels.
"""
import sys

sys.dont_write_bytecode = True  # no folder of compiled modules beside the scripts
import front
import leaf
import patchy
import pictures
import receiver
import strict
from common import FILE, hold_or_write, unnoticed

GROUPS = leaf, front, strict, patchy, receiver  # in the order in which the program runs them

def made(group):
    """The files of a group, and the lines on them."""
    written, lines = {}, []
    for name, kind, records in group.files():
        tags = [r.tag for r in records]
        assert len(set(tags)) == len(tags), [t for t in tags if tags.count(t) > 1]
        path, body = '%s/%s' % (group.__name__, name), b''.join(map(group.packed, records))
        assert len(body) < FILE, (path, len(body))
        written['data/' + path] = body
        lines += [path] + [group.line(kind, r) for r in records]
    return written, lines

def all_made():
    """Every file that is computed here."""
    written, lines = {}, []
    for group in GROUPS:
        files, said = made(group)
        written.update(files)
        lines += said
    written['stdout'] = '\n'.join(lines + pictures.lines() + ['']).encode()
    return written

def try_mistakes():
    """Every mistake in every model; the exit status."""
    bad = 0
    for group in GROUPS:
        missed = unnoticed(group.files(), vars(group))
        for name in missed:
            print('no vector notices:', name)
        print('%s: %d mistakes tried, %d unnoticed' % (group.__name__, len(group.WRONG), len(missed)))
        bad += len(missed)
    return 1 if bad else 0

if __name__ == '__main__':
    if sys.argv[1:] == ['--wrong']:
        sys.exit(try_mistakes())
    sys.exit(hold_or_write('vectors', all_made, sys.argv[1:], 'vectors.py [--wrong | --write]'))
