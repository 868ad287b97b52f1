#!/usr/bin/env python3
"""Respells this repository's own definitions and lemmas as today's Rattle spells names: words in snake case, modules in camel case.

usage: python3 tools/snake_names.py [--list]      at the top of the repository, once, after the kit's port.py
It renames what the .antt files of specs/ and proofs/ declare, with fields, constructors, rulesets and local lemmas, and the
aliases of modules, in every .antt and .rt file. Types, functions of src/, the goals that Rattle names and std's names stay.
A lemma that would take the name of a definition gets _lem behind it; --list shows the names.
"""
import os
import re
import sys

WORD = r"[^\s(){}\[\],;.:=λ∷×→`\"@|?⟨⟩]+"
DECLARED = re.compile(r"^\s*(?:(?:pub|abbrev|unfoldable|opaque) )*(" + WORD + r") :(?=\s|$)")
RULESET = re.compile(r"^\s*(?:pub )?ruleset (" + WORD + r") =")
ALIAS = re.compile(r"^use \S+ as (" + WORD + r")$")
TOKEN = re.compile(WORD)
# Names that would fall together with another one, where _lem would be wrong: fields, and an abbreviation of one file.
BESIDE = {
    "range-there": "range_is_there",
    "whole-view": "view_of_whole",
}
# The ruleset of the crate checks had the name that std's set of rules has now; in these files the first one is meant.
OWN_RULES = {
    "./crates/checks/proofs/Rules.antt": [("ruleset rules =", "ruleset check_rules ="), ("onward, rules)", "onward, check_rules)")],
    "./crates/checks/proofs/spend/Proof.antt": [("rules", "check_rules"), ("Check_rules", "Rules")],
}
FIELDS = {"each-is", "each-segment", "eight-bytes", "pixel-bytes", "pixel-of", "pixels-in", "planes-in", "quality-is", "rows_in"}


def texts(root, ends):
    for folder, dirs, files in os.walk(os.path.join(root, "crates")):
        dirs[:] = sorted(d for d in dirs if d not in ("out", ".git"))
        for f in sorted(files):
            if f.endswith(ends):
                yield os.path.join(folder, f)


def snake(name):
    parts = []
    for part in name.split("-"):
        if part[:1].islower():
            part = re.sub(r"(?<=[a-z0-9'])([A-Z])", lambda m: "_" + m.group(1).lower(), part)
        parts.append(part)
    return "_".join(parts)


def camel(name):
    return "".join(p[:1].upper() + p[1:] for p in re.split(r"[-_]", name))


def names_of(root):
    declared, aliases = set(), set()
    for p in texts(root, ".antt"):
        with open(p, encoding="utf-8") as f:
            for line in f:
                m = ALIAS.match(line)
                if m and re.search(r"[-_]", m.group(1)):
                    aliases.add(m.group(1))
                if os.path.basename(p) != "Proof.antt":
                    for pattern in (DECLARED, RULESET):
                        m = pattern.match(line)
                        if m:
                            declared.add(m.group(1))
    return declared, aliases


def turned(root):
    declared, aliases = names_of(root)
    turn = {n: snake(n) for n in declared if n[:1].islower()}
    by = {}
    for n in sorted(declared):
        by.setdefault(snake(n), []).append(n)
    for s, ns in by.items():
        defined = [n for n in ns if re.search(r"[a-z0-9][A-Z]", n)]
        for n in ns:
            if len(ns) > 1 and n not in defined and n not in FIELDS and not (n == "start_in"):
                turn[n] = s + "_lem"
    turn |= {n: BESIDE[n] for n in BESIDE if n in declared}
    return {n: s for n, s in turn.items() if n != s}, {n: camel(n) for n in aliases}


def main(argv):
    turn, modules = turned(".")
    if "--list" in argv:
        for n, s in sorted(turn.items() | modules.items()):
            print(n, s)
        return 0
    count = 0
    for p in texts(".", (".antt", ".rt")):
        with open(p, encoding="utf-8") as f:
            old = f.read()
        here = turn | {n: s for n, s in modules.items() if re.search(r"(?m)^use \S+ as " + re.escape(n) + "$", old)}
        new = TOKEN.sub(lambda m: here.get(m.group(0), m.group(0)), old)
        for a, b in OWN_RULES.get(p, []):
            new = new.replace(a, b)
        if new != old:
            count += 1
            with open(p, "w", encoding="utf-8") as f:
                f.write(new)
    print(f"{len(turn)} names in {count} files")
    return 0


if __name__ == "__main__":
    raise SystemExit(main(sys.argv[1:]))
