#!/usr/bin/env python3
"""Brings the repository's own definitions and lemmas to today's spelling: their words in snake case.

usage: python3 tools/respell.py [--list]     at the top of the repository, once, after port.py

It goes by whole names: those that a file of specs/ or a lemma file of proofs/ defines, in every .antt file, in the clauses of .rt files and in
must-fail edits. Names of types, modules and constants stay, and so do functions of src/. With --list it prints the new names and writes nothing.
"""

import glob
import re
import sys

TOKEN = re.compile(r"[A-Za-z0-9_\u0370-\u03ff\u2080-\u209c'+]+(?:-[A-Za-z0-9_\u0370-\u03ff\u2080-\u209c'+]+)*")
DEFINED = re.compile(r"^(?:  )?(?:abbrev |unfoldable |pub |record |data )*([^\s:(){}.]+)(?: \{[^}]*\})? (?:\([^)]*\) )*:(?!=)")


def files(*patterns):
    return sorted(p for q in patterns for p in glob.glob(q, recursive=True) if "/out/" not in p)


def snake(name):
    return re.sub(r"(?<=[a-z0-9])([A-Z])", lambda m: "_" + m.group(1).lower(), name)


def defined():
    names = []
    for p in files("crates/*/specs/**/*.antt", "crates/*/proofs/*.antt"):
        with open(p, encoding="utf-8") as f:
            names += [m.group(1) for m in map(DEFINED.match, f) if m]
    return dict.fromkeys(names)


def table(names):
    new = {n: snake(n) for n in names if n[0].islower() and snake(n) != n}
    # a lemma that would have its definition's name
    new |= {to: to + "_lem" for to in list(new.values()) if to in names}
    # names that port.py turned in specs/ and proofs/, but not in must-fail edits
    back = {re.sub(r"_([a-z])(?=[a-z]*$)", lambda m: m.group(1).upper(), n): n for n in names if n[0].islower() and "_" in n}
    return new, {old: n for old, n in back.items() if old not in new and n not in new}


def turn(paths, new):
    for p in paths:
        with open(p, encoding="utf-8") as f:
            text = f.read()

        def to(m):
            n = new.get(m.group(0), m.group(0))
            # a name with _lem is a lemma's: the same word in code, or behind a dot, is a function's
            return m.group(0) if n.endswith("_lem") and (not p.endswith(".antt") or text[m.start() - 1] == ".") else n

        turned = TOKEN.sub(to, text)
        if turned != text:
            with open(p, "w", encoding="utf-8") as f:
                f.write(turned)


def main(argv):
    names = defined()
    new, edits = table(names)
    for n, to in new.items():
        if (to in names and to not in new) or list(new.values()).count(to) > 1:
            print(f"falls together: {n} -> {to}")
    if "--list" in argv:
        print("\n".join(f"{n} -> {to}" for n, to in new.items()))
        return 0
    turn(files("crates/*/specs/**/*.antt", "crates/*/proofs/**/*.antt", "crates/*/src/**/*.rt"), new)
    turn(files("crates/*/must-fail/*.edit"), edits | new)
    return 0


if __name__ == "__main__":
    raise SystemExit(main(sys.argv[1:]))
