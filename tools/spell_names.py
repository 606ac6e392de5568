#!/usr/bin/env python3
"""Brings the names of definitions and lemmas to the spelling of today's Rattle: words in snake case, where camel case stood.

usage: python3 tools/spell_names.py [TOP]         at the top of the repository, once, after port.py
       python3 tools/spell_names.py TOP --look    names that would fall together with one of the same file, and nothing is written

A name is what antt reads as one: parts joined by dashes. A part that begins with a small letter and has a capital after a small
letter or a digit gets an underscore there and small letters; types, modules and constructors begin with a capital and stay. Code of
src/ outside clauses, strings and comments' prose have no such names, so whole files are turned: .antt, .rt and must-fail edits.
A lemma that port.py had already turned, and whose name a definition would then have, is named anew first: APART.
"""
import os
import re
import sys

# Lemmas whose names would fall together with a definition's: (folder or file, name, new name).
APART = [
    ("", "same_bytes", "same_bytes-equal"),
    ("enumeration/proofs/LineTexts.antt", "to_space", "to_space-decimal"),
    ("image_reading/proofs/SearchLaws.antt", "row_from", "row_from-is"),
    ("tables/proofs/RecordsLaws.antt", "row_from", "row_from-is"),
    ("protocol/proofs/Ranges.antt", "level_holds", "level_holds-fits"),
]
NAME = re.compile(r"[A-Za-z_][A-Za-z0-9_'!?-]*")
HUMP = re.compile(r"(?<=[a-z0-9])[A-Z]|(?<=[a-z0-9][A-Z])[A-Z](?=[a-z])")
STRING = re.compile(r'"[^"\n]*"')


def part(p):
    return HUMP.sub(lambda m: "_" + m.group().lower(), p) if re.match(r"[a-z]", p) else p


def turned(name):
    return "-".join(part(p) for p in name.split("-"))


def text(t):
    out, last = [], 0
    for s in STRING.finditer(t):
        out.append(NAME.sub(lambda m: turned(m.group()), t[last:s.start()]))
        out.append(s.group())
        last = s.end()
    out.append(NAME.sub(lambda m: turned(m.group()), t[last:]))
    return "".join(out)


def apart(path, t):
    for where, name, new in APART:
        if path.endswith(".antt") and path.endswith(where):
            t = re.sub(r"(?<![\w.'-])" + name + r"(?![\w'-])", new, t)
    return t


def files(top):
    for folder, dirs, names in os.walk(os.path.join(top, "crates")):
        dirs[:] = sorted(d for d in dirs if d not in ("out", "data"))
        for n in sorted(names):
            if n.endswith((".antt", ".rt", ".edit")):
                yield os.path.join(folder, n)


def fall_together(t):
    """Names that turn to one that the file has already, other than as a step of a path."""
    there = set(re.findall(r"(?<![\w.'-])[A-Za-z_][A-Za-z0-9_'!?-]*", t))
    humped = {n for n in NAME.findall(t) if turned(n) != n}
    return sorted((n, turned(n)) for n in humped if turned(n) in there)


def main():
    top = sys.argv[1] if len(sys.argv) > 1 else "."
    if "--look" in sys.argv:
        for p in files(top):
            with open(p, encoding="utf-8") as f:
                for n, m in fall_together(apart(p, f.read())):
                    print(f"{p}: {n} -> {m}")
        return
    count = 0
    for p in files(top):
        with open(p, encoding="utf-8") as f:
            old = f.read()
        new = text(apart(p, old))
        if new != old:
            count += 1
            with open(p, "w", encoding="utf-8") as f:
                f.write(new)
    print(f"{count} files")


if __name__ == "__main__":
    main()
