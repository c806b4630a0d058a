#!/usr/bin/env python3
"""Brings the definitions and lemmas of this repository's own to today's spelling: words in snake case, types and modules in camel case.

usage: python3 tools/respell.py [--dry]     at the top, once, right after port.py

Names that are declared in specs/ or in the lemma files of proofs/ and begin with a lower-case letter lose their capitals and their dashes; names that
are or begin with a word in capitals lose their dashes. What Rattle names itself (the goals of proofs/F/) stays. Where a file has both a lemma and a definition that
would be spelled alike, the lemma gets `_lem` at its end, as in today's library; each of those is printed. The definitions' own conditional is
written `when .. then .. else ..`, since `if .. then .. else ..` is the library's.
"""
import glob
import re
import sys

NAME = r"[^\s(){}\[\].,;:\"`]+"
TOKEN = re.compile(NAME)


def snake(n):
    n = n.replace("-", "_")
    if re.match(r"[A-Z0-9_]+(_|$)", n):
        return n
    return re.sub(r"(?<=[a-z])(?=[A-Z])|(?<=[0-9])(?=[A-Z][a-z])", "_", n).lower()


def read(p):
    with open(p, encoding="utf-8") as f:
        return f.read()


def declared(paths):
    found = {}
    line = re.compile(r"(?m)^[ ]*(?:(?:pub|unfoldable|abbrev|mutual) )*(" + NAME + r"(?: " + NAME + r")*)(?: \{\u2113\})? :(?= |$)")
    for p in paths:
        for m in line.finditer(re.sub(r"(?m)--.*$", "", read(p))):
            for n in m.group(1).split():
                found.setdefault(n, set()).add(p)
    return found


def spellings():
    """Each name to be turned, with its new spelling."""
    antt = sorted(glob.glob("crates/*/specs/**/*.antt", recursive=True) + glob.glob("crates/*/proofs/**/*.antt", recursive=True))
    lemmas = [p for p in antt if "/specs/" in p or re.fullmatch(r"crates/\w+/proofs/\w+\.antt", p)]
    rt = sorted(glob.glob("crates/*/src/**/*.rt", recursive=True))
    files = {p: set(TOKEN.findall(read(p))) for p in antt + rt}
    made = {n for p in antt if p not in lemmas for n in declared([p])}
    own = declared(lemmas)
    table = {}
    for n in own:
        if re.match(r"[a-z]|[A-Z0-9_-]+$|[A-Z]-", n) and snake(n) != n and (re.search("[A-Z]", n) or n not in made or "specs" in str(own[n])):
            table[n] = snake(n)
    by_new = {}
    for n, m in table.items():
        by_new.setdefault(m, set()).add(n)
    for m, olds in sorted(by_new.items()):
        names = olds | ({m} & own.keys())
        if not any(len(names & t) > 1 for t in files.values()):
            continue
        # the definition keeps the plain spelling: one of specs/, else one with capitals, else the one that has it
        first = sorted(names, key=lambda n: (not any("/specs/" in p for p in own.get(n, ())), not re.search("[A-Z]", n), n != m, n))[0]
        for n in names - {first}:
            table[n] = m + "_lem"
            print(f"both: {first} and {n}: {m} and {table[n]}")
        if first == m:
            table.pop(m, None)
    return table, antt + rt + sorted(glob.glob("crates/*/must-fail/*.edit"))


def conditional(text):
    """Our conditional, which only unfolds where it is told to, under a name of its own; comments stay."""
    lines = []
    for line in text.split("\n"):
        m = re.search(r"(^|\s)--(\s|$)", line)
        at = m.start() if m else len(line)
        lines.append(re.sub(r"(?<![\w.'\u25cc-])if(?![\w'-])", "when", line[:at]) + line[at:])
    return "\n".join(lines)


def main(dry):
    table, paths = spellings()
    print(f"{len(table)} names")
    for p in [] if dry else paths:
        t = read(p)
        u = TOKEN.sub(lambda m: table.get(m.group(0), m.group(0)), t)
        u = conditional(u) if p.endswith(".antt") else u
        if u != t:
            with open(p, "w", encoding="utf-8") as f:
                f.write(u)


if __name__ == "__main__":
    main("--dry" in sys.argv)
