#!/usr/bin/env python3
"""Prints the places of docs/DESIGN-PASS.md, one line each: file:line text.

usage: python3 tools/places.py COMMIT|FOLDER [POINT..] [--again] [--counts]     in a clone

Points are 1 to 8, and all where none is named. COMMIT is any commit of the clone, FOLDER the top of a checkout, as `.`. --again finds
points 1, 2 and 3 in the other way; --counts prints a row for each crate in place of the places. Code and proofs are read as text:
nothing is built. What it prints is what has to be looked at, and the page names what of it is no place.
"""
import collections
import difflib
import glob
import io
import os
import re
import signal
import subprocess
import sys
import tarfile

NUMBER = r"(?:u8|u16|u32|u64|i32|i64|usize|isize)"
LITERAL = r"(?:\d[\w]*|b'[^']*'|" + NUMBER + r"::MAX|[A-Z][A-Z0-9_]+)"


# ---- reading

def files_of(what):
    """The files below crates/, by their paths."""
    if os.path.isdir(what):
        paths = glob.glob(os.path.join(what, "crates/*/src/**/*.rt"), recursive=True)
        paths += glob.glob(os.path.join(what, "crates/*/proofs/**/*.antt"), recursive=True)
        paths += glob.glob(os.path.join(what, "crates/*/specs/**/*.antt"), recursive=True)
        return {os.path.relpath(p, what): open(p, encoding="utf-8").read() for p in sorted(paths)}
    packed = subprocess.run(["git", "archive", what, "crates"], check=True, stdout=subprocess.PIPE).stdout
    with tarfile.open(fileobj=io.BytesIO(packed)) as t:
        return {m.name: t.extractfile(m).read().decode() for m in t if re.search(r"\.(rt|antt)$", m.name)}


def crate(path):
    return path.split("/")[1]


def masked(text):
    """The text with comments blank and the insides of strings gone, each character at its place; letters as b'x' stay."""
    def blank(m):
        t = m.group(0)
        if t.startswith("b'"):
            return re.sub(r"[(){}\[\]]", "_", t)
        return re.sub(r"[^\n]", " ", t) if t.startswith("//") else re.sub(r"(?<!^)[^\n\"]", "_", t)
    return re.sub(r"//[^\n]*|b?\"(?:\\.|[^\"\\])*\"|b?'(?:\\.|[^'\\\n])'", blank, text)


def closing(text, at):
    """The place of the bracket that closes the one at that place."""
    deep = 0
    for i in range(at, len(text)):
        if text[i] in "([{":
            deep += 1
        elif text[i] in ")]}":
            deep -= 1
            if deep == 0:
                return i
    return len(text) - 1


def angled(text, at):
    """The place behind the > that closes the < at that place."""
    deep = 0
    for i in range(at, len(text)):
        deep += (text[i] == "<") - (text[i] == ">" and text[i - 1] != "-")
        if deep == 0:
            return i + 1


def parts(text):
    """A list's parts, by the commas at its own level."""
    found, deep, last = [], 0, 0
    for i, c in enumerate(text):
        deep += (c in "([{<") - (c in ")]}" or c == ">" and text[i - 1] != "-")
        if c == "," and deep == 0:
            found.append(text[last:i])
            last = i + 1
    return [" ".join(p.split()) for p in found + [text[last:]] if p.strip()]


class Function:
    def __init__(self, path, text, m):
        self.path, self.name, self.at = path, m.group(1), m.start()
        opening = angled(text, m.end()) if text[m.end()] == "<" else m.end()
        end = closing(text, opening)
        self.params = parts(text[opening + 1:end])
        self.clauses, self.body, self.result = [], "", ""
        at = end + 1
        first = True
        while True:
            brace = re.compile(r"[{;]").search(text, at)
            if not brace or brace.group(0) == ";":
                break
            before = text[at:brace.start()]
            if first:
                self.result = re.sub(r"\b(requires|ensures|decreases|where)\b.*", "", before, flags=re.S).replace("->", "").strip()
                first = False
            shut = closing(text, brace.start())
            kind = re.search(r"\b(requires|ensures)\b[^{]*$", before)
            if kind:
                self.clauses.append((kind.group(1), " ".join(text[brace.start() + 1:shut].split()), brace.start()))
                at = shut + 1
                continue
            self.body, self.body_at = text[brace.start() + 1:shut], brace.start() + 1
            break


def functions(src):
    return [Function(p, t, m) for p, t in src.items() for m in re.finditer(r"\bfn (\w+)(?=[<(])", t)]


def types(src, kind):
    """Each struct or enum with its fields or variants: path, place, name, parts."""
    for p, t in src.items():
        for m in re.finditer(r"\b" + kind + r" (\w+)[^{;(]*\{", t):
            inside = re.sub(r"#\[[^\]]*\]", "", t[m.end():closing(t, m.end() - 1)])
            yield p, m.start(), m.group(1), [re.sub(r"^pub(\([a-z]+\))? ", "", x) for x in parts(inside) if not x.startswith("ghost ")]


def loops(src):
    """Each `while` and `loop`: path, place, head, body."""
    for p, t in src.items():
        for m in re.finditer(r"\bwhile\b[^{]*\{|\bloop \{", t):
            yield p, m.start(), m.group(0), t[m.end():closing(t, m.end() - 1)]


def shape(code, keep=()):
    """The code's words: names by the order in which they first come, numbers and letters as one."""
    seen, out = {}, []
    for w in re.findall(r"b'[^']*'|b?\"[^\"]*\"|\d\w*|\w+|[^\s\w]", code):
        if re.match(r"\d|b['\"]|\"", w) or w in ("true", "false"):
            out.append("#")
        elif re.match(r"\w", w) and w not in ("if", "else", "while", "loop", "for", "in", "match", "return", "let", "mut", "as", "break"):
            out.append(w if w in keep else "n%d" % seen.setdefault(w, len(seen)))
        else:
            out.append(w)
    return out


# ---- the points. Each gives (kind, path, place) of what it finds.

def errors(src):
    """The names that stand as the error of a Result."""
    return {m.group(1) for t in src.values() for m in re.finditer(r"Result<[^;{]*?,\s*(?:\w+::)*(\w+)>", t)}


def point1(src, fns):
    for p, at, name, variants in types(src, "enum"):
        if (len(variants) <= 3 or sum(bool(re.search(r"[({]", v)) for v in variants) == 1) and name not in errors(src):
            yield "enum", p, at
    for p, at, name, fields in types(src, "struct"):
        for m in re.finditer(r"\b\w+: bool\b", src[p][at:closing(src[p], src[p].index("{", at))]):
            yield "flag", p, at + m.start()
    for f in fns:
        for x in f.params:
            if re.search(r": bool$", x):
                yield "flag", f.path, f.at
        if f.params and re.fullmatch(NUMBER, f.result):
            exits = re.findall(r"(?:return|=>|unwrap_or\() *(" + LITERAL + r") *[;,)}]", f.body)
            exits += re.findall(r"(?m)^\s*(" + LITERAL + r")\s*$", f.body)
            if exits:
                yield "none", f.path, f.at
        for x in f.params:
            if re.match(r"(line|number|code|thing|place|letter|token|kind): " + NUMBER + "$", x):
                yield "kind", f.path, f.at
    for p, t in src.items():
        for m in re.finditer(r"\b(?:line|number|code|thing|place|letter|token|kind): " + NUMBER + r"\b", t):
            if not any(f.path == p and f.at < m.start() < f.at + len(t) and m.start() < t.index("{", f.at) for f in fns if f.path == p):
                yield "kind", p, m.start()
        for m in re.finditer(r"\bconst \w+: (u8|u32|u64|i32) = [\d']\w*;", t):
            yield "number", p, m.start()
        run = list(re.finditer(r"\bconst (\w+): usize = (\d);", t))
        for m in run:
            if len(run) >= 3 or re.search(r"\b[a-z]\w* [!=]= " + m.group(1) + r"\b", t):
                yield "number", p, m.start()
        for m in re.finditer(r"\bResult<[^;{]*?, *" + NUMBER + ">", t):
            yield "refusal", p, m.start()
        for m in re.finditer(r"\w+::(?:Alone|With)\((?:\d+|[\w:]*BAD)\b", t):
            yield "refusal", p, m.start()


def point1_again(src, fns):
    """By what functions answer and what callers ask: results that are an enum of our own, and comparisons with a number."""
    enums = {name: (p, at) for p, at, name, _ in types(src, "enum")}
    for f in fns:
        if re.fullmatch(r"\w+", f.result) and f.result in enums and f.result not in errors(src):
            yield "answers", f.path, f.at
    for f in fns:
        for m in re.finditer(r"\b(?:if|while) (?:\d+ (?:<|<=|==) [a-z][\w.]*|[a-z][\w.]* (?:==|!=|<|<=) (?:\d+|" + LITERAL + r")) \{", f.body):
            if "len()" not in m.group(0):
                yield "asks", f.path, f.body_at + m.start()
        for m in re.finditer(r"\b(?:if|&&|while) !?\w+\.(?:whole|going|works|gone|wrong)\b", f.body):
            yield "asks", f.path, f.body_at + m.start()


def alike(a, b, least):
    return min(len(a), len(b)) >= least * max(len(a), len(b)) and difflib.SequenceMatcher(None, a, b, False).ratio() >= least


def point2(src, fns):
    """By form: bodies of which nine words of ten are the same, whatever their names and numbers; names that differ in a width; types."""
    words = [(f, shape(re.sub(r" as " + NUMBER + r"\b", "", f.body))) for f in fns]
    words = [(f, w) for f, w in words if len(w) >= 6 and f.name not in ("from", "fmt")]
    groups = []
    for f, w in words:
        mine = [g for g in groups if any(len(f.params) == len(h.params) and alike(w, v, 0.9) for h, v in g)]
        groups = [g for g in groups if g not in mine] + [sum(mine, []) + [(f, w)]]
    plain = collections.defaultdict(list)
    for f in fns:
        plain[re.sub(r"\d+|(?:^|(?<=_))(?:word|long|short)s?(?=_|$)", "N", f.name).replace("N_upto", "upto")].append(f)
    twins = {f for g in groups if len(g) > 1 for f, _ in g}
    for name, g in plain.items():
        if name != "N" and len({f.name for f in g}) > 1:
            twins |= set(g)
    twins |= {f for f in fns if re.fullmatch(r"\w+ as \w+", " ".join(f.body.split()))}
    for f in fns:
        if f in twins:
            yield "function", f.path, f.at
    shapes = collections.defaultdict(list)
    for kind in ("struct", "enum"):
        for p, at, name, fields in types(src, kind):
            names = {re.match(r"\w+", x).group(0) for x in fields}
            form = sorted(re.sub(r"\w+", "t", x[re.match(r"\w+:?", x).end():]) for x in fields)
            shapes[kind, len(fields), "".join(form)].append((p, at, name, names))
    for (kind, n, form), group in shapes.items():
        for p, at, name, names in group:
            shared = any(names & others for q, i, _, others in group if (q, i) != (p, at))
            if n > 1 and (shared or kind == "enum" and form and len(group) > 1):
                yield kind, p, at


def point2_again(src, fns):
    """By how much of two bodies is the same, word by word: four words of five, with the names of types and numbers left out."""
    words = [(f, re.findall(r"\w+|[^\s\w]", re.sub(r"\b([A-Z]\w*|\d\w*|b'[^']*'|b?\"[^\"]*\"|" + NUMBER + r")\b", "T", f.body))) for f in fns]
    words = [(f, w) for f, w in words if len(w) >= 10]
    twin = collections.defaultdict(list)
    for i, (f, a) in enumerate(words):
        for g, b in words[i + 1:]:
            if alike(a, b, 0.8):
                twin[f].append(g)
                twin[g].append(f)
    for f in twin:
        yield "like " + ", ".join(sorted({crate(g.path) + " " + g.name for g in twin[f]})), f.path, f.at
    for kind in ("struct", "enum"):
        names = collections.defaultdict(list)
        for p, at, name, fields in types(src, kind):
            names[tuple(sorted(re.sub(r"[({:].*", "", x).strip() for x in fields))].append((p, at))
        for group in names.values():
            for p, at in group if len(group) > 1 else []:
                yield kind, p, at


def point3(src, fns):
    for p, at, head, body in loops(src):
        if re.search(r"\b[a-z]\w* [+-]= ", body) or re.search(r"\b(\w+) = \1 [+-] ", body):
            yield "counted", p, at
    for p, t in src.items():
        for m in re.finditer(r"\bfor (\w+) in [^{]*\.\.[^{]*\{", t):
            if re.search(r"\[" + m.group(1) + r"\b(?!\.\.)", t[m.end():closing(t, m.end() - 1)]):
                yield "range", p, m.start()


def point3_again(src, fns):
    """By what is read at a variable that the body moves, or that the head holds against a bound; and every other `while` and `loop`."""
    for p, at, head, body in loops(src):
        moved = set(re.findall(r"\b([a-z]\w*)(?: [+-])? ?= ", body))
        read = set(re.findall(r"\[\s*([a-z]\w*)", body)) | (set(re.findall(r"[a-z]\w*", head)) if "<" in head else set())
        yield "index" if moved & read else "other", p, at


def point4(src, fns):
    for f in fns:
        one = " ".join(f.body.split())
        if re.match(r"of_|.*_of$", f.name):
            yield "convert", f.path, f.at
        elif re.fullmatch(r"\w+ as \w+", one) or re.fullmatch(r"if \w+ < 0 \{ return 0; \} \w+ as \w+", one):
            yield "convert", f.path, f.at
        elif re.search(r"\* 256\b|<< 8\b", f.body) or re.search(r"- b'[0a-zA-Z]'", f.body):
            yield "convert", f.path, f.at
        elif re.search(r"\bio::(decimal|hex)\(", f.body):
            yield "print", f.path, f.at
        elif re.search(r"\w\[[^\]]*\] [!=]= \w+\[|\w\[\w+\] [!=]= [a-z]\w*\b|< b' '|<= b'~'", f.body):
            yield "equal", f.path, f.at
        elif re.search(r"\b(\w+): \w+\.\1\b", f.body) or len(re.findall(r"\w\[[^\]]*\] = |\blet (\w+) = \w+\.\1;", f.body)) >= 3:
            yield "copy", f.path, f.at
        elif re.search(r"\bmatch\b", f.body) and re.fullmatch(NUMBER, f.result) and re.search(r"=> \d", f.body):
            yield "convert", f.path, f.at
        elif re.search(r"(?s)\bwhile\b.*(?:\w+\[[^\]]*\] = |byte\(|append\()", f.body):
            yield "copy", f.path, f.at
    for p, t in src.items():
        for m in re.finditer(r"\bconst \w+: (?:\[u8; \d+\]|&\[u8\]|&str) = \*?b?\"", t):
            yield "print", p, m.start()
        for m in re.finditer(r"\btext::(?:number|value|hex|digits)\(", t):
            yield "print", p, m.start()
        for m in re.finditer(r"b\"[^\"]*[\^$%*#@&~][^\"]*\"", ALL[p]):
            if "fill::" in t and not re.search(r"const[^;]*$", t[:m.start()]):
                yield "print", p, m.start()


def conjuncts(clause):
    """A clause's parts at its own level, by ×."""
    found, deep, last = [], 0, 0
    for i, c in enumerate(clause):
        deep += (c in "([{") - (c in ")]}")
        if c == "×" and deep == 0:
            found.append(clause[last:i])
            last = i + 1
    return [re.sub(r"^\((.*)\)$", r"\1", x.strip()) for x in found + [clause[last:]]]


def plainly(f, fact):
    """A fact with a type in place of each parameter."""
    for x in f.params:
        name, _, kind = x.partition(": ")
        if kind:
            fact = re.sub(r"(?<![.\w])" + re.escape(name) + r"(?!\w)", re.sub(r"&(?:'\w+ )?(?:mut )?|; \w+", "", kind), fact)
    return re.sub(r"\.(?:now|old|new)\b", "", fact)


def point5(src, fns):
    facts = collections.defaultdict(dict)
    runs = collections.defaultdict(set)
    for f in fns:
        for kind, clause, at in f.clauses:
            for x in conjuncts(clause):
                facts[kind, plainly(f, x)].setdefault(f, at)
        f.kinds = [re.sub(r"&'\w+ ", "&", x) if not re.match(r"\w+: [A-Z]\w*$", x) else x.split(": ")[1] for x in f.params if not x.endswith("self")]
        for n in range(3, len(f.kinds) + 1):
            for i in range(len(f.kinds) - n + 1):
                runs[tuple(f.kinds[i:i + n])].add(f)
    for where in facts.values():
        for f, at in where.items() if len(where) >= 3 else []:
            yield "fact", f.path, at
    for f in fns:
        mine = [r for r, who in runs.items() if f in who and len(who) >= 3]
        if mine:
            longest = max(mine, key=lambda r: (len(r), len(runs[r])))
            yield "together, %d times: %s" % (len(runs[longest]), ", ".join(longest)), f.path, f.at


def point6(src, fns):
    for f in fns:
        for a, b in zip(f.params, f.params[1:]):
            if re.search(r": &(?:'\w+ )?(?:mut )?\[", a) and re.match(r"(count|many|len|have|n|used|k): usize$", b):
                yield "length beside", f.path, f.at
        for m in re.finditer(r"\bupto\(", f.body):
            yield "length beside", f.path, f.body_at + m.start()
        if re.search(r": &(?:mut )?\[u64", " ".join(f.params)) and re.search(r": &(?:mut )?\[u32", " ".join(f.params)):
            yield "parallel", f.path, f.at
    for p, at, name, fields in types(src, "struct"):
        if any(re.match(r"(used|len|count|many|size|read|end): (usize|u32)", x) for x in fields):
            yield "length beside", p, at
    for p, at, name, variants in types(src, "enum"):
        for v in variants:
            if re.search(r"\{ start: usize, len: usize \}", v):
                yield "place and length", p, at
    for p, t in src.items():
        for m in re.finditer(r"\bconst \w+: \[u8; \d+\] = \*b\"", t):
            end = t.index("\";", m.end())
            if ALL[p].count("\n", m.start(), end) + ALL[p].count("\\n", m.start(), end) > 1:
                yield "list of lines", p, m.start()
        for m in re.finditer(r"\bNONE\b(?! as none)", t):
            if not re.match(r"\s*(?:#|ghost|use|pub const|const|requires|ensures|≡)", t[t.rfind("\n", 0, m.start()) + 1:]):
                yield "arena", p, m.start()


def point7(src, fns):
    """Each `match` of which two arms or more are a call and nothing else, and each `if` on a letter, a width or a flag that does so."""
    for f in fns:
        for m in re.finditer(r"\bmatch ([^{]*)\{", f.body):
            inside = f.body[m.end():closing(f.body, m.end() - 1)]
            arms = re.findall(r"(?m)^\s*([^=\n]*?) => (?:\{\s*(?:let [^;]*;)?)?\s*((?:\w+::)*[a-z]\w*|\w+(?:\.\w+\(\))*\.\w+)\(", inside)
            if len({a[1] for a in arms}) >= 2 and not any(re.search(r"\b(Ok|Err|Some)\b", a[0]) for a in arms):
                yield "match", f.path, f.body_at + m.start()
        for m in re.finditer(r"\bif (?:\w+ == (?:b'.'|[A-Z]\w+)|is_\w+|!?\w+\.(?:wrong)) \{\s*return (?:\w+::)*[a-z]\w*\(", f.body):
            yield "if", f.path, f.body_at + m.start()
    for p, t in src.items():
        for m in re.finditer(r"\[(?:fn|impl Fn|dyn)\b|: fn\(", t):
            yield "table", p, m.start()


TACTIC = r"\(?(?:search|grind|omega|simp|cc|rw|refl|arith|rules|common_steps|[(),\s]|unfolding [\w.]+)+\)?"


ANSWER = re.compile(r"(?m)^(\w[^\s]*(?: [^\s=]+)*) = *((?:.*)(?:\n[ ]+.*)*)")


def point8(src, fns):
    antt = {p: t for p, t in ALL.items() if p.endswith(".antt") and "/proofs/" in p}
    for p, t in antt.items():
        if p.endswith("Answers.antt"):
            for m in ANSWER.finditer(t):
                said = re.sub(r"--.*", "", m.group(2)).strip()
                if re.fullmatch(TACTIC, said):
                    yield "alone", p, m.start()
    own = set(re.findall(r"(?m)^\s*(?:(?:pub|unfoldable|abbrev|record|data) )+([^\s:{(]+)", "\n".join(t for p, t in ALL.items() if "/specs/" in p)))
    own |= {name for kind in ("struct", "enum") for _, _, name, _ in types(src, kind)}
    own |= set(re.findall(r"(?m)^(?:pub )?(?:record |data )?([A-Z]\w*)(?= |$)", "\n".join(antt.values())))
    for p, t in antt.items():
        if not p.endswith(("Answers.antt", "Invariants.antt", "Lib.antt")):
            for m in re.finditer(r"(?m)^(?:pub )?([^\s:]+)(?: \{[^}]*\})* : (.*(?:\n[ ]+.*)*)", t):
                said = set(re.findall(r"[^\s(){}.,]+", re.sub(r"--.*", "", m.group(2))))
                says = re.search(r"≡|≤|<|⊥|⊎|≢|→ X$", m.group(2).rsplit("→ ", 1)[-1]) or m.group(2).endswith("→ X")
                if says and not said & own and not m.group(1).startswith(("use", "module")):
                    yield "library?", p, m.start()
    seen = collections.defaultdict(list)
    for p, t in antt.items():
        if p.endswith("Answers.antt"):
            for m in ANSWER.finditer(t):
                said = " ".join(re.sub(r"--.*", "", m.group(2)).split())
                if len(said) >= 40 and not re.fullmatch(TACTIC, said):
                    seen[said].append((p, m.start()))
    for said, where in seen.items():
        for p, at in where if len(where) >= 3 else []:
            yield "repeat", p, at


# ---- printing

POINTS = [point1, point2, point3, point4, point5, point6, point7, point8]
AGAIN = [point1_again, point2_again, point3_again]
ALL = {}


def found(n, again, src, fns):
    """A point's places: kind, path, line, text; a place that is found twice counts once in a kind."""
    out = {}
    for kind, p, at in (AGAIN if again else POINTS)[n - 1](src, fns):
        line = ALL[p].count("\n", 0, at) + 1
        text = ALL[p].split("\n")[line - 1].strip()
        out.setdefault((kind, p, line), text)
    return sorted(((k, p, line, text) for (k, p, line), text in out.items()), key=lambda x: (x[0].split(",")[0], x[1], x[2]))


def main(args):
    again, counts = "--again" in args, "--counts" in args
    words = [a for a in args if not a.startswith("--")]
    ALL.update(files_of(words[0]))
    src = {p: masked(t) for p, t in ALL.items() if p.endswith(".rt")}
    fns = functions(src)
    points = [int(w) for w in words[1:]] or list(range(1, 4 if again else 9))
    table = {n: found(n, again, src, fns) for n in points}
    for n in [] if counts else points:
        print("== point %d: %d" % (n, len(table[n])))
        for kind, p, line, text in table[n]:
            print("%s:%d [%s] %s" % (p, line, kind, text))
    names = sorted({crate(p) for p in ALL})
    if counts:
        print("| crate | " + " | ".join(str(n) for n in points) + " |")
        print("|---|" + "---|" * len(points))
        for c in names:
            row = [sum(crate(p) == c for _, p, _, _ in table[n]) for n in points]
            print("| %s | " % c + " | ".join(str(x or "") for x in row) + " |")
        print("| all | " + " | ".join(str(len(table[n])) for n in points) + " |")


if __name__ == "__main__":
    signal.signal(signal.SIGPIPE, signal.SIG_DFL)
    main(sys.argv[1:])
