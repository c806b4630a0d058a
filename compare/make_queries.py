#!/usr/bin/env python3
# Writes query lines for the readers, the UTF-8 check, the loads and the lookups to standard output; readers.rs answers them.
# With no argument: the stored list. With SEED COUNT: that many random lines, the same for the same seed.
import random
import sys

sys.dont_write_bytecode = True

from queries import lookups, rows
from queries.blobs import blob, frame_s, leaf, limits, neighbours, node, small_trees, with_byte, with_word, word
from queries.lines import NAME, ROOM, TOP, text, unique

# RFC 3629 section 4, and the Unicode Standard's Table 3-7: the ranges of the bytes of a well-formed sequence, row by row.
TAIL = (0x80, 0xBF)
ROWS = [
    [(0x00, 0x7F)],
    [(0xC2, 0xDF), TAIL],
    [(0xE0, 0xE0), (0xA0, 0xBF), TAIL],
    [(0xE1, 0xEC), TAIL, TAIL],
    [(0xED, 0xED), (0x80, 0x9F), TAIL],
    [(0xEE, 0xEF), TAIL, TAIL],
    [(0xF0, 0xF0), (0x90, 0xBF), TAIL, TAIL],
    [(0xF1, 0xF3), TAIL, TAIL, TAIL],
    [(0xF4, 0xF4), (0x80, 0x8F), TAIL, TAIL],
]


def around(n):
    return [x for x in (n - 1, n, n + 1) if 0 <= x <= TOP]


# Values and steps where the sum just fits and just passes the range.
def aligns():
    steps = [0, 1, 2, 3, 4, 5, 7, 8, 16, 1000, 2**31, 2**32, 2**63 - 1, 2**63, 2**63 + 1, TOP - 1, TOP]
    for to in steps:
        values = set(range(10)) | {2**31, 2**32 - 1, 2**32, 2**63 - 1, 2**63, 2**63 + 1, TOP - 1, TOP}
        values |= set(around(to))
        if 0 < to:
            last = TOP - TOP % to
            values |= set(around(last)) | set(around(max(last - to, 0)))
            values |= set(range(TOP - 9, TOP + 1))
        for val in sorted(values):
            yield f"A {val} {to}"


# Positions at, before and past the end of size bytes, and at the end of the range.
def positions(size):
    near = [x for n in (0, size - 8, size - 4, size) for x in around(n) if n >= 0]
    far = [2**32 - 1, 2**32, 2**63] + [TOP - k for k in (8, 7, 4, 3, 1, 0)]
    return sorted(set(near + far))


def words():
    for size in list(range(13)) + [15, 16, 17, 33]:
        for pos in positions(size):
            yield f"W {text([17 * k + 1 & 255 for k in range(size)])} {pos}"
            yield f"L {text([17 * k + 1 & 255 for k in range(size)])} {pos}"
    # Each byte counts at its place.
    for size, letter in ((4, "W"), (8, "L")):
        for data in ([0] * size, [255] * size, [127] + [255] * (size - 1)):
            yield f"{letter} {text(data)} 0"
        for k in range(size):
            for x in (1, 128, 255):
                yield f"{letter} {text([0] * k + [x] + [0] * (size - 1 - k))} 0"


def strings():
    cases = [
        b"", b"\0", b"a", b"a\0", b"\0a", b"\0\0", b"ab\0", b"\0ab", b"a\0b", b"a\0b\0", b"abcdefg", b"abcdefg\0",
        b"\0abcdefg", b"abc\0defg", b"abc\0\0\0\0d", b"ab\0cd\0ef\0gh", b"\0\0\0\0", b"\xff\0\xfe", b"\x01\0\x80\0",
        b"x" * 40 + b"\0", b"x" * 40, b"x" * 40 + b"\0" + b"y" * 40,
    ]
    for data in cases:
        for pos in sorted(set(range(len(data) + 2)) | set(positions(len(data)))):
            yield f"Z {text(data)} {pos}"


def parts():
    for size in (0, 1, 2, 3, 8, 20):
        data = [65 + k for k in range(size)]
        ends = sorted({x for n in (0, size) for x in around(n)} | {size // 2, 2**32, 2**63, TOP - 1, TOP})
        for start in ends:
            for end in ends:
                yield f"S {text(data)} {start} {end}"


# Every byte of the row's first range; of each later place both sides of both ends, the others valid.
def boundaries(row):
    for first in range(row[0][0], row[0][1] + 1):
        for rest in ([r[0] for r in row[1:]], [r[1] for r in row[1:]]):
            yield [first] + rest
            for k, (low, high) in enumerate(row[1:]):
                for x in (low - 1, low, high, high + 1):
                    yield [first] + rest[:k] + [x] + rest[k + 1 :]


# One short text for each row and each side of each later range.
def samples():
    for row in ROWS:
        good = [r[0] for r in row]
        yield good
        for k in range(1, len(row)):
            low, high = row[k]
            for x in (low - 1, low, high, high + 1):
                yield good[:k] + [x] + good[k + 1 :]
            yield good[:k]


# The sequences of the table, and those that it leaves out.
def sequences():
    yield []
    for first in range(256):
        for tails in range(5):
            yield [first] + [0x80] * tails
    for row in ROWS:
        yield from boundaries(row)
    # Every second byte from 7F to C0 where the table narrows it.
    for first, size in ((0xE0, 3), (0xED, 3), (0xF0, 4), (0xF4, 4)):
        for second in range(0x7F, 0xC1):
            yield [first, second] + [0x80] * (size - 2)
    # Cut short, at the end and before other text.
    for row in ROWS[1:]:
        for first in range(row[0][0], row[0][1] + 1):
            for size in range(1, len(row)):
                for ends in (0, 1):
                    cut = [first] + [r[ends] for r in row[1:size]]
                    yield cut
                    yield cut + [0x61]
                    yield cut + [first]


# The RFC's own examples, the ends of the code points, and text around a sequence.
def texts():
    for data in (
        "41e289a2ce912e", "ed959ceab5adec96b4", "e697a5e69cace8aa9e", "efbbbff0a38eb4", "c080", "2fc0ae2e2f",
        "f48fbfbf", "f4908080", "efbfbe", "efbfbf", "eda080", "edadbf", "edae80", "edafbf", "edb080", "edbfbf",
        "eda080edb080", "edadbfedbfbf", "ee8080", "ed9fbf", "00", "7f", "c280", "dfbf", "e0a080", "f0908080",
    ):
        yield bytes.fromhex(data)
    for middle in samples():
        yield [0x61] + middle
        yield middle + [0x7A]
        yield [0x61] + middle + [0x7A]
        yield [0xC3, 0xA9] + middle + [0xF0, 0x9F, 0x98, 0x80]
        yield middle + middle
    # A fault at every place of a longer text.
    for before in range(36):
        yield [0x61] * before + [0xFF] + [0x62] * (36 - before)
        yield [0x61] * before + [0xE2, 0x82, 0xAC] + [0x62] * (33 - before if before < 33 else 0)
        yield [0x61] * before + [0xE2, 0x82]


def checks():
    for data in sequences():
        yield f"U {text(data)}"
    for data in texts():
        yield f"U {text(data)}"


def loads():
    s = text(frame_s())
    asks = [("2f62", "75"), ("-", "-"), ("2F", "75"), ("2f62", "7500"), ("62", "-"), ("ff", "ff")]
    for path, name in asks:
        yield f"T {s} {path} {name}"
    yield f"T {s.upper()} 2f62 75"
    for tree in small_trees():
        for order in ("rts", "tsr", "str"):
            yield f"T {text(blob(tree, order=order))} 2f62 75"
        yield f"T {text(blob(tree, [(1, 2), (TOP, TOP), (4096, 0)], 0xFFFFFFFF, b''))} 2f 6d"
    for data in list(neighbours()) + list(limits()):
        yield f"T {text(data)} 2f62 75"


# T lines that are bad: a field missing, too many, too long or misspelled.
def bad_loads():
    s = text(frame_s())
    yield from [f"T {s}", f"T {s} 2f62", f"T {s} 2f62 75 -", f"T {s} 2f62 75 ", f"T  {s} 2f62 75", f"T {s}  75", f"T {s} 2f62  75"]
    yield from [f"t {s} 2f62 75", f" T {s} 2f62 75", f"TT {s} 2f62 75", f"T{s} 2f62 75", f"T\t{s} 2f62 75", f"T {s} 2f62 75\r"]
    yield from ["T", "T ", "T -", "T - -", "T - - -", "T - - - -", "T -  -", "T - - ", "T 0 - -", "T - 0 -", "T - - 0"]
    yield from [f"T {s[1:]} 2f62 75", f"T {s[:-1]}g 2f62 75", f"T {s} 2g 75", f"T {s} 2f6 75", f"T {s} 2f62 7", f"T {s} 2f62 7g", f"T {s} -- 75"]
    for size in (NAME, NAME + 1):
        yield f"T {s} {'61' * size} 75"
        yield f"T {s} 2f62 {'61' * size}"
    yield f"T {s} {'61' * NAME} {'62' * NAME}"
    yield f"T {s} {'61' * ROOM} 75"
    yield f"T {'00' * (ROOM + 1)} - -"
    yield f"T {s} 2f62 75"


# Lines as long as a good one may be, and one more.
def sizes():
    for letter, rest in (("U", ""), ("W", f" {ROOM - 4}"), ("L", f" {ROOM - 8}"), ("Z", " 0"), ("S", f" 0 {ROOM - 1}")):
        yield f"{letter} {'61' * ROOM}{rest}"
    yield f"W {'61' * ROOM} {ROOM - 3}"
    yield f"Z {'61' * (ROOM - 1)}00 0"
    yield f"S {'61' * ROOM} 0 {ROOM}"
    yield f"U {'61' * (ROOM + 1)}"
    yield f"U {'61' * ROOM}6"
    yield f"Z {'00' * (ROOM + 1)} 0"
    # Longer than any good line; the next line counts again.
    for size in (65530, 66100, 131100):
        yield "U " + "6" * size
        yield "U 6161"
    yield " " * 70000
    yield "A 7 8"


# Lines of each letter that are good, to be spoiled.
GOOD = ["A 5 4", "W 00000001 0", "L 0000000000000001 0", "Z 6100 0", "S 616263 1 2", "U 6162"]


def spoiled(line):
    fields = line.split(" ")
    yield line + " "
    yield " " + line
    yield line + "\r"
    yield "\t" + line
    yield line.replace(" ", "\t")
    yield line.lower() if line.lower() != line else line.upper()
    yield line + " 0"
    yield line + " -"
    yield fields[0]
    yield fields[0] + " "
    yield fields[0] + fields[0] + line[1:]
    yield line[0] + line[2:]
    for k in range(1, len(fields)):
        yield " ".join(fields[:k] + fields[k + 1 :])
        yield " ".join(fields[:k] + [""] + fields[k:])
        yield " ".join(fields[:k] + [""] + fields[k + 1 :])


# A field with what may not stand there, and what just may.
def fields():
    bad = ["-", "--", "+1", "-1", "0x1", "1.", "1,0", "a", "g", "1a", " ", "1 ", "1\r", "1\x0b", "/", ":", "1_0"]
    wide = ["18446744073709551615", "18446744073709551616", "18446744073709551620", "18446744073709551609", "99999999999999999999"]
    wide += ["184467440737095516150", "018446744073709551615", "00000000000000000001", "000000000000000000001", "0" * 20, "0" * 21]
    wide += ["28446744073709551615", "20000000000000000000", "19000000000000000000", "18446744073709551700", "00", "007"]
    wide += ["1" * 20, "9" * 19, "1" * 40, "0" * 1000]
    for x in bad + wide:
        yield f"A {x} 4"
        yield f"A 4 {x}"
        yield f"W 00000001 {x}"
        yield f"L 0000000000000001 {x}"
        yield f"Z 6100 {x}"
        yield f"S 6162 {x} 1"
        yield f"S 6162 0 {x}"
    hexes = ["0", "000", "0g", "g0", "61 62", "--", "-61", "61-", "0x61", "6G", "@0", "0@", "`0", "0`", "/0", "0/", ":0", "0:"]
    hexes += ["G0", "0G", "61\r", "6\r", "\xe9", "+1", "aF", "Fa", "AbCdEf", "abcdef", "ABCDEF", "fF00Ff", "", "-", "_1", "61_", "610"]
    for x in hexes:
        yield f"U {x}"
        yield f"W {x} 0"
        yield f"L {x} 0"
        yield f"Z {x} 0"
        yield f"S {x} 0 0"


def bad_lines():
    yield from ["", "", " ", "-", "0", "16", "\r", "\t", "#", "A", "\xe9"]
    for k in range(33, 127):
        yield chr(k)
        yield f"{chr(k)} 00 0"
    for line in GOOD:
        yield from spoiled(line)
    yield from fields()
    for x in ("\x00", "\x01", "\x7f"):
        for line in GOOD:
            yield x + line
            yield line + x
            yield line.replace(" ", x)
            yield line.replace(" ", " " + x)


# The last line has no line end.
def stored():
    lines = []
    for part in (aligns, words, strings, parts, checks):
        lines += unique(part())
    lines += list(bad_lines()) + list(sizes()) + unique(loads()) + list(bad_loads())
    lines += unique(lookups.lines(list(samples()))) + unique(rows.lines()) + unique(rows.bad_fields()) + unique(spoiled(rows.GOOD)) + GOOD
    return "\n".join(lines)


def random_bytes(r, most):
    size = r.choice([r.randrange(10), r.randrange(most + 1)])
    some = r.choice([range(256), [0, 1], [0, 97, 98], [0, 0x80, 0xFF]])
    return [r.choice(some) for _ in range(size)]


def random_number(r, size):
    near = [size, size + 1, size - 1, size - 4, size - 8, size - 3, size - 7, r.randrange(12)] + [r.randrange(size + 2) for _ in range(6)]
    far = [TOP - r.randrange(12), r.randrange(TOP + 1), 2 ** r.randrange(64), 2 ** r.randrange(1, 65) - 1]
    return max(0, r.choice(near + near + far))


# A text of sequences from the table, at times with a byte changed, put in, or left out.
def random_text(r):
    out = []
    for _ in range(r.choice([1, 1, 2, 3, 8, 20])):
        row = r.choice(ROWS)
        one = [r.choice([low, high, r.randrange(low, high + 1)]) for low, high in row]
        fault = r.randrange(12)
        at = r.randrange(len(one))
        if fault == 0:
            one[at] = r.choice([one[at] ^ 1 << r.randrange(8), r.randrange(256), row[at][0] - 1 & 255, row[at][1] + 1 & 255])
        elif fault == 1:
            one = one[:at]
        elif fault == 2:
            one.insert(at, r.choice([0x80, 0xBF, r.randrange(256)]))
        out += one
    return out


# A blob, at times with a few bytes or words changed, cut or made longer.
def damaged(r, data):
    for _ in range(r.choice([0, 0, 0, 0, 0, 1, 1, 2, 5])):
        at = r.randrange(len(data))
        change = r.randrange(4)
        if change == 0:
            data = with_byte(data, at, r.choice([0, 1, 2, 3, 9, 255, r.randrange(256)]))
        elif change == 1:
            data = with_word(data, at - at % 4, r.choice([0, 1, 2, 3, 4, 9, at, len(data), r.randrange(2**32)]))
        elif change == 2:
            data = data[: at - at % 4] + r.choice([word(1) + word(0) + word(2), word(2), word(3), data[:at]]) + data[at - at % 4 :]
        else:
            data = data[:at]
        if len(data) < 8 or ROOM < len(data):
            return data[:ROOM]
        data = with_word(data, 4, len(data)) if r.randrange(8) else data
    return data


# A load of a small tree, and mostly a path and a name that it has.
def random_load(r, trees):
    tree = r.choice(trees)
    data = damaged(r, blob(tree, order=r.choice(["rts", "rts", "rts", "tsr", "tsr", "str"])))
    path, name = lookups.random_asked(r, tree)
    if r.randrange(8) == 0:
        path, name = random_bytes(r, 12), random_bytes(r, 12)
    return lookups.line(data, path, name)


# Frame S's tree, those of the stored list, and some in which a lookup can go wrong.
def random_trees():
    twin = node(b"t", [(b"p", b"1")], [leaf(b"x"), node(b"x", [(b"q", b"22\0")], [leaf(b"y")])])
    yield node(b"", [(b"u", word(42))], [leaf(b"b")])
    yield from small_trees()
    yield node(b"", [(b"p", b""), (b"p", b"text\0"), (b"q", word(1) + word(2))], [leaf(b"t"), twin, node(b"tt", [], [twin]), leaf(b"")])
    yield node(b"", [(b"reg", word(9)), (b"reg-names", b"a\0b\0"), (b"re", b"\xff\0")], [leaf(b"cpu"), node(b"cpu@1", [(b"reg", b"abc")], [twin])])


def random_line(r, trees=list(random_trees())):
    letter = r.choice("AWLZSUUUTTTTRRRR")
    if letter == "T":
        return random_load(r, trees)
    if letter == "R":
        return rows.random_line(r, trees)
    if letter == "U":
        return f"U {text(random_text(r) if r.randrange(4) else random_bytes(r, 12))}"
    if letter == "A":
        to = r.choice([1, 2, 3, 4, 8, random_number(r, 16), random_number(r, 16), 0])
        return f"A {r.choice([random_number(r, 64), TOP - random_number(r, 16) % 64, to, to and TOP - TOP % to])} {to}"
    data = random_bytes(r, 60)
    if r.randrange(2000) == 0:
        data = [r.choice([0, 1, 97]) if r.randrange(99) == 0 else 97 for _ in range(r.choice([ROOM - 1, ROOM, ROOM + 1, r.randrange(ROOM)]))]
    pos = random_number(r, len(data))
    if letter == "S":
        return f"S {text(data)} {pos} {random_number(r, len(data))}"
    return f"{letter} {text(data)} {pos}"


# A line with a few characters changed, put in, left out or doubled.
def scratched(r, line):
    for _ in range(r.choice([1, 1, 2, 5])):
        at = r.randrange(len(line) + 1)
        x = r.choice(["", " ", "-", "0", "9", "f", "F", "g", "\r", "\x00", chr(r.randrange(11, 256)), line[at : at + 1] * 2])
        line = line[:at] + x + line[at + r.randrange(2) :]
    return line


def mixed_case(r, line):
    return line[:1] + "".join(r.choice([c.upper(), c.lower()]) for c in line[1:])


def random_lines(seed, count):
    r = random.Random(seed)
    for _ in range(count):
        line = random_line(r)
        if r.randrange(4) == 0:
            line = mixed_case(r, line)
        if r.randrange(6) == 0:
            line = scratched(r, line)
        yield line
        if r.randrange(20000) == 0:
            yield r.choice("U0 ") * r.choice([65000, 66000, 70000, 200000])


if len(sys.argv) == 3:
    for each in random_lines(int(sys.argv[1]), int(sys.argv[2])):
        sys.stdout.buffer.write(each.encode("latin-1") + b"\n")
else:
    sys.stdout.buffer.write(stored().encode("latin-1"))
