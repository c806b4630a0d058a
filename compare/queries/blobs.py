# Blobs for T lines: trees laid out, document 01's frame S, what is close to it, and what is refused for depth and room.
from pathlib import Path

from queries.lines import DEPTH, ROOM


def word(n):
    return n.to_bytes(4, "big")


def padded(data):
    return data + bytes(-len(data) % 4)


# A node with its properties (name and value) and children.
def node(name, props=(), children=()):
    return (name, list(props), list(children))


# Nodes one inside another.
def chain(depth, inner):
    for _ in range(depth - 1):
        inner = node(b"n", [], [inner])
    return inner


# The same, each behind a node that holds nothing: deep only at its end.
def comb(depth, inner):
    for _ in range(depth - 1):
        inner = node(b"n", [], [leaf(b"a"), inner])
    return inner


def structure(tree, strings):
    name, props, children = tree
    out = word(1) + padded(name + b"\0")
    for key, value in props:
        at = strings.find(key + b"\0")
        if at < 0:
            at = len(strings)
            strings += key + b"\0"
        out += word(3) + word(len(value)) + word(at) + padded(value)
    for child in children:
        out += structure(child, strings)
    return out + word(2)


# A header, reservations, the structure and the strings. The last reservation has the size 0.
def blob(tree, reserved=((0, 0),), boot=0, end=word(9), order="rts"):
    strings = bytearray()
    body = structure(tree, strings) + end
    blocks = {"r": b"".join(a.to_bytes(8, "big") + b.to_bytes(8, "big") for a, b in reserved), "t": body, "s": padded(bytes(strings)) + b"\0"}
    at, places = 40, {}
    for block in order:
        places[block] = at
        at += len(blocks[block])
    words = [0xD00DFEED, at, places["t"], places["s"], places["r"], 17, 16, boot, len(strings), len(body)]
    return b"".join(map(word, words)) + b"".join(blocks[block] for block in order)


def with_word(data, at, n):
    return data[:at] + word(n) + data[at + 4 :]


def with_byte(data, at, n):
    return data[:at] + bytes([n]) + data[at + 1 :]


# Document 01's frame S.
def frame_s():
    words = [0xD00DFEED, 0x66, 0x38, 0x64, 0x28, 0x11, 0x10, 0, 2, 0x2C, 0, 0, 0, 0, 1, 0, 3, 4, 0, 0x2A, 1, 0x62000000, 2, 2, 9]
    return b"".join(map(word, words)) + b"u\0"


# The sample whose nodes nest 23 deep.
def daisy_chain():
    return (Path(__file__).parents[2] / "samples/daisy-chain.dtb").read_bytes()


def leaf(name):
    return node(name)


def small_trees():
    yield leaf(b"")
    yield leaf(b"a-name-of-its-own")
    yield node(b"", [(b"p", b"1"), (b"p", b"2")], [leaf(b"t"), leaf(b"t"), node(b"t", [(b"q", b"")])])
    yield node(b"", [], [leaf(bytes([97 + k])) for k in range(9)])
    yield node(b"root", [(b"a", b""), (b"ba", b"1"), (b"cba", b"12"), (b"", b"123"), (b"a", b"\0\0\0\1")])
    yield node(b"\xc3\xa9", [(b"\xe2\x82\xac", b"\xff\xfe"), (b"\xf0\x9f\x98\x80", b"x\0")], [leaf(b"\xed\x9f\xbf")])
    yield node(b"", [(b"v", word(1) + word(2) + word(3) + word(9))], [leaf(b"x"), leaf(b"y")])
    yield node(b"", [(b"m", b"abc")], [node(b"c", [(b"m", b"d")], [leaf(b"")]), node(b"", [(b"n", b"")])])
    yield node(b"", [(b"u", b"1234")], [node(b"b", [(b"u", b"12345678")], [node(b"c", [(b"u", b"s\0")])]), leaf(b"b")])
    yield chain(15, leaf(b"in"))
    yield chain(16, node(b"in", [(b"u", b"v")]))


# A frame S with one thing changed: each word and each byte, shorter and longer.
def neighbours():
    s = frame_s()
    for at in range(0, 100, 4):
        for n in (0, 1, 2, 3, 4, 9, 0x11, 0x28, 0x38, 0x63, 0x64, 0x65, 0x66, 0x7FFFFFFF, 0xFFFFFFFF):
            if n % 4 == at // 4 % 4 or n in (0, 9, 0xFFFFFFFF):
                yield with_word(s, at, n)
    for at in range(36, 102):
        yield with_byte(s, at, (s[at] + 1) % 256)
    for at in range(56, 102, 3):
        yield with_byte(s, at, 0xFF)
    for size in range(0, 102, 3):
        yield s[:size]
        if 8 <= size:
            yield with_word(s[:size], 4, size)
    yield with_word(s + b"\0", 4, 103)
    yield s + b"\0"


# Loads that are refused for depth and for room, and those that just are not.
def limits():
    yield daisy_chain()
    for depth in (*range(DEPTH - 2, DEPTH + 3), 2 * DEPTH):
        yield blob(chain(depth, leaf(b"in")))
        yield blob(comb(depth, leaf(b"in")))
    # A bad name at the limit, one that would be past it, and those around a node too deep: a node's comes after it, a property's before.
    yield blob(chain(DEPTH, leaf(b"\xff")))
    yield blob(chain(DEPTH + 1, leaf(b"\xff")))
    yield blob(chain(2, node(b"\xff", [], [chain(DEPTH - 1, leaf(b"in"))])))
    yield blob(chain(DEPTH, node(b"n", [(b"\xff", b"")], [leaf(b"in")])))
    # A branch that is too deep before one with a bad name.
    yield blob(node(b"", [], [chain(DEPTH - 1, leaf(b"a")), chain(DEPTH, leaf(b"b")), leaf(b"\xff")]))
    # The token that opens one too deep ends the blob, and is not whole.
    for size in (60 + 8 * DEPTH, 59 + 8 * DEPTH):
        yield with_word(blob(chain(DEPTH + 1, leaf(b"in")))[:size], 4, size)
    for n in (64, 65, 66):
        yield blob(leaf(b""), [(k, 1) for k in range(n - 1)] + [(0, 0)])
    for n in (512, 513, 514):
        yield blob(node(b"", [], [leaf(b"")] * (n - 1)))
        yield blob(node(b"", [(b"u", b"")] * n))
    # More than one table is short of room: reservations, then nodes, then properties.
    yield blob(node(b"", [], [leaf(b"")] * 512), [(k, 1) for k in range(64)] + [(0, 0)])
    yield blob(node(b"", [(b"u", b"")] * 100, [leaf(b"")] * 512))
    # A blob of the greatest length, and one more.
    for size in (ROOM, ROOM + 1):
        yield with_word(frame_s() + bytes(size - 102), 4, size)
    # Not UTF-8: a name of a node, of a property.
    yield blob(node(b"", [], [leaf(b"\x80")]))
    yield blob(node(b"", [(b"\xc0\x80", b"")]))
    yield blob(node(b"\xed\xa0\x80", [(b"a", b"")], [leaf(b"b")]))
