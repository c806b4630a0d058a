# T lines for the lookups: document 01's paths and properties, and trees in which a wrong lookup answers something else.
from itertools import product

from queries.blobs import blob, chain, comb, daisy_chain, frame_s, leaf, node, small_trees, word
from queries.lines import DEPTH, NAME, text


def line(data, path, name):
    return f"T {text(data)} {text(path)} {text(name)}"


# The path that names lead along from a node. The empty path is the node itself, so a `/` follows an empty last name.
def joined(names):
    return b"/".join(names) + (b"/" if names and not names[-1] else b"")


# Every node of a tree with its tree path.
def walk(tree, names=()):
    yield b"/" + joined(names), tree
    for child in tree[2]:
        yield from walk(child, names + (child[0],))


# Every node, with the names of its properties and one that it has not.
def everywhere(tree, **layout):
    data = blob(tree, **layout)
    for path, (_, props, _) in walk(tree):
        for name in [key for key, _ in props] + [b"none"]:
            yield line(data, path, name)


# "Paths in S" and "`u` at the root", and what is close to those.
def in_s():
    s = frame_s()
    paths = [b"/", b"/b", b"/b/", b"", b"b", b"//", b"/b//", b"///", b"//b", b"/b/b", b"/b//b", b"b/", b"/B", b"/bb", b"/bb/", b"/b\0"]
    paths += [b"/\0", b"\0", b"/b/\0", b" /b", b"/ b", b"/b ", b"/u", b"/.", b"/./b", b"/b/.", b"/b/..", b"\\b", b"/b\\"]
    paths += [b"/\xff", b"/b\xff", b"\xff", b"\xff/b", b"/b/\xff", b"/\xff/b", b"/b/\xff/", b"/\xc3\xa9", b"/\xe2\x82", b"/\xaf", b"\xaf"]
    for path in paths:
        yield line(s, path, b"u")
    names = [b"u", b"", b"U", b"uu", b"u\0", b"\0", b"/", b"b", b"u/", b"/u", b" u", b"u ", b"t", b"v", b"\xff", b"u\xff", b"\xffu", b"\xc3\xa9"]
    for name in names:
        yield line(s, b"/", name)
        yield line(s, b"/b", name)


# Children of one name: only a later one has what the path goes on to. Properties of one name: only a later one has a last zero byte,
# four bytes, eight.
def twins():
    many = [(b"p", b""), (b"q", b"x\0"), (b"p", b"text\0"), (b"q", b"12345678")]
    deep = [node(b"x", [(b"q", b"1")]), node(b"x", [(b"q", b"2")], [leaf(b"y")])]
    tree = node(b"", many, [leaf(b"t"), node(b"t", many[1:], deep), node(b"u", [(b"p", b"3")], deep), leaf(b"u"), node(b"t", [(b"p", b"4")])])
    paths = [b"/t", b"/t/", b"/t/x", b"/t/x/", b"/t/x/y", b"/u", b"/u/x", b"/u/x/", b"/u/x/y", b"/u/y", b"/u/x/x", b"/x", b"/t/t", b"/"]
    for path in paths:
        for name in (b"p", b"q"):
            yield line(blob(tree), path, name)


# Names that begin with one another, and unit addresses.
def prefixes():
    names = [b"abc", b"ab", b"a", b"a@", b"ab@1", b"ab@10", b"ab@1,0", b"ab@01", b"@1", b"cpus", b"cpu", b"cpu@0"]
    props = [(b"reg-names", b"rn\0"), (b"re", b"r\0"), (b"reg", word(1)), (b"reg-shift", word(2)), (b"#reg", word(3)), (b"g", word(4))]
    tree = node(b"", props, [node(name, [(name, name + b"\0")], [leaf(b"in" + name)]) for name in names])
    for name in names + [b"b", b"abcd", b"ab@", b"ab@1,", b"ab@100", b"1", b"cpu@", b"cp", b"AB"]:
        for path in (b"/" + name, b"/" + name + b"/in" + name, b"/" + name + b"/in"):
            yield line(blob(tree), path, name)
    for name in [key for key, _ in props] + [b"r", b"reg-", b"reg-name", b"reg-namess", b"eg", b"#re", b"#", b"names", b"reg\0", b"reg-names\0re"]:
        yield line(blob(tree), b"/", name)


# Nodes without a name, at each place of a path: every short text of `/` and `c`.
def empties():
    tree = node(b"", [(b"", b"0")], [node(b"", [(b"", b"1")], [node(b"", [(b"", b"2")], [leaf(b"c")]), leaf(b"c")]), node(b"c", [], [leaf(b"")])])
    for size in range(5):
        for rest in product(b"/c", repeat=size):
            yield line(blob(tree), b"/" + bytes(rest), b"")
    yield line(blob(node(b"", [], [leaf(b"c")])), b"//", b"")
    yield line(blob(node(b"named", [], [leaf(b"c")])), b"/named", b"")
    yield line(blob(node(b"named", [], [leaf(b"c")])), b"named/c", b"")
    yield line(blob(node(b"named", [], [leaf(b"c")])), b"/c", b"")


# A `/` in a name is no part of a path, and one in a property's name is a byte like others.
def slashes():
    inner = node(b"a", [(b"a/b", b"3")], [node(b"b", [], [leaf(b"x")]), leaf(b"b/x")])
    tree = node(b"", [(b"a/b", b"1"), (b"/", b"2")], [node(b"a/b", [], [leaf(b"c")]), inner, leaf(b"/"), leaf(b"a/")])
    for path in (b"/a/b", b"/a/b/c", b"/a/b/x", b"/a", b"/a/", b"/a//", b"//", b"///", b"/"):
        for name in (b"a/b", b"/"):
            yield line(blob(tree), path, name)


# Values of each size, with and without a last zero byte; strings with zeros inside; the ends of the numbers.
def values():
    for size in range(14):
        yield bytes(range(0x41, 0x41 + size))
        yield bytes(range(0xF5, 0xF5 + min(size, 11)))
        yield bytes(range(0x41, 0x41 + size)) + b"\0"
    yield from [b"\0" * size for size in (1, 2, 3, 4, 5, 7, 8, 9)]
    yield from [b"a\0b\0", b"a\0b", b"a\0\0", b"\0a\0", b"\0a", b"a\0\xff\0", b"\xff\0a\0", b"\xff\0", b"\xff"]
    yield from [b"ok\xff\0", b"\xff\0\0", b"x\xc3\0\xa9\0"]
    for size in (4, 8):
        for number in (0, 1, 255, 256, 2**31 - 1, 2**31, 2**32 - 1, 2**63, 2**64 - 1):
            if number < 256**size:
                yield number.to_bytes(size, "big")
                yield number.to_bytes(size, "big") + b"\xff"


def valued(samples):
    for value in list(values()) + [bytes(sample) + b"\0" for sample in samples] + [bytes(sample) for sample in samples[::5]]:
        yield line(blob(node(b"", [(b"v", value)])), b"/", b"v")
    # The value's neighbours would make it longer, or a string.
    for value in (b"", b"a", b"abc", b"abcdefg"):
        yield line(blob(node(b"", [(b"w", b"text\0"), (b"v", value), (b"w", b"text\0")])), b"/", b"v")


# Names that are not ASCII, whole and cut inside a character.
def characters():
    names = [b"\xc3\xa9", b"\xe2\x82\xac", b"\xf0\x9f\x98\x80", b"e\xcc\x81", b"\xef\xbb\xbfb"]
    tree = node(b"", [(name, name + b"\0") for name in names], [leaf(name) for name in names])
    for name in names:
        for size in range(1, len(name) + 1):
            yield line(blob(tree), b"/" + name[:size], names[0])
            yield line(blob(tree), b"/", name[:size])
        yield line(blob(tree), b"/" + name + b"\x80", name + b"\x80")


# Paths and names of as many bytes as may be, and one more.
def long_texts():
    whole = [(b"n" * NAME, b"1"), (b"n" * (NAME + 1), b"2"), (b"n" * (NAME - 1), b"3")]
    tree = node(b"", whole, [leaf(b"n" * size) for size in (NAME + 1, NAME, NAME - 1)])
    for size in (NAME - 2, NAME - 1, NAME, NAME + 1):
        yield line(blob(tree), b"/" + b"n" * (size - 1), b"none")
        yield line(blob(tree), b"/", b"n" * size)
    deep = leaf(b"n" * 67)
    for _ in range(14):
        deep = node(b"n" * 67, [], [deep])
    yield line(blob(node(b"", [], [deep])), (b"/" + b"n" * 67) * 15, b"none")
    yield line(blob(node(b"", [], [deep])), (b"/" + b"n" * 67) * 15 + b"////", b"none")
    yield line(blob(node(b"", [], [deep])), b"/" * NAME, b"/" * NAME)


# The last of many nodes and of many properties.
def crowds():
    names = [b"%03d" % k for k in range(511)]
    tree = node(b"", [], [leaf(name) for name in names[:-1]] + [node(names[-1], [(b"p", b"last")])])
    for path in (b"/000", b"/510", b"/511"):
        yield line(blob(tree), path, b"p")
    props = [(bytes([97 + k // 26, 97 + k % 26]), b"" if k < 499 else b"last\0") for k in range(500)]
    for name in (props[0][0], props[-1][0], b"zz"):
        yield line(blob(node(b"", props)), b"/", name)


# Nodes as deep as may be, and the sample's deepest.
def depths():
    inner = node(b"in", [(b"p", b"here\0")])
    for tree in (chain(DEPTH, inner), comb(DEPTH, inner)):
        for depth in (0, 1, 22, DEPTH - 3, DEPTH - 2, DEPTH - 1):
            yield line(blob(tree), b"/n" * depth or b"/", b"p")
            yield line(blob(tree), b"/n" * depth + b"/in", b"p")
    expanders = [b"/expander@%x" % k for k in range(1, 11)]
    last = b"/sas@8000" + b"/port@24".join(expanders)
    for path, name in ((b"", b"sas-address"), (b"/bay@1/sensor@49", b"unit"), (b"/bay@1/sensor@49", b"critical"), (b"/port@24", b"reg")):
        yield line(daisy_chain(), last + path, name)


def lines(samples):
    for tree in small_trees():
        yield from everywhere(tree)
        yield from everywhere(tree, order="tsr", boot=1)
    for part in (in_s, twins, prefixes, empties, slashes, characters, long_texts, crowds, depths):
        yield from part()
    yield from valued(samples)


# ---- random lines

# A text, at times one close to it.
def near(r, some):
    at = r.randrange(len(some) + 1)
    change = r.randrange(12)
    if change == 0:
        return some[:at] + r.choice([b"/", b"//", b"a", b"\0", b"\xff"]) + some[at:]
    if change == 1:
        return some[:at] + some[at + 1 :]
    if change == 2:
        return some[:at] + bytes([r.randrange(256)]) + some[at + 1 :]
    if change == 3:
        return r.choice([some + b"/", b"/" + some, some[:at], some[at:], b""])
    return some


# A path and a name of some node of a tree, mostly of one with properties, and at times a name of another.
def random_asked(r, tree):
    nodes = list(walk(tree))
    owners = [(path, key) for path, (_, props, _) in nodes for key, _ in props]
    path, name = r.choice(owners) if owners and r.randrange(3) else (r.choice(nodes)[0], b"none")
    if owners and r.randrange(4) == 0:
        name = r.choice(owners)[1]
    return near(r, path), near(r, name)
