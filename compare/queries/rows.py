# R lines: lookups in rows that no load wrote, good ones and such as break one rule of document 01 at one place.
from queries.blobs import frame_s, leaf, node, word
from queries.lines import NAME, ROOM, TABLE, TOP, text
from queries.lookups import joined, near

NONE = 2**32 - 1

# The places of a node row's numbers and of a property row's.
NAME_OFFSET, NAME_LENGTH, PARENT, FIRST_CHILD, NEXT_SIBLING, FIRST_PROP, PROP_COUNT = range(7)
VALUE_OFFSET, VALUE_LENGTH = 2, 3


def table(rows):
    return text(b"".join(word(n) for row in rows for n in row))


# A blob of names and values, one after the other, and the rows of a tree in it. `ways` has the names from the root to each row.
class Rows:
    def __init__(self, tree, tail=b""):
        self.blob, self.nodes, self.props, self.ways = b"", [], [], []
        self.add(tree, NONE, ())
        self.blob += tail

    def put(self, data):
        self.blob += data
        return [len(self.blob) - len(data), len(data)]

    def add(self, tree, parent, way):
        name, props, children = tree
        row = len(self.nodes)
        self.nodes.append(self.put(name) + [parent, NONE, NONE, len(self.props), len(props)])
        self.ways.append(way)
        self.props += [self.put(key) + self.put(value) for key, value in props]
        link = (row, FIRST_CHILD)
        for child in children:
            at = len(self.nodes)
            self.nodes[link[0]][link[1]] = at
            link = (at, NEXT_SIBLING)
            self.add(child, row, way + (child[0],))

    # A copy with some numbers of a row changed.
    def with_node(self, row, numbers):
        return self.copy(nodes=changed(self.nodes, row, numbers))

    def with_prop(self, row, numbers):
        return self.copy(props=changed(self.props, row, numbers))

    def copy(self, **fields):
        other = object.__new__(Rows)
        other.__dict__.update(self.__dict__, **fields)
        return other

    # Where nothing else is said the counts are those of the rows.
    def line(self, path, name=b"none", start=0, nodes=None, props=None, node_table=None, prop_table=None):
        nodes = len(self.nodes) if nodes is None else nodes
        props = len(self.props) if props is None else props
        tables = node_table or table(self.nodes), prop_table or table(self.props)
        return f"R {text(self.blob)} {tables[0]} {nodes} {tables[1]} {props} {start} {text(path)} {text(name)}"


def changed(rows, row, numbers):
    return [[numbers.get(k, n) for k, n in enumerate(old)] if at == row else old for at, old in enumerate(rows)]


# On the way along /c/m: root 0, a 1, b 3, c 4; then k 5, l 6, m 7. Past the matches: n 9, d 10. Inside them: z 8, a1 2.
# At c the properties 3 to 7; "reg" is 5. The blob ends in the bytes of `m` and `reg`, and a number.
def sample():
    inner = [leaf(b"k"), leaf(b"l"), node(b"m", [(b"reg", word(7))], [leaf(b"z")]), leaf(b"n")]
    props = [(b"one", b"1\0"), (b"two", b"22"), (b"reg", b"\0\1\2\3\4\5\6\7\0"), (b"four", b"\xff\0"), (b"last", b"")]
    children = [node(b"a", [(b"reg", b"a")], [leaf(b"a1")]), leaf(b"b"), node(b"c", props, inner), node(b"d", [], [leaf(b"e")])]
    tree = node(b"", [(b"reg", b"root\0"), (b"u", word(42))], children + [node(b"c", [(b"reg", b"twin")], [leaf(b"q")])])
    return Rows(tree, b"mreg" + word(0x6D00))


WAY = b"c/m"
START = 4

# Rows that /c/m reaches, and some that it does not; those where every fault is tried.
ROWS = (0, 1, 3, 4, 5, 6, 7, 8, 9, 10)
WELL = (0, 4, 7)


# Good rows: each from the tree and from the root or from c; the answers to names.
def good():
    rows = sample()
    for row, way in enumerate(rows.ways):
        yield rows.line(b"/" + joined(way), b"reg", row)
        yield rows.line(joined(way[1:]), b"u", START) if way[:1] == (b"c",) else rows.line(joined(way), b"u", 0)
    for name in (b"one", b"two", b"reg", b"four", b"last", b"", b"on", b"ones", b"re"):
        yield rows.line(b"/c/q", name, START)
    # Frame S with the rows that document 01 gives.
    s = Rows(leaf(b"")).copy(blob=frame_s(), props=[[100, 1, 76, 4]])
    s = s.copy(nodes=[[60, 0, NONE, 1, NONE, 0, 1], [84, 1, 0, NONE, NONE, 1, 0]])
    for path in (b"/", b"/b", b"/b/", b"", b"b", b"b/", b"//", b"/b//", b"\xff"):
        yield s.line(path, b"u", 0)
        yield s.line(path, b"u", 1)


# What a link may be: none, or above its row and below the count; and what it may not.
def links(row, count):
    return sorted({NONE, row + 1, count - 1, row, max(row - 1, 0), 0, count, count + 1, 2**31, NONE - 1})


# Both links at rows that a path reaches and at rows that it does not, from the tree, from the root and from c.
def bad_links():
    rows = sample()
    count = len(rows.nodes)
    for column in (FIRST_CHILD, NEXT_SIBLING):
        for row in ROWS:
            for link in links(row, count) if row in WELL else (row, count, NONE - 1):
                yield rows.with_node(row, {column: link}).line(b"/" + WAY, b"reg", row)
            for link in (row, count):
                yield rows.with_node(row, {column: link}).line(b"m", b"reg", START)
        for row in (0, 1, 7):
            yield rows.with_node(row, {column: row}).line(WAY, b"reg", 0)
    # A name that is not there reaches every child: d is in the middle, the second c is the last.
    for row in (10, 12):
        for numbers in ({FIRST_CHILD: row}, {NEXT_SIBLING: row}, {FIRST_CHILD: NONE}, {NEXT_SIBLING: NONE}):
            yield rows.with_node(row, numbers).line(b"/none", b"reg", row)
    # The starting row alone is reached, or nothing is: the empty path, the tree's own, and a tree path without its `/`.
    for row in (0, START, count - 1):
        for numbers in ({FIRST_CHILD: row}, {NEXT_SIBLING: count}):
            for path in (b"", b"/", b"none"):
                yield rows.with_node(row, numbers).line(path, b"reg", row)
    # Links that are good and lead elsewhere: past rows, into another's children, to a shared child.
    for row, numbers in ((0, {FIRST_CHILD: 4}), (0, {FIRST_CHILD: 7}), (1, {NEXT_SIBLING: 4}), (1, {NEXT_SIBLING: 12}), (4, {FIRST_CHILD: 13})):
        for path in (b"/" + WAY, b"/c/q", b"m"):
            yield rows.with_node(row, numbers).line(path, b"reg", 0)
    # A parent is not judged.
    for parent in (4, 99, NONE):
        yield rows.with_node(4, {PARENT: parent}).line(b"/" + WAY, b"reg", 4)


# Offsets and lengths: up to the blob's end, one past it, and sums that 32 bits cannot hold.
def spans(offset, length, size):
    some = [(size - length, length), (size - length + 1, length), (offset, size - offset), (offset, size - offset + 1)]
    some += [(size, 0), (size + 1, 0), (0, size), (0, size + 1), (NONE, 0), (NONE, 1), (0, NONE), (1, NONE), (NONE, NONE)]
    return some + [(2**31, 2**31)]


def bad_names():
    rows = sample()
    for row in ROWS:
        for offset, length in spans(*rows.nodes[row][:2], len(rows.blob))[: None if row in WELL else 4]:
            broken = rows.with_node(row, {NAME_OFFSET: offset, NAME_LENGTH: length})
            yield broken.line(b"/" + WAY, b"reg", row)
    # A name that is not there reaches the last child too.
    for offset, length in spans(*rows.nodes[12][:2], len(rows.blob))[:4]:
        yield rows.with_node(12, {NAME_OFFSET: offset, NAME_LENGTH: length}).line(b"/none", b"reg", 12)
    # The name sought ends the blob; without the blob's last byte it is outside.
    last = rows.copy(blob=rows.blob[:-7]).with_node(7, {NAME_OFFSET: len(rows.blob) - 8})
    for size in (0, 1):
        short = last.copy(blob=last.blob[: len(last.blob) - size])
        for path in (b"m", b"l"):
            yield short.line(path, b"none", START)
        yield short.line(b"/" + WAY, b"none", 7)


# First property and count, at the starting row and at one that is not asked.
def bad_ranges():
    rows = sample()
    count = len(rows.props)
    first, size = rows.nodes[START][5:]
    ranges = [(count - size, size), (count - size + 1, size), (first, count - first), (first, count - first + 1), (count, 0), (count + 1, 0)]
    ranges += [(0, count), (0, count + 1), (1, count), (NONE, 0), (NONE, 1), (1, NONE), (0, NONE), (NONE, NONE), (2**31, 2**31), (first, 0)]
    for first, size in ranges:
        broken = rows.with_node(START, {FIRST_PROP: first, PROP_COUNT: size})
        yield broken.line(b"/" + WAY, b"reg", START)
        yield broken.line(b"", b"none", START)
    for numbers in ({FIRST_PROP: count + 1}, {PROP_COUNT: NONE}):
        yield rows.with_node(START, numbers).line(b"c", b"reg", 0)


# A property's name and value, at each row of c: before the match, at it, past it, and of another node.
def bad_props():
    rows = sample()
    size = len(rows.blob)
    for row in (2, 3, 4, 5, 6, 7, 8):
        for at in (NAME_OFFSET, VALUE_OFFSET):
            some = spans(*rows.props[row][at : at + 2], size)
            for offset, length in some if row in (3, 5) else some[:4]:
                yield rows.with_prop(row, {at: offset, at + 1: length}).line(b"/c", b"reg", START)
            # A name that is not there reaches them all.
            for offset, length in some[:2] if row in (4, 7, 8) else ():
                yield rows.with_prop(row, {at: offset, at + 1: length}).line(b"c", b"none", START)
    # Values that end the blob, of each size; a name that does.
    for length in (0, 1, 3, 4, 5, 7, 8, 9):
        yield rows.with_prop(5, {VALUE_OFFSET: size - length, VALUE_LENGTH: length}).line(b"m", b"reg", START)
    yield rows.with_prop(5, {NAME_OFFSET: size - 7, NAME_LENGTH: 3}).line(b"m", b"reg", START)
    # Two of one name: the first counts.
    for row in (3, 4, 6):
        yield rows.with_prop(row, {NAME_OFFSET: rows.props[5][0], NAME_LENGTH: 3}).line(b"m", b"reg", START)


# Counts below, at and above what the tables hold; tables with a part of a row; starts at and past the count.
def counts():
    rows = sample()
    nodes, props = len(rows.nodes), len(rows.props)
    for count in (0, 1, 4, 5, 8, nodes - 1, nodes, nodes + 1, 2**32 + nodes, TOP):
        for path in (b"/" + WAY, WAY, b"/"):
            yield rows.line(path, b"reg", 0, nodes=count)
        yield rows.line(b"m", b"reg", START, nodes=count)
    for count in (0, 2, 7, 8, props - 1, props, props + 1, 2**32 + props, TOP):
        yield rows.line(WAY, b"reg", 0, props=count)
        yield rows.line(b"m", b"none", START, props=count)
    for start in (4, nodes - 1, nodes, nodes + 1, 2**32 + 4, TOP):
        for path in (b"", b"/c", b"m"):
            yield rows.line(path, b"reg", start)
    # A word more or less than whole rows.
    full = table(rows.nodes), table(rows.props)
    for words in (-1, 1, 3, 6, 7):
        longer = [each[: len(each) + 8 * min(words, 0)] + "00000003" * words for each in full]
        for more in (0, 1):
            yield rows.line(b"/" + WAY, b"reg", START, node_table=longer[0], nodes=nodes + more)
            yield rows.line(b"/" + WAY, b"reg", START, prop_table=longer[1], props=props + more)


# Tables and blobs of nothing; names of nothing, which any blob has.
def nothing():
    rows = sample()
    for path in (b"/", b"", b"b", b"/b"):
        yield rows.line(path, b"reg", 0, nodes=0, props=0, node_table="-", prop_table="-")
        yield rows.line(path, b"reg", 0, nodes=0)
        yield rows.line(path, b"reg", 0, props=0, prop_table="-")
        yield rows.line(path, b"reg", 0, nodes=1, node_table="-")
        yield f"R - - 0 - 0 0 {text(path)} 75"
        yield f"R - - 1 - 1 0 {text(path)} -"
    empty = Rows(node(b"", [(b"", b"")], [leaf(b""), node(b"", [(b"", b"")])]))
    for path in (b"", b"/", b"//", b"///", b"a", b"/a"):
        for start in (0, 2, 3):
            yield empty.line(path, b"", start)


# Names that a load would refuse or that no path can spell: rows are compared byte by byte.
def odd_names():
    names = [b"\xff", b"\xc3", b"a/b", b"/", b"a\0", b"\0", b""]
    rows = Rows(node(b"\x80", [(name, b"\xff\0") for name in names], [node(name, [], [leaf(b"x")]) for name in names]))
    for name in names + [b"\xff\xff", b"a"]:
        yield rows.line(b"/" + name, name, 0)
        yield rows.line(name, name, 0)
        yield rows.line(name + b"/x", name, 1)


# As many rows and bytes as a line may have.
def sizes():
    digits = "%020d"
    deep = [[0, 1, 0, k + 1, NONE, 0, TABLE] for k in range(TABLE - 1)] + [[0, 1, 0, NONE, NONE, TABLE, 0]]
    wide = [[0, 1, NONE, 1, NONE, 0, TABLE]] + [[1, 1, 0, NONE, k + 1, 0, 0] for k in range(1, TABLE - 1)] + [[0, 1, 0, NONE, NONE, 0, 0]]
    props = [[1, 1, 0, 8]] * (TABLE - 1) + [[ROOM - NAME, NAME, ROOM - 4, 4]]
    rows = Rows(leaf(b"")).copy(blob=b"ab" + b"c" * (ROOM - 6) + b"text", props=props)
    name = rows.blob[-NAME:]
    counts = dict(start=digits % 0, nodes=digits % TABLE, props=digits % TABLE)
    for nodes, path in ((deep, b"/a" * (NAME // 2)), (deep, b"/a" * (NAME // 2 - 1)), (wide, b"/a"), (wide, b"a" + b"/" * (NAME - 1))):
        yield rows.copy(nodes=nodes).line(path, name, **counts)
    yield rows.copy(nodes=wide).line(b"a", name[1:], **counts)
    # One byte, one word, one row more than that.
    yield rows.copy(nodes=deep).line(b"a" * (NAME + 1), name, **counts)
    small = sample()
    yield small.line(b"/", b"n" * (NAME + 1))
    yield small.copy(blob=bytes(ROOM + 1)).line(b"/")
    for words in (7 * TABLE + 1, 7 * (TABLE + 1)):
        yield small.line(b"/", node_table="00000003" * words)
    for words in (4 * TABLE + 1, 4 * (TABLE + 1)):
        yield small.line(b"/", prop_table="00000003" * words)


# A short good line, to be spoiled.
GOOD = Rows(node(b"", [(b"u", b"v\0")], [leaf(b"b")])).line(b"/b", b"u")


# Fields with what may not stand there, and what just may.
def bad_fields():
    fields = GOOD.split(" ")
    numbers = ["-", "+1", "-1", "0x1", "a", "1.", "01", "00000000000000000001", "000000000000000000001", str(TOP), str(TOP + 1), "9" * 20, "\xe9"]
    digits = ["0", "000", "0g", "g0", "--", "0x61", "+1", "61-", "61\r", "\xe9", "-", "AbCd"]
    whole = fields[2]
    words = ["0", "00", "0" * 7, "0" * 9, whole[1:], whole[2:], whole[:-1], whole[:-8], whole + "0", whole + "00000000"]
    words += [whole[:-1] + "g", whole.upper(), "-", "--"]
    for k, values in ((1, digits), (2, words), (3, numbers), (4, words), (5, numbers), (6, numbers), (7, digits), (8, digits)):
        for value in values:
            yield " ".join(fields[:k] + [value] + fields[k + 1 :])


PARTS = (good, bad_links, bad_names, bad_ranges, bad_props, counts, nothing, odd_names, sizes)


def lines():
    for part in PARTS:
        yield from part()


# ---- random lines

# A number that may stand in a row, or just may not.
def random_number(r, row, rows):
    size, nodes, props = len(rows.blob), len(rows.nodes), len(rows.props)
    near_it = r.choice([row, nodes, props, size, size - r.randrange(size + 1), r.randrange(nodes + 1), 0, 2**31, NONE])
    return (near_it + r.choice([-1, 0, 0, 0, 1])) % 2**32


# Rows of a tree, mostly with a number or two changed, and mostly a path and a name that are there.
def random_line(r, trees):
    rows = Rows(r.choice(trees), r.choice([b"", b"", b"\0", b"tail"]))
    nodes, props = len(rows.nodes), len(rows.props)
    start, goal = r.randrange(nodes), r.randrange(nodes)
    if r.randrange(2):
        start = r.choice([row for row in range(nodes) if rows.nodes[row][PROP_COUNT]] or [0])
    first, size = rows.nodes[start][FIRST_PROP:]
    its = [rows.blob[at : at + length] for at, length, _, _ in rows.props[first : first + size]]
    way, above = rows.ways[goal], rows.ways[start]
    path = joined(way[len(above) :]) if way[: len(above)] == above and r.randrange(2) else b"/" + joined(way)
    for _ in range(r.choice([0, 0, 1, 1, 1, 2])):
        if props and r.randrange(3) == 0:
            row = r.randrange(props)
            rows = rows.with_prop(row, {r.randrange(4): random_number(r, row, rows)})
        else:
            row = r.randrange(nodes)
            rows = rows.with_node(row, {r.choice([0, 1, 2, 3, 3, 3, 4, 4, 4, 5, 6]): random_number(r, row, rows)})
    nodes, props = (r.choice([n] * 30 + [max(n - 1, 0), n + 1, r.randrange(n + 1), TOP - r.randrange(3)]) for n in (nodes, props))
    start = r.choice([start] * 20 + [0, nodes, nodes + 1, TOP])
    return rows.line(near(r, path), near(r, r.choice(its * 3 + [b"none"])), min(start, TOP), nodes, props)
