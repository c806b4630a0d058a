# What all query lines share: the limits of the program, and byte strings as text.

TOP = 2**64 - 1

# The most bytes of a byte string, of a path or a name; the most rows of a node table and of a property table.
ROOM = 8192
NAME = 1024
TABLE = 512

# How deep nodes may nest; the root is at depth 1.
DEPTH = 64


def text(data):
    return bytes(data).hex() if data else "-"


def unique(lines):
    return list(dict.fromkeys(lines))
