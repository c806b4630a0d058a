/*
 * Dangrisuk: a reader of flattened device trees (.dtb). The calls of the static library, for C99 and C++.
 *
 * A blob is loaded into three tables of numbers that the caller lends. Names and values stay in the blob: the tables and the answers
 * say at which offset they start and how long they are. Lookups take the blob and the tables again.
 *
 *     uint64_t answer[DANGRISUK_ANSWER];
 *     dangrisuk_measure(blob, blob_len, answer, DANGRISUK_ANSWER);    how many rows the tables need
 *     dangrisuk_load(blob, blob_len, reserved, .., nodes, .., props, .., answer, DANGRISUK_ANSWER);
 *     dangrisuk_find(blob, blob_len, nodes, .., count, path, .., answer, DANGRISUK_ANSWER);
 *
 * What holds of every call:
 *
 * - Any bytes and any numbers get an answer, in tables too; no call aborts.
 * - The answer is one to six numbers, left in `answer` from its start, as many as it has room for; what follows them stays as it was.
 *   The first is 0 or says why not (enum dangrisuk_number).
 * - Nothing is written but the answer's numbers and, by a load that answers 0, the rows of the three tables.
 *   What lies behind the rows keeps its numbers. A load that is refused leaves all three tables as they were.
 * - Nothing is allocated, and nothing is kept from one call to the next: the library has no writable data of its own. Calls may run
 *   at the same time in several threads if none writes what another one uses.
 * - It calls nothing outside itself. Its recursion follows the nodes, which nest DANGRISUK_DEPTH deep at most: a load takes less than
 *   16 KiB of stack, as compiled for 64-bit x86.
 *
 * What the caller keeps:
 *
 * - A pointer is good for as many elements as the length after it says; lengths count elements, not bytes. Where the length is 0, the
 *   pointer may be null.
 * - What a call may write (a pointer without const) overlaps nothing else that the call is lent. What it only reads may overlap.
 *
 * Paths and names of nodes and properties are bytes with a length, without an ending zero. `size_t` has 64 bits.
 */
#ifndef DANGRISUK_H
#define DANGRISUK_H

#include <stddef.h>
#include <stdint.h>

#ifdef __cplusplus
extern "C" {
#endif

/* The room that every answer fits in. */
#define DANGRISUK_ANSWER 6

/* How deep the nodes of a blob may nest; the root is at depth 1. */
#define DANGRISUK_DEPTH 64

/* The first number of an answer. */
enum dangrisuk_number {
    DANGRISUK_OK = 0,                    /* loaded, read or found */
    DANGRISUK_INVALID_MAGIC = 1,         /* the blob does not begin with d00dfeed */
    DANGRISUK_SIZE_MISMATCH = 2,         /* the blob is not as long as it says */
    DANGRISUK_UNEXPECTED_END = 3,        /* something ends too late, or is not there */
    DANGRISUK_PARSE_ERROR = 4,           /* a word is not the one that is due; carries its position */
    DANGRISUK_UTF8_ERROR = 5,            /* a name or a text is not UTF-8 */
    DANGRISUK_VERSION_NOT_SUPPORTED = 6, /* the version is not 17 */
    DANGRISUK_TOO_DEEP = 7,              /* a node deeper than DANGRISUK_DEPTH; carries its position */
    DANGRISUK_RESERVATION_ROOM = 8,      /* more reservation rows than room; carries the rows needed */
    DANGRISUK_NODE_ROOM = 9,             /* more node rows than room; carries the rows needed */
    DANGRISUK_PROPERTY_ROOM = 10,        /* more property rows than room; carries the rows needed */
    DANGRISUK_NOTHING_FOUND = 11,        /* no such node or property */
    DANGRISUK_MISSING_ZERO = 12,         /* a text's last byte is not 0 */
    DANGRISUK_SHORT_VALUE = 13,          /* a value is shorter than 4 or 8 bytes */
    DANGRISUK_NOT_USABLE = 15            /* a count, a starting row or a row reached cannot be used */
};

/* The numbers of load's and measure's answer, after DANGRISUK_OK. */
enum dangrisuk_loaded {
    DANGRISUK_LOADED_VERSION = 1,
    DANGRISUK_LOADED_BOOT_CPU = 2,
    DANGRISUK_LOADED_RESERVATIONS = 3, /* rows of each table */
    DANGRISUK_LOADED_NODES = 4,
    DANGRISUK_LOADED_PROPERTIES = 5
};

/* A node row's way to say that there is no such row. */
#define DANGRISUK_NONE 4294967295u

/* A reservation row. The last one is the entry of size 0 that ends the list. */
enum dangrisuk_reservation {
    DANGRISUK_RESERVATION_OFFSET = 0,
    DANGRISUK_RESERVATION_SIZE = 1,
    DANGRISUK_RESERVATION_WIDTH = 2
};

/*
 * A node row. Rows stand in the order in which the nodes open, so the root is row 0. Parent, first child and next sibling are rows or
 * DANGRISUK_NONE. A node's properties are rows of the property table, one after another; the first is the count of property rows
 * before this node's, also when it has none.
 */
enum dangrisuk_node {
    DANGRISUK_NODE_NAME_OFFSET = 0,
    DANGRISUK_NODE_NAME_LENGTH = 1,
    DANGRISUK_NODE_PARENT = 2,
    DANGRISUK_NODE_FIRST_CHILD = 3,
    DANGRISUK_NODE_NEXT_SIBLING = 4,
    DANGRISUK_NODE_FIRST_PROPERTY = 5,
    DANGRISUK_NODE_PROPERTY_COUNT = 6,
    DANGRISUK_NODE_WIDTH = 7
};

/* A property row. Rows stand in the blob's order. */
enum dangrisuk_property {
    DANGRISUK_PROPERTY_NAME_OFFSET = 0,
    DANGRISUK_PROPERTY_NAME_LENGTH = 1,
    DANGRISUK_PROPERTY_VALUE_OFFSET = 2,
    DANGRISUK_PROPERTY_VALUE_LENGTH = 3,
    DANGRISUK_PROPERTY_WIDTH = 4
};

/* ---- loading. Positions and offsets count from the start of the blob. */

/*
 * dangrisuk_load - reads a blob into three tables
 *
 * blob      any bytes
 * reserved  takes reservation rows of 2 numbers: offset, size
 * nodes     takes node rows of 7 numbers
 * props     takes property rows of 4 numbers
 *
 * A table has room for its length divided by 2, 7 or 4 rows, rounded down.
 *
 * The blob is judged in this order, and the first failure is the answer: the magic number, the length, the version and the rest of
 * the header; the reservations; the nodes and properties in the order of the blob, a node's own name last; then the room for
 * reservations, nodes and properties. Block sizes, the last compatible version, padding and bytes after the root's closing word are
 * not looked at.
 *
 * returns, in answer:
 *   0, version, boot CPU, reservation rows, node rows, property rows
 *       the blob is loaded; the version is 17.
 *   1   the word at 0 is not d00dfeed.
 *   2   the word at 4 is not blob_len.
 *   3   something is not whole in the blob: one of the first eight words of the header; a reservation entry up to and with the
 *       first of size 0; the word where a token is due; a node's name with its zero byte; a property's size, name offset, or name
 *       with its zero byte. Or a property's value ends, offset plus size, not below the blob's length: no value holds the last byte.
 *   4, position
 *       the word at the structure offset is not 1 (a node opens); or the word behind a node's properties (3) and then its children
 *       (1) is not 2 (it closes). So a property behind a child is refused, and NOP (4) is not skipped.
 *   5   a property's name is not UTF-8, judged when it is read; or a node's name is not, judged when the node has closed.
 *   6   the word at 20 is not 17.
 *   7, position
 *       the word there would open a node at depth DANGRISUK_DEPTH + 1.
 *   8, rows needed
 *       more reservation rows than reserved has room for; the last entry, of size 0, is a row too.
 *   9, rows needed
 *       more node rows than nodes has room for.
 *   10, rows needed
 *       more property rows than props has room for.
 */
void dangrisuk_load(const uint8_t *blob, size_t blob_len, uint64_t *reserved, size_t reserved_len, uint32_t *nodes,
                    size_t nodes_len, uint32_t *props, size_t props_len, uint64_t *answer, size_t answer_len);

/*
 * dangrisuk_measure - what a load would answer if every table had room
 *
 * blob      any bytes
 *
 * returns, in answer:
 *   0, version, boot CPU, reservation rows, node rows, property rows
 *       tables of 2, 7 and 4 times these rows are enough for a load.
 *   1 to 7
 *       when load gives them, and with the same position.
 */
void dangrisuk_measure(const uint8_t *blob, size_t blob_len, uint64_t *answer, size_t answer_len);

/*
 * ---- paths and properties. They read the tables of a load, or any others; with the blob, the tables and the counts of a load that
 * answered 0, and a row below its node count, no answer is 15.
 */

/*
 * dangrisuk_find - finds a node by its path in the tree
 *
 * blob      what was loaded
 * nodes     its node table
 * count     how many of its rows are used
 * path      `/` and the names of nodes, with `/` between them. `/` alone is the root; one `/` behind the last name changes nothing.
 *
 * Each name leads to the first child of exactly those bytes, unit address included; a later child of that name is not tried.
 *
 * returns, in answer, the first of these that holds:
 *   15      count is more than nodes_len / 7, or 0.
 *   11      path does not begin with `/`.
 *   15      a row reached breaks a rule: row 0, and each child in turn up to and with the first of the name. Its first child and its
 *           next sibling are none, or greater than the row and below count; and, but for row 0, its name lies in the blob.
 *   11      no child has the name.
 *   0, row
 */
void dangrisuk_find(const uint8_t *blob, size_t blob_len, const uint32_t *nodes, size_t nodes_len, size_t count,
                    const uint8_t *path, size_t path_len, uint64_t *answer, size_t answer_len);

/*
 * dangrisuk_find_from - finds a node by its path from another node
 *
 * blob, nodes, count   as for dangrisuk_find
 * row       the node to start from
 * path      as for dangrisuk_find, but without its first `/`. The empty path is the node itself.
 *
 * returns, in answer, the first of these that holds:
 *   15      count is more than nodes_len / 7, or row is not below count.
 *   15      a row reached breaks a rule, as for dangrisuk_find; the starting row is `row`.
 *   11      no child has the name.
 *   0, row
 */
void dangrisuk_find_from(const uint8_t *blob, size_t blob_len, const uint32_t *nodes, size_t nodes_len, size_t count,
                         size_t row, const uint8_t *path, size_t path_len, uint64_t *answer, size_t answer_len);

/*
 * dangrisuk_has_prop - says whether a node has a property
 *
 * blob      what was loaded
 * nodes     its node table
 * count     how many of its rows are used
 * props     its property table
 * many      how many of its rows are used
 * row       the node
 * name      the property's name; the first property of exactly those bytes counts
 *
 * returns, in answer, the first of these that holds:
 *   15      count is more than nodes_len / 7, row is not below count, or many is more than props_len / 4.
 *   15      the node's first property row plus its property count is more than many; or a row reached does not lie in the blob with
 *           its name and its value: each property of the node in turn up to and with the first of the name.
 *   11      the node has no property of that name.
 *   0       it has one.
 */
void dangrisuk_has_prop(const uint8_t *blob, size_t blob_len, const uint32_t *nodes, size_t nodes_len, size_t count,
                        const uint32_t *props, size_t props_len, size_t many, size_t row, const uint8_t *name,
                        size_t name_len, uint64_t *answer, size_t answer_len);

/*
 * dangrisuk_prop_raw - finds a property's value
 *
 * parameters as for dangrisuk_has_prop
 *
 * returns, in answer:
 *   15, 11  when dangrisuk_has_prop gives them.
 *   0, offset, length
 *           where the value lies in the blob.
 */
void dangrisuk_prop_raw(const uint8_t *blob, size_t blob_len, const uint32_t *nodes, size_t nodes_len, size_t count,
                        const uint32_t *props, size_t props_len, size_t many, size_t row, const uint8_t *name,
                        size_t name_len, uint64_t *answer, size_t answer_len);

/*
 * dangrisuk_prop_str - finds a property's text
 *
 * parameters as for dangrisuk_has_prop
 *
 * returns, in answer, the first of these that holds:
 *   15, 11  when dangrisuk_has_prop gives them.
 *   12      the value is empty or its last byte is not 0.
 *   5       what is before the last byte is not UTF-8.
 *   0, offset, length
 *           where the text lies in the blob, without its last zero byte. Zeros inside it pass, as in a list of strings: compare with
 *           the length, not by strcmp.
 */
void dangrisuk_prop_str(const uint8_t *blob, size_t blob_len, const uint32_t *nodes, size_t nodes_len, size_t count,
                        const uint32_t *props, size_t props_len, size_t many, size_t row, const uint8_t *name,
                        size_t name_len, uint64_t *answer, size_t answer_len);

/*
 * dangrisuk_prop_u32 - reads a property's first 4 bytes as a big-endian number
 *
 * parameters as for dangrisuk_has_prop
 *
 * returns, in answer, the first of these that holds:
 *   15, 11  when dangrisuk_has_prop gives them.
 *   13      the value is shorter than 4 bytes.
 *   0, number
 *           bytes after the first 4 are not looked at.
 */
void dangrisuk_prop_u32(const uint8_t *blob, size_t blob_len, const uint32_t *nodes, size_t nodes_len, size_t count,
                        const uint32_t *props, size_t props_len, size_t many, size_t row, const uint8_t *name,
                        size_t name_len, uint64_t *answer, size_t answer_len);

/*
 * dangrisuk_prop_u64 - reads a property's first 8 bytes as a big-endian number
 *
 * parameters as for dangrisuk_has_prop
 *
 * returns, in answer, the first of these that holds:
 *   15, 11  when dangrisuk_has_prop gives them.
 *   13      the value is shorter than 8 bytes.
 *   0, number
 *           bytes after the first 8 are not looked at.
 */
void dangrisuk_prop_u64(const uint8_t *blob, size_t blob_len, const uint32_t *nodes, size_t nodes_len, size_t count,
                        const uint32_t *props, size_t props_len, size_t many, size_t row, const uint8_t *name,
                        size_t name_len, uint64_t *answer, size_t answer_len);

/* ---- readers: single numbers and parts of any bytes, such as the cells of a value. */

/*
 * dangrisuk_align - rounds a number up to a multiple of another
 *
 * returns, in answer:
 *   3       `to` is 0, or the multiple is more than 18446744073709551615.
 *   0, number
 *           the least multiple of `to` that is not below val.
 */
void dangrisuk_align(size_t val, size_t to, uint64_t *answer, size_t answer_len);

/*
 * dangrisuk_read_be_u32 - reads the 4 bytes at pos as a big-endian number
 *
 * returns, in answer:
 *   3       pos plus 4 is more than buf_len.
 *   0, number
 */
void dangrisuk_read_be_u32(const uint8_t *buf, size_t buf_len, size_t pos, uint64_t *answer, size_t answer_len);

/*
 * dangrisuk_read_be_u64 - reads the 8 bytes at pos as a big-endian number
 *
 * returns, in answer:
 *   3       pos plus 8 is more than buf_len.
 *   0, number
 */
void dangrisuk_read_be_u64(const uint8_t *buf, size_t buf_len, size_t pos, uint64_t *answer, size_t answer_len);

/*
 * dangrisuk_read_bstring0 - finds the part from pos up to, not with, the first zero byte
 *
 * returns, in answer:
 *   3       there is no zero byte from pos on, or pos is at or past the end.
 *   0, offset, length
 *           the offset is pos.
 */
void dangrisuk_read_bstring0(const uint8_t *buf, size_t buf_len, size_t pos, uint64_t *answer, size_t answer_len);

/*
 * dangrisuk_subslice - finds the part from start up to, not with, end
 *
 * returns, in answer:
 *   3       start is more than end, or end is not below buf_len: no part holds the last byte.
 *   0, offset, length
 *           the offset is start.
 */
void dangrisuk_subslice(const uint8_t *buf, size_t buf_len, size_t start, size_t end, uint64_t *answer, size_t answer_len);

/*
 * dangrisuk_from_utf8 - says whether bytes are UTF-8 (RFC 3629)
 *
 * returns, in answer:
 *   5       they are not.
 *   0       they are; no bytes are too.
 */
void dangrisuk_from_utf8(const uint8_t *buf, size_t buf_len, uint64_t *answer, size_t answer_len);

#ifdef __cplusplus
}
#endif

#endif
