/*
 * What the tests share: an answer, a blob and three tables to lend, and what compares them with what is due.
 * A comparison that fails is printed and counted in `differ`.
 */
#ifndef LENT_H
#define LENT_H

#include <stddef.h>
#include <stdint.h>

#include "dangrisuk.h"

#define COUNT(a) (sizeof(a) / sizeof(a)[0])

/* The numbers that are due, and how many: two arguments. */
#define NUMBERS(...) (const uint64_t[]){__VA_ARGS__}, COUNT(((const uint64_t[]){__VA_ARGS__}))

extern unsigned long compared;
extern unsigned long differ;

/* ---- answers */

/* Two places more than an answer needs, and what stands in each before a call. */
enum { PLACES = DANGRISUK_ANSWER + 2, BEFORE = 99 };

extern uint64_t answer[PLACES];

void fresh(void);

/* The answer has these numbers, and all after them are as they were. */
void expect(const char *what, const uint64_t *due, size_t count);

void expect_number(const char *what, uint64_t got, uint64_t due);

/* ---- the blob: its last byte stands before a page that cannot be read */

enum { BLOB_ROOM = 8192 };

extern uint8_t *blob;
extern size_t blob_len;

void make_room(void);

void set_blob(const uint8_t *bytes, size_t len);

void set_word(size_t at, uint32_t word);

/* Document 01's frame S. */
void frame_s(void);

/* A blob with no reservations, its structure block at 56 and these words in it, then these bytes as strings. */
void frame_of(const uint32_t *words, size_t count, const char *strings, size_t strings_len);

/* Nodes named `a`, one inside another, at most one more than loads; the first opens at 56, each other one 8 bytes further. */
void chain(size_t depth);

/* ---- the tables: room for these rows, numbers behind it that no call is lent, and what stands in all of them before a load */

enum {
    RESERVATIONS = 4,
    NODES = DANGRISUK_DEPTH + 8,
    PROPERTIES = 340,
    RESERVED_LEN = DANGRISUK_RESERVATION_WIDTH * RESERVATIONS,
    NODES_LEN = DANGRISUK_NODE_WIDTH * NODES,
    PROPS_LEN = DANGRISUK_PROPERTY_WIDTH * PROPERTIES,
    BEHIND = 8,
    FILL = 7
};

extern uint64_t reserved[RESERVED_LEN + BEHIND];
extern uint32_t nodes[NODES_LEN + BEHIND];
extern uint32_t props[PROPS_LEN + BEHIND];
extern size_t node_count;
extern size_t prop_count;

/* A load into tables of that many numbers: its answer, and that it writes its rows only, none where it refuses. */
void expect_load_in(const char *what, size_t r, size_t n, size_t p, const uint64_t *due, size_t count);

/* With room enough, and measure says the same. */
void expect_load(const char *what, const uint64_t *due, size_t count);

/* ---- lookups in what was loaded last */

typedef void property_call(const uint8_t *, size_t, const uint32_t *, size_t, size_t, const uint32_t *, size_t, size_t, size_t,
                           const uint8_t *, size_t, uint64_t *, size_t);

enum { PROPERTY_CALLS = 5 };

extern property_call *const property_calls[PROPERTY_CALLS];

void find(const char *path);

void find_from(size_t row, const char *path);

void prop(property_call *call, size_t row, const char *name);

void expect_find(const char *path, const uint64_t *due, size_t count);

void expect_find_from(size_t row, const char *path, const uint64_t *due, size_t count);

void expect_prop(const char *what, property_call *call, size_t row, const char *name, const uint64_t *due, size_t count);

/* What all five say about a property that is not there or cannot be reached. */
void expect_no_prop(const char *what, size_t row, const char *name, uint64_t due);

/* ---- readers in the blob */

typedef void reader_call(const uint8_t *, size_t, size_t, uint64_t *, size_t);

void expect_read(const char *what, reader_call *call, size_t pos, const uint64_t *due, size_t count);

#endif
