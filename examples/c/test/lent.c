#define _DEFAULT_SOURCE /* mmap with MAP_ANONYMOUS */
#include "lent.h"

#include <inttypes.h>
#include <stdio.h>
#include <stdlib.h>
#include <string.h>
#include <sys/mman.h>
#include <unistd.h>

unsigned long compared;
unsigned long differ;

/* ---- answers */

uint64_t answer[PLACES];

void fresh(void)
{
    for (size_t i = 0; i < PLACES; i++) {
        answer[i] = BEFORE;
    }
}

static void print_numbers(const char *head, const uint64_t *numbers, size_t count)
{
    printf("  %s", head);
    for (size_t i = 0; i < count; i++) {
        printf(" %" PRIu64, numbers[i]);
    }
    printf("\n");
}

void expect(const char *what, const uint64_t *due, size_t count)
{
    int same = 1;
    for (size_t i = 0; i < PLACES; i++) {
        same = same && answer[i] == (i < count ? due[i] : BEFORE);
    }
    compared++;
    if (!same) {
        differ++;
        printf("differs: %s\n", what);
        print_numbers("answer  ", answer, PLACES);
        print_numbers("expected", due, count);
    }
}

void expect_number(const char *what, uint64_t got, uint64_t due)
{
    compared++;
    if (got != due) {
        differ++;
        printf("differs: %s\n  got %" PRIu64 "\n  expected %" PRIu64 "\n", what, got, due);
    }
}

/* ---- the blob */

static uint8_t *blob_end;
uint8_t *blob;
size_t blob_len;

void make_room(void)
{
    size_t page = (size_t)sysconf(_SC_PAGESIZE);
    size_t room = (BLOB_ROOM + page - 1) / page * page;
    uint8_t *start = mmap(NULL, room + page, PROT_READ | PROT_WRITE, MAP_PRIVATE | MAP_ANONYMOUS, -1, 0);
    if (start == MAP_FAILED || mprotect(start + room, page, PROT_NONE) != 0) {
        printf("test: no room for blobs\n");
        exit(2);
    }
    blob_end = start + room;
    blob = blob_end;
}

void set_blob(const uint8_t *bytes, size_t len)
{
    blob = blob_end - len;
    blob_len = len;
    if (len != 0) {
        memmove(blob, bytes, len);
    }
}

void set_word(size_t at, uint32_t word)
{
    for (size_t i = 0; i < 4; i++) {
        blob[at + i] = (uint8_t)(word >> (24 - 8 * i));
    }
}

void frame_s(void)
{
    static const uint32_t words[] = {
        0xd00dfeed, 0x66, 0x38, 0x64, 0x28, 0x11, 0x10, 0, 2, 0x2c, /* header */
        0, 0, 0, 0,                                                 /* the entry that ends the reservations */
        1, 0, 3, 4, 0, 0x2a, 1, 0x62000000, 2, 2, 9,                /* the root, u, b */
    };
    blob = blob_end - 102;
    blob_len = 102;
    for (size_t i = 0; i < COUNT(words); i++) {
        set_word(4 * i, words[i]);
    }
    blob[100] = 0x75;
    blob[101] = 0;
}

void frame_of(const uint32_t *words, size_t count, const char *strings, size_t strings_len)
{
    static uint8_t zeros[BLOB_ROOM];
    set_blob(zeros, 56 + 4 * count + strings_len);
    set_word(0, 0xd00dfeed);
    set_word(4, (uint32_t)blob_len);
    set_word(8, 56);
    set_word(12, (uint32_t)(56 + 4 * count));
    set_word(16, 40);
    set_word(20, 17);
    for (size_t i = 0; i < count; i++) {
        set_word(56 + 4 * i, words[i]);
    }
    if (strings_len != 0) {
        memcpy(blob + 56 + 4 * count, strings, strings_len);
    }
}

void chain(size_t depth)
{
    uint32_t words[3 * (DANGRISUK_DEPTH + 1)];
    for (size_t i = 0; i < depth; i++) {
        words[2 * i] = 1;
        words[2 * i + 1] = 0x61000000;
        words[2 * depth + i] = 2;
    }
    frame_of(words, 3 * depth, NULL, 0);
}

/* ---- the tables */

uint64_t reserved[RESERVED_LEN + BEHIND];
uint32_t nodes[NODES_LEN + BEHIND];
uint32_t props[PROPS_LEN + BEHIND];
size_t node_count;
size_t prop_count;

static void fill_tables(void)
{
    for (size_t i = 0; i < COUNT(reserved); i++) {
        reserved[i] = FILL;
    }
    for (size_t i = 0; i < COUNT(nodes); i++) {
        nodes[i] = FILL;
    }
    for (size_t i = 0; i < COUNT(props); i++) {
        props[i] = FILL;
    }
}

/* Every number behind that many rows is as it was. */
static void expect_fill(const char *what, size_t reserved_rows, size_t node_rows, size_t prop_rows)
{
    size_t changed = 0;
    for (size_t i = DANGRISUK_RESERVATION_WIDTH * reserved_rows; i < COUNT(reserved); i++) {
        changed += reserved[i] != FILL;
    }
    for (size_t i = DANGRISUK_NODE_WIDTH * node_rows; i < COUNT(nodes); i++) {
        changed += nodes[i] != FILL;
    }
    for (size_t i = DANGRISUK_PROPERTY_WIDTH * prop_rows; i < COUNT(props); i++) {
        changed += props[i] != FILL;
    }
    compared++;
    if (changed != 0) {
        differ++;
        printf("differs: %s\n  %zu numbers written outside the rows of the load\n", what, changed);
    }
}

void expect_load_in(const char *what, size_t r, size_t n, size_t p, const uint64_t *due, size_t count)
{
    fill_tables();
    fresh();
    dangrisuk_load(blob, blob_len, reserved, r, nodes, n, props, p, answer, PLACES);
    expect(what, due, count);
    if (answer[0] == DANGRISUK_OK) {
        node_count = (size_t)answer[DANGRISUK_LOADED_NODES];
        prop_count = (size_t)answer[DANGRISUK_LOADED_PROPERTIES];
        expect_fill(what, (size_t)answer[DANGRISUK_LOADED_RESERVATIONS], node_count, prop_count);
    } else {
        expect_fill(what, 0, 0, 0);
    }
}

void expect_load(const char *what, const uint64_t *due, size_t count)
{
    fresh();
    dangrisuk_measure(blob, blob_len, answer, PLACES);
    expect(what, due, count);
    expect_load_in(what, RESERVED_LEN, NODES_LEN, PROPS_LEN, due, count);
}

/* ---- lookups in what was loaded last */

property_call *const property_calls[PROPERTY_CALLS] = {dangrisuk_has_prop, dangrisuk_prop_raw, dangrisuk_prop_str, dangrisuk_prop_u32,
                                                       dangrisuk_prop_u64};

void find(const char *path)
{
    fresh();
    dangrisuk_find(blob, blob_len, nodes, NODES_LEN, node_count, (const uint8_t *)path, strlen(path), answer, PLACES);
}

void find_from(size_t row, const char *path)
{
    fresh();
    dangrisuk_find_from(blob, blob_len, nodes, NODES_LEN, node_count, row, (const uint8_t *)path, strlen(path), answer, PLACES);
}

void prop(property_call *call, size_t row, const char *name)
{
    fresh();
    call(blob, blob_len, nodes, NODES_LEN, node_count, props, PROPS_LEN, prop_count, row, (const uint8_t *)name, strlen(name), answer,
         PLACES);
}

void expect_find(const char *path, const uint64_t *due, size_t count)
{
    find(path);
    expect(path, due, count);
}

void expect_find_from(size_t row, const char *path, const uint64_t *due, size_t count)
{
    find_from(row, path);
    expect(path, due, count);
}

void expect_no_prop(const char *what, size_t row, const char *name, uint64_t due)
{
    for (size_t i = 0; i < PROPERTY_CALLS; i++) {
        prop(property_calls[i], row, name);
        expect(what, &due, 1);
    }
}

void expect_prop(const char *what, property_call *call, size_t row, const char *name, const uint64_t *due, size_t count)
{
    prop(call, row, name);
    expect(what, due, count);
}

/* ---- readers in the blob */

void expect_read(const char *what, reader_call *call, size_t pos, const uint64_t *due, size_t count)
{
    fresh();
    call(blob, blob_len, pos, answer, PLACES);
    expect(what, due, count);
}
