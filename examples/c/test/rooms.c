/* Answers with less room than they need, and null pointers with length 0. */
#include "tests.h"

typedef void asking(uint64_t *to, size_t room);

#define TABLES blob, blob_len, nodes, NODES_LEN, node_count, props, PROPS_LEN, prop_count, 0, (const uint8_t *)"u", 1, to, room

static void ask_load(uint64_t *to, size_t room)
{
    dangrisuk_load(blob, blob_len, reserved, 2, nodes, NODES_LEN, props, PROPS_LEN, to, room);
}
static void ask_refused_load(uint64_t *to, size_t room)
{
    dangrisuk_load(blob, blob_len, reserved, 2, nodes, 7, props, PROPS_LEN, to, room);
}
static void ask_measure(uint64_t *to, size_t room)
{
    dangrisuk_measure(blob, blob_len, to, room);
}
static void ask_find(uint64_t *to, size_t room)
{
    dangrisuk_find(blob, blob_len, nodes, NODES_LEN, node_count, (const uint8_t *)"/b", 2, to, room);
}
static void ask_find_from(uint64_t *to, size_t room)
{
    dangrisuk_find_from(blob, blob_len, nodes, NODES_LEN, node_count, 0, (const uint8_t *)"b", 1, to, room);
}
static void ask_has_prop(uint64_t *to, size_t room)
{
    dangrisuk_has_prop(TABLES);
}
static void ask_prop_raw(uint64_t *to, size_t room)
{
    dangrisuk_prop_raw(TABLES);
}
static void ask_prop_str(uint64_t *to, size_t room)
{
    dangrisuk_prop_str(TABLES);
}
static void ask_prop_u32(uint64_t *to, size_t room)
{
    dangrisuk_prop_u32(TABLES);
}
static void ask_prop_u64(uint64_t *to, size_t room)
{
    dangrisuk_prop_u64(TABLES);
}
static void ask_align(uint64_t *to, size_t room)
{
    dangrisuk_align(5, 4, to, room);
}
static void ask_read_be_u32(uint64_t *to, size_t room)
{
    dangrisuk_read_be_u32(blob, blob_len, 0, to, room);
}
static void ask_read_be_u64(uint64_t *to, size_t room)
{
    dangrisuk_read_be_u64(blob, blob_len, 0, to, room);
}
static void ask_read_bstring0(uint64_t *to, size_t room)
{
    dangrisuk_read_bstring0(blob, blob_len, 100, to, room);
}
static void ask_subslice(uint64_t *to, size_t room)
{
    dangrisuk_subslice(blob, blob_len, 76, 80, to, room);
}
static void ask_from_utf8(uint64_t *to, size_t room)
{
    dangrisuk_from_utf8(blob + 100, 2, to, room);
}

/* With every room from none, by a null pointer, up to what is enough: the answer's first numbers, and nothing behind the room. */
static void expect_in_rooms(const char *what, asking *ask, const uint64_t *due, size_t count)
{
    for (size_t room = 0; room <= DANGRISUK_ANSWER; room++) {
        fresh();
        ask(room == 0 ? NULL : answer, room);
        expect(what, due, room < count ? room : count);
    }
}

void test_answer_room(void)
{
    frame_s();
    expect_load("S", NUMBERS(0, 17, 0, 1, 2, 1));
    set_word(76, 0x61620000);
    expect_in_rooms("room of load", ask_load, NUMBERS(0, 17, 0, 1, 2, 1));
    expect_in_rooms("room of a refused load", ask_refused_load, NUMBERS(9, 2));
    expect_in_rooms("room of measure", ask_measure, NUMBERS(0, 17, 0, 1, 2, 1));
    expect_in_rooms("room of find", ask_find, NUMBERS(0, 1));
    expect_in_rooms("room of find_from", ask_find_from, NUMBERS(0, 1));
    expect_in_rooms("room of has_prop", ask_has_prop, NUMBERS(0));
    expect_in_rooms("room of prop_raw", ask_prop_raw, NUMBERS(0, 76, 4));
    expect_in_rooms("room of prop_str", ask_prop_str, NUMBERS(0, 76, 3));
    expect_in_rooms("room of prop_u32", ask_prop_u32, NUMBERS(0, 0x61620000));
    expect_in_rooms("room of prop_u64", ask_prop_u64, NUMBERS(13));
    expect_in_rooms("room of align", ask_align, NUMBERS(0, 8));
    expect_in_rooms("room of read_be_u32", ask_read_be_u32, NUMBERS(0, 0xd00dfeed));
    expect_in_rooms("room of read_be_u64", ask_read_be_u64, NUMBERS(0, 0xd00dfeed00000066));
    expect_in_rooms("room of read_bstring0", ask_read_bstring0, NUMBERS(0, 100, 1));
    expect_in_rooms("room of subslice", ask_subslice, NUMBERS(0, 76, 4));
    expect_in_rooms("room of from_utf8", ask_from_utf8, NUMBERS(0));
}

#define ASK(what, call, ...)                                                                                                           \
    do {                                                                                                                               \
        fresh();                                                                                                                       \
        call;                                                                                                                          \
        expect(what, NUMBERS(__VA_ARGS__));                                                                                            \
    } while (0)

void test_null(void)
{
    frame_s();
    expect_load("S", NUMBERS(0, 17, 0, 1, 2, 1));
    ASK("no blob, no tables", dangrisuk_load(NULL, 0, NULL, 0, NULL, 0, NULL, 0, answer, PLACES), 3);
    ASK("no tables", dangrisuk_load(blob, blob_len, NULL, 0, NULL, 0, NULL, 0, answer, PLACES), 8, 1);
    ASK("no property table", dangrisuk_load(blob, blob_len, reserved, 2, nodes, 14, NULL, 0, answer, PLACES), 10, 1);
    ASK("no blob to measure", dangrisuk_measure(NULL, 0, answer, PLACES), 3);
    ASK("no path", dangrisuk_find(blob, blob_len, nodes, 14, 2, NULL, 0, answer, PLACES), 11);
    ASK("no node table", dangrisuk_find(blob, blob_len, NULL, 0, 0, NULL, 0, answer, PLACES), 15);
    ASK("no blob to find in", dangrisuk_find(NULL, 0, nodes, 14, 2, (const uint8_t *)"/b", 2, answer, PLACES), 15);
    ASK("no path from a row", dangrisuk_find_from(blob, blob_len, nodes, 14, 2, 1, NULL, 0, answer, PLACES), 0, 1);
    for (size_t i = 0; i < PROPERTY_CALLS; i++) {
        ASK("no name", property_calls[i](blob, blob_len, nodes, 14, 2, props, 4, 1, 0, NULL, 0, answer, PLACES), 11);
        ASK("no property table", property_calls[i](blob, blob_len, nodes, 14, 2, NULL, 0, 0, 1, NULL, 0, answer, PLACES), 15);
        ASK("no tables", property_calls[i](NULL, 0, NULL, 0, 0, NULL, 0, 0, 0, NULL, 0, answer, PLACES), 15);
    }
    chain(2);
    expect_load("a chain of 2 nodes", NUMBERS(0, 17, 0, 1, 2, 0));
    ASK("no properties to load", dangrisuk_load(blob, blob_len, reserved, 2, nodes, 14, NULL, 0, answer, PLACES), 0, 17, 0, 1, 2, 0);
    for (size_t i = 0; i < PROPERTY_CALLS; i++) {
        ASK("no properties", property_calls[i](blob, blob_len, nodes, 14, 2, NULL, 0, 0, 1, NULL, 0, answer, PLACES), 11);
    }
    ASK("u32 of nothing", dangrisuk_read_be_u32(NULL, 0, 0, answer, PLACES), 3);
    ASK("u64 of nothing", dangrisuk_read_be_u64(NULL, 0, 0, answer, PLACES), 3);
    ASK("string of nothing", dangrisuk_read_bstring0(NULL, 0, 0, answer, PLACES), 3);
    ASK("part of nothing", dangrisuk_subslice(NULL, 0, 0, 0, answer, PLACES), 3);
    ASK("nothing as UTF-8", dangrisuk_from_utf8(NULL, 0, answer, PLACES), 0);
}
