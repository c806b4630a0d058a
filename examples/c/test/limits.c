/* What a porter gets wrong, the limits, and rows that no load wrote. */
#include <string.h>

#include "tests.h"

void test_layout(void)
{
    static const uint32_t twins[] = {1, 0, 1, 0x61000000, 2, 1, 0x61000000, 1, 0x63000000, 2, 2, 2};
    static const uint32_t last_byte[] = {1, 0, 3, 4, 0};
    static const uint32_t odd[] = {0x00000000, 0x01000000, 2};
    static const uint32_t late[] = {1, 0, 1, 0x61000000, 2, 3, 0, 0, 2};
    frame_of(twins, COUNT(twins), NULL, 0);
    expect_load("two children of one name", NUMBERS(0, 17, 0, 1, 4, 0));
    expect_find("/a", NUMBERS(0, 1));
    expect_find("/a/c", NUMBERS(11));
    expect_find_from(2, "c", NUMBERS(0, 3));
    frame_of(last_byte, COUNT(last_byte), "\xff\0\0\0", 4);
    expect_load("a value that ends at the last byte, its name not UTF-8", NUMBERS(3));
    frame_of(last_byte, COUNT(last_byte), "\xff\0\0\0\0", 5);
    expect_load("a value that ends before the last byte, its name not UTF-8", NUMBERS(5));
    frame_of(odd, COUNT(odd), NULL, 0);
    set_word(8, 57);
    expect_load("a structure block at 57", NUMBERS(0, 17, 0, 1, 1, 0));
    frame_of(late, COUNT(late), "", 1);
    expect_load("a property behind a child", NUMBERS(4, 76));
}

/* The blob's first bytes, saying their own length. */
static void cut(size_t len)
{
    set_blob(blob, len);
    set_word(4, (uint32_t)len);
}

void test_depth(void)
{
    char path[2 * DANGRISUK_DEPTH + 1] = "";
    size_t token = 56 + 8 * DANGRISUK_DEPTH;
    for (size_t depth = 1; depth <= DANGRISUK_DEPTH; depth++) {
        chain(depth);
        expect_load("a chain that is not too deep", NUMBERS(0, 17, 0, 1, depth, 0));
        expect_find(depth == 1 ? "/" : path, NUMBERS(0, depth - 1));
        strcat(path, "/a");
    }
    chain(DANGRISUK_DEPTH + 1);
    expect_load("a node too deep", NUMBERS(7, token));
    set_word(token + 4, 0xff000000);
    expect_load("a node too deep, its name not UTF-8", NUMBERS(7, token));
    cut(token + 4);
    expect_load("a node too deep, the blob ends with its token", NUMBERS(7, token));
    cut(token + 3);
    expect_load("a node too deep, its token not whole", NUMBERS(3));
}

void test_room(void)
{
    frame_s();
    expect_load_in("exact room", 2, 14, 4, NUMBERS(0, 17, 0, 1, 2, 1));
    expect_load_in("no reservation row", 0, 14, 4, NUMBERS(8, 1));
    expect_load_in("a node row less", 2, 7, 4, NUMBERS(9, 2));
    expect_load_in("no property row", 2, 14, 0, NUMBERS(10, 1));
    expect_load_in("half a reservation row", 1, 14, 4, NUMBERS(8, 1));
    expect_load_in("a node row without its last number", 2, 13, 4, NUMBERS(9, 2));
    expect_load_in("a property row without its last number", 2, 14, 3, NUMBERS(10, 1));
    expect_load_in("no room: reservations first", 0, 0, 0, NUMBERS(8, 1));
    expect_load_in("no room: then nodes", 2, 0, 0, NUMBERS(9, 2));
    set_word(80, 4);
    expect_load_in("no room, but refused before", 0, 0, 0, NUMBERS(4, 80));
}

/* ---- rows that no load wrote */

void test_unusable_nodes(void)
{
    static const size_t links[] = {DANGRISUK_NODE_FIRST_CHILD, DANGRISUK_NODE_NEXT_SIBLING};
    frame_s();
    for (size_t i = 0; i < COUNT(links); i++) {
        expect_load("S", NUMBERS(0, 17, 0, 1, 2, 1));
        nodes[links[i]] = 0;
        expect_find("/", NUMBERS(15));
        expect_find("b", NUMBERS(11));
        nodes[links[i]] = 2;
        expect_find("/b", NUMBERS(15));
    }
    expect_load("S", NUMBERS(0, 17, 0, 1, 2, 1));
    nodes[DANGRISUK_NODE_NAME_OFFSET] = 4000;
    expect_find("/b", NUMBERS(0, 1));
    nodes[DANGRISUK_NODE_WIDTH + DANGRISUK_NODE_NAME_OFFSET] = 102;
    expect_find("/", NUMBERS(0, 0));
    expect_find("/b", NUMBERS(15));
    nodes[DANGRISUK_NODE_WIDTH + DANGRISUK_NODE_NAME_OFFSET] = 101;
    expect_find("/b", NUMBERS(11));
}

void test_unusable_counts(void)
{
    frame_s();
    expect_load("S", NUMBERS(0, 17, 0, 1, 2, 1));
    expect_find_from(2, "", NUMBERS(15));
    expect_no_prop("a row that is not below the count", 2, "u", 15);
    node_count = 0;
    expect_find("/", NUMBERS(15));
    expect_find("b", NUMBERS(15));
    node_count = NODES + 1;
    expect_find("/", NUMBERS(15));
    expect_no_prop("more node rows than room", 0, "u", 15);
    node_count = 2;
    prop_count = PROPERTIES + 1;
    expect_no_prop("more property rows than room", 0, "u", 15);
    prop_count = 0;
    expect_no_prop("a node's properties past the count", 0, "u", 15);
    prop_count = 1;
    props[DANGRISUK_PROPERTY_VALUE_OFFSET] = 99;
    expect_no_prop("a value outside the blob", 0, "u", 15);
    props[DANGRISUK_PROPERTY_VALUE_OFFSET] = 98;
    expect_prop("a value at the blob's end", dangrisuk_prop_raw, 0, "u", NUMBERS(0, 98, 4));
    props[DANGRISUK_PROPERTY_NAME_LENGTH] = 3;
    expect_no_prop("a property's name outside the blob", 0, "u", 15);
}
