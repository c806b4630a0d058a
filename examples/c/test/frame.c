/* Document 01's frame S and its neighbours: loads, rows, paths, properties, refusals. */
#include "tests.h"

void test_s(void)
{
    static const uint64_t reservations[] = {0, 0};
    static const uint32_t rows[] = {60, 0, DANGRISUK_NONE, 1, DANGRISUK_NONE, 0, 1, 84, 1, 0, DANGRISUK_NONE, DANGRISUK_NONE, 1, 0};
    static const uint32_t properties[] = {100, 1, 76, 4};
    frame_s();
    expect_load("S", NUMBERS(0, 17, 0, 1, 2, 1));
    for (size_t i = 0; i < COUNT(reservations); i++) {
        expect_number("reservation row of S", reserved[i], reservations[i]);
    }
    for (size_t i = 0; i < COUNT(rows); i++) {
        expect_number("node rows of S", nodes[i], rows[i]);
    }
    for (size_t i = 0; i < COUNT(properties); i++) {
        expect_number("property row of S", props[i], properties[i]);
    }
}

void test_s_paths(void)
{
    frame_s();
    expect_load("S", NUMBERS(0, 17, 0, 1, 2, 1));
    expect_find("/", NUMBERS(0, 0));
    expect_find("/b", NUMBERS(0, 1));
    expect_find("/b/", NUMBERS(0, 1));
    expect_find("", NUMBERS(11));
    expect_find("b", NUMBERS(11));
    expect_find("//", NUMBERS(11));
    expect_find("/b//", NUMBERS(11));
    expect_find("/c", NUMBERS(11));
    expect_find("/bb", NUMBERS(11));
    expect_find("/\xff", NUMBERS(11));
    expect_find_from(0, "", NUMBERS(0, 0));
    expect_find_from(0, "b", NUMBERS(0, 1));
    expect_find_from(0, "/b", NUMBERS(11));
    expect_find_from(1, "", NUMBERS(0, 1));
    expect_find_from(1, "b", NUMBERS(11));
}

void test_s_properties(void)
{
    frame_s();
    expect_load("S", NUMBERS(0, 17, 0, 1, 2, 1));
    expect_prop("u of S, has", dangrisuk_has_prop, 0, "u", NUMBERS(0));
    expect_prop("u of S, raw", dangrisuk_prop_raw, 0, "u", NUMBERS(0, 76, 4));
    expect_prop("u of S, u32", dangrisuk_prop_u32, 0, "u", NUMBERS(0, 42));
    expect_prop("u of S, u64", dangrisuk_prop_u64, 0, "u", NUMBERS(13));
    expect_prop("u of S, str", dangrisuk_prop_str, 0, "u", NUMBERS(12));
    expect_no_prop("v of S", 0, "v", 11);
    expect_no_prop("the empty name in S", 0, "", 11);
    expect_no_prop("u at b in S", 1, "u", 11);
    set_word(76, 0x61000000);
    expect_prop("zeros inside a text", dangrisuk_prop_str, 0, "u", NUMBERS(0, 76, 3));
    set_word(76, 0xff000000);
    expect_prop("a text that is not UTF-8", dangrisuk_prop_str, 0, "u", NUMBERS(5));
    set_word(68, 3);
    expect_load("a value of 3 bytes", NUMBERS(0, 17, 0, 1, 2, 1));
    expect_prop("a value of 3 bytes, raw", dangrisuk_prop_raw, 0, "u", NUMBERS(0, 76, 3));
    expect_prop("a value of 3 bytes, u32", dangrisuk_prop_u32, 0, "u", NUMBERS(13));
}

void test_s_refused(void)
{
    set_blob((const uint8_t *)"", 0);
    expect_load("an empty blob", NUMBERS(3));
    set_blob((const uint8_t *)"\x10\x0d\xfe\xed", 4);
    expect_load("four bytes other than the magic number", NUMBERS(1));
    set_blob((const uint8_t *)"\xd0\x0d\xfe\xed\0\0\0\x08", 8);
    expect_load("eight bytes", NUMBERS(3));
    frame_s();
    set_blob(blob, 101);
    expect_load("S without its last byte", NUMBERS(2));
    frame_s();
    set_word(20, 16);
    expect_load("version 16", NUMBERS(6));
    frame_s();
    set_word(80, 4);
    expect_load("word 80 set to 4", NUMBERS(4, 80));
    frame_s();
    set_word(68, 5);
    expect_load("word 68 set to 5", NUMBERS(4, 84));
    frame_s();
    set_word(88, 9);
    expect_load("word 88 set to 9", NUMBERS(4, 88));
    frame_s();
    set_word(88, 3);
    expect_load("word 88 set to 3", NUMBERS(3));
    frame_s();
    blob[84] = 0xff;
    expect_load("byte 84 set to ff", NUMBERS(5));
    set_word(88, 4);
    expect_load("byte 84 set to ff, word 88 to 4", NUMBERS(4, 88));
}

/* S with one word changed, so that something is not whole in the blob, not a node, or not UTF-8. */
void test_s_words(void)
{
    static const struct {
        size_t at;
        uint32_t word;
        const char *what;
        uint64_t due[2];
    } rows[] = {
        {8, 99, "a structure block without a whole word", {3, BEFORE}},
        {8, 0xffffffff, "a structure block past the end", {3, BEFORE}},
        {12, 0xffffffff, "a strings block past the end", {3, BEFORE}},
        {16, 87, "a reservation that is not whole", {3, BEFORE}},
        {48, 1, "reservations up to the end of the blob", {3, BEFORE}},
        {56, 2, "a root that does not open", {4, 56}},
        {68, 26, "a value that ends at the last byte", {3, BEFORE}},
        {68, 0xffffffff, "a value past the end", {3, BEFORE}},
        {72, 2, "a property's name at the end", {3, BEFORE}},
        {92, 1, "a second child, and no whole word behind its name", {3, BEFORE}},
    };
    for (size_t i = 0; i < COUNT(rows); i++) {
        frame_s();
        set_word(rows[i].at, rows[i].word);
        expect_load(rows[i].what, rows[i].due, rows[i].due[1] == BEFORE ? 1 : 2);
    }
    frame_s();
    blob[100] = 0xff;
    expect_load("a property's name that is not UTF-8", NUMBERS(5));
}

void test_short(void)
{
    static const uint32_t words[] = {1, 0, 3, 4};
    frame_of(words, 2, NULL, 0);
    expect_load("a root without a further word", NUMBERS(3));
    frame_of(words, 3, NULL, 0);
    expect_load("a property without its size", NUMBERS(3));
    frame_of(words, 4, NULL, 0);
    expect_load("a property without its name offset", NUMBERS(3));
    frame_of(words, 1, "root", 4);
    expect_load("a node's name without its zero byte", NUMBERS(3));
}

void test_s_taken(void)
{
    static const uint32_t words[] = {0, 1, 2, 3, 4, 0xffffffff};
    for (size_t i = 0; i < COUNT(words); i++) {
        frame_s();
        set_word(96, words[i]);
        expect_load("word 96 set to anything", NUMBERS(0, 17, 0, 1, 2, 1));
    }
    frame_s();
    set_word(44, 4096);
    expect_load("a reservation at 4096 of size 0", NUMBERS(0, 17, 0, 1, 2, 1));
    expect_number("its offset", reserved[DANGRISUK_RESERVATION_OFFSET], 4096);
    expect_number("its size", reserved[DANGRISUK_RESERVATION_SIZE], 0);
    frame_s();
    set_word(28, 3);
    expect_load("boot CPU 3", NUMBERS(0, 17, 3, 1, 2, 1));
}
