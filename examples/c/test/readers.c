/* The readers called alone, and the UTF-8 check. */
#include <stdio.h>
#include <string.h>

#include "tests.h"

static void expect_align(size_t val, size_t to, const uint64_t *due, size_t count)
{
    char what[64];
    snprintf(what, sizeof what, "align(%zu, %zu)", val, to);
    fresh();
    dangrisuk_align(val, to, answer, PLACES);
    expect(what, due, count);
}

static void expect_subslice(size_t start, size_t end, const uint64_t *due, size_t count)
{
    char what[64];
    snprintf(what, sizeof what, "subslice(%zu, %zu)", start, end);
    fresh();
    dangrisuk_subslice(blob, blob_len, start, end, answer, PLACES);
    expect(what, due, count);
}

static void expect_utf8(const char *bytes, size_t len, uint64_t due)
{
    char what[64] = "from_utf8";
    set_blob((const uint8_t *)bytes, len);
    for (size_t i = 0; i < len; i++) {
        size_t at = strlen(what);
        snprintf(what + at, sizeof what - at, " %02x", blob[i]);
    }
    fresh();
    dangrisuk_from_utf8(blob, blob_len, answer, PLACES);
    expect(what, &due, 1);
}

void test_numbers(void)
{
    expect_align(0, 4, NUMBERS(0, 0));
    expect_align(5, 4, NUMBERS(0, 8));
    expect_align(8, 4, NUMBERS(0, 8));
    expect_align(5, 0, NUMBERS(3));
    expect_align(SIZE_MAX, 1, NUMBERS(0, SIZE_MAX));
    expect_align(SIZE_MAX - 3, 4, NUMBERS(0, SIZE_MAX - 3));
    expect_align(SIZE_MAX, 4, NUMBERS(3));
    frame_s();
    expect_read("u32 at 0", dangrisuk_read_be_u32, 0, NUMBERS(0, 0xd00dfeed));
    expect_read("u32 at 98", dangrisuk_read_be_u32, 98, NUMBERS(0, 0x00097500));
    expect_read("u32 at 99", dangrisuk_read_be_u32, 99, NUMBERS(3));
    expect_read("u32 at the end of the range", dangrisuk_read_be_u32, SIZE_MAX, NUMBERS(3));
    expect_read("u64 at 0", dangrisuk_read_be_u64, 0, NUMBERS(0, 0xd00dfeed00000066));
    expect_read("u64 at 94", dangrisuk_read_be_u64, 94, NUMBERS(0, 0x0002000000097500));
    expect_read("u64 at 95", dangrisuk_read_be_u64, 95, NUMBERS(3));
    expect_read("u64 at the end of the range", dangrisuk_read_be_u64, SIZE_MAX - 7, NUMBERS(3));
}

void test_parts(void)
{
    frame_s();
    expect_read("string at 100", dangrisuk_read_bstring0, 100, NUMBERS(0, 100, 1));
    expect_read("string at 101", dangrisuk_read_bstring0, 101, NUMBERS(0, 101, 0));
    expect_read("string at 102", dangrisuk_read_bstring0, 102, NUMBERS(3));
    expect_read("string at the end of the range", dangrisuk_read_bstring0, SIZE_MAX, NUMBERS(3));
    expect_subslice(76, 80, NUMBERS(0, 76, 4));
    expect_subslice(100, 101, NUMBERS(0, 100, 1));
    expect_subslice(101, 101, NUMBERS(0, 101, 0));
    expect_subslice(100, 102, NUMBERS(3));
    expect_subslice(3, 2, NUMBERS(3));
    expect_subslice(0, SIZE_MAX, NUMBERS(3));
    set_blob(blob, 101);
    expect_read("string without its zero", dangrisuk_read_bstring0, 100, NUMBERS(3));
}

/* Each first byte's range of second bytes, both sides of its ends. */
void test_utf8(void)
{
    static const struct {
        uint8_t first, low, high;
    } rows[] = {{0xc2, 0x80, 0xbf}, {0xdf, 0x80, 0xbf}, {0xe0, 0xa0, 0xbf}, {0xe1, 0x80, 0xbf}, {0xec, 0x80, 0xbf}, {0xed, 0x80, 0x9f},
                {0xee, 0x80, 0xbf}, {0xef, 0x80, 0xbf}, {0xf0, 0x90, 0xbf}, {0xf1, 0x80, 0xbf}, {0xf3, 0x80, 0xbf}, {0xf4, 0x80, 0x8f}};
    for (size_t i = 0; i < COUNT(rows); i++) {
        size_t len = rows[i].first < 0xe0 ? 2 : rows[i].first < 0xf0 ? 3 : 4;
        for (unsigned second = 0; second < 256; second++) {
            char bytes[4] = {(char)rows[i].first, (char)second, (char)0x80, (char)0xbf};
            expect_utf8(bytes, len, rows[i].low <= second && second <= rows[i].high ? 0 : 5);
        }
        expect_utf8((const char *)&rows[i].first, 1, 5);
    }
    expect_utf8("", 0, 0);
    expect_utf8("celsius\0", 8, 0);
    expect_utf8("\x7f", 1, 0);
    expect_utf8("\x80", 1, 5);
    expect_utf8("\xc0\x80", 2, 5);
    expect_utf8("\xc1\xbf", 2, 5);
    expect_utf8("\xf5\x80\x80\x80", 4, 5);
    expect_utf8("\xe2\x82\xac\xc2", 4, 5);
}
