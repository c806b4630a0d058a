/* The samples: rows, paths and properties of the enclosure, the two refusals, and the chain of expanders. */
#include <stdio.h>
#include <stdlib.h>
#include <string.h>

#include "tests.h"

static void set_sample(const char *folder, const char *file)
{
    static uint8_t bytes[BLOB_ROOM + 1];
    char path[4096];
    snprintf(path, sizeof path, "%s/%s", folder, file);
    FILE *in = fopen(path, "rb");
    if (in == NULL) {
        printf("test: cannot read %s\n", path);
        exit(2);
    }
    size_t len = fread(bytes, 1, sizeof bytes, in);
    fclose(in);
    if (len > BLOB_ROOM) {
        printf("test: %s is longer than %d bytes\n", path, BLOB_ROOM);
        exit(2);
    }
    set_blob(bytes, len);
}

static uint32_t node(size_t row, size_t field)
{
    return nodes[DANGRISUK_NODE_WIDTH * row + field];
}

/* The path that the parents spell, put to the end of `to`. */
static char *path_of(size_t row, char *to, size_t room)
{
    size_t at = room - 1;
    to[at] = 0;
    while (node(row, DANGRISUK_NODE_PARENT) != DANGRISUK_NONE) {
        size_t len = node(row, DANGRISUK_NODE_NAME_LENGTH);
        at -= len + 1;
        to[at] = '/';
        memcpy(to + at + 1, blob + node(row, DANGRISUK_NODE_NAME_OFFSET), len);
        row = node(row, DANGRISUK_NODE_PARENT);
    }
    if (to[at] == 0) {
        to[--at] = '/';
    }
    return to + at;
}

/* How many nodes the links lead to. */
static size_t linked(size_t row)
{
    size_t count = 1;
    for (uint32_t child = node(row, DANGRISUK_NODE_FIRST_CHILD); child != DANGRISUK_NONE;
         child = node(child, DANGRISUK_NODE_NEXT_SIBLING)) {
        expect_number("the parent of a child", node(child, DANGRISUK_NODE_PARENT), row);
        count += linked(child);
    }
    return count;
}

/* The links lead to each row that was loaded, and so do the paths. */
static void expect_rows(void)
{
    char room[512];
    expect_number("nodes that the links lead to", linked(0), node_count);
    for (size_t row = 0; row < node_count; row++) {
        char *path = path_of(row, room, sizeof room);
        expect_find(path, NUMBERS(0, row));
        expect_find_from(0, path + 1, NUMBERS(0, row));
    }
}

void test_enclosure_rows(const char *folder)
{
    static const uint64_t reservations[] = {0x80000000, 0x10000, 0x9ff00000, 0x80000, 0, 0};
    set_sample(folder, "enclosure.dtb");
    expect_load("enclosure.dtb", NUMBERS(0, 17, 0, 3, 52, 280));
    for (size_t i = 0; i < COUNT(reservations); i++) {
        expect_number("reservation rows of the enclosure", reserved[i], reservations[i]);
    }
    expect_rows();
    expect_load_in("exact room for the enclosure", 6, 7 * 52, 4 * 280, NUMBERS(0, 17, 0, 3, 52, 280));
    expect_load_in("a reservation row less", 4, 7 * 52, 4 * 280, NUMBERS(8, 3));
    expect_load_in("a node row less", 6, 7 * 51, 4 * 280, NUMBERS(9, 52));
    expect_load_in("a property row less", 6, 7 * 52, 4 * 279, NUMBERS(10, 280));
}

static void expect_text(const char *what, size_t row, const char *name, const char *due)
{
    prop(dangrisuk_prop_str, row, name);
    int same = answer[0] == DANGRISUK_OK && answer[2] == strlen(due) && memcmp(blob + answer[1], due, strlen(due)) == 0;
    expect_number(what, (uint64_t)same, 1);
}

void test_enclosure_properties(const char *folder)
{
    set_sample(folder, "enclosure.dtb");
    expect_load("enclosure.dtb", NUMBERS(0, 17, 0, 3, 52, 280));
    expect_text("serial number", 0, "serial-number", "ENC-0017");
    find("/expander@2");
    expect_prop("an address of 8 bytes", dangrisuk_prop_u64, (size_t)answer[1], "sas-address", NUMBERS(0, 0x5000c50000170200));
    find("/expander@2/bay@4");
    size_t bay = (size_t)answer[1];
    expect_prop("slot 13", dangrisuk_prop_u32, bay, "slot", NUMBERS(0, 13));
    expect_prop("an empty value, has", dangrisuk_has_prop, bay, "hot-swap", NUMBERS(0));
    expect_prop("an empty value, str", dangrisuk_prop_str, bay, "hot-swap", NUMBERS(12));
    expect_prop("an empty value, u32", dangrisuk_prop_u32, bay, "hot-swap", NUMBERS(13));
    find_from(bay, "sensor@4c");
    size_t sensor = (size_t)answer[1];
    expect_text("the unit of slot 13", sensor, "unit", "fahrenheit");
    expect_prop("the unit's place", dangrisuk_prop_raw, sensor, "unit", NUMBERS(0, 4196, 11));
    expect_prop("the limit of slot 13", dangrisuk_prop_u32, sensor, "critical", NUMBERS(0, 149));
    find("/expander@2/bay@5/sensor@4d");
    prop(dangrisuk_prop_raw, (size_t)answer[1], "calibration");
    size_t gain = (size_t)answer[1];
    expect_number("the length of a calibration", answer[2], 8);
    expect_read("gain of slot 14", dangrisuk_read_be_u32, gain, NUMBERS(0, 0x3f80a3d7));
    expect_read("offset of slot 14", dangrisuk_read_be_u32, gain + 4, NUMBERS(0, 0xbf000000));
}

void test_damaged(const char *folder)
{
    set_sample(folder, "damaged-shifted.dtb");
    expect_load("damaged-shifted.dtb", NUMBERS(4, 4212));
    set_sample(folder, "damaged-short.dtb");
    expect_load("damaged-short.dtb", NUMBERS(2));
}

/* How many nodes the row is inside, and itself. */
static size_t depth_of(size_t row)
{
    size_t depth = 1;
    for (uint32_t at = node(row, DANGRISUK_NODE_PARENT); at != DANGRISUK_NONE; at = node(at, DANGRISUK_NODE_PARENT)) {
        depth++;
    }
    return depth;
}

/* The sensors at depth 23 count in Fahrenheit, all others in Celsius. */
void test_daisy_chain(const char *folder)
{
    size_t deepest = 0, sensors = 0;
    set_sample(folder, "daisy-chain.dtb");
    expect_load("daisy-chain.dtb", NUMBERS(0, 17, 0, 2, 61, 326));
    expect_rows();
    for (size_t row = 0; row < node_count; row++) {
        prop(dangrisuk_has_prop, row, "unit");
        if (answer[0] == DANGRISUK_OK) {
            sensors++;
            expect_text("the unit of a sensor", row, "unit", depth_of(row) == 23 ? "fahrenheit" : "celsius");
        }
        deepest = depth_of(row) > deepest ? depth_of(row) : deepest;
    }
    expect_number("sensors of the chain", sensors, 20);
    expect_number("the depth of the chain", deepest, 23);
}
