/*
 * Prints the temperature sensor of every bay of a drive enclosure: slot, path, unit and the critical temperature.
 *
 *     sensors enclosure.dtb
 *
 * Exit status: 0 every bay is printed; 1 the blob is refused or a bay lacks something; 2 the file cannot be read or there is no memory.
 */
#include <inttypes.h>
#include <stdio.h>
#include <stdlib.h>
#include <string.h>

#include "dangrisuk.h"

/* A loaded blob: what the lookups are lent. */
struct tree {
    uint8_t *blob;
    size_t blob_len;
    uint64_t *reserved;
    uint32_t *nodes;
    uint32_t *props;
    size_t reserved_count;
    size_t node_count;
    size_t prop_count;
};

/* Bytes that are known by their place in the blob. */
struct part {
    const uint8_t *at;
    size_t len;
};

static size_t reserved_len(const struct tree *t)
{
    return DANGRISUK_RESERVATION_WIDTH * t->reserved_count;
}

static size_t nodes_len(const struct tree *t)
{
    return DANGRISUK_NODE_WIDTH * t->node_count;
}

static size_t props_len(const struct tree *t)
{
    return DANGRISUK_PROPERTY_WIDTH * t->prop_count;
}

/* One number of a node's row. */
static uint32_t node(const struct tree *t, size_t row, enum dangrisuk_node field)
{
    return t->nodes[DANGRISUK_NODE_WIDTH * row + field];
}

static struct part name_of(const struct tree *t, size_t row)
{
    struct part name = {t->blob + node(t, row, DANGRISUK_NODE_NAME_OFFSET), node(t, row, DANGRISUK_NODE_NAME_LENGTH)};
    return name;
}

static int begins(struct part p, const char *text)
{
    size_t len = strlen(text);
    return len <= p.len && memcmp(p.at, text, len) == 0;
}

/* Whole texts are compared: a unit may hold zeros, and then it is none that we know. */
static int is(struct part p, const char *text)
{
    return p.len == strlen(text) && begins(p, text);
}

static void print_part(FILE *to, struct part p)
{
    fwrite(p.at, 1, p.len, to);
}

/* Names from below the root down to the row. The root's path is `/`. */
static void print_path(FILE *to, const struct tree *t, size_t row)
{
    uint32_t parent = node(t, row, DANGRISUK_NODE_PARENT);
    if (parent == DANGRISUK_NONE) {
        fputc('/', to);
        return;
    }
    if (parent != 0) {
        print_path(to, t, parent);
    }
    fputc('/', to);
    print_part(to, name_of(t, row));
}

/* ---- reading and loading */

static int read_file(const char *path, struct tree *t)
{
    FILE *file = fopen(path, "rb");
    if (file == NULL) {
        return 0;
    }
    size_t room = 0;
    int failed = 0;
    while (!failed && !feof(file)) {
        if (t->blob_len == room) {
            room = room == 0 ? 4096 : 2 * room;
            uint8_t *more = realloc(t->blob, room);
            if (more == NULL) {
                failed = 1;
                break;
            }
            t->blob = more;
        }
        t->blob_len += fread(t->blob + t->blob_len, 1, room - t->blob_len, file);
        failed = ferror(file);
    }
    fclose(file);
    return !failed;
}

/* Says why a blob is refused, with the position or the rows needed where the answer carries them. */
static void print_refusal(const char *path, const uint64_t *answer)
{
    fprintf(stderr, "%s: refused, answer %" PRIu64, path, answer[0]);
    switch (answer[0]) {
    case DANGRISUK_PARSE_ERROR:
    case DANGRISUK_TOO_DEEP:
        fprintf(stderr, " at byte %" PRIu64, answer[1]);
        break;
    case DANGRISUK_RESERVATION_ROOM:
    case DANGRISUK_NODE_ROOM:
    case DANGRISUK_PROPERTY_ROOM:
        fprintf(stderr, ", %" PRIu64 " rows needed", answer[1]);
        break;
    default:
        break;
    }
    fputc('\n', stderr);
}

/* Measures, makes tables of exactly the rows needed, loads. Returns the exit status that is due. */
static int load(const char *path, struct tree *t)
{
    uint64_t answer[DANGRISUK_ANSWER];
    dangrisuk_measure(t->blob, t->blob_len, answer, DANGRISUK_ANSWER);
    if (answer[0] != DANGRISUK_OK) {
        print_refusal(path, answer);
        return 1;
    }
    t->reserved_count = (size_t)answer[DANGRISUK_LOADED_RESERVATIONS];
    t->node_count = (size_t)answer[DANGRISUK_LOADED_NODES];
    t->prop_count = (size_t)answer[DANGRISUK_LOADED_PROPERTIES];
    t->reserved = malloc(reserved_len(t) * sizeof *t->reserved);
    t->nodes = malloc(nodes_len(t) * sizeof *t->nodes);
    t->props = malloc(props_len(t) * sizeof *t->props);
    if (t->reserved == NULL || t->nodes == NULL || (t->props == NULL && t->prop_count != 0)) {
        fprintf(stderr, "%s: no memory for its tables\n", path);
        return 2;
    }
    dangrisuk_load(t->blob, t->blob_len, t->reserved, reserved_len(t), t->nodes, nodes_len(t), t->props, props_len(t), answer,
                   DANGRISUK_ANSWER);
    if (answer[0] != DANGRISUK_OK) {
        print_refusal(path, answer);
        return 1;
    }
    return 0;
}

/* ---- properties: each says what is missing and returns 0 where it is not given */

static int given(const struct tree *t, size_t row, const char *name, const uint64_t *answer)
{
    if (answer[0] == DANGRISUK_OK) {
        return 1;
    }
    print_path(stderr, t, row);
    fprintf(stderr, ": property %s, answer %" PRIu64 "\n", name, answer[0]);
    return 0;
}

static int number(const struct tree *t, size_t row, const char *name, uint32_t *out)
{
    uint64_t answer[DANGRISUK_ANSWER];
    dangrisuk_prop_u32(t->blob, t->blob_len, t->nodes, nodes_len(t), t->node_count, t->props, props_len(t), t->prop_count, row,
                       (const uint8_t *)name, strlen(name), answer, DANGRISUK_ANSWER);
    if (!given(t, row, name, answer)) {
        return 0;
    }
    *out = (uint32_t)answer[1];
    return 1;
}

static int text(const struct tree *t, size_t row, const char *name, struct part *out)
{
    uint64_t answer[DANGRISUK_ANSWER];
    dangrisuk_prop_str(t->blob, t->blob_len, t->nodes, nodes_len(t), t->node_count, t->props, props_len(t), t->prop_count, row,
                       (const uint8_t *)name, strlen(name), answer, DANGRISUK_ANSWER);
    if (!given(t, row, name, answer)) {
        return 0;
    }
    out->at = t->blob + answer[1];
    out->len = (size_t)answer[2];
    return 1;
}

/* ---- bays */

/* The first child whose name begins so, or DANGRISUK_NONE. */
static uint32_t child_that_begins(const struct tree *t, size_t row, const char *start)
{
    uint32_t child = node(t, row, DANGRISUK_NODE_FIRST_CHILD);
    while (child != DANGRISUK_NONE && !begins(name_of(t, child), start)) {
        child = node(t, child, DANGRISUK_NODE_NEXT_SIBLING);
    }
    return child;
}

static int print_bay(const struct tree *t, size_t bay)
{
    uint32_t slot, critical;
    struct part unit;
    uint32_t sensor = child_that_begins(t, bay, "sensor@");
    if (sensor == DANGRISUK_NONE) {
        print_path(stderr, t, bay);
        fprintf(stderr, ": a bay without a sensor\n");
        return 0;
    }
    if (!number(t, bay, "slot", &slot) || !text(t, sensor, "unit", &unit) || !number(t, sensor, "critical", &critical)) {
        return 0;
    }
    if (!is(unit, "celsius") && !is(unit, "fahrenheit")) {
        print_path(stderr, t, sensor);
        fprintf(stderr, ": a unit that is neither celsius nor fahrenheit\n");
        return 0;
    }
    printf("slot %2" PRIu32 "  ", slot);
    print_path(stdout, t, sensor);
    printf("  ");
    print_part(stdout, unit);
    printf("  critical %" PRIu32 "\n", critical);
    return 1;
}

/* The bays at the row and below it. A loaded tree is at most DANGRISUK_DEPTH nodes deep, so the calls are too. */
static int print_bays(const struct tree *t, size_t row)
{
    int good = !begins(name_of(t, row), "bay@") || print_bay(t, row);
    uint32_t child = node(t, row, DANGRISUK_NODE_FIRST_CHILD);
    while (child != DANGRISUK_NONE) {
        good = print_bays(t, child) && good;
        child = node(t, child, DANGRISUK_NODE_NEXT_SIBLING);
    }
    return good;
}

int main(int argc, char **argv)
{
    struct tree t = {NULL, 0, NULL, NULL, NULL, 0, 0, 0};
    int status = 2;
    if (argc != 2) {
        fprintf(stderr, "usage: sensors FILE.dtb\n");
        return 2;
    }
    if (read_file(argv[1], &t)) {
        status = load(argv[1], &t);
        if (status == 0) {
            status = print_bays(&t, 0) ? 0 : 1;
        }
    } else {
        fprintf(stderr, "%s: cannot be read\n", argv[1]);
    }
    free(t.blob);
    free(t.reserved);
    free(t.nodes);
    free(t.props);
    return status;
}
