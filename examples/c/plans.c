/* Writes plans, shelves them, tries to shelve a damaged record, fetches one, reads it back, measures its areas and walks the shelf;
   then writes and reads under a maker's own group table. Memory: the table, and buffers sized by the header's macros for plans of
   at most 8 trails. */
#include "jurnadel.h"
#include <stdio.h>

#define MAX_TRAILS 8

static uint16_t work[JURNADEL_WORK_LEN(MAX_TRAILS)];
static uint16_t order[JURNADEL_ORDER_LEN(MAX_TRAILS)];
static uint16_t areas[JURNADEL_AREAS_LEN(MAX_TRAILS)];
static uint8_t record[JURNADEL_RECORD_LEN(0x104, MAX_TRAILS)];
static uint8_t shelf[64];

static void show(const uint8_t *bytes, size_t length) {
    for (size_t i = 0; i < length; i++)
        printf(" %02X", bytes[i]);
    printf("\n");
}

static void list(const uint16_t *numbers, size_t count) {
    for (size_t i = 0; i < count; i++)
        printf(" %d", (int)numbers[i]);
    printf("\n");
}

/* A plan in kind 2, stored by a maker whose bytes for groups are 13 more than their values. */
static int makers_table(void) {
    static const uint16_t dead_end[] = {4, 2, 1, 0, 3, 5};
    uint8_t bytes[243];
    uint16_t refusal, length, trails, outside;
    int32_t characteristic;

    for (size_t value = 0; value < sizeof bytes; value++)
        bytes[value] = (uint8_t)(value + 13);
    jurnadel_table table = jurnadel_load_table(bytes, sizeof bytes, &refusal);
    if (refusal != 0)
        return 1;
    if (jurnadel_write(table, dead_end, 6, 0, 0, 2, work, sizeof work / sizeof work[0], record, sizeof record,
                       &length, &characteristic) != 0)
        return 1;
    printf("dead end inside a pair, under a maker's table:");
    show(record, length);
    if (jurnadel_read(table, record, length, work, sizeof work / sizeof work[0], order, sizeof order / sizeof order[0],
                      &trails, &outside) != 0)
        return 1;
    printf("read under that table: %d trails, order", (int)trails);
    list(order, JURNADEL_ORDER_LEN(trails));
    refusal = jurnadel_read(jurnadel_standard_table(), record, length, work, sizeof work / sizeof work[0],
                            order, sizeof order / sizeof order[0], &trails, &outside);
    printf("read under the standard table: refusal %d\n", (int)refusal);
    return 0;
}

int main(void) {
    static const struct { const char *name; uint16_t kind, outside; size_t darts; uint16_t order[6]; } plans[] = {
        {"triangle", 1, 0, 6, {5, 2, 1, 4, 3, 0}},
        {"triangle, the other area outside", 0x101, 5, 6, {5, 2, 1, 4, 3, 0}},
        {"three parallel trails", 1, 0, 6, {5, 2, 4, 0, 1, 3}},
        {"dead end inside a pair", 2, 0, 6, {4, 2, 1, 0, 3, 5}},
        {"triangle, numbered otherwise", 1, 0, 6, {3, 4, 5, 0, 1, 2}},
        {"triangle, as a mesh", 3, 0, 6, {5, 2, 1, 4, 3, 0}},
        {"three parallel trails, as a mesh", 3, 0, 6, {5, 2, 4, 0, 1, 3}},
        {"one trail in from the start", 1, 0, 6, {0, 2, 5, 4, 3, 1}},
        {"a loop around a dead end", 4, 0, 6, {2, 1, 4, 0, 3, 5}},
        {"trails that cross", 4, 0, 6, {3, 2, 4, 5, 1, 0}},
    };
    /* As it may come by radio: the triangle with a bit turned. */
    static const uint8_t damaged[] = {0x08, 0, 0x01, 0, 0x03, 0, 0xE3, 0};
    size_t used = 0, number, at, length;
    uint16_t record_length, trails, outside, count;
    int32_t characteristic;
    const jurnadel_table table = jurnadel_standard_table();

    for (size_t i = 0; i < sizeof plans / sizeof plans[0]; i++) {
        uint16_t refusal = jurnadel_write(table, plans[i].order, plans[i].darts, 0, plans[i].outside, plans[i].kind,
                                          work, sizeof work / sizeof work[0], record, sizeof record, &record_length, &characteristic);
        if (refusal != 0) {
            printf("%s: refusal %d, characteristic %d\n", plans[i].name, (int)refusal, (int)characteristic);
            continue;
        }
        size_t before = used;
        refusal = jurnadel_shelve(table, record, record_length, work, sizeof work / sizeof work[0], shelf, sizeof shelf, used,
                                  &number, &used);
        if (refusal != 0) {
            printf("%s: refusal %d\n", plans[i].name, (int)refusal);
            return 1;
        }
        printf("%s: record %d, %s:", plans[i].name, (int)number, used > before ? "new" : "already there");
        show(record, record_length);
    }

    printf("triangle with a bit turned: refusal %d\n",
           (int)jurnadel_shelve(table, damaged, sizeof damaged, work, sizeof work / sizeof work[0], shelf, sizeof shelf, used,
                                &number, &used));

    if (jurnadel_fetch(shelf, sizeof shelf, used, 1, &at, &length) != 0)
        return 1;
    printf("fetched 1:");
    show(shelf + at, length);
    if (jurnadel_read(table, shelf + at, length, work, sizeof work / sizeof work[0], order, sizeof order / sizeof order[0],
                      &trails, &outside) != 0)
        return 1;
    printf("read 1: %d trails, outside %d, order", (int)trails, (int)outside);
    list(order, JURNADEL_ORDER_LEN(trails));
    if (jurnadel_area_lengths(order, JURNADEL_ORDER_LEN(trails), work, sizeof work / sizeof work[0],
                              areas, sizeof areas / sizeof areas[0], &count, &characteristic) != 0)
        return 1;
    printf("its %d areas, by trails walked along:", (int)count);
    list(areas, count);

    if (jurnadel_walk_begin(shelf, sizeof shelf, used, 1, &at) != 0)
        return 1;
    for (number = 1; (length = jurnadel_walk_step(shelf, sizeof shelf, used, at)) != 0; at += length, number++) {
        printf("walked to %d:", (int)number);
        show(shelf + at, length);
    }
    printf("none left; %d bytes used\n", (int)used);
    return makers_table();
}
