/* Every exported call, through the header as a C compiler sees it: the records that the documents give, one case of each
   refusal, the out-numbers that are set and the entries that are not. Prints each check that fails. */
#include "jurnadel.h"
#include <stdio.h>
#include <string.h>

static int failed, passed;

#define CHECK(holds) \
    do { \
        if (holds) passed++; \
        else { failed++; printf("interface.c:%d: %s\n", __LINE__, #holds); } \
    } while (0)

/* Dirty, as a maker's memory is; sized by the macros. */
static uint16_t work[JURNADEL_MAX_WORK_LEN], order[JURNADEL_MAX_ORDER_LEN], list[JURNADEL_MAX_AREAS_LEN];
static uint8_t output[JURNADEL_MAX_RECORD_LEN];
static uint16_t length, trails, outside, count;
static int32_t characteristic;
/* The group table that the calls are handed: the standard one where nothing else is said. */
static jurnadel_table table;

static void dirty(void) {
    memset(work, 0x5a, sizeof work);
    memset(order, 0x5a, sizeof order);
    memset(list, 0x5a, sizeof list);
    memset(output, 0xa5, sizeof output);
    length = trails = outside = count = 0x5a5a;
    characteristic = 0x5a5a;
}

/* Whether a work area of n numbers was cleared, and nothing past it. */
static int cleared(size_t n) {
    size_t i;
    for (i = 0; i < n; i++)
        if (work[i] != 0) return 0;
    return n == JURNADEL_MAX_WORK_LEN || work[n] == 0x5a5a;
}

static int untouched_from(size_t n) {
    size_t i;
    for (i = n; i < sizeof output; i++)
        if (output[i] != 0xa5) return 0;
    return 1;
}

static uint16_t refusal_with(uint16_t side, const uint16_t *rotation, size_t darts, uint16_t start, uint16_t kind, size_t work_len, size_t output_len) {
    uint16_t refusal;
    dirty();
    refusal = jurnadel_write(table, rotation, darts, start, side, kind, work, work_len, output, output_len, &length, &characteristic);
    CHECK(cleared(work_len));
    CHECK(untouched_from(length));
    CHECK(refusal == 0 || length == 0);
    CHECK(refusal == JURNADEL_NOT_PLANAR || characteristic == 0);
    return refusal;
}

/* Where the kind does not ask for the outside dart, there need not be one. */
static uint16_t refusal_of(const uint16_t *rotation, size_t darts, uint16_t start, uint16_t kind, size_t work_len, size_t output_len) {
    return refusal_with(kind & 0x100 ? 0 : 0xffff, rotation, darts, start, kind, work_len, output_len);
}

/* The starred table of document 01, and the lines of document 02. */
static void records(void) {
    static const struct { uint16_t kind, outside, m, order[6], length; uint8_t record[10]; } cases[] = {
        {1, 99, 2, {3, 2, 1, 0}, 7, {0x07, 0, 1, 0, 2, 0, 0xC8}},
        {1, 99, 3, {5, 2, 1, 4, 3, 0}, 8, {0x08, 0, 1, 0, 3, 0, 0xE2, 0x00}},
        {1, 99, 3, {5, 2, 4, 0, 1, 3}, 8, {0x08, 0, 1, 0, 3, 0, 0xD2, 0x80}},
        {2, 99, 1, {0, 1}, 8, {0x08, 0, 2, 0, 1, 0, 0x80, 0xA2}},
        {2, 99, 2, {0, 2, 1, 3}, 8, {0x08, 0, 2, 0, 2, 0, 0xC0, 0x36}},
        {2, 99, 2, {2, 1, 0, 3}, 8, {0x08, 0, 2, 0, 2, 0, 0xA0, 0xD8}},
        {2, 99, 2, {3, 2, 1, 0}, 8, {0x08, 0, 2, 0, 2, 0, 0xC0, 0x51}},
        {2, 99, 3, {4, 2, 1, 0, 3, 5}, 8, {0x08, 0, 2, 0, 3, 0, 0xCC, 0x12}},
        {1, 99, 3, {0, 2, 5, 4, 3, 1}, 8, {0x08, 0, 1, 0, 3, 0, 0xE1, 0x00}},
        {4, 99, 1, {1, 0}, 7, {0x07, 0, 4, 0, 1, 0, 0xB0}},
        {4, 99, 1, {0, 1}, 7, {0x07, 0, 4, 0, 1, 0, 0x10}},
        {4, 99, 3, {5, 2, 1, 4, 3, 0}, 8, {0x08, 0, 4, 0, 3, 0, 0x09, 0x70}},
        {4, 99, 3, {5, 2, 4, 0, 1, 3}, 8, {0x08, 0, 4, 0, 3, 0, 0x29, 0xF0}},
        {4, 99, 3, {0, 2, 5, 4, 3, 1}, 8, {0x08, 0, 4, 0, 3, 0, 0x09, 0xD0}},
        {0x101, 0, 3, {5, 2, 1, 4, 3, 0}, 10, {0x0A, 0, 1, 1, 3, 0, 0, 0, 0xE2, 0x00}},
        {0x101, 1, 3, {5, 2, 1, 4, 3, 0}, 10, {0x0A, 0, 1, 1, 3, 0, 1, 0, 0xE2, 0x00}},
        {0x101, 2, 3, {0, 2, 5, 4, 3, 1}, 10, {0x0A, 0, 1, 1, 3, 0, 0, 0, 0xE1, 0x00}},
        {0x101, 3, 3, {0, 2, 5, 4, 3, 1}, 10, {0x0A, 0, 1, 1, 3, 0, 3, 0, 0xE1, 0x00}},
        {0x102, 1, 3, {4, 2, 1, 0, 3, 5}, 10, {0x0A, 0, 2, 1, 3, 0, 1, 0, 0xCC, 0x12}},
        {0x102, 1, 1, {0, 1}, 10, {0x0A, 0, 2, 1, 1, 0, 0, 0, 0x80, 0xA2}},
        {0x104, 0, 1, {1, 0}, 9, {0x09, 0, 4, 1, 1, 0, 0, 0, 0xB0}},
        {0x104, 1, 1, {1, 0}, 9, {0x09, 0, 4, 1, 1, 0, 1, 0, 0xB0}},
    };
    static uint8_t again[10];
    size_t i;
    for (i = 0; i < sizeof cases / sizeof cases[0]; i++) {
        size_t m = cases[i].m;
        CHECK(JURNADEL_RECORD_LEN(cases[i].kind, m) == cases[i].length);
        CHECK(refusal_with(cases[i].outside, cases[i].order, 2 * m, 0, cases[i].kind, JURNADEL_WORK_LEN(m), cases[i].length) == JURNADEL_DONE);
        CHECK(length == cases[i].length && memcmp(output, cases[i].record, length) == 0);
        dirty();
        CHECK(jurnadel_read(table, cases[i].record, cases[i].length, work, JURNADEL_WORK_LEN(m), order, JURNADEL_ORDER_LEN(m), &trails, &outside) == JURNADEL_DONE);
        CHECK(trails == m && cleared(JURNADEL_WORK_LEN(m)) && order[2 * m] == 0x5a5a);
        CHECK(outside == (cases[i].kind & 0x100 ? cases[i].record[6] : 0));
        CHECK(jurnadel_write(table, order, 2 * m, 0, outside, cases[i].kind, work, JURNADEL_WORK_LEN(m), again, sizeof again, &length, &characteristic) == 0);
        CHECK(length == cases[i].length && memcmp(again, cases[i].record, length) == 0);
    }
}

static void writing(void) {
    static const uint16_t pair[] = {3, 2, 1, 0}, apart[] = {0, 1, 2, 3}, crossing[] = {3, 2, 4, 5, 1, 0}, ring[] = {1, 0}, stick[] = {0, 1},
                          twice[] = {3, 3, 1, 0}, spur[] = {0, 2, 5, 4, 3, 1};
    CHECK(refusal_of(pair, 4, 0, 5, 64, 8) == JURNADEL_BAD_KIND);
    CHECK(refusal_of(pair, 3, 0, 1, 64, 8) == JURNADEL_BAD_COUNT);
    CHECK(refusal_of(pair, 0, 0, 1, 64, 8) == JURNADEL_BAD_COUNT);
    CHECK(refusal_of(pair, 4, 4, 1, 64, 8) == JURNADEL_BAD_START);
    CHECK(refusal_of(twice, 4, 0, 1, 64, 8) == JURNADEL_BAD_ENTRY);
    CHECK(refusal_of(pair, 4, 0, 1, 63, 8) == JURNADEL_SHORT_WORK);
    CHECK(refusal_of(pair, 4, 0, 1, 64, 6) == JURNADEL_SHORT_OUTPUT);
    CHECK(refusal_of(apart, 4, 0, 2, 64, 8) == JURNADEL_NOT_CONNECTED);
    CHECK(refusal_of(crossing, 6, 0, 2, 96, 8) == JURNADEL_NOT_PLANAR && characteristic == 0);
    CHECK(refusal_of(ring, 2, 0, 2, 32, 8) == JURNADEL_HAS_LOOP);
    CHECK(refusal_of(stick, 2, 0, 1, 32, 8) == JURNADEL_HAS_DEGREE_ONE);
    CHECK(refusal_of(spur, 6, 0, 1, 96, 8) == JURNADEL_DONE);
    CHECK(refusal_of(spur, 6, 1, 1, 96, 8) == JURNADEL_HAS_DEGREE_ONE);
    CHECK(refusal_of(ring, 2, 1, 4, 31, 7) == JURNADEL_SHORT_WORK);
    CHECK(refusal_of(ring, 2, 1, 4, 32, 6) == JURNADEL_SHORT_OUTPUT);
    CHECK(refusal_of(ring, 2, 1, 4, 32, 7) == JURNADEL_DONE);
    CHECK(refusal_of(spur, 6, 1, 4, 96, 8) == JURNADEL_DONE);
    CHECK(refusal_of(apart, 4, 0, 4, 64, 8) == JURNADEL_NOT_CONNECTED);
    CHECK(refusal_of(crossing, 6, 0, 4, 96, 8) == JURNADEL_NOT_PLANAR && characteristic == 0);
}

/* Kinds 101h, 102h and 104h: each refusal before those that come after it, and the lowest standard dart. */
static void outsides(void) {
    static const uint16_t kinds[] = {0x101, 0x102, 0x104};
    static const uint16_t twice[] = {3, 3, 1, 0}, apart[] = {0, 1, 2, 3}, crossing[] = {3, 2, 4, 5, 1, 0}, triangle[] = {5, 2, 1, 4, 3, 0},
                          ring[] = {1, 0}, stick[] = {0, 1}, spur[] = {0, 2, 5, 4, 3, 1}, path[] = {2, 1, 0, 3};
    static const uint16_t lowest[] = {0, 1, 0, 1, 0, 1};
    uint16_t i, d;
    for (i = 0; i < 3; i++) {
        uint16_t kind = kinds[i], plain = (uint16_t)(kind - 0x100);
        size_t plain_len = JURNADEL_RECORD_LEN(plain, 3), len = plain_len + 2;
        CHECK(JURNADEL_RECORD_LEN(kind, 3) == len);
        CHECK(refusal_with(3, twice, 3, 3, kind, 0, 0) == JURNADEL_BAD_COUNT);
        CHECK(refusal_with(4, twice, 4, 4, kind, 0, 0) == JURNADEL_BAD_START);
        CHECK(refusal_with(4, twice, 4, 3, kind, 0, 0) == JURNADEL_BAD_OUTSIDE);
        CHECK(refusal_with(0xffff, twice, 4, 3, kind, 0, 0) == JURNADEL_BAD_OUTSIDE);
        CHECK(refusal_with(3, twice, 4, 3, kind, 0, 0) == JURNADEL_BAD_ENTRY);
        CHECK(refusal_with(4, twice, 4, 3, plain, 0, 0) == JURNADEL_BAD_ENTRY);
        CHECK(refusal_with(3, apart, 4, 3, kind, 63, 0) == JURNADEL_SHORT_WORK);
        CHECK(refusal_with(3, apart, 4, 3, kind, 64, JURNADEL_RECORD_LEN(kind, 2) - 1) == JURNADEL_SHORT_OUTPUT);
        CHECK(refusal_with(3, apart, 4, 3, kind, 64, JURNADEL_RECORD_LEN(kind, 2)) == JURNADEL_NOT_CONNECTED);
        CHECK(refusal_with(5, crossing, 6, 3, kind, 96, len) == JURNADEL_NOT_PLANAR && characteristic == 0);
        CHECK(refusal_with(6, triangle, 6, 0, kind, 96, len) == JURNADEL_BAD_OUTSIDE);
        CHECK(refusal_with(6, triangle, 6, 0, plain, 96, plain_len) == JURNADEL_DONE && length == plain_len);
        for (d = 0; d < 6; d++) {
            CHECK(refusal_with(d, triangle, 6, 0, kind, 96, len) == JURNADEL_DONE && length == len);
            CHECK(output[6] == lowest[d] && output[7] == 0);
        }
    }
    CHECK(refusal_with(0, ring, 2, 0, 0x101, 32, 10) == JURNADEL_HAS_LOOP);
    CHECK(refusal_with(0, ring, 2, 0, 0x102, 32, 10) == JURNADEL_HAS_LOOP);
    CHECK(refusal_with(0, stick, 2, 0, 0x101, 32, 10) == JURNADEL_HAS_DEGREE_ONE);
    CHECK(refusal_with(0, spur, 6, 1, 0x101, 96, 10) == JURNADEL_HAS_DEGREE_ONE);
    CHECK(refusal_with(0, stick, 2, 0, 0x100, 32, 10) == JURNADEL_BAD_KIND);
    CHECK(refusal_with(0, stick, 2, 0, 0x103, 32, 10) == JURNADEL_BAD_KIND);
    CHECK(refusal_with(0, stick, 2, 0, 0x201, 32, 10) == JURNADEL_BAD_KIND);
    /* From start 1, dart 0 is standard dart 1, and dart 1 is standard dart 0: in one area, and in two. */
    CHECK(refusal_with(0, path, 4, 1, 0x102, 64, 10) == JURNADEL_DONE && output[6] == 0);
    CHECK(refusal_with(1, path, 4, 1, 0x104, 64, 9) == JURNADEL_DONE && output[6] == 0);
    CHECK(refusal_with(0, triangle, 6, 1, 0x101, 96, 10) == JURNADEL_DONE && output[6] == 1);
    CHECK(refusal_with(1, triangle, 6, 1, 0x101, 96, 10) == JURNADEL_DONE && output[6] == 0);
}

/* Whether a mesh of m trails has these two bytes of payload from each of the first starts, and is read back as it is. */
static void mesh_has(uint16_t m, const uint16_t *rotation, uint16_t starts, uint8_t code, uint8_t group) {
    const uint8_t record[] = {8, 0, 3, 0, (uint8_t)m, 0, code, group};
    uint16_t start;
    for (start = 0; start < starts; start++) {
        CHECK(refusal_of(rotation, 2 * m, start, 3, JURNADEL_WORK_LEN(m), 8) == JURNADEL_DONE);
        CHECK(length == 8 && memcmp(output, record, 8) == 0);
    }
    dirty();
    CHECK(jurnadel_read(table, record, 8, work, JURNADEL_WORK_LEN(m), order, JURNADEL_ORDER_LEN(m), &trails, &outside) == JURNADEL_DONE);
    CHECK(trails == m && outside == 0 && memcmp(order, rotation, 4 * m) == 0 && order[2 * m] == 0x5a5a && cleared(JURNADEL_WORK_LEN(m)));
}

/* Kind 3: the meshes of 3 and of 6 trails; each refusal before those that come after it, 8 last. */
static void meshes(void) {
    static const uint16_t triangle[] = {5, 2, 1, 4, 3, 0}, six[4][12] = {
        {11, 2, 6, 4, 3, 0, 8, 5, 1, 10, 9, 7},
        {9, 2, 11, 4, 6, 0, 3, 8, 10, 5, 7, 1},
        {11, 2, 1, 4, 6, 0, 10, 8, 7, 5, 3, 9},
        {5, 2, 11, 4, 6, 0, 8, 1, 3, 10, 9, 7},
    };
    static const uint16_t stick[] = {0, 1}, ring[] = {1, 0}, parallel[] = {5, 2, 4, 0, 1, 3}, twice[] = {3, 3, 1, 0}, apart[] = {0, 1, 2, 3},
                          crossing[] = {3, 2, 4, 5, 1, 0}, square[] = {7, 2, 1, 4, 3, 6, 5, 0}, handle[] = {2, 3, 0, 4, 5, 1};
    mesh_has(3, triangle, 6, 0x80, 0xA2);
    mesh_has(6, six[0], 1, 0x70, 0x36);
    mesh_has(6, six[1], 12, 0x70, 0x87);
    mesh_has(6, six[2], 1, 0xB0, 0x36);
    mesh_has(6, six[3], 1, 0xB0, 0x87);
    CHECK(refusal_of(twice, 3, 3, 3, 0, 0) == JURNADEL_BAD_COUNT);
    CHECK(refusal_of(twice, 4, 4, 3, 0, 0) == JURNADEL_BAD_START);
    CHECK(refusal_of(twice, 4, 3, 3, 0, 0) == JURNADEL_BAD_ENTRY);
    CHECK(refusal_of(apart, 4, 3, 3, 63, 0) == JURNADEL_SHORT_WORK);
    CHECK(refusal_of(triangle, 6, 0, 3, 95, 0) == JURNADEL_SHORT_WORK);
    CHECK(refusal_of(apart, 4, 3, 3, 64, 0) == JURNADEL_NOT_CONNECTED);
    CHECK(refusal_of(crossing, 6, 3, 3, 96, 0) == JURNADEL_NOT_PLANAR && characteristic == 0);
    CHECK(refusal_of(ring, 2, 0, 3, 32, 0) == JURNADEL_HAS_LOOP);
    CHECK(refusal_of(handle, 6, 0, 3, 96, 0) == JURNADEL_HAS_LOOP);
    CHECK(refusal_of(stick, 2, 0, 3, 32, 0) == JURNADEL_NOT_TRIANGLES);
    CHECK(refusal_of(stick, 2, 0, 3, 32, 8) == JURNADEL_NOT_TRIANGLES);
    CHECK(refusal_of(parallel, 6, 0, 3, 96, 0) == JURNADEL_NOT_TRIANGLES);
    CHECK(refusal_of(square, 8, 0, 3, 128, sizeof output) == JURNADEL_NOT_TRIANGLES);
    CHECK(refusal_of(triangle, 6, 0, 3, 96, 0) == JURNADEL_SHORT_OUTPUT);
    CHECK(refusal_of(triangle, 6, 0, 3, 96, 7) == JURNADEL_SHORT_OUTPUT);
    CHECK(refusal_of(six[0], 12, 0, 3, 192, 7) == JURNADEL_SHORT_OUTPUT);
    /* The outside is ignored, whatever it is. */
    CHECK(refusal_with(1, triangle, 6, 0, 3, 96, 8) == JURNADEL_DONE && length == 8 && output[7] == 0xA2);
    CHECK(refusal_with(6, triangle, 6, 0, 3, 96, 8) == JURNADEL_DONE && length == 8 && output[7] == 0xA2);
    CHECK(refusal_with(1, triangle, 6, 0, 0x103, 96, 10) == JURNADEL_BAD_KIND);
}

/* A round of 4,096 trails, the longest plan: dart 2e+1 and dart 2e+2 share a junction. */
static void longest(void) {
    static uint16_t round[JURNADEL_MAX_DARTS];
    size_t d, last = JURNADEL_MAX_DARTS - 1;
    for (d = 0; d <= last; d++) round[d] = (uint16_t)(d == 0 ? last : d == last ? 0 : d % 2 ? d + 1 : d - 1);
    CHECK(refusal_of(round, JURNADEL_MAX_DARTS, 4095, 1, JURNADEL_MAX_WORK_LEN, sizeof output) == JURNADEL_DONE);
    CHECK(length == 1542);
    CHECK(refusal_of(round, JURNADEL_MAX_DARTS, 4095, 2, JURNADEL_MAX_WORK_LEN, sizeof output) == JURNADEL_DONE);
    CHECK(length == 1850);
    CHECK(refusal_of(round, JURNADEL_MAX_DARTS, 4095, 4, JURNADEL_MAX_WORK_LEN, sizeof output) == JURNADEL_DONE);
    CHECK(length == 2054);
    CHECK(refusal_with(8191, round, JURNADEL_MAX_DARTS, 8190, 0x101, JURNADEL_MAX_WORK_LEN, sizeof output) == JURNADEL_DONE);
    CHECK(length == 1544);
    CHECK(refusal_with(8191, round, JURNADEL_MAX_DARTS, 8190, 0x102, JURNADEL_MAX_WORK_LEN, sizeof output) == JURNADEL_DONE);
    CHECK(length == 1852);
    CHECK(refusal_with(8191, round, JURNADEL_MAX_DARTS, 8190, 0x104, JURNADEL_MAX_WORK_LEN, sizeof output) == JURNADEL_DONE);
    CHECK(length == 2056);
    CHECK(jurnadel_read(table, output, length, work, JURNADEL_MAX_WORK_LEN, order, JURNADEL_MAX_ORDER_LEN, &trails, &outside) == JURNADEL_DONE);
    CHECK(trails == JURNADEL_MAX_TRAILS && outside == 1 && cleared(JURNADEL_MAX_WORK_LEN));
}

/* Adds node types to the payload of a mesh, whose code is at first and whose digits are at digits: the codes of 1 to 5 are 00, 01
   and three times 1, and 3, 4 and 5 have the digits 0, 1 and 2, five of them in a byte. */
static void add_types(const char *types, uint8_t *first, size_t *bits, uint8_t *digits, size_t *count) {
    static const uint8_t place[] = {81, 27, 9, 3, 1};
    for (; *types; types++) {
        if (*types < '3') {
            ++*bits;
            first[*bits / 8] |= (uint8_t)((*types - '1') << (7 - *bits % 8));
        } else {
            first[*bits / 8] |= (uint8_t)(1 << (7 - *bits % 8));
            digits[*count / 5] = (uint8_t)(digits[*count / 5] + (*types - '3') * place[*count % 5]);
            ++*count;
        }
        ++*bits;
    }
}

/* The mesh of 4,095 trails that has the longest record of kind 3: four of its 2,729 nodes have two children. */
static void longest_mesh(void) {
    static uint8_t record[JURNADEL_RECORD_LEN(3, 4095)], code[1024], digits[1024];
    static uint16_t rotation[2 * 4095];
    size_t bits = 0, count = 0, i;
    for (i = 0; i < 4; i++) add_types("2215", code, &bits, digits, &count);
    for (i = 0; i < 1356; i++) add_types("23", code, &bits, digits, &count);
    add_types("5", code, &bits, digits, &count);
    CHECK((bits + 7) / 8 == 513 && (count + 4) / 5 == 273 && sizeof record == 792);
    record[0] = 792 & 0xff, record[1] = 792 >> 8, record[2] = 3, record[4] = 4095 & 0xff, record[5] = 4095 >> 8;
    memcpy(record + 6, code, 513);
    memcpy(record + 519, digits, 273);
    dirty();
    CHECK(jurnadel_read(table, record, 792, work, JURNADEL_WORK_LEN(4095), order, JURNADEL_ORDER_LEN(4095), &trails, &outside) == JURNADEL_DONE);
    CHECK(trails == 4095 && outside == 0 && order[2 * 4095] == 0x5a5a && cleared(JURNADEL_WORK_LEN(4095)));
    memcpy(rotation, order, sizeof rotation);
    CHECK(refusal_of(rotation, 2 * 4095, 0, 3, JURNADEL_WORK_LEN(4095), 791) == JURNADEL_SHORT_OUTPUT);
    CHECK(refusal_of(rotation, 2 * 4095, 0, 3, JURNADEL_WORK_LEN(4095), 792) == JURNADEL_DONE);
    CHECK(length == 792 && memcmp(output, record, 792) == 0);
    /* In kind 1 it takes twice as much. */
    CHECK(refusal_of(rotation, 2 * 4095, 0, 1, JURNADEL_WORK_LEN(4095), sizeof output) == JURNADEL_DONE && length == 1542);
}

static uint16_t reads(const uint8_t *record, size_t record_len, size_t work_len, size_t order_len) {
    uint16_t refusal;
    dirty();
    refusal = jurnadel_read(table, record, record_len, work, work_len, order, order_len, &trails, &outside);
    CHECK(cleared(work_len) && order[2 * trails] == 0x5a5a && (refusal == 0 || (trails == 0 && outside == 0)));
    return refusal;
}

static void reading(void) {
    uint8_t record[] = {7, 0, 1, 0, 2, 0, 0xC8, 0}, with_outside[] = {10, 0, 1, 1, 3, 0, 1, 0, 0xE2, 0};
    uint16_t stored;
    CHECK(reads(record, 7, 64, 4) == JURNADEL_DONE && trails == 2 && outside == 0);
    CHECK(reads(record, 6, 64, 4) == JURNADEL_RECORD_CUT);
    CHECK(reads(record, 0, 64, 4) == JURNADEL_RECORD_CUT);
    record[2] = 5;
    CHECK(reads(record, 7, 64, 4) == JURNADEL_BAD_KIND);
    record[2] = 4;
    CHECK(reads(record, 7, 64, 4) == JURNADEL_NO_FIT_PLAN);
    record[2] = 1, record[4] = 0;
    CHECK(reads(record, 7, 64, 4) == JURNADEL_BAD_COUNT);
    record[4] = 3;
    CHECK(reads(record, 7, 96, 6) == JURNADEL_BAD_LENGTH);
    record[4] = 2;
    CHECK(reads(record, 7, 63, 4) == JURNADEL_SHORT_WORK);
    CHECK(reads(record, 7, 64, 3) == JURNADEL_SHORT_OUTPUT);
    record[6] = 0xC9;
    CHECK(reads(record, 7, 64, 4) == JURNADEL_NO_FIT_PLAN);
    record[2] = 4, record[4] = 1, record[6] = 0xB0;
    CHECK(reads(record, 7, 32, 2) == JURNADEL_DONE && trails == 1 && order[0] == 1 && order[1] == 0);
    record[6] = 0xB1;
    CHECK(reads(record, 7, 32, 2) == JURNADEL_NO_FIT_PLAN);
    record[6] = 0xE0;
    CHECK(reads(record, 7, 32, 2) == JURNADEL_NO_FIT_PLAN);
    /* The triangle's areas have lowest darts 0 and 1. */
    for (stored = 0; stored < 0x200; stored++) {
        with_outside[6] = (uint8_t)stored, with_outside[7] = (uint8_t)(stored >> 8);
        CHECK(reads(with_outside, 10, 96, 6) == (stored < 2 ? JURNADEL_DONE : JURNADEL_NO_FIT_PLAN));
        CHECK(stored > 1 || (trails == 3 && outside == stored));
    }
    with_outside[6] = 2, with_outside[7] = 0;
    CHECK(reads(with_outside, 9, 96, 6) == JURNADEL_RECORD_CUT);
    CHECK(reads(with_outside, 10, 95, 6) == JURNADEL_SHORT_WORK);
    CHECK(reads(with_outside, 10, 96, 5) == JURNADEL_SHORT_OUTPUT);
    with_outside[2] = 3;
    CHECK(reads(with_outside, 10, 96, 6) == JURNADEL_BAD_KIND);
    with_outside[2] = 1, with_outside[3] = 0;
    CHECK(reads(with_outside, 10, 96, 6) == JURNADEL_BAD_LENGTH);
}

/* Records of kind 3 that no mesh has, a wrong length among them; 7 and 8 come before. */
static void reading_meshes(void) {
    static const struct { uint16_t m, length; uint8_t payload[3]; } cases[] = {
        {3, 7, {0x80}}, {3, 9, {0x80, 0xA2, 0x00}}, {3, 8, {0x80, 0x51}}, {3, 8, {0xC0, 0xA2}}, {3, 8, {0x80, 0xA3}},
        {3, 8, {0x80, 0xF3}}, {3, 6, {0}}, {4, 8, {0x80, 0xA2}}, {1, 8, {0x80, 0xA2}}, {4096, 8, {0x80, 0xA2}},
        /* Each leaf finds a place, and the plan has a loop. */
        {9, 8, {0x17, 0xD8}},
    };
    uint8_t record[9] = {8, 0, 3, 0, 3, 0, 0x80, 0xA2};
    size_t i;
    CHECK(reads(record, 8, 96, 6) == JURNADEL_DONE && trails == 3 && outside == 0);
    CHECK(reads(record, 7, 96, 6) == JURNADEL_RECORD_CUT);
    for (i = 0; i < sizeof cases / sizeof cases[0]; i++) {
        uint16_t m = cases[i].m;
        record[0] = (uint8_t)cases[i].length, record[4] = (uint8_t)m, record[5] = (uint8_t)(m >> 8);
        memcpy(record + 6, cases[i].payload, 3);
        CHECK(reads(record, cases[i].length, JURNADEL_WORK_LEN(m) - 1, 0) == JURNADEL_SHORT_WORK);
        CHECK(reads(record, cases[i].length, JURNADEL_WORK_LEN(m), JURNADEL_ORDER_LEN(m) - 1) == JURNADEL_SHORT_OUTPUT);
        CHECK(reads(record, cases[i].length, JURNADEL_WORK_LEN(m), JURNADEL_ORDER_LEN(m)) == JURNADEL_NO_FIT_PLAN);
    }
    record[4] = 0, record[5] = 0;
    CHECK(reads(record, 8, 96, 6) == JURNADEL_BAD_COUNT);
}

/* Whether the list is these areas, and untouched past them. */
static int listed(const uint16_t *lengths, size_t n) {
    size_t i;
    if (count != n) return 0;
    for (i = 0; i < JURNADEL_MAX_AREAS_LEN; i++)
        if (list[i] != (i < n ? lengths[i] : 0x5a5a)) return 0;
    return 1;
}

static uint16_t areas_of(const uint16_t *rotation, size_t darts, size_t work_len, size_t list_len) {
    uint16_t refusal;
    dirty();
    refusal = jurnadel_area_lengths(rotation, darts, work, work_len, list, list_len, &count, &characteristic);
    CHECK(cleared(work_len));
    CHECK(refusal == 0 || listed(NULL, 0));
    CHECK(refusal == JURNADEL_NOT_PLANAR || characteristic == 0);
    return refusal;
}

static void areas(void) {
    static const struct { size_t m; uint16_t order[6]; size_t count; uint16_t lengths[2]; } cases[] = {
        {3, {5, 2, 1, 4, 3, 0}, 2, {3, 3}},
        {1, {0, 1}, 1, {2}},
        {1, {1, 0}, 2, {1, 1}},
        {3, {0, 2, 5, 4, 3, 1}, 2, {4, 2}},
        {3, {4, 2, 1, 0, 3, 5}, 2, {2, 4}},
    };
    static const uint16_t apart[] = {0, 1, 2, 3}, crossing[] = {3, 2, 4, 5, 1, 0}, twice[] = {3, 3, 1, 0}, high[] = {4, 2, 1, 0};
    static uint16_t tree[JURNADEL_MAX_DARTS], loops[JURNADEL_MAX_DARTS];
    static const uint16_t whole = JURNADEL_MAX_DARTS;
    const uint16_t *triangle = cases[0].order;
    size_t i, d;
    for (i = 0; i < sizeof cases / sizeof cases[0]; i++) {
        CHECK(areas_of(cases[i].order, 2 * cases[i].m, JURNADEL_WORK_LEN(cases[i].m), JURNADEL_AREAS_LEN(cases[i].m)) == JURNADEL_DONE);
        CHECK(listed(cases[i].lengths, cases[i].count));
        CHECK(areas_of(cases[i].order, 2 * cases[i].m, JURNADEL_MAX_WORK_LEN, cases[i].count) == JURNADEL_DONE);
        CHECK(listed(cases[i].lengths, cases[i].count));
        CHECK(areas_of(cases[i].order, 2 * cases[i].m, JURNADEL_WORK_LEN(cases[i].m), cases[i].count - 1) == JURNADEL_SHORT_OUTPUT);
    }
    /* Each refusal before those that come after it. */
    CHECK(areas_of(twice, 3, 0, 0) == JURNADEL_BAD_COUNT);
    CHECK(areas_of(twice, 0, 64, 4) == JURNADEL_BAD_COUNT);
    CHECK(areas_of(twice, 4, 0, 0) == JURNADEL_BAD_ENTRY);
    CHECK(areas_of(high, 4, 0, 0) == JURNADEL_BAD_ENTRY);
    CHECK(areas_of(apart, 4, 63, 0) == JURNADEL_SHORT_WORK);
    CHECK(areas_of(crossing, 6, 95, 0) == JURNADEL_SHORT_WORK);
    CHECK(areas_of(apart, 4, 64, 0) == JURNADEL_NOT_CONNECTED);
    CHECK(areas_of(crossing, 6, 96, 0) == JURNADEL_NOT_PLANAR && characteristic == 0);
    CHECK(areas_of(triangle, 6, 96, 0) == JURNADEL_SHORT_OUTPUT);
    /* The longest area, and the most areas: 4,096 dead ends at one junction, and 4,096 loops beside each other. */
    for (d = 0; d < JURNADEL_MAX_DARTS; d++) {
        tree[d] = (uint16_t)(d % 2 ? d : (d + 2) % JURNADEL_MAX_DARTS);
        loops[d] = (uint16_t)((d + 1) % JURNADEL_MAX_DARTS);
    }
    CHECK(areas_of(tree, JURNADEL_MAX_DARTS, JURNADEL_MAX_WORK_LEN, 1) == JURNADEL_DONE && listed(&whole, 1));
    CHECK(areas_of(loops, JURNADEL_MAX_DARTS, JURNADEL_MAX_WORK_LEN, JURNADEL_MAX_AREAS_LEN) == JURNADEL_DONE);
    CHECK(count == JURNADEL_MAX_AREAS_LEN && list[0] == JURNADEL_MAX_TRAILS && list[1] == 1 && list[count - 1] == 1);
    CHECK(areas_of(loops, JURNADEL_MAX_DARTS, JURNADEL_MAX_WORK_LEN, JURNADEL_MAX_TRAILS) == JURNADEL_SHORT_OUTPUT);
}

/* The shelf that is lent, and the out-numbers of shelving. */
static uint8_t shelf[32];
static size_t number, used;

/* Shelves on the first shelf_len bytes, of which so many are used. A refused call leaves the shelf as it is, and a record that is
   new is all that is changed. */
static uint16_t shelved(const uint8_t *record, size_t record_len, size_t work_len, size_t shelf_len, size_t used_before) {
    uint8_t before[sizeof shelf];
    uint16_t refusal;
    dirty();
    memcpy(before, shelf, sizeof shelf);
    number = 99, used = used_before + 1;
    refusal = jurnadel_shelve(table, record, record_len, work, work_len, shelf, shelf_len, used_before, &number, &used);
    CHECK(cleared(work_len));
    CHECK(refusal == 0 || (number == 0 && used == used_before));
    if (refusal == 0 && used != used_before) {
        CHECK(used == used_before + record_len && memcmp(shelf + used_before, record, record_len) == 0);
        memcpy(before + used_before, record, record_len);
    }
    CHECK(memcmp(shelf, before, sizeof shelf) == 0);
    return refusal;
}

static void shelves(void) {
    static const uint8_t outer[] = {9, 0, 4, 1, 1, 0, 9, 9, 0xB0}, head[] = {6, 0, 3, 0, 1, 0}, mesh[] = {9, 0, 3, 0, 3, 0, 0x80, 0xA2, 0};
    static const uint8_t pair[] = {7, 0, 1, 0, 2, 0, 0xC8}, stick[] = {8, 0, 2, 0, 1, 0, 0x80, 0xA2}, ring[] = {7, 0, 4, 0, 1, 0, 0xB0};
    size_t at = 99, part = 99;
    memset(shelf, 0xEE, sizeof shelf);
    CHECK(jurnadel_walk_begin(shelf, 16, 0, 0, &at) == JURNADEL_NO_SUCH_RECORD && at == 0);
    CHECK(shelved(pair, 7, 64, 16, 0) == 0 && number == 0 && used == 7);
    CHECK(shelved(stick, 8, 32, 16, used) == 0 && number == 1 && used == 15);
    CHECK(shelved(pair, 7, 64, 16, used) == 0 && number == 0 && used == 15);
    CHECK(memcmp(shelf, pair, 7) == 0 && memcmp(shelf + 7, stick, 8) == 0 && shelf[15] == 0xEE);
    CHECK(shelved(ring, 7, 32, 16, used) == JURNADEL_SHELF_FULL);
    CHECK(shelved(ring, 6, 32, 16, used) == JURNADEL_RECORD_CUT);
    CHECK(shelved(ring, 7, 32, 14, used) == JURNADEL_SHELF_BROKEN);
    CHECK(jurnadel_fetch(shelf, 16, used, 1, &at, &part) == 0 && at == 7 && part == 8);
    CHECK(jurnadel_fetch(shelf, 16, used, 2, &at, &part) == JURNADEL_NO_SUCH_RECORD && at == 0 && part == 0);
    CHECK(jurnadel_fetch(shelf, 16, 16, 0, &at, &part) == JURNADEL_SHELF_BROKEN && at == 0 && part == 0);
    CHECK(jurnadel_walk_begin(shelf, 16, used, 0, &at) == 0 && at == 0);
    CHECK(jurnadel_walk_step(shelf, 16, used, 0) == 7);
    CHECK(jurnadel_walk_step(shelf, 16, used, 7) == 8);
    CHECK(jurnadel_walk_step(shelf, 16, used, 15) == 0);
    CHECK(jurnadel_walk_step(shelf, 16, used, 3) == 0);
    CHECK(jurnadel_walk_step(shelf, 16, used, (size_t)-1) == 0);
    CHECK(jurnadel_walk_begin(shelf, 16, used, 2, &at) == JURNADEL_NO_SUCH_RECORD && at == 15);
    /* A lent shelf may have a stored outside that is none, and records of kind 3 with any length from 6 on. */
    memcpy(shelf, outer, 9), memcpy(shelf + 9, head, 6), memcpy(shelf + 15, mesh, 9);
    CHECK(jurnadel_fetch(shelf, 24, 24, 2, &at, &part) == 0 && at == 15 && part == 9);
    CHECK(jurnadel_walk_step(shelf, 24, 24, 0) == 9 && jurnadel_walk_step(shelf, 24, 24, 9) == 6 && jurnadel_walk_step(shelf, 24, 24, 15) == 9);
    CHECK(jurnadel_walk_step(shelf, 24, 23, 15) == 0 && jurnadel_fetch(shelf, 24, 23, 0, &at, &part) == JURNADEL_SHELF_BROKEN);
    /* A record that can be read is shelved beside them, and they are not shelved again. */
    CHECK(shelved(pair, 7, 64, 31, 24) == 0 && number == 3 && used == 31);
    CHECK(shelved(outer, 9, 32, 31, used) == JURNADEL_NO_FIT_PLAN);
    CHECK(shelved(outer, 8, 32, 31, used) == JURNADEL_RECORD_CUT);
    CHECK(shelved(head, 6, 32, 31, used) == JURNADEL_NO_FIT_PLAN);
    CHECK(shelved(mesh, 9, 96, 31, used) == JURNADEL_NO_FIT_PLAN);
    CHECK(shelved(mesh, 9, 95, 31, used) == JURNADEL_SHORT_WORK);
}

/* Shelving reads each record that it is handed: one that no plan has is 13, wherever it stands. */
static void shelving_unreadable(void) {
    static const uint8_t good[] = {7, 0, 1, 0, 2, 0, 0xC8}, bad[] = {7, 0, 1, 0, 2, 0, 0xCC}, longer[] = {7, 0, 1, 0, 3, 0, 0xCC},
                         none[] = {7, 0, 1, 0, 0, 0, 0xCC}, kind[] = {7, 0, 5, 0, 2, 0, 0xCC};
    memset(shelf, 0xEE, sizeof shelf);
    CHECK(shelved(bad, 7, 64, 16, 0) == JURNADEL_NO_FIT_PLAN);
    CHECK(shelved(bad, 7, 63, 16, 0) == JURNADEL_SHORT_WORK);
    CHECK(shelved(bad, 7, 0, 16, 0) == JURNADEL_SHORT_WORK);
    CHECK(shelved(bad, 7, JURNADEL_MAX_WORK_LEN, 16, 0) == JURNADEL_NO_FIT_PLAN);
    CHECK(shelved(good, 7, 63, 7, 0) == JURNADEL_SHORT_WORK);
    CHECK(shelved(good, 7, 64, 7, 0) == JURNADEL_DONE && number == 0 && used == 7);
    CHECK(shelved(good, 7, JURNADEL_MAX_WORK_LEN, 7, 7) == JURNADEL_DONE && number == 0 && used == 7);
    CHECK(shelved(good, 7, 63, 7, 7) == JURNADEL_SHORT_WORK);
    /* Equal bytes on the shelf, alone and beside others. */
    memcpy(shelf + 7, bad, 7);
    CHECK(shelved(bad, 7, 64, 14, 14) == JURNADEL_NO_FIT_PLAN);
    CHECK(shelved(good, 7, 64, 14, 14) == JURNADEL_DONE && number == 0 && used == 14);
    memcpy(shelf, bad, 7);
    CHECK(shelved(bad, 7, 64, 7, 7) == JURNADEL_NO_FIT_PLAN);
    CHECK(shelved(good, 7, 64, 21, 14) == JURNADEL_DONE && number == 2 && used == 21);
    /* 1, 2, 3 and 5 come before 7, and that before 13; a broken shelf and a full one after them. */
    CHECK(shelved(bad, 6, 0, 5, 6) == JURNADEL_RECORD_CUT);
    CHECK(shelved(kind, 7, 0, 5, 6) == JURNADEL_BAD_KIND);
    CHECK(shelved(none, 7, 0, 5, 6) == JURNADEL_BAD_COUNT);
    CHECK(shelved(longer, 7, 0, 5, 6) == JURNADEL_BAD_LENGTH);
    CHECK(shelved(longer, 7, 96, 16, 0) == JURNADEL_BAD_LENGTH);
    CHECK(shelved(bad, 7, 63, 5, 6) == JURNADEL_SHORT_WORK);
    CHECK(shelved(bad, 7, 64, 5, 6) == JURNADEL_NO_FIT_PLAN);
    CHECK(shelved(bad, 7, 64, 16, 16) == JURNADEL_NO_FIT_PLAN);
    CHECK(shelved(bad, 7, 63, 6, 0) == JURNADEL_SHORT_WORK);
    CHECK(shelved(bad, 7, 64, 6, 0) == JURNADEL_NO_FIT_PLAN);
    CHECK(shelved(good, 7, 63, 5, 6) == JURNADEL_SHORT_WORK);
    CHECK(shelved(good, 7, 64, 5, 6) == JURNADEL_SHELF_BROKEN);
    CHECK(shelved(good, 7, 64, 6, 0) == JURNADEL_SHELF_FULL);
    CHECK(shelved(good, 7, 64, 0, 0) == JURNADEL_SHELF_FULL);
}

/* A table between two guards, which a call that gives it must leave alone. */
static struct { uint8_t before[16]; jurnadel_table table; uint8_t after[16]; } held;

/* Whether loading gives 0 and a table of these bytes, or 19 and the table of zeros. */
static uint16_t loads(const uint8_t *bytes, size_t n) {
    static const jurnadel_table zeros;
    uint16_t refusal = 0x5a5a;
    size_t i;
    memset(&held, 0xa5, sizeof held);
    held.table = jurnadel_load_table(bytes, n, &refusal);
    for (i = 0; i < 16; i++) CHECK(held.before[i] == 0xa5 && held.after[i] == 0xa5);
    CHECK(memcmp(&held.table, refusal == 0 ? bytes : zeros.bytes, 243) == 0);
    CHECK(refusal == 0 || memcmp(&held.table, &zeros, sizeof zeros) == 0);
    table = held.table;
    return refusal;
}

/* Whether writing, reading and shelving refuse the table first of all, in every kind, and touch nothing. */
static void refuses(void) {
    static const uint16_t kinds[] = {1, 2, 3, 4, 0x101, 0x102, 0x104, 9}, pair[] = {3, 2, 1, 0};
    static const uint8_t record[] = {8, 0, 2, 0, 2, 0, 0xC0, 0x51}, bits[] = {7, 0, 1, 0, 2, 0, 0xC8};
    const jurnadel_table given = table;
    size_t i;
    for (i = 0; i < 8; i++) {
        CHECK(refusal_of(pair, 4, 0, kinds[i], 64, 10) == JURNADEL_BAD_TABLE);
        CHECK(refusal_of(pair, 0, 0, kinds[i], 64, 0) == JURNADEL_BAD_TABLE);
    }
    CHECK(reads(record, 8, 64, 4) == JURNADEL_BAD_TABLE && order[1] == 0x5a5a);
    CHECK(reads(record, 0, 64, 4) == JURNADEL_BAD_TABLE);
    CHECK(reads(bits, 7, 0, 0) == JURNADEL_BAD_TABLE);
    memcpy(shelf, bits, 7);
    CHECK(shelved(record, 8, 64, 16, 7) == JURNADEL_BAD_TABLE);
    CHECK(shelved(record, 0, 0, 16, 99) == JURNADEL_BAD_TABLE);
    CHECK(memcmp(&table, &given, sizeof given) == 0);
}

/* Whether the plan has this last byte in kinds 2 and 0x102 under the table, and is read back from it. */
static void written_as(const uint16_t *rotation, uint16_t m, uint8_t byte) {
    const jurnadel_table given = table;
    uint8_t record[10];
    uint16_t kind;
    for (kind = 2; kind <= 0x102; kind = (uint16_t)(kind + 0x100)) {
        CHECK(refusal_of(rotation, 2 * m, 0, kind, JURNADEL_WORK_LEN(m), sizeof output) == JURNADEL_DONE);
        CHECK(length == JURNADEL_RECORD_LEN(kind, m) && output[length - 1] == byte);
        memcpy(record, output, length);
        CHECK(reads(record, length, JURNADEL_WORK_LEN(m), JURNADEL_ORDER_LEN(m)) == JURNADEL_DONE && trails == m);
        CHECK(memcmp(order, rotation, 4 * m) == 0);
    }
    CHECK(memcmp(&table, &given, sizeof given) == 0);
}

static void tables(void) {
    static const uint16_t stick[] = {0, 1}, path[] = {0, 2, 1, 3}, pair[] = {3, 2, 1, 0}, triangle[] = {5, 2, 1, 4, 3, 0},
                          mesh[] = {11, 2, 6, 4, 3, 0, 8, 5, 1, 10, 9, 7};
    static const uint8_t of_13_more[] = {8, 0, 2, 0, 1, 0, 0x80, 0xAF}, of_none[] = {8, 0, 2, 0, 1, 0, 0x80, 0x05},
                         mesh_of_none[] = {8, 0, 3, 0, 3, 0, 0x80, 0x05},
                         bits[] = {7, 0, 1, 0, 2, 0, 0xC8}, letters[] = {7, 0, 4, 0, 1, 0, 0xB0};
    const jurnadel_table standard = jurnadel_standard_table();
    uint8_t bytes[256], other[256];
    size_t i;
    CHECK(sizeof(jurnadel_table) == 499 && offsetof(jurnadel_table, inverse) == 243);
    for (i = 0; i < 256; i++) {
        bytes[i] = (uint8_t)i;
        CHECK(standard.inverse[i] == (i < 243 ? i : 243) && (i >= 243 || standard.bytes[i] == i));
    }
    CHECK(loads(bytes, 243) == JURNADEL_DONE && memcmp(&table, &standard, sizeof standard) == 0);
    written_as(stick, 1, 0xA2);
    written_as(path, 2, 0x36);
    written_as(pair, 2, 0x51);
    mesh_has(3, triangle, 6, 0x80, 0xA2);
    mesh_has(6, mesh, 1, 0x70, 0x36);

    /* Two entries exchanged. */
    memcpy(other, bytes, sizeof other);
    other[0x36] = 0x51, other[0x51] = 0x36;
    CHECK(loads(other, 243) == JURNADEL_DONE && table.inverse[0x36] == 0x51 && table.inverse[0x51] == 0x36 && table.inverse[243] == 243);
    written_as(path, 2, 0x51);
    written_as(pair, 2, 0x36);
    mesh_has(3, triangle, 6, 0x80, 0xA2);
    mesh_has(6, mesh, 1, 0x70, 0x51);

    /* Each byte 13 more: the bytes below 13 stand for no value. */
    CHECK(loads(bytes + 13, 243) == JURNADEL_DONE && table.inverse[12] == 243 && table.inverse[13] == 0 && table.inverse[255] == 242);
    written_as(stick, 1, 0xAF);
    written_as(path, 2, 0x43);
    mesh_has(3, triangle, 6, 0x80, 0xAF);
    mesh_has(6, mesh, 1, 0x70, 0x43);
    CHECK(reads(mesh_of_none, 8, 96, 6) == JURNADEL_NO_FIT_PLAN);
    CHECK(reads(of_13_more, 8, 32, 2) == JURNADEL_DONE && trails == 1 && order[0] == 0 && order[1] == 1);
    CHECK(reads(of_none, 8, 32, 2) == JURNADEL_NO_FIT_PLAN);
    /* Kinds without groups. */
    CHECK(refusal_of(pair, 4, 0, 1, 64, 7) == JURNADEL_DONE && memcmp(output, bits, 7) == 0);
    CHECK(reads(bits, 7, 64, 4) == JURNADEL_DONE && trails == 2);
    CHECK(reads(letters, 7, 32, 2) == JURNADEL_DONE && trails == 1);
    /* Shelving reads under its table, and compares bytes as they are. */
    CHECK(shelved(of_none, 8, 32, 8, 0) == JURNADEL_NO_FIT_PLAN);
    CHECK(shelved(of_13_more, 8, 32, 8, 0) == JURNADEL_DONE && number == 0 && used == 8);
    CHECK(shelved(bits, 7, 64, 15, 8) == JURNADEL_DONE && number == 1 && used == 15);
    table = standard;
    CHECK(reads(of_13_more, 8, 32, 2) == JURNADEL_NO_FIT_PLAN);
    CHECK(shelved(of_13_more, 8, 32, 15, 15) == JURNADEL_NO_FIT_PLAN);
    CHECK(shelved(bits, 7, 64, 15, 15) == JURNADEL_DONE && number == 1 && used == 15);

    /* Not 243 bytes, or two of them equal. */
    CHECK(loads(bytes, 242) == JURNADEL_BAD_TABLE);
    CHECK(loads(bytes, 244) == JURNADEL_BAD_TABLE);
    CHECK(loads(bytes, 256) == JURNADEL_BAD_TABLE);
    CHECK(loads(bytes, 0) == JURNADEL_BAD_TABLE);
    memcpy(other, bytes, sizeof other);
    other[242] = 0;
    CHECK(loads(other, 243) == JURNADEL_BAD_TABLE);
    other[242] = 241;
    CHECK(loads(other, 243) == JURNADEL_BAD_TABLE);

    /* The table of zeros, then tables that differ in one place from one that is loaded: a mark, an entry that no call on these
       plans looks at, a byte that stands for none or for another value. */
    refuses();
    for (i = 0; i < 256; i++) {
        table = standard, table.inverse[i]++;
        refuses();
        table = standard, table.inverse[i] = (uint8_t)(i < 243 ? 243 : 0);
        refuses();
        if (i >= 243) continue;
        table = standard, table.bytes[i] = 250;
        refuses();
        table = standard, table.bytes[i] = (uint8_t)(i ? 0 : 1);
        refuses();
    }
    /* Two values exchanged in the bytes alone, and in the inverse alone. */
    table = standard, table.bytes[7] = 8, table.bytes[8] = 7;
    refuses();
    table = standard, table.inverse[7] = 8, table.inverse[8] = 7;
    refuses();
    table = standard;
}

static void sizes(void) {
    static const uint16_t kinds[] = {1, 2, 4, 0x101, 0x102, 0x104};
    uint16_t i, kind, m;
    size_t k, p;
    for (i = 0; i < 6; i++)
        for (m = 1, kind = kinds[i]; m <= JURNADEL_MAX_TRAILS; m++)
            if (jurnadel_record_length(kind, m) != JURNADEL_RECORD_LEN(kind, m) || jurnadel_work_length(m) != JURNADEL_WORK_LEN(m)) {
                CHECK(!"the macros are the functions");
                return;
            }
    CHECK(jurnadel_record_length(1, 0) == 0 && jurnadel_record_length(2, 4097) == 0 && jurnadel_record_length(0, 1) == 0);
    CHECK(jurnadel_record_length(5, 1) == 0 && jurnadel_record_length(4, 4097) == 0);
    CHECK(jurnadel_record_length(3, 0) == 0 && jurnadel_record_length(3, 1) == 0 && jurnadel_record_length(3, 3) == 0 && jurnadel_record_length(3, 4095) == 0);
    /* A mesh of 3k trails with p nodes of two children has 3k - 2 + p bits and k - p digits; 2p is below k. */
    for (k = 1; k <= 1365; k++)
        for (p = 0; 2 * p < k; p++)
            if (6 + (3 * k + p + 5) / 8 + (k - p + 4) / 5 > JURNADEL_RECORD_LEN(3, 3 * k)) {
                CHECK(!"the macro serves every mesh");
                return;
            }
    CHECK(JURNADEL_RECORD_LEN(3, 3) == 8 && JURNADEL_RECORD_LEN(3, 6) == 8 && JURNADEL_RECORD_LEN(3, 4095) == 792);
    CHECK(jurnadel_record_length(0x100, 1) == 0 && jurnadel_record_length(0x103, 3) == 0 && jurnadel_record_length(0x204, 1) == 0);
    CHECK(jurnadel_record_length(0x101, 0) == 0 && jurnadel_record_length(0x104, 4097) == 0 && jurnadel_record_length(65535, 65535) == 0);
    /* As numbers, and as bytes. */
    CHECK(JURNADEL_MAX_TRAILS == 4096 && JURNADEL_MAX_DARTS == 8192);
    CHECK(JURNADEL_MAX_WORK_LEN == 131072 && sizeof work == 262144);
    CHECK(JURNADEL_MAX_ORDER_LEN == 8192 && sizeof order == 16384);
    CHECK(JURNADEL_MAX_AREAS_LEN == 4097 && sizeof list == 8194);
    CHECK(JURNADEL_MAX_RECORD_LEN == 2056 && sizeof output == 2056);
    CHECK(JURNADEL_WORK_LEN(3) == 96 && JURNADEL_ORDER_LEN(3) == 6 && JURNADEL_AREAS_LEN(3) == 4);
}

static void version(void) {
    char text[32];
    sprintf(text, "%d.%d.%d", JURNADEL_VERSION_MAJOR, JURNADEL_VERSION_MINOR, JURNADEL_VERSION_PATCH);
    CHECK(strcmp(text, JURNADEL_VERSION) == 0);
}

int main(void) {
    table = jurnadel_standard_table();
    records();
    writing();
    outsides();
    meshes();
    longest();
    longest_mesh();
    reading();
    reading_meshes();
    areas();
    shelves();
    shelving_unreadable();
    tables();
    sizes();
    version();
    printf("tests/c/interface.c: %d passed, %d failed\n", passed, failed);
    return failed != 0;
}
