/*
 * jurnadel.h: trail plans, their records and shelves, for C and C++.
 *
 * Link with libjurnadel.a. It is for x86-64: ELF objects, the System V AMD64 calling
 * convention, no instruction beyond SSE2, which every x86-64 processor has. The Rattle kit
 * builds no other target today, so there is no library for ARM.
 *
 * The library has no state and no heap, and calls nothing but memset and memcpy, which the
 * compiler makes of loops and copies: it is re-entrant and can be linked into firmware that
 * supplies these two functions. A call takes less than 2 KiB of stack, beside theirs and the
 * 499 bytes of a table that its caller hands over.
 *
 * Documents, installed in share/doc/jurnadel: FORMAT.md has the record to the bit, PROOF.md
 * the argument and its theorems, TRACE.md the way from each demand to theorem and test;
 * definitions/ says what each call answers.
 *
 * Words. A trail is an edge, a trail end a dart, a junction a vertex, an area a face.
 * A plan has m trails and 2m darts; darts 2e and 2e+1 are the two ends of trail e. The
 * turning order is a list of 2m numbers: entry d is the next dart counterclockwise
 * around d's junction. The start is one dart. The walk along an area goes from dart d to the
 * entry at d's opposite end, with the area on the right; each dart is on one such walk. The
 * outside is a dart too, any on the walk of the area that is the outside of the sheet.
 *
 * Lent buffers. A list or a run of bytes is handed over as a pointer and a number of
 * entries. A caller must see to this, since nothing checks it:
 *   - each pointer is valid for as many entries as its number says, PTRDIFF_MAX bytes at
 *     most, and aligned; where the number is 0 it need not point at anything, but must
 *     not be null;
 *   - each out-number's pointer is valid;
 *   - no buffer or out-number that a call writes overlaps another one of that call;
 *   - nothing else writes any of them while the call runs.
 * The content of buffers and tables is free: every call is total, on any content and any
 * lengths.
 *
 * Answers. Each call but the sizes, the two that give a table and jurnadel_walk_step returns
 * 0 (done) or the number of one refusal: the first of its list whose condition holds. A
 * refused call leaves its output and its shelf untouched and sets its out-numbers as said
 * there. Only the entries that a call says it fills are changed; the work area is zeros on
 * every return, refused or not.
 *
 * What is proved. For each exported function, machine-checked: it ends, stays within what
 * is lent, and its returned number, out-numbers, output, shelf and work area are those of
 * the definitions, for every input. What is not proved: the compiler's back end (LLVM) and
 * the assembler, that these C declarations agree with the Rattle functions (the tests run
 * all of them), and the caller's side of "Lent buffers" above.
 */
#ifndef JURNADEL_H
#define JURNADEL_H

#include <stddef.h>
#include <stdint.h>

#ifdef __cplusplus
extern "C" {
#endif

/* ---- Version ---------------------------------------------------------------------- */

#define JURNADEL_VERSION_MAJOR 0
#define JURNADEL_VERSION_MINOR 9
#define JURNADEL_VERSION_PATCH 2
#define JURNADEL_VERSION "0.9.2"

/* ---- Sizes ------------------------------------------------------------------------ */

/* A plan has at most 4,096 trails and 8,192 darts. */
#define JURNADEL_MAX_TRAILS 4096
#define JURNADEL_MAX_DARTS (2 * JURNADEL_MAX_TRAILS)

/* Lengths are what the calls take: work areas, turning orders and lists of areas count 16-bit numbers, records count bytes. */

/* The work area for m trails: 32m numbers, 64m bytes. */
#define JURNADEL_WORK_LEN(m) ((size_t)32 * (m))

/* The turning order of m trails: 2m numbers, 4m bytes. */
#define JURNADEL_ORDER_LEN(m) ((size_t)2 * (m))

/* The areas of m trails: m + 1 numbers at most, 2m + 2 bytes. */
#define JURNADEL_AREAS_LEN(m) ((size_t)(m) + 1)

/*
 * A record of this kind (1, 2, 3, 4, 0x101, 0x102 or 0x104) and m trails (1 to 4,096), in bytes. In kind 3 the length varies with
 * the plan, and this is a length that it never exceeds: 8 for 3 trails, 792 for 4,095, the most that a mesh has. Kind 0x104 is
 * the longest, but for 1, 2 and 6 trails, where kind 0x102 has a byte more.
 */
#define JURNADEL_RECORD_LEN(kind, m) \
    ((size_t)((kind) & 0x100 ? 8 : 6) + (((kind) & 0xFF) == 1   ? (3 * (size_t)(m) + 7) / 8 \
                                         : ((kind) & 0xFF) == 2 ? (2 * (size_t)(m) + 7) / 8 + ((size_t)(m) + 4) / 5 \
                                         : ((kind) & 0xFF) == 3 ? ((size_t)(m) + 9) / 8 + ((size_t)(m) + 12) / 15 \
                                                                : ((size_t)(m) + 1) / 2))

/* Lengths that serve every plan and every record. */
#define JURNADEL_MAX_WORK_LEN JURNADEL_WORK_LEN(JURNADEL_MAX_TRAILS)            /* 131,072 numbers, 262,144 bytes */
#define JURNADEL_MAX_ORDER_LEN JURNADEL_ORDER_LEN(JURNADEL_MAX_TRAILS)          /* 8,192 numbers, 16,384 bytes */
#define JURNADEL_MAX_AREAS_LEN JURNADEL_AREAS_LEN(JURNADEL_MAX_TRAILS)          /* 4,097 numbers, 8,194 bytes */
#define JURNADEL_MAX_RECORD_LEN JURNADEL_RECORD_LEN(0x104, JURNADEL_MAX_TRAILS) /* 2,056 bytes */

/* The same as functions, for callers that know kind and m only when they run. */

/* The work area, in 16-bit numbers: 32 * trails. */
size_t jurnadel_work_length(uint16_t trails);

/*
 * The record, in bytes; 0 where kind and trails don't tell: the kind is 3, whose records vary in length, or none of the seven, or
 * trails is 0 or above 4,096.
 */
uint16_t jurnadel_record_length(uint16_t kind, uint16_t trails);

/* ---- Refusals --------------------------------------------------------------------- */

enum {
    JURNADEL_DONE = 0,            /* not refused */
    JURNADEL_RECORD_CUT = 1,      /* The record has fewer than 6 bytes, or its length field isn't the number of bytes lent. */
    JURNADEL_BAD_KIND = 2,        /* The kind is not 1, 2, 3, 4, 101h, 102h or 104h. */
    JURNADEL_BAD_COUNT = 3,       /* The dart count is 0, odd or above 8,192; in a record, m is 0 or above 4,096. */
    JURNADEL_BAD_START = 4,       /* The start is not below the dart count. */
    JURNADEL_BAD_LENGTH = 5,      /* The kind is not 3, and the length is not the one for this kind and m. */
    JURNADEL_BAD_ENTRY = 6,       /* An entry of the turning order is not below the dart count, or two entries are equal. */
    JURNADEL_SHORT_WORK = 7,      /* The work area (16-bit numbers) is shorter than 32 x m. */
    JURNADEL_SHORT_OUTPUT = 8,    /* The output is shorter than the record, than 2m entries, or than the list of areas. */
    JURNADEL_NOT_CONNECTED = 9,   /* The plan is not connected. */
    JURNADEL_NOT_PLANAR = 10,     /* It is not planar; this answer also gives the characteristic, as a signed number. */
    JURNADEL_HAS_LOOP = 11,       /* Kind 1, 2, 3, 101h or 102h, and it has a loop. */
    JURNADEL_HAS_DEGREE_ONE = 12, /* Kind 1 or 101h, and a junction other than the start's has degree one. */
    JURNADEL_NO_FIT_PLAN = 13,    /* No fit plan of this kind has this record. */
    JURNADEL_SHELF_BROKEN = 14,   /* The used length exceeds the shelf, or the used bytes are not records end to end that each pass 1, 2, 3 and 5. */
    JURNADEL_NO_SUCH_RECORD = 15, /* The shelf holds no record with this number, counting from 0. */
    JURNADEL_SHELF_FULL = 16,     /* The record isn't on the shelf and exceeds the bytes past the used length. */
    JURNADEL_BAD_OUTSIDE = 17,    /* Kind 101h, 102h or 104h, and the outside dart is not below the dart count. */
    JURNADEL_NOT_TRIANGLES = 18,  /* Kind 3, and an area is not three darts of three different trails. */
    JURNADEL_BAD_TABLE = 19       /* The group table is not 243 bytes, or two of them are equal, or a call is handed a table that loading never gives. */
};

/* ---- Group tables ----------------------------------------------------------------- */

/*
 * Kinds 2 and 0x102 store labels, and kind 3 node types, in groups of five; a group has a value
 * from 0 to 242. A group table says which byte stands for each value. The standard table has byte
 * v for value v; a maker who stores groups under other bytes loads a table of its own.
 *
 * A table is plain data, handed over by value. It may be copied, kept in ROM, or filled in by the
 * caller: each call that is handed one tests all of it, in every kind, and refuses by 19, before
 * all else, a table that loading never gives. Such a table has two equal bytes, or an entry of
 * inverse that is not the one below.
 *
 * A record is read under the table that it was written under. Nothing is promised across two
 * tables: equal bytes under two tables may be different plans. The other kinds have no groups,
 * and the same records under every table.
 */
typedef struct jurnadel_table {
    uint8_t bytes[243];   /* entry v: the byte for group value v; all different */
    uint8_t inverse[256]; /* entry b: the group value whose byte is b; 243 if there is none */
} jurnadel_table;

/*
 * Loads a maker's table.
 *
 *   bytes, bytes_len     243 bytes, all different: entry v is the byte for group value v
 *   refusal              0, or 19: they are not 243, or two of them are equal
 *
 * If refused, the table is all zeros, which every call refuses by 19.
 */
jurnadel_table jurnadel_load_table(const uint8_t *bytes, size_t bytes_len, uint16_t *refusal);

/* The standard table: what loading 0, 1, .., 242 gives. */
jurnadel_table jurnadel_standard_table(void);

/* ---- Plans and records ------------------------------------------------------------ */

/*
 * Writes the record of a plan.
 *
 *   table                the group table; kinds 2, 3 and 0x102 have its bytes
 *   order, darts         the turning order, darts = 2m entries
 *   start                the start dart
 *   outside              the outside dart, any of its area; kinds 1, 2, 3 and 4 ignore it
 *   kind                 1: no loop, no junction of degree one but the start's; 2: no loop;
 *                        3, triangle meshes: no loop, and every area, the one outside included,
 *                        is three darts of three different trails; 4: any connected planar plan;
 *                        0x101, 0x102, 0x104 (101h, 102h, 104h): as 1, 2 and 4, with the outside
 *                        area, in two bytes more
 *   work, work_len       JURNADEL_WORK_LEN(m) numbers or more, any content; zeros on return
 *   output, output_len   JURNADEL_RECORD_LEN(kind, m) bytes always serve; the first *length are filled
 *   length               the record's length; 0 if refused
 *   characteristic       of refusal 10: junctions minus trails plus areas; else 0
 *
 * Refusals: 19, 2, 3, 4, 17 in kinds 101h, 102h and 104h, 6, 7, 8, 9, 10, then 11 in kinds 1, 2, 101h
 * and 102h and 12 in kinds 1 and 101h. In kind 3: 19, 2, 3, 4, 6, 7, 9, 10, 11, 18, then 8, as the
 * record's length is known only then. Two plans that are not refused get equal bytes in one kind, under
 * one table, exactly when one is the other with its darts renumbered: start to start, opposite ends to
 * opposite ends, turning order to turning order; in kinds 101h, 102h and 104h outside area to outside
 * area too.
 */
uint16_t jurnadel_write(jurnadel_table table, const uint16_t *order, size_t darts, uint16_t start, uint16_t outside,
                        uint16_t kind, uint16_t *work, size_t work_len, uint8_t *output, size_t output_len,
                        uint16_t *length, int32_t *characteristic);

/*
 * Reads the plan of a record, in standard numbering: its start is 0.
 *
 *   table                the group table that the record was written under
 *   record, record_len   the record, all of it and no more
 *   work, work_len       JURNADEL_WORK_LEN(m) numbers or more, any content; zeros on return
 *   order, order_len     JURNADEL_ORDER_LEN(m) numbers or more; the first 2m are filled with the turning order
 *   trails               m; 0 if refused
 *   outside              the lowest dart of the outside area, which in kinds 1, 2, 3 and 4 is the
 *                        start's: 0; 0 if refused
 *
 * Refusals: 19, 1, 2, 3, 5 but in kind 3, 7, 8, 13. Writing the plan with this outside in the record's
 * kind, under the same table, gives the record; a stored outside that isn't the lowest dart of an area
 * is 13, and so are a group's byte that is none of the table's and, in kind 3, a wrong length.
 */
uint16_t jurnadel_read(jurnadel_table table, const uint8_t *record, size_t record_len,
                       uint16_t *work, size_t work_len, uint16_t *order, size_t order_len,
                       uint16_t *trails, uint16_t *outside);

/*
 * Tells how long each area of a plan is: its number of darts. That is the length of a walk
 * along its border, in trails; a trail that has the area on both sides is walked twice. Areas
 * come in the order of their lowest darts.
 *
 *   order, darts         the turning order, darts = 2m entries; it needs no start
 *   work, work_len       JURNADEL_WORK_LEN(m) numbers or more, any content; zeros on return
 *   list, list_len       a number for each area; JURNADEL_AREAS_LEN(m) always serve; the first *count are filled
 *   count                how many areas there are; 0 if refused
 *   characteristic       of refusal 10: junctions minus trails plus areas; else 0
 *
 * Refusals: 3, 6, 7, 9, 10, then 8. The number of areas is m + 2 minus that of the junctions;
 * their lengths add up to 2m.
 */
uint16_t jurnadel_area_lengths(const uint16_t *order, size_t darts,
                               uint16_t *work, size_t work_len, uint16_t *list, size_t list_len,
                               uint16_t *count, int32_t *characteristic);

/* ---- Shelves ---------------------------------------------------------------------- */

/*
 * A shelf is a lent run of bytes with a used length; the used bytes are records end to
 * end, and records are numbered from 0. Nothing on a shelf tells which table a record was
 * written under.
 *
 * Shelving reads each record that it is handed, and refuses one that no fit plan has. So a
 * shelf that is built from nothing by shelving, with used 0 at first and each call handed what
 * the one before left, holds only records of fit plans, each under the table of the call that
 * stored it; refused calls between change nothing. Of records that are on a shelf already these
 * calls look at heads and lengths only: a lent shelf may hold some that cannot be read, and some
 * of kind 3 with any length from 6 on.
 */

/*
 * Reads a record and shelves it. If equal bytes are on the shelf, *number is the first such
 * record's and nothing is stored; else the record is put just past the used bytes. It goes
 * over the heads of all records once, and compares only those that are as long as the new one.
 *
 *   table                the group table that the record was written under; the bytes of records
 *                        are compared as they are
 *   record, record_len   the record, all of it and no more
 *   work, work_len       JURNADEL_WORK_LEN(m) numbers or more, any content; zeros on return
 *   shelf, shelf_len     the whole shelf
 *   used                 its used length
 *   number               the record's number; 0 if refused
 *   new_used             the used length now; used if refused or already there
 *
 * Refusals: 19, 1, 2, 3, 5 but in kind 3, 7, 13, 14, 16. Those up to 13 are reading's, and are given
 * also where equal bytes are on the shelf. There is no 8, as the plan is not handed out.
 */
uint16_t jurnadel_shelve(jurnadel_table table, const uint8_t *record, size_t record_len, uint16_t *work, size_t work_len,
                         uint8_t *shelf, size_t shelf_len, size_t used, size_t *number, size_t *new_used);

/*
 * Finds a record: it is shelf[*at] .. shelf[*at + *length - 1]. If refused, both are 0.
 * Refusals: 14, 15.
 */
uint16_t jurnadel_fetch(const uint8_t *shelf, size_t shelf_len, size_t used, size_t number,
                        size_t *at, size_t *length);

/*
 * Begins a walk at a record: *at is its place. If refused, *at is used, where no record
 * stands. Refusals: 14, 15.
 */
uint16_t jurnadel_walk_begin(const uint8_t *shelf, size_t shelf_len, size_t used, size_t number,
                             size_t *at);

/*
 * A step of a walk: the length of the record that stands at place at, or 0 if none is
 * left, or none that passes 1, 2, 3 and 5 stands there. The next place is at plus this.
 *
 *     for (; (length = jurnadel_walk_step(shelf, shelf_len, used, at)) != 0; at += length)
 *         ...                        the record is shelf + at, length bytes
 */
size_t jurnadel_walk_step(const uint8_t *shelf, size_t shelf_len, size_t used, size_t at);

#ifdef __cplusplus
}
#endif

#endif
