/* Plumtassel: a proved sequential decoder for short blocks of a convolutional code.
 *
 * Link with target/staticlib/libplumtassel.a, which `tools/staticlib plumtassel` writes. docs/FACE.md has an example, the proved
 * statement of each function, and how to build.
 *
 * A message is L bits, one a byte, each 0 or 1. A block is N = outputs * (L + memory) symbols, one a byte, from -128 to 127: below
 * zero reads as a 1, otherwise as a 0, and the distance from zero is how sure the receiver is. After the message come `memory` zero
 * bits, so a block starts and ends in state 0.
 *
 * Proved, for every argument that keeps the conditions below: a call ends; it reads and writes nothing but the buffers it is lent and
 * its own stack; its result, and every byte of its output buffers, are what document 01 fixes for these arguments. On a refusal every
 * output buffer is as it was. No call allocates, keeps anything between calls, or calls anything of the system.
 *
 * Conditions, which no proof on our side can see:
 *   - a pointer is valid for the length that follows it: for reading, and where it is not const for writing;
 *   - no buffer that is not const overlaps another buffer of the same call, and no other thread touches it during the call;
 *   - `work` is aligned to 8 bytes, `readings` to 4;
 *   - a pointer may be NULL exactly where its length is 0;
 *   - no buffer has more than PTRDIFF_MAX bytes;
 *   - floats are IEEE 754 single precision, rounded to nearest, with subnormals (no flush to zero).
 */
#ifndef PLUMTASSEL_H
#define PLUMTASSEL_H

#include <stddef.h>
#include <stdint.h>

#ifdef __cplusplus
extern "C" {
#endif

/* The number in an answer or a report, tested in the order 1, 2, 6, 8, then 3, 4, 5, then 9; in the check 7 follows 6. */
enum {
    PLUMTASSEL_DONE = 0,           /* done */
    PLUMTASSEL_BAD_CODE = 1,       /* a code outside the rules of plumtassel_code */
    PLUMTASSEL_BAD_SIZE = 2,       /* L, the room or a block's length not as stated; an output buffer or the working memory too short */
    PLUMTASSEL_NO_ROOM = 3,        /* the next step would need more nodes than the room; steps: as many as it allows */
    PLUMTASSEL_NO_ALLOWANCE = 4,   /* more steps are needed than allowed; steps: the allowance */
    PLUMTASSEL_TIED = 5,           /* two or more messages have the least metric; metric and steps are given */
    PLUMTASSEL_MALFORMED = 6,      /* a message byte above 1, a bad front end, or bytes that are no sheet */
    PLUMTASSEL_NOT_CARRIED = 7,    /* a well-formed sheet that does not prove its claim */
    PLUMTASSEL_NOT_FINITE = 8,     /* a reading is infinite or not a number; index: the first such */
    PLUMTASSEL_SHEET_TOO_SMALL = 9 /* the sheet buffer is too short; length: the size needed */
};

/* Limits. */
enum {
    PLUMTASSEL_LONGEST_MESSAGE = 200, /* L, in bits: 1 to 200 */
    PLUMTASSEL_LONGEST_BLOCK = 864,   /* N, in symbols; also the most readings of one call */
    PLUMTASSEL_LARGEST_ROOM = 4096,   /* nodes: 0 to 4096 */
    PLUMTASSEL_WORDS_PER_NODE = 3     /* working memory: words of 8 bytes for each node of the room */
};

/* A code with one input bit. */
typedef struct {
    uint32_t outputs;       /* n, symbols for each bit: 2 to 4 */
    uint32_t memory;        /* m, bits remembered: 1 to 16 */
    uint32_t generators[4]; /* the first n count: each 1 to 2^(m+1) - 1, the newest bit worth 2^m; the rest are ignored */
} plumtassel_code;

/* What an operation hands back. What a number does not name is 0. */
typedef struct {
    uint32_t number; /* 0, or why not: see above */
    uint32_t metric; /* decode, decode_sheet: the least metric, with 0 and 5; check: the same, with 0. At most 110592 */
    uint32_t steps;  /* decode, decode_sheet: nodes expanded, with 0, 3, 4 and 5 */
    uint32_t length; /* encode: N, with 0; decode_sheet: the sheet's bytes, with 0, or the size needed, with 9 */
} plumtassel_answer;

/* How readings become symbols. Fields that the form lacks are ignored. */
typedef struct {
    uint32_t form;   /* 0: reading * gain; 1: (reading - offset) * gain; 2: 1 at or above the threshold, -1 below. Another is refused 6 */
    float offset;    /* form 1: finite */
    float gain;      /* forms 0 and 1: finite and above zero */
    float threshold; /* form 2: finite */
} plumtassel_front_end;

/* What the front end hands back. On a refusal the floats are +0.0 and what its number does not name is 0. */
typedef struct {
    uint32_t number; /* 0, 2, 6 or 8: see above */
    uint32_t count;  /* with 0: symbols written, one for each reading */
    uint32_t index;  /* with 8: the first reading that is not finite, counted from 0 */
    float lowest;    /* with 0: the lowest reading; of equal ones the first */
    float highest;   /* with 0: the highest reading; of equal ones the first */
} plumtassel_report;

/* The house code of a row: 0 is 7, 5 (memory 2); 1 is 103, 93 (6); 2 is 303, 493 (8); 3 is 118025, 78583 (16). A row above 3:
 * all zeros, which every operation refuses 1. */
plumtassel_code plumtassel_house(size_t row);

/* Encodes. Answers 0 with length N, 1, 2 or 6. */
plumtassel_answer plumtassel_encode(
    plumtassel_code code,
    const uint8_t *message, /* the bits, each 0 or 1 */
    size_t length,          /* L: 1 to 200 */
    uint8_t *out,           /* with 0: the first N bytes are written, each 0 or 1; the rest is untouched */
    size_t out_length);     /* at least N */

/* Decodes: the message that alone has the least metric. The search expands one node a step, cheapest first, then by level, then by
 * state. Answers 0 with metric and steps, 1, 2, 3, 4 or 5. */
plumtassel_answer plumtassel_decode(
    plumtassel_code code,
    size_t length,          /* L: 1 to 200 */
    const int8_t *symbols,  /* the block as received */
    size_t count,           /* exactly N */
    size_t room,            /* nodes that the search may hold: 0 to 4096 */
    uint32_t allowance,     /* steps that it may take: any number */
    uint64_t *work,         /* working memory, 8-byte aligned; what it held before does not matter, what it holds after is not promised */
    size_t words,           /* words of 8 bytes, not bytes: at least 3 * room */
    uint8_t *message,       /* with 0: the first L bytes are written, each 0 or 1; the rest is untouched */
    size_t message_length); /* at least L */

/* The same, and the decision sheet that lets anyone check the answer without a search. Answers as plumtassel_decode, or 9 where it would
 * answer 0 but the sheet has no place: then neither buffer is written. */
plumtassel_answer plumtassel_decode_sheet(
    plumtassel_code code,
    size_t length,          /* L: 1 to 200 */
    const int8_t *symbols,  /* the block as received */
    size_t count,           /* exactly N */
    size_t room,            /* nodes that the search may hold: 0 to 4096 */
    uint32_t allowance,     /* steps that it may take: any number */
    uint64_t *work,         /* working memory, as above */
    size_t words,           /* words of 8 bytes, not bytes: at least 3 * room */
    uint8_t *message,       /* with 0: the first L bytes are written; the rest is untouched */
    size_t message_length,  /* at least L */
    uint8_t *sheet,         /* with 0: the first answer.length bytes are written; the rest is untouched */
    size_t sheet_length);   /* any; 14 + ceil(L/8) + 8 * nodes bytes are needed, at most 32807 */

/* Checks a sheet, from whomever it comes, against the block: accepted, its message is the only one with the least metric. Needs no working
 * memory. Answers 0 with the metric, 1, 2, 6 or 7. */
plumtassel_answer plumtassel_check(
    plumtassel_code code,
    size_t length,          /* L: 1 to 200 */
    const int8_t *symbols,  /* the block as received */
    size_t count,           /* exactly N */
    const uint8_t *sheet,   /* any bytes */
    size_t sheet_length,    /* any */
    uint8_t *message,       /* with 0: the first L bytes are written; the rest is untouched */
    size_t message_length); /* at least L */

/* Turns readings into symbols: the product to the nearest whole number, halves away from zero, held within -127 to 127. Answers 0 with
 * count, lowest and highest, 2, 6, or 8 with index. */
plumtassel_report plumtassel_front(
    plumtassel_front_end front,
    const float *readings,  /* any bit patterns; 8 if one is not finite */
    size_t count,           /* 1 to 864 */
    int8_t *symbols,        /* with 0: the first count bytes are written; the rest is untouched */
    size_t symbols_length); /* at least count */

#ifdef __cplusplus
}
#endif

#endif
