/* The proved GLSL printer, for callers from C (C99 or later) and C++ (C++11 or later).
 *
 * A tree comes as records of 12 bytes with a buffer of names, the layout as 21 or 22 bytes of settings (exports use GLSL_EXPORT);
 * GLSL comes out in a room that the caller lends. docs/RECORDS.md has all kinds of records and all settings, byte by byte. Link
 * target/native/libglsl.a, which `sh tools/staticlib.sh glsl` writes. examples/c/expression.c is a whole program.
 *
 * Promised by each call, whatever the bytes that it gets, and proved of the library's code (what is trusted for that: docs/PROMISES.md):
 *   - It returns, with the text or with the first refusal in this order: 1, 2, 3; at each record 4 to 11 and then 15, so that the first
 *     faulty record decides; 12; 13. The same bytes always have the same answer.
 *   - On a refusal no byte of the room is altered.
 *   - A text stands at the front of the room. The bytes behind it are untouched, so no zero ends it.
 *   - Slices are lent for the call alone: nothing is kept, and only the room is written. There is no state and no heap, so any
 *     number of threads may call at the same time, each with a room of its own.
 *
 * What a text is read as (docs/READING.md):
 *   - With the needed spaces (settings byte 21, as in GLSL_EXPORT) or spaces around operators (byte 12, as in GLSL_OPEN) the text of a
 *     sound expression is read by GLSL 4.60's grammar as that expression and as no other. That is proved too. Sound leaves out a few
 *     shapes that are misread under any settings, among them a negative IntConst: -1 is read as minus over 1. With byte 21 at 0 it
 *     also leaves out minus over --a, which is then printed as ---a, plus over ++a, and a field of an IntConst, 1.lf.
 *   - With neither (GLSL_TIGHT) signs can meet: n - --k is printed as n---k, which is read as n-- - k. glsl_joined tells beforehand
 *     whether signs meet somewhere, or a dot and a whole number. Where it answers 0 the text of a sound expression is read as that
 *     expression and as no other under any settings, GLSL_TIGHT among them. That is proved as well.
 *   - Settings are only layout: but for byte 15, which leaves out the braces of single statements, the texts of one tree under two of
 *     them differ in spaces, tabs and newlines alone (docs/LAYOUT.md). Proved.
 *   - Of units it is promised what their text is and, with byte 21 at 1, that longest match splits it into its tokens. No braces are
 *     added: an if without an else that is the first statement of an if with one takes that else when it is read, under any settings
 *     (docs/DIFFERENCES.md, "Dangling else").
 *
 * Owed by the caller:
 *   - Each pointer is valid for the length behind it, and is not null, even if that length is 0.
 *   - The room overlaps none of the other slices. (Those may overlap each other.)
 *   - 192 KiB of stack are left. A tree may be 200 levels deep; what is deeper is refused.
 */
#ifndef GLSL_PRINT_H
#define GLSL_PRINT_H

#include <stddef.h>
#include <stdint.h>

#ifdef __cplusplus
extern "C" {
#endif

/* Prints a unit (its root is a record of kind 80). The answer is the length of the text, or a refusal. */
int64_t glsl_print_unit(const uint8_t *settings, size_t settings_length,
                        const uint8_t *records, size_t records_length,
                        const uint8_t *names, size_t names_length,
                        uint8_t *room, size_t room_length);

/* Prints an expression (its root is a record of kind 1 to 16). The answer is the length of the text, or a refusal. */
int64_t glsl_print_expr(const uint8_t *settings, size_t settings_length,
                        const uint8_t *records, size_t records_length,
                        const uint8_t *names, size_t names_length,
                        uint8_t *room, size_t room_length);

/* Asks whether an expression is joined. It is so exactly if, under GLSL_TIGHT, somewhere in it
 *   - a binary + or - has a right operand without brackets whose text begins with the same sign: `a--b` for a - -b, `n---k` for n - --k;
 *   - a unary + or - has an operand without brackets whose text begins with the same sign: `---a` for minus over --a, `--1` for minus
 *     over the IntConst -1;
 *   - a Dot stands directly over an IntConst: `1.lf`.
 * The two signs, or number and dot, are then read as one token, and nothing else in the text can be: longest match, by GLSL's own words,
 * splits a text under GLSL_TIGHT into the expression's tokens exactly where the answer is 0 (docs/LAYOUT.md).
 * The needed spaces (settings byte 21, as in GLSL_EXPORT) keep all three sorts apart, and where they are on there is no need to ask;
 * spaces around operators (byte 12) by themselves keep the first sort apart.
 * The answer is 1 or 0, or a refusal with a number of 2 to 12, or 15. */
int64_t glsl_joined(const uint8_t *records, size_t records_length, const uint8_t *names, size_t names_length);

/* Why there is no answer. Behind each: the place that goes with it. A record's place is its index, from 0. There is no 14. */
enum glsl_refusal {
    GLSL_NOT_REFUSED = 0,
    GLSL_SETTINGS_OUT_OF_RANGE = 1, /* settings neither 21 nor 22 bytes, or a byte out of range: 0 */
    GLSL_RECORDS_OUT_OF_SIZE = 2,   /* records empty, not whole, or above 4,096: 0 */
    GLSL_NAMES_OUT_OF_SIZE = 3,     /* names above 32,768 bytes: 0 */
    GLSL_RECORD_MISSING = 4,        /* a record is expected, none is left: the number of records */
    GLSL_KIND_NOT_ALLOWED = 5,      /* kind not allowed there: the record */
    GLSL_TOO_DEEP = 6,              /* depth above 200 (the root has depth 1): the record */
    GLSL_VARIANT_OUT_OF_RANGE = 7,  /* variant out of range: the record */
    GLSL_COUNT_MISSING = 8,         /* count 0 where at least 1 is asked for: the record */
    GLSL_UNUSED_SET = 9,            /* an unused count, a or b isn't 0: the record */
    GLSL_TEXT_BEYOND = 10,          /* a text ends beyond the names: the record */
    GLSL_TEXT_MISFORMED = 11,       /* a text has the wrong form: the record */
    GLSL_RECORDS_LEFT_OVER = 12,    /* records left over: the first of them */
    GLSL_ROOM_TOO_SMALL = 13,       /* the text is longer than the room: the length needed */
    GLSL_RESERVED_DECLARED = 15     /* a reserved name (gl_..) declared, as a function's, a struct's or a parameter's: the record */
};

/* An answer is not negative, or minus the sum of the refusal's number times 2^32 and its place. */

/* Whether an answer is a refusal: 1 or 0. */
static inline int glsl_is_refusal(int64_t answer)
{
    return answer < 0;
}

/* The number of an answer's refusal, as in enum glsl_refusal; GLSL_NOT_REFUSED if it is none. */
static inline int glsl_refusal_number(int64_t answer)
{
    return answer < 0 ? (int)((0 - (uint64_t)answer) >> 32) : GLSL_NOT_REFUSED;
}

/* The place of an answer's refusal; 0 if it is none. */
static inline size_t glsl_refusal_place(int64_t answer)
{
    return answer < 0 ? (uint32_t)(0 - (uint64_t)answer) : 0;
}

/* The length of GLSL_TIGHT and GLSL_OPEN, and that of GLSL_EXPORT. */
enum { GLSL_SETTINGS_LENGTH = 21, GLSL_EXPORT_LENGTH = 22 };

/* The first two arguments of a print: one of the settings below, or another array (no pointer), and its length. */
#define GLSL_SETTINGS(record) (record), sizeof(record)

/* For exports: GLSL_TIGHT with the needed spaces (byte 21), one where two tokens would be read as one and nowhere else: n- --k, - --a,
 * 1 .x. Sound expressions are read as they were meant, so there is no need to ask glsl_joined. Pass all 22 bytes, as
 * GLSL_SETTINGS(GLSL_EXPORT) does: the first 21 (GLSL_SETTINGS_LENGTH) are GLSL_TIGHT, and no refusal tells. */
static const uint8_t GLSL_EXPORT[GLSL_EXPORT_LENGTH] = {0, 0, 0, 0, 0, 0, 0, 0, 0, 0, 0, 0, 0, 0, 0, 0, 0, 0, 0, 0, 0, 1};

/* The least space: none around operators, no line breaks. The text can be read as ANOTHER expression than the tree's, as n---k for
 * n - --k: use GLSL_EXPORT, or ask glsl_joined first. */
static const uint8_t GLSL_TIGHT[GLSL_SETTINGS_LENGTH] = {0, 0, 0, 0, 0, 0, 0, 0, 0, 0, 0, 0, 0, 0, 0, 0, 0, 0, 0, 0, 0};

/* For people: spaces around operators, a line for each statement, indents of four spaces. Sound expressions are read as they were meant. */
static const uint8_t GLSL_OPEN[GLSL_SETTINGS_LENGTH] = {2, 4, 1, 1, 1, 1, 1, 1, 2, 2, 2, 2, 1, 2, 2, 0, 1, 1, 1, 1, 1};

#ifdef __cplusplus
}
#endif

#endif
