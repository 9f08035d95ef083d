/* Thawcopper's C entries, in libthawcopper.a (`bash tools/build.sh archive`).
 *
 * Words are unsigned, 32 bits, little-endian. A row is four words (kind, attr, name, end), a name two (start, length),
 * a binding three (use, property, frame). docs/FORMAT.md has what they mean and what is refused.
 *
 * Every input is answered: there is nothing to free and no state, and calls may be made from several threads at once. A
 * refusal leaves what was lent as it was. A length is in bytes; a pointer whose length is 0 is not read, but must not
 * be null. The memory that is written must not overlap any other that is handed over.
 *
 * A conversion needs up to 896 KiB of stack, by the size of the table: give its thread 1 MiB or more. With
 * THAWCOPPER_TABLET it takes smaller tables only and up to 112 KiB, so a stack of 192 KiB is enough. Making names needs
 * under 1 MiB, by the number of names and bindings: a thread of 1 MiB has that too.
 */
#ifndef THAWCOPPER_H
#define THAWCOPPER_H

#include <stddef.h>
#include <stdint.h>

#ifdef __cplusplus
extern "C" {
#endif

/* `refusal` and `place`. Place is the row's number from 0, the name's or the binding's from 1, or 0.
 *
 * 21 to 25 tell the first row that breaks the form; where it has several faults, the lowest of their numbers. They are
 * tested after THAWCOPPER_BAD_NAME and before THAWCOPPER_TOO_DEEP. 2, which told all of them, is retired: it is not
 * given any more, and no other refusal will have it. */
enum {
    THAWCOPPER_ACCEPTED = 0,
    THAWCOPPER_SIZES = 1,           /* place 0: no rows, too many for this caller, too long, or not whole */
    THAWCOPPER_TOO_DEEP = 3,        /* the first row deeper than 128, on a tablet than 32 */
    THAWCOPPER_BAD_NAME = 4,        /* the first name outside the text, of no or over 255 bytes, or not UTF-8 */
    THAWCOPPER_MADE_ROW = 5,        /* the first row that only a result may have */
    THAWCOPPER_SUPER = 6,           /* the first super that may not stand where it is */
    THAWCOPPER_FIELD = 7,           /* the first class field whose value cannot be converted */
    THAWCOPPER_ARGUMENTS = 8,       /* the first binding that is called arguments */
    THAWCOPPER_NO_ROOM = 9,         /* place 0: what is lent is too short for the result */
    THAWCOPPER_UNKNOWN_LETTER = 10, /* base text, names: the binding whose property has another script's first letter */
    THAWCOPPER_BAD_BINDING = 11,    /* base text, names: no such binding, or no such record */
    THAWCOPPER_NO_SPELLING = 18,    /* spelling, which has no place: attr above 1, or no pair that lies in its text */
    THAWCOPPER_BAD_ROW_KIND = 21,   /* a kind that is not in the list */
    THAWCOPPER_BAD_ROW_ATTR = 22,   /* an attr that the kind or its place does not allow */
    THAWCOPPER_BAD_ROW_END = 23,    /* an end before or at the row, or past its parent's; row 0: not the row count */
    THAWCOPPER_BAD_ROW_PLACE = 24,  /* a wrong place or number of children; row 0: no Program */
    THAWCOPPER_BAD_ROW_NAME = 25    /* a name outside the rule of its kind */
};

/* Bits of the options of thawcopper_convert_with. */
enum {
    THAWCOPPER_ARROW = 1,              /* arrow functions become functions */
    THAWCOPPER_ASYNC_TO_GENERATOR = 2, /* async functions and async arrows will be moved */
    THAWCOPPER_ASYNC_GENERATORS = 4,   /* async generators will be moved */
    THAWCOPPER_TABLET = 8              /* a tablet calls: at most 512 rows and depth 32, not 16,384 and 128 */
};

/* A record's use. */
enum {
    THAWCOPPER_USE_THIS = 1,
    THAWCOPPER_USE_ARGUMENTS = 2,
    THAWCOPPER_USE_GET = 3,
    THAWCOPPER_USE_SET = 4,
    THAWCOPPER_USE_PROP = 5,
    THAWCOPPER_USE_VALUE = 6
};

typedef struct {
    uint32_t refusal;
    uint32_t place;
    uint32_t rows;     /* written to the front of out_rows, 16 bytes each */
    uint32_t bindings; /* written to the front of out_bindings, 12 bytes each */
} thawcopper_answer;

typedef struct {
    uint32_t refusal;
    uint32_t place;
    uint32_t bytes; /* written to the front of out */
} thawcopper_spelled;

typedef struct {
    uint32_t refusal;
    uint32_t place;
    uint32_t pairs; /* written to the front of out_pairs, 8 bytes each: one for each binding */
    uint32_t bytes; /* written to the front of out_text */
} thawcopper_named;

typedef struct {
    uint32_t refusal; /* THAWCOPPER_NO_SPELLING or 0 */
    uint32_t start;   /* in text for attr 0, in made_text for attr 1 */
    uint32_t bytes;
} thawcopper_part;

/* Converts a table as the print room: at most 16,384 rows and depth 128. A switch is on where it is not 0. */
thawcopper_answer thawcopper_convert(
    uint32_t arrow, uint32_t async_to_generator, uint32_t async_generator_functions,
    const uint8_t *rows, size_t rows_len,
    const uint8_t *names, size_t names_len,
    const uint8_t *text, size_t text_len,
    uint8_t *out_rows, size_t out_rows_len,
    uint8_t *out_bindings, size_t out_bindings_len);

/* Converts a table with options: THAWCOPPER_ARROW and those behind it, put together by `|`; 0 for none. A bit without a
 * name is not looked at. Without THAWCOPPER_TABLET the answer is that of thawcopper_convert. What is accepted with it
 * has the same rows and bindings without it. The limits are on the table lent: a result may have more rows. */
thawcopper_answer thawcopper_convert_with(
    uint32_t options,
    const uint8_t *rows, size_t rows_len,
    const uint8_t *names, size_t names_len,
    const uint8_t *text, size_t text_len,
    uint8_t *out_rows, size_t out_rows_len,
    uint8_t *out_bindings, size_t out_bindings_len);

/* The text that binding `number`, from 1, is called by, before it is made unique. */
thawcopper_spelled thawcopper_base_text(
    uint32_t number,
    const uint8_t *bindings, size_t bindings_len,
    const uint8_t *names, size_t names_len,
    const uint8_t *text, size_t text_len,
    uint8_t *out, size_t out_len);

/* The names of all bindings: an underscore and the base text, and where that is taken the smallest number from 2 up
 * that frees it. Taken are all names of the table and the names of the bindings before. They stand end to end in
 * out_text; pair b of out_pairs is (start, length) of binding b there. Refused are, in this order, what base text
 * refuses by 1 and 4, then the first binding that it refuses by 11 or 10, and last, by 9, what has no room for the
 * bytes or for whole pairs.
 *
 * A made name has up to 274 bytes, so 274 for each binding are enough; a later version may need a few more. Since names
 * may have 255 (4), made pairs are not fit to be lent as `names`. */
thawcopper_named thawcopper_make_names(
    const uint8_t *bindings, size_t bindings_len,
    const uint8_t *names, size_t names_len,
    const uint8_t *text, size_t text_len,
    uint8_t *out_pairs, size_t out_pairs_len,
    uint8_t *out_text, size_t out_text_len);

/* How an Ident is spelled, by its attr and its name: with attr 0 the part of `text` that pair `number` of `names` says,
 * with attr 1 the part of `made_text` that pair `number` of `made_pairs` says. Pairs are numbered from 1. Nothing is
 * written. THAWCOPPER_NO_SPELLING, with start 0 and 0 bytes, where attr is above 1, there is no whole pair of that
 * number, or the pair reaches past its text; no other test is made, so a pair of length 0 is an empty part. */
thawcopper_part thawcopper_spelling(
    uint32_t attr,
    uint32_t number,
    const uint8_t *names, size_t names_len,
    const uint8_t *text, size_t text_len,
    const uint8_t *made_pairs, size_t made_pairs_len,
    const uint8_t *made_text, size_t made_text_len);

#ifdef __cplusplus
}
#endif

#endif
