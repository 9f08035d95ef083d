/* Compiled and run by tests/header.rs: the worked example through include/thawcopper.h, by each entry, a table that
 * only the print room takes, bad rows, and names of which one is taken. Prints `ok`. */
#include "thawcopper.h"

#include <stdio.h>
#include <string.h>

static size_t put(uint8_t *to, const uint32_t *words, size_t count) {
    for (size_t i = 0; i < count; i++) {
        for (int b = 0; b < 4; b++) {
            to[4 * i + b] = (uint8_t)(words[i] >> (8 * b));
        }
    }
    return 4 * count;
}

/* A Program with Returns, so many rows in all. */
static size_t returns(uint8_t *to, uint32_t rows) {
    for (uint32_t row = 0; row < rows; row++) {
        const uint32_t words[] = {row == 0 ? 0u : 4u, 0, 0, row == 0 ? rows : row + 1};
        put(to + 16 * row, words, 4);
    }
    return 16 * (size_t)rows;
}

static int is(const char *what, thawcopper_answer answer, uint32_t refusal, uint32_t rows, uint32_t bindings) {
    if (answer.refusal == refusal && answer.place == 0 && answer.rows == rows && answer.bindings == bindings) {
        return 1;
    }
    printf("%s: answer %u %u %u %u\n", what, answer.refusal, answer.place, answer.rows, answer.bindings);
    return 0;
}

static int named(const char *what, thawcopper_named answer, uint32_t refusal, uint32_t place, uint32_t pairs,
                 uint32_t bytes) {
    if (answer.refusal == refusal && answer.place == place && answer.pairs == pairs && answer.bytes == bytes) {
        return 1;
    }
    printf("%s: named %u %u %u %u\n", what, answer.refusal, answer.place, answer.pairs, answer.bytes);
    return 0;
}

static int part(const char *what, thawcopper_part answer, uint32_t refusal, uint32_t start, uint32_t bytes) {
    if (answer.refusal == refusal && answer.start == start && answer.bytes == bytes) {
        return 1;
    }
    printf("%s: part %u %u %u\n", what, answer.refusal, answer.start, answer.bytes);
    return 0;
}

/* Names for two captures of `this` and a get accessor, where the script has `_this` and `plot`. */
static int names(void) {
    static const uint32_t bindings[] = {THAWCOPPER_USE_THIS, 0, 0, THAWCOPPER_USE_THIS, 0, 3, THAWCOPPER_USE_GET, 2, 3};
    static const uint32_t pairs[] = {0, 5, 5, 4}, made[] = {0, 6, 6, 6, 12, 18};
    static const char text[] = "_thisplot", wanted[] = "_this2_this3_superprop_getPlot";
    uint8_t records[sizeof bindings], listed[sizeof pairs], expected[sizeof made], out_pairs[32], out_text[64];
    size_t count = put(records, bindings, sizeof bindings / sizeof *bindings);
    size_t names_len = put(listed, pairs, sizeof pairs / sizeof *pairs);
    size_t made_len = put(expected, made, sizeof made / sizeof *made);
    const uint8_t *script = (const uint8_t *)text;
    size_t script_len = sizeof text - 1, length = sizeof wanted - 1;
    memset(out_pairs, 165, sizeof out_pairs);
    memset(out_text, 165, sizeof out_text);

    thawcopper_named answer = thawcopper_make_names(records, count, listed, names_len, script, script_len, out_pairs,
                                                    made_len, out_text, length - 1);
    if (!named("no room for text", answer, THAWCOPPER_NO_ROOM, 0, 0, 0)) {
        return 0;
    }
    answer = thawcopper_make_names(records, count, listed, names_len, script, script_len, out_pairs, made_len - 1,
                                   out_text, length);
    if (!named("no room for pairs", answer, THAWCOPPER_NO_ROOM, 0, 0, 0)) {
        return 0;
    }
    if (out_pairs[0] != 165 || out_text[0] != 165) {
        printf("a refusal writes\n");
        return 0;
    }
    answer = thawcopper_make_names(records, count, listed, names_len, script, script_len, out_pairs, sizeof out_pairs,
                                   out_text, sizeof out_text);
    if (!named("names", answer, THAWCOPPER_ACCEPTED, 0, 3, (uint32_t)length)) {
        return 0;
    }
    if (memcmp(out_pairs, expected, made_len) != 0 || out_pairs[made_len] != 165 ||
        memcmp(out_text, wanted, length) != 0 || out_text[length] != 165) {
        printf("the made names differ\n");
        return 0;
    }
    records[24] = 7;
    answer = thawcopper_make_names(records, count, listed, names_len, script, script_len, out_pairs, 0, out_text, 0);
    if (!named("a record", answer, THAWCOPPER_BAD_BINDING, 3, 0, 0)) {
        return 0;
    }

    static const struct {
        uint32_t attr, number, refusal, start, bytes;
    } calls[] = {{0, 1, 0, 0, 5},
                 {0, 2, 0, 5, 4},
                 {0, 3, THAWCOPPER_NO_SPELLING, 0, 0},
                 {1, 0, THAWCOPPER_NO_SPELLING, 0, 0},
                 {1, 2, 0, 6, 6},
                 {1, 3, 0, 12, 18},
                 {1, 4, THAWCOPPER_NO_SPELLING, 0, 0},
                 {2, 1, THAWCOPPER_NO_SPELLING, 0, 0}};
    for (size_t i = 0; i < sizeof calls / sizeof *calls; i++) {
        thawcopper_part found = thawcopper_spelling(calls[i].attr, calls[i].number, listed, names_len, script,
                                                    script_len, out_pairs, made_len, out_text, length);
        if (!part("spelling", found, calls[i].refusal, calls[i].start, calls[i].bytes)) {
            return 0;
        }
    }
    return 1;
}

/* A Program with one row that is bad in every way, then in one way less each time. */
static int bad_rows(void) {
    static const struct {
        uint32_t kind, attr, name, end, refusal;
    } calls[] = {{7, 1, 1, 1, THAWCOPPER_BAD_ROW_KIND}, {9, 1, 1, 1, THAWCOPPER_BAD_ROW_ATTR},
                 {9, 0, 1, 1, THAWCOPPER_BAD_ROW_END},  {9, 0, 1, 2, THAWCOPPER_BAD_ROW_PLACE},
                 {4, 0, 1, 2, THAWCOPPER_BAD_ROW_NAME}, {4, 0, 0, 2, THAWCOPPER_ACCEPTED}};
    uint8_t rows[32], out[32], none[1] = {0};
    for (size_t i = 0; i < sizeof calls / sizeof *calls; i++) {
        const uint32_t words[] = {0, 0, 0, 2, calls[i].kind, calls[i].attr, calls[i].name, calls[i].end};
        size_t length = put(rows, words, 8);
        thawcopper_answer answer =
            thawcopper_convert(0, 0, 0, rows, length, none, 0, none, 0, out, sizeof out, none, 0);
        uint32_t bad = calls[i].refusal != THAWCOPPER_ACCEPTED;
        if (answer.refusal != calls[i].refusal || answer.place != bad || answer.rows != (bad ? 0u : 2u)) {
            printf("a bad row: answer %u %u %u %u\n", answer.refusal, answer.place, answer.rows, answer.bindings);
            return 0;
        }
    }
    return 1;
}

int main(void) {
    /* () => this */
    static const uint32_t table[] = {0, 0, 0, 5, 1, 0, 0, 5, 16, 2, 0, 5, 18, 0, 0, 4, 9, 0, 0, 5};
    static const uint32_t wanted[] = {0,  0, 0, 10, 2,  0, 0, 4, 3,  1, 1, 4,  9, 0, 0, 4,  1,  0, 0, 10,
                                      17, 0, 0, 10, 18, 0, 0, 7, 19, 0, 0, 10, 4, 0, 0, 10, 11, 1, 1, 10};
    uint8_t rows[sizeof table], expected[sizeof wanted], out_rows[256], out_bindings[24], none[1] = {0};
    size_t length = put(rows, table, sizeof table / sizeof *table);
    size_t result = put(expected, wanted, sizeof wanted / sizeof *wanted);
    memset(out_rows, 165, sizeof out_rows);
    memset(out_bindings, 165, sizeof out_bindings);

    thawcopper_answer answer = thawcopper_convert(1, 0, 0, rows, length, none, 0, none, 0, out_rows, sizeof out_rows,
                                                  out_bindings, sizeof out_bindings);
    if (!is("convert", answer, THAWCOPPER_ACCEPTED, 10, 1)) {
        return 1;
    }
    if (memcmp(out_rows, expected, result) != 0 || out_rows[result] != 165) {
        printf("the rows differ\n");
        return 1;
    }
    static const uint32_t record[] = {THAWCOPPER_USE_THIS, 0, 0};
    uint8_t records[12];
    put(records, record, 3);
    if (memcmp(out_bindings, records, 12) != 0 || out_bindings[12] != 165) {
        printf("the bindings differ\n");
        return 1;
    }

    char text[16];
    thawcopper_spelled spelled =
        thawcopper_base_text(1, out_bindings, 12, none, 0, none, 0, (uint8_t *)text, sizeof text);
    if (spelled.refusal != 0 || spelled.place != 0 || spelled.bytes != 4 || memcmp(text, "this", 4) != 0) {
        printf("base text %u %u %u\n", spelled.refusal, spelled.place, spelled.bytes);
        return 1;
    }
    spelled = thawcopper_base_text(2, out_bindings, 12, none, 0, none, 0, (uint8_t *)text, sizeof text);
    if (spelled.refusal != THAWCOPPER_BAD_BINDING || spelled.place != 2 || spelled.bytes != 0) {
        printf("base text %u %u %u\n", spelled.refusal, spelled.place, spelled.bytes);
        return 1;
    }
    uint8_t pair[8];
    thawcopper_named answered = thawcopper_make_names(out_bindings, 12, none, 0, none, 0, pair, sizeof pair,
                                                      (uint8_t *)text, sizeof text);
    if (!named("the name", answered, THAWCOPPER_ACCEPTED, 0, 1, 5) || memcmp(text, "_this", 5) != 0) {
        return 1;
    }
    /* The last row of the result is an Ident with attr 1 and name 1. */
    thawcopper_part found = thawcopper_spelling(1, 1, none, 0, none, 0, pair, sizeof pair, (uint8_t *)text, 5);
    if (!part("the spelling", found, THAWCOPPER_ACCEPTED, 0, 5) || !names() || !bad_rows()) {
        return 1;
    }
    answer = thawcopper_convert(1, 0, 0, rows, length, none, 0, none, 0, out_rows, result - 1, out_bindings, 12);
    if (!is("no room", answer, THAWCOPPER_NO_ROOM, 0, 0)) {
        return 1;
    }

    /* The same with options, in the print room and on a tablet. */
    static const uint32_t options[] = {THAWCOPPER_ARROW, THAWCOPPER_ARROW | THAWCOPPER_TABLET};
    for (size_t i = 0; i < sizeof options / sizeof *options; i++) {
        memset(out_rows, 165, sizeof out_rows);
        memset(out_bindings, 165, sizeof out_bindings);
        answer = thawcopper_convert_with(options[i], rows, length, none, 0, none, 0, out_rows, sizeof out_rows,
                                         out_bindings, sizeof out_bindings);
        if (!is("convert_with", answer, THAWCOPPER_ACCEPTED, 10, 1)) {
            return 1;
        }
        if (memcmp(out_rows, expected, result) != 0 || out_rows[result] != 165 ||
            memcmp(out_bindings, records, 12) != 0 || out_bindings[12] != 165) {
            printf("the rows or bindings differ with options %u\n", options[i]);
            return 1;
        }
    }

    /* A tablet takes 512 rows. The last bit has no name. */
    static const struct {
        uint32_t rows, options, refusal;
    } calls[] = {{512, THAWCOPPER_TABLET, THAWCOPPER_ACCEPTED},
                 {513, THAWCOPPER_TABLET, THAWCOPPER_SIZES},
                 {513, 0, THAWCOPPER_ACCEPTED},
                 {513, 0x80000000u, THAWCOPPER_ACCEPTED}};
    static uint8_t large[513 * 16], copied[513 * 16];
    for (size_t i = 0; i < sizeof calls / sizeof *calls; i++) {
        int accepted = calls[i].refusal == THAWCOPPER_ACCEPTED;
        length = returns(large, calls[i].rows);
        memset(copied, 165, sizeof copied);
        answer = thawcopper_convert_with(calls[i].options, large, length, none, 0, none, 0, copied, sizeof copied,
                                         none, 0);
        if (!is("many rows", answer, calls[i].refusal, accepted ? calls[i].rows : 0, 0)) {
            return 1;
        }
        if (accepted ? memcmp(copied, large, length) != 0 : copied[0] != 165) {
            printf("the rows differ for %u with options %u\n", calls[i].rows, calls[i].options);
            return 1;
        }
    }
    printf("ok\n");
    return 0;
}
