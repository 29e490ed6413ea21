/* A plain decoder with hints, not verified: the same algorithm as the codec's, with the same tables, in ordinary C. */
#ifndef BASELINE_H
#define BASELINE_H
#include <stdbool.h>
#include <stddef.h>
#include <stdint.h>

enum { MOST_SYMBOLS = 24, MOST_BLOCKS = 12, MOST_IN_BLOCK = 8, MOST_COEFFICIENTS = 48 };

/* A code: its kind, its dimension, the lengths and parameters of its blocks, and a locator for each symbol. */
struct code {
    uint8_t kind;
    size_t k, blocks, n;
    uint8_t lengths[MOST_BLOCKS], parameters[MOST_BLOCKS], locators[MOST_SYMBOLS];
};

/* Rows in reduced form: the row with its pivot at place p stands at place p, and p is marked. */
struct form {
    uint8_t rows[MOST_IN_BLOCK][MOST_IN_BLOCK];
    bool marks[MOST_IN_BLOCK];
};

/* The hints of each block: row hints by their digits, and column hints. */
struct hints {
    struct form rows[MOST_BLOCKS], columns[MOST_BLOCKS];
    size_t row_count, column_count;
};

struct recovery;

/* The operations of a kind, for whoever makes words and for whole jobs; the decoder does not go through these. */
struct field {
    unsigned size, width;
    const uint8_t *basis;
    uint8_t (*sum)(uint8_t, uint8_t);
    uint8_t (*product)(uint8_t, uint8_t);
    uint8_t (*twist)(uint8_t);
    void (*encode)(const struct code *, const uint8_t *message, uint8_t *word);
    size_t (*weight)(const struct code *, const uint8_t *word);
    bool (*run)(const struct code *, const uint8_t *rest, struct hints *, struct recovery *);
};

/* The operations of kind 1, 2, 3, 4 or 200, and of the mirrors of the first four, 129 to 132; NULL for any other. */
const struct field *plain_field(uint8_t kind);

/* Recovers each n-symbol word in turn. The setting is what lrs_time_recover takes, and so is all else; but it has to be right. */
size_t plain_time_recover(const uint8_t *setting, size_t setting_len, const uint8_t *words, size_t words_len, uint8_t *out,
                          size_t out_len);

/* Runs a job, as lrs_job does, and writes its text; it has to be right, and the text has to have room. */
size_t plain_job(const uint8_t *job, size_t job_len, uint8_t *text);

#endif
