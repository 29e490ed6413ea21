/* What both harnesses share: numbers, the clock, the codes that are timed, and the damage on their words. */
#ifndef DAMAGE_H
#define DAMAGE_H
#include "baseline.h"
#include <string.h>
#include <time.h>

static uint64_t state = 88172645463325252u;

static unsigned draw(unsigned below) {
    state ^= state << 13;
    state ^= state >> 7;
    state ^= state << 17;
    return (unsigned)((state >> 32) % below);
}

static double now(void) {
    struct timespec t;
    clock_gettime(CLOCK_MONOTONIC, &t);
    return t.tv_sec + t.tv_nsec * 1e-9;
}

/* Codes. */

/* As many blocks as given, of full length: the parameters are powers of the generator, the locators of each block the basis. */
static struct code full_code(uint8_t kind, uint8_t generator, size_t blocks) {
    const struct field *f = plain_field(kind);
    struct code code = {.kind = kind, .blocks = blocks};
    uint8_t power = 1;
    for (size_t b = 0; b < blocks; b++) {
        code.lengths[b] = f->width;
        code.parameters[b] = power;
        power = f->product(power, generator);
        for (size_t i = 0; i < f->width; i++) code.locators[code.n++] = f->basis[i];
    }
    code.k = code.n / 2;
    return code;
}

/* Damage. */

static uint8_t fixed_element(const struct field *f) {
    for (;;) {
        uint8_t x = draw(f->size);
        if (f->twist(x) == x) return x;
    }
}

static void add(const struct field *f, uint8_t *x, uint8_t y) { *x = f->sum(*x, y); }

static size_t start_of(const struct code *code, size_t block) {
    size_t at = 0;
    for (size_t b = 0; b < block; b++) at += code->lengths[b];
    return at;
}

/* Adds an element times a row of fixed coefficients to a block. */
static void add_rank_one(const struct code *code, size_t block, uint8_t element, uint8_t *word) {
    const struct field *f = plain_field(code->kind);
    size_t at = start_of(code, block);
    for (size_t i = 0; i < code->lengths[block]; i++) add(f, &word[at + i], f->product(element, fixed_element(f)));
}

/* An error of exactly this weight. */
static void full_error(const struct code *code, size_t weight, uint8_t *word) {
    const struct field *f = plain_field(code->kind);
    do {
        memset(word, 0, code->n);
        for (size_t i = 0; i < weight; i++) add_rank_one(code, draw(code->blocks), 1 + draw(f->size - 1), word);
    } while (f->weight(code, word) != weight);
}


/* Hints: they stand in blocks of their own, first the rows, then the columns. */
struct told {
    size_t rows, columns;
    uint8_t elements[MOST_BLOCKS], coefficients[MOST_BLOCKS][MOST_IN_BLOCK];
};

static struct told draw_hints(const struct code *code, size_t rows, size_t columns) {
    const struct field *f = plain_field(code->kind);
    struct told told = {.rows = rows, .columns = columns};
    for (size_t i = 0; i < rows; i++) told.elements[i] = 1 + draw(f->size - 1);
    for (size_t i = 0; i < columns; i++) {
        size_t n = code->lengths[rows + i];
        for (size_t p = 0; p < n; p++) told.coefficients[i][p] = fixed_element(f);
        told.coefficients[i][draw(n)] = 1;
    }
    return told;
}

/* Adds an error that the hints tell of. */
static void add_hinted(const struct code *code, const struct told *told, uint8_t *word) {
    const struct field *f = plain_field(code->kind);
    for (size_t i = 0; i < told->rows; i++) add_rank_one(code, i, told->elements[i], word);
    for (size_t i = 0; i < told->columns; i++) {
        size_t at = start_of(code, told->rows + i), n = code->lengths[told->rows + i];
        uint8_t x = draw(f->size);
        for (size_t p = 0; p < n; p++) add(f, &word[at + p], f->product(x, told->coefficients[i][p]));
    }
}

/* A random codeword, and the word that arrives with full errors of this weight and what the hints tell of. */
static void send(const struct code *code, size_t errors, const struct told *told, uint8_t *sent, uint8_t *came) {
    const struct field *f = plain_field(code->kind);
    uint8_t message[MOST_SYMBOLS], error[MOST_SYMBOLS];
    for (size_t i = 0; i < code->k; i++) message[i] = draw(f->size);
    f->encode(code, message, sent);
    full_error(code, errors, error);
    add_hinted(code, told, error);
    for (size_t i = 0; i < code->n; i++) came[i] = f->sum(sent[i], error[i]);
}

#endif
