/* Times the verified decoder, a plain one and libfec in one run, and prints a table. With -DPLAIN_ONLY the verified one is left out.
   An argument is the number of the only kind to be timed. */
#include "damage.h"
#include <fec.h>
#include <stdio.h>
#include <stdlib.h>

#ifndef PLAIN_ONLY
size_t lrs_time_recover(const uint8_t *setting, size_t setting_len, const uint8_t *words, size_t words_len, uint8_t *out,
                        size_t out_len);
#endif

enum { WORDS = 2000, ROUNDS = 15, ROOM = WORDS * MOST_SYMBOLS };

/* A case: the setting that is told, the words that are sent, and those that arrive. */
struct trial {
    const char *name;
    size_t n, k, errors, rows, columns;
    uint8_t setting[256];
    size_t setting_len;
    uint8_t sent[ROOM], came[ROOM];
};

static struct trial trial;
static uint8_t answer[ROOM];
static int faults;

static void put(struct trial *t, uint8_t x) { t->setting[t->setting_len++] = x; }

static void put_all(struct trial *t, const uint8_t *xs, size_t n) {
    put(t, n);
    for (size_t i = 0; i < n; i++) put(t, xs[i]);
}

static void put_sheet(struct trial *t, const struct code *code) {
    t->setting_len = 0;
    put(t, 5 + 2 * code->blocks + code->n);
    put(t, code->kind);
    put(t, code->k);
    put_all(t, code->lengths, code->blocks);
    put_all(t, code->parameters, code->blocks);
    put_all(t, code->locators, code->n);
}

static void put_hints(struct trial *t, const struct code *code, const struct told *told) {
    put(t, told->rows);
    for (size_t i = 0; i < told->rows; i++) {
        put(t, 1 + i);
        put(t, told->elements[i]);
    }
    put(t, told->columns);
    for (size_t i = 0; i < told->columns; i++) {
        size_t block = told->rows + i;
        put(t, 1 + block);
        put_all(t, told->coefficients[i], code->lengths[block]);
    }
}

static void make_words(struct trial *t, const struct code *code) {
    struct told told = draw_hints(code, t->rows, t->columns);
    put_sheet(t, code);
    put_hints(t, code, &told);
    t->n = code->n;
    t->k = code->k;
    for (size_t w = 0; w < WORDS; w++) send(code, t->errors, &told, t->sent + w * code->n, t->came + w * code->n);
}

/* Timing. */

typedef size_t decoder(const uint8_t *, size_t, const uint8_t *, size_t, uint8_t *, size_t);

/* The seconds that one pass over all words takes. Every word has to come back as it was sent. */
static double timed(decoder *decode, const char *who, const struct trial *t) {
    size_t bytes = WORDS * t->n;
    memset(answer, 255, bytes);
    double start = now();
    size_t count = decode(t->setting, t->setting_len, t->came, bytes, answer, bytes);
    double took = now() - start;
    if (count != WORDS || memcmp(answer, t->sent, bytes) != 0) {
        printf("FAULT: %s recovers %zu of %d words, or not as they were sent: n = %zu, %s\n", who, count, WORDS, t->n, t->name);
        faults++;
    }
    return took;
}

struct speeds {
    double verified, plain;
};

static struct speeds measure(const struct trial *t) {
    double verified = 1e9, plain = 1e9;
    for (int r = 0; r < ROUNDS; r++) {
        double took;
#ifndef PLAIN_ONLY
        took = timed(lrs_time_recover, "the verified decoder", t);
        if (took < verified) verified = took;
#endif
        took = timed(plain_time_recover, "the plain decoder", t);
        if (took < plain) plain = took;
    }
    return (struct speeds){WORDS / verified, WORDS / plain};
}

static void print_row(unsigned kind, const struct trial *t, struct speeds s) {
    printf("| %u | %zu | %zu | %s | %zu | %zu | %zu | ", kind, t->n, t->k, t->name, t->errors, t->rows, t->columns);
#ifdef PLAIN_ONLY
    printf("- | %.0f | - |\n", s.plain);
#else
    printf("%.0f | %.0f | %.2f |\n", s.verified, s.plain, s.plain / s.verified);
#endif
    fflush(stdout);
}

static struct speeds run(const struct code *code, const char *name, size_t errors, size_t rows, size_t columns) {
    trial.name = name;
    trial.errors = errors;
    trial.rows = rows;
    trial.columns = columns;
    make_words(&trial, code);
    struct speeds s = measure(&trial);
    print_row(code->kind, &trial, s);
    return s;
}

/* The three cases of a code; answers the speeds at the limit of reach. */
static struct speeds run_code(uint8_t kind, uint8_t generator, size_t blocks) {
    struct code code = full_code(kind, generator, blocks);
    size_t room = code.n - code.k, told = room / 2;
    run(&code, "no error", 0, 0, 0);
    struct speeds limit = run(&code, "limit of reach", room / 2, 0, 0);
    run(&code, "hints", (room - told) / 2, told / 2, told - told / 2);
    return limit;
}

/* Words per second of libfec: a Reed-Solomon (24, 12) code over GF(256), shortened from 255 symbols, with 6 errors. */
static double run_libfec(void) {
    enum { N = 24, K = 12, ERRORS = 6 };
    void *rs = init_rs_char(8, 0x11d, 1, 1, N - K, 255 - N);
    static uint8_t sent[WORDS][N], came[WORDS][N], work[WORDS][N];
    double best = 1e9;
    for (int w = 0; w < WORDS; w++) {
        for (int i = 0; i < K; i++) sent[w][i] = draw(256);
        encode_rs_char(rs, sent[w], sent[w] + K);
        memcpy(came[w], sent[w], N);
        for (int left = ERRORS; left > 0;) {
            int i = draw(N);
            if (came[w][i] != sent[w][i]) continue;
            came[w][i] ^= 1 + draw(255);
            left--;
        }
    }
    for (int r = 0; r < ROUNDS; r++) {
        memcpy(work, came, sizeof work);
        double start = now();
        for (int w = 0; w < WORDS; w++) decode_rs_char(rs, work[w], NULL, 0);
        double took = now() - start;
        if (took < best) best = took;
        if (memcmp(work, sent, sizeof work) != 0) {
            printf("FAULT: libfec does not recover every word\n");
            faults++;
        }
    }
    free_rs_char(rs);
    return WORDS / best;
}

static void compare(struct speeds limit) {
    double fec = run_libfec();
    printf("\nlibfec, Reed-Solomon (24, 12) over GF(256), 6 errors: %.0f words/s\n", fec);
    printf("plain, kind 200 at the limit of reach: %.2f times as fast as libfec\n", limit.plain / fec);
#ifndef PLAIN_ONLY
    printf("verified, kind 200 at the limit of reach: %.2f times as fast as libfec\n", limit.verified / fec);
#endif
}

int main(int argc, char **argv) {
    static const struct {
        uint8_t kind, generator;
        size_t blocks;
    } largest[] = {{1, 2, 3}, {2, 2, 3}, {3, 3, 2}, {4, 2, 12}, {200, 2, 12}};
    int only = argc > 1 ? atoi(argv[1]) : 0;
    printf("| kind | n | k | case | full errors | row hints | column hints | verified, words/s | plain, words/s | time ratio |\n");
    printf("|---|---|---|---|---|---|---|---|---|---|\n");
    for (size_t i = 0; i < sizeof largest / sizeof *largest; i++) {
        if (only != 0 && only != largest[i].kind) continue;
        struct speeds limit = run_code(largest[i].kind, largest[i].generator, largest[i].blocks);
        if (largest[i].kind == 200) compare(limit);
    }
    printf("%d words to a pass, the best of %d passes of each, taken in turn\n", WORDS, ROUNDS);
    return faults != 0;
}
