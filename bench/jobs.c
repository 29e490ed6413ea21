/* Times whole jobs through the entry for hosts in C, and the same jobs through a plain program, in one run, and prints a table. An argument
   is the number of the only kind to be timed. */
#include "damage.h"
#include "lrs.h"
#include <stdio.h>
#include <stdlib.h>

enum { JOBS = 1000, ROUNDS = 15, LONGEST = 256 };

struct text {
    size_t len;
    uint8_t bytes[LRS_ROOM];
};

static uint8_t jobs[JOBS][LONGEST];
static size_t lengths[JOBS];
static struct text verified[JOBS], plain[JOBS];
static int faults;

/* A job is written from the front. */
struct pen {
    uint8_t *at;
};

static void put(struct pen *pen, uint8_t x) { *pen->at++ = x; }

static void put_all(struct pen *pen, const uint8_t *xs, size_t n) {
    for (size_t i = 0; i < n; i++) put(pen, xs[i]);
}

static void put_counted(struct pen *pen, const uint8_t *xs, size_t n) {
    put(pen, n);
    put_all(pen, xs, n);
}

static size_t write_job(uint8_t *job, const struct code *code, const struct told *told, const uint8_t *came) {
    struct pen pen = {job};
    put(&pen, code->kind);
    put(&pen, code->k);
    put_counted(&pen, code->lengths, code->blocks);
    put_counted(&pen, code->parameters, code->blocks);
    put_counted(&pen, code->locators, code->n);
    put_counted(&pen, came, code->n);
    put(&pen, told->rows);
    for (size_t i = 0; i < told->rows; i++) {
        put(&pen, 1 + i);
        put(&pen, told->elements[i]);
    }
    put(&pen, told->columns);
    for (size_t i = 0; i < told->columns; i++) {
        size_t block = told->rows + i;
        put(&pen, 1 + block);
        put_all(&pen, told->coefficients[i], code->lengths[block]);
    }
    return (size_t)(pen.at - job);
}

/* What the text has to begin with, or be where the word is out of reach. */
static size_t write_start(char *start, const struct code *code, const uint8_t *sent) {
    size_t len = (size_t)sprintf(start, "word");
    for (size_t i = 0; i < code->n; i++) len += (size_t)sprintf(start + len, " %u", sent[i]);
    return len + (size_t)sprintf(start + len, "\n");
}

static char starts[JOBS][LONGEST];
static size_t start_lengths[JOBS];

/* Every job has hints of its own. */
static void make_jobs(const struct code *code, size_t errors, size_t rows, size_t columns) {
    for (size_t j = 0; j < JOBS; j++) {
        uint8_t sent[MOST_SYMBOLS], came[MOST_SYMBOLS];
        struct told told = draw_hints(code, rows, columns);
        send(code, errors, &told, sent, came);
        lengths[j] = write_job(jobs[j], code, &told, came);
        start_lengths[j] = write_start(starts[j], code, sent);
    }
}

static double time_verified(void) {
    double start = now();
    for (size_t j = 0; j < JOBS; j++) verified[j].len = lrs_job(jobs[j], lengths[j], verified[j].bytes, sizeof verified[j].bytes);
    return now() - start;
}

static double time_plain(void) {
    double start = now();
    for (size_t j = 0; j < JOBS; j++) plain[j].len = plain_job(jobs[j], lengths[j], plain[j].bytes);
    return now() - start;
}

/* Each text has to begin with the codeword that was sent, and both have to be the same. */
static void judge(unsigned kind, const char *name) {
    for (size_t j = 0; j < JOBS; j++) {
        const struct text *v = &verified[j], *p = &plain[j];
        if (v->len > start_lengths[j] && memcmp(v->bytes, starts[j], start_lengths[j]) == 0 && v->len == p->len &&
            memcmp(v->bytes, p->bytes, v->len) == 0)
            continue;
        printf("FAULT: kind %u, %s: job %zu has the text\n%.*s\nverified, and plain\n%.*s\n", kind, name, j, (int)v->len, v->bytes, (int)p->len,
               p->bytes);
        faults++;
        return;
    }
}

static void run(const struct code *code, const char *name, size_t errors, size_t rows, size_t columns) {
    double by_verified = 1e9, by_plain = 1e9;
    make_jobs(code, errors, rows, columns);
    for (int r = 0; r < ROUNDS; r++) {
        double took = time_verified();
        if (took < by_verified) by_verified = took;
        took = time_plain();
        if (took < by_plain) by_plain = took;
    }
    judge(code->kind, name);
    printf("| %u | %zu | %zu | %s | %zu | %zu | %zu | %.0f | %.0f | %.2f |\n", code->kind, code->n, code->k, name, errors, rows, columns,
           JOBS / by_verified, JOBS / by_plain, by_verified / by_plain);
    fflush(stdout);
}

int main(int argc, char **argv) {
    static const struct {
        uint8_t kind, generator;
        size_t blocks;
    } largest[] = {{1, 2, 3}, {2, 2, 3}, {3, 3, 2}, {4, 2, 12}, {129, 2, 3}, {130, 2, 3}, {131, 3, 2}, {132, 2, 12}};
    int only = argc > 1 ? atoi(argv[1]) : 0;
    printf("| kind | n | k | case | full errors | row hints | column hints | verified, jobs/s | plain, jobs/s | time ratio |\n");
    printf("|---|---|---|---|---|---|---|---|---|---|\n");
    for (size_t i = 0; i < sizeof largest / sizeof *largest; i++) {
        if (only != 0 && only != largest[i].kind) continue;
        struct code code = full_code(largest[i].kind, largest[i].generator, largest[i].blocks);
        size_t room = code.n - code.k, told = room / 2;
        run(&code, "limit of reach", room / 2, 0, 0);
        run(&code, "hints", (room - told) / 2, told / 2, told - told / 2);
    }
    printf("\n%d jobs to a pass, the best of %d passes of each, taken in turn\n", JOBS, ROUNDS);
    return faults != 0;
}
