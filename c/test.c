/* Calls the entry as hosts do: good and refused jobs, short buffers, and guard bytes behind the text. */
#include "lrs.h"
#include <stdio.h>
#include <string.h>

#define GUARD 0xA5

static int failures = 0;

static void expect(const char *what, int holds) {
    if (!holds) {
        printf("failed: %s\n", what);
        failures++;
    }
}

/* The text of a job, in a buffer of exactly the room and in a longer one; what is behind it has to be as it was. */
static void check(const char *what, const uint8_t *job, size_t size, const char *text) {
    size_t rooms[2] = {LRS_ROOM, LRS_ROOM + 100};
    for (int i = 0; i < 2; i++) {
        uint8_t buffer[LRS_ROOM + 100];
        memset(buffer, GUARD, sizeof buffer);
        size_t length = lrs_job(job, size, buffer, rooms[i]);
        int holds = length == strlen(text) && memcmp(buffer, text, length) == 0;
        for (size_t j = length; j < sizeof buffer; j++)
            holds = holds && buffer[j] == GUARD;
        expect(what, holds);
    }
}

/* A buffer that is too short is not written. */
static void check_short(const uint8_t *job, size_t size, size_t room) {
    uint8_t buffer[LRS_ROOM];
    memset(buffer, GUARD, sizeof buffer);
    int holds = lrs_job(job, size, buffer, room) == 0;
    for (size_t j = 0; j < sizeof buffer; j++)
        holds = holds && buffer[j] == GUARD;
    expect("a short buffer", holds);
}

int main(void) {
    uint8_t job[] = {4, 2, 4, 1, 1, 1, 1, 4, 1, 2, 3, 4, 4, 1, 1, 1, 1, 4, 8, 12, 1, 4, 0, 0};
    const size_t size = sizeof job;
    const char *good = "word 8 11 1 4\nmessage 5 3\nfull 1 0 1 0 0\nrow 0 0 0 0 0\ncolumn 0 0 0 0 0\n";
    check("a good job", job, size, good);
    check("an empty job", job, 0, "refused 1 layer 1 place 0\n");
    check("a job cut short", job, size - 1, "refused 1 layer 4 place 23\n");
    check("a sheet cut short", job, 5, "refused 1 layer 1 place 5\n");
    check_short(job, size, 0);
    check_short(job, size, 1);
    check_short(job, size, LRS_ROOM - 1);
    job[20] = 2;
    check("a word out of reach", job, size, "refused 14 layer 3 place 24\n");
    job[20] = 13;
    check("a symbol that is no code", job, size, "refused 10 layer 3 place 20\n");
    job[20] = 1;
    job[17] = 5;
    check("another count", job, size, "refused 4 layer 4 place 17\n");
    job[17] = 4;
    job[0] = 9;
    check("another kind", job, size, "refused 3 layer 1 place 0\n");
    job[0] = 132;
    check("the mirror", job, size, good);
    printf(failures ? "%d failures\n" : "all checks passed\n", failures);
    return failures != 0;
}
