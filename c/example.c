/* Reads a job from standard input and prints its text. */
#include "lrs.h"
#include <stdio.h>

int main(void) {
    uint8_t job[LRS_ROOM], text[LRS_ROOM];
    size_t size = fread(job, 1, sizeof job, stdin);
    size_t length = lrs_job(job, size, text, sizeof text);
    return fwrite(text, 1, length, stdout) == length ? 0 : 1;
}
