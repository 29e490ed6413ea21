/* A codec for linearized Reed-Solomon codes in the sum-rank metric: one call, a job in and a text out.
 *
 * A job is a string of bytes: the sheet of a code, a received word, and hints on where it is wrong.
 *
 *   sheet          kind number, dimension k, then three sections, each after its one-byte count: the lengths of the blocks
 *                  (1 to 12 blocks of 1 to 8 symbols, n in all, n at most 24), a parameter for each block, n locators
 *   word           the count n, and n symbols
 *   row hints      their count, up to 24, and for each a block, from 1, and an element
 *   column hints   their count, up to 24, and for each a block, from 1, and as many coefficients as the block has symbols
 *
 * Kind numbers: 1 is GF(256), 2 is GF(16), 3 is GF(81), 4 the integers modulo 13; 129 to 132 are their mirrors.
 *
 * The text is, where a codeword is in reach of the word under the hints, five lines:
 *
 *   word .., message ..                  the codeword and its message
 *   full t .., row t .., column t ..     how many full errors, row hints and column hints there are, each before its part; the parts
 *                                        add up to word less codeword; with hints they are one such splitting of several
 *
 * and otherwise one: refused N layer L place P. Numbers are decimal, spaces single, every line ends in a newline. What the numbers
 * of refusals mean is in docs/refusals.md; places are offsets in the job. What hints say, and what in reach means, is in docs/recovery.md; the bytes, and what is
 * refused where, in docs/jobs.md. The text has at most 1,024 bytes.
 */
#ifndef LRS_H
#define LRS_H

#include <stddef.h>
#include <stdint.h>

#ifdef __cplusplus
extern "C" {
#endif

/* How much room the buffer needs. */
#define LRS_ROOM 1024

/* Runs a job of job_size bytes and writes its text at the front of the buffer, without a zero behind it. Answers how long the text is. A
 * buffer below LRS_ROOM bytes is not written, and the answer is 0. Bytes behind the text keep their values. The two must not overlap; a
 * size of 0 goes with any pointer that is not null. Nothing is allocated, and no state is kept between calls. */
size_t lrs_job(const uint8_t *job, size_t job_size, uint8_t *buffer, size_t buffer_size);

#ifdef __cplusplus
}
#endif

#endif
