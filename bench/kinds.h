/* The five kinds of field, each by the same means as in the codec: the same tables, or the same loops of shifts. What is no code is never
   passed: words are made of codes. */
#ifndef KINDS_H
#define KINDS_H
#include "tables.h"
#include <stdint.h>

/* Kind 1: bit polynomials modulo z^8 + z^4 + z^3 + z^2 + 1. */

enum { gf256_size = 256, gf256_width = 4 };
static const uint8_t gf256_basis[8] = {1, 2, 4, 8};
static const uint8_t FOURTH[8] = {1, 16, 29, 205, 76, 180, 143, 24};
static const uint8_t SIXTY_FOURTH[8] = {1, 95, 133, 130, 2, 190, 23, 25};
static const uint8_t DIGITS256[4][8] = {
    {1, 0, 0, 0, 214, 214, 1, 1},
    {0, 1, 0, 0, 214, 0, 215, 0},
    {0, 0, 1, 0, 214, 0, 1, 214},
    {0, 0, 0, 1, 1, 215, 215, 214},
};

static inline uint8_t chosen(uint8_t x, uint8_t choice) { return x & (uint8_t)-(choice & 1); }

static inline uint8_t gf256_sum(uint8_t a, uint8_t b) { return a ^ b; }
static inline uint8_t gf256_opposite(uint8_t a) { return a; }

static inline uint8_t gf256_product(uint8_t a, uint8_t b) {
    uint8_t sum = 0;
    for (int i = 0; i < 8; i++) {
        sum ^= chosen(a, b);
        a = (uint8_t)(a << 1) ^ chosen(0x1d, a >> 7);
        b >>= 1;
    }
    return sum;
}

static inline uint8_t mapped(const uint8_t *images, uint8_t a) {
    uint8_t sum = 0;
    for (int i = 0; i < 8; i++) {
        sum ^= chosen(images[i], a);
        a >>= 1;
    }
    return sum;
}

/* The power 254. */
static inline uint8_t gf256_inverse(uint8_t a) {
    uint8_t x = a, all = 1;
    for (int i = 0; i < 7; i++) {
        x = gf256_product(x, x);
        all = gf256_product(all, x);
    }
    return all;
}

static inline uint8_t gf256_twist(uint8_t a) { return mapped(FOURTH, a); }
static inline uint8_t gf256_untwist(uint8_t a) { return mapped(SIXTY_FOURTH, a); }

static inline void gf256_digits(uint8_t a, uint8_t *row) {
    for (int j = 0; j < 4; j++) row[j] = mapped(DIGITS256[j], a);
}

/* Kind 2: bit polynomials modulo z^4 + z + 1. */

enum { gf16_size = 16, gf16_width = 2 };
static const uint8_t gf16_basis[8] = {1, 2};
static const uint8_t POWERS16[16] = {1, 2, 4, 8, 3, 6, 12, 11, 5, 10, 7, 14, 15, 13, 9, 1};
static const uint8_t LOGS16[16] = {0, 0, 1, 4, 2, 8, 5, 10, 3, 14, 9, 7, 6, 13, 11, 12};
static const uint8_t DIGITS16[2][16] = {
    {0, 1, 0, 1, 6, 7, 6, 7, 6, 7, 6, 7, 0, 1, 0, 1},
    {0, 0, 1, 1, 1, 1, 0, 0, 7, 7, 6, 6, 6, 6, 7, 7},
};

static inline uint8_t gf16_sum(uint8_t a, uint8_t b) { return a ^ b; }
static inline uint8_t gf16_opposite(uint8_t a) { return a; }

static inline uint8_t gf16_product(uint8_t a, uint8_t b) {
    if (a == 0 || b == 0) return 0;
    return POWERS16[(LOGS16[a] + LOGS16[b]) % 15u];
}

static inline uint8_t gf16_inverse(uint8_t a) { return POWERS16[(15u - LOGS16[a]) % 15u]; }

/* The fourth power. */
static inline uint8_t gf16_twist(uint8_t a) {
    uint8_t square = gf16_product(a, a);
    return gf16_product(square, square);
}

static inline uint8_t gf16_untwist(uint8_t a) { return gf16_twist(a); }

static inline void gf16_digits(uint8_t a, uint8_t *row) {
    row[0] = DIGITS16[0][a];
    row[1] = DIGITS16[1][a];
}

/* Kind 3: polynomials over the integers modulo 3, modulo z^4 + z + 2. */

enum { gf81_size = 81, gf81_width = 4 };
static const uint8_t gf81_basis[8] = {1, 3, 9, 27};

struct trits {
    uint8_t c0, c1, c2, c3;
};

static inline struct trits trits_of(uint8_t a) {
    uint8_t b = a / 3, c = b / 3, d = c / 3;
    return (struct trits){a % 3, b % 3, c % 3, d % 3};
}

static inline uint8_t joined(struct trits f) { return ((f.c3 * 3 + f.c2) * 3 + f.c1) * 3 + f.c0; }

static inline struct trits trits_sum(struct trits f, struct trits g) {
    return (struct trits){(f.c0 + g.c0) % 3, (f.c1 + g.c1) % 3, (f.c2 + g.c2) % 3, (f.c3 + g.c3) % 3};
}

static inline struct trits trits_scale(uint8_t c, struct trits f) {
    return (struct trits){c * f.c0 % 3, c * f.c1 % 3, c * f.c2 % 3, c * f.c3 % 3};
}

/* z^4 is 2 z + 1. */
static inline struct trits trits_product(struct trits f, struct trits g) {
    unsigned z4 = f.c1 * g.c3 + f.c2 * g.c2 + f.c3 * g.c1, z5 = f.c2 * g.c3 + f.c3 * g.c2, z6 = f.c3 * g.c3;
    return (struct trits){(f.c0 * g.c0 + z4) % 3, (f.c0 * g.c1 + f.c1 * g.c0 + 2 * z4 + z5) % 3,
                          (f.c0 * g.c2 + f.c1 * g.c1 + f.c2 * g.c0 + 2 * z5 + z6) % 3,
                          (f.c0 * g.c3 + f.c1 * g.c2 + f.c2 * g.c1 + f.c3 * g.c0 + 2 * z6) % 3};
}

static inline uint8_t gf81_sum(uint8_t a, uint8_t b) { return joined(trits_sum(trits_of(a), trits_of(b))); }
static inline uint8_t gf81_opposite(uint8_t a) { return joined(trits_scale(2, trits_of(a))); }
static inline uint8_t gf81_product(uint8_t a, uint8_t b) { return joined(trits_product(trits_of(a), trits_of(b))); }
static inline uint8_t gf81_twist(uint8_t a) { return CUBES[a]; }
static inline uint8_t gf81_untwist(uint8_t a) { return CUBE_ROOTS[a]; }

/* The power 79. */
static inline uint8_t gf81_inverse(uint8_t a) {
    uint8_t x = a, all = a;
    for (int i = 0; i < 3; i++) {
        x = gf81_twist(x);
        all = gf81_product(gf81_product(all, x), x);
    }
    return all;
}

static inline void gf81_digits(uint8_t a, uint8_t *row) {
    struct trits f = trits_of(a);
    row[0] = f.c0;
    row[1] = f.c1;
    row[2] = f.c2;
    row[3] = f.c3;
}

/* Kind 4: the integers modulo 13. */

enum { mod13_size = 13, mod13_width = 1 };
static const uint8_t mod13_basis[8] = {1};
static const uint8_t INVERSES13[13] = {0, 1, 7, 9, 10, 8, 11, 2, 5, 3, 4, 6, 12};

static inline uint8_t mod13_sum(uint8_t a, uint8_t b) { return (a + b) % 13u; }
static inline uint8_t mod13_opposite(uint8_t a) { return (13u - a) % 13u; }
static inline uint8_t mod13_product(uint8_t a, uint8_t b) { return a * b % 13u; }
static inline uint8_t mod13_inverse(uint8_t a) { return INVERSES13[a]; }
static inline uint8_t mod13_twist(uint8_t a) { return a; }
static inline uint8_t mod13_untwist(uint8_t a) { return a; }
static inline void mod13_digits(uint8_t a, uint8_t *row) { row[0] = a; }

/* Kind 200, the brought one: GF(256) over GF(16). */

enum { over16_size = 256, over16_width = 2 };
static const uint8_t over16_basis[8] = {1, 2};

static inline uint8_t over16_sum(uint8_t a, uint8_t b) { return a ^ b; }
static inline uint8_t over16_opposite(uint8_t a) { return a; }

static inline uint8_t over16_product(uint8_t a, uint8_t b) {
    if (a == 0 || b == 0) return 0;
    return POWERS256[LOGS256[a] + LOGS256[b]];
}

static inline uint8_t over16_inverse(uint8_t a) { return POWERS256[255 - LOGS256[a]]; }

/* The 16th power. */
static inline uint8_t over16_twist(uint8_t a) {
    if (a == 0) return 0;
    return POWERS256[16u * LOGS256[a] % 255u];
}

static inline uint8_t over16_untwist(uint8_t a) { return over16_twist(a); }

static inline void over16_digits(uint8_t a, uint8_t *row) {
    uint8_t x = over16_product(139, a), y = over16_product(69, a);
    row[0] = x ^ over16_twist(x);
    row[1] = y ^ over16_twist(y);
}

#endif
