/* The mirrors of the four shipped kinds. */
#ifndef MIRRORS_H
#define MIRRORS_H
#include "kinds.h"

/* The mirror of a kind: its twist and untwist change places. */
#define MIRROR(kind, mirror)                                                                \
    enum { mirror##_size = kind##_size, mirror##_width = kind##_width };                     \
    static inline uint8_t mirror##_sum(uint8_t a, uint8_t b) { return kind##_sum(a, b); }    \
    static inline uint8_t mirror##_opposite(uint8_t a) { return kind##_opposite(a); }        \
    static inline uint8_t mirror##_product(uint8_t a, uint8_t b) { return kind##_product(a, b); } \
    static inline uint8_t mirror##_inverse(uint8_t a) { return kind##_inverse(a); }          \
    static inline uint8_t mirror##_twist(uint8_t a) { return kind##_untwist(a); }            \
    static inline uint8_t mirror##_untwist(uint8_t a) { return kind##_twist(a); }            \
    static inline void mirror##_digits(uint8_t a, uint8_t *row) { kind##_digits(a, row); }

MIRROR(gf256, mirror256)
MIRROR(gf16, mirror16)
MIRROR(gf81, mirror81)
MIRROR(mod13, mirror13)
#define mirror256_basis gf256_basis
#define mirror16_basis gf16_basis
#define mirror81_basis gf81_basis
#define mirror13_basis mod13_basis

#endif
