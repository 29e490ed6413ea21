#include "baseline.h"
#include "mirrors.h"
#include <string.h>

struct polynomial {
    uint8_t cells[MOST_COEFFICIENTS + 1];
    size_t len;
};

struct pair {
    struct polynomial q0, q1;
};

struct site {
    uint8_t parameter, locator, second;
};

struct parts {
    uint8_t full[MOST_SYMBOLS], row[MOST_SYMBOLS], column[MOST_SYMBOLS];
};

struct recovery {
    uint8_t codeword[MOST_SYMBOLS], message[MOST_COEFFICIENTS];
    struct parts parts;
    size_t errors;
};

#define OF(name) gf256_##name
#include "decoder.inc"
#undef OF

#define OF(name) gf16_##name
#include "decoder.inc"
#undef OF

#define OF(name) gf81_##name
#include "decoder.inc"
#undef OF

#define OF(name) mod13_##name
#include "decoder.inc"
#undef OF

#define OF(name) over16_##name
#include "decoder.inc"
#undef OF

#define OF(name) mirror256_##name
#include "decoder.inc"
#undef OF

#define OF(name) mirror16_##name
#include "decoder.inc"
#undef OF

#define OF(name) mirror81_##name
#include "decoder.inc"
#undef OF

#define OF(name) mirror13_##name
#include "decoder.inc"
#undef OF

const struct field *plain_field(uint8_t kind) {
    switch (kind) {
    case 1: return &gf256_field;
    case 2: return &gf16_field;
    case 3: return &gf81_field;
    case 4: return &mod13_field;
    case 200: return &over16_field;
    case 129: return &mirror256_field;
    case 130: return &mirror16_field;
    case 131: return &mirror81_field;
    case 132: return &mirror13_field;
    default: return NULL;
    }
}

/* Reads a sheet, and answers where it ends. */
static const uint8_t *read_sheet(const uint8_t *s, struct code *code) {
    memset(code, 0, sizeof *code);
    code->kind = *s++;
    code->k = *s++;
    code->blocks = *s++;
    memcpy(code->lengths, s, code->blocks);
    s += code->blocks + 1;
    memcpy(code->parameters, s, code->blocks);
    s += code->blocks;
    code->n = *s++;
    memcpy(code->locators, s, code->n);
    return s + code->n;
}

size_t plain_time_recover(const uint8_t *setting, size_t setting_len, const uint8_t *words, size_t words_len, uint8_t *out,
                          size_t out_len) {
    struct code code;
    const uint8_t *told = read_sheet(setting + 1, &code);
    size_t len = words_len < out_len ? words_len : out_len;
    (void)setting_len;
    switch (code.kind) {
    case 1: return gf256_recover_all(&code, told, words, out, len);
    case 2: return gf16_recover_all(&code, told, words, out, len);
    case 3: return gf81_recover_all(&code, told, words, out, len);
    case 4: return mod13_recover_all(&code, told, words, out, len);
    case 200: return over16_recover_all(&code, told, words, out, len);
    case 129: return mirror256_recover_all(&code, told, words, out, len);
    case 130: return mirror16_recover_all(&code, told, words, out, len);
    case 131: return mirror81_recover_all(&code, told, words, out, len);
    case 132: return mirror13_recover_all(&code, told, words, out, len);
    default: return 0;
    }
}

/* Text. */

static uint8_t *put_text(uint8_t *out, const char *s) {
    while (*s != 0) *out++ = (uint8_t)*s++;
    return out;
}

static uint8_t *put_number(uint8_t *out, size_t x) {
    if (x >= 10) out = put_number(out, x / 10);
    *out++ = (uint8_t)('0' + x % 10);
    return out;
}

static uint8_t *put_symbols(uint8_t *out, const uint8_t *symbols, size_t n) {
    for (size_t i = 0; i < n; i++) {
        *out++ = ' ';
        out = put_number(out, symbols[i]);
    }
    *out++ = '\n';
    return out;
}

static uint8_t *put_part(uint8_t *out, const char *name, size_t count, const uint8_t *symbols, size_t n) {
    return put_symbols(put_number(put_text(out, name), count), symbols, n);
}

size_t plain_job(const uint8_t *job, size_t job_len, uint8_t *text) {
    struct code code;
    struct hints hints;
    struct recovery r;
    const uint8_t *rest = read_sheet(job, &code);
    uint8_t *out = text;
    if (!plain_field(code.kind)->run(&code, rest, &hints, &r)) {
        out = put_number(put_text(out, "refused 14 layer 3 place "), job_len);
        return (size_t)(put_text(out, "\n") - text);
    }
    out = put_symbols(put_text(out, "word"), r.codeword, code.n);
    out = put_symbols(put_text(out, "message"), r.message, code.k);
    out = put_part(out, "full ", r.errors, r.parts.full, code.n);
    out = put_part(out, "row ", hints.row_count, r.parts.row, code.n);
    out = put_part(out, "column ", hints.column_count, r.parts.column, code.n);
    return (size_t)(out - text);
}
