/* Loops over the C library for benchmarks, which call it like a program in C. Each is an exported function, so that callgrind reports it by name. The
 * text must be UTF-8 of at most UINT32_MAX bytes. The result of a loop is a checksum of what it read. */
#include "wat.h"

enum { ROOM = 1024, BYTES = 1 << 24 };

/* The weight of each kind of token in the checksum, by the kind's code. The loops in Rust and Rattle have the same weights. */
static const uint64_t weights[17] = {0, 1, 2, 3, 5, 7, 11, 13, 17, 19, 23, 29, 31, 31, 31, 31, 5};

static uint64_t weight(struct wat_kind kind) {
    return weights[kind.code <= WAT_OPENS_AT ? kind.code : 0];
}

uint64_t library_fill(const uint8_t *text, size_t len) {
    static struct wat_token tokens[ROOM];
    struct wat_filled filled = {0, 0, WAT_FULL};
    uint64_t sum = 0;
    size_t i;
    while (filled.why == WAT_FULL) {
        filled = wat_fill(text, len, filled.at, false, false, tokens, ROOM);
        for (i = 0; i < filled.count; i++) {
            sum += weight(tokens[i].kind);
        }
    }
    return sum;
}

uint64_t library_token_at(const uint8_t *text, size_t len) {
    uint64_t sum = 0;
    struct wat_token token = wat_token_at(text, len, 0, false, false);
    while (token.len > 0) {
        sum += weight(token.kind);
        token = wat_token_at(text, len, token.offset + token.len, false, false);
    }
    return sum;
}

uint64_t library_token_at_inline(const uint8_t *text, size_t len) {
    uint64_t sum = 0;
    struct wat_token token = wat_token_at_inline(text, len, 0, false, false);
    while (token.len > 0) {
        sum += weight(token.kind);
        token = wat_token_at_inline(text, len, token.offset + token.len, false, false);
    }
    return sum;
}

uint64_t library_scan(const uint8_t *text, size_t len) {
    uint64_t sum = 0;
    struct wat_found found = wat_scan(text, len, 0, false, false);
    while (found.token.len > 0) {
        sum += weight(found.token.kind);
        found = wat_scan(text, len, found.token.offset + found.token.len, false, false);
    }
    return sum;
}

uint64_t library_rows(const uint8_t *text, size_t len) {
    static struct wat_row rows[ROOM];
    struct wat_filled filled = {0, 0, WAT_FULL};
    uint64_t sum = 0;
    size_t i;
    while (filled.why == WAT_FULL) {
        filled = wat_rows(text, len, filled.at, false, false, rows, ROOM);
        for (i = 0; i < filled.count; i++) {
            sum += weight(rows[i].kind);
        }
    }
    return sum;
}

static uint64_t ends(const uint8_t *bytes, size_t len) {
    return len == 0 ? 0 : len + bytes[0] + bytes[len - 1];
}

/* Returns the checksum of the value that a reader wrote, or 0 if it wrote none, e.g. since the value is longer than BYTES. */
static uint64_t written(struct wat_answer answer, const uint8_t *out) {
    return answer.status == WAT_GIVEN && answer.needed <= BYTES ? ends(out, answer.needed) : 0;
}

static uint64_t part(const uint8_t *text, size_t len, const struct wat_row *row, uint32_t number, uint8_t *out) {
    struct wat_answer answer = wat_float_of(text, len, row, number, out, BYTES);
    return answer.status == WAT_ABSENT ? 1 : written(answer, out);
}

static uint64_t parts(const uint8_t *text, size_t len, const struct wat_row *row, uint8_t *out) {
    switch (row->kind.code) {
    case WAT_INF:
        return 2;
    case WAT_NAN:
    case WAT_NAN_PAYLOAD:
        return part(text, len, row, WAT_PAYLOAD, out);
    default:
        return part(text, len, row, WAT_INTEGRAL, out) + part(text, len, row, WAT_FRACTIONAL, out) + part(text, len, row, WAT_EXPONENT, out);
    }
}

/* Returns the checksum of the value of a row's token: of its length and of its first and last byte. */
static uint64_t value(const uint8_t *text, size_t len, const struct wat_row *row, uint8_t *out) {
    struct wat_range word;
    switch (row->kind.code) {
    case WAT_STRING:
    case WAT_ID:
    case WAT_ANNOTATION:
        word = wat_word(text, len, row);
        if (word.status == WAT_GIVEN) {
            return ends(text + word.start, word.len);
        }
        return written(row->kind.code == WAT_STRING ? wat_string_of(text, len, row, out, BYTES) : wat_name_of(text, len, row, out, BYTES), out);
    case WAT_KEYWORD:
    case WAT_RESERVED:
        return ends(text + row->offset, row->len);
    case WAT_INTEGER:
        return written(wat_digits_of(text, len, row, out, BYTES), out);
    case WAT_INF:
    case WAT_NAN:
    case WAT_NAN_PAYLOAD:
    case WAT_FLOAT:
        return parts(text, len, row, out);
    default:
        return 0;
    }
}

uint64_t library_values(const uint8_t *text, size_t len) {
    static struct wat_row rows[ROOM];
    static uint8_t out[BYTES];
    struct wat_filled filled = {0, 0, WAT_FULL};
    uint64_t sum = 0;
    size_t i;
    while (filled.why == WAT_FULL) {
        filled = wat_rows(text, len, filled.at, false, false, rows, ROOM);
        for (i = 0; i < filled.count; i++) {
            sum += value(text, len, &rows[i], out);
        }
    }
    return sum;
}

/* Returns the checksum of a part from its range, like `part`: without underscores, and after a `-` if `minus`. */
static uint64_t ranged(const uint8_t *text, struct wat_span span, bool minus, bool has_underscores) {
    size_t len = span.len + (minus ? 1 : 0), i;
    if (span.len == 0) {
        return 1;
    }
    for (i = 0; has_underscores && i < span.len; i++) {
        len -= text[span.start + i] == '_' ? 1 : 0;
    }
    return len + (minus ? '-' : text[span.start]) + text[span.start + span.len - 1];
}

/* Returns the checksum of a floating-point number's parts, like `parts`, by one call. */
static uint64_t ranges(const uint8_t *text, size_t len, const struct wat_row *row) {
    const bool underscores = row->kind.has_underscores;
    const struct wat_parts found = wat_float_parts(text, len, row);
    switch (row->kind.code) {
    case WAT_INF:
        return 2;
    case WAT_NAN:
    case WAT_NAN_PAYLOAD:
        return ranged(text, found.payload, false, underscores);
    default:
        return ranged(text, found.integral, found.negative, underscores) + ranged(text, found.fractional, false, underscores) +
               ranged(text, found.exponent, false, underscores);
    }
}

/* Returns the checksum of the values of a text, like `library_values`, with the parts of floating-point numbers by `wat_float_parts`. */
uint64_t library_parts(const uint8_t *text, size_t len) {
    static struct wat_row rows[ROOM];
    static uint8_t out[BYTES];
    struct wat_filled filled = {0, 0, WAT_FULL};
    uint64_t sum = 0;
    size_t i;
    while (filled.why == WAT_FULL) {
        filled = wat_rows(text, len, filled.at, false, false, rows, ROOM);
        for (i = 0; i < filled.count; i++) {
            const uint8_t code = rows[i].kind.code;
            sum += code >= WAT_INF && code <= WAT_FLOAT ? ranges(text, len, &rows[i]) : value(text, len, &rows[i], out);
        }
    }
    return sum;
}

static uint64_t part_at(const uint8_t *text, size_t len, size_t pos, uint32_t number, uint8_t *out) {
    struct wat_answer answer = wat_float(text, len, pos, false, false, number, out, BYTES);
    return answer.status == WAT_ABSENT ? 1 : written(answer, out);
}

/* Returns the checksum of a token's value, like `value`, with the readers at an offset, which lex the token again. */
static uint64_t value_at(const uint8_t *text, size_t len, struct wat_token token, uint8_t *out) {
    const size_t pos = token.offset;
    switch (token.kind.code) {
    case WAT_STRING:
        return written(wat_string(text, len, pos, false, false, out, BYTES), out);
    case WAT_ID:
    case WAT_ANNOTATION:
        return written(wat_name(text, len, pos, false, false, out, BYTES), out);
    case WAT_KEYWORD:
    case WAT_RESERVED:
        return ends(text + pos, token.len);
    case WAT_INTEGER:
        return written(wat_integer(text, len, pos, false, false, out, BYTES), out);
    case WAT_INF:
        return 2;
    case WAT_NAN:
    case WAT_NAN_PAYLOAD:
        return part_at(text, len, pos, WAT_PAYLOAD, out);
    case WAT_FLOAT:
        return part_at(text, len, pos, WAT_INTEGRAL, out) + part_at(text, len, pos, WAT_FRACTIONAL, out) + part_at(text, len, pos, WAT_EXPONENT, out);
    default:
        return 0;
    }
}

uint64_t library_values_at(const uint8_t *text, size_t len) {
    static uint8_t out[BYTES];
    uint64_t sum = 0;
    struct wat_token token = wat_token_at_inline(text, len, 0, false, false);
    while (token.len > 0) {
        sum += value_at(text, len, token, out);
        token = wat_token_at_inline(text, len, token.offset + token.len, false, false);
    }
    return sum;
}

uint64_t library_comments(const uint8_t *text, size_t len) {
    uint64_t sum = 0;
    size_t at = 0;
    while (at < len) {
        struct wat_range comment = wat_comment(text, len, at, false, false);
        if (comment.status == WAT_GIVEN) {
            sum += ends(text + comment.start, comment.len);
            at = (size_t)comment.start + comment.len;
        } else {
            struct wat_token token = wat_token_at(text, len, at, false, false);
            if (token.len == 0) {
                return sum;
            }
            at += token.len;
        }
    }
    return sum;
}

/* Returns the sum of the values of the integers that fit in 32 unsigned bits. */
uint64_t library_u32s(const uint8_t *text, size_t len) {
    static struct wat_row rows[ROOM];
    struct wat_filled filled = {0, 0, WAT_FULL};
    uint64_t sum = 0;
    size_t i;
    while (filled.why == WAT_FULL) {
        filled = wat_rows(text, len, filled.at, false, false, rows, ROOM);
        for (i = 0; i < filled.count; i++) {
            sum += wat_integer_of(text, len, &rows[i], 32, false).value;
        }
    }
    return sum;
}

/* Returns the sum of the bits of the numbers. */
uint64_t library_f64s(const uint8_t *text, size_t len) {
    static struct wat_row rows[ROOM];
    struct wat_filled filled = {0, 0, WAT_FULL};
    uint64_t sum = 0;
    size_t i;
    while (filled.why == WAT_FULL) {
        filled = wat_rows(text, len, filled.at, false, false, rows, ROOM);
        for (i = 0; i < filled.count; i++) {
            sum += wat_f64_of(text, len, &rows[i]).bits;
        }
    }
    return sum;
}

uint64_t library_is_text(const uint8_t *text, size_t len) {
    return wat_is_text(text, len) ? 1 : 0;
}

uint64_t library_linecol(const uint8_t *text, size_t len) {
    struct wat_position position = wat_line_column(text, len, len - 1);
    return position.line + position.column;
}

/* Returns the length in bytes of the printed lexical error at the last byte. */
uint64_t library_error(const uint8_t *text, size_t len) {
    static uint8_t out[BYTES];
    return wat_fault(text, len, len - 1, false, false, out, BYTES).needed;
}
