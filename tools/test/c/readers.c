/* Calls each function of wat.h at each token of texts and of mutated texts, with buffers of capacity 0, of one byte too few and of the length needed,
 * and checks that the results agree with each other. Run it under the address and undefined-behavior sanitizers.
 *
 * usage: readers MUTANTS FILE.. */
#include "wat.h"

#include <errno.h>
#include <stdio.h>
#include <stdlib.h>
#include <string.h>

/* UNTOUCHED is the value of each byte of a buffer before a call. It must also be valid as a `bool`. */
enum { CAPACITY = 7, READERS = 9, UNTOUCHED = 1 };

#define PROGRAM "readers"
#include "testing.h"

static unsigned long long texts, tokens_seen, faults_seen, values_seen, wrong;

static void expect(bool holds, const char *what, size_t pos) {
    if (!holds) {
        fprintf(stderr, "readers: %s at %zu\n", what, pos);
        wrong++;
    }
}

/* A text, and the settings for lexing it. */
struct setting {
    const uint8_t *text;
    size_t len;
    bool allow, strict;
};

static struct wat_answer read_by(unsigned reader, struct setting s, size_t pos, uint8_t *out, size_t capacity) {
    switch (reader) {
    case 0:
        return wat_fault(s.text, s.len, pos, s.allow, s.strict, out, capacity);
    case 1:
        return wat_string(s.text, s.len, pos, s.allow, s.strict, out, capacity);
    case 2:
        return wat_name(s.text, s.len, pos, s.allow, s.strict, out, capacity);
    case 3:
        return wat_name_fault(s.text, s.len, pos, s.allow, s.strict, out, capacity);
    case 4:
        return wat_integer(s.text, s.len, pos, s.allow, s.strict, out, capacity);
    default:
        return wat_float(s.text, s.len, pos, s.allow, s.strict, reader - 5, out, capacity);
    }
}

/* Returns the row of a significant token. */
static struct wat_row row_of(struct setting s, struct wat_token token) {
    struct wat_row row = {0, 0, {0, 0, false, false}, 0};
    row.offset = (uint32_t)token.offset;
    row.len = token.len;
    row.kind = token.kind;
    if (token.kind.code == WAT_LPAREN && token.offset + 1 < s.len && s.text[token.offset + 1] == '@') {
        row.kind.code = WAT_OPENS_AT;
    }
    return row;
}

/* Calls the reader by row with the same index as a reader by offset. There is none for 0 and 3, the printed error and the error of a name. */
static struct wat_answer read_row(unsigned reader, struct setting s, const struct wat_row *row, uint8_t *out, size_t capacity) {
    switch (reader) {
    case 1:
        return wat_string_of(s.text, s.len, row, out, capacity);
    case 2:
        return wat_name_of(s.text, s.len, row, out, capacity);
    case 4:
        return wat_digits_of(s.text, s.len, row, out, capacity);
    default:
        return wat_float_of(s.text, s.len, row, reader - 5, out, capacity);
    }
}

/* Checks that a reader returns the same result for a row as at its offset. */
static void compare_readers(unsigned reader, struct setting s, const struct wat_row *row) {
    uint8_t none = 0;
    struct wat_answer first = read_by(reader, s, row->offset, &none, 0);
    uint8_t *at_place = block_of(first.needed), *by_row = block_of(first.needed);
    struct wat_answer given = read_row(reader, s, row, by_row, first.needed);
    read_by(reader, s, row->offset, at_place, first.needed);
    expect(given.needed == first.needed && given.status == first.status, "a reader answers otherwise by row", row->offset);
    expect(memcmp(at_place, by_row, first.needed) == 0, "a reader gives other bytes by row", row->offset);
    free(at_place);
    free(by_row);
}

/* Checks that the bytes at the offset of a value are those that the readers write, if the value has no escape. */
static void compare_word(struct setting s, const struct wat_row *row) {
    unsigned reader = row->kind.code == WAT_STRING ? 1 : 2;
    struct wat_range word = wat_word(s.text, s.len, row);
    uint8_t *value = block_of(row->len);
    struct wat_answer given = read_row(reader, s, row, value, row->len);
    switch (word.status) {
    case WAT_GIVEN:
        expect(word.start > row->offset && word.len < row->len, "a word is outside of its token", row->offset);
        expect(given.status == WAT_GIVEN && given.needed == word.len, "a word has another length", row->offset);
        expect(memcmp(value, s.text + word.start, word.len) == 0, "a word is no value", row->offset);
        break;
    case WAT_ESCAPED:
        expect(memchr(s.text + row->offset, '\\', row->len) != NULL, "no escape is in a word", row->offset);
        break;
    default:
        expect(given.status == word.status, "a word has another fault", row->offset);
    }
    expect(word.status == WAT_GIVEN || (word.start == 0 && word.len == 0), "a place without a word", row->offset);
    free(value);
}

/* Checks the values of an integer against its digits, with the arithmetic of C. */
static void compare_integer(struct setting s, const struct wat_row *row) {
    static const uint32_t widths[] = {8, 16, 32, 64, 0, 7, 65};
    char digits[80] = "";
    struct wat_answer given = wat_digits_of(s.text, s.len, row, (uint8_t *)digits, sizeof digits - 1);
    bool minus = row->kind.sign == WAT_MINUS, small;
    unsigned long long most;
    unsigned turn;
    if (given.status != WAT_GIVEN || given.needed >= sizeof digits) {
        return;
    }
    errno = 0;
    most = strtoull(digits + (minus ? 1 : 0), NULL, row->kind.hex ? 16 : 10);
    small = errno == 0;
    for (turn = 0; turn < 2 * sizeof widths / sizeof *widths; turn++) {
        uint32_t bits = widths[turn / 2];
        bool is_signed = turn % 2 == 1, known = bits == 8 || bits == 16 || bits == 32 || bits == 64;
        uint64_t all = known ? UINT64_MAX >> (64 - bits) : 0;
        struct wat_number number = wat_integer_of(s.text, s.len, row, bits, is_signed);
        bool fits = known && small && (minus ? is_signed && most <= all / 2 + 1 : most <= all);
        expect(number.status == (fits ? WAT_GIVEN : WAT_OUT_OF_RANGE), "a range is another", row->offset);
        expect(number.value == (!fits ? 0 : minus ? (0 - (uint64_t)most) & all : (uint64_t)most), "an integer is another", row->offset);
    }
}

/* Checks that the range of a number's part has the bytes that the reader of this part writes, in addition to underscores and a `-`. */
static void compare_part(struct setting s, const struct wat_row *row, uint32_t part, struct wat_span span, bool minus) {
    uint8_t *wanted = block_of(row->len);
    struct wat_answer given = wat_float_of(s.text, s.len, row, part, wanted, row->len);
    size_t at = 0, i;
    expect((given.status == WAT_ABSENT) == (span.len == 0), "a part is there or not", row->offset);
    expect(span.len == 0 ? span.start == 0 : span.start >= row->offset && span.start + span.len <= row->offset + row->len, "a part is outside", row->offset);
    if (minus && given.status == WAT_GIVEN) {
        expect(given.needed > 0 && wanted[at++] == '-', "a part has no sign", row->offset);
    }
    for (i = 0; i < span.len; i++) {
        uint8_t byte = s.text[span.start + i];
        expect(byte == '_' || (at < given.needed && wanted[at++] == byte), "a part is another", row->offset);
    }
    expect(given.status != WAT_GIVEN || at == given.needed, "a part is shorter", row->offset);
    free(wanted);
}

/* Checks the ranges of a number's parts. */
static void compare_parts(struct setting s, const struct wat_row *row) {
    struct wat_parts parts = wat_float_parts(s.text, s.len, row);
    bool is_float = row->kind.code >= WAT_INF && row->kind.code <= WAT_FLOAT;
    expect(parts.status == (is_float ? (uint32_t)WAT_GIVEN : WAT_OTHER), "another token has parts", row->offset);
    expect(parts.negative == (is_float && s.text[row->offset] == '-'), "a number has another sign", row->offset);
    if (is_float) {
        compare_part(s, row, WAT_INTEGRAL, parts.integral, parts.negative);
        compare_part(s, row, WAT_FRACTIONAL, parts.fractional, false);
        compare_part(s, row, WAT_EXPONENT, parts.exponent, false);
        compare_part(s, row, WAT_PAYLOAD, parts.payload, false);
    }
}

/* Checks the bits of a number with those at its offset and, if it is decimal and its value is finite, with those of `strtof` and `strtod`. */
static void compare_bits(struct setting s, const struct wat_row *row) {
    struct wat_bits32 single = wat_f32_of(s.text, s.len, row), there = wat_f32(s.text, s.len, row->offset, s.allow, s.strict);
    struct wat_bits64 twice = wat_f64_of(s.text, s.len, row), here = wat_f64(s.text, s.len, row->offset, s.allow, s.strict);
    uint8_t code = row->kind.code;
    char digits[80];
    size_t count = 0, i;
    float f;
    double d;
    expect(single.bits == there.bits && single.status == there.status, "the bits of a float are others by row", row->offset);
    expect(twice.bits == here.bits && twice.status == here.status, "the bits of a double are others by row", row->offset);
    expect((single.status == WAT_OTHER) == (code < WAT_INTEGER || code > WAT_FLOAT), "another token has bits", row->offset);
    expect((twice.status == WAT_OTHER) == (single.status == WAT_OTHER), "another token has bits", row->offset);
    if ((code != WAT_INTEGER && code != WAT_FLOAT) || row->kind.hex || row->len >= sizeof digits) {
        return;
    }
    for (i = 0; i < row->len; i++) {
        if (s.text[row->offset + i] != '_') {
            digits[count++] = (char)s.text[row->offset + i];
        }
    }
    digits[count] = '\0';
    f = strtof(digits, NULL);
    d = strtod(digits, NULL);
    expect(single.status == WAT_OUT_OF_RANGE || memcmp(&f, &single.bits, sizeof f) == 0, "strtof returns another float", row->offset);
    expect(twice.status == WAT_OUT_OF_RANGE || memcmp(&d, &twice.bits, sizeof d) == 0, "strtod returns another double", row->offset);
}

/* Calls every function whose input is a single row. */
static void look_by_row(struct setting s, struct wat_found found) {
    struct wat_row row = row_of(s, found.token);
    uint8_t code = found.token.kind.code, none = 0;
    unsigned reader;
    for (reader = 1; reader < READERS; reader++) {
        if (reader != 3) {
            compare_readers(reader, s, &row);
        }
    }
    compare_parts(s, &row);
    compare_bits(s, &row);
    if (code == WAT_STRING || code == WAT_ID || code == WAT_ANNOTATION) {
        compare_word(s, &row);
    } else {
        expect(wat_word(s.text, s.len, &row).status == WAT_OTHER, "a token without a value has one", row.offset);
    }
    if (code == WAT_INTEGER) {
        compare_integer(s, &row);
    } else {
        expect(wat_integer_of(s.text, s.len, &row, 32, true).status == WAT_OTHER, "another token is an integer", row.offset);
        expect(wat_digits_of(s.text, s.len, &row, &none, 0).status == WAT_OTHER, "another token has digits", row.offset);
    }
}

/* Checks that the comment at an offset is the token there, or the one after whitespace. */
static void look_for_comment(struct setting s, size_t pos, struct wat_found found) {
    struct wat_range word = wat_comment(s.text, s.len, pos, s.allow, s.strict);
    if (found.token.kind.code == WAT_WHITESPACE) {
        found = wat_scan(s.text, s.len, pos + found.token.len, s.allow, s.strict);
    }
    if (found.token.kind.code == WAT_LINE_COMMENT || found.token.kind.code == WAT_BLOCK_COMMENT) {
        expect(word.status == WAT_GIVEN && word.start == found.token.offset && word.len == found.token.len, "a comment is another", pos);
    } else {
        expect(word.status == (found.fault == WAT_NO_FAULT ? (uint32_t)WAT_ABSENT : found.fault), "a comment where none is", pos);
    }
}

/* Checks that `wat_print` with the message of a lexical error, or with its first 2 bytes, prints after it what `wat_fault` prints, and that a file
 * name replaces `<anon>`. `whole` is the output of `wat_fault`. */
static void print_error(struct setting s, size_t offset, const uint8_t *message, size_t len, const uint8_t *whole, size_t whole_len) {
    static const uint8_t name[] = "a longer name", anonymous[] = "<anon>";
    size_t named_len = whole_len + sizeof name - sizeof anonymous, at = len;
    uint8_t *plain = block_of(whole_len), *named = block_of(named_len);
    struct wat_answer first = wat_print(s.text, s.len, offset, message, len, anonymous, 0, plain, whole_len);
    expect(first.status == WAT_GIVEN && first.needed == whole_len && memcmp(plain, whole, whole_len) == 0, "an error is printed otherwise", offset);
    first = wat_print(s.text, s.len, offset, message, 2, anonymous, 0, plain, whole_len - len + 2);
    expect(first.status == WAT_GIVEN && first.needed == whole_len - len + 2, "a short error has another length", offset);
    expect(memcmp(plain, whole, 2) == 0 && memcmp(plain + 2, whole + len, whole_len - len) == 0, "a short error is printed otherwise", offset);
    first = wat_print(s.text, s.len, offset, message, len, name, sizeof name - 1, named, named_len);
    expect(first.status == WAT_GIVEN && first.needed == named_len, "an error in a file has another length", offset);
    while (at < whole_len && memcmp(whole + at, anonymous, sizeof anonymous - 1) != 0) {
        at++;
    }
    expect(at < whole_len && memcmp(named, whole, at) == 0 && memcmp(named + at, name, sizeof name - 1) == 0, "a file has another name", offset);
    at += sizeof anonymous - 1;
    expect(memcmp(named + named_len - (whole_len - at), whole + at, whole_len - at) == 0, "a place is another", offset);
    free(plain);
    free(named);
}

/* Checks that a printed lexical error begins with its message. */
static void read_message(struct setting s, size_t pos, struct wat_found found) {
    uint8_t none = 0;
    struct wat_answer first = wat_message(found.fault, found.found, found.wanted, &none, 0);
    struct wat_answer shown = wat_fault(s.text, s.len, pos, s.allow, s.strict, &none, 0);
    uint8_t *message = block_of(first.needed), *whole = block_of(shown.needed);
    wat_message(found.fault, found.found, found.wanted, message, first.needed);
    wat_fault(s.text, s.len, pos, s.allow, s.strict, whole, shown.needed);
    expect(first.status == WAT_GIVEN && first.needed > 0 && first.needed < shown.needed, "a fault has no message", pos);
    expect(first.needed < shown.needed && memcmp(message, whole, first.needed) == 0, "a message is another", pos);
    print_error(s, found.token.offset, message, first.needed, whole, shown.needed);
    free(message);
    free(whole);
}

/* Returns `true` if the reader accepts what was found at an offset. Otherwise it must return WAT_OTHER. */
static bool may_read(unsigned reader, struct wat_found found) {
    uint8_t code = found.token.kind.code;
    switch (reader) {
    case 0:
        return found.fault != WAT_NO_FAULT;
    case 1:
        return code == WAT_STRING;
    case 2:
    case 3:
        return code == WAT_ID || code == WAT_ANNOTATION;
    case 4:
        return code == WAT_INTEGER;
    default:
        return code >= WAT_INF && code <= WAT_FLOAT;
    }
}

static void read_value(unsigned reader, struct setting s, size_t pos) {
    uint8_t none = 0;
    struct wat_answer first = read_by(reader, s, pos, &none, 0);
    uint8_t *exact = block_of(first.needed), *shorter;
    struct wat_answer given = read_by(reader, s, pos, exact, first.needed);
    size_t i;
    expect(given.needed == first.needed && given.status == first.status, "two answers differ", pos);
    expect(first.status == WAT_GIVEN || first.needed == 0, "a length without bytes", pos);
    expect(first.status != WAT_OTHER && first.status != WAT_NO_MEMORY, "a token is not read", pos);
    if (first.needed > 0) {
        shorter = block_of(first.needed - 1);
        given = read_by(reader, s, pos, shorter, first.needed - 1);
        expect(given.needed == first.needed && given.status == WAT_GIVEN, "a shorter buffer changes the answer", pos);
        for (i = 0; i + 1 < first.needed; i++) {
            expect(shorter[i] == UNTOUCHED, "a buffer that is too short has changed", pos);
        }
        free(shorter);
        values_seen++;
    }
    free(exact);
}

static bool are_same(struct wat_token a, struct wat_token b) {
    return a.offset == b.offset && a.len == b.len && a.kind.code == b.kind.code && a.kind.sign == b.kind.sign &&
           a.kind.has_underscores == b.kind.has_underscores && a.kind.hex == b.kind.hex;
}

/* Checks the results of wat_next without marks, and with 1 mark. */
static void step_from(struct setting s, size_t pos, struct wat_found found, size_t next) {
    uint32_t *mark = (uint32_t *)block_of(sizeof *mark), none = 0;
    struct wat_step bare = wat_next(s.text, s.len, pos, s.allow, s.strict, &none, 0), marked;
    *mark = 0;
    marked = wat_next(s.text, s.len, pos, s.allow, s.strict, mark, 1);
    expect(bare.next == next && are_same(bare.found.token, found.token) && bare.found.fault == found.fault, "a step is another", pos);
    expect(marked.next == next && are_same(marked.found.token, found.token) && marked.found.fault == found.fault, "a step is another", pos);
    expect(none == 0 && (*mark == 0 || (*mark == pos + 1 && found.fault == WAT_DANGLING_BLOCK_COMMENT)), "a mark is another", pos);
    free(mark);
}

/* Checks that lexing resumes at the end of a token, and after a lexical error at a char boundary that is not before the error. */
static void look_after(struct setting s, size_t pos, struct wat_found found) {
    size_t next = wat_resume(s.text, s.len, pos, s.allow, s.strict);
    expect(wat_is_place(s.text, s.len, next), "reading goes on at no place", pos);
    if (found.fault == WAT_NO_FAULT) {
        expect(next == pos + found.token.len, "reading goes on elsewhere than after a token", pos);
    } else {
        expect(next > pos && found.token.offset >= pos && found.token.offset <= next, "a fault is outside of what it covers", pos);
    }
    step_from(s, pos, found, next);
}

/* Calls every function whose input is an offset, and compares the results. Returns the token or the lexical error there. */
static struct wat_found look(struct setting s, size_t pos) {
    struct wat_found found = wat_scan(s.text, s.len, pos, s.allow, s.strict);
    struct wat_token token = wat_token_at(s.text, s.len, pos, s.allow, s.strict);
    struct wat_position position = wat_line_column(s.text, s.len, pos);
    unsigned reader;
    expect(wat_is_place(s.text, s.len, pos), "a token does not end at a place", pos);
    expect(are_same(found.token, token), "the token alone is another", pos);
    expect(are_same(token, wat_token_at_inline(s.text, s.len, pos, s.allow, s.strict)), "the token found inline is another", pos);
    expect(position.line <= pos && position.column <= pos, "a line or column past the place", pos);
    for (reader = 0; reader < READERS; reader++) {
        uint8_t none = 0;
        if (may_read(reader, found)) {
            read_value(reader, s, pos);
        } else {
            expect(read_by(reader, s, pos, &none, 0).status == WAT_OTHER, "another reader reads a token", pos);
        }
    }
    look_for_comment(s, pos, found);
    look_after(s, pos, found);
    if (found.fault != WAT_NO_FAULT) {
        read_message(s, pos, found);
    } else if (found.token.kind.code > WAT_WHITESPACE) {
        look_by_row(s, found);
    }
    return found;
}

/* Lexes a text with several calls of `wat_fill`, and calls every other function at the offset of each raw token. */
static void read_text(struct setting s) {
    struct wat_token *rows = block_of(CAPACITY * sizeof *rows);
    struct wat_filled filled = {0, 0, WAT_FULL};
    size_t at = 0, i;
    while (filled.why == WAT_FULL) {
        filled = wat_fill(s.text, s.len, at, s.allow, s.strict, rows, CAPACITY);
        expect(filled.count <= CAPACITY && (filled.why == WAT_FULL) == (filled.count == CAPACITY), "the count of rows", at);
        for (i = 0; i < filled.count; i++) {
            struct wat_found found = look(s, at);
            expect(rows[i].offset == at && rows[i].len > 0, "a row is not after the last", at);
            expect(are_same(found.token, rows[i]), "a row is not what is there", at);
            at += rows[i].len;
            tokens_seen++;
        }
        expect(filled.at == at, "the rows do not end where they stop", at);
    }
    if (filled.why == WAT_END) {
        expect(at == s.len && look(s, at).token.kind.code == WAT_NO_TOKEN, "the end is not the text's", at);
    } else {
        expect(look(s, at).fault == filled.why, "the fault is another", at);
        faults_seen++;
    }
    free(rows);
    texts++;
}

/* The rows of a text, in a block of exactly their size, so that a sanitizer reports a read after them. */
struct rows {
    struct wat_row *rows;
    size_t count;
    uint32_t why;
};

/* Returns the linked rows of a text, from several calls of `wat_rows`. */
static struct rows rows_of(struct setting s) {
    struct rows all = {NULL, 0, WAT_FULL};
    struct wat_row *piece = block_of(CAPACITY * sizeof *piece);
    size_t at = 0;
    while (all.why == WAT_FULL) {
        struct wat_filled filled = wat_rows(s.text, s.len, at, s.allow, s.strict, piece, CAPACITY);
        struct wat_row *more = block_of((all.count + filled.count) * sizeof *more);
        expect(filled.count <= CAPACITY && (filled.why == WAT_FULL) == (filled.count == CAPACITY), "the count of rows that count", at);
        expect(filled.at >= at, "rows go back", at);
        if (all.count > 0) {
            memcpy(more, all.rows, all.count * sizeof *more);
        }
        if (filled.count > 0) {
            memcpy(more + all.count, piece, filled.count * sizeof *more);
        }
        free(all.rows);
        all.rows = more;
        all.count += filled.count;
        all.why = filled.why;
        at = filled.at;
    }
    free(piece);
    wat_links(all.rows, all.count);
    return all;
}

/* Checks that each row is the token at its offset, and that each `)` closes the group that is open after the rows that link to it. */
static void compare_rows(struct setting s, struct rows all) {
    size_t i, link;
    for (i = 0; i < all.count; i++) {
        struct wat_found found = wat_scan(s.text, s.len, all.rows[i].offset, s.allow, s.strict);
        struct wat_row wanted = row_of(s, found.token);
        wanted.link = all.rows[i].link;
        link = wanted.link;
        expect(memcmp(&wanted, &all.rows[i], sizeof wanted) == 0, "a row that counts is another token", all.rows[i].offset);
        expect(wat_after(all.rows, all.count, i + 1) == (size_t)wanted.offset + wanted.len, "after a row", wanted.offset);
        expect(link == 0 || (link > i + 1 && link <= all.count), "a link goes back", wanted.offset);
        expect(link == 0 || all.rows[link - 1].kind.code == WAT_RPAREN, "a link goes to no parenthesis", wanted.offset);
    }
    expect(wat_after(all.rows, all.count, 0) == 0, "after no row", 0);
}

/* Peeks from each row on, and after the last, under these names. */
static void look_at_rows(struct setting s, struct rows all, const char *names, const size_t *ends, size_t count) {
    size_t place, len = strlen(names);
    uint8_t *own = block_of(len);
    memcpy(own, names, len);
    for (place = 0; place <= all.count; place++) {
        struct wat_look look = wat_shown(s.text, s.len, all.rows, all.count, all.why, place, own, len, ends, count);
        bool plain = place < all.count && all.rows[place].kind.code != WAT_OPENS_AT;
        expect(!plain || (look.status == WAT_SHOWN && look.row == place), "a plain row is not shown", place);
        expect(look.status <= WAT_MISNAMED && look.status != WAT_LOOK_NO_MEMORY, "a look has another status", place);
        expect(look.row <= all.count && (look.row == all.count || look.row >= place), "a look goes back", place);
        expect(look.status != WAT_SHOWN || look.row < all.count, "no row is shown", place);
        expect(look.status != WAT_TEXT_END || all.why == WAT_END, "an end that is none", place);
        expect(look.status != WAT_TEXT_FAULT || all.why != WAT_END, "a fault that is none", place);
    }
    free(own);
}

/* Prints a message at an offset with a file name, which may be empty, and checks that the output begins with the message. */
static void print_at(struct setting s, size_t offset, const char *message, const char *file) {
    uint8_t *text = block_of(strlen(message) + strlen(file)), none = 0, *out;
    struct wat_answer first, given;
    size_t long_message = strlen(message), long_file = strlen(file);
    memcpy(text, message, long_message);
    memcpy(text + long_message, file, long_file);
    first = wat_print(s.text, s.len, offset, text, long_message, text + long_message, long_file, &none, 0);
    expect(first.status == WAT_GIVEN && first.needed > long_message, "an error prints less than its message", offset);
    out = block_of(first.needed);
    given = wat_print(s.text, s.len, offset, text, long_message, text + long_message, long_file, out, first.needed);
    expect(given.status == WAT_GIVEN && given.needed == first.needed, "an error prints otherwise", offset);
    expect(memcmp(out, message, long_message) == 0, "an error does not begin with its message", offset);
    free(out);
    free(text);
}

static void read_rows(struct setting s) {
    static const size_t ends[] = {1, 5, 5};
    struct rows all = rows_of(s);
    compare_rows(s, all);
    look_at_rows(s, all, "", ends, 0);
    look_at_rows(s, all, "aname", ends, 3);
    print_at(s, next_random() % (s.len + 2), "x", "");
    print_at(s, next_random() % (s.len + 2), "expected a keyword", "");
    print_at(s, next_random() % (s.len + 2), "expected a keyword", "a.wat");
    free(all.rows);
}

/* Checks the line and column of each byte, in bytes and in UTF-16, by the line feeds of the text. */
static void read_lines(struct setting s) {
    struct wat_position wanted = {0, 0}, found, wide;
    size_t none = 0, count = wat_line_feeds(s.text, s.len, &none, 0), units = 0, offset;
    size_t *feeds = block_of(count * sizeof *feeds);
    expect(wat_line_feeds(s.text, s.len, feeds, count) == count, "another count of line feeds", 0);
    for (offset = 0; offset <= s.len; offset++) {
        found = wat_line_column_by(s.text, s.len, feeds, count, offset);
        wide = wat_utf16_line_column_by(s.text, s.len, feeds, count, offset);
        expect(found.line == wanted.line && found.column == wanted.column, "another line or column", offset);
        expect(wide.line == wanted.line && wide.column == units, "another column in UTF-16", offset);
        if (offset < s.len && s.text[offset] == '\n') {
            wanted.line++;
            wanted.column = units = 0;
        } else if (offset < s.len) {
            wanted.column++;
            units += (s.text[offset] < 0x80 || s.text[offset] >= 0xc0) + (s.text[offset] >= 0xf0);
        }
    }
    wanted = wat_line_column(s.text, s.len, s.len + 1);
    found = wat_line_column_by(s.text, s.len, feeds, count, s.len + 1);
    expect(found.line == wanted.line && found.column == 0, "another count of lines", s.len + 1);
    free(feeds);
}

/* Runs all checks on a text under all settings, if it is UTF-8. It is copied to a block of exactly its size, so that a sanitizer reports a read after
 * it. */
static void read_bytes(const uint8_t *bytes, size_t len) {
    uint8_t *text = block_of(len);
    unsigned flags;
    memcpy(text, bytes, len);
    if (wat_is_text(text, len)) {
        for (flags = 0; flags < 4; flags++) {
            struct setting s = {NULL, 0, false, false};
            s.text = text;
            s.len = len;
            s.allow = (flags & 1) != 0;
            s.strict = (flags & 2) != 0;
            read_text(s);
            read_rows(s);
            if (flags == 0) {
                read_lines(s);
            }
        }
    }
    free(text);
}

/* Lexemes from which mutated texts are generated. */
static const char *const pieces[] = {"(;",  ";)",     ";;", "\n",   "\"",        "\\",        "\\u{1_0}", "\\u{d800}", "\\61",
                                     "$",   "$\"a\"", "@",  "@\"",  "0x",        "1_0",       "-0x1.8p-3", "nan:0x7f", "+inf",
                                     "1e5", "_",      ",",  "\xe2\x80\xae", "\xc3\xa9", "\xf0\x9f\x98\x80", "\t",  "(@a)",  ""};

/* Mutates a text 1 to 4 times, and runs all checks on it. Each mutation replaces 0 to 2 bytes by a lexeme, which may be empty. */
static void mutate(const uint8_t *bytes, size_t len) {
    uint8_t *mutant = block_of(len + 64);
    unsigned turns = 1 + (unsigned)(next_random() % 4);
    memcpy(mutant, bytes, len);
    while (turns-- > 0) {
        const char *piece = pieces[next_random() % (sizeof pieces / sizeof *pieces)];
        size_t added = strlen(piece), at = (size_t)(next_random() % (len + 1)), gone = (size_t)(next_random() % 3);
        if (gone > len - at) {
            gone = len - at;
        }
        memmove(mutant + at + added, mutant + at + gone, len - at - gone);
        memcpy(mutant + at, piece, added);
        len += added - gone;
    }
    read_bytes(mutant, len);
    free(mutant);
}

static uint8_t *read_file(const char *name, size_t *len) {
    FILE *file = fopen(name, "rb");
    uint8_t *bytes = block_of(1 << 20);
    if (file == NULL) {
        fprintf(stderr, "readers: %s cannot be read\n", name);
        exit(2);
    }
    *len = fread(bytes, 1, 1 << 20, file);
    fclose(file);
    return bytes;
}

int main(int argc, char **argv) {
    unsigned long long mutants = argc > 1 ? strtoull(argv[1], NULL, 10) : 0, made;
    int files = argc > 2 ? argc - 2 : 0, i;
    expect(wat_version() == WAT_VERSION, "the header is of another version than the library", 0);
    for (i = 0; i < files; i++) {
        size_t len = 0;
        uint8_t *bytes = read_file(argv[i + 2], &len);
        read_bytes(bytes, len);
        for (made = (unsigned long long)i; made < mutants; made += (unsigned long long)files) {
            mutate(bytes, len);
        }
        free(bytes);
    }
    printf("readers: %llu texts read, %llu tokens, %llu faults, %llu values; %llu wrong\n", texts, tokens_seen, faults_seen, values_seen, wrong);
    return wrong == 0 && texts > 0 ? 0 : 1;
}
