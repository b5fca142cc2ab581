/* Makes one call of wat.h, chosen by its index, and prints the result. Nothing else here allocates, so that a preloaded tools/lib/fail_allocations.c
 * counts the allocations of that call alone, and makes one of them fail. Without an index it prints the number of calls.
 *
 * usage: refusals [INDEX] */
#include "wat.h"

#include <stdio.h>
#include <stdlib.h>
#include <string.h>

enum { CAPACITY = 128, UNTOUCHED = '#' };

/* A call at the start of a text. `asks` is true if the call allocates. */
struct call {
    const char *function, *text;
    bool asks;
};

static const struct call calls[] = {
    {"wat_string", "\"a\\n\\u{62}\"", true},
    {"wat_string", "\"ab\"", false},
    {"wat_string_of", "\"a\\n\\u{62}\"", true},
    {"wat_string_of", "\"ab\"", false},
    {"wat_name", "$\"\\61 b\"", true},
    {"wat_name", "@\"a b\"", false},
    {"wat_name_of", "@\"\\61 b\"", true},
    {"wat_name_of", "$x", false},
    {"wat_name_fault", "$\"\\ff\"", true},
    {"wat_name_fault", "$", false},
    {"wat_fault", "(;", false},
    {"wat_integer", "-0x1_f", true},
    {"wat_integer", "1_0", true},
    {"wat_integer", "10", false},
    {"wat_digits_of", "-0x1_f", false},
    {"wat_float 0", "-1_0.5e+7", true},
    {"wat_float 2", "0x1.8p-1_0", true},
    {"wat_float 1", "1.5", false},
    {"wat_float_of 0", "-1_0.5e+7", true},
    {"wat_float_of 3", "nan:0x1_f", true},
    {"wat_float_of 3", "nan:0x1f", false},
    {"wat_print x.wat", "a b", true},
    {"wat_print", "a b", false},
    {"wat_message", "a", false},
    {"wat_shown", "(@\"\\61\" b) c", true},
    {"wat_shown", "(@a b) c", false},
    {"wat_integer_of", "-0x1_f", false},
    {"wat_f32_of", "-0x1_f", true},
    {"wat_f32_of", "nan:0x1f", false},
    {"wat_f64_of", "1_0.5", true},
    {"wat_f64_of", "123456789012345678901234567890.5e-300", false},
    {"wat_f32", "1_0", true},
    {"wat_f32", "10", false},
    {"wat_f64", "1.0e1_0", true},
    {"wat_f64", "0x1.8p-3", false},
    {"wat_float_parts", "-1_0.5e+7", false},
    {"wat_word", "$\"a b\"", false},
    {"wat_comment", " ;;a", false},
    {"wat_compile", "(module $m (func (export \"a\") (param $x i32) (local.get $x)))", true},
    {"wat_compile", "(module (func $f (call $g)))", true},
    {"wat_compile", "(module $m (@custom \"a\" (after type) \"b\\62\"))", true},
    {"wat_check", "(module (func $f (call $g)))", true},
    {"wat_check", "(module (func (@custom \"a\")))", true},
    {"wat_check", "(module (@a", true},
    {"wat_check", "(module \"\\q\")", true},
    {"wat_check", "(module (memory 1) (data \"a\\62\"))", true},
    {"wat_format", "(module (func $f (call $g)))", true},
    {"wat_format", "(module \"\\q\")", true},
};

static bool is_call(const char *function, const char *name) {
    size_t len = strcspn(function, " ");
    return strlen(name) == len && memcmp(function, name, len) == 0;
}

/* Fills the rows of a text, and links them. */
static struct wat_filled rows_of(const uint8_t *text, size_t len, struct wat_row *rows, size_t capacity) {
    struct wat_filled filled;
    memset(rows, 0, capacity * sizeof *rows);
    filled = wat_rows(text, len, 0, false, false, rows, capacity);
    wat_links(rows, filled.count);
    return filled;
}

/* Returns the result of a call that has no buffer, with its row, value or start offset as `needed`. */
static struct wat_answer without_buffer(const char *f, const uint8_t *text, size_t len, const struct wat_row *rows, struct wat_filled filled) {
    static const size_t end = 1;
    struct wat_answer answer = {0, UINT32_MAX};
    if (is_call(f, "wat_shown")) {
        struct wat_look look = wat_shown(text, len, rows, filled.count, filled.why, 0, (const uint8_t *)"x", 1, &end, 1);
        answer.needed = look.row;
        answer.status = look.status;
    } else if (is_call(f, "wat_integer_of")) {
        struct wat_number number = wat_integer_of(text, len, rows, 8, true);
        answer.needed = number.value;
        answer.status = number.status;
    } else {
        struct wat_range word = is_call(f, "wat_word") ? wat_word(text, len, rows) : wat_comment(text, len, 0, false, false);
        answer.needed = word.start;
        answer.status = word.status;
    }
    return answer;
}

/* Returns the result of a call that returns bits, as `needed`, or the offset of a number's exponent. */
static struct wat_answer read_number(const char *f, const uint8_t *text, size_t len, const struct wat_row *row) {
    struct wat_answer answer = {0, UINT32_MAX};
    if (is_call(f, "wat_float_parts")) {
        struct wat_parts parts = wat_float_parts(text, len, row);
        answer.needed = parts.exponent.start;
        answer.status = parts.status;
    } else if (is_call(f, "wat_f32_of") || is_call(f, "wat_f32")) {
        struct wat_bits32 bits = is_call(f, "wat_f32") ? wat_f32(text, len, 0, false, false) : wat_f32_of(text, len, row);
        answer.needed = bits.bits;
        answer.status = bits.status;
    } else {
        struct wat_bits64 bits = is_call(f, "wat_f64") ? wat_f64(text, len, 0, false, false) : wat_f64_of(text, len, row);
        answer.needed = bits.bits;
        answer.status = bits.status;
    }
    return answer;
}

/* Returns the result of a reader of a row. */
static struct wat_answer read_row(const char *f, const uint8_t *text, size_t len, const struct wat_row *row, uint8_t *out) {
    uint32_t part = (uint32_t)(f[strlen(f) - 1] - '0');
    if (is_call(f, "wat_string_of")) {
        return wat_string_of(text, len, row, out, CAPACITY);
    }
    if (is_call(f, "wat_name_of")) {
        return wat_name_of(text, len, row, out, CAPACITY);
    }
    if (is_call(f, "wat_digits_of")) {
        return wat_digits_of(text, len, row, out, CAPACITY);
    }
    return wat_float_of(text, len, row, part, out, CAPACITY);
}

/* Returns the result of a reader at an offset. */
static struct wat_answer read_text(const char *f, const uint8_t *text, size_t len, uint8_t *out) {
    uint32_t part = (uint32_t)(f[strlen(f) - 1] - '0');
    if (is_call(f, "wat_string")) {
        return wat_string(text, len, 0, false, false, out, CAPACITY);
    }
    if (is_call(f, "wat_name")) {
        return wat_name(text, len, 0, false, false, out, CAPACITY);
    }
    if (is_call(f, "wat_name_fault")) {
        return wat_name_fault(text, len, 0, false, false, out, CAPACITY);
    }
    if (is_call(f, "wat_integer")) {
        return wat_integer(text, len, 0, false, false, out, CAPACITY);
    }
    if (is_call(f, "wat_float")) {
        return wat_float(text, len, 0, false, false, part, out, CAPACITY);
    }
    return wat_fault(text, len, 0, false, false, out, CAPACITY);
}

/* Returns the result of a call that prints, with the name of a file if one follows the function's name. */
static struct wat_answer print(const char *f, const uint8_t *text, size_t len, uint8_t *out) {
    const char *file = f + strcspn(f, " ");
    file += *file == ' ';
    if (is_call(f, "wat_message")) {
        return wat_message(WAT_UNEXPECTED, text[0], 0, out, CAPACITY);
    }
    return wat_print(text, len, 0, (const uint8_t *)"expected a keyword", 18, (const uint8_t *)file, strlen(file), out, CAPACITY);
}

/* Returns the result of the compiler or the formatter. With an error of `wat_check`, its offset is added to the length of its message. */
static struct wat_answer read_module(const char *f, const uint8_t *text, size_t len, uint8_t *out) {
    struct wat_answer answer;
    struct wat_checked error;
    if (is_call(f, "wat_compile")) {
        return wat_compile(text, len, true, out, CAPACITY);
    }
    if (is_call(f, "wat_format")) {
        return wat_format(text, len, false, false, out, CAPACITY);
    }
    error = wat_check(text, len, true, out, CAPACITY);
    answer.needed = error.needed + error.offset + error.len;
    answer.status = error.status;
    return answer;
}

static struct wat_answer make(const struct call *call, uint8_t *out) {
    const char *f = call->function;
    const uint8_t *text = (const uint8_t *)call->text;
    size_t len = strlen(call->text);
    struct wat_row rows[8];
    struct wat_filled filled = rows_of(text, len, rows, 8);
    if (is_call(f, "wat_compile") || is_call(f, "wat_check") || is_call(f, "wat_format")) {
        return read_module(f, text, len, out);
    }
    if (is_call(f, "wat_shown") || is_call(f, "wat_integer_of") || is_call(f, "wat_word") || is_call(f, "wat_comment")) {
        return without_buffer(f, text, len, rows, filled);
    }
    if (is_call(f, "wat_float_parts") || strncmp(f, "wat_f32", 7) == 0 || strncmp(f, "wat_f64", 7) == 0) {
        return read_number(f, text, len, rows);
    }
    if (is_call(f, "wat_print") || is_call(f, "wat_message")) {
        return print(f, text, len, out);
    }
    if (strstr(f, "_of") != NULL) {
        return read_row(f, text, len, rows, out);
    }
    return read_text(f, text, len, out);
}

int main(int argc, char **argv) {
    static char buffer[BUFSIZ];
    size_t count = sizeof calls / sizeof *calls, number = argc > 1 ? strtoul(argv[1], NULL, 10) : count, touched = 0, i;
    uint8_t out[CAPACITY];
    struct wat_answer answer;
    setvbuf(stdout, buffer, _IOFBF, sizeof buffer);
    if (number >= count) {
        printf("%zu\n", count);
        return argc > 1 ? 2 : 0;
    }
    memset(out, UNTOUCHED, sizeof out);
    answer = make(&calls[number], out);
    for (i = 0; i < CAPACITY; i++) {
        touched += out[i] != UNTOUCHED;
    }
    printf("%s, %s, %s: %zu, status %u, %zu bytes written\n", calls[number].asks ? "asks" : "does not ask", calls[number].function,
           calls[number].text, answer.needed, (unsigned)answer.status, touched);
    return 0;
}
