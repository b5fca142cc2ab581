/* Calls each function of wat.h and compares its results with the expected ones. Prints each wrong result, and the number of results compared.
 *
 * usage: answers */
#include "wat.h"

#include <stdio.h>
#include <string.h>

enum { CAPACITY = 128 };

static unsigned compared, wrong;

static void expect(bool holds, const char *call, const char *text) {
    compared++;
    if (!holds) {
        printf("answers: %s of %s\n", call, text);
        wrong++;
    }
}

static const uint8_t *bytes_of(const char *text) {
    return (const uint8_t *)text;
}

/* Returns the first row of a text that begins with a significant token. */
static struct wat_row first_row(const char *text) {
    struct wat_row row = {0, 0, {0, 0, false, false}, 0};
    wat_rows(bytes_of(text), strlen(text), 0, false, false, &row, 1);
    return row;
}

/* Returns the part of a float with this index, or an unknown part if there is none. */
static uint32_t part_of(char digit) {
    static const uint32_t parts[] = {WAT_INTEGRAL, WAT_FRACTIONAL, WAT_EXPONENT, WAT_PAYLOAD};
    return digit < '4' ? parts[digit - '0'] : UINT32_MAX;
}

/* Returns the result of a reader at the start of a text. `reader` is a letter, in uppercase for a reader by row, and the index of a float's part. */
static struct wat_answer answer(const char *reader, const char *text, uint8_t *out, size_t capacity) {
    const uint8_t *bytes = bytes_of(text);
    size_t len = strlen(text);
    struct wat_row row = first_row(text);
    struct wat_answer none = {0, UINT32_MAX};
    switch (reader[0]) {
    case 'f':
        return wat_fault(bytes, len, 0, false, false, out, capacity);
    case 's':
        return wat_string(bytes, len, 0, false, false, out, capacity);
    case 'S':
        return wat_string_of(bytes, len, &row, out, capacity);
    case 'n':
        return wat_name(bytes, len, 0, false, false, out, capacity);
    case 'N':
        return wat_name_of(bytes, len, &row, out, capacity);
    case 'w':
        return wat_name_fault(bytes, len, 0, false, false, out, capacity);
    case 'i':
        return wat_integer(bytes, len, 0, false, false, out, capacity);
    case 'I':
        return wat_digits_of(bytes, len, &row, out, capacity);
    case 'p':
        return wat_float(bytes, len, 0, false, false, part_of(reader[1]), out, capacity);
    case 'P':
        return wat_float_of(bytes, len, &row, part_of(reader[1]), out, capacity);
    default:
        return none;
    }
}

/* Checks that a reader writes these bytes if the buffer is long enough, and nothing otherwise. */
static void gives(const char *reader, const char *text, const char *wanted) {
    uint8_t out[CAPACITY] = {0}, shorter[CAPACITY];
    size_t len = strlen(wanted), i;
    struct wat_answer given = answer(reader, text, out, len);
    expect(given.needed == len && given.status == WAT_GIVEN, reader, text);
    expect(memcmp(out, wanted, len) == 0, reader, text);
    memset(shorter, '#', sizeof shorter);
    given = answer(reader, text, shorter, len == 0 ? 0 : len - 1);
    expect(given.needed == len && given.status == WAT_GIVEN, reader, text);
    for (i = 0; len > 0 && i < CAPACITY; i++) {
        expect(shorter[i] == '#', reader, text);
    }
}

static void refuses(const char *reader, const char *text, uint32_t status) {
    uint8_t out[CAPACITY] = {0};
    struct wat_answer given = answer(reader, text, out, CAPACITY);
    expect(given.needed == 0 && given.status == status, reader, text);
}

static void readers(void) {
    static const char *const given[][3] = {
        {"s", "\"a\\n\\u{62}\"", "a\nb"}, {"S", "\"a\\n\\u{62}\"", "a\nb"}, {"s", "\"\"", ""},          {"S", "\"\"", ""},
        {"n", "$x", "x"},                 {"N", "$x", "x"},                 {"n", "@\"\\61 b\"", "a b"}, {"N", "@\"\\61 b\"", "a b"},
        {"i", "-0x1_f", "-1f"},           {"I", "-0x1_f", "-1f"},           {"p0", "-1_0.5e+7", "-10"},  {"P0", "-1_0.5e+7", "-10"},
        {"p1", "-1_0.5e+7", "5"},         {"P1", "-1_0.5e+7", "5"},         {"p2", "-1_0.5e+7", "7"},    {"P2", "-1_0.5e+7", "7"},
        {"p3", "nan:0x1_F", "1F"},        {"P3", "nan:0x1_F", "1F"},
        {"w", "$", "empty identifier\n     --> <anon>:1:1\n      |\n    1 | $\n      | ^"},
        {"f", "(;", "unterminated block comment\n     --> <anon>:1:1\n      |\n    1 | (;\n      | ^"}};
    static const struct {
        const char *reader, *text;
        uint32_t status;
    } refused[] = {{"f", "x", 1},   {"s", "$x", 1},  {"S", "$x", 1},   {"n", "$", 114},   {"N", "$", 114},  {"n", "@", 115}, {"N", "@", 115},
                   {"w", "$x", 3},  {"i", "1.5", 1}, {"I", "1.5", 1},  {"p1", "1e5", 3},  {"P1", "1e5", 3}, {"p0", "inf", 3}, {"P0", "inf", 3},
                   {"p4", "1.5", 3}, {"n", "$\"\\ff\"", 113}, {"N", "$\"\\ff\"", 113}};
    size_t i;
    for (i = 0; i < sizeof given / sizeof *given; i++) {
        gives(given[i][0], given[i][1], given[i][2]);
    }
    for (i = 0; i < sizeof refused / sizeof *refused; i++) {
        refuses(refused[i].reader, refused[i].text, refused[i].status);
    }
}

static bool is_row(struct wat_token token, size_t offset, uint32_t len, uint8_t code) {
    return token.offset == offset && token.len == len && token.kind.code == code && token.kind.sign == WAT_NO_SIGN &&
           !token.kind.has_underscores && !token.kind.hex;
}

/* Checks raw tokens, and the offset and reason at which they stop. */
static void tokens(void) {
    static const char text[] = "(1 \xc2\x80";
    struct wat_token rows[4] = {{0, 0, {0, 0, false, false}}};
    struct wat_filled filled = wat_fill(bytes_of(text), 5, 0, false, false, rows, 4);
    struct wat_found found = wat_scan(bytes_of(text), 5, 3, false, false);
    struct wat_position position = wat_line_column(bytes_of(text), 5, 3);
    expect(filled.count == 3 && filled.at == 3 && filled.why == WAT_UNEXPECTED, "wat_fill", text);
    expect(is_row(rows[0], 0, 1, WAT_LPAREN) && is_row(rows[1], 1, 1, WAT_INTEGER), "wat_fill", text);
    expect(is_row(rows[2], 2, 1, WAT_WHITESPACE) && is_row(rows[3], 0, 0, WAT_NO_TOKEN), "wat_fill", text);
    filled = wat_fill(bytes_of(text), 5, 0, false, false, rows, 1);
    expect(filled.count == 1 && filled.at == 1 && filled.why == WAT_FULL, "wat_fill", text);
    expect(is_row(found.token, 3, 0, WAT_NO_TOKEN) && found.fault == 102 && found.found == 0x80 && found.wanted == 0, "wat_scan", text);
    expect(is_row(wat_token_at(bytes_of(text), 5, 3, false, false), 3, 0, WAT_NO_TOKEN), "wat_token_at", text);
    expect(is_row(wat_token_at(bytes_of(text), 5, 0, false, false), 0, 1, WAT_LPAREN), "wat_token_at", text);
    expect(position.line == 0 && position.column == 3, "wat_line_column", text);
    expect(wat_is_place(bytes_of(text), 5, 5) && !wat_is_place(bytes_of(text), 5, 4), "wat_is_place", text);
    expect(wat_is_text(bytes_of(text), 5) && !wat_is_text(bytes_of("\xff"), 1), "wat_is_text", text);
}

/* Checks where lexing resumes after a token, at the end of the text, and after each lexical error. */
static void covers(void) {
    static const struct {
        const char *text;
        size_t pos, next;
    } rows[] = {{"", 0, 0},
                {"(a)", 1, 2},
                {"(a)", 3, 3},
                {"a \xc2\x80" "b", 2, 4},
                {"(; (; ;) a", 0, 2},
                {";; \xe2\x80\xae x\na", 0, 8},
                {"\"a\\q\" b", 0, 5},
                {"\"a\\q\"b\"c\"", 0, 5},
                {"\"\xe2\x80\xae\" b", 0, 5},
                {"(a \"b)\n(c)", 3, 6},
                {"(a \"b)\r(c)", 3, 6},
                {"\"\\q\\\"b\" c", 0, 7},
                {"\"\\q\\\\\" c\"", 0, 6},
                {"\"\\\nb", 0, 2},
                {"\"\\", 0, 2},
                {"a$\"b\"c\"d", 0, 8},
                {"(@\"a\\q\"b\")", 1, 7}};
    static const char allowed[] = "\"\xe2\x80\xae\\q\" b", strict[] = "\"\\u{1__0}\" b";
    size_t i;
    for (i = 0; i < sizeof rows / sizeof *rows; i++) {
        const char *text = rows[i].text;
        uint32_t mark = 0;
        expect(wat_resume(bytes_of(text), strlen(text), rows[i].pos, false, false) == rows[i].next, "wat_resume", text);
        expect(wat_next(bytes_of(text), strlen(text), rows[i].pos, false, false, &mark, 1).next == rows[i].next, "wat_next", text);
    }
    expect(wat_resume(bytes_of(allowed), strlen(allowed), 0, true, false) == 7, "wat_resume", allowed);
    expect(wat_resume(bytes_of(strict), strlen(strict), 0, false, true) == 10, "wat_resume", strict);
}

static bool is_at(struct wat_position position, size_t line, size_t column) {
    return position.line == line && position.column == column;
}

/* Checks the line feeds of a text, and lines and columns from them. */
static void lines(void) {
    static const char text[] = "a\n\xc3\xa9\xf0\x9f\x98\x80" "b\nc"; /* U+00E9, U+1F600 */
    static const struct {
        size_t offset, line, column, utf16;
    } places[] = {{0, 0, 0, 0}, {1, 0, 1, 1}, {2, 1, 0, 0}, {3, 1, 1, 1},  {4, 1, 2, 1}, {5, 1, 3, 3},
                  {8, 1, 6, 3}, {9, 1, 7, 4}, {10, 2, 0, 0}, {11, 2, 1, 1}, {12, 3, 0, 0}};
    size_t feeds[4] = {7, 7, 7, 7}, i;
    expect(wat_line_feeds(bytes_of(text), 11, feeds, 1) == 2 && feeds[0] == 7, "wat_line_feeds", text);
    expect(wat_line_feeds(bytes_of(text), 11, feeds, 4) == 2 && feeds[0] == 1 && feeds[1] == 9 && feeds[2] == 7, "wat_line_feeds", text);
    for (i = 0; i < sizeof places / sizeof *places; i++) {
        size_t offset = places[i].offset, line = places[i].line;
        expect(is_at(wat_line_column(bytes_of(text), 11, offset), line, places[i].column), "wat_line_column", text);
        expect(is_at(wat_line_column_by(bytes_of(text), 11, feeds, 2, offset), line, places[i].column), "wat_line_column_by", text);
        expect(is_at(wat_utf16_line_column_by(bytes_of(text), 11, feeds, 2, offset), line, places[i].utf16), "wat_utf16_line_column_by", text);
    }
}

static bool looks(struct wat_look look, uint32_t row, uint32_t status) {
    return look.row == row && look.status == status;
}

/* Checks rows of significant tokens, their links, and the rows that are visible under registered names. */
static void shown(void) {
    static const char text[] = "(a (@b \")\" (c)) d) (@";
    static const size_t end = 1;
    struct wat_row rows[16];
    struct wat_filled filled;
    memset(rows, 0, sizeof rows);
    filled = wat_rows(bytes_of(text), strlen(text), 0, false, false, rows, 16);
    wat_links(rows, filled.count);
    expect(filled.count == 13 && filled.at == strlen(text) && filled.why == WAT_END, "wat_rows", text);
    expect(rows[2].kind.code == WAT_OPENS_AT && rows[2].link == 9 && rows[5].link == 8, "wat_links", text);
    expect(rows[0].link == 11 && rows[8].link == 11 && rows[10].link == 0 && rows[11].link == 0, "wat_links", text);
    expect(looks(wat_shown(bytes_of(text), strlen(text), rows, 13, filled.why, 2, bytes_of(""), 0, &end, 0), 9, WAT_SHOWN), "wat_shown", text);
    expect(looks(wat_shown(bytes_of(text), strlen(text), rows, 13, filled.why, 2, bytes_of("b"), 1, &end, 1), 2, WAT_SHOWN), "wat_shown", text);
    expect(looks(wat_shown(bytes_of(text), strlen(text), rows, 13, filled.why, 11, bytes_of(""), 0, &end, 0), 12, WAT_MISNAMED), "wat_shown", text);
    expect(looks(wat_shown(bytes_of(text), strlen(text), rows, 13, filled.why, 13, bytes_of(""), 0, &end, 0), 13, WAT_TEXT_END), "wat_shown", text);
    expect(wat_after(rows, 13, 0) == 0 && wat_after(rows, 13, 2) == 2, "wat_after", text);
}

/* Checks why no row is visible in the group of an unregistered name that is not closed, or that ends at a lexical error. */
static void hidden(void) {
    static const struct {
        const char *text;
        uint32_t row, status;
    } rows_of[] = {{"(@a (b)", 0, WAT_UNCLOSED}, {"(@a (;", 2, WAT_TEXT_FAULT}};
    static const size_t end = 1;
    size_t i;
    for (i = 0; i < sizeof rows_of / sizeof *rows_of; i++) {
        const char *text = rows_of[i].text;
        struct wat_row rows[8];
        struct wat_filled filled;
        struct wat_look look;
        memset(rows, 0, sizeof rows);
        filled = wat_rows(bytes_of(text), strlen(text), 0, false, false, rows, 8);
        wat_links(rows, filled.count);
        look = wat_shown(bytes_of(text), strlen(text), rows, filled.count, filled.why, 0, bytes_of(""), 0, &end, 0);
        expect(looks(look, rows_of[i].row, rows_of[i].status), "wat_shown", text);
    }
}

static bool is_word(struct wat_range word, uint32_t start, uint32_t len, uint32_t status) {
    return word.start == start && word.len == len && word.status == status;
}

/* Returns the range of a token's value, by the other name of its type in C. */
static struct wat_word word_of(const char *text) {
    struct wat_row row = first_row(text);
    return wat_word(bytes_of(text), strlen(text), &row);
}

static bool is_number(const char *text, uint32_t bits, bool is_signed, uint64_t value, uint32_t status) {
    struct wat_row row = first_row(text);
    struct wat_number number = wat_integer_of(bytes_of(text), strlen(text), &row, bits, is_signed);
    return number.value == value && number.status == status;
}

/* Checks words, integers and comments. */
static void values(void) {
    expect(is_word(word_of("\"ab\""), 1, 2, WAT_GIVEN) && is_word(word_of("$x"), 1, 1, WAT_GIVEN), "wat_word", "\"ab\", $x");
    expect(is_word(word_of("@\"x\""), 2, 1, WAT_GIVEN) && is_word(word_of("\"\\61\""), 0, 0, WAT_ESCAPED), "wat_word", "@\"x\"");
    expect(is_word(word_of("$"), 0, 0, WAT_EMPTY_ID) && is_word(word_of("1"), 0, 0, WAT_OTHER), "wat_word", "$, 1");
    expect(is_number("-0x80", 8, true, 0x80, WAT_GIVEN) && is_number("-0x81", 8, true, 0, WAT_OUT_OF_RANGE), "wat_integer_of", "-0x80");
    expect(is_number("255", 8, true, 255, WAT_GIVEN) && is_number("256", 8, false, 0, WAT_OUT_OF_RANGE), "wat_integer_of", "255");
    expect(is_number("-0", 32, false, 0, WAT_OUT_OF_RANGE) && is_number("-1", 64, true, UINT64_MAX, WAT_GIVEN), "wat_integer_of", "-0");
    expect(is_number("x", 32, false, 0, WAT_OTHER) && is_number("1_0", 16, false, 10, WAT_GIVEN), "wat_integer_of", "x");
    expect(is_word(wat_comment(bytes_of(" ;;a"), 4, 0, false, false), 1, 3, WAT_GIVEN), "wat_comment", " ;;a");
    expect(is_word(wat_comment(bytes_of(" a"), 2, 0, false, false), 0, 0, WAT_ABSENT), "wat_comment", " a");
    expect(is_word(wat_comment(bytes_of(" (;"), 3, 0, false, false), 0, 0, WAT_DANGLING_BLOCK_COMMENT), "wat_comment", " (;");
}

/* Checks the bits of numbers: decimal and hexadecimal, at and close to a midpoint, subnormal, at the limits of a format, and those without a value. */
static void bits(void) {
    static const struct {
        const char *text;
        uint32_t bits32, status32;
        uint64_t bits64;
        uint32_t status64;
    } rows[] = {{"-0", 0x80000000, WAT_GIVEN, 0x8000000000000000, WAT_GIVEN},
                {"+1_6777_217", 0x4b800000, WAT_GIVEN, 0x4170000010000000, WAT_GIVEN},
                {"16777219", 0x4b800002, WAT_GIVEN, 0x4170000030000000, WAT_GIVEN},
                {"9007199254740993", 0x5a000000, WAT_GIVEN, 0x4340000000000000, WAT_GIVEN},
                {"9007199254740993.00000000000000000001", 0x5a000000, WAT_GIVEN, 0x4340000000000001, WAT_GIVEN},
                {"0x1p-149", 1, WAT_GIVEN, 0x36a0000000000000, WAT_GIVEN},
                {"0x1p-150", 0, WAT_GIVEN, 0x3690000000000000, WAT_GIVEN},
                {"5e-324", 0, WAT_GIVEN, 1, WAT_GIVEN},
                {"-0x1.0_1p-1_075", 0x80000000, WAT_GIVEN, 0x8000000000000001, WAT_GIVEN},
                {"0x1.fffffefp+127", 0x7f7fffff, WAT_GIVEN, 0x47efffffef000000, WAT_GIVEN},
                {"0x1.ffffffp+127", 0, WAT_OUT_OF_RANGE, 0x47effffff0000000, WAT_GIVEN},
                {"-1e400", 0, WAT_OUT_OF_RANGE, 0, WAT_OUT_OF_RANGE},
                {"-inf", 0xff800000, WAT_GIVEN, 0xfff0000000000000, WAT_GIVEN},
                {"nan", 0x7fc00000, WAT_GIVEN, 0x7ff8000000000000, WAT_GIVEN},
                {"-nan:0x7f_ffff", 0xffffffff, WAT_GIVEN, 0xfff00000007fffff, WAT_GIVEN},
                {"nan:0x800000", 0, WAT_OUT_OF_RANGE, 0x7ff0000000800000, WAT_GIVEN},
                {"nan:0x0", 0, WAT_OUT_OF_RANGE, 0, WAT_OUT_OF_RANGE},
                {"f32", 0, WAT_OTHER, 0, WAT_OTHER}};
    size_t i;
    for (i = 0; i < sizeof rows / sizeof *rows; i++) {
        const char *text = rows[i].text;
        size_t len = strlen(text);
        struct wat_row row = first_row(text);
        struct wat_bits32 single = wat_f32_of(bytes_of(text), len, &row), there = wat_f32(bytes_of(text), len, 0, false, false);
        struct wat_bits64 twice = wat_f64_of(bytes_of(text), len, &row), here = wat_f64(bytes_of(text), len, 0, false, false);
        expect(single.bits == rows[i].bits32 && single.status == rows[i].status32, "wat_f32_of", text);
        expect(there.bits == rows[i].bits32 && there.status == rows[i].status32, "wat_f32", text);
        expect(twice.bits == rows[i].bits64 && twice.status == rows[i].status64, "wat_f64_of", text);
        expect(here.bits == rows[i].bits64 && here.status == rows[i].status64, "wat_f64", text);
    }
    expect(wat_f32(bytes_of("1"), 1, 1, false, false).status == WAT_OTHER, "wat_f32", "the end");
    expect(wat_f64(bytes_of("(;"), 2, 0, false, false).status == WAT_OTHER, "wat_f64", "(;");
}

static bool is_span(const char *text, struct wat_span span, const char *wanted) {
    return span.len == strlen(wanted) && (span.len == 0 ? span.start == 0 : memcmp(text + span.start, wanted, span.len) == 0);
}

/* Checks the ranges of the parts of numbers. */
static void parts(void) {
    static const struct {
        const char *text, *integral, *fractional, *exponent, *payload;
        uint32_t status;
        bool negative;
    } rows[] = {{"1.5", "1", "5", "", "", WAT_GIVEN, false},
                {"-1_0.5e+7_0", "1_0", "5", "7_0", "", WAT_GIVEN, true},
                {"+12.", "12", "", "", "", WAT_GIVEN, false},
                {"1.E-0", "1", "", "-0", "", WAT_GIVEN, false},
                {"2e1", "2", "", "1", "", WAT_GIVEN, false},
                {"-0x1.8_eP-1_0", "1", "8_e", "-1_0", "", WAT_GIVEN, true},
                {"+0xeEp+3", "eE", "", "3", "", WAT_GIVEN, false},
                {"0xe.e", "e", "e", "", "", WAT_GIVEN, false},
                {"-inf", "", "", "", "", WAT_GIVEN, true},
                {"nan", "", "", "", "", WAT_GIVEN, false},
                {"-nan:0x1_F", "", "", "", "1_F", WAT_GIVEN, true},
                {"-1", "", "", "", "", WAT_OTHER, false},
                {"e.e", "", "", "", "", WAT_OTHER, false}};
    size_t i;
    for (i = 0; i < sizeof rows / sizeof *rows; i++) {
        const char *text = rows[i].text;
        struct wat_row row = first_row(text);
        struct wat_parts found = wat_float_parts(bytes_of(text), strlen(text), &row);
        expect(found.status == rows[i].status && found.negative == rows[i].negative, "wat_float_parts", text);
        expect(is_span(text, found.integral, rows[i].integral) && is_span(text, found.fractional, rows[i].fractional), "wat_float_parts", text);
        expect(is_span(text, found.exponent, rows[i].exponent) && is_span(text, found.payload, rows[i].payload), "wat_float_parts", text);
    }
}

static bool prints(const char *file, const char *wanted) {
    uint8_t out[CAPACITY] = {0};
    struct wat_answer given = wat_print(bytes_of("a b"), 3, 2, bytes_of("no such word"), 12, bytes_of(file), strlen(file), out, CAPACITY);
    return given.needed == strlen(wanted) && given.status == WAT_GIVEN && memcmp(out, wanted, given.needed) == 0;
}

/* Checks printed errors, messages, names and the version. */
static void messages(void) {
    uint8_t out[CAPACITY] = {0};
    struct wat_answer given = wat_message(WAT_UNEXPECTED, 0x80, 0, out, CAPACITY);
    expect(prints("", "no such word\n     --> <anon>:1:3\n      |\n    1 | a b\n      |   ^"), "wat_print", "a b");
    expect(prints("x.wat", "no such word\n     --> x.wat:1:3\n      |\n    1 | a b\n      |   ^"), "wat_print", "a b");
    expect(given.needed == 29 && memcmp(out, "unexpected character '\\u{80}'", 29) == 0, "wat_message", "102");
    expect(wat_message(0, 0, 0, out, CAPACITY).status == WAT_OTHER, "wat_message", "0");
    expect(wat_version() == WAT_VERSION, "wat_version", WAT_VERSION_TEXT);
}

static struct wat_checked checked(const char *text) {
    uint8_t out[CAPACITY] = {0};
    return wat_check(bytes_of(text), strlen(text), true, out, CAPACITY);
}

/* Checks that custom annotations define sections of a binary with names, and are skipped in a binary without names. */
static void custom_sections(void) {
    static const uint8_t binary[] = "\0asm\1\0\0\0\0\003\001aA", function[] = "\0asm\1\0\0\0\1\4\1\140\0\0\3\2\1\0\012\4\1\2\0\013";
    static const char custom[] = "(@custom \"a\" \"A\")", misplaced[] = "(func (@custom 4))";
    uint8_t out[CAPACITY] = {0};
    struct wat_answer given = wat_compile(bytes_of(custom), strlen(custom), true, out, CAPACITY);
    expect(given.status == WAT_GIVEN && given.needed == 13 && memcmp(out, binary, 13) == 0, "wat_compile", custom);
    given = wat_compile(bytes_of(custom), strlen(custom), false, out, CAPACITY);
    expect(given.status == WAT_GIVEN && given.needed == 8 && memcmp(out, binary, 8) == 0, "wat_compile", custom);
    given = wat_compile(bytes_of(misplaced), strlen(misplaced), false, out, CAPACITY);
    expect(given.status == WAT_GIVEN && given.needed == 24 && memcmp(out, function, 24) == 0, "wat_compile", misplaced);
    expect(wat_check(bytes_of(misplaced), strlen(misplaced), false, out, CAPACITY).status == WAT_ABSENT, "wat_check", misplaced);
}

/* Checks binaries, and the offset and the length of errors. tools/test/c_library.sh compares the messages with those of tests/modules.txt. */
static void modules(void) {
    static const uint8_t binary[] = "\0asm\1\0\0\0\0\011\004name\0\002\001m";
    static const char named[] = "(module $m)";
    static const struct {
        const char *text;
        size_t offset, len;
    } errors[] = {{"(module (func frob))", 14, 4}, {"(module", 7, 0}, {"(module \"\\q\")", 10, 0}, {"(module) $\"x\"", 9, 4}, {"(module (@a", 9, 2},
                  {"(func (@custom \"a\"))", 6, 1}, {"(module (@custom 4))", 17, 1}, {"(@custom 4) (func frob)", 18, 4}};
    uint8_t out[CAPACITY] = {0};
    struct wat_answer given = wat_compile(bytes_of(named), 11, true, out, CAPACITY);
    size_t i;
    expect(given.status == WAT_GIVEN && given.needed == 19 && memcmp(out, binary, 19) == 0, "wat_compile", named);
    out[8] = '#';
    given = wat_compile(bytes_of(named), 11, false, out, CAPACITY);
    expect(given.status == WAT_GIVEN && given.needed == 8 && memcmp(out, binary, 8) == 0 && out[8] == '#', "wat_compile", named);
    expect(checked(named).status == WAT_ABSENT && checked("").status == WAT_ABSENT, "wat_check", named);
    expect(checked("(module) ;; \xe2\x80\xae").status == WAT_ABSENT, "wat_check", "U+202E");
    custom_sections();
    for (i = 0; i < sizeof errors / sizeof *errors; i++) {
        const char *text = errors[i].text;
        struct wat_checked error = checked(text);
        given = wat_compile(bytes_of(text), strlen(text), true, out, CAPACITY);
        expect(given.status == WAT_OTHER && given.needed == 0, "wat_compile", text);
        expect(error.status == WAT_GIVEN && error.offset == errors[i].offset && error.len == errors[i].len, "wat_check", text);
    }
}

/* Checks that a text has this formatted text, or this lexical error if `wanted` is null. */
static void formats(const char *text, bool allow, bool strict, const char *wanted, uint32_t status) {
    uint8_t out[CAPACITY] = {0};
    size_t len = wanted == NULL ? 0 : strlen(wanted);
    struct wat_answer given = wat_format(bytes_of(text), strlen(text), allow, strict, out, CAPACITY);
    expect(given.status == status && given.needed == len, "wat_format", text);
    expect(wanted == NULL || memcmp(out, wanted, len) == 0, "wat_format", text);
}

static void formatted(void) {
    formats("( module\n(func $f ;; a\n) )", false, false, "(module\n  (func $f ;; a\n  ))\n", WAT_GIVEN);
    formats("", false, false, "", WAT_GIVEN);
    formats(") x", false, false, ") x\n", WAT_GIVEN);
    formats("a \"\\q\"", false, false, NULL, WAT_INVALID_STRING_ESCAPE);
    formats(";; \xe2\x80\xae", false, false, NULL, WAT_CONFUSING_UNICODE);
    formats(";; \xe2\x80\xae", true, false, ";; \xe2\x80\xae\n", WAT_GIVEN);
    formats("\"\\u{6__1}\"", false, true, NULL, WAT_LONE_UNDERSCORE);
    formats("\"\\u{6__1}\"", false, false, "\"\\u{6__1}\"\n", WAT_GIVEN);
}

/* Checks that each kind and each error has its name, and that no other number has one. */
static void names(void) {
    static const char *const kinds[UINT8_MAX + 1] = {
        [WAT_LINE_COMMENT] = "LineComment", [WAT_BLOCK_COMMENT] = "BlockComment", [WAT_WHITESPACE] = "Whitespace", [WAT_LPAREN] = "LParen",
        [WAT_RPAREN] = "RParen", [WAT_STRING] = "String", [WAT_ID] = "Id", [WAT_KEYWORD] = "Keyword", [WAT_ANNOTATION] = "Annotation",
        [WAT_RESERVED] = "Reserved", [WAT_INTEGER] = "Integer", [WAT_INF] = "Float", [WAT_NAN] = "Float", [WAT_NAN_PAYLOAD] = "Float",
        [WAT_FLOAT] = "Float"};
    static const char *const faults[UINT8_MAX + 1] = {
        [WAT_DANGLING_BLOCK_COMMENT] = "DanglingBlockComment", [WAT_UNEXPECTED] = "Unexpected",
        [WAT_INVALID_STRING_ELEMENT] = "InvalidStringElement", [WAT_INVALID_STRING_ESCAPE] = "InvalidStringEscape",
        [WAT_INVALID_HEX_DIGIT] = "InvalidHexDigit", [WAT_INVALID_DIGIT] = "InvalidDigit", [WAT_EXPECTED] = "Expected",
        [WAT_UNEXPECTED_EOF] = "UnexpectedEof", [WAT_NUMBER_TOO_BIG] = "NumberTooBig", [WAT_INVALID_UNICODE_VALUE] = "InvalidUnicodeValue",
        [WAT_LONE_UNDERSCORE] = "LoneUnderscore", [WAT_CONFUSING_UNICODE] = "ConfusingUnicode", [WAT_INVALID_UTF8_ID] = "InvalidUtf8Id",
        [WAT_EMPTY_ID] = "EmptyId", [WAT_EMPTY_ANNOTATION] = "EmptyAnnotation"};
    uint32_t code;
    for (code = 0; code <= UINT8_MAX; code++) {
        const char *kind = kinds[code] != NULL ? kinds[code] : "", *fault = faults[code] != NULL ? faults[code] : "";
        expect(strcmp(wat_kind_name((uint8_t)code), kind) == 0, "wat_kind_name", kind);
        expect(strcmp(wat_fault_name(code), fault) == 0, "wat_fault_name", fault);
    }
    expect(wat_fault_name(UINT32_MAX)[0] == '\0', "wat_fault_name", "UINT32_MAX");
}

/* Checks the types of the functions that the header defines: a pointer to another type is an error with -Werror. */
static void types(void) {
    const char *(*const kind_name)(uint8_t) = wat_kind_name;
    const char *(*const fault_name)(uint32_t) = wat_fault_name;
    struct wat_token (*const token_at)(const uint8_t *, size_t, size_t, bool, bool) = wat_token_at_inline;
    expect(strcmp(kind_name(WAT_ID), "Id") == 0, "wat_kind_name", "WAT_ID");
    expect(strcmp(fault_name(WAT_EXPECTED), "Expected") == 0, "wat_fault_name", "WAT_EXPECTED");
    expect(token_at(bytes_of("(a"), 2, 0, false, false).kind.code == WAT_LPAREN, "wat_token_at_inline", "(a");
}

int main(void) {
    readers();
    tokens();
    covers();
    lines();
    shown();
    hidden();
    values();
    bits();
    parts();
    messages();
    modules();
    formatted();
    names();
    types();
    printf("answers: %u results compared, %u wrong\n", compared, wrong);
    return wrong == 0 ? 0 : 1;
}
