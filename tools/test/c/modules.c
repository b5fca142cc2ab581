/* Calls wat_compile, wat_check and wat_format. With files, it checks that the results agree with each other, for each file and for mutants of it, and that
 * each call writes its result and nothing else to a buffer of any capacity. Run it under the address and undefined-behavior sanitizers. Without files, it
 * prints the result of one function for the text on standard input, or makes calls whose memory a preloaded tools/lib/fail_allocations.c counts.
 *
 * usage: modules check MUTANTS FILE..
 *        modules binary | names | format    prints the binary in hexadecimal without or with a name section, or the error; or the formatted text
 *        modules repeat CALLS */
#include "wat.h"

#include <stdio.h>
#include <stdlib.h>
#include <string.h>

/* UNTOUCHED is the value of each byte of a buffer before a call, and CANARY the number of bytes after a buffer. */
enum { UNTOUCHED = '#', CANARY = 16, LARGEST = 1 << 20 };

#define PROGRAM "modules"
#include "testing.h"

static unsigned long long texts, modules, errors, formatted, calls, wrong;

static void expect(bool holds, const char *what) {
    if (!holds) {
        printf("modules: %s\n", what);
        wrong++;
    }
}

/* A function and its arguments: wat_compile, wat_check and wat_format. `first` is `names` or `allow`, and `second` is `strict`. */
struct call {
    enum { COMPILE, CHECK, FORMAT } function;
    bool first, second;
};

/* The members of the results of all three functions. */
struct result {
    size_t needed, offset, len;
    uint32_t status;
};

static struct result make(struct call call, const uint8_t *text, size_t len, uint8_t *out, size_t capacity) {
    struct result result = {0, 0, 0, 0};
    calls++;
    if (call.function == CHECK) {
        struct wat_checked checked = wat_check(text, len, call.first, out, capacity);
        result.needed = checked.needed;
        result.offset = checked.offset;
        result.len = checked.len;
        result.status = checked.status;
    } else {
        struct wat_answer answer = call.function == COMPILE ? wat_compile(text, len, call.first, out, capacity)
                                                            : wat_format(text, len, call.first, call.second, out, capacity);
        result.needed = answer.needed;
        result.status = answer.status;
    }
    return result;
}

static bool is_untouched(const uint8_t *bytes, size_t from, size_t to) {
    while (from < to && bytes[from] == UNTOUCHED) {
        from++;
    }
    return from == to;
}

/* Checks that a call with a buffer of this capacity returns the result `wanted`, and writes its bytes, and nothing else. */
static void call_with(struct call call, const uint8_t *text, size_t len, struct result wanted, const uint8_t *bytes, size_t capacity) {
    uint8_t *out = block_of(capacity + CANARY);
    struct result result = make(call, text, len, out, capacity);
    size_t written = wanted.needed <= capacity ? wanted.needed : 0;
    expect(result.needed == wanted.needed && result.status == wanted.status, "a buffer of another length has another result");
    expect(result.offset == wanted.offset && result.len == wanted.len, "a buffer of another length has another error");
    expect(memcmp(out, bytes, written) == 0, "a buffer of another length has other bytes");
    expect(is_untouched(out, written, capacity + CANARY), "bytes after the result are written");
    free(out);
}

/* Makes a call with buffers whose lengths are around that of the result, and a few others. Returns the result; the caller frees its bytes. */
static struct result call_all(struct call call, const uint8_t *text, size_t len, uint8_t **bytes) {
    uint8_t none = 0;
    struct result wanted = make(call, text, len, &none, 0), again;
    size_t needed = wanted.needed, capacity;
    *bytes = block_of(needed);
    again = make(call, text, len, *bytes, needed);
    expect(again.needed == needed && again.status == wanted.status, "a second call has another result");
    for (capacity = needed > 3 ? needed - 3 : 0; capacity < needed + 3; capacity++) {
        call_with(call, text, len, wanted, *bytes, capacity);
    }
    call_with(call, text, len, wanted, *bytes, 0);
    call_with(call, text, len, wanted, *bytes, needed / 2);
    call_with(call, text, len, wanted, *bytes, 2 * needed + 1);
    return wanted;
}

/* Checks that wat_check reports an error if and only if wat_compile fails, within the text, and at a token unless its length is 0. */
static void compile(const uint8_t *text, size_t len, bool names) {
    const struct call compiling = {COMPILE, names, false}, checking = {CHECK, names, false};
    uint8_t *binary, *message;
    struct result module = call_all(compiling, text, len, &binary), error = call_all(checking, text, len, &message);
    if (module.status == WAT_GIVEN) {
        modules++;
        expect(module.needed >= 8 && memcmp(binary, "\0asm\1\0\0", 8) == 0, "a binary has no header");
        expect(error.status == WAT_ABSENT && error.needed == 0 && error.offset == 0 && error.len == 0, "a module has an error");
    } else {
        errors++;
        expect(module.status == WAT_OTHER && module.needed == 0, "an error has another status");
        expect(error.status == WAT_GIVEN && error.needed > 0 && error.offset <= len && error.len <= len - error.offset, "an error is not in the text");
        expect(error.len == 0 || wat_token_at(text, len, error.offset, true, true).len == error.len, "an error has the length of no token");
    }
    free(binary);
    free(message);
}

/* Checks that a formatted text is its own formatted text, and that a text is rejected with the code of its first lexical error. */
static void format(const uint8_t *text, size_t len, bool allow, bool strict) {
    const struct call call = {FORMAT, allow, strict};
    struct wat_filled filled = {0, 0, WAT_FULL};
    struct wat_token tokens[64] = {{0, 0, {0, 0, false, false}}};
    uint8_t *bytes, *again;
    struct result result = call_all(call, text, len, &bytes);
    while (filled.why == WAT_FULL) {
        filled = wat_fill(text, len, filled.at, allow, strict, tokens, 64);
    }
    expect(result.status == filled.why, "a text has another lexical error");
    if (result.status == WAT_GIVEN) {
        struct result second = call_all(call, bytes, result.needed, &again);
        formatted++;
        expect(second.needed == result.needed && memcmp(bytes, again, result.needed) == 0, "a formatted text is formatted otherwise");
        free(again);
    }
    free(bytes);
}

static void read_text(const uint8_t *text, size_t len) {
    unsigned flags;
    if (!wat_is_text(text, len)) {
        return;
    }
    texts++;
    for (flags = 0; flags < 4; flags++) {
        format(text, len, (flags & 1) != 0, (flags & 2) != 0);
    }
    compile(text, len, false);
    compile(text, len, true);
}

/* Reads a text, and mutants of it: bytes removed, doubled or replaced by those of tokens. The copies have no byte after their end. */
static void read_mutants(const uint8_t *text, size_t len, unsigned long mutants) {
    static const char bytes[] = "()\"$;@ 0a\\";
    for (; mutants > 0; mutants--) {
        size_t at = len == 0 ? 0 : (size_t)(next_random() % len), count = len - at < 3 ? len - at : (size_t)(next_random() % 4);
        bool doubles = next_random() % 2 == 0;
        size_t rest = doubles ? at : at + count, size = at + len - rest;
        uint8_t *copy = block_of(size);
        memcpy(copy, text, at);
        memcpy(copy + at, text + rest, len - rest);
        if (size > 0 && next_random() % 2 == 0) {
            copy[next_random() % size] = (uint8_t)bytes[next_random() % (sizeof bytes - 1)];
        }
        read_text(copy, size);
        free(copy);
    }
}

static size_t read_file(FILE *file, uint8_t *text) {
    size_t len = file == NULL ? LARGEST : fread(text, 1, LARGEST, file);
    if (len == LARGEST) {
        fputs("modules: a text cannot be read, or has 1 MiB or more\n", stderr);
        exit(2);
    }
    return len;
}

static int check(unsigned long mutants, char **names, uint8_t *text) {
    for (; *names != NULL; names++) {
        FILE *file = fopen(*names, "rb");
        size_t len = read_file(file, text);
        uint8_t *copy = block_of(len);
        fclose(file);
        memcpy(copy, text, len);
        read_text(copy, len);
        read_mutants(copy, len, mutants);
        free(copy);
    }
    printf("modules: %llu texts, %llu modules and %llu errors, %llu formatted, %llu calls, %llu wrong\n", texts, modules, errors, formatted, calls, wrong);
    return wrong == 0 && modules > 0 && errors > 0 && formatted > 0 ? 0 : 1;
}

/* Prints the formatted text, or nothing if there is a lexical error. */
static int print_formatted(const uint8_t *text, size_t len) {
    const struct call call = {FORMAT, false, false};
    uint8_t *bytes;
    struct result result = call_all(call, text, len, &bytes);
    fwrite(bytes, 1, result.needed, stdout);
    free(bytes);
    return result.status == WAT_GIVEN ? 0 : 1;
}

/* Prints the binary in hexadecimal, or the message of the error and its offset, like the results of tests/modules.txt. */
static int print_module(const uint8_t *text, size_t len, bool names) {
    const struct call compiling = {COMPILE, names, false}, checking = {CHECK, names, false};
    uint8_t *bytes, *message;
    struct result module = call_all(compiling, text, len, &bytes), error = call_all(checking, text, len, &message);
    size_t i;
    for (i = 0; i < module.needed; i++) {
        printf("%02x", bytes[i]);
    }
    if (error.status == WAT_GIVEN) {
        printf("%.*s at %zu", (int)error.needed, (const char *)message, error.offset);
    }
    putchar('\n');
    free(bytes);
    free(message);
    return 0;
}

/* Makes calls for texts with and without errors. */
static int repeat(unsigned long count) {
    static const char *const sources[] = {"(module $m (func $f (export \"a\") (result i32) (i32.const 1)))", "(module (func frob))", "(module \"", "",
                                          "(memory 1) (data (i32.const 0) \"a\\62\") ;; \"", "(@a (module"};
    static const struct call functions[] = {{COMPILE, true, false}, {CHECK, false, false}, {FORMAT, true, false}};
    uint8_t out[256] = {0};
    unsigned long i;
    for (i = 0; i < count; i++) {
        const char *source = sources[i / 3 % (sizeof sources / sizeof *sources)];
        make(functions[i % 3], (const uint8_t *)source, strlen(source), out, sizeof out);
    }
    printf("modules: %llu calls\n", calls);
    return 0;
}

int main(int argc, char **argv) {
    static uint8_t text[LARGEST];
    static char buffer[BUFSIZ];
    const char *mode = argc > 1 ? argv[1] : "";
    size_t len;
    setvbuf(stdout, buffer, _IOFBF, sizeof buffer);
    if (argc > 3 && strcmp(mode, "check") == 0) {
        return check(strtoul(argv[2], NULL, 10), argv + 3, text);
    }
    if (argc == 3 && strcmp(mode, "repeat") == 0) {
        return repeat(strtoul(argv[2], NULL, 10));
    }
    if (argc != 2) {
        return 2;
    }
    len = read_file(stdin, text);
    if (strcmp(mode, "format") == 0) {
        return print_formatted(text, len) + (int)wrong;
    }
    return print_module(text, len, strcmp(mode, "names") == 0) + (int)wrong;
}
