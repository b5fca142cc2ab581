/* Lists the raw tokens of standard input as wat_tokens does: a line for each token, and a lexical error on standard error with status 1. */
#include "wat.h"

#include <stdio.h>
#include <stdlib.h>
#include <string.h>

enum { CAPACITY = 1024 };

static int fail(const char *why) {
    fprintf(stderr, "list: %s\n", why);
    return 2;
}

/* Reads all of standard input. Returns NULL if an allocation or a read fails. */
static uint8_t *read_all(size_t *len) {
    size_t capacity = 4096, read = 0;
    uint8_t *text = malloc(capacity);
    *len = 0;
    while (text != NULL && (read = fread(text + *len, 1, capacity - *len, stdin)) > 0) {
        *len += read;
        if (*len == capacity) {
            uint8_t *more = realloc(text, capacity *= 2);
            if (more == NULL) {
                free(text);
            }
            text = more;
        }
    }
    if (text != NULL && ferror(stdin)) {
        free(text);
        text = NULL;
    }
    return text;
}

/* Prints the lexical error at an offset, and returns the exit status. A first call returns the length of the buffer for the second. */
static int print_fault(const uint8_t *text, size_t len, size_t pos) {
    uint8_t none = 0, *shown;
    struct wat_answer answer = wat_fault(text, len, pos, false, false, &none, 0);
    if (answer.status != WAT_GIVEN || (shown = calloc(answer.needed + 1, 1)) == NULL) {
        return fail("no error to print");
    }
    answer = wat_fault(text, len, pos, false, false, shown, answer.needed);
    fwrite(shown, 1, answer.needed, stderr);
    fputc('\n', stderr);
    free(shown);
    return 1;
}

int main(void) {
    static struct wat_token tokens[CAPACITY];
    struct wat_filled filled = {0, 0, WAT_FULL};
    size_t len = 0, i;
    int status = 0;
    uint8_t *text = read_all(&len);
    if (text == NULL) {
        return fail("no input");
    }
    if (!wat_is_text(text, len)) {
        free(text);
        return fail("input is not UTF-8, or too long");
    }
    while (filled.why == WAT_FULL) {
        filled = wat_fill(text, len, filled.at, false, false, tokens, CAPACITY);
        for (i = 0; i < filled.count; i++) {
            printf("%zu..%zu %s\n", tokens[i].offset, tokens[i].offset + tokens[i].len, wat_kind_name(tokens[i].kind.code));
        }
    }
    if (filled.why != WAT_END) {
        fflush(stdout);
        status = print_fault(text, len, filled.at);
    }
    free(text);
    return status;
}
