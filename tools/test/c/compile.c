/* Compiles the module on standard input, and writes its binary to standard output. If the text is not a module, prints the error. The exit status is 1 if
 * there is an error, and 2 if the text is not UTF-8 or has 1 MiB or more, or for any other failure. */
#include "wat.h"

#include <stdio.h>

static uint8_t text[1 << 20], out[1 << 23], message[1 << 10];

int main(void) {
    size_t len = fread(text, 1, sizeof text, stdin);
    struct wat_answer result;
    struct wat_checked error;
    if (len == sizeof text || !wat_is_text(text, len)) {
        return 2;
    }
    result = wat_compile(text, len, true, out, sizeof out);
    if (result.status == WAT_GIVEN && result.needed <= sizeof out) {
        return fwrite(out, 1, result.needed, stdout) == result.needed ? 0 : 2;
    }
    error = wat_check(text, len, true, message, sizeof message);
    if (error.status == WAT_GIVEN && error.needed <= sizeof message) {
        result = wat_print(text, len, error.offset, message, error.needed, message, 0, out, sizeof out);
        fprintf(stderr, "%.*s\n", result.needed <= sizeof out ? (int)result.needed : 0, (const char *)out);
        return 1;
    }
    return 2;
}
