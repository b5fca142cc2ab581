/* Prints each identifier of the text on standard input, after its byte offset. The exit status is 1 if there is a lexical error, and 2 if the text is
 * not UTF-8 or has 1 MiB or more. */
#include "wat.h"

#include <stdio.h>

int main(void) {
    static uint8_t text[1 << 20];
    static struct wat_token tokens[1024];
    struct wat_filled filled = {0, 0, WAT_FULL};
    size_t len = fread(text, 1, sizeof text, stdin), i;
    if (len == sizeof text || !wat_is_text(text, len)) {
        return 2;
    }
    while (filled.why == WAT_FULL) {
        filled = wat_fill(text, len, filled.at, false, false, tokens, 1024);
        for (i = 0; i < filled.count; i++) {
            if (tokens[i].kind.code == WAT_ID) {
                printf("%zu %.*s\n", tokens[i].offset, (int)tokens[i].len, (const char *)text + tokens[i].offset);
            }
        }
    }
    return filled.why == WAT_END ? 0 : 1;
}
