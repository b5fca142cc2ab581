/* Compares `wat_token_at_inline` with `wat_token_at`, and checks that it calls that function for the tokens that wat.h says, and for no others. The
 * texts are one character for each first byte of a character, all pairs of these characters, and all triples of bytes that begin, end or continue
 * one-byte tokens. Each text is tried at each char boundary, under all settings. This file is valid C and C++.
 *
 * usage: tokens */
#define wat_token_at wat_token_at_counted /* the header's function calls this one */
#include "wat.h"
#undef wat_token_at

#include <stdio.h>
#include <stdlib.h>
#include <string.h>

#ifdef __cplusplus
extern "C" {
#endif
struct wat_token wat_token_at(const uint8_t *text, size_t len, size_t pos, bool allow, bool strict);
#ifdef __cplusplus
}
#endif

static unsigned long long places, found_inline, wrong;
static unsigned calls;

struct wat_token wat_token_at_counted(const uint8_t *text, size_t len, size_t pos, bool allow, bool strict) {
    calls++;
    return wat_token_at(text, len, pos, allow, strict);
}

static bool are_same(struct wat_token a, struct wat_token b) {
    return a.offset == b.offset && a.len == b.len && a.kind.code == b.kind.code && a.kind.sign == b.kind.sign &&
           a.kind.has_underscores == b.kind.has_underscores && a.kind.hex == b.kind.hex;
}

/* Returns `true` if a token must be found without a call. */
static bool is_short(const uint8_t *text, size_t len, struct wat_token token) {
    return token.len == 1 && token.offset + 1 < len && text[token.offset] != '\0' && strchr("(),;[]{} \t\n\r", text[token.offset]) != NULL;
}

static void compare(const uint8_t *text, size_t len, size_t pos, bool allow, bool strict) {
    struct wat_token wanted = wat_token_at(text, len, pos, allow, strict), given;
    unsigned wanted_calls = is_short(text, len, wanted) ? 0 : 1;
    calls = 0;
    given = wat_token_at_inline(text, len, pos, allow, strict);
    places++;
    found_inline += calls == 0;
    if (!are_same(wanted, given) || calls != wanted_calls) {
        printf("tokens: at %zu of", pos);
        while (len-- > 0) {
            printf(" %02x", *text++);
        }
        printf(": length %u, kind %u, %u calls\n", (unsigned)given.len, given.kind.code, calls);
        wrong++;
    }
}

/* Compares the functions at each char boundary of a text, in a block of exactly its size, so that a sanitizer reports a read after it. */
static void compare_all(const uint8_t *bytes, size_t len) {
    uint8_t *text = (uint8_t *)malloc(len);
    unsigned settings;
    size_t pos;
    if (text == NULL) {
        exit(2);
    }
    memcpy(text, bytes, len);
    for (pos = 0; pos <= len; pos++) {
        for (settings = 0; settings < 4 && wat_is_place(text, len, pos); settings++) {
            compare(text, len, pos, (settings & 1) != 0, (settings & 2) != 0);
        }
    }
    free(text);
}

/* Writes a character with this first byte, and returns its length, or 0 if there is none. */
static size_t character(unsigned first, uint8_t *out) {
    size_t len = first < 0x80 ? 1 : first < 0xc2 ? 0 : first < 0xe0 ? 2 : first < 0xf0 ? 3 : first < 0xf5 ? 4 : 0;
    /* After 0xe0 and 0xf0 the least second byte is that of U+0800 and of U+10000. */
    memset(out, first == 0xe0 ? 0xa0 : first == 0xf0 ? 0x90 : 0x80, 4);
    out[0] = (uint8_t)first;
    return len;
}

static void pairs(unsigned first) {
    uint8_t text[8];
    unsigned second;
    size_t len = character(first, text), more;
    if (len > 0) {
        compare_all(text, len);
    }
    for (second = 0; second < 256 && len > 0; second++) {
        more = character(second, text + len);
        if (more > 0) {
            compare_all(text, len + more);
        }
    }
}

static void triples(void) {
    static const uint8_t matter[] = "(),;[]{} \t\n\r@$\"a0_-\\~\x7f\x01";
    static const size_t count = sizeof matter; /* with the byte 0 */
    uint8_t text[3];
    size_t i;
    for (i = 0; i < count * count * count; i++) {
        text[0] = matter[i % count];
        text[1] = matter[i / count % count];
        text[2] = matter[i / count / count];
        compare_all(text, 3);
    }
}

int main(void) {
    unsigned first;
    for (first = 0; first < 256; first++) {
        pairs(first);
    }
    triples();
    printf("tokens: %llu offsets compared, %llu tokens found inline, %llu wrong\n", places, found_inline, wrong);
    return wrong == 0 && found_inline > 0 ? 0 : 1;
}
