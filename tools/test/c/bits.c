/* Reads the lines that floats.c prints: a number, and its bits according to `strtof` and `strtod`, with `-` for infinity and `?` for any bits. Checks
 * that the functions of wat.h return these bits, or WAT_OUT_OF_RANGE for infinity. Prints the number of lines.
 *
 * usage: floats COUNT | bits */
#include "wat.h"

#include <stdio.h>
#include <stdlib.h>
#include <string.h>

/* Returns `true` if a status and bits are those of the line. */
static bool fits(const char *wanted, uint32_t status, uint64_t bits) {
    if (wanted[0] == '?') {
        return status == WAT_GIVEN;
    }
    if (wanted[0] == '-') {
        return status == WAT_OUT_OF_RANGE && bits == 0;
    }
    return status == WAT_GIVEN && bits == strtoull(wanted, NULL, 16);
}

/* Returns `true` if the functions return the bits of the line. */
static bool agrees(const char *number, const char *single, const char *twice) {
    const uint8_t *text = (const uint8_t *)number;
    size_t len = strlen(number);
    struct wat_row row = {0, 0, {0, 0, false, false}, 0};
    struct wat_bits32 few, few_there;
    struct wat_bits64 many, many_there;
    wat_rows(text, len, 0, false, false, &row, 1);
    few = wat_f32_of(text, len, &row);
    many = wat_f64_of(text, len, &row);
    few_there = wat_f32(text, len, 0, false, false);
    many_there = wat_f64(text, len, 0, false, false);
    return fits(single, few.status, few.bits) && fits(twice, many.status, many.bits) && fits(single, few_there.status, few_there.bits) &&
           fits(twice, many_there.status, many_there.bits);
}

int main(void) {
    static char number[160], single[32], twice[32];
    unsigned long count = 0;
    while (scanf("%159s %31s %31s", number, single, twice) == 3) {
        if (!agrees(number, single, twice)) {
            printf("bits: %s has other bits than %s and %s\n", number, single, twice);
            return 1;
        }
        count++;
    }
    printf("bits: %lu numbers\n", count);
    return count > 0 ? 0 : 1;
}
