/* Prints hexadecimal and decimal floating-point numbers, one per line, each with the bits that `strtof` and `strtod` return, or `-` if they return
 * infinity. Many are close to a midpoint, subnormal, or close to the greatest finite number. For a subnormal hexadecimal number it prints `?`,
 * since the GNU C library rounds some of them incorrectly (its bug 30220).
 *
 * usage: floats COUNT
 */
#include <inttypes.h>
#include <math.h>
#include <stdio.h>
#include <stdlib.h>
#include <string.h>

static uint64_t state = 0x9e3779b97f4a7c15u;

/* Returns a pseudorandom number below `bound`, from a fixed seed. */
static uint64_t below(uint64_t bound) {
    state ^= state << 13;
    state ^= state >> 7;
    state ^= state << 17;
    return (state >> 11) % bound;
}

/* Returns an exponent close to a limit of one of the formats, or any exponent. */
static int exponent(int hex) {
    static const int binary[] = {0, 127, -126, -149, 1023, -1022, -1074};
    static const int decimal[] = {0, 38, -38, -45, 308, -308, -324};
    int edge = (hex ? binary : decimal)[below(7)];
    return edge + (int)below(hex ? 160 : 40) - (hex ? 80 : 20);
}

/* Writes `count` digits, and a null byte. A run of the least or the greatest digit comes first, so that many numbers are close to a midpoint. */
static void put_digits(char *text, int hex, size_t count) {
    size_t same = below(count + 1);
    int digit = (int)below(3) == 0 ? (hex ? 15 : 9) : 0;
    for (size_t at = 0; at < count; at++) {
        int here = at < same ? digit : (int)below(hex ? 16 : 10);
        text[at] = "0123456789abcdef"[here];
    }
    text[count] = 0;
}

static void put_number(char *text, size_t capacity) {
    char integral[32], fractional[64];
    int hex = (int)below(2);
    put_digits(integral, hex, 1 + below(20));
    put_digits(fractional, hex, below(40));
    /* The exponent is reduced by the weight of the integral digits, so that the number is close to the limit. */
    int moved = (int)strlen(integral) * (hex ? 4 : 1);
    snprintf(text, capacity, "%s%s%s.%s%c%d", below(2) ? "-" : "", hex ? "0x" : "", integral, fractional, hex ? 'p' : 'e', exponent(hex) - moved);
}

/* Prints the bits of a number in hexadecimal, `-` for infinity, or `?` for a subnormal number if `hex`. */
static void print_bits(int hex, int class, uint64_t bits) {
    if (class == FP_INFINITE) printf(" -");
    else if (hex && class == FP_SUBNORMAL) printf(" ?");
    else printf(" %" PRIx64, bits);
}

int main(int count, char **words) {
    long numbers = count > 1 ? atol(words[1]) : 10000;
    for (long number = 0; number < numbers; number++) {
        char text[160];
        put_number(text, sizeof text);
        float single = strtof(text, NULL);
        double twice = strtod(text, NULL);
        uint32_t single_bits;
        uint64_t double_bits;
        memcpy(&single_bits, &single, sizeof single);
        memcpy(&double_bits, &twice, sizeof twice);
        int hex = strchr(text, 'x') != NULL;
        printf("%s", text);
        print_bits(hex, fpclassify(single), single_bits);
        print_bits(hex, fpclassify(twice), double_bits);
        printf("\n");
    }
    return 0;
}
