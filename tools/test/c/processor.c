/* Terminates a program before `main`, with a message, if the processor lacks an instruction set of x86-64-v2. Without this check an unsupported
 * instruction would terminate the program later, without a message. */
#include <cpuid.h>
#include <stdio.h>
#include <stdlib.h>

__attribute__((constructor)) static void check_processor(void) {
    const unsigned wanted = bit_SSE3 | bit_SSSE3 | bit_CMPXCHG16B | bit_SSE4_1 | bit_SSE4_2 | bit_POPCNT;
    unsigned a, b, c = 0, d;
    if (!__get_cpuid(1, &a, &b, &c, &d) || (c & wanted) != wanted) {
        fputs("libwat: this library is compiled for x86-64-v2, and the processor lacks SSE4.2 or another part of it\n", stderr);
        abort();
    }
}
