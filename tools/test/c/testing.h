/* Random numbers and blocks of memory, for the programs of this folder that generate mutants. Before including it a program defines PROGRAM, its name in
 * messages, and UNTOUCHED, the value of each byte of a new block. */
#ifndef TESTING_H
#define TESTING_H

#include <stdint.h>
#include <stdio.h>
#include <stdlib.h>
#include <string.h>

static uint64_t seed = 88172645463325252u;

/* Returns the next number of a xorshift generator. */
static uint64_t next_random(void) {
    seed ^= seed << 13;
    seed ^= seed >> 7;
    seed ^= seed << 17;
    return seed;
}

/* Returns a new block, of one byte if its length is 0. Ends the program if the allocation fails. */
static void *block_of(size_t bytes) {
    void *block = malloc(bytes == 0 ? 1 : bytes);
    if (block == NULL) {
        fputs(PROGRAM ": no memory\n", stderr);
        exit(2);
    }
    memset(block, UNTOUCHED, bytes == 0 ? 1 : bytes);
    return block;
}

#endif
