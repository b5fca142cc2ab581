/* The three functions with which an archive of Rattle's compilers allocates, implemented with those of the C library. The toolchain provides them
 * only for x86-64. Blocks have the alignment of `malloc`. An allocation of 0 bytes allocates `align` bytes. */
#include <stdlib.h>

struct answer {
    size_t given;
    void *block;
};

static unsigned char nothing;

static struct answer answer_of(void *block) {
    struct answer answer = {block != NULL, block != NULL ? block : &nothing};
    return answer;
}

struct answer rattle_alloc(size_t size, size_t align);
struct answer rattle_realloc(void *block, size_t old_size, size_t size, size_t align);
void rattle_dealloc(void *block);

struct answer rattle_alloc(size_t size, size_t align) {
    return answer_of(malloc(size != 0 ? size : align));
}

struct answer rattle_realloc(void *block, size_t old_size, size_t size, size_t align) {
    (void)old_size;
    return answer_of(realloc(block, size != 0 ? size : align));
}

void rattle_dealloc(void *block) {
    free(block);
}
