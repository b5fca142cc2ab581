/* A library to preload into a program, which makes some of its allocations, reads and writes fail, and counts them. All other calls are forwarded to
 * the C library. These environment variables control it, each with a number N:
 *
 *   REFUSE_AT    the Nth allocation fails.
 *   REFUSE_FROM  the Nth allocation and all after it fail.
 *   FAIL_READ    the Nth read of standard input fails.
 *   FAIL_WRITE   the Nth write to standard output fails.
 *   MOST         each read of standard input and each write to standard output transfers at most N bytes.
 *   TELL         counts are written to the file descriptor N when the program ends.
 *
 * A reallocation that does not grow a block is not counted and does not fail; the sizes of all blocks are recorded to decide this. The counts are
 * those of allocations, opened files, reads, writes and writes to standard error; the bytes allocated, to which a growing block adds the bytes that it
 * grows by; the maximum of the bytes held at a time; and the bytes held at the end. The library includes no header, so that a compiler alone builds
 * it. */

typedef unsigned long size;

extern void *__libc_malloc(size bytes);
extern void *__libc_calloc(size count, size bytes);
extern void *__libc_realloc(void *block, size bytes);
extern void __libc_free(void *block);
extern void *__libc_memalign(size alignment, size bytes);
extern int __open(const char *name, int flags, int mode);
extern int __fcntl(int file, int command, long argument);
extern long __read(int file, void *bytes, size count);
extern long __write(int file, const void *bytes, size count);
extern int *__errno_location(void);
extern char *getenv(const char *name);
extern long atol(const char *text);
extern int dprintf(int file, const char *format, ...);

static long requests, opens, reads, writes, reports;
static size asked, held, most;

static long number(const char *name)
{
    const char *text = getenv(name);
    return text ? atol(text) : 0;
}

/* Counts an allocation. Returns 1, with errno set, if it must fail. */
static int is_refused(void)
{
    long at = number("REFUSE_AT");
    long from = number("REFUSE_FROM");
    int out_of_memory = 12;
    requests += 1;
    if (requests != at && (from == 0 || requests < from)) {
        return 0;
    }
    *__errno_location() = out_of_memory;
    return 1;
}

/* A hash table of the allocated blocks, by address. */
#define MOST_BLOCKS (1ul << 20)
#define GIVEN_BACK ((void *)1)

static struct { void *start; size bytes; } blocks[MOST_BLOCKS];
static size used;

/* Returns the index of a block in the table, or of a slot that never held a block. */
static size place_of(void *start)
{
    size at = (size)start / 16 * 2654435761ul % MOST_BLOCKS;
    while (blocks[at].start && blocks[at].start != start) {
        at = (at + 1) % MOST_BLOCKS;
    }
    return at;
}

/* Returns the index of a free slot for a block. Slots of freed blocks are reused, since many blocks have the same address one after another. */
static size free_place_of(void *start)
{
    size at = (size)start / 16 * 2654435761ul % MOST_BLOCKS;
    while (blocks[at].start && blocks[at].start != GIVEN_BACK) {
        at = (at + 1) % MOST_BLOCKS;
    }
    return at;
}

static void *kept(void *start, size bytes)
{
    if (start) {
        size at = free_place_of(start);
        used += blocks[at].start == 0;
        if (used == MOST_BLOCKS) {
            __builtin_trap();
        }
        blocks[at].start = start;
        blocks[at].bytes = bytes;
        held += bytes;
        most = held > most ? held : most;
    }
    return start;
}

static size bytes_of(void *start)
{
    size at = place_of(start);
    return blocks[at].start ? blocks[at].bytes : 0;
}

static void forget(void *start)
{
    size at = place_of(start);
    if (start && blocks[at].start) {
        held -= blocks[at].bytes;
        blocks[at].start = GIVEN_BACK;
        blocks[at].bytes = 0;
    }
}

void *malloc(size bytes)
{
    asked += bytes;
    return is_refused() ? 0 : kept(__libc_malloc(bytes), bytes);
}

void *calloc(size count, size bytes)
{
    asked += count * bytes;
    return is_refused() ? 0 : kept(__libc_calloc(count, bytes), count * bytes);
}

void *realloc(void *start, size bytes)
{
    size had = start ? bytes_of(start) : 0;
    void *moved;
    asked += bytes > had ? bytes - had : 0;
    if (bytes > had && is_refused()) {
        return 0;
    }
    moved = __libc_realloc(start, bytes);
    if (moved) {
        forget(start);
        kept(moved, bytes);
    }
    return moved;
}

void *aligned_alloc(size alignment, size bytes)
{
    asked += bytes;
    return is_refused() ? 0 : kept(__libc_memalign(alignment, bytes), bytes);
}

void free(void *start)
{
    forget(start);
    __libc_free(start);
}

/* Returns the number of bytes to transfer, at most `count`. */
static size at_most(size count)
{
    size most = number("MOST");
    return most > 0 && count > most ? most : count;
}

static long fail(void)
{
    int input_output_error = 5;
    *__errno_location() = input_output_error;
    return -1;
}

int open(const char *name, int flags, int mode)
{
    opens += 1;
    return __open(name, flags, mode);
}

/* Opens a file. Rust's standard library calls it by this name; on 64-bit systems it is the same function as `open`. */
int open64(const char *name, int flags, int mode)
{
    return open(name, flags, mode);
}

/* The file descriptors of standard input and output, or of the last duplicate of each, which a program built with cargo reads and writes. */
static int copies[2] = {0, 1};

int fcntl(int file, int command, long argument)
{
    int copy_to_close_on_exec = 1030;
    int made = __fcntl(file, command, argument);
    if (command == copy_to_close_on_exec && made > 0 && (file == 0 || file == 1)) {
        copies[file] = made;
    }
    return made;
}

long read(int file, void *bytes, size count)
{
    if (file != 0 && file != copies[0]) {
        return __read(file, bytes, count);
    }
    reads += 1;
    return reads == number("FAIL_READ") ? fail() : __read(file, bytes, at_most(count));
}

long write(int file, const void *bytes, size count)
{
    if (file != 1 && file != copies[1]) {
        reports += file == 2;
        return __write(file, bytes, count);
    }
    writes += 1;
    return writes == number("FAIL_WRITE") ? fail() : __write(file, bytes, at_most(count));
}

__attribute__((destructor)) static void tell(void)
{
    if (number("TELL")) {
        dprintf(number("TELL"), "requests=%ld opens=%ld reads=%ld writes=%ld reports=%ld asked=%lu most=%lu held=%lu\n", requests, opens, reads,
            writes, reports, asked, most, held);
    }
}
