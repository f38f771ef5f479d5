// Preloaded into test_std, counts the blocks that the program holds, and refuses one allocation of each call if SEED is set. The program
// writes no bytes to begin a call and to end it. Which allocation is refused comes from the call's number and from SEED.
//
// Whenever the program writes an answer, it holds its input, that answer and what it held from its start. So it holds as many blocks as at
// the answer before, unless the call has lost one. At the end, file descriptor 9 gets how many answers held another number.
#define _GNU_SOURCE
#include <errno.h>
#include <stdio.h>
#include <stdlib.h>
#include <sys/syscall.h>
#include <unistd.h>

// A call has one of so many allocations refused, if it makes so many.
enum { MOST = 40 };

extern void *__libc_malloc(size_t), *__libc_calloc(size_t, size_t), *__libc_realloc(void *, size_t), *__libc_memalign(size_t, size_t);
extern void __libc_free(void *);

static unsigned long calls, allocations, refused, answers, lost;
static long blocks, blocks_before;
static int is_call;

static void begin(void) {
    const char *seed = getenv("SEED");
    unsigned long number = (seed ? strtoul(seed, NULL, 10) : 0) * 1000003 + ++calls;
    number = (number ^ number >> 15) * 0x9E3779B97F4A7C15UL;
    refused = seed ? (number >> 40) % MOST + 1 : 0;
    allocations = 0;
}

static void compare_blocks(void) {
    if (answers > 0 && blocks != blocks_before) {
        lost += 1;
    }
    answers += 1;
    blocks_before = blocks;
}

ssize_t write(int file, const void *bytes, size_t count) {
    if (file == 1 && count == 0) {
        is_call = !is_call;
        if (is_call) {
            begin();
        }
        return 0;
    }
    if (file == 1) {
        compare_blocks();
    }
    return syscall(SYS_write, file, bytes, count);
}

static int is_refused(void) {
    if (!is_call || ++allocations != refused) {
        return 0;
    }
    errno = ENOMEM;
    return 1;
}

static void *counted(void *block) {
    blocks += block != NULL;
    return block;
}

void *malloc(size_t size) { return is_refused() ? NULL : counted(__libc_malloc(size)); }

void *calloc(size_t count, size_t size) { return is_refused() ? NULL : counted(__libc_calloc(count, size)); }

void *memalign(size_t align, size_t size) { return is_refused() ? NULL : counted(__libc_memalign(align, size)); }

void *aligned_alloc(size_t align, size_t size) { return memalign(align, size); }

int posix_memalign(void **block, size_t align, size_t size) {
    *block = memalign(align, size);
    return *block ? 0 : ENOMEM;
}

void *realloc(void *old, size_t size) {
    if (is_refused()) {
        return NULL;
    }
    if (!old) {
        return counted(__libc_realloc(old, size));
    }
    blocks -= size == 0;
    return __libc_realloc(old, size);
}

void free(void *block) {
    blocks -= block != NULL;
    __libc_free(block);
}

__attribute__((destructor)) static void tell(void) { dprintf(9, "%lu of %lu answers\n", lost, answers); }
