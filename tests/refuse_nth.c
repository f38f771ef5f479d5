// Preloaded into a program, makes allocations fail. REFUSED=N fails the Nth one, counted from 1; REFUSED=N- fails the Nth
// and all after it. When the program ends, writes `refused` or `whole` to file descriptor 9, whether one failed, and how
// many allocations there were.
#define _GNU_SOURCE
#include <dlfcn.h>
#include <errno.h>
#include <stdio.h>
#include <stdlib.h>

static unsigned long number, first, last;

static void read_numbers(void) {
    if (first == 0) {
        char *end = "", *text = getenv("REFUSED");
        first = text ? strtoul(text, &end, 10) : (unsigned long)-1;
        last = *end == '-' ? (unsigned long)-1 : first;
    }
}

static int is_refused(void) {
    read_numbers();
    number += 1;
    if (number < first || number > last) {
        return 0;
    }
    errno = ENOMEM;
    return 1;
}

void *malloc(size_t size) {
    static void *(*next)(size_t);
    if (!next) {
        next = (void *(*)(size_t))dlsym(RTLD_NEXT, "malloc");
    }
    return is_refused() ? NULL : next(size);
}

void *realloc(void *old, size_t size) {
    static void *(*next)(void *, size_t);
    if (!next) {
        next = (void *(*)(void *, size_t))dlsym(RTLD_NEXT, "realloc");
    }
    return is_refused() ? NULL : next(old, size);
}

__attribute__((destructor)) static void tell(void) {
    read_numbers();
    dprintf(9, "%s %lu\n", number >= first ? "refused" : "whole", number);
}
