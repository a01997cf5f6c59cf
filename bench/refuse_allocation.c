// Refuses one allocation of a program that is run with this library in LD_PRELOAD: the one whose number, from 1, is in
// REFUSED_ALLOCATION (none if that is 0). The number of allocations is written to the file that ALLOCATIONS names, as
// the program ends.
#define _GNU_SOURCE
#include <dlfcn.h>
#include <errno.h>
#include <fcntl.h>
#include <stdio.h>
#include <stdlib.h>
#include <unistd.h>

static void *(*next_malloc)(size_t);
static void *(*next_realloc)(void *, size_t);
static long count;
static long refused;
static const char *path;

static void begin(void) {
    if (next_realloc)
        return;
    next_malloc = (void *(*)(size_t))dlsym(RTLD_NEXT, "malloc");
    next_realloc = (void *(*)(void *, size_t))dlsym(RTLD_NEXT, "realloc");
}

// What is allocated before `main` is not counted.
__attribute__((constructor)) static void count_from_here(void) {
    const char *number = getenv("REFUSED_ALLOCATION");
    begin();
    path = getenv("ALLOCATIONS");
    refused = number ? atol(number) : 0;
    count = 0;
}

__attribute__((destructor)) static void tell(void) {
    char text[24];
    int length = snprintf(text, sizeof text, "%ld\n", count);
    int file = path ? open(path, O_WRONLY | O_CREAT | O_TRUNC, 0600) : -1;
    if (file < 0 || write(file, text, length) != length)
        _exit(99);
    close(file);
}

static int is_refused(void) {
    if (++count != refused)
        return 0;
    errno = ENOMEM;
    return 1;
}

void *malloc(size_t size) {
    begin();
    return is_refused() ? NULL : next_malloc(size);
}

void *realloc(void *block, size_t size) {
    begin();
    return is_refused() ? NULL : next_realloc(block, size);
}
