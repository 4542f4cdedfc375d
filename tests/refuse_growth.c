/* Preloaded by the tests: refuses the growth of memory with the number REFUSE (counted from 1), and writes the number of
   growths that were asked for to the file REFUSE_COUNT when the process ends. */
#define _GNU_SOURCE
#include <dlfcn.h>
#include <stddef.h>
#include <stdlib.h>
#include <stdio.h>
#include <errno.h>

static void *(*next_malloc)(size_t);
static void *(*next_realloc)(void *, size_t);
static void *(*next_aligned)(size_t, size_t);
static long refused;
static long asked;

static void find(void) {
    const char *word = getenv("REFUSE");
    next_malloc = dlsym(RTLD_NEXT, "malloc");
    next_realloc = dlsym(RTLD_NEXT, "realloc");
    next_aligned = dlsym(RTLD_NEXT, "aligned_alloc");
    refused = word ? strtol(word, NULL, 10) : 0;
}

static int refuses(void) {
    if (!next_malloc) find();
    if (++asked == refused) {
        errno = ENOMEM;
        return 1;
    }
    return 0;
}

void *malloc(size_t size) { return refuses() ? NULL : next_malloc(size); }
void *realloc(void *old, size_t size) { return refuses() ? NULL : next_realloc(old, size); }
void *aligned_alloc(size_t align, size_t size) { return refuses() ? NULL : next_aligned(align, size); }

__attribute__((destructor)) static void tell(void) {
    const char *path = getenv("REFUSE_COUNT");
    long count = asked;
    if (path) {
        FILE *file = fopen(path, "w");
        if (file) {
            fprintf(file, "%ld\n", count);
            fclose(file);
        }
    }
}
