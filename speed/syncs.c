/* Preloaded: adds up how long calls of fsync take, and writes that in microseconds to the file SYNCS when the process ends. */
#define _GNU_SOURCE
#include <stdio.h>
#include <stdlib.h>
#include <sys/syscall.h>
#include <time.h>
#include <unistd.h>

static long long spent;

static long long now(void) {
    struct timespec at;
    clock_gettime(CLOCK_MONOTONIC, &at);
    return at.tv_sec * 1000000LL + at.tv_nsec / 1000;
}

int fsync(int file) {
    long long begun = now();
    int result = syscall(SYS_fsync, file);
    spent += now() - begun;
    return result;
}

__attribute__((destructor)) static void tell(void) {
    const char *path = getenv("SYNCS");
    FILE *file = path ? fopen(path, "w") : NULL;
    if (!file) return;
    fprintf(file, "%lld\n", spent);
    fclose(file);
}
