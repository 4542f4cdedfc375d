/* Preloaded by the tests: one device of the program fails as it is told to. By these variables:
     DEVICE      the path by which the program opens it, `answers` for standard output, or `saved` for the new file that
                 the program makes beside OUT
     STEP        so many bytes at most in each read or write
     FAIL_CALL   the read or write with this number fails, counted from 1
     HOLDS       a write takes no more once the device holds so many bytes: the first that could take none fails
     GIVES       likewise of reads, once so many bytes were given
     NO_BYTES    the write with this number takes 0 bytes
     FAULT       the errno of the failure, by default that of a broken device (EIO)
   It fails once, and works again: a program that tries again shows it by what it does then. */
#define _GNU_SOURCE
#include <errno.h>
#include <fcntl.h>
#include <limits.h>
#include <stdarg.h>
#include <stdlib.h>
#include <string.h>
#include <sys/syscall.h>
#include <unistd.h>

static const char *name;
static long step, fail_call, holds, gives, no_bytes, fault;
static int device = -1;
static long calls, done, failed;

static long number(const char *variable, long otherwise) {
    const char *word = getenv(variable);
    return word ? strtol(word, NULL, 10) : otherwise;
}

__attribute__((constructor)) static void begin(void) {
    name = getenv("DEVICE");
    step = number("STEP", LONG_MAX);
    fail_call = number("FAIL_CALL", 0);
    holds = number("HOLDS", LONG_MAX);
    gives = number("GIVES", LONG_MAX);
    no_bytes = number("NO_BYTES", 0);
    fault = number("FAULT", EIO);
    if (name && !strcmp(name, "answers")) device = 1;
}

/* How many of the bytes this call may take or give, of `most` in all; below 0 where it fails. */
static long share(long wanted, long most) {
    long some = wanted < step ? wanted : step;
    calls++;
    if (failed) return some;
    if (calls == fail_call || (wanted > 0 && done >= most)) {
        failed = 1;
        errno = fault;
        return -1;
    }
    if (calls == no_bytes) return 0;
    return some < most - done ? some : most - done;
}

int open(const char *path, int flags, ...) {
    va_list rest;
    int mode, file;
    va_start(rest, flags);
    mode = flags & O_CREAT ? va_arg(rest, int) : 0;
    va_end(rest);
    file = syscall(SYS_openat, AT_FDCWD, path, flags, mode);
    if (file >= 0 && name && (!strcmp(name, path) || (!strcmp(name, "saved") && flags & O_CREAT && strstr(path, ".segywb-")))) device = file;
    return file;
}

int close(int file) {
    if (file == device) device = -1;
    return syscall(SYS_close, file);
}

ssize_t read(int file, void *bytes, size_t count) {
    ssize_t given;
    if (file != device) return syscall(SYS_read, file, bytes, count);
    given = share(count, gives);
    if (given > 0) given = syscall(SYS_read, file, bytes, given);
    if (given > 0) done += given;
    return given;
}

/* Reads by place count as reads do. */
ssize_t pread(int file, void *bytes, size_t count, off_t at) {
    ssize_t given;
    if (file != device) return syscall(SYS_pread64, file, bytes, count, at);
    given = share(count, gives);
    if (given > 0) given = syscall(SYS_pread64, file, bytes, given, at);
    if (given > 0) done += given;
    return given;
}

ssize_t pread64(int file, void *bytes, size_t count, off_t at) { return pread(file, bytes, count, at); }

ssize_t write(int file, const void *bytes, size_t count) {
    ssize_t taken;
    if (file != device) return syscall(SYS_write, file, bytes, count);
    taken = share(count, holds);
    if (taken > 0) taken = syscall(SYS_write, file, bytes, taken);
    if (taken > 0) done += taken;
    return taken;
}

ssize_t __write(int file, const void *bytes, size_t count) { return write(file, bytes, count); }
