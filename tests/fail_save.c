/* Preloaded by the tests: one call of a save fails. By these variables:
     FAIL_CALL  the name of the call: open, write, pread, pwrite, fsync, flock, fchown, fchmod, close, rename, unlink, stat, fstat,
                realpath
     FAIL_NTH   the call with this number fails, counted from 1
     FAIL_ALL   if set, all later ones fail too
     FAULT      the errno of the failure, by default that of a broken device (EIO)
     DONE       a file that is made once the call has failed
   Of `open` those calls alone count that are to a folder or to a file that is not there yet, of `write` and `close` those of the
   file that was made last: the others are not the save's. */
#define _GNU_SOURCE
#include <dlfcn.h>
#include <errno.h>
#include <fcntl.h>
#include <stdarg.h>
#include <stdlib.h>
#include <string.h>
#include <sys/stat.h>
#include <sys/syscall.h>
#include <unistd.h>

static const char *call, *done;
static long nth, all, fault, calls;
static int made = -1;

static long number(const char *variable, long otherwise) {
    const char *word = getenv(variable);
    return word ? strtol(word, NULL, 10) : otherwise;
}

__attribute__((constructor)) static void begin(void) {
    call = getenv("FAIL_CALL");
    nth = number("FAIL_NTH", 0);
    all = number("FAIL_ALL", 0);
    fault = number("FAULT", EIO);
    done = getenv("DONE");
}

/* Whether this call fails; the errno is then set. */
static int fails(const char *name) {
    if (!call || strcmp(call, name)) return 0;
    calls++;
    if (calls != nth && !(all && calls > nth)) return 0;
    if (done) syscall(SYS_close, syscall(SYS_openat, AT_FDCWD, done, O_WRONLY | O_CREAT, 0666));
    errno = fault;
    return 1;
}

int open(const char *path, int flags, ...) {
    va_list rest;
    int mode, file;
    struct stat about;
    va_start(rest, flags);
    mode = flags & O_CREAT ? va_arg(rest, int) : 0;
    va_end(rest);
    if (flags & O_CREAT ? 1 : syscall(SYS_newfstatat, AT_FDCWD, path, &about, 0) == 0 && S_ISDIR(about.st_mode))
        if (fails("open")) return -1;
    file = syscall(SYS_openat, AT_FDCWD, path, flags, mode);
    if (file >= 0 && flags & O_CREAT) made = file;
    return file;
}

ssize_t write(int file, const void *bytes, size_t count) {
    if (file == made && fails("write")) return -1;
    return syscall(SYS_write, file, bytes, count);
}

ssize_t __write(int file, const void *bytes, size_t count) { return write(file, bytes, count); }

ssize_t pread(int file, void *bytes, size_t count, off_t at) {
    return fails("pread") ? -1 : syscall(SYS_pread64, file, bytes, count, at);
}

ssize_t pread64(int file, void *bytes, size_t count, off_t at) { return pread(file, bytes, count, at); }

ssize_t pwrite(int file, const void *bytes, size_t count, off_t at) {
    return fails("pwrite") ? -1 : syscall(SYS_pwrite64, file, bytes, count, at);
}

ssize_t pwrite64(int file, const void *bytes, size_t count, off_t at) { return pwrite(file, bytes, count, at); }

int flock(int file, int how) { return fails("flock") ? -1 : syscall(SYS_flock, file, how); }

int close(int file) {
    int is_made = file == made;
    if (is_made) made = -1;
    syscall(SYS_close, file);
    return is_made && fails("close") ? -1 : 0;
}

int fsync(int file) { return fails("fsync") ? -1 : syscall(SYS_fsync, file); }
int fchown(int file, uid_t owner, gid_t group) { return fails("fchown") ? -1 : syscall(SYS_fchown, file, owner, group); }
int fchmod(int file, mode_t mode) { return fails("fchmod") ? -1 : syscall(SYS_fchmod, file, mode); }
int unlink(const char *path) { return fails("unlink") ? -1 : syscall(SYS_unlink, path); }

int rename(const char *from, const char *to) { return fails("rename") ? -1 : syscall(SYS_rename, from, to); }

int statx(int folder, const char *path, int flags, unsigned int mask, struct statx *about) {
    return fails(*path ? "stat" : "fstat") ? -1 : syscall(SYS_statx, folder, path, flags, mask, about);
}

char *realpath(const char *path, char *into) {
    static char *(*next)(const char *, char *);
    if (!next) next = (char *(*)(const char *, char *))dlsym(RTLD_NEXT, "realpath");
    return fails("realpath") ? NULL : next(path, into);
}
