/* Preloaded: the times of files are whole seconds, as on file systems that keep no more. */
#define _GNU_SOURCE
#include <dlfcn.h>
#include <sys/stat.h>

int statx(int folder, const char *path, int flags, unsigned mask, struct statx *out)
{
    int (*there)(int, const char *, int, unsigned, struct statx *) = (int (*)(int, const char *, int, unsigned, struct statx *))dlsym(RTLD_NEXT, "statx");
    int status = there(folder, path, flags, mask, out);
    if (status == 0) {
        out->stx_mtime.tv_nsec = 0;
        out->stx_ctime.tv_nsec = 0;
    }
    return status;
}
