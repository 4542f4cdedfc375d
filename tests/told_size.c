/* Preloaded: each file of SIZE bytes is told to have TOLD, as where it grew, or a part of it went, since its size was asked for. */
#define _GNU_SOURCE
#include <dlfcn.h>
#include <stdlib.h>
#include <sys/stat.h>

int statx(int folder, const char *path, int flags, unsigned mask, struct statx *out)
{
    int (*there)(int, const char *, int, unsigned, struct statx *) = (int (*)(int, const char *, int, unsigned, struct statx *))dlsym(RTLD_NEXT, "statx");
    int status = there(folder, path, flags, mask, out);
    const char *size = getenv("SIZE"), *told = getenv("TOLD");
    if (status == 0 && size && told && (unsigned long long)out->stx_size == strtoull(size, NULL, 10)) out->stx_size = strtoull(told, NULL, 10);
    return status;
}
