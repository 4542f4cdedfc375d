// Reads one byte of every 4096 of a file, and prints how many nanoseconds that took: what any walk over a file costs at least.
#include <fcntl.h>
#include <stdio.h>
#include <sys/mman.h>
#include <sys/stat.h>
#include <time.h>

int main(int argc, char **argv) {
    struct stat status;
    struct timespec start, end;
    int file = argc > 1 ? open(argv[1], O_RDONLY) : -1;
    if (file < 0 || fstat(file, &status) != 0) return 1;
    volatile const unsigned char *bytes = mmap(NULL, status.st_size, PROT_READ, MAP_PRIVATE, file, 0);
    if (bytes == MAP_FAILED) return 1;
    clock_gettime(CLOCK_MONOTONIC, &start);
    unsigned sum = 0;
    for (off_t place = 0; place < status.st_size; place += 4096) sum += bytes[place];
    clock_gettime(CLOCK_MONOTONIC, &end);
    printf("%lld\n", (end.tv_sec - start.tv_sec) * 1000000000LL + (end.tv_nsec - start.tv_nsec));
    return sum == 1;
}
