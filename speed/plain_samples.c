/* The plain loop beside `samples`: a file of 16-bit big-endian samples of fixed length is read whole, and the numbers of each trace are
   written as the program writes them. No format is asked for and nothing is checked. Usage: plain_samples FILE SAMPLES STEP */
#include <stdio.h>
#include <stdlib.h>

static char out[1 << 16];
static size_t at;

static void flush(void) {
    if (fwrite(out, 1, at, stdout) != at) exit(1);
    at = 0;
}

static void number(long value, char behind) {
    char digits[24];
    int n = 0;
    unsigned long left = value < 0 ? -(unsigned long)value : (unsigned long)value;
    do digits[n++] = '0' + left % 10; while (left /= 10);
    if (at > sizeof out - 32) flush();
    if (value < 0) out[at++] = '-';
    while (n) out[at++] = digits[--n];
    out[at++] = behind;
}

int main(int count, char **words) {
    if (count != 4) return 2;
    long samples = atol(words[2]), step = atol(words[3]);
    FILE *file = fopen(words[1], "rb");
    if (!file || samples < 1 || step < 1 || fseek(file, 0, SEEK_END)) return 1;
    long size = ftell(file), length = 240 + 2 * samples, traces = (size - 3600) / length;
    unsigned char *bytes = malloc(size);
    rewind(file);
    if (!bytes || fread(bytes, 1, size, file) != (size_t)size) return 1;
    printf("samples %ld\n", traces);
    for (long p = 0; p < traces; p++) {
        const unsigned char *trace = bytes + 3600 + p * length + 240;
        number(p + 1, ' ');
        for (long k = 0; k < samples; k += step) number((short)(trace[2 * k] << 8 | trace[2 * k + 1]), k + step < samples ? ' ' : '\n');
    }
    flush();
    return 0;
}
