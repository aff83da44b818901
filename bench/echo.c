/* Reads lines from standard input and writes them to standard output, through 64 KB buffers: the least that a program of
   lines can do. */
#include <stdlib.h>
#include <string.h>
#include <unistd.h>

enum { BLOCK = 65536 };

static char in[BLOCK], out[2 * BLOCK];
static size_t waits;

static void flush(void) {
    size_t at = 0;
    while (at < waits) {
        ssize_t n = write(1, out + at, waits - at);
        if (n <= 0) exit(1);
        at += (size_t)n;
    }
    waits = 0;
}

int main(void) {
    for (;;) {
        ssize_t n = read(0, in, BLOCK);
        if (n < 0) return 1;
        if (n == 0) break;
        for (size_t at = 0; at < (size_t)n;) {
            char *end = memchr(in + at, '\n', (size_t)n - at);
            size_t length = end ? (size_t)(end - (in + at)) + 1 : (size_t)n - at;
            memcpy(out + waits, in + at, length);
            waits += length;
            at += length;
            if (waits >= BLOCK) flush();
        }
    }
    flush();
    return 0;
}
