#define _POSIX_C_SOURCE 200809L
#include "pauses.h"

#include <inttypes.h>
#include <stdio.h>
#include <time.h>

enum { WIDTH = 50 };

uint64_t now(void) {
    struct timespec time;
    clock_gettime(CLOCK_MONOTONIC, &time);
    return (uint64_t)time.tv_sec * 1000000000 + (uint64_t)time.tv_nsec;
}

void note_pause(struct histogram *it, uint64_t nanoseconds) {
    int power = 0;
    while (nanoseconds >>= 1) power++;
    it->counts[power]++;
}

void print_histogram(const struct histogram *it, const char *title) {
    uint64_t most = 1;
    for (int i = 0; i < 64; i++)
        if (it->counts[i] > most) most = it->counts[i];
    printf("%s\n%20s  %8s\n", title, "from nanoseconds", "times");
    for (int i = 0; i < 64; i++) {
        if (!it->counts[i]) continue;
        printf("%20" PRIu64 "  %8" PRIu64 "  ", (uint64_t)1 << i, it->counts[i]);
        for (uint64_t column = 0; column * most < it->counts[i] * WIDTH; column++) putchar('#');
        putchar('\n');
    }
}
