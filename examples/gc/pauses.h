/* Histograms of times. */
#ifndef PAUSES_H
#define PAUSES_H

#include <stdint.h>

/* How many times were from 2^i up to 2^(i+1) nanoseconds. */
struct histogram {
    uint64_t counts[64];
};

/* Nanoseconds since some moment. */
uint64_t now(void);
void note_pause(struct histogram *it, uint64_t nanoseconds);
void print_histogram(const struct histogram *it, const char *title);

#endif
