/* Numbers that look like random ones, and are the same in each run. */
#ifndef MIX_H
#define MIX_H

#include <stdint.h>

/* (the step of splitmix64) */
static inline uint64_t mixed(uint64_t number) {
    number += 0x9e3779b97f4a7c15;
    number = (number ^ number >> 30) * 0xbf58476d1ce4e5b9;
    number = (number ^ number >> 27) * 0x94d049bb133111eb;
    return number ^ number >> 31;
}

/* A checksum with one more number: it depends on the order of the numbers. */
static inline uint64_t folded(uint64_t checksum, uint64_t number) { return mixed(checksum ^ number); }

#endif
