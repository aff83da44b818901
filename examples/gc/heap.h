/* The heap: objects, two semispaces of them, and the buffers in which threads allocate. */
#ifndef HEAP_H
#define HEAP_H

#include <stdatomic.h>
#include <stdbool.h>
#include <stddef.h>
#include <stdint.h>

#include "order.h"

struct object;

union field {
    struct object *pointer;
    uint64_t word;
};

/* The fields are pointers first, and then words. */
struct object {
    struct object *moved; /* where the collector has put the object, or NULL */
    uint32_t pointers, words;
    union field fields[];
};

/* The global roots. */
enum global { TOTALS, GLOBALS };

/* Threads allocate in the current space. Between collections the other one, the old space, can't be accessed. What
   isn't atomic changes only while all threads are held. */
struct heap {
    size_t size; /* in bytes, of each space */
    char *spaces[2];
    int current;
    atomic_size_t used; /* bytes of the current space that buffers have taken */
    uint64_t epoch;     /* how many collections there were */
    uint64_t moved;     /* how many objects they moved */
    struct object *globals[GLOBALS];
    struct order order;
};

/* A thread's part of the current space: where the next object goes, and how many bytes are left. */
struct buffer {
    char *next;
    size_t left;
};

/* Maps two spaces of so many bytes. */
void heap_make(struct heap *heap, size_t size);
/* Access to the space in which no thread allocates. */
void open_old_space(const struct heap *heap);
void close_old_space(const struct heap *heap);
/* From here on a SIGSEGV ends the program with STALE_POINTER, and one line says where it was. */
void catch_stale_pointers(const struct heap *heap);

size_t object_size(size_t pointers, size_t words);
/* Gives the buffer a new part of the space, with room for so many bytes. Returns false if the space is full. */
bool refill(struct heap *heap, struct buffer *buffer, size_t bytes);
/* Returns an object without pointers and with words of 0, or NULL if the buffer has no room. */
struct object *new_object(struct buffer *buffer, uint32_t pointers, uint32_t words);

#endif
