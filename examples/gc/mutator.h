/* A mutator: a thread of the runtime, which allocates objects and changes them. What it owes the library is here. */
#ifndef MUTATOR_H
#define MUTATOR_H

#include <safepoint_wait.h>

#include "heap.h"
#include "weak.h"

struct vm;

enum { MOST_ROOTS = 1024 };

/* A pointer to an object in a variable of C is valid until the thread's next poll or allocation, its next way into
   native code or its next wait: there the collector may move all objects. What the thread needs afterwards is in its
   shadow stack, and the collector updates that. */
struct mutator {
    struct vm *vm;
    struct sp_party party;
    struct buffer buffer;
    struct weak_cache cache;
    uint64_t random;
    size_t root_count;
    struct object *roots[MOST_ROOTS]; /* the shadow stack */
};

/* The main thread makes a mutator before the thread that is one runs, and frees it afterwards. */
void make_mutator(struct mutator *me, struct vm *vm);
void free_mutator(struct mutator *me);

/* A life: from a start to an exit. A mutator may have several, one after the other. */
void start_mutator(struct mutator *me);
void exit_mutator(struct mutator *me);

/* A frame of so many roots, which are NULL at first. It is left with the same number. */
struct object **enter_frame(struct mutator *me, size_t count);
void leave_frame(struct mutator *me, size_t count);

/* Polls: each loop does, at each turn. */
void poll(struct mutator *me);
/* In between the thread is in native code, or waits. It doesn't touch the heap, its roots or its cache. */
void enter_native(struct mutator *me);
void leave_native(struct mutator *me);
void enter_wait(struct mutator *me);
void leave_wait(struct mutator *me);

/* A new object without pointers and with words of 0. It may wait for a collection. */
struct object *allocate(struct mutator *me, uint32_t pointers, uint32_t words);

#endif
