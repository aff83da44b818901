/* The work of the threads: tasks, each of which builds a structure of objects, changes it and checks it. Each returns
   a checksum, which depends on the task's number alone. If something is wrong, the program ends. */
#ifndef WORK_H
#define WORK_H

#include <stdint.h>

struct mutator;

/* A linked list, which is built, reversed and summed. */
uint64_t list_task(struct mutator *me, uint64_t task);
/* A search tree of interned keys, with inserts, deletes and a walk in order. */
uint64_t tree_task(struct mutator *me, uint64_t task);
/* A ring with chords, whose nodes have checksums of their neighbours. */
uint64_t graph_task(struct mutator *me, uint64_t task);

/* In the middle of a task, with roots in the shadow stack, the thread computes or sleeps in native code, or waits. */
void rest(struct mutator *me);

#endif
