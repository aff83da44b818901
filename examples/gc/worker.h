/* The threads of the host. Each lives as a mutator, again and again, and does tasks. */
#ifndef WORKER_H
#define WORKER_H

#include <pthread.h>
#include <stdatomic.h>
#include <stdint.h>

#include "mutator.h"

enum kind { LIST_TASK, TREE_TASK, GRAPH_TASK, KINDS };

/* What all workers share. The sums of the checksums are in an object, which is a global root. */
struct crew {
    struct vm *vm;
    uint64_t tasks; /* how many tasks there are */
    uint64_t end;   /* nanoseconds: from here on no task begins */
    atomic_uint_least64_t next;
    pthread_mutex_t lock; /* of the object with the sums */
};

struct worker {
    struct crew *crew;
    pthread_t id;
    uint64_t lives;
    struct mutator mutator;
};

/* Makes the object with the sums, before any worker runs. */
void make_totals(struct crew *crew);
/* Starts a thread that runs until no task is left. */
void start_worker(struct worker *it, struct crew *crew, uint64_t number);
void join_worker(struct worker *it);

#endif
