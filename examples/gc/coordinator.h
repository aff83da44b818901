/* The coordinator: the thread of the host that works on all requests. It runs the collections that threads ask for. */
#ifndef COORDINATOR_H
#define COORDINATOR_H

#include <pthread.h>
#include <stdbool.h>
#include <stdint.h>

#include <safepoint_wait.h>

#include "pauses.h"

struct vm;

struct coordinator {
    struct vm *vm;
    struct sp_party party;
    bool is_careless;
    pthread_mutex_t lock;   /* of `asked`, `asked_at` and `running` */
    pthread_cond_t changed; /* one of these has changed */
    int64_t asked;       /* the census of a collection that is asked for and hasn't begun, or 0 */
    uint64_t asked_at;   /* when, in nanoseconds */
    int running;         /* threads of the host that haven't ended */
    int64_t last_reader; /* once this request is closed, nobody looks at the old space */
    uint64_t forgotten;  /* how many collections there were when the history was forgotten last */
    struct histogram to_hold, paused;
};

/* Makes the system of the library. So many threads will run. */
void coordinator_make(struct coordinator *it, struct vm *vm, int running);
void coordinator_free(struct coordinator *it);

/* Asks for a collection, with the asker's party. Returns the number of its census. A thread that asks is in Java. */
int64_t ask_for_collection(struct coordinator *it, struct sp_party *asker);
/* A thread of the host has ended. */
void end_running(struct coordinator *it);

/* Runs collections until all threads have ended, and then a last one. */
void coordinate(struct coordinator *it);

#endif
