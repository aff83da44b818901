#define _POSIX_C_SOURCE 200809L
#include "worker.h"

#include <stdlib.h>
#include <time.h>

#include "ends.h"
#include "mix.h"
#include "vm.h"
#include "work.h"

enum { TASKS_OF_A_LIFE = 16, REST_KINDS = 8, NAP = 100000, SPINS = 5000 };

static uint64_t (*const task_of[KINDS])(struct mutator *, uint64_t) = {list_task, tree_task, graph_task};

/* The thread is blocked while it waits for the lock, since the one that has the lock may be held. */
static void add_to_totals(struct worker *it, enum kind kind, uint64_t checksum) {
    struct crew *crew = it->crew;
    enter_wait(&it->mutator);
    pthread_mutex_lock(&crew->lock);
    leave_wait(&it->mutator);
    crew->vm->heap.globals[TOTALS]->fields[kind].word += checksum;
    pthread_mutex_unlock(&crew->lock);
}

static void nap(void) { nanosleep(&(struct timespec){0, NAP}, NULL); }

void rest(struct mutator *me) {
    me->random = mixed(me->random);
    if (me->random % REST_KINDS == 0) {
        enter_wait(me);
        nap();
        leave_wait(me);
        return;
    }
    enter_native(me);
    if (me->random % REST_KINDS == 1) nap();
    else for (volatile uint64_t i = me->random % SPINS; i; i--) continue;
    leave_native(me);
}

/* Does one task. Returns false if none is left. */
static bool do_task(struct worker *it) {
    if (now() >= it->crew->end) return false;
    uint64_t task = atomic_fetch_add(&it->crew->next, 1);
    enum kind kind = (enum kind)(task % KINDS);
    if (task >= it->crew->tasks) return false;
    add_to_totals(it, kind, task_of[kind](&it->mutator, task));
    return true;
}

static void *run(void *with) {
    struct worker *it = with;
    for (bool goes_on = true; goes_on; it->lives++) {
        start_mutator(&it->mutator);
        for (int i = 0; i < TASKS_OF_A_LIFE && goes_on; i++) goes_on = do_task(it);
        exit_mutator(&it->mutator);
    }
    end_running(&it->crew->vm->coordinator);
    return NULL;
}

void make_totals(struct crew *crew) {
    struct mutator *mutator = calloc(1, sizeof *mutator);
    if (!mutator) die(BAD_USE, "there is no memory");
    make_mutator(mutator, crew->vm);
    start_mutator(mutator);
    crew->vm->heap.globals[TOTALS] = allocate(mutator, 0, KINDS);
    exit_mutator(mutator);
    free_mutator(mutator);
    free(mutator);
}

void start_worker(struct worker *it, struct crew *crew, uint64_t number) {
    it->crew = crew;
    it->mutator.random = number;
    make_mutator(&it->mutator, crew->vm);
    if (pthread_create(&it->id, NULL, run, it)) die(BAD_USE, "there is no thread");
}

void join_worker(struct worker *it) {
    pthread_join(it->id, NULL);
    free_mutator(&it->mutator);
}
