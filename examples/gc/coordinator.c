#define _POSIX_C_SOURCE 200809L
#include "coordinator.h"

#include <errno.h>
#include <time.h>

#include "collector.h"
#include "ends.h"
#include "vm.h"

/* The coordinator itself asks for a collection if nobody has for so many nanoseconds. */
enum { PERIOD = 10000000, BETWEEN_FORGETS = 64 };

void coordinator_make(struct coordinator *it, struct vm *vm, int running) {
    it->vm = vm;
    it->running = running;
    pthread_mutex_init(&it->lock, NULL);
    pthread_cond_init(&it->changed, NULL);
    must("sp_make", sp_make(&it->party, PLACES, 1, 1)); /* there is no compiled code */
}

void coordinator_free(struct coordinator *it) {
    sp_free(&it->party);
    pthread_cond_destroy(&it->changed);
    pthread_mutex_destroy(&it->lock);
}

/* --- asking --- */

/* All that ask before the collection begins share a census. The lock is held for a moment only, and never at a poll.
   So threads take it in Java, and the coordinator may take it while they are held. */
int64_t ask_for_collection(struct coordinator *it, struct sp_party *asker) {
    pthread_mutex_lock(&it->lock);
    if (!it->asked) {
        SP_WAIT(it->asked, sp_census(asker));
        must("sp_census", it->asked);
        it->asked_at = now();
        pthread_cond_signal(&it->changed);
    }
    int64_t census = it->asked;
    pthread_mutex_unlock(&it->lock);
    return census;
}

/* Whoever asks from here on gets a further collection. Returns when this one was asked for. */
static uint64_t take_asked(struct coordinator *it) {
    pthread_mutex_lock(&it->lock);
    uint64_t asked_at = it->asked_at;
    it->asked = 0;
    pthread_mutex_unlock(&it->lock);
    return asked_at;
}

void end_running(struct coordinator *it) {
    pthread_mutex_lock(&it->lock);
    it->running--;
    pthread_cond_signal(&it->changed);
    pthread_mutex_unlock(&it->lock);
}

/* Waits until a collection is asked for. Returns false once all threads have ended. */
static bool await_request(struct coordinator *it) {
    struct timespec until;
    bool is_late = false;
    clock_gettime(CLOCK_REALTIME, &until);
    until.tv_nsec += PERIOD;
    if (until.tv_nsec >= 1000000000) until.tv_sec++, until.tv_nsec -= 1000000000;
    pthread_mutex_lock(&it->lock);
    while (!it->asked && it->running && !is_late)
        is_late = pthread_cond_timedwait(&it->changed, &it->lock, &until) == ETIMEDOUT;
    bool goes_on = it->running > 0;
    pthread_mutex_unlock(&it->lock);
    if (goes_on && is_late) ask_for_collection(it, &it->party);
    return goes_on;
}

/* --- what runs while threads are held --- */

/* The pause. The objects move here. The caches of weak roots are cleaned after it, by a handshake of the threads that
   live now. It is submitted here, so it comes before each collection that is asked for later. A handshake asks each
   stack something, here its depth, and nobody reads the replies. A callback may not wait for threads: SP_WAIT waits
   here only for a lock of the library, which no call keeps. */
static void run_collection(struct coordinator *it, int64_t census) {
    uint64_t begun = now();
    note_pause(&it->to_hold, begun - take_asked(it));
    open_old_space(&it->vm->heap);
    collect(it->vm);
    must("sp_target_all", sp_target_all(&it->party));
    SP_WAIT(it->last_reader, sp_submit(&it->party, SP_DEPTH, 0));
    if (it->last_reader == SP_NO_TARGETS) it->last_reader = census; /* no thread lives, so there is no cache */
    must("sp_submit", it->last_reader);
    note_pause(&it->paused, now() - begun);
}

/* One thread is held, and the coordinator cleans its cache. A thread that is still in its start isn't in the table, and
   has no weak roots. */
static void clean_for_held(struct vm *vm, size_t place) {
    struct mutator *held = atomic_load(&vm->mutators[place]);
    if (held) clean_cache(&held->cache, vm->heap.epoch, FOR_HELD);
}

/* What the coordinator runs: a collection while all threads are held, or a thread's part of a handshake. */
static void at_safe_point(void *with, const struct sp_served *served) {
    struct coordinator *it = with;
    order_hold(&it->vm->heap.order);
    if (served->kind == SP_CENSUS) run_collection(it, (int64_t)served->operation);
    else clean_for_held(it->vm, served->place);
    order_let_go(&it->vm->heap.order);
}

/* --- the loop --- */

/* Drives all requests, the oldest first. */
static void serve_requests(struct coordinator *it) {
    int64_t closed;
    while ((closed = sp_drive(&it->party, it->is_careless ? NULL : at_safe_point, it)) != SP_QUEUE_EMPTY) {
        must("sp_drive", closed);
        if (closed == it->last_reader) close_old_space(&it->vm->heap);
    }
}

/* Now and then, so that the history of the library doesn't fill. */
static void forget(struct coordinator *it) {
    int64_t answer;
    if (it->vm->heap.epoch - it->forgotten < BETWEEN_FORGETS) return;
    it->forgotten = it->vm->heap.epoch;
    SP_WAIT(answer, sp_forget(&it->party));
    must("sp_forget", answer);
}

/* --careless: the same, and nobody is stopped. */
static void collect_carelessly(struct coordinator *it) {
    take_asked(it);
    open_old_space(&it->vm->heap);
    collect(it->vm);
    for (size_t place = 0; place < PLACES; place++) clean_for_held(it->vm, place);
    close_old_space(&it->vm->heap);
}

void coordinate(struct coordinator *it) {
    while (await_request(it)) {
        if (it->is_careless) collect_carelessly(it);
        serve_requests(it);
        forget(it);
    }
    it->asked_at = now();
    must("sp_at_safepoint", sp_at_safepoint(&it->party, at_safe_point, it));
    close_old_space(&it->vm->heap);
}
