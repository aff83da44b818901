/* Threads at random over one system, a coordinator beside them: safepoint_threads THREADS REQUESTS SEED. Each operation's callback runs once
   for each target, by the thread itself or for it while it is held; no stack that is served changes meanwhile; codes are replaced and freed.
   The last line counts; with -DSP_RECORD the log of all calls is printed instead. tests/safepoint.py builds and runs it. */
#include <pthread.h>
#include <stdatomic.h>
#include <stdio.h>
#include <stdlib.h>

#include "../crates/safepoint/include/safepoint_wait.h"

enum { MOST = 64, METHODS = 4, SLOTS = 16, LONGEST = 1 << 20, PACE = 10 };

struct one {
    struct sp_party party;
    pthread_t thread;
    uint64_t random, name;
    int depth, serving; /* of its stack; whether a callback is on it */
};

static struct sp_party coordinator;
static struct one all[MOST];
static int count;
static atomic_int ready, ends;
static atomic_int served[LONGEST]; /* how often an operation's callback ran */
static atomic_long own, held, freed, failures, paced;

static void fail(const char *what, int64_t answer) {
    printf("FAILED: %s: %lld, %s\n", what, (long long)answer, sp_text(answer));
    atomic_fetch_add(&failures, 1);
    exit(1);
}

static uint64_t drawn(struct one *me, uint64_t below) {
    me->random ^= me->random << 13, me->random ^= me->random >> 7, me->random ^= me->random << 17;
    return me->random % below;
}

/* The callback. Of one thread's stack at most one runs at a time, and the stack stays as it is. */
static void at_safe_point(void *with, const struct sp_served *call) {
    struct one *it = call->thread ? with : NULL;
    if (it) {
        if (it->serving++) fail("two callbacks on one stack", 0);
        int depth = it->depth;
        for (volatile int i = 0; i < 50; i++) ;
        if (it->depth != depth) fail("a stack changed under a callback", depth);
        it->serving--;
        atomic_fetch_add(&own, 1);
    } else {
        atomic_fetch_add(&held, 1);
    }
    if (call->operation < LONGEST) atomic_fetch_add(&served[call->operation], 1);
}

static void must(const char *what, int64_t answer) {
    if (answer < 0) fail(what, answer);
}

static void stop_if(struct one *me, int64_t polled) {
    must("a poll", polled);
    if (polled > 0) must("sp_stop", sp_stop(&me->party, at_safe_point, me));
}

static void step(struct one *me) {
    int64_t answer;
    switch (drawn(me, 8)) {
    case 0: case 1: case 2:
        if (me->depth < 200) must("sp_call", sp_call(&me->party, (uint32_t)drawn(me, METHODS))), me->depth++;
        break;
    case 3: case 4:
        if (!me->depth) break;
        answer = sp_ret(&me->party);
        me->depth--;
        stop_if(me, answer);
        break;
    case 5:
        stop_if(me, sp_back_edge(&me->party));
        break;
    case 6:
        must("sp_publish", sp_publish(&me->party));
        break;
    default:
        if (drawn(me, 4)) break;
        must("sp_enter_native", sp_enter_native(&me->party));
        for (volatile uint64_t i = drawn(me, 2000); i; i--) ;
        must("sp_leave_native", sp_leave_native(&me->party, at_safe_point, me));
    }
}

/* A log is kept short: a thread makes a few steps for each request, and waits for the next in native code. */
static void pace(struct one *me, long steps) {
#ifdef SP_RECORD
    while (steps >= atomic_load(&paced) && !atomic_load(&ends)) {
        must("sp_enter_native", sp_enter_native(&me->party));
        for (int i = 0; i < 100 && steps >= atomic_load(&paced); i++) sched_yield();
        must("sp_leave_native", sp_leave_native(&me->party, at_safe_point, me));
    }
#else
    (void)me, (void)steps;
#endif
}

static void live(struct one *me) {
    int64_t name = sp_start_thread(&me->party, at_safe_point, me);
    must("sp_start", name);
    me->name = (uint64_t)name;
    atomic_fetch_add(&ready, 1);
    for (long steps = 0; !atomic_load(&ends); steps++) {
        pace(me, steps);
        step(me);
    }
    while (me->depth) {
        int64_t polled = sp_ret(&me->party);
        me->depth--;
        stop_if(me, polled);
    }
    must("sp_exit", sp_exit_thread(&me->party, at_safe_point, me));
}

static void *run(void *with) {
    live(with);
    return NULL;
}

/* A handshake of all, with what each answered. */
static void shake(int64_t asks) {
    int64_t answer, number;
    for (int i = 0; i < count; i++) must("sp_target", sp_target(&coordinator, all[i].name));
    SP_WAIT(number, sp_submit(&coordinator, (uint32_t)asks, 1));
    must("sp_submit", number);
    answer = sp_drive(&coordinator, at_safe_point, NULL);
    if (answer != number) fail("sp_drive", answer);
    for (int i = 0; i < count; i++) {
        SP_WAIT(answer, sp_reply(&coordinator, (uint64_t)number, all[i].name));
        must("sp_reply", answer);
    }
    if (number < LONGEST && atomic_load(&served[number]) != count) fail("so many callbacks of a handshake", atomic_load(&served[number]));
}

static void count_frames(void) {
    int64_t number, answer;
    SP_WAIT(number, sp_census(&coordinator));
    must("sp_census", number);
    answer = sp_drive(&coordinator, at_safe_point, NULL);
    if (answer != number) fail("sp_drive", answer);
}

/* Replaces the code of a method, and frees one of the old ones, the next in turn, where no frame of it stands. */
static void replace(uint32_t method, int64_t *codes) {
    static int64_t old[SLOTS]; /* 0: none */
    static int turn;
    int64_t serial, answer;
    SP_WAIT(serial, sp_install(&coordinator, method));
    if (serial != SP_TABLE_FULL) {
        must("sp_install", serial);
        int i = 0;
        while (old[i]) i++;
        old[i] = codes[method];
        codes[method] = serial;
    }
    for (int i = 0; i < SLOTS && !old[turn]; i++) turn = (turn + 1) % SLOTS;
    if (!old[turn]) return;
    answer = sp_reclaim(&coordinator, (uint64_t)old[turn], at_safe_point, NULL);
    if (answer < 0 && answer != SP_LATE) fail("sp_reclaim", answer);
    if (!answer) atomic_fetch_add(&freed, 1), old[turn] = 0;
    turn = (turn + 1) % SLOTS;
}

int main(int argc, char **argv) {
    int64_t codes[METHODS] = {0}, forgotten;
    count = argc > 1 ? atoi(argv[1]) : 4;
    long requests = argc > 2 ? atol(argv[2]) : 1000, shakes = 0;
    uint64_t seed = argc > 3 ? strtoull(argv[3], NULL, 10) : 1;
    must("sp_make", sp_make(&coordinator, MOST, SLOTS, METHODS));
    for (int i = 0; i < count; i++) {
        all[i].random = seed * 1000003 + (uint64_t)i + 1;
        must("sp_fork", sp_fork(&coordinator, &all[i].party));
        if (pthread_create(&all[i].thread, NULL, run, &all[i])) return 2;
    }
    while (atomic_load(&ready) < count) sched_yield();
    for (long i = 0; i < requests; i++) {
        atomic_fetch_add(&paced, PACE);
        if (i % 16 == 7) count_frames();
        else if (i % 8 == 3) replace((uint32_t)(i / 8 % METHODS), codes);
        else shake(i % 3), shakes++;
        if (i % 1000 == 999) SP_WAIT(forgotten, sp_forget(&coordinator));
    }
    atomic_store(&ends, 1);
    for (int i = 0; i < count; i++) {
        /* threads that exit may have been told: no request is open now, so none waits for the coordinator */
        pthread_join(all[i].thread, NULL);
        sp_free(&all[i].party);
    }
    sp_free(&coordinator);
    (void)forgotten;
#ifdef SP_RECORD
    must("sp_record_write", sp_record_write(stdout));
    return failures ? 1 : 0;
#endif
    printf("threads %d, handshakes %ld, callbacks %ld by the thread and %ld for a held one, codes freed %ld\n", count, shakes, own, held, freed);
    return failures ? 1 : 0;
}
