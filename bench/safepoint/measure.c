/* How long the calls and the stops of safepoint.h take: measure KIND THREADS TURNS ARG prints times in nanoseconds, separated by spaces, and
   nothing else. The kinds up to 12, their loops and what they answer are those of crates/bench_running, which makes them in Rattle:
   bench/safepoint.py runs the two in turn. The others are loops of C alone. */
#include <pthread.h>
#include <stdatomic.h>
#include <stdio.h>
#include <stdlib.h>
#include <time.h>

#include "safepoint_wait.h"

enum kind { BACK_EDGE = 1, CALL = 2, DEEP = 3, PUBLISH = 4, NATIVE = 5, HANDSHAKE = 6, CENSUS = 7, RECLAIM = 8, INTERPRETED = 12,
            EMPTY = 30, POLL = 31, CALLED_POLL = 32, SWITCH = 33 };
enum { MOST = 64, SLOTS = 1024, METHODS = 256, METHOD = 3, OLD = 1, WARM_UP = 2, LONGEST = 6 /* seconds of a run of stops */, BATCH = 64 };

static struct sp_party coordinator;
static enum kind kind;
static int threads;
static long turns, arg;

static int64_t must(int64_t answer) {
    if (answer >= 0) return answer;
    fprintf(stderr, "measure: %s\n", sp_text(answer));
    exit(1);
}

/* The loops of C alone are timed by processor time. */
static uint64_t now(void) {
    struct timespec time;
    clock_gettime(kind < EMPTY ? CLOCK_MONOTONIC : CLOCK_THREAD_CPUTIME_ID, &time);
    return (uint64_t)time.tv_sec * 1000000000 + (uint64_t)time.tv_nsec;
}

/* --- the calls of one thread --- */

static void go_down(struct sp_party *thread, long depth, uint32_t step) {
    for (long level = 0; level < depth; level++) must(sp_call(thread, (uint32_t)level * step % METHODS));
}

static void go_up(struct sp_party *thread, long depth) {
    for (long level = 0; level < depth; level++) must(sp_ret(thread));
}

static void turn_of(struct sp_party *thread) {
    switch (kind) {
    case BACK_EDGE:
        for (long i = 0; i < turns; i++) must(sp_back_edge(thread));
        break;
    case CALL: case INTERPRETED:
        for (long i = 0; i < turns; i++) must(sp_call(thread, METHOD)), must(sp_ret(thread));
        break;
    case DEEP:
        for (long i = 0; i < turns / arg; i++) go_down(thread, arg, 7), go_up(thread, arg);
        break;
    case PUBLISH:
        for (long i = 0; i < turns; i++) {
            go_down(thread, arg, 1), must(sp_publish(thread));
            go_up(thread, arg), must(sp_publish(thread));
        }
        break;
    default:
        for (long i = 0; i < turns; i++) must(sp_enter_native(thread)), must(sp_leave_native(thread, NULL, NULL));
    }
}

/* The turn of a loop that a compiler leaves as it is. */
#define TURNS(...) for (long i = 0; i < turns; i++) { __VA_ARGS__; __asm__ volatile("" ::: "memory"); }

static void poll_of(struct sp_party *thread, struct sp_party *other) {
    switch (kind) {
    case EMPTY: TURNS() break;
    case POLL: TURNS(if (sp_poll(thread)) exit(1)) break;
    case CALLED_POLL: TURNS(if (sp_back_edge(thread)) exit(1)) break;
    default: TURNS(must(sp_switch(thread, other, NULL, NULL)), must(sp_switch(other, thread, NULL, NULL)))
    }
}

static void time_calls(void) {
    struct sp_party thread = {0}, other = {0};
    must(sp_fork(&coordinator, &thread));
    must(sp_fork(&coordinator, &other));
    must(sp_start_thread(&other, NULL, NULL));
    must(sp_enter_native(&other));
    must(sp_start_thread(&thread, NULL, NULL));
    uint64_t start = now();
    if (kind < EMPTY) turn_of(&thread);
    else poll_of(&thread, &other);
    printf("%llu\n", (unsigned long long)(now() - start));
    must(sp_leave_native(&other, NULL, NULL));
    must(sp_exit_thread(&other, NULL, NULL));
    sp_free(&other);
    must(sp_publish(&thread));
    must(sp_exit_thread(&thread, NULL, NULL));
    sp_free(&thread);
}

/* --- stops of all threads --- */

static atomic_int ready;
static atomic_bool over;
static pthread_mutex_t mutex = PTHREAD_MUTEX_INITIALIZER;
static pthread_cond_t is_over = PTHREAD_COND_INITIALIZER;

static void heed(struct sp_party *thread, int64_t polled) {
    if (must(polled)) must(sp_stop(thread, NULL, NULL));
}

static void sleep_until_over(void) {
    pthread_mutex_lock(&mutex);
    while (!atomic_load(&over)) pthread_cond_wait(&is_over, &mutex);
    pthread_mutex_unlock(&mutex);
}

/* Stops for whatever is asked, with one frame on the stack: in native code, or at back edges. */
static void *live(void *with) {
    struct sp_party *thread = with;
    must(sp_start_thread(thread, NULL, NULL));
    must(sp_call(thread, 0));
    must(sp_publish(thread));
    if (arg) must(sp_enter_native(thread));
    atomic_fetch_add(&ready, 1);
    if (arg) sleep_until_over(), must(sp_leave_native(thread, NULL, NULL));
    while (!arg && !atomic_load(&over))
        for (int i = 0; i < BATCH; i++) heed(thread, sp_back_edge(thread));
    heed(thread, sp_ret(thread));
    must(sp_exit_thread(thread, NULL, NULL));
    return NULL;
}

/* All names are live throughout: those from 1 on. */
static void name_targets(void) {
    for (int name = 1; name <= threads; name++) must(sp_target(&coordinator, (uint64_t)name));
}

static void shake_hands(void) {
    int64_t number;
    SP_WAIT(number, sp_submit(&coordinator, SP_DEPTH, 0));
    if (sp_drive(&coordinator, NULL, NULL) != must(number)) exit(1);
}

static void count(void) {
    int64_t number;
    SP_WAIT(number, sp_census(&coordinator));
    if (sp_drive(&coordinator, NULL, NULL) != must(number)) exit(1);
}

static void reclaim(uint64_t serial) {
    int64_t answer;
    SP_WAIT(answer, sp_invalidate(&coordinator, serial));
    must(answer);
    if (sp_reclaim(&coordinator, serial, NULL, NULL)) exit(1);
}

static int64_t install(uint32_t method) {
    int64_t serial;
    SP_WAIT(serial, sp_install(&coordinator, method));
    return must(serial);
}

/* The time of one stop, without what is made ready for it: a code to free, and the list of the targets. */
static uint64_t stop(void) {
    uint64_t serial = kind == RECLAIM ? (uint64_t)install(OLD) : 0;
    if (kind == HANDSHAKE) name_targets();
    uint64_t start = now();
    if (kind == HANDSHAKE) shake_hands();
    else if (kind == CENSUS) count();
    else reclaim(serial);
    uint64_t took = now() - start;
    if (kind == CENSUS && sp_counted(&coordinator, 1) != threads) exit(1);
    return took;
}

static void time_stops(void) {
    static struct sp_party parties[MOST];
    static pthread_t ids[MOST];
    for (int i = 0; i < threads; i++) {
        must(sp_fork(&coordinator, &parties[i]));
        if (pthread_create(&ids[i], NULL, live, &parties[i])) exit(1);
    }
    while (atomic_load(&ready) < threads) nanosleep(&(struct timespec){0, 1000000}, NULL); /* a scheduler may hold yields against it */
    uint64_t start = now();
    for (long turn = 0; turn < turns + WARM_UP && now() - start < LONGEST * 1000000000ull; turn++) {
        uint64_t took = stop();
        if (turn >= WARM_UP) printf("%llu ", (unsigned long long)took);
    }
    pthread_mutex_lock(&mutex);
    atomic_store(&over, true);
    pthread_cond_broadcast(&is_over);
    pthread_mutex_unlock(&mutex);
    for (int i = 0; i < threads; i++) pthread_join(ids[i], NULL), sp_free(&parties[i]);
    printf("\n");
}

int main(int argc, char **argv) {
    if (argc != 5) return 2;
    kind = (enum kind)atoi(argv[1]), threads = atoi(argv[2]), turns = atol(argv[3]), arg = atol(argv[4]);
    bool has_threads = kind >= HANDSHAKE && kind <= RECLAIM;
    if (threads < 1 || threads > MOST || (kind == DEEP && arg < 1)) return 2;
    must(sp_make(&coordinator, has_threads ? MOST : 4, SLOTS, METHODS));
    for (uint32_t method = 0; kind != INTERPRETED && method < (has_threads ? 1 : METHODS); method++) install(method);
    if (has_threads) time_stops();
    else time_calls();
    sp_free(&coordinator);
    return 0;
}
