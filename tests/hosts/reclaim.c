/* Codes that are reclaimed beside threads that start and exit: reclaim THREADS CODES. sp_reclaim answers what its page
   has; and what the two halves of it answer unasked. It is linked with --wrap=sp_reclaim_begin. */
#include "host.h"

static struct sp_system joined;
static struct sp_party *coordinator;
static atomic_bool ends;
static atomic_long starts;

/* One after the other starts in native code: the oldest exits for it, from the moment that all 64 live. */
static struct sp_party crowd[MOST];
static int churn;
static long oldest;

static void come_and_go(void) {
    struct sp_party *party = &crowd[oldest++ % MOST];
    if (party->made) {
        IS(sp_leave_native(party, NULL, NULL), 0);
        IS(sp_exit_thread(party, NULL, NULL), 0);
        sp_free(party);
    }
    IS(sp_system_join(&joined, party), 0);
    must("sp_start_thread", sp_start_thread(party, NULL, NULL));
    IS(sp_enter_native(party), 0);
}

int64_t __real_sp_reclaim_begin(struct sp_party *party, uint64_t serial);
int64_t __wrap_sp_reclaim_begin(struct sp_party *party, uint64_t serial);
int64_t __wrap_sp_reclaim_begin(struct sp_party *party, uint64_t serial) {
    for (int i = 0; i < churn; i++) come_and_go();
    int64_t answer = __real_sp_reclaim_begin(party, serial);
    for (int i = 0; i < churn; i++) come_and_go();
    return answer;
}

/* While sp_reclaim makes its request, one thread leaves and one comes, or all do. */
static void beside_a_crowd(void) {
    for (int i = 0; i < MOST; i++) come_and_go();
    for (churn = 0; churn <= 2 * MOST; churn += churn < 2 ? 1 : MOST - 1) {
        int64_t old, installed;
        DONE(old, sp_install(coordinator, 0));
        DONE(installed, sp_install(coordinator, 0));
        /* a target of the coordinator's own is dropped, once or twice */
        must("sp_target", sp_target(coordinator, 1));
        must("sp_target", sp_target(coordinator, 1));
        IS(sp_reclaim(coordinator, (uint64_t)old, NULL, NULL), 0);
    }
    churn = 0;
    for (int i = 0; i < MOST; i++) {
        IS(sp_leave_native(&crowd[i], NULL, NULL), 0);
        IS(sp_exit_thread(&crowd[i], NULL, NULL), 0);
        sp_free(&crowd[i]);
    }
}

/* Of no code, of one in use, of one that a handshake has asked about, and of one that is freed. */
static void unasked(void) {
    struct sp_party thread = {0};
    int64_t code, next, number;
    IS(sp_system_join(&joined, &thread), 0);
    must("sp_start_thread", sp_start_thread(&thread, NULL, NULL));
    DONE(code, sp_install(coordinator, 1));
    IS(sp_reclaim_begin(coordinator, (uint64_t)code), SP_STILL_IN_USE);
    IS(sp_reclaim_end(coordinator, (uint64_t)code), SP_NOT_WEIGHED);
    DONE(next, sp_install(coordinator, 1));
    IS(sp_enter_native(&thread), 0);
    IS(sp_reclaim_end(coordinator, (uint64_t)code), SP_LATE);
    IS(sp_reclaim_end(coordinator, (uint64_t)next + 9), SP_NOT_WEIGHED);
    IS(sp_reclaim_begin(coordinator, (uint64_t)next + 9), SP_UNKNOWN);
    must("sp_target_all", sp_target_all(coordinator));
    DONE(number, sp_reclaim_begin(coordinator, (uint64_t)code));
    IS(sp_reclaim_begin(coordinator, (uint64_t)code), SP_ALREADY_OPEN);
    IS(sp_reclaim_end(coordinator, (uint64_t)code), SP_LATE);
    IS(sp_drive(coordinator, NULL, NULL), number);
    IS(sp_reclaim_end(coordinator, (uint64_t)code), 0);
    IS(sp_reclaim_end(coordinator, (uint64_t)code), SP_NOT_WEIGHED);
    IS(sp_reclaim_begin(coordinator, (uint64_t)code), SP_UNKNOWN);
    IS(sp_leave_native(&thread, NULL, NULL), 0);
    IS(sp_exit_thread(&thread, NULL, NULL), 0);
    sp_free(&thread);
}

static void *live(void *with) {
    while (!atomic_load(&ends)) {
        struct sp_party thread = {0};
        IS(sp_system_join(&joined, &thread), 0);
        must("sp_start_thread", sp_start_thread(&thread, NULL, NULL));
        atomic_fetch_add(&starts, 1);
        for (int turn = 0; turn < 20; turn++)
            if (must("sp_back_edge", sp_back_edge(&thread))) IS(sp_stop(&thread, NULL, NULL), 0);
        IS(sp_exit_thread(&thread, NULL, NULL), 0);
        sp_free(&thread);
        nap(100);
    }
    return with;
}

/* A code is replaced, and reclaimed until it is freed. */
static long beside_threads(int codes) {
    long late = 0;
    int64_t current, answer, forgotten;
    DONE(current, sp_install(coordinator, 0));
    for (int i = 0; i < codes; i++) {
        uint64_t old = (uint64_t)current;
        DONE(current, sp_install(coordinator, 0));
        while ((answer = sp_reclaim(coordinator, old, NULL, NULL)) != 0) {
            if (answer != SP_LATE) fail("sp_reclaim", answer);
            late++;
        }
        DONE(forgotten, sp_forget(coordinator));
    }
    return late;
}

int main(int count, char **words) {
    int threads = threads_of(count, words), codes = count > 2 ? atoi(words[2]) : 100;
    pthread_t ids[MOST];
    IS(sp_system_make(&joined, MOST, 64, 2), 0);
    coordinator = sp_system_coordinator(&joined);
    unasked();
    beside_a_crowd();
    for (int i = 0; i < threads; i++)
        if (pthread_create(&ids[i], NULL, live, NULL)) return 2;
    while (!atomic_load(&starts)) nap(100);
    long late = beside_threads(codes);
    atomic_store(&ends, true);
    for (int i = 0; i < threads; i++) pthread_join(ids[i], NULL);
    printf("%d threads, %ld starts beside %d codes that were freed, %ld times late\n", threads, atomic_load(&starts),
           codes, late);
    sp_system_free(&joined);
    return 0;
}
