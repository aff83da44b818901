/* Requests of all threads, beside threads that start and exit all the time: ask_all THREADS REQUESTS. A request of all
   has those that live when it is made, and no later one, so each ends. */
#include "host.h"

static struct sp_system joined;
static atomic_bool ends;
static atomic_long starts;
static _Atomic uint64_t at_places; /* of those for which a callback ran */

static void at_safe_point(void *with, const struct sp_served *served) {
    (void)with;
    uint64_t bit = (uint64_t)1 << served->place;
    if (served->kind == SP_HANDSHAKE && atomic_fetch_or(&at_places, bit) & bit)
        fail("a request has two targets of one place", (int64_t)served->operation);
}

static void *live(void *with) {
    while (!atomic_load(&ends)) {
        struct sp_party thread = {0};
        IS(sp_system_join(&joined, &thread), 0);
        must("sp_start_thread", sp_start_thread(&thread, at_safe_point, NULL));
        atomic_fetch_add(&starts, 1);
        for (int turn = 0; turn < 20; turn++)
            if (must("sp_back_edge", sp_back_edge(&thread))) IS(sp_stop(&thread, at_safe_point, NULL), 0);
        IS(sp_exit_thread(&thread, at_safe_point, NULL), 0);
        sp_free(&thread);
        nap(100);
    }
    return with;
}

/* One handshake with all that live: whether some thread lived. */
static bool ask(struct sp_party *coordinator) {
    int64_t number, forgotten;
    must("sp_target_all", sp_target_all(coordinator));
    SP_WAIT(number, sp_submit(coordinator, SP_DEPTH, 0));
    DONE(forgotten, sp_forget(coordinator));
    if (number == SP_NO_TARGETS) return false;
    must("sp_submit", number);
    atomic_store(&at_places, 0);
    IS(sp_drive(coordinator, at_safe_point, NULL), number);
    return true;
}

int main(int count, char **words) {
    int threads = threads_of(count, words), requests = count > 2 ? atoi(words[2]) : 1000;
    pthread_t ids[MOST];
    IS(sp_system_make(&joined, (size_t)threads, 1, 1), 0);
    for (int i = 0; i < threads; i++)
        if (pthread_create(&ids[i], NULL, live, NULL)) return 2;
    struct sp_party *coordinator = sp_system_coordinator(&joined);
    while (!atomic_load(&starts)) nap(100);
    long operations = 0;
    for (int asked = 0; asked < requests; asked++) {
        while (!ask(coordinator)) nap(50);
        if (asked % 4) continue;
        must("sp_at_safepoint", sp_at_safepoint(coordinator, at_safe_point, NULL));
        operations++;
    }
    atomic_store(&ends, true);
    for (int i = 0; i < threads; i++) pthread_join(ids[i], NULL);
    sp_system_free(&joined);
    printf("%d threads, %ld starts beside %d handshakes and %ld VM operations of all\n", threads, atomic_load(&starts),
           requests, operations);
    return 0;
}
