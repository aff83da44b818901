/* Parties that are threads again and again: restart THREADS LIVES. Between two lives each is a client, which asks, and
   each life has a name of its own. */
#include "host.h"

static struct sp_system joined;
static int lives;
static atomic_int done;

static void heed(struct sp_party *thread, int64_t polled) {
    if (must("a poll", polled)) IS(sp_stop(thread, NULL, NULL), 0);
}

/* One life, in a method and in native code: its name. */
static int64_t lived(struct sp_party *party) {
    int64_t name = must("sp_start_thread", sp_start_thread(party, NULL, NULL));
    IS(sp_start(party), SP_NOT_THIS);
    IS(sp_name(party), name);
    must("sp_call", sp_call(party, 0));
    heed(party, sp_back_edge(party));
    IS(sp_enter_native(party), 0);
    IS(sp_leave_native(party, NULL, NULL), 0);
    heed(party, sp_ret(party));
    IS(sp_exit_thread(party, NULL, NULL), 0);
    return name;
}

/* The party is a client, as one that never was a thread. */
static void be_a_client(struct sp_party *party, int64_t name) {
    IS(sp_state(party), SP_NOT_THIS);
    IS(sp_name(party), SP_NOT_THIS);
    IS(sp_back_edge(party), SP_NOT_THIS);
    IS(sp_exit(party), SP_NOT_THIS);
    IS(sp_advance(party), SP_NOT_THIS);
    /* its last name is gone, and others live above it alone */
    int64_t next;
    DONE(next, sp_live_after(party, (uint64_t)name - 1));
    if (next == name) fail("a thread that has exited lives", name);
    must("sp_target", sp_target(party, (uint64_t)name));
    int64_t number;
    SP_WAIT(number, sp_submit(party, SP_DEPTH, 0));
    if (number == SP_QUEUE_FULL) return;
    IS(sp_wait_closed(party, (uint64_t)must("sp_submit", number)), 0);
    IS(sp_reply(party, (uint64_t)number, (uint64_t)name), SP_NOT_ANSWERED);
}

static void *live(void *with) {
    struct sp_party party = {0};
    int64_t last = 0;
    IS(sp_system_join(&joined, &party), 0);
    for (int life = 0; life < lives; life++) {
        int64_t name = lived(&party);
        if (name <= last) fail("a name isn't above the one before", name);
        be_a_client(&party, last = name);
    }
    sp_free(&party);
    atomic_fetch_add(&done, 1);
    return with;
}

/* In one thread: a party that exits forks, frees, and never becomes a coordinator. */
static void by_one(void) {
    struct sp_party *coordinator = sp_system_coordinator(&joined), party = {0}, other = {0};
    IS(sp_system_join(&joined, &party), 0);
    IS(sp_start(&party), 1);
    IS(sp_exit(&party), 0);
    IS(sp_fork(&party, &other), 0);
    IS(sp_start(&party), 2);
    IS(sp_start(&other), 3);
    IS(sp_start(coordinator), SP_NOT_THIS);
    IS(sp_call(&other, 0), 0);
    IS(sp_exit(&other), SP_STACK_NOT_EMPTY);
    IS(sp_ret(&other), 0);
    IS(sp_exit(&other), 0);
    IS(sp_exit(&party), 0);
    IS(sp_live_after(&party, 0), 0);
    sp_free(&party);
    IS(sp_start(&party), SP_NOT_THIS);
    sp_free(&other);
}

int main(int count, char **words) {
    int threads = threads_of(count, words);
    pthread_t ids[MOST];
    lives = count > 2 ? atoi(words[2]) : 20;
    IS(sp_system_make(&joined, MOST, 1, 1), 0);
    by_one();
    for (int i = 0; i < threads; i++)
        if (pthread_create(&ids[i], NULL, live, NULL)) return 2;
    struct sp_party *coordinator = sp_system_coordinator(&joined);
    long driven = 0;
    for (; atomic_load(&done) < threads; driven++) {
        int64_t closed = driven % 8 ? sp_drive(coordinator, NULL, NULL) : sp_at_safepoint(coordinator, NULL, NULL);
        if (closed == SP_QUEUE_EMPTY) nap(50);
        else if (closed != SP_QUEUE_FULL) must("the coordinator", closed);
        DONE(closed, sp_forget(coordinator));
    }
    for (int i = 0; i < threads; i++) pthread_join(ids[i], NULL);
    sp_system_free(&joined);
    printf("%d parties with %d lives each\n", threads, lives);
    return 0;
}
