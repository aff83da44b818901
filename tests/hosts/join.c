/* Threads that join one system at once, and start, ask and exit: join THREADS LIVES. Meanwhile the coordinator works on
   what they ask, and on censuses. */
#include "host.h"

static struct sp_system joined;
static pthread_barrier_t together;
static int lives;
static atomic_int done;
static atomic_long ran;

static void at_safe_point(void *with, const struct sp_served *served) {
    (void)with;
    if (served->kind == SP_HANDSHAKE) atomic_fetch_add(&ran, 1);
}

static void heed(struct sp_party *thread, int64_t polled) {
    if (must("a poll", polled)) IS(sp_stop(thread, at_safe_point, NULL), 0);
}

/* The thread asks itself how many frames it has. */
static void ask_itself(struct sp_party *thread, int64_t name) {
    int64_t number, reply;
    must("sp_call", sp_call(thread, 0));
    for (;; nap(50)) {
        heed(thread, sp_back_edge(thread));
        must("sp_target", sp_target(thread, (uint64_t)name));
        SP_WAIT(number, sp_submit(thread, SP_DEPTH, 0));
        if (number != SP_QUEUE_FULL) break;
    }
    must("sp_submit", number);
    for (;; nap(50)) {
        heed(thread, sp_back_edge(thread));
        SP_WAIT(reply, sp_reply(thread, (uint64_t)number, (uint64_t)name));
        if (reply != SP_PENDING) break;
    }
    if (reply != 1) fail("sp_reply", reply);
    heed(thread, sp_ret(thread));
}

static void *live(void *with) {
    for (int life = 0; life < lives; life++) {
        struct sp_party thread = {0};
        pthread_barrier_wait(&together);
        IS(sp_system_join(&joined, &thread), 0);
        IS(sp_system_join(&joined, &thread), SP_MADE);
        ask_itself(&thread, must("sp_start_thread", sp_start_thread(&thread, at_safe_point, NULL)));
        IS(sp_exit_thread(&thread, at_safe_point, NULL), 0);
        sp_free(&thread);
    }
    atomic_fetch_add(&done, 1);
    return with;
}

int main(int count, char **words) {
    int threads = threads_of(count, words);
    struct sp_party *coordinator = sp_system_coordinator(&joined), client = {0};
    pthread_t ids[MOST];
    lives = count > 2 ? atoi(words[2]) : 10;
    IS(sp_system_join(&joined, &client), SP_NOT_THIS);
    IS(sp_system_make(&joined, MOST + 1, 1, 1), SP_BAD_SIZE);
    IS(sp_system_make(&joined, (size_t)threads, 1, 1), 0);
    IS(sp_system_make(&joined, 1, 1, 1), SP_MADE);
    if (pthread_barrier_init(&together, NULL, (unsigned)threads)) return 2;
    for (int i = 0; i < threads; i++)
        if (pthread_create(&ids[i], NULL, live, NULL)) return 2;
    for (long turn = 0; atomic_load(&done) < threads; turn++) {
        int64_t closed = turn % 8 ? sp_drive(coordinator, at_safe_point, NULL)
                                  : sp_at_safepoint(coordinator, at_safe_point, NULL);
        if (closed == SP_QUEUE_EMPTY) nap(50);
        else if (closed != SP_QUEUE_FULL) must("the coordinator", closed);
    }
    for (int i = 0; i < threads; i++) pthread_join(ids[i], NULL);
    IS(sp_live_after(coordinator, 0), 0);
    if (atomic_load(&ran) != (long)threads * lives) fail("so many callbacks", atomic_load(&ran));
    /* the names are those from 1 on, each once */
    IS(sp_system_join(&joined, &client), 0);
    IS(sp_start_thread(&client, NULL, NULL), (int64_t)threads * lives + 1);
    sp_system_free(&joined);
    sp_system_free(&joined);
    IS(sp_exit_thread(&client, NULL, NULL), 0);
    sp_free(&client);
    IS(sp_system_join(&joined, &client), SP_NOT_THIS);
    printf("%d threads joined %d times each\n", threads, lives);
    return 0;
}
