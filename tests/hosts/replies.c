/* A client asks while the coordinator works on another thread: replies REQUESTS. sp_reply tells what isn't over from
   what will never come. */
#include "host.h"

enum { GONE = 1 << 20 /* a name that never was */ };

static struct sp_party coordinator, client, thread;
static atomic_bool ends;
static _Atomic int64_t name;

static void *run(void *with) {
    atomic_store(&name, must("sp_start_thread", sp_start_thread(&thread, NULL, NULL)));
    while (!atomic_load(&ends))
        if (must("sp_back_edge", sp_back_edge(&thread))) IS(sp_stop(&thread, NULL, NULL), 0);
    IS(sp_exit_thread(&thread, NULL, NULL), 0);
    return with;
}

static void *drive(void *with) {
    while (!atomic_load(&ends)) {
        int64_t closed = sp_drive(&coordinator, NULL, NULL);
        if (closed == SP_QUEUE_EMPTY) nap(50);
        else must("sp_drive", closed);
    }
    return with;
}

static int64_t asked(int64_t target) {
    int64_t number;
    must("sp_target", sp_target(&client, (uint64_t)target));
    DONE(number, sp_submit(&client, SP_DEPTH, 0));
    return number;
}

/* Nobody drives. */
static void before_and_after(void) {
    int64_t own = atomic_load(&name), first = asked(own), gone = asked(GONE);
    IS(sp_pending(&client), first);
    IS(sp_reply(&client, (uint64_t)first, (uint64_t)own), SP_PENDING);
    IS(sp_reply(&client, (uint64_t)gone, GONE), SP_PENDING);
    IS(sp_drive(&coordinator, NULL, NULL), first);
    IS(sp_reply(&client, (uint64_t)first, (uint64_t)own), 0);
    IS(sp_reply(&client, (uint64_t)first, GONE), SP_NOT_ANSWERED);
    IS(sp_reply(&client, (uint64_t)gone, GONE), SP_PENDING);
    IS(sp_drive(&coordinator, NULL, NULL), gone);
    IS(sp_reply(&client, (uint64_t)gone, GONE), SP_NOT_ANSWERED);
    IS(sp_pending(&client), 0);
}

/* The coordinator drives beside: each reply is there or to come until the request is closed, and there then. */
static long beside(int requests) {
    long pending = 0;
    for (int i = 0; i < requests; i++) {
        int64_t target = i % 2 ? GONE : atomic_load(&name), number = asked(target), reply;
        for (;; pending++, nap(20)) {
            SP_WAIT(reply, sp_reply(&client, (uint64_t)number, (uint64_t)target));
            if (reply != SP_PENDING) break;
            if (i % 4 > 1) IS(sp_wait_closed(&client, (uint64_t)number), 0);
        }
        if (reply != (target == GONE ? SP_NOT_ANSWERED : 0)) fail("sp_reply", reply);
        IS(sp_wait_closed(&client, (uint64_t)number), 0);
        IS(sp_reply(&client, (uint64_t)number, (uint64_t)target), reply);
        IS(sp_forget(&client), 0);
        IS(sp_reply(&client, (uint64_t)number, (uint64_t)target), SP_NOT_ANSWERED);
    }
    return pending;
}

int main(int count, char **words) {
    int requests = count > 1 ? atoi(words[1]) : 1000;
    pthread_t runs, drives;
    alarm(LONGEST);
    IS(sp_make(&coordinator, 2, 1, 1), 0);
    IS(sp_fork(&coordinator, &client), 0);
    IS(sp_fork(&coordinator, &thread), 0);
    if (pthread_create(&runs, NULL, run, NULL)) return 2;
    while (!atomic_load(&name)) nap(100);
    before_and_after();
    if (pthread_create(&drives, NULL, drive, NULL)) return 2;
    long pending = beside(requests);
    atomic_store(&ends, true);
    pthread_join(drives, NULL);
    pthread_join(runs, NULL);
    printf("%d requests, and %ld replies were pending\n", requests, pending);
    sp_free(&thread), sp_free(&client), sp_free(&coordinator);
    return 0;
}
