/* Threads that died: in each state one thread dies, and another thread of the host takes it over, so that all requests
   are closed. tests/safepoint.py builds and runs it. */
#include <pthread.h>
#include <stdatomic.h>
#include <stdio.h>
#include <stdlib.h>

#include "../crates/safepoint/include/safepoint_wait.h"

#define MINUTE ((uint64_t)60000000000)

static struct sp_party coordinator, client;
static atomic_long served; /* callbacks that the thread ran by itself */

static void judge(int line, const char *call, int64_t found, int64_t wanted) {
    if (found == wanted) return;
    printf("FAILED: %d: %s: %lld (%s), and not %lld\n", line, call, (long long)found, sp_text(found),
           (long long)wanted);
    exit(1);
}
#define IS(call, wanted) judge(__LINE__, #call, (int64_t)(call), (int64_t)(wanted))

static void at_safe_point(void *with, const struct sp_served *call) {
    (void)with;
    if (call->thread) atomic_fetch_add(&served, 1);
}

static int64_t ask_all(struct sp_party *party) {
    int64_t number;
    IS(sp_target_all(party), 0);
    SP_WAIT(number, sp_submit(party, SP_DEPTH, 0));
    IS(number > 0, true);
    return number;
}

static int64_t pending(void) {
    int64_t number;
    SP_WAIT(number, sp_pending(&client));
    return number;
}

static int64_t asked_census(void) {
    int64_t number;
    SP_WAIT(number, sp_census(&client));
    IS(number > 0, true);
    return number;
}

static void die_in_java(struct sp_party *thread) {
    for (int depth = 0; depth < 200; depth++) IS(sp_call(thread, 0), 0);
}

static void die_in_vm(struct sp_party *thread) {
    die_in_java(thread);
    IS(sp_to_vm(thread), 0);
}

static void die_blocked(struct sp_party *thread) {
    die_in_vm(thread);
    IS(sp_enter_blocked(thread), 0);
}

static void die_in_native(struct sp_party *thread) {
    die_in_java(thread);
    IS(sp_enter_native(thread), 0);
}

static void die_in_native_of_vm(struct sp_party *thread) {
    die_in_vm(thread);
    IS(sp_enter_native(thread), 0);
}

/* It is told an operation, for which it stops. */
static void die_at_poll(struct sp_party *thread) {
    die_in_java(thread);
    IS(ask_all(&client) > 0, true);
    IS(sp_drive_for(&coordinator, at_safe_point, NULL, 0), SP_TIMEOUT);
    IS(sp_back_edge(thread) > 0, true);
}

/* It died in its own loop over sp_stop_next. */
static void die_serving(struct sp_party *thread) {
    die_at_poll(thread);
    IS(sp_stop_next(thread) > 0, true);
}

static void *take_over(void *with) {
    IS(sp_end_thread(with, at_safe_point, NULL), 0);
    return NULL;
}

/* A thread dies in this state. Once another thread has taken it over, a handshake and a census are closed. */
static void taken_over(void (*die)(struct sp_party *), int state, long least, long most) {
    struct sp_party dead = {0};
    pthread_t id;
    int64_t name, first;
    served = 0;
    IS(sp_fork(&coordinator, &dead), 0);
    name = sp_start_thread(&dead, at_safe_point, NULL);
    IS(name > 0, true);
    die(&dead);
    IS(sp_state(&dead), state);
    first = pending() ? pending() : ask_all(&client);
    int64_t census = asked_census();
    IS(pthread_create(&id, NULL, take_over, &dead), 0);
    IS(sp_drive_for(&coordinator, at_safe_point, NULL, MINUTE), first);
    IS(sp_drive_for(&coordinator, at_safe_point, NULL, MINUTE), census);
    IS(pthread_join(id, NULL), 0);
    IS(sp_live_after(&client, 0), 0);
    IS(served >= least && served <= most, true);
    IS(sp_end_thread(&dead, at_safe_point, NULL), SP_NOT_THIS);
    sp_free(&dead);
}

int main(void) {
    IS(sp_make(&coordinator, 4, 4, 4), 0);
    IS(sp_fork(&coordinator, &client), 0);
    taken_over(die_in_java, SP_IN_JAVA, 0, 1);
    taken_over(die_in_vm, SP_IN_VM, 0, 1);
    taken_over(die_blocked, SP_BLOCKED, 0, 1);
    taken_over(die_in_native, SP_IN_NATIVE, 0, 1);
    taken_over(die_in_native_of_vm, SP_IN_NATIVE, 0, 1);
    taken_over(die_at_poll, SP_AT_POLL, 1, 1);
    taken_over(die_serving, SP_SERVING, 0, 0);
    sp_free(&client);
    sp_free(&coordinator);
    puts("ok");
    return 0;
}
