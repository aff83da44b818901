/* Coroutines without stacks of their own: safepoint_switch THREADS ROUNDS. First each answer of sp_switch; then threads
   of the host each of which switches between some parties, while a coordinator stops all of them. It ends by itself.
   tests/inline.py builds and runs it. */
#include <pthread.h>
#include <sched.h>
#include <stdatomic.h>
#include <stdio.h>
#include <stdlib.h>
#include <unistd.h>

#include "../crates/safepoint/include/safepoint_wait.h"

enum { MOST = 16, OWN = 3, PLACES = MOST * OWN };

#define IS(call, wanted) is(__LINE__, #call, (call), (wanted))

static void is(int line, const char *what, int64_t found, int64_t wanted) {
    if (found == wanted) return;
    printf("line %d: %s is %lld (%s), and not %lld\n", line, what, (long long)found, sp_text(found), (long long)wanted);
    exit(1);
}

/* --- each answer --- */

static struct sp_party coordinator, first, second, client;
static int ran;
static const struct sp_party *served_last;

static void note(void *with, const struct sp_served *served) {
    (void)with;
    served_last = served->thread;
    ran++;
}

static void refused(struct sp_party *from, struct sp_party *to, int64_t answer) {
    int64_t before[] = {sp_state(from), sp_state(to)};
    IS(sp_switch(from, to, note, NULL), answer);
    IS(sp_state(from), before[0]);
    IS(sp_state(to), before[1]);
}

static void refusals(void) {
    refused(&first, &client, SP_NOT_THIS);
    refused(&client, &second, SP_NOT_THIS);
    refused(&second, &second, SP_ILLEGAL);
    refused(&second, &first, SP_ILLEGAL);
    refused(&first, &first, SP_ILLEGAL);
    IS(sp_leave_native(&second, note, NULL), 0);
    refused(&first, &second, SP_ILLEGAL);
    IS(sp_to_vm(&second), 0);
    IS(sp_enter_blocked(&second), 0);
    refused(&first, &second, SP_ILLEGAL);
    IS(sp_leave_blocked(&second, note, NULL), 0);
    IS(sp_from_vm(&second), 0);
    IS(sp_enter_native(&second), 0);
}

static void there_and_back(void) {
    IS(sp_switch(&first, &second, note, NULL), 0);
    IS(sp_state(&first), SP_IN_NATIVE);
    IS(sp_state(&second), SP_IN_JAVA);
    IS(sp_to_vm(&second), 0);
    IS(sp_switch(&second, &first, note, NULL), 0);
    IS(sp_state(&first), SP_IN_JAVA);
    IS(sp_switch(&first, &second, note, NULL), 0);
    IS(sp_state(&second), SP_IN_VM);
    IS(sp_from_vm(&second), 0);
    IS(sp_switch(&second, &first, note, NULL), 0);
    IS(ran, 0);
}

/* What stops the one that comes is served in the switch. The one that goes is left to the coordinator. */
static void stops(void) {
    IS(sp_target_all(&coordinator), 0);
    IS(sp_submit(&coordinator, SP_DEPTH, 0), 1);
    IS(sp_open(&coordinator), 1);
    IS(sp_tell(&coordinator, 1), 1);
    IS(sp_tell(&coordinator, 2), 1);
    IS(sp_switch(&first, &second, note, NULL), 0);
    IS(ran, 1);
    IS(served_last == &second, 1);
    IS(sp_drive(&coordinator, note, NULL), 1);
    IS(ran, 2);
    IS(served_last == NULL, 1);
    IS(sp_switch(&second, &first, note, NULL), 0);
    IS(ran, 2);
}

static void each_answer(void) {
    struct sp_party *all[] = {&first, &second, &client};
    IS(sp_make(&coordinator, 2, 1, 1), 0);
    for (int i = 0; i < 3; i++) IS(sp_fork(&coordinator, all[i]), 0);
    IS(sp_start_thread(&second, note, NULL), 1);
    IS(sp_enter_native(&second), 0);
    IS(sp_start_thread(&first, note, NULL), 2);
    refusals();
    there_and_back();
    stops();
    IS(sp_exit_thread(&first, note, NULL), 0);
    IS(sp_leave_native(&second, note, NULL), 0);
    IS(sp_exit_thread(&second, note, NULL), 0);
    for (int i = 0; i < 3; i++) sp_free(all[i]);
    sp_free(&coordinator);
}

/* --- threads of the host that switch --- */

struct host {
    struct sp_party parties[OWN];
    pthread_t id;
    uint64_t random;
};

static struct host hosts[MOST];
static atomic_int ready;
static atomic_bool ends;
static atomic_long served, switches;

static void count_run(void *with, const struct sp_served *at) {
    (void)with;
    if (at->kind == SP_HANDSHAKE) atomic_fetch_add(&served, 1);
}

/* Another party of the host than this one. */
static int other_than(struct host *me, int running) {
    me->random ^= me->random << 13, me->random ^= me->random >> 7, me->random ^= me->random << 17;
    return (running + 1 + (int)(me->random % (OWN - 1))) % OWN;
}

static int run_a_while(struct host *me, int running) {
    struct sp_party *it = &me->parties[running];
    int other = other_than(me, running);
    IS(sp_call(it, 0) < 0, 0);
    for (int i = 0; i < 20; i++) {
        int64_t polled = sp_poll(it);
        if (polled) IS(polled < 0 ? polled : sp_stop(it, count_run, NULL), 0);
    }
    IS(sp_unwind_thread(it, me->random % 3, count_run, NULL), 0);
    IS(sp_switch(it, &me->parties[other], count_run, NULL), 0);
    atomic_fetch_add(&switches, 1);
    return other;
}

static void *live(void *with) {
    struct host *me = with;
    int running = 0;
    for (int i = OWN - 1; i >= 0; i--) {
        IS(sp_start_thread(&me->parties[i], count_run, NULL) > 0, 1);
        if (i) IS(sp_enter_native(&me->parties[i]), 0);
    }
    atomic_fetch_add(&ready, 1);
    while (!atomic_load(&ends)) running = run_a_while(me, running);
    for (int i = 0; i < OWN; i++) {
        struct sp_party *it = &me->parties[(running + i) % OWN];
        if (i) IS(sp_leave_native(it, count_run, NULL), 0);
        IS(sp_unwind_thread(it, 0, count_run, NULL), 0);
        IS(sp_exit_thread(it, count_run, NULL), 0);
    }
    return NULL;
}

static void many_threads(int count, int rounds) {
    IS(sp_make(&coordinator, PLACES, 1, 1), 0);
    for (int i = 0; i < count; i++) {
        hosts[i].random = 88172645463325252u + (uint64_t)i;
        for (int j = 0; j < OWN; j++) IS(sp_fork(&coordinator, &hosts[i].parties[j]), 0);
        IS(pthread_create(&hosts[i].id, NULL, live, &hosts[i]), 0);
    }
    while (atomic_load(&ready) < count) sched_yield();
    for (int round = 1; round <= rounds; round++) {
        int64_t number;
        IS(sp_target_all(&coordinator), 0);
        SP_WAIT(number, sp_submit(&coordinator, SP_DEPTH, 0));
        IS(sp_drive(&coordinator, count_run, NULL), number);
        IS(atomic_load(&served), (int64_t)round * count * OWN);
        IS(sp_at_safepoint(&coordinator, count_run, NULL), number + 1);
    }
    while (atomic_load(&switches) < count) sched_yield();
    atomic_store(&ends, true);
    for (int i = 0; i < count; i++) {
        pthread_join(hosts[i].id, NULL);
        for (int j = 0; j < OWN; j++) sp_free(&hosts[i].parties[j]);
    }
    sp_free(&coordinator);
}

int main(int argc, char **argv) {
    int count = argc == 3 ? atoi(argv[1]) : 0, rounds = argc == 3 ? atoi(argv[2]) : 0;
    if (count < 1 || count > MOST || rounds < 1) return 2;
    alarm(300);
    each_answer();
    many_threads(count, rounds);
    printf("ok\n");
    return 0;
}
