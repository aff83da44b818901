/* Frames that are left without running on: safepoint_unwind THREADS ROUNDS. First each answer of one thread, and what a
   stop sees of its stack; then threads that leave by longjmp, while a coordinator stops them and frees their code.
   It ends by itself. tests/inline.py builds and runs it. */
#include <pthread.h>
#include <sched.h>
#include <setjmp.h>
#include <stdatomic.h>
#include <stdio.h>
#include <stdlib.h>
#include <unistd.h>

#include "../crates/safepoint/include/safepoint_wait.h"

enum { MOST = 32, FULL = 256, METHODS = 4, OLD = 16 };

#define IS(call, wanted) is(__LINE__, #call, (call), (wanted))

static void is(int line, const char *what, int64_t found, int64_t wanted) {
    if (found == wanted) return;
    printf("line %d: %s is %lld (%s), and not %lld\n", line, what, (long long)found, sp_text(found), (long long)wanted);
    exit(1);
}

static struct sp_party coordinator, thread, client;
static int ran;

static void count_run(void *with, const struct sp_served *served) {
    (void)with, (void)served;
    ran++;
}

static void go_down_to(struct sp_party *party, int64_t depth) {
    while (sp_depth(party) < depth) IS(sp_call(party, 0) < 0, 0);
}

/* --- one thread --- */

static void depths(void) {
    IS(sp_unwind_to(&thread, 0), 0);
    IS(sp_unwind_to(&thread, 7), 0);
    go_down_to(&thread, FULL);
    IS(sp_unwind_to(&thread, SIZE_MAX), 0);
    IS(sp_unwind_to(&thread, FULL), 0);
    IS(sp_depth(&thread), FULL);
    IS(sp_unwind_to(&thread, FULL - 1), 0);
    IS(sp_depth(&thread), FULL - 1);
    IS(sp_unwind_thread(&thread, 100, count_run, NULL), 0);
    IS(sp_depth(&thread), 100);
    IS(sp_unwind_thread(&thread, 101, count_run, NULL), 0);
    IS(sp_depth(&thread), 100);
    IS(sp_unwind_to(&thread, 0), 0);
    IS(sp_depth(&thread), 0);
    IS(sp_unwind_thread(&thread, 0, count_run, NULL), 0);
    IS(ran, 0);
}

static void refused(struct sp_party *party, int64_t answer) {
    IS(sp_unwind_to(party, 0), answer);
    IS(sp_unwind_to(party, 9), answer);
    IS(sp_unwind_thread(party, 0, count_run, NULL), answer);
}

static void other_states(void) {
    refused(&client, SP_NOT_THIS);
    refused(&coordinator, SP_NOT_THIS);
    go_down_to(&thread, 2);
    IS(sp_to_vm(&thread), 0);
    refused(&thread, SP_ILLEGAL);
    IS(sp_enter_blocked(&thread), 0);
    refused(&thread, SP_ILLEGAL);
    IS(sp_leave_blocked(&thread, count_run, NULL), 0);
    IS(sp_from_vm(&thread), 0);
    IS(sp_enter_native(&thread), 0);
    refused(&thread, SP_ILLEGAL);
    IS(sp_leave_native(&thread, count_run, NULL), 0);
    IS(sp_depth(&thread), 2);
    IS(sp_unwind_to(&thread, 0), 0);
}

static int64_t told(void) {
    int64_t number, name = sp_name(&thread);
    IS(sp_target(&coordinator, (uint64_t)name), 0);
    number = sp_submit(&coordinator, SP_DEPTH, 0);
    IS(sp_open(&coordinator), number);
    IS(sp_tell(&coordinator, (uint64_t)name), number);
    return number;
}

/* The poll comes after the frame has gone: of five frames the stop sees four. */
static void a_stop_in_between(void) {
    go_down_to(&thread, 5);
    int64_t number = told();
    IS(sp_unwind_to(&thread, 5), 0);
    IS(sp_unwind_to(&thread, 2), number);
    IS(sp_state(&thread), SP_AT_POLL);
    refused(&thread, SP_ILLEGAL);
    IS(sp_stop_next(&thread), number);
    refused(&thread, SP_ILLEGAL);
    IS(sp_depth(&thread), 4);
    IS(sp_stop_serve(&thread), 0);
    IS(sp_unwind_to(&thread, 2), 0);
    IS(sp_depth(&thread), 2);
    IS(sp_close(&coordinator), number);
    IS(sp_reply(&coordinator, (uint64_t)number, (uint64_t)sp_name(&thread)), 4);
}

/* Told twice, it serves both after the first frame that goes. */
static void stops_on_the_way(void) {
    IS(sp_unwind_to(&thread, 0), 0);
    go_down_to(&thread, 9);
    int64_t first = told(), second = told();
    ran = 0;
    IS(sp_unwind_thread(&thread, 1, count_run, NULL), 0);
    IS(ran, 2);
    IS(sp_depth(&thread), 1);
    IS(sp_close(&coordinator), first);
    IS(sp_close(&coordinator), second);
    IS(sp_reply(&coordinator, (uint64_t)second, (uint64_t)sp_name(&thread)), 8);
    IS(sp_unwind_thread(&thread, 0, NULL, NULL), 0);
}

static void one_thread(void) {
    IS(sp_make(&coordinator, 2, 4, 2), 0);
    IS(sp_fork(&coordinator, &thread), 0);
    IS(sp_fork(&coordinator, &client), 0);
    IS(sp_start_thread(&thread, count_run, NULL), 1);
    depths();
    other_states();
    a_stop_in_between();
    stops_on_the_way();
    IS(sp_exit_thread(&thread, count_run, NULL), 0);
    refused(&thread, SP_NOT_THIS);
    sp_free(&client);
    sp_free(&thread);
    sp_free(&coordinator);
}

/* --- threads that leave by longjmp --- */

struct one {
    struct sp_party party;
    pthread_t id;
    uint64_t random;
    jmp_buf landing;
    atomic_long served;
};

static struct one all[MOST];
static atomic_int ready;
static atomic_bool ends;
static atomic_long jumps, held;

static uint64_t drawn(struct one *me, uint64_t below) {
    me->random ^= me->random << 13, me->random ^= me->random >> 7, me->random ^= me->random << 17;
    return me->random % below;
}

static void count_one(void *with, const struct sp_served *served) {
    struct one *me = with;
    atomic_fetch_add(served->thread ? &me->served : &held, 1);
}

static void stop_if(struct one *me, int64_t polled) {
    if (polled) IS(polled < 0 ? polled : sp_stop(&me->party, count_one, me), 0);
}

/* Calls itself, and returns, or leaves all frames by a jump. */
static void go_deeper(struct one *me, uint64_t more) {
    IS(sp_call(&me->party, (uint32_t)drawn(me, METHODS)) < 0, 0);
    stop_if(me, sp_poll(&me->party));
    if (more) go_deeper(me, more - 1);
    if (!drawn(me, 20)) longjmp(me->landing, 1);
    stop_if(me, sp_ret(&me->party));
}

static void *live(void *with) {
    struct one *me = with;
    IS(sp_start_thread(&me->party, count_one, me) > 0, 1);
    atomic_fetch_add(&ready, 1);
    while (!atomic_load(&ends)) {
        if (setjmp(me->landing)) atomic_fetch_add(&jumps, 1);
        else go_deeper(me, drawn(me, 40));
        IS(sp_unwind_thread(&me->party, 0, count_one, me), 0);
        IS(sp_depth(&me->party), 0);
    }
    IS(sp_exit_thread(&me->party, count_one, me), 0);
    return NULL;
}

static long served_by_all(int count) {
    long sum = atomic_load(&held);
    for (int i = 0; i < count; i++) sum += atomic_load(&all[i].served);
    return sum;
}

/* Replaces a code, and frees the one before once no frame of it stands. */
static void replace(uint32_t method, int64_t *in_use) {
    int64_t before = in_use[method], answer;
    SP_WAIT(in_use[method], sp_install(&coordinator, method));
    IS(in_use[method] > before, 1);
    do answer = before ? sp_reclaim(&coordinator, (uint64_t)before, count_one, all) : 0;
    while (answer > 0 || answer == SP_LATE);
    IS(answer, 0);
}

static void many_threads(int count, int rounds) {
    int64_t in_use[METHODS] = {0}, number;
    IS(sp_make(&coordinator, MOST, OLD, METHODS), 0);
    for (int i = 0; i < count; i++) {
        all[i].random = 88172645463325252u + (uint64_t)i;
        IS(sp_fork(&coordinator, &all[i].party), 0);
        IS(pthread_create(&all[i].id, NULL, live, &all[i]), 0);
    }
    while (atomic_load(&ready) < count) sched_yield();
    for (int round = 0; round < rounds; round++) {
        long before = served_by_all(count);
        IS(sp_target_all(&coordinator), 0);
        SP_WAIT(number, sp_submit(&coordinator, SP_DEPTH, 0));
        IS(sp_drive(&coordinator, count_one, all), number);
        IS(served_by_all(count) - before, count);
        replace((uint32_t)round % METHODS, in_use);
    }
    while (atomic_load(&jumps) < count) sched_yield();
    atomic_store(&ends, true);
    for (int i = 0; i < count; i++) pthread_join(all[i].id, NULL), sp_free(&all[i].party);
    sp_free(&coordinator);
}

int main(int argc, char **argv) {
    int count = argc == 3 ? atoi(argv[1]) : 0, rounds = argc == 3 ? atoi(argv[2]) : 0;
    if (count < 1 || count > MOST || rounds < 1) return 2;
    alarm(300);
    one_thread();
    many_threads(count, rounds);
    printf("ok\n");
    return 0;
}
