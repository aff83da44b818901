/* Threads at random over one system, whose calls are all recorded: witness_threads THREADS STEPS SEED prints the log. The threads share so many steps: they
   start, run, ask and exit, and make refused calls too. Beside them a coordinator drives one handshake, four or a census, works some by hand or by sp_advance, installs over
   running code, reclaims, and makes refused calls. With -DLIES it serves a liar (witness_liars.c). tests/witness.py builds and runs it. */
#include <pthread.h>
#include <sched.h>
#include <stdatomic.h>
#include <stdio.h>
#include <stdlib.h>
#include <time.h>

#include "../crates/safepoint/include/safepoint_wait.h"

enum { MOST = 16, METHODS = 4, SLOTS = 12, DEPTH = 20, SPIN = 30000, TURNS = 30 };

struct one {
    struct sp_party client, party; /* the client forks the party of each life */
    pthread_t id;
    uint64_t random;
    int64_t name;
    int depth;
    long left, unwound; /* of its steps; how often it has left a frame and told it */
    atomic_long publications;
    atomic_bool lives;
};

static struct sp_party coordinator;
static uint64_t coordinator_random;
static struct one all[MOST];
static int count;
static atomic_int still; /* threads that have steps left */
static atomic_long unwound; /* how often each thread is to have left a frame and told it */
static atomic_uint_least64_t last_serial;

/* Whether a liar may say now that a thread is held. */
#ifdef LIES
extern atomic_bool sp_lies;
static void let_lie(bool may) { atomic_store(&sp_lies, may); }
#else
static void let_lie(bool may) { (void)may; }
#endif

static void fail(const char *what, int64_t answer) {
    fprintf(stderr, "%s: %lld, %s\n", what, (long long)answer, sp_text(answer));
    exit(1);
}

static int64_t must(const char *what, int64_t answer) {
    if (answer < 0) fail(what, answer);
    return answer;
}

/* The call is to be refused so. */
static void refused(const char *what, int64_t answer, int64_t why) {
    if (answer != why) fail(what, answer);
}

static uint64_t drawn(uint64_t *random, uint64_t below) {
    *random ^= *random << 13, *random ^= *random >> 7, *random ^= *random << 17;
    return (*random >> 9) % below;
}

static void spin(uint64_t turns) {
    for (volatile uint64_t i = turns; i; i--) continue;
}

static void at_safe_point(void *with, const struct sp_served *call) {
    (void)with, (void)call;
    spin(50);
}

static void note_serial(int64_t serial) {
    uint64_t last = atomic_load(&last_serial);
    while ((int64_t)last < serial && !atomic_compare_exchange_weak(&last_serial, &last, (uint64_t)serial)) continue;
}

/* Of a code that was given out of late, or none. */
static uint64_t an_old_serial(uint64_t *random) {
    uint64_t last = atomic_load(&last_serial) + 1, back = drawn(random, SLOTS + 2);
    return back < last ? last - back : 1;
}

/* --- a thread --- */

static void heed(struct one *me, int64_t polled) {
    if (must("a poll", polled)) must("sp_stop", sp_stop(&me->party, at_safe_point, me));
}

static void enter(struct one *me) {
    if (me->depth == DEPTH) return;
    must("sp_call", sp_call(&me->party, (uint32_t)(drawn(&me->random, METHODS) * drawn(&me->random, 2))));
    me->depth++;
}

static void leave(struct one *me) {
    if (!me->depth) return;
    me->depth--;
    heed(me, sp_ret(&me->party));
}

static void publish(struct one *me) {
    must("sp_publish", sp_publish(&me->party));
    atomic_fetch_add(&me->publications, 1);
}

static void be_away(struct one *me, bool blocked) {
    if (blocked) {
        must("sp_to_vm", sp_to_vm(&me->party));
        must("sp_enter_blocked", sp_enter_blocked(&me->party));
    } else {
        must("sp_enter_native", sp_enter_native(&me->party));
    }
    spin(drawn(&me->random, 3000));
    if (!blocked) {
        must("sp_leave_native", sp_leave_native(&me->party, at_safe_point, me));
        return;
    }
    must("sp_leave_blocked", sp_leave_blocked(&me->party, at_safe_point, me));
    heed(me, sp_from_vm(&me->party));
}

static void ask(struct one *me) {
    int64_t answer;
    uint64_t what = drawn(&me->random, 4), serial = an_old_serial(&me->random);
    if (what == 0) SP_WAIT(answer, sp_census(&me->party));
    else if (what == 1) SP_WAIT(answer, sp_invalidate(&me->party, serial));
    else if (what == 2) {
        uint32_t method = (uint32_t)drawn(&me->random, METHODS);
        SP_WAIT(answer, sp_install(&me->party, method));
        note_serial(answer);
    } else {
        must("sp_target", sp_target(&me->party, (uint64_t)me->name));
        SP_WAIT(answer, sp_submit(&me->party, SP_TOP, 0));
    }
    if (answer < 0 && answer != SP_QUEUE_FULL && answer != SP_TABLE_FULL && answer != SP_UNKNOWN && answer != SP_NOT_IN_USE) fail("an ask", answer);
}

static void be_refused(struct one *me) {
    int64_t answer;
    switch (drawn(&me->random, 5)) {
    case 0: refused("sp_call", sp_call(&me->party, METHODS), SP_NO_SUCH_METHOD); break;
    case 1:
        SP_WAIT(answer, sp_from_native(&me->party));
        refused("sp_from_native", answer, SP_ILLEGAL);
        break;
    case 2:
        SP_WAIT(answer, sp_stop_next(&me->party));
        refused("sp_stop_next", answer, SP_ILLEGAL);
        break;
    case 3: refused("sp_from_vm", sp_from_vm(&me->party), SP_ILLEGAL); break;
    default:
        if (!me->depth) refused("sp_ret", sp_ret(&me->party), SP_EMPTY_STACK);
    }
}

static void unwind(struct one *me) {
    me->unwound++;
    leave(me);
    publish(me);
}

static void step(struct one *me) {
    if (me->unwound < atomic_load(&unwound)) {
        unwind(me);
        return;
    }
    switch (drawn(&me->random, 18)) {
    case 0: case 1: case 2: case 3: case 4: enter(me); break;
    case 5: case 6: case 7: case 8: leave(me); break;
    case 9: case 10: heed(me, sp_back_edge(&me->party)); break;
    case 11: case 12: publish(me); break;
    case 13: be_away(me, false); break;
    case 14: be_away(me, true); break;
    case 15: if (!drawn(&me->random, 4)) be_refused(me); break;
    case 16: if (!drawn(&me->random, 8)) ask(me); break;
    default: spin(drawn(&me->random, 3000));
    }
}

/* From a start to an exit, if there is a place. */
static bool live_once(struct one *me) {
    int64_t name = sp_start_thread(&me->party, at_safe_point, me);
    if (name == SP_PLACES_FULL) return false;
    me->name = must("sp_start", name);
    me->unwound = atomic_load(&unwound);
    atomic_store(&me->lives, true);
    for (uint64_t left = 20 + drawn(&me->random, 200); left && me->left; left--, me->left--) {
        step(me);
        if (drawn(&me->random, 2)) sched_yield();
        else spin(drawn(&me->random, SPIN));
    }
    atomic_store(&me->lives, false);
    if (me->depth) {
        SP_WAIT(name, sp_exit(&me->party));
        refused("sp_exit", name, SP_STACK_NOT_EMPTY);
    }
    while (me->depth) leave(me);
    must("sp_exit", sp_exit_thread(&me->party, at_safe_point, me));
    return true;
}

/* All begin at a time, the coordinator too. */
static void meet(void) {
    static atomic_int here;
    atomic_fetch_add(&here, 1);
    while (atomic_load(&here) <= count) sched_yield();
}

static void *run(void *with) {
    struct one *me = with;
    meet();
    while (me->left) {
        must("sp_fork", sp_fork(&me->client, &me->party));
        if (!live_once(me)) for (int i = 0; i < 50; i++) sched_yield();
        sp_free(&me->party);
    }
    atomic_fetch_sub(&still, 1);
    return NULL;
}

/* --- the coordinator --- */

/* The live names are the targets, or one in two of them: how many. */
static int aim(bool at_all) {
    int64_t name = 0;
    for (int aimed = 0;; ) {
        SP_WAIT(name, sp_live_after(&coordinator, (uint64_t)name));
        if (must("sp_live_after", name) == 0) return aimed;
        if (at_all || drawn(&coordinator_random, 2)) must("sp_target", sp_target(&coordinator, (uint64_t)name)), aimed++;
    }
}

static void submit(bool at_all) {
    int64_t answer;
    uint32_t asks = (uint32_t)drawn(&coordinator_random, 3);
    uint64_t serial = 1 + drawn(&coordinator_random, SLOTS);
    aim(at_all);
    SP_WAIT(answer, sp_submit(&coordinator, asks, serial));
    if (answer != SP_NO_TARGETS && answer != SP_QUEUE_FULL) must("sp_submit", answer);
}

static void drive(void) {
    int64_t answer = sp_drive(&coordinator, at_safe_point, NULL);
    if (answer != SP_QUEUE_EMPTY) must("sp_drive", answer);
}

static void drive_four(void) {
    for (uint64_t i = 1 + drawn(&coordinator_random, 4); i; i--) submit(false);
    must("sp_drive_four", sp_drive_four(&coordinator, at_safe_point, NULL));
}

static void drive_all(void) {
    while (must("sp_drive_four", sp_drive_four(&coordinator, at_safe_point, NULL))) continue;
}

/* An Operate before anybody is held for it: it is refused by the kind of what is open, but where nobody lives whom a census waits for. */
static void operate_too_early(void) {
    int64_t kind, answer;
    SP_WAIT(kind, sp_open_kind(&coordinator));
    SP_WAIT(answer, sp_operate(&coordinator));
    if (kind == SP_NONE) refused("sp_operate", answer, SP_NOTHING_OPEN);
    if (kind == SP_HANDSHAKE) refused("sp_operate", answer, SP_NOT_OF);
    if (kind == SP_CENSUS && answer < 0) refused("sp_operate", answer, SP_NOT_ALL_HELD);
}

static void census(void) {
    int64_t answer;
    SP_WAIT(answer, sp_census(&coordinator));
    if (answer != SP_QUEUE_FULL) must("sp_census", answer);
    SP_WAIT(answer, sp_open(&coordinator));
    operate_too_early();
    drive();
}

/* What is open is told to all, as far as they are new to it. */
static void tell_all(void) {
    int64_t name = 0, told;
    for (;;) {
        SP_WAIT(name, sp_live_after(&coordinator, (uint64_t)name));
        if (must("sp_live_after", name) == 0) return;
        do SP_WAIT(told, sp_tell(&coordinator, (uint64_t)name));
        while (told > 0);
    }
}

/* Holds a place, serves all that it owes, or nothing, and lets it go. */
static void hold_by_hand(size_t place, bool serves) {
    int64_t owed, answer;
    let_lie(!serves);
    SP_WAIT(owed, sp_hold(&coordinator, place));
    if (owed >= 0) {
        spin(drawn(&coordinator_random, 4000));
        for (uint64_t i = drawn(&coordinator_random, 8); !serves && i; i--) sched_yield();
        do SP_WAIT(answer, serves ? sp_serve(&coordinator, place) : sp_hold(&coordinator, place));
        while (answer >= 0);
        SP_WAIT(answer, sp_release(&coordinator, place));
        must("sp_release", answer);
    }
    let_lie(false);
}

/* Up to four handshakes at once, by the calls of safepoint.h alone; what is left is driven. */
static void work_by_hand(void) {
    int64_t answer;
    for (uint64_t i = 1 + drawn(&coordinator_random, 3); i; i--) submit(true);
    do SP_WAIT(answer, sp_open(&coordinator));
    while (answer > 0);
    operate_too_early();
    tell_all();
    for (int turn = 0; turn < 3; turn++)
        for (size_t place = 0; place < (size_t)count; place++) hold_by_hand(place, turn > 0);
    SP_WAIT(answer, sp_close(&coordinator));
    drive();
}

static int64_t install(uint32_t method);

/* As a host with its own waits: while threads have still to come it makes other calls. */
static void advance(void) {
    submit(true);
    for (bool has_called = false;;) {
        int64_t answer = sp_advance(&coordinator);
        sp_ring();
        if (answer == SP_RUN || answer == SP_AT_SAFEPOINT) spin(50);
        else if (answer == SP_AWAITS && !has_called) submit(false), install((uint32_t)drawn(&coordinator_random, METHODS)), has_called = true;
        else if (answer == SP_AWAITS || answer == SP_AGAIN) sched_yield();
        else if (answer == SP_QUEUE_EMPTY || must("sp_advance", answer)) return;
    }
}

/* Gives a method a new code: the serial of the one that it had from here, 0 for none. */
static int64_t install(uint32_t method) {
    static int64_t codes[METHODS];
    int64_t serial, old;
    SP_WAIT(serial, sp_install(&coordinator, method));
    if (serial == SP_TABLE_FULL) return 0;
    note_serial(must("sp_install", serial));
    old = codes[method];
    codes[method] = serial;
    return old;
}

static bool is_left(int64_t answer) {
    return answer == SP_UNKNOWN || answer == SP_STILL_IN_USE || answer == SP_ALREADY_OPEN || answer == SP_LATE;
}

static void reclaim(void) {
    int64_t answer = sp_reclaim(&coordinator, an_old_serial(&coordinator_random), at_safe_point, NULL);
    if (!is_left(answer)) must("sp_reclaim", answer);
}

/* Lets threads run until each that lives has published so often, or for a while. */
static void wait_for_publications(long often) {
    long from[MOST];
    for (int i = 0; i < count; i++) from[i] = atomic_load(&all[i].publications);
    for (int turn = 0; turn < 400; turn++) {
        int late = 0;
        for (int i = 0; i < count; i++) late += atomic_load(&all[i].lives) && atomic_load(&all[i].publications) < from[i] + often;
        if (!late) return;
        nanosleep(&(struct timespec){0, 20000}, NULL);
    }
}

/* The code of the method that is called most is replaced, and reclaimed without a handshake: threads publish by themselves meanwhile. */
static void reclaim_by_hand(void) {
    int64_t answer, serial = install(0);
    if (serial <= 0) return;
    drive_all();
    SP_WAIT(answer, sp_reclaim_begin(&coordinator, (uint64_t)serial));
    if (is_left(answer)) return;
    must("sp_reclaim_begin", answer);
    atomic_fetch_add(&unwound, 2);
    wait_for_publications(2);
    SP_WAIT(answer, sp_reclaim_end(&coordinator, (uint64_t)serial));
    if (!is_left(answer)) must("sp_reclaim_end", answer);
}

static void be_refused_all(void) {
    int64_t answer;
    drive_all();
    SP_WAIT(answer, sp_close(&coordinator));
    refused("sp_close", answer, SP_NOTHING_OPEN);
    SP_WAIT(answer, sp_tell(&coordinator, 1));
    refused("sp_tell", answer, SP_NOTHING_OPEN);
    SP_WAIT(answer, sp_operate(&coordinator));
    refused("sp_operate", answer, SP_NOTHING_OPEN);
    SP_WAIT(answer, sp_submit(&coordinator, SP_DEPTH, 0));
    refused("sp_submit", answer, SP_NO_TARGETS);
    SP_WAIT(answer, sp_hold(&coordinator, 64));
    refused("sp_hold", answer, SP_NO_SUCH_PLACE);
    SP_WAIT(answer, sp_serve(&coordinator, 0));
    SP_WAIT(answer, sp_release(&coordinator, 0));
    SP_WAIT(answer, sp_invalidate(&coordinator, 1 << 20));
    refused("sp_invalidate", answer, SP_UNKNOWN);
}

static void turn(void) {
    switch (drawn(&coordinator_random, 14)) {
    case 0: case 1: submit(true), drive(); break;
    case 2: drive_four(); break;
    case 3: census(); break;
    case 4: work_by_hand(); break;
    case 5: install((uint32_t)drawn(&coordinator_random, METHODS)); break;
    case 6: reclaim(); break;
    case 12: case 13: advance(); break;
    case 7: case 8: case 9: case 10: reclaim_by_hand(); break;
    default: be_refused_all();
    }
}

int main(int argc, char **argv) {
    if (argc != 4) return 2;
    count = atoi(argv[1]);
    long steps = atol(argv[2]);
    coordinator_random = strtoull(argv[3], NULL, 10) * 7919 + 1;
    if (count < 1 || count > MOST) return 2;
    must("sp_make", sp_make(&coordinator, (size_t)count, SLOTS, METHODS));
    atomic_store(&still, count);
    for (int i = 0; i < count; i++) {
        all[i].random = coordinator_random * 1000003 + (uint64_t)i + 1;
        all[i].left = steps / count;
        must("sp_fork", sp_fork(&coordinator, &all[i].client));
        if (pthread_create(&all[i].id, NULL, run, &all[i])) return 2;
    }
    meet();
    for (int turns = 0; atomic_load(&still); turns++) {
        for (int i = 0; i < count; i++) sched_yield();
        if (turns < TURNS) turn();
        else drive(), nanosleep(&(struct timespec){0, 100000}, NULL);
    }
    for (int i = 0; i < count; i++) pthread_join(all[i].id, NULL), sp_free(&all[i].client);
    sp_free(&coordinator);
    must("sp_record_write", sp_record_write(stdout));
    return 0;
}
