/* Threads that start, run, ask and exit at random over one system, a coordinator beside them, for so long: safepoint_soak THREADS SECONDS SEED. They
   are in all states; any of them asks for handshakes and censuses, installs codes and invalidates them. The coordinator drives one request,
   four, one step by step, or one by sp_advance with single steps in between, and frees codes. Then hold: a callback runs once for each operation that a live target was told, on a stack that
   stays as it is, and the reply is its depth; a code that is freed has no frame, and is never entered again. The last line counts.
   tests/safepoint.py builds and runs it. */
#include <pthread.h>
#include <sched.h>
#include <stdatomic.h>
#include <stdio.h>
#include <stdlib.h>
#include <time.h>

#include "../crates/safepoint/include/safepoint_wait.h"

enum { MOST = 64, METHODS = 8, SLOTS = 32, DEPTH = 100, CODES = 1 << 18, OPERATIONS = 1 << 20 };

struct one {
    struct sp_party client, party; /* the client forks the party of each life */
    pthread_t id;
    uint64_t random;
    int64_t name;
    int depth;
    uint64_t stack[DEPTH]; /* the serials of its frames */
    atomic_bool is_served; /* a callback is on its stack */
};

static struct one all[MOST];
static struct one *_Atomic at_place[MOST]; /* who has a place, as far as it has told */
static int count;
static atomic_bool ends;
static atomic_uint_least64_t last_serial; /* of all that threads were told */
static atomic_int still; /* threads that haven't exited for good */
static atomic_int frames_of[CODES]; /* a thread counts a frame behind the call, and uncounts it before the return */
static atomic_bool is_freed[CODES];
static atomic_uint_least64_t served_by[OPERATIONS]; /* by place; a place has one target of an operation at most, since its thread exits served */
static atomic_long own, held, vm_operations, handshakes, censuses, advanced, freed, starts;

static void fail(const char *what, int64_t answer) {
    printf("FAILED: %s: %lld, %s\n", what, (long long)answer, sp_text(answer));
    exit(1);
}

static int64_t must(const char *what, int64_t answer) {
    if (answer < 0) fail(what, answer);
    return answer;
}

static uint64_t drawn(uint64_t *random, uint64_t below) {
    *random ^= *random << 13, *random ^= *random >> 7, *random ^= *random << 17;
    return (*random >> 9) % below;
}

/* Of one stack at most one callback runs at a time, it runs once for an operation, and the stack stays as it is. */
static void at_safe_point(void *with, const struct sp_served *call) {
    struct one *it = call->thread ? with : atomic_load(&at_place[call->place]);
    uint64_t bit = (uint64_t)1 << call->place;
    if (call->operation < OPERATIONS && atomic_fetch_or(&served_by[call->operation], bit) & bit)
        fail("an operation runs twice at a place", (int64_t)call->operation);
    if (!it) return; /* it hasn't told where it is */
    if (atomic_exchange(&it->is_served, true)) fail("two callbacks on one stack", (int64_t)call->operation);
    int depth = it->depth;
    for (volatile int i = 0; i < 20; i++) continue;
    if (it->depth != depth) fail("a stack changed under a callback", depth);
    atomic_store(&it->is_served, false);
    atomic_fetch_add(call->thread ? &own : &held, 1);
}

/* Of codes that were given out. */
static void note_serial(uint64_t serial) {
    uint64_t last = atomic_load(&last_serial);
    while (last < serial && !atomic_compare_exchange_weak(&last_serial, &last, serial)) continue;
}

/* --- a thread --- */

static void heed(struct one *me, int64_t polled) {
    if (must("a poll", polled)) must("sp_stop", sp_stop(&me->party, at_safe_point, me));
}

static void enter(struct one *me) {
    if (me->depth == DEPTH) return;
    int64_t serial = must("sp_call", sp_call(&me->party, (uint32_t)drawn(&me->random, METHODS)));
    if (serial >= CODES) serial = 0;
    if (serial && atomic_load(&is_freed[serial])) fail("a freed code is entered", serial);
    atomic_fetch_add(&frames_of[serial], 1);
    me->stack[me->depth++] = (uint64_t)serial;
}

static void leave(struct one *me) {
    if (!me->depth) return;
    atomic_fetch_sub(&frames_of[me->stack[--me->depth]], 1);
    heed(me, sp_ret(&me->party));
}

static void be_away(struct one *me, bool blocked) {
    if (blocked) {
        must("sp_to_vm", sp_to_vm(&me->party));
        must("sp_enter_blocked", sp_enter_blocked(&me->party));
    } else {
        must("sp_enter_native", sp_enter_native(&me->party));
    }
    for (volatile uint64_t i = drawn(&me->random, 3000); i; i--) continue;
    if (!drawn(&me->random, 50)) nanosleep(&(struct timespec){0, 100000}, NULL);
    if (!blocked) {
        must("sp_leave_native", sp_leave_native(&me->party, at_safe_point, me));
        return;
    }
    must("sp_leave_blocked", sp_leave_blocked(&me->party, at_safe_point, me));
    heed(me, sp_from_vm(&me->party));
}

/* A thread that asks waits for a lock alone, in a state in which it can be held. */
static void ask(struct one *me) {
    int64_t answer;
    uint64_t what = drawn(&me->random, 4), serial = atomic_load(&last_serial) + 1 - drawn(&me->random, SLOTS);
    if (what == 0) SP_WAIT(answer, sp_census(&me->party));
    else if (what == 2) SP_WAIT(answer, sp_invalidate(&me->party, serial));
    else if (what == 1) {
        uint32_t method = (uint32_t)drawn(&me->random, METHODS);
        SP_WAIT(answer, sp_install(&me->party, method));
        if (answer > 0) note_serial((uint64_t)answer);
    } else {
        must("sp_target", sp_target(&me->party, (uint64_t)me->name));
        SP_WAIT(answer, sp_submit(&me->party, SP_DEPTH, 0));
    }
    if (answer < 0 && answer != SP_QUEUE_FULL && answer != SP_TABLE_FULL && answer != SP_UNKNOWN && answer != SP_NOT_IN_USE) fail("an ask", answer);
}

static void step(struct one *me) {
    switch (drawn(&me->random, 16)) {
    case 0: case 1: case 2: case 3: case 4: case 5: enter(me); break;
    case 6: case 7: case 8: case 9: case 10: leave(me); break;
    case 11: case 12: heed(me, sp_back_edge(&me->party)); break;
    case 13: must("sp_publish", sp_publish(&me->party)); break;
    case 14: if (!drawn(&me->random, 4)) be_away(me, drawn(&me->random, 2)); break;
    default: if (!drawn(&me->random, 200)) ask(me);
    }
}

/* From a start to an exit. */
static void live_once(struct one *me) {
    me->name = must("sp_start", sp_start_thread(&me->party, at_safe_point, me));
    size_t place = (size_t)sp_place(&me->party);
    atomic_store(&at_place[place], me);
    atomic_fetch_add(&starts, 1);
    for (uint64_t left = 200 + drawn(&me->random, 20000); left && !atomic_load(&ends); left--) step(me);
    while (me->depth) leave(me);
    atomic_store(&at_place[place], NULL);
    must("sp_exit", sp_exit_thread(&me->party, at_safe_point, me));
}

static void *run(void *with) {
    struct one *me = with;
    while (!atomic_load(&ends)) {
        must("sp_fork", sp_fork(&me->client, &me->party));
        live_once(me);
        sp_free(&me->party);
    }
    atomic_fetch_sub(&still, 1);
    return NULL;
}

/* --- the coordinator --- */

static struct sp_party coordinator;
static uint64_t coordinator_random;

/* A handshake of all that live. Afterwards as many have answered as served. */
static void shake_hands(void) {
    uint64_t names[MOST];
    int asked = 0, answered = 0;
    int64_t number, name = 0, answer;
    for (;;) {
        SP_WAIT(name, sp_live_after(&coordinator, (uint64_t)name));
        if (must("sp_live_after", name) == 0 || asked == MOST) break;
        must("sp_target", sp_target(&coordinator, names[asked++] = (uint64_t)name));
    }
    SP_WAIT(number, sp_submit(&coordinator, SP_DEPTH, 0));
    if (number == SP_NO_TARGETS || number == SP_QUEUE_FULL) return;
    must("sp_submit", number);
    do answer = must("sp_drive", sp_drive(&coordinator, at_safe_point, NULL)); /* others may stand before it */
    while (answer != number);
    for (int i = 0; i < asked; i++) {
        SP_WAIT(answer, sp_reply(&coordinator, (uint64_t)number, names[i]));
        answered += answer >= 0;
        if (answer > DEPTH) fail("a depth", answer);
    }
    if (number < OPERATIONS && __builtin_popcountll(atomic_load(&served_by[number])) != answered) fail("callbacks of a handshake", answered);
    atomic_fetch_add(&handshakes, 1);
}

static void hold_and_serve(bool is_census) {
    for (size_t place = 0; place < MOST; place++) {
        int64_t owed, answer;
        SP_WAIT(owed, sp_hold(&coordinator, place));
        if (owed < 0 || is_census) continue;
        at_safe_point(NULL, &(struct sp_served){(uint64_t)owed, place, NULL, SP_HANDSHAKE});
        SP_WAIT(answer, sp_serve(&coordinator, place));
        must("sp_serve", answer);
        SP_WAIT(answer, sp_release(&coordinator, place));
        must("sp_release", answer);
    }
}

static void release_all(void) {
    for (size_t place = 0; place < MOST; place++) {
        int64_t answer;
        SP_WAIT(answer, sp_release(&coordinator, place));
        if (answer < 0 && answer != SP_NOT_HELD && answer != SP_VACANT && answer != SP_NO_SUCH_PLACE) fail("sp_release", answer);
    }
}

/* Operates the open census, where all that live are held. */
static void operate(void) {
    int64_t answer;
    SP_WAIT(answer, sp_operate(&coordinator));
    if (answer == SP_NOT_ALL_HELD || answer == SP_ALREADY_DONE) return;
    must("sp_operate", answer);
    atomic_fetch_add(&censuses, 1);
    release_all();
}

/* The oldest request, by the calls of safepoint.h alone. */
static void drive_by_steps(void) {
    struct sp_pause pause = {0, 0};
    int64_t number, kind, answer, name = 0, told;
    SP_WAIT(number, sp_open(&coordinator));
    if (number == SP_QUEUE_EMPTY) return;
    must("sp_open", number);
    SP_WAIT(kind, sp_open_kind(&coordinator));
    if (kind != SP_HANDSHAKE && kind != SP_CENSUS) fail("sp_open_kind", kind);
    for (;;) {
        SP_WAIT(name, sp_live_after(&coordinator, (uint64_t)name));
        if (must("sp_live_after", name) == 0) break;
        SP_WAIT(told, sp_tell(&coordinator, (uint64_t)name));
        if (told != number && told != 0 && told != SP_NOT_OF) fail("sp_tell", told);
    }
    for (;;) {
        if (kind == SP_CENSUS) operate();
        hold_and_serve(kind == SP_CENSUS);
        sp_ring();
        SP_WAIT(answer, sp_close_of(&coordinator, (uint64_t)number));
        if (answer == number) return;
        if (answer != SP_NOT_DONE && answer != SP_HELD) fail("sp_close_of", answer);
        sp_again(SP_AGAIN, &pause);
    }
}

/* A held thread is served next: the callback runs, and the step that follows or the coordinator serves it; or it is let go unserved. */
static void serve_next(void) {
    struct sp_served next = {(uint64_t)sp_called_operation(&coordinator), (size_t)sp_called_place(&coordinator), NULL,
                             SP_HANDSHAKE};
    uint64_t way = drawn(&coordinator_random, 5);
    int64_t answer;
    if (way < 4) at_safe_point(NULL, &next);
    if (way < 2) return;
    if (way < 4) {
        SP_WAIT(answer, sp_serve(&coordinator, next.place));
        if (answer != (int64_t)next.operation) fail("sp_serve", answer);
    }
    if (way == 2) return;
    SP_WAIT(answer, sp_release(&coordinator, next.place));
    must("sp_release", answer);
}

/* Threads have still to come: a step of the coordinator's own, or none. Whether it closed the request. */
static bool step_in_between(void) {
    int64_t answer = 0, kind;
    SP_WAIT(kind, sp_open_kind(&coordinator));
    switch (drawn(&coordinator_random, 8)) {
    case 0: release_all(); break;
    case 1: SP_WAIT(answer, sp_close(&coordinator)); break;
    case 2: SP_WAIT(answer, sp_hold(&coordinator, drawn(&coordinator_random, MOST))); break;
    default:
        if (kind == SP_CENSUS) operate();
    }
    return answer > 0 && kind != SP_NONE && (int64_t)sp_open_kind(&coordinator) == SP_NONE;
}

/* The oldest request, by sp_advance, with single steps in between. */
static void advance(void) {
    struct sp_pause pause = {0, 0};
    for (;;) {
        int64_t answer = sp_advance(&coordinator);
        sp_ring();
        if (answer == SP_RUN) serve_next();
        else if (answer == SP_AT_SAFEPOINT) atomic_fetch_add(&vm_operations, 1);
        else if (answer == SP_AWAITS && step_in_between()) break;
        else if (answer == SP_AWAITS || answer == SP_AGAIN) sp_again(SP_AGAIN, &pause);
        else if (answer == SP_QUEUE_EMPTY || must("sp_advance", answer)) break;
    }
    atomic_fetch_add(&advanced, 1);
}

/* Frees a code, where no frame of it stands. */
static void reclaim(uint64_t serial) {
    int64_t answer = sp_reclaim(&coordinator, serial, at_safe_point, NULL);
    if (answer == SP_UNKNOWN || answer == SP_STILL_IN_USE || answer == SP_ALREADY_OPEN || answer == SP_LATE) return;
    if (must("sp_reclaim", answer) || serial >= CODES) return;
    if (atomic_exchange(&is_freed[serial], true)) fail("a code is freed twice", (int64_t)serial);
    if (atomic_load(&frames_of[serial])) fail("a freed code has frames", (int64_t)serial);
    atomic_fetch_add(&freed, 1);
}

static void install(void) {
    uint32_t method = (uint32_t)drawn(&coordinator_random, METHODS);
    int64_t serial;
    SP_WAIT(serial, sp_install(&coordinator, method));
    if (serial != SP_TABLE_FULL) note_serial((uint64_t)must("sp_install", serial));
}

static void work(void) {
    int64_t answer = 0;
    switch (drawn(&coordinator_random, 9)) {
    case 0: case 1: shake_hands(); break;
    case 2: answer = sp_drive(&coordinator, at_safe_point, NULL); break;
    case 3: answer = sp_drive_four(&coordinator, at_safe_point, NULL); break;
    case 4: drive_by_steps(); break;
    case 5: SP_WAIT(answer, sp_forget(&coordinator)); break;
    case 6: install(); break;
    case 7: advance(); break;
    default: reclaim(atomic_load(&last_serial) + 1 - drawn(&coordinator_random, 2 * SLOTS));
    }
    if (answer < 0 && answer != SP_QUEUE_EMPTY) fail("the coordinator", answer);
}

int main(int argc, char **argv) {
    if (argc != 4) return 2;
    count = atoi(argv[1]);
    time_t end = time(NULL) + atol(argv[2]);
    coordinator_random = strtoull(argv[3], NULL, 10) * 7919 + 1;
    if (count < 1 || count > MOST) return 2;
    must("sp_make", sp_make(&coordinator, (size_t)count, SLOTS, METHODS));
    atomic_store(&still, count);
    for (int i = 0; i < count; i++) {
        all[i].random = coordinator_random * 1000003 + (uint64_t)i + 1;
        must("sp_fork", sp_fork(&coordinator, &all[i].client));
        if (pthread_create(&all[i].id, NULL, run, &all[i])) return 2;
    }
    while (time(NULL) < end) work();
    atomic_store(&ends, true);
    while (atomic_load(&still)) work();
    for (int i = 0; i < count; i++) pthread_join(all[i].id, NULL), sp_free(&all[i].client);
    sp_free(&coordinator);
    printf("%d threads, %ld starts, %ld handshakes, %ld censuses by steps, %ld times advanced, %ld VM operations, %ld callbacks by the thread and %ld for a held one, %ld codes freed\n",
           count, atomic_load(&starts), atomic_load(&handshakes), atomic_load(&censuses), atomic_load(&advanced), atomic_load(&vm_operations), atomic_load(&own), atomic_load(&held), atomic_load(&freed));
    return 0;
}
