/* How much of its thread's stack each call of safepoint.h and safepoint_wait.h takes: safepoint_stack MOST

   Each call runs on a thread of its own, whose stack is filled with one byte before. Where that byte is another, it
   was touched: by the call, or by the C library, whose share a thread without a call shows. A call that takes more
   than MOST bytes is printed, and the status is 1. The system is of the largest size, with 64 threads, 1024 codes, a
   stack of 256 frames and handshakes of 64 targets. tests/stacks.py builds and runs it. */
#include <pthread.h>
#include <stdio.h>
#include <stdlib.h>
#include <string.h>

#include "../crates/safepoint/include/safepoint_wait.h"

enum { ROOM = 1 << 18, PLACES = 64, SLOTS = 1024, METHODS = 256, FRAMES = 256, FILLED = 0xa5 };

static struct sp_system joined;
static struct sp_party coordinator, client, threads[PLACES], spare;
static unsigned char room[ROOM] __attribute__((aligned(4096)));
static size_t most, greatest, without; /* (without a call) */
static const char *greatest_call;
static int failed;

/* A call with its answer, as a body that another thread runs. */
struct call {
    int64_t (*run)(struct sp_party *, uint64_t);
    struct sp_party *party;
    uint64_t number;
    int64_t answer;
};

static void *made(void *given) {
    struct call *call = given;
    call->answer = call->run(call->party, call->number);
    return NULL;
}

static size_t touched(void) {
    size_t below = 0;
    while (below < ROOM && room[below] == FILLED) below++;
    return ROOM - below;
}

/* What the call answers on a thread of its own. */
static int64_t on_a_thread(const char *name, struct call call) {
    pthread_attr_t how;
    pthread_t thread;
    memset(room, FILLED, ROOM);
    if (pthread_attr_init(&how) || pthread_attr_setstack(&how, room, ROOM) ||
        pthread_create(&thread, &how, made, &call) || pthread_join(thread, NULL)) {
        printf("%s: no thread runs on this stack\n", name);
        exit(1);
    }
    pthread_attr_destroy(&how);
    size_t all = touched(), took = all > without ? all - without : 0;
    if (took > greatest) greatest = took, greatest_call = name;
    if (took > most) printf("%s: %zu bytes\n", name, took), failed = 1;
    return call.answer;
}

static void check(int line, const char *name, int64_t found, int64_t wanted) {
    if (found == wanted) return;
    printf("%d: %s answers %lld (%s), and not %lld\n", line, name, (long long)found, sp_text(found), (long long)wanted);
    failed = 1;
}

/* Each body makes one call; `ON` runs it, and compares its answer. */
#define BODY(name, expression)                                                \
    static int64_t do_##name(struct sp_party *at, uint64_t n) {               \
        (void)at, (void)n;                                                    \
        return (expression);                                                  \
    }
#define ON(name, at, n, wanted)                                               \
    check(__LINE__, #name, on_a_thread(#name, (struct call){do_##name, (at), (n), 0}), (wanted))

static void callback(void *with, const struct sp_served *served) { (void)with, (void)served; }

BODY(nothing, 0)
BODY(make, sp_make(at, PLACES, SLOTS, METHODS))
BODY(fork, sp_fork(&coordinator, at))
BODY(free, (sp_free(at), 0))
BODY(start, sp_start(at))
BODY(exit, sp_exit(at))
BODY(name, sp_name(at))
BODY(place, sp_place(at))
BODY(state, sp_state(at))
BODY(depth, sp_depth(at))
BODY(call, sp_call(at, (uint32_t)n))
BODY(ret, sp_ret(at))
BODY(back_edge, sp_back_edge(at))
BODY(publish, sp_publish(at))
BODY(to_vm, sp_to_vm(at))
BODY(from_vm, sp_from_vm(at))
BODY(to_native, sp_to_native(at))
BODY(from_native, sp_from_native(at))
BODY(block, sp_block(at))
BODY(unblock, sp_unblock(at))
BODY(stop_next, sp_stop_next(at))
BODY(stop_serve, sp_stop_serve(at))
BODY(target, sp_target(at, n))
BODY(submit, sp_submit(at, SP_DEPTH, 0))
BODY(census, sp_census(at))
BODY(install, sp_install(at, (uint32_t)n))
BODY(invalidate, sp_invalidate(at, n))
BODY(reply, sp_reply(at, n, 1))
BODY(live_after, sp_live_after(at, n))
BODY(pending, sp_pending(at))
BODY(target_all, sp_target_all(at))
BODY(open_kind, sp_open_kind(at))
BODY(forget, sp_forget(at))
BODY(advance, sp_advance(at))
BODY(called_operation, sp_called_operation(at))
BODY(called_place, sp_called_place(at))
BODY(awaited, sp_awaited(at))
BODY(awaited_after, sp_awaited_after(at, n))
BODY(awaited_place, sp_awaited_place(at, n))
BODY(open, sp_open(at))
BODY(tell, sp_tell(at, n))
BODY(hold, sp_hold(at, n))
BODY(serve, sp_serve(at, n))
BODY(release, sp_release(at, n))
BODY(operate, sp_operate(at))
BODY(counted, sp_counted(at, n))
BODY(close, sp_close(at))
BODY(close_of, sp_close_of(at, n))
BODY(reclaim_begin, sp_reclaim_begin(at, n))
BODY(reclaim_end, sp_reclaim_end(at, n))
BODY(text, sp_text((int64_t)n) == NULL)
BODY(start_thread, sp_start_thread(at, callback, NULL))
BODY(exit_thread, sp_exit_thread(at, callback, NULL))
BODY(end_thread, sp_end_thread(at, callback, NULL))
BODY(enter_native, sp_enter_native(at))
BODY(leave_native, sp_leave_native(at, callback, NULL))
BODY(enter_blocked, sp_enter_blocked(at))
BODY(leave_blocked, sp_leave_blocked(at, callback, NULL))
BODY(stop, sp_stop(at, callback, NULL))
BODY(drive, sp_drive(at, callback, NULL))
BODY(drive_for, sp_drive_for(at, callback, NULL, n))
BODY(wait_request, sp_wait_request(at, n))
BODY(wait_closed_for, sp_wait_closed_for(at, n, 0))
BODY(late, sp_late(at, NULL, 0))
BODY(drive_four, sp_drive_four(at, callback, NULL))
BODY(reclaim, sp_reclaim(at, n, callback, NULL))
BODY(system_make, sp_system_make(&joined, PLACES, SLOTS, METHODS))
BODY(system_join, sp_system_join(&joined, at))
BODY(system_free, (sp_system_free(&joined), 0))

/* All places taken, all codes but one installed, one stack full of frames, all threads in native code but the first. */
static void begin(void) {
    ON(make, &coordinator, 0, 0);
    ON(fork, &client, 0, 0);
    for (int i = 0; i < PLACES; i++) {
        ON(fork, &threads[i], 0, 0);
        ON(start, &threads[i], 0, i + 1);
    }
    for (int i = 1; i < SLOTS; i++) ON(install, &client, (uint64_t)(i - 1) % METHODS, i);
    /* (the last method's third code is its newest) */
    for (int i = 0; i < FRAMES; i++) ON(call, &threads[0], (uint64_t)i, i + 1 + (i == METHODS - 1 ? 2 : 3) * METHODS);
    ON(publish, &threads[0], 0, 0);
    for (int i = 1; i < PLACES; i++) ON(to_native, &threads[i], 0, 0);
}

static void by_hand(void) {
    struct sp_party *thread = &threads[0];
    ON(name, thread, 0, 1);
    ON(place, thread, 0, 0);
    ON(state, thread, 0, SP_IN_JAVA);
    ON(back_edge, thread, 0, 0);
    ON(to_vm, thread, 0, 0);
    ON(block, thread, 0, 0);
    ON(unblock, thread, 0, 0);
    ON(from_vm, thread, 0, 0);
    ON(to_native, thread, 0, 0);
    ON(from_native, thread, 0, 0);
    for (int i = 0; i < PLACES; i++) ON(target, &client, (uint64_t)i + 1, 0);
    ON(submit, &client, 0, 1);
    ON(open, &coordinator, 0, 1);
    ON(open_kind, &client, 0, SP_HANDSHAKE);
    for (int i = 0; i < PLACES; i++) ON(tell, &coordinator, (uint64_t)i + 1, 1);
    ON(back_edge, thread, 0, 1);
    ON(stop_next, thread, 0, 1);
    ON(stop_serve, thread, 0, 0);
    for (int i = 1; i < PLACES; i++) {
        ON(hold, &coordinator, (uint64_t)i, 1);
        ON(serve, &coordinator, (uint64_t)i, 1);
        ON(release, &coordinator, (uint64_t)i, 0);
    }
    ON(close, &coordinator, 0, 1);
    ON(reply, &client, 1, FRAMES);
    ON(target_all, &threads[0], 0, 0);
    ON(target, &client, 2, 0);
    ON(submit, &client, 0, 2);
    ON(drive, &coordinator, 0, 2);
    ON(target, &client, 3, 0);
    ON(submit, &client, 0, 3);
    ON(open, &coordinator, 0, 3);
    ON(close_of, &coordinator, 3, SP_NOT_DONE);
    ON(drive, &coordinator, 0, 3);
}

/* A handshake of all, with each thread in native code but the first, and a census. */
static void by_advancing(void) {
    for (int i = 0; i < PLACES; i++) ON(target, &client, (uint64_t)i + 1, 0);
    ON(submit, &client, 0, 4);
    for (int i = 1; i < PLACES; i++) {
        ON(advance, &coordinator, 0, SP_RUN);
        ON(called_operation, &coordinator, 0, 4);
        ON(called_place, &coordinator, 0, i);
    }
    ON(advance, &coordinator, 0, SP_AWAITS);
    ON(awaited, &coordinator, 0, 1);
    ON(awaited_after, &coordinator, 0, 1);
    ON(awaited_place, &coordinator, 0, 0);
    ON(depth, &threads[0], 0, 256);
    ON(to_native, &threads[0], 0, 0);
    ON(advance, &coordinator, 0, SP_RUN);
    ON(advance, &coordinator, 0, 4);
    ON(census, &client, 0, 5);
    ON(advance, &coordinator, 0, SP_AT_SAFEPOINT);
    ON(called_operation, &coordinator, 0, 5);
    ON(pending, &client, 0, 5);
    ON(advance, &coordinator, 0, 5);
    ON(advance, &coordinator, 0, SP_QUEUE_EMPTY);
}

/* A census of all, and codes that are reclaimed. */
static void of_all(void) {
    ON(census, &client, 0, 6);
    ON(open, &coordinator, 0, 6);
    ON(open_kind, &coordinator, 0, SP_CENSUS);
    for (int i = 0; i < PLACES; i++) ON(tell, &coordinator, (uint64_t)i + 1, 6);
    for (int i = 0; i < PLACES; i++) ON(hold, &coordinator, (uint64_t)i, 6);
    ON(operate, &coordinator, 0, 6);
    ON(counted, &coordinator, SLOTS - 1, 1);
    for (int i = 0; i < PLACES; i++) ON(release, &coordinator, (uint64_t)i, 0);
    ON(close, &coordinator, 0, 6);
    ON(census, &client, 0, 7);
    ON(wait_request, &client, 0, 7);
    ON(wait_closed_for, &client, 7, SP_TIMEOUT);
    ON(late, &coordinator, 0, PLACES); /* an old list */
    ON(drive_for, &coordinator, 0, 7);
    ON(wait_closed_for, &client, 7, 0);
    for (int i = 0; i < 4; i++) {
        for (int name = 1; name <= PLACES; name++) ON(target, &client, (uint64_t)name, 0);
        ON(submit, &client, 0, 8 + i);
    }
    ON(drive_four, &coordinator, 0, 4);
    ON(invalidate, &client, SLOTS - 1, 0);
    ON(reclaim, &coordinator, SLOTS - 1, 1);
    ON(reclaim, &coordinator, 1, 0);
    ON(reclaim_begin, &coordinator, 2, 0);
    ON(reclaim_end, &coordinator, 2, 0);
    ON(forget, &client, 0, 0);
    ON(live_after, &client, 1, 2);
    ON(text, NULL, (uint64_t)SP_AGAIN, 0);
}

/* Threads come back, return and exit, each by its own calls and by those that wait. */
static void end(void) {
    ON(from_native, &threads[0], 0, 0);
    for (int i = 0; i < FRAMES; i++) ON(ret, &threads[0], 0, 0);
    ON(publish, &threads[0], 0, 0);
    ON(exit, &threads[0], 0, 0);
    ON(end_thread, &threads[1], 0, 0);
    for (int i = 2; i < PLACES; i++) {
        ON(leave_native, &threads[i], 0, 0);
        ON(exit_thread, &threads[i], 0, 0);
    }
    ON(fork, &spare, 0, 0);
    ON(start_thread, &spare, 0, PLACES + 1);
    ON(enter_native, &spare, 0, 0);
    ON(leave_native, &spare, 0, 0);
    ON(to_vm, &spare, 0, 0);
    ON(enter_blocked, &spare, 0, 0);
    ON(leave_blocked, &spare, 0, 0);
    ON(from_vm, &spare, 0, 0);
    ON(target, &client, PLACES + 1, 0);
    ON(submit, &client, 0, 14);
    ON(open, &coordinator, 0, 14);
    ON(tell, &coordinator, PLACES + 1, 14);
    ON(back_edge, &spare, 0, 14);
    ON(stop, &spare, 0, 0);
    ON(close, &coordinator, 0, 14);
    ON(exit_thread, &spare, 0, 0);
    for (int i = 0; i < PLACES; i++) ON(free, &threads[i], 0, 0);
    ON(free, &spare, 0, 0);
    ON(free, &client, 0, 0);
    ON(free, &coordinator, 0, 0);
    ON(system_make, NULL, 0, 0);
    ON(system_join, &spare, 0, 0);
    ON(free, &spare, 0, 0);
    ON(system_free, NULL, 0, 0);
}

int main(int count, char **words) {
    if (count != 2) return fprintf(stderr, "safepoint_stack MOST\n"), 2;
    most = strtoull(words[1], NULL, 10);
    on_a_thread("nothing", (struct call){do_nothing, NULL, 0, 0});
    without = touched(), greatest = 0, failed = 0;
    begin();
    by_hand();
    by_advancing();
    of_all();
    end();
    printf("%zu bytes, of %s\n", greatest, greatest_call);
    return failed;
}
