/* Each call of safepoint.h with its refusals, from one thread, so that no lock is ever taken: SP_AGAIN says then that what a call needs isn't
   there. Where memory is refused the call is made again, and answers as if nothing had been refused; the last line tells which was.
   With --met it prints each call with its answer. tests/safepoint.py and tests/header.py build and run it. */
#include <stdio.h>
#include <string.h>

#include "../crates/safepoint/include/safepoint_wait.h"

static int failed;
static bool shows_met; /* each call that was made, with its answer */
static const char *refused; /* the call that was refused memory */

static void judge(int line, const char *call, int64_t found, int64_t wanted) {
    if (shows_met) printf("met %.*s %lld\n", (int)strcspn(call, "("), call, (long long)found);
    if (found == wanted) return;
    printf("%d: %s: %lld (%s), and not %lld\n", line, call, (long long)found, sp_text(found), (long long)wanted);
    failed = 1;
}

#define IS(call, wanted)                                                                                                                   \
    do {                                                                                                                                   \
        int64_t found_ = (call);                                                                                                           \
        if (found_ == SP_NO_MEMORY) refused = #call, found_ = (call);                                                                      \
        judge(__LINE__, #call, found_, (wanted));                                                                                          \
    } while (0)

/* No lock is taken here, and no thread starts or exits: SP_AGAIN says that there is more to arm, or that the work begins anew. */
static int64_t advanced(struct sp_party *coordinator) {
    int64_t answer;
    int tries = 0;
    do answer = sp_advance(coordinator);
    while (answer == SP_AGAIN && ++tries < 6);
    return answer;
}

#define ADVANCES(coordinator, wanted)                                                                                                      \
    do {                                                                                                                                   \
        int64_t found_ = advanced(coordinator);                                                                                            \
        if (found_ == SP_NO_MEMORY) refused = "sp_advance", found_ = advanced(coordinator);                                                \
        judge(__LINE__, "sp_advance", found_, (wanted));                                                                                   \
    } while (0)

/* It serves the thread of this place next, for this operation. */
#define CALLS(coordinator, operation, place)                                                                                               \
    do {                                                                                                                                   \
        ADVANCES(coordinator, SP_RUN);                                                                                                     \
        IS(sp_called_operation(coordinator), operation);                                                                                   \
        IS(sp_called_place(coordinator), place);                                                                                           \
    } while (0)

/* So many threads have still to come. */
#define AWAITS(coordinator, count)                                                                                                         \
    do {                                                                                                                                   \
        ADVANCES(coordinator, SP_AWAITS);                                                                                                  \
        IS(sp_awaited(coordinator), count);                                                                                                \
    } while (0)

/* All live threads are held for the VM operation of this census, and it is closed. */
#define OPERATES(coordinator, operation)                                                                                                   \
    do {                                                                                                                                   \
        ADVANCES(coordinator, SP_AT_SAFEPOINT);                                                                                            \
        IS(sp_called_operation(coordinator), operation);                                                                                   \
        IS(sp_called_place(coordinator), 0);                                                                                               \
        IS(sp_pending(coordinator), operation);                                                                                            \
        ADVANCES(coordinator, operation);                                                                                                  \
        IS(sp_called_operation(coordinator), 0);                                                                                           \
    } while (0)

static struct sp_party none, c, a, b, d; /* no party, the coordinator, three others */

static void no_party_does_nothing(void) {
    IS(sp_fork(&none, &a), SP_NOT_THIS);
    IS(sp_start(&none), SP_NOT_THIS);
    IS(sp_back_edge(&none), SP_NOT_THIS);
    IS(sp_target(&none, 1), SP_NOT_THIS);
    IS(sp_submit(&none, SP_DEPTH, 0), SP_NOT_THIS);
    IS(sp_open_kind(&none), SP_NOT_THIS);
    IS(sp_open(&none), SP_NOT_THIS);
    IS(sp_advance(&none), SP_NOT_THIS);
    IS(sp_called_operation(&none), SP_NOT_THIS);
    IS(sp_called_place(&none), SP_NOT_THIS);
    IS(sp_awaited(&none), SP_NOT_THIS);
    IS(sp_awaited_after(&none, 0), SP_NOT_THIS);
    IS(sp_awaited_place(&none, 0), SP_NOT_THIS);
    sp_free(&none);
    IS(none.made, 0);
}

static void making(void) {
    IS(sp_make(&c, 0, 4, 2), SP_BAD_SIZE);
    IS(sp_make(&c, 65, 4, 2), SP_BAD_SIZE);
    IS(sp_make(&c, 2, 1025, 2), SP_BAD_SIZE);
    IS(sp_make(&c, 2, 4, 257), SP_BAD_SIZE);
    IS(sp_make(&c, 2, 4, 2), 0);
    IS(sp_make(&c, 2, 4, 2), SP_MADE);
    IS(sp_fork(&c, &a), 0);
    IS(sp_fork(&c, &b), 0);
    IS(sp_fork(&a, &d), 0);
    IS(sp_fork(&c, &d), SP_MADE);
}

static void another_part_is_refused(void) {
    IS(sp_start(&c), SP_NOT_THIS);
    IS(sp_call(&c, 0), SP_NOT_THIS);
    IS(sp_ret(&a), SP_NOT_THIS);
    IS(sp_back_edge(&a), SP_NOT_THIS);
    IS(sp_publish(&a), SP_NOT_THIS);
    IS(sp_to_vm(&a), SP_NOT_THIS);
    IS(sp_from_vm(&a), SP_NOT_THIS);
    IS(sp_to_native(&a), SP_NOT_THIS);
    IS(sp_from_native(&a), SP_NOT_THIS);
    IS(sp_block(&a), SP_NOT_THIS);
    IS(sp_unblock(&a), SP_NOT_THIS);
    IS(sp_stop_next(&a), SP_NOT_THIS);
    IS(sp_stop_serve(&a), SP_NOT_THIS);
    IS(sp_exit(&a), SP_NOT_THIS);
    IS(sp_name(&a), SP_NOT_THIS);
    IS(sp_place(&a), SP_NOT_THIS);
    IS(sp_state(&a), SP_NOT_THIS);
    IS(sp_depth(&a), SP_NOT_THIS);
    IS(sp_advance(&a), SP_NOT_THIS);
    IS(sp_called_operation(&a), 0);
    IS(sp_called_place(&a), 0);
    IS(sp_awaited(&a), 0);
    IS(sp_awaited_after(&a, 0), 0);
    IS(sp_awaited_place(&a, 0), 0);
    IS(sp_open(&a), SP_NOT_THIS);
    IS(sp_tell(&a, 1), SP_NOT_THIS);
    IS(sp_hold(&a, 0), SP_NOT_THIS);
    IS(sp_serve(&a, 0), SP_NOT_THIS);
    IS(sp_release(&a, 0), SP_NOT_THIS);
    IS(sp_operate(&a), SP_NOT_THIS);
    IS(sp_close(&a), SP_NOT_THIS);
    IS(sp_close_of(&a, 1), SP_NOT_THIS);
    IS(sp_reclaim_end(&a, 1), SP_NOT_THIS);
}

static void threads_start(void) {
    IS(sp_live_after(&c, 0), 0);
    IS(sp_start(&a), 1);
    IS(sp_start(&a), SP_NOT_THIS);
    IS(sp_start(&b), 2);
    IS(sp_start(&d), SP_PLACES_FULL);
    IS(sp_name(&b), 2);
    IS(sp_place(&a), 0);
    IS(sp_place(&b), 1);
    IS(sp_state(&a), SP_IN_JAVA);
    IS(sp_live_after(&d, 0), 1);
    IS(sp_live_after(&d, 1), 2);
    IS(sp_live_after(&d, 2), 0);
}

static void a_thread_goes_through_its_states(void) {
    IS(sp_back_edge(&a), 0);
    IS(sp_ret(&a), SP_EMPTY_STACK);
    IS(sp_call(&a, 2), SP_NO_SUCH_METHOD);
    IS(sp_call(&a, 0), 0);
    IS(sp_exit(&a), SP_STACK_NOT_EMPTY);
    for (int depth = 1; depth < 256; depth++) IS(sp_call(&a, 1), 0);
    IS(sp_call(&a, 1), SP_DEPTH_FULL);
    IS(sp_depth(&a), 256);
    for (int depth = 0; depth < 256; depth++) IS(sp_ret(&a), 0);
    IS(sp_publish(&a), 0);
    IS(sp_from_vm(&a), SP_ILLEGAL);
    IS(sp_block(&a), SP_ILLEGAL);
    IS(sp_from_native(&a), SP_ILLEGAL);
    IS(sp_stop_next(&a), SP_ILLEGAL);
    IS(sp_stop_serve(&a), SP_ILLEGAL);
    IS(sp_to_vm(&a), 0);
    IS(sp_state(&a), SP_IN_VM);
    IS(sp_depth(&a), 0);
    IS(sp_publish(&a), 0);
    IS(sp_to_vm(&a), SP_ILLEGAL);
    IS(sp_call(&a, 0), SP_ILLEGAL);
    IS(sp_ret(&a), SP_ILLEGAL);
    IS(sp_back_edge(&a), SP_ILLEGAL);
    IS(sp_unblock(&a), SP_ILLEGAL);
    IS(sp_block(&a), 0);
    IS(sp_state(&a), SP_BLOCKED);
    IS(sp_depth(&a), SP_ILLEGAL);
    IS(sp_publish(&a), SP_ILLEGAL);
    IS(sp_exit(&a), SP_ILLEGAL);
    IS(sp_unblock(&a), 0);
    IS(sp_to_native(&a), 0);
    IS(sp_state(&a), SP_IN_NATIVE);
    IS(sp_to_native(&a), SP_ILLEGAL);
    IS(sp_from_native(&a), 0);
    IS(sp_from_vm(&a), 0);
    IS(sp_state(&a), SP_IN_JAVA);
}

static void codes_are_installed(void) {
    IS(sp_install(&d, 2), SP_NO_SUCH_METHOD);
    IS(sp_install(&d, 0), 1);
    IS(sp_call(&a, 0), 1);
    IS(sp_install(&a, 0), 2);
    IS(sp_call(&a, 0), 2);
    IS(sp_install(&d, 1), 3);
    IS(sp_install(&d, 1), 4);
    IS(sp_install(&d, 1), SP_TABLE_FULL);
    IS(sp_invalidate(&d, 9), SP_UNKNOWN);
    IS(sp_invalidate(&d, 1), SP_NOT_IN_USE);
    IS(sp_invalidate(&d, 4), 0);
    IS(sp_call(&b, 1), 0);
}

static void requests_are_refused(void) {
    IS(sp_open(&c), SP_QUEUE_EMPTY);
    IS(sp_advance(&c), SP_QUEUE_EMPTY);
    IS(sp_open_kind(&c), SP_NONE);
    IS(sp_tell(&c, 1), SP_NOTHING_OPEN);
    IS(sp_hold(&c, 0), SP_NOTHING_OPEN);
    IS(sp_close(&c), SP_NOTHING_OPEN);
    IS(sp_operate(&c), SP_NOTHING_OPEN);
    IS(sp_serve(&c, 0), SP_NOT_HELD);
    IS(sp_release(&c, 0), SP_NOT_HELD);
    IS(sp_submit(&d, SP_DEPTH, 0), SP_NO_TARGETS);
    IS(sp_submit(&d, 3, 0), SP_BAD_ASK);
    IS(sp_target(&d, 1), 0);
    IS(sp_target(&d, 1), 0);
    IS(sp_submit(&d, 3, 0), SP_BAD_ASK);
    IS(sp_submit(&d, SP_DEPTH, 0), SP_BAD_TARGETS);
    IS(sp_submit(&d, SP_DEPTH, 0), SP_NO_TARGETS);
}

/* The stack of a has frames of codes 1 and 2, that of b an interpreted one. */
static void a_thread_serves_itself(void) {
    IS(sp_target(&d, 1), 0);
    IS(sp_submit(&d, SP_DEPTH, 0), 1);
    IS(sp_pending(&d), 1);
    IS(sp_reply(&d, 1, 1), SP_PENDING);
    IS(sp_open_kind(&c), SP_NONE);
    IS(sp_open(&c), 1);
    IS(sp_open_kind(&c), SP_HANDSHAKE);
    IS(sp_open_kind(&a), SP_HANDSHAKE);
    IS(sp_open_kind(&d), SP_HANDSHAKE);
    IS(sp_back_edge(&a), 0);
    IS(sp_tell(&c, 2), SP_NOT_OF);
    IS(sp_hold(&c, 0), SP_NOT_TOLD);
    IS(sp_tell(&c, 1), 1);
    IS(sp_tell(&c, 1), SP_ALREADY_TOLD);
    IS(sp_hold(&c, 0), SP_NOT_SAFE);
    IS(sp_hold(&c, 1), SP_NOT_OF);
    IS(sp_close(&c), SP_NOT_DONE);
    IS(sp_close_of(&c, 1), SP_NOT_DONE);
    IS(sp_back_edge(&a), 1);
    IS(sp_state(&a), SP_AT_POLL);
    IS(sp_back_edge(&a), SP_ILLEGAL);
    IS(sp_stop_serve(&a), SP_ILLEGAL);
    IS(sp_stop_next(&a), 1);
    IS(sp_state(&a), SP_SERVING);
    IS(sp_stop_next(&a), SP_ILLEGAL);
    IS(sp_stop_serve(&a), 0);
    IS(sp_stop_serve(&a), SP_ILLEGAL);
    IS(sp_state(&a), SP_IN_JAVA);
    IS(sp_hold(&c, 0), SP_ALREADY_DONE);
    IS(sp_operate(&c), SP_NOT_OF);
    IS(sp_close_of(&c, 7), SP_NOT_OF);
    IS(sp_open_kind(&c), SP_HANDSHAKE);
    IS(sp_close(&c), 1);
    IS(sp_open_kind(&c), SP_NONE);
    IS(sp_reply(&d, 1, 1), 2);
    IS(sp_reply(&d, 1, 2), SP_NOT_ANSWERED);
}

static void a_held_thread_is_served(void) {
    IS(sp_to_native(&a), 0);
    IS(sp_target(&a, 1), 0);
    IS(sp_target(&a, 2), 0);
    IS(sp_submit(&a, SP_TOP, 0), 2);
    IS(sp_open(&c), 2);
    IS(sp_tell(&c, 1), 2);
    IS(sp_tell(&c, 2), 2);
    IS(sp_hold(&c, 2), SP_NO_SUCH_PLACE);
    IS(sp_serve(&c, 2), SP_NO_SUCH_PLACE);
    IS(sp_release(&c, 2), SP_NO_SUCH_PLACE);
    IS(sp_hold(&c, 0), 2);
    IS(sp_hold(&c, 0), SP_HELD);
    IS(sp_from_native(&a), SP_AGAIN);
    IS(sp_serve(&c, 1), SP_NOT_HELD);
    IS(sp_serve(&c, 0), 2);
    IS(sp_serve(&c, 0), SP_ALREADY_DONE);
    IS(sp_close(&c), SP_HELD);
    IS(sp_close_of(&c, 2), SP_HELD);
    IS(sp_release(&c, 0), 0);
    IS(sp_release(&c, 0), SP_NOT_HELD);
    IS(sp_from_native(&a), 0);
    IS(sp_ret(&b), 2);
    IS(sp_stop_next(&b), 2);
    IS(sp_stop_serve(&b), 0);
    IS(sp_close_of(&c, 2), 2);
    IS(sp_reply(&c, 2, 1), 2);
    IS(sp_reply(&c, 2, 2), 0);
}

/* A thread at a poll has given its stack away while it waits for what to serve: here a census keeps it. */
static void a_census_is_operated(void) {
    IS(sp_census(&d), 3);
    IS(sp_open(&c), 3);
    IS(sp_open_kind(&c), SP_CENSUS);
    IS(sp_open_kind(&d), SP_CENSUS);
    IS(sp_start(&d), SP_SAFEPOINT_OPEN);
    IS(sp_tell(&c, 1), 3);
    IS(sp_tell(&c, 2), 3);
    IS(sp_tell(&c, 9), SP_NOT_OF);
    IS(sp_operate(&c), SP_NOT_ALL_HELD);
    IS(sp_close(&c), SP_NOT_DONE);
    IS(sp_back_edge(&a), 3);
    IS(sp_stop_next(&a), SP_AGAIN);
    IS(sp_to_native(&b), 0);
    IS(sp_hold(&c, 0), 3);
    IS(sp_serve(&c, 0), SP_NOT_OF);
    IS(sp_operate(&c), SP_NOT_ALL_HELD);
    IS(sp_hold(&c, 1), 3);
    IS(sp_operate(&c), 3);
    IS(sp_operate(&c), SP_ALREADY_DONE);
    IS(sp_open_kind(&c), SP_CENSUS);
    IS(sp_counted(&c, 1), 1);
    IS(sp_counted(&c, 2), 1);
    IS(sp_counted(&c, 3), 0);
    IS(sp_counted(&d, 1), 0);
    IS(sp_close(&c), SP_HELD);
    IS(sp_release(&c, 0), 0);
    IS(sp_release(&c, 1), 0);
    IS(sp_stop_next(&a), 0);
    IS(sp_from_native(&b), 0);
    IS(sp_close(&c), 3);
}

static void four_are_open(void) {
    for (int64_t number = 4; number < 8; number++) {
        IS(sp_target(&d, 2), 0);
        IS(sp_submit(&d, SP_COUNT_OF, 3), number);
        IS(sp_open(&c), number);
    }
    IS(sp_target(&d, 2), 0);
    IS(sp_submit(&d, SP_DEPTH, 0), 8);
    IS(sp_open(&c), SP_ALREADY_OPEN);
    IS(sp_open_kind(&c), SP_HANDSHAKE);
    for (int64_t number = 4; number < 8; number++) IS(sp_tell(&c, 2), number);
    IS(sp_tell(&c, 2), SP_ALREADY_TOLD);
    IS(sp_back_edge(&b), 7);
    for (int64_t number = 4; number < 8; number++) {
        IS(sp_stop_next(&b), number);
        IS(sp_stop_serve(&b), number < 7 ? 7 : 0);
    }
    for (int64_t number = 4; number < 8; number++) IS(sp_close(&c), number);
    IS(sp_open(&c), 8);
    IS(sp_tell(&c, 2), 8);
    IS(sp_back_edge(&b), 8);
    IS(sp_stop_next(&b), 8);
    IS(sp_stop_serve(&b), 0);
    IS(sp_close(&c), 8);
}

static void the_queue_is_full(void) {
    for (int waiting = 0; waiting < 64; waiting++) IS(sp_census(&d), 9 + waiting);
    IS(sp_census(&d), SP_QUEUE_FULL);
    IS(sp_target(&d, 1), 0);
    IS(sp_submit(&d, SP_DEPTH, 0), SP_QUEUE_FULL);
    IS(sp_open_kind(&c), SP_NONE);
    IS(sp_reclaim_begin(&d, 1), SP_ALREADY_OPEN);
}

/* A party with its own coordinator, so that nothing waits. */
static void a_code_is_reclaimed(void) {
    struct sp_party one = {0}, thread = {0};
    IS(sp_make(&one, 1, 2, 1), 0);
    IS(sp_fork(&one, &thread), 0);
    IS(sp_start(&thread), 1);
    IS(sp_install(&one, 0), 1);
    IS(sp_call(&thread, 0), 1);
    IS(sp_reclaim_begin(&one, 5), SP_UNKNOWN);
    IS(sp_reclaim_begin(&one, 1), SP_STILL_IN_USE);
    IS(sp_reclaim_end(&one, 1), SP_NOT_WEIGHED);
    IS(sp_install(&one, 0), 2);
    IS(sp_reclaim_end(&one, 1), SP_LATE);
    for (int twice = 0; twice < 2; twice++) IS(sp_target(&one, 1), 0);
    IS(sp_reclaim_begin(&one, 1), SP_BAD_TARGETS);
    IS(sp_reclaim_begin(&one, 1), 0);
    IS(sp_reclaim_end(&one, 1), SP_LATE);
    IS(sp_publish(&thread), 0);
    IS(sp_reclaim_end(&one, 1), 1);
    IS(sp_ret(&thread), 0);
    IS(sp_target(&one, 1), 0);
    IS(sp_reclaim_begin(&one, 1), 1);
    IS(sp_open(&one), 1);
    IS(sp_open_kind(&one), SP_HANDSHAKE);
    IS(sp_tell(&one, 1), 1);
    IS(sp_back_edge(&thread), 1);
    IS(sp_stop_next(&thread), 1);
    IS(sp_stop_serve(&thread), 0);
    IS(sp_close(&one), 1);
    IS(sp_reply(&one, 1, 1), 0);
    IS(sp_reclaim_end(&one, 1), 0);
    IS(sp_reclaim_end(&one, 1), SP_NOT_WEIGHED);
    IS(sp_forget(&one), 0);
    IS(sp_reply(&one, 1, 1), SP_NOT_ANSWERED);
    IS(sp_exit(&thread), 0);
    sp_free(&thread);
    sp_free(&one);
}

static void threads_exit(void) {
    IS(sp_ret(&a), 0);
    IS(sp_ret(&a), 0);
    IS(sp_depth(&a), 0);
    IS(sp_exit(&a), 0);
    IS(sp_exit(&a), SP_NOT_THIS);
    IS(sp_back_edge(&a), SP_NOT_THIS);
    IS(sp_hold(&c, 0), SP_VACANT);
    IS(sp_serve(&c, 0), SP_VACANT);
    IS(sp_release(&c, 0), SP_VACANT);
    sp_free(&a);
    IS(sp_back_edge(&a), SP_NOT_THIS);
    IS(sp_open(&c), 9);
    IS(sp_tell(&c, 1), 0);
    IS(sp_tell(&c, 2), 9);
    IS(sp_exit(&b), 9);
    IS(sp_stop_next(&b), SP_AGAIN);
    IS(sp_hold(&c, 1), 9);
    IS(sp_operate(&c), 9);
    IS(sp_release(&c, 1), 0);
    IS(sp_close(&c), 9);
    IS(sp_stop_next(&b), 0);
    IS(sp_exit(&b), 0);
    IS(sp_start(&b), 3);
    IS(sp_place(&b), 0);
    IS(sp_exit(&b), 0);
    IS(sp_fork(&d, &a), 0);
    IS(sp_start(&a), 4);
    IS(sp_place(&a), 0);
}

/* --- the coordinator's work in one call: each on a system of its own --- */

static struct sp_party k, s, t; /* its coordinator, and two threads, of names 1 and 2 at places 0 and 1 */

static void begin(void) {
    IS(sp_make(&k, 2, 4, 2), 0);
    IS(sp_fork(&k, &s), 0);
    IS(sp_fork(&k, &t), 0);
    IS(sp_start(&s), 1);
    IS(sp_start(&t), 2);
    IS(sp_call(&s, 0), 0);
}

static void end(void) {
    sp_free(&s);
    sp_free(&t);
    sp_free(&k);
}

static void shake(uint64_t first, uint64_t second, int64_t number) {
    IS(sp_target(&k, first), 0);
    if (second) IS(sp_target(&k, second), 0);
    IS(sp_submit(&k, SP_DEPTH, 0), number);
}

/* The thread stops for an operation at its next poll, and serves it. */
static void serve_itself(struct sp_party *thread, int64_t number) {
    IS(sp_back_edge(thread), number);
    IS(sp_stop_next(thread), number);
    IS(sp_stop_serve(thread), 0);
}

/* No lock is taken: each call of the desk's lock, and of the room of t, answers. */
static void no_lock_is_taken(int64_t kind) {
    IS(sp_live_after(&k, 0), 1);
    IS(sp_open_kind(&s), kind);
    IS(sp_to_native(&t), 0);
    IS(sp_from_native(&t), 0);
}

static void a_held_thread_is_called(void) {
    begin();
    IS(sp_to_native(&s), 0);
    shake(1, 0, 1);
    CALLS(&k, 1, 0);
    no_lock_is_taken(SP_HANDSHAKE);
    IS(sp_from_native(&s), SP_AGAIN);
    IS(sp_reply(&k, 1, 1), SP_PENDING);
    ADVANCES(&k, 1);
    no_lock_is_taken(SP_NONE);
    IS(sp_called_operation(&k), 0);
    IS(sp_called_place(&k), 0);
    IS(sp_reply(&k, 1, 1), 1);
    IS(sp_from_native(&s), 0);
    ADVANCES(&k, SP_QUEUE_EMPTY);
    end();
}

static void a_busy_thread_is_awaited(void) {
    begin();
    IS(sp_to_native(&t), 0);
    shake(1, 2, 1);
    CALLS(&k, 1, 1);
    AWAITS(&k, 1);
    IS(sp_from_native(&t), 0);
    AWAITS(&k, 1);
    IS(sp_awaited_after(&k, 0), 1);
    IS(sp_awaited_place(&k, 0), 0);
    IS(sp_awaited_after(&k, 1), 0);
    no_lock_is_taken(SP_HANDSHAKE);
    serve_itself(&s, 1);
    ADVANCES(&k, 1);
    IS(sp_reply(&k, 1, 1), 1);
    IS(sp_reply(&k, 1, 2), 0);
    end();
}

/* A thread that was busy is served in its place once it is in native code. */
static void a_busy_thread_goes_into_native_code(void) {
    begin();
    shake(1, 0, 1);
    AWAITS(&k, 1);
    IS(sp_to_native(&s), 0);
    CALLS(&k, 1, 0);
    ADVANCES(&k, 1);
    IS(sp_from_native(&s), 0);
    end();
}

static void a_census_is_advanced(void) {
    begin();
    IS(sp_install(&k, 1), 1);
    IS(sp_call(&t, 1), 1);
    IS(sp_to_native(&t), 0);
    IS(sp_census(&k), 1);
    AWAITS(&k, 1);
    IS(sp_awaited_after(&k, 0), 1);
    IS(sp_awaited_after(&k, 1), 0);
    IS(sp_called_operation(&k), 0);
    IS(sp_from_native(&t), SP_AGAIN);
    IS(sp_back_edge(&s), 1);
    IS(sp_stop_next(&s), SP_AGAIN);
    ADVANCES(&k, SP_AT_SAFEPOINT);
    IS(sp_from_native(&t), SP_AGAIN);
    IS(sp_stop_next(&s), SP_AGAIN);
    ADVANCES(&k, 1);
    IS(sp_counted(&k, 1), 1);
    IS(sp_stop_next(&s), 0);
    IS(sp_from_native(&t), 0);
    no_lock_is_taken(SP_NONE);
    end();
}

static void four_are_advanced(void) {
    begin();
    IS(sp_to_native(&t), 0);
    for (int64_t number = 1; number < 6; number++) shake(2, 0, number);
    for (int64_t number = 1; number < 5; number++) IS(sp_open(&k), number);
    for (int64_t number = 1; number < 5; number++) CALLS(&k, number, 1);
    for (int64_t number = 1; number < 5; number++) {
        ADVANCES(&k, number);
        IS(sp_open_kind(&k), number < 4 ? SP_HANDSHAKE : SP_NONE);
    }
    IS(sp_from_native(&t), 0);
    AWAITS(&k, 1);
    serve_itself(&t, 5);
    ADVANCES(&k, 5);
    end();
}

static void a_target_exits(void) {
    begin();
    IS(sp_ret(&s), 0);
    shake(1, 2, 1);
    shake(1, 0, 2);
    IS(sp_to_native(&t), 0);
    IS(sp_exit(&s), 0);
    CALLS(&k, 1, 1);
    ADVANCES(&k, 1);
    ADVANCES(&k, 2);
    IS(sp_from_native(&t), 0);
    shake(2, 0, 3);
    AWAITS(&k, 1);
    IS(sp_exit(&t), 3);
    IS(sp_stop_next(&t), 3);
    IS(sp_stop_serve(&t), 0);
    IS(sp_exit(&t), 0);
    ADVANCES(&k, 3);
    IS(sp_reply(&k, 3, 2), 0);
    IS(sp_census(&k), 4);
    OPERATES(&k, 4);
    end();
}

/* The single steps come in between. */
static void steps_are_mixed_in(void) {
    begin();
    IS(sp_to_native(&s), 0);
    shake(1, 0, 1);
    CALLS(&k, 1, 0);
    IS(sp_release(&k, 0), 0);
    CALLS(&k, 1, 0);
    IS(sp_serve(&k, 0), 1);
    ADVANCES(&k, 1);
    shake(1, 0, 2);
    CALLS(&k, 2, 0);
    IS(sp_serve(&k, 0), 2);
    IS(sp_release(&k, 0), 0);
    IS(sp_close(&k), 2);
    ADVANCES(&k, SP_QUEUE_EMPTY);
    shake(1, 0, 3);
    IS(sp_open(&k), 3);
    IS(sp_tell(&k, 1), 3);
    IS(sp_hold(&k, 0), 3);
    CALLS(&k, 3, 0);
    ADVANCES(&k, 3);
    IS(sp_release(&k, 0), SP_NOT_HELD);
    shake(1, 0, 4);
    CALLS(&k, 4, 0);
    IS(sp_release(&k, 0), 0);
    IS(sp_from_native(&s), 4);
    IS(sp_stop_next(&s), 4);
    AWAITS(&k, 1);
    IS(sp_stop_serve(&s), 0);
    ADVANCES(&k, 4);
    end();
}

static void steps_are_mixed_into_a_census(void) {
    begin();
    IS(sp_to_native(&s), 0);
    IS(sp_to_native(&t), 0);
    IS(sp_census(&k), 1);
    IS(sp_open(&k), 1);
    IS(sp_tell(&k, 1), 1);
    IS(sp_hold(&k, 0), 1);
    OPERATES(&k, 1);
    IS(sp_release(&k, 0), SP_NOT_HELD);
    IS(sp_census(&k), 2);
    IS(sp_open(&k), 2);
    for (uint64_t name = 1; name < 3; name++) IS(sp_tell(&k, name), 2);
    for (size_t place = 0; place < 2; place++) IS(sp_hold(&k, place), 2);
    IS(sp_operate(&k), 2);
    ADVANCES(&k, 2);
    IS(sp_from_native(&s), 0);
    IS(sp_from_native(&t), 0);
    end();
}

/* It waits for those alone that the oldest request still needs. */
static void the_oldest_is_awaited(void) {
    begin();
    shake(1, 0, 1);
    shake(2, 0, 2);
    IS(sp_open(&k), 1);
    IS(sp_open(&k), 2);
    AWAITS(&k, 1);
    IS(sp_back_edge(&s), 1);
    IS(sp_stop_next(&s), 1);
    AWAITS(&k, 1);
    IS(sp_stop_serve(&s), 0);
    ADVANCES(&k, 1);
    AWAITS(&k, 1);
    serve_itself(&t, 2);
    ADVANCES(&k, 2);
    end();
}

static void targets_are_taken_back(void) {
    begin();
    IS(sp_target(&k, 1), 0);
    IS(sp_reclaim_begin(&k, 0), SP_UNKNOWN);
    IS(sp_submit(&k, SP_DEPTH, 0), SP_NO_TARGETS);
    IS(sp_target(&k, 1), 0);
    IS(sp_census(&k), 1);
    IS(sp_submit(&k, SP_DEPTH, 0), SP_NO_TARGETS);
    IS(sp_target(&k, 1), 0);
    IS(sp_submit(&k, 3, 0), SP_BAD_ASK);
    IS(sp_submit(&k, SP_DEPTH, 0), 2);
    end();
}

/* Names that nobody has: 0, one that isn't given out yet, the greatest number. A name that is given out before the Open is a target. */
static void names_never_were(void) {
    static const uint64_t names[] = {0, 99, UINT64_MAX};
    begin();
    for (int i = 0; i < 3; i++) {
        shake(names[i], 0, i + 1);
        IS(sp_open(&k), i + 1);
        IS(sp_tell(&k, names[i]), 0);
        IS(sp_tell(&k, 77), SP_NOT_OF);
        IS(sp_close(&k), i + 1);
        IS(sp_reply(&k, (uint64_t)i + 1, names[i]), SP_NOT_ANSWERED);
        IS(sp_live_after(&k, names[i]), names[i] ? 0 : 1);
    }
    IS(sp_reply(&k, 99, 1), SP_PENDING);
    IS(sp_exit(&t), 0);
    sp_free(&t);
    IS(sp_fork(&k, &t), 0);
    shake(3, 4, 4);
    IS(sp_start(&t), 3);
    IS(sp_open(&k), 4);
    IS(sp_tell(&k, 3), 4);
    serve_itself(&t, 4);
    IS(sp_exit(&t), 0);
    sp_free(&t);
    IS(sp_fork(&k, &t), 0);
    IS(sp_start(&t), 4);
    IS(sp_tell(&k, 4), 0);
    IS(sp_close(&k), 4);
    IS(sp_reply(&k, 4, 3), 0);
    IS(sp_reply(&k, 4, 4), SP_NOT_ANSWERED);
    end();
}

/* Codes that never were, and an sp_reclaim_end that nobody began: a round of another code is as good, if it came later. */
static void codes_are_weighed_unasked(void) {
    begin();
    IS(sp_reclaim_end(&k, 9), SP_NOT_WEIGHED);
    IS(sp_counted(&k, 9), 0);
    IS(sp_target(&k, 1), 0);
    IS(sp_submit(&k, SP_COUNT_OF, 9), 1);
    AWAITS(&k, 1);
    serve_itself(&s, 1);
    ADVANCES(&k, 1);
    IS(sp_reply(&k, 1, 1), 0);
    for (int64_t serial = 1; serial < 4; serial++) IS(sp_install(&k, 0), serial);
    IS(sp_reclaim_end(&k, 3), SP_NOT_WEIGHED);
    IS(sp_reclaim_end(&k, 1), SP_LATE);
    IS(sp_publish(&s), 0);
    IS(sp_publish(&t), 0);
    IS(sp_reclaim_end(&k, 1), SP_LATE);
    IS(sp_reclaim_begin(&k, 1), 0);
    IS(sp_install(&k, 0), 4);
    IS(sp_reclaim_end(&k, 2), SP_LATE);
    IS(sp_publish(&s), 0);
    IS(sp_publish(&t), 0);
    IS(sp_reclaim_end(&k, 2), 0);
    IS(sp_reclaim_end(&k, 3), SP_LATE);
    IS(sp_ret(&s), 0);
    IS(sp_exit(&s), 0);
    IS(sp_exit(&t), 0);
    IS(sp_reclaim_end(&k, 3), 0);
    end();
}

/* --- the loops of safepoint_wait.h, where nobody has to be waited for --- */

static int served_for[2]; /* each place */

static void at_safe_point(void *with, const struct sp_served *served) {
    IS(served->thread != NULL || with != &k, 0);
    IS(sp_called_operation(with), (int64_t)served->operation);
    served_for[served->place]++;
}

static void held_threads_are_driven(void) {
    begin();
    IS(sp_install(&k, 1), 1);
    IS(sp_call(&t, 1), 1);
    IS(sp_to_native(&s), 0);
    IS(sp_to_native(&t), 0);
    served_for[0] = served_for[1] = 0;
    ADVANCES(&k, SP_QUEUE_EMPTY);
    IS(sp_drive(&k, at_safe_point, &k), SP_QUEUE_EMPTY);
    IS(sp_drive_four(&k, at_safe_point, &k), 0);
    shake(1, 2, 1);
    IS(sp_drive(&k, at_safe_point, &k), 1);
    IS(served_for[0], 1);
    IS(served_for[1], 1);
    IS(sp_census(&k), 2);
    IS(sp_drive(&k, at_safe_point, &k), 2);
    IS(sp_counted(&k, 1), 1);
    for (int64_t number = 3; number < 8; number++) shake(2, 0, number);
    IS(sp_drive_four(&k, at_safe_point, &k), 4);
    IS(served_for[1], 5);
    IS(sp_drive_four(&k, NULL, NULL), 1);
    IS(served_for[1], 5);
    IS(sp_drive(&s, at_safe_point, &k), SP_NOT_THIS);
    end();
}

int main(int count, char **words) {
    shows_met = count > 1 && !strcmp(words[1], "--met");
    no_party_does_nothing();
    making();
    another_part_is_refused();
    threads_start();
    a_thread_goes_through_its_states();
    codes_are_installed();
    requests_are_refused();
    a_thread_serves_itself();
    a_held_thread_is_served();
    a_census_is_operated();
    four_are_open();
    the_queue_is_full();
    a_code_is_reclaimed();
    threads_exit();
    a_held_thread_is_called();
    a_busy_thread_is_awaited();
    a_busy_thread_goes_into_native_code();
    a_census_is_advanced();
    four_are_advanced();
    a_target_exits();
    steps_are_mixed_in();
    steps_are_mixed_into_a_census();
    the_oldest_is_awaited();
    targets_are_taken_back();
    names_never_were();
    codes_are_weighed_unasked();
    held_threads_are_driven();
    sp_free(&a);
    sp_free(&b);
    sp_free(&c);
    sp_free(&d);
    if (failed) return 1;
    if (refused) printf("ok, and %.*s was refused\n", (int)strcspn(refused, "("), refused);
    else puts("ok");
    return 0;
}
