/* Walks the table of safepoint.h, from one thread. A line for each call is one of these:

       by KIND CALL ANSWER                      with a party of this kind
       in STATE BACK TOLD CALL ANSWER AFTER     of a thread in this state, which goes back to that one; whether it was
                                                told an operation that it hasn't come to; and its state behind the call
       met CALL ANSWER                          where the history is full

   tests/header.py builds and runs it, and compares the lines with the table. */
#include <stdio.h>
#include <stdlib.h>
#include <string.h>

#include "../crates/safepoint/include/safepoint_wait.h"

static struct sp_party none, coordinator, client, thread;

static void must(int line, int64_t answer) {
    if (answer >= 0) return;
    printf("%d: %s\n", line, sp_text(answer));
    exit(1);
}
#define MUST(call) must(__LINE__, (call))

/* Each call, with numbers of which nothing is. */
#define CALLS(of)                                                                                                      \
    of(start, sp_start(p)) of(exit, sp_exit(p)) of(name, sp_name(p)) of(place, sp_place(p)) of(state, sp_state(p))     \
    of(depth, sp_depth(p))                                                                                             \
    of(call, sp_call(p, 0)) of(ret, sp_ret(p)) of(back_edge, sp_back_edge(p)) of(publish, sp_publish(p))               \
    of(to_vm, sp_to_vm(p)) of(from_vm, sp_from_vm(p)) of(to_native, sp_to_native(p))                                   \
    of(from_native, sp_from_native(p)) of(block, sp_block(p)) of(unblock, sp_unblock(p))                               \
    of(stop_next, sp_stop_next(p)) of(stop_serve, sp_stop_serve(p)) of(target, sp_target(p, 9))                        \
    of(target_all, sp_target_all(p)) of(submit, sp_submit(p, SP_DEPTH, 0)) of(census, sp_census(p)) of(install, sp_install(p, 0))                       \
    of(invalidate, sp_invalidate(p, 9)) of(reply, sp_reply(p, 9, 9)) of(live_after, sp_live_after(p, 0))               \
    of(open_kind, sp_open_kind(p)) of(pending, sp_pending(p)) of(forget, sp_forget(p)) of(advance, sp_advance(p))                                 \
    of(called_operation, sp_called_operation(p)) of(called_place, sp_called_place(p)) of(awaited, sp_awaited(p))       \
    of(awaited_after, sp_awaited_after(p, 0)) of(awaited_place, sp_awaited_place(p, 0))                                \
    of(open, sp_open(p)) of(tell, sp_tell(p, 9)) of(hold, sp_hold(p, 9)) of(serve, sp_serve(p, 9))                     \
    of(release, sp_release(p, 9)) of(operate, sp_operate(p)) of(counted, sp_counted(p, 9)) of(close, sp_close(p))      \
    of(close_of, sp_close_of(p, 9)) of(reclaim_begin, sp_reclaim_begin(p, 9))                                          \
    of(reclaim_end, sp_reclaim_end(p, 9))

#define FUNCTION(name, call) static int64_t do_##name(struct sp_party *p) { return call; }
CALLS(FUNCTION)

static struct sp_party forked;
static int64_t do_fork(struct sp_party *p) {
    int64_t answer = sp_fork(p, &forked);
    sp_free(&forked);
    return answer;
}
static int64_t do_make(struct sp_party *p) {
    int64_t answer = sp_make(p, 2, 4, 2);
    if (answer == 0) sp_free(p);
    return answer;
}

#define ENTRY(name, call) {"sp_" #name, do_##name},
static const struct {
    const char *name;
    int64_t (*make)(struct sp_party *);
} calls[] = {{"sp_make", do_make}, {"sp_fork", do_fork}, CALLS(ENTRY)};
/* Those of a thread are in a row, behind sp_start. */
enum { COUNT = sizeof calls / sizeof *calls, FIRST = 3 };

static void begin(void) {
    MUST(sp_make(&coordinator, 2, 4, 2));
    MUST(sp_fork(&coordinator, &client));
    MUST(sp_fork(&coordinator, &thread));
    MUST(sp_start(&thread));
}

static void end(void) {
    sp_free(&thread);
    sp_free(&client);
    sp_free(&coordinator);
}

/* --- which party makes a call --- */

static void by_party(void) {
    static struct sp_party *const parties[] = {&none, &client, &coordinator, &thread};
    static const char *const kinds[] = {"none", "client", "coord.", "thread"};
    for (int kind = 0; kind < 4; kind++)
        for (int i = 0; i < COUNT; i++) {
            begin();
            printf("by %s %s %lld\n", kinds[kind], calls[i].name, (long long)calls[i].make(parties[kind]));
            end();
        }
}

/* --- from which state --- */

static void tell_thread(void) {
    MUST(sp_target(&client, 1));
    MUST(sp_submit(&client, SP_DEPTH, 0));
    MUST(sp_open(&coordinator));
    MUST(sp_tell(&coordinator, 1));
}

static void into_java(void) {}
static void into_vm(void) { MUST(sp_to_vm(&thread)); }
static void into_native(void) { MUST(sp_to_native(&thread)); }
static void into_native_of_vm(void) { into_vm(), into_native(); }
static void into_block(void) { into_vm(), MUST(sp_block(&thread)); }
static void to_poll(void) { tell_thread(), MUST(sp_back_edge(&thread)); }
static void to_poll_of_vm(void) { into_native_of_vm(), tell_thread(), MUST(sp_from_native(&thread)); }
static void to_serve(void) { to_poll(), MUST(sp_stop_next(&thread)); }
static void to_serve_of_vm(void) { to_poll_of_vm(), MUST(sp_stop_next(&thread)); }
/* A census was operated meanwhile. */
static void to_poll_with_nothing_to_serve(void) {
    MUST(sp_census(&client)), MUST(sp_open(&coordinator)), MUST(sp_tell(&coordinator, 1));
    MUST(sp_back_edge(&thread));
    if (sp_stop_next(&thread) != SP_AGAIN) exit(1);
    MUST(sp_hold(&coordinator, 0)), MUST(sp_operate(&coordinator)), MUST(sp_release(&coordinator, 0));
}

static const struct {
    const char *state, *back, *told;
    void (*reach)(void);
} states[] = {
    {"Java", "Java", "no", into_java},
    {"VM", "VM", "no", into_vm},
    {"native", "Java", "no", into_native},
    {"native", "VM", "no", into_native_of_vm},
    {"blocked", "VM", "no", into_block},
    {"poll", "Java", "no", to_poll},
    {"poll", "VM", "no", to_poll_of_vm},
    {"poll", "Java", "served", to_poll_with_nothing_to_serve},
    {"serving", "Java", "no", to_serve},
    {"serving", "VM", "no", to_serve_of_vm},
};
enum { STATES = sizeof states / sizeof *states, OF_THREAD = 17 };

static const char *state_now(void) {
    static const char *const names[] = {"Java", "VM", "poll", "native", "blocked", "serving"};
    int64_t state = sp_state(&thread);
    return state < 0 ? "-" : names[state];
}

/* A thread returns from a frame, and exits without one. */
static void in_state(int state, int call, bool told) {
    begin();
    if (strcmp(calls[call].name, "sp_exit")) MUST(sp_call(&thread, 0));
    states[state].reach();
    if (told) tell_thread();
    printf("in %s %s %s ", states[state].state, states[state].back, told ? "yes" : states[state].told);
    int64_t answer = calls[call].make(&thread);
    printf("%s %lld %s\n", calls[call].name, (long long)answer, state_now());
    end();
}

/* A thread that is at a poll has come to what it was told. */
static void from_each_state(void) {
    for (int call = FIRST; call < FIRST + OF_THREAD; call++)
        for (int state = 0; state < STATES; state++) {
            in_state(state, call, false);
            if (strcmp(states[state].state, "poll")) in_state(state, call, true);
        }
}

/* A thread that polls in its exit goes on in Java. */
static void exit_from_vm(void) {
    begin();
    into_vm(), tell_thread();
    MUST(sp_exit(&thread)), MUST(sp_stop_next(&thread));
    int64_t answer = sp_stop_serve(&thread);
    printf("in serving Java no sp_stop_serve %lld %s\n", (long long)answer, state_now());
    end();
}

/* --- where the history is full --- */

#define MET(call) printf("met %.*s %lld\n", (int)strcspn(#call, "("), #call, (long long)(call))

static void fill_history(void) {
    for (;;) {
        struct sp_party other = {0};
        MUST(sp_fork(&coordinator, &other));
        int64_t name = sp_start(&other);
        if (name == SP_HISTORY_FULL) return sp_free(&other);
        MUST(name);
        MUST(sp_exit(&other));
        sp_free(&other);
    }
}

static void the_history_is_full(void) {
    begin();
    MUST(sp_install(&client, 0)), MUST(sp_install(&client, 0));
    fill_history();
    MET(sp_start(&client));
    MUST(sp_target(&client, 1));
    MET(sp_submit(&client, SP_DEPTH, 0));
    MET(sp_census(&client));
    MET(sp_install(&client, 0));
    MUST(sp_target(&client, 1));
    MET(sp_reclaim_begin(&client, 1));
    MUST(sp_forget(&client));
    MET(sp_start(&client));
    end();
}

int main(void) {
    by_party();
    from_each_state();
    exit_from_vm();
    the_history_is_full();
}
