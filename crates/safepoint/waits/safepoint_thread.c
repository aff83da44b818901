/* The loops of a thread: it stops, starts and exits, gives its stack away, and takes its stack back. */
#include "safepoint_waiting.h"

#include <sched.h>

/* Notes that the thread has come: it served what it was told, or its stack is where a coordinator finds it. */
static void come(void) {
    atomic_fetch_add(&sp_waiting.came, 1);
    if (are_here(atomic_load(&sp_waiting.wanted)) || driven() > 1) ring(&sp_waiting.come);
}

/* Lets others run until the next drive ends, as far as a scheduler heeds that. `ended` drives had ended before. Where
   more threads run than there are processors, the coordinator and the threads that have still to come get one
   sooner. */
static void give_way(unsigned ended) {
    unsigned turn = 0;
    for (; turn < YIELDS && atomic_load(&sp_waiting.ended) == ended; turn++) sched_yield();
    count(OF_YIELDS, turn);
}

/* The operation to serve now, or 0. A thread whose stack a census keeps has come, and waits. */
static int64_t next_of(struct sp_party *thread) {
    struct sp_pause pause = {0, 0};
    int64_t operation;
    do {
        if (pause.turns == 2) come(), pause.turns = TRIES - FEW; /* a lock that was taken once is no reason */
        operation = sp_stop_next(thread);
    } while (sp_again(operation, &pause));
    return operation;
}

/* Serves the operation, and returns what the poll after it returns. */
static int64_t serve(struct sp_party *thread, int64_t operation, sp_callback call, void *with) {
    int64_t told;
    if (call) {
        size_t place = (size_t)sp_place(thread);
        uint64_t begun = call_begins();
        sp_waiting_serves(place, thread, operation);
        PROBE(callback__begin, operation, sp_name(thread), (int64_t)place);
        call(with, &(struct sp_served){(uint64_t)operation, place, thread, SP_HANDSHAKE});
        PROBE(callback__end, operation, sp_name(thread), (int64_t)place);
        sp_waiting_serves(place, thread, 0);
        call_ends(begun);
    }
    SP_WAIT(told, sp_stop_serve(thread));
    return told;
}

int64_t sp_stop(struct sp_party *thread, sp_callback call, void *with) {
    int64_t told;
    PROBE(stop__begin, sp_name(thread), sp_place(thread));
    for (;;) {
        int64_t operation = told = next_of(thread);
        if (operation <= 0) break;
        unsigned ended = atomic_load(&sp_waiting.ended);
        told = serve(thread, operation, call, with);
        come();
        if (told > 0) continue;
        give_way(ended);
        break;
    }
    PROBE(stop__end, sp_name(thread), sp_place(thread));
    return told;
}

/* A call that takes a thread's stack away from it, or gives it back. */
typedef int64_t (*crossing)(struct sp_party *);

static int64_t crossed(int64_t answer, crossing call, struct sp_party *thread) {
    struct sp_pause pause = {TRIES - FEW, 0};
    while (sp_again(answer, &pause)) answer = call(thread);
    return answer;
}

/* The slow way of a call by which a thread gives its stack away. It is a function of its own, so that the fast way, a
   first try that did all, saves no registers for it. */
__attribute__((noinline)) static int64_t given_late(int64_t answer, crossing call, struct sp_party *thread) {
    answer = crossed(answer, call, thread);
    if (driven()) come();
    return answer;
}

static inline int64_t given(int64_t answer, crossing call, struct sp_party *thread) {
    return answer != SP_AGAIN && !driven() ? answer : given_late(answer, call, thread);
}

/* The slow way of a call by which a thread takes its stack back, and polls. */
__attribute__((noinline)) static int64_t taken_late(int64_t answer, crossing call, struct sp_party *thread,
                                                    sp_callback run, void *with) {
    answer = crossed(answer, call, thread);
    return answer > 0 ? sp_stop(thread, run, with) : answer;
}

static inline int64_t taken(int64_t answer, crossing call, struct sp_party *thread, sp_callback run, void *with) {
    return answer ? taken_late(answer, call, thread, run, with) : 0;
}

int64_t sp_start_thread(struct sp_party *thread, sp_callback call, void *with) {
    int64_t name, stopped = 0;
    name = sp_waiting_start(thread);
    if (name > 0) sp_waiting_list((size_t)sp_place(thread), thread, name);
    if (name > 0 && sp_state(thread) == SP_AT_POLL) stopped = sp_stop(thread, call, with);
    return stopped < 0 ? stopped : name;
}

/* The thread has come once it has left, or is told more. If it came before that, the coordinator that wakes might tell
   it the next operation in time, and so on without an end. */
int64_t sp_exit_thread(struct sp_party *thread, sp_callback call, void *with) {
    int64_t place = sp_place(thread);
    for (bool has_served = false;;) {
        int64_t operation, answer;
        SP_WAIT(answer, sp_exit(thread));
        if (answer == 0 && place >= 0) sp_waiting_unlist((size_t)place, thread);
        if (has_served || (answer <= 0 && driven())) come();
        if (answer <= 0) return answer;
        has_served = false;
        PROBE(stop__begin, sp_name(thread), sp_place(thread));
        while ((operation = next_of(thread)) > 0) {
            answer = serve(thread, operation, call, with);
            has_served = true;
            if (answer <= 0) break;
            come();
        }
        PROBE(stop__end, sp_name(thread), sp_place(thread));
        if (operation < 0 || answer < 0) return operation < 0 ? operation : answer;
    }
}

/* One step towards a thread in Java without frames. Returns what the step's poll returns. */
static int64_t step_out(struct sp_party *thread, sp_callback call, void *with) {
    int64_t answer;
    switch (sp_state(thread)) {
    case SP_AT_POLL: return sp_stop(thread, call, with);
    case SP_IN_NATIVE: return sp_leave_native(thread, call, with);
    case SP_BLOCKED: return sp_leave_blocked(thread, call, with);
    case SP_IN_VM: return sp_from_vm(thread);
    case SP_SERVING:
        SP_WAIT(answer, sp_stop_serve(thread));
        come();
        return answer;
    default: return sp_ret(thread);
    }
}

int64_t sp_end_thread(struct sp_party *thread, sp_callback call, void *with) {
    int64_t answer = sp_state(thread) == SP_IN_JAVA ? sp_back_edge(thread) : 0; /* what it owes sees the whole stack */
    while (answer >= 0) answer = step_out(thread, call, with);
    return answer == SP_EMPTY_STACK ? sp_exit_thread(thread, call, with) : answer;
}

int64_t sp_enter_native(struct sp_party *thread) { return given(sp_to_native(thread), sp_to_native, thread); }

int64_t sp_leave_native(struct sp_party *thread, sp_callback call, void *with) {
    return taken(sp_from_native(thread), sp_from_native, thread, call, with);
}

int64_t sp_enter_blocked(struct sp_party *thread) { return given(sp_block(thread), sp_block, thread); }

int64_t sp_leave_blocked(struct sp_party *thread, sp_callback call, void *with) {
    return taken(sp_unblock(thread), sp_unblock, thread, call, with);
}
