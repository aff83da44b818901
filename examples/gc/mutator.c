#include "mutator.h"

#include <string.h>

#include "ends.h"
#include "vm.h"

static struct order *order_of(struct mutator *me) { return &me->vm->heap.order; }

/* The thread has stopped for a handshake, and serves itself. */
static void at_own_stop(void *with, const struct sp_served *served) {
    struct mutator *me = with;
    (void)served;
    order_take(order_of(me));
    clean_cache(&me->cache, me->vm->heap.epoch, BY_THREAD);
    order_give(order_of(me));
}

/* --- polls, native code and waits --- */

/* A poll that returned a number has stopped the thread. */
static void heed(struct mutator *me, int64_t polled) {
    if (must("a poll", polled) == 0) return;
    order_give(order_of(me));
    must("sp_stop", sp_stop(&me->party, at_own_stop, me));
    order_take(order_of(me));
}

void poll(struct mutator *me) { heed(me, sp_back_edge(&me->party)); }

void enter_native(struct mutator *me) {
    order_give(order_of(me));
    must("sp_enter_native", sp_enter_native(&me->party));
}

void leave_native(struct mutator *me) {
    must("sp_leave_native", sp_leave_native(&me->party, at_own_stop, me));
    order_take(order_of(me));
}

void enter_wait(struct mutator *me) {
    must("sp_to_vm", sp_to_vm(&me->party));
    order_give(order_of(me));
    must("sp_enter_blocked", sp_enter_blocked(&me->party));
}

void leave_wait(struct mutator *me) {
    must("sp_leave_blocked", sp_leave_blocked(&me->party, at_own_stop, me));
    order_take(order_of(me));
    heed(me, sp_from_vm(&me->party));
}

/* --- a life --- */

void make_mutator(struct mutator *me, struct vm *vm) {
    me->vm = vm;
    must("sp_fork", sp_fork(&vm->coordinator.party, &me->party));
}

void free_mutator(struct mutator *me) { sp_free(&me->party); }

/* No thread starts while a census is open: then it waits until what is open is closed. */
static void start(struct mutator *me) {
    int64_t name, open;
    while ((name = sp_start_thread(&me->party, at_own_stop, me)) == SP_SAFEPOINT_OPEN) {
        SP_WAIT(open, sp_pending(&me->party));
        must("sp_pending", open);
        must("sp_wait_closed", sp_wait_closed(&me->party, (uint64_t)open));
    }
    must("sp_start_thread", name);
    order_take(order_of(me));
}

/* From the start to its first poll no collection runs, so the collector finds each thread that has roots. */
void start_mutator(struct mutator *me) {
    start(me);
    me->cache.epoch = me->vm->heap.epoch;
    atomic_store(&me->vm->mutators[must("sp_place", sp_place(&me->party))], me);
}

void exit_mutator(struct mutator *me) {
    if (me->root_count) die(WRONG_RESULT, "a thread exits with %zu roots", me->root_count);
    me->buffer = (struct buffer){NULL, 0};
    empty_cache(&me->cache);
    atomic_store(&me->vm->mutators[must("sp_place", sp_place(&me->party))], NULL);
    order_give(order_of(me));
    must("sp_exit_thread", sp_exit_thread(&me->party, at_own_stop, me));
}

/* --- roots and objects --- */

struct object **enter_frame(struct mutator *me, size_t count) {
    struct object **frame = &me->roots[me->root_count];
    if (MOST_ROOTS - me->root_count < count) die(WRONG_RESULT, "the shadow stack is full");
    memset(frame, 0, count * sizeof *frame);
    me->root_count += count;
    return frame;
}

void leave_frame(struct mutator *me, size_t count) { me->root_count -= count; }

/* The space is full. The thread asks for a collection, and waits for it. It is blocked meanwhile, so the coordinator
   holds it without its help. */
static void await_collection(struct mutator *me) {
    int64_t census = ask_for_collection(&me->vm->coordinator, &me->party);
    enter_wait(me);
    must("sp_wait_closed", sp_wait_closed(&me->party, (uint64_t)census));
    leave_wait(me);
}

struct object *allocate(struct mutator *me, uint32_t pointers, uint32_t words) {
    struct object *object;
    while (!(object = new_object(&me->buffer, pointers, words)))
        while (!refill(&me->vm->heap, &me->buffer, object_size(pointers, words))) await_collection(me);
    return object;
}
