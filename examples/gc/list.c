#include "ends.h"
#include "mix.h"
#include "mutator.h"
#include "work.h"

enum { NEXT, VALUE }; /* the fields of a node */
enum { LIST, REST, ROOTS };
enum { LENGTH = 1000 };

static uint64_t value_of(uint64_t task, uint64_t index) { return mixed(task * LENGTH + index); }

/* The first value comes last. */
static void build(struct mutator *me, struct object **roots, uint64_t task) {
    for (uint64_t i = 0; i < LENGTH; i++) {
        struct object *node = allocate(me, 1, 1);
        node->fields[NEXT].pointer = roots[LIST];
        node->fields[VALUE].word = value_of(task, i);
        roots[LIST] = node;
        poll(me);
    }
}

static void reverse(struct mutator *me, struct object **roots) {
    roots[REST] = roots[LIST];
    roots[LIST] = NULL;
    while (roots[REST]) {
        struct object *node = roots[REST];
        roots[REST] = node->fields[NEXT].pointer;
        node->fields[NEXT].pointer = roots[LIST];
        roots[LIST] = node;
        poll(me);
    }
}

static uint64_t sum(struct mutator *me, struct object **roots) {
    uint64_t total = 0;
    for (roots[REST] = roots[LIST]; roots[REST]; roots[REST] = roots[REST]->fields[NEXT].pointer) {
        total = folded(total, roots[REST]->fields[VALUE].word);
        poll(me);
    }
    return total;
}

uint64_t list_task(struct mutator *me, uint64_t task) {
    struct object **roots = enter_frame(me, ROOTS);
    uint64_t wanted = 0;
    for (uint64_t i = 0; i < LENGTH; i++) wanted = folded(wanted, value_of(task, i));
    build(me, roots, task);
    rest(me);
    reverse(me, roots);
    rest(me);
    uint64_t found = sum(me, roots);
    leave_frame(me, ROOTS);
    check("list", task, found, wanted);
    return found;
}
