#include <inttypes.h>

#include "ends.h"
#include "mix.h"
#include "mutator.h"
#include "work.h"

enum { NEXT, CHORD, NUMBER, CHECKSUM }; /* the fields of a node: two pointers, two words */
enum { FIRST, AT, TABLE, ROOTS };
enum { NODES = 200, ROUNDS = 4 };

static uint64_t chord_of(uint64_t task, uint64_t number) { return mixed(task * NODES + number) % NODES; }

static uint64_t checksum_of(uint64_t number, uint64_t next, uint64_t chord) {
    return folded(folded(number, next), chord);
}

static uint64_t checksum_of_node(const struct object *node) {
    return checksum_of(node->fields[NUMBER].word, node->fields[NEXT].pointer->fields[NUMBER].word,
                       node->fields[CHORD].pointer->fields[NUMBER].word);
}

/* The nodes, in a table that is an object too. */
static void make_nodes(struct mutator *me, struct object **roots) {
    roots[TABLE] = allocate(me, NODES, 0);
    for (uint64_t i = 0; i < NODES; i++) {
        struct object *node = allocate(me, 2, 2);
        node->fields[NUMBER].word = i;
        roots[TABLE]->fields[i].pointer = node;
        poll(me);
    }
}

static void join_nodes(struct mutator *me, struct object **roots, uint64_t task) {
    for (uint64_t i = 0; i < NODES; i++) {
        union field *table = roots[TABLE]->fields;
        struct object *node = table[i].pointer;
        node->fields[NEXT].pointer = table[(i + 1) % NODES].pointer;
        node->fields[CHORD].pointer = table[chord_of(task, i)].pointer;
        node->fields[CHECKSUM].word = checksum_of_node(node);
        poll(me);
    }
    roots[FIRST] = roots[TABLE]->fields[0].pointer;
    roots[TABLE] = NULL;
}

/* Goes round once. Each chord then leads to the node behind, and garbage is left. Returns what the nodes had. */
static uint64_t go_round(struct mutator *me, struct object **roots, uint64_t task) {
    uint64_t total = 0;
    roots[AT] = roots[FIRST];
    for (uint64_t i = 0; i < NODES; i++) {
        struct object *node = roots[AT];
        check("graph", task, node->fields[CHECKSUM].word, checksum_of_node(node));
        total = folded(total, node->fields[CHECKSUM].word);
        node->fields[CHORD].pointer = node->fields[CHORD].pointer->fields[NEXT].pointer;
        node->fields[CHECKSUM].word = checksum_of_node(node);
        roots[AT] = node->fields[NEXT].pointer;
        allocate(me, 1, 3);
        poll(me);
    }
    if (roots[AT] != roots[FIRST]) die(WRONG_RESULT, "the ring of task %" PRIu64 " is broken", task);
    return total;
}

static uint64_t wanted_of(uint64_t task, uint64_t round) {
    uint64_t total = 0;
    for (uint64_t i = 0; i < NODES; i++)
        total = folded(total, checksum_of(i, (i + 1) % NODES, (chord_of(task, i) + round) % NODES));
    return total;
}

uint64_t graph_task(struct mutator *me, uint64_t task) {
    struct object **roots = enter_frame(me, ROOTS);
    uint64_t checksum = 0;
    make_nodes(me, roots);
    join_nodes(me, roots, task);
    for (uint64_t round = 0; round < ROUNDS; round++) {
        rest(me);
        uint64_t found = go_round(me, roots, task);
        check("graph", task, found, wanted_of(task, round));
        checksum = folded(checksum, found);
    }
    leave_frame(me, ROOTS);
    return checksum;
}
