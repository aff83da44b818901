#include <inttypes.h>

#include "ends.h"
#include "mix.h"
#include "mutator.h"
#include "work.h"

enum { LEFT, RIGHT, KEY, FIELDS }; /* the fields of a node: all are pointers, the key's to an interned object */
enum { TREE, NEW, ROOTS };
enum { CHANGES = 600 };

static uint64_t key_of_node(const struct object *node) { return key_of(node->fields[KEY].pointer); }

/* Where the pointer to the key's node is, or would be. It doesn't poll, and is valid until the next poll. */
static struct object **find(struct object **tree, uint64_t key) {
    while (*tree && key_of_node(*tree) != key)
        tree = &(*tree)->fields[key < key_of_node(*tree) ? LEFT : RIGHT].pointer;
    return tree;
}

static void insert(struct mutator *me, struct object **roots, uint64_t key) {
    roots[NEW] = allocate(me, FIELDS, 0);
    struct object *object = intern(me, key); /* the new node may have moved */
    roots[NEW]->fields[KEY].pointer = object;
    struct object **at = find(&roots[TREE], key);
    if (!*at) *at = roots[NEW];
    roots[NEW] = NULL;
}

/* A node with two children gives its place to the least node on its right. */
static void delete(struct object **roots, uint64_t key) {
    struct object **at = find(&roots[TREE], key), *node = *at;
    if (!node) return;
    if (!node->fields[LEFT].pointer || !node->fields[RIGHT].pointer) {
        *at = node->fields[node->fields[LEFT].pointer ? LEFT : RIGHT].pointer;
        return;
    }
    struct object **least = &node->fields[RIGHT].pointer;
    while ((*least)->fields[LEFT].pointer) least = &(*least)->fields[LEFT].pointer;
    struct object *successor = *least;
    *least = successor->fields[RIGHT].pointer;
    successor->fields[LEFT].pointer = node->fields[LEFT].pointer;
    successor->fields[RIGHT].pointer = node->fields[RIGHT].pointer;
    *at = successor;
}

/* A walk in order. `next` is the least key that may follow. */
struct walk {
    struct mutator *me;
    uint64_t task, next, checksum;
};

/* An interned object that a node keeps alive stays the one that the cache has. */
static void visit(struct walk *walk, const struct object *node) {
    uint64_t key = key_of_node(node);
    if (interned(walk->me, key) != node->fields[KEY].pointer)
        die(WRONG_RESULT, "the tree of task %" PRIu64 ": the cache lost a live object", walk->task);
    if (key < walk->next) die(WRONG_RESULT, "the tree of task %" PRIu64 " isn't in order", walk->task);
    walk->next = key + 1;
    walk->checksum = folded(walk->checksum, key);
}

static void walk_below(struct walk *walk, struct object *node) {
    struct object **root = enter_frame(walk->me, 1);
    *root = node;
    if ((*root)->fields[LEFT].pointer) walk_below(walk, (*root)->fields[LEFT].pointer);
    poll(walk->me);
    visit(walk, *root);
    if ((*root)->fields[RIGHT].pointer) walk_below(walk, (*root)->fields[RIGHT].pointer);
    leave_frame(walk->me, 1);
}

/* Changes the tree, and says which keys it then has. */
static void change(struct mutator *me, struct object **roots, uint64_t task, uint8_t *has) {
    for (uint64_t i = 0; i < CHANGES; i++) {
        uint64_t number = mixed(task * CHANGES + i), key = number % KEYS;
        bool inserts = number >> 32 & 1;
        if (inserts) insert(me, roots, key);
        else delete(roots, key);
        has[key] = inserts;
        poll(me);
    }
}

uint64_t tree_task(struct mutator *me, uint64_t task) {
    struct object **roots = enter_frame(me, ROOTS);
    struct walk walk = {me, task, 0, 0};
    uint8_t has[KEYS] = {0};
    uint64_t wanted = 0;
    change(me, roots, task, has);
    rest(me);
    if (roots[TREE]) walk_below(&walk, roots[TREE]);
    leave_frame(me, ROOTS);
    for (uint64_t key = 0; key < KEYS; key++)
        if (has[key]) wanted = folded(wanted, key);
    check("tree", task, walk.checksum, wanted);
    return walk.checksum;
}
