#include "collector.h"

#include <string.h>

#include "ends.h"
#include "vm.h"

/* The space into which objects move: its next free byte, and how many objects came. */
struct target {
    char *free;
    uint64_t moved;
};

/* Moves the root's object, if it hasn't moved yet, and updates the root. */
static void forward(struct target *to, struct object **root) {
    struct object *object = *root;
    if (!object) return;
    if (!object->moved) {
        size_t size = object_size(object->pointers, object->words);
        struct object *copy = memcpy(to->free, object, size);
        object->moved = copy;
        to->free += size;
        to->moved++;
    }
    *root = object->moved;
}

/* The roots of a thread. Its buffer is in the space that is left, so its next allocation takes a new one. */
static void forward_thread(struct target *to, struct mutator *thread, uint64_t epoch) {
    if (thread->cache.epoch != epoch) die(WRONG_RESULT, "a cache wasn't cleaned since the last collection");
    for (size_t i = 0; i < thread->root_count; i++) forward(to, &thread->roots[i]);
    thread->buffer = (struct buffer){NULL, 0};
}

static void forward_roots(struct target *to, struct vm *vm) {
    for (int i = 0; i < GLOBALS; i++) forward(to, &vm->heap.globals[i]);
    for (int place = 0; place < PLACES; place++) {
        struct mutator *thread = atomic_load(&vm->mutators[place]);
        if (thread) forward_thread(to, thread, vm->heap.epoch);
    }
}

/* The objects that came and whose pointers weren't looked at are those from here to the free byte. */
static void forward_objects(struct target *to, char *at) {
    while (at < to->free) {
        struct object *object = (struct object *)(void *)at;
        for (uint32_t i = 0; i < object->pointers; i++) forward(to, &object->fields[i].pointer);
        at += object_size(object->pointers, object->words);
    }
}

void collect(struct vm *vm) {
    struct heap *heap = &vm->heap;
    char *begin = heap->spaces[!heap->current];
    struct target to = {begin, 0};
    forward_roots(&to, vm);
    forward_objects(&to, begin);
    size_t used = (size_t)(to.free - begin);
    if (used > heap->size / 4 * 3) die(BAD_USE, "the heap is too small: %zu bytes are live", used);
    heap->current = !heap->current;
    heap->moved += to.moved;
    heap->epoch++;
    atomic_store_explicit(&heap->used, used, memory_order_relaxed);
}
