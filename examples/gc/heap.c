#define _DEFAULT_SOURCE /* MAP_ANONYMOUS */
#include "heap.h"

#include <errno.h>
#include <signal.h>
#include <string.h>
#include <sys/mman.h>
#include <unistd.h>

#include "ends.h"

enum { BUFFER_SIZE = 16 << 10 };

static void protect(const struct heap *heap, int space, int access) {
    if (mprotect(heap->spaces[space], heap->size, access)) die(BAD_USE, "mprotect: %s", strerror(errno));
}

void open_old_space(const struct heap *heap) { protect(heap, !heap->current, PROT_READ | PROT_WRITE); }

void close_old_space(const struct heap *heap) { protect(heap, !heap->current, PROT_NONE); }

void heap_make(struct heap *heap, size_t size) {
    heap->size = size;
    for (int i = 0; i < 2; i++) {
        void *at = mmap(NULL, size, PROT_READ | PROT_WRITE, MAP_PRIVATE | MAP_ANONYMOUS, -1, 0);
        if (at == MAP_FAILED) die(BAD_USE, "mmap: %s", strerror(errno));
        heap->spaces[i] = at;
    }
    close_old_space(heap);
}

/* --- allocation --- */

size_t object_size(size_t pointers, size_t words) {
    return sizeof(struct object) + (pointers + words) * sizeof(union field);
}

bool refill(struct heap *heap, struct buffer *buffer, size_t bytes) {
    size_t size = bytes > BUFFER_SIZE ? bytes : BUFFER_SIZE;
    size_t used = atomic_load_explicit(&heap->used, memory_order_relaxed);
    do
        if (heap->size - used < size) return false;
    while (!atomic_compare_exchange_weak_explicit(&heap->used, &used, used + size, memory_order_relaxed,
                                                  memory_order_relaxed));
    buffer->next = heap->spaces[heap->current] + used;
    buffer->left = size;
    return true;
}

struct object *new_object(struct buffer *buffer, uint32_t pointers, uint32_t words) {
    size_t size = object_size(pointers, words);
    if (buffer->left < size) return NULL;
    struct object *object = memset(buffer->next, 0, size); /* a pointer of all zeros is NULL */
    object->pointers = pointers;
    object->words = words;
    buffer->next += size;
    buffer->left -= size;
    return object;
}

/* --- stale pointers --- */

static const struct heap *caught;

/* Only what may be called in a signal handler. */
static void at_fault(int number, siginfo_t *fault, void *context) {
    static const char stale[] = "gc: a stale pointer: the old space was accessed\n";
    static const char other[] = "gc: a wrong pointer: memory outside of the heap was accessed\n";
    (void)number, (void)context;
    uintptr_t at = (uintptr_t)fault->si_addr;
    bool is_in_heap = false;
    for (int i = 0; i < 2; i++) is_in_heap |= at - (uintptr_t)caught->spaces[i] < caught->size;
    ssize_t written = is_in_heap ? write(STDERR_FILENO, stale, sizeof stale - 1)
                                 : write(STDERR_FILENO, other, sizeof other - 1);
    (void)written;
    _exit(STALE_POINTER);
}

void catch_stale_pointers(const struct heap *heap) {
    struct sigaction action;
    memset(&action, 0, sizeof action);
    action.sa_sigaction = at_fault;
    action.sa_flags = SA_SIGINFO;
    caught = heap;
    if (sigaction(SIGSEGV, &action, NULL)) die(BAD_USE, "sigaction: %s", strerror(errno));
}
