/* The runtime: its heap, its threads and its coordinator. */
#ifndef VM_H
#define VM_H

#include "coordinator.h"
#include "heap.h"
#include "mutator.h"

enum { PLACES = 64 };

struct vm {
    struct heap heap;
    _Atomic(struct mutator *) mutators[PLACES]; /* by place: the threads that live */
    struct coordinator coordinator;
};

#endif
