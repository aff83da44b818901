/* A copying collector: it moves all live objects into the other space, breadth first (Cheney). */
#ifndef COLLECTOR_H
#define COLLECTOR_H

struct vm;

/* Runs while all threads are held. The old space must be open. Each object that has moved says so there. Weak roots
   stay as they are. */
void collect(struct vm *vm);

#endif
