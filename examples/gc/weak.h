/* A thread's cache of interned objects. Its roots are weak: they keep no object alive, and are cleared after the
   collection that finds their object dead. The collector doesn't touch them in its pause. */
#ifndef WEAK_H
#define WEAK_H

#include <stdint.h>

struct object;
struct mutator;

enum { KEYS = 256 };

/* Who cleaned a cache after a collection: its thread in a handshake, the coordinator while it held the thread, or its
   thread before, when it looked something up. */
enum cleaner { BY_THREAD, FOR_HELD, AT_LOOKUP, CLEANERS };

struct weak_cache {
    uint64_t epoch; /* of the last collection after which it was cleaned */
    struct object *of[KEYS];
    uint64_t cleaned[CLEANERS], kept, cleared;
};

/* Updates the roots whose objects have moved, and clears the others, if that isn't done since the heap's last
   collection. It looks at the old space. */
void clean_cache(struct weak_cache *cache, uint64_t epoch, enum cleaner cleaner);
void empty_cache(struct weak_cache *cache);

/* The object of a key below KEYS: the one that is cached, or a new one, for which it may wait for a collection. */
struct object *intern(struct mutator *me, uint64_t key);
/* The object of the key that is cached, or NULL. */
struct object *interned(struct mutator *me, uint64_t key);
/* The key of an interned object. If the object is damaged, the program ends. */
uint64_t key_of(const struct object *object);

#endif
