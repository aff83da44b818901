#include "weak.h"

#include <inttypes.h>
#include <string.h>

#include "ends.h"
#include "mix.h"
#include "vm.h"

/* The words of an interned object. */
enum { KEY, MIXED_KEY, WORDS };

void clean_cache(struct weak_cache *cache, uint64_t epoch, enum cleaner cleaner) {
    if (cache->epoch == epoch) return;
    for (int i = 0; i < KEYS; i++) {
        if (!cache->of[i]) continue;
        cache->of[i] = cache->of[i]->moved;
        if (cache->of[i]) cache->kept++;
        else cache->cleared++;
    }
    cache->cleaned[cleaner]++;
    cache->epoch = epoch;
}

void empty_cache(struct weak_cache *cache) { memset(cache->of, 0, sizeof cache->of); }

/* The thread may come here before its handshake, so it doesn't rely on that. */
struct object *interned(struct mutator *me, uint64_t key) {
    clean_cache(&me->cache, me->vm->heap.epoch, AT_LOOKUP);
    return me->cache.of[key];
}

struct object *intern(struct mutator *me, uint64_t key) {
    struct object *object = interned(me, key);
    if (object) return object;
    object = allocate(me, 0, WORDS);
    object->fields[KEY].word = key;
    object->fields[MIXED_KEY].word = mixed(key);
    /* If a collection came meanwhile, the cache's other objects are of before it, and the new one isn't. */
    clean_cache(&me->cache, me->vm->heap.epoch, AT_LOOKUP);
    me->cache.of[key] = object;
    return object;
}

uint64_t key_of(const struct object *object) {
    uint64_t key = object->fields[KEY].word;
    if (object->words != WORDS || object->fields[MIXED_KEY].word != mixed(key))
        die(WRONG_RESULT, "an interned object is damaged: it has the key %" PRIu64, key);
    return key;
}
