/* What debuggers, tracers and sp_late see of the waits: a table of parties, and the places of the probes. */
#define PROBE_PLACES
#include "safepoint_waiting.h"

enum { SYSTEMS = 16 }; /* so many systems can be listed */

/* The parties of this process: a row for each place, and one for coordinators. install/safepoint-gdb.py knows this
   form. A party that finds its row full takes the entry of another party. */
struct listed {
    _Atomic(void *) at; /* the field of the party, since the party may move */
    _Atomic(pthread_t) thread; /* that started the party; for a coordinator, the one that drove last */
    atomic_int_least64_t name; /* 0 for a coordinator */
    atomic_int_least64_t serves; /* the operation for which the thread runs its callback, or 0; for a coordinator, 1 if
                                    it left a request open */
};
_Alignas(64) struct listed sp_listed[PLACES + 1][SYSTEMS];

/* Whether the entry is the party's, or was free and is the party's from here on. */
static bool is_of(struct listed *entry, void *at) {
    void *seen = atomic_load_explicit(&entry->at, memory_order_relaxed);
    return seen == at || (!seen && atomic_compare_exchange_strong(&entry->at, &seen, at));
}

void sp_waiting_list(size_t row, struct sp_party *party, int64_t name) {
    size_t column = 0;
    while (column < SYSTEMS && !is_of(&sp_listed[row][column], party->at)) column++;
    if (column == SYSTEMS) column = (size_t)name % SYSTEMS;
    struct listed *entry = &sp_listed[row][column];
    atomic_store_explicit(&entry->at, party->at, memory_order_relaxed);
    atomic_store_explicit(&entry->thread, pthread_self(), memory_order_relaxed);
    atomic_store_explicit(&entry->name, name, memory_order_relaxed);
    if (name) atomic_store_explicit(&entry->serves, 0, memory_order_relaxed);
}

void sp_waiting_unlist(size_t row, struct sp_party *party) {
    for (size_t column = 0; column < SYSTEMS; column++) {
        void *seen = party->at;
        atomic_compare_exchange_strong(&sp_listed[row][column].at, &seen, NULL);
    }
}

void sp_waiting_serves(size_t place, struct sp_party *thread, int64_t operation) {
    for (size_t column = 0; column < SYSTEMS; column++) {
        struct listed *entry = &sp_listed[place][column];
        if (atomic_load_explicit(&entry->at, memory_order_relaxed) != thread->at) continue;
        atomic_store_explicit(&entry->serves, operation, memory_order_relaxed);
        break;
    }
}

unsigned sp_waiting_leaves(struct sp_party *coordinator, bool open) {
    for (size_t column = 0; column < SYSTEMS; column++) {
        struct listed *entry = &sp_listed[PLACES][column];
        if (atomic_load_explicit(&entry->at, memory_order_relaxed) != coordinator->at) continue;
        return (unsigned)atomic_exchange(&entry->serves, open) + !open;
    }
    return 1;
}

/* What the entry says of the thread. Where another system has a thread of the same name and place, and its entry says
   something else, nothing is known. */
static void add_hint(const struct listed *entry, struct sp_late_thread *it, bool is_first) {
    int64_t serves = atomic_load_explicit(&entry->serves, memory_order_relaxed);
    int state = serves ? SP_LATE_SERVES : SP_LATE_RUNS;
    if (is_first) it->state = state, it->operation = (uint64_t)serves;
    if (it->state != state || it->operation != (uint64_t)serves) it->state = SP_LATE_UNKNOWN, it->operation = 0;
}

static struct sp_late_thread hinted(uint64_t name, size_t place) {
    struct sp_late_thread it = {name, place, SP_LATE_UNKNOWN, 0};
    bool is_first = true;
    for (size_t column = 0; column < SYSTEMS; column++) {
        const struct listed *entry = &sp_listed[place][column];
        bool is_listed = atomic_load_explicit(&entry->at, memory_order_relaxed) != NULL;
        if (!is_listed || atomic_load_explicit(&entry->name, memory_order_relaxed) != (int64_t)name) continue;
        add_hint(entry, &it, is_first);
        is_first = false;
    }
    return it;
}

int64_t sp_late(struct sp_party *coordinator, struct sp_late_thread *list, size_t room) {
    int64_t count = 0, name = 0;
    for (int64_t after = 0; (name = sp_awaited_after(coordinator, (uint64_t)after)) > 0; after = name, count++)
        if ((size_t)count < room)
            list[count] = hinted((uint64_t)name, (size_t)sp_awaited_place(coordinator, (uint64_t)after));
    return name < 0 ? name : count;
}
