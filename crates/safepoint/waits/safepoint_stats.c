/* What sp_stats counts, and the lines of sp_log_to. */
#include "safepoint_waiting.h"

#include <stdio.h>

enum { SYSTEMS = 16, LINE = 256 };

typedef atomic_uint_least64_t word;

/* struct sp_times, while it grows. */
struct times {
    word sum, greatest, powers[SP_POWERS];
};

static struct {
    word counts[COUNTED];
    struct times handshakes, censuses, callbacks;
} kept;

/* The work on one request, in one drive or in several whose time is over. Only who drives the coordinator writes this.
   Where more coordinators drive than there are entries, two of them share an entry, and their times are mixed up. */
struct work {
    _Atomic(void *) at;   /* the field of the coordinator */
    word begun, reached;  /* the moments of its begin, and of the last arrival, or 0 */
    word executed;        /* held threads that the coordinator served */
    word is_census;
    word last;            /* the moment at which the last safepoint ended */
};
static struct work works[SYSTEMS];
static word since; /* the moment at which the host asked for times */

static void (*writer)(void *with, const char *line);
static void *writer_with;

atomic_uint sp_waiting_asked;

static uint64_t get(word *it) { return atomic_load_explicit(it, memory_order_relaxed); }

static void set(word *it, uint64_t value) { atomic_store_explicit(it, value, memory_order_relaxed); }

static void add_to(word *it, uint64_t value) { atomic_fetch_add_explicit(it, value, memory_order_relaxed); }

void sp_waiting_count(enum counted what, unsigned times) { add_to(&kept.counts[what], times); }

static void add(struct times *to, uint64_t nanoseconds) {
    uint64_t greatest = get(&to->greatest);
    add_to(&to->sum, nanoseconds);
    add_to(&to->powers[nanoseconds ? 63 - __builtin_clzll(nanoseconds) : 0], 1);
    while (greatest < nanoseconds && !atomic_compare_exchange_weak(&to->greatest, &greatest, nanoseconds)) ;
}

void sp_waiting_called(uint64_t begun) { add(&kept.callbacks, sp_waiting_now() - begun); }

static struct work *work_of(struct sp_party *coordinator) {
    for (size_t i = 0; i < SYSTEMS; i++) {
        void *seen = atomic_load_explicit(&works[i].at, memory_order_relaxed);
        if (seen == coordinator->at) return &works[i];
        if (!seen && atomic_compare_exchange_strong(&works[i].at, &seen, coordinator->at)) return &works[i];
    }
    return &works[((uintptr_t)coordinator->at >> 4) % SYSTEMS];
}

/* The last target has come at the first answer after the last SP_AWAITS. */
void sp_waiting_saw(struct sp_party *coordinator, int64_t answer) {
    struct work *it = work_of(coordinator);
    uint64_t now = sp_waiting_now();
    if (!get(&it->begun)) set(&it->begun, now), set(&it->reached, 0), set(&it->executed, 0), set(&it->is_census, 0);
    if (answer == SP_AWAITS) set(&it->reached, 0);
    else if (answer != SP_AGAIN && !get(&it->reached)) set(&it->reached, now);
    if (answer == SP_RUN) add_to(&it->executed, 1);
    if (answer == SP_AT_SAFEPOINT) set(&it->is_census, 1);
}

/* --- the lines --- */

/* How many live threads have a reply in the operation. */
static unsigned targets_of(struct sp_party *party, uint64_t number) {
    unsigned targets = 0;
    int64_t name = 0, next, reply;
    for (;; name = next) {
        SP_WAIT(next, sp_live_after(party, (uint64_t)name));
        if (next <= 0) return targets;
        SP_WAIT(reply, sp_reply(party, number, (uint64_t)next));
        targets += reply >= 0;
    }
}

typedef unsigned long long printed;

static void log_safepoint(struct work *it, int64_t number, uint64_t now) {
    uint64_t begun = get(&it->begun), reached = get(&it->reached), last = get(&it->last);
    char line[LINE];
    if (!last) last = get(&since);
    snprintf(line, sizeof line, "Safepoint \"Operation %lld\", Time since last: %llu ns, Reaching safepoint: %llu ns, "
             "At safepoint: %llu ns, Total: %llu ns", (long long)number, (printed)(begun > last ? begun - last : 0),
             (printed)(reached - begun), (printed)(now - reached), (printed)(now - begun));
    writer(writer_with, line);
}

static void log_handshake(struct sp_party *coordinator, struct work *it, int64_t number, uint64_t now) {
    char line[LINE];
    snprintf(line, sizeof line, "Handshake \"Operation %lld\", Targeted threads: %u, "
             "Executed by requesting thread: %llu, Total completion time: %llu ns", (long long)number,
             targets_of(coordinator, (uint64_t)number), (printed)get(&it->executed), (printed)(now - get(&it->begun)));
    writer(writer_with, line);
}

static void closed(struct sp_party *coordinator, struct work *it, int64_t number) {
    uint64_t now = sp_waiting_now(), reaching = get(&it->reached) - get(&it->begun);
    bool is_census = get(&it->is_census), is_logged = atomic_load(&sp_waiting_asked) & LOGS;
    sp_waiting_count(is_census ? OF_CENSUSES : OF_HANDSHAKES, 1);
    add(is_census ? &kept.censuses : &kept.handshakes, reaching);
    if (is_logged && is_census) log_safepoint(it, number, now);
    if (is_logged && !is_census) log_handshake(coordinator, it, number, now);
    if (is_census) set(&it->last, now);
}

/* Where the request stays open, a further drive goes on with its work. */
void sp_waiting_drove(struct sp_party *coordinator, int64_t answer) {
    struct work *it = work_of(coordinator);
    if (answer == SP_TIMEOUT || answer == SP_NO_MEMORY) return;
    if (answer > 0 && get(&it->begun) && get(&it->reached)) closed(coordinator, it, answer);
    set(&it->begun, 0);
}

/* --- what a host calls --- */

static void clear(word *words, size_t count) {
    for (size_t i = 0; i < count; i++) set(&words[i], 0);
}

static void ask(unsigned what, bool on) {
    if (on && !is_asked()) {
        set(&since, sp_waiting_now());
        for (size_t i = 0; i < SYSTEMS; i++) set(&works[i].begun, 0), set(&works[i].last, 0);
    }
    if (on) atomic_fetch_or(&sp_waiting_asked, what);
    else atomic_fetch_and(&sp_waiting_asked, ~what);
}

void sp_stats_on(bool on) {
    if (on) clear((word *)&kept, sizeof kept / sizeof(word));
    ask(STATS, on);
}

void sp_log_to(void (*call)(void *with, const char *line), void *with) {
    ask(LOGS, false);
    writer = call, writer_with = with;
    if (call) ask(LOGS, true);
}

static void read_times(struct times *from, struct sp_times *to) {
    to->sum = get(&from->sum), to->greatest = get(&from->greatest);
    for (size_t i = 0; i < SP_POWERS; i++) to->powers[i] = get(&from->powers[i]);
}

void sp_stats(struct sp_statistics *stats) {
    stats->handshakes = get(&kept.counts[OF_HANDSHAKES]), stats->censuses = get(&kept.counts[OF_CENSUSES]);
    stats->spins = get(&kept.counts[OF_SPINS]), stats->yields = get(&kept.counts[OF_YIELDS]);
    stats->naps = get(&kept.counts[OF_NAPS]), stats->wakes = get(&kept.counts[OF_WAKES]);
    read_times(&kept.handshakes, &stats->to_handshake);
    read_times(&kept.censuses, &stats->to_safepoint);
    read_times(&kept.callbacks, &stats->callbacks);
}
