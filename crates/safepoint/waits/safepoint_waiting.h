/* What the files of the waits share: hints, bells, and what a debugger sees. No host includes this page. */
#ifndef SAFEPOINT_WAITING_H
#define SAFEPOINT_WAITING_H

/* A checked host calls the checks of safepoint_check.h, and these call the loops. No call within a loop is checked. */
#undef SP_CHECK
#define _GNU_SOURCE
#include "safepoint_wait.h"

#include <pthread.h>
#include <stdatomic.h>

#ifdef SP_USDT
#include "safepoint_probes.h"
#else
#define PROBE(...) ((void)0)
#endif

#if defined(__x86_64__) || defined(__i386__)
#define PAUSE() __builtin_ia32_pause()
#elif defined(__aarch64__)
#define PAUSE() __asm__ volatile("isb")
#else
#define PAUSE() ((void)0)
#endif

#pragma GCC visibility push(hidden)

enum {
    TRIES = 400,    /* after SP_AGAIN, with pauses that grow, before the thread yields: a yield may cost a whole tick */
    FEW = 8,        /* tries of a thread that waits for what others do, in place of a lock */
    YIELDS = 64,    /* before it sleeps; and the most with which a thread that has served gives way */
    PLACES = 64     /* the most that a system has */
};

/* Sleepers wait until the bell is rung. */
struct bell {
    atomic_uint rings, sleepers;
};

/* Hints, one set for all systems: how many threads came, for how many a coordinator waits, who sleeps. Where a hint is
   wrong, as where two systems are driven at a time, a party asks again too early, or sleeps for one nap too long.
   Nothing else depends on a hint. */
struct waiting {
    _Alignas(64) struct bell come;   /* coordinators sleep here */
    _Alignas(64) struct bell gone;   /* all others sleep here; rung when threads got their stacks back */
    _Alignas(64) atomic_uint came;   /* threads that served what they were told, or gave their stack away */
    _Alignas(64) atomic_uint wanted; /* the value of `came` for which a coordinator waits */
    atomic_uint begun, ended;        /* drives that began, and that ended */
    atomic_uint starting;            /* threads that wait to start until a census is over */
    atomic_uint tried;               /* how often one of them tried again */
};
extern struct waiting sp_waiting;

/* Moments by CLOCK_MONOTONIC in nanoseconds. A wait that ends at NEVER reads no clock. */
#define NEVER UINT64_MAX
uint64_t sp_waiting_now(void);

static inline uint64_t end_after(uint64_t nanoseconds) {
    uint64_t now = nanoseconds == NEVER ? NEVER : sp_waiting_now();
    return nanoseconds < NEVER - now ? now + nanoseconds : NEVER;
}

static inline bool is_over(uint64_t end) { return end != NEVER && sp_waiting_now() >= end; }

/* How long a sleep after so many others lasts at most, in nanoseconds: to the end of the wait, and never longer than a
   nap. */
long sp_waiting_length(unsigned before, uint64_t end);
/* Sleeps so long at most, unless the bell was rung since `seen`. */
void sp_waiting_nap(struct bell *bell, unsigned seen, long nanoseconds);
void sp_waiting_wake(struct bell *bell);

/* Between two tries: spins, yields, or sleeps up to the end of the wait. */
void sp_waiting_rest(struct sp_pause *pause, uint64_t end);

/* After a try that returned SP_AGAIN: rests, or returns false if the time is over. A lock that is taken for a moment
   ends no wait: tries before the first yield don't look at the time. */
static inline bool rests(struct sp_pause *pause, uint64_t end) {
    if (pause->turns >= TRIES && is_over(end)) return false;
    sp_waiting_rest(pause, end);
    return true;
}

/* SP_WAIT up to an end: `answer` is SP_TIMEOUT after it. */
#define WAIT_UNTIL(answer, call, end)            \
    do {                                         \
        struct sp_pause pause_ = {0, 0};         \
        while (((answer) = (call)) == SP_AGAIN)  \
            if (!rests(&pause_, (end))) {        \
                (answer) = SP_TIMEOUT;           \
                break;                           \
            }                                    \
    } while (0)

/* --- what sp_stats and sp_log_to ask for --- */

enum counted { OF_SPINS, OF_YIELDS, OF_NAPS, OF_WAKES, OF_HANDSHAKES, OF_CENSUSES, COUNTED };
enum { STATS = 1, LOGS = 2 };
extern atomic_uint sp_waiting_asked; /* which of these the host asked for */
void sp_waiting_count(enum counted what, unsigned times);
/* A callback that began at this moment has returned. */
void sp_waiting_called(uint64_t begun);
/* A drive begins, as with SP_AGAIN; sp_advance returned this answer in it; the drive returns it. */
void sp_waiting_saw(struct sp_party *coordinator, int64_t answer);
void sp_waiting_drove(struct sp_party *coordinator, int64_t answer);

static inline bool is_asked(void) { return atomic_load_explicit(&sp_waiting_asked, memory_order_relaxed); }

static inline void count(enum counted what, unsigned times) {
    if (is_asked()) sp_waiting_count(what, times);
}

static inline uint64_t call_begins(void) { return is_asked() ? sp_waiting_now() : 0; }

static inline void call_ends(uint64_t begun) {
    if (begun) sp_waiting_called(begun);
}

/* --- */

static inline void ring(struct bell *bell) {
    atomic_fetch_add(&bell->rings, 1);
    if (atomic_load(&bell->sleepers)) {
        count(OF_WAKES, 1);
        sp_waiting_wake(bell);
    }
}

/* How many drives run. */
static inline unsigned driven(void) { return atomic_load(&sp_waiting.begun) - atomic_load(&sp_waiting.ended); }

static inline bool are_here(unsigned wanted) { return (int)(atomic_load(&sp_waiting.came) - wanted) >= 0; }

/* In a forked child: no other thread sleeps there, waits to start, or has a lock of the bells. */
void sp_waiting_forked(void);

/* Starts a thread, as sp_start does, which waits while a census is open. */
int64_t sp_waiting_start(struct sp_party *thread);
/* After a census is closed: wakes the threads that wait to start, and lets each of them try. It naps 16 times for that at
   most. */
void sp_waiting_let_start(void);

/* Lists a party for a debugger: the row is the place of a thread, or PLACES for a coordinator, whose name is 0. */
void sp_waiting_list(size_t row, struct sp_party *party, int64_t name);
void sp_waiting_unlist(size_t row, struct sp_party *party);
/* At the end of a drive: notes whether it leaves a request open, for which polls in line go on to look. Returns how many
   drives these polls look for no longer: this one, the one before that left a request open, or both. */
unsigned sp_waiting_leaves(struct sp_party *coordinator, bool open);
/* Notes the operation for which the thread of this place runs its callback, or 0 after that. */
void sp_waiting_serves(size_t place, struct sp_party *thread, int64_t operation);

#pragma GCC visibility pop

#endif
