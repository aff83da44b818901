/* How a party waits: it spins, yields, and sleeps until a bell is rung or a nap is over. */
#include "safepoint_waiting.h"

#include <sched.h>
#include <time.h>

enum {
    NAP = 500000,   /* nanoseconds of the first sleep of a wait at most: a lock that is given back rings no bell */
    DOUBLED = 5     /* so many further sleeps last twice as long as the one before */
};

struct waiting sp_waiting;

uint64_t sp_waiting_now(void) {
    struct timespec now;
    clock_gettime(CLOCK_MONOTONIC, &now);
    return (uint64_t)now.tv_sec * 1000000000 + (uint64_t)now.tv_nsec;
}

long sp_waiting_length(unsigned before, uint64_t end) {
    long nap = (long)NAP << (before < DOUBLED ? before : DOUBLED);
    if (end == NEVER) return nap;
    uint64_t now = sp_waiting_now(), left = now < end ? end - now : 0;
    return left < (uint64_t)nap ? (long)left : nap;
}

#ifdef SP_PTHREAD
static pthread_mutex_t mutex = PTHREAD_MUTEX_INITIALIZER;
static pthread_cond_t changed = PTHREAD_COND_INITIALIZER; /* for both bells: who wakes for nothing tries again */
void sp_waiting_nap(struct bell *bell, unsigned seen, long nanoseconds) {
    struct timespec until;
    clock_gettime(CLOCK_REALTIME, &until);
    until.tv_nsec += nanoseconds;
    if (until.tv_nsec >= 1000000000) until.tv_sec++, until.tv_nsec -= 1000000000;
    pthread_mutex_lock(&mutex);
    if (atomic_load(&bell->rings) == seen) pthread_cond_timedwait(&changed, &mutex, &until);
    pthread_mutex_unlock(&mutex);
}
void sp_waiting_wake(struct bell *bell) {
    (void)bell;
    pthread_mutex_lock(&mutex);
    pthread_cond_broadcast(&changed);
    pthread_mutex_unlock(&mutex);
}
#else
#include <limits.h>
#include <linux/futex.h>
#include <sys/syscall.h>
#include <unistd.h>
void sp_waiting_nap(struct bell *bell, unsigned seen, long nanoseconds) {
    struct timespec most = {0, nanoseconds};
    syscall(SYS_futex, &bell->rings, FUTEX_WAIT_PRIVATE, seen, &most, NULL, 0);
}
void sp_waiting_wake(struct bell *bell) {
    syscall(SYS_futex, &bell->rings, FUTEX_WAKE_PRIVATE, INT_MAX, NULL, NULL, 0);
}
#endif

void sp_waiting_forked(void) {
    atomic_store(&sp_waiting.come.sleepers, 0);
    atomic_store(&sp_waiting.gone.sleepers, 0);
    atomic_store(&sp_waiting.starting, 0);
#ifdef SP_PTHREAD
    pthread_mutex_init(&mutex, NULL);
    pthread_cond_init(&changed, NULL);
#endif
}

void sp_ring(void) {
    ring(&sp_waiting.come);
    ring(&sp_waiting.gone);
}

/* It sleeps only if the bell didn't ring since it read `seen`, which was before the last try. */
void sp_waiting_rest(struct sp_pause *pause, uint64_t end) {
    unsigned turn = pause->turns++;
    if (turn < TRIES) {
        count(OF_SPINS, 1);
        for (unsigned i = 0; i < 1u << (turn < FEW ? turn / 2 : 3); i++) PAUSE();
    } else if (turn < TRIES + YIELDS) {
        count(OF_YIELDS, 1);
        sched_yield();
    } else {
        count(OF_NAPS, 1);
        long most = sp_waiting_length(turn - TRIES - YIELDS, end);
        atomic_fetch_add(&sp_waiting.gone.sleepers, 1);
        PROBE(wait__begin, 0, most);
        sp_waiting_nap(&sp_waiting.gone, pause->seen, most);
        PROBE(wait__end, 0);
        atomic_fetch_sub(&sp_waiting.gone.sleepers, 1);
    }
    pause->seen = atomic_load(&sp_waiting.gone.rings);
}

bool sp_again(int64_t answer, struct sp_pause *pause) {
    if (answer != SP_AGAIN) return false;
    sp_waiting_rest(pause, NEVER);
    return true;
}
