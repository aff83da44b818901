/* What the hosts of this folder share. tests/hosts.py builds and runs them. Each ends with status 0 and one line that
   counts, or says what isn't as it must be, with status 1. */
#ifndef HOST_H
#define HOST_H

#include <pthread.h>
#include <sched.h>
#include <stdatomic.h>
#include <stdio.h>
#include <stdlib.h>
#include <time.h>
#include <unistd.h>

#include "../../crates/safepoint/include/safepoint_wait.h"

enum { MOST = 64, LONGEST = 300 /* seconds, after which a wait that never ends is ended */ };

static inline void fail(const char *what, int64_t answer) {
    printf("FAILED: %s: %lld, %s\n", what, (long long)answer, sp_text(answer));
    exit(1);
}

static inline int64_t must(const char *what, int64_t answer) {
    if (answer < 0) fail(what, answer);
    return answer;
}

/* A call answers as it must. It may be made again after SP_AGAIN. */
#define IS(call, wanted)                                        \
    do {                                                        \
        int64_t is_;                                            \
        SP_WAIT(is_, call);                                     \
        if (is_ != (int64_t)(wanted)) fail(#call, is_);         \
    } while (0)

/* A call's answer, which is no refusal. */
#define DONE(answer, call)                                      \
    do {                                                        \
        SP_WAIT(answer, call);                                  \
        must(#call, answer);                                    \
    } while (0)

static inline void nap(long microseconds) {
    nanosleep(&(struct timespec){microseconds / 1000000, microseconds % 1000000 * 1000}, NULL);
}

static inline double seconds(void) {
    struct timespec now;
    clock_gettime(CLOCK_MONOTONIC, &now);
    return (double)now.tv_sec + (double)now.tv_nsec * 1e-9;
}

/* How many threads, of the words of the program. */
static inline int threads_of(int count, char **words) {
    int threads = count > 1 ? atoi(words[1]) : 4;
    if (threads < 1 || threads > MOST) exit(2);
    alarm(LONGEST);
    return threads;
}

#endif
