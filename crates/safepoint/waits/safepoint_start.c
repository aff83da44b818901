/* How a thread starts while censuses are open. */
#include "safepoint_waiting.h"

#include <time.h>

enum {
    NAPS = 16,    /* of a coordinator for the threads that it woke, at most */
    NAP = 20000   /* nanoseconds of each */
};

int64_t sp_waiting_start(struct sp_party *thread) {
    struct sp_pause pause = {TRIES + YIELDS - 2, 0}; /* two yields, and then naps */
    int64_t answer;
    SP_WAIT(answer, sp_start(thread));
    if (answer != SP_SAFEPOINT_OPEN) return answer;
    atomic_fetch_add(&sp_waiting.starting, 1);
    do {
        sp_again(SP_AGAIN, &pause);
        SP_WAIT(answer, sp_start(thread));
        if (answer != SP_SAFEPOINT_OPEN) atomic_fetch_sub(&sp_waiting.starting, 1);
        atomic_fetch_add(&sp_waiting.tried, 1);
    } while (answer == SP_SAFEPOINT_OPEN);
    return answer;
}

/* Without it a coordinator that opens one census after the other would keep them waiting: a thread takes longer to wake
   than the coordinator to open the next one. The coordinator naps, since a yield may cost a whole tick. */
void sp_waiting_let_start(void) {
    if (!atomic_load(&sp_waiting.starting)) return;
    unsigned wanted = atomic_load(&sp_waiting.tried) + atomic_load(&sp_waiting.starting);
    sp_ring();
    for (int naps = 0; naps < NAPS && (int)(atomic_load(&sp_waiting.tried) - wanted) < 0; naps++) {
        if (!atomic_load(&sp_waiting.starting)) return;
        nanosleep(&(struct timespec){0, NAP}, NULL);
    }
}
