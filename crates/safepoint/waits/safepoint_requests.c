/* Waiting for requests: for one that closes, or for one that is asked. */
#include "safepoint_waiting.h"

static int64_t wait_closed(struct sp_party *party, uint64_t number, uint64_t end) {
    struct sp_pause pause = {0, 0};
    for (int64_t pending;; sp_waiting_rest(&pause, end)) {
        WAIT_UNTIL(pending, sp_pending(party), end);
        if (pending < 0) return pending;
        if (!pending || (uint64_t)pending > number) return 0;
        if (is_over(end)) return SP_TIMEOUT;
    }
}

int64_t sp_wait_closed(struct sp_party *party, uint64_t number) { return wait_closed(party, number, NEVER); }

int64_t sp_wait_closed_for(struct sp_party *party, uint64_t number, uint64_t nanoseconds) {
    return wait_closed(party, number, end_after(nanoseconds));
}

int64_t sp_wait_request(struct sp_party *party, uint64_t nanoseconds) {
    uint64_t end = end_after(nanoseconds);
    struct sp_pause pause = {0, 0};
    for (int64_t pending;; sp_waiting_rest(&pause, end)) {
        WAIT_UNTIL(pending, sp_pending(party), end);
        if (pending) return pending;
        if (is_over(end)) return SP_TIMEOUT;
    }
}
