/* Returns from frames without running on. */
#undef SP_CHECK
#include "safepoint_wait.h"

int64_t sp_unwind_to(struct sp_party *thread, size_t depth) {
    int64_t state = sp_state(thread), polled = 0;
    if (state < 0) return state;
    if (state != SP_IN_JAVA) return SP_ILLEGAL;
    while (!polled && (uint64_t)sp_depth(thread) > depth) polled = sp_ret(thread);
    return polled;
}

int64_t sp_unwind_thread(struct sp_party *thread, size_t depth, sp_callback call, void *with) {
    int64_t answer;
    while ((answer = sp_unwind_to(thread, depth)) > 0)
        if ((answer = sp_stop(thread, call, with)) < 0) break;
    return answer;
}
