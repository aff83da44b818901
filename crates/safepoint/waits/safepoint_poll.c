/* The word that polls in line test. */
#undef SP_CHECK
#include "safepoint_wait.h"

/* Each turn of each loop reads it, so nothing else lies in its line of the cache. */
_Alignas(64) struct sp_poll_line sp_polls;

const uint32_t *sp_poll_word(const struct sp_party *thread) {
    (void)thread;
    return &sp_polls.drives;
}

void sp_polls_begin(void) { __atomic_fetch_add(&sp_polls.drives, 1, __ATOMIC_SEQ_CST); }

void sp_polls_end(void) { __atomic_fetch_sub(&sp_polls.drives, 1, __ATOMIC_RELEASE); }
