/* The loops of the coordinator: it drives requests. */
#include "safepoint_waiting.h"

enum { LOOKS = 40 }; /* times that a drive looks for threads that are late, before it sleeps */

/* How a drive waits for threads that are late. */
struct late {
    unsigned came; /* how many had come before it looked for them */
    int looks;     /* how many looks are left */
    unsigned naps; /* how often it slept */
};

/* Until its first wait nobody rings for it. */
static struct late begin(void) {
    sp_polls_begin();
    atomic_fetch_add(&sp_waiting.begun, 1);
    struct late it = {atomic_load(&sp_waiting.came), LOOKS, 0};
    atomic_store_explicit(&sp_waiting.wanted, it.came + PLACES, memory_order_relaxed);
    return it;
}

/* Waits until so many more have come, or for one nap. */
static void wait_for(struct late *it, unsigned awaited, uint64_t end) {
    unsigned wanted = it->came + (awaited ? awaited : 1), seen = atomic_load(&sp_waiting.come.rings);
    atomic_store(&sp_waiting.wanted, wanted);
    int looks = it->looks;
    while (it->looks > 0 && !are_here(wanted)) it->looks--, PAUSE();
    count(OF_SPINS, (unsigned)(looks - it->looks));
    if (!are_here(wanted)) {
        atomic_fetch_add(&sp_waiting.come.sleepers, 1);
        if (!are_here(wanted)) {
            long most = sp_waiting_length(it->naps++, end);
            count(OF_NAPS, 1);
            PROBE(wait__begin, awaited, most);
            sp_waiting_nap(&sp_waiting.come, seen, most);
            PROBE(wait__end, awaited);
        }
        atomic_fetch_sub(&sp_waiting.come.sleepers, 1);
    }
    it->came = atomic_load(&sp_waiting.came);
}

/* Whether the answer asks the host to run something while threads are held. */
static bool runs(int64_t answer) { return answer == SP_RUN || answer == SP_AT_SAFEPOINT; }

static void run_called(struct sp_party *coordinator, int64_t answer, sp_callback call, void *with) {
    int64_t operation = sp_called_operation(coordinator), place = sp_called_place(coordinator);
    int kind = answer == SP_RUN ? SP_HANDSHAKE : SP_CENSUS;
    uint64_t begun = call_begins();
    PROBE(callback__begin, operation, 0, place);
    call(with, &(struct sp_served){(uint64_t)operation, (size_t)place, NULL, kind});
    PROBE(callback__end, operation, 0, place);
    call_ends(begun);
}

/* It rings for threads that it let go: at once if some of them sleep, and always before it waits, since some may be
   about to sleep. */
static int64_t drive(struct sp_party *coordinator, sp_callback call, void *with, uint64_t end) {
    PROBE(request__begin, (int64_t)coordinator);
    sp_waiting_list(PLACES, coordinator, 0);
    if (is_asked()) sp_waiting_saw(coordinator, SP_AGAIN);
    struct late late = begin();
    struct sp_pause pause = {0, 0};
    int64_t answer;
    bool is_census = false;
    for (bool lets_go = false;; lets_go |= runs(answer)) {
        answer = sp_advance(coordinator);
        if (is_asked()) sp_waiting_saw(coordinator, answer);
        if (lets_go && (answer == SP_AWAITS || atomic_load(&sp_waiting.gone.sleepers))) ring(&sp_waiting.gone);
        if (answer != SP_AGAIN) pause.turns = 0;
        is_census |= answer == SP_AT_SAFEPOINT;
        if (runs(answer)) {
            if (call) run_called(coordinator, answer, call, with);
        } else if (answer == SP_AWAITS && !is_over(end)) {
            lets_go = false;
            wait_for(&late, (unsigned)sp_awaited(coordinator), end);
        } else if (answer != SP_AGAIN || !rests(&pause, end)) {
            break;
        }
    }
    if (answer == SP_AWAITS || answer == SP_AGAIN) answer = SP_TIMEOUT;
    for (unsigned ends = sp_waiting_leaves(coordinator, answer == SP_TIMEOUT); ends; ends--) sp_polls_end();
    ring(&sp_waiting.gone);
    atomic_fetch_add(&sp_waiting.ended, 1);
    if (is_census) sp_waiting_let_start();
    PROBE(request__end, (int64_t)coordinator, answer);
    if (is_asked()) sp_waiting_drove(coordinator, answer);
    return answer;
}

int64_t sp_drive(struct sp_party *coordinator, sp_callback call, void *with) {
    return drive(coordinator, call, with, NEVER);
}

int64_t sp_drive_for(struct sp_party *coordinator, sp_callback call, void *with, uint64_t nanoseconds) {
    return drive(coordinator, call, with, end_after(nanoseconds));
}

/* Drives until the request of the number is closed, where there is one. */
static int64_t drive_to(struct sp_party *coordinator, int64_t number, sp_callback call, void *with) {
    int64_t closed = 0;
    while (number > 0 && closed != number)
        if ((closed = sp_drive(coordinator, call, with)) < 0) return closed;
    return number;
}

int64_t sp_at_safepoint(struct sp_party *coordinator, sp_callback call, void *with) {
    int64_t number;
    SP_WAIT(number, sp_census(coordinator));
    return number < 0 ? number : drive_to(coordinator, number, call, with);
}

int64_t sp_drive_four(struct sp_party *coordinator, sp_callback call, void *with) {
    int64_t answer;
    do SP_WAIT(answer, sp_open(coordinator));
    while (answer > 0);
    if (answer != SP_ALREADY_OPEN && answer != SP_QUEUE_EMPTY) return answer;
    for (int64_t closed = 0;; closed++) {
        SP_WAIT(answer, sp_open_kind(coordinator));
        if (answer == SP_NONE) return closed;
        if (answer > 0) answer = sp_drive(coordinator, call, with);
        if (answer < 0) return answer;
    }
}

int64_t sp_reclaim(struct sp_party *coordinator, uint64_t serial, sp_callback call, void *with) {
    int64_t answer = sp_target_all(coordinator), asked;
    if (answer < 0) return answer;
    SP_WAIT(asked, sp_reclaim_begin(coordinator, serial));
    if (asked < 0) return asked;
    answer = drive_to(coordinator, asked, call, with);
    if (answer < 0) return answer;
    SP_WAIT(answer, sp_reclaim_end(coordinator, serial));
    return answer;
}
