/* Liars between the recorder and the library, one for each LIE: what they tell has no order of events. tests/witness.py builds the recorder so that it calls
   them. HOLD says that a thread is held which runs, and that it is let go. DRIVE says that a drive serves the thread of the place before. CALL says now and then that a thread runs the code that its method had before.
   PUBLISH leaves every second publication out. STOP says now and then that a thread serves an operation twice. */
#include <stdatomic.h>

#include "../crates/safepoint/include/safepoint.h"

enum { PLACES = 64, METHODS = 256 };

atomic_bool sp_lies; /* a hold may lie now */

static bool is_said_held[PLACES]; /* of the coordinator */

int64_t lying_hold(struct sp_party *coordinator, size_t place) {
    int64_t answer = sp_hold(coordinator, place);
    if (answer != SP_NOT_SAFE || !atomic_load(&sp_lies)) return answer;
    if (is_said_held[place]) return SP_HELD;
    is_said_held[place] = true;
    return 1;
}

int64_t lying_release(struct sp_party *coordinator, size_t place) {
    if (place >= PLACES || !is_said_held[place]) return sp_release(coordinator, place);
    is_said_held[place] = false;
    return 0;
}

int64_t lying_called_place(struct sp_party *coordinator) {
    int64_t place = sp_called_place(coordinator);
    return place > 0 ? place - 1 : place;
}

static atomic_int_least64_t now[METHODS], before[METHODS];
static _Thread_local unsigned calls, publications, stops;

int64_t lying_install(struct sp_party *party, uint32_t method) {
    int64_t serial = sp_install(party, method);
    if (serial > 0) atomic_store(&before[method], atomic_exchange(&now[method], serial));
    return serial;
}

int64_t lying_call(struct sp_party *thread, uint32_t method) {
    int64_t serial = sp_call(thread, method), old = serial < 0 ? 0 : atomic_load(&before[method]);
    return old && ++calls % 8 == 0 ? old : serial;
}

int64_t lying_publish(struct sp_party *thread) {
    return sp_state(thread) <= SP_IN_VM && ++publications % 2 == 0 ? 0 : sp_publish(thread);
}

static _Thread_local int64_t served, again;

int64_t lying_stop_next(struct sp_party *thread) {
    if (again) return again;
    int64_t answer = sp_stop_next(thread);
    if (answer > 0) served = answer;
    return answer;
}

int64_t lying_stop_serve(struct sp_party *thread) {
    if (again) return again = 0;
    int64_t answer = sp_stop_serve(thread);
    if (answer == 0 && ++stops % 2 == 0) again = served;
    return again ? again : answer;
}
