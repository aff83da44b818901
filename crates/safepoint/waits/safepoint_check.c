/* The checks of safepoint_check.h. What is called here are the calls themselves. */
#undef SP_CHECK
#undef SP_RECORD
#define _GNU_SOURCE
#include "safepoint_check.h"

#include <stdarg.h>
#include <stdatomic.h>
#include <stdio.h>
#include <stdlib.h>
#include <sys/syscall.h>
#include <unistd.h>

enum { BUCKETS = 1024, LINE = 400 };

/* A system: its number, and the process that made it. */
struct of_system {
    unsigned number;
    pid_t process;
};

/* A party that is made. `at` is what the library has of it: no two have the same. Once it is freed that is NULL, and
   another may take the note. */
struct note {
    struct note *next;
    _Atomic(void *) at;
    _Atomic(const struct sp_party *) party;
    struct of_system system;
    atomic_long place;           /* of a thread, else -1 */
    atomic_int owner;            /* the thread that is in a call with the party, or 0 */
    _Atomic(const char *) call;  /* which call */
};

/* A callback that runs in this thread, for the thread of a place. */
struct running {
    const struct running *outer;
    unsigned system;
    long place;
};

/* A call that begins, and the party's call before it, where it is made in a callback of that. */
struct entered {
    struct note *note;
    const char *outer;
};

static _Atomic(struct note *) buckets[BUCKETS];
static atomic_uint systems;
static char being_noted; /* its address stands in a note that is taken and not filled */
static atomic_flag is_said = ATOMIC_FLAG_INIT;
static _Thread_local const struct running *running;

static int this_thread(void) { return (int)syscall(SYS_gettid); }

/* Says why, in one line, and aborts: the first of several threads. */
__attribute__((noreturn, format(printf, 3, 4)))
static void die(const char *call, const struct sp_party *party, const char *form, ...) {
    char line[LINE], why[LINE / 2];
    va_list words;
    va_start(words, form);
    vsnprintf(why, sizeof why, form, words);
    va_end(words);
    int length = snprintf(line, sizeof line, "safepoint: %s with party %p in thread %d: %s\n", call,
                          (const void *)party, this_thread(), why);
    while (atomic_flag_test_and_set(&is_said)) pause();
    if (write(STDERR_FILENO, line, (size_t)length) < 0) abort();
    abort();
}

/* --- the parties --- */

static _Atomic(struct note *) *bucket_of(const void *at) { return &buckets[((uintptr_t)at >> 4) % BUCKETS]; }

static struct note *find(const void *at) {
    struct note *it = atomic_load(bucket_of(at));
    while (it && atomic_load(&it->at) != at) it = it->next;
    return it;
}

/* A note that nobody uses, of those of the bucket or a new one. */
static struct note *taken(const void *at) {
    _Atomic(struct note *) *bucket = bucket_of(at);
    for (struct note *it = atomic_load(bucket); it; it = it->next) {
        void *none = NULL;
        if (atomic_compare_exchange_strong(&it->at, &none, &being_noted)) return it;
    }
    struct note *made = calloc(1, sizeof *made);
    if (!made) return NULL;
    atomic_store(&made->at, &being_noted);
    made->next = atomic_load(bucket);
    while (!atomic_compare_exchange_weak(bucket, &made->next, made)) ;
    return made;
}

static void note_made(const char *call, const struct sp_party *party, struct of_system system) {
    struct note *it = taken(party->at);
    if (!it) die(call, party, "there is no memory to note the party");
    atomic_store(&it->party, party);
    it->system = system;
    atomic_store(&it->place, -1);
    atomic_store(&it->owner, 0);
    atomic_store(&it->call, NULL);
    atomic_store(&it->at, party->at);
}

static struct note *note_of(const char *call, const struct sp_party *party) {
    struct note *it = find(party->at);
    if (!it) die(call, party, "it is a copy of a party that was freed, or no call with -DSP_CHECK made it");
    return it;
}

void sp_checked_moved(struct sp_party *party) {
    if (party->made) atomic_store(&note_of("a move", party)->party, party);
}

/* --- what is checked --- */

static void check_place(const char *call, const struct sp_party *party, const struct note *it) {
    const struct sp_party *made = atomic_load(&it->party);
    if (made != party) die(call, party, "it is a copy of the party %p", (const void *)made);
    if (it->system.process != getpid())
        die(call, party, "process %d made its system, and this is process %d", (int)it->system.process,
            (int)getpid());
}

static void check_callbacks(const char *call, const struct sp_party *party, const struct note *it) {
    for (const struct running *at = running; at; at = at->outer)
        if (at->system == it->system.number && at->place == atomic_load(&it->place))
            die(call, party, "it is made in a callback for the thread of the party");
}

static void take(const char *call, const struct sp_party *party, struct note *it) {
    int none = 0, own = this_thread();
    if (atomic_compare_exchange_strong(&it->owner, &none, own)) return;
    const char *other = atomic_load(&it->call);
    if (none != own) die(call, party, "thread %d is in %s with it", none, other ? other : "a call");
    if (!running) die(call, party, "the thread is in %s with it, and a signal handler or a jump came in between",
                      other ? other : "a call");
}

static struct entered enter(const char *call, const struct sp_party *party) {
    if (!party->made) return (struct entered){NULL, NULL};
    struct note *it = note_of(call, party);
    check_place(call, party, it);
    check_callbacks(call, party, it);
    take(call, party, it);
    return (struct entered){it, atomic_exchange(&it->call, call)};
}

static void leave(struct entered it) {
    if (!it.note) return;
    atomic_store(&it.note->call, it.outer);
    if (!it.outer) atomic_store(&it.note->owner, 0);
}

static void note_place(struct entered it, long place) {
    if (it.note) atomic_store(&it.note->place, place);
}

/* --- the calls of safepoint.h --- */

int64_t sp_checked_make(struct sp_party *coordinator, size_t places, size_t slots, size_t methods) {
    struct entered it = enter("sp_make", coordinator);
    int64_t answer = sp_make(coordinator, places, slots, methods);
    if (answer == 0) note_made("sp_make", coordinator, (struct of_system){atomic_fetch_add(&systems, 1), getpid()});
    leave(it);
    return answer;
}

int64_t sp_checked_fork(struct sp_party *party, struct sp_party *other) {
    struct entered it = enter("sp_fork", party);
    int64_t answer = sp_fork(party, other);
    if (answer == 0) note_made("sp_fork", other, it.note->system);
    leave(it);
    return answer;
}

void sp_checked_free(struct sp_party *party) {
    struct entered it = enter("sp_free", party);
    if (it.note) atomic_store(&it.note->at, NULL);
    sp_free(party);
}

int64_t sp_checked_start(struct sp_party *thread) {
    struct entered it = enter("sp_start", thread);
    int64_t answer = sp_start(thread);
    if (answer > 0) note_place(it, (long)sp_place(thread));
    leave(it);
    return answer;
}

int64_t sp_checked_exit(struct sp_party *thread) {
    struct entered it = enter("sp_exit", thread);
    int64_t answer = sp_exit(thread);
    if (answer == 0) note_place(it, -1);
    leave(it);
    return answer;
}

#define CHECKED(name, parameters, arguments, party)           \
    int64_t sp_checked_##name parameters {                    \
        struct entered it = enter("sp_" #name, party);        \
        int64_t answer = sp_##name arguments;                 \
        leave(it);                                            \
        return answer;                                        \
    }
CHECKED(name, (struct sp_party *thread), (thread), thread)
CHECKED(place, (struct sp_party *thread), (thread), thread)
CHECKED(state, (struct sp_party *thread), (thread), thread)
CHECKED(depth, (struct sp_party *thread), (thread), thread)
CHECKED(call, (struct sp_party *thread, uint32_t method), (thread, method), thread)
CHECKED(ret, (struct sp_party *thread), (thread), thread)
CHECKED(back_edge, (struct sp_party *thread), (thread), thread)
CHECKED(publish, (struct sp_party *thread), (thread), thread)
CHECKED(to_vm, (struct sp_party *thread), (thread), thread)
CHECKED(from_vm, (struct sp_party *thread), (thread), thread)
CHECKED(to_native, (struct sp_party *thread), (thread), thread)
CHECKED(from_native, (struct sp_party *thread), (thread), thread)
CHECKED(block, (struct sp_party *thread), (thread), thread)
CHECKED(unblock, (struct sp_party *thread), (thread), thread)
CHECKED(stop_next, (struct sp_party *thread), (thread), thread)
CHECKED(stop_serve, (struct sp_party *thread), (thread), thread)
CHECKED(target, (struct sp_party *party, uint64_t name), (party, name), party)
CHECKED(target_all, (struct sp_party *party), (party), party)
CHECKED(submit, (struct sp_party *party, uint32_t asks, uint64_t serial), (party, asks, serial), party)
CHECKED(census, (struct sp_party *party), (party), party)
CHECKED(install, (struct sp_party *party, uint32_t method), (party, method), party)
CHECKED(invalidate, (struct sp_party *party, uint64_t serial), (party, serial), party)
CHECKED(reply, (struct sp_party *party, uint64_t operation, uint64_t name), (party, operation, name), party)
CHECKED(live_after, (struct sp_party *party, uint64_t name), (party, name), party)
CHECKED(open_kind, (struct sp_party *party), (party), party)
CHECKED(pending, (struct sp_party *party), (party), party)
CHECKED(forget, (struct sp_party *party), (party), party)
CHECKED(advance, (struct sp_party *coordinator), (coordinator), coordinator)
CHECKED(called_operation, (struct sp_party *coordinator), (coordinator), coordinator)
CHECKED(called_place, (struct sp_party *coordinator), (coordinator), coordinator)
CHECKED(awaited, (struct sp_party *coordinator), (coordinator), coordinator)
CHECKED(awaited_after, (struct sp_party *coordinator, uint64_t name), (coordinator, name), coordinator)
CHECKED(awaited_place, (struct sp_party *coordinator, uint64_t name), (coordinator, name), coordinator)
CHECKED(open, (struct sp_party *coordinator), (coordinator), coordinator)
CHECKED(tell, (struct sp_party *coordinator, uint64_t name), (coordinator, name), coordinator)
CHECKED(hold, (struct sp_party *coordinator, size_t place), (coordinator, place), coordinator)
CHECKED(serve, (struct sp_party *coordinator, size_t place), (coordinator, place), coordinator)
CHECKED(release, (struct sp_party *coordinator, size_t place), (coordinator, place), coordinator)
CHECKED(operate, (struct sp_party *coordinator), (coordinator), coordinator)
CHECKED(counted, (struct sp_party *coordinator, uint64_t serial), (coordinator, serial), coordinator)
CHECKED(close, (struct sp_party *coordinator), (coordinator), coordinator)
CHECKED(close_of, (struct sp_party *coordinator, uint64_t number), (coordinator, number), coordinator)
CHECKED(reclaim_begin, (struct sp_party *party, uint64_t serial), (party, serial), party)
CHECKED(reclaim_end, (struct sp_party *coordinator, uint64_t serial), (coordinator, serial), coordinator)


/* --- the calls of safepoint_wait.h --- */

/* What a host gives a call that waits, and the party of that call. */
struct host {
    sp_callback call;
    void *with;
    struct note *note;
};

static void called(void *with, const struct sp_served *served) {
    struct host *host = with;
    if (served->thread) atomic_store(&host->note->place, (long)served->place);
    struct running now = {running, host->note->system.number, (long)served->place};
    running = &now;
    host->call(host->with, served);
    running = now.outer;
}

static struct entered enter_wait(const char *call, const struct sp_party *party) {
    struct entered it = enter(call, party);
    if (running) die(call, party, "it waits, and is made in a callback");
    return it;
}

/* `host` and `run` are what the call is given in the place of the host's own. */
#define WAITS(name, parameters, arguments, party)                              \
    int64_t sp_checked_##name parameters {                                     \
        struct entered it = enter_wait("sp_" #name, party);                    \
        struct host own = {call, with, it.note}, *host = &own;                 \
        sp_callback run = call && it.note ? called : NULL;                     \
        int64_t answer = sp_##name arguments;                                  \
        leave(it);                                                             \
        return answer;                                                         \
    }
WAITS(stop, (struct sp_party *thread, sp_callback call, void *with), (thread, run, host), thread)
WAITS(leave_native, (struct sp_party *thread, sp_callback call, void *with), (thread, run, host), thread)
WAITS(leave_blocked, (struct sp_party *thread, sp_callback call, void *with), (thread, run, host), thread)
WAITS(drive, (struct sp_party *coordinator, sp_callback call, void *with), (coordinator, run, host), coordinator)
WAITS(drive_for, (struct sp_party *coordinator, sp_callback call, void *with, uint64_t nanoseconds),
      (coordinator, run, host, nanoseconds), coordinator)
WAITS(drive_four, (struct sp_party *coordinator, sp_callback call, void *with), (coordinator, run, host), coordinator)
WAITS(at_safepoint, (struct sp_party *coordinator, sp_callback call, void *with), (coordinator, run, host), coordinator)
WAITS(reclaim, (struct sp_party *coordinator, uint64_t serial, sp_callback call, void *with),
      (coordinator, serial, run, host), coordinator)
CHECKED(unwind_to, (struct sp_party *thread, size_t depth), (thread, depth), thread)
WAITS(unwind_thread, (struct sp_party *thread, size_t depth, sp_callback call, void *with),
      (thread, depth, run, host), thread)

/* A switch from a party to itself is refused, and so the party is entered once. */
int64_t sp_checked_switch(struct sp_party *from, struct sp_party *to, sp_callback call, void *with) {
    struct entered it = enter_wait("sp_switch", to), none = {NULL, NULL};
    struct entered other = from == to ? none : enter_wait("sp_switch", from);
    struct host host = {call, with, it.note};
    int64_t answer = sp_switch(from, to, call && it.note ? called : NULL, &host);
    leave(other);
    leave(it);
    return answer;
}

int64_t sp_checked_start_thread(struct sp_party *thread, sp_callback call, void *with) {
    struct entered it = enter_wait("sp_start_thread", thread);
    struct host host = {call, with, it.note};
    int64_t answer = sp_start_thread(thread, call && it.note ? called : NULL, &host);
    if (answer > 0) note_place(it, (long)sp_place(thread));
    leave(it);
    return answer;
}

/* A call that ends the thread. */
#define ENDS(name)                                                                            \
    int64_t sp_checked_##name(struct sp_party *thread, sp_callback call, void *with) {        \
        struct entered it = enter_wait("sp_" #name, thread);                                  \
        struct host host = {call, with, it.note};                                             \
        int64_t answer = sp_##name(thread, call && it.note ? called : NULL, &host);           \
        if (answer == 0) note_place(it, -1);                                                  \
        leave(it);                                                                            \
        return answer;                                                                        \
    }
ENDS(exit_thread)
ENDS(end_thread)

/* The same without a callback. */
#define WAITS_ALONE(name, parameters, arguments, party)                        \
    int64_t sp_checked_##name parameters {                                     \
        struct entered it = enter_wait("sp_" #name, party);                    \
        int64_t answer = sp_##name arguments;                                  \
        leave(it);                                                             \
        return answer;                                                         \
    }
WAITS_ALONE(enter_native, (struct sp_party *thread), (thread), thread)
WAITS_ALONE(enter_blocked, (struct sp_party *thread), (thread), thread)
WAITS_ALONE(wait_closed, (struct sp_party *party, uint64_t number), (party, number), party)
WAITS_ALONE(wait_closed_for, (struct sp_party *party, uint64_t number, uint64_t nanoseconds),
            (party, number, nanoseconds), party)
WAITS_ALONE(wait_request, (struct sp_party *party, uint64_t nanoseconds), (party, nanoseconds), party)

CHECKED(late, (struct sp_party *coordinator, struct sp_late_thread *list, size_t room), (coordinator, list, room),
        coordinator)

/* --- systems that threads share --- */

int64_t sp_checked_system_make(struct sp_system *system, size_t places, size_t slots, size_t methods) {
    struct of_system own = {atomic_fetch_add(&systems, 1), getpid()};
    int64_t answer = sp_system_make(system, places, slots, methods);
    if (answer < 0) return answer;
    note_made("sp_system_make", &system->coordinator, own);
    note_made("sp_system_make", &system->source, own);
    return answer;
}

/* Several threads may be in this call at a time, so that it doesn't look into the party that they share. */
int64_t sp_checked_system_join(struct sp_system *system, struct sp_party *party) {
    struct sp_party source = {true, system->at};
    struct note *it = source.at ? note_of("sp_system_join", &source) : NULL;
    if (it) check_place("sp_system_join", &system->source, it);
    int64_t answer = sp_system_join(system, party);
    if (answer == 0) note_made("sp_system_join", party, it->system);
    return answer;
}

/* The coordinator's party may have moved elsewhere (safepoint.hpp). */
void sp_checked_system_free(struct sp_system *system) {
    struct entered coordinator = enter("sp_system_free", &system->coordinator);
    struct entered source = enter("sp_system_free", &system->source);
    if (coordinator.note) atomic_store(&coordinator.note->at, NULL);
    if (source.note) atomic_store(&source.note->at, NULL);
    sp_system_free(system);
}
