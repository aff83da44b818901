/* The loops that wait, over libsafepoint.a. They spin a little, yield, and then sleep until
   something may have changed. The files of `waits` use nothing but safepoint.h. A host with its own way
   to park threads writes them again.

   Each call returns what the call in its loop returns, and never SP_AGAIN. With -DSP_PTHREAD it sleeps on a
   pthread condition, else on a futex. With -DSP_RECORD the calls are noted (safepoint_record.h), with
   -DSP_CHECK they are checked (safepoint_check.h), and with -DSP_USDT there are static probes
   (safepoint_probes.h).
   Each takes at most 12 KB of its thread's stack, and what its callback takes. */
#ifndef SAFEPOINT_WAIT_H
#define SAFEPOINT_WAIT_H

#include "safepoint.h"

#ifdef __cplusplus
extern "C" {
#endif

/* An operation that is served at a safe point. `kind` is SP_HANDSHAKE for one target: `thread` is the
   thread that has stopped and runs the callback itself, or NULL if the coordinator runs the callback
   for the held thread of the place. The stack is published, and its thread doesn't run meanwhile.
   `kind` is SP_CENSUS for a VM operation: all live threads are held, and their stacks are published.
   The callback runs once, in the coordinator, with NULL and the place 0. A callback makes no call
   with that thread, and no call that waits. */
struct sp_served {
    uint64_t operation;
    size_t place;
    struct sp_party *thread;
    int kind;
};
typedef void (*sp_callback)(void *with, const struct sp_served *served);

/* The refusals of this page: their numbers are below those of safepoint.h. SP_TIMEOUT: the time is over. */
enum { SP_TIMEOUT = -100 };

/* Words for an answer. */
const char *sp_text(int64_t answer);

/* How long a loop has waited so far: all zeros at first. */
struct sp_pause {
    unsigned turns, seen;
};
/* After a try: if the answer is SP_AGAIN, rests a while and returns true, and the caller tries again. */
bool sp_again(int64_t answer, struct sp_pause *pause);
/* Wakes all that sleep here. A host calls it after a call of safepoint.h that may let another thread
   continue, and after sp_submit, sp_census or sp_reclaim_begin if a coordinator waits in
   sp_wait_request. */
void sp_ring(void);

/* A SYSTEM as a value that threads share. The caller owns its memory, which is all zeros at first and
   stays at its place until sp_system_free. Only these calls change it. */
struct sp_system {
    struct sp_party coordinator, source;
    void *at;
    struct sp_system *next;
    unsigned lock;
};
/* Makes a system with its coordinator, as sp_make, whose answers it has. */
int64_t sp_system_make(struct sp_system *system, size_t places, size_t slots, size_t methods);
/* The coordinator of the system. As with any party, one thread at a time calls with it. */
struct sp_party *sp_system_coordinator(struct sp_system *system);
/* Makes a further party of the system, which starts as a thread or stays a client. Any thread calls it
   at any time, also while others do, and while the coordinator works. Returns what sp_fork returns;
   SP_NOT_THIS if the system isn't made. */
int64_t sp_system_join(struct sp_system *system, struct sp_party *party);
/* Frees the coordinator, and all that the system has of its own; no call of the system may run. The
   parties that joined stay, and are freed by sp_free. Nothing happens if the system isn't made.
   In a forked child a system of its parent isn't made: it is all zeros, so that sp_system_join and
   calls with its coordinator return SP_NOT_THIS, and sp_system_make may make it anew. */
void sp_system_free(struct sp_system *system);

/* Repeats the call until it returns something else than SP_AGAIN, and stores that in `answer`. The
   call may use `answer`, which keeps its value until then. */
#define SP_WAIT(answer, call)                                                 \
    do {                                                                      \
        struct sp_pause pause_ = {0, 0};                                      \
        int64_t found_;                                                       \
        do                                                                    \
            found_ = (call);                                                  \
        while (found_ == SP_AGAIN && sp_again(found_, &pause_));              \
        (answer) = found_;                                                    \
    } while (0)

/* A thread. sp_stop follows a poll that returned a number. It serves the thread's operations until
   the thread continues, and returns 0. sp_start_thread returns the name, and sp_exit_thread 0; both
   serve what stops the thread meanwhile. sp_start_thread waits while a census is open, so it never
   returns SP_SAFEPOINT_OPEN, and whoever closes the census by single steps isn't the one who waits.
   sp_enter_native and sp_enter_blocked give the stack away, by sp_to_native and sp_block. The calls
   that leave take it back, serve what stops the thread, and return 0. */
int64_t sp_stop(struct sp_party *thread, sp_callback call, void *with);
int64_t sp_start_thread(struct sp_party *thread, sp_callback call, void *with);
int64_t sp_exit_thread(struct sp_party *thread, sp_callback call, void *with);
int64_t sp_enter_native(struct sp_party *thread);
int64_t sp_leave_native(struct sp_party *thread, sp_callback call, void *with);
int64_t sp_enter_blocked(struct sp_party *thread);
int64_t sp_leave_blocked(struct sp_party *thread, sp_callback call, void *with);
/* Ends a thread wherever it is, and returns 0: it serves what stops it, leaves native code, a wait, the
   VM and all methods, and exits. A callback that had begun isn't run again. This is also for a thread
   whose thread of the host died outside of all calls: the party passes to another thread of the host,
   which makes this call, and isn't the one that drives. */
int64_t sp_end_thread(struct sp_party *thread, sp_callback call, void *with);

/* The coordinator. sp_drive works on the oldest open request, or else on the oldest waiting one,
   until it is closed, and returns its number; SP_QUEUE_EMPTY. After SP_NO_MEMORY the request may be
   open, and a census keeps the threads that it holds: call again. It is a loop over sp_advance. */
int64_t sp_drive(struct sp_party *coordinator, sp_callback call, void *with);
/* The same for up to four handshakes at once. Returns how many it closed. */
int64_t sp_drive_four(struct sp_party *coordinator, sp_callback call, void *with);
/* Runs a VM operation: submits a census, and works on requests until it is closed. The callback runs
   for it once, with the kind SP_CENSUS, and for the targets of handshakes that were submitted
   before. Returns the number of the census. */
int64_t sp_at_safepoint(struct sp_party *coordinator, sp_callback call, void *with);
/* Any party: waits until the request of the number, and each before it, is closed. Returns 0. */
int64_t sp_wait_closed(struct sp_party *party, uint64_t number);

/* WAITS WITH AN END. Each waits for so many nanoseconds at most, by CLOCK_MONOTONIC, and then returns
   SP_TIMEOUT. With 0 it does what it can, and waits for no thread. UINT64_MAX is no end.
   sp_drive_for is sp_drive otherwise. The time bounds its waits, and no callback. After SP_TIMEOUT the
   request stays open, its targets still stop for it, and a census keeps the threads that it holds: the
   next sp_drive or sp_drive_for continues. */
int64_t sp_drive_for(struct sp_party *coordinator, sp_callback call, void *with,
                     uint64_t nanoseconds);
int64_t sp_wait_closed_for(struct sp_party *party, uint64_t number, uint64_t nanoseconds);
/* Any party: waits until a request is open or waits, and returns the least number of these. Who
   asks by safepoint.h wakes it by sp_ring. Otherwise it looks by itself, after at most 16 ms. */
int64_t sp_wait_request(struct sp_party *party, uint64_t nanoseconds);

/* A thread that a stop awaits: its name, its place, and a hint about what it does. SP_LATE_RUNS: it
   hasn't come to a stop. SP_LATE_SERVES: it runs its callback for `operation`, which is 0 otherwise.
   SP_LATE_UNKNOWN: the host stops the thread by its own loops, or another system of the process has a
   thread of this name at this place that does something else. */
enum { SP_LATE_UNKNOWN = 0, SP_LATE_RUNS = 1, SP_LATE_SERVES = 2 };
struct sp_late_thread {
    uint64_t name;
    size_t place;
    int state;
    uint64_t operation;
};
/* Who is late, after SP_TIMEOUT of sp_drive_for or SP_AWAITS of sp_advance: lists up to `room` of the
   threads that are awaited, by rising names, and returns how many there are. After any other answer
   the list is an old one. It doesn't wait, and returns 0 for any party but the coordinator. */
int64_t sp_late(struct sp_party *coordinator, struct sp_late_thread *list, size_t room);

/* HOW LONG STOPS TAKE, in this process, by the calls of this page. It costs one load and a branch where
   a call waits, stops or drives, unless it is asked for. sp_stats_on(true) begins to count, from zero;
   sp_stats_on(false) ends that. sp_stats reads what was counted, and other threads may count meanwhile.

   to_handshake    from the beginning of the drive until the last target came, for each handshake
   to_safepoint    from the beginning of the drive until all threads were held, for each census
   callbacks       each run of a callback
   spins .. naps   what threads and coordinators did while they waited
   wakes           how often a ring found sleepers

   Times are in nanoseconds: their sum, the greatest, and in powers[i] how many were at least 2^i and
   below 2^(i+1); powers[0] has those of 0 too. A request on which several drives work begins with the
   first. */
enum { SP_POWERS = 64 };
struct sp_times {
    uint64_t sum, greatest, powers[SP_POWERS];
};
struct sp_statistics {
    uint64_t handshakes, censuses; /* that were closed */
    struct sp_times to_handshake, to_safepoint, callbacks;
    uint64_t spins, yields, naps, wakes;
};
void sp_stats_on(bool on);
void sp_stats(struct sp_statistics *stats);
/* Calls the writer with a line for each request that a drive closes, in the form of -Xlog:safepoint and
   -Xlog:handshake of HotSpot. NULL ends that. The line has no newline, and is gone after the call. The
   writer runs in the thread that drives, after the threads continue, and makes no call with the
   coordinator. No coordinator drives while sp_log_to is called. Targeted threads are those that still
   live. */
void sp_log_to(void (*writer)(void *with, const char *line), void *with);

/* Reclaims a code that no thread enters any more, by a handshake of all threads that live then, in
   place of the coordinator's own targets. Returns 0 if the code is freed, else how many frames of it
   are on stacks; SP_LATE; and what sp_reclaim_begin and sp_drive return, but never SP_BAD_TARGETS.
   After SP_NO_MEMORY the targets of the coordinator's next request may be all threads:
   sp_reclaim_begin with serial 0 takes them back. */
int64_t sp_reclaim(struct sp_party *coordinator, uint64_t serial, sp_callback call, void *with);

/* POLLS IN LINE. Compiled code tests a word: 0, it goes on; else it calls sp_back_edge. The word
   counts the drives of this process that are going on. sp_drive adds one before its first sp_advance
   and takes it away at its end, also where it is refused or fails. So do sp_drive_four,
   sp_at_safepoint and sp_reclaim, which call it. While the word isn't 0, each poll in line of each
   system goes through sp_back_edge.

   The word is a hint, and no call of safepoint.h reads it. A poll that finds 0 wrongly leaves an
   armed thread armed: the thread stops at its next poll that finds another number, or at any poll of
   safepoint.h. So a stop may come later, but nothing else changes.

   What a host must keep: a thread that polls in line alone comes to no stop but those that the calls
   above drive, and those that the host hints at. A host that calls sp_advance or sp_tell itself calls
   sp_polls_begin before it and sp_polls_end once the request is closed, or once it gives up. Each
   sp_polls_begin has one sp_polls_end. Threads that poll in line and those that drive are linked with
   one copy of this library. */
struct sp_poll_line {
    uint32_t drives, unused[15];
};
extern struct sp_poll_line sp_polls;
void sp_polls_begin(void);
void sp_polls_end(void);
/* The address of the word that the code of this thread tests, for machine code. The word is read by
   one load of 32 bits, and only the library writes it. The address is good until the party is freed. */
const uint32_t *sp_poll_word(const struct sp_party *thread);

/* UNWINDING. Leaves frames by sp_ret, the top one first, until the stack has at most `depth` frames:
   for an exception or a longjmp, after which the code of these frames doesn't run on. sp_unwind_to
   returns 0 once that is so, also where the stack has no more frames from the start. Or it returns
   what the poll of an sp_ret returned: the thread has stopped, and that frame is gone. Then the caller
   calls sp_stop, and sp_unwind_to again. It is called from Java: SP_ILLEGAL from other states, and
   SP_NOT_THIS if the party is no thread. sp_unwind_thread stops by itself, goes on to the end, and
   returns 0. */
int64_t sp_unwind_to(struct sp_party *thread, size_t depth);
int64_t sp_unwind_thread(struct sp_party *thread, size_t depth, sp_callback call, void *with);

/* OTHER STACKS. A coroutine is a thread with a party of its own, which is in native code while another
   one runs on the same thread of the host. sp_switch puts `from` into native code, as sp_enter_native,
   and takes `to` out of it, as sp_leave_native: it serves what stops `to`, and returns 0. The callback
   is that of `to`. Refusals come first, and change nothing: SP_NOT_THIS unless both parties are
   threads, SP_ILLEGAL unless `from` is in Java or the VM and `to` is in native code. */
int64_t sp_switch(struct sp_party *from, struct sp_party *to, sp_callback call, void *with);

#ifdef __cplusplus
}
#endif

#if defined(SP_CHECK) && defined(SP_RECORD)
#error "a host is compiled with -DSP_CHECK or with -DSP_RECORD, and not with both"
#endif
#ifdef SP_CHECK
#include "safepoint_check.h"
#endif
#ifdef SP_RECORD
#include "safepoint_record.h"
#endif

/* A poll in line: 0 to go on, or what sp_back_edge returns. The thread must be in Java: elsewhere it
   returns 0 while nothing is driven, and else SP_ILLEGAL. With -DSP_CHECK it makes the call each time. */
static inline int64_t sp_poll(struct sp_party *thread) {
#ifndef SP_CHECK
    if (!__atomic_load_n(&sp_polls.drives, __ATOMIC_RELAXED)) return 0;
#endif
    return sp_back_edge(thread);
}

#endif
