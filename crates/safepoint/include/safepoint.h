/* Meqzhuly stops the threads of a runtime at safe points, runs the runtime's operations on them
   there, and says when machine code can be freed.

   This page is the whole contract of libsafepoint.a. Its calls never wait and never call back;
   safepoint_wait.h has the loops that do. It is for C99 and C++14, and for what follows them. A host
   that is compiled with -DSP_CHECK is told where it breaks a rule of PARTIES (safepoint_check.h).

   PARTIES. The caller owns the memory of a `struct sp_party`, which is all zeros at first: `{0}` in
   C, `{}` in C++. sp_make puts the coordinator of a new system into one party, and sp_fork puts a
   further party of the same system into another. sp_free takes a party out, and its memory may be
   used again. A system ends with its last party. There may be any number of systems. A party that
   sp_start started is a thread until sp_exit. All parties but threads and coordinators are clients.
   The caller doesn't copy a party. Only one thread of the caller at a time calls with a party, and
   a party may pass from one thread to another. Calls with different parties may run at the same
   time. A thread that is freed without sp_exit keeps its place. A coordinator that is freed leaves
   its held threads held. No call comes from a signal handler. A system is of the process that made
   it: a forked child makes no call with a party of its parent, nor sp_free.

   ANSWERS. Each call returns a number from 0 on, or a refusal below 0. Each reason has its own
   number, and sp_text returns its words. A refusal changes nothing, except where the call's text
   says so. Each call is one try, and only tries the locks that it takes. If another call has a lock,
   or if something that the call needs isn't there yet, it returns SP_AGAIN, and the caller repeats
   it. If several refusals apply, the call returns the first one of its row in the table below; but
   SP_BAD_ASK comes before all others, and SP_AGAIN and SP_NO_MEMORY may come before any.

   STACK. A call takes at most 12 KB of the stack of the thread that makes it, and doesn't check
   that this much is left.

   STATES of a thread, as sp_state returns them. In Java the thread runs code and polls. In the VM it
   runs the runtime's own code and doesn't poll. In native code and blocked it doesn't own itself,
   and a coordinator may hold it. At a poll it has stopped. While it is serving, the runtime's
   callback runs, between sp_stop_next and sp_stop_serve.

   POLLS. A call that polls returns 0 to continue, or the number of an operation. Then the thread has
   stopped: it calls sp_stop_next and sp_stop_serve in turns until one of them returns 0.
   sp_stop_next returns the operation to serve. The runtime now runs its callback for that operation,
   on the thread's own stack, which is published. Each operation is served once for each target,
   either by the thread or by the coordinator for it. It is never served by both, since a thread's
   stack is either with the thread or held.

   NAMES AND NUMBERS that never were. Each number of 64 bits may be asked about, and one that was
   never given out is answered like one that is gone. A handshake may name such a thread: nobody is
   waited for, sp_tell returns 0, sp_reply SP_NOT_ANSWERED. A name that is given out after sp_submit
   and before sp_open is a target like any other; one that is given out later isn't. Of a code that
   never was, SP_COUNT_OF and sp_counted count 0 frames.

   TABLE of all calls. By: the party that may make the call; others get SP_NOT_THIS, and so does a
   party that isn't made. (sp_make takes one that isn't.) Before: the states of the thread from which
   the call is made; from others it returns SP_ILLEGAL. After: its state then. "back" is Java or the
   VM: where the thread entered native code, or where the call that stopped it leads. "polls": after
   0 the state is as the table says, and after the number of an operation the thread is at a poll.
   (sp_start returns the name in both cases, and sp_state tells.) Refusals stand in the order of
   their tests, without SP_ and without those two.

   call                 by      before   after     returns           refusals
   sp_make              none    -        -         0                 MADE BAD_SIZE NO_MEMORY
   sp_fork              any     -        -         0                 MADE NO_MEMORY
   sp_free              any     -        -         nothing           -
   sp_start             client  -        Java      the name, polls   AGAIN SAFEPOINT_OPEN PLACES_FULL
                                                                     SPENT HISTORY_FULL NO_MEMORY
   sp_exit              thread  Java VM  -         0, polls          AGAIN STACK_NOT_EMPTY
   sp_name              thread  all      same      the name          -
   sp_place             thread  all      same      the place         -
   sp_state             thread  all      same      the state         -
   sp_depth             thread  Java VM  same      how many          -
                                serving
   sp_call              thread  Java     same      a serial, or 0    NO_SUCH_METHOD DEPTH_FULL
   sp_ret               thread  Java     same      0, polls          EMPTY_STACK
   sp_back_edge         thread  Java     same      0, polls          -
   sp_publish           thread  Java VM  same      0                 -
   sp_to_vm             thread  Java     VM        0                 -
   sp_from_vm           thread  VM       Java      0, polls          -
   sp_to_native         thread  Java VM  native    0                 AGAIN
   sp_from_native       thread  native   back      0, polls          AGAIN
   sp_block             thread  VM       blocked   0                 AGAIN
   sp_unblock           thread  blocked  VM        0, polls          AGAIN
   sp_stop_next         thread  poll     serving   an operation      AGAIN
                                         back      0
   sp_stop_serve        thread  serving  back      0, polls          AGAIN
   sp_target            any     -        -         0                 NO_MEMORY
   sp_target_all        any     -        -         0                 -
   sp_submit            any     -        -         a number          BAD_ASK AGAIN SPENT QUEUE_FULL
                                                                     NO_TARGETS BAD_TARGETS
                                                                     HISTORY_FULL NO_MEMORY
   sp_census            any     -        -         a number          AGAIN SPENT QUEUE_FULL
                                                                     HISTORY_FULL NO_MEMORY
   sp_install           any     -        -         a serial          AGAIN NO_SUCH_METHOD TABLE_FULL
                                                                     SPENT HISTORY_FULL NO_MEMORY
   sp_invalidate        any     -        -         0                 AGAIN UNKNOWN NOT_IN_USE
   sp_reply             any     -        -         the reply         AGAIN PENDING NOT_ANSWERED
                                                                     NO_MEMORY
   sp_live_after        any     -        -         a name, or 0      AGAIN
   sp_open_kind         any     -        -         a kind            AGAIN
   sp_pending           any     -        -         a number, or 0    AGAIN
   sp_forget            any     -        -         0                 AGAIN
   sp_advance           coord.  -        -         a number          RUN AT_SAFEPOINT AWAITS AGAIN
                                                                     QUEUE_EMPTY NO_MEMORY
   sp_called_operation  any     -        -         an operation or 0 -
   sp_called_place      any     -        -         a place           -
   sp_awaited           any     -        -         how many          -
   sp_awaited_after     any     -        -         a name, or 0      -
   sp_awaited_place     any     -        -         a place           -
   sp_open              coord.  -        -         a number          AGAIN ALREADY_OPEN QUEUE_EMPTY
   sp_tell              coord.  -        -         an operation or 0 AGAIN NOTHING_OPEN NOT_OF
                                                                     ALREADY_TOLD
   sp_hold              coord.  -        -         an operation      AGAIN NO_SUCH_PLACE VACANT
                                                                     NOTHING_OPEN NOT_OF NOT_TOLD
                                                                     ALREADY_DONE HELD NOT_SAFE
   sp_serve             coord.  -        -         an operation      AGAIN NO_SUCH_PLACE VACANT
                                                                     NOT_HELD NOTHING_OPEN NOT_OF
                                                                     NOT_TOLD ALREADY_DONE
   sp_release           coord.  -        -         0                 AGAIN NO_SUCH_PLACE VACANT
                                                                     NOT_HELD
   sp_operate           coord.  -        -         a number          AGAIN NOTHING_OPEN NOT_OF
                                                                     ALREADY_DONE NOT_ALL_HELD
                                                                     NO_MEMORY
   sp_counted           any     -        -         how many          -
   sp_close             coord.  -        -         a number          AGAIN NOTHING_OPEN HELD NOT_DONE
   sp_close_of          coord.  -        -         a number          AGAIN NOTHING_OPEN NOT_OF HELD
                                                                     NOT_DONE
   sp_reclaim_begin     any     -        -         a number, or 0    AGAIN UNKNOWN STILL_IN_USE
                                                                     ALREADY_OPEN SPENT BAD_TARGETS
                                                                     HISTORY_FULL NO_MEMORY
   sp_reclaim_end       coord.  -        -         0, or how many    AGAIN NOT_WEIGHED LATE */
#ifndef SAFEPOINT_H
#define SAFEPOINT_H

#include <stdbool.h>
#include <stddef.h>
#include <stdint.h>

#ifdef __cplusplus
extern "C" {
#endif

/* The version of this page: "MAJOR.MINOR.PATCH", and each part as a number for #if. */
#define SP_VERSION "0.2.0"
#define SP_VERSION_MAJOR 0
#define SP_VERSION_MINOR 2
#define SP_VERSION_PATCH 0

struct sp_party {
    bool made;
    void *at;
};

enum {
    SP_AGAIN = -1, SP_NO_MEMORY = -2, SP_NOT_THIS = -3, SP_ILLEGAL = -4,
    SP_NO_SUCH_METHOD = -5, SP_DEPTH_FULL = -6, SP_EMPTY_STACK = -7, SP_STACK_NOT_EMPTY = -8,
    SP_SAFEPOINT_OPEN = -9, SP_PLACES_FULL = -10, SP_SPENT = -11, SP_HISTORY_FULL = -12,
    SP_QUEUE_FULL = -13, SP_NO_TARGETS = -14, SP_BAD_TARGETS = -15, SP_ALREADY_OPEN = -16,
    SP_QUEUE_EMPTY = -17, SP_NOTHING_OPEN = -18, SP_NOT_OF = -19, SP_NOT_TOLD = -20,
    SP_ALREADY_TOLD = -21, SP_ALREADY_DONE = -22, SP_HELD = -23, SP_NOT_HELD = -24,
    SP_VACANT = -25, SP_NO_SUCH_PLACE = -26, SP_NOT_DONE = -27, SP_TABLE_FULL = -28,
    SP_UNKNOWN = -29, SP_NOT_IN_USE = -30, SP_NOT_SAFE = -31, SP_NOT_ALL_HELD = -32,
    SP_NOT_ANSWERED = -33, SP_STILL_IN_USE = -34, SP_NOT_WEIGHED = -35, SP_LATE = -36,
    SP_RUN = -37, SP_AWAITS = -38, SP_AT_SAFEPOINT = -39,
    SP_MADE = -40, SP_BAD_SIZE = -41, SP_BAD_ASK = -42, SP_PENDING = -43
};

enum {
    SP_IN_JAVA = 0, SP_IN_VM = 1, SP_AT_POLL = 2, SP_IN_NATIVE = 3, SP_BLOCKED = 4, SP_SERVING = 5
};

/* What a handshake asks of each target: how many frames its stack has, how many of the code of a
   serial, the serial of its top frame's code. */
enum { SP_DEPTH = 0, SP_COUNT_OF = 1, SP_TOP = 2 };

/* What is open: nothing, up to four handshakes, or one census. */
enum { SP_NONE = 0, SP_HANDSHAKE = 1, SP_CENSUS = 2 };

/* SYSTEMS. sp_make makes a system of up to 64 threads at a time (places), 1024 codes (slots) and 256
   methods, which are numbered from 0. SP_MADE: the party is made already, or the other of sp_fork
   is. Nothing happens where sp_free is given a party that isn't made. */
int64_t sp_make(struct sp_party *coordinator, size_t places, size_t slots, size_t methods);
int64_t sp_fork(struct sp_party *party, struct sp_party *other);
void sp_free(struct sp_party *party);

/* A THREAD. sp_start returns the thread's name, which is above all names given out before. After
   SP_AGAIN the thread may be entered already, so repeat the call. SP_SAFEPOINT_OPEN: a census is
   open. It polls: if sp_state says that the thread is at a poll, it stops as after any poll. */
int64_t sp_start(struct sp_party *thread);
/* Returns 0, and the party is a client, which may start again as another thread; or the number of an
   operation, if a poll stopped the thread, which stays one, and goes on in Java. After SP_AGAIN the
   thread may have left already, or may have published its stack, polled and gone into Java, so repeat
   the call. */
int64_t sp_exit(struct sp_party *thread);
/* The thread's name, its place (from 0 on), its state, and how many frames its stack has. */
int64_t sp_name(struct sp_party *thread);
int64_t sp_place(struct sp_party *thread);
int64_t sp_state(struct sp_party *thread);
int64_t sp_depth(struct sp_party *thread);

/* In Java. sp_call enters a method, and returns the serial of the code to run, or 0 to interpret it.
   SP_DEPTH_FULL: the stack has 256 frames. sp_ret leaves the top method and polls. sp_back_edge
   polls: SP_ILLEGAL in the VM too, which doesn't poll. sp_publish, which the VM may call too,
   publishes which codes have frames: SP_ILLEGAL in native code, blocked, at a poll and serving. The
   way into native code publishes nothing. sp_to_vm doesn't poll, sp_from_vm does. */
int64_t sp_call(struct sp_party *thread, uint32_t method);
int64_t sp_ret(struct sp_party *thread);
int64_t sp_back_edge(struct sp_party *thread);
int64_t sp_publish(struct sp_party *thread);
int64_t sp_to_vm(struct sp_party *thread);
int64_t sp_from_vm(struct sp_party *thread);

/* Native code and waits. sp_to_native enters native code from Java or the VM, sp_block blocks from
   the VM. sp_from_native and sp_unblock come back, and poll. */
int64_t sp_to_native(struct sp_party *thread);
int64_t sp_from_native(struct sp_party *thread);
int64_t sp_block(struct sp_party *thread);
int64_t sp_unblock(struct sp_party *thread);

/* After a poll that stopped the thread, sp_stop_next returns the operation to serve now, or 0, and
   the thread continues. While it returns SP_AGAIN, the coordinator has the thread's stack.
   sp_stop_serve reports that the callback is done, and returns what a poll returns. */
int64_t sp_stop_next(struct sp_party *thread);
int64_t sp_stop_serve(struct sp_party *thread);

/* ANY PARTY. sp_target adds a name to the targets of the party's next request: sp_submit, sp_census,
   which drops them, or sp_reclaim_begin. That request takes all of them, also where it is refused,
   unless it returns SP_AGAIN, SP_NO_MEMORY or SP_BAD_ASK. To take targets back without a request,
   call sp_reclaim_begin with serial 0, which no code has, until it returns SP_UNKNOWN.
   sp_submit queues a handshake of the targets, and returns its number. SP_QUEUE_FULL: 64 wait.
   SP_BAD_TARGETS: a name twice, or more than 64. SP_BAD_ASK: `asks` isn't SP_DEPTH, SP_COUNT_OF or
   SP_TOP. sp_census queues a census of all threads, and returns its number. If the coordinator works
   on another thread, callbacks of an operation may run before its number is returned here. */
int64_t sp_target(struct sp_party *party, uint64_t name);
/* The targets of the party's next request are all threads that live when it is submitted, in place of
   names. */
int64_t sp_target_all(struct sp_party *party);
int64_t sp_submit(struct sp_party *party, uint32_t asks, uint64_t serial);
int64_t sp_census(struct sp_party *party);
/* sp_install installs a new code for the method, and returns its serial. From then on no thread
   enters the method's code before it. A thread may enter the new one before the serial is returned
   here. SP_TABLE_FULL: each slot has a code that isn't freed. sp_invalidate takes a code out of use,
   so that no thread enters it. SP_UNKNOWN: no code has the serial, or it is freed. SP_NOT_IN_USE: it
   is out of use already. */
int64_t sp_install(struct sp_party *party, uint32_t method);
int64_t sp_invalidate(struct sp_party *party, uint64_t serial);
/* sp_reply returns what the name answered in an operation. SP_PENDING: it hasn't yet, and the
   operation, or one before it, isn't closed. SP_NOT_ANSWERED: it exited before, it was no target, or
   the reply is forgotten. sp_live_after returns the least live name above this one, or 0 for none. A
   walk from name to name also finds threads that started after it began, so it ends only once no more
   of them start. For a request of all that live, call sp_target_all.
   sp_open_kind returns of which kind the open requests are: SP_HANDSHAKE or SP_CENSUS, or SP_NONE if
   nothing is open. sp_pending returns the least number of a request that is open or waits, or 0 for
   none: all requests below it are closed. */
int64_t sp_reply(struct sp_party *party, uint64_t operation, uint64_t name);
int64_t sp_live_after(struct sp_party *party, uint64_t name);
int64_t sp_open_kind(struct sp_party *party);
int64_t sp_pending(struct sp_party *party);
/* Forgets all entries so far, and the replies of all operations before the first one that is open or
   waits. A history of 1,000,000 entries is full: SP_HISTORY_FULL. The ENTRIES that a call takes, or
   keeps room for:

   sp_start, with the thread's exit                              2
   sp_submit of N targets, with all that is done for it          N + 3
   sp_census, with all that is done for it                       4
   sp_install, with all that becomes of the code                 4
   sp_reclaim_begin of N targets, with all that is done for it   N + 3

   sp_reclaim_begin without targets takes none, nor does any other call. The room for a target that
   exits before it is served is free again once the request is closed. */
int64_t sp_forget(struct sp_party *party);

/* THE COORDINATOR. sp_advance works on the oldest open request as far as it can without waiting, and
   closes it; where nothing is open it opens the oldest waiting request first. It arms the polls of
   all targets. Of a handshake it serves each thread that doesn't own itself, one after the other. Of
   a census it holds all threads and operates it. Then it lets them go. It returns the number of the
   request that it closed, or what comes next:

   SP_RUN     it holds a thread, and serves it next. The caller runs its callback now, for the
              operation sp_called_operation and the thread of the place sp_called_place. The next
              sp_advance enters the thread's reply, and lets it go unless it owes another operation
   SP_AT_SAFEPOINT  all live threads are held, and the census sp_called_operation is operated. The
              caller runs its VM operation now: no stack changes. The next sp_advance lets the
              threads go. It comes once for a census, and not where sp_operate operated it
   SP_AWAITS  sp_awaited threads of the request have still to come. They come by themselves
   SP_AGAIN   a lock is taken, a thread is starting or exiting, or there is more to arm

   What it has done stays, and it may be called again at any time. SP_QUEUE_EMPTY: nothing is open,
   and nothing waits. SP_NO_MEMORY: for a list; the request may be open, and a census keeps the
   threads that it holds, until a later call goes on.

   The other five tell about the last sp_advance. sp_called_operation returns the number of the
   operation for which the caller runs something now, or 0; sp_called_place the place of the thread
   that is served next, from 0 on; sp_awaited a number up to 64. After SP_AWAITS, sp_awaited_after
   returns the least name above this one of a thread that has still to come, or 0 for none, and
   sp_awaited_place that thread's place, from 0 on. To any party but the coordinator they return 0.

       int64_t drive(struct sp_party *coordinator) {
           for (;;) {
               int64_t answer = sp_advance(coordinator);
               if (answer == SP_RUN)
                   callback(sp_called_operation(coordinator), sp_called_place(coordinator));
               else if (answer == SP_AT_SAFEPOINT)
                   vm_operation(sp_called_operation(coordinator));
               else if (answer == SP_AWAITS || answer == SP_AGAIN)
                   sched_yield();
               else
                   return answer;
           }
       }

   The single steps below may come in between: the caller may serve a held thread, let it go, or close
   a request by itself. The next sp_advance goes on from there. */
int64_t sp_advance(struct sp_party *coordinator);
int64_t sp_called_operation(struct sp_party *coordinator);
int64_t sp_called_place(struct sp_party *coordinator);
int64_t sp_awaited(struct sp_party *coordinator);
int64_t sp_awaited_after(struct sp_party *coordinator, uint64_t name);
int64_t sp_awaited_place(struct sp_party *coordinator, uint64_t name);
/* SINGLE STEPS. sp_open opens the oldest waiting request, and returns its number. Up to four
   handshakes may be open, or one census: else SP_ALREADY_OPEN. sp_tell arms the poll of the thread
   of the name with the oldest open operation that the thread wasn't told, so that the thread stops
   at its next poll. It returns that operation's number, or 0 if the name is gone. SP_NOT_OF: no open
   request is of the name. SP_ALREADY_TOLD: the thread was told all that is open. */
int64_t sp_open(struct sp_party *coordinator);
int64_t sp_tell(struct sp_party *coordinator, uint64_t name);
/* Holds the thread of a place, which was told an operation that it isn't done with, and doesn't own
   itself. Returns the oldest operation that the thread owes. SP_VACANT: no thread has the place.
   SP_NOT_SAFE: the thread owns itself, so try again later. */
int64_t sp_hold(struct sp_party *coordinator, size_t place);
/* Serves the oldest operation of a held thread, after the runtime has run its callback for it.
   Returns the operation's number. SP_NOT_OF: what is open is a census. After SP_AGAIN the thread's
   stack may be published. */
int64_t sp_serve(struct sp_party *coordinator, size_t place);
/* Lets a held thread go. */
int64_t sp_release(struct sp_party *coordinator, size_t place);
/* sp_operate operates the open census over the held threads, which are all live threads, and returns
   its number. SP_NOT_OF: what is open are handshakes. sp_counted returns the frames of a code in the
   census that was operated last, and 0 to any party but the coordinator. */
int64_t sp_operate(struct sp_party *coordinator);
int64_t sp_counted(struct sp_party *coordinator, uint64_t serial);
/* Closes the oldest open request, or the one of this number, and returns its number. SP_HELD: the
   thread of a target is held. SP_NOT_DONE: a live target isn't done, or the census isn't operated.
   SP_NOT_OF: something is open, and nothing of this number. */
int64_t sp_close(struct sp_party *coordinator);
int64_t sp_close_of(struct sp_party *coordinator, uint64_t number);

/* RECLAIMING a code that no thread enters any more. Any party calls sp_reclaim_begin. It queues a
   handshake of the party's targets, and returns its number, or 0 without targets. SP_STILL_IN_USE:
   a thread may enter the code. SP_ALREADY_OPEN: something is open or waits.
   After that handshake is closed, the coordinator calls sp_reclaim_end. It returns 0 if the code is
   freed: no thread has a frame of it or can enter it, so its memory may be unmapped. Else it returns
   how many frames of the code are on stacks; SP_LATE if a thread that hasn't published since may
   still enter it: try again later; SP_NOT_WEIGHED if the code is in use, is freed, or never was.
   sp_reclaim_end may come at any time. It frees a code on which no frame stands once each live
   thread has published since an sp_reclaim_begin, of this code or of another, that came after the
   code went out of use. Before that, and where none came, it returns SP_LATE. If no thread lives, it
   frees the code at once. */
int64_t sp_reclaim_begin(struct sp_party *party, uint64_t serial);
int64_t sp_reclaim_end(struct sp_party *coordinator, uint64_t serial);

#ifdef __cplusplus
}
#endif

/* Each call is checked (safepoint_check.h). */
#ifdef SP_CHECK
#include "safepoint_wait.h"
#endif

#endif
