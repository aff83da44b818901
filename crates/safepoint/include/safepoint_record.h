/* A log of the calls that a host makes: with -DSP_RECORD safepoint_wait.h includes
   this page, each call of safepoint.h that a file makes behind it is noted, and safepoint_record.c
   is built with the other files of `waits`.

   Each thread notes its calls in memory of its own: a ticket before the call, one after it, what
   was called and what it answered. A try that answered SP_AGAIN is no call: the ticket before is
   that of the first try. A thread that stops, starts or exits is one call from its first try to
   where it goes on. So is a reclaiming from sp_reclaim_begin to sp_reclaim_end, and whoever
   makes it makes no other call in between, but those that drive its handshake; an sp_reclaim_end
   alone is a reclaiming too, and isn't noted where it is late. A drive is one call from its first
   sp_advance to the one that closes a request or finds none. What its thread calls meanwhile is noted
   as if another thread had called it. But no log is written where a single step of the coordinator
   comes between the calls of sp_advance for one request, or where a single step holds a thread when
   the first of these calls is made. Behind a call stand the callbacks that ran
   in it, each with its reply. Looks that change nothing (sp_reply, sp_live_after, sp_open_kind, sp_pending,
   sp_counted, sp_called_operation, sp_called_place, sp_awaited) aren't noted, nor is a refusal that
   the core doesn't have (SP_NOT_THIS, SP_NO_MEMORY, SP_HISTORY_FULL, SP_BAD_ASK). sp_forget forgets
   nothing. One system is recorded: that of the first sp_make. */
#ifndef SAFEPOINT_RECORD_H
#define SAFEPOINT_RECORD_H

#include <stdio.h>

#include "safepoint.h"

#ifdef __cplusplus
extern "C" {
#endif

/* Writes the log, once no thread calls any more and no drive has begun that isn't over: 0;
   SP_NO_MEMORY where a call couldn't be noted, and then nothing is written. */
int64_t sp_record_write(FILE *file);

int64_t sp_recorded_make(struct sp_party *coordinator, size_t places, size_t slots, size_t methods);
int64_t sp_recorded_start(struct sp_party *thread);
int64_t sp_recorded_exit(struct sp_party *thread);
int64_t sp_recorded_call(struct sp_party *thread, uint32_t method);
int64_t sp_recorded_ret(struct sp_party *thread);
int64_t sp_recorded_back_edge(struct sp_party *thread);
int64_t sp_recorded_publish(struct sp_party *thread);
int64_t sp_recorded_to_vm(struct sp_party *thread);
int64_t sp_recorded_from_vm(struct sp_party *thread);
int64_t sp_recorded_to_native(struct sp_party *thread);
int64_t sp_recorded_from_native(struct sp_party *thread);
int64_t sp_recorded_block(struct sp_party *thread);
int64_t sp_recorded_unblock(struct sp_party *thread);
int64_t sp_recorded_stop_next(struct sp_party *thread);
int64_t sp_recorded_stop_serve(struct sp_party *thread);
int64_t sp_recorded_target(struct sp_party *party, uint64_t name);
int64_t sp_recorded_target_all(struct sp_party *party);
int64_t sp_recorded_submit(struct sp_party *party, uint32_t asks, uint64_t serial);
int64_t sp_recorded_census(struct sp_party *party);
int64_t sp_recorded_forget(struct sp_party *party);
int64_t sp_recorded_install(struct sp_party *party, uint32_t method);
int64_t sp_recorded_invalidate(struct sp_party *party, uint64_t serial);
int64_t sp_recorded_advance(struct sp_party *coordinator);
int64_t sp_recorded_open(struct sp_party *coordinator);
int64_t sp_recorded_tell(struct sp_party *coordinator, uint64_t name);
int64_t sp_recorded_hold(struct sp_party *coordinator, size_t place);
int64_t sp_recorded_serve(struct sp_party *coordinator, size_t place);
int64_t sp_recorded_release(struct sp_party *coordinator, size_t place);
int64_t sp_recorded_operate(struct sp_party *coordinator);
int64_t sp_recorded_close(struct sp_party *coordinator);
int64_t sp_recorded_close_of(struct sp_party *coordinator, uint64_t number);
int64_t sp_recorded_reclaim_begin(struct sp_party *party, uint64_t serial);
int64_t sp_recorded_reclaim_end(struct sp_party *coordinator, uint64_t serial);

#ifdef __cplusplus
}
#endif

#ifndef SP_RECORDER
#define sp_make sp_recorded_make
#define sp_start sp_recorded_start
#define sp_exit sp_recorded_exit
#define sp_call sp_recorded_call
#define sp_ret sp_recorded_ret
#define sp_back_edge sp_recorded_back_edge
#define sp_publish sp_recorded_publish
#define sp_to_vm sp_recorded_to_vm
#define sp_from_vm sp_recorded_from_vm
#define sp_to_native sp_recorded_to_native
#define sp_from_native sp_recorded_from_native
#define sp_block sp_recorded_block
#define sp_unblock sp_recorded_unblock
#define sp_stop_next sp_recorded_stop_next
#define sp_stop_serve sp_recorded_stop_serve
#define sp_target sp_recorded_target
#define sp_target_all sp_recorded_target_all
#define sp_submit sp_recorded_submit
#define sp_census sp_recorded_census
#define sp_forget sp_recorded_forget
#define sp_install sp_recorded_install
#define sp_invalidate sp_recorded_invalidate
#define sp_advance sp_recorded_advance
#define sp_open sp_recorded_open
#define sp_tell sp_recorded_tell
#define sp_hold sp_recorded_hold
#define sp_serve sp_recorded_serve
#define sp_release sp_recorded_release
#define sp_operate sp_recorded_operate
#define sp_close sp_recorded_close
#define sp_close_of sp_recorded_close_of
#define sp_reclaim_begin sp_recorded_reclaim_begin
#define sp_reclaim_end sp_recorded_reclaim_end
#endif

#endif
