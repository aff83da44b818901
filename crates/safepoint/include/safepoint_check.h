/* Checks of what a host must keep: in a file that is compiled with -DSP_CHECK each call of safepoint.h
   and safepoint_wait.h is checked first. The checks are in libsafepoint_wait.a, so nothing else is
   linked, and a file without -DSP_CHECK makes its calls without them. All files of a host that call
   with one party are compiled alike, and none with -DSP_RECORD too.

   Where a host makes a call that it mustn't make, one line on standard error says which call, with
   which party, in which thread, and why, and the program aborts:

   - another thread is in a call with the party. A call of safepoint_wait.h lasts as long as its
     callbacks. So does a call that a signal handler or a jump out of a callback interrupts;
   - a callback calls with the thread that it is for, or makes a call of safepoint_wait.h that waits
     for threads (those from sp_stop to sp_reclaim, sp_unwind_thread and sp_switch). SP_WAIT isn't
     looked at. Nor is what a host runs by itself for sp_stop_next or sp_advance;
   - the party is a copy, or was freed: it isn't where sp_make or sp_fork put it;
   - a forked child calls with a party of a system that its parent made. */
#ifndef SAFEPOINT_CHECK_H
#define SAFEPOINT_CHECK_H

#include "safepoint_wait.h"

#ifdef __cplusplus
extern "C" {
#endif

int64_t sp_checked_make(struct sp_party *coordinator, size_t places, size_t slots, size_t methods);
int64_t sp_checked_fork(struct sp_party *party, struct sp_party *other);
void sp_checked_free(struct sp_party *party);
int64_t sp_checked_start(struct sp_party *thread);
int64_t sp_checked_exit(struct sp_party *thread);
int64_t sp_checked_name(struct sp_party *thread);
int64_t sp_checked_place(struct sp_party *thread);
int64_t sp_checked_state(struct sp_party *thread);
int64_t sp_checked_depth(struct sp_party *thread);
int64_t sp_checked_call(struct sp_party *thread, uint32_t method);
int64_t sp_checked_ret(struct sp_party *thread);
int64_t sp_checked_back_edge(struct sp_party *thread);
int64_t sp_checked_publish(struct sp_party *thread);
int64_t sp_checked_to_vm(struct sp_party *thread);
int64_t sp_checked_from_vm(struct sp_party *thread);
int64_t sp_checked_to_native(struct sp_party *thread);
int64_t sp_checked_from_native(struct sp_party *thread);
int64_t sp_checked_block(struct sp_party *thread);
int64_t sp_checked_unblock(struct sp_party *thread);
int64_t sp_checked_stop_next(struct sp_party *thread);
int64_t sp_checked_stop_serve(struct sp_party *thread);
int64_t sp_checked_target(struct sp_party *party, uint64_t name);
int64_t sp_checked_target_all(struct sp_party *party);
int64_t sp_checked_submit(struct sp_party *party, uint32_t asks, uint64_t serial);
int64_t sp_checked_census(struct sp_party *party);
int64_t sp_checked_install(struct sp_party *party, uint32_t method);
int64_t sp_checked_invalidate(struct sp_party *party, uint64_t serial);
int64_t sp_checked_reply(struct sp_party *party, uint64_t operation, uint64_t name);
int64_t sp_checked_live_after(struct sp_party *party, uint64_t name);
int64_t sp_checked_open_kind(struct sp_party *party);
int64_t sp_checked_pending(struct sp_party *party);
int64_t sp_checked_forget(struct sp_party *party);
int64_t sp_checked_advance(struct sp_party *coordinator);
int64_t sp_checked_called_operation(struct sp_party *coordinator);
int64_t sp_checked_called_place(struct sp_party *coordinator);
int64_t sp_checked_awaited(struct sp_party *coordinator);
int64_t sp_checked_awaited_after(struct sp_party *coordinator, uint64_t name);
int64_t sp_checked_awaited_place(struct sp_party *coordinator, uint64_t name);
int64_t sp_checked_open(struct sp_party *coordinator);
int64_t sp_checked_tell(struct sp_party *coordinator, uint64_t name);
int64_t sp_checked_hold(struct sp_party *coordinator, size_t place);
int64_t sp_checked_serve(struct sp_party *coordinator, size_t place);
int64_t sp_checked_release(struct sp_party *coordinator, size_t place);
int64_t sp_checked_operate(struct sp_party *coordinator);
int64_t sp_checked_counted(struct sp_party *coordinator, uint64_t serial);
int64_t sp_checked_close(struct sp_party *coordinator);
int64_t sp_checked_close_of(struct sp_party *coordinator, uint64_t number);
int64_t sp_checked_reclaim_begin(struct sp_party *party, uint64_t serial);
int64_t sp_checked_reclaim_end(struct sp_party *coordinator, uint64_t serial);

int64_t sp_checked_stop(struct sp_party *thread, sp_callback call, void *with);
int64_t sp_checked_start_thread(struct sp_party *thread, sp_callback call, void *with);
int64_t sp_checked_exit_thread(struct sp_party *thread, sp_callback call, void *with);
int64_t sp_checked_end_thread(struct sp_party *thread, sp_callback call, void *with);
int64_t sp_checked_enter_native(struct sp_party *thread);
int64_t sp_checked_leave_native(struct sp_party *thread, sp_callback call, void *with);
int64_t sp_checked_enter_blocked(struct sp_party *thread);
int64_t sp_checked_leave_blocked(struct sp_party *thread, sp_callback call, void *with);
int64_t sp_checked_drive(struct sp_party *coordinator, sp_callback call, void *with);
int64_t sp_checked_drive_for(struct sp_party *coordinator, sp_callback call, void *with,
                             uint64_t nanoseconds);
int64_t sp_checked_drive_four(struct sp_party *coordinator, sp_callback call, void *with);
int64_t sp_checked_at_safepoint(struct sp_party *coordinator, sp_callback call, void *with);
int64_t sp_checked_wait_closed(struct sp_party *party, uint64_t number);
int64_t sp_checked_wait_closed_for(struct sp_party *party, uint64_t number, uint64_t nanoseconds);
int64_t sp_checked_wait_request(struct sp_party *party, uint64_t nanoseconds);
int64_t sp_checked_late(struct sp_party *coordinator, struct sp_late_thread *list, size_t room);
int64_t sp_checked_reclaim(struct sp_party *coordinator, uint64_t serial, sp_callback call,
                           void *with);
int64_t sp_checked_unwind_to(struct sp_party *thread, size_t depth);
int64_t sp_checked_unwind_thread(struct sp_party *thread, size_t depth, sp_callback call, void *with);
int64_t sp_checked_switch(struct sp_party *from, struct sp_party *to, sp_callback call, void *with);

int64_t sp_checked_system_make(struct sp_system *system, size_t places, size_t slots, size_t methods);
int64_t sp_checked_system_join(struct sp_system *system, struct sp_party *party);
void sp_checked_system_free(struct sp_system *system);

/* A party that was made elsewhere stands here, and no longer there: safepoint.hpp moves parties. */
void sp_checked_moved(struct sp_party *party);

#ifdef __cplusplus
}
#endif

#ifdef SP_CHECK
#define sp_make sp_checked_make
#define sp_fork sp_checked_fork
#define sp_free sp_checked_free
#define sp_start sp_checked_start
#define sp_exit sp_checked_exit
#define sp_name sp_checked_name
#define sp_place sp_checked_place
#define sp_state sp_checked_state
#define sp_depth sp_checked_depth
#define sp_call sp_checked_call
#define sp_ret sp_checked_ret
#define sp_back_edge sp_checked_back_edge
#define sp_publish sp_checked_publish
#define sp_to_vm sp_checked_to_vm
#define sp_from_vm sp_checked_from_vm
#define sp_to_native sp_checked_to_native
#define sp_from_native sp_checked_from_native
#define sp_block sp_checked_block
#define sp_unblock sp_checked_unblock
#define sp_stop_next sp_checked_stop_next
#define sp_stop_serve sp_checked_stop_serve
#define sp_target sp_checked_target
#define sp_target_all sp_checked_target_all
#define sp_submit sp_checked_submit
#define sp_census sp_checked_census
#define sp_install sp_checked_install
#define sp_invalidate sp_checked_invalidate
#define sp_reply sp_checked_reply
#define sp_live_after sp_checked_live_after
#define sp_open_kind sp_checked_open_kind
#define sp_pending sp_checked_pending
#define sp_forget sp_checked_forget
#define sp_advance sp_checked_advance
#define sp_called_operation sp_checked_called_operation
#define sp_called_place sp_checked_called_place
#define sp_awaited sp_checked_awaited
#define sp_awaited_after sp_checked_awaited_after
#define sp_awaited_place sp_checked_awaited_place
#define sp_open sp_checked_open
#define sp_tell sp_checked_tell
#define sp_hold sp_checked_hold
#define sp_serve sp_checked_serve
#define sp_release sp_checked_release
#define sp_operate sp_checked_operate
#define sp_counted sp_checked_counted
#define sp_close sp_checked_close
#define sp_close_of sp_checked_close_of
#define sp_reclaim_begin sp_checked_reclaim_begin
#define sp_reclaim_end sp_checked_reclaim_end
#define sp_stop sp_checked_stop
#define sp_start_thread sp_checked_start_thread
#define sp_exit_thread sp_checked_exit_thread
#define sp_end_thread sp_checked_end_thread
#define sp_enter_native sp_checked_enter_native
#define sp_leave_native sp_checked_leave_native
#define sp_enter_blocked sp_checked_enter_blocked
#define sp_leave_blocked sp_checked_leave_blocked
#define sp_drive sp_checked_drive
#define sp_drive_for sp_checked_drive_for
#define sp_drive_four sp_checked_drive_four
#define sp_at_safepoint sp_checked_at_safepoint
#define sp_wait_closed sp_checked_wait_closed
#define sp_wait_closed_for sp_checked_wait_closed_for
#define sp_wait_request sp_checked_wait_request
#define sp_late sp_checked_late
#define sp_reclaim sp_checked_reclaim
#define sp_unwind_to sp_checked_unwind_to
#define sp_unwind_thread sp_checked_unwind_thread
#define sp_switch sp_checked_switch
#define sp_system_make sp_checked_system_make
#define sp_system_join sp_checked_system_join
#define sp_system_free sp_checked_system_free
#endif

#endif
