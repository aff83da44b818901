/* Static probes of the waits, for perf, bpftrace, SystemTap and gdb. safepoint_waiting.h includes this page if the
   waits are compiled with -DSP_USDT, which needs <sys/sdt.h> (systemtap-sdt-dev of Debian). The provider is
   `safepoint`.

   probe            where                                            arguments
   request__begin   sp_drive begins to work on the oldest request    coordinator
   request__end     sp_drive returns                                 coordinator, number or refusal
   stop__begin      a thread comes to a stop                         name, place
   stop__end        the thread continues                             name, place
   callback__begin  the host's callback is called                    number, name, place
   callback__end    the callback has returned                        number, name, place
   wait__begin      a party falls asleep                             awaited, nanoseconds at most
   wait__end        the party wakes                                  awaited

   `coordinator` is the address of the coordinator's party. The name is 0 where the coordinator runs a callback for the
   held thread of the place. `awaited` is how many threads a coordinator waits for, and 0 of any other party.

   Each probe is one place in the program, in safepoint_listed.c, and has a word that counts who watches it (a
   semaphore). Its arguments are worked out only where that isn't 0, so a probe that nobody watches costs a load and a
   branch. */
#ifndef SAFEPOINT_PROBES_H
#define SAFEPOINT_PROBES_H

#define _SDT_HAS_SEMAPHORES 1
#include <sys/sdt.h>

#if __has_attribute(noipa)
#define ONE_PLACE __attribute__((noipa, cold))
#else
#define ONE_PLACE __attribute__((noinline, cold))
#endif
#define HIDDEN __attribute__((visibility("hidden")))
#define SEMAPHORE(probe) HIDDEN extern volatile unsigned short safepoint_##probe##_semaphore
#ifdef PROBE_PLACES
#define PLACE(probe, parameters, note)                                                         \
    SEMAPHORE(probe);                                                                          \
    __attribute__((section(".probes"))) volatile unsigned short safepoint_##probe##_semaphore; \
    HIDDEN void sp_waiting_##probe parameters;                                                 \
    ONE_PLACE void sp_waiting_##probe parameters { note; }
#else
#define PLACE(probe, parameters, note) \
    SEMAPHORE(probe);                  \
    HIDDEN void sp_waiting_##probe parameters;
#endif
#define PROBE1(probe) PLACE(probe, (int64_t a), STAP_PROBE1(safepoint, probe, a))
#define PROBE2(probe) PLACE(probe, (int64_t a, int64_t b), STAP_PROBE2(safepoint, probe, a, b))
#define PROBE3(probe) PLACE(probe, (int64_t a, int64_t b, int64_t c), STAP_PROBE3(safepoint, probe, a, b, c))

PROBE1(request__begin)
PROBE2(request__end)
PROBE2(stop__begin)
PROBE2(stop__end)
PROBE3(callback__begin)
PROBE3(callback__end)
PROBE2(wait__begin)
PROBE1(wait__end)

#define PROBE(probe, ...)                                                                        \
    do {                                                                                         \
        if (__builtin_expect(safepoint_##probe##_semaphore, 0)) sp_waiting_##probe(__VA_ARGS__); \
    } while (0)

#endif
