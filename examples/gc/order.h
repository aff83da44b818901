/* What a stop orders, in words that ThreadSanitizer knows.

   A thread that stops or gives its stack away is ordered before what the coordinator then does for it, and that is
   ordered before what the thread does when it continues. The library's atomics give this order, and a host needs
   nothing else. But the library's archive isn't instrumented, so ThreadSanitizer doesn't see its atomics. A host that
   is compiled with -fsanitize=thread states the order by the functions below; elsewhere they do nothing.

   They order no thread with another one, except through the coordinator. So a race between two threads is found. */
#ifndef ORDER_H
#define ORDER_H

#if defined(__SANITIZE_THREAD__)
#define SEES_RACES
#elif defined(__has_feature)
#if __has_feature(thread_sanitizer)
#define SEES_RACES
#endif
#endif

#ifdef SEES_RACES
#include <sanitizer/tsan_interface.h>
#define ORDER_ACQUIRE(at) __tsan_acquire(at)
#define ORDER_RELEASE(at) __tsan_release(at)
#else
#define ORDER_ACQUIRE(at) ((void)(at))
#define ORDER_RELEASE(at) ((void)(at))
#endif

/* Only the addresses of the two matter. */
struct order {
    long stopped, let_go;
};

/* A thread, before it stops or gives its stack away, and after it has its stack back. */
static inline void order_give(struct order *it) { ORDER_RELEASE(&it->stopped); }
static inline void order_take(struct order *it) { ORDER_ACQUIRE(&it->let_go); }

/* The coordinator, when all threads or one thread are held, and before it lets them go. */
static inline void order_hold(struct order *it) { ORDER_ACQUIRE(&it->stopped); }
static inline void order_let_go(struct order *it) { ORDER_RELEASE(&it->let_go); }

#endif
