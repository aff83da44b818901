/* Threads that start while censuses are open: attach THREADS STARTS. Each start waits and succeeds, and the tries of
   sp_start that a census refuses are counted. It is linked with --wrap=sp_start. */
#include "host.h"

enum { OPEN = 300000 /* microseconds of a long census */ };

static struct sp_system joined;
static struct sp_party *coordinator;
static atomic_bool goes_on; /* a thread that has exited starts again */
static atomic_int trying, done;
static atomic_long refused, starts;

int64_t __real_sp_start(struct sp_party *thread);
int64_t __wrap_sp_start(struct sp_party *thread);
int64_t __wrap_sp_start(struct sp_party *thread) {
    static _Thread_local bool has_tried;
    int64_t answer = __real_sp_start(thread);
    if (answer == SP_SAFEPOINT_OPEN) atomic_fetch_add(&refused, 1);
    if (answer == SP_SAFEPOINT_OPEN && !has_tried) has_tried = true, atomic_fetch_add(&trying, 1);
    return answer;
}

static void *live(void *with) {
    do {
        struct sp_party thread = {0};
        IS(sp_system_join(&joined, &thread), 0);
        must("sp_start_thread", sp_start_thread(&thread, NULL, NULL));
        atomic_fetch_add(&starts, 1);
        if (must("sp_back_edge", sp_back_edge(&thread))) IS(sp_stop(&thread, NULL, NULL), 0);
        IS(sp_exit_thread(&thread, NULL, NULL), 0);
        sp_free(&thread);
        nap(100);
    } while (atomic_load(&goes_on));
    atomic_fetch_add(&done, 1);
    return with;
}

static void begin(pthread_t *ids, int threads, bool again) {
    atomic_store(&goes_on, again), atomic_store(&done, 0), atomic_store(&starts, 0), atomic_store(&refused, 0);
    atomic_store(&trying, 0);
    for (int i = 0; i < threads; i++)
        if (pthread_create(&ids[i], NULL, live, NULL)) exit(2);
}

static void end(pthread_t *ids, int threads) {
    for (int i = 0; i < threads; i++) pthread_join(ids[i], NULL);
}

/* All start while one census is open: how many tries it refused. Its end wakes them, or, where nobody rings, a nap
   ends. */
static long during_one(int threads, bool rings) {
    pthread_t ids[MOST];
    int64_t number;
    DONE(number, sp_census(coordinator));
    IS(sp_open(coordinator), number);
    double opened = seconds();
    begin(ids, threads, false);
    while (atomic_load(&trying) < threads) nap(1000);
    nap(OPEN);
    if (atomic_load(&done)) fail("a thread has started while a census is open", 0);
    IS(sp_operate(coordinator), number);
    IS(sp_close(coordinator), number);
    if (rings) sp_ring();
    end(ids, threads);
    /* naps last up to 16 ms, and the first five less */
    if (atomic_load(&refused) > threads * (long)(20 + (seconds() - opened) * 100))
        fail("so many tries during one census", atomic_load(&refused));
    return atomic_load(&refused);
}

static void operate(void *with, const struct sp_served *served) {
    (void)with, (void)served;
    nap(200);
}

/* All start and exit while one VM operation follows another, until there were so many starts: how many operations. Each
   of these lets those that wait try, and rings three times at most. */
static long during_many(int threads, long wanted) {
    pthread_t ids[MOST];
    int64_t number;
    long operations = 0;
    double begun = seconds();
    begin(ids, threads, true);
    for (long before = atomic_load(&starts); atomic_load(&starts) - before < wanted; operations++) {
        must("sp_at_safepoint", sp_at_safepoint(coordinator, operate, NULL));
        DONE(number, sp_forget(coordinator));
    }
    atomic_store(&goes_on, false);
    end(ids, threads);
    long naps = threads * (long)((seconds() - begun) * 100), rung = 3 * threads * operations;
    if (atomic_load(&refused) > 8 * atomic_load(&starts) + rung + naps) fail("so many tries", atomic_load(&refused));
    return operations;
}

int main(int count, char **words) {
    int threads = threads_of(count, words), each = count > 2 ? atoi(words[2]) : 10;
    must("sp_system_make", sp_system_make(&joined, MOST, 1, 1));
    coordinator = sp_system_coordinator(&joined);
    long with_ring = during_one(threads, true), without = during_one(threads, false);
    long operations = during_many(threads, (long)threads * each);
    printf("%d threads, %ld starts beside %ld VM operations, which refused %ld tries; a census refused %ld and %ld\n",
           threads, atomic_load(&starts), operations, atomic_load(&refused), with_ring, without);
    sp_system_free(&joined);
    return 0;
}
