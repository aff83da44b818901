/* What tests/watching.py looks at from outside: watched HOW. A coordinator and six threads: the first polls, the second
   is in native code, the third is blocked, the fourth never polls, the fifth is in the VM, and the sixth polls, but
   doesn't stop. Each prints its name, its place, its thread of the machine and what it does. Then the coordinator
   drives a request, by HOW:

   shake    a handshake of the first three, which ends. The program prints what each probe of it must show, and ends
   stuck    a handshake of the first four, which doesn't end, since the fourth never polls
   four     six such handshakes, of which four are open
   census   a census of all, which doesn't end, since the last three don't come
   held     a handshake of the second, whose callback doesn't return
   serving  a handshake of the first, whose callback doesn't return
   lingers  a handshake of the sixth, which doesn't end

   Once nothing moves any more, it prints `stuck` and calls `look_now`. */
#define _GNU_SOURCE
#include <pthread.h>
#include <stdatomic.h>
#include <stdio.h>
#include <stdlib.h>
#include <string.h>
#include <sys/prctl.h>
#include <sys/syscall.h>
#include <unistd.h>

#include "../crates/safepoint/include/safepoint_wait.h"

enum kind { POLLS, NATIVE, BLOCKED, NEVER_POLLS, IN_VM, LINGERS, COUNT };
enum { MILLISECOND = 1000, SLOWLY = 20 * MILLISECOND, LONG = 500 * MILLISECOND, REQUESTS = 6 };

static const char *const words[COUNT] = {"polls", "native", "blocked", "never", "vm", "lingers"};

/* A request: its targets, from the first to before the end, and how many callbacks run before nothing moves. Without
   targets it is a census. */
struct way {
    const char *how;
    int first, end, callbacks;
};
static const struct way ways[] = {
    {"shake", POLLS, NEVER_POLLS, 3}, {"stuck", POLLS, IN_VM, 3},    {"four", POLLS, IN_VM, 3},
    {"held", NATIVE, BLOCKED, 1},     {"serving", POLLS, NATIVE, 1}, {"lingers", LINGERS, COUNT, 0},
    {"census", 0, 0, 0},
};

struct one {
    struct sp_party party;
    pthread_t thread;
    enum kind kind;
    uint64_t name;
};

static struct sp_party coordinator;
static struct one all[COUNT];
static atomic_int ready, ends, served;
static atomic_bool tells;
static bool keeps_callback;

static void must(const char *what, int64_t answer) {
    if (answer >= 0) return;
    printf("FAILED: %s: %s\n", what, sp_text(answer));
    exit(1);
}

__attribute__((noinline)) void look_now(void) { __asm__ volatile("" ::: "memory"); }

static void at_safe_point(void *with, const struct sp_served *call) {
    long long name = call->thread ? sp_name(call->thread) : 0;
    if (atomic_load(&tells)) printf("callback %llu %lld %zu\n", (unsigned long long)call->operation, name, call->place);
    if (call->thread && &((struct one *)with)->party != call->thread) must("the thread of a callback", SP_NOT_THIS);
    atomic_fetch_add(&served, 1);
    while (keeps_callback) usleep(MILLISECOND);
}

/* In `shake` the thread that polls comes last, once the coordinator sleeps for it. */
static void come_last(void) {
    while (atomic_load(&served) < 2) usleep(MILLISECOND);
    usleep(LONG);
}

static void poll_once(struct one *me) {
    struct sp_party *party = &me->party;
    usleep(SLOWLY);
    if (atomic_load(&tells)) come_last();
    if (sp_state(party) == SP_AT_POLL || sp_back_edge(party) <= 0 || me->kind == LINGERS) return;
    if (atomic_load(&tells)) printf("stop %llu %lld\n", (unsigned long long)me->name, (long long)sp_place(party));
    must("sp_stop", sp_stop(party, at_safe_point, me));
}

static void go_there(struct one *me) {
    struct sp_party *party = &me->party;
    if (me->kind == NATIVE) must("sp_enter_native", sp_enter_native(party));
    if (me->kind == BLOCKED || me->kind == IN_VM) must("sp_to_vm", sp_to_vm(party));
    if (me->kind == BLOCKED) must("sp_enter_blocked", sp_enter_blocked(party));
}

static void come_back(struct one *me) {
    struct sp_party *party = &me->party;
    if (me->kind == NATIVE) must("sp_leave_native", sp_leave_native(party, at_safe_point, me));
    if (me->kind == BLOCKED) must("sp_leave_blocked", sp_leave_blocked(party, at_safe_point, me));
    if (me->kind == BLOCKED || me->kind == IN_VM) must("sp_from_vm", sp_from_vm(party));
}

static void *live(void *with) {
    struct one *me = with;
    int64_t name = sp_start_thread(&me->party, at_safe_point, me);
    must("sp_start_thread", name);
    me->name = (uint64_t)name;
    long long place = sp_place(&me->party);
    printf("thread %lld %lld %ld %s\n", (long long)name, place, syscall(SYS_gettid), words[me->kind]);
    go_there(me);
    atomic_fetch_add(&ready, 1);
    while (!atomic_load(&ends))
        if (me->kind == POLLS || me->kind == LINGERS) poll_once(me);
        else usleep(MILLISECOND);
    come_back(me);
    must("sp_exit_thread", sp_exit_thread(&me->party, at_safe_point, me));
    return NULL;
}

/* Calls look_now once so many callbacks have run and the coordinator has slept for the others. */
static void *look(void *with) {
    while (atomic_load(&served) < *(const int *)with) usleep(MILLISECOND);
    usleep(LONG);
    printf("stuck\n");
    look_now();
    return NULL;
}

static int64_t asked(const struct way *way) {
    int64_t number;
    for (int i = way->first; i < way->end; i++) must("sp_target", sp_target(&coordinator, all[i].name));
    if (way->end) SP_WAIT(number, sp_submit(&coordinator, SP_DEPTH, 0));
    else SP_WAIT(number, sp_census(&coordinator));
    must("a request", number);
    return number;
}

static void start(void) {
    must("sp_make", sp_make(&coordinator, 8, 16, 4));
    for (int i = 0; i < COUNT; i++) {
        all[i].kind = (enum kind)i;
        must("sp_fork", sp_fork(&coordinator, &all[i].party));
        pthread_create(&all[i].thread, NULL, live, &all[i]);
        while (atomic_load(&ready) <= i) usleep(MILLISECOND);
    }
    printf("coordinator %ld %p\n", syscall(SYS_gettid), (void *)&coordinator);
}

static void end(void) {
    atomic_store(&ends, 1);
    for (int i = 0; i < COUNT; i++) pthread_join(all[i].thread, NULL);
}

static const struct way *way_of(const char *how) {
    for (size_t i = 0; i < sizeof ways / sizeof *ways; i++)
        if (!strcmp(ways[i].how, how)) return &ways[i];
    exit(2);
}

int main(int count, char **given) {
    const struct way *way = way_of(count > 1 ? given[1] : "");
    pthread_t looking;
    setvbuf(stdout, NULL, _IOLBF, 0);
    prctl(PR_SET_PTRACER, PR_SET_PTRACER_ANY, 0, 0, 0); /* any gdb of the user may attach */
    start();
    atomic_store(&tells, way == ways);
    keeps_callback = !strcmp(way->how, "held") || !strcmp(way->how, "serving");
    if (!atomic_load(&tells)) pthread_create(&looking, NULL, look, (void *)&way->callbacks);
    int64_t number = asked(way);
    if (!strcmp(way->how, "four")) {
        for (int i = 1; i < REQUESTS; i++) asked(way);
        must("sp_drive_four", sp_drive_four(&coordinator, at_safe_point, NULL));
    }
    must("sp_drive", sp_drive(&coordinator, at_safe_point, NULL));
    printf("closed %lld\n", (long long)number);
    end();
}
