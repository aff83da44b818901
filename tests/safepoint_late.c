/* Waits with an end, and who is late: each wait with a time that is over, and with one that isn't; and the hints about
   threads that run, that serve, and that nobody lists. tests/safepoint.py builds and runs it. */
#include <pthread.h>
#include <sched.h>
#include <stdatomic.h>
#include <stdio.h>
#include <stdlib.h>
#include <string.h>
#include <time.h>
#include <unistd.h>

#include "../crates/safepoint/include/safepoint_wait.h"

enum { MILLISECOND = 1000000, SHORT = 20 * MILLISECOND };
#define MINUTE ((uint64_t)60000 * MILLISECOND)

/* A thread of a host, by what it does until it `ends`: it polls if it `polls`, and its callback lasts while it
   `lingers`. */
struct one {
    struct sp_party party;
    pthread_t id;
    uint64_t name;
    atomic_bool polls, lingers, ends;
    atomic_long turns, served, is_ready;
};

static struct sp_party coordinator, client;
static struct one a, b;
static long operated;

static void judge(int line, const char *call, int64_t found, int64_t wanted) {
    if (found == wanted) return;
    printf("FAILED: %d: %s: %lld (%s), and not %lld\n", line, call, (long long)found, sp_text(found),
           (long long)wanted);
    exit(1);
}
#define IS(call, wanted) judge(__LINE__, #call, (int64_t)(call), (int64_t)(wanted))

static uint64_t now(void) {
    struct timespec at;
    clock_gettime(CLOCK_MONOTONIC, &at);
    return (uint64_t)at.tv_sec * 1000000000 + (uint64_t)at.tv_nsec;
}

/* The call returns SP_TIMEOUT, and not before so many nanoseconds are over. */
#define TIMES_OUT(call, nanoseconds)                         \
    do {                                                     \
        uint64_t begun_ = now();                             \
        IS(call, SP_TIMEOUT);                                \
        IS(now() - begun_ >= (uint64_t)(nanoseconds), true); \
    } while (0)

static void wait_for(const char *what, atomic_bool *flag, bool wanted) {
    for (uint64_t begun = now(); atomic_load(flag) != wanted; usleep(100))
        if (now() - begun > MINUTE) printf("FAILED: %s\n", what), exit(1);
}

static void at_safe_point(void *with, const struct sp_served *served) {
    struct one *it = with;
    if (served->kind == SP_CENSUS) operated++;
    if (!served->thread) return;
    atomic_fetch_add(&it->served, 1);
    wait_for("a callback that may return", &it->lingers, false);
}

static void *live(void *with) {
    struct one *me = with;
    me->name = (uint64_t)sp_start_thread(&me->party, at_safe_point, me);
    atomic_store(&me->is_ready, 1);
    for (; !atomic_load(&me->ends); atomic_fetch_add(&me->turns, 1), sched_yield()) {
        if (!atomic_load(&me->polls)) continue;
        if (sp_back_edge(&me->party) > 0) IS(sp_stop(&me->party, at_safe_point, me), 0);
    }
    IS(sp_exit_thread(&me->party, at_safe_point, me), 0);
    return NULL;
}

static void begin(struct one *it, bool polls) {
    memset(it, 0, sizeof *it);
    atomic_store(&it->polls, polls);
    IS(sp_fork(&coordinator, &it->party), 0);
    IS(pthread_create(&it->id, NULL, live, it), 0);
    while (!atomic_load(&it->is_ready)) sched_yield();
}

static void end(struct one *it) {
    atomic_store(&it->ends, true);
    IS(pthread_join(it->id, NULL), 0);
    sp_free(&it->party);
}

static int64_t ask_all(struct sp_party *party) {
    int64_t number;
    IS(sp_target_all(party), 0);
    SP_WAIT(number, sp_submit(party, SP_DEPTH, 0));
    IS(number > 0, true);
    return number;
}

static int64_t asked_census(void) {
    int64_t number;
    SP_WAIT(number, sp_census(&client));
    IS(number > 0, true);
    return number;
}

static int64_t pending(void) {
    int64_t number;
    SP_WAIT(number, sp_pending(&client));
    return number;
}

/* The thread alone is late, and the hint about it says so. */
static void is_late(const struct one *it, int state, int64_t operation) {
    struct sp_late_thread list[2];
    memset(list, 0, sizeof list);
    IS(sp_late(&coordinator, list, 2), 1);
    IS(list[0].name, it->name);
    IS(list[0].place, 0);
    IS(list[0].state, state);
    IS(list[0].operation, operation);
}

static void nothing_is_asked(void) {
    struct sp_party none = {0};
    IS(sp_drive_for(&coordinator, at_safe_point, NULL, 0), SP_QUEUE_EMPTY);
    IS(sp_drive_for(&coordinator, at_safe_point, NULL, UINT64_MAX), SP_QUEUE_EMPTY);
    IS(sp_drive_for(&client, at_safe_point, NULL, 0), SP_NOT_THIS);
    IS(sp_late(&coordinator, NULL, 0), 0);
    IS(sp_late(&client, NULL, 0), 0);
    IS(sp_late(&none, NULL, 0), SP_NOT_THIS);
    IS(sp_wait_request(&none, 0), SP_NOT_THIS);
    IS(sp_wait_closed_for(&none, 1, 0), SP_NOT_THIS);
    IS(sp_wait_closed_for(&client, 1, 0), 0);
    IS(sp_wait_request(&coordinator, 0), SP_TIMEOUT);
    TIMES_OUT(sp_wait_request(&client, SHORT), SHORT);
}

static void a_thread_that_runs_is_late(void) {
    begin(&a, false);
    int64_t number = ask_all(&client);
    IS(sp_wait_request(&coordinator, 0), number);
    IS(sp_drive_for(&coordinator, at_safe_point, NULL, 0), SP_TIMEOUT);
    is_late(&a, SP_LATE_RUNS, 0);
    TIMES_OUT(sp_drive_for(&coordinator, at_safe_point, NULL, SHORT), SHORT);
    is_late(&a, SP_LATE_RUNS, 0);
    IS(pending(), number);
    IS(sp_wait_request(&coordinator, 0), number);
    IS(sp_wait_closed_for(&client, (uint64_t)number, 0), SP_TIMEOUT);
    TIMES_OUT(sp_wait_closed_for(&client, (uint64_t)number, SHORT), SHORT);
    atomic_store(&a.polls, true);
    IS(sp_drive_for(&coordinator, at_safe_point, NULL, MINUTE), number);
    IS(sp_wait_closed_for(&client, (uint64_t)number, 0), 0);
    end(&a);
    IS(a.served, 1);
}

/* Tries of no time do all, one after the other: the thread comes between them. */
static void tries_of_no_time_end(void) {
    begin(&a, true);
    int64_t number = ask_all(&client), answer;
    uint64_t begun = now();
    while ((answer = sp_drive_for(&coordinator, at_safe_point, NULL, 0)) == SP_TIMEOUT && now() - begun < MINUTE)
        sched_yield();
    IS(answer, number);
    end(&a);
    IS(a.served, 1);
}

static void a_thread_that_serves_is_late(void) {
    struct sp_late_thread late = {0, 0, 0, 0};
    begin(&a, true);
    atomic_store(&a.lingers, true);
    int64_t number = ask_all(&client);
    for (uint64_t begun = now(); late.state != SP_LATE_SERVES && now() - begun < MINUTE;) {
        TIMES_OUT(sp_drive_for(&coordinator, at_safe_point, NULL, MILLISECOND), MILLISECOND);
        IS(sp_late(&coordinator, &late, 1), 1);
    }
    is_late(&a, SP_LATE_SERVES, number);
    atomic_store(&a.lingers, false);
    IS(sp_drive_for(&coordinator, at_safe_point, NULL, UINT64_MAX), number);
    end(&a);
    IS(a.served, 1);
}

/* Of a census the one that polls is held over the end of the time, and the other is late. */
static void a_census_goes_on(void) {
    struct sp_late_thread list[2] = {{0, 0, 0, 0}, {7, 7, 7, 7}};
    begin(&a, false);
    begin(&b, true);
    int64_t number = asked_census();
    IS(sp_drive_for(&coordinator, at_safe_point, NULL, 0), SP_TIMEOUT);
    for (uint64_t began = now(); sp_late(&coordinator, list, 2) != 1 && now() - began < MINUTE;)
        TIMES_OUT(sp_drive_for(&coordinator, at_safe_point, NULL, MILLISECOND), MILLISECOND);
    is_late(&a, SP_LATE_RUNS, 0);
    long turns = atomic_load(&b.turns), others = atomic_load(&a.turns);
    TIMES_OUT(sp_drive_for(&coordinator, at_safe_point, NULL, SHORT), SHORT);
    IS(atomic_load(&b.turns), turns);
    for (uint64_t began = now(); atomic_load(&a.turns) == others && now() - began < MINUTE;) sched_yield();
    IS(atomic_load(&a.turns) > others, true);
    atomic_store(&a.polls, true);
    IS(sp_drive_for(&coordinator, at_safe_point, NULL, MINUTE), number);
    IS(operated, 1);
    end(&b);
    end(&a);
}

/* More are late than the list has room for. */
static void a_list_is_short(void) {
    struct sp_late_thread list[2] = {{0, 0, 0, 0}, {7, 7, 7, 7}};
    begin(&a, false);
    begin(&b, false);
    int64_t number = ask_all(&client);
    IS(sp_drive_for(&coordinator, at_safe_point, NULL, 0), SP_TIMEOUT);
    IS(sp_late(&coordinator, list, 1), 2);
    IS(list[0].name, a.name);
    IS(list[1].name, 7);
    IS(sp_late(&coordinator, list, 2), 2);
    IS(list[1].name, b.name);
    IS(list[1].place, 1);
    atomic_store(&a.polls, true);
    atomic_store(&b.polls, true);
    IS(sp_drive_for(&coordinator, at_safe_point, NULL, MINUTE), number);
    end(&b);
    end(&a);
}

/* A thread that the host starts and stops by its own loops isn't listed. */
static void an_own_loop_is_unknown(void) {
    struct one it;
    memset(&it, 0, sizeof it);
    IS(sp_fork(&coordinator, &it.party), 0);
    int64_t name = sp_start(&it.party), number = ask_all(&client);
    it.name = (uint64_t)name;
    IS(sp_drive_for(&coordinator, at_safe_point, NULL, 0), SP_TIMEOUT);
    is_late(&it, SP_LATE_UNKNOWN, 0);
    IS(sp_back_edge(&it.party), number);
    IS(sp_stop(&it.party, at_safe_point, &it), 0);
    IS(sp_drive_for(&coordinator, at_safe_point, NULL, 0), number);
    IS(sp_exit_thread(&it.party, at_safe_point, &it), 0);
    sp_free(&it.party);
}

static struct sp_party x, y, of_x, of_y;

static void look_at_x(void *with, const struct sp_served *served) {
    struct sp_late_thread late;
    (void)served;
    IS(sp_late(&x, &late, 1), 1);
    *(int *)with = late.state;
}

/* Two systems have a thread of one name at one place. While these do different things, nothing is known. */
static void two_systems_are_told_apart(void) {
    struct sp_late_thread late;
    int state = -1;
    IS(sp_make(&x, 2, 2, 2), 0);
    IS(sp_make(&y, 2, 2, 2), 0);
    IS(sp_fork(&x, &of_x), 0);
    IS(sp_fork(&y, &of_y), 0);
    IS(sp_start_thread(&of_x, NULL, NULL), 1);
    IS(sp_start_thread(&of_y, NULL, NULL), 1);
    IS(ask_all(&x), 1);
    IS(ask_all(&y), 1);
    IS(sp_drive_for(&x, at_safe_point, NULL, 0), SP_TIMEOUT);
    IS(sp_drive_for(&y, at_safe_point, NULL, 0), SP_TIMEOUT);
    IS(sp_late(&x, &late, 1), 1);
    IS(late.state, SP_LATE_RUNS);
    IS(sp_back_edge(&of_y), 1);
    IS(sp_stop(&of_y, look_at_x, &state), 0);
    IS(state, SP_LATE_UNKNOWN);
    IS(sp_exit_thread(&of_y, NULL, NULL), 0);
    IS(sp_back_edge(&of_x), 1);
    IS(sp_stop(&of_x, look_at_x, &state), 0);
    IS(state, SP_LATE_SERVES);
    IS(sp_exit_thread(&of_x, NULL, NULL), 0);
    sp_free(&of_x), sp_free(&of_y), sp_free(&x), sp_free(&y);
}

/* --- requests that are waited for --- */

static atomic_bool is_asked, is_closed;
static bool rings;

static void *ask_later(void *with) {
    usleep(SHORT / 1000);
    *(int64_t *)with = asked_census();
    if (rings) sp_ring();
    return NULL;
}

static void a_request_is_waited_for(void) {
    for (int turn = 0; turn < 2; turn++) {
        pthread_t id;
        int64_t number = 0, found;
        rings = turn == 0;
        IS(pthread_create(&id, NULL, ask_later, &number), 0);
        found = sp_wait_request(&coordinator, turn ? UINT64_MAX : MINUTE);
        IS(pthread_join(id, NULL), 0);
        IS(found, number);
        IS(sp_drive_for(&coordinator, at_safe_point, NULL, 0), number);
    }
}

static void *wait_for_close(void *with) {
    atomic_store(&is_asked, true);
    IS(sp_wait_closed_for(with, UINT64_MAX, MINUTE), 0);
    atomic_store(&is_closed, true);
    return NULL;
}

static void a_close_is_waited_for(void) {
    pthread_t id;
    int64_t number = asked_census();
    IS(pthread_create(&id, NULL, wait_for_close, &client), 0);
    wait_for("a thread that waits", &is_asked, true);
    usleep(SHORT / 1000);
    IS(atomic_load(&is_closed), false);
    IS(sp_drive_for(&coordinator, at_safe_point, NULL, MINUTE), number);
    IS(pthread_join(id, NULL), 0);
    IS(atomic_load(&is_closed), true);
}

int main(void) {
    IS(sp_make(&coordinator, 4, 4, 4), 0);
    IS(sp_fork(&coordinator, &client), 0);
    nothing_is_asked();
    a_thread_that_runs_is_late();
    tries_of_no_time_end();
    a_thread_that_serves_is_late();
    a_census_goes_on();
    a_list_is_short();
    an_own_loop_is_unknown();
    two_systems_are_told_apart();
    a_request_is_waited_for();
    a_close_is_waited_for();
    sp_free(&client);
    sp_free(&coordinator);
    puts("ok");
    return 0;
}
