/* What sp_stats counts and which lines sp_log_to writes: nothing unless they are asked for; each request, each callback
   and each wait once; and times that fit one another. tests/safepoint.py builds and runs it. */
#include <pthread.h>
#include <sched.h>
#include <stdatomic.h>
#include <stdio.h>
#include <stdlib.h>
#include <string.h>
#include <time.h>
#include <unistd.h>

#include "../crates/safepoint/include/safepoint_wait.h"

enum { MILLISECOND = 1000000, LONG = 20 * MILLISECOND, LINES = 64, ROOM = 256 };

static struct sp_party coordinator, held, polls;
static int64_t held_name;
static atomic_bool may_poll, ends, is_ready;
static atomic_bool lingers;
static atomic_long turns;
static char lines[LINES][ROOM];
static int written;

static void judge(int line, const char *call, int64_t found, int64_t wanted) {
    if (found == wanted) return;
    printf("FAILED: %d: %s: %lld, and not %lld\n", line, call, (long long)found, (long long)wanted);
    exit(1);
}
#define IS(call, wanted) judge(__LINE__, #call, (int64_t)(call), (int64_t)(wanted))

static struct sp_statistics counted(void) {
    struct sp_statistics stats;
    memset(&stats, 7, sizeof stats);
    sp_stats(&stats);
    return stats;
}

static uint64_t all_of(const struct sp_times *times) {
    uint64_t all = 0;
    for (int i = 0; i < SP_POWERS; i++) all += times->powers[i];
    return all;
}

/* So many times, whose sum, greatest and powers fit one another. */
static void are_times(int line, const struct sp_times *times, uint64_t count) {
    uint64_t least = 0, most = 0;
    for (int i = 0; i < SP_POWERS; i++) {
        least += i ? times->powers[i] << i : 0;
        most += times->powers[i] * ((2ull << i) - 1);
        if (times->powers[i] && i) judge(line, "a greatest of its power", times->greatest >= 1ull << i, true);
    }
    judge(line, "the count", (int64_t)all_of(times), (int64_t)count);
    judge(line, "the sum", least <= times->sum && times->sum <= most && times->greatest <= times->sum, true);
}
#define ARE_TIMES(times, count) are_times(__LINE__, &(times), (count))

static void at_safe_point(void *with, const struct sp_served *served) {
    (void)with, (void)served;
    if (atomic_load(&lingers)) usleep(LONG / 1000);
}

static void *live(void *with) {
    int64_t answer = sp_start_thread(&polls, at_safe_point, NULL);
    IS(answer > 0, true);
    atomic_store(&is_ready, true);
    for (; !atomic_load(&ends); atomic_fetch_add(&turns, 1), sched_yield())
        if (atomic_load(&may_poll) && (answer = sp_back_edge(&polls)) > 0)
            IS(sp_stop(&polls, at_safe_point, NULL), 0);
    IS(sp_exit_thread(&polls, at_safe_point, NULL), 0);
    return with;
}

/* From here on the thread doesn't poll. A turn that has begun may still do so. */
static void end_polls(void) {
    long begun = atomic_load(&turns);
    atomic_store(&may_poll, false);
    while (atomic_load(&turns) - begun < 2) sched_yield();
}

static void *poll_later(void *with) {
    usleep(LONG / 1000);
    atomic_store(&may_poll, true);
    return with;
}

static void write_line(void *with, const char *line) {
    IS(with == lines, true);
    IS(strlen(line) < ROOM && written < LINES, true);
    strcpy(lines[written++], line);
}

static int64_t ask_all(void) {
    int64_t number;
    IS(sp_target_all(&coordinator), 0);
    SP_WAIT(number, sp_submit(&coordinator, SP_DEPTH, 0));
    return number;
}

static void drive_all(int64_t wanted) { IS(sp_drive(&coordinator, at_safe_point, NULL), wanted); }

static void nothing_is_counted(void) {
    struct sp_statistics stats = counted(), none;
    memset(&none, 0, sizeof none);
    IS(memcmp(&stats, &none, sizeof none), 0);
}

/* One thread is held, the other comes by itself: three callbacks for a handshake and a census. */
static void requests_are_counted(void) {
    sp_stats_on(true);
    drive_all(ask_all());
    int64_t number = sp_at_safepoint(&coordinator, at_safe_point, NULL);
    IS(number > 0, true);
    struct sp_statistics stats = counted();
    IS(stats.handshakes, 1);
    IS(stats.censuses, 1);
    ARE_TIMES(stats.to_handshake, 1);
    ARE_TIMES(stats.to_safepoint, 1);
    ARE_TIMES(stats.callbacks, 3);
    IS(sp_drive(&coordinator, at_safe_point, NULL), SP_QUEUE_EMPTY);
    stats = counted();
    IS(stats.handshakes + stats.censuses, 2);
}

/* Whether the coordinator waited for the thread, and was woken by it. */
static bool has_waited(const struct sp_statistics *stats) {
    return stats->spins && stats->naps && stats->wakes && stats->to_handshake.greatest >= LONG / 2;
}

/* The thread polls late. On a busy machine it may come before the coordinator waits for it: then in a further turn. */
static void a_late_thread_is_counted(void) {
    pthread_t id;
    struct sp_statistics stats = {0};
    for (int turn = 0; turn < 1000 && !has_waited(&stats); turn++) {
        sp_stats_on(true);
        end_polls();
        int64_t number = ask_all();
        IS(pthread_create(&id, NULL, poll_later, NULL), 0);
        drive_all(number);
        IS(pthread_join(id, NULL), 0);
        stats = counted();
        IS(stats.handshakes, 1);
        ARE_TIMES(stats.to_handshake, 1);
    }
    IS(has_waited(&stats), true);
    for (int turn = 0; turn < 1000 && !counted().yields; turn++) IS(sp_wait_request(&coordinator, LONG), SP_TIMEOUT);
    IS(counted().yields > 0, true);
}

static void a_long_callback_is_counted(void) {
    sp_stats_on(true);
    atomic_store(&lingers, true);
    drive_all(ask_all());
    atomic_store(&lingers, false);
    struct sp_statistics stats = counted();
    ARE_TIMES(stats.callbacks, 2);
    IS(stats.callbacks.sum >= 2 * LONG, true);
    IS(stats.callbacks.greatest >= LONG, true);
}

/* What is off counts nothing more, and keeps what it has. */
static void it_ends(void) {
    struct sp_statistics before = counted(), stats;
    sp_stats_on(false);
    before = counted();
    drive_all(ask_all());
    stats = counted();
    IS(memcmp(&stats, &before, sizeof stats), 0);
    sp_stats_on(true);
    sp_stats_on(false);
    nothing_is_counted();
}

struct line {
    long long number;
    unsigned long long since, reaching, at, total;
    unsigned targets, executed;
};

static struct line safepoint_of(const char *text) {
    struct line it;
    int end = -1;
    sscanf(text, "Safepoint \"Operation %lld\", Time since last: %llu ns, Reaching safepoint: %llu ns, "
           "At safepoint: %llu ns, Total: %llu ns%n", &it.number, &it.since, &it.reaching, &it.at, &it.total, &end);
    if (end != (int)strlen(text)) printf("FAILED: %s\n", text), exit(1);
    IS(it.reaching + it.at, it.total);
    return it;
}

static struct line handshake_of(const char *text) {
    struct line it;
    int end = -1;
    sscanf(text, "Handshake \"Operation %lld\", Targeted threads: %u, Executed by requesting thread: %u, "
           "Total completion time: %llu ns%n", &it.number, &it.targets, &it.executed, &it.total, &end);
    if (end != (int)strlen(text)) printf("FAILED: %s\n", text), exit(1);
    return it;
}

static void lines_are_written(void) {
    sp_log_to(write_line, lines);
    int64_t number = ask_all();
    drive_all(number);
    IS(written, 1);
    struct line it = handshake_of(lines[0]);
    IS(it.number, number);
    IS(it.targets, 2);
    IS(it.executed, 1);
    atomic_store(&lingers, true);
    number = sp_at_safepoint(&coordinator, at_safe_point, NULL);
    atomic_store(&lingers, false);
    IS(written, 2);
    it = safepoint_of(lines[1]);
    IS(it.number, number);
    IS(it.at >= LONG, true);
    number = sp_at_safepoint(&coordinator, at_safe_point, NULL);
    IS(written, 3);
    IS(safepoint_of(lines[2]).number, number);
    IS(sp_target(&coordinator, (uint64_t)held_name), 0);
    SP_WAIT(number, sp_submit(&coordinator, SP_DEPTH, 0));
    drive_all(number);
    IS(handshake_of(lines[3]).targets, 1);
}

/* A census over two drives is one line, from the beginning of the first. */
static void a_line_has_all_drives(void) {
    int before = written;
    int64_t number;
    end_polls();
    SP_WAIT(number, sp_census(&coordinator));
    IS(sp_drive_for(&coordinator, at_safe_point, NULL, LONG), SP_TIMEOUT);
    IS(written, before);
    atomic_store(&may_poll, true);
    drive_all(number);
    IS(written, before + 1);
    IS(safepoint_of(lines[before]).reaching >= LONG, true);
    sp_log_to(NULL, NULL);
    drive_all(ask_all());
    IS(written, before + 1);
}

int main(void) {
    pthread_t id;
    IS(sp_make(&coordinator, 4, 4, 4), 0);
    IS(sp_fork(&coordinator, &held), 0);
    IS(sp_fork(&coordinator, &polls), 0);
    held_name = sp_start_thread(&held, at_safe_point, NULL);
    IS(held_name > 0, true);
    IS(sp_enter_native(&held), 0);
    atomic_store(&may_poll, true);
    IS(pthread_create(&id, NULL, live, NULL), 0);
    while (!atomic_load(&is_ready)) sched_yield();
    drive_all(ask_all());
    nothing_is_counted();
    requests_are_counted();
    a_late_thread_is_counted();
    a_long_callback_is_counted();
    it_ends();
    lines_are_written();
    a_line_has_all_drives();
    atomic_store(&ends, true);
    IS(pthread_join(id, NULL), 0);
    IS(sp_end_thread(&held, at_safe_point, NULL), 0);
    sp_free(&held), sp_free(&polls), sp_free(&coordinator);
    puts("ok");
    return 0;
}
