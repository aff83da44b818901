/* Threads that poll in line and make no other call that polls, beside coordinators: safepoint_polls THREADS ROUNDS. Two
   systems are driven at a time. Each callback runs once for each target, and the word is 0 where nothing is driven.
   It ends by itself. tests/inline.py builds and runs it. */
#include <pthread.h>
#include <sched.h>
#include <stdatomic.h>
#include <stdio.h>
#include <stdlib.h>
#include <unistd.h>

#include "../crates/safepoint/include/safepoint_wait.h"

enum { MOST = 32, SYSTEMS = 2 };

#define IS(call, wanted) is(__LINE__, #call, (call), (wanted))

static void is(int line, const char *what, int64_t found, int64_t wanted) {
    if (found == wanted) return;
    printf("line %d: %s is %lld (%s), and not %lld\n", line, what, (long long)found, sp_text(found), (long long)wanted);
    exit(1);
}

static uint32_t word(const struct sp_party *party) { return __atomic_load_n(sp_poll_word(party), __ATOMIC_RELAXED); }

/* --- one thread: the word of each call --- */

static struct sp_party coordinator, thread, client;
static uint32_t seen;
static int kinds[SP_CENSUS + 1];

static void note_word(void *with, const struct sp_served *served) {
    (void)with;
    seen = word(&coordinator);
    kinds[served->kind]++;
}

static int64_t asked(void) {
    IS(sp_target(&coordinator, (uint64_t)sp_name(&thread)), 0);
    return sp_submit(&coordinator, SP_DEPTH, 0);
}

static void drives_that_find_nothing(void) {
    IS(word(&coordinator), 0);
    IS(sp_drive(&coordinator, note_word, NULL), SP_QUEUE_EMPTY);
    IS(sp_drive_four(&coordinator, note_word, NULL), 0);
    IS(sp_drive(&client, note_word, NULL), SP_NOT_THIS);
    IS(sp_reclaim(&coordinator, 9, note_word, NULL), SP_UNKNOWN);
    IS(word(&coordinator), 0);
    sp_polls_begin();
    sp_polls_begin();
    IS(word(&coordinator), 2);
    sp_polls_end();
    IS(word(&thread), 1);
    sp_polls_end();
    IS(word(&thread), 0);
}

/* The thread is in native code, so the coordinator serves it. */
static void the_word_while_it_is_driven(void) {
    int64_t serial = sp_install(&coordinator, 0);
    IS(sp_enter_native(&thread), 0);
    IS(asked(), 1);
    IS(sp_drive(&coordinator, note_word, NULL), 1);
    IS(seen, 1);
    IS(asked(), 2);
    IS(asked(), 3);
    sp_polls_begin();
    IS(sp_drive_four(&coordinator, note_word, NULL), 2);
    IS(seen, 2);
    sp_polls_end();
    IS(sp_at_safepoint(&coordinator, note_word, NULL), 4);
    IS(seen, 1);
    IS(sp_invalidate(&coordinator, (uint64_t)serial), 0);
    seen = 9;
    IS(sp_reclaim(&coordinator, (uint64_t)serial, note_word, NULL), 0);
    IS(seen, 1);
    IS(word(&coordinator), 0);
    IS(sp_leave_native(&thread, note_word, NULL), 0);
    IS(kinds[SP_HANDSHAKE], 4);
    IS(kinds[SP_CENSUS], 1);
}

static void polls_elsewhere(void) {
    IS(sp_poll(&thread), 0);
    sp_polls_begin();
    IS(sp_poll(&thread), 0);
    IS(sp_poll(&client), SP_NOT_THIS);
    IS(sp_to_vm(&thread), 0);
    IS(sp_poll(&thread), SP_ILLEGAL);
    sp_polls_end();
#ifdef SP_CHECK
    IS(sp_poll(&thread), SP_ILLEGAL);
#else
    IS(sp_poll(&thread), 0);
    IS(sp_poll(&client), 0);
#endif
    IS(sp_from_vm(&thread), 0);
}

/* The host tells the thread by itself, and hints too late. */
static void a_missed_hint(bool is_hinted) {
    int64_t number = asked();
    IS(sp_open(&coordinator), number);
    IS(sp_tell(&coordinator, (uint64_t)sp_name(&thread)), number);
#ifndef SP_CHECK
    for (int i = 0; i < 1000; i++) IS(sp_poll(&thread), 0);
#endif
    IS(sp_state(&thread), SP_IN_JAVA);
    IS(sp_close(&coordinator), SP_NOT_DONE);
    if (is_hinted) sp_polls_begin();
    IS(is_hinted ? sp_poll(&thread) : sp_back_edge(&thread), number);
    IS(sp_stop(&thread, note_word, NULL), 0);
    if (is_hinted) IS(sp_poll(&thread), 0), sp_polls_end();
    IS(sp_close(&coordinator), number);
}

static void one_thread(void) {
    IS(sp_make(&coordinator, 2, 4, 2), 0);
    IS(sp_fork(&coordinator, &thread), 0);
    IS(sp_fork(&coordinator, &client), 0);
    IS(sp_start_thread(&thread, note_word, NULL), 1);
    drives_that_find_nothing();
    the_word_while_it_is_driven();
    polls_elsewhere();
    a_missed_hint(true);
    a_missed_hint(false);
    IS(sp_exit_thread(&thread, note_word, NULL), 0);
    sp_free(&client);
    sp_free(&thread);
    sp_free(&coordinator);
}

/* --- threads that poll in line beside two coordinators --- */

struct system {
    struct sp_party coordinator, parties[MOST];
    pthread_t ids[MOST], driver;
    atomic_int ready, ran;
    atomic_bool ends;
};

static int count, rounds;
static atomic_long polls;

static void count_run(void *with, const struct sp_served *served) {
    struct system *it = with;
    if (served->kind == SP_HANDSHAKE) atomic_fetch_add(&it->ran, 1);
}

struct one {
    struct system *system;
    struct sp_party *party;
};

static void *poll_in_line(void *with) {
    struct one me = *(struct one *)with;
    long turns = 0;
    if (sp_start_thread(me.party, count_run, me.system) < 0) exit(1);
    IS(sp_call(me.party, 0) < 0, 0);
    atomic_fetch_add(&me.system->ready, 1);
    for (; !atomic_load_explicit(&me.system->ends, memory_order_relaxed); turns++) {
        int64_t polled = sp_poll(me.party);
        if (polled) IS(polled < 0 ? polled : sp_stop(me.party, count_run, me.system), 0);
    }
    atomic_fetch_add(&polls, turns);
    IS(sp_unwind_thread(me.party, 0, count_run, me.system), 0);
    IS(sp_exit_thread(me.party, count_run, me.system), 0);
    return NULL;
}

static int64_t ask_all(struct system *it) {
    int64_t number;
    IS(sp_target_all(&it->coordinator), 0);
    SP_WAIT(number, sp_submit(&it->coordinator, SP_DEPTH, 0));
    return number;
}

/* A host with its own waits, which hints. */
static void advance(struct system *it) {
    int64_t number = ask_all(it), answer;
    sp_polls_begin();
    while ((answer = sp_advance(&it->coordinator)) < 0) {
        struct sp_served served = {(uint64_t)number, 0, NULL, SP_HANDSHAKE};
        if (answer == SP_RUN) count_run(it, &served);
        else if (answer == SP_AWAITS || answer == SP_AGAIN) sched_yield();
        else IS(answer, number);
        sp_ring();
    }
    sp_polls_end();
    IS(answer, number);
}

static void reclaim(struct system *it) {
    int64_t serial, answer;
    SP_WAIT(serial, sp_install(&it->coordinator, 1));
    SP_WAIT(answer, sp_invalidate(&it->coordinator, (uint64_t)serial));
    IS(answer, 0);
    IS(sp_reclaim(&it->coordinator, (uint64_t)serial, count_run, it), 0);
}

/* How many callbacks for targets a turn has. */
static int drive(struct system *it, int turn) {
    int64_t number;
    switch (turn % 5) {
    case 0:
        number = ask_all(it);
        IS(sp_drive(&it->coordinator, count_run, it), number);
        return count;
    case 1:
        for (int i = 0; i < 4; i++) ask_all(it);
        IS(sp_drive_four(&it->coordinator, count_run, it), 4);
        return 4 * count;
    case 2:
        IS(sp_at_safepoint(&it->coordinator, count_run, it) > 0, 1);
        return 0;
    case 3: reclaim(it); return count;
    default: advance(it); return count;
    }
}

static void *drive_all(void *with) {
    struct system *it = with;
    while (atomic_load(&it->ready) < count) sched_yield();
    for (int turn = 0, wanted = 0; turn < rounds; turn++) {
        wanted += drive(it, turn);
        IS(atomic_load(&it->ran), wanted);
    }
    atomic_store(&it->ends, true);
    return NULL;
}

static void many_threads(void) {
    static struct system systems[SYSTEMS];
    static struct one all[SYSTEMS][MOST];
    for (int i = 0; i < SYSTEMS; i++) {
        struct system *it = &systems[i];
        IS(sp_make(&it->coordinator, MOST, 4, 2), 0);
        for (int j = 0; j < count; j++) {
            IS(sp_fork(&it->coordinator, &it->parties[j]), 0);
            all[i][j] = (struct one){it, &it->parties[j]};
            IS(pthread_create(&it->ids[j], NULL, poll_in_line, &all[i][j]), 0);
        }
        IS(pthread_create(&it->driver, NULL, drive_all, it), 0);
    }
    for (int i = 0; i < SYSTEMS; i++) {
        struct system *it = &systems[i];
        pthread_join(it->driver, NULL);
        for (int j = 0; j < count; j++) pthread_join(it->ids[j], NULL), sp_free(&it->parties[j]);
        sp_free(&it->coordinator);
    }
    IS(__atomic_load_n(&sp_polls.drives, __ATOMIC_RELAXED), 0);
}

int main(int argc, char **argv) {
    if (argc != 3) return 2;
    count = atoi(argv[1]), rounds = atoi(argv[2]);
    if (count < 1 || count > MOST || rounds < 1) return 2;
    alarm(300);
    one_thread();
    many_threads();
    IS(atomic_load(&polls) > 0, 1);
    printf("ok\n");
    return 0;
}
