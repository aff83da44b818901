/* How many entries of the history each kind of call takes. Each line has a kind, how many threads live beside it, and how
   often it came until the history was full; tests/hosts.py knows how often it must. */
#include "host.h"

static struct sp_party coordinator, threads[MOST];

static void begin(int count) {
    IS(sp_make(&coordinator, MOST, 1024, 1), 0);
    for (int i = 0; i < count; i++) {
        int64_t name;
        IS(sp_fork(&coordinator, &threads[i]), 0);
        DONE(name, sp_start(&threads[i]));
        IS(sp_to_native(&threads[i]), 0);
    }
}

/* What is reserved is there: requests that are submitted are worked on, and each thread exits. */
static void end(int count) {
    while (must("sp_pending", sp_pending(&coordinator))) must("sp_drive", sp_drive(&coordinator, NULL, NULL));
    for (int i = 0; i < count; i++) {
        IS(sp_from_native(&threads[i]), 0);
        IS(sp_exit(&threads[i]), 0);
        sp_free(&threads[i]);
    }
    sp_free(&coordinator);
}

/* Each returns how often it came until the history was full. */
static long lives(void) {
    struct sp_party thread = {0};
    begin(0);
    for (long times = 0;; times++) {
        int64_t answer;
        IS(sp_fork(&coordinator, &thread), 0);
        SP_WAIT(answer, sp_start(&thread));
        if (answer > 0) IS(sp_exit(&thread), 0);
        sp_free(&thread);
        if (answer == SP_HISTORY_FULL) return end(0), times;
    }
}

static long requests(int count, int64_t (*submitted)(int)) {
    begin(count);
    for (long times = 0;; times++) {
        int64_t number = submitted(count);
        if (number == SP_HISTORY_FULL) return end(count), times;
        must("a request", number);
        IS(sp_drive(&coordinator, NULL, NULL), number);
    }
}

static int64_t handshake(int count) {
    int64_t number;
    for (int i = 0; i < count; i++) must("sp_target", sp_target(&coordinator, (uint64_t)i + 1));
    SP_WAIT(number, sp_submit(&coordinator, SP_DEPTH, 0));
    return number;
}

/* Of names that are gone. */
static int64_t handshake_of_none(int count) {
    int64_t number;
    for (int i = 0; i < 8; i++) must("sp_target", sp_target(&coordinator, (uint64_t)count + 1 + (uint64_t)i));
    SP_WAIT(number, sp_submit(&coordinator, SP_DEPTH, 0));
    return number;
}

static int64_t census(int count) {
    int64_t number;
    (void)count;
    SP_WAIT(number, sp_census(&coordinator));
    return number;
}

/* Codes that are replaced and reclaimed, beside so many threads. */
static long codes(int count, bool is_invalidated) {
    int64_t old, current, answer;
    begin(count);
    DONE(current, sp_install(&coordinator, 0));
    for (long times = 0;; times++) {
        old = current;
        if (is_invalidated) IS(sp_invalidate(&coordinator, (uint64_t)old), 0);
        SP_WAIT(current, sp_install(&coordinator, 0));
        if (current == SP_HISTORY_FULL) return end(count), times;
        must("sp_install", current);
        answer = sp_reclaim(&coordinator, (uint64_t)old, NULL, NULL);
        if (answer == SP_HISTORY_FULL) return end(count), times;
        must("sp_reclaim", answer);
    }
}

int main(void) {
    alarm(LONGEST);
    printf("life 0 %ld\n", lives());
    for (int i = 0; i < 4; i++) {
        int count = i ? 1 << (3 * i - 3) : 0;
        if (count) printf("handshake %d %ld\n", count, requests(count, handshake));
        printf("census %d %ld\n", count, requests(count, census));
        printf("gone %d %ld\n", count, requests(count, handshake_of_none));
        printf("code %d %ld\n", count, codes(count, false));
        printf("invalidated %d %ld\n", count, codes(count, true));
    }
    return 0;
}
