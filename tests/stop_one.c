/* Runs the C of the README: `run` on threads, and `stop_one` beside them. tests/install.py links it with that block.
   Each line says what stop_one answered, and how often the callback ran meanwhile for the thread that runs. */
#include <pthread.h>
#include <sched.h>
#include <stdatomic.h>
#include <stdio.h>
#include <safepoint_wait.h>

/* the README's */
void run(struct sp_party *thread);
bool stop_one(struct sp_party *coordinator, uint64_t name);

enum { PLACES = 4, NEVER_GIVEN = 1000 };

struct runner {
    struct sp_party party;
    atomic_bool ends;
    pthread_t id;
    int64_t name;
};

static _Thread_local struct runner *own;
static atomic_int callbacks[PLACES];
static struct sp_party coordinator;

/* what the README has of the runtime */
void at_safe_point(void *with, const struct sp_served *served) {
    (void)with;
    atomic_fetch_add(&callbacks[served->place], 1);
}

bool turn_of_a_loop(void) {
    sched_yield();
    return !atomic_load(&own->ends);
}

static void *begun(void *with) {
    own = with;
    run(&own->party);
    return NULL;
}

/* Starts a thread, and waits until a name above this one lives. */
static bool start(struct runner *it, int64_t above) {
    if (sp_fork(&coordinator, &it->party) || pthread_create(&it->id, NULL, begun, it)) return false;
    do SP_WAIT(it->name, sp_live_after(&coordinator, (uint64_t)above));
    while (it->name == 0);
    return it->name > 0;
}

static void end(struct runner *it) {
    atomic_store(&it->ends, true);
    pthread_join(it->id, NULL);
    sp_free(&it->party);
}

static void say(const char *what, int64_t name) {
    int before = atomic_load(&callbacks[0]);
    bool has_run = stop_one(&coordinator, (uint64_t)name);
    printf("%s: %s, %d\n", what, has_run ? "true" : "false", atomic_load(&callbacks[0]) - before);
}

/* An older request of the thread that runs. */
static int64_t ask(int64_t name) {
    int64_t number;
    sp_target(&coordinator, (uint64_t)name);
    SP_WAIT(number, sp_submit(&coordinator, SP_DEPTH, 0));
    return number;
}

int main(void) {
    static struct runner runs, gone;
    if (sp_make(&coordinator, PLACES, 16, 4) || !start(&runs, 0) || !start(&gone, runs.name)) return 1;
    end(&gone);
    say("a thread that runs", runs.name);
    say("one that is gone", gone.name);
    say("a number that no thread had", NEVER_GIVEN);
    sp_target(&coordinator, (uint64_t)gone.name);
    say("a thread that runs, behind one that is gone", runs.name);
    sp_target(&coordinator, (uint64_t)runs.name);
    say("one that is gone, behind a thread that runs", gone.name);
    if (ask(runs.name) < 0) return 1;
    say("a thread that runs, behind an older request", runs.name);
    if (ask(runs.name) < 0) return 1;
    say("one that is gone, behind an older request", gone.name);
    sp_target(&coordinator, (uint64_t)runs.name);
    say("a name twice, which is refused", runs.name);
    printf("all is closed: %s\n", sp_drive(&coordinator, at_safe_point, NULL) == SP_QUEUE_EMPTY ? "true" : "false");
    printf("callbacks for others: %d\n", callbacks[1] + callbacks[2] + callbacks[3]);
    end(&runs);
    sp_free(&coordinator);
}
