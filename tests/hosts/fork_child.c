/* A process with a system forks while other threads join it, run in it, and make and free systems of their own:
   fork_child FORKS. In the child a system of the parent isn't made, nothing waits, and the child makes its own. */
#include "host.h"

#include <sys/wait.h>

static struct sp_system joined;
static atomic_bool ends;
static atomic_long joins, made;
static atomic_int up, ran;

static void at_safe_point(void *with, const struct sp_served *served) {
    (void)with, (void)served;
    atomic_fetch_add(&ran, 1);
}

static void *run(void *with) {
    struct sp_party thread = {0};
    IS(sp_system_join(&joined, &thread), 0);
    must("sp_start_thread", sp_start_thread(&thread, at_safe_point, NULL));
    atomic_fetch_add(&up, 1);
    while (!atomic_load(&ends))
        if (must("sp_back_edge", sp_back_edge(&thread))) IS(sp_stop(&thread, at_safe_point, NULL), 0);
    IS(sp_exit_thread(&thread, at_safe_point, NULL), 0);
    sp_free(&thread);
    return with;
}

static void *join(void *with) {
    while (!atomic_load(&ends)) {
        struct sp_party client = {0};
        IS(sp_system_join(&joined, &client), 0);
        sp_free(&client);
        atomic_fetch_add(&joins, 1);
    }
    return with;
}

static void *make(void *with) {
    while (!atomic_load(&ends)) {
        struct sp_system own[2] = {{.lock = 0}};
        for (int i = 0; i < 2; i++) IS(sp_system_make(&own[i], 1, 1, 1), 0);
        for (int i = 0; i < 2; i++) sp_system_free(&own[i]);
        atomic_fetch_add(&made, 1);
    }
    return with;
}

/* A handshake with all that live, and a VM operation. */
static void stop_all(struct sp_party *coordinator) {
    int64_t number;
    must("sp_target_all", sp_target_all(coordinator));
    DONE(number, sp_submit(coordinator, SP_DEPTH, 0));
    IS(sp_drive(coordinator, at_safe_point, NULL), number);
    must("sp_at_safepoint", sp_at_safepoint(coordinator, at_safe_point, NULL));
}

/* The child's own system, with a thread in native code. */
static void live_again(void) {
    struct sp_party thread = {0};
    IS(sp_system_make(&joined, 2, 1, 1), 0);
    IS(sp_system_join(&joined, &thread), 0);
    IS(sp_start_thread(&thread, NULL, NULL), 1);
    IS(sp_enter_native(&thread), 0);
    stop_all(sp_system_coordinator(&joined));
    IS(sp_leave_native(&thread, NULL, NULL), 0);
    IS(sp_exit_thread(&thread, NULL, NULL), 0);
    sp_free(&thread);
    sp_system_free(&joined);
}

static int child(void) {
    struct sp_party *coordinator = sp_system_coordinator(&joined), other = {0};
    alarm(LONGEST);
    IS(sp_system_join(&joined, &other), SP_NOT_THIS);
    IS(sp_census(coordinator), SP_NOT_THIS);
    IS(sp_drive(coordinator, NULL, NULL), SP_NOT_THIS);
    IS(sp_drive_four(coordinator, NULL, NULL), SP_NOT_THIS);
    IS(sp_at_safepoint(coordinator, NULL, NULL), SP_NOT_THIS);
    IS(sp_wait_closed(coordinator, 1), SP_NOT_THIS);
    IS(sp_reclaim(coordinator, 1, NULL, NULL), SP_NOT_THIS);
    sp_system_free(&joined);
    live_again();
    live_again();
    return 0;
}

static void wait_for(pid_t pid) {
    int status;
    if (pid < 0 || waitpid(pid, &status, 0) != pid) exit(2);
    if (!WIFEXITED(status) || WEXITSTATUS(status)) fail("a child ended with this status", status);
}

/* A VM operation forks: its drive goes on in the parent, and is refused in the child. */
static void fork_at_safepoint(void *with, const struct sp_served *served) {
    if (served->kind == SP_CENSUS) *(pid_t *)with = fork();
}

int main(int count, char **words) {
    int forks = count > 1 ? atoi(words[1]) : 50;
    void *(*works[])(void *) = {run, run, join, make};
    pthread_t ids[4];
    alarm(LONGEST);
    IS(sp_system_make(&joined, MOST, 4, 1), 0);
    for (int i = 0; i < 4; i++)
        if (pthread_create(&ids[i], NULL, works[i], NULL)) return 2;
    struct sp_party *coordinator = sp_system_coordinator(&joined);
    while (atomic_load(&up) < 2) nap(100);
    for (int i = 0; i < forks; i++) {
        stop_all(coordinator);
        pid_t pid = fork();
        if (pid == 0) _exit(child());
        wait_for(pid);
        int64_t number = sp_at_safepoint(coordinator, fork_at_safepoint, &pid);
        if (pid == 0) _exit(number == SP_NOT_THIS ? child() : 3);
        wait_for(pid);
        must("sp_at_safepoint", number);
    }
    atomic_store(&ends, true);
    for (int i = 0; i < 4; i++) pthread_join(ids[i], NULL);
    sp_system_free(&joined);
    printf("%d children, beside %ld joins and %ld systems of others, and %d callbacks\n", 2 * forks,
           atomic_load(&joins), atomic_load(&made), atomic_load(&ran));
    return 0;
}
