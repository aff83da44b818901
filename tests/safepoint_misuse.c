/* Makes one call that a host mustn't make, under -DSP_CHECK: safepoint_misuse NAME. It must die there; tests/safepoint.py
   knows by which line. The party that is called with is printed first. */
#include <pthread.h>
#include <signal.h>
#include <stdatomic.h>
#include <stdio.h>
#include <stdlib.h>
#include <string.h>
#include <sys/wait.h>
#include <unistd.h>

#include "../crates/safepoint/include/safepoint_wait.h"

static struct sp_party coordinator, thread, client;
static atomic_bool is_serving;

static void tell(const struct sp_party *party) {
    printf("%p\n", (const void *)party);
    fflush(stdout);
}

static int64_t must(int64_t answer) {
    if (answer < 0) exit(3);
    return answer;
}

/* The thread runs, and is told an operation. */
static void ask(void) {
    int64_t name;
    must(sp_make(&coordinator, 2, 4, 2));
    must(sp_fork(&coordinator, &thread));
    must(sp_fork(&coordinator, &client));
    name = must(sp_start_thread(&thread, NULL, NULL));
    must(sp_target(&client, (uint64_t)name));
    must(sp_submit(&client, SP_DEPTH, 0));
}

static void tell_thread(void) {
    must(sp_open(&coordinator));
    must(sp_tell(&coordinator, 1));
    if (sp_back_edge(&thread) != 1) exit(3);
}

static void serve_long(void *with, const struct sp_served *served) {
    (void)with, (void)served;
    atomic_store(&is_serving, true);
    sleep(60);
}

static void *stop_long(void *with) {
    sp_stop(&thread, serve_long, NULL);
    return with;
}

static void two_threads(void) {
    pthread_t id;
    ask();
    tell_thread();
    pthread_create(&id, NULL, stop_long, NULL);
    while (!atomic_load(&is_serving)) usleep(100);
    tell(&thread);
    sp_back_edge(&thread);
}

static void poll_in_callback(void *with, const struct sp_served *served) {
    (void)with, (void)served;
    tell(&thread);
    sp_back_edge(&thread);
}

static void own_callback(void) {
    ask();
    tell_thread();
    sp_stop(&thread, poll_in_callback, NULL);
}

static void callback_for_held(void) {
    ask();
    must(sp_enter_native(&thread));
    sp_drive(&coordinator, poll_in_callback, NULL);
}

static void drive_in_callback(void *with, const struct sp_served *served) {
    (void)with, (void)served;
    tell(&coordinator);
    sp_drive(&coordinator, NULL, NULL);
}

static void waiting_callback(void) {
    ask();
    must(sp_enter_native(&thread));
    sp_drive(&coordinator, drive_in_callback, NULL);
}

static void copy(void) {
    struct sp_party other;
    ask();
    other = client;
    tell(&other);
    sp_census(&other);
}

static void copy_of_freed(void) {
    struct sp_party other;
    ask();
    other = client;
    sp_free(&client);
    tell(&other);
    sp_census(&other);
}

static void forked_child(void) {
    int status;
    ask();
    tell(&coordinator);
    if (fork() == 0) {
        sp_drive(&coordinator, NULL, NULL);
        _exit(0);
    }
    wait(&status);
    if (WIFSIGNALED(status)) raise(WTERMSIG(status));
}

/* A party that joined a system: what the system itself has isn't made in the child. */
static void joined_in_child(void) {
    static struct sp_system joined;
    int status;
    must(sp_system_make(&joined, 1, 1, 1));
    must(sp_system_join(&joined, &client));
    tell(&client);
    if (fork() == 0) {
        if (sp_census(sp_system_coordinator(&joined)) != SP_NOT_THIS) _exit(3);
        sp_census(&client);
        _exit(0);
    }
    wait(&status);
    if (WIFSIGNALED(status)) raise(WTERMSIG(status));
}

static void copied_system(void) {
    static struct sp_system joined, other;
    must(sp_system_make(&joined, 1, 1, 1));
    other = joined;
    tell(&other.source);
    sp_system_join(&other, &client);
}

static void ask_in_handler(int number) {
    (void)number;
    tell(&coordinator);
    sp_census(&coordinator);
}

/* The thread never comes, so that the drive waits until the signal. */
static void signal_handler(void) {
    signal(SIGALRM, ask_in_handler);
    ask();
    ualarm(20000, 0);
    sp_drive(&coordinator, NULL, NULL);
}

static const struct {
    const char *name;
    void (*make)(void);
} misuses[] = {
    {"two_threads", two_threads},
    {"own_callback", own_callback},
    {"callback_for_held", callback_for_held},
    {"waiting_callback", waiting_callback},
    {"signal_handler", signal_handler},
    {"copy", copy},
    {"copy_of_freed", copy_of_freed},
    {"forked_child", forked_child},
    {"joined_in_child", joined_in_child},
    {"copied_system", copied_system},
};

int main(int count, char **words) {
    for (size_t i = 0; count == 2 && i < sizeof misuses / sizeof *misuses; i++)
        if (!strcmp(misuses[i].name, words[1])) misuses[i].make();
    return 2;
}
