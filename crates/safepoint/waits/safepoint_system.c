/* A system as a value that threads share. */
#include "safepoint_waiting.h"

/* The systems of this process. While one is made or freed nobody forks. */
static pthread_mutex_t mutex = PTHREAD_MUTEX_INITIALIZER;
static struct sp_system *systems;
static bool knows_forks;

static void before_fork(void) { pthread_mutex_lock(&mutex); }

static void in_parent(void) { pthread_mutex_unlock(&mutex); }

/* A child has none of the threads that its parent's systems wait for, nor those that have their locks. */
static void in_child(void) {
    while (systems) {
        struct sp_system *it = systems;
        systems = it->next;
        *it = (struct sp_system){.lock = 0};
    }
    sp_waiting_forked();
    pthread_mutex_unlock(&mutex);
}

static int64_t made(struct sp_system *system, size_t places, size_t slots, size_t methods) {
    if (!knows_forks && pthread_atfork(before_fork, in_parent, in_child)) return SP_NO_MEMORY;
    knows_forks = true;
    int64_t answer = sp_make(&system->coordinator, places, slots, methods);
    if (answer < 0) return answer;
    answer = sp_fork(&system->coordinator, &system->source);
    if (answer < 0) {
        sp_free(&system->coordinator);
        return answer;
    }
    system->at = system->source.at; /* that of the party changes while a call runs */
    system->next = systems;
    systems = system;
    return 0;
}

int64_t sp_system_make(struct sp_system *system, size_t places, size_t slots, size_t methods) {
    pthread_mutex_lock(&mutex);
    int64_t answer = made(system, places, slots, methods);
    pthread_mutex_unlock(&mutex);
    return answer;
}

struct sp_party *sp_system_coordinator(struct sp_system *system) { return &system->coordinator; }

int64_t sp_system_join(struct sp_system *system, struct sp_party *party) {
    struct sp_pause pause = {0, 0};
    while (__atomic_exchange_n(&system->lock, 1, __ATOMIC_ACQUIRE)) sp_again(SP_AGAIN, &pause);
    int64_t answer = sp_fork(&system->source, party);
    __atomic_store_n(&system->lock, 0, __ATOMIC_RELEASE);
    return answer;
}

void sp_system_free(struct sp_system *system) {
    pthread_mutex_lock(&mutex);
    for (struct sp_system **it = &systems; *it; it = &(*it)->next)
        if (*it == system) {
            *it = system->next;
            break;
        }
    sp_free(&system->source);
    sp_free(&system->coordinator);
    system->at = NULL;
    pthread_mutex_unlock(&mutex);
}
