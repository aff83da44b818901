/* A small garbage-collected runtime: gc [--threads N] [--work N | --seconds S] [--heap MB] [--pauses] [--careless]

   README.md says what it shows, and where to begin to read. */
#include <errno.h>
#include <inttypes.h>
#include <stdio.h>
#include <stdlib.h>
#include <string.h>

#include "ends.h"
#include "vm.h"
#include "worker.h"

struct options {
    unsigned long threads, work, seconds, megabytes;
    bool shows_pauses, is_careless;
};

static const char usage[] =
    "gc [--threads N] [--work N | --seconds S] [--heap MB] [--pauses] [--careless], with 1 to 64 threads";

static unsigned long number_of(const char *word, unsigned long least, unsigned long most) {
    char *end = NULL;
    errno = 0;
    unsigned long number = word ? strtoul(word, &end, 10) : 0;
    if (!word || end == word || *end || *word == '-' || errno || number < least || number > most)
        die(BAD_USE, "%s", usage);
    return number;
}

static struct options read_options(char **words) {
    struct options it = {4, 3000, 0, 8, false, false};
    for (; *words; words++) {
        if (!strcmp(*words, "--pauses")) it.shows_pauses = true;
        else if (!strcmp(*words, "--careless")) it.is_careless = true;
        else if (!strcmp(*words, "--threads")) it.threads = number_of(*++words, 1, PLACES);
        else if (!strcmp(*words, "--work")) it.work = number_of(*++words, 1, 1000000000);
        else if (!strcmp(*words, "--seconds")) it.seconds = number_of(*++words, 1, 1000000);
        else if (!strcmp(*words, "--heap")) it.megabytes = number_of(*++words, 8, 4096);
        else die(BAD_USE, "%s", usage);
    }
    return it;
}

static void make_vm(struct vm *vm, const struct options *options) {
    heap_make(&vm->heap, options->megabytes << 20);
    catch_stale_pointers(&vm->heap);
    coordinator_make(&vm->coordinator, vm, (int)options->threads);
    vm->coordinator.is_careless = options->is_careless;
}

/* With --seconds the number of tasks is what was done then. */
static void make_crew(struct crew *crew, struct vm *vm, const struct options *options) {
    crew->vm = vm;
    crew->tasks = options->seconds ? UINT64_MAX : options->work;
    crew->end = options->seconds ? now() + options->seconds * 1000000000 : UINT64_MAX;
    pthread_mutex_init(&crew->lock, NULL);
    make_totals(crew);
}

/* The main thread is the coordinator. */
static void run_workers(struct crew *crew, struct worker *workers, unsigned long count) {
    for (unsigned long i = 0; i < count; i++) start_worker(&workers[i], crew, i);
    coordinate(&crew->vm->coordinator);
    for (unsigned long i = 0; i < count; i++) join_worker(&workers[i]);
}

/* No thread lives, so what the last collection kept is the object with the sums. */
static void check_heap(const struct heap *heap) {
    size_t used = atomic_load(&heap->used);
    if (used != object_size(0, KINDS)) die(WRONG_RESULT, "%zu bytes are live at the end", used);
}

static void print_counts(const struct crew *crew, const struct worker *workers, unsigned long count) {
    uint64_t tasks = atomic_load(&crew->next), lives = 0, kept = 0, cleared = 0, cleaned[CLEANERS] = {0};
    for (unsigned long i = 0; i < count; i++) {
        const struct weak_cache *cache = &workers[i].mutator.cache;
        lives += workers[i].lives, kept += cache->kept, cleared += cache->cleared;
        for (int by = 0; by < CLEANERS; by++) cleaned[by] += cache->cleaned[by];
    }
    if (tasks > crew->tasks) tasks = crew->tasks; /* each thread asked for one that wasn't there */
    printf("threads %lu, tasks %" PRIu64 ", lives %" PRIu64 "\n", count, tasks, lives);
    printf("collections %" PRIu64 ", objects moved %" PRIu64 "\n", crew->vm->heap.epoch, crew->vm->heap.moved);
    printf("weak roots kept %" PRIu64 ", cleared %" PRIu64 "\n", kept, cleared);
    printf("caches cleaned by their threads %" PRIu64 ", for held threads %" PRIu64 ", at a lookup %" PRIu64 "\n",
           cleaned[BY_THREAD], cleaned[FOR_HELD], cleaned[AT_LOOKUP]);
}

static void print_checksums(const struct heap *heap) {
    const union field *sums = heap->globals[TOTALS]->fields;
    printf("checksums of lists %016" PRIx64 ", trees %016" PRIx64 ", graphs %016" PRIx64 "\n", sums[LIST_TASK].word,
           sums[TREE_TASK].word, sums[GRAPH_TASK].word);
}

static void print_pauses(const struct coordinator *it) {
    print_histogram(&it->to_hold, "from the request until all threads are held:");
    print_histogram(&it->paused, "while all threads are held:");
}

int main(int argc, char **argv) {
    static struct vm vm;
    static struct crew crew;
    struct options options = read_options(argc ? argv + 1 : argv);
    struct worker *workers = calloc(options.threads, sizeof *workers);
    if (!workers) die(BAD_USE, "there is no memory");
    make_vm(&vm, &options);
    make_crew(&crew, &vm, &options);
    run_workers(&crew, workers, options.threads);
    check_heap(&vm.heap);
    print_counts(&crew, workers, options.threads);
    print_checksums(&vm.heap);
    if (options.shows_pauses) print_pauses(&vm.coordinator);
    coordinator_free(&vm.coordinator);
    pthread_mutex_destroy(&crew.lock);
    free(workers);
    return 0;
}
