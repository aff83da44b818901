/* A toy runtime with a sweeper, stepped beside the model: the first answer that differs is reported, and then the status is 1.

   Three threads call and return from compiled code of one method; each tells its frames now and then; a sweeper replaces the code, and frees
   old code that nobody runs. `toy careless` counts the frames of the first thread alone, as a sweeper with a bug would. */
#include <stdarg.h>
#include <stdio.h>
#include <string.h>

#include "../../../crates/model/include/model.h"

enum { THREADS = 3, DEPTH = 8, CODES = 64, STEPS = 20000 };

static struct model model;
static unsigned long events;

/* What the runtime did, as a line, and what it answered itself. Returns whether the model answers the same. */
static bool agrees(const char *answer, const char *form, ...)
{
    char line[64];
    unsigned char room[MODEL_ROOM];
    va_list numbers;
    va_start(numbers, form);
    int length = vsnprintf(line, sizeof line, form, numbers);
    va_end(numbers);
    ptrdiff_t said = model_line(&model, (const unsigned char *)line, (size_t)length, room, sizeof room);
    if (said == MODEL_NO_MEMORY) /* The line was not played: it may be given again. */
        said = model_line(&model, (const unsigned char *)line, (size_t)length, room, sizeof room);
    events++;
    if (said < 0) {
        printf("event %lu, `%s`: fault %d of the model\n", events, line, (int)said);
        return false;
    }
    if ((size_t)said == strlen(answer) && memcmp(room, answer, (size_t)said) == 0)
        return true;
    printf("event %lu, `%s`: the runtime said `%s`, the model `%.*s`\n", events, line, answer, (int)said, (const char *)room);
    return false;
}

static const char *text(const char *form, ...)
{
    static char said[64];
    va_list numbers;
    va_start(numbers, form);
    vsnprintf(said, sizeof said, form, numbers);
    va_end(numbers);
    return said;
}

/* The toy runtime: a stack of codes for each thread; how many frames of each code it told; the codes that have left use, oldest first. */
static struct thread {
    int stack[DEPTH], depth, told[CODES];
    bool has_told_since;
} threads[THREADS];
static int newest, old;
static bool in_use, is_careless;
static unsigned seed = 1;

static int chance(int below)
{
    seed = seed * 1103515245u + 12345u;
    return (int)(seed >> 16) % below;
}

static int frames(const struct thread *thread, int code)
{
    int count = 0;
    for (int at = 0; at < thread->depth; at++)
        count += thread->stack[at] == code;
    return count;
}

static bool start(int at)
{
    return agrees(text("thread %d place %d", at + 1, at), "start") && agrees("ok", "begin %d", at) && agrees("ok", "end %d", at)
        && agrees("ok", "wake %d", at) && agrees("go", "cross %d", at);
}

/* A call goes into the code that the thread saw last, which may have left use. */
static bool call(int at)
{
    struct thread *thread = &threads[at];
    int code = newest - (newest > 1 && chance(4) == 0);
    if (newest == 0 || thread->depth == DEPTH)
        return true;
    if (code != newest || !in_use)
        return agrees("wrong method", "enter %d 0 %d", at, code);
    thread->stack[thread->depth++] = code;
    return agrees("entered", "enter %d 0 %d", at, code);
}

static bool give_back(int at)
{
    if (threads[at].depth == 0)
        return agrees("go", "edge %d", at);
    threads[at].depth--;
    return agrees("go", "leave %d", at);
}

/* The thread tells its frames: each code whose number has changed. */
static bool tell(int at)
{
    struct thread *thread = &threads[at];
    if (!agrees("ok", "begin %d", at))
        return false;
    for (int code = 1; code <= newest; code++) {
        int by = frames(thread, code) - thread->told[code];
        thread->told[code] += by;
        if (by != 0 && !agrees(text("change %d %+d", code, by), "change %d", at))
            return false;
    }
    thread->has_told_since = true;
    return agrees("ok", "end %d", at);
}

/* The sweeper frees the old code once each thread has told its frames since, and none is left. */
static bool sweep(void)
{
    int left = 0;
    if (old == 0 && in_use) {
        old = newest;
        in_use = false;
        for (int at = 0; at < THREADS; at++)
            threads[at].has_told_since = false;
        return agrees("ok", "invalidate %d", old) && agrees("ok", "round");
    }
    if (!in_use && newest + 1 < CODES) {
        in_use = true;
        return agrees(text("code %d", ++newest), "install 0");
    }
    for (int at = 0; old != 0 && at < THREADS; at++) {
        if (!agrees(threads[at].has_told_since ? "clear" : "late", "look %d %d", old, at))
            return false;
        if (!threads[at].has_told_since)
            return true;
        left += is_careless && at > 0 ? 0 : threads[at].told[old];
    }
    if (old == 0 || left > 0)
        return old == 0 || agrees(text("used %d", left), "weigh %d", old);
    bool is_freed = agrees("retired", "weigh %d", old) && agrees("ok", "free %d", old);
    old = 0;
    return is_freed;
}

static bool step(void)
{
    int at = chance(THREADS);
    switch (chance(8)) {
    case 0: return sweep();
    case 1: case 2: return tell(at);
    case 3: case 4: return call(at);
    default: return give_back(at);
    }
}

int main(int count, char **words)
{
    is_careless = count > 1 && strcmp(words[1], "careless") == 0;
    if (model_new(&model, THREADS, 4, 1) != 0 && model_new(&model, THREADS, 4, 1) != 0) {
        puts("no model");
        return 2;
    }
    bool agree = true;
    for (int at = 0; agree && at < THREADS; at++)
        agree = start(at);
    for (int n = 0; agree && n < STEPS; n++)
        agree = step();
    if (agree)
        printf("%lu events, all answers the same; %d codes, %s\n", events, newest, old == 0 ? "the last in use" : "one not freed yet");
    model_free(&model);
    return agree ? 0 : 1;
}
