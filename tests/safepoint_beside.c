/* Random schedules of the calls of safepoint.h, from one thread, each beside the model of crates/model/include/model.h, which plays the lines that
   the call is: safepoint_beside SEEDS FIRST CALLS. What a call answers is what the lines answer, and the rest of what is seen (states, live names,
   replies, counts) is the same after it. What the model isn't asked is kept here: which operation is a thread's oldest, and whether a thread has
   given its stack away. Where memory is refused the call, or the line, is made again. tests/safepoint.py builds and runs it. */
#include <stdarg.h>
#include <stdio.h>
#include <stdlib.h>
#include <string.h>

#include "../crates/model/include/model.h"
#include "../crates/safepoint/include/safepoint_wait.h"

enum { PLACES = 8, SLOTS = 8, METHODS = 4, PARTIES = 12, OPEN = 4, WAIT = 64, CODES = 4096, REPLIES = 1 << 16, CENSUS = ~0 };

struct request {
    int64_t number;
    uint64_t targets[PLACES + 2]; /* names */
    int count;                    /* of them; CENSUS */
    uint64_t names;               /* given out at its Open */
    uint64_t done[PLACES];        /* names */
    int dones;
    bool operated;
};

struct thread {
    struct sp_party party;
    enum { CLIENT, THREAD } role;
    int state;
    bool serves, given, held;
    int64_t name, last; /* the number that was told last */
    size_t place;
    int depth;
};

static struct sp_party coordinator;
static struct thread all[PARTIES];
static struct model model;
static size_t places, slots, methods;
static struct request waiting[WAIT], open[OPEN]; /* the oldest first */
static int waits, opens;
static int64_t names, asked, forgotten, serials, hints[METHODS]; /* given out; of each method the code that was installed last */
static struct {
    int64_t operation, name, reply;
} replies[REPLIES];
static int reply_count;
static uint64_t seed, drawn_from;
static long call_number, answers;

/* What happened how often in all schedules. */
enum event { STARTED, EXITED, TOLD_TO_EXIT, SERVED, SERVED_HELD, AGAIN, OPERATED, COUNTED, CLOSED, FREED, STANDS, IS_LATE, EVENTS };
static long happened[EVENTS];
static const char *const event_names[EVENTS] = {"started", "exited", "stopped at exit", "served themselves", "served while held", "again",
                                                "operated", "frames counted", "closed", "freed", "stand", "late"};

static char answer[1 << 14];
static char last_line[1024];

/* --- numbers, lines --- */

static uint64_t drawn(uint64_t below) {
    drawn_from ^= drawn_from << 13, drawn_from ^= drawn_from >> 7, drawn_from ^= drawn_from << 17;
    return (drawn_from >> 11) % below;
}

static void fail(const char *what, int64_t found, int64_t wanted) {
    printf("FAILED: seed %llu, call %ld: %s: %lld (%s), and not %lld (%s); the last line is '%s', its answer '%s'\n", (unsigned long long)seed,
           call_number, what, (long long)found, sp_text(found), (long long)wanted, sp_text(wanted), last_line, answer);
    exit(1);
}

static void is(const char *what, int64_t found, int64_t wanted) {
    answers++, happened[AGAIN] += found == SP_AGAIN;
    if (found != wanted) fail(what, found, wanted);
}

/* Makes a call again where memory was refused: nothing was changed. */
#define MADE(found, call)                                                                                                                  \
    do (found) = (call);                                                                                                                   \
    while ((found) == SP_NO_MEMORY)

#define IS(call, wanted)                                                                                                                   \
    do {                                                                                                                                   \
        int64_t found_, wanted_ = (wanted);                                                                                                \
        MADE(found_, (call));                                                                                                              \
        is(#call, found_, wanted_);                                                                                                        \
    } while (0)

/* Plays a line; its answer is in `answer`. */
static const char *play(const char *form, ...) {
    va_list words;
    va_start(words, form);
    int length = vsnprintf(last_line, sizeof last_line, form, words);
    va_end(words);
    ptrdiff_t said;
    do said = model_line(&model, (unsigned char *)last_line, (size_t)length, (unsigned char *)answer, sizeof answer - 1);
    while (said == MODEL_NO_MEMORY);
    while (said == MODEL_ANSWER_UNWRITTEN) said = model_answer(&model, (unsigned char *)answer, sizeof answer - 1);
    if (said < 0) fail("model_line", said, 0);
    answer[said] = 0;
    return answer;
}

static bool says(const char *begin) { return !strncmp(answer, begin, strlen(begin)); }

/* A line that is done. */
static void done(const char *form, uint64_t place) {
    play(form, place);
    if (strcmp(answer, "ok")) fail("a line isn't done", 0, 0);
}

static const struct {
    const char *name;
    int64_t answer;
} refusals[] = {
    {"Illegal Vacant", SP_VACANT}, {"Illegal", SP_ILLEGAL}, {"NoSuchPlace", SP_NO_SUCH_PLACE}, {"NoSuchMethod", SP_NO_SUCH_METHOD},
    {"DepthFull", SP_DEPTH_FULL}, {"EmptyStack", SP_EMPTY_STACK}, {"SafepointOpen", SP_SAFEPOINT_OPEN}, {"PlacesFull", SP_PLACES_FULL},
    {"QueueFull", SP_QUEUE_FULL}, {"NoTargets", SP_NO_TARGETS}, {"BadTargets", SP_BAD_TARGETS}, {"AlreadyOpen", SP_ALREADY_OPEN},
    {"QueueEmpty", SP_QUEUE_EMPTY}, {"NothingOpen", SP_NOTHING_OPEN}, {"NotOf", SP_NOT_OF}, {"NotTold", SP_NOT_TOLD},
    {"AlreadyTold", SP_ALREADY_TOLD}, {"AlreadyDone", SP_ALREADY_DONE}, {"Held", SP_HELD}, {"NotHeld", SP_NOT_HELD}, {"NotDone", SP_NOT_DONE},
    {"TableFull", SP_TABLE_FULL}, {"NotInUse", SP_NOT_IN_USE}, {"NotSafe", SP_NOT_SAFE}, {"NotAllHeld", SP_NOT_ALL_HELD},
    {"NotNotEntrant", SP_STILL_IN_USE}, {"Unknown", SP_UNKNOWN},
};

/* The number that C is told for a refusal. */
static int64_t refused(void) {
    if (!says("refused ")) fail("no refusal", 0, 0);
    for (size_t i = 0; i < sizeof refusals / sizeof *refusals; i++)
        if (!strncmp(answer + 8, refusals[i].name, strlen(refusals[i].name))) return refusals[i].answer;
    fail("no such refusal", 0, 0);
    return 0;
}

/* What a poll answers: 0, a number, or a refusal. */
static int64_t polled(struct thread *it) {
    if (says("refused")) return refused();
    it->given = false;
    return says("stop ") ? atoll(answer + 5) : 0;
}

static void publish(size_t place) {
    done("begin %zu", place);
    while (strcmp(play("change %zu", place), "change none")) continue;
    done("end %zu", place);
}

/* --- what is kept here --- */

static bool is_of(const struct request *request, int64_t name) {
    if ((uint64_t)name > request->names) return false;
    if (request->count == CENSUS) return true;
    for (int i = 0; i < request->count; i++)
        if (request->targets[i] == (uint64_t)name) return true;
    return false;
}

static bool is_due(const struct request *request, int64_t name) {
    if (request->count == CENSUS) return !request->operated;
    for (int i = 0; i < request->dones; i++)
        if (request->done[i] == (uint64_t)name) return false;
    return is_of(request, name);
}

/* The oldest open request that was told to the thread and that it isn't done with. */
static struct request *undone(const struct thread *it) {
    for (int i = 0; i < opens; i++)
        if (open[i].number <= it->last && is_due(&open[i], it->name)) return &open[i];
    return NULL;
}

static int64_t untold(const struct thread *it) {
    for (int i = 0; i < opens; i++)
        if (open[i].number > it->last && is_of(&open[i], it->name)) return open[i].number;
    return 0;
}

static struct thread *live_at(size_t place) {
    for (int i = 0; i < PARTIES; i++)
        if (all[i].role == THREAD && all[i].place == place) return &all[i];
    return NULL;
}

static bool is_census(void) { return opens && open[0].count == CENSUS; }

/* The state in the model, as a line tells that is refused in it. */
static int state_of(const struct thread *it) {
    static const char *const states[] = {"InJava", "InVm", "AtPoll", "InNative", "Blocked", "Serving"};
    play(it->serves ? "tovm %zu" : "cross %zu", it->place);
    for (int state = 0; state < 6; state++)
        if (says("refused Illegal ") && !strncmp(answer + 16, states[state], strlen(states[state]))) return state;
    fail("a state", 0, 0);
    return 0;
}

/* The thread has served its oldest operation, which the model is asked for. */
static void finish(struct thread *it) {
    struct request *request = undone(it);
    play("finish %zu", it->place);
    if (!says("reply ")) fail("no reply", 0, 0);
    if (reply_count == REPLIES) fail("too many replies", 0, 0);
    replies[reply_count].operation = request->number, replies[reply_count].name = it->name, replies[reply_count++].reply = atoll(answer + 6);
    request->done[request->dones++] = (uint64_t)it->name;
    done("clear %zu", it->place);
}

/* --- threads --- */

static void start(struct thread *it) {
    play("start");
    if (says("refused")) {
        IS(sp_start(&it->party), refused());
        return;
    }
    if (sscanf(answer, "thread %lld place %zu", (long long *)&it->name, &it->place) != 2) fail("no thread", 0, 0);
    it->role = THREAD, names = it->name;
    publish(it->place);
    done("wake %zu", it->place);
    play("cross %zu", it->place);
    if (polled(it)) fail("a new thread stops", 0, 0);
    happened[STARTED]++;
    IS(sp_start(&it->party), it->name);
    IS(sp_place(&it->party), (int64_t)it->place);
    IS(sp_name(&it->party), it->name);
}

static void call(struct thread *it) {
    uint32_t method = (uint32_t)drawn(methods + (drawn(20) == 0));
    int64_t wanted = method < methods ? hints[method] : 0;
    if (wanted && !strcmp(play("enter %zu %u %lld", it->place, method, (long long)wanted), "wrong method")) wanted = 0;
    if (!wanted) play("enter %zu %u", it->place, method);
    if (says("refused")) wanted = refused();
    else it->depth++;
    IS(sp_call(&it->party, method), wanted);
}

static void move(struct thread *it, const char *form, int64_t (*made)(struct sp_party *)) {
    play(form, it->place);
    is(form, made(&it->party), says("ok") ? 0 : refused());
}

static void poll(struct thread *it, const char *form, int64_t (*made)(struct sp_party *)) {
    play(form, it->place);
    int64_t wanted = polled(it);
    if (made == sp_ret && wanted >= 0) it->depth--;
    is(form, made(&it->party), wanted);
}

/* Back from native code, or from a wait: the stack is in others' hands while the thread is held. */
static void come_back(struct thread *it, int from, int64_t (*made)(struct sp_party *)) {
    int64_t wanted = SP_ILLEGAL;
    if (it->state == from) {
        if (!strcmp(play("wake %zu", it->place), "ok")) play("cross %zu", it->place), wanted = polled(it);
        else wanted = refused() == SP_HELD ? SP_AGAIN : SP_ILLEGAL;
    }
    is(from == SP_BLOCKED ? "sp_unblock" : "sp_from_native", made(&it->party), wanted);
}

static bool runs(const struct thread *it) { return it->state == SP_IN_JAVA || it->state == SP_IN_VM; }

static void publish_it(struct thread *it) {
    if (runs(it)) publish(it->place);
    IS(sp_publish(&it->party), runs(it) ? 0 : SP_ILLEGAL);
}

/* The thread gives its stack away, and takes it back to serve, or to go on. */
static void stop_next(struct thread *it) {
    int64_t wanted = SP_ILLEGAL;
    struct request *request = undone(it);
    if (it->state == SP_AT_POLL) {
        it->given = true;
        if (!strcmp(play("take %zu", it->place), "ok")) {
            publish(it->place);
            if (request) wanted = request->number, it->serves = true;
            else play("cross %zu", it->place), wanted = polled(it) ? SP_AGAIN : 0;
        } else {
            wanted = refused() == SP_HELD || refused() == SP_NOT_DONE ? SP_AGAIN : SP_ILLEGAL;
        }
    }
    IS(sp_stop_next(&it->party), wanted);
}

static void stop_serve(struct thread *it) {
    int64_t wanted = SP_ILLEGAL;
    if (it->serves) {
        finish(it);
        play("cross %zu", it->place);
        wanted = polled(it), it->serves = false, happened[SERVED]++;
    }
    IS(sp_stop_serve(&it->party), wanted);
}

static void leave(struct thread *it) {
    int64_t wanted = runs(it) ? SP_STACK_NOT_EMPTY : SP_ILLEGAL;
    if (runs(it) && !it->depth) {
        publish(it->place);
        wanted = 0;
        if (strncmp(play("exit %zu", it->place), "exited", 6)) {
            if (strcmp(answer, "refused OperationPending")) fail("exit", 0, 0);
            play(it->state == SP_IN_VM ? "fromvm %zu" : "edge %zu", it->place);
            wanted = polled(it), happened[TOLD_TO_EXIT]++;
        }
    }
    IS(sp_exit(&it->party), wanted);
    if (wanted) return;
    happened[EXITED]++;
    IS(sp_exit(&it->party), SP_NOT_THIS);
    sp_free(&it->party);
    memset(it, 0, sizeof *it);
    IS(sp_fork(&coordinator, &it->party), 0);
}

/* A call that fits the thread's state, as a number of `of_thread`. */
static uint64_t fitting(const struct thread *it) {
    static const uint64_t in_vm[] = {8, 11, 11, 12, 16, 24};
    switch (it->state) {
    case SP_IN_JAVA: return drawn(9) ? drawn(13) : 24;
    case SP_IN_VM: return in_vm[drawn(6)];
    case SP_AT_POLL: return 18;
    case SP_IN_NATIVE: return 14;
    case SP_BLOCKED: return 17;
    default: return 21;
    }
}

static void of_thread(struct thread *it, uint64_t what) {
    if (it->role == CLIENT) {
        if (what < 20) start(it);
        else IS(sp_stop_next(&it->party), SP_NOT_THIS);
        return;
    }
    switch (what) {
    case 0: case 1: case 2: case 3: call(it); break;
    case 4: case 5: case 6: poll(it, "leave %zu", sp_ret); break;
    case 7: poll(it, "edge %zu", sp_back_edge); break;
    case 8: publish_it(it); break;
    case 9: IS(sp_start(&it->party), SP_NOT_THIS); break;
    case 10: move(it, "tovm %zu", sp_to_vm); break;
    case 11: poll(it, "fromvm %zu", sp_from_vm); break;
    case 12: case 13: move(it, "tonative %zu", sp_to_native); break;
    case 14: case 15: come_back(it, SP_IN_NATIVE, sp_from_native); break;
    case 16: move(it, "block %zu", sp_block); break;
    case 17: come_back(it, SP_BLOCKED, sp_unblock); break;
    case 18: case 19: case 20: stop_next(it); break;
    case 21: case 22: case 23: stop_serve(it); break;
    default: leave(it);
    }
}

/* --- requests and codes --- */

/* Names targets, and writes them into the request and behind the line. */
static size_t name_targets(struct sp_party *party, struct request *request, char *line, size_t at, int most) {
    char words[24];
    request->count = 0;
    for (int count = (int)drawn((uint64_t)most + 1); request->count < count;) {
        uint64_t name = drawn(8) ? (uint64_t)all[drawn(PARTIES)].name : 1 + drawn((uint64_t)names + 1);
        if (!name) name = 1;
        if (drawn(40) && strstr(line, (sprintf(words, " %llu", (unsigned long long)name), words))) {
            count--;
            continue;
        }
        IS(sp_target(party, name), 0);
        request->targets[request->count++] = name;
        at += (size_t)sprintf(line + at, " %llu", (unsigned long long)name);
    }
    return at;
}

/* What an Ask answers: its number, or a refusal. */
static int64_t asked_of(const struct request *request) {
    if (!says("asked ")) return refused();
    waiting[waits] = *request;
    return waiting[waits++].number = asked = atoll(answer + 6);
}

static void submit(struct sp_party *party) {
    struct request request = {0};
    char line[512] = "ask census";
    if (!drawn(8)) {
        request.count = CENSUS;
        play("%s", line);
        IS(sp_census(party), asked_of(&request));
        return;
    }
    uint32_t asks = (uint32_t)drawn(3);
    uint64_t serial = drawn((uint64_t)serials + 2);
    size_t at = (size_t)sprintf(line, "ask %s", asks == SP_DEPTH ? "depth" : asks == SP_TOP ? "top" : "count");
    if (asks == SP_COUNT_OF) at += (size_t)sprintf(line + at, " %llu", (unsigned long long)serial);
    name_targets(party, &request, line, at, 5);
    play("%s", line);
    int64_t wanted = asked_of(&request);
    IS(sp_submit(party, asks, serial), wanted);
}

static void install(struct sp_party *party) {
    uint32_t method = (uint32_t)drawn(methods + (drawn(10) == 0));
    play("install %u", method);
    int64_t wanted = says("code ") ? atoll(answer + 5) : refused();
    if (wanted > 0) serials = hints[method] = wanted;
    IS(sp_install(party, method), wanted);
}

static void invalidate(struct sp_party *party) {
    uint64_t serial = drawn((uint64_t)serials + 2);
    play("invalidate %llu", (unsigned long long)serial);
    IS(sp_invalidate(party, serial), says("ok") ? 0 : refused());
}

/* Why a code can't be weighed, or 0: a look at a place that isn't there is refused for that alone where it can. */
static int64_t unweighable(uint64_t serial) {
    play("look %llu 99", (unsigned long long)serial);
    return refused() == SP_NO_SUCH_PLACE ? 0 : refused();
}

static void reclaim_begin(struct sp_party *party) {
    struct request request = {0};
    uint64_t serial = drawn((uint64_t)serials + 2);
    char line[512];
    size_t at = (size_t)sprintf(line, "ask count %llu", (unsigned long long)serial);
    name_targets(party, &request, line, at, 3);
    int64_t wanted = unweighable(serial);
    if (!wanted && (waits || opens)) wanted = SP_ALREADY_OPEN;
    if (!wanted && request.count) play("%s", line), wanted = asked_of(&request);
    if (wanted >= 0) play("round");
    IS(sp_reclaim_begin(party, serial), wanted);
}

static void reclaim_end(void) {
    uint64_t serial = drawn((uint64_t)serials + 2);
    int64_t wanted = SP_NOT_WEIGHED;
    if (!unweighable(serial)) {
        for (size_t place = 0; place < places; place++) play("look %llu %zu", (unsigned long long)serial, place);
        play("weigh %llu", (unsigned long long)serial);
        if (says("not looked")) wanted = SP_LATE;
        else if (says("used ")) wanted = atoll(answer + 5);
        else if (says("retired")) done("free %zu", serial), wanted = 0;
        happened[!wanted ? FREED : wanted > 0 ? STANDS : IS_LATE]++;
    }
    IS(sp_reclaim_end(&coordinator, serial), wanted);
}

static void forget(struct sp_party *party) {
    IS(sp_forget(party), 0);
    forgotten = (opens ? open[0].number : waits ? waiting[0].number : asked + 1) - 1;
}

static void of_any(struct sp_party *party, uint64_t what) {
    switch (what) {
    case 0: case 1: case 2: if (waits < 3 || seed % 5 == 2) submit(party); break;
    case 3: case 4: install(party); break;
    case 5: invalidate(party); break;
    case 6: case 7: reclaim_begin(party); break;
    case 8: case 9: case 10: reclaim_end(); break;
    default: if (!drawn(4)) forget(party);
    }
}

/* --- the coordinator --- */

static void open_next(void) {
    play("open");
    int64_t wanted = says("open ") ? atoll(answer + 5) : refused();
    if (wanted > 0) {
        open[opens] = waiting[0], open[opens++].names = (uint64_t)names;
        memmove(waiting, waiting + 1, (size_t)--waits * sizeof *waiting);
    }
    IS(sp_open(&coordinator), wanted);
}

static void tell(void) {
    uint64_t name = drawn(6) ? (uint64_t)all[drawn(PARTIES)].name : 1 + drawn((uint64_t)names + 1);
    struct thread *it = NULL;
    if (!name) name = 1;
    for (int i = 0; i < PARTIES; i++)
        if (all[i].role == THREAD && all[i].name == (int64_t)name) it = &all[i];
    play("tell %llu", (unsigned long long)name);
    int64_t wanted = says("gone") ? 0 : says("told") && it ? untold(it) : refused();
    if (wanted > 0) it->last = wanted;
    IS(sp_tell(&coordinator, name), wanted);
}

static void hold(size_t place) {
    struct thread *it = live_at(place);
    play("hold %zu", place);
    int64_t wanted = says("ok") ? undone(it)->number : refused();
    if (wanted > 0 && it->state == SP_AT_POLL && !it->given) wanted = SP_NOT_SAFE, done("release %zu", place); /* its stack isn't given away yet */
    if (wanted > 0) it->held = true;
    IS(sp_hold(&coordinator, place), wanted);
}

static void release(size_t place) {
    play("release %zu", place);
    int64_t wanted = says("ok") ? 0 : refused();
    if (!wanted) live_at(place)->held = false;
    IS(sp_release(&coordinator, place), wanted);
}

static void serve(size_t place) {
    struct thread *it = live_at(place);
    int64_t wanted = place >= places ? SP_NO_SUCH_PLACE : !it ? SP_VACANT : SP_NOT_HELD;
    if (it && it->held) {
        struct request *request = undone(it);
        if (request && request->count != CENSUS) publish(place), finish(it), wanted = request->number, happened[SERVED_HELD]++;
        else play("finish %zu", place), wanted = refused();
    }
    IS(sp_serve(&coordinator, place), wanted);
}

static bool are_all_held(void) {
    for (int i = 0; i < PARTIES; i++)
        if (all[i].role == THREAD && !all[i].held) return false;
    return true;
}

/* What a census counted: of each code, rising. */
static void compare_counts(const char *counts) {
    int64_t serial = 1;
    for (; *counts; counts += strcspn(counts, " ")) {
        long long counted, frames;
        if (sscanf(counts, " %lld:%lld", &counted, &frames) != 2) fail("a census", 0, 0);
        for (; serial < counted; serial++) IS(sp_counted(&coordinator, (uint64_t)serial), 0);
        IS(sp_counted(&coordinator, (uint64_t)serial++), frames);
        happened[COUNTED]++;
        counts += strspn(counts, " ");
    }
    for (; serial <= serials; serial++) IS(sp_counted(&coordinator, (uint64_t)serial), 0);
}

static void operate(void) {
    bool is_lawful = is_census() && !open[0].operated && are_all_held();
    char counts[sizeof answer];
    for (int i = 0; i < PARTIES && is_lawful; i++)
        if (all[i].role == THREAD) publish(all[i].place);
    play("operate");
    int64_t wanted = says("census") ? open[0].number : refused();
    strcpy(counts, answer);
    for (int i = 0; i < PARTIES && wanted > 0; i++)
        if (all[i].role == THREAD) done("clear %zu", all[i].place);
    IS(sp_operate(&coordinator), wanted);
    if (wanted > 0) open[0].operated = true, happened[OPERATED]++, compare_counts(counts + strlen("census"));
}

static void close_one(void) {
    int64_t number = drawn(3) ? 0 : (int64_t)drawn((uint64_t)asked + 2);
    if (number) play("close %lld", (long long)number);
    else play("close");
    int64_t wanted = says("closed ") ? atoll(answer + 7) : refused();
    for (int i = 0; i < opens && wanted > 0; i++)
        if (open[i].number == wanted) memmove(&open[i], &open[i + 1], (size_t)(--opens - i) * sizeof *open);
    happened[CLOSED] += wanted > 0;
    if (number) IS(sp_close_of(&coordinator, (uint64_t)number), wanted);
    else IS(sp_close(&coordinator), wanted);
}

/* A place whose thread is held, or one whose thread isn't and owes something, as far as a few draws find one. */
static size_t place_of(bool held) {
    size_t place = drawn(places);
    for (int tries = 0; tries < 20; tries++) {
        struct thread *it = live_at(place);
        if (it && it->held == held && (held || (undone(it) && (it->state != SP_AT_POLL || it->given)))) break;
        place = drawn(places);
    }
    return place;
}

/* A call that fits what is open, as a number of `of_coordinator`. */
static uint64_t fitting_request(void) {
    int live = 0, held = 0, due = 0, told = 0;
    for (int i = 0; i < PARTIES; i++) {
        if (all[i].role != THREAD) continue;
        live++, held += all[i].held, due += !all[i].held && undone(&all[i]), told += !untold(&all[i]);
    }
    if (!opens || (opens < OPEN && !is_census() && !drawn(3))) return 0;
    if (told < live && drawn(4)) return 1;
    if (is_census()) return open[0].operated ? (held ? 10 : 13) : held < live ? 5 : 12;
    return held ? (drawn(3) ? 8 : 10) : due ? 5 : 13;
}

static void of_coordinator(uint64_t what) {
    if (drawn(4)) what = fitting_request();
    size_t place = drawn(8) ? place_of(what >= 8) : drawn(places + 1);
    switch (what) {
    case 0: open_next(); break;
    case 1: case 2: case 3: case 4: tell(); break;
    case 5: case 6: case 7: hold(place); break;
    case 8: case 9: serve(place); break;
    case 10: case 11: release(place); break;
    case 12: operate(); break;
    default: close_one();
    }
}

/* --- what is seen --- */

static void compare_replies(int64_t operation, int64_t name) {
    int64_t pending = opens ? open[0].number : waits ? waiting[0].number : 0;
    int64_t wanted = operation < (pending ? pending : asked + 1) ? SP_NOT_ANSWERED : SP_PENDING;
    IS(sp_pending(&coordinator), pending);
    for (int i = 0; i < reply_count; i++)
        if (replies[i].operation == operation && replies[i].name == name && operation > forgotten) wanted = replies[i].reply;
    IS(sp_reply(&coordinator, (uint64_t)operation, (uint64_t)name), wanted);
}

static void compare_seen(void) {
    int64_t least = 0, above = (int64_t)drawn((uint64_t)names + 1);
    for (int i = 0; i < PARTIES; i++) {
        if (all[i].role != THREAD) continue;
        IS(sp_state(&all[i].party), all[i].state = state_of(&all[i]));
        if (all[i].name > above && (!least || all[i].name < least)) least = all[i].name;
    }
    IS(sp_live_after(&coordinator, (uint64_t)above), least);
    IS(sp_open_kind(&coordinator), !opens ? SP_NONE : is_census() ? SP_CENSUS : SP_HANDSHAKE);
    compare_replies((int64_t)drawn((uint64_t)asked + 2), (int64_t)drawn((uint64_t)names + 2));
    if (reply_count) compare_replies(replies[reply_count - 1].operation, replies[reply_count - 1].name);
}

/* Which call comes next: what threads, any parties and the coordinator are about changes from phase to phase. */
static void step(void) {
    static const int shares[4][2] = {{70, 90}, {40, 60}, {25, 40}, {60, 72}};
    const int *share = shares[call_number / 60 % 4];
    int die = (int)drawn(100);
    struct thread *it = &all[drawn(PARTIES)];
    if (die < share[0]) of_thread(it, it->role == THREAD && drawn(4) ? fitting(it) : drawn(26));
    else if (die < share[1]) of_any(drawn(2) ? &coordinator : &it->party, drawn(12));
    else of_coordinator(drawn(15));
    compare_seen();
}

static void run(long calls) {
    int64_t found;
    drawn_from = seed * 0x9e3779b97f4a7c15u + 1;
    places = 1 + seed % PLACES, slots = 1 + seed / 3 % SLOTS, methods = 1 + seed / 5 % METHODS;
    waits = opens = reply_count = 0;
    names = asked = forgotten = serials = 0;
    memset(hints, 0, sizeof hints);
    do found = model_new(&model, places, slots, methods);
    while (found == MODEL_NO_MEMORY);
    is("model_new", found, 0);
    IS(sp_make(&coordinator, places, slots, methods), 0);
    for (int i = 0; i < PARTIES; i++) IS(sp_fork(&coordinator, &all[i].party), 0);
    for (call_number = 1; call_number <= calls && reply_count < REPLIES - 1; call_number++) step();
    for (int i = 0; i < PARTIES; i++) sp_free(&all[i].party), memset(&all[i], 0, sizeof all[i]);
    sp_free(&coordinator);
    model_free(&model);
}

int main(int argc, char **argv) {
    if (argc != 4) return 2;
    uint64_t first = strtoull(argv[2], NULL, 10), behind = first + strtoull(argv[1], NULL, 10);
    for (seed = first; seed < behind; seed++) run(atol(argv[3]));
    printf("%llu schedules of %s calls, %ld answers compared", (unsigned long long)(behind - first), argv[3], answers);
    int never = 0;
    for (int event = 0; event < EVENTS; event++) printf(", %s %ld", event_names[event], happened[event]), never += !happened[event];
    printf("\n");
    return never && answers > 1000000 ? 1 : 0;
}
