/* The recorder of safepoint_record.h. */
#ifdef SP_RECORD
#define SP_RECORDER
#include "safepoint_wait.h"

#include <sched.h>
#include <stdarg.h>
#include <stdatomic.h>
#include <stdlib.h>
#include <string.h>

enum { TARGETS = 64, PLACES = 64, ROOM = 1 << 16, MOST_JOBS = 1024, ASKED = 128, MOST_YIELDS = 1 << 20 };

/* The calls of one thread of the machine, as lines. */
struct stream {
    struct stream *next;
    unsigned number;
    char *text;
    size_t length, room;
};

/* What the thread is in the middle of: a call whose tries answered SP_AGAIN so far, or which goes on over several. */
enum kind { NOTHING, SINGLE, START, STOP, EXIT, RECLAIM, DRIVE };
struct pending {
    enum kind kind;
    uint64_t before;
    struct line *line;
    int64_t name, place;
    bool stopped; /* an exit that served */
};

/* A callback that ran in a call: of which operation, for which name, what it replied, and a ticket that was drawn in it. */
struct job {
    int64_t operation, name, reply;
    uint64_t ticket;
};

static atomic_uint_least64_t tickets = 1, last_serial;
static atomic_uint streams;
static _Atomic(struct stream *) all;
static atomic_bool lost;
static size_t sizes[3];
static atomic_int_least64_t name_at[PLACES]; /* of the thread that started last at the place; it is told before that thread can be held */
static atomic_int held;                      /* threads that single steps of the coordinator hold */
static atomic_int_least64_t operated;        /* the census that a single step operated last */
static atomic_int_least64_t asked[ASKED];    /* of each request of late, by its number: twice that, and 1 more for a census */

/* A stream, and the jobs of its call that ran so far. */
struct line {
    struct stream *stream;
    struct job jobs[MOST_JOBS];
    size_t ran;
};

static _Thread_local struct line lines[2]; /* of the thread's calls, and of those that it makes while a drive isn't over */
static _Thread_local struct pending now, drive;
static _Thread_local uint64_t targets[TARGETS + 1];
static _Thread_local size_t named;
static _Thread_local struct job serving; /* that of which a thread runs the callback */

static uint64_t ticket(void) { return atomic_fetch_add(&tickets, 1); }

static struct stream *made_stream(void) {
    struct stream *made = calloc(1, sizeof *made);
    if (!made) return NULL;
    made->number = atomic_fetch_add(&streams, 1);
    made->next = atomic_load(&all);
    while (!atomic_compare_exchange_weak(&all, &made->next, made)) ;
    return made;
}

static struct stream *stream(void) {
    if (!now.line->stream) now.line->stream = made_stream();
    return now.line->stream;
}

__attribute__((format(printf, 1, 2))) static void put(const char *form, ...) {
    struct stream *to = stream();
    char text[64];
    va_list words;
    va_start(words, form);
    size_t length = (size_t)vsnprintf(text, sizeof text, form, words);
    va_end(words);
    if (to && to->length + length > to->room) {
        size_t room = to->room ? 2 * to->room : ROOM;
        char *grown = realloc(to->text, room);
        if (grown) to->text = grown, to->room = room;
    }
    if (!to || to->length + length > to->room) {
        atomic_store(&lost, true);
        return;
    }
    memcpy(to->text + to->length, text, length);
    to->length += length;
}

static const struct {
    int answer;
    const char *word;
} refusals[] = {
    {SP_ILLEGAL, "Illegal"}, {SP_NO_SUCH_METHOD, "NoSuchMethod"}, {SP_DEPTH_FULL, "DepthFull"}, {SP_EMPTY_STACK, "EmptyStack"},
    {SP_STACK_NOT_EMPTY, "StackNotEmpty"}, {SP_SAFEPOINT_OPEN, "SafepointOpen"}, {SP_PLACES_FULL, "PlacesFull"}, {SP_SPENT, "Spent"},
    {SP_QUEUE_FULL, "QueueFull"}, {SP_NO_TARGETS, "NoTargets"}, {SP_BAD_TARGETS, "BadTargets"}, {SP_ALREADY_OPEN, "AlreadyOpen"},
    {SP_QUEUE_EMPTY, "QueueEmpty"}, {SP_NOTHING_OPEN, "NothingOpen"}, {SP_NOT_OF, "NotOf"}, {SP_NOT_TOLD, "NotTold"},
    {SP_ALREADY_TOLD, "AlreadyTold"}, {SP_ALREADY_DONE, "AlreadyDone"}, {SP_HELD, "Held"}, {SP_NOT_HELD, "NotHeld"}, {SP_VACANT, "Vacant"},
    {SP_NO_SUCH_PLACE, "NoSuchPlace"}, {SP_NOT_DONE, "NotDone"}, {SP_TABLE_FULL, "TableFull"}, {SP_UNKNOWN, "Unknown"},
    {SP_NOT_IN_USE, "NotInUse"}, {SP_NOT_SAFE, "NotSafe"}, {SP_NOT_ALL_HELD, "NotAllHeld"}, {SP_STILL_IN_USE, "NotNotEntrant"},
};

/* The word of a refusal, NULL where the core doesn't refuse so. */
static const char *refusal(int64_t answer) {
    for (size_t i = 0; i < sizeof refusals / sizeof *refusals; i++)
        if (refusals[i].answer == answer) return refusals[i].word;
    return NULL;
}

/* A call begins, or is tried again. */
static void begin(enum kind kind) {
    if (now.kind != NOTHING) return;
    now = (struct pending){.kind = kind, .before = ticket(), .line = &lines[drive.kind != NOTHING], .name = -1, .place = -1};
}

/* The call has returned: its line up to what was called. Behind that come its numbers. */
static void open_line(const char *call) {
    struct stream *to = stream();
    put("%u %llu %llu %s", to ? to->number : 0, (unsigned long long)now.before, (unsigned long long)ticket(), call);
    now.kind = NOTHING;
}

static void put_number(uint64_t number) { put(" %llu", (unsigned long long)number); }

/* Behind the answer: the jobs of the call. */
static void close_line(void) {
    struct line *it = now.line;
    if (it->ran) put(" ;");
    for (size_t i = 0; i < it->ran; i++) {
        put_number((uint64_t)it->jobs[i].operation), put_number((uint64_t)it->jobs[i].name);
        put_number((uint64_t)it->jobs[i].reply), put_number(it->jobs[i].ticket);
    }
    it->ran = 0;
    put("\n");
}

/* What was entered for a job; nothing is forgotten. */
static int64_t reply_to(struct sp_party *party, struct job job) {
    int64_t reply;
    while ((reply = sp_reply(party, (uint64_t)job.operation, (uint64_t)job.name)) == SP_AGAIN) sched_yield();
    return reply;
}

/* A job of the line's call is done, with this reply. */
static void note_job(struct line *it, struct job job, int64_t reply) {
    job.reply = reply;
    if (reply < 0 || it->ran == MOST_JOBS) atomic_store(&lost, true);
    else it->jobs[it->ran++] = job;
}

/* A call with at most one number, which answered this; `said` is what it says where it isn't refused. True where the call is over. */
static bool ends(const char *call, int64_t number, int64_t answer, const char *said, bool with_answer) {
    if (answer == SP_AGAIN) return false;
    const char *word = answer < 0 ? refusal(answer) : said;
    if (!word) {
        now.kind = NOTHING;
        return true;
    }
    open_line(call);
    if (number >= 0) put_number((uint64_t)number);
    put(" : %s", word);
    if (answer >= 0 && with_answer) put_number((uint64_t)answer);
    close_line();
    return true;
}

/* Whether the calls of this thread belong to a reclaiming. */
static bool is_inside(void) { return now.kind == RECLAIM; }

int64_t sp_recorded_make(struct sp_party *coordinator, size_t places, size_t slots, size_t methods) {
    int64_t answer = sp_make(coordinator, places, slots, methods);
    if (answer == 0 && !sizes[0]) sizes[0] = places, sizes[1] = slots, sizes[2] = methods;
    return answer;
}

/* --- a thread --- */

static int64_t moved(const char *call, int64_t place, int64_t answer) {
    if (place >= 0) ends(call, place, answer, "ok", false);
    return answer;
}

static int64_t polled(const char *call, int64_t place, int64_t answer) {
    if (place >= 0) ends(call, place, answer, answer ? "stop" : "go", answer > 0);
    return answer;
}

#define MOVES(name, word)                                                                                                                  \
    int64_t sp_recorded_##name(struct sp_party *thread) {                                                                                  \
        int64_t place = sp_place(thread);                                                                                                  \
        if (place >= 0) begin(SINGLE);                                                                                                     \
        return moved(word, place, sp_##name(thread));                                                                                      \
    }
#define POLLS(name, word)                                                                                                                  \
    int64_t sp_recorded_##name(struct sp_party *thread) {                                                                                  \
        int64_t place = sp_place(thread);                                                                                                  \
        if (place >= 0) begin(SINGLE);                                                                                                     \
        return polled(word, place, sp_##name(thread));                                                                                     \
    }
MOVES(publish, "publish")
MOVES(to_vm, "tovm")
MOVES(to_native, "tonative")
MOVES(block, "block")
POLLS(ret, "ret")
POLLS(back_edge, "edge")
POLLS(from_vm, "fromvm")
POLLS(from_native, "fromnative")
POLLS(unblock, "unblock")

static void note_serial(int64_t serial) {
    uint_least64_t last = atomic_load(&last_serial);
    while (serial > 0 && last < (uint64_t)serial && !atomic_compare_exchange_weak(&last_serial, &last, (uint64_t)serial)) ;
}

int64_t sp_recorded_call(struct sp_party *thread, uint32_t method) {
    int64_t place = sp_place(thread);
    if (place < 0) return sp_call(thread, method);
    begin(SINGLE);
    int64_t answer = sp_call(thread, method);
    note_serial(answer);
    const char *why = refusal(answer);
    if (answer < 0 && !why) {
        now.kind = NOTHING;
        return answer;
    }
    open_line("call");
    put_number((uint64_t)place);
    put_number(method);
    if (answer > 0) put(" %lld : compiled %lld", (long long)answer, (long long)answer);
    else put(" : %s", why ? why : "interpreted");
    close_line();
    return answer;
}

static void end_start(void) {
    open_line("start");
    put(" : thread %lld %lld", (long long)now.name, (long long)now.place);
    close_line();
}

int64_t sp_recorded_start(struct sp_party *thread) {
    begin(START);
    int64_t name = sp_start(thread);
    if (name < 0) {
        ends("start", -1, name, NULL, false);
        return name;
    }
    now.name = name, now.place = sp_place(thread);
    atomic_store(&name_at[now.place], name);
    if (sp_state(thread) != SP_AT_POLL) end_start();
    return name;
}

/* The thread goes on, behind turns of which the last had an operation or not. */
static void goes_on(int64_t place, bool served) {
    if (now.kind == START) end_start();
    else if (now.kind == EXIT) now.stopped = true;
    else ends("stop", place, 0, served ? "served" : "ok", false);
}

int64_t sp_recorded_stop_next(struct sp_party *thread) {
    int64_t place = sp_place(thread);
    if (place >= 0) begin(STOP);
    int64_t answer = sp_stop_next(thread);
    if (answer > 0) serving = (struct job){answer, sp_name(thread), 0, ticket()};
    if (place >= 0 && answer == 0) goes_on(place, false);
    else if (place >= 0 && answer < 0 && now.kind == STOP) ends("stop", place, answer, NULL, false);
    return answer;
}

int64_t sp_recorded_stop_serve(struct sp_party *thread) {
    int64_t place = sp_place(thread), answer = sp_stop_serve(thread);
    if (answer >= 0) note_job(now.line, serving, reply_to(thread, serving));
    if (answer == 0) goes_on(place, true);
    return answer;
}

int64_t sp_recorded_exit(struct sp_party *thread) {
    int64_t place = sp_place(thread), name = sp_name(thread);
    if (place >= 0) begin(EXIT);
    if (now.kind == EXIT && place >= 0) now.place = place, now.name = name;
    int64_t answer = sp_exit(thread);
    if (now.kind != EXIT || answer > 0 || answer == SP_AGAIN) return answer;
    int64_t of = now.name, at = now.place;
    bool stopped = now.stopped;
    if (answer < 0) {
        ends("exit", at, answer, NULL, false);
        return answer;
    }
    open_line("exit");
    put_number((uint64_t)at);
    put(" : %s %lld", stopped ? "servedexited" : "exited", (long long)of);
    close_line();
    return answer;
}

/* --- any party --- */

static void note_asked(int64_t number, bool is_census) {
    if (number > 0) atomic_store(&asked[number % ASKED], 2 * number + is_census);
}

/* Whether the request is a census. Whoever asked for it may not have noted that yet. */
static bool is_census(int64_t number) {
    for (int i = 0; i < MOST_YIELDS; i++) {
        int64_t noted = atomic_load(&asked[number % ASKED]);
        if (noted / 2 >= number) return noted & 1;
        sched_yield();
    }
    atomic_store(&lost, true);
    return false;
}

int64_t sp_recorded_target(struct sp_party *party, uint64_t name) {
    int64_t answer = sp_target(party, name);
    if (answer >= 0 && named <= TARGETS) targets[named++] = name;
    return answer;
}

/* A log has the names, so each thread that lives is named. */
int64_t sp_recorded_target_all(struct sp_party *party) {
    for (int64_t name = 0, answer;;) {
        SP_WAIT(name, sp_live_after(party, (uint64_t)name));
        if (name <= 0) return name;
        answer = sp_recorded_target(party, (uint64_t)name);
        if (answer < 0) return answer;
    }
}

/* Puts the names of a request, which are taken now. */
static void put_targets(void) {
    for (size_t i = 0; i < named; i++) put_number(targets[i]);
    named = 0;
}

int64_t sp_recorded_submit(struct sp_party *party, uint32_t asks, uint64_t serial) {
    static const char *const words[] = {"submit-depth", "submit-count", "submit-top"};
    begin(SINGLE);
    int64_t answer = sp_submit(party, asks, serial);
    note_asked(answer, false);
    if (answer == SP_AGAIN) return answer;
    const char *word = answer < 0 ? refusal(answer) : "asked";
    if (!word || asks > SP_TOP || named > TARGETS) {
        now.kind = NOTHING;
        if (answer != SP_NO_MEMORY) named = 0;
        return answer;
    }
    open_line(words[asks]);
    if (asks == SP_COUNT_OF) put_number(serial);
    put_targets();
    put(" : %s", word);
    if (answer >= 0) put_number((uint64_t)answer);
    close_line();
    return answer;
}

int64_t sp_recorded_census(struct sp_party *party) {
    begin(SINGLE);
    int64_t answer = sp_census(party);
    note_asked(answer, true);
    ends("submit-census", -1, answer, "asked", true);
    return answer;
}

int64_t sp_recorded_install(struct sp_party *party, uint32_t method) {
    begin(SINGLE);
    int64_t answer = sp_install(party, method);
    note_serial(answer);
    ends("install", method, answer, "code", true);
    return answer;
}

int64_t sp_recorded_forget(struct sp_party *party) { return party->made ? 0 : SP_NOT_THIS; }

int64_t sp_recorded_invalidate(struct sp_party *party, uint64_t serial) {
    begin(SINGLE);
    int64_t answer = sp_invalidate(party, serial);
    ends("invalidate", (int64_t)serial, answer, "ok", false);
    return answer;
}

/* --- the coordinator --- */

/* A single step has no place within a drive. */
static void begin_step(void) {
    if (drive.kind != NOTHING) atomic_store(&lost, true);
    begin(SINGLE);
}

#define STEP(name, of, kind_of, number, word, said, with_answer, holds_more)                                                               \
    int64_t sp_recorded_##name(struct sp_party *coordinator, kind_of of) {                                                                 \
        if (is_inside()) return sp_##name(coordinator, of);                                                                                \
        begin_step();                                                                                                                      \
        int64_t answer = sp_##name(coordinator, of);                                                                                       \
        ends(word, (int64_t)number, answer, said, with_answer);                                                                            \
        if (answer >= 0) atomic_fetch_add(&held, holds_more);                                                                              \
        return answer;                                                                                                                     \
    }
#define WHOLE(name, word, said)                                                                                                            \
    int64_t sp_recorded_##name(struct sp_party *coordinator) {                                                                             \
        if (is_inside()) return sp_##name(coordinator);                                                                                    \
        begin_step();                                                                                                                      \
        int64_t answer = sp_##name(coordinator);                                                                                           \
        ends(word, -1, answer, said, true);                                                                                                \
        return answer;                                                                                                                     \
    }
WHOLE(open, "open", "open")
WHOLE(close, "close", "closed")
STEP(close_of, number, uint64_t, number, "close", "closed", true, 0)
STEP(tell, name, uint64_t, name, "tell", answer ? "told" : "gone", false, 0)
STEP(hold, place, size_t, place, "hold", "ok", false, 1)
STEP(release, place, size_t, place, "release", "ok", false, -1)

int64_t sp_recorded_serve(struct sp_party *coordinator, size_t place) {
    if (!is_inside()) begin_step();
    struct job job = {.ticket = ticket()};
    int64_t answer = sp_serve(coordinator, place);
    if (answer >= 0) job.operation = answer, job.name = atomic_load(&name_at[place]), note_job(now.line, job, reply_to(coordinator, job));
    if (!is_inside()) ends("serve", (int64_t)place, answer, "ok", false);
    return answer;
}

/* What a census counted. */
static void put_census(struct sp_party *coordinator, int64_t number) {
    put(" : census");
    put_number((uint64_t)number);
    for (uint64_t serial = 1, last = atomic_load(&last_serial); serial <= last; serial++) {
        int64_t frames = sp_counted(coordinator, serial);
        if (frames > 0) put_number(serial), put_number((uint64_t)frames);
    }
}

int64_t sp_recorded_operate(struct sp_party *coordinator) {
    if (is_inside()) return sp_operate(coordinator);
    begin_step();
    int64_t answer = sp_operate(coordinator);
    if (answer < 0) {
        ends("operate", -1, answer, NULL, false);
        return answer;
    }
    atomic_store(&operated, answer);
    open_line("operate");
    put_census(coordinator, answer);
    close_line();
    return answer;
}

/* A drive begins: nobody is held, and no other call of the thread is to be made again meanwhile. */
static void begin_drive(void) {
    if (drive.kind != NOTHING) return;
    if (now.kind != NOTHING || atomic_load(&held)) atomic_store(&lost, true);
    drive = (struct pending){.kind = DRIVE, .before = ticket(), .line = &lines[0]};
}

/* The drive has closed a request, or found none. Of a census that a single step operated it is the Close alone. */
static void end_drive(struct sp_party *coordinator, int64_t answer) {
    struct pending other = now;
    now = drive, drive.kind = NOTHING;
    if (answer < 0) {
        ends("drive", -1, answer, NULL, false);
    } else if (answer == atomic_load(&operated)) {
        ends("close", -1, answer, "closed", true);
    } else {
        bool counts = is_census(answer);
        open_line("drive");
        if (counts) put_census(coordinator, answer);
        else put(" : handshake %lld", (long long)answer);
        close_line();
    }
    now = other;
}

/* The held thread that was called before is served by this step, or by a later one. */
static void note_called(struct sp_party *coordinator, struct job job) {
    int64_t reply = reply_to(coordinator, job);
    if (reply != SP_NOT_ANSWERED && reply != SP_PENDING) note_job(&lines[0], job, reply);
}

static bool is_over(int64_t answer) {
    return answer != SP_RUN && answer != SP_AT_SAFEPOINT && answer != SP_AWAITS && answer != SP_AGAIN && answer != SP_NO_MEMORY;
}

/* Whether the coordinator ran a VM operation last. */
static bool is_at_safepoint;

int64_t sp_recorded_advance(struct sp_party *coordinator) {
    if (!is_inside()) begin_drive();
    int64_t operation = sp_called_operation(coordinator);
    bool serves = operation > 0 && !is_at_safepoint;
    int64_t name = serves ? atomic_load(&name_at[sp_called_place(coordinator)]) : 0;
    struct job job = {operation, name, 0, ticket()};
    int64_t answer = sp_advance(coordinator);
    is_at_safepoint = answer == SP_AT_SAFEPOINT;
    if (serves) note_called(coordinator, job);
    if (!is_inside() && is_over(answer)) end_drive(coordinator, answer);
    return answer;
}

/* With names it asks each how many frames of the code it has. */
static const char *reclaiming(void) { return named ? "reclaim-count" : "reclaim"; }

static void put_reclaimed(uint64_t serial) {
    if (named) put_number(serial);
    put_number(serial);
    put_targets();
}

static void end_reclaim(uint64_t serial, const char *said, int64_t number) {
    open_line(reclaiming());
    put_reclaimed(serial);
    put(" : %s", said);
    if (number >= 0) put_number((uint64_t)number);
    close_line();
}

/* A thread is late, and which isn't told: as a call that hadn't returned, which is the last of a stream of its own. */
static void end_untold(uint64_t serial) {
    put("%u %llu - %s", atomic_fetch_add(&streams, 1), (unsigned long long)now.before, reclaiming());
    now.kind = NOTHING;
    put_reclaimed(serial);
    put(" : ?");
    close_line();
}

int64_t sp_recorded_reclaim_begin(struct sp_party *party, uint64_t serial) {
    begin(RECLAIM);
    int64_t answer = sp_reclaim_begin(party, serial);
    note_asked(answer, false);
    if (answer >= 0 || answer == SP_AGAIN) return answer;
    const char *word = refusal(answer);
    if (word && named <= TARGETS) {
        end_reclaim(serial, word, -1);
    } else {
        now.kind = NOTHING;
        if (answer != SP_NO_MEMORY) named = 0;
    }
    return answer;
}

/* The end of a reclaiming that another one began for: a reclaiming of its own, which has no jobs. One that is late changed nothing. */
static void end_weighing(uint64_t serial, int64_t answer) {
    if (answer < 0) {
        now.kind = NOTHING;
        return;
    }
    open_line("reclaim");
    put_number(serial);
    put(" : %s", answer ? "used" : "freed");
    if (answer) put_number((uint64_t)answer);
    close_line();
}

int64_t sp_recorded_reclaim_end(struct sp_party *coordinator, uint64_t serial) {
    bool is_begun = is_inside();
    begin(SINGLE);
    int64_t answer = sp_reclaim_end(coordinator, serial);
    if (answer == SP_AGAIN) return answer;
    if (!is_begun) end_weighing(serial, answer);
    else if (answer == 0) end_reclaim(serial, "freed", -1);
    else if (answer > 0) end_reclaim(serial, "used", answer);
    else end_untold(serial);
    return answer;
}

int64_t sp_record_write(FILE *file) {
    if (atomic_load(&lost)) return SP_NO_MEMORY;
    fprintf(file, "witness 1 jobs\nsize %zu %zu %zu\n", sizes[0], sizes[1], sizes[2]);
    for (struct stream *from = atomic_load(&all); from; from = from->next) fwrite(from->text, 1, from->length, file);
    return ferror(file) ? SP_NO_MEMORY : 0;
}
#endif
