/* A runtime that compiles to machine code while threads run it, and frees that code under them: jit [--careless] [THREADS] [SECONDS]

   Its language is a small Forth. Each word is compiled to x86-64 machine code, again and again, by a compiler thread that picks the word that
   is called most: the new code is installed over the one in use, and the pages of the old one are unmapped. With --careless they are unmapped
   at once: a thread that stands in them dies of it within a second. Without, the compiler asks libsafepoint.a when no thread stands in them or
   can enter them any more, and a run never faults. Read it from the top: a program, an interpreter, a compiler, the threads, the compiler
   thread. What a runtime owes the library stands in `enter`, `leave`, `edge`, `put_poll` and `recompile`. */
#define _GNU_SOURCE
#include <pthread.h>
#include <stdatomic.h>
#include <stdio.h>
#include <stdlib.h>
#include <string.h>
#include <sys/mman.h>
#include <time.h>
#include <unistd.h>

#include "../../crates/safepoint/include/safepoint_wait.h"

static void must(const char *what, int64_t answer) {
    if (answer >= 0) return;
    fprintf(stderr, "jit: %s: %s\n", what, sp_text(answer));
    exit(2);
}

/* --- the program: words, each a list of steps --- */

static const char program[] = ": not 0 = ; "
                              ": square dup * ; "
                              ": triangle 0 swap times i + end ; "
                              ": fib dup 2 < not if dup 1 - fib swap 2 - fib + end ; "
                              ": squares 0 swap times i square + end ; "
                              ": main 11 fib 40 triangle + 30 squares + 3 times i triangle + end ; ";

enum step_kind { PUSH, ADD, SUB, MUL, LESS, SAME, DUP, DROP, SWAP, INDEX, TIMES, IF, END_TIMES, END_IF, CALL, DONE };

struct step {
    enum step_kind kind;
    int64_t value; /* the number to push, the word to call, or the step that a loop or an `if` goes to */
};

enum { MOST_WORDS = 16, MOST_STEPS = 64, MOST_OPEN = 8 };

struct word {
    char name[16];
    struct step steps[MOST_STEPS];
    int count;
    atomic_long calls; /* since it was compiled last */
};

static struct word words[MOST_WORDS];
static int word_count;

static int word_named(const char *name) {
    for (int i = 0; i < word_count; i++)
        if (!strcmp(words[i].name, name)) return i;
    return -1;
}

static const struct {
    const char *name;
    enum step_kind kind;
} plain[] = {{"+", ADD}, {"-", SUB}, {"*", MUL}, {"<", LESS}, {"=", SAME}, {"dup", DUP}, {"drop", DROP}, {"swap", SWAP}, {"i", INDEX}};

static void add(struct word *word, enum step_kind kind, int64_t value) {
    if (word->count == MOST_STEPS) abort();
    word->steps[word->count++] = (struct step){kind, value};
}

/* One token of a word; `open` has the steps of the loops and ifs that are open. */
static void read_token(struct word *word, const char *token, int *open, int *depth) {
    for (size_t i = 0; i < sizeof plain / sizeof *plain; i++)
        if (!strcmp(token, plain[i].name)) {
            add(word, plain[i].kind, 0);
            return;
        }
    if (!strcmp(token, "times") || !strcmp(token, "if")) {
        if (*depth == MOST_OPEN) abort();
        open[(*depth)++] = word->count;
        add(word, *token == 't' ? TIMES : IF, 0);
    } else if (!strcmp(token, "end")) {
        int begin = open[--*depth];
        word->steps[begin].value = word->count;
        add(word, word->steps[begin].kind == TIMES ? END_TIMES : END_IF, begin);
    } else if (word_named(token) >= 0) {
        add(word, CALL, word_named(token));
    } else {
        add(word, PUSH, atoll(token));
    }
}

static void read_program(void) {
    char text[sizeof program], *rest = text, *token;
    int open[MOST_OPEN], depth = 0;
    memcpy(text, program, sizeof program);
    while ((token = strtok_r(rest, " ", &rest))) {
        struct word *word = &words[word_count - 1];
        if (!strcmp(token, ":")) {
            token = strtok_r(rest, " ", &rest);
            strncpy(words[word_count++].name, token, sizeof words->name - 1); /* named before its steps are read: it may call itself */
        } else if (!strcmp(token, ";")) {
            add(word, DONE, 0);
        } else {
            read_token(word, token, open, &depth);
        }
    }
}

/* --- a thread: its party, its two stacks --- */

enum { VALUES = 4096, LOOPS = 1024 };

struct thread {
    int64_t *values, *loops; /* behind the top of each stack; machine code has them in r12 and r13 */
    int64_t called;          /* the word that is entered */
    const uint32_t *poll;    /* what its back edges test */
    struct sp_party party;
    pthread_t id;
    long runs;
    int64_t value_stack[VALUES], loop_stack[LOOPS];
};

enum { POLL = 24 }; /* in machine code, where rbx is the thread */
_Static_assert(offsetof(struct thread, poll) == POLL, "where machine code finds the address");

/* --- what each call, return and back edge does; interpreted and compiled code call these --- */

/* A poll that answered a number: the thread is at a safe point. Nothing of it is to be served but the handshake that a reclaiming makes, for
   which there is no callback here. */
static void polled(struct thread *thread, int64_t answer) {
    must("a poll", answer);
    if (answer > 0) must("sp_stop", sp_stop(&thread->party, NULL, NULL));
}

enum { CODES = 1 << 20 };
static void *code_of[CODES]; /* by serial; written before the code is installed */
static void *interpreted;    /* machine code that calls the interpreter */

/* Enters a word: where its machine code is. From here to `leave` no one frees that code. */
static void *enter(struct thread *thread, int64_t word) {
    int64_t serial = sp_call(&thread->party, (uint32_t)word);
    must("sp_call", serial);
    atomic_fetch_add_explicit(&words[word].calls, 1, memory_order_relaxed);
    thread->called = word;
    return serial ? code_of[serial % CODES] : interpreted;
}

static void leave(struct thread *thread) { polled(thread, sp_ret(&thread->party)); }

/* The slow way of a back edge in machine code, where the word that this tests isn't 0. */
static void edge(struct thread *thread) { polled(thread, sp_back_edge(&thread->party)); }

/* --- the interpreter --- */

static void (*run_code)(struct thread *, void *); /* machine code that calls machine code */

static void call_word(struct thread *thread, int64_t word) {
    void *code = enter(thread, word);
    run_code(thread, code);
    leave(thread);
}

static void interpret(struct thread *thread) {
    struct word *word = &words[thread->called];
    for (int at = 0;; at++) {
        const struct step *step = &word->steps[at];
        int64_t *top = thread->values;
        switch (step->kind) {
        case PUSH: *thread->values++ = step->value; break;
        case ADD: top[-2] += top[-1], thread->values--; break;
        case SUB: top[-2] -= top[-1], thread->values--; break;
        case MUL: top[-2] *= top[-1], thread->values--; break;
        case LESS: top[-2] = top[-2] < top[-1], thread->values--; break;
        case SAME: top[-2] = top[-2] == top[-1], thread->values--; break;
        case DUP: *top = top[-1], thread->values++; break;
        case DROP: thread->values--; break;
        case SWAP: *top = top[-1], top[-1] = top[-2], top[-2] = *top; break;
        case INDEX: *thread->values++ = thread->loops[-1]; break;
        case TIMES:
            *thread->loops++ = *--thread->values;
            if (thread->loops[-1] <= 0) thread->loops--, at = (int)step->value;
            break;
        case END_TIMES:
            polled(thread, sp_poll(&thread->party));
            if (--thread->loops[-1] > 0) at = (int)step->value;
            else thread->loops--;
            break;
        case IF:
            if (!*--thread->values) at = (int)step->value;
            break;
        case END_IF: break;
        case CALL: call_word(thread, step->value); break;
        case DONE: return;
        }
    }
}

/* --- the compiler: rbx is the thread, r12 behind its values, r13 behind its loops --- */

struct pages {
    unsigned char *at;
    size_t size, used;
};

/* Each at addresses of its own, so that whoever runs into pages that are gone doesn't find other code there. */
static struct pages new_pages(size_t size) {
    static char *next = (char *)0x200000000000;
    struct pages pages = {mmap(next, size, PROT_READ | PROT_WRITE, MAP_PRIVATE | MAP_ANONYMOUS, -1, 0), size, 0};
    next += size;
    if (pages.at == MAP_FAILED) perror("mmap"), exit(2);
    return pages;
}

static void put(struct pages *to, const void *bytes, size_t count) {
    if (to->used + count > to->size) abort();
    memcpy(to->at + to->used, bytes, count);
    to->used += count;
}

#define EMIT(to, ...) put((to), (const unsigned char[]){__VA_ARGS__}, sizeof((const unsigned char[]){__VA_ARGS__}))

static void put_number(struct pages *to, int64_t number) { put(to, &number, 8); }

/* mov rdi, rbx; mov rax, FUNCTION; call rax */
static void put_call(struct pages *to, void *function) {
    EMIT(to, 0x48, 0x89, 0xdf, 0x48, 0xb8);
    put_number(to, (int64_t)function);
    EMIT(to, 0xff, 0xd0);
}

/* A jump whose distance is filled in later. */
static size_t put_jump(struct pages *to, unsigned char condition) {
    EMIT(to, 0x0f, condition, 0, 0, 0, 0);
    return to->used;
}

static void land(struct pages *to, size_t jump, size_t target) {
    int32_t distance = (int32_t)((ptrdiff_t)target - (ptrdiff_t)jump);
    memcpy(to->at + jump - 4, &distance, 4);
}

enum { JE = 0x84, JNE = 0x85, JLE = 0x8e, JG = 0x8f };

/* The polls of a word: where the code goes on behind the jump of each. */
struct polls {
    size_t behind[MOST_STEPS];
    int count;
};

/* mov rax,[rbx+POLL]; cmp dword [rax],0; jne to a slow way, which `put_slow_ways` puts behind the code */
static void put_poll(struct pages *to, struct polls *polls) {
    EMIT(to, 0x48, 0x8b, 0x43, POLL, 0x83, 0x38, 0x00);
    polls->behind[polls->count++] = put_jump(to, JNE);
}

static void put_slow_ways(struct pages *to, const struct polls *polls) {
    for (int i = 0; i < polls->count; i++) {
        land(to, polls->behind[i], to->used);
        put_call(to, (void *)edge);
        EMIT(to, 0xe9, 0, 0, 0, 0); /* jmp behind the poll */
        land(to, to->used, polls->behind[i]);
    }
}

static void put_pop_into_top(struct pages *to) { EMIT(to, 0x49, 0x8b, 0x44, 0x24, 0xf8, 0x49, 0x83, 0xec, 0x08); /* mov rax,[r12-8]; sub r12,8 */ }

static void put_push_rax(struct pages *to) { EMIT(to, 0x49, 0x89, 0x04, 0x24, 0x49, 0x83, 0xc4, 0x08); /* mov [r12],rax; add r12,8 */ }

static void put_comparison(struct pages *to, unsigned char set) {
    put_pop_into_top(to);
    EMIT(to, 0x31, 0xc9, 0x49, 0x39, 0x44, 0x24, 0xf8, 0x0f, set, 0xc1, 0x49, 0x89, 0x4c, 0x24, 0xf8); /* xor ecx,ecx; cmp [r12-8],rax; setX cl; mov [r12-8],rcx */
}

static void put_word_call(struct pages *to, int64_t word) {
    EMIT(to, 0xbe); /* mov esi, WORD */
    put(to, &(int32_t){(int32_t)word}, 4);
    put_call(to, (void *)enter);
    EMIT(to, 0xff, 0xd0); /* call rax */
    put_call(to, (void *)leave);
}

/* Of each loop and `if` that is open: where its body begins, and the jump past it. */
struct open {
    size_t body, jump;
};

static void compile_step(struct pages *to, const struct step *step, struct open *open, int *depth, struct polls *polls) {
    switch (step->kind) {
    case PUSH:
        EMIT(to, 0x48, 0xb8); /* mov rax, NUMBER */
        put_number(to, step->value);
        put_push_rax(to);
        break;
    case ADD: put_pop_into_top(to); EMIT(to, 0x49, 0x01, 0x44, 0x24, 0xf8); break;
    case SUB: put_pop_into_top(to); EMIT(to, 0x49, 0x29, 0x44, 0x24, 0xf8); break;
    case MUL: put_pop_into_top(to); EMIT(to, 0x49, 0x0f, 0xaf, 0x44, 0x24, 0xf8, 0x49, 0x89, 0x44, 0x24, 0xf8); break;
    case LESS: put_comparison(to, 0x9c); break;
    case SAME: put_comparison(to, 0x94); break;
    case DUP: EMIT(to, 0x49, 0x8b, 0x44, 0x24, 0xf8); put_push_rax(to); break;
    case DROP: EMIT(to, 0x49, 0x83, 0xec, 0x08); break;
    case SWAP: /* mov rax,[r12-8]; xchg rax,[r12-16] without its lock: two moves each way */
        EMIT(to, 0x49, 0x8b, 0x44, 0x24, 0xf8, 0x49, 0x8b, 0x4c, 0x24, 0xf0, 0x49, 0x89, 0x4c, 0x24, 0xf8, 0x49, 0x89, 0x44, 0x24, 0xf0);
        break;
    case INDEX: EMIT(to, 0x49, 0x8b, 0x45, 0xf8); put_push_rax(to); break; /* mov rax,[r13-8] */
    case TIMES: /* mov rax,[r12-8]; sub r12,8; mov [r13],rax; add r13,8; test rax,rax; jle past */
        put_pop_into_top(to);
        EMIT(to, 0x49, 0x89, 0x45, 0x00, 0x49, 0x83, 0xc5, 0x08, 0x48, 0x85, 0xc0);
        open[*depth].jump = put_jump(to, JLE);
        open[(*depth)++].body = to->used;
        break;
    case END_TIMES: /* a poll; dec qword [r13-8]; jg body; past: sub r13,8 */
        put_poll(to, polls);
        EMIT(to, 0x49, 0xff, 0x4d, 0xf8);
        land(to, put_jump(to, JG), open[--*depth].body);
        land(to, open[*depth].jump, to->used);
        EMIT(to, 0x49, 0x83, 0xed, 0x08);
        break;
    case IF: /* sub r12,8; cmp qword [r12],0; je past */
        EMIT(to, 0x49, 0x83, 0xec, 0x08, 0x49, 0x83, 0x3c, 0x24, 0x00);
        open[(*depth)++].jump = put_jump(to, JE);
        break;
    case END_IF: land(to, open[--*depth].jump, to->used); break;
    case CALL: put_word_call(to, step->value); break;
    case DONE: EMIT(to, 0x48, 0x83, 0xc4, 0x08, 0xc3); break; /* add rsp,8; ret */
    }
}

static struct pages sealed(struct pages pages) {
    if (mprotect(pages.at, pages.size, PROT_READ | PROT_EXEC)) perror("mprotect"), exit(2);
    return pages;
}

static struct pages compiled(const struct word *word) {
    struct pages to = new_pages((size_t)sysconf(_SC_PAGESIZE));
    struct open open[MOST_OPEN];
    struct polls polls = {.count = 0};
    int depth = 0;
    EMIT(&to, 0x48, 0x83, 0xec, 0x08); /* sub rsp,8: calls have the stack aligned */
    for (int i = 0; i < word->count; i++) compile_step(&to, &word->steps[i], open, &depth, &polls);
    put_slow_ways(&to, &polls);
    return sealed(to);
}

/* Machine code that calls the interpreter, and machine code that C calls to call machine code. */
static void compile_stubs(void) {
    struct pages to = new_pages((size_t)sysconf(_SC_PAGESIZE));
    interpreted = to.at;
    EMIT(&to, 0x48, 0x83, 0xec, 0x08, 0x4c, 0x89, 0x23, 0x4c, 0x89, 0x6b, 0x08); /* sub rsp,8; mov [rbx],r12; mov [rbx+8],r13 */
    put_call(&to, (void *)interpret);
    EMIT(&to, 0x4c, 0x8b, 0x23, 0x4c, 0x8b, 0x6b, 0x08, 0x48, 0x83, 0xc4, 0x08, 0xc3); /* and back; add rsp,8; ret */
    run_code = (void (*)(struct thread *, void *))(void *)(to.at + to.used);
    EMIT(&to, 0x53, 0x41, 0x54, 0x41, 0x55, 0x48, 0x89, 0xfb, 0x4c, 0x8b, 0x23, 0x4c, 0x8b, 0x6b, 0x08); /* push rbx, r12, r13; mov rbx,rdi; mov r12,[rbx]; mov r13,[rbx+8] */
    EMIT(&to, 0xff, 0xd6, 0x4c, 0x89, 0x23, 0x4c, 0x89, 0x6b, 0x08, 0x41, 0x5d, 0x41, 0x5c, 0x5b, 0xc3); /* call rsi; mov [rbx],r12; mov [rbx+8],r13; pop; ret */
    sealed(to);
}

/* --- the threads --- */

static atomic_bool ends;
static int64_t wanted; /* what main leaves */

static int64_t run_main(struct thread *thread) {
    thread->values = thread->value_stack;
    thread->loops = thread->loop_stack;
    thread->poll = sp_poll_word(&thread->party);
    call_word(thread, word_named("main"));
    return thread->values[-1];
}

static void *live(void *with) {
    struct thread *thread = with;
    must("sp_start", sp_start_thread(&thread->party, NULL, NULL));
    while (!atomic_load(&ends)) {
        int64_t found = run_main(thread);
        if (found != wanted) {
            fprintf(stderr, "jit: main leaves %lld, and not %lld\n", (long long)found, (long long)wanted);
            exit(3);
        }
        thread->runs++;
        must("sp_publish", sp_publish(&thread->party));
    }
    must("sp_exit", sp_exit_thread(&thread->party, NULL, NULL));
    return NULL;
}

/* --- the compiler thread --- */

enum { SLOTS = 64 };

struct code {
    uint64_t serial; /* 0: none */
    struct pages pages;
};

static struct sp_party coordinator;
static struct code in_use[MOST_WORDS], old[SLOTS];
static uint64_t last_serial;
static long compilations, freed;
static bool careless;

static int hottest(void) {
    int best = 0;
    for (int i = 1; i < word_count; i++)
        if (atomic_load(&words[i].calls) > atomic_load(&words[best].calls)) best = i;
    return best;
}

/* Unmaps the pages of a code, once. */
static void unmap(struct pages *pages) {
    if (!pages->at) return;
    munmap(pages->at, pages->size);
    pages->at = NULL;
    freed++;
}

/* Unmaps old code that no thread stands in or can enter any more. The first is reclaimed with a handshake of all threads, in which each tells
   what it stands in. That does for the others too, so of these only the end is asked for. */
static void reclaim(void) {
    bool has_asked = false;
    for (int i = 0; i < SLOTS; i++) {
        int64_t stand;
        if (!old[i].serial) continue;
        if (has_asked) SP_WAIT(stand, sp_reclaim_end(&coordinator, old[i].serial));
        else stand = sp_reclaim(&coordinator, old[i].serial, NULL, NULL);
        has_asked = true;
        if (stand > 0 || stand == SP_LATE) continue; /* later */
        must("sp_reclaim", stand);
        unmap(&old[i].pages);
        old[i].serial = 0;
    }
}

/* The code waits until it can be reclaimed; --careless, it is unmapped without that. */
static void retire(struct code code) {
    if (careless) unmap(&code.pages);
    for (int i = 0; i < SLOTS; i++)
        if (!old[i].serial) {
            old[i] = code;
            return;
        }
    abort();
}

/* Compiles a word anew, and installs the code over the one in use. */
static void recompile(int word) {
    struct code code = {last_serial + 1, compiled(&words[word])}, before = in_use[word];
    int64_t serial;
    code_of[code.serial % CODES] = code.pages.at; /* a thread may be told the serial as soon as it is installed */
    SP_WAIT(serial, sp_install(&coordinator, (uint32_t)word));
    if (serial == SP_TABLE_FULL) { /* all slots have old code that still stands */
        munmap(code.pages.at, code.pages.size);
        return;
    }
    must("sp_install", serial);
    if ((uint64_t)serial != code.serial) abort(); /* serials rise by one, and only this thread installs */
    last_serial = code.serial;
    in_use[word] = code;
    atomic_store(&words[word].calls, 0);
    compilations++;
    if (before.serial) retire(before);
}

static double now(void) {
    struct timespec time;
    clock_gettime(CLOCK_MONOTONIC, &time);
    return (double)time.tv_sec + (double)time.tv_nsec / 1e9;
}

/* What main leaves, by the interpreter alone. */
static void interpret_once(void) {
    struct thread *thread = calloc(1, sizeof *thread);
    if (!thread) abort();
    must("sp_fork", sp_fork(&coordinator, &thread->party));
    must("sp_start", sp_start_thread(&thread->party, NULL, NULL));
    wanted = run_main(thread);
    must("sp_exit", sp_exit_thread(&thread->party, NULL, NULL));
    sp_free(&thread->party);
    free(thread);
}

int main(int argc, char **argv) {
    if (argc > 1 && !strcmp(argv[1], "--careless")) careless = true, argc--, argv++;
    int count = argc > 1 ? atoi(argv[1]) : 4;
    double seconds = argc > 2 ? atof(argv[2]) : 5;
    int64_t forgotten;
    if (count < 1 || count > 63) return 2;
    read_program();
    compile_stubs();
    must("sp_make", sp_make(&coordinator, 64, SLOTS, MOST_WORDS));
    interpret_once();
    struct thread *threads = calloc((size_t)count, sizeof *threads);
    if (!threads) return 2;
    for (int i = 0; i < count; i++) {
        must("sp_fork", sp_fork(&coordinator, &threads[i].party));
        if (pthread_create(&threads[i].id, NULL, live, &threads[i])) return 2;
    }
    for (double end = now() + seconds; now() < end;) {
        recompile(hottest());
        reclaim();
        if (compilations % 1000 == 0) SP_WAIT(forgotten, sp_forget(&coordinator));
    }
    long runs = 0;
    atomic_store(&ends, true);
    for (int i = 0; i < count; i++) {
        pthread_join(threads[i].id, NULL);
        runs += threads[i].runs;
        sp_free(&threads[i].party);
    }
    sp_free(&coordinator);
    (void)forgotten;
#ifdef SP_RECORD
    must("sp_record_write", sp_record_write(stdout));
    return 0;
#endif
    printf("%d threads ran main %ld times; %ld compilations, %ld codes unmapped under them, no fault\n", count, runs, compilations, freed);
    return 0;
}
