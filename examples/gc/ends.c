#include "ends.h"

#include <inttypes.h>
#include <stdarg.h>
#include <stdio.h>
#include <unistd.h>

#include <safepoint_wait.h>

_Noreturn void die(int status, const char *form, ...) {
    char line[200];
    va_list words;
    va_start(words, form);
    vsnprintf(line, sizeof line, form, words);
    va_end(words);
    fprintf(stderr, "gc: %s\n", line);
    _exit(status);
}

void check(const char *what, uint64_t task, uint64_t found, uint64_t wanted) {
    if (found == wanted) return;
    die(WRONG_RESULT, "the %s of task %" PRIu64 " has the checksum %016" PRIx64 ", and not %016" PRIx64, what, task,
        found, wanted);
}

int64_t must(const char *call, int64_t answer) {
    if (answer < 0) die(BAD_USE, "%s: %s", call, sp_text(answer));
    return answer;
}
