#include "safepoint_wait.h"

static const struct {
    int answer;
    const char *text;
} texts[] = {
    {SP_AGAIN, "a lock is taken, or what the call needs isn't there yet: make it again"},
    {SP_NO_MEMORY, "there is no memory"},
    {SP_NOT_THIS, "the party isn't in this part"},
    {SP_ILLEGAL, "the thread isn't in a state for this"},
    {SP_NO_SUCH_METHOD, "there is no such method"},
    {SP_DEPTH_FULL, "the stack has 256 frames"},
    {SP_EMPTY_STACK, "the stack is empty"},
    {SP_STACK_NOT_EMPTY, "the stack isn't empty"},
    {SP_SAFEPOINT_OPEN, "a census is open"},
    {SP_PLACES_FULL, "each place has a live thread"},
    {SP_SPENT, "the names, numbers or moments are given out"},
    {SP_HISTORY_FULL, "the history has no room"},
    {SP_QUEUE_FULL, "as many requests wait as can"},
    {SP_NO_TARGETS, "no target was named"},
    {SP_BAD_TARGETS, "a target was named twice, or there are too many"},
    {SP_ALREADY_OPEN, "a request is open"},
    {SP_QUEUE_EMPTY, "no request waits"},
    {SP_NOTHING_OPEN, "no request is open"},
    {SP_NOT_OF, "no open request is of it, or the open one isn't of this kind"},
    {SP_NOT_TOLD, "the thread was told nothing that is open"},
    {SP_ALREADY_TOLD, "the thread was told all that is open"},
    {SP_ALREADY_DONE, "it is done"},
    {SP_HELD, "the thread is held"},
    {SP_NOT_HELD, "the thread isn't held"},
    {SP_VACANT, "no live thread has the place"},
    {SP_NO_SUCH_PLACE, "there is no such place"},
    {SP_NOT_DONE, "a live target isn't done, or the census isn't operated"},
    {SP_TABLE_FULL, "each slot has a code that isn't freed"},
    {SP_UNKNOWN, "there is no code of the serial, or it is freed"},
    {SP_NOT_IN_USE, "the code isn't in use"},
    {SP_NOT_SAFE, "the thread owns itself"},
    {SP_NOT_ALL_HELD, "not all live threads are held"},
    {SP_NOT_ANSWERED, "no answer of the name in the operation is kept"},
    {SP_STILL_IN_USE, "the code may still be entered"},
    {SP_NOT_WEIGHED, "the code isn't one that can be weighed"},
    {SP_LATE, "a thread may still enter the code, or hasn't told that it has"},
    {SP_RUN, "a held thread is served next"},
    {SP_AWAITS, "threads have still to come"},
    {SP_AT_SAFEPOINT, "all live threads are held at a safepoint"},
    {SP_MADE, "the party is made already"},
    {SP_BAD_SIZE, "a size is 0, or above its limit"},
    {SP_BAD_ASK, "there is no such ask"},
    {SP_PENDING, "the operation isn't closed yet"},
    {SP_TIMEOUT, "the time is over"},
};

const char *sp_text(int64_t answer) {
    if (answer >= 0) return "done";
    for (size_t i = 0; i < sizeof texts / sizeof *texts; i++)
        if (texts[i].answer == answer) return texts[i].text;
    return "no such answer";
}
