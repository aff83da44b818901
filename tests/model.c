/* The calls of crates/model/include/model.h with each of their faults, from C. Where memory is refused, the call is made again, or the answer
   is taken: so it prints the same whichever growth is refused. tests/embed.py builds and runs it. */
#include <stdio.h>
#include <string.h>

#include "../crates/model/include/model.h"

static struct model model;
static unsigned char room[256];
static int failed;

static void judge(const char *name, ptrdiff_t found, ptrdiff_t wanted)
{
    if (found == wanted)
        return;
    printf("%s: %d, and not %d\n", name, (int)found, (int)wanted);
    failed = 1;
}

static ptrdiff_t new_model(size_t places, size_t slots, size_t methods)
{
    ptrdiff_t said = model_new(&model, places, slots, methods);
    return said == MODEL_NO_MEMORY ? model_new(&model, places, slots, methods) : said;
}

static ptrdiff_t line(const char *text, size_t space)
{
    const unsigned char *bytes = (const unsigned char *)text;
    memset(room, '.', sizeof room);
    ptrdiff_t said = model_line(&model, bytes, strlen(text), room, space);
    if (said == MODEL_NO_MEMORY)
        said = model_line(&model, bytes, strlen(text), room, space);
    return said == MODEL_ANSWER_UNWRITTEN ? model_answer(&model, room, space) : said;
}

/* A line and its answer, and the room behind is as it was. */
static void says(const char *text, const char *wanted)
{
    ptrdiff_t length = (ptrdiff_t)strlen(wanted);
    judge(text, line(text, sizeof room), length);
    judge(text, memcmp(room, wanted, (size_t)length), 0);
    judge(text, room[length], '.');
}

/* A run over two places, with the answers. A census finds a thread in native code, with a frame of code 1. */
static const char *const run[][2] = {
    {"start", "thread 1 place 0"},
    {"size 2 4 2", "bad line"},
    {"edge 0", "refused Illegal New"},
    {"begin 0", "ok"},
    {"end 0", "ok"},
    {"wake 0", "ok"},
    {"cross 0", "go"},
    {"install 1", "code 1"},
    {"enter 0 1 1", "entered"},
    {"tonative 0", "ok"},
    {"ask census", "asked 1"},
    {"open", "open 1 census"},
    {"tell 1", "told"},
    {"hold 0", "ok"},
    {"begin 0", "ok"},
    {"change 0", "change 1 +1"},
    {"end 0", "ok"},
    {"operate", "census 1:1"},
    {"clear 0", "ok"},
    {"release 0", "ok"},
    {"close", "closed 1"},
    {"wake 0", "ok"},
    {"cross 0", "go"},
    {"enter 0 0", "entered"},
    {"stack 0", "stack 1:1 0:i"},
    {"ask depth 1", "asked 2"},
    {"", "bad line"},
    {"edge 0\n", "bad line"},
};

int main(void)
{
    judge("a line without a model", line("start", 256), MODEL_NO_MODEL);
    judge("an answer without a model", model_answer(&model, room, 256), MODEL_NO_MODEL);
    judge("a length without a model", model_needs(&model), MODEL_NO_MODEL);
    model_free(&model);
    judge("no place", new_model(0, 1, 1), MODEL_BAD_SIZE);
    judge("65 places", new_model(65, 1, 1), MODEL_BAD_SIZE);
    judge("1025 slots", new_model(1, 1025, 1), MODEL_BAD_SIZE);
    judge("no method", new_model(1, 1, 0), MODEL_BAD_SIZE);
    judge("a model", new_model(1, 1, 1), 0);
    judge("a second model", model_new(&model, 1, 1, 1), MODEL_HAS_MODEL);

    judge("an answer before a line", model_answer(&model, room, 256), MODEL_NOTHING_WAITS);
    judge("room for 15 of 16", line("start", 15), MODEL_ANSWER_TOO_LONG);
    judge("the room", memcmp(room, "................", 16), 0);
    judge("a line before the answer", line("start", 256), MODEL_ANSWER_WAITS);
    judge("its length", model_needs(&model), 16);
    judge("room for 15 once more", model_answer(&model, room, 15), MODEL_ANSWER_TOO_LONG);
    judge("the room once more", memcmp(room, "................", 16), 0);
    judge("room for 16", model_answer(&model, room, 16), 16);
    judge("the answer", memcmp(room, "thread 1 place 0.", 17), 0);
    judge("the answer a second time", model_answer(&model, room, 256), MODEL_NOTHING_WAITS);
    judge("its length afterwards", model_needs(&model), MODEL_NOTHING_WAITS);

    says("start", "refused PlacesFull");
    says("size 1 1 1", "bad line");
    says("", "bad line");
    says("begin 0", "ok");
    says("end 0", "ok");
    says("wake 0", "ok");
    says("cross 0", "go");
    says("ask depth 1 2 3 4 5 6 7 8 9", "asked 1");
    for (int frame = 0; frame < 40; frame++)
        says("enter 0 0", "entered");
    judge("a list of 40 frames", line("stack 0", 256), 165);
    judge("its beginning", memcmp(room, "stack 0:i", 9), 0);
    judge("its end", memcmp(room + 157, " 0:i 0:i.", 9), 0);

    model_free(&model);
    judge("a length after the model", model_needs(&model), MODEL_NO_MODEL);
    judge("a model in its place", new_model(64, 1024, 256), 0);
    says("start", "thread 1 place 0");
    model_free(&model);
    judge("a model for a run", new_model(2, 4, 2), 0);
    for (size_t row = 0; row < sizeof run / sizeof run[0]; row++)
        says(run[row][0], run[row][1]);
    model_free(&model);
    puts(failed ? "failed" : "ok");
    return failed;
}
