/* The model of Meqzhuly, a safepoint and handshake coordinator, stepped line by line (libmodel.a).

   A line is an event, as docs/start/LINES.md spells it, without its newline. Its answer is the one
   that `monitor replay` gives after the same `size` and the same lines, without its newline: proved
   of the Rattle side. A line that spells nothing is answered `bad line`, and so is `size`:
   model_new has done it. What the C side must keep, nothing checks:

   - A `struct model` is all zeros before its first use, and is changed by these calls alone. It may
     not be copied while it has a model.
   - `line` points to `length` bytes, and `answer` to `room` bytes that may be written. Neither is
     null, also where the number is 0; neither number is above PTRDIFF_MAX. They don't overlap one
     another or the `struct model`.
   - All calls with one `struct model` are made by the thread that made its model. Calls with two
     different ones share nothing. None is made from a signal handler, or in the child of a fork of
     a program with threads.
   - malloc, realloc and free are those of one allocator, with blocks aligned as C asks.

   Memory grows with what the lines make (threads, codes, requests, frames) and not with how many
   lines there were. Link libmodel.a and the toolchain's c/liblibc_c.a, by which it calls malloc,
   realloc and free. */
#ifndef MODEL_H
#define MODEL_H

#include <stdbool.h>
#include <stddef.h>

#ifdef __cplusplus
extern "C" {
#endif

/* The version of this page: "MAJOR.MINOR.PATCH", and each part as a number for #if. */
#define MODEL_VERSION "0.2.0"
#define MODEL_VERSION_MAJOR 0
#define MODEL_VERSION_MINOR 2
#define MODEL_VERSION_PATCH 0

/* A model's place. `struct model m = {0};` has no model. */
struct model {
    bool made;
    void *at;
};

enum {
    /* Memory was refused. The line was not played; nothing changed: the call may be made again. */
    MODEL_NO_MEMORY = -1,
    /* The answer to an earlier line waits. The line was not played; nothing changed. */
    MODEL_ANSWER_WAITS = -2,
    /* The room is too small for the answer, which waits; a line that said this was played once. */
    MODEL_ANSWER_TOO_LONG = -3,
    /* Memory for the answer's text was refused: it waits; a line that said this was played once. */
    MODEL_ANSWER_UNWRITTEN = -4,
    /* No answer waits. */
    MODEL_NOTHING_WAITS = -5,
    /* A size is 0 or above its limit: 64 places, 1024 slots, 256 methods. */
    MODEL_BAD_SIZE = -6,
    /* There is no model in this place. */
    MODEL_NO_MODEL = -7,
    /* There is one already; it stays as it is. */
    MODEL_HAS_MODEL = -8
};

/* Room for every answer but those of `stack` and of `operate`, which list frames and codes.
   (MODEL_ANSWER_UNWRITTEN is for these two alone.) */
#define MODEL_ROOM 128

/* Makes a model of these sizes, of which no line was played: 0, or MODEL_BAD_SIZE,
   MODEL_NO_MEMORY, MODEL_HAS_MODEL. */
ptrdiff_t model_new(struct model *model, size_t places, size_t slots, size_t methods);

/* Plays a line, puts its answer at the front of `answer`, and returns the answer's length; the
   room behind it stays as it was (there is no closing zero). Else MODEL_NO_MEMORY or
   MODEL_ANSWER_WAITS, and the line was not played; or MODEL_ANSWER_TOO_LONG or
   MODEL_ANSWER_UNWRITTEN, and the line was played, the room is as it was, and the answer waits
   for model_answer; or MODEL_NO_MODEL. */
ptrdiff_t model_line(struct model *model, const unsigned char *line, size_t length,
                     unsigned char *answer, size_t room);

/* Gives the answer that waits, as model_line would have; then it waits no more. Else
   MODEL_NOTHING_WAITS; or MODEL_ANSWER_TOO_LONG or MODEL_ANSWER_UNWRITTEN, and it waits on; or
   MODEL_NO_MODEL. */
ptrdiff_t model_answer(struct model *model, unsigned char *answer, size_t room);

/* Returns the length of the answer that waits. Else MODEL_NOTHING_WAITS, MODEL_ANSWER_UNWRITTEN
   or MODEL_NO_MODEL. */
ptrdiff_t model_needs(struct model *model);

/* Frees the model, and what waits with it, and leaves the place as if it never had one. Does
   nothing where there is none. */
void model_free(struct model *model);

#ifdef __cplusplus
}
#endif

#endif
