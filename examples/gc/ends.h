/* How the program ends, other than well. */
#ifndef ENDS_H
#define ENDS_H

#include <stdint.h>

/* The statuses: bad words or a refusal, a wrong result, a stale pointer. */
enum { BAD_USE = 2, WRONG_RESULT = 3, STALE_POINTER = 4 };

/* Says why in one line, and ends the program at once, whatever its other threads do. */
_Noreturn void die(int status, const char *form, ...) __attribute__((format(printf, 2, 3)));

/* Returns the answer of a call. If it is a refusal, the program ends. */
int64_t must(const char *call, int64_t answer);

/* Ends the program if a checksum of a task isn't the one that is wanted. */
void check(const char *what, uint64_t task, uint64_t found, uint64_t wanted);

#endif
