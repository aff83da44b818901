/* Refuses one growth of memory, or one thread, of a program that is started with this library: the one whose number is in
   REFUSE_GROWTH or REFUSE_THREAD, from 1 on. Where COUNT_GROWTHS names a file, the number of growths so far goes into it at the end.
   tests/refusing.py builds it. */
#define _GNU_SOURCE
#include <dlfcn.h>
#include <errno.h>
#include <fcntl.h>
#include <pthread.h>
#include <stdatomic.h>
#include <stdlib.h>
#include <unistd.h>

extern void *__libc_malloc(size_t size);
extern void *__libc_realloc(void *block, size_t size);
extern void *__libc_memalign(size_t alignment, size_t size);

static long refused_growth, refused_thread;
static atomic_long growths, threads;

static long number_of(const char *name) {
    const char *said = getenv(name);
    return said ? atol(said) : 0;
}

__attribute__((constructor)) static void read_numbers(void) {
    refused_growth = number_of("REFUSE_GROWTH");
    refused_thread = number_of("REFUSE_THREAD");
}

__attribute__((destructor)) static void tell_growths(void) {
    char digits[24], *digit = digits + sizeof digits;
    long left = atomic_load(&growths);
    const char *name = getenv("COUNT_GROWTHS");
    int file = name ? open(name, O_WRONLY | O_CREAT | O_TRUNC, 0600) : -1;
    do *--digit = (char)('0' + left % 10);
    while (left /= 10);
    if (file >= 0 && write(file, digit, (size_t)(digits + sizeof digits - digit)) < 0) _exit(9);
}

static int is_refused(void) {
    return refused_growth && atomic_fetch_add(&growths, 1) + 1 == refused_growth;
}

void *malloc(size_t size) {
    return is_refused() ? NULL : __libc_malloc(size);
}

void *realloc(void *block, size_t size) {
    return is_refused() ? NULL : __libc_realloc(block, size);
}

void *aligned_alloc(size_t alignment, size_t size) {
    return is_refused() ? NULL : __libc_memalign(alignment, size);
}

int posix_memalign(void **block, size_t alignment, size_t size) {
    *block = is_refused() ? NULL : __libc_memalign(alignment, size);
    return *block ? 0 : ENOMEM;
}

int pthread_create(pthread_t *thread, const pthread_attr_t *attributes, void *(*start)(void *), void *argument) {
    int (*real)(pthread_t *, const pthread_attr_t *, void *(*)(void *), void *) = dlsym(RTLD_NEXT, "pthread_create");
    if (refused_thread && atomic_fetch_add(&threads, 1) + 1 == refused_thread) return EAGAIN;
    return real(thread, attributes, start, argument);
}
