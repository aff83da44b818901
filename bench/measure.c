/* measure PROGRAM ARG ..: runs the program, its output thrown away, and writes to standard output the seconds by the clock, the
   seconds of processor time and the peak memory in KB. It is small, so that its own memory, which a new process starts with,
   doesn't hide that of the program. */
#define _GNU_SOURCE
#include <fcntl.h>
#include <stdio.h>
#include <sys/resource.h>
#include <sys/wait.h>
#include <time.h>
#include <unistd.h>

static double seconds(struct timeval t) { return (double)t.tv_sec + (double)t.tv_usec / 1e6; }

static double now(void) {
    struct timespec t;
    clock_gettime(CLOCK_MONOTONIC, &t);
    return (double)t.tv_sec + (double)t.tv_nsec / 1e9;
}

int main(int count, char **words) {
    if (count < 2) return 2;
    double start = now();
    pid_t child = fork();
    if (child < 0) return 1;
    if (child == 0) {
        int sink = open("/dev/null", O_WRONLY);
        if (sink < 0 || dup2(sink, 1) < 0) _exit(127);
        execvp(words[1], words + 1);
        _exit(127);
    }
    int status;
    struct rusage used;
    if (wait4(child, &status, 0, &used) < 0) return 1;
    double clock = now() - start;
    if (!WIFEXITED(status) || WEXITSTATUS(status) != 0) return 1;
    printf("%f %f %ld\n", clock, seconds(used.ru_utime) + seconds(used.ru_stime), used.ru_maxrss);
    return 0;
}
