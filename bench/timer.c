// Times programs in turns: `timer ROUNDS INPUT -- PROGRAM WORDS.. [-- PROGRAM WORDS..]..` starts each with INPUT as its standard input,
// ROUNDS times round, what it writes thrown away, and prints for each: best user+system seconds, best wall seconds, peak KiB.
#define _GNU_SOURCE
#include <fcntl.h>
#include <stdio.h>
#include <stdlib.h>
#include <string.h>
#include <sys/resource.h>
#include <sys/wait.h>
#include <time.h>
#include <unistd.h>

enum { MOST = 8 };

struct timed {
    char **words;
    double cpu, wall;
    long peak;
};

static void fail(const char *what)
{
    perror(what);
    exit(1);
}

static double wall_now(void)
{
    struct timespec t;
    clock_gettime(CLOCK_MONOTONIC, &t);
    return (double)t.tv_sec + (double)t.tv_nsec / 1e9;
}

static double seconds(struct timeval t)
{
    return (double)t.tv_sec + (double)t.tv_usec / 1e6;
}

static void become(char **words, const char *input)
{
    int in = open(input, O_RDONLY), none = open("/dev/null", O_WRONLY);
    if (in < 0 || none < 0)
        _exit(126);
    dup2(in, STDIN_FILENO);
    dup2(none, STDOUT_FILENO);
    dup2(none, STDERR_FILENO);
    execv(words[0], words);
    _exit(127);
}

static void run_once(struct timed *t, const char *input, int first)
{
    struct rusage use;
    int status;
    double from = wall_now();
    pid_t child = fork();
    if (child < 0)
        fail("timer: fork");
    if (child == 0)
        become(t->words, input);
    if (wait4(child, &status, 0, &use) != child || status != 0) {
        fprintf(stderr, "timer: %s ended with status %d\n", t->words[0], status);
        exit(1);
    }
    double wall = wall_now() - from, cpu = seconds(use.ru_utime) + seconds(use.ru_stime);
    if (first || cpu < t->cpu)
        t->cpu = cpu;
    if (first || wall < t->wall)
        t->wall = wall;
    if (use.ru_maxrss > t->peak)
        t->peak = use.ru_maxrss;
}

int main(int argc, char **argv)
{
    struct timed timed[MOST] = {{0}};
    int n = 0, rounds = argc > 1 ? atoi(argv[1]) : 0;
    for (int i = 3; i < argc; i++)
        if (strcmp(argv[i], "--") == 0 && n < MOST && i + 1 < argc) {
            argv[i] = NULL;
            timed[n++].words = argv + i + 1;
        }
    if (n == 0 || rounds < 1) {
        fprintf(stderr, "timer: use: timer ROUNDS INPUT -- PROGRAM WORDS.. [-- PROGRAM WORDS..]..\n");
        return 2;
    }
    for (int round = 0; round < rounds; round++)
        for (int k = 0; k < n; k++)
            run_once(&timed[k], argv[2], round == 0);
    for (int k = 0; k < n; k++)
        printf("%.4f %.4f %ld\n", timed[k].cpu, timed[k].wall, timed[k].peak);
    return 0;
}
