// Times the check of 510 bytes: proved (through the static library), the same algorithm in C, tables of 256 entries, slicing by 8.
// `checks ROUNDS` prints a line a way; `checks one WAY CALLS` only makes the calls, for a count of instructions.
#include "check_ways.h"

#include <stdio.h>
#include <stdlib.h>
#include <string.h>
#include <time.h>
#include <x86intrin.h>

enum { LENGTH = 510, CALLS = 2000, TRIALS = 20000, TRIAL_MOST = 600 };

typedef uint16_t check_fn(const uint8_t *, size_t);

static const struct way {
    const char *name;
    check_fn *check;
} ways[] = {
    {"proved", coreplough_check},
    {"wide", check_wide},
    {"table256", check_table_256},
    {"halves", check_halves},
    {"slicing8", check_slicing_8},
};
enum { WAYS = sizeof ways / sizeof *ways };

static uint64_t seed = 132;

static uint8_t random_byte(void)
{
    seed = seed * 6364136223846793005 + 1442695040888963407;
    return (uint8_t)(seed >> 56);
}

// All ways on many strings of many lengths: a time for a wrong value is worth nothing.
static void agree(void)
{
    uint8_t s[TRIAL_MOST];
    for (int trial = 0; trial < TRIALS; trial++) {
        size_t n = trial % 2 ? LENGTH : (size_t)trial / 2 % TRIAL_MOST;
        for (size_t i = 0; i < n; i++)
            s[i] = random_byte();
        uint16_t right = check_bits(s, n);
        for (int w = 0; w < WAYS; w++)
            if (ways[w].check(s, n) != right) {
                fprintf(stderr, "checks: %s differs from the definition on a string of %zu bytes\n", ways[w].name, n);
                exit(1);
            }
    }
}

// Each string depends on the check of the one before it, so that no call can be left out or begun early.
static uint16_t calls(check_fn *check, uint8_t *s, long n)
{
    uint16_t r = 0;
    for (long i = 0; i < n; i++) {
        s[0] = (uint8_t)r;
        s[1] = (uint8_t)(r >> 8);
        r = check(s, LENGTH);
    }
    return r;
}

static double seconds(void)
{
    struct timespec t;
    clock_gettime(CLOCK_MONOTONIC, &t);
    return (double)t.tv_sec + (double)t.tv_nsec / 1e9;
}

// The ways take turns, so that each sees the same machine; the best round of each is kept.
static void measure(int rounds, uint8_t *s)
{
    double best[WAYS], ticks[WAYS];
    volatile uint16_t kept;
    for (int round = 0; round < rounds; round++)
        for (int w = 0; w < WAYS; w++) {
            double from = seconds();
            uint64_t tick = __rdtsc();
            kept = calls(ways[w].check, s, CALLS);
            double cost_ticks = (double)(__rdtsc() - tick) / CALLS, cost = (seconds() - from) / CALLS;
            if (round == 0 || cost < best[w]) {
                best[w] = cost;
                ticks[w] = cost_ticks;
            }
        }
    (void)kept;
    for (int w = 0; w < WAYS; w++)
        printf("%s %.1f %.3f\n", ways[w].name, best[w] * 1e9, LENGTH / ticks[w]);
}

int main(int argc, char **argv)
{
    uint8_t s[LENGTH];
    for (size_t i = 0; i < LENGTH; i++)
        s[i] = random_byte();
    make_check_tables();
    if (argc == 4 && strcmp(argv[1], "one") == 0) {
        for (int w = 0; w < WAYS; w++)
            if (strcmp(argv[2], ways[w].name) == 0)
                return calls(ways[w].check, s, atol(argv[3])), 0;
        return 2;
    }
    agree();
    measure(argc == 2 ? atoi(argv[1]) : 100, s);
    return 0;
}
