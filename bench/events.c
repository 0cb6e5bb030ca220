// N events for the measurements, the same ones for the same N and the same rules: `events N` writes N strings of 12 bytes to standard
// output. A walk that knows the state, by the rules in C, so that most commands come where they are taken and all modes are gone
// through often.
#include "rules.h"

// A code from NO_EVENT on is none, and stays none when events are added.
enum { PIECE = 8192, SLOTS = 32, RARE = 1000, NO_EVENT = 0x4000 };

// What comes in a mode, each as often as it stands here.
static const uint8_t usual[][SLOTS] = {
    [BOOT] = {1, 1, 1, 1, 1, 1, 1, 1, 1, 1, 1, 1, 1, 1, 1, 1, 1, 1, 1, 1, 1, 1, 1, 1, 1, 1, 10, 10, 2, 2, 7, 8},
    [TERMINAL] = {2, 2, 2, 2, 2, 2, 2, 2, 2, 2, 2, 2, 2, 2, 2, 2, 2, 2, 2, 2, 2, 2, 2, 2, 10, 10, 7, 8, 3, 14, 20, 22},
    [QUIESCENT] = {14, 14, 14, 14, 14, 14, 14, 14, 14, 14, 17, 17, 17, 17, 11, 11, 11, 11, 3, 3, 3, 4, 4, 10, 10, 5, 12, 7, 8, 16, 15, 13},
    [HOLD] = {6, 6, 6, 6, 6, 6, 6, 6, 6, 6, 6, 6, 6, 6, 6, 6, 7, 8, 10, 10, 20, 21, 22, 23, 23, 21, 14, 11, 17, 3, 5, 18},
    [CALIBRATION] = {13, 13, 13, 13, 13, 13, 13, 13, 13, 13, 20, 20, 20, 21, 21, 21, 21, 12, 12, 10, 10, 7, 8, 5, 14, 16, 17, 13, 13, 20, 21, 12},
    [PHYSICS] = {16, 16, 16, 16, 16, 16, 16, 16, 16, 16, 22, 22, 22, 15, 15, 23, 23, 23, 17, 17, 17, 7, 10, 10, 5, 8, 12, 14, 11, 16, 16, 22},
    [TOO] = {16, 16, 16, 16, 16, 16, 16, 16, 16, 22, 22, 22, 15, 15, 23, 23, 14, 14, 14, 14, 19, 19, 18, 17, 7, 10, 10, 5, 8, 12, 16, 16},
};

// splitmix64
static uint64_t seed = 2026;

static uint64_t next_random(void)
{
    uint64_t z = seed += 0x9E3779B97F4A7C15;
    z = (z ^ z >> 30) * 0xBF58476D1CE4E5B9;
    z = (z ^ z >> 27) * 0x94D049BB133111EB;
    return z ^ z >> 31;
}

// The next code: a task that was told to stop soon reports its end, the anomaly is soon over, the load is shed now and then, and
// one code in sixteen is any.
static unsigned choose(const struct state *s, uint64_t r)
{
    unsigned lot = (unsigned)(r >> 8) % 1024;
    if (lot < 2)
        return E_LOADSHED;
    if (lot < 66)
        return 1 + (unsigned)(r >> 20) % (EVENTS_END - 1);
    if (s->mode > TERMINAL) {
        if (s->lpa == STOPPING && lot < 400)
            return E_LPACOMPLETE;
        if (s->lci == STOPPING && lot < 400)
            return E_CALCOMPLETE;
        if (s->saa && lot > 850)
            return E_SAAEXIT;
    }
    return usual[s->mode][r % SLOTS];
}

static void fill(uint8_t *e, const struct state *s, unsigned code, uint64_t r)
{
    uint32_t a = 0, b = 0, low = (uint32_t)r;
    bool edge = r >> 60 == 0;
    switch (code) {
    case E_POWERON:
    case E_POWEROFF: a = edge ? 0 : low | 1; break;
    case E_LPASTART: a = low; break;
    case E_TOOSTART:
        a = low;
        b = edge ? (r >> 59 & 1 ? 0 : DWELL_MOST + 1) : 1 + (uint32_t)(r >> 32) % DWELL_MOST;
        break;
    case E_TOOEXPIRED: a = edge ? low : s->armed; break;
    case E_CALSTATUS:
    case E_LPASTATUS: a = (r >> 56 & 7) != 0; break;
    default: break;
    }
    store16(e, (uint16_t)code);
    store16(e + 2, 0);
    store32(e + 4, a);
    store32(e + 8, b);
}

// Makes a string that is no event of one that is: another code, bytes that should be zero, or a b where there is none.
static void spoil(uint8_t *e, uint64_t r)
{
    switch (r % 3) {
    case 0: store16(e, (uint16_t)(NO_EVENT + r % 1000)); break;
    case 1: e[2 + (r >> 8) % 2] = 1 + (uint8_t)(r >> 16) % 255; break;
    default: store16(e, E_NOOP); store32(e + 8, (uint32_t)(r >> 32) | 1); break;
    }
}

int main(int argc, char **argv)
{
    static uint8_t piece[PIECE * EVENT];
    uint8_t records[MOST_RECORDS * RECORD];
    struct state s = {0};
    unsigned long left = argc == 2 ? strtoul(argv[1], NULL, 10) : 0;
    while (left > 0) {
        size_t n = left < PIECE ? left : PIECE;
        for (uint8_t *e = piece; e < piece + n * EVENT; e += EVENT) {
            struct pen pen = {records};
            uint64_t r = next_random();
            unsigned code = choose(&s, next_random());
            fill(e, &s, code, r);
            if (next_random() % RARE == 0)
                spoil(e, next_random());
            else
                take_event(&s, &pen, code, load32(e + 4), load32(e + 8));
        }
        write_all(STDOUT_FILENO, piece, n * EVENT);
        left -= n;
    }
    return 0;
}
