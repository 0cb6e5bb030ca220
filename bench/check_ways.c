// The check in C, in a translation unit of its own, so that `checks` calls each way as it calls the proved one: from outside.
#include "check_ways.h"

static uint16_t tables[8][256];
static uint8_t high_half[256], low_half[256];

// tables[k][b]: what a byte b leaves after k more zero bytes.
void make_check_tables(void)
{
    for (unsigned byte = 0; byte < 256; byte++) {
        unsigned r = byte << 8;
        for (int bit = 0; bit < 8; bit++)
            r = r & 0x8000 ? r << 1 ^ 0x1021 : r << 1;
        tables[0][byte] = (uint16_t)r;
        high_half[byte] = (uint8_t)(r >> 8);
        low_half[byte] = (uint8_t)r;
    }
    for (int k = 1; k < 8; k++)
        for (unsigned byte = 0; byte < 256; byte++) {
            uint16_t r = tables[k - 1][byte];
            tables[k][byte] = (uint16_t)(r << 8) ^ tables[0][r >> 8];
        }
}

uint16_t check_bits(const uint8_t *p, size_t n)
{
    unsigned r = 0xFFFF;
    for (size_t i = 0; i < n; i++) {
        r ^= (unsigned)p[i] << 8;
        for (int bit = 0; bit < 8; bit++)
            r = (r & 0x8000 ? r << 1 ^ 0x1021 : r << 1) & 0xFFFF;
    }
    return (uint16_t)r;
}

uint16_t check_table_256(const uint8_t *p, size_t n)
{
    uint16_t r = 0xFFFF;
    for (const uint8_t *end = p + n; p < end; p++)
        r = (uint16_t)(r << 8) ^ tables[0][(uint8_t)(r >> 8) ^ *p];
    return r;
}

uint16_t check_halves(const uint8_t *p, size_t n)
{
    uint8_t high = 0xFF, low = 0xFF;
    for (const uint8_t *end = p + n; p < end; p++) {
        uint8_t i = high ^ *p;
        high = low ^ high_half[i];
        low = low_half[i];
    }
    return (uint16_t)(high << 8 | low);
}

uint16_t check_slicing_8(const uint8_t *p, size_t n)
{
    uint16_t r = 0xFFFF;
    for (; n >= 8; p += 8, n -= 8)
        r = tables[7][p[0] ^ (r >> 8)] ^ tables[6][p[1] ^ (r & 0xFF)] ^ tables[5][p[2]] ^ tables[4][p[3]] ^ tables[3][p[4]]
            ^ tables[2][p[5]] ^ tables[1][p[6]] ^ tables[0][p[7]];
    for (; n > 0; p++, n--)
        r = (uint16_t)(r << 8) ^ tables[0][(uint8_t)(r >> 8) ^ *p];
    return r;
}

// Eight bytes, the first highest.
static inline uint64_t word_at(const uint8_t *p)
{
    uint64_t w;
    __builtin_memcpy(&w, p, sizeof w);
    return __builtin_bswap64(w);
}

// Sixteen bits fed to a register of zeros.
static inline uint16_t sixteen_fed(uint16_t bits)
{
    uint16_t partial = bits ^ bits >> 4;
    uint16_t quotient = partial ^ partial >> 8 ^ bits >> 11;
    return quotient ^ (uint16_t)(quotient << 5) ^ (uint16_t)(quotient << 12);
}

// The register modulo P^2, then modulo P.
static inline uint16_t narrowed(uint64_t r)
{
    uint64_t high = r >> 32, partial = high ^ high >> 8;
    uint64_t quotient = partial ^ partial >> 16 ^ high >> 22;
    uint32_t half = (uint32_t)(r ^ quotient ^ quotient << 10 ^ quotient << 24);
    return sixteen_fed(sixteen_fed((uint16_t)(half >> 16)) ^ (uint16_t)half);
}

uint16_t check_wide(const uint8_t *p, size_t n)
{
    uint64_t r = 0x84CF;
    for (; n >= 8; p += 8, n -= 8) {
        uint64_t partial = r ^ r >> 16;
        uint64_t quotient = partial ^ partial >> 32 ^ r >> 44;
        r = quotient ^ quotient << 20 ^ quotient << 48 ^ word_at(p);
    }
    for (; n > 0; p++, n--) {
        uint64_t quotient = r >> 56;
        r = r << 8 ^ quotient ^ quotient << 20 ^ quotient << 48 ^ *p;
    }
    return narrowed(r);
}
