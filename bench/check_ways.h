// The ways to work out the check that `checks` compares, each of a string of any length.
#ifndef BENCH_CHECK_WAYS_H
#define BENCH_CHECK_WAYS_H

#include <stddef.h>
#include <stdint.h>

// The proved one, from the archive that `rt lib` makes in crates/frame_check_export.
uint16_t coreplough_check(const uint8_t *p, size_t n);

// The same algorithm in C: eight bytes a step, modulo P^4, no table.
uint16_t check_wide(const uint8_t *p, size_t n);

// One byte a step, a table of 256 entries.
uint16_t check_table_256(const uint8_t *p, size_t n);

// The same, with the two bytes of the register and of the entries kept apart: fewer steps from one byte to the next.
uint16_t check_halves(const uint8_t *p, size_t n);

// Eight bytes a step, eight tables of 256 entries.
uint16_t check_slicing_8(const uint8_t *p, size_t n);

// One bit a step, by the definition: what the others are compared with.
uint16_t check_bits(const uint8_t *p, size_t n);

void make_check_tables(void);

#endif
