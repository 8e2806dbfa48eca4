/* What three of the programs in bench/programs do in one round, written directly in C: the measure that runs are held against. */
#ifndef BENCH_NATIVE_H
#define BENCH_NATIVE_H

#include <stddef.h>
#include <stdint.h>

/* sort.eol: the words of an input, put in order one by one into a list. */
uint32_t native_sort(const uint8_t *input, size_t bytes);

/* count.eol: over all pairs up to 60, the sum of the least common multiples. */
uint32_t native_loop(const uint8_t *input, size_t bytes);

/* files.eol: 100 records of five components written, copied, searched and deleted. */
uint32_t native_copy(const uint8_t *input, size_t bytes);

#endif
