/*
 * What the tests of the header share: a comparison that ends the program at the first difference.
 */
#ifndef ZVONUREL_TESTS_SHARED_H
#define ZVONUREL_TESTS_SHARED_H

#include "zvonurel.h"

#include <stdint.h>
#include <stdio.h>
#include <stdlib.h>

/* An array as a call takes it. */
#define WORDS(a) (a), sizeof(a) / sizeof((a)[0])
#define HERE ((source){__FILE__, __LINE__})
#define SAME(what, got, want) same(HERE, what, (uint64_t)(got), (uint64_t)(want))

/* Where a comparison stands. */
typedef struct source {
    const char *file;
    int line;
} source;

/* zv_sum, or another call that makes a column of two */
typedef zv_written columns_call(const uint32_t *index, size_t index_words, const uint32_t *first, size_t first_numbers,
                                const uint32_t *second, size_t second_numbers, uint32_t *out, size_t out_words);

/* zv_largest or zv_smallest */
typedef zv_written first_rows_call(const uint32_t *index, size_t index_words, const uint32_t *column,
                                   size_t column_numbers, uint32_t k, uint32_t *out, size_t out_words);

static inline void same(source at, const char *what, uint64_t got, uint64_t want)
{
    if (got != want) {
        printf("%s line %d: %s is %llu, not %llu\n", at.file, at.line, what, (unsigned long long)got,
               (unsigned long long)want);
        exit(1);
    }
}

#endif
