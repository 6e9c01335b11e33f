/*
 * What the tests of the calls share: a buffer, comparisons of whole answers with it, the pieces that rows lie in, the
 * questions on a bitmap, and every call on an index that is wrong.
 */
#ifndef ZVONUREL_TESTS_ANSWERS_H
#define ZVONUREL_TESTS_ANSWERS_H

#include "zvonurel.h"

#include "shared.h"

#define FINE(a) refusal(HERE, (a).number, (a).bitmap, (a).word, 0, 0, 0)
#define REFUSED(a, n, b, w) refusal(HERE, (a).number, (a).bitmap, (a).word, n, b, w)

#define UNTOUCHED 0x77777777u

static const uint32_t three[] = {0, 1, 2};
static const uint32_t zeros[ZV_HISTOGRAM_COUNTS];
/* what the calls write to: longer than any answer of these tests */
static uint32_t out[ZV_MOST_SUM_WORDS(8u, ZV_MOST_COLUMN - 1u) + 1u];

static inline void refusal(source at, uint32_t number, uint32_t bitmap, uint64_t word, uint32_t n, uint32_t b,
                           uint64_t w)
{
    same(at, "number", number, n);
    same(at, "bitmap", bitmap, b);
    same(at, "word", word, w);
}

static inline void clear(void)
{
    for (size_t i = 0; i < sizeof(out) / sizeof(out[0]); i++) {
        out[i] = UNTOUCHED;
    }
}

/* the buffer begins with these words, and the rest is as `clear` left it */
static inline void buffer(source at, const uint32_t *want, size_t words)
{
    for (size_t i = 0; i < sizeof(out) / sizeof(out[0]); i++) {
        same(at, "a word of the buffer", out[i], i < words ? want[i] : UNTOUCHED);
    }
}

static inline void wrote(source at, zv_written got, const uint32_t *want, size_t words)
{
    refusal(at, got.number, got.bitmap, got.word, 0, 0, 0);
    same(at, "words", got.words, words);
    buffer(at, want, words);
    clear();
}

static inline void not_written(source at, zv_written got, uint32_t n, uint32_t b, uint64_t w)
{
    refusal(at, got.number, got.bitmap, got.word, n, b, w);
    same(at, "words", got.words, 0);
    buffer(at, out, 0);
}

static inline void answered(source at, zv_answered got, const uint32_t *want, size_t words, uint32_t stretches)
{
    refusal(at, got.number, got.bitmap, got.word, 0, 0, 0);
    same(at, "words", got.words, words);
    same(at, "stretches", got.stretches, stretches);
    buffer(at, want, words);
    clear();
}

static inline void not_answered(source at, zv_answered got, uint32_t n, uint32_t b, uint64_t w)
{
    refusal(at, got.number, got.bitmap, got.word, n, b, w);
    same(at, "words", got.words, 0);
    same(at, "stretches", got.stretches, 0);
    buffer(at, out, 0);
}

static inline void counted(source at, zv_histogram_counts got, const uint32_t *want, uint32_t n, uint32_t b,
                           uint64_t w)
{
    refusal(at, got.number, got.bitmap, got.word, n, b, w);
    for (size_t c = 0; c < ZV_HISTOGRAM_COUNTS; c++) {
        same(at, "count", got.counts[c], want[c]);
    }
}

/* the answer on a row; `n`, `b` and `w` are 0 where it is not refused */
static inline void flagged(source at, zv_flag got, uint32_t value, uint32_t first, uint32_t last, uint32_t n,
                           uint32_t b, uint64_t w)
{
    refusal(at, got.number, got.bitmap, got.word, n, b, w);
    same(at, "value", got.value, value);
    same(at, "first", got.first, first);
    same(at, "last", got.last, last);
}

static inline void valued(source at, zv_column_value got, uint64_t want, uint32_t n, uint32_t b, uint64_t w)
{
    refusal(at, got.number, got.bitmap, got.word, n, b, w);
    same(at, "value", got.value, want);
}

static inline void signed_valued(source at, zv_signed_column_value got, int64_t want, uint32_t n, uint32_t b,
                                 uint64_t w)
{
    refusal(at, got.number, got.bitmap, got.word, n, b, w);
    same(at, "signed value, modulo 2^64,", (uint64_t)got.value, (uint64_t)want);
}

#define FLAGGED(got, value, first, last) flagged(HERE, got, value, first, last, 0, 0, 0)
#define NOT_FLAGGED(got, n, b, w) flagged(HERE, got, 0, 0, 0, n, b, w)
#define VALUED(got, want, n, b, w) valued(HERE, got, want, n, b, w)
#define SIGNED_VALUED(got, want) signed_valued(HERE, got, want, 0, 0, 0)
#define NOT_SIGNED_VALUED(got, n, b, w) signed_valued(HERE, got, 0, n, b, w)
#define COUNTED(got, want, n, b, w) counted(HERE, got, want, n, b, w)
#define WROTE(got, want) wrote(HERE, got, WORDS(want))
#define NOT_WRITTEN(got, n, b, w) not_written(HERE, got, n, b, w)
#define ANSWERED(got, want, stretches) answered(HERE, got, WORDS(want), stretches)
#define NOT_ANSWERED(got, n, b, w) not_answered(HERE, got, n, b, w)

/* a piece: its last row, and its segment, which clean segments are all like */
typedef struct {
    uint32_t last, segment;
} piece;

/* zv_body_row or zv_wah_body_row of a body, with its rows, or zv_row of an index, with a bitmap's number */
typedef zv_flag row_call(const uint32_t *words, size_t length, uint32_t rows_or_k, uint32_t row);

/* a sound body has just these pieces, one behind the other: asked at their first rows, their last and rows between */
static inline void every_piece(source at, row_call *call, const uint32_t *words, size_t length, uint32_t rows_or_k,
                               const piece *pieces, size_t count)
{
    uint32_t first = 0;

    for (size_t i = 0; i < count; i++) {
        const uint32_t last = pieces[i].last, step = 1 + (last - first) / 32;

        for (uint32_t row = first; row <= last; row += row < last && last - row < step ? last - row : step) {
            const uint32_t value = pieces[i].segment >> (row - first) % 32 & 1;
            flagged(at, call(words, length, rows_or_k, row), value, first, last, 0, 0, 0);
        }
        first = last + 1;
    }
    flagged(at, call(words, length, rows_or_k, first), 0, 0, 0, ZV_BAD_ARGUMENT, 0, 0);
    flagged(at, call(words, length, rows_or_k, UINT32_MAX), 0, 0, 0, ZV_BAD_ARGUMENT, 0, 0);
}

#define PIECES(call, words, rows_or_k, pieces) every_piece(HERE, call, WORDS(words), rows_or_k, WORDS(pieces))

static columns_call *const columns_calls[] = {zv_sum, zv_signed_difference, zv_smaller, zv_difference_or_zero};
static first_rows_call *const first_rows_calls[] = {zv_largest, zv_smallest};

/* every question on an index is refused for the index's own fault */
static inline void every_index_call(const uint32_t *index, size_t words, uint32_t n, uint32_t b, uint64_t w)
{
    static const uint32_t table[] = {0, 1, 0, 0};

    REFUSED(zv_check(index, words), n, b, w);
    REFUSED(zv_bitmap_refusal(index, words, 0), n, b, w);
    REFUSED(zv_bitmap(index, words, 0), n, b, w);
    NOT_FLAGGED(zv_row(index, words, 0, 0), n, b, w);
    REFUSED(zv_count(index, words, 0), n, b, w);
    REFUSED(zv_nth(index, words, 0, 0), n, b, w);
    NOT_WRITTEN(zv_expand_bitmap(index, words, 0, WORDS(out)), n, b, w);
    NOT_WRITTEN(zv_bitmap_to_ewah(index, words, 0, WORDS(out)), n, b, w);
    NOT_WRITTEN(zv_bitmap_to_wah(index, words, 0, WORDS(out)), n, b, w);
    NOT_WRITTEN(zv_index_to_ewah(index, words, WORDS(out)), n, b, w);
    NOT_WRITTEN(zv_index_to_wah(index, words, WORDS(out)), n, b, w);
    NOT_WRITTEN(zv_and(index, words, 0, 1, WORDS(out)), n, b, w);
    NOT_WRITTEN(zv_or(index, words, 0, 1, WORDS(out)), n, b, w);
    NOT_WRITTEN(zv_xor(index, words, 0, 1, WORDS(out)), n, b, w);
    NOT_WRITTEN(zv_and_not(index, words, 0, 1, WORDS(out)), n, b, w);
    NOT_WRITTEN(zv_not(index, words, 0, WORDS(out)), n, b, w);
    NOT_ANSWERED(zv_threshold(index, words, WORDS(three), 2, WORDS(out)), n, b, w);
    NOT_ANSWERED(zv_symmetric(index, words, WORDS(three), WORDS(table), WORDS(out)), n, b, w);
    COUNTED(zv_histogram(index, words, WORDS(three)), zeros, n, b, w);
    VALUED(zv_value(index, words, WORDS(three), 0), 0, n, b, w);
    NOT_SIGNED_VALUED(zv_signed_value(index, words, WORDS(three), 0), n, b, w);
    for (size_t i = 0; i < sizeof(columns_calls) / sizeof(columns_calls[0]); i++) {
        NOT_WRITTEN(columns_calls[i](index, words, WORDS(three), WORDS(three), WORDS(out)), n, b, w);
    }
    for (size_t i = 0; i < sizeof(first_rows_calls) / sizeof(first_rows_calls[0]); i++) {
        NOT_WRITTEN(first_rows_calls[i](index, words, WORDS(three), 1, WORDS(out)), n, b, w);
    }
}

/* the first rows of a column: with much room, with just enough, with a word less and with none */
static inline void takes(source at, first_rows_call *call, const uint32_t *index, size_t index_words,
                         const uint32_t *column, size_t numbers, uint32_t k, const uint32_t *want, size_t words)
{
    const size_t rooms[] = {sizeof(out) / sizeof(out[0]), words, words > 0 ? words - 1 : 0, 0};

    for (size_t i = 0; i < sizeof(rooms) / sizeof(rooms[0]); i++) {
        const zv_written told = call(index, index_words, column, numbers, k, out, rooms[i]);

        if (rooms[i] < words) {
            not_written(at, told, ZV_NO_ROOM, 0, words);
        } else {
            wrote(at, told, want, words);
        }
    }
}

#define TAKES(call, index, column, k, want) takes(HERE, call, WORDS(index), WORDS(column), k, WORDS(want))

/* the questions on a bitmap of LOOPED, which has the same rows in either format: bitmap 1 begins at `start` */
static inline void one_bitmap(const uint32_t *index, size_t words, uint64_t start, uint64_t length)
{
    static const uint32_t plain[] = {0xE};
    zv_part part = zv_bitmap(index, words, 1);

    FINE(zv_check(index, words));
    FINE(zv_bitmap_refusal(index, words, 2));
    REFUSED(zv_bitmap_refusal(index, words, 3), ZV_BAD_ARGUMENT, 0, 0);
    FINE(part);
    SAME("the start", part.start, start);
    SAME("the length", part.length, length);
    part = zv_bitmap(index, words, 3);
    REFUSED(part, ZV_BAD_ARGUMENT, 0, 0);
    SAME("a refused start", part.start, 0);
    SAME("a refused length", part.length, 0);

    FLAGGED(zv_row(index, words, 0, 1), 1, 0, 3);
    FLAGGED(zv_row(index, words, 0, 2), 0, 0, 3);
    NOT_FLAGGED(zv_row(index, words, 0, 4), ZV_BAD_ARGUMENT, 0, 0);
    NOT_FLAGGED(zv_row(index, words, 3, 0), ZV_BAD_ARGUMENT, 0, 0);
    FINE(zv_count(index, words, 1));
    SAME("the count of 1", zv_count(index, words, 1).value, 3);
    FINE(zv_nth(index, words, 1, 2));
    SAME("set row 2 of 1", zv_nth(index, words, 1, 2).value, 3);
    REFUSED(zv_nth(index, words, 1, 3), ZV_BAD_ARGUMENT, 0, 0);
    WROTE(zv_expand_bitmap(index, words, 1, WORDS(out)), plain);
    NOT_WRITTEN(zv_expand_bitmap(index, words, 1, out, 0), ZV_NO_ROOM, 0, 1);
}

/* a fault of an index: one word of it changed, or its length, and what every call says of it */
typedef struct {
    uint32_t place, value;
    size_t words;
    uint32_t number, bitmap, word;
} fault;

/* each fault by itself, in a copy of a sound index of at most 15 words */
static inline void every_fault(const uint32_t *sound, size_t words, const fault *faults, size_t count)
{
    uint32_t index[15];

    for (size_t i = 0; i < count; i++) {
        for (size_t j = 0; j < words; j++) {
            index[j] = sound[j];
        }
        index[faults[i].place] = faults[i].value;
        every_index_call(index, faults[i].words, faults[i].number, faults[i].bitmap, faults[i].word);
    }
}

#endif
