/*
 * The version, the sizes and the texts of include/zvonurel.h, against numbers worked out by hand and against what the
 * calls need; and where the fields of the answers on a row and on a signed value lie, and those of a writer's state.
 * Writes `ok`, or the first difference, with exit status 1.
 *
 *   gcc -std=c99 -Wall -Wextra -Werror -pedantic -Iinclude tests/c/sizes.c \
 *       target/staticlib/libzvonurel_c.a -o target/sizes && target/sizes
 */
#include "zvonurel.h"

#include "shared.h"

#include <string.h>

/* A fact that the compiler can settle: an array type of negative length is an error. */
#define HOLDS(name, fact) typedef char name[(fact) ? 1 : -1]

/* Rows of ZV_MOST_DIRTY segments, and of one more, so that a mixed body of them needs a second marker. */
#define FULL_ROWS 1048544u
#define PAST_FULL_ROWS 1048576u
#define MOST_UINT32 4294967295u
/* The most rows of which any sum of 32 slices keeps within an index; in WAH they are fewer. */
#define SUM_ROWS 63159264u
#define WAH_SUM_ROWS 61187428u

HOLDS(full, FULL_ROWS == ZV_MOST_DIRTY * ZV_WORD_BITS);
HOLDS(segments_need_no_variable, ZV_SEGMENTS(MOST_UINT32) == 134217728u);
HOLDS(words_need_no_variable, ZV_MOST_BODY_WORDS(MOST_UINT32) == 134221825u);
HOLDS(segments_are_64_bits, sizeof(ZV_SEGMENTS(1u)) == sizeof(uint64_t));
HOLDS(words_are_64_bits, sizeof(ZV_MOST_BODY_WORDS(1u)) == sizeof(uint64_t));
HOLDS(sums_need_no_variable, ZV_MOST_SUM_WORDS(MOST_UINT32, MOST_UINT32) == ZV_MOST_INDEX_WORDS);
HOLDS(sums_are_64_bits, sizeof(ZV_MOST_SUM_WORDS(1u, 1u)) == sizeof(uint64_t));
HOLDS(wah_segments_need_no_variable, ZV_WAH_SEGMENTS(MOST_UINT32) == 138547333u);
HOLDS(wah_words_need_no_variable, ZV_WAH_MOST_BODY_WORDS(MOST_UINT32) == 138547333u);
HOLDS(wah_words_are_64_bits, sizeof(ZV_WAH_MOST_BODY_WORDS(1u)) == sizeof(uint64_t));
HOLDS(wah_sums_need_no_variable, ZV_WAH_MOST_SUM_WORDS(MOST_UINT32, MOST_UINT32) == ZV_MOST_INDEX_WORDS);
HOLDS(wah_sums_are_64_bits, sizeof(ZV_WAH_MOST_SUM_WORDS(1u, 1u)) == sizeof(uint64_t));
/* 4,295,098,467 words and 4,294,967,388, which 32 bits would have as 131,171 and 92 */
HOLDS(indexes_do_not_wrap, ZV_MOST_NEW_INDEX_WORDS(MOST_UINT32, 32u) == ZV_MOST_INDEX_WORDS);
HOLDS(wah_indexes_do_not_wrap, ZV_WAH_MOST_NEW_INDEX_WORDS(MOST_UINT32, 31u) == ZV_MOST_INDEX_WORDS);
HOLDS(a_sum_is_an_index, ZV_MOST_NEW_INDEX_WORDS(33u, 3u) == ZV_MOST_SUM_WORDS(33u, 1u));
HOLDS(a_wah_sum_is_an_index, ZV_WAH_MOST_NEW_INDEX_WORDS(33u, 3u) == ZV_WAH_MOST_SUM_WORDS(33u, 1u));
HOLDS(a_slice_fewer_takes_less, ZV_MOST_NEW_INDEX_WORDS(33u, 1u + 1u) < ZV_MOST_SUM_WORDS(33u, 1u));
HOLDS(an_argument_may_be_a_sum, ZV_SEGMENTS(1u + 31u) == 1u && ZV_MOST_BODY_WORDS(1u ? 33u : 0u) == 3u);
HOLDS(a_wah_argument_may_be_a_sum, ZV_WAH_SEGMENTS(1u + 31u) == 2u && ZV_WAH_MOST_BODY_WORDS(1u ? 33u : 0u) == 2u);
HOLDS(slices_may_be_a_sum, ZV_MOST_SUM_WORDS(1u ? 33u : 0u, 2u - 1u) == 18u);
HOLDS(wah_slices_may_be_a_sum, ZV_WAH_MOST_SUM_WORDS(1u ? 33u : 0u, 2u - 1u) == 15u);
HOLDS(bitmaps_may_be_a_sum, ZV_MOST_NEW_INDEX_WORDS(33u, 4u - 1u) == 18u);
HOLDS(wah_bitmaps_may_be_a_sum, ZV_WAH_MOST_NEW_INDEX_WORDS(33u, 4u - 1u) == 15u);
HOLDS(a_size_may_be_divided, 12u / ZV_SEGMENTS(33u) == 6u && 12u / ZV_MOST_BODY_WORDS(33u) == 4u);
HOLDS(a_sum_may_be_divided, 36u / ZV_MOST_SUM_WORDS(33u, 1u) == 2u);
HOLDS(a_wah_size_may_be_divided, 12u / ZV_WAH_SEGMENTS(33u) == 6u && 12u / ZV_WAH_MOST_BODY_WORDS(33u) == 6u);
HOLDS(a_wah_sum_may_be_divided, 30u / ZV_WAH_MOST_SUM_WORDS(33u, 1u) == 2u);
HOLDS(a_sum_has_a_slice_more, ZV_MOST_VALUE_COLUMN == ZV_MOST_COLUMN + 1u && ZV_MOST_VALUE_COLUMN <= ZV_MOST_BITMAPS);
HOLDS(a_word_is_its_fields, ZV_WAH_FILL_SHIFT == ZV_WAH_SEGMENT_ROWS && ZV_WAH_VALUE_SHIFT == ZV_WAH_FILL_SHIFT - 1u);
HOLDS(a_fill_has_the_bits_below, ZV_WAH_MOST_FILL == (1u << ZV_WAH_VALUE_SHIFT) - 1u);
HOLDS(a_row_has_its_piece, offsetof(zv_flag, first) == 20u && offsetof(zv_flag, last) == 24u);
HOLDS(a_row_is_four_times_8_bytes, offsetof(zv_flag, value) == 16u && sizeof(zv_flag) == 32u);
HOLDS(a_signed_value_is_three_times_8_bytes, sizeof(zv_signed_column_value) == 24u);
HOLDS(a_signed_value_lies_as_a_value_does,
      offsetof(zv_signed_column_value, bitmap) == 4u && offsetof(zv_signed_column_value, word) == 8u &&
          offsetof(zv_signed_column_value, value) == 16u && offsetof(zv_column_value, value) == 16u);
HOLDS(a_state_is_three_times_8_bytes, sizeof(zv_append_state) == 24u);
HOLDS(a_state_has_its_numbers_in_order, offsetof(zv_append_state, room) == 0u &&
                                            offsetof(zv_append_state, rows) == 8u &&
                                            offsetof(zv_append_state, words) == 16u);
HOLDS(a_stack_is_a_power_of_two, ZV_MOST_STACK > 0u && (ZV_MOST_STACK & (ZV_MOST_STACK - 1u)) == 0u);

/* In WAH so many rows can need more room than in EWAH. */
HOLDS(wah_is_longer, ZV_WAH_MOST_SUM_WORDS(PAST_FULL_ROWS, 1u) > ZV_MOST_SUM_WORDS(PAST_FULL_ROWS, 1u));

static uint32_t plain[ZV_SEGMENTS(PAST_FULL_ROWS)];
static uint32_t body[ZV_WAH_MOST_BODY_WORDS(PAST_FULL_ROWS)];
static uint32_t columns[ZV_WAH_MOST_SUM_WORDS(PAST_FULL_ROWS, 1u)], made[ZV_WAH_MOST_SUM_WORDS(PAST_FULL_ROWS, 1u)];

/* What differs between the formats here: an index's word 0, and the call that writes a body. */
typedef struct {
    uint32_t kind;
    zv_written (*compress)(uint32_t rows, const uint32_t *plain, size_t plain_words, uint32_t *out, size_t out_words);
} format;

static const format ewah = {ZV_INDEX_KIND, zv_compress}, wah = {ZV_WAH_INDEX_KIND, zv_wah_compress};

static void version(void)
{
    char numbers[32];
    snprintf(numbers, sizeof(numbers), "%d.%d.%d", ZV_VERSION_MAJOR, ZV_VERSION_MINOR, ZV_VERSION_PATCH);
    SAME("whether the version is its numbers", strcmp(numbers, ZV_VERSION) == 0, 1);
}

static void sizes(void)
{
    static const struct {
        uint32_t rows;
        uint64_t segments, words, narrowest, widest;
    } known[] = {
        {0, 0, 1, 12, 105},
        {1, 1, 2, 15, 139},
        {32, 1, 2, 15, 139},
        {33, 2, 3, 18, 173},
        {FULL_ROWS, 32767, 32769, 98316, 1114217},
        {PAST_FULL_ROWS, 32768, 32770, 98319, 1114251},
        {16777216, 524288, 524305, 1572924, 17826441},
        {SUM_ROWS, 1973727, 1973788, 5921373, ZV_MOST_INDEX_WORDS - 1},
        {SUM_ROWS + 1, 1973728, 1973789, 5921376, ZV_MOST_INDEX_WORDS},
        {ZV_MOST_ROWS, 33554432, 33555457, ZV_MOST_INDEX_WORDS, ZV_MOST_INDEX_WORDS},
        {MOST_UINT32, 134217728, 134221825, ZV_MOST_INDEX_WORDS, ZV_MOST_INDEX_WORDS},
    };

    for (size_t i = 0; i < sizeof(known) / sizeof(known[0]); i++) {
        SAME("segments", ZV_SEGMENTS(known[i].rows), known[i].segments);
        SAME("most words of a body", ZV_MOST_BODY_WORDS(known[i].rows), known[i].words);
        SAME("most words of a sum of 1 slice", ZV_MOST_SUM_WORDS(known[i].rows, 1u), known[i].narrowest);
        SAME("most words of a sum of 32", ZV_MOST_SUM_WORDS(known[i].rows, ZV_MOST_COLUMN - 1u), known[i].widest);
        SAME("most words of 34 bitmaps", ZV_MOST_NEW_INDEX_WORDS(known[i].rows, 34u), known[i].widest);
    }
}

static void wah_sizes(void)
{
    static const struct {
        uint32_t rows;
        uint64_t words, narrowest, widest;
    } known[] = {
        {0, 0, 9, 71},
        {1, 1, 12, 105},
        {31, 1, 12, 105},
        {32, 2, 15, 139},
        {62, 2, 15, 139},
        {63, 3, 18, 173},
        {FULL_ROWS, 33824, 101481, 1150087},
        {PAST_FULL_ROWS, 33826, 101487, 1150155},
        {16777216, 541201, 1623612, 18400905},
        {WAH_SUM_ROWS, 1973788, 5921373, ZV_MOST_INDEX_WORDS - 1},
        {WAH_SUM_ROWS + 1, 1973789, 5921376, ZV_MOST_INDEX_WORDS},
        {ZV_MOST_ROWS, 34636834, ZV_MOST_INDEX_WORDS, ZV_MOST_INDEX_WORDS},
        {MOST_UINT32, 138547333, ZV_MOST_INDEX_WORDS, ZV_MOST_INDEX_WORDS},
    };

    for (size_t i = 0; i < sizeof(known) / sizeof(known[0]); i++) {
        SAME("segments in WAH", ZV_WAH_SEGMENTS(known[i].rows), known[i].words);
        SAME("most words of a body in WAH", ZV_WAH_MOST_BODY_WORDS(known[i].rows), known[i].words);
        SAME("most words of a sum of 1 slice in WAH", ZV_WAH_MOST_SUM_WORDS(known[i].rows, 1u), known[i].narrowest);
        SAME("most words of a sum of 32 in WAH", ZV_WAH_MOST_SUM_WORDS(known[i].rows, ZV_MOST_COLUMN - 1u),
             known[i].widest);
        SAME("most words of 34 bitmaps in WAH", ZV_WAH_MOST_NEW_INDEX_WORDS(known[i].rows, 34u), known[i].widest);
    }
}

/* Each text has words that belong to its number, and is no other number's. All numbers past the last have one text. */
static void texts(void)
{
    static const char *const has[] = {"nothing",  "too short for its head", "word 0",      "too many",
                                      "contents", "dirty words",            "segments",    "behind the last row",
                                      "argument", "buffer",                 "no segments", "existence",
                                      "state"};
    const uint32_t past = ZV_STATE_MISMATCH + 1;

    SAME("the number of texts", sizeof(has) / sizeof(has[0]), past);
    for (uint32_t n = 0; n < past; n++) {
        SAME("whether a text fits its number", strstr(zv_refusal_text(n), has[n]) != NULL, 1);
        SAME("whether a known number has the unknown ones' text", zv_refusal_text(n) == zv_refusal_text(past), 0);
        for (uint32_t m = 0; m < n; m++) {
            SAME("whether two texts are one", strcmp(zv_refusal_text(m), zv_refusal_text(n)) == 0, 0);
        }
    }
    SAME("whether a text says that no call gives it", strstr(zv_refusal_text(past), "no call") != NULL, 1);
    SAME("whether the last one has it too", zv_refusal_text(past) == zv_refusal_text(MOST_UINT32), 1);
}

/* Plain words that are all this one, mixed in every segment but perhaps the last, have the longest body of their rows.
 * It is measured, and written with just that room. */
static void longest(format f, uint32_t word, uint32_t rows, uint64_t need, uint64_t most)
{
    size_t segments = ZV_SEGMENTS(rows);
    zv_written told;

    for (size_t i = 0; i < segments; i++) {
        plain[i] = word;
    }
    told = f.compress(rows, plain, segments, body, 0);
    SAME("the number of a measured body", told.number, ZV_NO_ROOM);
    SAME("the words needed", told.word, need);
    SAME("whether a size is enough", need <= most, 1);
    told = f.compress(rows, plain, segments, body, (size_t)need);
    SAME("the number of a fitting body", told.number, ZV_FINE);
    SAME("the words written", told.words, need);
}

/* The longest body of whole segments, the first row of each set, by two batches, of which the first ends one row before
 * a segment does. The second is measured behind it, and taken with just that room. */
static void longest_appended(uint32_t rows, uint64_t need, uint64_t most)
{
    const uint32_t first = 31, rest = rows - first, set = 1;
    const size_t words = ZV_SEGMENTS(rest);
    zv_append_state state = zv_begin(body, (size_t)need - 1);
    zv_written told = zv_append(&state, body, (size_t)need - 1, first, &set, 1);

    SAME("the number of a first batch", told.number, ZV_FINE);
    for (size_t i = 0; i < words; i++) {
        plain[i] = i + 1 < words ? 2 : 0;
    }
    told = zv_append(&state, body, (size_t)need - 1, rest, plain, words);
    SAME("the number of a measured batch", told.number, ZV_NO_ROOM);
    SAME("the words needed", told.word, need);
    SAME("whether a size is enough", need <= most, 1);
    state.room = need;
    told = zv_append(&state, body, (size_t)need, rest, plain, words);
    SAME("the number of a fitting batch", told.number, ZV_FINE);
    SAME("the words written", told.words, need);
}

/* An index of two bitmaps, of which the first has the first three of each four rows, and the second the first. It is in
 * `columns`; returned is how many words it has. */
static size_t two_bitmaps(format f, uint32_t rows)
{
    const size_t room = sizeof(columns) / sizeof(columns[0]);
    size_t words = ZV_HEAD_WORDS + 2 * ZV_ENTRY_WORDS;

    columns[0] = f.kind;
    columns[1] = rows;
    columns[2] = 2;
    for (uint32_t k = 0; k < 2; k++) {
        for (size_t i = 0; i < ZV_SEGMENTS(rows); i++) {
            plain[i] = k == 0 ? 0x77777777u : 0x11111111u;
        }
        zv_written told = f.compress(rows, plain, ZV_SEGMENTS(rows), columns + words, room - words);
        SAME("the number of a bitmap", told.number, ZV_FINE);
        columns[ZV_HEAD_WORDS + k * ZV_ENTRY_WORDS] = (uint32_t)words;
        columns[ZV_HEAD_WORDS + k * ZV_ENTRY_WORDS + 1] = (uint32_t)told.words;
        words += (size_t)told.words;
    }
    return words;
}

/* The longest that can be made of two columns of one slice. Of each four rows the first three exist, with 1, 1 and 1 in
 * one column and 1, 0 and 0 in the other: the sums are 2, 1 and 1, and the differences 0, and twice 1 or -1, so that no
 * segment of any bitmap is part of a longer run. It is measured, and written with just that room. What has a slice
 * fewer needs fewer words. */
static void longest_columns(format f, uint32_t rows, uint64_t need, uint64_t fewer, uint64_t most)
{
    static const uint32_t ones[] = {0, 0}, some[] = {0, 1};
    static const struct {
        columns_call *call;
        const uint32_t *first, *second;
        int fewer;
    } calls[] = {{zv_sum, ones, some, 0},
                 {zv_signed_difference, some, ones, 0},
                 {zv_smaller, ones, some, 1},
                 {zv_difference_or_zero, ones, some, 1}};
    const size_t words = two_bitmaps(f, rows);

    for (size_t i = 0; i < sizeof(calls) / sizeof(calls[0]); i++) {
        const uint64_t needed = calls[i].fewer ? fewer : need;
        zv_written told = calls[i].call(columns, words, calls[i].first, 2, calls[i].second, 2, made, 0);

        SAME("the number of a measured column", told.number, ZV_NO_ROOM);
        SAME("the words needed", told.word, needed);
        SAME("whether a size is enough", needed <= most, 1);
        told = calls[i].call(columns, words, calls[i].first, 2, calls[i].second, 2, made, (size_t)needed);
        SAME("the number of a fitting column", told.number, ZV_FINE);
        SAME("the words written", told.words, needed);
    }
}

/* The longest body that the first rows of a column can have: all that exist, which are three of each four. It is
 * measured, and written with just that room. */
static void longest_first_rows(format f, uint32_t rows, uint64_t need, uint64_t most)
{
    static const uint32_t column[] = {0, 1};
    first_rows_call *const calls[] = {zv_largest, zv_smallest};
    const size_t words = two_bitmaps(f, rows);
    const uint32_t k = zv_count(columns, words, 0).value;

    for (size_t i = 0; i < sizeof(calls) / sizeof(calls[0]); i++) {
        zv_written told = calls[i](columns, words, WORDS(column), k, body, 0);

        SAME("the number of measured rows", told.number, ZV_NO_ROOM);
        SAME("the words needed", told.word, need);
        SAME("whether a size is enough", need <= most, 1);
        told = calls[i](columns, words, WORDS(column), k, body, (size_t)need);
        SAME("the number of fitting rows", told.number, ZV_FINE);
        SAME("the words written", told.words, need);
    }
}

#define MEASURES(call, need) measures(HERE, (call).number, (call).word, need)

static void measures(source at, uint32_t number, uint64_t word, uint64_t need)
{
    same(at, "number", number, ZV_NO_ROOM);
    same(at, "word", word, need);
}

/* 40 rows, of which bitmap 0 has rows 0 and 39, and bitmap 1 none. */
static const uint32_t index[] = {1, 40, 2, 7, 3, 10, 1, 0x00040000, 0x00000001, 0x00000080, 0x00000004};
static const uint32_t archive[] = {2, 40, 2, 7, 2, 9, 1, 0x00000001, 0x00000100, 0x80000002};

/* Of a column that has 1 in rows 0 and 39, and itself: the values made are 2, 0, 1 and 0. */
static void measuring_columns(void)
{
    static const uint32_t column[] = {0, 0};

    MEASURES(zv_sum(WORDS(index), WORDS(column), WORDS(column), body, 0), 16);
    MEASURES(zv_signed_difference(WORDS(index), WORDS(column), WORDS(column), body, 0), 14);
    MEASURES(zv_smaller(WORDS(index), WORDS(column), WORDS(column), body, 0), 13);
    MEASURES(zv_difference_or_zero(WORDS(index), WORDS(column), WORDS(column), body, 0), 11);
    MEASURES(zv_sum(WORDS(archive), WORDS(column), WORDS(column), body, 0), 14);
    MEASURES(zv_signed_difference(WORDS(archive), WORDS(column), WORDS(column), body, 0), 13);
    MEASURES(zv_smaller(WORDS(archive), WORDS(column), WORDS(column), body, 0), 11);
    MEASURES(zv_difference_or_zero(WORDS(archive), WORDS(column), WORDS(column), body, 0), 10);
}

/* Of that column both rows, the first and none, in either order. */
static void measuring_first_rows(first_rows_call *call)
{
    static const uint32_t column[] = {0, 0};

    MEASURES(call(WORDS(index), WORDS(column), 2, body, 0), 3);
    MEASURES(call(WORDS(index), WORDS(column), 1, body, 0), 3);
    MEASURES(call(WORDS(index), WORDS(column), 0, body, 0), 1);
    MEASURES(call(WORDS(archive), WORDS(column), 2, body, 0), 2);
    MEASURES(call(WORDS(archive), WORDS(column), 1, body, 0), 2);
    MEASURES(call(WORDS(archive), WORDS(column), 0, body, 0), 1);
}

/* Every call that writes measures where its buffer has length 0, and writes nothing. */
static void measuring(void)
{
    static const uint32_t list[] = {0, 1}, table[] = {0, 1, 0}, none[1];
    zv_append_state state = zv_begin(body, 0);

    body[0] = 77;
    measuring_columns();
    measuring_first_rows(zv_largest);
    measuring_first_rows(zv_smallest);
    MEASURES(zv_expand(index + 7, 3, 40, body, 0), 2);
    MEASURES(zv_compress(40, index + 8, 2, body, 0), 3);
    MEASURES(zv_append(&state, body, 0, 40, index + 8, 2), 3);
    MEASURES(zv_body_to_ewah(index + 7, 3, 40, body, 0), 3);
    MEASURES(zv_body_to_wah(index + 7, 3, 40, body, 0), 2);
    MEASURES(zv_expand_bitmap(WORDS(index), 0, body, 0), 2);
    MEASURES(zv_bitmap_to_ewah(WORDS(index), 0, body, 0), 3);
    MEASURES(zv_bitmap_to_wah(WORDS(index), 0, body, 0), 2);
    MEASURES(zv_index_to_ewah(WORDS(index), body, 0), 11);
    MEASURES(zv_index_to_wah(WORDS(index), body, 0), 10);
    MEASURES(zv_and(WORDS(index), 0, 1, body, 0), 1);
    MEASURES(zv_or(WORDS(index), 0, 1, body, 0), 3);
    MEASURES(zv_xor(WORDS(index), 0, 1, body, 0), 3);
    MEASURES(zv_and_not(WORDS(index), 0, 1, body, 0), 3);
    MEASURES(zv_not(WORDS(index), 0, body, 0), 3);
    MEASURES(zv_threshold(WORDS(index), WORDS(list), 1, body, 0), 3);
    MEASURES(zv_symmetric(WORDS(index), WORDS(list), WORDS(table), body, 0), 3);
    MEASURES(zv_wah_expand(archive + 7, 2, 40, body, 0), 2);
    MEASURES(zv_wah_compress(40, index + 8, 2, body, 0), 2);
    MEASURES(zv_wah_body_to_ewah(archive + 7, 2, 40, body, 0), 3);
    MEASURES(zv_wah_body_to_wah(archive + 7, 2, 40, body, 0), 2);
    MEASURES(zv_index_to_ewah(WORDS(archive), body, 0), 11);
    MEASURES(zv_or(WORDS(archive), 0, 1, body, 0), 2);
    MEASURES(zv_threshold(WORDS(archive), WORDS(list), 1, body, 0), 2);
    SAME("the buffer's first word", body[0], 77);
    SAME("the number for no rows", zv_compress(0, none, 0, body, 0).number, ZV_FINE);
    SAME("the number for a batch of none", zv_append(&state, body, 0, 0, none, 0).number, ZV_FINE);
    SAME("the number for no rows in WAH", zv_wah_compress(0, none, 0, body, 0).number, ZV_FINE);
}

int main(void)
{
    version();
    sizes();
    wah_sizes();
    texts();
    longest(ewah, 1, 33, 3, ZV_MOST_BODY_WORDS(33));
    longest(ewah, 1, FULL_ROWS, 32768, ZV_MOST_BODY_WORDS(FULL_ROWS));
    longest(ewah, 1, PAST_FULL_ROWS, 32770, ZV_MOST_BODY_WORDS(PAST_FULL_ROWS));
    longest_appended(64, 3, ZV_MOST_BODY_WORDS(64));
    longest_appended(FULL_ROWS, 32768, ZV_MOST_BODY_WORDS(FULL_ROWS));
    longest_appended(PAST_FULL_ROWS, 32770, ZV_MOST_BODY_WORDS(PAST_FULL_ROWS));
    longest(wah, 0x55555555u, 64, 3, ZV_WAH_MOST_BODY_WORDS(64));
    longest(wah, 0x55555555u, PAST_FULL_ROWS, 33826, ZV_WAH_MOST_BODY_WORDS(PAST_FULL_ROWS));
    longest_columns(ewah, 64, 18, 13, ZV_MOST_SUM_WORDS(64, 1));
    longest_columns(ewah, FULL_ROWS, 98313, 65543, ZV_MOST_SUM_WORDS(FULL_ROWS, 1));
    longest_columns(ewah, PAST_FULL_ROWS, 98319, 65547, ZV_MOST_SUM_WORDS(PAST_FULL_ROWS, 1));
    longest_columns(wah, 64, 18, 13, ZV_WAH_MOST_SUM_WORDS(64, 1));
    longest_columns(wah, PAST_FULL_ROWS, 101487, 67659, ZV_WAH_MOST_SUM_WORDS(PAST_FULL_ROWS, 1));
    longest_first_rows(ewah, 64, 3, ZV_MOST_BODY_WORDS(64));
    longest_first_rows(ewah, FULL_ROWS, 32768, ZV_MOST_BODY_WORDS(FULL_ROWS));
    longest_first_rows(ewah, PAST_FULL_ROWS, 32770, ZV_MOST_BODY_WORDS(PAST_FULL_ROWS));
    longest_first_rows(wah, 64, 3, ZV_WAH_MOST_BODY_WORDS(64));
    longest_first_rows(wah, PAST_FULL_ROWS, 33826, ZV_WAH_MOST_BODY_WORDS(PAST_FULL_ROWS));
    measuring();
    printf("ok\n");
    return 0;
}
