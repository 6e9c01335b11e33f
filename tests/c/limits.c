/*
 * The limits, at each and one over, in both formats: the most rows, in bodies of runs, and as they come in batches; the
 * most bitmaps of an index; lists and tables of the most numbers; and what is made of two columns where it is longer
 * than an index may be, which no buffer helps. Writes `ok`, or the first difference, with exit status 1.
 *
 *   gcc -std=c99 -Wall -Wextra -Werror -pedantic -Iinclude tests/c/limits.c \
 *       target/staticlib/libzvonurel_c.a -o target/limits && target/limits
 */
#include "answers.h"

/* The most rows are 33,554,432 segments in EWAH: 512 full markers and one of 512 segments. In WAH they are 34,636,834,
 * of which the last has one row. */
#define MARKERS 513u
#define ROWS_OF_MARKER (ZV_MOST_CLEAN * ZV_WORD_BITS)
#define LAST_ROW (ZV_MOST_ROWS - 1u)

static const uint32_t none_in_wah[] = {0x82108422}, all_in_wah[] = {0xC2108422};
/* none but the last row, and all but it: in WAH a fill and a literal */
static const uint32_t last_in_wah[] = {0x82108421, 0x00000001}, but_last_in_wah[] = {0xC2108421, 0x00000000};
/* the lower half of the rows: in EWAH 16,777,216 segments of either value, 256 full markers and one of 256 segments
 * each; in WAH 17,318,416 segments, 16 rows of the next, and 17,318,417 segments */
static const uint32_t half_in_wah[] = {0xC1084210, 0x0000FFFF, 0x81084211};
static uint32_t none_set[MARKERS], all_set[MARKERS], last_set[MARKERS + 1u], but_last[MARKERS + 1u], half[MARKERS + 1u];

/* What differs between the formats here. */
typedef struct {
    uint32_t kind;
    const uint32_t *none, *all, *last, *but_last, *half;
    size_t run_words, last_words, half_words;
    zv_checked (*check)(const uint32_t *body, size_t words, uint32_t rows);
    zv_number (*count)(const uint32_t *body, size_t words, uint32_t rows);
    zv_number (*nth)(const uint32_t *body, size_t words, uint32_t rows, uint32_t n);
    row_call *row;
    zv_written (*compress)(uint32_t rows, const uint32_t *plain, size_t plain_words, uint32_t *out, size_t out_words);
    /* the first row of the last piece of `all` */
    uint32_t last_piece;
} format;

static const format ewah = {ZV_INDEX_KIND, none_set, all_set, last_set, but_last, half, MARKERS, MARKERS + 1u,
                            MARKERS + 1u, zv_check_body, zv_body_count, zv_body_nth, zv_body_row, zv_compress,
                            512u * ROWS_OF_MARKER};
static const format wah = {ZV_WAH_INDEX_KIND, none_in_wah, all_in_wah, last_in_wah, but_last_in_wah, half_in_wah, 1, 2,
                           3, zv_wah_check_body, zv_wah_body_count, zv_wah_body_nth, zv_wah_body_row, zv_wah_compress,
                           0};

static void fill_bodies(void)
{
    for (uint32_t i = 0; i < MARKERS; i++) {
        none_set[i] = i < 512u ? 0x0001FFFE : 0x00000400;
        all_set[i] = none_set[i] | 1u;
        last_set[i] = none_set[i];
        but_last[i] = all_set[i];
    }
    /* a segment fewer in the last run, and a dirty word */
    last_set[MARKERS - 1u] = 0x000203FE;
    last_set[MARKERS] = 0x80000000;
    but_last[MARKERS - 1u] = 0x000203FF;
    but_last[MARKERS] = 0x7FFFFFFF;
    for (uint32_t i = 0; i < 257u; i++) {
        half[i] = i < 256u ? 0x0001FFFF : 0x00000201;
        half[257u + i] = half[i] - 1u;
    }
}

/* ---- the most rows */

static void most_rows(format f)
{
    FINE(f.check(f.none, f.run_words, ZV_MOST_ROWS));
    FINE(f.check(f.all, f.run_words, ZV_MOST_ROWS));
    FINE(f.check(f.last, f.last_words, ZV_MOST_ROWS));
    SAME("no row", f.count(f.none, f.run_words, ZV_MOST_ROWS).value, 0);
    SAME("all rows", f.count(f.all, f.run_words, ZV_MOST_ROWS).value, ZV_MOST_ROWS);
    SAME("one row", f.count(f.last, f.last_words, ZV_MOST_ROWS).value, 1);
    FINE(f.nth(f.all, f.run_words, ZV_MOST_ROWS, LAST_ROW));
    SAME("the last of all", f.nth(f.all, f.run_words, ZV_MOST_ROWS, LAST_ROW).value, LAST_ROW);
    SAME("the last alone", f.nth(f.last, f.last_words, ZV_MOST_ROWS, 0).value, LAST_ROW);
    REFUSED(f.nth(f.all, f.run_words, ZV_MOST_ROWS, ZV_MOST_ROWS), ZV_BAD_ARGUMENT, 0, 0);
    FLAGGED(f.row(f.all, f.run_words, ZV_MOST_ROWS, LAST_ROW), 1, f.last_piece, LAST_ROW);
    FLAGGED(f.row(f.none, f.run_words, ZV_MOST_ROWS, LAST_ROW), 0, f.last_piece, LAST_ROW);
    NOT_FLAGGED(f.row(f.all, f.run_words, ZV_MOST_ROWS, ZV_MOST_ROWS), ZV_BAD_ARGUMENT, 0, 0);

    REFUSED(f.check(f.none, f.run_words, ZV_MOST_ROWS + 1u), ZV_TOO_LARGE, 0, 1);
    REFUSED(f.count(f.all, f.run_words, ZV_MOST_ROWS + 1u), ZV_TOO_LARGE, 0, 1);
    REFUSED(f.nth(f.all, f.run_words, ZV_MOST_ROWS + 1u, 0), ZV_TOO_LARGE, 0, 1);
    NOT_FLAGGED(f.row(f.all, f.run_words, ZV_MOST_ROWS + 1u, 0), ZV_TOO_LARGE, 0, 1);
    NOT_WRITTEN(f.compress(ZV_MOST_ROWS + 1u, f.none, 1, WORDS(out)), ZV_TOO_LARGE, 0, 1);
}

/* a run is as many pieces as it takes markers */
static void most_pieces(void)
{
    static piece pieces[MARKERS];
    static const piece in_wah[] = {{LAST_ROW, ~0u}};

    for (uint32_t i = 0; i < MARKERS; i++) {
        pieces[i].last = i < 512u ? (i + 1u) * ROWS_OF_MARKER - 1u : LAST_ROW;
        pieces[i].segment = ~0u;
    }
    PIECES(zv_body_row, all_set, ZV_MOST_ROWS, pieces);
    PIECES(zv_wah_body_row, all_in_wah, ZV_MOST_ROWS, in_wah);
}

static void written_again(void)
{
    static uint32_t two[2u * (MARKERS + 1u)];
    zv_written told = zv_wah_body_to_ewah(WORDS(all_in_wah), ZV_MOST_ROWS, WORDS(two));

    FINE(told);
    SAME("words", told.words, MARKERS);
    SAME("the last marker", two[MARKERS - 1u], 0x00000401);
    WROTE(zv_body_to_wah(WORDS(all_set), ZV_MOST_ROWS, WORDS(out)), all_in_wah);
    WROTE(zv_body_to_wah(WORDS(last_set), ZV_MOST_ROWS, WORDS(out)), last_in_wah);
}

/* plain words, written from and read into */
static void most_plain_words(format f)
{
    const size_t words = ZV_SEGMENTS(ZV_MOST_ROWS);
    uint32_t *plain = calloc(words, sizeof(uint32_t));
    zv_written told;

    SAME("memory", plain != NULL, 1);
    told = f.compress(ZV_MOST_ROWS, plain, words, out, 0);
    REFUSED(told, ZV_NO_ROOM, 0, f.run_words);
    plain[words - 1] = 0x80000000;
    told = f.compress(ZV_MOST_ROWS, plain, words, out, 0);
    REFUSED(told, ZV_NO_ROOM, 0, f.last_words);
    NOT_WRITTEN(f.compress(ZV_MOST_ROWS, plain, words - 1, WORDS(out)), ZV_BAD_ARGUMENT, 0, 0);
    free(plain);
}

/* ---- the most rows, in batches */

#define ROWS_LEFT 24u

static uint32_t writers[MARKERS + 1u];

/* A writer at `left` rows below the most, whose body has so many words, in a buffer of `room` words. */
static zv_append_state near_the_most(const uint32_t *body, size_t words, size_t room, uint32_t left)
{
    const zv_append_state state = {room, ZV_MOST_ROWS - left, words};

    for (size_t i = 0; i < room; i++) {
        writers[i] = i < words ? body[i] : UNTOUCHED;
    }
    return state;
}

/* The last rows of a body of MARKERS words, as one batch: then it is this body, if it is not refused for want of room,
 * with this many words. */
static void last_rows(source at, const uint32_t *body, uint32_t batch, size_t room, const uint32_t *want, size_t words)
{
    zv_append_state state = near_the_most(body, MARKERS, room, ROWS_LEFT);
    const zv_written told = zv_append(&state, writers, room, ROWS_LEFT, &batch, 1);
    const int fits = words <= room;

    refusal(at, told.number, told.bitmap, told.word, fits ? 0 : ZV_NO_ROOM, 0, fits ? 0 : words);
    same(at, "the rows", state.rows, fits ? ZV_MOST_ROWS : ZV_MOST_ROWS - ROWS_LEFT);
    same(at, "the words in use", state.words, fits ? words : MARKERS);
    for (size_t i = 0; i < room; i++) {
        const uint32_t before = i < MARKERS ? body[i] : UNTOUCHED;

        same(at, "a word", writers[i], fits && i < words ? want[i] : before);
    }
}

/* The last segment has 8 rows, and then all 32. */
static void most_appended(void)
{
    const uint32_t set = (1u << ROWS_LEFT) - 1u, last = 1u << (ROWS_LEFT - 1u);

    last_rows(HERE, none_set, 0, MARKERS, none_set, MARKERS);
    last_rows(HERE, none_set, last, MARKERS + 1u, last_set, MARKERS + 1u);
    last_rows(HERE, none_set, last, MARKERS, last_set, MARKERS + 1u);
    last_rows(HERE, all_set, set, MARKERS, all_set, MARKERS);
    last_rows(HERE, all_set, set - last, MARKERS + 1u, but_last, MARKERS + 1u);
    last_rows(HERE, all_set, set - last, MARKERS, but_last, MARKERS + 1u);
}

/* One row over, and so many that a sum of 32 bits would wrap; and at the limit a batch of no rows. */
static void one_row_over(void)
{
    static const uint32_t plain[] = {0};
    const uint32_t over[] = {ROWS_LEFT + 1u, ZV_MOST_ROWS, UINT32_MAX - ZV_MOST_ROWS + ROWS_LEFT + 1u, UINT32_MAX};
    zv_append_state state = near_the_most(none_set, MARKERS, MARKERS, ROWS_LEFT);
    zv_written told;

    for (size_t i = 0; i < sizeof(over) / sizeof(over[0]); i++) {
        told = zv_append(&state, writers, MARKERS, over[i], WORDS(plain));
        REFUSED(told, ZV_TOO_LARGE, 0, 1);
        SAME("the rows", state.rows, ZV_MOST_ROWS - ROWS_LEFT);
    }
    state = near_the_most(none_set, MARKERS, MARKERS, 0);
    told = zv_append(&state, writers, MARKERS, 1, WORDS(plain));
    REFUSED(told, ZV_TOO_LARGE, 0, 1);
    told = zv_append(&state, writers, MARKERS, 0, plain, 0);
    FINE(told);
    SAME("the words of the most rows", told.words, MARKERS);
    SAME("the rows", state.rows, ZV_MOST_ROWS);
    /* one row more than there may be, in a state */
    state.rows++;
    told = zv_append(&state, writers, MARKERS, 0, plain, 0);
    REFUSED(told, ZV_STATE_MISMATCH, 0, 0);
}

/* All of the most rows as one batch. */
static void most_at_once(void)
{
    const size_t words = ZV_SEGMENTS(ZV_MOST_ROWS);
    uint32_t *plain = calloc(words, sizeof(uint32_t));
    zv_append_state state = zv_begin(writers, MARKERS - 1u);
    zv_written told;

    SAME("memory", plain != NULL, 1);
    told = zv_append(&state, writers, MARKERS - 1u, ZV_MOST_ROWS, plain, words);
    REFUSED(told, ZV_NO_ROOM, 0, MARKERS);
    state = zv_begin(writers, MARKERS);
    told = zv_append(&state, writers, MARKERS, ZV_MOST_ROWS, plain, words);
    FINE(told);
    SAME("the words of the most rows", told.words, MARKERS);
    for (size_t i = 0; i < MARKERS; i++) {
        SAME("a word", writers[i], none_set[i]);
    }
    SAME("the rows", state.rows, ZV_MOST_ROWS);
    free(plain);
}

/* ---- an index of the most rows */

/* an index of these three */
static size_t quiet_index(format f, uint32_t *index)
{
    const uint32_t *bodies[] = {f.none, f.all, f.last};
    const size_t lengths[] = {f.run_words, f.run_words, f.last_words};
    size_t words = ZV_HEAD_WORDS + 3u * ZV_ENTRY_WORDS;

    index[0] = f.kind;
    index[1] = ZV_MOST_ROWS;
    index[2] = 3;
    for (size_t k = 0; k < 3; k++) {
        index[ZV_HEAD_WORDS + k * ZV_ENTRY_WORDS] = (uint32_t)words;
        index[ZV_HEAD_WORDS + k * ZV_ENTRY_WORDS + 1] = (uint32_t)lengths[k];
        for (size_t i = 0; i < lengths[k]; i++) {
            index[words + i] = bodies[k][i];
        }
        words += lengths[k];
    }
    return words;
}

static void quiet_answer(source at, zv_answered told, const uint32_t *answer, const uint32_t *want, size_t words)
{
    refusal(at, told.number, told.bitmap, told.word, 0, 0, 0);
    same(at, "words", told.words, words);
    for (size_t i = 0; i < words; i++) {
        same(at, "a word", answer[i], want[i]);
    }
}

/* of the list's places `one` have each row but the last, and `two` have that */
static void quiet_list(format f, const uint32_t *index, size_t words, const uint32_t *list, size_t named, uint32_t one,
                       uint32_t two)
{
    static uint32_t answer[MARKERS + 1u];
    const zv_histogram_counts told = zv_histogram(index, words, list, named);
    const uint32_t least[] = {one, one + 1, two + 1};
    const uint32_t *bodies[] = {f.all, f.last, f.none};
    const size_t lengths[] = {f.run_words, f.last_words, f.run_words};

    FINE(told);
    SAME("all rows but the last", told.counts[one], LAST_ROW);
    SAME("the last row", told.counts[two], 1);
    for (size_t k = 0; k < 3; k++) {
        const zv_answered given = zv_threshold(index, words, list, named, least[k], WORDS(answer));

        quiet_answer(HERE, given, answer, bodies[k], lengths[k]);
    }
}

/* Columns of the most rows, in all of which one column has 1, and the other in the last row alone: the words of what is
 * made of the two, existence and slices, each of them a run or with another last row. */
static void quiet_columns(format f, const uint32_t *index, size_t words)
{
    static const uint32_t ones[] = {1, 1}, last[] = {1, 2};
    static uint32_t made[ZV_HEAD_WORDS + 3u * ZV_ENTRY_WORDS + 3u * (MARKERS + 1u)];
    const uint64_t run = f.run_words, cut = f.last_words, head = ZV_HEAD_WORDS + 2u * ZV_ENTRY_WORDS;
    zv_written told = zv_signed_difference(index, words, WORDS(last), WORDS(ones), WORDS(made));

    FINE(told);
    SAME("the words of a difference", told.words, head + ZV_ENTRY_WORDS + run + 2u * cut);
    SIGNED_VALUED(zv_signed_value(made, (size_t)told.words, WORDS(three), 0), -1);
    SIGNED_VALUED(zv_signed_value(made, (size_t)told.words, WORDS(three), LAST_ROW - 1u), -1);
    SIGNED_VALUED(zv_signed_value(made, (size_t)told.words, WORDS(three), LAST_ROW), 0);
    NOT_SIGNED_VALUED(zv_signed_value(made, (size_t)told.words, WORDS(three), ZV_MOST_ROWS), ZV_BAD_ARGUMENT, 0, 0);
    REFUSED(zv_smaller(index, words, WORDS(last), WORDS(ones), out, 0), ZV_NO_ROOM, 0, head + run + cut);
    REFUSED(zv_difference_or_zero(index, words, WORDS(ones), WORDS(last), out, 0), ZV_NO_ROOM, 0, head + run + cut);
    REFUSED(zv_difference_or_zero(index, words, WORDS(last), WORDS(ones), out, 0), ZV_NO_ROOM, 0, head + run + run);
}

/* the first k rows of a column are this body, with just the room that it needs; with a word less nothing is written */
static void quiet_rows(source at, first_rows_call *call, const uint32_t *index, size_t words, const uint32_t *column,
                       size_t numbers, uint32_t k, const uint32_t *want, size_t need)
{
    static uint32_t answer[2u * MARKERS];
    zv_written told;

    for (size_t i = 0; i < sizeof(answer) / sizeof(answer[0]); i++) {
        answer[i] = UNTOUCHED;
    }
    told = call(index, words, column, numbers, k, answer, need - 1);
    refusal(at, told.number, told.bitmap, told.word, ZV_NO_ROOM, 0, need);
    same(at, "a refused call's first word", answer[0], UNTOUCHED);
    told = call(index, words, column, numbers, k, answer, need);
    refusal(at, told.number, told.bitmap, told.word, 0, 0, 0);
    same(at, "words", told.words, need);
    for (size_t i = 0; i < sizeof(answer) / sizeof(answer[0]); i++) {
        same(at, "a word", answer[i], i < need ? want[i] : UNTOUCHED);
    }
}

/* none, half, all but the last and all of the most rows, where all have 0, or 2^32 - 1; then where the last alone has
 * that, and where it alone exists */
static void quiet_first_rows(format f, const uint32_t *index, size_t words)
{
    static const uint32_t zero[] = {1, 0}, last_alone[] = {2, 2};
    uint32_t most[ZV_MOST_COLUMN], last[ZV_MOST_COLUMN];

    for (uint32_t i = 0; i < ZV_MOST_COLUMN; i++) {
        most[i] = 1;
        last[i] = i == 0 ? 1 : 2;
    }
    for (size_t i = 0; i < sizeof(first_rows_calls) / sizeof(first_rows_calls[0]); i++) {
        first_rows_call *const call = first_rows_calls[i];

        quiet_rows(HERE, call, index, words, WORDS(zero), 0, f.none, f.run_words);
        quiet_rows(HERE, call, index, words, WORDS(zero), ZV_MOST_ROWS / 2u, f.half, f.half_words);
        quiet_rows(HERE, call, index, words, WORDS(most), ZV_MOST_ROWS / 2u, f.half, f.half_words);
        quiet_rows(HERE, call, index, words, WORDS(most), LAST_ROW, f.but_last, f.last_words);
        quiet_rows(HERE, call, index, words, WORDS(most), ZV_MOST_ROWS, f.all, f.run_words);
        quiet_rows(HERE, call, index, words, WORDS(last), ZV_MOST_ROWS, f.all, f.run_words);
        quiet_rows(HERE, call, index, words, WORDS(last_alone), 1, f.last, f.last_words);
        NOT_WRITTEN(call(index, words, WORDS(most), ZV_MOST_ROWS + 1u, WORDS(out)), ZV_BAD_ARGUMENT, 0, 0);
        NOT_WRITTEN(call(index, words, WORDS(most), UINT32_MAX, WORDS(out)), ZV_BAD_ARGUMENT, 0, 0);
        NOT_WRITTEN(call(index, words, WORDS(last_alone), 2, WORDS(out)), ZV_BAD_ARGUMENT, 0, 0);
    }
    quiet_rows(HERE, zv_largest, index, words, WORDS(last), 1, f.last, f.last_words);
    quiet_rows(HERE, zv_smallest, index, words, WORDS(last), LAST_ROW, f.but_last, f.last_words);
}

/* three bitmaps of the most rows; the longest list names the first 86 times, and the others 85 times each */
static void quiet_lists(format f)
{
    static uint32_t index[ZV_HEAD_WORDS + 3u * ZV_ENTRY_WORDS + 3u * MARKERS + 1u];
    uint32_t list[ZV_MOST_NAMED];
    const size_t words = quiet_index(f, index);

    for (uint32_t i = 0; i < ZV_MOST_NAMED; i++) {
        list[i] = i % 3u;
    }
    quiet_list(f, index, words, WORDS(three), 1, 2);
    quiet_list(f, index, words, WORDS(list), 85, 170);
    SAME("the last row", zv_nth(index, words, 1, LAST_ROW).value, LAST_ROW);
    quiet_columns(f, index, words);
    quiet_first_rows(f, index, words);

    index[1]++;
    every_index_call(index, words, ZV_TOO_LARGE, 0, 1);
}

/* ---- the most bitmaps, and lists and tables of the most numbers */

/* 8 rows, of which bitmap k has row 0, row 1 unless it is the last, and row 2 if it is the first: a word each in WAH */
static uint32_t many[ZV_HEAD_WORDS + (ZV_ENTRY_WORDS + 2u) * (ZV_MOST_BITMAPS + 1u)];
static uint32_t every[ZV_MOST_NAMED + 1u], table[ZV_HISTOGRAM_COUNTS + 1u];

static size_t many_bitmaps(format f, uint32_t bitmaps)
{
    size_t words = ZV_HEAD_WORDS + bitmaps * ZV_ENTRY_WORDS;

    many[0] = f.kind;
    many[1] = 8;
    many[2] = bitmaps;
    for (uint32_t k = 0; k < bitmaps; k++) {
        const size_t start = words;

        if (f.kind == ZV_INDEX_KIND) {
            many[words++] = 0x00020000;
        }
        many[words++] = 1u | (k + 1u < bitmaps ? 2u : 0u) | (k == 0 ? 4u : 0u);
        many[ZV_HEAD_WORDS + k * ZV_ENTRY_WORDS] = (uint32_t)start;
        many[ZV_HEAD_WORDS + k * ZV_ENTRY_WORDS + 1] = (uint32_t)(words - start);
    }
    return words;
}

/* the rows of an answer of one segment */
static void rows_of(source at, format f, zv_answered told, uint32_t rows)
{
    const uint32_t in_ewah[] = {0x00020000, rows};

    if (f.kind == ZV_INDEX_KIND) {
        answered(at, told, in_ewah, 2, 1);
    } else {
        answered(at, told, &rows, 1, 1);
    }
}

/* a threshold of each of these, and one more; a list of one more */
static void longest_list(format f, size_t words)
{
    for (uint32_t i = 0; i <= ZV_MOST_NAMED; i++) {
        every[i] = i % ZV_MOST_BITMAPS;
    }
    rows_of(HERE, f, zv_threshold(many, words, every, ZV_MOST_NAMED, 1, WORDS(out)), 0x7);
    rows_of(HERE, f, zv_threshold(many, words, every, ZV_MOST_NAMED, 2, WORDS(out)), 0x3);
    rows_of(HERE, f, zv_threshold(many, words, every, ZV_MOST_NAMED, 255, WORDS(out)), 0x3);
    rows_of(HERE, f, zv_threshold(many, words, every, ZV_MOST_NAMED, 256, WORDS(out)), 0x1);
    NOT_ANSWERED(zv_threshold(many, words, every, ZV_MOST_NAMED, 257, WORDS(out)), ZV_BAD_ARGUMENT, 0, 0);
    NOT_ANSWERED(zv_threshold(many, words, every, ZV_MOST_NAMED + 1u, 1, WORDS(out)), ZV_BAD_ARGUMENT, 0, 0);
}

static void longest_table(format f, size_t words)
{
    table[ZV_MOST_NAMED - 1u] = table[ZV_MOST_NAMED] = 1;
    rows_of(HERE, f, zv_symmetric(many, words, every, ZV_MOST_NAMED, table, ZV_HISTOGRAM_COUNTS, WORDS(out)), 0x3);
    table[ZV_MOST_NAMED] = 0;
    rows_of(HERE, f, zv_symmetric(many, words, every, ZV_MOST_NAMED, table, ZV_HISTOGRAM_COUNTS, WORDS(out)), 0x2);
    for (uint32_t entries = ZV_MOST_NAMED; entries <= ZV_MOST_NAMED + 2u; entries += 2) {
        NOT_ANSWERED(zv_symmetric(many, words, every, ZV_MOST_NAMED, table, entries, WORDS(out)),
                     ZV_BAD_ARGUMENT, 0, 0);
    }
    table[ZV_MOST_NAMED] = 2;
    NOT_ANSWERED(zv_symmetric(many, words, every, ZV_MOST_NAMED, table, ZV_HISTOGRAM_COUNTS, WORDS(out)),
                 ZV_BAD_ARGUMENT, 0, 0);
    NOT_ANSWERED(zv_symmetric(many, words, every, ZV_MOST_NAMED + 1u, table, ZV_HISTOGRAM_COUNTS + 1u, WORDS(out)),
                 ZV_BAD_ARGUMENT, 0, 0);
}

static void most_bitmaps(format f)
{
    size_t words = many_bitmaps(f, ZV_MOST_BITMAPS + 1u);
    zv_histogram_counts told;

    every_index_call(many, words, ZV_TOO_LARGE, 0, 2);
    words = many_bitmaps(f, ZV_MOST_BITMAPS);
    FINE(zv_check(many, words));
    SAME("the rows of the last", zv_count(many, words, ZV_MOST_BITMAPS - 1u).value, 1);
    longest_list(f, words);
    longest_table(f, words);
    told = zv_histogram(many, words, every, ZV_MOST_NAMED);
    FINE(told);
    SAME("rows in none", told.counts[0], 5);
    SAME("rows in the first", told.counts[1], 1);
    SAME("rows in all but the last", told.counts[ZV_MOST_NAMED - 1u], 1);
    SAME("rows in all", told.counts[ZV_MOST_NAMED], 1);
    COUNTED(zv_histogram(many, words, every, ZV_MOST_NAMED + 1u), zeros, ZV_BAD_ARGUMENT, 0, 0);
}

/* ---- what is made of two columns, and is longer than an index may be */

/* 2^26 rows, sixteen set and sixteen not in turns: 2,097,152 segments in EWAH, all dirty, under 65 markers, and
 * 2,164,803 literals in WAH. */
#define LONG_ROWS 67108864u
#define IN_TURNS 0x0000FFFFu
#define LONG_BODY 2097217u
#define WAH_LONG_BODY 2164803u
/* an empty bitmap of these rows takes 33 markers or one fill */
#define EMPTY_BODY 33u
#define WAH_EMPTY_BODY 1u
/* words that are looked at afterwards: one in so many */
#define LOOKED_AT 65536u

/* That bitmap is named by 33 numbers as existence and 32 slices, 2^32 - 1 in each row, and by two as 1 in each row. */
static const uint32_t widest[ZV_MOST_COLUMN], narrowest[ZV_LEAST_COLUMN];

/* What is made of the widest column and another, with the bitmaps in it that are that bitmap, and those that are empty:
 * a sum has an empty lowest slice, and a difference of 2^32 - 2 an empty lowest one and an empty sign. */
static const struct {
    columns_call *call;
    const uint32_t *second;
    size_t numbers;
    uint64_t full, empty;
} long_columns[] = {
    {zv_sum, WORDS(widest), 33, 1},
    {zv_signed_difference, WORDS(narrowest), 32, 2},
    {zv_smaller, WORDS(widest), 33, 0},
    {zv_difference_or_zero, WORDS(narrowest), 32, 1},
};

/* an index of that bitmap, in memory of its own */
static uint32_t *long_index(format f, size_t body_words)
{
    const size_t start = ZV_HEAD_WORDS + ZV_ENTRY_WORDS;
    const uint32_t head[] = {f.kind, LONG_ROWS, 1, (uint32_t)start, (uint32_t)body_words};
    uint32_t *plain = calloc(ZV_SEGMENTS(LONG_ROWS), sizeof(uint32_t));
    uint32_t *index = calloc(start + body_words, sizeof(uint32_t));
    zv_written told;

    SAME("memory", plain != NULL && index != NULL, 1);
    for (size_t i = 0; i < ZV_SEGMENTS(LONG_ROWS); i++) {
        plain[i] = IN_TURNS;
    }
    for (size_t i = 0; i < start; i++) {
        index[i] = head[i];
    }
    told = f.compress(LONG_ROWS, plain, ZV_SEGMENTS(LONG_ROWS), index + start, body_words);
    FINE(told);
    SAME("the words of the bitmap", told.words, body_words);
    free(plain);
    return index;
}

/* a buffer of `most` words is as good as a longer one, in which there would be room */
static void too_long(format f, size_t body_words, uint64_t empty_words, uint64_t most)
{
    const size_t words = ZV_HEAD_WORDS + ZV_ENTRY_WORDS + body_words, longer = (size_t)(most + most / 8u);
    const size_t rooms[] = {(size_t)most, longer};
    uint32_t *index = long_index(f, body_words), *made = calloc(longer, sizeof(uint32_t));

    SAME("memory", made != NULL, 1);
    for (size_t k = 0; k < sizeof(long_columns) / sizeof(long_columns[0]); k++) {
        const uint64_t need = ZV_HEAD_WORDS + long_columns[k].full * (ZV_ENTRY_WORDS + body_words) +
                              long_columns[k].empty * (ZV_ENTRY_WORDS + empty_words);

        SAME("whether it is too long", most == ZV_MOST_INDEX_WORDS && most < need && need < longer, 1);
        for (size_t i = 0; i < sizeof(rooms) / sizeof(rooms[0]); i++) {
            const zv_written told = long_columns[k].call(index, words, WORDS(widest), long_columns[k].second,
                                                         long_columns[k].numbers, made, rooms[i]);

            REFUSED(told, ZV_NO_ROOM, 0, need);
            SAME("the words of a refused column", told.words, 0);
        }
    }
    for (size_t i = 0; i < longer; i += i < LOOKED_AT ? 1 : LOOKED_AT) {
        SAME("a word of the buffer", made[i], 0);
    }
    free(made);
    free(index);
}

int main(void)
{
    clear();
    fill_bodies();
    most_rows(ewah);
    most_rows(wah);
    most_pieces();
    written_again();
    most_plain_words(ewah);
    most_plain_words(wah);
    most_appended();
    one_row_over();
    most_at_once();
    quiet_lists(ewah);
    quiet_lists(wah);
    most_bitmaps(ewah);
    most_bitmaps(wah);
    too_long(ewah, LONG_BODY, EMPTY_BODY, ZV_MOST_SUM_WORDS(LONG_ROWS, ZV_MOST_COLUMN - 1u));
    too_long(wah, WAH_LONG_BODY, WAH_EMPTY_BODY, ZV_WAH_MOST_SUM_WORDS(LONG_ROWS, ZV_MOST_COLUMN - 1u));
    printf("ok\n");
    return 0;
}
