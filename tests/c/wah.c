/*
 * Every call in WAH, and rewriting from either format to either, through include/zvonurel.h: bodies alone, indexes of
 * four, eight and forty rows, and a refusal of each number that there is in WAH. The words were worked out by hand.
 * Writes `ok`, or the first difference, with exit status 1.
 *
 *   gcc -std=c99 -Wall -Wextra -Werror -pedantic -Iinclude tests/c/wah.c \
 *       target/staticlib/libzvonurel_c.a -o target/wah && target/wah
 */
#include "answers.h"

static const uint32_t looped[] = {2, 4, 3, 9, 1, 10, 1, 11, 1, 0x3, 0xE, 0x8};
static const uint32_t looped_ewah[] = {1, 4, 3, 9, 2, 11, 2, 13, 2, 0x00020000, 0x3, 0x00020000, 0xE, 0x00020000, 0x8};
static const uint32_t eight[] = {2, 8, 2, 7, 1, 8, 1, 0x32, 0xB0};
static const uint32_t forty[] = {0x00000001, 0x00000100};
static const uint32_t none[1]; /* lent where no word is */

/* 40 rows, of which 0 and 39 are set: 39 is row 8 of the second segment */
static void one_body(void)
{
    static const uint32_t plain[] = {0x00000001, 0x00000080};
    static const uint32_t over[] = {0x00000001, 0x00000100};

    FINE(zv_wah_check_body(WORDS(forty), 40));
    FLAGGED(zv_wah_body_row(WORDS(forty), 40, 39), 1, 31, 39);
    FLAGGED(zv_wah_body_row(WORDS(forty), 40, 38), 0, 31, 39);
    NOT_FLAGGED(zv_wah_body_row(WORDS(forty), 40, 40), ZV_BAD_ARGUMENT, 0, 0);
    FINE(zv_wah_body_count(WORDS(forty), 40));
    SAME("the count", zv_wah_body_count(WORDS(forty), 40).value, 2);
    FINE(zv_wah_body_nth(WORDS(forty), 40, 1));
    SAME("set row 1", zv_wah_body_nth(WORDS(forty), 40, 1).value, 39);
    REFUSED(zv_wah_body_nth(WORDS(forty), 40, 2), ZV_BAD_ARGUMENT, 0, 0);

    WROTE(zv_wah_expand(WORDS(forty), 40, WORDS(out)), plain);
    NOT_WRITTEN(zv_wah_expand(WORDS(forty), 40, out, 1), ZV_NO_ROOM, 0, 2);
    WROTE(zv_wah_compress(40, WORDS(plain), WORDS(out)), forty);
    NOT_WRITTEN(zv_wah_compress(40, WORDS(plain), out, 1), ZV_NO_ROOM, 0, 2);
    NOT_WRITTEN(zv_wah_compress(40, WORDS(over), WORDS(out)), ZV_PAD_BIT, 0, 1);
    NOT_WRITTEN(zv_wah_compress(65, WORDS(plain), WORDS(out)), ZV_BAD_ARGUMENT, 0, 0);
    NOT_WRITTEN(zv_wah_compress(ZV_MOST_ROWS + 1, WORDS(plain), WORDS(out)), ZV_TOO_LARGE, 0, 1);
    /* 63 rows are three segments and two plain words */
    NOT_WRITTEN(zv_wah_compress(63, WORDS(plain), out, 0), ZV_NO_ROOM, 0, 3);
}

/* every call on a body alone is refused for the body's own fault, before its argument and its buffer are looked at */
static void every_body_call(source at, const uint32_t *body, size_t words, uint32_t rows, uint32_t n, uint64_t w)
{
    const zv_checked checked = zv_wah_check_body(body, words, rows);
    const zv_number count = zv_wah_body_count(body, words, rows), nth = zv_wah_body_nth(body, words, rows, rows);

    refusal(at, checked.number, checked.bitmap, checked.word, n, 0, w);
    flagged(at, zv_wah_body_row(body, words, rows, rows), 0, 0, 0, n, 0, w);
    flagged(at, zv_wah_body_row(body, words, rows, 0), 0, 0, 0, n, 0, w);
    refusal(at, count.number, count.bitmap, count.word, n, 0, w);
    same(at, "a refused count", count.value, 0);
    refusal(at, nth.number, nth.bitmap, nth.word, n, 0, w);
    same(at, "a refused set row", nth.value, 0);
    for (size_t room = 0; room <= sizeof(out) / sizeof(out[0]); room += sizeof(out) / sizeof(out[0])) {
        not_written(at, zv_wah_expand(body, words, rows, out, room), n, 0, w);
        not_written(at, zv_wah_body_to_ewah(body, words, rows, out, room), n, 0, w);
        not_written(at, zv_wah_body_to_wah(body, words, rows, out, room), n, 0, w);
    }
}

#define FAULTY(body, rows, n, w) every_body_call(HERE, WORDS(body), rows, n, w)

/* a fill of no segments is 10, whether any are left or not; a word past the segments left is 6; then a pad bit is 7 */
static void corners(void)
{
    static const uint32_t no_fill[] = {0x80000000}, no_fill_of_ones[] = {0xC0000000}, literal[] = {0x00000000},
                          fill_and_none[] = {0x80000002, 0x80000000}, fill_and_literal[] = {0x80000002, 0x7FFFFFFF},
                          fill[] = {0x80000003}, literal_and_fill[] = {0x00000001, 0xC0000002},
                          longest[] = {0xFFFFFFFF}, ones[] = {0x7FFFFFFF, 0x7FFFFFFF},
                          tail[] = {0x7FFFFFFF, 0x000001FF}, pad_bit[] = {0x7FFFFFFF, 0x00000200};

    FAULTY(forty, ZV_MOST_ROWS + 1, ZV_TOO_LARGE, 1);
    FAULTY(no_fill, 62, ZV_NO_SEGMENTS, 0);
    FAULTY(no_fill, 0, ZV_NO_SEGMENTS, 0);
    FAULTY(no_fill_of_ones, 62, ZV_NO_SEGMENTS, 0);
    FAULTY(fill_and_none, 62, ZV_NO_SEGMENTS, 1);
    FAULTY(fill_and_none, 124, ZV_NO_SEGMENTS, 1);
    FAULTY(literal, 0, ZV_BAD_COUNT, 0);
    FAULTY(fill_and_literal, 62, ZV_BAD_COUNT, 1);
    FAULTY(fill_and_literal, 40, ZV_BAD_COUNT, 1);
    FAULTY(fill, 62, ZV_BAD_COUNT, 0);
    FAULTY(literal_and_fill, 62, ZV_BAD_COUNT, 1);
    FAULTY(longest, ZV_MOST_ROWS, ZV_BAD_COUNT, 0);
    FAULTY(ones, 63, ZV_BAD_COUNT, 2);
    every_body_call(HERE, none, 0, 1, ZV_BAD_COUNT, 0);
    FAULTY(ones, 40, ZV_PAD_BIT, 1);
    FAULTY(pad_bit, 40, ZV_PAD_BIT, 1);

    FINE(zv_wah_check_body(WORDS(ones), 62));
    FINE(zv_wah_check_body(WORDS(tail), 40));
    FINE(zv_wah_check_body(WORDS(fill), 63));
    FINE(zv_wah_check_body(none, 0, 0));
}

/* 40 rows, all of them set: a fill of ones over the last segment means its real rows */
static void full_tail(void)
{
    static const uint32_t fill[] = {0xC0000002};

    FLAGGED(zv_wah_body_row(WORDS(fill), 40, 39), 1, 0, 39);
    NOT_FLAGGED(zv_wah_body_row(WORDS(fill), 40, 40), ZV_BAD_ARGUMENT, 0, 0);
    FINE(zv_wah_body_count(WORDS(fill), 40));
    SAME("the count", zv_wah_body_count(WORDS(fill), 40).value, 40);
    FINE(zv_wah_body_nth(WORDS(fill), 40, 39));
    SAME("set row 39", zv_wah_body_nth(WORDS(fill), 40, 39).value, 39);
    REFUSED(zv_wah_body_nth(WORDS(fill), 40, 40), ZV_BAD_ARGUMENT, 0, 0);
}

/* the pieces of sound bodies, canonical and wasteful: each word is one */
static void pieces(void)
{
    static const uint32_t one[] = {0x00000001}, one_fill[] = {0x80000001}, all[] = {0xC0000002},
                          literals[] = {0x7FFFFFFF, 0x000001FF}, cut[] = {0x80000001, 0x80000001},
                          before[] = {0x00000000, 0x80000002}, behind[] = {0xC0000002, 0x7FFFFFFF, 0x00000005};
    static const piece of_one[] = {{0, 1}}, of_one_fill[] = {{30, 0}}, of_forty[] = {{30, 0x1}, {39, 0x100}},
                       of_all[] = {{39, ~0u}}, of_literals[] = {{30, ~0u}, {39, 0x1FF}}, of_cut[] = {{30, 0}, {61, 0}},
                       of_before[] = {{30, 0}, {91, 0}}, of_behind[] = {{61, ~0u}, {92, ~0u}, {95, 0x5}};

    PIECES(zv_wah_body_row, one, 1, of_one);
    PIECES(zv_wah_body_row, one_fill, 31, of_one_fill);
    PIECES(zv_wah_body_row, forty, 40, of_forty);
    PIECES(zv_wah_body_row, all, 40, of_all);
    PIECES(zv_wah_body_row, literals, 40, of_literals);
    PIECES(zv_wah_body_row, cut, 62, of_cut);
    PIECES(zv_wah_body_row, before, 92, of_before);
    PIECES(zv_wah_body_row, behind, 96, of_behind);
}

/* one fill counts more segments than a marker does; in the second bitmap of an index rows 5 and 64 are set */
static void long_pieces(void)
{
    static const uint32_t none_set[] = {0x80010843}, two[] = {0xC0084210, 0xC0000001},
                          index[] = {2, 96, 3, 9, 1, 10, 4, 14, 1, 0x80000004, 0x20, 0x80000001, 0x4, 0, 0xC0000004};
    static const piece of_none_set[] = {{2097151, 0}}, of_two[] = {{16777199, ~0u}, {16777215, ~0u}},
                       of_first[] = {{95, 0}}, of_second[] = {{30, 0x20}, {61, 0}, {92, 0x4}, {95, 0}},
                       of_third[] = {{95, ~0u}};

    PIECES(zv_wah_body_row, none_set, 2097152, of_none_set);
    PIECES(zv_wah_body_row, two, 16777216, of_two);
    PIECES(zv_row, index, 0, of_first);
    PIECES(zv_row, index, 1, of_second);
    PIECES(zv_row, index, 2, of_third);
}

/* the same rows as plain words and as the canonical body of each format */
typedef struct {
    uint32_t rows;
    size_t plain_words, ewah_words, wah_words;
    uint32_t plain[4], ewah[9], wah[4];
} spelled;

static void from_each_to_each(const spelled *s)
{
    wrote(HERE, zv_body_to_ewah(s->ewah, s->ewah_words, s->rows, WORDS(out)), s->ewah, s->ewah_words);
    wrote(HERE, zv_body_to_wah(s->ewah, s->ewah_words, s->rows, WORDS(out)), s->wah, s->wah_words);
    wrote(HERE, zv_wah_body_to_ewah(s->wah, s->wah_words, s->rows, WORDS(out)), s->ewah, s->ewah_words);
    wrote(HERE, zv_wah_body_to_wah(s->wah, s->wah_words, s->rows, WORDS(out)), s->wah, s->wah_words);
    if (s->plain_words == ZV_SEGMENTS(s->rows)) {
        wrote(HERE, zv_wah_expand(s->wah, s->wah_words, s->rows, WORDS(out)), s->plain, s->plain_words);
        wrote(HERE, zv_wah_compress(s->rows, s->plain, s->plain_words, WORDS(out)), s->wah, s->wah_words);
    }
    if (s->wah_words > 0) {
        NOT_WRITTEN(zv_body_to_ewah(s->ewah, s->ewah_words, s->rows, out, s->ewah_words - 1), 9, 0, s->ewah_words);
        NOT_WRITTEN(zv_body_to_wah(s->ewah, s->ewah_words, s->rows, out, s->wah_words - 1), 9, 0, s->wah_words);
        NOT_WRITTEN(zv_wah_body_to_ewah(s->wah, s->wah_words, s->rows, out, s->ewah_words - 1), 9, 0, s->ewah_words);
        NOT_WRITTEN(zv_wah_body_to_wah(s->wah, s->wah_words, s->rows, out, s->wah_words - 1), 9, 0, s->wah_words);
    }
}

static void rewriting(void)
{
    static const spelled known[] = {
        {0, 0, 0, 0, {0}, {0}, {0}},
        {9, 1, 1, 1, {0x1FF}, {0x00000003}, {0x000001FF}},
        {31, 1, 1, 1, {0x7FFFFFFF}, {0x00000003}, {0x7FFFFFFF}},
        {31, 1, 1, 1, {0}, {0x00000002}, {0x00000000}},
        /* the last row alone in its segment, as the rows before it are, and not */
        {32, 1, 1, 1, {0xFFFFFFFF}, {0x00000003}, {0xC0000002}},
        {32, 1, 2, 2, {0x7FFFFFFF}, {0x00020000, 0x7FFFFFFF}, {0x7FFFFFFF, 0x00000000}},
        {62, 2, 1, 1, {0, 0}, {0x00000004}, {0x80000002}},
        {64, 2, 1, 1, {0, 0}, {0x00000004}, {0x80000003}},
        {40, 2, 1, 1, {0xFFFFFFFF, 0xFF}, {0x00000005}, {0xC0000002}},
        {40, 2, 3, 2, {0x1, 0x80}, {0x00040000, 0x1, 0x80}, {0x00000001, 0x00000100}},
        /* rows 31 to 92 of 93 */
        {93, 3, 3, 2, {0x80000000, 0xFFFFFFFF, 0x1FFFFFFF}, {0x00020000, 0x80000000, 0x00000005}, {0, 0xC0000002}},
        /* rows 5 and 64 */
        {96, 3, 4, 4, {0x20, 0, 0x1}, {0x00020000, 0x20, 0x00020002, 0x1}, {0x20, 0, 0x4, 0}},
        {2097152, 0, 2, 1, {0}, {0x0001FFFE, 0x2}, {0x80010843}},
        {16777216, 0, 9, 1, {0},
         {0x1FFFE, 0x1FFFE, 0x1FFFE, 0x1FFFE, 0x1FFFE, 0x1FFFE, 0x1FFFE, 0x1FFFE, 0x10}, {0x80084211}},
    };

    for (size_t i = 0; i < sizeof(known) / sizeof(known[0]); i++) {
        from_each_to_each(&known[i]);
    }
}

/* what is sound and wasteful is rewritten to the form with the fewest words, also from WAH to WAH */
static void wasteful(void)
{
    static const uint32_t cut[] = {0x80000001, 0x80000001}, two[] = {0x80000002}, ones[] = {0xC0000001},
                          full[] = {0x7FFFFFFF}, tail[] = {0x000001FF}, before[] = {0x00000000, 0x80000002},
                          behind[] = {0x80000002, 0x00000000}, run[] = {0x80000003}, filled[] = {0xC0000002},
                          literals[] = {0x7FFFFFFF, 0x000001FF}, clean[] = {0x00000005},
                          dirty[] = {0x00020003, 0x000000FF}, too_many[] = {0x00040000, 0x00000001};

    WROTE(zv_wah_body_to_wah(WORDS(cut), 62, WORDS(out)), two);
    WROTE(zv_wah_body_to_wah(WORDS(ones), 31, WORDS(out)), full);
    WROTE(zv_wah_body_to_wah(WORDS(ones), 9, WORDS(out)), tail);
    /* a clean literal is one with the fill behind it or before it */
    WROTE(zv_wah_body_to_wah(WORDS(before), 93, WORDS(out)), run);
    WROTE(zv_wah_body_to_wah(WORDS(behind), 93, WORDS(out)), run);
    WROTE(zv_wah_body_to_wah(WORDS(literals), 40, WORDS(out)), filled);
    WROTE(zv_wah_body_to_ewah(WORDS(literals), 40, WORDS(out)), clean);
    WROTE(zv_body_to_wah(WORDS(dirty), 40, WORDS(out)), filled);
    WROTE(zv_body_to_ewah(WORDS(dirty), 40, WORDS(out)), clean);

    NOT_WRITTEN(zv_body_to_ewah(WORDS(too_many), 40, out, 0), ZV_DIRTY_PAST_END, 0, 0);
    NOT_WRITTEN(zv_body_to_wah(WORDS(too_many), 40, out, 0), ZV_DIRTY_PAST_END, 0, 0);
    NOT_WRITTEN(zv_body_to_ewah(WORDS(clean), ZV_MOST_ROWS + 1, WORDS(out)), ZV_TOO_LARGE, 0, 1);
    NOT_WRITTEN(zv_body_to_wah(WORDS(clean), ZV_MOST_ROWS + 1, WORDS(out)), ZV_TOO_LARGE, 0, 1);
}

static void one_index(void)
{
    one_bitmap(WORDS(looped), 10, 1);
    FINE(zv_wah_check_body(looped + 10, 1, looped[1]));
}

/* each fault of an index, by one word of it changed, or by its length. As an index in EWAH, which word 0 then says,
 * its second body is a marker of seven clean segments. */
static void bad_indexes(void)
{
    static const fault faults[] = {
        {0, 2, 0, ZV_TOO_SHORT, 0, 0},
        {0, 2, 8, ZV_TOO_SHORT, 0, 8},
        {0, 3, 12, ZV_NOT_AN_INDEX, 0, 0},
        {0, ZV_INDEX_KIND, 12, ZV_BAD_COUNT, 1, 10},
        {1, ZV_MOST_ROWS + 1, 12, ZV_TOO_LARGE, 0, 1},
        {2, ZV_MOST_BITMAPS + 1, 12, ZV_TOO_LARGE, 0, 2},
        {5, 11, 12, ZV_BAD_CONTENTS, 1, 5},
        {8, 2, 12, ZV_BAD_CONTENTS, 2, 8},
        {8, 0, 12, ZV_BAD_CONTENTS, 0, 11},
        {10, 0x80000000, 12, ZV_NO_SEGMENTS, 1, 10},
        {10, 0x80000002, 12, ZV_BAD_COUNT, 1, 10},
        {10, 0x1E, 12, ZV_PAD_BIT, 1, 10},
        /* 32 rows: a second segment, which the first body has not */
        {1, 32, 12, ZV_BAD_COUNT, 0, 10},
    };

    every_fault(WORDS(looped), WORDS(faults));
}

/* an index and its bitmaps, from either format to either */
static void indexes_rewritten(void)
{
    static const uint32_t body[] = {0xE}, ewah_body[] = {0x00020000, 0xE};
    static const uint32_t empty[] = {2, 7, 0}, empty_ewah[] = {1, 7, 0};
    /* 62 rows: all clear as two fills, all set as two literals */
    static const uint32_t cut[] = {2, 62, 2, 7, 2, 9, 2, 0x80000001, 0x80000001, 0x7FFFFFFF, 0x7FFFFFFF},
                          joined[] = {2, 62, 2, 7, 1, 8, 1, 0x80000002, 0xC0000002},
                          joined_ewah[] = {1, 62, 2, 7, 1, 8, 1, 0x00000004, 0x00000005};

    WROTE(zv_bitmap_to_ewah(WORDS(looped), 1, WORDS(out)), ewah_body);
    WROTE(zv_bitmap_to_wah(WORDS(looped), 1, WORDS(out)), body);
    WROTE(zv_bitmap_to_ewah(WORDS(looped_ewah), 1, WORDS(out)), ewah_body);
    WROTE(zv_bitmap_to_wah(WORDS(looped_ewah), 1, WORDS(out)), body);
    NOT_WRITTEN(zv_bitmap_to_ewah(WORDS(looped), 1, out, 1), ZV_NO_ROOM, 0, 2);
    NOT_WRITTEN(zv_bitmap_to_wah(WORDS(looped_ewah), 1, out, 0), ZV_NO_ROOM, 0, 1);
    NOT_WRITTEN(zv_bitmap_to_ewah(WORDS(looped), 3, out, 0), ZV_BAD_ARGUMENT, 0, 0);
    NOT_WRITTEN(zv_bitmap_to_wah(WORDS(looped_ewah), 3, out, 0), ZV_BAD_ARGUMENT, 0, 0);

    WROTE(zv_index_to_ewah(WORDS(looped), WORDS(out)), looped_ewah);
    WROTE(zv_index_to_wah(WORDS(looped), WORDS(out)), looped);
    WROTE(zv_index_to_ewah(WORDS(looped_ewah), WORDS(out)), looped_ewah);
    WROTE(zv_index_to_wah(WORDS(looped_ewah), WORDS(out)), looped);
    WROTE(zv_index_to_wah(WORDS(cut), WORDS(out)), joined);
    WROTE(zv_index_to_ewah(WORDS(cut), WORDS(out)), joined_ewah);
    WROTE(zv_index_to_wah(WORDS(joined_ewah), WORDS(out)), joined);
    WROTE(zv_index_to_wah(WORDS(empty_ewah), WORDS(out)), empty);
    WROTE(zv_index_to_ewah(WORDS(empty), WORDS(out)), empty_ewah);
    NOT_WRITTEN(zv_index_to_ewah(WORDS(looped), out, 14), ZV_NO_ROOM, 0, 15);
    NOT_WRITTEN(zv_index_to_wah(WORDS(looped_ewah), out, 0), ZV_NO_ROOM, 0, 12);
}

/* 32 and B0 of 8 rows: a word each, and so is each answer */
static void two_bitmaps(void)
{
    static const uint32_t both[] = {0x30}, any[] = {0xB2}, one[] = {0x82}, first[] = {0x02}, not_first[] = {0xCD};

    WROTE(zv_and(WORDS(eight), 0, 1, WORDS(out)), both);
    WROTE(zv_or(WORDS(eight), 0, 1, WORDS(out)), any);
    WROTE(zv_xor(WORDS(eight), 0, 1, WORDS(out)), one);
    WROTE(zv_and_not(WORDS(eight), 0, 1, WORDS(out)), first);
    WROTE(zv_not(WORDS(eight), 0, WORDS(out)), not_first);
    NOT_WRITTEN(zv_and(WORDS(eight), 0, 2, WORDS(out)), ZV_BAD_ARGUMENT, 0, 0);
    NOT_WRITTEN(zv_xor(WORDS(eight), 0, 1, out, 0), ZV_NO_ROOM, 0, 1);
    NOT_WRITTEN(zv_not(WORDS(eight), 2, WORDS(out)), ZV_BAD_ARGUMENT, 0, 0);
}

static void lists(void)
{
    static const uint32_t two[] = {0xA}, exactly_one[] = {0x5}, table[] = {0, 1, 0, 0};
    static const uint32_t counts[ZV_HISTOGRAM_COUNTS] = {0, 2, 2};
    /* 124 rows: 0 to 61 set, none, and row 62 */
    static const uint32_t pieces[] = {2, 124, 3, 9, 2, 11, 1, 12, 4, 0xC0000002, 0x80000002, 0x80000004, 0, 0, 1, 0};
    static const uint32_t any[] = {0xC0000002, 0x00000001, 0x00000000}, all[] = {0x80000004}, fills[] = {0, 1},
                          first[] = {0xC0000002, 0x80000002};

    ANSWERED(zv_threshold(WORDS(looped), WORDS(three), 2, WORDS(out)), two, 1);
    NOT_ANSWERED(zv_threshold(WORDS(looped), WORDS(three), 4, WORDS(out)), ZV_BAD_ARGUMENT, 0, 0);
    NOT_ANSWERED(zv_threshold(WORDS(looped), WORDS(three), 2, out, 0), ZV_NO_ROOM, 0, 1);
    ANSWERED(zv_symmetric(WORDS(looped), WORDS(three), WORDS(table), WORDS(out)), exactly_one, 1);
    NOT_ANSWERED(zv_symmetric(WORDS(looped), WORDS(three), table, 3, WORDS(out)), ZV_BAD_ARGUMENT, 0, 0);
    COUNTED(zv_histogram(WORDS(looped), WORDS(three)), counts, 0, 0, 0);
    COUNTED(zv_histogram(WORDS(looped), three, 0), zeros, ZV_BAD_ARGUMENT, 0, 0);
    /* each word is a piece: those of the first two end at segments 1 and 3, the third's at each one */
    ANSWERED(zv_threshold(WORDS(pieces), WORDS(three), 1, WORDS(out)), any, 4);
    ANSWERED(zv_threshold(WORDS(pieces), WORDS(three), 3, WORDS(out)), all, 4);
    ANSWERED(zv_threshold(WORDS(pieces), WORDS(fills), 1, WORDS(out)), first, 2);
}

/* Eight rows. In the column of bitmaps 0, 1 and 2 rows 0 to 3 exist and have the values 1, 2, 3 and 0; in that of 3
 * and 4 rows 1 to 4 exist and have 1, 1, 0 and 1. Bitmap 5 has rows 0 and 5. */
static const uint32_t columns[] = {2, 8, 6, 15, 1, 16, 1, 17, 1, 18, 1, 19, 1, 20, 1,
                                   0x0F, 0x05, 0x06, 0x1E, 0x16, 0x21};
static const uint32_t low[] = {0, 1, 2}, high[] = {3, 4}, stray[] = {0, 5};

/* a sum is an index in WAH too */
static void sums(void)
{
    static const uint32_t sum[] = {2, 8, 4, 11, 1, 12, 1, 13, 1, 14, 1, 0x0E, 0x02, 0x02, 0x04},
                          twice[] = {2, 8, 4, 11, 1, 12, 1, 13, 1, 14, 1, 0x0F, 0x00, 0x05, 0x06},
                          no_rows[] = {2, 0, 1, 5, 0}, no_sum[] = {2, 0, 3, 9, 0, 9, 0, 9, 0};
    static const uint32_t added[] = {0, 1, 2, 3}, only[] = {0, 0}, no_bitmap[] = {0, 6}, most[ZV_MOST_COLUMN];
    zv_written told;

    VALUED(zv_value(WORDS(columns), WORDS(low), 2), 3, 0, 0, 0);
    VALUED(zv_value(WORDS(columns), WORDS(low), 4), 0, ZV_BAD_ARGUMENT, 0, 0);
    VALUED(zv_value(WORDS(columns), WORDS(stray), 1), 0, ZV_STRAY_ROW, 5, 5);
    WROTE(zv_sum(WORDS(columns), WORDS(low), WORDS(high), WORDS(out)), sum);
    WROTE(zv_sum(WORDS(columns), WORDS(low), WORDS(low), WORDS(out)), twice);
    WROTE(zv_sum(WORDS(no_rows), WORDS(only), WORDS(only), WORDS(out)), no_sum);
    VALUED(zv_value(WORDS(sum), WORDS(added), 2), 4, 0, 0, 0);
    NOT_WRITTEN(zv_sum(WORDS(columns), WORDS(low), WORDS(high), out, 14), ZV_NO_ROOM, 0, 15);
    NOT_WRITTEN(zv_sum(WORDS(columns), WORDS(stray), WORDS(no_bitmap), out, 0), ZV_BAD_ARGUMENT, 0, 0);
    NOT_WRITTEN(zv_sum(WORDS(columns), WORDS(stray), WORDS(high), out, 0), ZV_STRAY_ROW, 5, 5);

    told = zv_sum(WORDS(columns), WORDS(most), WORDS(most), WORDS(out));
    FINE(told);
    SAME("the words of the widest sum", told.words, ZV_WAH_MOST_SUM_WORDS(8, ZV_MOST_COLUMN - 1));
    SAME("the word behind it", out[told.words], UNTOUCHED);
    SAME("its kind", out[0], ZV_WAH_INDEX_KIND);
    clear();
}

/* and so is whatever else is made of two columns: rows 1 to 3 have 2 and 1, 3 and 1, 0 and 0 */
static void differences(void)
{
    static const uint32_t above[] = {2, 8, 4, 11, 1, 12, 1, 13, 1, 14, 1, 0x0E, 0x02, 0x04, 0x00},
                          below[] = {2, 8, 4, 11, 1, 12, 1, 13, 1, 14, 1, 0x0E, 0x02, 0x06, 0x06},
                          smaller[] = {2, 8, 3, 9, 1, 10, 1, 11, 1, 0x0E, 0x06, 0x00},
                          or_zero[] = {2, 8, 3, 9, 1, 10, 1, 11, 1, 0x0E, 0x02, 0x04},
                          zero[] = {2, 8, 3, 9, 1, 10, 1, 11, 1, 0x0E, 0x00, 0x00};
    static const uint32_t made[] = {0, 1, 2, 3};

    SIGNED_VALUED(zv_signed_value(WORDS(columns), WORDS(low), 1), -2);
    NOT_SIGNED_VALUED(zv_signed_value(WORDS(columns), WORDS(low), 4), ZV_BAD_ARGUMENT, 0, 0);
    NOT_SIGNED_VALUED(zv_signed_value(WORDS(columns), WORDS(stray), 1), ZV_STRAY_ROW, 5, 5);
    WROTE(zv_signed_difference(WORDS(columns), WORDS(low), WORDS(high), WORDS(out)), above);
    WROTE(zv_signed_difference(WORDS(columns), WORDS(high), WORDS(low), WORDS(out)), below);
    WROTE(zv_smaller(WORDS(columns), WORDS(low), WORDS(high), WORDS(out)), smaller);
    WROTE(zv_difference_or_zero(WORDS(columns), WORDS(low), WORDS(high), WORDS(out)), or_zero);
    WROTE(zv_difference_or_zero(WORDS(columns), WORDS(high), WORDS(low), WORDS(out)), zero);
    SIGNED_VALUED(zv_signed_value(WORDS(below), WORDS(made), 1), -1);
    SIGNED_VALUED(zv_signed_value(WORDS(below), WORDS(made), 2), -2);
    NOT_WRITTEN(zv_signed_difference(WORDS(columns), WORDS(low), WORDS(high), out, 14), ZV_NO_ROOM, 0, 15);
    NOT_WRITTEN(zv_smaller(WORDS(columns), WORDS(low), WORDS(high), out, 11), ZV_NO_ROOM, 0, 12);
    NOT_WRITTEN(zv_difference_or_zero(WORDS(columns), WORDS(stray), WORDS(high), out, 0), ZV_STRAY_ROW, 5, 5);
}

/* the first rows of a column are a body in WAH */
static void first_rows(void)
{
    static const struct {
        first_rows_call *call;
        const uint32_t *column;
        size_t numbers;
        uint32_t rows[5];
    } known[] = {
        {zv_largest, WORDS(low), {0, 0x04, 0x06, 0x07, 0x0F}},
        {zv_smallest, WORDS(low), {0, 0x08, 0x09, 0x0B, 0x0F}},
        {zv_largest, WORDS(high), {0, 0x02, 0x06, 0x16, 0x1E}},
        {zv_smallest, WORDS(high), {0, 0x08, 0x0A, 0x0E, 0x1E}},
    };

    for (size_t i = 0; i < sizeof(known) / sizeof(known[0]); i++) {
        for (uint32_t k = 0; k < 5; k++) {
            takes(HERE, known[i].call, WORDS(columns), known[i].column, known[i].numbers, k, &known[i].rows[k], 1);
        }
    }
}

/* Forty rows. Bitmap 0 has all of them, bitmap 1 none, bitmap 2 rows 31 to 39, and bitmap 3 all in two literals. */
static const uint32_t tail[] = {2, 40, 4, 11, 1, 12, 1, 13, 2, 15, 2,
                                0xC0000002, 0x80000002, 0x00000000, 0x000001FF, 0x7FFFFFFF, 0x000001FF};

/* equal values, cut at a segment's end and beside it */
static void cut_rows(first_rows_call *call)
{
    static const uint32_t lists[][2] = {{0, 0}, {0, 1}, {3, 0}, {3, 1}, {3, 3}};
    static const uint32_t no_row[] = {0x80000002}, one[] = {0x1, 0x0}, less[] = {0x3FFFFFFF, 0x0},
                          segment[] = {0x7FFFFFFF, 0x0}, more[] = {0x7FFFFFFF, 0x1}, but_one[] = {0x7FFFFFFF, 0xFF},
                          all[] = {0xC0000002};

    for (size_t i = 0; i < sizeof(lists) / sizeof(lists[0]); i++) {
        TAKES(call, tail, lists[i], 0, no_row);
        TAKES(call, tail, lists[i], 1, one);
        TAKES(call, tail, lists[i], 30, less);
        TAKES(call, tail, lists[i], 31, segment);
        TAKES(call, tail, lists[i], 32, more);
        TAKES(call, tail, lists[i], 39, but_one);
        TAKES(call, tail, lists[i], 40, all);
        NOT_WRITTEN(call(WORDS(tail), WORDS(lists[i]), 41, WORDS(out)), ZV_BAD_ARGUMENT, 0, 0);
        NOT_WRITTEN(call(WORDS(tail), WORDS(lists[i]), 62, WORDS(out)), ZV_BAD_ARGUMENT, 0, 0);
    }
}

/* rows 31 to 39 have 1, and the others 0: a clean segment alone is a literal */
static void last_rows(void)
{
    static const uint32_t column[] = {0, 2};
    static const uint32_t eight_rows[] = {0x0, 0xFF}, nine[] = {0x0, 0x1FF}, ten[] = {0x1, 0x1FF},
                          but_one[] = {0x3FFFFFFF, 0x1FF}, all[] = {0xC0000002}, low_rows[] = {0xFF, 0x0},
                          others[] = {0x7FFFFFFF, 0x0}, one_more[] = {0x7FFFFFFF, 0x1};

    TAKES(zv_largest, tail, column, 8, eight_rows);
    TAKES(zv_largest, tail, column, 9, nine);
    TAKES(zv_largest, tail, column, 10, ten);
    TAKES(zv_largest, tail, column, 39, but_one);
    TAKES(zv_largest, tail, column, 40, all);
    TAKES(zv_smallest, tail, column, 8, low_rows);
    TAKES(zv_smallest, tail, column, 31, others);
    TAKES(zv_smallest, tail, column, 32, one_more);
    TAKES(zv_smallest, tail, column, 40, all);
}

static void bad_first_rows(first_rows_call *call)
{
    static const uint32_t one[] = {0}, no_bitmap[] = {0, 6}, no_rows[] = {2, 0, 1, 5, 0}, only[] = {0, 0};
    static const uint32_t one_more[ZV_MOST_COLUMN + 1u];

    NOT_WRITTEN(call(WORDS(columns), WORDS(one), 0, WORDS(out)), ZV_BAD_ARGUMENT, 0, 0);
    NOT_WRITTEN(call(WORDS(columns), WORDS(one_more), 0, WORDS(out)), ZV_BAD_ARGUMENT, 0, 0);
    NOT_WRITTEN(call(WORDS(columns), WORDS(no_bitmap), 0, WORDS(out)), ZV_BAD_ARGUMENT, 0, 0);
    NOT_WRITTEN(call(WORDS(columns), WORDS(low), 5, WORDS(out)), ZV_BAD_ARGUMENT, 0, 0);
    NOT_WRITTEN(call(WORDS(columns), WORDS(stray), 5, out, 0), ZV_BAD_ARGUMENT, 0, 0);
    NOT_WRITTEN(call(WORDS(columns), WORDS(stray), 4, out, 0), ZV_STRAY_ROW, 5, 5);
    NOT_WRITTEN(call(WORDS(columns), WORDS(stray), 0, WORDS(out)), ZV_STRAY_ROW, 5, 5);
    NOT_WRITTEN(call(WORDS(columns), WORDS(low), 4, out, 0), ZV_NO_ROOM, 0, 1);
    takes(HERE, call, WORDS(no_rows), WORDS(only), 0, none, 0);
    NOT_WRITTEN(call(WORDS(no_rows), WORDS(only), 1, WORDS(out)), ZV_BAD_ARGUMENT, 0, 0);
}

int main(void)
{
    clear();
    one_body();
    corners();
    full_tail();
    pieces();
    long_pieces();
    rewriting();
    wasteful();
    one_index();
    bad_indexes();
    indexes_rewritten();
    two_bitmaps();
    lists();
    sums();
    differences();
    first_rows();
    last_rows();
    for (size_t i = 0; i < sizeof(first_rows_calls) / sizeof(first_rows_calls[0]); i++) {
        cut_rows(first_rows_calls[i]);
        bad_first_rows(first_rows_calls[i]);
    }
    printf("ok\n");
    return 0;
}
