/*
 * Every call but a writer's, which writing.c has, on an index of four rows, two of eight and one of forty, and a
 * refusal of each of their numbers, through include/zvonurel.h. Writes `ok`, or the first difference, with exit
 * status 1.
 *
 *   gcc -std=c99 -Wall -Wextra -Werror -pedantic -Iinclude tests/c/readings.c \
 *       target/staticlib/libzvonurel_c.a -o target/readings && target/readings
 */
#include "answers.h"

static const uint32_t looped[] = {1, 4, 3, 9, 2, 11, 2, 13, 2, 0x00020000, 0x3, 0x00020000, 0xE, 0x00020000, 0x8};
static const uint32_t eight[] = {1, 8, 2, 7, 2, 9, 2, 0x00020000, 0x32, 0x00020000, 0xB0};
static const uint32_t forty[] = {0x00040000, 0x00000001, 0x00000080};

/* 40 rows, of which 0 and 39 are set */
static void one_body(void)
{
    static const uint32_t plain[] = {0x00000001, 0x00000080};
    static const uint32_t over[] = {0x00000001, 0x00000100};
    static const uint32_t pad_bit[] = {0x00020003, 0x000001FF};
    static const uint32_t too_many_dirty[] = {0x00040000, 1};
    static const uint32_t too_many_clean[] = {0x00000006};
    static const uint32_t too_few[] = {0x00000002};

    FINE(zv_check_body(WORDS(forty), 40));
    REFUSED(zv_check_body(WORDS(forty), ZV_MOST_ROWS + 1), ZV_TOO_LARGE, 0, 1);
    REFUSED(zv_check_body(WORDS(too_many_dirty), 40), ZV_DIRTY_PAST_END, 0, 0);
    REFUSED(zv_check_body(WORDS(too_many_clean), 40), ZV_BAD_COUNT, 0, 0);
    REFUSED(zv_check_body(WORDS(too_few), 40), ZV_BAD_COUNT, 0, 1);
    REFUSED(zv_check_body(WORDS(pad_bit), 40), ZV_PAD_BIT, 0, 1);

    FLAGGED(zv_body_row(WORDS(forty), 40, 39), 1, 32, 39);
    FLAGGED(zv_body_row(WORDS(forty), 40, 38), 0, 32, 39);
    NOT_FLAGGED(zv_body_row(WORDS(forty), 40, 40), ZV_BAD_ARGUMENT, 0, 0);
    NOT_FLAGGED(zv_body_row(WORDS(forty), ZV_MOST_ROWS + 1, 0), ZV_TOO_LARGE, 0, 1);
    NOT_FLAGGED(zv_body_row(WORDS(too_many_dirty), 40, 39), ZV_DIRTY_PAST_END, 0, 0);
    NOT_FLAGGED(zv_body_row(WORDS(too_many_clean), 40, 39), ZV_BAD_COUNT, 0, 0);
    NOT_FLAGGED(zv_body_row(WORDS(too_few), 40, 0), ZV_BAD_COUNT, 0, 1);
    NOT_FLAGGED(zv_body_row(WORDS(pad_bit), 40, 0), ZV_PAD_BIT, 0, 1);
    FINE(zv_body_count(WORDS(forty), 40));
    SAME("the count", zv_body_count(WORDS(forty), 40).value, 2);
    SAME("a refused count", zv_body_count(WORDS(pad_bit), 40).value, 0);
    FINE(zv_body_nth(WORDS(forty), 40, 1));
    SAME("set row 1", zv_body_nth(WORDS(forty), 40, 1).value, 39);
    REFUSED(zv_body_nth(WORDS(forty), 40, 2), ZV_BAD_ARGUMENT, 0, 0);

    WROTE(zv_expand(WORDS(forty), 40, WORDS(out)), plain);
    NOT_WRITTEN(zv_expand(WORDS(forty), 40, out, 1), ZV_NO_ROOM, 0, 2);
    WROTE(zv_compress(40, WORDS(plain), WORDS(out)), forty);
    NOT_WRITTEN(zv_compress(40, WORDS(plain), out, 2), ZV_NO_ROOM, 0, 3);
    NOT_WRITTEN(zv_compress(40, WORDS(over), WORDS(out)), ZV_PAD_BIT, 0, 1);
    NOT_WRITTEN(zv_compress(65, WORDS(plain), WORDS(out)), ZV_BAD_ARGUMENT, 0, 0);
}

/* 40 rows, all of them set: a run of ones over the last segment means its real rows, and is what is written; a dirty
 * word may say them too */
static void full_tail(void)
{
    static const uint32_t run[] = {0x00000005};
    static const uint32_t word[] = {0x00020003, 0x000000FF};
    static const uint32_t plain[] = {0xFFFFFFFF, 0x000000FF};

    FINE(zv_check_body(WORDS(run), 40));
    FLAGGED(zv_body_row(WORDS(run), 40, 39), 1, 0, 39);
    NOT_FLAGGED(zv_body_row(WORDS(run), 40, 40), ZV_BAD_ARGUMENT, 0, 0);
    FLAGGED(zv_body_row(WORDS(word), 40, 39), 1, 32, 39);
    FINE(zv_body_count(WORDS(run), 40));
    SAME("the count", zv_body_count(WORDS(run), 40).value, 40);
    FINE(zv_body_nth(WORDS(run), 40, 39));
    SAME("set row 39", zv_body_nth(WORDS(run), 40, 39).value, 39);
    REFUSED(zv_body_nth(WORDS(run), 40, 40), ZV_BAD_ARGUMENT, 0, 0);
    WROTE(zv_expand(WORDS(run), 40, WORDS(out)), plain);
    WROTE(zv_expand(WORDS(word), 40, WORDS(out)), plain);
    WROTE(zv_compress(40, WORDS(plain), WORDS(out)), run);
}

/* the pieces of sound bodies, canonical and wasteful */
static void pieces(void)
{
    static const uint32_t one[] = {0x00000002}, one_dirty[] = {0x00020000, 0x1}, all[] = {0x00000005},
                          all_cut[] = {0x00020003, 0x000000FF}, both[] = {0x00060005, 0xFFFFFFFF, 0, 0x1},
                          equal[] = {0x00000003, 0x00000003, 0x00000005},
                          idle[] = {0, 1, 0x00000002, 1, 0, 0x00020000, 0x20, 0, 0x00000002, 0};
    static const piece of_one[] = {{0, 0}}, of_one_dirty[] = {{0, 1}}, of_forty[] = {{31, 0x1}, {39, 0x80}},
                       of_all[] = {{39, ~0u}}, of_all_cut[] = {{31, ~0u}, {39, 0xFF}},
                       of_both[] = {{63, ~0u}, {95, ~0u}, {127, 0}, {131, 0x1}},
                       of_equal[] = {{31, ~0u}, {63, ~0u}, {99, ~0u}}, of_idle[] = {{31, 0}, {63, 0x20}, {95, 0}};

    PIECES(zv_body_row, one, 1, of_one);
    PIECES(zv_body_row, one_dirty, 1, of_one_dirty);
    PIECES(zv_body_row, forty, 40, of_forty);
    /* pad bits are no rows, under a run or in a dirty word */
    PIECES(zv_body_row, all, 40, of_all);
    PIECES(zv_body_row, all_cut, 40, of_all_cut);
    PIECES(zv_body_row, both, 132, of_both);
    /* runs of one value are a piece for each marker, and a marker that counts nothing is none */
    PIECES(zv_body_row, equal, 100, of_equal);
    PIECES(zv_body_row, idle, 96, of_idle);
}

/* a run of more segments than a marker counts is as many pieces as it takes markers; in the second bitmap of an index
 * rows 5 and 64 are set */
static void long_pieces(void)
{
    static const uint32_t two[] = {0x0001FFFE, 0x2},
                          nine[] = {0x1FFFF, 0x1FFFF, 0x1FFFF, 0x1FFFF, 0x1FFFF, 0x1FFFF, 0x1FFFF, 0x1FFFF, 0x11},
                          index[] = {1, 96, 3, 9, 1, 10, 4, 14, 1, 0x6, 0x00020000, 0x20, 0x00020002, 0x1, 0x7};
    static const piece of_two[] = {{2097119, 0}, {2097151, 0}},
                       of_nine[] = {{2097119, ~0u},  {4194239, ~0u},  {6291359, ~0u},  {8388479, ~0u}, {10485599, ~0u},
                                    {12582719, ~0u}, {14679839, ~0u}, {16776959, ~0u}, {16777215, ~0u}},
                       of_first[] = {{95, 0}}, of_second[] = {{31, 0x20}, {63, 0}, {95, 0x1}},
                       of_third[] = {{95, ~0u}};

    PIECES(zv_body_row, two, 2097152, of_two);
    PIECES(zv_body_row, nine, 16777216, of_nine);
    PIECES(zv_row, index, 0, of_first);
    PIECES(zv_row, index, 1, of_second);
    PIECES(zv_row, index, 2, of_third);
}

static void one_index(void)
{
    one_bitmap(WORDS(looped), 11, 2);
}

/* each of an index's faults, by one word of LOOPED changed, or by its length. As an index in WAH, which word 0 then
 * says, its first body begins with a literal that sets row 17 of 4. */
static void bad_indexes(void)
{
    static const fault faults[] = {
        {0, 1, 0, ZV_TOO_SHORT, 0, 0},
        {0, 1, 8, ZV_TOO_SHORT, 0, 8},
        {0, 0, 15, ZV_NOT_AN_INDEX, 0, 0},
        {0, 3, 15, ZV_NOT_AN_INDEX, 0, 0},
        {0, ZV_WAH_INDEX_KIND, 15, ZV_PAD_BIT, 0, 9},
        {1, ZV_MOST_ROWS + 1, 15, ZV_TOO_LARGE, 0, 1},
        {2, ZV_MOST_BITMAPS + 1, 15, ZV_TOO_LARGE, 0, 2},
        {5, 12, 15, ZV_BAD_CONTENTS, 1, 5},
        {8, 3, 15, ZV_BAD_CONTENTS, 2, 8},
        {8, 1, 15, ZV_BAD_CONTENTS, 0, 14},
        {11, 0x00040000, 15, ZV_DIRTY_PAST_END, 1, 11},
        {11, 0x00020002, 15, ZV_BAD_COUNT, 1, 11},
        {12, 0x1E, 15, ZV_PAD_BIT, 1, 12},
    };

    every_fault(WORDS(looped), WORDS(faults));
}

/* 32 and B0 of 8 rows */
static void two_bitmaps(void)
{
    static const uint32_t both[] = {0x00020000, 0x30}, any[] = {0x00020000, 0xB2}, one[] = {0x00020000, 0x82},
                          first[] = {0x00020000, 0x02}, none[] = {0x00020000, 0xCD};

    WROTE(zv_and(WORDS(eight), 0, 1, WORDS(out)), both);
    WROTE(zv_or(WORDS(eight), 0, 1, WORDS(out)), any);
    WROTE(zv_xor(WORDS(eight), 0, 1, WORDS(out)), one);
    WROTE(zv_and_not(WORDS(eight), 0, 1, WORDS(out)), first);
    WROTE(zv_not(WORDS(eight), 0, WORDS(out)), none);
    NOT_WRITTEN(zv_and(WORDS(eight), 0, 2, WORDS(out)), ZV_BAD_ARGUMENT, 0, 0);
    NOT_WRITTEN(zv_or(WORDS(eight), 2, 0, WORDS(out)), ZV_BAD_ARGUMENT, 0, 0);
    NOT_WRITTEN(zv_xor(WORDS(eight), 0, 1, out, 1), ZV_NO_ROOM, 0, 2);
    NOT_WRITTEN(zv_and_not(WORDS(eight), 0, 1, out, 0), ZV_NO_ROOM, 0, 2);
    NOT_WRITTEN(zv_not(WORDS(eight), 2, WORDS(out)), ZV_BAD_ARGUMENT, 0, 0);
}

static void lists(void)
{
    static const uint32_t two[] = {0x00020000, 0xA}, exactly_one[] = {0x00020000, 0x5};
    static const uint32_t table[] = {0, 1, 0, 0}, bad_table[] = {0, 2, 0, 0};
    static const uint32_t counts[ZV_HISTOGRAM_COUNTS] = {0, 2, 2};
    static const uint32_t most[ZV_MOST_NAMED], one_more[ZV_MOST_NAMED + 1];

    ANSWERED(zv_threshold(WORDS(looped), WORDS(three), 2, WORDS(out)), two, 1);
    NOT_ANSWERED(zv_threshold(WORDS(looped), WORDS(three), 4, WORDS(out)), ZV_BAD_ARGUMENT, 0, 0);
    NOT_ANSWERED(zv_threshold(WORDS(looped), WORDS(three), 2, out, 1), ZV_NO_ROOM, 0, 2);
    NOT_ANSWERED(zv_threshold(WORDS(looped), three, 0, 1, WORDS(out)), ZV_BAD_ARGUMENT, 0, 0);
    ANSWERED(zv_symmetric(WORDS(looped), WORDS(three), WORDS(table), WORDS(out)), exactly_one, 1);
    NOT_ANSWERED(zv_symmetric(WORDS(looped), WORDS(three), table, 3, WORDS(out)), ZV_BAD_ARGUMENT, 0, 0);
    NOT_ANSWERED(zv_symmetric(WORDS(looped), WORDS(three), WORDS(bad_table), WORDS(out)), ZV_BAD_ARGUMENT, 0, 0);
    NOT_ANSWERED(zv_symmetric(WORDS(looped), WORDS(three), WORDS(table), out, 0), ZV_NO_ROOM, 0, 2);
    COUNTED(zv_histogram(WORDS(looped), WORDS(three)), counts, 0, 0, 0);
    COUNTED(zv_histogram(WORDS(looped), three, 0), zeros, ZV_BAD_ARGUMENT, 0, 0);
    FINE(zv_histogram(WORDS(looped), WORDS(most)));
    SAME("the last count", zv_histogram(WORDS(looped), WORDS(most)).counts[ZV_MOST_NAMED], 2);
    COUNTED(zv_histogram(WORDS(looped), WORDS(one_more)), zeros, ZV_BAD_ARGUMENT, 0, 0);
}

/* Eight rows. In the column of bitmaps 0, 1 and 2 rows 0 to 3 exist and have the values 1, 2, 3 and 0; in that of 3 and
 * 4 rows 1 to 4 exist and have 1, 1, 0 and 1. Bitmap 5 has rows 0 and 5. */
static const uint32_t columns[] = {1, 8, 6, 15, 2, 17, 2, 19, 2, 21, 2, 23, 2, 25, 2,
                                   0x00020000, 0x0F, 0x00020000, 0x05, 0x00020000, 0x06,
                                   0x00020000, 0x1E, 0x00020000, 0x16, 0x00020000, 0x21};
static const uint32_t low[] = {0, 1, 2}, high[] = {3, 4}, stray[] = {0, 5}, high_stray[] = {3, 5};

static void one_column(void)
{
    static const uint32_t one[] = {0}, no_bitmap[] = {0, 6}, no_existence[] = {6, 0}, later[] = {0, 1, 5, 4},
                          sooner[] = {0, 4, 5};
    static const uint32_t most[ZV_MOST_VALUE_COLUMN], one_more[ZV_MOST_VALUE_COLUMN + 1u];

    VALUED(zv_value(WORDS(columns), WORDS(low), 0), 1, 0, 0, 0);
    VALUED(zv_value(WORDS(columns), WORDS(low), 1), 2, 0, 0, 0);
    VALUED(zv_value(WORDS(columns), WORDS(low), 2), 3, 0, 0, 0);
    VALUED(zv_value(WORDS(columns), WORDS(low), 3), 0, 0, 0, 0);
    VALUED(zv_value(WORDS(columns), WORDS(high), 4), 1, 0, 0, 0);
    VALUED(zv_value(WORDS(columns), WORDS(most), 3), 8589934591u, 0, 0, 0);

    VALUED(zv_value(WORDS(columns), low, 0, 0), 0, ZV_BAD_ARGUMENT, 0, 0);
    VALUED(zv_value(WORDS(columns), WORDS(one), 0), 0, ZV_BAD_ARGUMENT, 0, 0);
    VALUED(zv_value(WORDS(columns), WORDS(one_more), 0), 0, ZV_BAD_ARGUMENT, 0, 0);
    VALUED(zv_value(WORDS(columns), WORDS(no_bitmap), 0), 0, ZV_BAD_ARGUMENT, 0, 0);
    VALUED(zv_value(WORDS(columns), WORDS(no_existence), 0), 0, ZV_BAD_ARGUMENT, 0, 0);
    VALUED(zv_value(WORDS(columns), WORDS(low), 8), 0, ZV_BAD_ARGUMENT, 0, 0);
    VALUED(zv_value(WORDS(columns), WORDS(low), 4), 0, ZV_BAD_ARGUMENT, 0, 0);
    VALUED(zv_value(WORDS(columns), WORDS(stray), 5), 0, ZV_BAD_ARGUMENT, 0, 0);

    VALUED(zv_value(WORDS(columns), WORDS(stray), 1), 0, ZV_STRAY_ROW, 5, 5);
    VALUED(zv_value(WORDS(columns), WORDS(high_stray), 1), 0, ZV_STRAY_ROW, 5, 0);
    VALUED(zv_value(WORDS(columns), WORDS(later), 1), 0, ZV_STRAY_ROW, 5, 5);
    VALUED(zv_value(WORDS(columns), WORDS(sooner), 1), 0, ZV_STRAY_ROW, 4, 4);
}

/* the same bitmaps as a signed column: the last of a list is the sign */
static void one_signed_column(void)
{
    static const uint32_t one[] = {0}, sign[] = {0, 1}, all_sign[] = {0, 0}, no_bitmap[] = {0, 6};
    static const uint32_t most[ZV_MOST_VALUE_COLUMN], one_more[ZV_MOST_VALUE_COLUMN + 1u];
    uint32_t least[ZV_MOST_VALUE_COLUMN], greatest[ZV_MOST_VALUE_COLUMN];

    SIGNED_VALUED(zv_signed_value(WORDS(columns), WORDS(low), 0), 1);
    SIGNED_VALUED(zv_signed_value(WORDS(columns), WORDS(low), 1), -2);
    SIGNED_VALUED(zv_signed_value(WORDS(columns), WORDS(low), 2), -1);
    SIGNED_VALUED(zv_signed_value(WORDS(columns), WORDS(low), 3), 0);
    SIGNED_VALUED(zv_signed_value(WORDS(columns), WORDS(sign), 0), -1);
    SIGNED_VALUED(zv_signed_value(WORDS(columns), WORDS(sign), 1), 0);
    SIGNED_VALUED(zv_signed_value(WORDS(columns), WORDS(all_sign), 3), -1);
    /* 33 slices: row 3 is in all of them; in the sign alone; in all but the sign */
    for (uint32_t k = 0; k < ZV_MOST_VALUE_COLUMN; k++) {
        least[k] = k > 0 && k < ZV_MOST_VALUE_COLUMN - 1u;
        greatest[k] = k == ZV_MOST_VALUE_COLUMN - 1u;
    }
    SIGNED_VALUED(zv_signed_value(WORDS(columns), WORDS(most), 3), -1);
    SIGNED_VALUED(zv_signed_value(WORDS(columns), WORDS(least), 3), -4294967296);
    SIGNED_VALUED(zv_signed_value(WORDS(columns), WORDS(greatest), 3), 4294967295);

    NOT_SIGNED_VALUED(zv_signed_value(WORDS(columns), low, 0, 0), ZV_BAD_ARGUMENT, 0, 0);
    NOT_SIGNED_VALUED(zv_signed_value(WORDS(columns), WORDS(one), 0), ZV_BAD_ARGUMENT, 0, 0);
    NOT_SIGNED_VALUED(zv_signed_value(WORDS(columns), WORDS(one_more), 0), ZV_BAD_ARGUMENT, 0, 0);
    NOT_SIGNED_VALUED(zv_signed_value(WORDS(columns), WORDS(no_bitmap), 0), ZV_BAD_ARGUMENT, 0, 0);
    NOT_SIGNED_VALUED(zv_signed_value(WORDS(columns), WORDS(low), 8), ZV_BAD_ARGUMENT, 0, 0);
    NOT_SIGNED_VALUED(zv_signed_value(WORDS(columns), WORDS(low), 4), ZV_BAD_ARGUMENT, 0, 0);
    NOT_SIGNED_VALUED(zv_signed_value(WORDS(columns), WORDS(stray), 5), ZV_BAD_ARGUMENT, 0, 0);
    NOT_SIGNED_VALUED(zv_signed_value(WORDS(columns), WORDS(stray), 1), ZV_STRAY_ROW, 5, 5);
    NOT_SIGNED_VALUED(zv_signed_value(WORDS(columns), WORDS(high_stray), 1), ZV_STRAY_ROW, 5, 0);
}

/* what is made of two columns: with much room, with just enough, with a word less and with none */
static void makes(source at, columns_call *call, const uint32_t *first, size_t first_numbers, const uint32_t *second,
                  size_t second_numbers, const uint32_t *want, size_t words)
{
    const size_t rooms[] = {sizeof(out) / sizeof(out[0]), words, words - 1, 0};

    for (size_t i = 0; i < sizeof(rooms) / sizeof(rooms[0]); i++) {
        const zv_written told = call(WORDS(columns), first, first_numbers, second, second_numbers, out, rooms[i]);

        if (rooms[i] < words) {
            not_written(at, told, ZV_NO_ROOM, 0, words);
        } else {
            wrote(at, told, want, words);
        }
    }
}

#define MAKES(call, first, second, want) makes(HERE, call, WORDS(first), WORDS(second), WORDS(want))

static void sums(void)
{
    static const uint32_t sum[] = {1, 8, 4, 11, 2, 13, 2, 15, 2, 17, 2,
                                   0x00020000, 0x0E, 0x00020000, 0x02, 0x00020000, 0x02, 0x00020000, 0x04};
    static const uint32_t twice[] = {1, 8, 4, 11, 2, 13, 1, 14, 2, 16, 2,
                                     0x00020000, 0x0F, 0x00000002, 0x00020000, 0x05, 0x00020000, 0x06};

    MAKES(zv_sum, low, high, sum);
    MAKES(zv_sum, high, low, sum);
    /* slice 0 is empty, and is there */
    MAKES(zv_sum, low, low, twice);
}

/* rows 1 to 3 exist in both: 2 and 1, 3 and 1, 0 and 0 */
static void differences(void)
{
    static const uint32_t above[] = {1, 8, 4, 11, 2, 13, 2, 15, 2, 17, 1,
                                     0x00020000, 0x0E, 0x00020000, 0x02, 0x00020000, 0x04, 0x00000002};
    static const uint32_t below[] = {1, 8, 4, 11, 2, 13, 2, 15, 2, 17, 2,
                                     0x00020000, 0x0E, 0x00020000, 0x02, 0x00020000, 0x06, 0x00020000, 0x06};
    static const uint32_t none[] = {1, 8, 4, 11, 2, 13, 1, 14, 1, 15, 1, 0x00020000, 0x0F, 0x2, 0x2, 0x2};
    static const uint32_t or_zero[] = {1, 8, 3, 9, 2, 11, 2, 13, 2,
                                       0x00020000, 0x0E, 0x00020000, 0x02, 0x00020000, 0x04};
    static const uint32_t zero[] = {1, 8, 3, 9, 2, 11, 1, 12, 1, 0x00020000, 0x0E, 0x2, 0x2};
    static const uint32_t made[] = {0, 1, 2, 3};

    MAKES(zv_signed_difference, low, high, above);
    MAKES(zv_signed_difference, high, low, below);
    MAKES(zv_signed_difference, low, low, none);
    MAKES(zv_difference_or_zero, low, high, or_zero);
    MAKES(zv_difference_or_zero, high, low, zero);
    SIGNED_VALUED(zv_signed_value(WORDS(above), WORDS(made), 1), 1);
    SIGNED_VALUED(zv_signed_value(WORDS(above), WORDS(made), 2), 2);
    SIGNED_VALUED(zv_signed_value(WORDS(below), WORDS(made), 1), -1);
    SIGNED_VALUED(zv_signed_value(WORDS(below), WORDS(made), 2), -2);
    SIGNED_VALUED(zv_signed_value(WORDS(below), WORDS(made), 3), 0);
    NOT_SIGNED_VALUED(zv_signed_value(WORDS(below), WORDS(made), 0), ZV_BAD_ARGUMENT, 0, 0);
    VALUED(zv_value(WORDS(or_zero), WORDS(low), 2), 2, 0, 0, 0);
    VALUED(zv_value(WORDS(zero), WORDS(low), 2), 0, 0, 0, 0);
}

static void smaller_values(void)
{
    static const uint32_t smaller[] = {1, 8, 3, 9, 2, 11, 2, 13, 1, 0x00020000, 0x0E, 0x00020000, 0x06, 0x2};
    static const uint32_t same_column[] = {1, 8, 3, 9, 2, 11, 2, 13, 2,
                                           0x00020000, 0x0F, 0x00020000, 0x05, 0x00020000, 0x06};

    MAKES(zv_smaller, low, high, smaller);
    MAKES(zv_smaller, high, low, smaller);
    MAKES(zv_smaller, low, low, same_column);
    VALUED(zv_value(WORDS(smaller), WORDS(low), 2), 1, 0, 0, 0);
}

static void bad_columns(columns_call *call)
{
    static const uint32_t one[] = {0}, no_bitmap[] = {0, 6};
    static const uint32_t one_more[ZV_MOST_COLUMN + 1u];

    NOT_WRITTEN(call(WORDS(columns), WORDS(one), WORDS(high), WORDS(out)), ZV_BAD_ARGUMENT, 0, 0);
    NOT_WRITTEN(call(WORDS(columns), WORDS(one_more), WORDS(high), WORDS(out)), ZV_BAD_ARGUMENT, 0, 0);
    NOT_WRITTEN(call(WORDS(columns), WORDS(low), WORDS(one_more), WORDS(out)), ZV_BAD_ARGUMENT, 0, 0);
    /* 8 of either list comes before 11 of the first, and 11 before 9 */
    NOT_WRITTEN(call(WORDS(columns), WORDS(stray), WORDS(no_bitmap), out, 0), ZV_BAD_ARGUMENT, 0, 0);
    NOT_WRITTEN(call(WORDS(columns), WORDS(stray), WORDS(high_stray), out, 0), ZV_STRAY_ROW, 5, 5);
    NOT_WRITTEN(call(WORDS(columns), WORDS(high_stray), WORDS(stray), out, 0), ZV_STRAY_ROW, 5, 0);
    NOT_WRITTEN(call(WORDS(columns), WORDS(low), WORDS(high_stray), WORDS(out)), ZV_STRAY_ROW, 5, 0);
}

/* what a call made of columns of the most slices: it is in `out`, and its bitmaps are named in order */
static size_t widest(source at, zv_written told, uint64_t words, uint32_t *list, size_t numbers)
{
    refusal(at, told.number, told.bitmap, told.word, 0, 0, 0);
    same(at, "words", told.words, words);
    same(at, "the bitmaps", out[2], numbers);
    same(at, "the word behind", out[words], UNTOUCHED);
    for (uint32_t k = 0; k < numbers; k++) {
        list[k] = k;
    }
    return (size_t)words;
}

/* 2^32 - 1 in all rows of one column, and in the other in rows 0 and 2, with 0 in rows 1 and 3 */
static void widest_columns(void)
{
    static const uint32_t most[ZV_MOST_COLUMN];
    uint32_t some[ZV_MOST_COLUMN], list[ZV_MOST_VALUE_COLUMN];
    size_t words;

    for (uint32_t k = 0; k < ZV_MOST_COLUMN; k++) {
        some[k] = k > 0;
    }
    words = widest(HERE, zv_sum(WORDS(columns), WORDS(most), WORDS(most), WORDS(out)), 138, WORDS(list));
    VALUED(zv_value(out, words, WORDS(list), 3), 8589934590u, 0, 0, 0);
    VALUED(zv_value(out, words, WORDS(list), 4), 0, ZV_BAD_ARGUMENT, 0, 0);
    clear();
    words = widest(HERE, zv_signed_difference(WORDS(columns), WORDS(most), WORDS(some), WORDS(out)), 138, WORDS(list));
    SIGNED_VALUED(zv_signed_value(out, words, WORDS(list), 3), 4294967295);
    SIGNED_VALUED(zv_signed_value(out, words, WORDS(list), 2), 0);
    NOT_SIGNED_VALUED(zv_signed_value(out, words, WORDS(list), 4), ZV_BAD_ARGUMENT, 0, 0);
    clear();
    words = widest(HERE, zv_signed_difference(WORDS(columns), WORDS(some), WORDS(most), WORDS(out)), 108, WORDS(list));
    SIGNED_VALUED(zv_signed_value(out, words, WORDS(list), 3), -4294967295);
    SIGNED_VALUED(zv_signed_value(out, words, WORDS(list), 2), 0);
    clear();
    words = widest(HERE, zv_smaller(WORDS(columns), WORDS(most), WORDS(some), WORDS(out)), 135, list, ZV_MOST_COLUMN);
    VALUED(zv_value(out, words, list, ZV_MOST_COLUMN, 2), 4294967295u, 0, 0, 0);
    VALUED(zv_value(out, words, list, ZV_MOST_COLUMN, 3), 0, 0, 0, 0);
    clear();
    words = widest(HERE, zv_difference_or_zero(WORDS(columns), WORDS(most), WORDS(some), WORDS(out)), 135, list,
                   ZV_MOST_COLUMN);
    VALUED(zv_value(out, words, list, ZV_MOST_COLUMN, 3), 4294967295u, 0, 0, 0);
    VALUED(zv_value(out, words, list, ZV_MOST_COLUMN, 2), 0, 0, 0, 0);
    clear();
}

/* none to all of the rows that exist: in `low` they have 1, 2, 3 and 0, and in `high` the rows 1 to 4 have 1, 1, 0 and
 * 1, of which equal ones come the lowest first */
static void first_rows(void)
{
    static const struct {
        first_rows_call *call;
        const uint32_t *column;
        size_t numbers;
        uint32_t rows[5];
    } known[] = {
        {zv_largest, WORDS(low), {0, 0x04, 0x06, 0x07, 0x0F}},
        {zv_smallest, WORDS(low), {0, 0x08, 0x09, 0x0B, 0x0F}},
        {zv_largest, WORDS(high), {0, 0x02, 0x06, 0x16, 0x1E}},
        {zv_smallest, WORDS(high), {0, 0x08, 0x0A, 0x0E, 0x1E}},
    };
    static const uint32_t none[] = {0x00000002};

    for (size_t i = 0; i < sizeof(known) / sizeof(known[0]); i++) {
        takes(HERE, known[i].call, WORDS(columns), known[i].column, known[i].numbers, 0, WORDS(none));
        for (uint32_t k = 1; k < 5; k++) {
            const uint32_t body[] = {0x00020000, known[i].rows[k]};

            takes(HERE, known[i].call, WORDS(columns), known[i].column, known[i].numbers, k, WORDS(body));
        }
    }
}

/* Forty rows. Bitmap 0 has all of them, bitmap 1 none, bitmap 2 rows 32 to 39, and bitmap 3 all with a dirty word. */
static const uint32_t tail[] = {1, 40, 4, 11, 1, 12, 1, 13, 2, 15, 2,
                                0x00000005, 0x00000004, 0x00020002, 0x000000FF, 0x00020003, 0x000000FF};

/* equal values, cut at a segment's end and beside it */
static void cut_rows(first_rows_call *call)
{
    static const uint32_t lists[][2] = {{0, 0}, {0, 1}, {3, 0}, {3, 1}, {3, 3}};
    static const uint32_t none[] = {0x00000004}, one[] = {0x00020000, 0x1, 0x00000002},
                          less[] = {0x00020000, 0x7FFFFFFF, 0x00000002}, segment[] = {0x00000003, 0x00000002},
                          more[] = {0x00020003, 0x1}, but_one[] = {0x00020003, 0x7F}, all[] = {0x00000005};

    for (size_t i = 0; i < sizeof(lists) / sizeof(lists[0]); i++) {
        TAKES(call, tail, lists[i], 0, none);
        TAKES(call, tail, lists[i], 1, one);
        TAKES(call, tail, lists[i], 31, less);
        TAKES(call, tail, lists[i], 32, segment);
        TAKES(call, tail, lists[i], 33, more);
        TAKES(call, tail, lists[i], 39, but_one);
        /* a run of ones over the last segment, however existence has it */
        TAKES(call, tail, lists[i], 40, all);
        /* pad bits are no rows */
        NOT_WRITTEN(call(WORDS(tail), WORDS(lists[i]), 41, WORDS(out)), ZV_BAD_ARGUMENT, 0, 0);
        NOT_WRITTEN(call(WORDS(tail), WORDS(lists[i]), 64, WORDS(out)), ZV_BAD_ARGUMENT, 0, 0);
    }
}

/* rows 32 to 39 have 1, and the others 0 */
static void last_rows(void)
{
    static const uint32_t column[] = {0, 2}, ones[] = {2, 2};
    static const uint32_t seven[] = {0x00020002, 0x7F}, eight_rows[] = {0x00000002, 0x00000003},
                          nine[] = {0x00020000, 0x1, 0x00000003}, but_one[] = {0x00020000, 0x7FFFFFFF, 0x00000003},
                          all[] = {0x00000005}, low_rows[] = {0x00020000, 0xFF, 0x00000002},
                          others[] = {0x00000003, 0x00000002}, one_more[] = {0x00020003, 0x1};

    TAKES(zv_largest, tail, column, 7, seven);
    TAKES(zv_largest, tail, column, 8, eight_rows);
    TAKES(zv_largest, tail, column, 9, nine);
    TAKES(zv_largest, tail, column, 39, but_one);
    TAKES(zv_largest, tail, column, 40, all);
    TAKES(zv_smallest, tail, column, 8, low_rows);
    TAKES(zv_smallest, tail, column, 32, others);
    TAKES(zv_smallest, tail, column, 33, one_more);
    TAKES(zv_smallest, tail, column, 40, all);
    /* where no other row exists */
    for (size_t i = 0; i < sizeof(first_rows_calls) / sizeof(first_rows_calls[0]); i++) {
        TAKES(first_rows_calls[i], tail, ones, 7, seven);
        TAKES(first_rows_calls[i], tail, ones, 8, eight_rows);
        NOT_WRITTEN(first_rows_calls[i](WORDS(tail), WORDS(ones), 9, WORDS(out)), ZV_BAD_ARGUMENT, 0, 0);
    }
}

/* a bitmap weighs in each place that it is named in: rows 0 to 3 have 5, 2, 7 and 0 */
static void named_twice(void)
{
    static const uint32_t list[] = {0, 1, 2, 1}, large[] = {0x00020000, 0x5}, small[] = {0x00020000, 0xA};

    TAKES(zv_largest, columns, list, 2, large);
    TAKES(zv_smallest, columns, list, 2, small);
}

/* of 32 slices: row 1 has 2^31 and row 2 all digits, before row 0 with 2^31 - 1; the top slice is no sign */
static void widest_first_rows(void)
{
    static const uint32_t most[ZV_MOST_COLUMN], two[] = {0x00020000, 0x3};
    static const uint32_t one_large[] = {0x00020000, 0x4}, two_large[] = {0x00020000, 0x6},
                          one_small[] = {0x00020000, 0x8}, two_small[] = {0x00020000, 0x9};
    uint32_t list[ZV_MOST_COLUMN];

    for (uint32_t k = 0; k < ZV_MOST_COLUMN; k++) {
        list[k] = k == 0 ? 0u : k < ZV_MOST_COLUMN - 1u ? 1u : 2u;
    }
    TAKES(zv_largest, columns, list, 1, one_large);
    TAKES(zv_largest, columns, list, 2, two_large);
    TAKES(zv_smallest, columns, list, 1, one_small);
    TAKES(zv_smallest, columns, list, 2, two_small);
    TAKES(zv_largest, columns, most, 2, two);
    TAKES(zv_smallest, columns, most, 2, two);
}

static void bad_first_rows(first_rows_call *call)
{
    static const uint32_t one[] = {0}, no_bitmap[] = {0, 6}, no_existence[] = {6, 0}, later[] = {0, 1, 5, 4},
                          sooner[] = {0, 4, 5}, no_row[] = {1, 1};
    static const uint32_t one_more[ZV_MOST_COLUMN + 1u], no_rows[] = {1, 0, 1, 5, 0}, only[] = {0, 0};
    static const uint32_t none[] = {0x00000004};

    NOT_WRITTEN(call(WORDS(columns), low, 0, 0, WORDS(out)), ZV_BAD_ARGUMENT, 0, 0);
    NOT_WRITTEN(call(WORDS(columns), WORDS(one), 0, WORDS(out)), ZV_BAD_ARGUMENT, 0, 0);
    NOT_WRITTEN(call(WORDS(columns), WORDS(one_more), 0, WORDS(out)), ZV_BAD_ARGUMENT, 0, 0);
    NOT_WRITTEN(call(WORDS(columns), WORDS(no_bitmap), 0, WORDS(out)), ZV_BAD_ARGUMENT, 0, 0);
    NOT_WRITTEN(call(WORDS(columns), WORDS(no_existence), 0, WORDS(out)), ZV_BAD_ARGUMENT, 0, 0);
    NOT_WRITTEN(call(WORDS(columns), WORDS(low), 5, WORDS(out)), ZV_BAD_ARGUMENT, 0, 0);
    NOT_WRITTEN(call(WORDS(columns), WORDS(low), 8, WORDS(out)), ZV_BAD_ARGUMENT, 0, 0);
    NOT_WRITTEN(call(WORDS(columns), WORDS(low), UINT32_MAX, WORDS(out)), ZV_BAD_ARGUMENT, 0, 0);
    /* 8 comes before 11, and 11 before 9, however few rows are asked for */
    NOT_WRITTEN(call(WORDS(columns), WORDS(stray), 5, out, 0), ZV_BAD_ARGUMENT, 0, 0);
    NOT_WRITTEN(call(WORDS(columns), WORDS(stray), 4, out, 0), ZV_STRAY_ROW, 5, 5);
    NOT_WRITTEN(call(WORDS(columns), WORDS(stray), 0, WORDS(out)), ZV_STRAY_ROW, 5, 5);
    NOT_WRITTEN(call(WORDS(columns), WORDS(high_stray), 1, WORDS(out)), ZV_STRAY_ROW, 5, 0);
    NOT_WRITTEN(call(WORDS(columns), WORDS(later), 1, WORDS(out)), ZV_STRAY_ROW, 5, 5);
    NOT_WRITTEN(call(WORDS(columns), WORDS(sooner), 1, WORDS(out)), ZV_STRAY_ROW, 4, 4);
    NOT_WRITTEN(call(WORDS(columns), WORDS(low), 4, out, 0), ZV_NO_ROOM, 0, 2);

    /* no row exists, and then there is none */
    TAKES(call, tail, no_row, 0, none);
    NOT_WRITTEN(call(WORDS(tail), WORDS(no_row), 1, WORDS(out)), ZV_BAD_ARGUMENT, 0, 0);
    takes(HERE, call, WORDS(no_rows), WORDS(only), 0, none, 0);
    NOT_WRITTEN(call(WORDS(no_rows), WORDS(only), 1, WORDS(out)), ZV_BAD_ARGUMENT, 0, 0);
}

int main(void)
{
    clear();
    one_body();
    full_tail();
    pieces();
    long_pieces();
    one_index();
    bad_indexes();
    two_bitmaps();
    lists();
    one_column();
    one_signed_column();
    sums();
    differences();
    smaller_values();
    for (size_t i = 0; i < sizeof(columns_calls) / sizeof(columns_calls[0]); i++) {
        bad_columns(columns_calls[i]);
    }
    widest_columns();
    first_rows();
    last_rows();
    for (size_t i = 0; i < sizeof(first_rows_calls) / sizeof(first_rows_calls[0]); i++) {
        cut_rows(first_rows_calls[i]);
        bad_first_rows(first_rows_calls[i]);
    }
    named_twice();
    widest_first_rows();
    printf("ok\n");
    return 0;
}
