/*
 * From plain words, and from the body that another maker's logger wrote, to an index, a threshold question on it, and the
 * answer row by row and spell by spell; a spell is an unbroken run of set rows, as long as it goes. Writes a line for
 * each, or the refusal, with exit status 1.
 *
 *   gcc -std=c99 -Iinclude example/listing.c target/staticlib/libzvonurel_c.a -o target/listing && target/listing
 */
#include "zvonurel.h"

#include <inttypes.h>
#include <stdio.h>
#include <string.h>

#define ROWS 80u
#define OWN 2u
#define BITMAPS (OWN + 1u)
#define CONTENTS_END (ZV_HEAD_WORDS + BITMAPS * ZV_ENTRY_WORDS)
#define INDEX_ROOM (CONTENTS_END + BITMAPS * ZV_MOST_BODY_WORDS(ROWS))

static int refused(uint32_t number, uint32_t bitmap, uint64_t word)
{
    fprintf(stderr, "refused: %s (%" PRIu32 ", bitmap %" PRIu32 ", word %" PRIu64 ")\n", zv_refusal_text(number),
            number, bitmap, word);
    return 1;
}

/* Writes bitmap k's entry for a body of so many words that begins at `start`, and returns where it ends. */
static size_t add_entry(uint32_t *index, uint32_t k, size_t start, uint64_t words)
{
    uint32_t *entry = index + ZV_HEAD_WORDS + k * ZV_ENTRY_WORDS;
    entry[0] = (uint32_t)start;
    entry[1] = (uint32_t)words;
    return start + (size_t)words;
}

/* Writes the head, the contents and the bodies of an index, which has room for INDEX_ROOM words: bitmaps from plain
 * words, and then the logger's, whose words stay as they are. Returns how many words it has, or 0 where one was refused. */
static size_t make_index(const uint32_t plain[OWN][ZV_SEGMENTS(ROWS)], const uint32_t *logger, size_t logger_words,
                         uint32_t *index)
{
    size_t end = CONTENTS_END;
    zv_checked sound = zv_check_body(logger, logger_words, ROWS);

    if (sound.number != ZV_FINE) {
        refused(sound.number, sound.bitmap, sound.word);
        return 0;
    }
    if (logger_words > ZV_MOST_BODY_WORDS(ROWS)) { /* sound, and too wasteful for the room here */
        refused(ZV_NO_ROOM, 0, logger_words);
        return 0;
    }
    index[0] = ZV_INDEX_KIND;
    index[1] = ROWS;
    index[2] = BITMAPS;
    for (uint32_t k = 0; k < OWN; k++) {
        zv_written told = zv_compress(ROWS, plain[k], ZV_SEGMENTS(ROWS), index + end, INDEX_ROOM - end);
        if (told.number != ZV_FINE) {
            refused(told.number, told.bitmap, told.word);
            return 0;
        }
        end = add_entry(index, k, end, told.words);
    }
    memcpy(index + end, logger, logger_words * sizeof *logger);
    return add_entry(index, OWN, end, logger_words);
}

/* README: begin */
/* Writes each set row of a body and returns 0, or 1 after a refusal. `plain` is lent, ZV_SEGMENTS(rows) words of it. */
static int list_rows(const uint32_t *body, size_t body_words, uint32_t rows, uint32_t *plain, size_t plain_words)
{
    zv_written told = zv_expand(body, body_words, rows, plain, plain_words);
    if (told.number != ZV_FINE) {
        return refused(told.number, told.bitmap, told.word);
    }
    for (uint32_t segment = 0; segment < told.words; segment++) {
        for (uint32_t left = plain[segment], row = segment * ZV_WORD_BITS; left != 0; left >>= 1, row++) {
            if (left & 1u) {
                printf("row %" PRIu32 "\n", row);
            }
        }
    }
    return 0;
}
/* README: end */

/* Writes the first row and the length of each spell. A spell ends at a row that is not set, or behind the last row. */
static void list_spells(const uint32_t *plain, uint32_t rows)
{
    uint32_t length = 0;
    for (uint32_t row = 0; row <= rows; row++) {
        if (row < rows && (plain[row / ZV_WORD_BITS] >> row % ZV_WORD_BITS & 1u)) {
            length++;
        } else if (length > 0) {
            printf("spell from row %" PRIu32 ", length %" PRIu32 "\n", row - length, length);
            length = 0;
        }
    }
}

int main(void)
{
    static const uint32_t given[OWN][ZV_SEGMENTS(ROWS)] = {
        {0xC0000020, 0x7, 0xF000}, /* rows 5, 30 to 34, and 76 to 79 */
        {0xC0000020, 0x0, 0x8000}, /* rows 5, 30, 31 and 79 */
    };
    /* one segment of zeros and two of ones, of which the last has 16 rows: rows 32 to 79, and none behind */
    static const uint32_t logger[] = {0x00000002, 0x00000005};
    static const uint32_t list[BITMAPS] = {0, 1, 2};
    uint32_t index[INDEX_ROOM], body[ZV_MOST_BODY_WORDS(ROWS)], plain[ZV_SEGMENTS(ROWS)];
    size_t words = make_index(given, logger, sizeof logger / sizeof *logger, index);
    zv_answered told;

    if (words == 0) {
        return 1;
    }
    /* the rows that at least two of the three have */
    told = zv_threshold(index, words, list, BITMAPS, 2, body, ZV_MOST_BODY_WORDS(ROWS));
    if (told.number != ZV_FINE) {
        return refused(told.number, told.bitmap, told.word);
    }
    if (list_rows(body, (size_t)told.words, ROWS, plain, ZV_SEGMENTS(ROWS)) != 0) {
        return 1;
    }
    list_spells(plain, ROWS);
    /* a listing that was cut off is not to pass for a whole one */
    return fflush(stdout) == 0 && !ferror(stdout) ? 0 : 1;
}
