/*
 * Zvonurel for C: bitmaps of 32-bit words, in EWAH or in WAH, that answer a question rightly or refuse it.
 *
 * Link libzvonurel_c.a, which needs nothing but C's memcpy and memset. In the repository that this header is from,
 * `./build` proves and writes it and `./install` puts both where pkg-config finds them; there crates/zvonurel_c has the
 * contract of each call, and every one is proved. What this header itself computes, sizes and texts, is tested and not
 * proved. Other files that are named here are that repository's too.
 *
 * PLATFORM. x86-64, Linux, the System V calling convention. Words in memory are in the machine's own byte order.
 *
 * WORDS ARE LENT. An index, a body, a list or a buffer is a pointer and a number of words; a writer's state is a
 * pointer. The library keeps no pointer and no state, allocates nothing, and may be called from several threads. What a
 * caller owes of each pointer:
 *   - it is not NULL, even beside a length of 0, and is aligned as a uint32_t is, or as a zv_append_state;
 *   - that many words can be read there, and in a buffer (`out`) written; a state can be read and written;
 *   - a buffer or a state shares no byte with anything else that is lent to the same call, and nothing else changes
 *     what is lent before the call returns.
 * Of the words themselves, and of a state's numbers, nothing is owed: what is wrong with them is refused, as far as it
 * can be told (A WRITER, below).
 *
 * FORMATS. A bitmap is in EWAH or in WAH: other words that say the same rows. All bodies of an index are in one
 * format, the index's, and so is what a call writes from it, a body or a new index. Of the calls on a body alone those
 * named zv_wah_ are for WAH, and the others for EWAH. A call whose name ends in _to_ewah or _to_wah writes the format
 * that it names.
 *
 * ROWS. A segment is ZV_WORD_BITS rows in EWAH and ZV_WAH_SEGMENT_ROWS in WAH. With w rows to a segment, row r stands
 * in segment r / w, at bit r % w, the lowest bit first. R rows have ZV_SEGMENTS(R) segments in EWAH and
 * ZV_WAH_SEGMENTS(R) in WAH. What the last one has behind row R - 1 are pad bits, which are no rows: a dirty word, a
 * literal or a plain word may have none of them set. Plain words are EWAH's segments themselves, ZV_SEGMENTS(R) of
 * them, also where the bitmap is in WAH.
 *
 * A BODY says the segments. Clean ones have all their rows clear, or all set, and are only counted; a last one may
 * have pad bits, which are then of no account. Other segments stand there as they are, and clean ones may too. In EWAH
 * this is done by markers, each with its dirty words behind it, which are segments as they are. Bit 0 of a marker is
 * the value of the clean segments before them. From bit ZV_CLEAN_SHIFT on stands how many these are, at most
 * ZV_MOST_CLEAN, and from bit ZV_DIRTY_SHIFT on how many dirty words follow, at most ZV_MOST_DIRTY. docs/FORMAT.md has
 * examples. zv_compress writes a body of plain words.
 *
 * A BODY IN WAH has no markers: each of its words is a literal, which is one segment as it is, or a fill, which counts
 * clean ones. Bit ZV_WAH_FILL_SHIFT, the highest, is clear in a literal and set in a fill. In a fill bit
 * ZV_WAH_VALUE_SHIFT is the segments' value, and the bits below it say how many they are, 1 to ZV_WAH_MOST_FILL. So 62
 * rows, none set, are 80000002 (in hexadecimal), 40 rows, all set, are C0000002, and rows 0 and 39 of 40 are 00000001
 * 00000100. zv_wah_compress writes a body of plain words.
 *
 * A PIECE of a body in EWAH is the clean segments of one marker, if it counts any, or one dirty word; in WAH it is one
 * fill or one literal. The answer on a row has the first and the last row of the piece that the row lies in, as that
 * body is written. Pad bits are no rows, so the last piece ends with row R - 1. In clean segments every row from the
 * first to the last has the value of the row asked for. Rows just outside may have it too, whatever form the body has:
 * clean segments are whole ones, which a marker counts up to ZV_MOST_CLEAN, and a mixed segment may begin or end with
 * such rows. A dirty word or a literal says no more than its bits: the rows in it may differ. So `first` and `last` do
 * not tell from where to where rows are alike; the expanded rows do. A piece of more than ZV_WORD_BITS rows in EWAH, or
 * ZV_WAH_SEGMENT_ROWS in WAH, is surely clean segments; one of no more may be either.
 *
 * AN INDEX has a head of ZV_HEAD_WORDS words: in word 0 ZV_INDEX_KIND for EWAH or ZV_WAH_INDEX_KIND for WAH, the rows
 * in word 1, the number N of bitmaps in word 2. Then ZV_ENTRY_WORDS words for each bitmap: where its body starts and
 * how many words it has. Then the bodies, one behind the other. The whole of it is checked for every question. Bitmaps
 * are numbered from 0. example/listing.c makes one.
 *
 * A COLUMN gives each row that exists a value. A list of bitmap numbers names it: the existence bitmap, whose rows
 * exist, and then the slices, the lowest first. Slice i, counted from 0, has the rows whose value has the binary
 * digit of weight 2^i set, and may have no row that does not exist. A list has ZV_LEAST_COLUMN to ZV_MOST_COLUMN
 * numbers, which is 1 to 32 slices, and up to ZV_MOST_VALUE_COLUMN where only a value is asked, since a sum or a
 * signed difference has one slice more. A number may stand in it more than once.
 *
 * A SIGNED COLUMN is a column in two's complement: of n slices the highest, which is the sign, weighs -2^(n-1), and
 * each other one what it always weighs, so that values go from -2^(n-1) to 2^(n-1) - 1. Nothing in an index says which
 * columns are signed. zv_signed_difference writes one, and zv_signed_value reads any as one. Every other call takes
 * its columns as unsigned, and zv_signed_difference does too.
 *
 * A WRITER takes the rows of an EWAH body in batches, as they come. Its caller keeps its state, a zv_append_state, and
 * the buffer: zv_begin gives the state of a body of no rows, and each zv_append puts a batch of plain words behind the
 * rows so far. A batch has any number of rows, 0 too, and need not end where a segment does. After it the buffer begins
 * with the canonical body of all rows so far, which is the one that zv_compress would write of them. So the same rows
 * give the same words however they are cut into batches, if none of these is refused. The body never gets shorter as
 * rows come: if that of all rows fits into the buffer, no batch is without room. Between two batches the body can be
 * asked like any other, with (uint32_t)state.rows as its rows. State and buffer are to come back as they were left.
 * Every zv_append tests that the buffer has the length that the writer began with, and that the words in use are the
 * canonical body of the rows accepted. That is no checksum: a state and a body that pass but are others, or a bit that
 * was changed within a mixed segment, can't be told apart from what was left, and what the body says then counts as the
 * rows so far. So a body that was stored, or that needs a longer buffer, can be gone on with: copy its words to the
 * front of the buffer, and make a state of the buffer's length and the same numbers of rows and words. zv_body_to_ewah
 * makes a body canonical.
 *
 * ANSWERS. `number` is 0 where the call was not refused. Else `number`, `bitmap` and `word` say why, every value
 * beside them is 0, and neither a word of the buffer nor a writer's state changes. A call that writes puts its words at
 * the front of the buffer; the words behind them keep their values. Compare answers field by field: a struct may have
 * unused bytes at its end.
 *
 * ROOM. A buffer of ZV_SEGMENTS(rows) words is always long enough for plain words, and one of ZV_MOST_BODY_WORDS(rows)
 * for a body. An index that is written, rewritten or made of two columns, may be too long for any buffer: with more
 * than ZV_MOST_INDEX_WORDS words it is refused with ZV_NO_ROOM, however long the buffer is. For every other one a
 * buffer of ZV_MOST_NEW_INDEX_WORDS(rows, bitmaps) words is long enough, and where it is made of two columns one of
 * ZV_MOST_SUM_WORDS(rows, slices); neither size is above ZV_MOST_INDEX_WORDS. These sizes are for EWAH; in WAH the
 * words may be more or fewer, and the sizes are ZV_WAH_MOST_BODY_WORDS, ZV_WAH_MOST_NEW_INDEX_WORDS and
 * ZV_WAH_MOST_SUM_WORDS. A call with a buffer of length 0 measures: it is refused with ZV_NO_ROOM, and `word` is the
 * words needed, unless none are, as with plain words or a body of no rows. The pointer must still not be NULL. A writer
 * measures so only if it began with such a buffer; lend it one of ZV_MOST_BODY_WORDS of all rows that are to come, and
 * not of a batch, with the same length each time. One that is refused with ZV_NO_ROOM may go on with a shorter batch,
 * or in a longer buffer.
 *
 * COST. A call on an index checks the whole of it first, so it costs at least that check: the head, every entry, and
 * every body's markers and last word, but not its other dirty words; in WAH every word. For many questions on one
 * bitmap, ask zv_bitmap once where its body lies, and then the calls on a body of that format, with the index's word 1
 * as the rows: they check that body alone. zv_value and zv_signed_value look through all slices for rows that do not
 * exist, each time. For many values of one column, expand its bitmaps once and put the values together from the bits.
 * zv_largest and zv_smallest go through their column once for each slice, whatever k is, and a few times more.
 * zv_append goes through the words in use and the batch, each once or twice, however short the batch is: where the body
 * is long, gather the half hours of a day and append them at once. Rows that are all there are written faster by
 * zv_compress.
 *
 * LISTING. zv_nth, zv_body_nth and zv_wah_body_nth check and walk from the front each time, and so do zv_row,
 * zv_body_row and zv_wah_body_row. To list all set rows, expand the body once and scan the bits, as example/listing.c
 * does: for 20,000 scattered set rows that is some thousand times as fast as zv_nth for each. A body's pieces can be
 * gone through by zv_body_row, in WAH by zv_wah_body_row, from row 0 on and always to the row behind `last`. These
 * calls can take, together, a time that grows with the square of the number of pieces; where it is the rows that
 * matter, expand the body instead.
 *
 * STACK. A call needs less than ZV_MOST_STACK bytes of stack, whatever it is given: none recurses, and none has an
 * array whose length depends on the input. tests/c/stack.c measures some 16 KiB for zv_sum and the other calls on two
 * columns, 13 KiB for zv_histogram, 11 KiB for the calls that answer with a body over bitmaps of an index, some 6 KiB for
 * zv_largest and zv_smallest, and less than 1 KiB for any other. A program's first memcpy or memset may add some 3 KiB,
 * while the system looks for it.
 */
#ifndef ZVONUREL_H
#define ZVONUREL_H

#include <stddef.h>
#include <stdint.h>

#ifdef __cplusplus
extern "C" {
#endif

/* The version of the header and its library. */
#define ZV_VERSION_MAJOR 0
#define ZV_VERSION_MINOR 7
#define ZV_VERSION_PATCH 0
#define ZV_VERSION "0.7.0"

/* Every limit and size, once. */

/* The most rows of a bitmap, bitmaps of an index, words of an index, and numbers in a list. */
#define ZV_MOST_ROWS 1073741824u
#define ZV_MOST_BITMAPS 256u
#define ZV_MOST_INDEX_WORDS 67108864u
#define ZV_MOST_NAMED 256u
/* How many numbers a histogram has: one for each c from 0 to ZV_MOST_NAMED. */
#define ZV_HISTOGRAM_COUNTS (ZV_MOST_NAMED + 1u)
/* The fewest numbers that name a column, the most, and the most where only a value is asked. */
#define ZV_LEAST_COLUMN 2u
#define ZV_MOST_COLUMN 33u
#define ZV_MOST_VALUE_COLUMN 34u
/* An index: what word 0 says where the bodies are in EWAH, and where they are in WAH; the words before the contents,
 * and the words of an entry of the contents. */
#define ZV_INDEX_KIND 1u
#define ZV_WAH_INDEX_KIND 2u
#define ZV_HEAD_WORDS 3u
#define ZV_ENTRY_WORDS 2u
/* The most clean segments, and the most dirty words, that one marker counts. */
#define ZV_MOST_CLEAN 65535u
#define ZV_MOST_DIRTY 32767u
/* The lowest bit of a marker's clean count, above the value, and of its dirty count, which goes up to the highest. */
#define ZV_CLEAN_SHIFT 1u
#define ZV_DIRTY_SHIFT 17u
/* The bits of a word, which are the rows of a plain word, and of a segment in EWAH. */
#define ZV_WORD_BITS 32u
/* The rows of a segment in WAH. */
#define ZV_WAH_SEGMENT_ROWS 31u
/* The bit that is set in a fill and clear in a literal, the bit of a fill's value, and the most segments that one fill
 * counts, in the bits below. */
#define ZV_WAH_FILL_SHIFT 31u
#define ZV_WAH_VALUE_SHIFT 30u
#define ZV_WAH_MOST_FILL 1073741823u
/* More bytes of stack than any call needs. */
#define ZV_MOST_STACK 32768u

/*
 * Sizes that follow from a number of rows, and for an index from one of bitmaps or slices, each any unsigned 32-bit
 * one. They are computed in uint64_t, so that nothing wraps, and are constant where these numbers are.
 * ZV_MOST_BODY_WORDS evaluates `rows` twice, and those of an index both of their numbers more than once.
 */

/* The segments of that many rows in EWAH, which are also their plain words, whatever the format. */
#define ZV_SEGMENTS(rows) (((uint64_t)(rows) + (ZV_WORD_BITS - 1u)) / ZV_WORD_BITS)
/* The segments of that many rows in WAH. */
#define ZV_WAH_SEGMENTS(rows) (((uint64_t)(rows) + (ZV_WAH_SEGMENT_ROWS - 1u)) / ZV_WAH_SEGMENT_ROWS)
/* No body of that many rows that a call writes has more words, since the canonical form has at most a word for each
 * segment and one more for each ZV_MOST_DIRTY of them begun. It is never 0, so it can be the length of an array. */
#define ZV_MOST_BODY_WORDS(rows) (ZV_SEGMENTS(rows) + ZV_SEGMENTS(rows) / ZV_MOST_DIRTY + 1u)
/* The same of a body in WAH, each word of which is one segment or more. It is 0 where there are no rows. */
#define ZV_WAH_MOST_BODY_WORDS(rows) ZV_WAH_SEGMENTS(rows)
/* The words of an index of so many bitmaps, each of so many words, or ZV_MOST_INDEX_WORDS where it would have more. */
#define ZV_INDEX_WORDS_WITHIN(bitmaps, words) \
    (ZV_HEAD_WORDS + (uint64_t)(bitmaps) * (ZV_ENTRY_WORDS + (words)) < ZV_MOST_INDEX_WORDS \
         ? ZV_HEAD_WORDS + (uint64_t)(bitmaps) * (ZV_ENTRY_WORDS + (words)) \
         : (uint64_t)ZV_MOST_INDEX_WORDS)
/* No index of that many rows and bitmaps that a call writes has more words, be it rewritten or made of two columns. A
 * buffer of so many is as good as any longer one: where it is refused with ZV_NO_ROOM, more than ZV_MOST_INDEX_WORDS
 * words are needed, and every buffer is. */
#define ZV_MOST_NEW_INDEX_WORDS(rows, bitmaps) ZV_INDEX_WORDS_WITHIN(bitmaps, ZV_MOST_BODY_WORDS(rows))
/* The same of an index in WAH. */
#define ZV_WAH_MOST_NEW_INDEX_WORDS(rows, bitmaps) ZV_INDEX_WORDS_WITHIN(bitmaps, ZV_WAH_MOST_BODY_WORDS(rows))
/* The same of a sum of two columns of that many rows, of which the wider has at most that many slices. It is an index
 * of the existence bitmap and one slice more than these. A list of n numbers names n - 1 slices. A signed difference
 * has as many slices as a sum; zv_smaller and zv_difference_or_zero write one fewer, which is an index of `slices` + 1
 * bitmaps. So the buffer is long enough for each of the four. */
#define ZV_MOST_SUM_WORDS(rows, slices) ZV_MOST_NEW_INDEX_WORDS(rows, (uint64_t)(slices) + 2u)
/* The same of columns of an index in WAH. */
#define ZV_WAH_MOST_SUM_WORDS(rows, slices) ZV_WAH_MOST_NEW_INDEX_WORDS(rows, (uint64_t)(slices) + 2u)

/*
 * Numbers of refusal, with what `bitmap` and `word` are beside each. The first fault in this order is told: the
 * index's length (3), its head (1), word 0 (2), rows and N (3), room for the contents (1), the contents (4), the
 * bodies in order, each front to back (5, 6, 7; in WAH 10, 6, 7), the arguments (8), the slices of columns (11), the
 * room (9). A body alone is bitmap 0 with places counted in the body, and its rows are tested first (3). Plain
 * words: 3, then 8, 7 and 9. A batch for a writer: 12 before all else, and then the same, with places counted in the
 * batch.
 */

/* Not refused. */
#define ZV_FINE 0u
/* The index has fewer than ZV_HEAD_WORDS words, or ends within its contents. bitmap 0; word: the index's length. */
#define ZV_TOO_SHORT 1u
/* Word 0 is neither ZV_INDEX_KIND nor ZV_WAH_INDEX_KIND. bitmap 0, word 0. */
#define ZV_NOT_AN_INDEX 2u
/* More than ZV_MOST_INDEX_WORDS words (word 0), ZV_MOST_ROWS rows (word 1) or ZV_MOST_BITMAPS bitmaps (word 2). Of a
 * batch: the rows accepted and its own are more than ZV_MOST_ROWS together (word 1). bitmap 0. */
#define ZV_TOO_LARGE 3u
/* An entry of the contents has the wrong start, or a length that passes the index's end: its bitmap, and the place of
 * that word. Or words are left behind the last body: bitmap 0, and the place where that body ends. */
#define ZV_BAD_CONTENTS 4u
/* The dirty words of a marker pass the body's end. Its bitmap, and the marker's place. */
#define ZV_DIRTY_PAST_END 5u
/* The clean and dirty counts of a marker pass the segments left, or a fill's count does, or a literal stands where
 * none is left: its bitmap, and the place of that word. Or the body ends with segments missing: its bitmap, and the
 * place behind the body. */
#define ZV_BAD_COUNT 6u
/* A pad bit is set in a dirty word, a literal or a plain word: the bitmap, and the place of that word. */
#define ZV_PAD_BIT 7u
/* A bad argument: no such bitmap; no such row; fewer set rows than asked for; a list of no numbers or more than
 * ZV_MOST_NAMED; a threshold of 0 or above the list's length; a table that is not exactly one entry longer than the
 * list, or has an entry other than 0 and 1; not just ZV_SEGMENTS(rows) plain words; a column of fewer than
 * ZV_LEAST_COLUMN numbers, or of more than ZV_MOST_COLUMN, ZV_MOST_VALUE_COLUMN where only a value is asked; a value
 * of a row that the existence bitmap has not; more rows of a column than its existence bitmap has. bitmap 0, word 0. */
#define ZV_BAD_ARGUMENT 8u
/* The answer does not fit into the buffer; or it is an index of more than ZV_MOST_INDEX_WORDS words, which no buffer
 * helps. bitmap 0; word: the words needed. */
#define ZV_NO_ROOM 9u
/* A fill of a body in WAH counts no segments, whether any are left or not. Its bitmap, and the fill's place. */
#define ZV_NO_SEGMENTS 10u
/* A slice of a column has a row that does not exist, since the column's existence bitmap has it not. The first such
 * slice in the list's order, the first column's before the second's: its bitmap number; word: its lowest such row. */
#define ZV_STRAY_ROW 11u
/* A writer's state and its buffer do not belong together: the buffer's length is not `room`, `rows` is more than
 * ZV_MOST_ROWS, `words` is more than the buffer has, or so many words at its front are not the canonical EWAH body of
 * just so many rows. bitmap 0, word 0. */
#define ZV_STATE_MISMATCH 12u

/* What a number of refusal says, in words that can stand within a sentence; `bitmap` and `word` say where. */
static inline const char *zv_refusal_text(uint32_t number)
{
    switch (number) {
    case ZV_FINE:
        return "nothing was refused";
    case ZV_TOO_SHORT:
        return "the index is too short for its head and its contents";
    case ZV_NOT_AN_INDEX:
        return "word 0 does not say that this is an index";
    case ZV_TOO_LARGE:
        return "there are too many words in the index (if word is 0), rows (if 1) or bitmaps (if 2)";
    case ZV_BAD_CONTENTS:
        return "the contents have a wrong start or length, or words are left behind the last body";
    case ZV_DIRTY_PAST_END:
        return "the marker's dirty words pass the body's end";
    case ZV_BAD_COUNT:
        return "a word says more segments than are left, or the body ends with segments missing";
    case ZV_PAD_BIT:
        return "a bit behind the last row is set";
    case ZV_BAD_ARGUMENT:
        return "a bad argument: there is no such bitmap, row or set row, fewer rows exist than were asked for, or the "
               "list, the threshold, the table or the number of plain words is not one that can be";
    case ZV_NO_ROOM:
        return "the answer has more words than the buffer, or, if it is an index, than an index may have (word is how "
               "many)";
    case ZV_NO_SEGMENTS:
        return "the fill counts no segments";
    case ZV_STRAY_ROW:
        return "a slice of a column has a row that its existence bitmap has not (bitmap is the slice, word is the row)";
    case ZV_STATE_MISMATCH:
        return "the writer's state and its buffer do not belong together";
    default:
        return "no call gives this number";
    }
}

/* Whether there was a fault. */
typedef struct zv_checked {
    uint32_t number;
    uint32_t bitmap;
    uint64_t word;
} zv_checked;

/* Of a row: `value` is 1 if it is set and 0 if not, `first` and `last` are the first and the last row of its piece. All
 * three are 0 on a refusal. */
typedef struct zv_flag {
    uint32_t number;
    uint32_t bitmap;
    uint64_t word;
    uint32_t value;
    uint32_t first;
    uint32_t last;
} zv_flag;

/* A count, or a row. */
typedef struct zv_number {
    uint32_t number;
    uint32_t bitmap;
    uint64_t word;
    uint32_t value;
} zv_number;

/* A value of a column. */
typedef struct zv_column_value {
    uint32_t number;
    uint32_t bitmap;
    uint64_t word;
    uint64_t value;
} zv_column_value;

/* A value of a signed column; 0 on a refusal. */
typedef struct zv_signed_column_value {
    uint32_t number;
    uint32_t bitmap;
    uint64_t word;
    int64_t value;
} zv_signed_column_value;

/* How many words were written. */
typedef struct zv_written {
    uint32_t number;
    uint32_t bitmap;
    uint64_t word;
    uint64_t words;
} zv_written;

/* How many words were written, and how many stretches the answer was made of. */
typedef struct zv_answered {
    uint32_t number;
    uint32_t bitmap;
    uint64_t word;
    uint64_t words;
    uint32_t stretches;
} zv_answered;

/* A part of the index: `length` words from word `start` on. Both are 0 on a refusal. */
typedef struct zv_part {
    uint32_t number;
    uint32_t bitmap;
    uint64_t word;
    uint64_t start;
    uint64_t length;
} zv_part;

/* How many rows exactly c of the list have, at c, from 0 to ZV_MOST_NAMED. All are 0 on a refusal. */
typedef struct zv_histogram_counts {
    uint32_t number;
    uint32_t bitmap;
    uint64_t word;
    uint32_t counts[ZV_HISTOGRAM_COUNTS];
} zv_histogram_counts;

/* What a writer's caller keeps: the length of the buffer that it began with, the rows accepted so far, and the words in
 * use, which are the body of these rows at the buffer's front. */
typedef struct zv_append_state {
    uint64_t room;
    uint64_t rows;
    uint64_t words;
} zv_append_state;

/* ---- one body alone in EWAH, of `rows` rows. Refusals: 3 (word 1), 5, 6, 7, then the call's own. */

/* The first fault of the body. */
zv_checked zv_check_body(const uint32_t *body, size_t body_words, uint32_t rows);

/* Whether a row is set, and the piece that it lies in. 8: there is no such row. */
zv_flag zv_body_row(const uint32_t *body, size_t body_words, uint32_t rows, uint32_t row);

/* How many rows are set. */
zv_number zv_body_count(const uint32_t *body, size_t body_words, uint32_t rows);

/* The nth set row, n counted from 0. 8: n or fewer rows are set. */
zv_number zv_body_nth(const uint32_t *body, size_t body_words, uint32_t rows, uint32_t n);

/* The body's rows as plain words. 9: the buffer is shorter. */
zv_written zv_expand(const uint32_t *body, size_t body_words, uint32_t rows, uint32_t *out, size_t out_words);

/* Plain words as a body, in the one form with the fewest words. 3 (word 1); 8: they are not ZV_SEGMENTS(rows); 7: the
 * last one has a pad bit; 9. */
zv_written zv_compress(uint32_t rows, const uint32_t *plain, size_t plain_words, uint32_t *out, size_t out_words);

/* The body's rows as a body in EWAH, in that one form, which is what zv_compress writes of them. 9. */
zv_written zv_body_to_ewah(const uint32_t *body, size_t body_words, uint32_t rows, uint32_t *out, size_t out_words);

/* The body's rows as a body in WAH, in the one form with the fewest words, as zv_wah_compress writes it. 9. */
zv_written zv_body_to_wah(const uint32_t *body, size_t body_words, uint32_t rows, uint32_t *out, size_t out_words);

/* ---- a body in EWAH whose rows come in batches. */

/* The state of a writer that begins on this buffer, with no rows and no words in use. Of the buffer its length alone is
 * looked at, and nothing is refused. With length 0 a writer begins too, and its first row is refused with 9. (A compiler may warn of
 * an array to which nothing was written: begin it with `= {0}`.) */
zv_append_state zv_begin(const uint32_t *buffer, size_t buffer_words);

/* Puts a batch of `rows` rows, ZV_SEGMENTS(rows) plain words, behind the rows so far: the buffer then begins with the
 * canonical body of all of them, and `words`, in the answer and in the state, is how many words that has. 12: the state
 * and the buffer do not belong together; 3 (word 1): the rows would be more than ZV_MOST_ROWS in all; 8: the words are
 * not ZV_SEGMENTS(rows); 7 (word: its place in the batch): the last one has a bit behind the batch's last row; 9 (word:
 * the words of the body of all rows). A refused batch changes neither the state nor the buffer, and writing may go on:
 * the answer's `words` is then 0, and the state still has the body's. A batch of 0 rows has no words, and a pointer that
 * is not NULL all the same; it is tested like any other, and changes nothing. */
zv_written zv_append(zv_append_state *state, uint32_t *out, size_t out_words, uint32_t rows, const uint32_t *plain,
                     size_t plain_words);

/* ---- one body alone in WAH, of `rows` rows. Refusals: 3 (word 1), 10, 6, 7, then the call's own. */

/* The first fault of the body. */
zv_checked zv_wah_check_body(const uint32_t *body, size_t body_words, uint32_t rows);

/* Whether a row is set, and the piece that it lies in. 8: there is no such row. */
zv_flag zv_wah_body_row(const uint32_t *body, size_t body_words, uint32_t rows, uint32_t row);

/* How many rows are set. */
zv_number zv_wah_body_count(const uint32_t *body, size_t body_words, uint32_t rows);

/* The nth set row, n counted from 0. 8: n or fewer rows are set. */
zv_number zv_wah_body_nth(const uint32_t *body, size_t body_words, uint32_t rows, uint32_t n);

/* The body's rows as plain words. 9: the buffer is shorter. */
zv_written zv_wah_expand(const uint32_t *body, size_t body_words, uint32_t rows, uint32_t *out, size_t out_words);

/* Plain words as a body, in the one form with the fewest words: two or more clean segments of one value, one behind
 * the other, are one fill, and any other segment is a literal. 3 (word 1); 8: they are not ZV_SEGMENTS(rows); 7: the
 * last one has a pad bit; 9. */
zv_written zv_wah_compress(uint32_t rows, const uint32_t *plain, size_t plain_words, uint32_t *out, size_t out_words);

/* The body's rows as a body in EWAH, in the one form with the fewest words, as zv_compress writes it. 9. */
zv_written zv_wah_body_to_ewah(const uint32_t *body, size_t body_words, uint32_t rows, uint32_t *out,
                               size_t out_words);

/* The body's rows as a body in WAH, in that one form, which is what zv_wah_compress writes of them. 9. */
zv_written zv_wah_body_to_wah(const uint32_t *body, size_t body_words, uint32_t rows, uint32_t *out, size_t out_words);

/* ---- an index, in either format. Refusals: 1 to 7 and 10, then the call's own. */

/* The first fault of the index. */
zv_checked zv_check(const uint32_t *index, size_t index_words);

/* Why zv_bitmap gives no part: the index's first fault, or 8 where there is no bitmap k. */
zv_checked zv_bitmap_refusal(const uint32_t *index, size_t index_words, uint32_t k);

/* Where in the index bitmap k's body lies, which is in the index's format. 8: there is no bitmap k. */
zv_part zv_bitmap(const uint32_t *index, size_t index_words, uint32_t k);

/* Whether a row of bitmap k is set, and the piece that it lies in. 8: there is no such bitmap, or no such row. */
zv_flag zv_row(const uint32_t *index, size_t index_words, uint32_t k, uint32_t row);

/* How many rows of bitmap k are set. 8: there is no bitmap k. */
zv_number zv_count(const uint32_t *index, size_t index_words, uint32_t k);

/* The nth set row of bitmap k, n counted from 0. 8: there is no bitmap k, or n or fewer of its rows are set. */
zv_number zv_nth(const uint32_t *index, size_t index_words, uint32_t k, uint32_t n);

/* The rows of bitmap k as plain words. 8: there is no bitmap k; 9. */
zv_written zv_expand_bitmap(const uint32_t *index, size_t index_words, uint32_t k, uint32_t *out, size_t out_words);

/* ---- an index, or a bitmap of it, rewritten in the format that the name says, each body in the form with the fewest
 * words. The index may be in that format already: then what is wasteful in its bodies goes. */

/* The rows of bitmap k as a body in EWAH. 8: there is no bitmap k; 9. */
zv_written zv_bitmap_to_ewah(const uint32_t *index, size_t index_words, uint32_t k, uint32_t *out, size_t out_words);

/* The rows of bitmap k as a body in WAH. 8: there is no bitmap k; 9. */
zv_written zv_bitmap_to_wah(const uint32_t *index, size_t index_words, uint32_t k, uint32_t *out, size_t out_words);

/* All bitmaps, in their order, as a new index in EWAH. 9: the buffer is shorter, or the new index would have more than
 * ZV_MOST_INDEX_WORDS words. */
zv_written zv_index_to_ewah(const uint32_t *index, size_t index_words, uint32_t *out, size_t out_words);

/* All bitmaps, in their order, as a new index in WAH. 9: the same. */
zv_written zv_index_to_wah(const uint32_t *index, size_t index_words, uint32_t *out, size_t out_words);

/* ---- two bitmaps of an index, or one, as a body in the index's format, in the form with the fewest words. 8: one is
 * not there; 9. */

/* The rows that both have. */
zv_written zv_and(const uint32_t *index, size_t index_words, uint32_t j, uint32_t k, uint32_t *out, size_t out_words);

/* The rows that one or both have. */
zv_written zv_or(const uint32_t *index, size_t index_words, uint32_t j, uint32_t k, uint32_t *out, size_t out_words);

/* The rows that just one of the two has. */
zv_written zv_xor(const uint32_t *index, size_t index_words, uint32_t j, uint32_t k, uint32_t *out, size_t out_words);

/* The rows that j has and k has not. */
zv_written zv_and_not(const uint32_t *index, size_t index_words, uint32_t j, uint32_t k, uint32_t *out,
                      size_t out_words);

/* The rows that bitmap k has not. */
zv_written zv_not(const uint32_t *index, size_t index_words, uint32_t k, uint32_t *out, size_t out_words);

/* ---- a list of 1 to ZV_MOST_NAMED bitmap numbers of an index. A bitmap counts as often as it is named. A buffer of
 * twice the words of the named bodies is long enough for each of the first two answers. */

/* The rows that at least t of the list have, as such a body. 8; 9. */
zv_answered zv_threshold(const uint32_t *index, size_t index_words, const uint32_t *list, size_t list_words, uint32_t t,
                         uint32_t *out, size_t out_words);

/* The rows for which the table has a 1 at the number of the list that have the row, as such a body. The table has one
 * entry for each number from 0 to the list's length. 8; 9. */
zv_answered zv_symmetric(const uint32_t *index, size_t index_words, const uint32_t *list, size_t list_words,
                         const uint32_t *table, size_t table_words, uint32_t *out, size_t out_words);

/* For each c from 0 to ZV_MOST_NAMED the number of rows that exactly c of the list have. 8. */
zv_histogram_counts zv_histogram(const uint32_t *index, size_t index_words, const uint32_t *list, size_t list_words);

/* ---- columns of an index, each named by a list: the existence bitmap, then the slices, the lowest first. Refusals:
 * 1 to 7 and 10, then 8, 11 and 9. 8: a list has too few or too many numbers, or one that is no bitmap's. */

/* The value of a row: what the slices that have it weigh. The list may have up to ZV_MOST_VALUE_COLUMN numbers. 8:
 * there is no such row, or it does not exist; 11. */
zv_column_value zv_value(const uint32_t *index, size_t index_words, const uint32_t *column, size_t column_numbers,
                         uint32_t row);

/* The value of a row of a signed column: what the slices that have it weigh, the highest -2^(n-1) of n. A list of two
 * numbers has the values 0 and -1, one of ZV_MOST_VALUE_COLUMN from -4,294,967,296 to 4,294,967,295. 8 and 11 as for
 * zv_value. */
zv_signed_column_value zv_signed_value(const uint32_t *index, size_t index_words, const uint32_t *column,
                                       size_t column_numbers, uint32_t row);

/* ---- the k rows of a column that come first by their values, as a body in the index's format, in the form with the
 * fewest words: exactly k, and all of them exist. k of 0 gives a body of no set rows. The list may have up to
 * ZV_MOST_COLUMN numbers, and the column is unsigned. A buffer of twice the words of the named bodies, each counted as
 * often as it is named, is long enough. 8: fewer than k rows exist; 11; 9. */

/* Those with the largest values: no row that exists and is left out has a larger one than a row that is taken. Of the
 * rows that share the least value taken, the lowest are taken. */
zv_written zv_largest(const uint32_t *index, size_t index_words, const uint32_t *column, size_t column_numbers,
                      uint32_t k, uint32_t *out, size_t out_words);

/* Those with the smallest values: no row that exists and is left out has a smaller one than a row that is taken. Of the
 * rows that share the greatest value taken, the lowest are taken. */
zv_written zv_smallest(const uint32_t *index, size_t index_words, const uint32_t *column, size_t column_numbers,
                       uint32_t k, uint32_t *out, size_t out_words);

/* ---- what is made of two columns, row by row, as a new index in the same format, which holds nothing else: the
 * existence bitmap as bitmap 0, then the slices, empty ones included, each body in the form with the fewest words. A
 * row exists in it if it does in both. 0, 1 and so on, up to its last bitmap, name the new column in the new index.
 * Each call takes lists of up to ZV_MOST_COLUMN numbers. 8; 11; 9: the buffer is shorter, or the new index would have
 * more than ZV_MOST_INDEX_WORDS words. */

/* The sum: one slice more than the wider column has. */
zv_written zv_sum(const uint32_t *index, size_t index_words, const uint32_t *first, size_t first_numbers,
                  const uint32_t *second, size_t second_numbers, uint32_t *out, size_t out_words);

/* The first less the second, as a signed column, which zv_signed_value reads: one slice more than the wider column
 * has, in which every difference has room. The least and the greatest are -4,294,967,295 and 4,294,967,295. */
zv_written zv_signed_difference(const uint32_t *index, size_t index_words, const uint32_t *first, size_t first_numbers,
                                const uint32_t *second, size_t second_numbers, uint32_t *out, size_t out_words);

/* The smaller of the two values: as many slices as the wider column has. */
zv_written zv_smaller(const uint32_t *index, size_t index_words, const uint32_t *first, size_t first_numbers,
                      const uint32_t *second, size_t second_numbers, uint32_t *out, size_t out_words);

/* The first less the second, and 0 where the second is the greater: as many slices as the wider column has. */
zv_written zv_difference_or_zero(const uint32_t *index, size_t index_words, const uint32_t *first,
                                 size_t first_numbers, const uint32_t *second, size_t second_numbers, uint32_t *out,
                                 size_t out_words);

#ifdef __cplusplus
}
#endif

#endif
