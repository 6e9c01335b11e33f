/*
 * A writer that takes rows in batches: chains of them word by word, every refusal and their order, batches of no rows,
 * a buffer of length 0, bodies that are gone on with, a longer buffer, and markers that are full. After each call the
 * state and the whole buffer are compared. Writes `ok`, or the first difference, with exit status 1.
 *
 *   gcc -std=c99 -Wall -Wextra -Werror -pedantic -Iinclude tests/c/writing.c \
 *       target/staticlib/libzvonurel_c.a -o target/writing && target/writing
 */
#include "answers.h"

/* The part of the buffer that the writers here begin with. */
#define ROOM 12u
/* Rows of ZV_MOST_CLEAN segments, and of ZV_MOST_DIRTY. */
#define CLEAN_ROWS (ZV_MOST_CLEAN * ZV_WORD_BITS)
#define DIRTY_ROWS (ZV_MOST_DIRTY * ZV_WORD_BITS)

/* A few words: a body, or the plain words of a batch. */
typedef struct {
    size_t words;
    uint32_t at[4];
} few;

typedef struct {
    uint32_t rows;
    few plain;
} batch;

static const batch none = {0, {0, {0}}}, one_clear = {1, {1, {0}}}, one_set = {1, {1, {1}}},
                   clear_segment = {32, {1, {0}}}, set_segment = {32, {1, {~0u}}}, mixed_segment = {32, {1, {0x1}}};
/* 40 rows, of which 0 and 39 are set */
static const few forty = {3, {0x00040000, 0x00000001, 0x00000080}}, empty = {0, {0}};

static zv_append_state state_of(uint64_t room, uint64_t rows, uint64_t words)
{
    const zv_append_state state = {room, rows, words};

    return state;
}

static void same_state(source at, zv_append_state got, zv_append_state want)
{
    same(at, "the room", got.room, want.room);
    same(at, "the rows", got.rows, want.rows);
    same(at, "the words in use", got.words, want.words);
}

/* A body at the buffer's front, all else as `clear` leaves it, and the state that belongs to it. */
static zv_append_state put(few body, uint64_t rows)
{
    clear();
    for (size_t i = 0; i < body.words; i++) {
        out[i] = body.at[i];
    }
    return state_of(ROOM, rows, body.words);
}

/* A batch is accepted: the buffer then begins with this body, and the state says so. */
static void accepted(source at, zv_append_state *state, batch b, few body)
{
    const zv_append_state want = state_of(state->room, state->rows + b.rows, body.words);
    const zv_written told = zv_append(state, out, (size_t)state->room, b.rows, b.plain.at, b.plain.words);

    refusal(at, told.number, told.bitmap, told.word, 0, 0, 0);
    same(at, "words", told.words, body.words);
    same_state(at, *state, want);
    buffer(at, body.at, body.words);
}

/* A batch is refused, in a buffer of `lent` words: the state is as it was, and so is each word. */
static void not_accepted(source at, zv_append_state state, size_t lent, batch b, uint32_t n, uint64_t w)
{
    static uint32_t kept[sizeof(out) / sizeof(out[0])];
    const zv_append_state before = state;
    zv_written told;

    for (size_t i = 0; i < sizeof(out) / sizeof(out[0]); i++) {
        kept[i] = out[i];
    }
    told = zv_append(&state, out, lent, b.rows, b.plain.at, b.plain.words);
    refusal(at, told.number, told.bitmap, told.word, n, 0, w);
    same(at, "words", told.words, 0);
    same_state(at, state, before);
    for (size_t i = 0; i < sizeof(out) / sizeof(out[0]); i++) {
        same(at, "a word of the buffer", out[i], kept[i]);
    }
}

#define ACCEPTED(state, b, body) accepted(HERE, state, b, body)
#define NOT_ACCEPTED(state, b, n, w) not_accepted(HERE, state, (size_t)(state).room, b, n, w)

/* ---- chains */

/* A batch, and the body behind it. */
typedef struct {
    batch b;
    few body;
} stage;

static void chain(source at, const stage *stages, size_t count)
{
    zv_append_state state = zv_begin(out, ROOM);

    same_state(at, state, state_of(ROOM, 0, 0));
    buffer(at, out, 0);
    for (size_t i = 0; i < count; i++) {
        accepted(at, &state, stages[i].b, stages[i].body);
    }
    clear();
}

#define CHAIN(stages) chain(HERE, WORDS(stages))

static void chains(void)
{
    /* rows 0 and 39 of 40: the clear rows of the last segment become part of a dirty word */
    static const stage first_and_last[] = {
        {{1, {1, {1}}}, {1, {0x00000003}}},
        {{31, {1, {0}}}, {2, {0x00020000, 0x1}}},
        {{7, {1, {0}}}, {3, {0x00020000, 0x1, 0x00000002}}},
        {{1, {1, {1}}}, {3, {0x00040000, 0x1, 0x80}}},
        {{24, {1, {0}}}, {3, {0x00040000, 0x1, 0x80}}},
        {{1, {1, {0}}}, {4, {0x00040000, 0x1, 0x80, 0x00000002}}},
    };
    /* all set, so that a run covers the last segment; then not, and its end becomes a dirty word */
    static const stage ones[] = {
        {{8, {1, {0xFF}}}, {1, {0x00000003}}},
        {{24, {1, {0xFFFFFF}}}, {1, {0x00000003}}},
        {{8, {1, {0xFF}}}, {1, {0x00000005}}},
        {{0, {0, {0}}}, {1, {0x00000005}}},
        {{1, {1, {0}}}, {2, {0x00020003, 0xFF}}},
        {{23, {1, {0x7FFFFF}}}, {2, {0x00020003, 0xFFFFFEFF}}},
        {{31, {1, {0}}}, {3, {0x00020003, 0xFFFFFEFF, 0x00000002}}},
        {{33, {2, {0, 0}}}, {3, {0x00020003, 0xFFFFFEFF, 0x00000004}}},
    };
    /* the last row of a segment decides what it is; then a batch of three segments */
    static const stage last_row[] = {
        {{31, {1, {0}}}, {1, {0x00000002}}},
        {{1, {1, {1}}}, {2, {0x00020000, 0x80000000}}},
        {{31, {1, {0x7FFFFFFF}}}, {3, {0x00020000, 0x80000000, 0x00000003}}},
        {{1, {1, {0}}}, {3, {0x00040000, 0x80000000, 0x7FFFFFFF}}},
        {{96, {3, {0, 0, 0}}}, {4, {0x00040000, 0x80000000, 0x7FFFFFFF, 0x00000006}}},
    };
    /* runs of both values, each begun and gone on with within a segment */
    static const stage both_values[] = {
        {{64, {2, {0, 0}}}, {1, {0x00000004}}},
        {{40, {2, {~0u, 0xFF}}}, {2, {0x00000004, 0x00000005}}},
        {{56, {2, {~0u, 0xFFFFFF}}}, {2, {0x00000004, 0x00000007}}},
        {{16, {1, {0}}}, {3, {0x00000004, 0x00000007, 0x00000002}}},
        {{17, {1, {0}}}, {3, {0x00000004, 0x00000007, 0x00000004}}},
    };

    CHAIN(first_and_last);
    CHAIN(ones);
    CHAIN(last_row);
    CHAIN(both_values);
}

/* rows 0, 3, 6 and so on of 96, one by one: the same words as all at once, and between them the body can be asked */
static void row_by_row(void)
{
    static const uint32_t plain[] = {0x49249249, 0x92492492, 0x24924924};
    static const uint32_t at_once[] = {0x00060000, 0x49249249, 0x92492492, 0x24924924};
    zv_append_state state = zv_begin(out, ROOM);

    WROTE(zv_compress(96, WORDS(plain), WORDS(out)), at_once);
    for (uint32_t row = 0; row < 96; row++) {
        const batch b = row % 3 == 0 ? one_set : one_clear;
        const zv_written told = zv_append(&state, out, ROOM, b.rows, b.plain.at, b.plain.words);

        FINE(told);
        same_state(HERE, state, state_of(ROOM, row + 1u, told.words));
        SAME("the count", zv_body_count(out, (size_t)told.words, row + 1u).value, row / 3u + 1u);
    }
    SAME("the words in use", state.words, 4);
    buffer(HERE, WORDS(at_once));
    clear();
}

/* ---- refusals */

/* Of a batch in which all is wrong one fault after the other is mended. The buffer has just the words in use. */
static void order(void)
{
    static const batch too_many = {ZV_MOST_ROWS - 39u, {1, {2}}}, one_word = {33, {1, {2}}},
                       pad_bit = {33, {2, {1, 2}}}, too_long = {33, {2, {1, 0}}}, fitting = {24, {1, {1}}};
    static const few with_row_40 = {3, {0x00040000, 0x00000001, 0x00000180}};
    zv_append_state state = put(forty, 40);

    state.room = 3;
    not_accepted(HERE, state, 4, too_many, ZV_STATE_MISMATCH, 0);
    NOT_ACCEPTED(state, too_many, ZV_TOO_LARGE, 1);
    NOT_ACCEPTED(state, one_word, ZV_BAD_ARGUMENT, 0);
    NOT_ACCEPTED(state, pad_bit, ZV_PAD_BIT, 1);
    NOT_ACCEPTED(state, too_long, ZV_NO_ROOM, 4);
    /* and writing goes on */
    ACCEPTED(&state, fitting, with_row_40);
    NOT_ACCEPTED(state, one_clear, ZV_NO_ROOM, 4);
    NOT_ACCEPTED(state, mixed_segment, ZV_NO_ROOM, 4);
    ACCEPTED(&state, none, with_row_40);
    clear();
}

/* A batch's own faults, for a body of no rows and behind others. */
static void bad_batches(void)
{
    static const struct {
        batch b;
        uint32_t number, word;
    } faults[] = {
        {{0, {1, {0}}}, ZV_BAD_ARGUMENT, 0},
        {{1, {0, {0}}}, ZV_BAD_ARGUMENT, 0},
        {{32, {2, {0, 0}}}, ZV_BAD_ARGUMENT, 0},
        {{33, {1, {0}}}, ZV_BAD_ARGUMENT, 0},
        {{1, {1, {2}}}, ZV_PAD_BIT, 0},
        {{31, {1, {0x80000000}}}, ZV_PAD_BIT, 0},
        {{65, {3, {~0u, ~0u, 3}}}, ZV_PAD_BIT, 2},
        {{UINT32_MAX, {1, {0}}}, ZV_TOO_LARGE, 1},
    };

    for (size_t i = 0; i < sizeof(faults) / sizeof(faults[0]); i++) {
        NOT_ACCEPTED(put(empty, 0), faults[i].b, faults[i].number, faults[i].word);
        NOT_ACCEPTED(put(forty, 40), faults[i].b, faults[i].number, faults[i].word);
    }
    clear();
}

/* A state and a buffer that do not belong together, whatever the batch. */
static void mismatch(source at, zv_append_state state, size_t lent)
{
    static const batch wrong = {UINT32_MAX, {1, {2}}};

    not_accepted(at, state, lent, none, ZV_STATE_MISMATCH, 0);
    not_accepted(at, state, lent, one_set, ZV_STATE_MISMATCH, 0);
    not_accepted(at, state, lent, wrong, ZV_STATE_MISMATCH, 0);
}

#define MISMATCH(room, rows, words) mismatch(HERE, state_of(room, rows, words), ROOM)

/* Each number of a state, also where its low 32 bits alone would pass. */
static void wrong_states(void)
{
    static const uint64_t more = 4294967296u;
    const zv_append_state right = put(forty, 40);

    mismatch(HERE, right, 0);
    mismatch(HERE, right, ROOM - 1u);
    mismatch(HERE, right, ROOM + 1u);
    MISMATCH(0, 40, 3);
    MISMATCH(ROOM + more, 40, 3);
    MISMATCH(UINT64_MAX, 40, 3);
    MISMATCH(ROOM, ZV_MOST_ROWS + 1u, 3);
    MISMATCH(ROOM, 40 + more, 3);
    MISMATCH(ROOM, UINT64_MAX, 3);
    MISMATCH(ROOM, 40, ROOM + 1u);
    MISMATCH(ROOM, 40, 3 + more);
    MISMATCH(ROOM, 40, UINT64_MAX);
    /* fewer rows and more, fewer words and more */
    MISMATCH(ROOM, 0, 3);
    MISMATCH(ROOM, 32, 3);
    MISMATCH(ROOM, 39, 3);
    MISMATCH(ROOM, 65, 3);
    MISMATCH(ROOM, ZV_MOST_ROWS, 3);
    MISMATCH(ROOM, 40, 0);
    MISMATCH(ROOM, 40, 2);
    MISMATCH(ROOM, 40, 4);
    clear();
}

/* Bodies that are sound and not canonical: a clean last segment, or any clean one, as a dirty word; a run, dirty words,
 * or a run and its dirty word under two markers; a value for no clean segments; markers that count nothing; a run that
 * is cut before a marker is full. Then bodies that are not sound. */
static void wrong_bodies(void)
{
    static const struct {
        uint32_t rows;
        few body;
    } bodies[] = {
        {40, {2, {0x00020003, 0x000000FF}}},
        {1, {2, {0x00020000, 0x00000001}}},
        {32, {2, {0x00020000, 0x00000000}}},
        {32, {2, {0x00020000, 0xFFFFFFFF}}},
        {96, {4, {0x00060000, 0x1, 0x0, 0x1}}},
        {64, {2, {0x00000003, 0x00000003}}},
        {64, {4, {0x00020000, 0x1, 0x00020000, 0x1}}},
        {64, {3, {0x00000002, 0x00020000, 0x1}}},
        {32, {2, {0x00020001, 0x00000001}}},
        {32, {2, {0x00000000, 0x00000002}}},
        {32, {2, {0x00000002, 0x00000000}}},
        {0, {1, {0x00000000}}},
        {CLEAN_ROWS + 32u, {2, {0x0001FFFC, 0x00000004}}},

        {32, {1, {0x00020000}}},
        {40, {3, {0x00040000, 0x1, 0x180}}},
        {64, {1, {0x00000002}}},
        {32, {1, {0x00000004}}},
    };

    for (size_t i = 0; i < sizeof(bodies) / sizeof(bodies[0]); i++) {
        mismatch(HERE, put(bodies[i].body, bodies[i].rows), ROOM);
    }
    clear();
}

/* ---- what else is gone on with */

/* Other rows and another body, where they pass: they can't be told from those that were left. */
static void swapped(void)
{
    static const few with_row_41 = {3, {0x00040000, 0x00000001, 0x00000280}}, all_set = {1, {0x00000005}},
                     one_behind = {3, {0x00000003, 0x00000001, 0x00000080}};
    zv_append_state state = put(forty, 41);
    zv_written told;

    ACCEPTED(&state, one_set, with_row_41);
    state = put(all_set, 40);
    ACCEPTED(&state, one_set, all_set);
    /* a writer that begins, in a buffer in which other words stand: they stay behind its own */
    put(forty, 40);
    state = zv_begin(out, ROOM);
    told = zv_append(&state, out, ROOM, one_set.rows, one_set.plain.at, one_set.plain.words);
    FINE(told);
    same_state(HERE, state, state_of(ROOM, 1, 1));
    buffer(HERE, one_behind.at, one_behind.words);
    clear();
}

/* A buffer that is too short, and the same body in a longer one. */
static void longer_buffer(void)
{
    static const few more = {4, {0x00060000, 0x00000001, 0x00000080, 0x00000100}};
    static const batch mixed = {56, {2, {0, 1}}};
    static uint32_t small[3];
    zv_append_state state = zv_begin(WORDS(small));
    zv_written told = zv_append(&state, WORDS(small), 40, forty.at + 1, 2);

    FINE(told);
    same_state(HERE, state, state_of(3, 40, 3));
    told = zv_append(&state, WORDS(small), mixed.rows, mixed.plain.at, mixed.plain.words);
    REFUSED(told, ZV_NO_ROOM, 0, 4);
    for (size_t i = 0; i < state.words; i++) {
        out[i] = small[i];
    }
    not_accepted(HERE, state, ROOM, mixed, ZV_STATE_MISMATCH, 0);
    state.room = ROOM;
    ACCEPTED(&state, mixed, more);
    clear();
}

/* With a buffer of length 0 a writer takes no row, and measures. */
static void no_room(void)
{
    static const batch two_mixed = {40, {2, {0x1, 0x80}}};
    zv_append_state state = zv_begin(out, 0);

    same_state(HERE, state, state_of(0, 0, 0));
    ACCEPTED(&state, none, empty);
    NOT_ACCEPTED(state, one_clear, ZV_NO_ROOM, 1);
    NOT_ACCEPTED(state, set_segment, ZV_NO_ROOM, 1);
    NOT_ACCEPTED(state, two_mixed, ZV_NO_ROOM, 3);
    not_accepted(HERE, state, ROOM, none, ZV_STATE_MISMATCH, 0);
}

/* No rows: at the beginning, and behind others. */
static void no_rows(void)
{
    zv_append_state state = zv_begin(out, ROOM);

    ACCEPTED(&state, none, empty);
    ACCEPTED(&state, none, empty);
    state = put(forty, 40);
    ACCEPTED(&state, none, forty);
    clear();
}

/* ---- markers that are full */

/* A marker of as many clean segments as it can count: of either value, of whole segments, and with one just begun. */
static void most_clean(void)
{
    static const few zeros_full = {1, {0x0001FFFE}}, ones_full = {1, {0x0001FFFF}},
                     one_more = {2, {0x0001FFFE, 0x00000002}}, dirty = {2, {0x0003FFFE, 0x00000002}},
                     and_ones = {3, {0x0003FFFE, 0x00000002, 0x00000003}}, ones_more = {2, {0x0001FFFF, 0x00000003}},
                     ones_cut = {2, {0x0003FFFD, 0x00000001}}, ones_and_zeros = {2, {0x0001FFFF, 0x00000002}};
    static const batch thirty_clear = {30, {1, {0}}};
    zv_append_state state = put(zeros_full, CLEAN_ROWS);

    ACCEPTED(&state, clear_segment, one_more);
    state = put(zeros_full, CLEAN_ROWS);
    ACCEPTED(&state, one_clear, one_more);
    /* the segment that was begun is mixed now: its marker goes, and the full one has the dirty word */
    ACCEPTED(&state, one_set, dirty);
    ACCEPTED(&state, thirty_clear, dirty);
    ACCEPTED(&state, set_segment, and_ones);
    state = put(ones_full, CLEAN_ROWS);
    ACCEPTED(&state, set_segment, ones_more);
    state = put(ones_full, CLEAN_ROWS);
    ACCEPTED(&state, clear_segment, ones_and_zeros);
    state = put(ones_full, CLEAN_ROWS - 31u);
    ACCEPTED(&state, one_clear, ones_cut);
    clear();
}

static uint32_t long_body[ZV_MOST_DIRTY + 3u];

/* A body of one marker with as many dirty words as it can count, in a buffer of its own: the batch, how many words that
 * makes, which is refused with one word less, the last dirty word, and the two words behind it. */
static void full_of_dirty(source at, uint32_t rows, batch b, uint64_t words, uint32_t last, uint32_t behind,
                          uint32_t two_behind)
{
    zv_append_state state = state_of(words, rows, ZV_MOST_DIRTY + 1u);
    zv_written told;

    long_body[0] = 0xFFFE0000;
    for (size_t i = 1; i < sizeof(long_body) / sizeof(long_body[0]); i++) {
        long_body[i] = i <= ZV_MOST_DIRTY ? 1 : UNTOUCHED;
    }
    if (words > state.words) {
        state.room = words - 1;
        told = zv_append(&state, long_body, (size_t)state.room, b.rows, b.plain.at, b.plain.words);
        refusal(at, told.number, told.bitmap, told.word, ZV_NO_ROOM, 0, words);
        state.room = words;
    }
    told = zv_append(&state, long_body, (size_t)words, b.rows, b.plain.at, b.plain.words);
    refusal(at, told.number, told.bitmap, told.word, 0, 0, 0);
    same(at, "words", told.words, words);
    same_state(at, state, state_of(words, rows + b.rows, words));
    same(at, "the marker", long_body[0], 0xFFFE0000);
    same(at, "the last dirty word", long_body[ZV_MOST_DIRTY], last);
    same(at, "the word behind it", long_body[ZV_MOST_DIRTY + 1u], behind);
    same(at, "the next word", long_body[ZV_MOST_DIRTY + 2u], two_behind);
}

static void most_dirty(void)
{
    static const batch two_set = {2, {1, {0x3}}};

    full_of_dirty(HERE, DIRTY_ROWS, mixed_segment, 32770, 0x1, 0x00020000, 0x1);
    full_of_dirty(HERE, DIRTY_ROWS, clear_segment, 32769, 0x1, 0x00000002, UNTOUCHED);
    full_of_dirty(HERE, DIRTY_ROWS, none, 32768, 0x1, UNTOUCHED, UNTOUCHED);
    full_of_dirty(HERE, DIRTY_ROWS - 1u, one_set, 32768, 0x80000001, UNTOUCHED, UNTOUCHED);
    full_of_dirty(HERE, DIRTY_ROWS - 1u, two_set, 32769, 0x80000001, 0x00000003, UNTOUCHED);
    full_of_dirty(HERE, DIRTY_ROWS - 30u, mixed_segment, 32769, 0x5, 0x00000002, UNTOUCHED);
}

int main(void)
{
    clear();
    chains();
    row_by_row();
    order();
    bad_batches();
    wrong_states();
    wrong_bodies();
    swapped();
    longer_buffer();
    no_room();
    no_rows();
    most_clean();
    most_dirty();
    printf("ok\n");
    return 0;
}
