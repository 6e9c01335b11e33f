/*
 * The stack that each call needs. The call runs on a painted stack of its own, and what is used of it is all from the
 * lowest byte without paint: by the call, its caller here, and what starts and ends the two, which the first line has
 * alone. A call on an index is asked of one in EWAH and of the same one in WAH. Writes a line for each call, and the
 * most, with exit status 1 if that is not below ZV_MOST_STACK, or if a call was refused, since then it may not have
 * gone all its way.
 *
 *   gcc -std=c99 -Wall -Wextra -Werror -pedantic -Iinclude tests/c/stack.c \
 *       target/staticlib/libzvonurel_c.a -o target/stack && target/stack
 */
#define _XOPEN_SOURCE 700 /* for ucontext.h */

#include "zvonurel.h"

#include "shared.h"

#include <string.h>
#include <ucontext.h>

/* Far more than the bound, so that a call above it is measured too. */
#define STACK_BYTES (16u * ZV_MOST_STACK)
#define PAINT 0xA5
/* No call gives this number, so that it stays where none was run. */
#define UNTOLD 99u

/* Bitmap k has a run of k segments, dirty words, a run of the other value, and a dirty word, which has a pad bit. */
#define SEGMENTS (ZV_MOST_BITMAPS + 6u)
#define LAST (ZV_MOST_BITMAPS - 1u)
#define ROWS (SEGMENTS * ZV_WORD_BITS - 1u)
#define FIRST_DIRTY 3u
#define BODY_WORDS (1u + FIRST_DIRTY + 2u)
#define CONTENTS_END (ZV_HEAD_WORDS + ZV_ENTRY_WORDS * ZV_MOST_BITMAPS)
#define MIXED 0x12345678u
/* The first batch of a writer ends behind the first row of a segment. */
#define FIRST_ROWS (SEGMENTS / 2u * ZV_WORD_BITS + 1u)
#define MARKER(value, clean, dirty) ((value) + 2u * (clean) + 2u * (ZV_MOST_CLEAN + 1u) * (dirty))

static uint32_t all[CONTENTS_END + ZV_MOST_BITMAPS * BODY_WORDS];
static uint32_t all_in_wah[ZV_WAH_MOST_NEW_INDEX_WORDS(ROWS, ZV_MOST_BITMAPS)];
static uint32_t list[ZV_MOST_NAMED], table[ZV_MOST_NAMED + 1u], plain[SEGMENTS], rest[SEGMENTS];
static uint32_t longest[ZV_MOST_VALUE_COLUMN], first[ZV_MOST_COLUMN], second[ZV_MOST_COLUMN];
/* Either format's: in WAH bitmaps of so many rows can have more words. */
static uint32_t out[ZV_WAH_MOST_NEW_INDEX_WORDS(ROWS, ZV_MOST_BITMAPS)];
static size_t room;
static unsigned char stack[STACK_BYTES];

/* The index that is asked, and a body of it. */
typedef struct {
    const uint32_t *index;
    size_t words;
    zv_part body;
} asked;

static asked in_ewah, in_wah, now;

/* Every answer has its refusal at the front, where `checked` has it. */
static union {
    zv_checked checked;
    zv_flag flag;
    zv_number number;
    zv_column_value value;
    zv_signed_column_value signed_value;
    zv_written written;
    zv_answered answered;
    zv_part part;
    zv_histogram_counts histogram;
} told;

#define BODY now.index + now.body.start, (size_t)now.body.length, ROWS
#define INDEX now.index, now.words
#define BODY_CALLS(X) \
    X(checked, zv_check_body, BODY) \
    X(flag, zv_body_row, BODY, ROWS - 1u) \
    X(number, zv_body_count, BODY) \
    X(number, zv_body_nth, BODY, 40u) \
    X(written, zv_expand, BODY, out, room) \
    X(written, zv_compress, ROWS, WORDS(plain), out, room) \
    X(written, zv_body_to_ewah, BODY, out, room) \
    X(written, zv_body_to_wah, BODY, out, room)
#define WAH_BODY_CALLS(X) \
    X(checked, zv_wah_check_body, BODY) \
    X(flag, zv_wah_body_row, BODY, ROWS - 1u) \
    X(number, zv_wah_body_count, BODY) \
    X(number, zv_wah_body_nth, BODY, 40u) \
    X(written, zv_wah_expand, BODY, out, room) \
    X(written, zv_wah_compress, ROWS, WORDS(plain), out, room) \
    X(written, zv_wah_body_to_ewah, BODY, out, room) \
    X(written, zv_wah_body_to_wah, BODY, out, room)
#define INDEX_CALLS(X) \
    X(checked, zv_check, INDEX) \
    X(checked, zv_bitmap_refusal, INDEX, LAST) \
    X(part, zv_bitmap, INDEX, LAST) \
    X(flag, zv_row, INDEX, LAST, ROWS - 1u) \
    X(number, zv_count, INDEX, LAST) \
    X(number, zv_nth, INDEX, LAST, 40u) \
    X(written, zv_expand_bitmap, INDEX, LAST, out, room) \
    X(written, zv_bitmap_to_ewah, INDEX, LAST, out, room) \
    X(written, zv_bitmap_to_wah, INDEX, LAST, out, room) \
    X(written, zv_index_to_ewah, INDEX, out, room) \
    X(written, zv_index_to_wah, INDEX, out, room) \
    X(written, zv_and, INDEX, 1u, LAST - 1u, out, room) \
    X(written, zv_or, INDEX, 1u, LAST - 1u, out, room) \
    X(written, zv_xor, INDEX, 1u, LAST - 1u, out, room) \
    X(written, zv_and_not, INDEX, 1u, LAST - 1u, out, room) \
    X(written, zv_not, INDEX, LAST, out, room) \
    X(answered, zv_threshold, INDEX, WORDS(list), 20u, out, room) \
    X(answered, zv_symmetric, INDEX, WORDS(list), WORDS(table), out, room) \
    X(histogram, zv_histogram, INDEX, WORDS(list)) \
    X(value, zv_value, INDEX, WORDS(longest), 0u) \
    X(signed_value, zv_signed_value, INDEX, WORDS(longest), 0u) \
    X(written, zv_largest, INDEX, WORDS(first), 20u, out, room) \
    X(written, zv_smallest, INDEX, WORDS(first), 20u, out, room) \
    X(written, zv_sum, INDEX, WORDS(first), WORDS(second), out, room) \
    X(written, zv_signed_difference, INDEX, WORDS(first), WORDS(second), out, room) \
    X(written, zv_smaller, INDEX, WORDS(first), WORDS(second), out, room) \
    X(written, zv_difference_or_zero, INDEX, WORDS(first), WORDS(second), out, room)

#define RUN(kind, name, ...) \
    static void run_##name(void) \
    { \
        told.kind = name(__VA_ARGS__); \
    }
#define IN_EWAH(kind, name, ...) {#name, "EWAH", &in_ewah, run_##name},
#define IN_WAH(kind, name, ...) {#name, "WAH", &in_wah, run_##name},

BODY_CALLS(RUN)

static zv_append_state state;

/* It is not refused, and so has no number. */
static void run_zv_begin(void)
{
    state = zv_begin(out, room);
    told.checked.number = ZV_FINE;
}

/* All rows at once where there is no room, which tells how many words they need; else by two batches. */
static void run_zv_append(void)
{
    state = zv_begin(out, room);
    if (room == 0) {
        told.written = zv_append(&state, out, room, ROWS, WORDS(plain));
        return;
    }
    told.written = zv_append(&state, out, room, FIRST_ROWS, plain, ZV_SEGMENTS(FIRST_ROWS));
    if (told.written.number == ZV_FINE) {
        told.written = zv_append(&state, out, room, ROWS - FIRST_ROWS, rest, ZV_SEGMENTS(ROWS - FIRST_ROWS));
    }
}

WAH_BODY_CALLS(RUN)
INDEX_CALLS(RUN)

static void run_nothing(void)
{
    told.checked.number = ZV_FINE;
}

/* An index of ZV_MOST_BITMAPS such bitmaps, the list of them all, a table that is 1 at every other number. */
static void prepare(void)
{
    const uint32_t head[ZV_HEAD_WORDS] = {ZV_INDEX_KIND, ROWS, ZV_MOST_BITMAPS};

    memcpy(all, head, sizeof(head));
    for (uint32_t k = 0; k < ZV_MOST_BITMAPS; k++) {
        const uint32_t start = CONTENTS_END + k * BODY_WORDS, entry[ZV_ENTRY_WORDS] = {start, BODY_WORDS};
        const uint32_t body[BODY_WORDS] = {
            MARKER(k % 2u, k, FIRST_DIRTY), MIXED, ~MIXED, MIXED << k % 8u,
            MARKER(1u - k % 2u, SEGMENTS - k - FIRST_DIRTY - 1u, 1u), MIXED,
        };
        memcpy(all + ZV_HEAD_WORDS + k * ZV_ENTRY_WORDS, entry, sizeof(entry));
        memcpy(all + start, body, sizeof(body));
        list[k] = k;
        table[k] = k % 2u;
        plain[k] = k % 4u == 0 ? MIXED : 0;
    }
    /* behind the first batch, whose last word has no row set */
    for (uint32_t k = FIRST_ROWS / ZV_WORD_BITS, i = 0; k < SEGMENTS; k++, i++) {
        rest[i] = plain[k] >> 1 | (k + 1u < SEGMENTS ? plain[k + 1u] << 31 : 0);
    }
}

/* Columns of the most slices, each of which is the existence bitmap itself. */
static void prepare_columns(void)
{
    for (uint32_t i = 0; i < ZV_MOST_VALUE_COLUMN; i++) {
        longest[i] = LAST;
    }
    for (uint32_t i = 0; i < ZV_MOST_COLUMN; i++) {
        first[i] = 1u;
        second[i] = LAST - 1u;
    }
}

/* An index, with the body of its first bitmap. */
static asked with_body(const uint32_t *index, size_t words)
{
    const asked a = {index, words, zv_bitmap(index, words, 0u)};

    SAME("the number of a bitmap", a.body.number, ZV_FINE);
    return a;
}

/* The same bitmaps in either format. */
static void prepare_formats(void)
{
    const zv_written rewritten = zv_index_to_wah(WORDS(all), WORDS(all_in_wah));

    SAME("the number of a rewritten index", rewritten.number, ZV_FINE);
    in_ewah = with_body(WORDS(all));
    in_wah = with_body(all_in_wah, (size_t)rewritten.words);
}

/* How many bytes of the stack were used. */
static size_t used_by(void (*call)(void))
{
    static ucontext_t here, there;
    size_t untouched = 0;

    told.checked.number = UNTOLD;
    memset(stack, PAINT, sizeof(stack));
    SAME("getcontext", getcontext(&there), 0);
    there.uc_stack.ss_sp = stack;
    there.uc_stack.ss_size = sizeof(stack);
    there.uc_link = &here;
    makecontext(&there, call, 0);
    SAME("swapcontext", swapcontext(&here, &there), 0);
    while (untouched < sizeof(stack) && stack[untouched] == PAINT) {
        untouched++;
    }
    return sizeof(stack) - untouched;
}

/* The most that a call used: with no room, where it measures, with just the room needed, and with room for all. */
static size_t most_used(void (*call)(void))
{
    size_t rooms[] = {0, 0, sizeof(out) / sizeof(out[0])}, most = 0;

    for (size_t i = 0; i < sizeof(rooms) / sizeof(rooms[0]); i++) {
        room = rooms[i];
        size_t used = used_by(call);
        most = used > most ? used : most;
        if (i == 0 && told.checked.number == ZV_NO_ROOM) {
            rooms[1] = told.checked.word;
        } else {
            SAME("number", told.checked.number, ZV_FINE);
        }
    }
    return most;
}

int main(void)
{
    static const struct {
        const char *name, *format;
        const asked *of;
        void (*run)(void);
    } calls[] = {
        {"(no call)", "", &in_ewah, run_nothing}, BODY_CALLS(IN_EWAH)
        {"zv_begin", "EWAH", &in_ewah, run_zv_begin}, {"zv_append", "EWAH", &in_ewah, run_zv_append},
        WAH_BODY_CALLS(IN_WAH) INDEX_CALLS(IN_EWAH) INDEX_CALLS(IN_WAH)
    };
    size_t most = 0;

    prepare();
    prepare_columns();
    prepare_formats();
    for (size_t i = 0; i < sizeof(calls) / sizeof(calls[0]); i++) {
        now = *calls[i].of;
        size_t used = most_used(calls[i].run);
        most = used > most ? used : most;
        printf("%-21s %-4s %6zu bytes\n", calls[i].name, calls[i].format, used);
    }
    printf("the most is %zu bytes; the header says less than %u\n", most, ZV_MOST_STACK);
    return most < ZV_MOST_STACK ? 0 : 1;
}
