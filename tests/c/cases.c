/* Plays a case file by the box's functions for C: reads its byte form (docs/CASES.md) from standard input, and writes
 * the answers that the second program's `cases` writes.
 *
 * The functions take tables of 2,048 entries alone. Where a case lends tables of another length, no function is called
 * and the answer 3 is this program's own. They offer no test of a spoilt board: `spoilt` closes block 0, which no block
 * is, and which is refused by 2 on a spoilt board and by 6 on any other. */
#include "box.h"

#include <inttypes.h>
#include <stdbool.h>
#include <stdio.h>
#include <stdlib.h>
#include <string.h>

#define MOST 4096 /* entries that a case may give a table or a list */
#define STEPS 29  /* one more than the last step's number */

static struct box_board board;
static uint32_t ids[MOST];
static uint16_t lens[MOST];
static uint32_t list[MOST];
static uint64_t ids_length, lens_length;

/* ---- The fields of a board, in the order of their digest */

struct field {
    int step;
    const char *word;
    size_t offset, width, entries;
};

#define FIELD(step, word, member, entries) \
    {step, word, offsetof(struct box_board, member), sizeof(((struct box_board *)0)->member) / (entries), entries}

static const struct field fields[] = {
    FIELD(9, "number", numbers, BOX_PLACES),
    FIELD(10, "share", shares, BOX_PLACES),
    FIELD(11, "deficit", deficits, BOX_PLACES),
    FIELD(12, "start", starts, BOX_PLACES),
    FIELD(13, "count", counts, BOX_PLACES),
    FIELD(14, "ready", ready, BOX_PLACES),
    FIELD(15, "next", next, BOX_PLACES),
    FIELD(16, "head", heads, BOX_CLASSES),
    FIELD(17, "tail", tails, BOX_CLASSES),
    FIELD(18, "held", held, BOX_CLASSES),
    FIELD(3, "largest", largest, 1),
    FIELD(4, "clock", clock, 1),
    FIELD(5, "active", active, 1),
    FIELD(6, "pending", pending, 1),
    FIELD(7, "slot", slot, 1),
    FIELD(8, "left", left, 1),
};

#define FIELDS (sizeof fields / sizeof *fields)

static uint64_t value_of(const struct field *field, size_t entry)
{
    const unsigned char *at = (const unsigned char *)&board + field->offset + entry * field->width;
    switch (field->width) {
    case 1: return *at;
    case 2: return *(const uint16_t *)(const void *)at;
    case 4: return *(const uint32_t *)(const void *)at;
    default: return *(const uint64_t *)(const void *)at;
    }
}

static void set_field(const struct field *field, size_t entry, uint64_t value)
{
    unsigned char *at = (unsigned char *)&board + field->offset + entry * field->width;
    switch (field->width) {
    case 1: *at = (uint8_t)value; break;
    case 2: *(uint16_t *)(void *)at = (uint16_t)value; break;
    case 4: *(uint32_t *)(void *)at = (uint32_t)value; break;
    default: *(uint64_t *)(void *)at = value; break;
    }
}

/* ---- The digest */

static uint64_t digest;

static void take(uint64_t value)
{
    for (int shift = 48; shift >= 0; shift -= 16)
        digest = (digest * 65599 + ((value >> shift) & 0xffff) + 1) % 4294967291u;
}

static void take_lent(void)
{
    digest = 0;
    for (size_t f = 0; f < FIELDS; f++)
        for (size_t entry = 0; entry < fields[f].entries; entry++) take(value_of(&fields[f], entry));
    take(ids_length);
    for (size_t entry = 0; entry < ids_length; entry++) take(ids[entry]);
    take(lens_length);
    for (size_t entry = 0; entry < lens_length; entry++) take(lens[entry]);
}

static void end_line(void)
{
    printf(" #%" PRIu64 "\n", digest);
}

static void end_answer(void)
{
    take_lent();
    end_line();
}

/* ---- The steps */

static bool tables_fit(void)
{
    return ids_length == BOX_TABLE_ENTRIES && lens_length == BOX_TABLE_ENTRIES;
}

/* A call on the lent tables, or 3. */
#define LENT(call) (tables_fit() ? (unsigned)(call) : (unsigned)BOX_TABLE_LENGTH)

static void set_lengths(uint64_t numbers, uint64_t lengths)
{
    ids_length = numbers;
    lens_length = lengths;
    memset(ids + numbers, 0, (MOST - numbers) * sizeof *ids);
    memset(lens + lengths, 0, (MOST - lengths) * sizeof *lens);
}

static void begin_case(uint64_t number)
{
    memset(&board, 0, sizeof board);
    set_lengths(0, 0);
    set_lengths(BOX_TABLE_ENTRIES, BOX_TABLE_ENTRIES);
    printf("case %" PRIu64 "\n", number);
}

static void set_entry(uint64_t entry, uint32_t number, uint16_t length)
{
    if (entry < ids_length) ids[entry] = number;
    if (entry < lens_length) lens[entry] = length;
}

static uint8_t make(uint32_t largest)
{
    if (tables_fit()) return box_make(&board, ids, lens, largest);
    memset(&board, 0, sizeof board);
    return BOX_TABLE_LENGTH;
}

static void answer(const char *word, unsigned code)
{
    printf("%s %u", word, code);
    end_answer();
}

/* What a serve tells stands over bytes of 255 before the call; after a refusal it must be all zeros. */
static void serve(void)
{
    struct box_sent sent = {UINT32_MAX, UINT32_MAX, UINT16_MAX, UINT64_MAX};
    const unsigned code = LENT(box_serve(&board, ids, lens, &sent));
    printf("serve %u", code);
    if (code == BOX_DONE)
        printf(" %" PRIu32 " %" PRIu32 " %u %" PRIu64, sent.block, sent.number, (unsigned)sent.length, sent.clock);
    else if (code != BOX_TABLE_LENGTH && (sent.block || sent.number || sent.length || sent.clock))
        printf(" told something");
    end_answer();
}

static void burst(uint64_t bytes, uint64_t room)
{
    struct box_total total = {UINT64_MAX, UINT64_MAX};
    memset(list, 255, sizeof list);
    const unsigned code = LENT(box_burst(&board, ids, lens, bytes, list, room, &total));
    if (code == BOX_TABLE_LENGTH) total = (struct box_total){0, 0};
    printf("burst %" PRIu64 " %" PRIu64 " %u", total.count, total.bytes, code);
    take_lent();
    take(room);
    for (size_t entry = 0; entry < room; entry++) take(list[entry]);
    end_line();
}

static void show(void)
{
    for (size_t f = 0; f < FIELDS; f++)
        for (size_t entry = 0; entry < fields[f].entries; entry++) {
            const uint64_t value = value_of(&fields[f], entry);
            if (value == 0) continue;
            printf("%s ", fields[f].word);
            if (fields[f].entries > 1) printf("%zu ", entry);
            printf("%" PRIu64 "\n", value);
        }
    printf("tables %" PRIu64 " %" PRIu64 "\n", ids_length, lens_length);
    for (size_t entry = 0; entry < MOST; entry++)
        if (ids[entry] || lens[entry]) printf("entry %zu %" PRIu32 " %u\n", entry, ids[entry], (unsigned)lens[entry]);
    printf("show");
    end_answer();
}

/* ---- The byte form */

static uint64_t operand(void)
{
    unsigned char bytes[8];
    uint64_t value = 0;
    if (fread(bytes, 1, sizeof bytes, stdin) != sizeof bytes) {
        fprintf(stderr, "a step is cut\n");
        exit(1);
    }
    for (size_t i = 0; i < sizeof bytes; i++) value = value << 8 | bytes[i];
    return value;
}

static void set_raw(int step)
{
    for (size_t f = 0; f < FIELDS; f++)
        if (fields[f].step == step) {
            const size_t entry = fields[f].entries > 1 ? operand() : 0;
            set_field(&fields[f], entry, operand());
            return;
        }
    fprintf(stderr, "no step %d\n", step);
    exit(1);
}

static void play(int step)
{
    static const int operands[STEPS] = {
        [1] = 1, [2] = 2, [19] = 3, [20] = 1, [21] = 2, [22] = 2, [23] = 1, [24] = 3, [26] = 2};
    uint64_t o[3] = {0, 0, 0};
    for (int n = 0; step < STEPS && n < operands[step]; n++) o[n] = operand();
    const uint32_t a = (uint32_t)o[0], b = (uint32_t)o[1];
    switch (step) {
    case 1: begin_case(o[0]); break;
    case 2: set_lengths(o[0], o[1]); break;
    case 19: set_entry(o[0], b, (uint16_t)o[2]); break;
    case 20: answer("make", make(a)); break;
    case 21: answer("open", LENT(box_open(&board, ids, lens, a, b))); break;
    case 22: answer("rename", LENT(box_rename(&board, ids, lens, a, b))); break;
    case 23: answer("close", LENT(box_close(&board, ids, lens, a))); break;
    case 24: answer("record", LENT(box_record(&board, ids, lens, a, b, (uint16_t)o[2]))); break;
    case 25: serve(); break;
    case 26: burst(o[0], o[1]); break;
    case 27: answer("spoilt", LENT(box_close(&board, ids, lens, 0) == BOX_SPOILT)); break;
    case 28: show(); break;
    default: set_raw(step);
    }
}

int main(void)
{
    for (int step = getchar(); step != EOF; step = getchar()) play(step);
    return 0;
}
