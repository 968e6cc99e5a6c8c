/* Boards and tables that no run of calls leaves, and feeders that no feeding leaves, held against every call: each
 * answers BOX_SPOILT, tells zeros, and changes no byte of board, feeder, tables and list. Buffers that are too short,
 * held against box_listing. It says what is wrong and exits with 1, or prints how many it tried. */
#include "box.h"

#include <stdio.h>
#include <stdlib.h>
#include <string.h>

#define BLOCKS 24 /* open blocks of the busy board, so that places are free too */
#define ROOM 8

struct lent {
    struct box_board board;
    struct box_feeder feeder;
    uint32_t ids[BOX_TABLE_ENTRIES];
    uint16_t lens[BOX_TABLE_ENTRIES];
    uint32_t list[ROOM];
    uint8_t out[BOX_LEAST_PIECE];
};

static struct lent busy, lent, before;
static unsigned tried;

static void check(int holds, const char *what, const char *where)
{
    if (holds) return;
    printf("%s: %s\n", where, what);
    exit(1);
}

/* ---- A board that is spoilt */

static void refused(uint8_t code, const char *call, const char *where)
{
    check(code == BOX_SPOILT, call, where);
    check(memcmp(&lent, &before, sizeof lent) == 0, "a byte was changed", where);
}

/* Both calls of the feeder that is lent now, with a whole field and without a byte. */
static void feeder_refuses(const char *where)
{
    static const uint8_t serve[] = {5, 0, 0};
    struct box_feeder *feeder = &lent.feeder;
    struct box_fed fed;
    tried++;
    before = lent;
    for (uint64_t length = 0; length <= sizeof serve; length += sizeof serve) {
        fed.taken = fed.used = 1;
        refused(box_feed(feeder, lent.ids, lent.lens, serve, length, lent.out, sizeof lent.out, &fed),
                "feed is not refused", where);
        check(!fed.taken && !fed.used, "feed tells something", where);
    }
    fed.taken = fed.used = 1;
    refused(box_finish(feeder, lent.ids, lent.lens, lent.out, sizeof lent.out, &fed), "finish is not refused", where);
    check(!fed.taken && !fed.used, "finish tells something", where);
}

/* Every call on what is lent now; a mark of a feeder is yes if it is any number but 0. */
static void all_refuse(const char *where)
{
    struct box_sent sent = {1, 1, 1, 1};
    struct box_total total = {1, 1};
    tried++;
    before = lent;
    refused(box_open(&lent.board, lent.ids, lent.lens, 5, 1), "open is not refused", where);
    refused(box_rename(&lent.board, lent.ids, lent.lens, 1, 5), "rename is not refused", where);
    refused(box_close(&lent.board, lent.ids, lent.lens, 1), "close is not refused", where);
    refused(box_record(&lent.board, lent.ids, lent.lens, 1, 9, 64), "record is not refused", where);
    refused(box_serve(&lent.board, lent.ids, lent.lens, &sent), "serve is not refused", where);
    check(!sent.block && !sent.number && !sent.length && !sent.clock, "serve tells something", where);
    refused(box_burst(&lent.board, lent.ids, lent.lens, 4096, lent.list, ROOM, &total), "burst is not refused", where);
    check(!total.count && !total.bytes, "burst tells something", where);
    memset(&lent.feeder, 0, sizeof lent.feeder);
    memcpy(&lent.feeder.board, &lent.board, sizeof lent.board);
    lent.feeder.made = 200;
    feeder_refuses(where);
}

/* Twenty-four blocks with the numbers 1, 2, 4 .. and shares of many classes, most of them waiting, a slot open. */
static void make_busy(void)
{
    struct box_sent sent;
    int codes = box_make(&busy.board, busy.ids, busy.lens, 1024);
    for (uint32_t i = 0; i < BLOCKS; i++) {
        codes |= box_open(&busy.board, busy.ids, busy.lens, 1u << i, i < 12 ? 4096 : 1u << (i - 12));
        for (uint32_t n = 0; n < i % 5; n++)
            codes |= box_record(&busy.board, busy.ids, busy.lens, 1u << i, 100 * i + n, (uint16_t)(64 + n));
    }
    for (int n = 0; n < 4; n++) codes |= box_serve(&busy.board, busy.ids, busy.lens, &sent);
    check(codes == BOX_DONE && busy.board.slot != 0, "is not made", "the busy board");
    memset(busy.list, 255, sizeof busy.list);
}

/* The last bit of each entry of each field is always 0 on a board, but for a block's number. */
#define CHANGE_EACH(field, entries, bits) \
    for (size_t entry = 0; entry < (entries); entry++) { \
        lent = busy; \
        (&lent.board.field)[entry] ^= (bits); \
        all_refuse(#field); \
    }

static void change_bits(void)
{
    for (size_t place = 0; place < BOX_PLACES; place++) { /* an open block's number becomes 0, a free place's 1 */
        lent = busy;
        lent.board.numbers[place] ^= place < BLOCKS ? 1u << place : 1u;
        all_refuse("numbers");
    }
    CHANGE_EACH(shares[0], BOX_PLACES, UINT32_C(1) << 31)
    CHANGE_EACH(deficits[0], BOX_PLACES, UINT64_C(1) << 63)
    CHANGE_EACH(starts[0], BOX_PLACES, 1u << 15)
    CHANGE_EACH(counts[0], BOX_PLACES, 1u << 15)
    CHANGE_EACH(ready[0], BOX_PLACES, UINT64_C(1) << 63)
    CHANGE_EACH(next[0], BOX_PLACES, 1u << 7)
    CHANGE_EACH(heads[0], BOX_CLASSES, 1u << 7)
    CHANGE_EACH(tails[0], BOX_CLASSES, 1u << 7)
    CHANGE_EACH(held[0], BOX_CLASSES, UINT32_C(1) << 31)
    CHANGE_EACH(largest, 1, UINT32_C(1) << 31)
    CHANGE_EACH(clock, 1, UINT64_C(1) << 63)
    CHANGE_EACH(active, 1, UINT32_C(1) << 31)
    CHANGE_EACH(pending, 1, UINT32_C(1) << 31)
    CHANGE_EACH(slot, 1, 1u << 7)
    CHANGE_EACH(left, 1, UINT64_C(1) << 63)
}

/* Every single bit of a board, padding too: block 0 is never open, so a close of it is refused by 2 or 6. */
static void change_every_bit(void)
{
    for (size_t bit = 0; bit < 8 * sizeof busy.board; bit++) {
        lent = busy;
        ((unsigned char *)&lent.board)[bit / 8] ^= (unsigned char)(1u << bit % 8);
        before = lent;
        const uint8_t code = box_close(&lent.board, lent.ids, lent.lens, 0);
        if (bit % 8 == 0) tried++;
        check(code == BOX_SPOILT || code == BOX_UNKNOWN_BLOCK, "another code", "one bit");
        check(memcmp(&lent, &before, sizeof lent) == 0, "a byte was changed", "one bit");
    }
}

static void never_made(void)
{
    static const int fillings[] = {0, 0xa5, 0x5a, 255};
    for (size_t i = 0; i < sizeof fillings / sizeof *fillings; i++) {
        memset(&lent, fillings[i], sizeof lent);
        all_refuse("a board that was never made");
    }
    srand(1);
    for (int n = 0; n < 1000; n++) {
        for (size_t i = 0; i < sizeof lent; i++) ((unsigned char *)&lent)[i] = (unsigned char)(rand() >> 4);
        all_refuse("a board of random bytes");
    }
}

static void spoilt_tables(void)
{
    lent = busy;
    memset(lent.ids, 255, sizeof lent.ids);
    memset(lent.lens, 255, sizeof lent.lens);
    all_refuse("tables of 255");
}

/* A making that is refused stores the board of all zeros, and leaves the tables. */
static void refused_makings(void)
{
    static const uint32_t sizes[] = {0, 63, 2049, UINT32_MAX};
    for (size_t i = 0; i < sizeof sizes / sizeof *sizes; i++) {
        lent = busy;
        before = busy;
        memset(&before.board, 0, sizeof before.board);
        check(box_make(&lent.board, lent.ids, lent.lens, sizes[i]) == BOX_OUT_OF_RANGE, "is not refused", "make");
        check(memcmp(lent.ids, before.ids, sizeof lent.ids) == 0, "a number was changed", "make");
        check(memcmp(lent.lens, before.lens, sizeof lent.lens) == 0, "a length was changed", "make");
        all_refuse("a refused making");
    }
}

/* ---- Feeders with a good board that no feeding leaves, and those beside them that one does */

static void feed_on(uint64_t at, uint64_t came, uint64_t sent, const uint8_t *kept, size_t count)
{
    lent = busy;
    memset(&lent.feeder, 0, sizeof lent.feeder);
    memcpy(&lent.feeder.board, &busy.board, sizeof busy.board);
    memcpy(lent.feeder.kept, kept, count);
    lent.feeder.at = at;
    lent.feeder.came = came;
    lent.feeder.sent = sent;
    lent.feeder.made = 1;
}

/* With no byte of a fragment nothing is done, and no number of the feeder is another. */
static void goes_on(const char *where)
{
    struct box_fed fed = {1, 1};
    const struct box_feeder *is = &lent.feeder, *was = &before.feeder;
    tried++;
    before = lent;
    const uint8_t code = box_feed(&lent.feeder, lent.ids, lent.lens, lent.out, 0, lent.out + 1, 0, &fed);
    check(code == BOX_DONE, "is refused", where);
    check(!fed.taken && !fed.used, "something is told", where);
    check(is->at == was->at && is->came == was->came && is->sent == was->sent, "a number is another", where);
    check(is->made == was->made && is->over == was->over, "a mark is another", where);
    check(memcmp(is->kept, was->kept, sizeof is->kept) == 0, "a byte that is kept is another", where);
}

static void unfit_feeders(void)
{
    static const uint8_t none[1] = {0}, unknown[] = {7}, second_l[] = {6}, close[] = {2, 0, 4, 0, 0, 0, 1},
                         wrong_length[] = {2, 0, 5}, passed[] = {128, 255, 255};
    const uint64_t end = UINT64_C(1) << 48;
    feed_on(end, 0, 0, none, 1), goes_on("an offset of 2^48");
    feed_on(end + 1, 0, 0, none, 1), feeder_refuses("an offset past 2^48");
    feed_on(end - 6, 6, 0, close, 7), goes_on("a field up to 2^48");
    feed_on(end - 5, 6, 0, close, 7), feeder_refuses("a field past 2^48");
    feed_on(30, 6, 0, close, 7), goes_on("all but the last byte");
    feed_on(30, 7, 0, close, 7), feeder_refuses("a whole field");
    feed_on(30, 1, 0, unknown, 1), feeder_refuses("a tag that is none");
    feed_on(30, 1, 0, second_l, 1), feeder_refuses("a second L");
    feed_on(30, 2, 0, wrong_length, 3), goes_on("a length that has not come");
    feed_on(30, 3, 0, wrong_length, 3), feeder_refuses("a wrong length");
    feed_on(30, 65537, 0, passed, 3), goes_on("a value passed over, but for its last byte");
    feed_on(30, 65538, 0, passed, 3), feeder_refuses("a value passed over");
    feed_on(30, UINT64_MAX, 0, passed, 3), feeder_refuses("more bytes than there are");
    feed_on(30, 0, 10 * 65536 + 65535, none, 1), goes_on("as many bytes sent as ten fields can send");
    feed_on(30, 0, 11 * 65536, none, 1), feeder_refuses("more bytes sent than ten fields can send");
    feed_on(30, 0, UINT64_MAX, none, 1), feeder_refuses("all bytes sent");
    memset(&lent.feeder, 255, sizeof lent.feeder); /* it is over, so nothing else is looked at */
    struct box_fed fed = {1, 1};
    check(box_feed(&lent.feeder, lent.ids, lent.lens, passed, 3, lent.out, 0, &fed) == BOX_DONE, "is refused", "over");
    check(fed.taken == 3 && !fed.used && lent.feeder.over, "does not take all", "over");
    tried++;
}

/* ---- box_listing with little room */

/* L 100, open 11 with 32,768, a record, two serves. */
static const uint8_t log_bytes[] = {6, 0, 2, 0, 100, 1, 0, 8, 0, 0, 0, 11, 0, 0, 128, 0, 4, 0, 10,
                                    0, 0, 0, 11, 0, 0, 0, 1, 0, 100, 5, 0, 0, 5, 0, 0};
static const char listing[] = "open 11 0\nin 1 0\nout 11 1 100 2\nout - 1\nend 3 100 0\n";

static void little_room(void)
{
    const uint64_t whole = sizeof listing - 1;
    for (uint64_t piece_length = 0; piece_length <= 128; piece_length++, tried++)
        for (uint64_t room = 0; room <= 2 * whole; room++) {
            uint8_t piece[128], out[sizeof listing * 2];
            memset(out, 255, sizeof out);
            const uint64_t written = box_listing(log_bytes, sizeof log_bytes, piece, piece_length, out, room);
            check(written <= room && written <= whole, "too much is written", "box_listing");
            check(memcmp(out, listing, written) == 0, "another listing", "box_listing");
            check(piece_length >= BOX_LEAST_PIECE || written == 0, "a piece under 64 bytes", "box_listing");
            check(piece_length < BOX_LEAST_PIECE || room < whole || written == whole, "not the whole", "box_listing");
            for (size_t i = written; i < sizeof out; i++) check(out[i] == 255, "a byte behind it", "box_listing");
        }
}

int main(void)
{
    never_made();
    make_busy();
    change_bits();
    change_every_bit();
    spoilt_tables();
    refused_makings();
    unfit_feeders();
    little_room();
    printf("%u\n", tried);
    return 0;
}
