/* The box in a firmware: a file to start from. Cameras hand records in, the radio asks for the next one, and a block is
 * renamed while its records wait. The box before this one kept the old name with the queue: no turn ever came to it,
 * and eleven damaged lots had no row behind them. Here they leave, each under its block's new name.
 *
 * `begin`, `camera`, `name_block` and `radio_free` are what a firmware calls from its one main loop; `radio_send` and
 * `call_workshop` are its own. docs/C.md says how to build it. */
#include "box.h"

#include <inttypes.h>
#include <stdbool.h>
#include <stdio.h>

#define LARGEST 1024 /* bytes of the largest record on this line */
#define LOTS 11

/* All the memory that the box has beside the stack. */
static struct box_board board;
static uint32_t ids[BOX_TABLE_ENTRIES];
static uint16_t lens[BOX_TABLE_ENTRIES];

/* ---- What stands around the box */

static unsigned lots_sent;

/* A record goes on the air. */
static void radio_send(const struct box_sent *sent)
{
    printf("slot %2" PRIu64 ": record %" PRIu32 " of block %" PRIu32 ", %u bytes\n", sent->clock, sent->number,
           sent->block, (unsigned)sent->length);
    if (sent->block == 34 && sent->number > 500 && sent->number <= 500 + LOTS) lots_sent++;
}

/* The workshop is called. */
static void call_workshop(const char *why)
{
    printf("ALARM: %s\n", why);
}

/* ---- What to do about each code */

enum action {
    GO_ON,     /* it is done */
    WAIT,      /* nothing to do until something comes: a record, or the next window of the line */
    TRY_LATER, /* keep what was to be handed in, and hand it in again after some serves */
    REFUSE,    /* tell whoever asked that it was wrong; asking again would be refused again */
    STOP       /* no call can go on from here */
};

/* No `default`: the compiler names a code that is missing. */
static enum action action_of(uint8_t code)
{
    switch ((enum box_code)code) {
    case BOX_DONE: /* the call did what its name says */
        return GO_ON;
    case BOX_NO_BLOCK_WAITS: /* every lane is empty: the radio may sleep until a camera's record comes */
        return WAIT;
    case BOX_LIST_FULL: /* a burst's list is full: hand on what it holds, then burst again */
    case BOX_OVER_BUDGET: /* the next record does not fit into this window of the line: burst again in the next */
        return WAIT;
    case BOX_LANE_FULL: /* the camera keeps the record until one of its block's has left */
    case BOX_LANE_NOT_EMPTY: /* serve until the block's lane is empty, then close it */
    case BOX_SHARE_NOT_FREE: /* a closed block's share may still be held: it comes free as the clock goes on */
    case BOX_NO_FREE_PLACE: /* close a block that is not used any more, then open this one */
        return TRY_LATER;
    case BOX_UNKNOWN_BLOCK: /* the sender has a wrong number, or an old one: give it the block's number of today */
    case BOX_NUMBER_IS_OPEN: /* another block has that number, or this block itself */
    case BOX_OUT_OF_RANGE: /* a number that no board can take */
        return REFUSE;
    case BOX_SPOILT: /* something but the calls wrote board or tables: save both for the workshop, then make anew */
    case BOX_CLOCK_SPENT: /* after 2^62 slots: make a new board */
    case BOX_TABLE_LENGTH: /* cannot come: a table here has its 2,048 entries */
        return STOP;
    }
    return STOP; /* no other code is given */
}

/* Says and does what a code asks for, and tells it. */
static enum action handle(const char *call, uint8_t code)
{
    const enum action action = action_of(code);
    if (action == REFUSE || action == TRY_LATER)
        printf("%s: code %u, %s\n", call, (unsigned)code, action == REFUSE ? "refused" : "not now");
    if (action == STOP) call_workshop(call);
    return action;
}

/* ---- What the main loop calls */

/* The season begins: a board, and its blocks with the shares that the growers bought. */
static bool begin(void)
{
    static const struct {
        uint32_t number, share;
    } blocks[] = {{3, 16384}, {12, 4096}, {21, 8192}};
    if (handle("make", box_make(&board, ids, lens, LARGEST)) != GO_ON) return false;
    for (size_t i = 0; i < sizeof blocks / sizeof *blocks; i++) {
        const uint8_t code = box_open(&board, ids, lens, blocks[i].number, blocks[i].share);
        if (handle("open", code) != GO_ON) return false;
    }
    return true;
}

/* A camera hands a record in. After TRY_LATER the camera must keep it: the box has not got it. */
static enum action camera(uint32_t block, uint32_t number, uint16_t length)
{
    return handle("record", box_record(&board, ids, lens, block, number, length));
}

/* A block gets another number, whatever stands in its lane. */
static enum action name_block(uint32_t old_number, uint32_t new_number)
{
    return handle("rename", box_rename(&board, ids, lens, old_number, new_number));
}

/* The radio is free for a record. */
static enum action radio_free(void)
{
    struct box_sent sent;
    const enum action action = handle("serve", box_serve(&board, ids, lens, &sent));
    if (action == GO_ON) radio_send(&sent);
    return action;
}

/* ---- The story of the eleven lots */

int main(void)
{
    if (!begin()) return 1;
    for (uint32_t lot = 1; lot <= LOTS; lot++) camera(12, 500 + lot, 300);
    for (uint32_t other = 1; other <= 3; other++) {
        camera(3, 100 + other, 1000);
        camera(21, 200 + other, 700);
    }
    printf("block 12 is block 34 from now on\n");
    name_block(12, 34);
    if (camera(12, 512, 300) == REFUSE) camera(34, 512, 300); /* a camera that was not told yet */
    while (radio_free() == GO_ON) {
    }
    printf("%u of %u lots left under the new name\n", lots_sent, LOTS);
    return lots_sent == LOTS ? 0 : 1;
}
