/* The box for programs in C and C++: up to 64 blocks on one slow line, each with a lane of up to 32 waiting records.
 *
 * A board is one struct, beside two tables with the waiting records' numbers (`ids`) and lengths (`lens`). The caller
 * owns all three, makes the board with box_make and passes the three to every call. No call allocates, keeps a pointer,
 * reads a clock or waits; each ends, and answers with a code. docs/C.md: how to build and link, and what is proved.
 *
 * What a caller must keep, since no proof sees a program in C:
 *   1. Every pointer is valid and aligned for its type, with as many entries behind it as is declared or passed.
 *   2. Nothing is passed twice in one call: board, tables, answers, lists and buffers do not overlap.
 *   3. One call at a time on a board and its tables; an interrupt that calls while a call runs counts as a second one.
 *   4. Board and tables stay together, and each call is passed them as the call before left them.
 *   5. The calls alone write the board's fields and the tables; to read them (print, dump, save) is free.
 * Of what stands in them nothing is asked: a spoilt board is answered BOX_SPOILT, and nothing is changed.
 */
#ifndef BOX_H
#define BOX_H

#include <stddef.h>
#include <stdint.h>

#ifdef __cplusplus
extern "C" {
#endif

/* ---- The numbers of the box */

#define BOX_PLACES 64             /* places for blocks */
#define BOX_LANE_DEPTH 32         /* records that a lane holds at most */
#define BOX_TABLE_ENTRIES 2048    /* entries of each table: 32 for each place */
#define BOX_CLASSES 17            /* classes of shares, 0 to 16 */
#define BOX_LEAST_LARGEST 64      /* L, the largest record, is 64 .. */
#define BOX_GREATEST_LARGEST 2048 /* .. to 2,048 bytes */
#define BOX_WHOLE_LINE 65536      /* a share is 1 to 65,536, in 65,536ths of the line */
#define BOX_FIELD_ROOM 13         /* bytes that are kept of a log's unfinished field at most */
#define BOX_LEAST_PIECE 64        /* box_feed, box_finish and box_listing need so many bytes to write to */

/* ---- The codes that the box gives, in the order in which a call checks for them. Each is given exactly when: */

enum box_code {
    BOX_DONE = 0,            /* done (all calls but a burst) */
    BOX_TABLE_LENGTH = 3,    /* a lent table hasn't 2,048 entries (never given here: the declarations fix the length) */
    BOX_SPOILT = 2,          /* the board is spoilt (all calls but make), or a feeder is none that a call leaves */
    BOX_NO_BLOCK_WAITS = 1,  /* no block waits (serve, burst) */
    BOX_OUT_OF_RANGE = 4,    /* L, block number, share or length outside its range (make, open, rename, record) */
    BOX_UNKNOWN_BLOCK = 6,   /* no open block has that number (close, rename, record) */
    BOX_NUMBER_IS_OPEN = 5,  /* an open block has the new number, itself included (open, rename) */
    BOX_NO_FREE_PLACE = 7,   /* all 64 places are taken (open) */
    BOX_SHARE_NOT_FREE = 8,  /* the share exceeds the free share (open) */
    BOX_LANE_FULL = 9,       /* the lane holds 32 records (record) */
    BOX_LANE_NOT_EMPTY = 10, /* the lane is not empty (close) */
    BOX_CLOCK_SPENT = 11,    /* a block waits, no slot is open, and the slot would begin at 2^62 or later
                                (serve, burst) */
    BOX_LIST_FULL = 14,      /* the list is full (burst) */
    BOX_OVER_BUDGET = 13     /* the next record exceeds the bytes remaining (burst) */
};

/* ---- What is lent */

/* A board. A link to place p is p + 1, and 0 is none; 65,536 parts are one byte of credit. */
struct box_board {
    uint32_t numbers[BOX_PLACES];  /* block numbers; 0: the place is free */
    uint32_t shares[BOX_PLACES];   /* shares of the line */
    uint64_t deficits[BOX_PLACES]; /* deficits, in parts */
    uint16_t starts[BOX_PLACES];   /* where in its ring of 32 entries each lane begins */
    uint16_t counts[BOX_PLACES];   /* records in each lane */
    uint64_t ready[BOX_PLACES];    /* ready times */
    uint8_t next[BOX_PLACES];      /* link to the place behind, in the same class's order */
    uint8_t heads[BOX_CLASSES];    /* link to the first place of each class's order */
    uint8_t tails[BOX_CLASSES];    /* link to the last place of each class's order */
    uint32_t held[BOX_CLASSES];    /* shares of closed blocks that are still held, by class */
    uint32_t largest;              /* L, the largest record, in bytes */
    uint64_t clock;                /* the clock, in slots; while a slot is open, the slot's */
    uint32_t active;               /* the active classes, bit k for class k */
    uint32_t pending;              /* the pending classes */
    uint8_t slot;                  /* link to the place whose slot is open */
    uint64_t left;                 /* what is left of that slot, in parts */
};

/* What a serve sent. */
struct box_sent {
    uint32_t block;  /* the number that the block has now */
    uint32_t number; /* the record's number */
    uint16_t length; /* its length in bytes */
    uint64_t clock;  /* the slot's clock */
};

/* What a burst sent. */
struct box_total {
    uint64_t count; /* records */
    uint64_t bytes; /* the bytes that they total */
};

/* What stands between two fragments of a log. All zeros are where a log begins: struct box_feeder feeder = {0}; it has
 * a board of its own, and the two tables that are passed with it are its own too, whatever stands in them at first. */
struct box_feeder {
    struct box_board board;       /* the log's board, once L has been read */
    uint64_t at;                  /* the offset of the next field, from the first byte of the whole log */
    uint64_t sent;                /* the bytes sent so far */
    uint64_t came;                /* how many bytes of that field have come */
    uint8_t kept[BOX_FIELD_ROOM]; /* the first of them; those of a value that is passed over are not kept */
    uint8_t made;                 /* 0: L has not been read */
    uint8_t over;                 /* 0: the listing is not over, and more is to be written */
};

/* What a call did with a fragment. */
struct box_fed {
    uint64_t taken; /* bytes of the fragment that were taken; give the others again */
    uint64_t used;  /* bytes that were written to the front of the buffer */
};

/* ---- The calls. Where a call is refused, board and tables are as they were, but for a refused making. */

/* Makes a board whose largest record has `largest` bytes, and clears both tables. A refusal leaves the tables as they
 * were and stores the board of all zeros, which every other call answers with BOX_SPOILT: never make over a board that
 * is in use. Codes 0, 4. */
uint8_t box_make(struct box_board *board, uint32_t ids[BOX_TABLE_ENTRIES], uint16_t lens[BOX_TABLE_ENTRIES],
                 uint32_t largest);

/* Opens a block with this number and this share, on the lowest free place. Codes 0, 2, 4, 5, 7, 8. */
uint8_t box_open(struct box_board *board, const uint32_t ids[BOX_TABLE_ENTRIES],
                 const uint16_t lens[BOX_TABLE_ENTRIES], uint32_t block, uint32_t share);

/* Gives a block another number. Its lane, share, order, deficit and open slot stay: whatever waits leaves under the new
 * number. Codes 0, 2, 4, 6, 5. */
uint8_t box_rename(struct box_board *board, const uint32_t ids[BOX_TABLE_ENTRIES],
                   const uint16_t lens[BOX_TABLE_ENTRIES], uint32_t old_number, uint32_t new_number);

/* Closes a block whose lane is empty. Its share may be held for a while before another block can have it.
 * Codes 0, 2, 6, 10. */
uint8_t box_close(struct box_board *board, const uint32_t ids[BOX_TABLE_ENTRIES],
                  const uint16_t lens[BOX_TABLE_ENTRIES], uint32_t block);

/* Takes a record of 1 to L bytes to the end of its block's lane. Any record number is allowed, repeats too.
 * Codes 0, 2, 4, 6, 9. */
uint8_t box_record(struct box_board *board, uint32_t ids[BOX_TABLE_ENTRIES], uint16_t lens[BOX_TABLE_ENTRIES],
                   uint32_t block, uint32_t number, uint16_t length);

/* Sends the next record: it leaves its lane, and *sent tells which it was; after a refusal *sent is all zeros.
 * Codes 0, 2, 1, 11. */
uint8_t box_serve(struct box_board *board, const uint32_t ids[BOX_TABLE_ENTRIES],
                  const uint16_t lens[BOX_TABLE_ENTRIES], struct box_sent *sent);

/* Serves as long as the next record is no longer than what remains of `bytes` and the list has room. The first
 * total->count entries of the list are the numbers of the records sent, in order; all others are as they were. The code
 * is what stopped it, never 0: *total tells what was sent, also after 1, 11, 14 and 13. It tells no block numbers: a
 * caller that needs the block of each record serves one by one. Codes 2, 1, 11, 14, 13. */
uint8_t box_burst(struct box_board *board, const uint32_t ids[BOX_TABLE_ENTRIES],
                  const uint16_t lens[BOX_TABLE_ENTRIES], uint64_t bytes, uint32_t *list, uint64_t list_length,
                  struct box_total *total);

/* ---- Logs (docs/LOG.md) and their listings */

/* Takes the next fragment of a log, of any length, and writes what there is to list of it to the front of `out`. Bytes
 * that were not taken are given again, by the next call. With BOX_LEAST_PIECE bytes or more in `out` something is taken
 * of every fragment that has a byte; a listing that is over takes all and writes nothing. After a refusal *fed is all
 * zeros, and nothing is changed. Codes 0, 2. */
uint8_t box_feed(struct box_feeder *feeder, uint32_t ids[BOX_TABLE_ENTRIES], uint16_t lens[BOX_TABLE_ENTRIES],
                 const uint8_t *fragment, uint64_t fragment_length, uint8_t *out, uint64_t out_length,
                 struct box_fed *fed);

/* To be called where the log has ended: writes the listing's last line, unless it is over. With BOX_LEAST_PIECE bytes
 * or more in `out` it is over then. Codes 0, 2. */
uint8_t box_finish(struct box_feeder *feeder, const uint32_t ids[BOX_TABLE_ENTRIES],
                   const uint16_t lens[BOX_TABLE_ENTRIES], uint8_t *out, uint64_t out_length, struct box_fed *fed);

/* Plays a whole log on a board and tables of its own, which lie on the stack, and writes its listing to the front of
 * `out`, piece by piece; `piece` is room to work in. The answer is how many bytes it wrote. They are the whole listing
 * if that has room in `out` and the piece has BOX_LEAST_PIECE bytes or more; else only its beginning. */
uint64_t box_listing(const uint8_t *log, uint64_t log_length, uint8_t *piece, uint64_t piece_length, uint8_t *out,
                     uint64_t out_length);

/* ---- The layout with which the box is proved and compiled. A compiler that lays a struct out otherwise stops here. */

#ifdef __cplusplus
#define BOX_LAYOUT(condition) static_assert(condition, #condition)
#define BOX_ALIGNMENT(type) alignof(type)
#else
#define BOX_LAYOUT(condition) _Static_assert(condition, #condition)
#define BOX_ALIGNMENT(type) _Alignof(type)
#endif

BOX_LAYOUT(sizeof(struct box_board) == 2000);
BOX_LAYOUT(BOX_ALIGNMENT(struct box_board) == 8);
BOX_LAYOUT(offsetof(struct box_board, numbers) == 0);
BOX_LAYOUT(offsetof(struct box_board, shares) == 256);
BOX_LAYOUT(offsetof(struct box_board, deficits) == 512);
BOX_LAYOUT(offsetof(struct box_board, starts) == 1024);
BOX_LAYOUT(offsetof(struct box_board, counts) == 1152);
BOX_LAYOUT(offsetof(struct box_board, ready) == 1280);
BOX_LAYOUT(offsetof(struct box_board, next) == 1792);
BOX_LAYOUT(offsetof(struct box_board, heads) == 1856);
BOX_LAYOUT(offsetof(struct box_board, tails) == 1873);
BOX_LAYOUT(offsetof(struct box_board, held) == 1892);
BOX_LAYOUT(offsetof(struct box_board, largest) == 1960);
BOX_LAYOUT(offsetof(struct box_board, clock) == 1968);
BOX_LAYOUT(offsetof(struct box_board, active) == 1976);
BOX_LAYOUT(offsetof(struct box_board, pending) == 1980);
BOX_LAYOUT(offsetof(struct box_board, slot) == 1984);
BOX_LAYOUT(offsetof(struct box_board, left) == 1992);
BOX_LAYOUT(sizeof(struct box_sent) == 24);
BOX_LAYOUT(BOX_ALIGNMENT(struct box_sent) == 8);
BOX_LAYOUT(offsetof(struct box_sent, block) == 0);
BOX_LAYOUT(offsetof(struct box_sent, number) == 4);
BOX_LAYOUT(offsetof(struct box_sent, length) == 8);
BOX_LAYOUT(offsetof(struct box_sent, clock) == 16);
BOX_LAYOUT(sizeof(struct box_total) == 16);
BOX_LAYOUT(BOX_ALIGNMENT(struct box_total) == 8);
BOX_LAYOUT(offsetof(struct box_total, count) == 0);
BOX_LAYOUT(offsetof(struct box_total, bytes) == 8);
BOX_LAYOUT(sizeof(struct box_feeder) == 2040);
BOX_LAYOUT(BOX_ALIGNMENT(struct box_feeder) == 8);
BOX_LAYOUT(offsetof(struct box_feeder, board) == 0);
BOX_LAYOUT(offsetof(struct box_feeder, at) == 2000);
BOX_LAYOUT(offsetof(struct box_feeder, sent) == 2008);
BOX_LAYOUT(offsetof(struct box_feeder, came) == 2016);
BOX_LAYOUT(offsetof(struct box_feeder, kept) == 2024);
BOX_LAYOUT(offsetof(struct box_feeder, made) == 2037);
BOX_LAYOUT(offsetof(struct box_feeder, over) == 2038);
BOX_LAYOUT(sizeof(struct box_fed) == 16);
BOX_LAYOUT(BOX_ALIGNMENT(struct box_fed) == 8);
BOX_LAYOUT(offsetof(struct box_fed, taken) == 0);
BOX_LAYOUT(offsetof(struct box_fed, used) == 8);

#undef BOX_LAYOUT
#undef BOX_ALIGNMENT

#ifdef __cplusplus
}
#endif

#endif
