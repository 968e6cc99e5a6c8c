/* Measures how deep the stack of each function for C goes: it runs every call on a painted stack and looks how far down
 * the paint is gone. The calls are a random run on a busy board; a log to feed and to list comes from standard input.
 * It writes lines 'NAME BYTES'. Build it without sanitizers, which use the stack too. */
#define _POSIX_C_SOURCE 200809L
#include "box.h"

#include <pthread.h>
#include <stdio.h>
#include <stdlib.h>
#include <string.h>

#define STACK (128 * 1024)
#define PAINT 0xc7
#define CALLS 2000

static struct box_board board;
static uint32_t ids[BOX_TABLE_ENTRIES];
static uint16_t lens[BOX_TABLE_ENTRIES];
static uint32_t list[64];
static struct box_sent sent;
static struct box_total total;
/* The log is longer than what is read of it; no field has under 3 bytes, and no line over 64. */
static uint8_t log_bytes[1 << 16], piece[4096], out[(sizeof log_bytes / 3 + 2) * 64];
static size_t log_length;
static struct box_feeder feeder;
static struct box_fed fed;

enum call { MAKE, OPEN, RENAME, CLOSE, RECORD, SERVE, BURST, FEED, FINISH, LISTING, KINDS };
static const char *const names[KINDS] = {"box_make",  "box_open",  "box_rename", "box_close",  "box_record",
                                         "box_serve", "box_burst", "box_feed",   "box_finish", "box_listing"};

/* What the call on the painted stack is, what it answered, and where its caller's frame is. */
static enum call call;
static uint32_t a, b;
static uint16_t length;
static unsigned code;
static uintptr_t top;

static uint8_t *stack;
static size_t deepest[KINDS];

static void *run(void *unused)
{
    unsigned char here = 0;
    top = (uintptr_t)&here;
    switch (call) {
    case MAKE: code = box_make(&board, ids, lens, a); break;
    case OPEN: code = box_open(&board, ids, lens, a, b); break;
    case RENAME: code = box_rename(&board, ids, lens, a, b); break;
    case CLOSE: code = box_close(&board, ids, lens, a); break;
    case RECORD: code = box_record(&board, ids, lens, a, b, length); break;
    case SERVE: code = box_serve(&board, ids, lens, &sent); break;
    case BURST: code = box_burst(&board, ids, lens, a, list, 64, &total); break;
    case FEED: code = box_feed(&feeder, ids, lens, log_bytes + a, log_length - a, piece, sizeof piece, &fed); break;
    case FINISH: code = box_finish(&feeder, ids, lens, piece, sizeof piece, &fed); break;
    case LISTING: code = box_listing(log_bytes, log_length, piece, sizeof piece, out, sizeof out) == 0; break;
    case KINDS: break;
    }
    return unused;
}

static void measure(enum call which)
{
    pthread_attr_t attributes;
    pthread_t thread;
    call = which;
    memset(stack, PAINT, STACK);
    if (pthread_attr_init(&attributes) || pthread_attr_setstack(&attributes, stack, STACK) ||
        pthread_create(&thread, &attributes, run, NULL) || pthread_join(thread, NULL) || code == BOX_SPOILT) {
        fprintf(stderr, "%s: no thread, or a spoilt board\n", names[which]);
        exit(1);
    }
    pthread_attr_destroy(&attributes);
    const uint8_t *lowest = stack;
    while (*lowest == PAINT) lowest++;
    const size_t depth = (size_t)(top - (uintptr_t)lowest);
    if (depth > deepest[which]) deepest[which] = depth;
}

static uint32_t any(uint32_t below)
{
    static uint64_t state = 1;
    state = state * UINT64_C(6364136223846793005) + 1442695040888963407;
    return (uint32_t)(state >> 33) % below;
}

int main(void)
{
    stack = aligned_alloc(4096, STACK);
    log_length = fread(log_bytes, 1, sizeof log_bytes, stdin);
    if (!stack || !log_length) return 1;
    a = 1024;
    measure(MAKE);
    for (int n = 0; n < CALLS; n++) {
        static const enum call often[] = {OPEN,   RENAME, CLOSE, RECORD, RECORD, RECORD,
                                          RECORD, SERVE,  SERVE, SERVE,  BURST};
        const enum call which = n < 200 ? OPEN : often[any(sizeof often / sizeof *often)];
        a = which == BURST ? any(4096) : any(80);
        b = which == OPEN ? 1u + any(1024) : any(80);
        length = (uint16_t)any(1026);
        measure(which);
    }
    for (a = 0; a < log_length; a += (uint32_t)fed.taken) measure(FEED);
    measure(FINISH);
    measure(LISTING);
    for (int which = 0; which < KINDS; which++) printf("%s %zu\n", names[which], deepest[which]);
    return 0;
}
