/* feed ROOM LOG ..: writes the listing of each NAME.log to NAME.box, by box_feed and box_finish through a buffer of so
 * many bytes. The log is read in fragments of 0 to 20 bytes and now and then of up to 5,000, and what a call leaves is
 * given again with what follows it. Every call must take or write something, or be given nothing. */
#include "box.h"

#include <stdio.h>
#include <stdlib.h>
#include <string.h>

#define LARGEST 5000

static uint32_t ids[BOX_TABLE_ENTRIES];
static uint16_t lens[BOX_TABLE_ENTRIES];
static uint8_t out[65536];
static uint8_t fragment[2 * LARGEST];

static int failed(const char *path, const char *what)
{
    fprintf(stderr, "%s: %s\n", path, what);
    return 1;
}

static size_t some(void)
{
    const unsigned n = (unsigned)rand() >> 4;
    return n % 8 ? n / 8 % 21 : n / 8 % LARGEST;
}

/* Feeds one log. What it answers is what went wrong, or nothing. */
static const char *feed(FILE *from, FILE *to, uint64_t room)
{
    struct box_feeder feeder = {0};
    struct box_fed fed;
    size_t left = 0;
    /* Whatever stands in the tables at first, L clears them. */
    memset(ids, 255, sizeof ids);
    memset(lens, 255, sizeof lens);
    for (;;) {
        const size_t asked = some();
        const size_t got = fread(fragment + left, 1, left > LARGEST ? 0 : asked, from);
        left += got;
        if (!left && asked && !got) break;
        if (box_feed(&feeder, ids, lens, fragment, left, out, room, &fed) != BOX_DONE) return "a fragment is refused";
        if (fed.taken > left || fed.used > room) return "more is taken or written than there is";
        if (left && !fed.taken) return "nothing is taken";
        if (fwrite(out, 1, fed.used, to) != fed.used) return "not written";
        left -= fed.taken;
        memmove(fragment, fragment + fed.taken, left);
    }
    if (box_finish(&feeder, ids, lens, out, room, &fed) != BOX_DONE) return "the end is refused";
    if (fed.taken || fed.used > room || !feeder.over) return "the end is not the end";
    if (fwrite(out, 1, fed.used, to) != fed.used) return "not written";
    if (box_finish(&feeder, ids, lens, out, room, &fed) != BOX_DONE || fed.used) return "a second end";
    return NULL;
}

int main(int count, char **words)
{
    const unsigned long room = count > 1 ? strtoul(words[1], NULL, 10) : 0;
    if (room < BOX_LEAST_PIECE || room > sizeof out) return 2;
    srand(1);
    for (int i = 2; i < count; i++) {
        char *path = words[i];
        FILE *from = fopen(path, "rb");
        if (!from) return failed(path, "not read");
        memcpy(path + strlen(path) - 3, "box", 3);
        FILE *to = fopen(path, "wb");
        if (!to) return failed(path, "not written");
        const char *wrong = feed(from, to, room);
        fclose(from);
        if (fclose(to)) return failed(path, "not written");
        if (wrong) return failed(path, wrong);
    }
    return 0;
}
