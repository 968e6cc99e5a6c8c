/* listing PIECE LOG ..: writes the listing of each NAME.log to NAME.box, by box_listing and pieces of so many bytes. */
#include "box.h"

#include <stdio.h>
#include <stdlib.h>
#include <string.h>

/* Longer than any log that is given. */
static uint8_t log_bytes[1 << 20];
static uint8_t piece[65536];
/* No field of a log has under 3 bytes, and no line over 64. */
static uint8_t out[(sizeof log_bytes / 3 + 2) * 64];

static int failed(const char *path)
{
    fprintf(stderr, "%s: not read, or not written\n", path);
    return 1;
}

int main(int count, char **words)
{
    const unsigned long piece_length = count > 1 ? strtoul(words[1], NULL, 10) : 0;
    if (piece_length > sizeof piece) return 2;
    for (int i = 2; i < count; i++) {
        char *path = words[i];
        FILE *file = fopen(path, "rb");
        if (!file) return failed(path);
        const size_t length = fread(log_bytes, 1, sizeof log_bytes, file);
        fclose(file);
        if (length == sizeof log_bytes) return failed(path);
        const uint64_t written = box_listing(log_bytes, length, piece, piece_length, out, sizeof out);
        memcpy(path + strlen(path) - 3, "box", 3);
        file = fopen(path, "wb");
        if (!file || fwrite(out, 1, written, file) != written || fclose(file)) return failed(path);
    }
    return 0;
}
