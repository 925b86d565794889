/* The listing program in C, with fread and fwrite: raw bytes on standard input, their end taken as a silence, a line for
   each frame on standard output. Blocks of 64 KiB, the unfinished rest moved to the front, one text buffer and one fwrite
   for each block. */
#include <stdio.h>

#include "frame.h"
#include "listed.h"

enum { BLOCK = 65536 };

static uint8_t block[BLOCK], frames[BLOCK];
static char text[2 * BLOCK];

/* Lists the frames of the first bytes of the block, and returns where the unfinished rest begins. */
static size_t list_block(size_t count, bool silence)
{
    struct search found = scan_frames(block, count, silence, frames);
    char *to = text;
    for (size_t at = 0; at < found.bytes; at += 12 + (size_t)frames[at + 9])
        to = write_line(to, frames + at);
    fwrite(text, 1, (size_t)(to - text), stdout);
    return found.place;
}

int main(void)
{
    size_t kept = 0, got;
    while ((got = fread(block + kept, 1, BLOCK - kept, stdin)) > 0) {
        size_t rest = list_block(kept + got, false);
        kept = kept + got - rest;
        memmove(block, block + rest, kept);
    }
    list_block(kept, true);
    return 0;
}
