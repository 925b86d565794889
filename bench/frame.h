/* Frames as all the C code here knows them: the checksum, the verdict on the bytes kept and one byte more, and the search
   for whole frames, in bytes whose first place was given up and in a recorded line. */
#ifndef FRAME_H
#define FRAME_H

#include <stdbool.h>
#include <stddef.h>
#include <stdint.h>
#include <string.h>

enum {
    START = 0x68,
    LAST = 0x16,
    LONGEST_DATA = 200,
    LONGEST_FRAME = 212,
    MOST_KEPT = 211,
};

/* What the bytes kept and one byte more come to. */
enum verdict {
    BAD,   /* the bytes kept are not a proper beginning of a frame */
    SKIPS, /* nothing is kept, and the byte begins no frame */
    GROWS, /* all together are a proper beginning of a frame */
    WHOLE, /* all together are a frame */
    FALLS, /* all together begin no frame */
};

/* How far a search came: the first place that is still open, or the end, and what it wrote. */
struct search {
    size_t place;
    size_t bytes;
    size_t frames;
};

/* The sum of the bytes, wrapping at 256. */
static inline uint8_t checksum(const uint8_t *bytes, size_t count)
{
    uint8_t sum = 0;
    for (size_t i = 0; i < count; i++)
        sum += bytes[i];
    return sum;
}

/* The verdict where a data length is kept. */
static inline enum verdict verdict_on_body(const uint8_t *kept, size_t count, uint8_t byte)
{
    size_t end = 10 + (size_t)kept[9];
    if (kept[9] > LONGEST_DATA || count > end + 1)
        return BAD;
    if (count < end)
        return GROWS;
    uint8_t sum = checksum(kept, end);
    if (count == end)
        return byte == sum ? GROWS : FALLS;
    if (kept[end] != sum)
        return BAD;
    return byte == LAST ? WHOLE : FALLS;
}

/* The verdict on the bytes kept and one byte more. */
static inline enum verdict verdict_on(const uint8_t *kept, size_t count, uint8_t byte)
{
    if (count == 0)
        return byte == START ? GROWS : SKIPS;
    if (count > MOST_KEPT || kept[0] != START)
        return BAD;
    if (count < 7)
        return GROWS;
    if (count == 7)
        return byte == START ? GROWS : FALLS;
    if (kept[7] != START)
        return BAD;
    if (count == 8)
        return GROWS;
    if (count == 9)
        return byte <= LONGEST_DATA ? GROWS : FALLS;
    return verdict_on_body(kept, count, byte);
}

/* The length of the frame that the bytes begin with; 0 where they begin none; -1 where more bytes could make one. */
static inline int frame_length(const uint8_t *bytes, size_t count)
{
    if (bytes[0] != START)
        return 0;
    if (count < 8)
        return -1;
    if (bytes[7] != START)
        return 0;
    if (count < 10)
        return -1;
    size_t end = 10 + (size_t)bytes[9];
    if (bytes[9] > LONGEST_DATA)
        return 0;
    if (count <= end)
        return -1;
    if (count > end + 1 && bytes[end + 1] != LAST)
        return 0;
    if (checksum(bytes, end) != bytes[end])
        return 0;
    return count > end + 1 ? (int)end + 2 : -1;
}

/* Writes the frames found from the front of the bytes on, up to the first open place; after a silence none is open. */
static inline struct search find_frames(const uint8_t *bytes, size_t count, bool silence, uint8_t *out)
{
    struct search found = {0, 0, 0};
    while (found.place < count) {
        int length = frame_length(bytes + found.place, count - found.place);
        if (length > 0) {
            memcpy(out + found.bytes, bytes + found.place, (size_t)length);
            found.bytes += (size_t)length;
            found.frames++;
            found.place += (size_t)length;
        } else if (length < 0 && !silence) {
            break;
        } else {
            found.place++;
        }
    }
    return found;
}

/* The same in a recorded line, where most places hold no start delimiter: the next one is found by memchr. */
static inline struct search scan_frames(const uint8_t *bytes, size_t count, bool silence, uint8_t *out)
{
    const uint8_t *at = bytes, *end = bytes + count;
    uint8_t *to = out;
    size_t frames = 0;
    while (at < end) {
        if (*at != START) {
            at = memchr(at, START, (size_t)(end - at));
            if (at == NULL) {
                at = end;
                break;
            }
        }
        int length = frame_length(at, (size_t)(end - at));
        if (length > 0) {
            memcpy(to, at, (size_t)length);
            to += length;
            frames++;
            at += length;
        } else if (length < 0 && !silence) {
            break;
        } else {
            at++;
        }
    }
    return (struct search){(size_t)(at - bytes), (size_t)(to - out), frames};
}

/* Whether the bytes kept are a proper beginning of a frame: a silence has no byte that a verdict could be on. */
static inline bool is_beginning(const uint8_t *kept, size_t count)
{
    return count == 0 || (count <= MOST_KEPT && frame_length(kept, count) < 0);
}

#endif
