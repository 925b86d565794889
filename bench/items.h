/* Items as both ends in C know them: packed decimal, addresses, the table of identifiers, the content of a written value, and
   frames taken apart and written. Each is written byte by byte, in loops that the compiler may turn into wider ones. */
#ifndef ITEMS_H
#define ITEMS_H

#include "ends.h"
#include "frame.h"
#include "table.h"

/* What a data byte travels with, and as many data as a length of one byte can say. */
enum { MASK = 0x33, MOST_FIELD = 255 };

static const uint8_t WILDCARDS[6] = {0xAA, 0xAA, 0xAA, 0xAA, 0xAA, 0xAA};
static const uint8_t BROADCAST[6] = {0x99, 0x99, 0x99, 0x99, 0x99, 0x99};

/* ---- Packed decimal and addresses ---- */

/* Whether every half byte is 0 to 9, looked at without a way out on the first that is not. */
static inline bool all_decimal(const uint8_t *bytes, size_t count)
{
    uint8_t above = 0;
    for (size_t i = 0; i < count; i++)
        above |= ((bytes[i] & 0x0F) > 9) | (bytes[i] > 0x9F);
    return above == 0;
}

static inline bool is_good(const uint8_t *address)
{
    return all_decimal(address, 6) && memcmp(address, BROADCAST, 6) != 0;
}

/* How many low bytes of an address stand before the wildcard bytes at its end. */
static inline size_t low_bytes(const uint8_t *address)
{
    size_t count = 6;
    while (count > 0 && address[count - 1] == WILDCARDS[0])
        count--;
    return count;
}

/* Whether an address is short: one to five decimal low bytes, and wildcard bytes above them. */
static inline bool is_short(const uint8_t *address)
{
    size_t count = low_bytes(address);
    return count >= 1 && count <= 5 && all_decimal(address, count);
}

/* Whether a short address is meant for the meter of this address. */
static inline bool short_matches(const uint8_t *address, const uint8_t *own)
{
    size_t count = low_bytes(address);
    return count >= 1 && count <= 5 && memcmp(address, own, count) == 0;
}

/* Writes a reading's eight digits as four bytes. */
static inline void write_digits(uint32_t reading, uint8_t *out)
{
    for (size_t i = 0; i < 4; i++) {
        uint32_t pair = reading % 100;
        out[i] = (uint8_t)(pair + 6 * (pair / 10));
        reading /= 100;
    }
}

/* ---- The content of a written value ---- */

static inline unsigned digits_of(uint8_t byte)
{
    return 10u * (byte >> 4) + (byte & 0x0F);
}

static inline bool is_within(unsigned least, unsigned most, uint8_t byte)
{
    return least <= digits_of(byte) && digits_of(byte) <= most;
}

static inline bool is_settlement_day(const uint8_t *value)
{
    return (value[0] == 0x99 && value[1] == 0x99) || (is_within(0, 23, value[0]) && is_within(1, 28, value[1]));
}

/* Whether decimal bytes may be written to an item of this kind. */
static inline bool is_in_range(enum kind kind, const uint8_t *value)
{
    switch (kind) {
    case DATE:
        return is_within(0, 6, value[0]) && is_within(1, 31, value[1]) && is_within(1, 12, value[2]);
    case TIME:
        return is_within(0, 59, value[0]) && is_within(0, 59, value[1]) && is_within(0, 23, value[2]);
    case MINUTES:
        return is_within(1, 60, value[0]);
    case SETTLEMENT_DAY:
        return is_settlement_day(value);
    default:
        return true;
    }
}

/* Whether a value may be written to an item. */
static inline bool is_content(struct item item, const uint8_t *value)
{
    return all_decimal(value, item.length) && is_in_range(item.kind, value);
}

/* ---- Frames ---- */

/* Whether the bytes are exactly one frame. */
static inline bool is_frame(const uint8_t *bytes, size_t count)
{
    return count > 0 && frame_length(bytes, count) == (int)count;
}

/* Takes the mask off a frame's data; returns how many they are. */
static inline size_t take_data(const uint8_t *bytes, uint8_t *data)
{
    size_t length = bytes[9];
    for (size_t i = 0; i < length; i++)
        data[i] = bytes[10 + i] - MASK;
    return length;
}

/* Writes the frame of the data that stand, unmasked, at their place in it; returns its length. */
static inline size_t seal_frame(const uint8_t *address, uint8_t control, size_t length, uint8_t *out)
{
    out[0] = START;
    memcpy(out + 1, address, 6);
    out[7] = START;
    out[8] = control;
    out[9] = (uint8_t)length;
    for (size_t i = 0; i < length; i++)
        out[10 + i] += MASK;
    out[10 + length] = checksum(out, 10 + length);
    out[11 + length] = LAST;
    return 12 + length;
}

#endif
