/* Items as both ends in C by words know them: bytes as numbers, masking, packed decimal, addresses and the content of a
   written value. Up to eight bytes are looked at as one number, their first byte lowest, as the processor has it. */
#ifndef ITEMS_BY_WORDS_H
#define ITEMS_BY_WORDS_H

#include "ends.h"
#include "frame.h"
#include "table.h"

/* What a data byte travels with. */
enum { MASK = 0x33 };

#define WILDCARDS UINT64_C(0xAAAAAAAAAAAA)
#define BROADCAST UINT64_C(0x999999999999)

/* ---- Bytes as numbers ---- */

static inline uint32_t number_of_four(const uint8_t *bytes)
{
    uint32_t number;
    memcpy(&number, bytes, sizeof number);
    return number;
}

static inline uint64_t number_of_eight(const uint8_t *bytes)
{
    uint64_t number;
    memcpy(&number, bytes, sizeof number);
    return number;
}

static inline uint64_t number_of_six(const uint8_t *bytes)
{
    uint16_t high;
    memcpy(&high, bytes + 4, sizeof high);
    return number_of_four(bytes) | (uint64_t)high << 32;
}

/* The lowest bytes of a number, at most seven. */
static inline uint64_t lowest(uint64_t number, size_t count)
{
    return number & ((UINT64_C(1) << 8 * count) - 1);
}

/* Writes the lowest bytes of a number, as many as an item in one piece has: 1, 2, 3, 4 or 6. */
static inline void write_lowest(uint8_t *out, uint64_t number, size_t count)
{
    switch (count) {
    case 1:
        memcpy(out, &number, 1);
        break;
    case 2:
        memcpy(out, &number, 2);
        break;
    case 3:
        memcpy(out, &number, 3);
        break;
    case 4:
        memcpy(out, &number, 4);
        break;
    default:
        memcpy(out, &number, 6);
    }
}

/* ---- Masking ---- */

/* Each byte of a number with 33 added, wrapping at 256. */
static inline uint64_t masked(uint64_t number)
{
    return ((number & 0x7F7F7F7F7F7F7F7F) + 0x3333333333333333) ^ (number & 0x8080808080808080);
}

/* Each byte of a number with 33 taken off, wrapping at 256. */
static inline uint64_t unmasked(uint64_t number)
{
    return ((number | 0x8080808080808080) - 0x3333333333333333) ^ (~number & 0x8080808080808080);
}

/* ---- Packed decimal and addresses ---- */

/* The highest bit of each half byte above 9. */
static inline uint64_t half_bytes_above_nine(uint64_t number)
{
    return number & (number << 1 | number << 2) & 0x8888888888888888;
}

static inline bool is_decimal(uint64_t number)
{
    return half_bytes_above_nine(number) == 0;
}

static inline bool is_good(uint64_t address)
{
    return is_decimal(address) && address != BROADCAST;
}

/* How many low bytes of an address stand before the wildcard bytes at its end. */
static inline size_t low_bytes(uint64_t address)
{
    uint64_t others = address ^ WILDCARDS;
    return others == 0 ? 0 : (size_t)(71 - __builtin_clzll(others)) / 8;
}

/* Whether an address is short: one to five decimal low bytes, and wildcard bytes above them. */
static inline bool is_short(uint64_t address)
{
    size_t count = low_bytes(address);
    return count >= 1 && count <= 5 && is_decimal(lowest(address, count));
}

/* Whether a short address is meant for the meter of this address. */
static inline bool short_matches(uint64_t address, uint64_t own)
{
    size_t count = low_bytes(address);
    return count >= 1 && count <= 5 && lowest(address ^ own, count) == 0;
}

/* ---- The content of a written value ---- */

/* Whether a byte of a value is within bounds; of decimal bytes the larger is the larger number. */
static inline bool is_byte_within(uint64_t value, unsigned place, unsigned least, unsigned most)
{
    return (value >> 8 * place & 0xFF) - least <= most - least;
}

static inline bool is_settlement_day(uint64_t value)
{
    return value == 0x9999 || (is_byte_within(value, 0, 0, 0x23) && is_byte_within(value, 1, 1, 0x28));
}

/* Whether decimal bytes may be written to an item of this kind. */
static inline bool is_in_range(enum kind kind, uint64_t value)
{
    switch (kind) {
    case DATE:
        return is_byte_within(value, 0, 0, 0x06) && is_byte_within(value, 1, 1, 0x31) && is_byte_within(value, 2, 1, 0x12);
    case TIME:
        return is_byte_within(value, 0, 0, 0x59) && is_byte_within(value, 1, 0, 0x59) && is_byte_within(value, 2, 0, 0x23);
    case MINUTES:
        return is_byte_within(value, 0, 1, 0x60);
    case SETTLEMENT_DAY:
        return is_settlement_day(value);
    default:
        return true;
    }
}

/* Whether a value may be written to an item of this kind. */
static inline bool is_content(enum kind kind, uint64_t value)
{
    return is_decimal(value) && is_in_range(kind, value);
}

/* ---- Frames ---- */

/* Whether the bytes are exactly one frame. */
static inline bool is_frame(const uint8_t *bytes, size_t count)
{
    return count > 0 && frame_length(bytes, count) == (int)count;
}

/* Writes the bytes of a frame before its data. */
static inline void write_head(uint8_t *out, uint64_t address, uint8_t control, uint8_t data_length)
{
    uint64_t head = START | address << 8 | (uint64_t)START << 56;
    memcpy(out, &head, sizeof head);
    out[8] = control;
    out[9] = data_length;
}

/* Writes the checksum and the last byte behind the data; returns the frame's length. */
static inline size_t write_end(uint8_t *out, size_t data_length)
{
    size_t end = 10 + data_length;
    out[end] = checksum(out, end);
    out[end + 1] = LAST;
    return end + 2;
}

#endif
