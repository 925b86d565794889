/* The meter's end in C by words: the calls of the host and the answer to a frame, which change the meter or its readings where they
   lie. Each refuses with 16 what is outside document 01's ranges, before any other check. */
#ifndef METER_BY_WORDS_H
#define METER_BY_WORDS_H

#include "items_by_words.h"

/* ---- Ranges ---- */

/* Whether every reading is in its range, looked at without a way out on the first that is not. */
static inline bool readings_in_range(const struct energies *energies)
{
    const uint32_t *forward = energies->forward[0], *reverse = energies->reverse[0];
    uint32_t above = 0;
    for (size_t i = 0; i < READINGS; i++)
        above |= (forward[i] > MOST_READING) | (reverse[i] > MOST_READING);
    return above == 0;
}

/* Whether every register is decimal: three stretches of eight bytes, of which the last two share three. */
static inline bool registers_decimal(const uint8_t *registers)
{
    uint64_t above = half_bytes_above_nine(number_of_eight(registers));
    above |= half_bytes_above_nine(number_of_eight(registers + 8));
    above |= half_bytes_above_nine(number_of_eight(registers + REGISTERS - 8));
    return above == 0;
}

static inline bool is_within_ranges(const struct meter *meter, const struct energies *energies)
{
    return is_good(number_of_six(meter->address)) && registers_decimal(meter->registers) && readings_in_range(energies);
}

/* ---- Calls of the host ---- */

static inline uint8_t set_key(struct meter *meter, const struct energies *energies, bool on)
{
    if (!is_within_ranges(meter, energies))
        return OUT_OF_RANGE;
    meter->key = on;
    return 0;
}

static inline uint32_t plus(uint32_t reading, uint32_t amount)
{
    return (uint32_t)(((uint64_t)reading + amount) % (MOST_READING + 1));
}

static inline uint8_t pulse(const struct meter *meter, struct energies *energies, uint32_t amount, uint8_t direction,
                            uint8_t rate)
{
    if (!is_within_ranges(meter, energies))
        return OUT_OF_RANGE;
    if (direction > 1 || rate < 1 || rate > 4)
        return BAD_ARGUMENT;
    uint32_t *row = direction == 0 ? energies->forward[0] : energies->reverse[0];
    row[0] = plus(row[0], amount);
    row[rate] = plus(row[rate], amount);
    return 0;
}

static inline uint8_t settle_rows(const struct meter *meter, struct energies *energies)
{
    if (!is_within_ranges(meter, energies))
        return OUT_OF_RANGE;
    memmove(energies->forward[1], energies->forward[0], sizeof energies->forward - sizeof energies->forward[0]);
    memmove(energies->reverse[1], energies->reverse[0], sizeof energies->reverse - sizeof energies->reverse[0]);
    return 0;
}

/* ---- Replies ---- */

static inline struct written refused(uint8_t refusal)
{
    return (struct written){refusal, 0};
}

static inline struct written replied(size_t length)
{
    return (struct written){0, length};
}

/* An error reply, or a reply without data. */
static inline struct written reply_error(const struct meter *meter, uint8_t control, uint8_t error, uint8_t *out)
{
    write_head(out, number_of_six(meter->address), control | ABNORMAL, 1);
    out[10] = error + MASK;
    return replied(write_end(out, 1));
}

static inline struct written reply_empty(const struct meter *meter, uint8_t control, uint8_t *out)
{
    write_head(out, number_of_six(meter->address), control | FROM_METER, 0);
    return replied(write_end(out, 0));
}

/* A reading's eight digits as four bytes: the number is parted in halves, quarters and eighths, each beside the other. */
static inline uint32_t digits_of(uint32_t reading)
{
    uint64_t halves = reading + reading / 10000 * ((UINT64_C(1) << 32) - 10000);
    uint64_t quarters = halves + (halves * 10486 >> 20 & 0x0000007F0000007F) * ((1 << 16) - 100);
    uint64_t bytes = quarters + (quarters * 103 >> 10 & 0x000F000F000F000F) * 6;
    bytes = (bytes | bytes >> 8) & 0x0000FFFF0000FFFF;
    return (uint32_t)(bytes | bytes >> 16);
}

/* Writes the readings of an item, masked. */
static inline void write_readings(const uint32_t *readings, struct item item, uint8_t *out)
{
    for (unsigned at = 0; at < item.length; at += 4, readings += item.step) {
        uint32_t bytes = digits_of(*readings) + 0x33333333;
        memcpy(out + at, &bytes, sizeof bytes);
    }
}

/* Writes the bytes of a register, which are decimal, masked. The number taken ends with the last of them, and begins within
   the meter. */
static inline void write_register(const struct meter *meter, struct item item, uint8_t *out)
{
    size_t end = offsetof(struct meter, registers) + item.place + item.length;
    uint64_t number = number_of_eight((const uint8_t *)meter + end - 8) >> (64 - 8 * item.length);
    write_lowest(out, number + 0x3333333333333333, item.length);
}

/* Writes the value held for an item, masked. */
static inline void write_value(const struct meter *meter, const struct energies *energies, struct item item, uint8_t *out)
{
    if (item.kind == FORWARD)
        write_readings(energies->forward[0] + item.place, item, out);
    else if (item.kind == REVERSE)
        write_readings(energies->reverse[0] + item.place, item, out);
    else if (item.kind == ADDRESS)
        write_lowest(out, number_of_six(meter->address) + 0x333333333333, 6);
    else
        write_register(meter, item, out);
}

/* ---- The answer to each control, with data that still are masked ---- */

/* 11: L = 4 (01); identifier in table (02). */
static inline struct written read_data(const struct meter *meter, const struct energies *energies, const uint8_t *data,
                                       size_t length, uint8_t *out)
{
    if (length != 4)
        return reply_error(meter, READ_DATA, OTHER_ERROR, out);
    uint32_t named = number_of_four(data);
    struct item item = item_of((uint32_t)unmasked(named));
    if (item.kind == NOT_LISTED)
        return reply_error(meter, READ_DATA, NO_SUCH_DATA, out);
    size_t all = 4 + (size_t)item.length;
    write_head(out, number_of_six(meter->address), READ_DATA | FROM_METER, (uint8_t)all);
    memcpy(out + 10, &named, sizeof named);
    write_value(meter, energies, item, out + 14);
    return replied(write_end(out, all));
}

/* 13: L = 0, else silence. */
static inline struct written read_address(const struct meter *meter, size_t length, uint8_t *out)
{
    if (length != 0)
        return refused(SILENT_BY_RULE);
    uint64_t address = number_of_six(meter->address);
    write_head(out, address, READ_ADDRESS | FROM_METER, 6);
    write_lowest(out + 10, address + 0x333333333333, 6);
    return replied(write_end(out, 6));
}

/* Whether the level is at most so high and the password of that level right; the level stands before its password. */
static inline bool is_authorised(const struct meter *meter, uint32_t level_and_password, unsigned most)
{
    uint8_t password[4];
    unsigned level = level_and_password & 0xFF;
    memcpy(password, &level_and_password, sizeof password);
    return level <= most && memcmp(password + 1, meter->passwords + 3 * level, 3) == 0;
}

/* The error byte of a 14 whose length is right, or 0. */
static inline uint8_t error_of_write(const struct meter *meter, const uint8_t *data, struct item item)
{
    if (item.kind == NOT_LISTED)
        return NO_SUCH_DATA;
    if (!is_writable(item) || !meter->key || !is_authorised(meter, (uint32_t)unmasked(number_of_four(data + 4)), 4))
        return NOT_AUTHORISED;
    return 0;
}

/* 14: 12 to 50 for L (01); identifier (02); writable, key on, level and password (04); data length and content (01). */
static inline struct written write_data(struct meter *meter, const uint8_t *data, size_t length, uint8_t *out)
{
    if (length < 12 || length > 50)
        return reply_error(meter, WRITE_DATA, OTHER_ERROR, out);
    struct item item = item_of((uint32_t)unmasked(number_of_four(data)));
    uint8_t error = error_of_write(meter, data, item);
    if (error != 0)
        return reply_error(meter, WRITE_DATA, error, out);
    if (length - 12 != item.length)
        return reply_error(meter, WRITE_DATA, OTHER_ERROR, out);
    uint64_t value = unmasked(number_of_eight(data + length - 8)) >> (64 - 8 * item.length);
    if (!is_content(item.kind, value))
        return reply_error(meter, WRITE_DATA, OTHER_ERROR, out);
    uint32_t operator_code = (uint32_t)unmasked(number_of_four(data + 8));
    memcpy(meter->operator_code, &operator_code, sizeof operator_code);
    write_lowest(meter->registers + item.place, value, item.length);
    return reply_empty(meter, WRITE_DATA, out);
}

/* 15: L = 6, key on, new address good, else silence. */
static inline struct written write_address(struct meter *meter, const uint8_t *data, size_t length, uint8_t *out)
{
    if (length != 6 || !meter->key)
        return refused(SILENT_BY_RULE);
    uint64_t address = lowest(unmasked(number_of_six(data)), 6);
    if (!is_good(address))
        return refused(SILENT_BY_RULE);
    write_lowest(meter->address, address, 6);
    return reply_empty(meter, WRITE_ADDRESS, out);
}

/* 18: L = 12 (01); identifier (02); key on, old level and its password (04); new password decimal (01). */
static inline struct written change_password(struct meter *meter, const uint8_t *data, size_t length, uint8_t *out)
{
    if (length != 12)
        return reply_error(meter, CHANGE_PASSWORD, OTHER_ERROR, out);
    uint32_t sent = number_of_four(data + 8);
    uint32_t renewed = (uint32_t)unmasked(sent);
    uint32_t level = renewed & 0xFF;
    if (level > 9 || (uint32_t)unmasked(number_of_four(data)) != 0x04000C01 + level)
        return reply_error(meter, CHANGE_PASSWORD, NO_SUCH_DATA, out);
    if (!meter->key || !is_authorised(meter, (uint32_t)unmasked(number_of_four(data + 4)), level))
        return reply_error(meter, CHANGE_PASSWORD, NOT_AUTHORISED, out);
    if (!is_decimal(renewed >> 8))
        return reply_error(meter, CHANGE_PASSWORD, OTHER_ERROR, out);
    write_lowest(meter->passwords + 3 * level, renewed >> 8, 3);
    write_head(out, number_of_six(meter->address), CHANGE_PASSWORD | FROM_METER, 4);
    memcpy(out + 10, &sent, sizeof sent);
    return replied(write_end(out, 4));
}

/* ---- The answer to a frame ---- */

/* Whether a frame with this control and address is for the meter; no other control is. */
static inline bool is_addressed(uint8_t control, uint64_t address, uint64_t own)
{
    switch (control) {
    case READ_DATA:
        return address == own || short_matches(address, own);
    case WRITE_DATA:
    case CHANGE_PASSWORD:
        return address == own;
    case READ_ADDRESS:
    case WRITE_ADDRESS:
        return address == WILDCARDS;
    default:
        return false;
    }
}

/* The answer of a meter that is within its ranges. */
static inline struct written answer_within(struct meter *meter, const struct energies *energies, const uint8_t *bytes,
                                           size_t count, uint8_t *out, size_t out_len)
{
    if (out_len < LONGEST_FRAME)
        return refused(SHORT_MEMORY);
    if (!is_frame(bytes, count))
        return refused(NOT_ONE_FRAME);
    if (!is_addressed(bytes[8], number_of_six(bytes + 1), number_of_six(meter->address)))
        return refused(NOT_FOR_THIS_METER);
    switch (bytes[8]) {
    case READ_DATA:
        return read_data(meter, energies, bytes + 10, bytes[9], out);
    case READ_ADDRESS:
        return read_address(meter, bytes[9], out);
    case WRITE_DATA:
        return write_data(meter, bytes + 10, bytes[9], out);
    case WRITE_ADDRESS:
        return write_address(meter, bytes + 10, bytes[9], out);
    default:
        return change_password(meter, bytes + 10, bytes[9], out);
    }
}

static inline struct written answer_frame(struct meter *meter, const struct energies *energies, const uint8_t *bytes,
                                          size_t count, uint8_t *out, size_t out_len)
{
    if (!is_within_ranges(meter, energies))
        return refused(OUT_OF_RANGE);
    return answer_within(meter, energies, bytes, count, out, out_len);
}

#endif
