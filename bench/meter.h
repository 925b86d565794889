/* The meter's end in C: the calls of the host and the answer to a frame, which change the meter or its readings where they
   lie. Each refuses with 16 what is outside document 01's ranges, before any other check. */
#ifndef METER_H
#define METER_H

#include "items.h"

/* ---- Ranges ---- */

/* Whether every reading is in its range, looked at without a way out on the first that is not. */
static inline bool readings_in_range(const uint32_t *readings)
{
    uint32_t above = 0;
    for (size_t i = 0; i < READINGS; i++)
        above |= readings[i] > MOST_READING;
    return above == 0;
}

static inline bool is_within_ranges(const struct meter *meter, const struct energies *energies)
{
    return is_good(meter->address) && all_decimal(meter->registers, REGISTERS) &&
           readings_in_range(energies->forward[0]) && readings_in_range(energies->reverse[0]);
}

/* ---- Calls of the host ---- */

static inline uint8_t set_key(struct meter *meter, const struct energies *energies, bool on)
{
    if (!is_within_ranges(meter, energies))
        return OUT_OF_RANGE;
    meter->key = on;
    return 0;
}

static inline uint32_t plus(uint32_t reading, uint32_t amount)
{
    return (uint32_t)(((uint64_t)reading + amount) % (MOST_READING + 1));
}

static inline uint8_t pulse(const struct meter *meter, struct energies *energies, uint32_t amount, uint8_t direction,
                            uint8_t rate)
{
    if (!is_within_ranges(meter, energies))
        return OUT_OF_RANGE;
    if (direction > 1 || rate < 1 || rate > 4)
        return BAD_ARGUMENT;
    uint32_t *row = direction == 0 ? energies->forward[0] : energies->reverse[0];
    row[0] = plus(row[0], amount);
    row[rate] = plus(row[rate], amount);
    return 0;
}

static inline uint8_t settle_rows(const struct meter *meter, struct energies *energies)
{
    if (!is_within_ranges(meter, energies))
        return OUT_OF_RANGE;
    memmove(energies->forward[1], energies->forward[0], sizeof energies->forward - sizeof energies->forward[0]);
    memmove(energies->reverse[1], energies->reverse[0], sizeof energies->reverse - sizeof energies->reverse[0]);
    return 0;
}

/* ---- Replies ---- */

static inline struct written refused(uint8_t refusal)
{
    return (struct written){refusal, 0};
}

/* A reply with so many data, which stand at their place. */
static inline struct written reply(const struct meter *meter, uint8_t control, size_t length, uint8_t *out)
{
    return (struct written){0, seal_frame(meter->address, control | FROM_METER, length, out)};
}

static inline struct written reply_error(const struct meter *meter, uint8_t control, uint8_t error, uint8_t *out)
{
    out[10] = error;
    return reply(meter, control | ABNORMAL, 1, out);
}

/* Writes the readings of an item. */
static inline void write_readings(const uint32_t *readings, struct item item, uint8_t *out)
{
    for (unsigned at = 0; at < item.length; at += 4, readings += item.step)
        write_digits(*readings, out + at);
}

/* Writes the value held for an item. */
static inline void write_value(const struct meter *meter, const struct energies *energies, struct item item, uint8_t *out)
{
    if (item.kind == FORWARD)
        write_readings(energies->forward[0] + item.place, item, out);
    else if (item.kind == REVERSE)
        write_readings(energies->reverse[0] + item.place, item, out);
    else if (item.kind == ADDRESS)
        memcpy(out, meter->address, 6);
    else
        memcpy(out, meter->registers + item.place, item.length);
}

/* ---- The answer to each control ---- */

static inline uint32_t identifier_of(const uint8_t *data)
{
    return data[0] | (uint32_t)data[1] << 8 | (uint32_t)data[2] << 16 | (uint32_t)data[3] << 24;
}

/* 11: L = 4 (01); identifier in table (02). */
static inline struct written read_data(const struct meter *meter, const struct energies *energies, const uint8_t *data,
                                       size_t length, uint8_t *out)
{
    if (length != 4)
        return reply_error(meter, READ_DATA, OTHER_ERROR, out);
    struct item item = item_of(identifier_of(data));
    if (item.kind == NOT_LISTED)
        return reply_error(meter, READ_DATA, NO_SUCH_DATA, out);
    memcpy(out + 10, data, 4);
    write_value(meter, energies, item, out + 14);
    return reply(meter, READ_DATA, 4 + (size_t)item.length, out);
}

/* 13: L = 0, else silence. */
static inline struct written read_address(const struct meter *meter, size_t length, uint8_t *out)
{
    if (length != 0)
        return refused(SILENT_BY_RULE);
    memcpy(out + 10, meter->address, 6);
    return reply(meter, READ_ADDRESS, 6, out);
}

/* Whether the level is at most so high and the password of that level right. */
static inline bool is_authorised(const struct meter *meter, unsigned most, unsigned level, const uint8_t *password)
{
    return level <= most && memcmp(password, meter->passwords + 3 * level, 3) == 0;
}

/* The error byte of a 14 whose length is right, or 0. */
static inline uint8_t error_of_write(const struct meter *meter, const uint8_t *data, size_t length, struct item item)
{
    if (item.kind == NOT_LISTED)
        return NO_SUCH_DATA;
    if (!is_writable(item) || !meter->key || !is_authorised(meter, 4, data[4], data + 5))
        return NOT_AUTHORISED;
    if (length - 12 != item.length || !is_content(item, data + 12))
        return OTHER_ERROR;
    return 0;
}

/* 14: 12 to 50 for L (01); identifier (02); writable, key on, level and password (04); data length and content (01). */
static inline struct written write_data(struct meter *meter, const uint8_t *data, size_t length, uint8_t *out)
{
    if (length < 12 || length > 50)
        return reply_error(meter, WRITE_DATA, OTHER_ERROR, out);
    struct item item = item_of(identifier_of(data));
    uint8_t error = error_of_write(meter, data, length, item);
    if (error != 0)
        return reply_error(meter, WRITE_DATA, error, out);
    memcpy(meter->operator_code, data + 8, 4);
    memcpy(meter->registers + item.place, data + 12, item.length);
    return reply(meter, WRITE_DATA, 0, out);
}

/* 15: L = 6, key on, new address good, else silence. */
static inline struct written write_address(struct meter *meter, const uint8_t *data, size_t length, uint8_t *out)
{
    if (length != 6 || !meter->key || !is_good(data))
        return refused(SILENT_BY_RULE);
    memcpy(meter->address, data, 6);
    return reply(meter, WRITE_ADDRESS, 0, out);
}

/* 18: L = 12 (01); identifier (02); key on, old level and its password (04); new password decimal (01). */
static inline struct written change_password(struct meter *meter, const uint8_t *data, size_t length, uint8_t *out)
{
    if (length != 12)
        return reply_error(meter, CHANGE_PASSWORD, OTHER_ERROR, out);
    unsigned level = data[8];
    if (level > 9 || identifier_of(data) != 0x04000C01 + level)
        return reply_error(meter, CHANGE_PASSWORD, NO_SUCH_DATA, out);
    if (!meter->key || !is_authorised(meter, level, data[4], data + 5))
        return reply_error(meter, CHANGE_PASSWORD, NOT_AUTHORISED, out);
    if (!all_decimal(data + 9, 3))
        return reply_error(meter, CHANGE_PASSWORD, OTHER_ERROR, out);
    memcpy(meter->passwords + 3 * level, data + 9, 3);
    memcpy(out + 10, data + 8, 4);
    return reply(meter, CHANGE_PASSWORD, 4, out);
}

/* ---- The answer to a frame ---- */

/* Whether a frame with this control and address is for the meter; no other control is. */
static inline bool is_addressed(uint8_t control, const uint8_t *address, const uint8_t *own)
{
    switch (control) {
    case READ_DATA:
        return memcmp(address, own, 6) == 0 || short_matches(address, own);
    case WRITE_DATA:
    case CHANGE_PASSWORD:
        return memcmp(address, own, 6) == 0;
    case READ_ADDRESS:
    case WRITE_ADDRESS:
        return memcmp(address, WILDCARDS, 6) == 0;
    default:
        return false;
    }
}

/* The answer to a frame that is for the meter. */
static inline struct written answer_addressed(struct meter *meter, const struct energies *energies, const uint8_t *bytes,
                                              uint8_t *out)
{
    uint8_t data[MOST_FIELD];
    size_t length = take_data(bytes, data);
    switch (bytes[8]) {
    case READ_DATA:
        return read_data(meter, energies, data, length, out);
    case READ_ADDRESS:
        return read_address(meter, length, out);
    case WRITE_DATA:
        return write_data(meter, data, length, out);
    case WRITE_ADDRESS:
        return write_address(meter, data, length, out);
    default:
        return change_password(meter, data, length, out);
    }
}

static inline struct written answer_frame(struct meter *meter, const struct energies *energies, const uint8_t *bytes,
                                          size_t count, uint8_t *out, size_t out_len)
{
    if (!is_within_ranges(meter, energies))
        return refused(OUT_OF_RANGE);
    if (out_len < LONGEST_FRAME)
        return refused(SHORT_MEMORY);
    if (!is_frame(bytes, count))
        return refused(NOT_ONE_FRAME);
    if (!is_addressed(bytes[8], bytes + 1, meter->address))
        return refused(NOT_FOR_THIS_METER);
    return answer_addressed(meter, energies, bytes, out);
}

#endif
