/* The reader's end in C by words: a request built, and a reply judged against it. */
#ifndef READER_BY_WORDS_H
#define READER_BY_WORDS_H

#include "items_by_words.h"

/* The control of a request: any other than that of a read or a write of data reads the address. */
static inline uint8_t control_of(const struct request *request)
{
    return request->control == READ_DATA || request->control == WRITE_DATA ? request->control : READ_ADDRESS;
}

/* ---- Which requests are allowed ---- */

static inline bool is_read_allowed(const struct request *request, struct item item)
{
    uint64_t address = number_of_six(request->address);
    return (is_good(address) || is_short(address)) && item.kind != NOT_LISTED;
}

static inline bool is_write_allowed(const struct request *request, struct item item)
{
    if (!is_good(number_of_six(request->address)) || !is_writable(item))
        return false;
    if (request->level > 9 || request->count != item.length)
        return false;
    return is_content(item.kind, lowest(number_of_eight(request->value), item.length));
}

static inline bool is_allowed(const struct request *request, uint8_t control, struct item item)
{
    if (control == READ_DATA)
        return is_read_allowed(request, item);
    return control == READ_ADDRESS || is_write_allowed(request, item);
}

/* ---- Building ---- */

/* Writes the identifier, masked. */
static inline void write_identifier(const struct request *request, uint8_t *out)
{
    uint32_t identifier = (uint32_t)masked(request->identifier);
    memcpy(out, &identifier, sizeof identifier);
}

/* Writes level and password, operator code and value behind the identifier, masked. The first three lie side by side in the
   request. */
static inline void write_rights_and_value(const struct request *request, uint8_t *out)
{
    uint64_t rights = masked(number_of_eight((const uint8_t *)request + offsetof(struct request, level)));
    memcpy(out, &rights, sizeof rights);
    write_lowest(out + 8, masked(number_of_eight(request->value)), request->count);
}

/* The frame of an allowed request; returns its length. */
static inline size_t write_request(const struct request *request, uint8_t control, uint8_t *out)
{
    if (control == READ_ADDRESS) {
        write_head(out, WILDCARDS, control, 0);
        return write_end(out, 0);
    }
    size_t length = control == READ_DATA ? 4 : 12 + request->count;
    write_head(out, number_of_six(request->address), control, (uint8_t)length);
    write_identifier(request, out + 10);
    if (control == READ_DATA)
        return write_end(out, 4);
    write_rights_and_value(request, out + 14);
    return write_end(out, length);
}

static inline struct written build_request(const struct request *request, uint8_t *out, size_t out_len)
{
    uint8_t control = control_of(request);
    if (out_len < REQUEST_MEMORY)
        return (struct written){SHORT_MEMORY, 0};
    if (!is_allowed(request, control, item_of(request->identifier)))
        return (struct written){NOT_ALLOWED, 0};
    memset(out, 0xFE, 4);
    return (struct written){0, 4 + write_request(request, control, out + 4)};
}

/* ---- Judging ---- */

static inline struct judgement judge_refused(uint8_t refusal)
{
    return (struct judgement){REFUSED, refusal};
}

/* Whether a reply to an allowed request for one address may come from another. */
static inline bool answers_from(uint8_t control, uint64_t address, uint64_t from)
{
    if (control == READ_ADDRESS)
        return true;
    return is_good(from) && (from == address || (control == READ_DATA && short_matches(address, from)));
}

/* Writes readings, unmasked, where all of them are decimal; returns whether they are. They are an odd number, so that one is
   left behind the pairs. */
static inline bool take_readings(const uint8_t *data, size_t length, uint8_t *out)
{
    uint64_t above = half_bytes_above_nine((uint32_t)unmasked(number_of_four(data + length - 4)));
    for (size_t i = 0; i + 8 <= length; i += 8)
        above |= half_bytes_above_nine(unmasked(number_of_eight(data + i)));
    if (above != 0)
        return false;
    for (size_t i = 0; i < length; i++)
        out[i] = data[i] - MASK;
    return true;
}

/* Writes a value, unmasked, where it is decimal; returns whether it is. The number taken of a short one ends with its last
   byte, and begins within the frame. */
static inline bool take_value(const uint8_t *data, size_t length, uint8_t *out)
{
    if (length == 4 * ROWS)
        return take_readings(data, 4 * ROWS, out);
    if (length == 4 * RATES)
        return take_readings(data, 4 * RATES, out);
    uint64_t value = unmasked(number_of_eight(data + length - 8)) >> (64 - 8 * length);
    if (!is_decimal(value))
        return false;
    write_lowest(out, value, length);
    return true;
}

/* A 91: L of at least 4 (7), the identifier (6), the value's length and every half byte (7). */
static inline struct judgement judge_read(uint32_t identifier, struct item item, const uint8_t *data, size_t length,
                                          uint8_t *out)
{
    if (length < 4)
        return judge_refused(MALFORMED);
    if ((uint32_t)unmasked(number_of_four(data)) != identifier)
        return judge_refused(NOT_AN_ANSWER);
    if (length - 4 != item.length || !take_value(data + 4, item.length, out))
        return judge_refused(MALFORMED);
    return (struct judgement){VALUE, item.length};
}

/* A 93: L 6, its own address repeated, a good one (7). */
static inline struct judgement judge_address(uint64_t from, const uint8_t *data, size_t length, uint8_t *out)
{
    if (length != 6)
        return judge_refused(MALFORMED);
    uint64_t address = lowest(unmasked(number_of_six(data)), 6);
    if (address != from || !is_good(from))
        return judge_refused(MALFORMED);
    write_lowest(out, address, 6);
    return (struct judgement){VALUE, 6};
}

/* A normal reply, by its data. */
static inline struct judgement judge_data(const struct request *request, uint8_t control, struct item item,
                                          const uint8_t *bytes, uint8_t *out)
{
    if (control == READ_DATA)
        return judge_read(request->identifier, item, bytes + 10, bytes[9], out);
    if (control == READ_ADDRESS)
        return judge_address(number_of_six(bytes + 1), bytes + 10, bytes[9], out);
    return bytes[9] == 0 ? (struct judgement){VALUE, 0} : judge_refused(MALFORMED);
}

static inline struct judgement judge_reply(const struct request *request, const uint8_t *bytes, size_t count, uint8_t *out,
                                           size_t out_len)
{
    uint8_t control = control_of(request);
    if (out_len < VALUE_MEMORY)
        return judge_refused(SHORT_MEMORY);
    struct item item = item_of(request->identifier);
    if (!is_allowed(request, control, item))
        return judge_refused(NOT_ALLOWED);
    if (!is_frame(bytes, count))
        return judge_refused(NOT_ONE_FRAME);
    bool is_error = bytes[8] == (control | ABNORMAL) && control != READ_ADDRESS;
    if (bytes[8] != (control | FROM_METER) && !is_error)
        return judge_refused(NOT_AN_ANSWER);
    if (!answers_from(control, number_of_six(request->address), number_of_six(bytes + 1)))
        return judge_refused(NOT_AN_ANSWER);
    if (!is_error)
        return judge_data(request, control, item, bytes, out);
    if (bytes[9] != 1)
        return judge_refused(MALFORMED);
    return (struct judgement){ERROR, (uint8_t)(bytes[10] - MASK)};
}

#endif
