/* The reader's end in C: a request built, and a reply judged against it. */
#ifndef READER_H
#define READER_H

#include "items.h"

/* The control of a request: any other than that of a read or a write of data reads the address. */
static inline uint8_t control_of(const struct request *request)
{
    return request->control == READ_DATA || request->control == WRITE_DATA ? request->control : READ_ADDRESS;
}

/* ---- Which requests are allowed ---- */

static inline bool is_read_allowed(const struct request *request, struct item item)
{
    return (is_good(request->address) || is_short(request->address)) && item.kind != NOT_LISTED;
}

static inline bool is_write_allowed(const struct request *request, struct item item)
{
    return is_good(request->address) && is_writable(item) && request->level <= 9 && request->count == item.length &&
           is_content(item, request->value);
}

static inline bool is_allowed(const struct request *request, uint8_t control, struct item item)
{
    if (control == READ_DATA)
        return is_read_allowed(request, item);
    return control == READ_ADDRESS || is_write_allowed(request, item);
}

/* ---- Building ---- */

/* Puts the data of a write behind the identifier; returns how many data there are. */
static inline size_t put_write(const struct request *request, uint8_t *data)
{
    data[4] = request->level;
    memcpy(data + 5, request->password, 3);
    memcpy(data + 8, request->operator_code, 4);
    memcpy(data + 12, request->value, request->count);
    return 12 + request->count;
}

/* Puts the data of a request; returns how many they are. */
static inline size_t put_data(const struct request *request, uint8_t control, uint8_t *data)
{
    if (control == READ_ADDRESS)
        return 0;
    for (size_t i = 0; i < 4; i++)
        data[i] = (uint8_t)(request->identifier >> 8 * i);
    return control == READ_DATA ? 4 : put_write(request, data);
}

static inline struct written build_request(const struct request *request, uint8_t *out, size_t out_len)
{
    uint8_t control = control_of(request);
    if (out_len < REQUEST_MEMORY)
        return (struct written){SHORT_MEMORY, 0};
    if (!is_allowed(request, control, item_of(request->identifier)))
        return (struct written){NOT_ALLOWED, 0};
    memset(out, 0xFE, 4);
    size_t length = put_data(request, control, out + 14);
    return (struct written){0, 4 + seal_frame(control == READ_ADDRESS ? WILDCARDS : request->address, control, length, out + 4)};
}

/* ---- Judging ---- */

static inline struct judgement judge_refused(uint8_t refusal)
{
    return (struct judgement){REFUSED, refusal};
}

/* Whether a reply to an allowed request for one address may come from another. */
static inline bool answers_from(const struct request *request, uint8_t control, const uint8_t *from)
{
    if (control == READ_ADDRESS)
        return true;
    if (control == READ_DATA && is_short(request->address))
        return is_good(from) && short_matches(request->address, from);
    return memcmp(from, request->address, 6) == 0;
}

/* A 91: L of at least 4 (7), the identifier (6), the value's length and every half byte (7). */
static inline struct judgement judge_read(uint32_t identifier, struct item item, const uint8_t *data, size_t length,
                                          uint8_t *out)
{
    if (length < 4)
        return judge_refused(MALFORMED);
    for (size_t i = 0; i < 4; i++)
        if (data[i] != (uint8_t)(identifier >> 8 * i))
            return judge_refused(NOT_AN_ANSWER);
    if (length - 4 != item.length || !all_decimal(data + 4, item.length))
        return judge_refused(MALFORMED);
    memcpy(out, data + 4, item.length);
    return (struct judgement){VALUE, item.length};
}

/* A 93: L 6, every half byte, its own address repeated, a good one (7). */
static inline struct judgement judge_address(const uint8_t *from, const uint8_t *data, size_t length, uint8_t *out)
{
    if (length != 6 || !all_decimal(data, 6) || memcmp(data, from, 6) != 0 || !is_good(from))
        return judge_refused(MALFORMED);
    memcpy(out, data, 6);
    return (struct judgement){VALUE, 6};
}

/* A reply whose control and address are an answer to the request, by its data. */
static inline struct judgement judge_data(const struct request *request, uint8_t control, struct item item,
                                          const uint8_t *bytes, uint8_t *out)
{
    uint8_t data[MOST_FIELD];
    size_t length = take_data(bytes, data);
    if (bytes[8] == (control | ABNORMAL))
        return length == 1 ? (struct judgement){ERROR, data[0]} : judge_refused(MALFORMED);
    if (control == READ_DATA)
        return judge_read(request->identifier, item, data, length, out);
    if (control == READ_ADDRESS)
        return judge_address(bytes + 1, data, length, out);
    return length == 0 ? (struct judgement){VALUE, 0} : judge_refused(MALFORMED);
}

static inline struct judgement judge_reply(const struct request *request, const uint8_t *bytes, size_t count, uint8_t *out,
                                           size_t out_len)
{
    uint8_t control = control_of(request);
    if (out_len < VALUE_MEMORY)
        return judge_refused(SHORT_MEMORY);
    struct item item = item_of(request->identifier);
    if (!is_allowed(request, control, item))
        return judge_refused(NOT_ALLOWED);
    if (!is_frame(bytes, count))
        return judge_refused(NOT_ONE_FRAME);
    bool may_fail = control != READ_ADDRESS;
    if (bytes[8] != (control | FROM_METER) && !(may_fail && bytes[8] == (control | ABNORMAL)))
        return judge_refused(NOT_AN_ANSWER);
    if (!answers_from(request, control, bytes + 1))
        return judge_refused(NOT_AN_ANSWER);
    return judge_data(request, control, item, bytes, out);
}

#endif
