/* Both ends in C, which change a meter or its readings where they lie. It is compiled by gcc and by clang, each under its
   own name, ENDS, which stands before the names of the calls. */
#include "exchange.h"

#define JOINED(name, call) name##_##call
#define NAMED(name, call) JOINED(name, call)

struct written NAMED(ENDS, answer)(struct meter *meter, const struct energies *energies, const uint8_t *bytes, size_t count,
                                   uint8_t *out, size_t out_len)
{
    return answer_frame(meter, energies, bytes, count, out, out_len);
}

uint8_t NAMED(ENDS, set_key)(struct meter *meter, const struct energies *energies, bool on)
{
    return set_key(meter, energies, on);
}

uint8_t NAMED(ENDS, pulse)(const struct meter *meter, struct energies *energies, uint32_t amount, uint8_t direction,
                           uint8_t rate)
{
    return pulse(meter, energies, amount, direction, rate);
}

uint8_t NAMED(ENDS, settle)(const struct meter *meter, struct energies *energies)
{
    return settle_rows(meter, energies);
}

struct written NAMED(ENDS, build)(const struct request *request, uint8_t *out, size_t out_len)
{
    return build_request(request, out, out_len);
}

struct judgement NAMED(ENDS, judge)(const struct request *request, const uint8_t *bytes, size_t count, uint8_t *out,
                                    size_t out_len)
{
    return judge_reply(request, bytes, count, out, out_len);
}

/* The receiver is changed where it lies. */
static size_t hear(const uint8_t *sent, size_t count, uint8_t *heard, size_t heard_len)
{
    struct receiver receiver = {{0}, 0};
    struct answer answer = {0, 0, 0};
    for (size_t i = 0; i < count; i++)
        answer = take_byte(&receiver, sent[i], heard, heard_len);
    return answer.bytes;
}

struct exchange_answer NAMED(ENDS, exchange)(const struct request *request, struct meter *meter,
                                             const struct energies *energies, uint8_t *sent, size_t sent_len,
                                             uint8_t *heard, size_t heard_len, uint8_t *reply, size_t reply_len,
                                             uint8_t *value, size_t value_len)
{
    if (!is_within_ranges(meter, energies))
        return without_reply(NOT_SENT, OUT_OF_RANGE, 0);
    if (!is_enough(sent_len, heard_len, reply_len, value_len))
        return without_reply(NOT_SENT, SHORT_MEMORY, 0);
    struct written built = build_request(request, sent, sent_len);
    if (built.refusal != 0)
        return without_reply(NOT_SENT, built.refusal, 0);
    size_t delivered = hear(sent, built.length, heard, heard_len);
    struct written answer = answer_frame(meter, energies, heard, delivered, reply, reply_len);
    if (answer.refusal != 0)
        return without_reply(SILENT, answer.refusal, delivered);
    struct judgement judgement = judge_reply(request, reply, answer.length, value, value_len);
    return (struct exchange_answer){judgement, delivered, answer.length};
}
