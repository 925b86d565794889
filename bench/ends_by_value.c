/* Both ends in C, which pass meter, readings and request by value, and return by value what they change. It is compiled
   by gcc and by clang, each under its own name, ENDS, which stands before the names of the calls, and once more by both
   where up to eight bytes are looked at as one number (BY_WORDS). A call takes what it is given by value, as the proved
   one does, and hands it on by value to the operation. That stays a function of its own: made a part of the call, with
   nothing copied, it would be the code in place. */
#include "exchange.h"

#define JOINED(name, call) name##_##call
#define NAMED(name, call) JOINED(name, call)

#ifdef __clang__
#define OPERATION __attribute__((noinline)) static
#else
#define OPERATION __attribute__((noipa)) static
#endif

OPERATION struct meter_answer answer_by_value(struct meter meter, struct energies energies, const uint8_t *bytes,
                                              size_t count, uint8_t *out, size_t out_len)
{
    struct written answer = answer_frame(&meter, &energies, bytes, count, out, out_len);
    return (struct meter_answer){meter, answer.refusal, answer.length};
}

OPERATION struct meter_set set_key_by_value(struct meter meter, struct energies energies, bool on)
{
    uint8_t refusal = set_key(&meter, &energies, on);
    return (struct meter_set){meter, refusal};
}

OPERATION struct meter_counted pulse_by_value(struct meter meter, struct energies energies, uint32_t amount,
                                              uint8_t direction, uint8_t rate)
{
    uint8_t refusal = pulse(&meter, &energies, amount, direction, rate);
    return (struct meter_counted){energies, refusal, meter};
}

OPERATION struct meter_counted settle_by_value(struct meter meter, struct energies energies)
{
    uint8_t refusal = settle_rows(&meter, &energies);
    return (struct meter_counted){energies, refusal, meter};
}

OPERATION struct written build_by_value(struct request request, uint8_t *out, size_t out_len)
{
    return build_request(&request, out, out_len);
}

OPERATION struct judgement judge_by_value(struct request request, const uint8_t *bytes, size_t count, uint8_t *out,
                                          size_t out_len)
{
    return judge_reply(&request, bytes, count, out, out_len);
}

/* The receiver is passed and returned by value. */
static size_t hear(const uint8_t *sent, size_t count, uint8_t *heard, size_t heard_len)
{
    struct received received = {{{0}, 0}, {0, 0, 0}};
    for (size_t i = 0; i < count; i++)
        received = after_byte(received.receiver, sent[i], heard, heard_len);
    return received.answer.bytes;
}

/* The meter after an exchange, with what it comes to. */
static struct exchange_done done_with(struct meter meter, struct exchange_answer done)
{
    return (struct exchange_done){meter, done.judgement.which, done.judgement.number, done.delivered, done.replied};
}

OPERATION struct exchange_done exchange_by_value(struct request request, struct meter meter, struct energies energies,
                                                 uint8_t *sent, size_t sent_len, uint8_t *heard, size_t heard_len,
                                                 uint8_t *reply, size_t reply_len, uint8_t *value, size_t value_len)
{
    if (!is_within_ranges(&meter, &energies))
        return done_with(meter, without_reply(NOT_SENT, OUT_OF_RANGE, 0));
    if (!is_enough(sent_len, heard_len, reply_len, value_len))
        return done_with(meter, without_reply(NOT_SENT, SHORT_MEMORY, 0));
    struct written built = build_by_value(request, sent, sent_len);
    if (built.refusal != 0)
        return done_with(meter, without_reply(NOT_SENT, built.refusal, 0));
    size_t delivered = hear(sent, built.length, heard, heard_len);
    struct meter_answer answered = answer_by_value(meter, energies, heard, delivered, reply, reply_len);
    if (answered.refusal != 0)
        return done_with(answered.meter, without_reply(SILENT, answered.refusal, delivered));
    struct judgement judgement = judge_by_value(request, reply, answered.length, value, value_len);
    return done_with(answered.meter, (struct exchange_answer){judgement, delivered, answered.length});
}

/* ---- The calls ---- */

struct meter_answer NAMED(ENDS, answer)(struct meter meter, struct energies energies, const uint8_t *bytes,
                                        size_t count, uint8_t *out, size_t out_len)
{
    return answer_by_value(meter, energies, bytes, count, out, out_len);
}

struct meter_set NAMED(ENDS, set_key)(struct meter meter, struct energies energies, bool on)
{
    return set_key_by_value(meter, energies, on);
}

struct meter_counted NAMED(ENDS, pulse)(struct meter meter, struct energies energies, uint32_t amount,
                                        uint8_t direction, uint8_t rate)
{
    return pulse_by_value(meter, energies, amount, direction, rate);
}

struct meter_counted NAMED(ENDS, settle)(struct meter meter, struct energies energies)
{
    return settle_by_value(meter, energies);
}

struct written NAMED(ENDS, build)(struct request request, uint8_t *out, size_t out_len)
{
    return build_by_value(request, out, out_len);
}

struct judgement NAMED(ENDS, judge)(struct request request, const uint8_t *bytes, size_t count, uint8_t *out,
                                    size_t out_len)
{
    return judge_by_value(request, bytes, count, out, out_len);
}

struct exchange_done NAMED(ENDS, exchange)(struct request request, struct meter meter, struct energies energies,
                                           uint8_t *sent, size_t sent_len, uint8_t *heard, size_t heard_len,
                                           uint8_t *reply, size_t reply_len, uint8_t *value, size_t value_len)
{
    return exchange_by_value(request, meter, energies, sent, sent_len, heard, heard_len, reply, reply_len, value,
                             value_len);
}
