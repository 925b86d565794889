/* The implementations of both ends, all behind calls by value: those in place change the arguments, which are copies, and
   hand them back. */
#include "implementations.h"

#define HAND_BACK(name) \
    static struct meter_answer name##_answer_handed_back(struct meter meter, struct energies energies, \
                                                         const uint8_t *bytes, size_t count, uint8_t *out, \
                                                         size_t out_len) \
    { \
        struct written answer = name##_answer(&meter, &energies, bytes, count, out, out_len); \
        return (struct meter_answer){meter, answer.refusal, answer.length}; \
    } \
    static struct meter_set name##_set_key_handed_back(struct meter meter, struct energies energies, bool on) \
    { \
        uint8_t refusal = name##_set_key(&meter, &energies, on); \
        return (struct meter_set){meter, refusal}; \
    } \
    static struct meter_counted name##_pulse_handed_back(struct meter meter, struct energies energies, uint32_t amount, \
                                                         uint8_t direction, uint8_t rate) \
    { \
        uint8_t refusal = name##_pulse(&meter, &energies, amount, direction, rate); \
        return (struct meter_counted){energies, refusal, meter}; \
    } \
    static struct meter_counted name##_settle_handed_back(struct meter meter, struct energies energies) \
    { \
        uint8_t refusal = name##_settle(&meter, &energies); \
        return (struct meter_counted){energies, refusal, meter}; \
    } \
    static struct written name##_build_handed_back(struct request request, uint8_t *out, size_t out_len) \
    { \
        return name##_build(&request, out, out_len); \
    } \
    static struct judgement name##_judge_handed_back(struct request request, const uint8_t *bytes, size_t count, \
                                                     uint8_t *out, size_t out_len) \
    { \
        return name##_judge(&request, bytes, count, out, out_len); \
    } \
    static struct exchange_done name##_exchange_handed_back( \
        struct request request, struct meter meter, struct energies energies, uint8_t *sent, size_t sent_len, \
        uint8_t *heard, size_t heard_len, uint8_t *reply, size_t reply_len, uint8_t *value, size_t value_len) \
    { \
        struct exchange_answer done = name##_exchange(&request, &meter, &energies, sent, sent_len, heard, heard_len, \
                                                      reply, reply_len, value, value_len); \
        return (struct exchange_done){meter, done.judgement.which, done.judgement.number, done.delivered, \
                                      done.replied}; \
    }

HAND_BACK(in_place_gcc)
HAND_BACK(in_place_clang)

#define BY_VALUE(name) \
    {#name,         name##_answer, name##_set_key, name##_pulse, \
     name##_settle, name##_build,  name##_judge,   name##_exchange}

#define IN_PLACE(name) \
    {#name, \
     name##_answer_handed_back, \
     name##_set_key_handed_back, \
     name##_pulse_handed_back, \
     name##_settle_handed_back, \
     name##_build_handed_back, \
     name##_judge_handed_back, \
     name##_exchange_handed_back}

const struct implementation implementations[IMPLEMENTATIONS] = {
    BY_VALUE(call),         BY_VALUE(by_value_gcc),   BY_VALUE(by_value_clang), BY_VALUE(by_words_gcc),
    BY_VALUE(by_words_clang), IN_PLACE(in_place_gcc), IN_PLACE(in_place_clang),
};
