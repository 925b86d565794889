/* What an exchange in C needs besides both ends and the receiver, whichever way these are passed. */
#ifndef EXCHANGE_H
#define EXCHANGE_H

#ifdef BY_WORDS
#include "meter_by_words.h"
#include "reader_by_words.h"
#else
#include "meter.h"
#include "reader.h"
#endif
#include "receiver.h"

/* Whether there is memory for the request, the receiver, the reply and the value. */
static inline bool is_enough(size_t sent, size_t heard, size_t reply, size_t value)
{
    return sent >= REQUEST_MEMORY && heard >= LONGEST_FRAME && reply >= LONGEST_FRAME && value >= VALUE_MEMORY;
}

/* An exchange that comes to no reply. */
static inline struct exchange_answer without_reply(enum which which, uint8_t refusal, size_t delivered)
{
    return (struct exchange_answer){{(uint8_t)which, refusal}, delivered, 0};
}

#endif
