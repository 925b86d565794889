/* A call of either end with all that it is given, and calls made by chance. */
#ifndef CALLS_H
#define CALLS_H

#include "implementations.h"

enum operation { ANSWER, SET_KEY, PULSE, SETTLE, BUILD, JUDGE, EXCHANGE, OPERATIONS };

/* Output buffers have so many bytes, of which at most so many are lent. */
enum {
    BUFFER = 320,
    MOST_LENT = 256,
    BUFFERS = 4,
};

/* What a call is given; only some of it matters to an operation. The bytes are a frame, or nearly one. */
struct call {
    enum operation operation;
    struct meter meter;
    struct energies energies;
    struct request request;
    uint8_t bytes[MOST_LENT];
    size_t count;
    bool on;
    uint32_t amount;
    uint8_t direction;
    uint8_t rate;
    uint8_t fill;
    size_t sizes[BUFFERS];
};

/* The parts of a frame, its data unmasked. */
struct parts {
    uint8_t address[6];
    uint8_t control;
    uint8_t data[200];
    size_t length;
};

/* Writes the frame of its parts; returns its length. */
size_t seal(const struct parts *parts, uint8_t *bytes);

/* The next call by chance. */
void make_call(struct call *call);

/* Starts chance anew. */
void seed_calls(uint64_t seed);

#endif
