/* The receiver in C: its state, and the two calls, which change the state where it lies. Each refuses a state whose
   kept bytes are not a proper beginning of a frame (16), and then an output buffer of under 212 bytes (1). */
#ifndef RECEIVER_H
#define RECEIVER_H

#include "frame.h"

struct receiver {
    uint8_t kept[MOST_KEPT];
    size_t count;
};

/* A call's answer: a refusal, or 0 and the numbers of bytes and frames handed on. */
struct answer {
    unsigned refusal;
    unsigned bytes;
    unsigned frames;
};

/* Hands on the bytes kept and the last byte, which are one frame. */
static inline struct answer hand_on(struct receiver *receiver, uint8_t byte, uint8_t *out)
{
    size_t count = receiver->count;
    memcpy(out, receiver->kept, count);
    out[count] = byte;
    receiver->count = 0;
    return (struct answer){0, (unsigned)count + 1, 1};
}

/* Hands on the frames found in the bytes kept, and keeps what follows them. */
static inline struct answer settle(struct receiver *receiver, bool silence, uint8_t *out)
{
    struct search found = find_frames(receiver->kept, receiver->count, silence, out);
    if (found.place > 0) {
        receiver->count -= found.place;
        memmove(receiver->kept, receiver->kept + found.place, receiver->count);
    }
    return (struct answer){0, (unsigned)found.bytes, (unsigned)found.frames};
}

/* Gives up the first place, and settles the others with the byte behind them. */
static inline struct answer give_up(struct receiver *receiver, uint8_t byte, uint8_t *out)
{
    size_t count = receiver->count;
    memmove(receiver->kept, receiver->kept + 1, count - 1);
    receiver->kept[count - 1] = byte;
    return settle(receiver, false, out);
}

/* Takes a byte. */
static inline struct answer take_byte(struct receiver *receiver, uint8_t byte, uint8_t *out, size_t out_len)
{
    enum verdict verdict = verdict_on(receiver->kept, receiver->count, byte);
    if (verdict == BAD)
        return (struct answer){16, 0, 0};
    if (out_len < LONGEST_FRAME)
        return (struct answer){1, 0, 0};
    if (verdict == WHOLE)
        return hand_on(receiver, byte, out);
    if (verdict == FALLS)
        return give_up(receiver, byte, out);
    if (verdict == GROWS)
        receiver->kept[receiver->count++] = byte;
    return (struct answer){0, 0, 0};
}

/* Takes a silence. */
static inline struct answer take_silence(struct receiver *receiver, uint8_t *out, size_t out_len)
{
    if (!is_beginning(receiver->kept, receiver->count))
        return (struct answer){16, 0, 0};
    if (out_len < LONGEST_FRAME)
        return (struct answer){1, 0, 0};
    return settle(receiver, true, out);
}

/* The next state and the answer, where the state is passed by value. */
struct received {
    struct receiver receiver;
    struct answer answer;
};

/* The state after a byte. */
static inline struct received after_byte(struct receiver receiver, uint8_t byte, uint8_t *out, size_t out_len)
{
    struct answer answer = take_byte(&receiver, byte, out, out_len);
    return (struct received){receiver, answer};
}

#endif
