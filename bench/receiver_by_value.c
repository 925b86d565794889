/* The receiver in C whose state is passed by value, and returned by value beside the answer. One symbol a call. */
#include "receiver.h"
#include "readers.h"

/* The state after a silence, which comes once a line: gcc 12 warns without cause where it is made a part of the loop's
   function. */
__attribute__((noinline)) static struct received after_silence(struct receiver receiver, uint8_t *out, size_t out_len)
{
    struct answer answer = take_silence(&receiver, out, out_len);
    return (struct received){receiver, answer};
}

size_t receive_line_by_value(const uint8_t *input, size_t input_len, uint8_t *out, size_t out_len)
{
    struct received received = {{{0}, 0}, {0, 0, 0}};
    uint8_t lent[LONGEST_FRAME];
    size_t written = 0;
    if (out_len < input_len)
        return SIZE_MAX;
    for (size_t i = 0; i < input_len; i++) {
        received = after_byte(received.receiver, input[i], lent, sizeof lent);
        if (received.answer.bytes > 0)
            memcpy(out + written, lent, received.answer.bytes);
        written += received.answer.bytes;
    }
    received = after_silence(received.receiver, lent, sizeof lent);
    memcpy(out + written, lent, received.answer.bytes);
    return written + received.answer.bytes;
}
