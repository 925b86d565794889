/* The receiver in C that changes its state in place, through a pointer. One symbol a call. */
#include "receiver.h"
#include "readers.h"

size_t receive_line_in_place(const uint8_t *input, size_t input_len, uint8_t *out, size_t out_len)
{
    struct receiver receiver = {{0}, 0};
    uint8_t lent[LONGEST_FRAME];
    size_t written = 0;
    if (out_len < input_len)
        return SIZE_MAX;
    for (size_t i = 0; i < input_len; i++) {
        struct answer answer = take_byte(&receiver, input[i], lent, sizeof lent);
        if (answer.bytes > 0)
            memcpy(out + written, lent, answer.bytes);
        written += answer.bytes;
    }
    struct answer answer = take_silence(&receiver, lent, sizeof lent);
    memcpy(out + written, lent, answer.bytes);
    return written + answer.bytes;
}
