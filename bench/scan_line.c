/* A whole recorded line read in C straight from the buffer. It is compiled by gcc and by clang, each under its own name,
   SCAN_LINE. */
#include "frame.h"
#include "readers.h"

size_t SCAN_LINE(const uint8_t *input, size_t input_len, uint8_t *out, size_t out_len)
{
    if (out_len < input_len)
        return SIZE_MAX;
    return scan_frames(input, input_len, true, out).bytes;
}
