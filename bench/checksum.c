/* The sum of bytes in C, wrapping at 256, under the names that the makefile gives. */
#include "checksum.h"

/* One byte a turn. */
uint8_t PLAIN(const uint8_t *bytes, size_t count)
{
    uint8_t sum = 0;
    for (size_t i = 0; i < count; i++)
        sum += bytes[i];
    return sum;
}

/* Four bytes a turn, each place of a turn with a sum of its own, and the odd ones after: the shape of the proved one. */
uint8_t FOURS(const uint8_t *bytes, size_t count)
{
    uint8_t a = 0, b = 0, c = 0, d = 0;
    size_t i = 0;
    for (; count - i >= 4; i += 4) {
        a += bytes[i];
        b += bytes[i + 1];
        c += bytes[i + 2];
        d += bytes[i + 3];
    }
    uint8_t sum = a + b + c + d;
    size_t odd = count - i;
    if (odd == 0)
        return sum;
    sum += bytes[i];
    if (odd == 1)
        return sum;
    sum += bytes[i + 1];
    if (odd == 2)
        return sum;
    return sum + bytes[i + 2];
}
