/* The line of the listing that a frame has, as the programs in C write it. */
#ifndef LISTED_H
#define LISTED_H

#include <stddef.h>
#include <stdint.h>

static inline char *write_byte(char *to, uint8_t byte)
{
    static const char digits[] = "0123456789ABCDEF";
    *to++ = digits[byte >> 4];
    *to++ = digits[byte & 15];
    return to;
}

/* The line of one frame: the address high byte first, the control code, the unmasked data. */
static inline char *write_line(char *to, const uint8_t *frame)
{
    for (size_t i = 6; i > 0; i--)
        to = write_byte(to, frame[i]);
    *to++ = ' ';
    to = write_byte(to, frame[8]);
    if (frame[9] > 0)
        *to++ = ' ';
    for (size_t i = 0; i < frame[9]; i++)
        to = write_byte(to, (uint8_t)(frame[10 + i] - 0x33));
    *to++ = '\n';
    return to;
}

#endif
