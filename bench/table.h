/* What all the C code of both ends shares: controls, refusals, error bytes, fresh registers, and the table
   of identifiers. */
#ifndef TABLE_H
#define TABLE_H

#include "ends.h"

enum {
    READ_DATA = 0x11,
    READ_ADDRESS = 0x13,
    WRITE_DATA = 0x14,
    WRITE_ADDRESS = 0x15,
    CHANGE_PASSWORD = 0x18,
    FROM_METER = 0x80,
    ABNORMAL = 0xC0,
};

/* Document 01's refusals. */
enum {
    SHORT_MEMORY = 1,
    NOT_ONE_FRAME = 2,
    NOT_FOR_THIS_METER = 3,
    SILENT_BY_RULE = 4,
    NOT_ALLOWED = 5,
    NOT_AN_ANSWER = 6,
    MALFORMED = 7,
    BAD_ARGUMENT = 8,
    OUT_OF_RANGE = 16,
};

/* The bytes of error replies. */
enum { OTHER_ERROR = 1, NO_SUCH_DATA = 2, NOT_AUTHORISED = 4 };

/* The readings of a direction, and the largest. */
enum { READINGS = ROWS * RATES, MOST_READING = 99999999 };

/* The registers of a fresh meter. */
static const uint8_t fresh_registers[REGISTERS] = {
    0x06, 0x01, 0x01, 0x00, 0x00, 0x00, 0x00, 0x15, 0x01, 0x00, 0x00,
    0x00, 0x00, 0x00, 0x00, 0x00, 0x01, 0x99, 0x99, 0x99, 0x99,
};

/* What an identifier names; what stands behind ADDRESS may be written. */
enum kind { NOT_LISTED, FORWARD, REVERSE, ADDRESS, DATE, TIME, MINUTES, METER_NUMBER, SETTLEMENT_DAY };

/* What is named, its length, its place among the readings or the registers, and how far the next reading is. */
struct item {
    enum kind kind;
    unsigned length;
    unsigned place;
    unsigned step;
};

/* A single reading or a block of readings: t is the column or FF for all, s the row or FF for all. */
static inline struct item energy_item(enum kind kind, unsigned t, unsigned s)
{
    if (t <= 4 && s <= 12)
        return (struct item){kind, 4, RATES * s + t, 1};
    if (t <= 4 && s == 0xFF)
        return (struct item){kind, 4 * ROWS, t, RATES};
    if (t == 0xFF && s <= 12)
        return (struct item){kind, 4 * RATES, RATES * s, 1};
    return (struct item){NOT_LISTED, 0, 0, 0};
}

/* The table's row for an identifier. */
static inline struct item item_of(uint32_t identifier)
{
    if (identifier >> 16 == 1)
        return energy_item(FORWARD, identifier >> 8 & 0xFF, identifier & 0xFF);
    if (identifier >> 16 == 2)
        return energy_item(REVERSE, identifier >> 8 & 0xFF, identifier & 0xFF);
    switch (identifier) {
    case 0x04000101:
        return (struct item){DATE, 4, 0, 0};
    case 0x04000102:
        return (struct item){TIME, 3, 4, 0};
    case 0x04000103:
        return (struct item){MINUTES, 1, 7, 0};
    case 0x04000104:
        return (struct item){MINUTES, 1, 8, 0};
    case 0x04000401:
        return (struct item){ADDRESS, 6, 0, 0};
    case 0x04000402:
        return (struct item){METER_NUMBER, 6, 9, 0};
    case 0x04000B01:
        return (struct item){SETTLEMENT_DAY, 2, 15, 0};
    case 0x04000B02:
        return (struct item){SETTLEMENT_DAY, 2, 17, 0};
    case 0x04000B03:
        return (struct item){SETTLEMENT_DAY, 2, 19, 0};
    default:
        return (struct item){NOT_LISTED, 0, 0, 0};
    }
}

static inline bool is_writable(struct item item)
{
    return item.kind > ADDRESS;
}

#endif
