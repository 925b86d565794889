/* Calls of both ends made by chance: meters mostly within their ranges, requests mostly allowed, frames mostly good, and
   each of them wrong in one thing often enough. */
#include <string.h>

#include "calls.h"
#include "chance.h"
#include "items.h"

/* Whether a thing happens that happens once in so many times. */
static bool once_in(size_t times)
{
    return below(times) == 0;
}

void seed_calls(uint64_t seed)
{
    chance_state = seed;
}

size_t seal(const struct parts *parts, uint8_t *bytes)
{
    uint8_t sum = 0;
    bytes[0] = bytes[7] = START;
    memcpy(bytes + 1, parts->address, 6);
    bytes[8] = parts->control;
    bytes[9] = (uint8_t)parts->length;
    for (size_t i = 0; i < parts->length; i++)
        bytes[10 + i] = parts->data[i] + MASK;
    for (size_t i = 0; i < 10 + parts->length; i++)
        sum += bytes[i];
    bytes[10 + parts->length] = sum;
    bytes[11 + parts->length] = LAST;
    return 12 + parts->length;
}

/* ---- Digits and addresses ---- */

/* Two digits of a number from least to most. */
static uint8_t digits_within(size_t least, size_t most)
{
    size_t number = least + below(most - least + 1);
    return (uint8_t)(number / 10 * 16 + number % 10);
}

/* The same, at times next to the bounds, and at times no digits. */
static uint8_t digits_about(size_t least, size_t most)
{
    if (once_in(12))
        return digits_within(most + 1, 99);
    if (once_in(12))
        return least > 0 ? 0 : 0x99;
    if (once_in(24))
        return (uint8_t)chance();
    return digits_within(least, most);
}

static void put_digits(uint8_t *bytes, size_t count)
{
    for (size_t i = 0; i < count; i++)
        bytes[i] = digits_within(0, 99);
}

/* A byte that is not decimal. */
static uint8_t bad_byte(void)
{
    uint8_t half = (uint8_t)(10 + below(6));
    return once_in(2) ? half : (uint8_t)(half << 4 | below(10));
}

/* Makes an address short, of one to five low bytes. */
static void shorten(uint8_t *address)
{
    for (size_t i = 1 + below(5); i < 6; i++)
        address[i] = 0xAA;
}

/* Makes an address wrong in one of several ways. */
static void spoil_address(uint8_t *address)
{
    switch (below(6)) {
    case 0:
        put_digits(address, 6);
        break;
    case 1:
        address[below(6)] = bad_byte();
        break;
    case 2:
        memset(address, once_in(2) ? 0xAA : 0x99, 6);
        break;
    case 3:
        address[below(6)] = 0xAA;
        break;
    case 4:
        shorten(address);
        address[0] = once_in(2) ? digits_within(0, 99) : bad_byte();
        break;
    default:
        address[below(6)] ^= (uint8_t)(1 << below(8));
    }
}

/* ---- Meters ---- */

static uint32_t reading_by_chance(void)
{
    static const uint32_t edges[] = {0, 1, 9999, 10000, 99999999, 99999998, 12345678};
    return once_in(8) ? edges[below(sizeof edges / sizeof edges[0])] : (uint32_t)below(100000000);
}

static void make_readings(struct energies *energies)
{
    for (size_t i = 0; i < ROWS; i++)
        for (size_t j = 0; j < RATES; j++) {
            energies->forward[i][j] = reading_by_chance();
            energies->reverse[i][j] = reading_by_chance();
        }
}

/* Puts one thing of a meter outside its range. */
static void spoil_meter(struct call *call)
{
    static const uint32_t readings[] = {100000000, 0x7FFFFFFF, 0x80000000, 0xFFFFFFFF, 0x85F5E100, 0xFA0A1EFF};
    uint32_t bad = readings[below(sizeof readings / sizeof readings[0])];
    switch (below(4)) {
    case 0:
        call->meter.address[below(6)] = bad_byte();
        break;
    case 1:
        memset(call->meter.address, 0x99, 6);
        break;
    case 2:
        call->meter.registers[below(REGISTERS)] = bad_byte();
        break;
    default:
        if (once_in(2))
            call->energies.forward[below(ROWS)][below(RATES)] = bad;
        else
            call->energies.reverse[below(ROWS)][below(RATES)] = bad;
    }
}

static void make_meter(struct call *call)
{
    put_digits(call->meter.address, 6);
    call->meter.key = !once_in(4);
    for (size_t i = 0; i < sizeof call->meter.passwords; i++)
        call->meter.passwords[i] = once_in(2) ? 0 : (uint8_t)chance();
    for (size_t i = 0; i < sizeof call->meter.operator_code; i++)
        call->meter.operator_code[i] = (uint8_t)chance();
    put_digits(call->meter.registers, REGISTERS);
    make_readings(&call->energies);
    if (once_in(12))
        spoil_meter(call);
}

/* ---- Identifiers and values ---- */

static uint32_t register_by_chance(void)
{
    static const uint32_t registers[] = {0x04000101, 0x04000102, 0x04000103, 0x04000104,
                                         0x04000402, 0x04000B01, 0x04000B02, 0x04000B03};
    return registers[below(sizeof registers / sizeof registers[0])];
}

static uint32_t energy_by_chance(void)
{
    uint32_t group = 0x00010000 << below(2);
    uint32_t t = (uint32_t)(once_in(3) ? 0xFF : below(once_in(20) ? 7 : 5));
    uint32_t s = (uint32_t)(once_in(3) ? 0xFF : below(once_in(20) ? 15 : 13));
    return group + 256 * t + s;
}

/* Of a register, of readings, of the address, next to a listed one, or of nothing. */
static uint32_t identifier_by_chance(size_t registers_of_ten)
{
    if (below(10) < registers_of_ten)
        return register_by_chance();
    if (once_in(12))
        return 0x04000401;
    if (once_in(12))
        return register_by_chance() ^ 1u << below(32);
    if (once_in(24))
        return (uint32_t)chance();
    return energy_by_chance();
}

/* A value for an identifier, mostly one that may be written; returns its length. */
static size_t put_value(uint32_t identifier, uint8_t *value)
{
    struct item item = item_of(identifier);
    put_digits(value, item.length);
    if (item.kind == DATE) {
        value[0] = digits_about(0, 6);
        value[1] = digits_about(1, 31);
        value[2] = digits_about(1, 12);
    } else if (item.kind == TIME) {
        value[0] = digits_about(0, 59);
        value[1] = digits_about(0, 59);
        value[2] = digits_about(0, 23);
    } else if (item.kind == MINUTES) {
        value[0] = digits_about(1, 60);
    } else if (item.kind == SETTLEMENT_DAY) {
        value[0] = digits_about(0, 23);
        value[1] = digits_about(1, 28);
        if (once_in(8))
            memset(value, 0x99, 1 + below(2));
    }
    if (item.length > 0 && once_in(16))
        value[below(item.length)] = bad_byte();
    return item.length;
}

static void put_identifier(uint32_t identifier, uint8_t *bytes)
{
    memcpy(bytes, &identifier, 4);
}

/* Writes a level and its password, mostly the right one. */
static void put_password(const struct meter *meter, size_t level, uint8_t *bytes)
{
    bytes[0] = (uint8_t)level;
    for (size_t i = 0; i < 3; i++)
        bytes[1 + i] = level < 10 ? meter->passwords[3 * level + i] : 0;
    if (once_in(8))
        bytes[1 + below(3)] ^= (uint8_t)(1 + below(255));
}

/* ---- Frames for the meter ---- */

static void make_read(struct parts *parts)
{
    put_identifier(identifier_by_chance(4), parts->data);
    parts->length = 4;
    if (once_in(4))
        shorten(parts->address);
}

static void make_write(const struct meter *meter, struct parts *parts)
{
    uint32_t identifier = identifier_by_chance(9);
    put_identifier(identifier, parts->data);
    put_password(meter, once_in(8) ? below(12) : below(5), parts->data + 4);
    for (size_t i = 8; i < 12; i++)
        parts->data[i] = (uint8_t)chance();
    parts->length = 12 + put_value(identifier, parts->data + 12);
}

static void make_new_address(struct parts *parts)
{
    put_digits(parts->data, 6);
    parts->length = 6;
    if (once_in(4))
        spoil_address(parts->data);
}

static void make_new_password(const struct meter *meter, struct parts *parts)
{
    size_t level = below(once_in(8) ? 12 : 10);
    put_identifier((uint32_t)(0x04000C01 + (once_in(12) ? below(10) : level)), parts->data);
    put_password(meter, once_in(6) ? below(11) : below(level + 1), parts->data + 4);
    parts->data[8] = (uint8_t)level;
    put_digits(parts->data + 9, 3);
    if (once_in(8))
        parts->data[9 + below(3)] = bad_byte();
    parts->length = 12;
}

/* A command with data that fit it, to whom it is for. */
static void make_command(const struct meter *meter, struct parts *parts)
{
    static const uint8_t controls[] = {0x11, 0x11, 0x11, 0x11, 0x13, 0x14, 0x14, 0x14, 0x14, 0x15, 0x15, 0x18, 0x18};
    parts->control = controls[below(sizeof controls)];
    parts->length = 0;
    memcpy(parts->address, meter->address, 6);
    if (parts->control == READ_ADDRESS || parts->control == WRITE_ADDRESS)
        memset(parts->address, 0xAA, 6);
    if (parts->control == READ_DATA)
        make_read(parts);
    else if (parts->control == WRITE_DATA)
        make_write(meter, parts);
    else if (parts->control == WRITE_ADDRESS)
        make_new_address(parts);
    else if (parts->control == CHANGE_PASSWORD)
        make_new_password(meter, parts);
}

/* Makes the data longer or shorter. */
static void change_length(struct parts *parts)
{
    static const size_t lengths[] = {0, 1, 3, 4, 5, 6, 7, 11, 12, 13, 15, 16, 49, 50, 51, 56, 57, 199, 200};
    size_t length = lengths[below(sizeof lengths / sizeof lengths[0])];
    for (size_t i = parts->length; i < length; i++)
        parts->data[i] = digits_within(0, 99);
    parts->length = length;
}

/* Changes one thing of a frame whose checksum is then right. */
static void change_parts(struct parts *parts)
{
    switch (below(5)) {
    case 0:
        parts->control = once_in(2) ? (uint8_t)chance() : parts->control ^ (uint8_t)(1 << below(8));
        break;
    case 1:
    case 2:
        spoil_address(parts->address);
        break;
    case 3:
        change_length(parts);
        break;
    default:
        if (parts->length > 0)
            parts->data[below(parts->length)] ^= (uint8_t)(1 << below(8));
    }
}

/* Changes, cuts off or adds bytes of a frame, whose checksum mostly is wrong then. */
static void damage(struct call *call)
{
    switch (below(5)) {
    case 0:
        call->bytes[below(call->count)] ^= (uint8_t)(1 << below(8));
        break;
    case 1:
        call->bytes[call->count - 2] += (uint8_t)(1 + below(255));
        break;
    case 2:
        call->count = below(call->count);
        break;
    case 3:
        call->bytes[call->count++] = once_in(2) ? LAST : (uint8_t)chance();
        break;
    default:
        call->bytes[9] = (uint8_t)chance();
    }
}

/* Seals a frame, one in four with one thing changed before, one in eight damaged after. */
static void finish_frame(struct parts *parts, struct call *call)
{
    if (once_in(4))
        change_parts(parts);
    call->count = seal(parts, call->bytes);
    if (once_in(8))
        damage(call);
}

/* ---- Requests, and replies to them ---- */

static void make_request(struct call *call)
{
    static const uint8_t controls[] = {0x11, 0x11, 0x11, 0x13, 0x14, 0x14, 0x14};
    struct request *request = &call->request;
    uint8_t rights[4];
    memset(request, 0, sizeof *request);
    request->control = once_in(32) ? (uint8_t)chance() : controls[below(sizeof controls)];
    memcpy(request->address, call->meter.address, 6);
    request->identifier = identifier_by_chance(request->control == WRITE_DATA ? 9 : 4);
    put_password(&call->meter, once_in(8) ? below(12) : below(5), rights);
    request->level = rights[0];
    memcpy(request->password, rights + 1, 3);
    for (size_t i = 0; i < 4; i++)
        request->operator_code[i] = (uint8_t)chance();
    uint8_t value[4 * ROWS];
    request->count = put_value(request->identifier, value);
    memcpy(request->value, value, request->count < LONGEST_VALUE ? request->count : LONGEST_VALUE);
    if (request->control == READ_DATA && once_in(4))
        shorten(request->address);
    if (once_in(10))
        spoil_address(request->address);
    if (once_in(16))
        request->count = once_in(4) ? SIZE_MAX - below(3) : below(41);
}

/* The meter's own reply to the request, where there is one; else one without data. */
static void take_reply(const struct call *call, struct parts *parts)
{
    uint8_t sent[MOST_LENT], reply[MOST_LENT];
    struct written built = implementations[0].build(call->request, sent, MOST_LENT);
    struct meter_answer answered = {call->meter, 1, 0};
    if (built.refusal == 0)
        answered = implementations[0].answer(call->meter, call->energies, sent + 4, built.length - 4, reply, MOST_LENT);
    memcpy(parts->address, call->meter.address, 6);
    parts->control = (uint8_t)(call->request.control | (once_in(4) ? ABNORMAL : FROM_METER));
    parts->length = 0;
    if (answered.refusal != 0)
        return;
    memcpy(parts->address, reply + 1, 6);
    parts->control = reply[8];
    parts->length = reply[9];
    for (size_t i = 0; i < parts->length; i++)
        parts->data[i] = reply[10 + i] - MASK;
}

/* A reply that no meter need have given: a control, and data that nearly fit it. */
static void invent_reply(const struct call *call, struct parts *parts)
{
    static const uint8_t controls[] = {0x91, 0x91, 0x91, 0xD1, 0x93, 0xD3, 0x94, 0xD4, 0xB1, 0x11};
    parts->control = controls[below(sizeof controls)];
    memcpy(parts->address, call->meter.address, 6);
    parts->length = 0;
    if (parts->control == 0x91) {
        put_identifier(call->request.identifier, parts->data);
        parts->length = 4 + put_value(call->request.identifier, parts->data + 4);
    } else if (parts->control == 0x93) {
        memcpy(parts->data, parts->address, 6);
        parts->length = 6;
    } else if (parts->control >= ABNORMAL) {
        parts->data[0] = once_in(2) ? (uint8_t)(1 << below(3)) : (uint8_t)chance();
        parts->length = 1;
    }
}

/* ---- Calls ---- */

/* The size of an output buffer, mostly enough. */
static size_t size_by_chance(void)
{
    static const size_t sizes[] = {0, 65, 66, 67, 195, 196, 197, 211, 212, 213};
    if (!once_in(8))
        return MOST_LENT;
    return once_in(8) ? below(MOST_LENT + 1) : sizes[below(sizeof sizes / sizeof sizes[0])];
}

static enum operation operation_by_chance(void)
{
    static const enum operation operations[] = {ANSWER, ANSWER, ANSWER, ANSWER, ANSWER, SET_KEY, PULSE,
                                                SETTLE, BUILD,  BUILD,  JUDGE,  JUDGE,  JUDGE,   EXCHANGE, EXCHANGE};
    return operations[below(sizeof operations / sizeof operations[0])];
}

static void make_bytes(struct call *call)
{
    struct parts parts;
    if (call->operation == ANSWER)
        make_command(&call->meter, &parts);
    else if (once_in(2))
        take_reply(call, &parts);
    else
        invent_reply(call, &parts);
    finish_frame(&parts, call);
}

void make_call(struct call *call)
{
    memset(call, 0, sizeof *call);
    call->operation = operation_by_chance();
    make_meter(call);
    make_request(call);
    if (call->operation == ANSWER || call->operation == JUDGE)
        make_bytes(call);
    call->on = once_in(2);
    call->amount = once_in(4) ? (uint32_t)chance() : (uint32_t)below(100000);
    call->direction = (uint8_t)(once_in(8) ? chance() : below(2));
    call->rate = (uint8_t)(once_in(8) ? chance() : 1 + below(4));
    call->fill = (uint8_t)chance();
    for (size_t i = 0; i < BUFFERS; i++)
        call->sizes[i] = size_by_chance();
    if (call->operation == BUILD && once_in(2))
        call->sizes[0] = REQUEST_MEMORY;
}
