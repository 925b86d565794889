/* The replay program in C, with fread: its argument is the address of a meter, twelve digits; a trace on standard input is
   walked record by record, with the same checks in the same order as the proved program makes, in blocks of 8 KiB behind
   the bytes of a record that is not whole yet. Bytes and silences go to a receiver. At the end, or at a record that is
   refused, one line is written on standard error. It is compiled in three forms, each by gcc and by clang:
     in place   the receiver is changed where it lies; frames, pulses and settlements are counted, and there is no meter
     BY_VALUE   the same with a receiver that is passed and returned by value
     METERED    in place, and a meter gets the frames and the calls of the host; its replies are listed on standard output */
#include <stdio.h>

#include "listed.h"
#include "meter.h"
#include "receiver.h"

#ifndef BY_VALUE
#define BY_VALUE 0
#endif
#ifndef METERED
#define METERED 0
#endif

/* How much is read at a time, how much of a record that is not whole can be left, and how much text a block can come to. */
enum { BLOCK = 8192, MOST_LEFT = 6, MOST_TEXT = 8192 + 18 * (BLOCK + MOST_LEFT) };

/* The kinds of records, and document 02's refusals. */
enum { BYTE = 1, SILENCE, PULSE, KEY, SETTLE };
enum { BAD_RECORD = 9, CUT_OFF = 10 };

/* What a replay goes on with, and what it has come to so far. */
struct replay {
    struct received heard;
    struct meter meter;
    struct energies energies;
    char *text_end;
    unsigned long long place, records, frames, replies, pulses, settlements;
};

/* The text of a block, and where the frames handed on lie: no variable of this file alone, so that no compiler leaves out
   the writing of what is only counted. */
static char text[MOST_TEXT];
uint8_t handed_on[LONGEST_FRAME];

/* ---- Records ---- */

/* Puts the frames handed on to the meter, and writes the lines of its replies. A function of its own, since clang takes 13
   instructions more for every byte where it is a part of the loop over bytes. */
__attribute__((noinline)) static void put_frames(struct replay *replay, size_t bytes)
{
    uint8_t reply[LONGEST_FRAME];
    for (size_t at = 0, length; at < bytes; at += length) {
        length = 12 + (size_t)handed_on[at + 9];
        struct written written =
            answer_frame(&replay->meter, &replay->energies, handed_on + at, length, reply, sizeof reply);
        if (written.refusal == 0) {
            replay->text_end = write_line(replay->text_end, reply);
            replay->replies++;
        }
    }
}

static inline void hand_over(struct replay *replay, struct answer answer)
{
    if (answer.frames == 0)
        return;
    replay->frames += answer.frames;
    if (METERED)
        put_frames(replay, answer.bytes);
}

/* Plays the byte records that so many bytes begin with; returns how many bytes these records have. */
static size_t play_bytes(struct replay *replay, const uint8_t *bytes, size_t count)
{
    size_t at = 0;
    for (; count - at > 1 && bytes[at] == BYTE; at += 2)
        hand_over(replay, take_byte(&replay->heard.receiver, bytes[at + 1], handed_on, sizeof handed_on));
    return at;
}

/* The same with a receiver by value: the loop carries what the last call returned. */
static size_t play_bytes_by_value(struct replay *replay, const uint8_t *bytes, size_t count)
{
    struct received heard = replay->heard;
    size_t at = 0;
    for (; count - at > 1 && bytes[at] == BYTE; at += 2) {
        heard = after_byte(heard.receiver, bytes[at + 1], handed_on, sizeof handed_on);
        hand_over(replay, heard.answer);
    }
    replay->heard = heard;
    return at;
}

static void count_pulse(struct replay *replay, const uint8_t *body)
{
    replay->pulses++;
    if (METERED)
        pulse(&replay->meter, &replay->energies, identifier_of(body + 2), body[0], body[1]);
}

static void count_settlement(struct replay *replay)
{
    replay->settlements++;
    if (METERED)
        settle_rows(&replay->meter, &replay->energies);
}

/* Plays the record that so many bytes begin with and that is no whole byte record; returns its length, or a refusal below
   0, and then nothing was played. */
static int play_other(struct replay *replay, const uint8_t *record, size_t count)
{
    switch (record[0]) {
    case BYTE:
        return -CUT_OFF;
    case SILENCE:
        hand_over(replay, take_silence(&replay->heard.receiver, handed_on, sizeof handed_on));
        return 1;
    case PULSE:
        if (count < 7)
            return -CUT_OFF;
        if (record[1] > 1 || record[2] < 1 || record[2] > 4)
            return -BAD_RECORD;
        count_pulse(replay, record + 1);
        return 7;
    case KEY:
        if (count < 2)
            return -CUT_OFF;
        if (record[1] > 1)
            return -BAD_RECORD;
        if (METERED)
            set_key(&replay->meter, &replay->energies, record[1] == 1);
        return 2;
    case SETTLE:
        count_settlement(replay);
        return 1;
    default:
        return -BAD_RECORD;
    }
}

/* ---- The whole trace ---- */

/* Plays the whole records of a block, and moves the replay's place behind them; returns the refusal of what stands there,
   or 0 at the end of the block. */
static unsigned play_block(struct replay *replay, const uint8_t *block, size_t count)
{
    size_t at = 0;
    int length = 0;
    while (length >= 0 && at < count) {
        size_t heard = (BY_VALUE ? play_bytes_by_value : play_bytes)(replay, block + at, count - at);
        at += heard;
        replay->records += heard / 2;
        if (at == count)
            break;
        length = play_other(replay, block + at, count - at);
        if (length > 0) {
            at += (size_t)length;
            replay->records++;
        }
    }
    replay->place += at;
    return length < 0 ? (unsigned)-length : 0;
}

/* Plays the trace on standard input; returns the refusal of the record at which it stopped, or 0. */
static unsigned play_input(struct replay *replay)
{
    static uint8_t block[MOST_LEFT + BLOCK];
    size_t left = 0;
    for (;;) {
        size_t got = fread(block + left, 1, BLOCK, stdin);
        size_t count = left + got;
        unsigned long long start = replay->place;
        replay->text_end = text;
        unsigned refusal = play_block(replay, block, count);
        fwrite(text, 1, (size_t)(replay->text_end - text), stdout);
        if (got == 0 || refusal == BAD_RECORD)
            return refusal;
        size_t played = (size_t)(replay->place - start);
        left = count - played;
        memmove(block, block + played, left);
    }
}

/* Gives the replay a fresh receiver and a fresh meter of the address that twelve digits spell. */
static void begin(struct replay *replay, const char *digits)
{
    memset(replay, 0, sizeof *replay);
    for (size_t i = 0; i < 6; i++)
        replay->meter.address[5 - i] = (uint8_t)((digits[2 * i] & 15) << 4 | (digits[2 * i + 1] & 15));
    memcpy(replay->meter.registers, fresh_registers, REGISTERS);
}

/* Says how the replay ended. Where there is a meter, and of a refusal, it says what the proved program says. */
static void say_end(const struct replay *replay, unsigned refusal)
{
    if (refusal != 0)
        fprintf(stderr, "replay_trace: refused with %u at place %llu: %s\n", refusal, replay->place,
                refusal == CUT_OFF ? "the trace ends inside the record"
                                   : "an unknown kind of record, or a field out of its range");
    else if (METERED)
        fprintf(stderr, "replay_trace: records %llu, frames put to the meter %llu, replies %llu\n", replay->records,
                replay->frames, replay->replies);
    else
        fprintf(stderr, "replay_trace: records %llu, frames %llu, pulses %llu, settlements %llu\n", replay->records,
                replay->frames, replay->pulses, replay->settlements);
}

int main(int count, char **words)
{
    struct replay replay;
    if (count != 2 || strspn(words[1], "0123456789") != 12 || words[1][12] != '\0') {
        fprintf(stderr, "usage: replay_trace ADDRESS < TRACE\n");
        return 2;
    }
    begin(&replay, words[1]);
    say_end(&replay, play_input(&replay));
    return 0;
}
