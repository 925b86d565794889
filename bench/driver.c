/* Runs the readers of a recorded line, one symbol a call and straight from the slice, on lines that it makes itself, from
   fixed seeds.
     driver compare            fails where two readers hand on different bytes
     driver run READER INPUT   runs one reader on one input, for a count of its instructions
     driver time               prints how many megabytes a second each reader takes in
     driver input INPUT COPIES writes an input so many times to standard output
     driver names              prints the names of the readers, a line for each proved one and those beside it, and then
                               of the inputs */
#define _POSIX_C_SOURCE 200809L
#include <stdbool.h>
#include <stdio.h>
#include <stdlib.h>
#include <string.h>
#include <time.h>

#include "chance.h"
#include "readers.h"

enum {
    INPUT_LENGTH = 200000,
    LINES = 40000,
    LONGEST_LINE = 4096,
    GUARD_LENGTH = 256,
    GUARD_BYTE = 0xA5,
};

typedef size_t reader_function(const uint8_t *, size_t, uint8_t *, size_t);

struct named_reader {
    const char *name;
    reader_function *function;
    bool proved;
};

/* Each proved reader, and behind it those in C that it is compared with. */
static const struct named_reader readers[] = {
    {"receive_line", receive_line, true},
    {"receive_line_in_place", receive_line_in_place, false},
    {"receive_line_by_value", receive_line_by_value, false},
    {"read_line", read_line, true},
    {"scan_line_gcc", scan_line_gcc, false},
    {"scan_line_clang", scan_line_clang, false},
};
enum { READERS = sizeof readers / sizeof readers[0] };

/* Bytes of a line that is being made. */
struct line {
    uint8_t bytes[INPUT_LENGTH];
    size_t length;
};

/* ---- Pieces of a line ---- */

static void add_byte(struct line *line, size_t most, uint8_t byte)
{
    if (line->length < most)
        line->bytes[line->length++] = byte;
}

static void add_bytes(struct line *line, size_t most, const uint8_t *bytes, size_t count)
{
    for (size_t i = 0; i < count; i++)
        add_byte(line, most, bytes[i]);
}

/* A byte that matters to a reader more often than by chance. */
static uint8_t telling_byte(void)
{
    static const uint8_t telling[] = {0x68, 0x68, 0x68, 0x16, 0xFE, 0x00, 0x01, 0x0C, 0xC8, 0xC9};
    if (below(4) == 0)
        return (uint8_t)chance();
    return telling[below(sizeof telling)];
}

static uint8_t checksum_of(const uint8_t *bytes, size_t count)
{
    uint8_t sum = 0;
    while (count-- > 0)
        sum += *bytes++;
    return sum;
}

/* Makes a frame of so many data bytes, which stand already at their place, and returns its length. */
static size_t seal_frame(uint8_t *frame, size_t data_length)
{
    for (size_t i = 1; i < 7; i++)
        frame[i] = below(3) == 0 ? telling_byte() : (uint8_t)chance();
    frame[0] = 0x68;
    frame[7] = 0x68;
    frame[8] = (uint8_t)chance();
    frame[9] = (uint8_t)data_length;
    frame[10 + data_length] = checksum_of(frame, 10 + data_length);
    frame[11 + data_length] = 0x16;
    return 12 + data_length;
}

/* Makes a frame with other frames inside, as deep as said and as far as they fit, and returns its length. */
static size_t nested_frame(uint8_t *frame, size_t depth)
{
    size_t data_length = 0;
    uint8_t inner[212];
    while (depth > 0 && below(4) != 0) {
        size_t length = nested_frame(inner, depth - 1);
        if (data_length + length > 200)
            break;
        memcpy(frame + 10 + data_length, inner, length);
        data_length += length;
    }
    size_t more = below(4) == 0 ? below(200 - data_length + 1) : 0;
    for (size_t i = 0; i < more; i++)
        frame[10 + data_length + i] = telling_byte();
    return seal_frame(frame, data_length + more);
}

/* Damages one byte of a frame, mostly one on which a reader decides. */
static void damage(uint8_t *frame, size_t length)
{
    const size_t telling[] = {0, 7, 9, length - 2, length - 1, below(length)};
    size_t place = telling[below(sizeof telling / sizeof telling[0])];
    frame[place] = below(2) == 0 ? telling_byte() : (uint8_t)(frame[place] + 1);
}

/* Adds a frame: whole, damaged, or without its end. */
static void add_frame(struct line *line, size_t most)
{
    uint8_t frame[212];
    size_t length = nested_frame(frame, below(4));
    if (below(3) == 0)
        damage(frame, length);
    if (below(6) == 0)
        length = below(length) + 1;
    add_bytes(line, most, frame, length);
}

/* Adds wake-up bytes, noise or a frame. */
static void add_piece(struct line *line, size_t most)
{
    size_t kind = below(10);
    if (kind < 2) {
        for (size_t i = below(5); i > 0; i--)
            add_byte(line, most, 0xFE);
    } else if (kind < 4) {
        for (size_t i = below(30); i > 0; i--)
            add_byte(line, most, telling_byte());
    } else {
        add_frame(line, most);
    }
}

/* Changes, drops or doubles a byte of a line. */
static void mutate(struct line *line)
{
    size_t place = below(line->length);
    size_t after = line->length - place - 1;
    size_t kind = below(3);
    if (kind == 0)
        line->bytes[place] = telling_byte();
    if (kind == 1) {
        memmove(line->bytes + place, line->bytes + place + 1, after);
        line->length--;
    }
    if (kind == 2 && line->length < LONGEST_LINE) {
        memmove(line->bytes + place + 1, line->bytes + place, after + 1);
        line->length++;
    }
}

/* ---- The inputs whose instructions are counted ---- */

/* Frames as they are sent: four wake-up bytes, and data lengths of a list. */
static uint8_t next_of_lengths(size_t place, const uint8_t *data_lengths, size_t count)
{
    static uint8_t frame[216];
    static size_t at, end;
    if (place == 0)
        at = end = 0;
    if (at == end) {
        size_t data_length = data_lengths[below(count)];
        memset(frame, 0xFE, 4);
        for (size_t i = 0; i < data_length; i++)
            frame[14 + i] = (uint8_t)chance();
        end = 4 + seal_frame(frame + 4, data_length);
        at = 0;
    }
    return frame[at++];
}

/* Data lengths that requests and replies have; the short ones of them; the longest. */
static uint8_t next_of_mixed(size_t place)
{
    static const uint8_t data_lengths[] = {0, 1, 4, 4, 4, 8, 8, 8, 13, 24, 56, 200};
    return next_of_lengths(place, data_lengths, sizeof data_lengths);
}

static uint8_t next_of_short(size_t place)
{
    static const uint8_t data_lengths[] = {0, 1, 4, 4, 4, 8, 8, 8};
    return next_of_lengths(place, data_lengths, sizeof data_lengths);
}

static uint8_t next_of_long(size_t place)
{
    static const uint8_t data_lengths[] = {200};
    return next_of_lengths(place, data_lengths, sizeof data_lengths);
}

static uint8_t next_of_random(size_t place)
{
    (void)place;
    return (uint8_t)chance();
}

static uint8_t next_of_wake_up(size_t place)
{
    (void)place;
    return 0xFE;
}

static uint8_t next_of_starts(size_t place)
{
    (void)place;
    return 0x68;
}

/* Every second byte 68, every fourth small, as a short data length is. */
static uint8_t next_of_noise(size_t place)
{
    (void)place;
    size_t kind = below(4);
    if (kind < 2)
        return 0x68;
    return kind == 2 ? (uint8_t)below(16) : (uint8_t)chance();
}

struct named_input {
    const char *name;
    uint8_t (*next)(size_t place);
};

static const struct named_input inputs[] = {
    {"mixed", next_of_mixed},    {"short", next_of_short},   {"long", next_of_long},     {"random", next_of_random},
    {"all-FE", next_of_wake_up}, {"all-68", next_of_starts}, {"rich-68", next_of_noise},
};
enum { INPUTS = sizeof inputs / sizeof inputs[0] };

static void make_input(const struct named_input *input, struct line *line)
{
    chance_state = 645;
    for (line->length = 0; line->length < INPUT_LENGTH; line->length++)
        line->bytes[line->length] = input->next(line->length);
}

/* ---- Comparing ---- */

/* What a reader handed on, with bytes behind it that it must leave alone. */
struct handed_on {
    uint8_t bytes[INPUT_LENGTH + GUARD_LENGTH];
    size_t length;
};

/* Says what is wrong and on which line, of which it prints the first thousand bytes, and ends the program. */
static void fail(const char *what, const char *name, const struct line *line)
{
    fprintf(stderr, "DIFFERENCE: %s %s, on this line of %zu bytes:\n", name, what, line->length);
    for (size_t i = 0; i < line->length && i < 1000; i++)
        fprintf(stderr, "%02X ", line->bytes[i]);
    fprintf(stderr, "\n");
    exit(1);
}

/* Lets a reader take in a line, with an output exactly as long as the line, behind which it must write nothing. */
static void hear(const struct named_reader *reader, const struct line *line, struct handed_on *handed)
{
    memset(handed->bytes, GUARD_BYTE, line->length + GUARD_LENGTH);
    handed->length = reader->function(line->bytes, line->length, handed->bytes, line->length);
    if (handed->length > line->length)
        fail("says that it handed on more than it heard", reader->name, line);
    for (size_t i = line->length; i < line->length + GUARD_LENGTH; i++)
        if (handed->bytes[i] != GUARD_BYTE)
            fail("wrote behind its output", reader->name, line);
}

/* Too short an output is refused, and nothing is written. */
static void expect_refusal(const struct named_reader *reader, const struct line *line, struct handed_on *handed)
{
    if (line->length == 0)
        return;
    memset(handed->bytes, GUARD_BYTE, line->length);
    if (reader->function(line->bytes, line->length, handed->bytes, line->length - 1) != SIZE_MAX)
        fail("took an output that is shorter than the line", reader->name, line);
    for (size_t i = 0; i < line->length; i++)
        if (handed->bytes[i] != GUARD_BYTE)
            fail("wrote to an output that it refused", reader->name, line);
}

/* Fails where two readers hand on different bytes of a line; returns how many they hand on. */
static size_t compare_on(const struct line *line)
{
    static struct handed_on first, other;
    hear(&readers[0], line, &first);
    for (size_t i = 1; i < READERS; i++) {
        hear(&readers[i], line, &other);
        if (other.length != first.length || memcmp(other.bytes, first.bytes, first.length) != 0)
            fail("hands on other bytes than receive_line", readers[i].name, line);
    }
    for (size_t i = 0; i < READERS; i++)
        expect_refusal(&readers[i], line, &other);
    return first.length;
}

/* Makes a line of pieces, and mutates one in two. */
static void make_line(struct line *line)
{
    size_t most = below(8) == 0 ? LONGEST_LINE : below(600);
    line->length = 0;
    for (size_t pieces = below(12); pieces > 0; pieces--)
        add_piece(line, most);
    for (size_t changes = below(2) * below(9); changes > 0 && line->length > 0; changes--)
        mutate(line);
}

static void compare(void)
{
    static struct line line;
    size_t heard = 0, handed_on = 0, with_frames = 0;
    chance_state = 2007;
    for (size_t i = 0; i < LINES; i++) {
        make_line(&line);
        size_t bytes = compare_on(&line);
        heard += line.length;
        handed_on += bytes;
        with_frames += bytes > 0;
    }
    for (size_t i = 0; i < INPUTS; i++) {
        make_input(&inputs[i], &line);
        compare_on(&line);
    }
    printf("%d readers hand on the same bytes of %d lines, %zu bytes in all,\n", (int)READERS, LINES, heard);
    printf("of which %zu lines have frames, %zu bytes in all, ", with_frames, handed_on);
    printf("and of the %d inputs of `make count`, %d bytes each\n", (int)INPUTS, INPUT_LENGTH);
}

/* ---- Counting and timing ---- */

static void run(const char *reader, const char *input)
{
    static struct line line;
    static struct handed_on handed;
    for (size_t r = 0; r < READERS; r++)
        for (size_t i = 0; i < INPUTS; i++)
            if (strcmp(readers[r].name, reader) == 0 && strcmp(inputs[i].name, input) == 0) {
                make_input(&inputs[i], &line);
                hear(&readers[r], &line, &handed);
                printf("%zu %zu\n", line.length, handed.length);
                return;
            }
    fprintf(stderr, "no such reader or input: %s %s\n", reader, input);
    exit(2);
}

static double seconds(void)
{
    struct timespec now;
    clock_gettime(CLOCK_MONOTONIC, &now);
    return (double)now.tv_sec + (double)now.tv_nsec / 1e9;
}

/* Megabytes a second that a reader takes in: the best of five runs of at least 50 ms. */
static double speed(const struct named_reader *reader, const struct line *line)
{
    static struct handed_on handed;
    double best = 0;
    for (int attempt = 0; attempt < 5; attempt++) {
        double start = seconds(), passed;
        size_t rounds = 0;
        do {
            reader->function(line->bytes, line->length, handed.bytes, line->length);
            rounds++;
            passed = seconds() - start;
        } while (passed < 0.05);
        double found = (double)(rounds * line->length) / 1e6 / passed;
        if (found > best)
            best = found;
    }
    return best;
}

static void print_times(void)
{
    static struct line line;
    printf("%-24s", "megabytes a second");
    for (size_t i = 0; i < INPUTS; i++)
        printf("%10s", inputs[i].name);
    printf("\n");
    for (size_t r = 0; r < READERS; r++) {
        printf("%-24s", readers[r].name);
        for (size_t i = 0; i < INPUTS; i++) {
            make_input(&inputs[i], &line);
            printf("%10.1f", speed(&readers[r], &line));
        }
        printf("\n");
    }
}

static void write_input(const char *input, size_t copies)
{
    static struct line line;
    for (size_t i = 0; i < INPUTS; i++)
        if (strcmp(inputs[i].name, input) == 0) {
            make_input(&inputs[i], &line);
            for (; copies > 0; copies--)
                fwrite(line.bytes, 1, line.length, stdout);
            return;
        }
    fprintf(stderr, "no such input: %s\n", input);
    exit(2);
}

static void print_names(void)
{
    for (size_t r = 0; r < READERS; r++)
        printf("%s%c", readers[r].name, r + 1 == READERS || readers[r + 1].proved ? '\n' : ' ');
    for (size_t i = 0; i < INPUTS; i++)
        printf("%s%c", inputs[i].name, i + 1 == INPUTS ? '\n' : ' ');
}

int main(int count, char **words)
{
    const char *command = count > 1 ? words[1] : "";
    if (strcmp(command, "compare") == 0 && count == 2)
        compare();
    else if (strcmp(command, "run") == 0 && count == 4)
        run(words[2], words[3]);
    else if (strcmp(command, "time") == 0 && count == 2)
        print_times();
    else if (strcmp(command, "input") == 0 && count == 4)
        write_input(words[2], strtoul(words[3], NULL, 10));
    else if (strcmp(command, "names") == 0 && count == 2)
        print_names();
    else {
        fprintf(stderr, "usage: driver compare | run READER INPUT | time | input INPUT COPIES | names\n");
        return 2;
    }
    return 0;
}
