/* The script of calls that crates/run_script carries out, carried out by any implementation; the top of
   crates/run_script/src/main.rt says what its lines are. What is written is the same to the byte. */
#define _POSIX_C_SOURCE 200809L
#include <stdio.h>
#include <stdlib.h>
#include <string.h>

#include "items.h"
#include "script.h"

enum {
    BUFFER = 256,
    FILL = 0xA5,
    LONGEST_LINE = 1024,
};

/* What stands between two lines of the script, and where it writes to. */
struct state {
    const struct implementation *implementation;
    FILE *out;
    struct meter meter;
    struct energies energies;
    struct request request;
    size_t room;
    size_t sizes[4];
};

/* The text of a whole file. */
struct text {
    char *bytes;
    size_t length;
};

static void stop(const char *what, const char *which)
{
    fprintf(stderr, "DIFFERENCE: %s: %s\n", which, what);
    exit(1);
}

/* ---- What is written ---- */

static void write_bytes(FILE *out, const char *word, const uint8_t *bytes, size_t count)
{
    fputs(word, out);
    for (size_t i = 0; i < count; i++)
        fprintf(out, " %02X", bytes[i]);
    fputs("\n", out);
}

/* Says so where a byte of an output buffer from a place on is not as it was. */
static void write_changed(FILE *out, const uint8_t *buffer, size_t from)
{
    for (size_t i = from; i < BUFFER; i++)
        if (buffer[i] != FILL) {
            fputs("memory changed\n", out);
            return;
        }
}

static void write_refused(FILE *out, const char *word, size_t refusal, const uint8_t *buffer)
{
    fprintf(out, "%s %zu\n", word, refusal);
    write_changed(out, buffer, 0);
}

/* A frame as a line of the listing. */
static void write_frame(FILE *out, const uint8_t *frame, size_t count)
{
    if (!is_frame(frame, count)) {
        fputs("no frame\n", out);
        return;
    }
    for (size_t i = 6; i > 0; i--)
        fprintf(out, "%02X", frame[i]);
    fprintf(out, frame[9] == 0 ? " %02X" : " %02X ", frame[8]);
    for (size_t i = 0; i < frame[9]; i++)
        fprintf(out, "%02X", (uint8_t)(frame[10 + i] - MASK));
    fputs("\n", out);
}

/* What stands at the front of an output buffer: its bytes behind a word or, with no word, as a line of the listing. */
static void write_front(FILE *out, const char *word, const uint8_t *buffer, size_t length)
{
    if (length > BUFFER) {
        fputs("memory changed\n", out);
        return;
    }
    if (word == NULL)
        write_frame(out, buffer, length);
    else
        write_bytes(out, word, buffer, length);
    write_changed(out, buffer, length);
}

static void write_done(FILE *out, uint8_t refusal)
{
    if (refusal == 0)
        fputs("done\n", out);
    else
        fprintf(out, "refused %d\n", refusal);
}

static void write_judgement(FILE *out, struct judgement judgement, const uint8_t *buffer)
{
    if (judgement.which == VALUE) {
        write_front(out, "value", buffer, judgement.number);
    } else if (judgement.which == ERROR) {
        uint8_t byte = (uint8_t)judgement.number;
        write_bytes(out, "error", &byte, 1);
        write_changed(out, buffer, 0);
    } else {
        write_refused(out, "refused", judgement.number, buffer);
    }
}

/* ---- What is read ---- */

static size_t read_bytes(const char *text, uint8_t *bytes, size_t most)
{
    size_t count = 0;
    char *end;
    for (unsigned long byte = strtoul(text, &end, 16); end != text; byte = strtoul(text, &end, 16)) {
        if (count == most || byte > 0xFF)
            stop("a line with too many bytes", text);
        bytes[count++] = (uint8_t)byte;
        text = end;
    }
    return count;
}

static void read_numbers(const char *text, uint32_t *numbers, size_t count)
{
    char *end;
    for (size_t i = 0; i < count; i++) {
        numbers[i] = (uint32_t)strtoul(text, &end, 10);
        if (end == text)
            stop("a line with too few numbers", text);
        text = end;
    }
}

static uint8_t byte_of(uint32_t number)
{
    return number > 0xFF ? 0xFF : (uint8_t)number;
}

/* How many bytes of an output buffer are lent. */
static size_t at_most_all(uint32_t room)
{
    return room < BUFFER ? room : BUFFER;
}

/* ---- The calls ---- */

static void run_meter(struct state *state, const char *text)
{
    memset(&state->meter, 0, sizeof state->meter);
    memset(&state->energies, 0, sizeof state->energies);
    memcpy(state->meter.registers, fresh_registers, REGISTERS);
    read_bytes(text, state->meter.address, 6);
    state->room = 212;
    write_done(state->out, is_good(state->meter.address) ? 0 : BAD_ARGUMENT);
}

static void run_memory(struct state *state, const char *text)
{
    uint32_t room;
    read_numbers(text, &room, 1);
    state->room = at_most_all(room);
}

static void run_lent(struct state *state, const char *text)
{
    uint32_t sizes[4];
    read_numbers(text, sizes, 4);
    for (size_t i = 0; i < 4; i++)
        state->sizes[i] = at_most_all(sizes[i]);
}

static void run_key(struct state *state, const char *text)
{
    uint32_t on;
    read_numbers(text, &on, 1);
    struct meter_set set = state->implementation->set_key(state->meter, state->energies, on == 1);
    state->meter = set.meter;
    write_done(state->out, set.refusal);
}

static void run_pulse(struct state *state, const char *text)
{
    uint32_t numbers[3];
    read_numbers(text, numbers, 3);
    struct meter_counted counted = state->implementation->pulse(state->meter, state->energies, numbers[0],
                                                                byte_of(numbers[1]), byte_of(numbers[2]));
    state->meter = counted.meter;
    state->energies = counted.energies;
    write_done(state->out, counted.refusal);
}

static void run_settle(struct state *state, const char *text)
{
    (void)text;
    struct meter_counted counted = state->implementation->settle(state->meter, state->energies);
    state->meter = counted.meter;
    state->energies = counted.energies;
    write_done(state->out, counted.refusal);
}

/* Puts a frame to the meter; a reply is written behind the word or, with no word, as a line of the listing. */
static void put_frame(struct state *state, const uint8_t *frame, size_t count, size_t room, const char *word)
{
    uint8_t buffer[BUFFER];
    memset(buffer, FILL, BUFFER);
    struct meter_answer answered = state->implementation->answer(state->meter, state->energies, frame, count, buffer, room);
    state->meter = answered.meter;
    if (answered.refusal != 0)
        write_refused(state->out, "refused", answered.refusal, buffer);
    else
        write_front(state->out, word, buffer, answered.length);
}

static void run_frame(struct state *state, const char *text)
{
    uint8_t frame[BUFFER];
    size_t count = read_bytes(text, frame, BUFFER);
    put_frame(state, frame, count, state->room, "reply");
}

static void run_tell(struct state *state, const char *text)
{
    uint8_t frame[BUFFER];
    size_t count = read_bytes(text, frame, BUFFER);
    write_frame(state->out, frame, count);
    put_frame(state, frame, count, 212, NULL);
}

static void run_show(struct state *state, const char *text)
{
    (void)text;
    const struct meter *meter = &state->meter;
    write_bytes(state->out, "address", meter->address, sizeof meter->address);
    fputs(meter->key ? "key on\n" : "key off\n", state->out);
    write_bytes(state->out, "passwords", meter->passwords, sizeof meter->passwords);
    write_bytes(state->out, "operator", meter->operator_code, sizeof meter->operator_code);
    write_bytes(state->out, "registers", meter->registers, sizeof meter->registers);
}

static void run_reading(struct state *state, const char *text)
{
    uint32_t numbers[4];
    read_numbers(text, numbers, 4);
    if (numbers[0] > 1 || numbers[1] >= ROWS || numbers[2] >= RATES)
        return;
    if (numbers[0] == 0)
        state->energies.forward[numbers[1]][numbers[2]] = numbers[3];
    else
        state->energies.reverse[numbers[1]][numbers[2]] = numbers[3];
}

static void run_register(struct state *state, const char *text)
{
    uint32_t place;
    read_numbers(text, &place, 1);
    if (place < REGISTERS)
        read_bytes(strrchr(text, ' '), state->meter.registers + place, 1);
}

static void run_address(struct state *state, const char *text)
{
    read_bytes(text, state->meter.address, 6);
}

static void run_request(struct state *state, const char *text)
{
    uint8_t bytes[BUFFER];
    size_t count = read_bytes(text, bytes, BUFFER);
    if (count < 19)
        stop("a request with too few bytes", text);
    struct request request = {.control = bytes[0], .level = bytes[11], .count = count - 19};
    request.identifier = (uint32_t)bytes[7] << 24 | (uint32_t)bytes[8] << 16 | (uint32_t)bytes[9] << 8 | bytes[10];
    memcpy(request.address, bytes + 1, 6);
    memcpy(request.password, bytes + 12, 3);
    memcpy(request.operator_code, bytes + 15, 4);
    memcpy(request.value, bytes + 19, request.count < LONGEST_VALUE ? request.count : LONGEST_VALUE);
    state->request = request;
}

static void run_build(struct state *state, const char *text)
{
    (void)text;
    uint8_t buffer[BUFFER];
    memset(buffer, FILL, BUFFER);
    struct written built = state->implementation->build(state->request, buffer, state->room);
    if (built.refusal != 0)
        write_refused(state->out, "refused", built.refusal, buffer);
    else
        write_front(state->out, "request", buffer, built.length);
}

static void run_judge(struct state *state, const char *text)
{
    uint8_t reply[BUFFER], buffer[BUFFER];
    size_t count = read_bytes(text, reply, BUFFER);
    memset(buffer, FILL, BUFFER);
    struct judgement judgement = state->implementation->judge(state->request, reply, count, buffer, state->room);
    write_judgement(state->out, judgement, buffer);
}

/* An exchange that was sent: the request and the reply as lines of the listing, and what the reader made of it. */
static void write_sent(FILE *out, const struct exchange_done *done, uint8_t (*buffers)[BUFFER])
{
    write_changed(out, buffers[0], 4 + done->delivered);
    write_front(out, NULL, buffers[1], done->delivered);
    if (done->which == SILENT) {
        write_refused(out, "silent", done->number, buffers[2]);
        write_changed(out, buffers[3], 0);
        return;
    }
    write_front(out, NULL, buffers[2], done->replied);
    write_judgement(out, (struct judgement){done->which, done->number}, buffers[3]);
}

static void run_exchange(struct state *state, const char *text)
{
    (void)text;
    uint8_t buffers[4][BUFFER];
    memset(buffers, FILL, sizeof buffers);
    struct exchange_done done = state->implementation->exchange(
        state->request, state->meter, state->energies, buffers[0], state->sizes[0], buffers[1], state->sizes[1],
        buffers[2], state->sizes[2], buffers[3], state->sizes[3]);
    state->meter = done.meter;
    if (done.which != NOT_SENT) {
        write_sent(state->out, &done, buffers);
        return;
    }
    write_refused(state->out, "refused", done.number, buffers[2]);
    write_changed(state->out, buffers[3], 0);
    write_changed(state->out, buffers[0], 0);
    write_changed(state->out, buffers[1], 0);
}

/* ---- The script ---- */

static const struct {
    const char *word;
    void (*run)(struct state *, const char *);
} verbs[] = {
    {"meter", run_meter},     {"memory", run_memory},   {"lent", run_lent},         {"key", run_key},
    {"pulse", run_pulse},     {"settle", run_settle},   {"frame", run_frame},       {"tell", run_tell},
    {"show", run_show},       {"reading", run_reading}, {"register", run_register}, {"address", run_address},
    {"request", run_request}, {"build", run_build},     {"judge", run_judge},       {"exchange", run_exchange},
};

static void run_line(struct state *state, const char *line)
{
    size_t word = strcspn(line, " ");
    if (line[0] == '#' || line[0] == '\0') {
        fprintf(state->out, "%s\n", line);
        return;
    }
    for (size_t i = 0; i < sizeof verbs / sizeof verbs[0]; i++)
        if (strlen(verbs[i].word) == word && memcmp(verbs[i].word, line, word) == 0) {
            verbs[i].run(state, line + word);
            return;
        }
    stop("not a call", line);
}

/* Carries out each line of the script; returns how many there are. */
static size_t run_lines(struct state *state, const struct text *script)
{
    char line[LONGEST_LINE];
    size_t lines = 0, at = 0;
    while (at < script->length) {
        size_t end = at + strcspn(script->bytes + at, "\n");
        if (end - at >= LONGEST_LINE)
            stop("a line that is too long", "the script");
        memcpy(line, script->bytes + at, end - at);
        line[end - at] = '\0';
        run_line(state, line);
        lines++;
        at = end + 1;
    }
    return lines;
}

static struct text read_file(const char *name)
{
    FILE *file = fopen(name, "r");
    struct text text = {NULL, 0};
    size_t room = 0;
    if (file == NULL || getdelim(&text.bytes, &room, '\0', file) < 0)
        stop("cannot be read", name);
    text.length = strlen(text.bytes);
    fclose(file);
    return text;
}

/* Fails at the first line that was written and is not the stored one. */
static void expect_same(const struct text *written, const struct text *wanted, const char *name)
{
    size_t at = 0, line = 0;
    if (written->length == wanted->length && memcmp(written->bytes, wanted->bytes, wanted->length) == 0)
        return;
    for (size_t i = 0; i < wanted->length && written->bytes[i] == wanted->bytes[i]; i++)
        if (wanted->bytes[i] == '\n') {
            at = i + 1;
            line++;
        }
    fprintf(stderr, "DIFFERENCE: %s writes otherwise than the stored output of the script, after %zu lines:\n", name, line);
    fprintf(stderr, "%.*s\n", (int)strcspn(written->bytes + at, "\n"), written->bytes + at);
    fprintf(stderr, "%.*s\n", (int)strcspn(wanted->bytes + at, "\n"), wanted->bytes + at);
    exit(1);
}

/* The state before the first line. */
static struct state start_with(const struct implementation *implementation, FILE *out)
{
    struct state state = {.implementation = implementation, .out = out, .room = 212, .sizes = {66, 212, 212, 196}};
    return state;
}

size_t compare_script(const struct implementation *implementation, const char *script, const char *expected)
{
    struct text lines = read_file(script), wanted = read_file(expected), written = {NULL, 0};
    FILE *out = open_memstream(&written.bytes, &written.length);
    if (out == NULL)
        stop("no memory for what is written", script);
    struct state state = start_with(implementation, out);
    size_t count = run_lines(&state, &lines);
    fclose(out);
    expect_same(&written, &wanted, implementation->name);
    free(lines.bytes);
    free(wanted.bytes);
    free(written.bytes);
    return count;
}
