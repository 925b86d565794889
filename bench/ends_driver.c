/* Runs the implementations of both ends, the proved one and those in C, on the same calls.
     ends_driver compare SCRIPT OUTPUT
                           fails where one carries out the script with another output than the stored one, or where two
                           differ in an answer, a meter, a reading or a byte of lent memory, on the cases that are counted
                           and on calls made from a fixed seed
     ends_driver run IMPLEMENTATION CASE
                           makes one call of one implementation, for a count of its instructions
     ends_driver names     prints the names of the implementations, the proved one first, and then a line for each case:
                           its name and that of its operation */
#include <stdio.h>
#include <stdlib.h>
#include <string.h>

#include "calls.h"
#include "reader.h"
#include "script.h"

enum {
    CALLS = 400000,
    MOST_KINDS = 64,
    MOST_WANTED = 20,
    NAME_LENGTH = 32,
};

static const char *const operation_names[OPERATIONS] = {
    "answer", "set_key", "pulse", "settle", "build", "judge", "exchange",
};

/* All that a call leaves: what it returns, and the output buffers with what stands behind them. For a call that judges
   nothing `which` is the refusal and `number` the length. */
struct outcome {
    struct meter meter;
    struct energies energies;
    size_t which;
    size_t number;
    size_t delivered;
    size_t replied;
    uint8_t buffers[BUFFERS][BUFFER];
};

/* ---- One call ---- */

static void perform_at_meter(const struct implementation *by, const struct call *call, struct outcome *left)
{
    struct meter_answer answered =
        by->answer(call->meter, call->energies, call->bytes, call->count, left->buffers[0], call->sizes[0]);
    left->meter = answered.meter;
    left->which = answered.refusal;
    left->number = answered.length;
}

static void perform_set_key(const struct implementation *by, const struct call *call, struct outcome *left)
{
    struct meter_set set = by->set_key(call->meter, call->energies, call->on);
    left->meter = set.meter;
    left->which = set.refusal;
}

static void perform_count(const struct implementation *by, const struct call *call, struct outcome *left)
{
    struct meter_counted counted =
        call->operation == SETTLE
            ? by->settle(call->meter, call->energies)
            : by->pulse(call->meter, call->energies, call->amount, call->direction, call->rate);
    left->meter = counted.meter;
    left->energies = counted.energies;
    left->which = counted.refusal;
}

static void perform_at_reader(const struct implementation *by, const struct call *call, struct outcome *left)
{
    if (call->operation == BUILD) {
        struct written built = by->build(call->request, left->buffers[0], call->sizes[0]);
        left->which = built.refusal;
        left->number = built.length;
        return;
    }
    struct judgement judged = by->judge(call->request, call->bytes, call->count, left->buffers[0], call->sizes[0]);
    left->which = judged.which;
    left->number = judged.number;
}

static void perform_exchange(const struct implementation *by, const struct call *call, struct outcome *left)
{
    struct exchange_done done =
        by->exchange(call->request, call->meter, call->energies, left->buffers[0], call->sizes[0], left->buffers[1],
                     call->sizes[1], left->buffers[2], call->sizes[2], left->buffers[3], call->sizes[3]);
    left->meter = done.meter;
    left->which = done.which;
    left->number = done.number;
    left->delivered = done.delivered;
    left->replied = done.replied;
}

/* Lets an implementation carry out a call. What the call does not hand back stays as it was given. */
static void perform(const struct implementation *by, const struct call *call, struct outcome *left)
{
    memset(left, 0, sizeof *left);
    left->meter = call->meter;
    left->energies = call->energies;
    memset(left->buffers, call->fill, sizeof left->buffers);
    switch (call->operation) {
    case ANSWER:
        perform_at_meter(by, call, left);
        break;
    case SET_KEY:
        perform_set_key(by, call, left);
        break;
    case PULSE:
    case SETTLE:
        perform_count(by, call, left);
        break;
    case EXCHANGE:
        perform_exchange(by, call, left);
        break;
    default:
        perform_at_reader(by, call, left);
    }
}

/* ---- What was compared ---- */

/* How many answers of a kind there were. */
struct kind_count {
    char name[NAME_LENGTH];
    size_t count;
};

struct tally {
    size_t calls[OPERATIONS];
    struct kind_count kinds[OPERATIONS][MOST_KINDS];
};

static void count_kind(struct kind_count *kinds, const char *name)
{
    for (size_t i = 0; i < MOST_KINDS; i++) {
        if (kinds[i].count == 0)
            snprintf(kinds[i].name, NAME_LENGTH, "%s", name);
        if (strcmp(kinds[i].name, name) == 0) {
            kinds[i].count++;
            return;
        }
    }
    fprintf(stderr, "too many kinds of answers\n");
    exit(1);
}

static size_t count_of(const struct kind_count *kinds, const char *name)
{
    for (size_t i = 0; i < MOST_KINDS && kinds[i].count > 0; i++)
        if (strcmp(kinds[i].name, name) == 0)
            return kinds[i].count;
    return 0;
}

/* The kind of a reply: its control, and the byte of an error reply. */
static void name_reply(const uint8_t *reply, char *name)
{
    if ((reply[8] & ABNORMAL) == ABNORMAL)
        snprintf(name, NAME_LENGTH, "%02X error %02X", reply[8], (uint8_t)(reply[10] - MASK));
    else
        snprintf(name, NAME_LENGTH, "%02X", reply[8]);
}

/* The kind of a judgement; error bytes that no meter gives are one kind. */
static void name_judgement(const struct call *call, const struct outcome *left, char *name)
{
    static const char *const words[] = {"value", "error", "refused", "silent", "not sent"};
    if (left->which == VALUE)
        snprintf(name, NAME_LENGTH, "%02X value", control_of(&call->request));
    else if (left->which == ERROR && left->number != 1 && left->number != 2 && left->number != 4)
        snprintf(name, NAME_LENGTH, "other error");
    else
        snprintf(name, NAME_LENGTH, "%s %zu", words[left->which], left->number);
}

static void name_kind(const struct call *call, const struct outcome *left, char *name)
{
    if (call->operation == JUDGE || call->operation == EXCHANGE)
        name_judgement(call, left, name);
    else if (left->which != 0)
        snprintf(name, NAME_LENGTH, "refused %zu", left->which);
    else if (call->operation == ANSWER)
        name_reply(left->buffers[0], name);
    else if (call->operation == BUILD)
        snprintf(name, NAME_LENGTH, "%02X built", left->buffers[0][12]);
    else
        snprintf(name, NAME_LENGTH, "done");
}

static void count_call(struct tally *tally, const struct call *call, const struct outcome *left)
{
    char name[NAME_LENGTH];
    name_kind(call, left, name);
    tally->calls[call->operation]++;
    count_kind(tally->kinds[call->operation], name);
}

/* The kinds of answers without which a comparison would say too little. */
static const struct {
    enum operation operation;
    const char *kinds[MOST_WANTED];
} wanted[] = {
    {ANSWER,
     {"91", "93", "94", "95", "98", "D1 error 01", "D1 error 02", "D4 error 01", "D4 error 02", "D4 error 04",
      "D8 error 01", "D8 error 02", "D8 error 04", "refused 16", "refused 1", "refused 2", "refused 3", "refused 4"}},
    {SET_KEY, {"done", "refused 16"}},
    {PULSE, {"done", "refused 16", "refused 8"}},
    {SETTLE, {"done", "refused 16"}},
    {BUILD, {"11 built", "13 built", "14 built", "refused 1", "refused 5"}},
    {JUDGE,
     {"11 value", "13 value", "14 value", "error 1", "error 2", "error 4", "other error", "refused 1", "refused 5",
      "refused 2", "refused 6", "refused 7"}},
    {EXCHANGE, {"11 value", "13 value", "14 value", "error 4", "silent 3", "not sent 16", "not sent 1", "not sent 5"}},
};

/* Fails where a wanted kind of answer did not occur. */
static void expect_wanted(const struct tally *tally)
{
    for (size_t i = 0; i < sizeof wanted / sizeof wanted[0]; i++)
        for (size_t j = 0; j < MOST_WANTED && wanted[i].kinds[j] != NULL; j++)
            if (count_of(tally->kinds[wanted[i].operation], wanted[i].kinds[j]) == 0) {
                fprintf(stderr, "no call of %s came to: %s\n", operation_names[wanted[i].operation], wanted[i].kinds[j]);
                exit(1);
            }
}

static int compare_kinds(const void *first, const void *second)
{
    return strcmp(((const struct kind_count *)first)->name, ((const struct kind_count *)second)->name);
}

static void print_tally(struct tally *tally)
{
    for (size_t i = 0; i < OPERATIONS; i++) {
        struct kind_count *kinds = tally->kinds[i];
        size_t count = 0;
        while (count < MOST_KINDS && kinds[count].count > 0)
            count++;
        qsort(kinds, count, sizeof kinds[0], compare_kinds);
        printf("  %s, %zu calls:", operation_names[i], tally->calls[i]);
        for (size_t j = 0; j < count; j++)
            printf("%s %s %zu", j == 0 ? "" : ",", kinds[j].name, kinds[j].count);
        printf("\n");
    }
}

/* ---- Comparing ---- */

static void print_bytes(const char *word, const void *bytes, size_t count)
{
    fprintf(stderr, "%s", word);
    for (size_t i = 0; i < count; i++)
        fprintf(stderr, " %02X", ((const uint8_t *)bytes)[i]);
    fprintf(stderr, "\n");
}

/* Says what is wrong and on which call, and ends the program. */
static void fail(const char *what, const struct implementation *by, const struct call *call, const struct outcome *left)
{
    fprintf(stderr, "DIFFERENCE: %s %s, in a call of %s\n", by->name, what, operation_names[call->operation]);
    fprintf(stderr, "answer %zu %zu %zu %zu, sizes %zu %zu %zu %zu\n", left->which, left->number, left->delivered,
            left->replied, call->sizes[0], call->sizes[1], call->sizes[2], call->sizes[3]);
    print_bytes("meter", &call->meter, sizeof call->meter);
    print_bytes("readings", &call->energies, sizeof call->energies);
    print_bytes("request", &call->request, sizeof call->request);
    print_bytes("bytes", call->bytes, call->count);
    print_bytes("written", left->buffers[0], 80);
    exit(1);
}

/* Fails where a byte behind a lent output buffer is not as it was. */
static void expect_untouched(const struct implementation *by, const struct call *call, const struct outcome *left)
{
    for (size_t i = 0; i < BUFFERS; i++)
        for (size_t j = call->sizes[i]; j < BUFFER; j++)
            if (left->buffers[i][j] != call->fill)
                fail("wrote behind an output buffer", by, call, left);
}

/* Fails where two implementations leave different things of a call; gives what they leave. */
static void compare_on(const struct call *call, struct outcome *first)
{
    static struct outcome other;
    static struct call before;
    before = *call;
    perform(&implementations[0], call, first);
    expect_untouched(&implementations[0], call, first);
    for (size_t i = 1; i < IMPLEMENTATIONS; i++) {
        perform(&implementations[i], call, &other);
        if (memcmp(&other, first, sizeof other) != 0)
            fail("leaves something else than the proved one", &implementations[i], call, &other);
    }
    if (memcmp(before.bytes, call->bytes, sizeof before.bytes) != 0)
        fail("or another changed the bytes that it was given", &implementations[0], call, first);
}

/* ---- The calls whose instructions are counted ---- */

static const uint8_t own_address[6] = {0x01, 0x02, 0x03, 0x04, 0x05, 0x06};

/* A meter with its key on, within its ranges, that has counted in both directions. */
static void make_usual(struct call *call)
{
    memset(call, 0, sizeof *call);
    memcpy(call->meter.address, own_address, 6);
    memcpy(call->meter.registers, fresh_registers, REGISTERS);
    call->meter.key = true;
    for (uint32_t i = 0; i < ROWS; i++)
        for (uint32_t j = 0; j < RATES; j++) {
            call->energies.forward[i][j] = 12345678 + i * j;
            call->energies.reverse[i][j] = 987654 + i;
        }
    for (size_t i = 0; i < BUFFERS; i++)
        call->sizes[i] = MOST_LENT;
    call->fill = 0xA5;
}

/* A frame to the meter. */
static void put_frame(struct call *call, uint8_t control, const uint8_t *address, const uint8_t *data, size_t length)
{
    struct parts parts;
    memcpy(parts.address, address, 6);
    memcpy(parts.data, data, length);
    parts.control = control;
    parts.length = length;
    call->count = seal(&parts, call->bytes);
}

static void put_read(struct call *call, const uint8_t *address, uint32_t identifier)
{
    uint8_t data[4];
    memcpy(data, &identifier, 4);
    put_frame(call, READ_DATA, address, data, 4);
}

static void put_request(struct call *call, uint8_t control, uint32_t identifier)
{
    static const uint8_t time[3] = {0x30, 0x59, 0x23};
    call->request.control = control;
    call->request.identifier = identifier;
    memcpy(call->request.address, own_address, 6);
    memcpy(call->request.value, time, sizeof time);
    call->request.count = sizeof time;
}

/* A read and the meter's reply to it. */
static void put_reply(struct call *call, uint32_t identifier)
{
    uint8_t reply[MOST_LENT];
    put_request(call, READ_DATA, identifier);
    put_read(call, own_address, identifier);
    struct meter_answer answered =
        implementations[0].answer(call->meter, call->energies, call->bytes, call->count, reply, sizeof reply);
    memcpy(call->bytes, reply, answered.length);
    call->count = answered.length;
}

static void make_read_date(struct call *call)
{
    put_read(call, own_address, 0x04000101);
}

static void make_read_energy(struct call *call)
{
    put_read(call, own_address, 0x00010000);
}

static void make_read_20(struct call *call)
{
    put_read(call, own_address, 0x0001FF00);
}

static void make_read_52(struct call *call)
{
    put_read(call, own_address, 0x000100FF);
}

static void make_write_time(struct call *call)
{
    static const uint8_t data[] = {2, 1, 0, 4, 0, 0, 0, 0, 1, 2, 3, 4, 0x30, 0x59, 0x23};
    put_frame(call, WRITE_DATA, own_address, data, sizeof data);
}

static void make_foreign(struct call *call)
{
    static const uint8_t other_address[6] = {0x09, 0x09, 0x09, 0x09, 0x09, 0x09};
    put_read(call, other_address, 0x00010000);
}

static void make_wrong_sum(struct call *call)
{
    put_read(call, own_address, 0x00010000);
    call->bytes[call->count - 2] ^= 1;
}

static void make_pulse(struct call *call)
{
    call->amount = 5;
    call->direction = 1;
    call->rate = 2;
}

static void make_nothing_more(struct call *call)
{
    (void)call;
}

static void make_build_read(struct call *call)
{
    put_request(call, READ_DATA, 0x00010000);
}

static void make_build_write(struct call *call)
{
    put_request(call, WRITE_DATA, 0x04000102);
}

static void make_judge_4(struct call *call)
{
    put_reply(call, 0x00010000);
}

static void make_judge_52(struct call *call)
{
    put_reply(call, 0x000100FF);
}

/* A case: what the usual call becomes, and what it must come to. */
struct named_case {
    const char *name;
    enum operation operation;
    void (*make)(struct call *);
    size_t which;
    size_t number;
};

static const struct named_case cases[] = {
    {"read-date", ANSWER, make_read_date, 0, 20},
    {"read-energy", ANSWER, make_read_energy, 0, 20},
    {"read-20-bytes", ANSWER, make_read_20, 0, 36},
    {"read-52-bytes", ANSWER, make_read_52, 0, 68},
    {"write-time", ANSWER, make_write_time, 0, 12},
    {"foreign", ANSWER, make_foreign, NOT_FOR_THIS_METER, 0},
    {"wrong-checksum", ANSWER, make_wrong_sum, NOT_ONE_FRAME, 0},
    {"pulse", PULSE, make_pulse, 0, 0},
    {"settle", SETTLE, make_nothing_more, 0, 0},
    {"set-key", SET_KEY, make_nothing_more, 0, 0},
    {"build-read", BUILD, make_build_read, 0, 20},
    {"build-write", BUILD, make_build_write, 0, 31},
    {"judge-4-bytes", JUDGE, make_judge_4, VALUE, 4},
    {"judge-52-bytes", JUDGE, make_judge_52, VALUE, 52},
    {"exchange-4-bytes", EXCHANGE, make_build_read, VALUE, 4},
};
enum { CASES = sizeof cases / sizeof cases[0] };

static void make_case(const struct named_case *named, struct call *call)
{
    make_usual(call);
    call->operation = named->operation;
    named->make(call);
}

/* ---- The commands ---- */

static void compare_cases(void)
{
    static struct call call;
    static struct outcome left;
    for (size_t i = 0; i < CASES; i++) {
        make_case(&cases[i], &call);
        compare_on(&call, &left);
        if (left.which != cases[i].which || left.number != cases[i].number)
            fail("answers otherwise than a counted case has it", &implementations[0], &call, &left);
    }
}

static void compare_by_chance(void)
{
    static struct call call;
    static struct outcome left;
    static struct tally tally;
    seed_calls(645);
    for (size_t i = 0; i < CALLS; i++) {
        make_call(&call);
        compare_on(&call, &left);
        count_call(&tally, &call, &left);
    }
    expect_wanted(&tally);
    printf("%d implementations leave the same of %d calls by chance:\n", IMPLEMENTATIONS, CALLS);
    print_tally(&tally);
}

static void compare(const char *script, const char *output)
{
    size_t lines = 0;
    for (size_t i = 0; i < IMPLEMENTATIONS; i++)
        lines = compare_script(&implementations[i], script, output);
    printf("%d implementations write the stored output of the script of %zu lines,\n", IMPLEMENTATIONS, lines);
    compare_cases();
    printf("and leave the same of the %d calls that are counted\n", (int)CASES);
    compare_by_chance();
}

static void run(const char *name, const char *which)
{
    static struct call call;
    static struct outcome left;
    for (size_t i = 0; i < IMPLEMENTATIONS; i++)
        for (size_t j = 0; j < CASES; j++)
            if (strcmp(implementations[i].name, name) == 0 && strcmp(cases[j].name, which) == 0) {
                make_case(&cases[j], &call);
                perform(&implementations[i], &call, &left);
                printf("%zu %zu\n", left.which, left.number);
                return;
            }
    fprintf(stderr, "no such implementation or case: %s %s\n", name, which);
    exit(2);
}

static void print_names(void)
{
    for (size_t i = 0; i < IMPLEMENTATIONS; i++)
        printf("%s%c", implementations[i].name, i + 1 == IMPLEMENTATIONS ? '\n' : ' ');
    for (size_t i = 0; i < CASES; i++)
        printf("%s %s\n", cases[i].name, operation_names[cases[i].operation]);
}

int main(int count, char **words)
{
    const char *command = count > 1 ? words[1] : "";
    if (strcmp(command, "compare") == 0 && count == 4)
        compare(words[2], words[3]);
    else if (strcmp(command, "run") == 0 && count == 4)
        run(words[2], words[3]);
    else if (strcmp(command, "names") == 0 && count == 2)
        print_names();
    else {
        fprintf(stderr, "usage: ends_driver compare SCRIPT OUTPUT | run IMPLEMENTATION CASE | names\n");
        return 2;
    }
    return 0;
}
