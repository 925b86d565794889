/* Both ends' calls, as they are compared: what a meter, its readings and a request are, what the calls return, and the calls
   of each implementation. An implementation's name stands before the names of its calls. */
#ifndef ENDS_H
#define ENDS_H

#include <stdbool.h>
#include <stddef.h>
#include <stdint.h>

enum {
    ROWS = 13,
    RATES = 5,
    REGISTERS = 21,
    LONGEST_VALUE = 38,
    REQUEST_MEMORY = 66,
    VALUE_MEMORY = 196,
};

/* What a meter holds besides its readings. */
struct meter {
    uint8_t address[6];
    bool key;
    uint8_t passwords[30];
    uint8_t operator_code[4];
    uint8_t registers[REGISTERS];
};

/* The readings of both directions. */
struct energies {
    uint32_t forward[ROWS][RATES];
    uint32_t reverse[ROWS][RATES];
};

/* A request: control 11 reads data, 14 writes them, any other reads the address. */
struct request {
    uint8_t control;
    uint8_t address[6];
    uint32_t identifier;
    uint8_t level;
    uint8_t password[3];
    uint8_t operator_code[4];
    uint8_t value[LONGEST_VALUE];
    size_t count;
};

/* A refusal, or 0 and the length of what was written. */
struct written {
    uint8_t refusal;
    size_t length;
};

/* Which answer a judgement or an exchange is. */
enum which { VALUE, ERROR, REFUSED, SILENT, NOT_SENT };

/* Which answer it is, and its number: the value's length, the error byte or the refusal. */
struct judgement {
    uint8_t which;
    size_t number;
};

/* The answer to an exchange, and the lengths of the frame delivered and of the reply. */
struct exchange_answer {
    struct judgement judgement;
    size_t delivered;
    size_t replied;
};

/* What the calls by value hand back. */
struct meter_answer {
    struct meter meter;
    uint8_t refusal;
    size_t length;
};

struct meter_set {
    struct meter meter;
    uint8_t refusal;
};

struct meter_counted {
    struct energies energies;
    uint8_t refusal;
    struct meter meter;
};

struct exchange_done {
    struct meter meter;
    uint8_t which;
    size_t number;
    size_t delivered;
    size_t replied;
};

/* The seven calls with structs by value. */
#define DECLARE_BY_VALUE(name) \
    struct meter_answer name##_answer(struct meter meter, struct energies energies, const uint8_t *bytes, size_t count, \
                                      uint8_t *out, size_t out_len); \
    struct meter_set name##_set_key(struct meter meter, struct energies energies, bool on); \
    struct meter_counted name##_pulse(struct meter meter, struct energies energies, uint32_t amount, uint8_t direction, \
                                      uint8_t rate); \
    struct meter_counted name##_settle(struct meter meter, struct energies energies); \
    struct written name##_build(struct request request, uint8_t *out, size_t out_len); \
    struct judgement name##_judge(struct request request, const uint8_t *bytes, size_t count, uint8_t *out, \
                                  size_t out_len); \
    struct exchange_done name##_exchange(struct request request, struct meter meter, struct energies energies, \
                                         uint8_t *sent, size_t sent_len, uint8_t *heard, size_t heard_len, \
                                         uint8_t *reply, size_t reply_len, uint8_t *value, size_t value_len);

/* The seven calls in place: what is changed lies behind a pointer. */
#define DECLARE_IN_PLACE(name) \
    struct written name##_answer(struct meter *meter, const struct energies *energies, const uint8_t *bytes, size_t count, \
                                 uint8_t *out, size_t out_len); \
    uint8_t name##_set_key(struct meter *meter, const struct energies *energies, bool on); \
    uint8_t name##_pulse(const struct meter *meter, struct energies *energies, uint32_t amount, uint8_t direction, \
                         uint8_t rate); \
    uint8_t name##_settle(const struct meter *meter, struct energies *energies); \
    struct written name##_build(const struct request *request, uint8_t *out, size_t out_len); \
    struct judgement name##_judge(const struct request *request, const uint8_t *bytes, size_t count, uint8_t *out, \
                                  size_t out_len); \
    struct exchange_answer name##_exchange(const struct request *request, struct meter *meter, \
                                           const struct energies *energies, uint8_t *sent, size_t sent_len, \
                                           uint8_t *heard, size_t heard_len, uint8_t *reply, size_t reply_len, \
                                           uint8_t *value, size_t value_len);

/* The proved calls, from the archives that `rt lib` makes of call_ends_c and call_exchange_c. */
DECLARE_BY_VALUE(call)

/* The calls in C, by gcc and by clang; those by words are by value too, and look at up to eight bytes as one number. */
DECLARE_IN_PLACE(in_place_gcc)
DECLARE_IN_PLACE(in_place_clang)
DECLARE_BY_VALUE(by_value_gcc)
DECLARE_BY_VALUE(by_value_clang)
DECLARE_BY_VALUE(by_words_gcc)
DECLARE_BY_VALUE(by_words_clang)

#endif
