/* The implementations of both ends, all behind calls by value. */
#ifndef IMPLEMENTATIONS_H
#define IMPLEMENTATIONS_H

#include "ends.h"

struct implementation {
    const char *name;
    struct meter_answer (*answer)(struct meter, struct energies, const uint8_t *, size_t, uint8_t *, size_t);
    struct meter_set (*set_key)(struct meter, struct energies, bool);
    struct meter_counted (*pulse)(struct meter, struct energies, uint32_t, uint8_t, uint8_t);
    struct meter_counted (*settle)(struct meter, struct energies);
    struct written (*build)(struct request, uint8_t *, size_t);
    struct judgement (*judge)(struct request, const uint8_t *, size_t, uint8_t *, size_t);
    struct exchange_done (*exchange)(struct request, struct meter, struct energies, uint8_t *, size_t, uint8_t *, size_t,
                                     uint8_t *, size_t, uint8_t *, size_t);
};

/* The proved one first. */
enum { IMPLEMENTATIONS = 7 };
extern const struct implementation implementations[IMPLEMENTATIONS];

#endif
