/* Runs the checksums, the proved one and those in C, on the same bytes.
     checksum_driver compare   fails where two differ, on slices of every length from 0 to 260 from 16 starts on
     checksum_driver run NAME LEAST MOST
                               calls one of them with a slice of each of these lengths, for a count of its instructions
     checksum_driver names     prints their names, the proved one first */
#include <stdio.h>
#include <stdlib.h>
#include <string.h>

#include "chance.h"
#include "checksum.h"

enum {
    MOST = 260,
    STARTS = 16,
};

static const struct {
    const char *name;
    checksum_of *of;
} checksums[] = {
    {"call_checksum", call_checksum},
    {"plain_gcc", plain_gcc},
    {"plain_clang", plain_clang},
    {"fours_gcc", fours_gcc},
    {"fours_clang", fours_clang},
    {"plain_gcc_scalar", plain_gcc_scalar},
    {"plain_clang_scalar", plain_clang_scalar},
    {"fours_gcc_scalar", fours_gcc_scalar},
    {"fours_clang_scalar", fours_clang_scalar},
};

enum { CHECKSUMS = sizeof checksums / sizeof *checksums };

static uint8_t bytes[MOST + STARTS];

static int compare(void)
{
    for (size_t length = 0; length <= MOST; length++)
        for (size_t start = 0; start < STARTS; start++)
            for (size_t i = 1; i < CHECKSUMS; i++)
                if (checksums[i].of(bytes + start, length) != checksums[0].of(bytes + start, length)) {
                    fprintf(stderr, "DIFFERENCE: %s, %zu bytes from %zu on\n", checksums[i].name, length, start);
                    return 1;
                }
    printf("%d checksums agree on slices of 0 to %d bytes from %d starts\n", CHECKSUMS, MOST, STARTS);
    return 0;
}

static int run(const char *name, size_t least, size_t most)
{
    for (size_t i = 0; i < CHECKSUMS; i++)
        if (strcmp(checksums[i].name, name) == 0 && most <= MOST) {
            for (size_t length = least; length <= most; length++)
                printf("%d\n", checksums[i].of(bytes, length));
            return 0;
        }
    return 1;
}

static int names(void)
{
    for (size_t i = 0; i < CHECKSUMS; i++)
        printf("%s\n", checksums[i].name);
    return 0;
}

int main(int count, char **words)
{
    chance_state = 645;
    for (size_t i = 0; i < sizeof bytes; i++)
        bytes[i] = (uint8_t)chance();
    if (count == 2 && strcmp(words[1], "compare") == 0)
        return compare();
    if (count == 2 && strcmp(words[1], "names") == 0)
        return names();
    if (count == 5 && strcmp(words[1], "run") == 0)
        return run(words[2], strtoul(words[3], NULL, 10), strtoul(words[4], NULL, 10));
    fprintf(stderr, "call it as its first lines say\n");
    return 2;
}
