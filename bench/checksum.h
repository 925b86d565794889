/* The checksum by itself: the proved one, and in C the plain loop and four bytes a turn, each by two compilers and each once
   more without vector instructions. */
#ifndef CHECKSUM_H
#define CHECKSUM_H

#include <stddef.h>
#include <stdint.h>

typedef uint8_t checksum_of(const uint8_t *bytes, size_t count);

/* The proved one, from the archive that `rt lib` makes of call_checksum_c. */
checksum_of call_checksum;

checksum_of plain_gcc, plain_clang, fours_gcc, fours_clang;
checksum_of plain_gcc_scalar, plain_clang_scalar, fours_gcc_scalar, fours_clang_scalar;

#endif
