/* The readers of a recorded line that are compared, each as one function: it takes the end of the input as a silence,
   writes all frames handed on to out, end to end, and returns the number of bytes written, or SIZE_MAX where out is
   shorter than the input. The first three give a receiver one symbol a call; the others read straight from the slice. */
#ifndef READERS_H
#define READERS_H

#include <stddef.h>
#include <stdint.h>

/* The proved receiver, from the archive that `rt lib` makes of receive_line_c. */
size_t receive_line(const uint8_t *input, size_t input_len, uint8_t *out, size_t out_len);

/* The receiver in C that changes its state in place. */
size_t receive_line_in_place(const uint8_t *input, size_t input_len, uint8_t *out, size_t out_len);

/* The receiver in C whose state is passed and returned by value. */
size_t receive_line_by_value(const uint8_t *input, size_t input_len, uint8_t *out, size_t out_len);

/* The proved reading of a slice, from the same archive. */
size_t read_line(const uint8_t *input, size_t input_len, uint8_t *out, size_t out_len);

/* The scan of the buffer in C, by gcc and by clang. */
size_t scan_line_gcc(const uint8_t *input, size_t input_len, uint8_t *out, size_t out_len);
size_t scan_line_clang(const uint8_t *input, size_t input_len, uint8_t *out, size_t out_len);

#endif
