/* The plain readers in Rust (readers.rs), which are called as cad_read is: one bit at a time (plain.rs), and by window (window.rs). */
#ifndef PLAIN_H
#define PLAIN_H

#include "cad.h"

typedef uint32_t reader(const uint8_t *profile, size_t profile_len, const uint8_t *message, size_t message_len, size_t bits,
                        uint8_t *value, size_t value_len);

reader plain_cad_read, window_cad_read;

#endif
