/*
 * For the linker's --wrap: each cad_read of a program is made by both plain readers too, with areas of their own, and each has to give the
 * same answer and leave the same bytes. The program gets the product's.
 */
#include "plain.h"

#include <stdio.h>
#include <stdlib.h>
#include <string.h>

reader __real_cad_read, __wrap_cad_read;

enum { MOST = 4096 };

static const struct {
    const char *name;
    reader *read;
} plain[] = {{"bit", plain_cad_read}, {"window", window_cad_read}};

uint32_t __wrap_cad_read(const uint8_t *profile, size_t profile_len, const uint8_t *message, size_t message_len, size_t bits,
                         uint8_t *value, size_t value_len)
{
    uint8_t before[MOST], area[MOST];
    uint32_t product, answer;
    size_t k;
    if (value_len > MOST)
        abort();
    if (value_len > 0)
        memcpy(before, value, value_len);
    product = __real_cad_read(profile, profile_len, message, message_len, bits, value, value_len);
    for (k = 0; k < sizeof plain / sizeof *plain; k++) {
        memcpy(area, before, value_len);
        answer = plain[k].read(profile, profile_len, message, message_len, bits, area, value_len);
        if (answer != product || (value_len > 0 && memcmp(area, value, value_len) != 0)) {
            printf("the product answers %u and the %s reader %u, or they lay other bytes\n", (unsigned)product, plain[k].name,
                   (unsigned)answer);
            exit(1);
        }
    }
    return product;
}
