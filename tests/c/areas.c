/*
 * Reading and writing in blocks of the heap that are just as long as is said, so that a checker of memory sees a step past either end.
 * Input: the lines of tests/c/worked, `profile HEX` and then `BITS HEX VALUE`, whose bytes were worked out by hand. Each message is cut
 * at every bit, lent with areas of every size around the bound, read and written. Prints how many calls were made; status 1 if one
 * answered otherwise.
 */
#include "cad.h"

#include <stdio.h>
#include <stdlib.h>
#include <string.h>

struct block {
    uint8_t *bytes;
    size_t length;
};

static unsigned long calls;

static void wrong(const char *what, size_t bits, size_t size, unsigned long got)
{
    printf("areas: %s, %lu bits, size %lu: answered %lu\n", what, (unsigned long)bits, (unsigned long)size, got);
    exit(1);
}

/* No bytes are NULL, so that nothing can be read there either. */
static struct block block_of(size_t length)
{
    struct block block;
    block.length = length;
    block.bytes = length == 0 ? NULL : (uint8_t *)malloc(length);
    if (length != 0 && block.bytes == NULL)
        exit(2);
    return block;
}

/* The first bytes of another block, and 0xAA where there are no more. */
static struct block like(struct block from, size_t length)
{
    struct block block = block_of(length);
    size_t i;
    for (i = 0; i < length; i++)
        block.bytes[i] = i < from.length ? from.bytes[i] : 0xAA;
    return block;
}

static int all_are(const uint8_t *bytes, size_t from, size_t to, uint8_t byte)
{
    for (; from < to; from++)
        if (bytes[from] != byte)
            return 0;
    return 1;
}

static void reads(struct block profile, struct block message, size_t bits, size_t size, struct block want, uint32_t answer)
{
    struct block value = block_of(size);
    uint32_t *position = (uint32_t *)malloc(sizeof *position), *element = (uint32_t *)malloc(sizeof *element);
    uint32_t got;
    if (position == NULL || element == NULL)
        exit(2);
    *position = *element = 7777;
    if (answer != 0 && size != 0)
        memset(value.bytes, 0x55, size);
    else if (size > CAD_VALUE_BYTES)
        memset(value.bytes + CAD_VALUE_BYTES, 0x55, size - CAD_VALUE_BYTES);
    got = cad_read(profile.bytes, profile.length, message.bytes, message.length, bits, value.bytes, size);
    if (cad_read_at(profile.bytes, profile.length, message.bytes, message.length, bits, value.bytes, size, position, element) != got)
        wrong("the two readings differ", bits, size, got);
    calls += 2;
    if (got != answer)
        wrong("reading", bits, size, got);
    if (got == CAD_REFUSED_SHORT ? *position > bits || *element < 1 || *element > 20 : *position != 7777 || *element != 7777)
        wrong("reading says otherwise where it broke off", bits, size, got);
    if (answer == 0 && memcmp(value.bytes, want.bytes, CAD_VALUE_BYTES) != 0)
        wrong("reading gives another value", bits, size, got);
    if (!all_are(value.bytes, answer == 0 ? CAD_VALUE_BYTES : 0, size, 0x55))
        wrong("reading touches another byte", bits, size, got);
    free(position);
    free(element);
    free(value.bytes);
}

static void writes(struct block profile, struct block value, size_t size, struct block want, size_t want_bits, uint32_t answer)
{
    struct block message = block_of(size);
    size_t *bits = (size_t *)malloc(sizeof *bits);
    uint32_t got;
    if (bits == NULL)
        exit(2);
    *bits = 7777;
    if (size != 0)
        memset(message.bytes, 0x55, size);
    got = cad_write(profile.bytes, profile.length, value.bytes, value.length, message.bytes, size, bits);
    calls++;
    if (got != answer)
        wrong("writing", want_bits, size, got);
    if (*bits != (answer == 0 ? want_bits : 7777))
        wrong("writing gives another length", want_bits, size, got);
    if (answer == 0 && memcmp(message.bytes, want.bytes, want.length) != 0)
        wrong("writing gives other bytes", want_bits, size, got);
    if (!all_are(message.bytes, answer == 0 ? want.length : 0, size, 0x55))
        wrong("writing touches another byte", want_bits, size, got);
    free(bits);
    free(message.bytes);
}

static void try_message(struct block profile, size_t bits, struct block message, struct block value)
{
    static const size_t value_sizes[] = {0, 1, 107, 121, 228, 240, 241, 242, 348, 349, 455, 456, 469, 470, 471, 472, 473, 500};
    struct block part;
    size_t n, i;
    for (i = 0; i < sizeof value_sizes / sizeof value_sizes[0]; i++)
        reads(profile, message, bits, value_sizes[i], value, value_sizes[i] < CAD_VALUE_BYTES ? CAD_REFUSED_ROOM : CAD_DONE);
    for (n = 0; n < bits; n++) {
        part = like(message, (n + 7) / 8);
        reads(profile, part, n, CAD_VALUE_BYTES, value, n == 0 ? CAD_REFUSED_LENGTH : CAD_REFUSED_SHORT);
        free(part.bytes);
    }
    for (n = bits + 1; n <= 8 * message.length; n++)
        reads(profile, message, n, CAD_VALUE_BYTES, value, CAD_REFUSED_LEFT_OVER);
    reads(profile, message, 8 * message.length + 1, CAD_VALUE_BYTES, value, CAD_REFUSED_LENGTH);
    reads(profile, message, (size_t)-1, CAD_VALUE_BYTES, value, CAD_REFUSED_LENGTH);
    for (n = message.length + 1; n <= 516; n++) {
        part = like(message, n);
        reads(profile, part, bits, CAD_VALUE_BYTES, value, CAD_DONE);
        reads(profile, part, bits + 1, CAD_VALUE_BYTES, value, CAD_REFUSED_LEFT_OVER);
        reads(profile, part, 8 * n, CAD_VALUE_BYTES, value, 8 * n > 4096 ? CAD_REFUSED_LENGTH : CAD_REFUSED_LEFT_OVER);
        free(part.bytes);
    }
    part = like(message, 513);
    for (n = 2047; n <= 2049; n++)
        reads(profile, part, n, CAD_VALUE_BYTES, value, CAD_REFUSED_LEFT_OVER);
    for (n = 4095; n <= 4097; n++)
        reads(profile, part, n, CAD_VALUE_BYTES, value, n > 4096 ? CAD_REFUSED_LENGTH : CAD_REFUSED_LEFT_OVER);
    free(part.bytes);

    for (n = 0; n <= message.length + 9; n++)
        writes(profile, value, n, message, bits, n < message.length ? CAD_REFUSED_ROOM : CAD_DONE);
    for (n = 0; n <= 530; n++) {
        part = like(value, n);
        writes(profile, part, CAD_MESSAGE_BYTES, message, bits, n == CAD_VALUE_BYTES ? CAD_DONE : CAD_REFUSED_VALUE);
        free(part.bytes);
    }
    for (n = 0; n <= 60; n++) {
        part = like(profile, n);
        reads(part, message, bits, CAD_VALUE_BYTES, value, n == CAD_PROFILE_BYTES ? CAD_DONE : CAD_REFUSED_PROFILE);
        writes(part, value, CAD_MESSAGE_BYTES, message, bits, n == CAD_PROFILE_BYTES ? CAD_DONE : CAD_REFUSED_PROFILE);
        free(part.bytes);
    }
}

static struct block block_of_hex(const char *hex)
{
    struct block block = block_of(strlen(hex) / 2);
    size_t i;
    for (i = 0; i < block.length; i++) {
        unsigned byte;
        if (sscanf(hex + 2 * i, "%2x", &byte) != 1)
            exit(2);
        block.bytes[i] = (uint8_t)byte;
    }
    return block;
}

int main(void)
{
    static char first[1000], second[1000];
    struct block profile;
    unsigned long bits, messages = 0;
    if (scanf(" profile %999s", first) != 1)
        return 2;
    profile = block_of_hex(first);
    while (scanf(" %lu %999s %999s", &bits, first, second) == 3) {
        struct block message = block_of_hex(first), value = block_of_hex(second);
        try_message(profile, bits, message, value);
        free(message.bytes);
        free(value.bytes);
        messages++;
    }
    free(profile.bytes);
    printf("%lu calls in blocks of their own, over %lu messages: each as worked out\n", calls, messages);
    return messages == 0 ? 2 : 0;
}
