/*
 * Makes calls of the product and of the plain readers (readers.rs), all in the same way: profile, message and value as bytes, areas not
 * cleared between calls. The profile is the sample, with range 14 as a list.
 *
 *   calls count CALL TIMES LIST BITS HEX [ANSWER]
 *                                          only makes them, so that the instructions of TIMES calls can be counted from outside; range 14
 *                                          is a list of LIST, and cad_write writes what cad_read reads. A read that gives another answer
 *                                          than ANSWER, or 0, ends it
 *   calls times ROUNDS < MESSAGES          nanoseconds a read of each message (BITS HEX NAME): medians with least and most, and what the
 *                                          plain readers take by what cad_read takes; range 14 is a list of fifteen
 */
#define _POSIX_C_SOURCE 199309L
#include "plain.h"

#include <stdio.h>
#include <stdlib.h>
#include <string.h>
#include <time.h>

enum { READERS = 3, MOST_ROUNDS = 1000, MOST_DIGITS = 2 * CAD_MESSAGE_BYTES };

static const struct {
    const char *name;
    reader *read;
} readers[READERS] = {{"cad_read", cad_read}, {"plain_cad_read", plain_cad_read}, {"window_cad_read", window_cad_read}};

static uint8_t profile[CAD_PROFILE_BYTES];
static uint8_t message[CAD_MESSAGE_BYTES];
static size_t bits;
static uint32_t answer; /* what every read must give */

static void give_up(const char *why)
{
    fprintf(stderr, "calls: %s\n", why);
    exit(2);
}

static void set_profile(unsigned list)
{
    cad_profile_sample(profile);
    cad_profile_set_meaning(profile, 14, list);
}

static void set_message(size_t length, const char *hex)
{
    size_t k, bytes = strlen(hex) / 2;
    unsigned byte;
    if (bytes > sizeof message || (length + 7) / 8 != bytes)
        give_up("the hex has not as many bytes as the message");
    bits = length;
    for (k = 0; k < bytes; k++) {
        if (sscanf(hex + 2 * k, "%2x", &byte) != 1)
            give_up("no hex");
        message[k] = (uint8_t)byte;
    }
}

static void read_it(reader *read, unsigned long times)
{
    uint8_t value[CAD_VALUE_BYTES];
    uint32_t other = 0;
    for (; times > 0; times--)
        other |= read(profile, sizeof profile, message, (bits + 7) / 8, bits, value, sizeof value) ^ answer;
    if (other != 0)
        give_up("another answer");
}

static void write_it(unsigned long times)
{
    uint8_t value[CAD_VALUE_BYTES], written[CAD_MESSAGE_BYTES];
    size_t length = 0;
    uint32_t refused = cad_read(profile, sizeof profile, message, (bits + 7) / 8, bits, value, sizeof value);
    for (; times > 0; times--)
        refused |= cad_write(profile, sizeof profile, value, sizeof value, written, sizeof written, &length);
    if (refused != 0)
        give_up("refused");
}

static void count(const char *call, unsigned long times)
{
    unsigned k;
    if (strcmp(call, "cad_write") == 0) {
        write_it(times);
        return;
    }
    for (k = 0; k < READERS; k++)
        if (strcmp(call, readers[k].name) == 0) {
            read_it(readers[k].read, times);
            return;
        }
    give_up("no such call");
}

static double nanoseconds(reader *read, unsigned long reads)
{
    struct timespec from, to;
    clock_gettime(CLOCK_PROCESS_CPUTIME_ID, &from);
    read_it(read, reads);
    clock_gettime(CLOCK_PROCESS_CPUTIME_ID, &to);
    return (1e9 * (double)(to.tv_sec - from.tv_sec) + (double)(to.tv_nsec - from.tv_nsec)) / (double)reads;
}

static int by_size(const void *one, const void *other)
{
    double difference = *(const double *)one - *(const double *)other;
    return difference < 0 ? -1 : difference > 0;
}

static void print_median(double *figures, int rounds, int places)
{
    qsort(figures, (size_t)rounds, sizeof *figures, by_size);
    printf(" | %.*f (%.*f to %.*f)", places, figures[rounds / 2], places, figures[0], places, figures[rounds - 1]);
}

/* All readers in turn, so that whatever else the host does falls on each; counted is the time that this process had a processor. */
static void print_times(const char *name, int rounds)
{
    static double took[READERS][MOST_ROUNDS], ratio[READERS][MOST_ROUNDS];
    unsigned long reads = 2000000 / (bits + 100);
    int round;
    unsigned k;
    for (k = 0; k < READERS; k++)
        read_it(readers[k].read, reads);
    for (round = 0; round < rounds; round++)
        for (k = 0; k < READERS; k++) {
            took[k][round] = nanoseconds(readers[k].read, reads);
            ratio[k][round] = took[k][round] / took[0][round];
        }
    printf("| %s | %lu", name, (unsigned long)bits);
    for (k = 0; k < READERS; k++)
        print_median(took[k], rounds, 0);
    for (k = 1; k < READERS; k++)
        print_median(ratio[k], rounds, 2);
    printf(" |\n");
}

int main(int argc, char **argv)
{
    if (argc == 3 && strcmp(argv[1], "times") == 0) {
        int rounds = atoi(argv[2]);
        unsigned long length;
        char hex[MOST_DIGITS + 1], name[100];
        if (rounds < 1 || rounds > MOST_ROUNDS)
            give_up("rounds are 1 to 1000");
        set_profile(15);
        while (scanf("%lu %780s %99[^\n]", &length, hex, name) == 3) {
            set_message(length, hex);
            print_times(name, rounds);
        }
        return 0;
    }
    if ((argc == 7 || argc == 8) && strcmp(argv[1], "count") == 0) {
        if (argc == 8)
            answer = (uint32_t)strtoul(argv[7], NULL, 10);
        set_profile((unsigned)atoi(argv[4]));
        set_message(strtoul(argv[5], NULL, 10), argv[6]);
        count(argv[2], strtoul(argv[3], NULL, 10));
        return 0;
    }
    fprintf(stderr, "usage: calls count CALL TIMES LIST BITS HEX [ANSWER] | calls times ROUNDS < MESSAGES\n");
    return 2;
}
