/*
 * A small console over cad.h, under the sample profile.
 *
 *   console < FILE                  reads lines `BITS HEX`, as the listing does, and says each field of each message in words
 *   console accept ID               writes an ACCEPT of call ID and prints its bit length and its bytes
 *   console reject ID CAUSE         writes a REJECT of call ID, with its cause
 *   console activate FIRST LAST     writes an ACTIVATE of the users FIRST to LAST of the home network
 *   console deactivate FIRST LAST   writes a DEACTIVATE of those users
 *
 * What is printed can be read again: console deactivate 1001 1004 | console
 */
#include "cad.h"

#include <errno.h>
#include <stdio.h>
#include <stdlib.h>
#include <string.h>

/* A good line: a bit length of 1 to 4 digits, one space, and at most 1024 hex digits. */
#define LINE_DIGITS 4
#define LINE_BYTES 512
#define LINE_LENGTH (LINE_DIGITS + 1 + 2 * LINE_BYTES)

static const char *identities_word(unsigned count)
{
    return count == 1 ? "identity" : "identities";
}

static void say_address(struct cad_address address)
{
    printf("kind %u, SSI %lu", address.kind, (unsigned long)address.ssi);
    if (address.kind == CAD_KIND_OTHER)
        printf(", extension %lu", (unsigned long)address.extension);
    printf("\n");
}

static void say_range(const uint8_t *profile, const char *word, unsigned range)
{
    unsigned meaning = cad_profile_meaning(profile, range);
    printf("  %s: range %u, ", word, range);
    if (meaning == CAD_MEANS_NOBODY)
        printf("nobody\n");
    else if (meaning == CAD_MEANS_FIRST_LAST)
        printf("first and last\n");
    else
        printf("a list of %u\n", meaning);
}

static void say_addresses(const uint8_t *value, unsigned count, struct cad_address (*address)(const uint8_t *value, unsigned k))
{
    unsigned k;
    for (k = 0; k < count; k++) {
        printf("    address %u: ", k);
        say_address(address(value, k));
    }
}

static void say_users(const uint8_t *profile, const uint8_t *value)
{
    if (cad_value_pdu(value) == CAD_INTERROGATE)
        printf("  user:\n");
    else
        say_range(profile, "users", cad_value_user_range(value));
    say_addresses(value, cad_value_users(profile, value), cad_value_user);
}

/* Each identity that the users are; of an ACK with its mask bit, so that nobody has to count bits. */
static void say_identities(const uint8_t *profile, const uint8_t *value)
{
    unsigned count = cad_value_identities(profile, value);
    unsigned i;
    printf("  %u %s", count, identities_word(count));
    if (cad_value_is_ack(value))
        printf(cad_value_masked(value) ? ", with a mask" : ", no mask");
    printf("\n");
    for (i = 0; i < count; i++) {
        struct cad_identity identity = cad_value_identity(profile, value, i);
        printf("    identity %u: SSI %lu, extension %lu", i, (unsigned long)identity.ssi, (unsigned long)identity.extension);
        if (cad_value_masked(value))
            printf(", mask bit %u", cad_value_mask_bit(value, i));
        printf("\n");
    }
}

static void say_result(const uint8_t *value)
{
    if (cad_value_result(value) == 1)
        printf("  result: accepted\n");
    else
        printf("  result: not accepted, reason %u\n", cad_value_reason(value));
}

/* What an INTERROGATE ACK that is accepted says of its users. */
static void say_state(const uint8_t *value)
{
    printf("  activation type: %s\n", cad_value_activation_type(value) == 1 ? "activated" : "not activated");
    printf("  interception type: %s\n",
           cad_value_interception_type(value) == 1 ? "dispatcher requested set-up" : "immediate set-up");
    printf("  basic service of the called: %u\n", cad_value_called_service(value));
    printf("  basic service of the calling: %u\n", cad_value_calling_service(value));
}

/* The groups that are there: of an INTERROGATE ACK up to four, of the others at most dispatchers. */
static void say_options(const uint8_t *profile, const uint8_t *value)
{
    unsigned k;
    if (cad_value_option(value)) {
        if (cad_value_pdu(value) == CAD_ACTIVATE || cad_value_pdu(value) == CAD_INTERROGATE_ACK)
            say_range(profile, "option, dispatchers", cad_value_dispatcher_range(value));
        else
            printf("  option, dispatcher:\n");
        say_addresses(value, cad_value_dispatchers(profile, value), cad_value_dispatcher);
    }
    if (cad_value_has_sources(value)) {
        say_range(profile, "option, sources", cad_value_source_range(value));
        say_addresses(value, cad_value_sources(profile, value), cad_value_source);
    }
    if (cad_value_has_destinations(value)) {
        say_range(profile, "option, destinations", cad_value_destination_range(value));
        say_addresses(value, cad_value_destinations(profile, value), cad_value_destination);
    }
    if (cad_value_has_areas(value)) {
        say_range(profile, "option, areas", cad_value_area_range(value));
        for (k = 0; k < cad_value_areas(profile, value); k++)
            printf("    area %u: %u\n", k, cad_value_area(value, k));
    }
    if (!cad_value_option(value) && !cad_value_has_sources(value) && !cad_value_has_destinations(value) && !cad_value_has_areas(value))
        printf("  no option\n");
}

/* Who calls whom, and what else a REQUEST may say of the call. */
static void say_parties(const uint8_t *value)
{
    if (cad_value_has_calling(value)) {
        printf("  calling: ");
        say_address(cad_value_calling(value));
    }
    if (cad_value_has_called(value)) {
        printf("  called: ");
        say_address(cad_value_called(value));
    }
    if (cad_value_has_mni(value))
        printf("  network: %lu\n", (unsigned long)cad_value_mni(value));
    if (cad_value_has_calling_area(value))
        printf("  area of the calling: %u\n", cad_value_calling_area(value));
    if (cad_value_has_called_area(value))
        printf("  area of the called: %u\n", cad_value_called_area(value));
    if (cad_value_has_calling_service(value))
        printf("  basic service of the calling: %u\n", cad_value_calling_service(value));
    if (cad_value_has_called_service(value))
        printf("  basic service of the called: %u\n", cad_value_called_service(value));
}

static void say_value(const uint8_t *profile, const uint8_t *value)
{
    switch (cad_value_pdu(value)) {
    case CAD_ACTIVATE:
        say_users(profile, value);
        say_identities(profile, value);
        say_options(profile, value);
        break;
    case CAD_ACTIVATE_ACK:
    case CAD_DEACTIVATE_ACK:
        say_users(profile, value);
        say_identities(profile, value);
        say_result(value);
        break;
    case CAD_INTERROGATE_ACK:
        say_users(profile, value);
        say_identities(profile, value);
        say_result(value);
        if (cad_value_result(value) == 1)
            say_state(value);
        say_options(profile, value);
        break;
    case CAD_DEACTIVATE:
    case CAD_INTERROGATE:
        say_users(profile, value);
        say_identities(profile, value);
        break;
    case CAD_INTERCEPTED:
    case CAD_DIVERTED:
    case CAD_REJECTED:
        printf("  cause: %u\n", cad_value_cause(value));
        say_options(profile, value);
        break;
    case CAD_REQUEST:
    case CAD_REJECT:
        printf("  call identifier: %u\n", cad_value_identifier(value));
        printf("  cause: %u\n", cad_value_cause(value));
        say_parties(value);
        break;
    case CAD_ACCEPT:
    case CAD_CANCEL:
    case CAD_DIVERT:
        printf("  call identifier: %u\n", cad_value_identifier(value));
        break;
    default:
        break;
    }
}

static int hex_digit(char c)
{
    const char *digits = "0123456789ABCDEF";
    const char *found = c == '\0' ? NULL : strchr(digits, c);
    return found == NULL ? -1 : (int)(found - digits);
}

/* Takes a line apart into a bit length and bytes; 0 if it is of another shape. */
static int take_line(const char *line, size_t length, size_t *bits, uint8_t *bytes, size_t *count)
{
    size_t at = 0;
    *bits = 0;
    *count = 0;
    while (at < length && at < LINE_DIGITS && line[at] >= '0' && line[at] <= '9')
        *bits = 10 * *bits + (size_t)(line[at++] - '0');
    if (at == 0 || at == length || line[at++] != ' ')
        return 0;
    if (length > LINE_LENGTH || (length - at) / 2 > LINE_BYTES || (length - at) % 2 != 0)
        return 0;
    for (; at < length; at += 2) {
        int high = hex_digit(line[at]), low = hex_digit(line[at + 1]);
        if (high < 0 || low < 0)
            return 0;
        bytes[(*count)++] = (uint8_t)(16 * high + low);
    }
    return 1;
}

static void say_line(const uint8_t *profile, unsigned long number, const char *line, size_t length)
{
    uint8_t message[LINE_BYTES], value[CAD_VALUE_BYTES];
    size_t bits, count;
    uint32_t refusal, position, element;
    if (!take_line(line, length, &bits, message, &count)) {
        printf("%lu refused %d: not a bit length, a space and hex digits in capitals\n", number, CAD_REFUSED_LENGTH);
        return;
    }
    refusal = cad_read_at(profile, CAD_PROFILE_BYTES, message, count, bits, value, sizeof value, &position, &element);
    if (refusal == CAD_REFUSED_SHORT) {
        printf("%lu refused %lu: the %s that begins at bit %lu reaches past the end\n", number, (unsigned long)refusal,
               cad_element_name(element), (unsigned long)position);
        return;
    }
    if (refusal != CAD_DONE) {
        printf("%lu refused %lu: %s\n", number, (unsigned long)refusal, cad_refusal_text(refusal));
        return;
    }
    printf("%lu %s: %lu bits\n", number, cad_pdu_name(cad_value_pdu(value)), (unsigned long)bits);
    say_value(profile, value);
}

/* Of a line that is too long only the length is of use, so the rest of it is counted and not kept. */
static int say_lines(const uint8_t *profile)
{
    char line[LINE_LENGTH];
    unsigned long number = 0;
    size_t length = 0;
    int c;
    do {
        c = getchar();
        if (c == '\n' || (c == EOF && length > 0)) {
            say_line(profile, ++number, line, length);
            length = 0;
        } else if (c != EOF) {
            if (length < sizeof line)
                line[length] = (char)c;
            length++;
        }
    } while (c != EOF);
    return ferror(stdin) ? 1 : 0;
}

static int write_value(const uint8_t *profile, const uint8_t *value)
{
    uint8_t message[CAD_MESSAGE_BYTES];
    size_t bits, i;
    uint32_t refusal = cad_write(profile, CAD_PROFILE_BYTES, value, CAD_VALUE_BYTES, message, sizeof message, &bits);
    if (refusal != CAD_DONE) {
        printf("refused %lu: %s\n", (unsigned long)refusal, cad_refusal_text(refusal));
        return 1;
    }
    printf("%lu ", (unsigned long)bits);
    for (i = 0; i < (bits + 7) / 8; i++)
        printf("%02X", (unsigned)message[i]);
    printf("\n");
    return 0;
}

static int write_accept(const uint8_t *profile, uint32_t identifier)
{
    uint8_t value[CAD_VALUE_BYTES];
    cad_value_start(value, CAD_ACCEPT);
    cad_value_set_identifier(value, identifier);
    return write_value(profile, value);
}

static int write_reject(const uint8_t *profile, uint32_t identifier, uint32_t cause)
{
    uint8_t value[CAD_VALUE_BYTES];
    cad_value_start(value, CAD_REJECT);
    cad_value_set_identifier(value, identifier);
    cad_value_set_cause(value, cause);
    return write_value(profile, value);
}

/* An ACTIVATE or a DEACTIVATE, without option. */
static int write_users(const uint8_t *profile, unsigned pdu, uint32_t first, uint32_t last)
{
    uint8_t value[CAD_VALUE_BYTES];
    cad_value_start(value, pdu);
    cad_value_set_user_range(value, 15);
    cad_value_set_user(value, 0, cad_address_home(first));
    cad_value_set_user(value, 1, cad_address_home(last));
    return write_value(profile, value);
}

/* A decimal number of at most 32 bits; 0 if the word is no such number. Whether it fits its field is cad_write's business. */
static int take_number(const char *word, uint32_t *number)
{
    char *end;
    unsigned long long found;
    if (word[0] < '0' || word[0] > '9')
        return 0;
    errno = 0;
    found = strtoull(word, &end, 10);
    if (errno != 0 || *end != '\0' || found > 0xFFFFFFFFu)
        return 0;
    *number = (uint32_t)found;
    return 1;
}

int main(int argc, char **argv)
{
    uint8_t profile[CAD_PROFILE_BYTES];
    uint32_t one, two;
    cad_profile_sample(profile);
    if (argc == 1)
        return say_lines(profile);
    if (argc == 3 && strcmp(argv[1], "accept") == 0 && take_number(argv[2], &one))
        return write_accept(profile, one);
    if (argc == 4 && strcmp(argv[1], "reject") == 0 && take_number(argv[2], &one) && take_number(argv[3], &two))
        return write_reject(profile, one, two);
    if (argc == 4 && strcmp(argv[1], "activate") == 0 && take_number(argv[2], &one) && take_number(argv[3], &two))
        return write_users(profile, CAD_ACTIVATE, one, two);
    if (argc == 4 && strcmp(argv[1], "deactivate") == 0 && take_number(argv[2], &one) && take_number(argv[3], &two))
        return write_users(profile, CAD_DEACTIVATE, one, two);
    fprintf(stderr, "usage: console < FILE | console accept ID | console reject ID CAUSE | console activate FIRST LAST"
                    " | console deactivate FIRST LAST\n");
    return 2;
}
