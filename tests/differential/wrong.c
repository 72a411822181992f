/*
 * Thirty-six wrong products, each off in one thing now and then, made of the right one by the linker's --wrap; WRONG says which. With 0 it is
 * the right one. The differential test has to find each of the others.
 */
#include "cad.h"

#include <stdlib.h>
#include <string.h>

uint32_t __real_cad_read(const uint8_t *, size_t, const uint8_t *, size_t, size_t, uint8_t *, size_t);
uint32_t __real_cad_write(const uint8_t *, size_t, const uint8_t *, size_t, uint8_t *, size_t, size_t *);
uint32_t __real_cad_read_at(const uint8_t *, size_t, const uint8_t *, size_t, size_t, uint8_t *, size_t, uint32_t *, uint32_t *);
uint32_t __wrap_cad_read(const uint8_t *, size_t, const uint8_t *, size_t, size_t, uint8_t *, size_t);
uint32_t __wrap_cad_read_at(const uint8_t *, size_t, const uint8_t *, size_t, size_t, uint8_t *, size_t, uint32_t *, uint32_t *);
uint32_t __wrap_cad_write(const uint8_t *, size_t, const uint8_t *, size_t, uint8_t *, size_t, size_t *);

/* REQUEST and REJECT, and where a value has REQUEST's two addresses and its two services. */
enum { REQUEST = 11, REJECT = 17, CALLING = 2, CALLED = 9, ADDRESS_BYTES = 7, SERVICE_CALLING = 239, SERVICE_CALLED = 240 };

/* Types about users, and where a value has the mask and the result; a written message has its type in bits 6 to 10. */
enum { ACTIVATE_ACK = 3, DEACTIVATE = 4, DEACTIVATE_ACK = 5, MASKED = 107, RESULT = 116, MASK_BYTES = 8 };

/* INTERROGATE ACK, what it alone has in a value, and the sizes of profile and value before it. */
enum { INTERROGATE_ACK = 9, ACTIVATION = 241, INTERCEPTION = 242, SOURCES = 243, DESTINATIONS = 349, LAST_AREA = 470, GROUP_BYTES = 106 };
enum { EXTERNAL = 27, KIND = 10, OLD_MOST_BITS = 2048, OLD_PROFILE_BYTES = 39, OLD_VALUE_BYTES = 241 };

/* What breaks off, and some of the elements in which it does. */
enum { BROKE_OFF = 4, SSI = 5, EXTENSION = 6, MASK = 8, O_BIT = 13, P_BIT = 14, ACTIVATION_TYPE = 18, INTERCEPTION_TYPE = 19 };

/* The width of element n at n; a mask's depends on the message. */
static const uint8_t widths[] = {0, 6, 5, 4, 2, 24, 24, 1, 0, 1, 7, 5, 14, 1, 1, 24, 4, 2, 1, 1};

static void swap_services(uint8_t *value)
{
    uint8_t calling = value[SERVICE_CALLING];
    value[SERVICE_CALLING] = value[SERVICE_CALLED];
    value[SERVICE_CALLED] = calling;
}

static int wrong(void)
{
    const char *number = getenv("WRONG");
    return number == NULL ? 0 : atoi(number);
}

uint32_t __wrap_cad_read(const uint8_t *profile, size_t profile_len, const uint8_t *message, size_t message_len, size_t bits,
                         uint8_t *value, size_t value_len)
{
    uint32_t answer = __real_cad_read(profile, profile_len, message, message_len, bits, value, value_len);
    switch (wrong()) {
    case 1: /* one byte of the value, of one message with one cause */
        if (answer == CAD_DONE && cad_value_pdu(value) == CAD_DIVERTED && cad_value_cause(value) == 31)
            cad_value_set_cause(value, 30);
        break;
    case 2: /* the last of 64 mask bits is lost */
        if (answer == CAD_DONE)
            value[CAD_VALUE_MASK + 7] &= 0xFE;
        break;
    case 3: /* 14 comes before 13 */
        if (answer == CAD_REFUSED_LEFT_OVER && value_len < CAD_VALUE_BYTES)
            return CAD_REFUSED_ROOM;
        break;
    case 4: /* a refusal touches the area */
        if (answer == CAD_REFUSED_ENDS && value_len > 0)
            value[0] ^= 1;
        break;
    case 5: /* a step past the value's end */
        if (answer == CAD_DONE && cad_value_pdu(value) == CAD_ACCEPTED)
            value[CAD_VALUE_BYTES] ^= 1;
        break;
    case 9: /* the called address is read into the calling one */
        if (answer == CAD_DONE && cad_value_pdu(value) == REQUEST)
            memmove(value + CALLING, value + CALLED, ADDRESS_BYTES);
        break;
    case 10: /* the services are swapped */
        if (answer == CAD_DONE && cad_value_pdu(value) == REQUEST)
            swap_services(value);
        break;
    case 11: /* REJECT's cause is lost */
        if (answer == CAD_DONE && cad_value_pdu(value) == REJECT)
            cad_value_set_cause(value, 0);
        break;
    case 12: /* DEACTIVATE ACK is read as an ACTIVATE ACK */
        if (answer == CAD_DONE && cad_value_pdu(value) == DEACTIVATE_ACK)
            value[0] = ACTIVATE_ACK;
        break;
    case 13: /* DEACTIVATE ACK's mask is dropped where it says accepted */
        if (answer == CAD_DONE && cad_value_pdu(value) == DEACTIVATE_ACK && value[RESULT] == 1)
            memset(value + MASKED, 0, 1 + MASK_BYTES);
        break;
    case 14: /* a bit behind DEACTIVATE is taken for an O-bit */
        if (answer == CAD_REFUSED_LEFT_OVER && bits > 11 && (message[0] & 3) == 0 && message[1] >> 5 == DEACTIVATE) {
            uint32_t less = __real_cad_read(profile, profile_len, message, message_len, bits - 1, value, value_len);
            if (less == CAD_DONE)
                return less;
        }
        break;
    case 25: /* the services of INTERROGATE ACK are swapped */
        if (answer == CAD_DONE && cad_value_pdu(value) == INTERROGATE_ACK)
            swap_services(value);
        break;
    case 26: /* an external destination is a kind like another */
        if (answer == EXTERNAL)
            return KIND;
        break;
    case 27: /* the activation type is inverted */
        if (answer == CAD_DONE && cad_value_pdu(value) == INTERROGATE_ACK && value[RESULT] == 1)
            value[ACTIVATION] ^= 1;
        break;
    case 28: /* the last of fifteen areas is lost */
        if (answer == CAD_DONE)
            value[LAST_AREA] = 0;
        break;
    case 29: /* no message is longer than one could be before */
        if (answer != 1 && bits > OLD_MOST_BITS)
            return 3;
        break;
    case 30: /* sources and destinations are swapped */
        if (answer == CAD_DONE && cad_value_pdu(value) == INTERROGATE_ACK) {
            uint8_t sources[GROUP_BYTES];
            memcpy(sources, value + SOURCES, GROUP_BYTES);
            memcpy(value + SOURCES, value + DESTINATIONS, GROUP_BYTES);
            memcpy(value + DESTINATIONS, sources, GROUP_BYTES);
        }
        break;
    case 31: /* a profile without failure reasons is good */
        if (profile_len == OLD_PROFILE_BYTES) {
            uint8_t longer[CAD_PROFILE_BYTES] = {0};
            memcpy(longer, profile, profile_len);
            return __real_cad_read(longer, sizeof longer, message, message_len, bits, value, value_len);
        }
        break;
    default: break;
    }
    return answer;
}

uint32_t __wrap_cad_read_at(const uint8_t *profile, size_t profile_len, const uint8_t *message, size_t message_len, size_t bits,
                            uint8_t *value, size_t value_len, uint32_t *position, uint32_t *element)
{
    uint32_t answer = __real_cad_read_at(profile, profile_len, message, message_len, bits, value, value_len, position, element);
    switch (wrong()) {
    case 16: /* the position where the message ends */
        if (answer == BROKE_OFF)
            *position = (uint32_t)bits;
        break;
    case 17: /* the position where the element would have ended */
        if (answer == BROKE_OFF)
            *position += widths[*element];
        break;
    case 18: /* the extension is named an SSI */
        if (answer == BROKE_OFF && *element == EXTENSION)
            *element = SSI;
        break;
    case 19: /* the mask begins where it is said to be present */
        if (answer == BROKE_OFF && *element == MASK)
            *position -= 1;
        break;
    case 20: /* a 13 has a position too */
        if (answer == CAD_REFUSED_LEFT_OVER)
            *position = (uint32_t)bits - 1;
        break;
    case 21: /* the numbers are cleared where all is well */
        if (answer == CAD_DONE)
            *position = *element = 0;
        break;
    case 22: /* the position is right, the element isn't told */
        if (answer == BROKE_OFF)
            *element = 0;
        break;
    case 23: /* the position has 8 bits */
        if (answer == BROKE_OFF)
            *position &= 0xFF;
        break;
    case 24: /* a P-bit is named an O-bit */
        if (answer == BROKE_OFF && *element == P_BIT)
            *element = O_BIT;
        break;
    case 32: /* the activation type is named an interception type */
        if (answer == BROKE_OFF && *element == ACTIVATION_TYPE)
            *element = INTERCEPTION_TYPE;
        break;
    case 33: /* the position has 11 bits */
        if (answer == BROKE_OFF)
            *position &= 0x7FF;
        break;
    default: break;
    }
    return answer;
}

uint32_t __wrap_cad_write(const uint8_t *profile, size_t profile_len, const uint8_t *value, size_t value_len, uint8_t *message,
                          size_t message_len, size_t *bits)
{
    uint32_t answer = __real_cad_write(profile, profile_len, value, value_len, message, message_len, bits);
    switch (wrong()) {
    case 6: /* the byte after the message is cleared */
        if (answer == CAD_DONE && (*bits + 7) / 8 < message_len)
            message[(*bits + 7) / 8] = 0;
        break;
    case 7: /* the length is told though there is no room */
        if (answer == CAD_REFUSED_ROOM)
            *bits = 0;
        break;
    case 8: /* a spare bit is set */
        if (answer == CAD_DONE && *bits % 8 == 7)
            message[*bits / 8] |= 1;
        break;
    case 15: /* DEACTIVATE is written as an ACTIVATE without its O-bit */
        if (answer == CAD_DONE && value[0] == DEACTIVATE)
            message[1] ^= 0xC0;
        break;
    case 34: /* a value of the size that it had before is good */
        if (value_len == OLD_VALUE_BYTES) {
            uint8_t longer[CAD_VALUE_BYTES] = {0};
            memcpy(longer, value, value_len);
            return __real_cad_write(profile, profile_len, longer, sizeof longer, message, message_len, bits);
        }
        break;
    case 35: /* an interception type over its width is cut */
    case 36: /* the services of INTERROGATE ACK are swapped in writing */
        if (value_len == CAD_VALUE_BYTES && value[0] == INTERROGATE_ACK) {
            uint8_t other[CAD_VALUE_BYTES];
            memcpy(other, value, value_len);
            if (wrong() == 35)
                other[INTERCEPTION] &= 1;
            else
                swap_services(other);
            return __real_cad_write(profile, profile_len, other, sizeof other, message, message_len, bits);
        }
        break;
    default: break;
    }
    return answer;
}
