/*
 * The header's constants, accessors and setters against the layout, whose numbers are typed in here from docs/LAYOUTS.md. It is C99 and
 * C++ alike, and is built as both. Prints how many checks were made; status 1 if one failed.
 */
#include "cad.h"

#include <stdio.h>
#include <string.h>

static unsigned long checks, failures;

#define CHECK(what)                                                                                                                    \
    do {                                                                                                                               \
        checks++;                                                                                                                      \
        if (!(what)) {                                                                                                                 \
            failures++;                                                                                                                \
            printf("header.c:%d: not so: %s\n", __LINE__, #what);                                                                      \
        }                                                                                                                              \
    } while (0)

static const uint8_t zeros[CAD_VALUE_BYTES] = {0};

/* A value is written in so many bits, as these bytes where they are given, and what was written is read as the value. */
static void round_trip(const uint8_t *profile, const uint8_t *value, size_t bits, const uint8_t *bytes)
{
    uint8_t read[471], message[CAD_MESSAGE_BYTES];
    unsigned long before = failures;
    size_t written = 77;
    CHECK(cad_write(profile, 41, value, 471, message, sizeof message, &written) == CAD_DONE && written == bits);
    CHECK(bytes == NULL || memcmp(message, bytes, (bits + 7) / 8) == 0);
    CHECK(cad_read(profile, 41, message, (bits + 7) / 8, bits, read, sizeof read) == CAD_DONE);
    CHECK(memcmp(read, value, sizeof read) == 0);
    if (failures != before)
        printf("header.c: that was %s of %lu bits\n", cad_pdu_name(cad_value_pdu(value)), (unsigned long)bits);
}

/* Under this profile range 0 is nobody, 1 to 3 are lists, 7 is a list of fifteen, 15 is first and last; home is 0x0A0B0C. */
static void home_profile(uint8_t *profile)
{
    cad_profile_sample(profile);
    profile[1] = 0x0A;
    profile[2] = 0x0B;
    profile[3] = 0x0C;
    profile[6 + 7] = 15;
}

static void constants(void)
{
    CHECK(CAD_PROFILE_BYTES == 41 && CAD_VALUE_BYTES == 471 && CAD_ADDRESS_BYTES == 7 && CAD_SHARE_BYTES == 2);
    CHECK(CAD_PROFILE_SS_TYPE == 0 && CAD_PROFILE_HOME == 1 && CAD_PROFILE_U == 4 && CAD_PROFILE_N == 5);
    CHECK(CAD_PROFILE_MEANINGS == 6 && CAD_PROFILE_COUNT == 22 && CAD_PROFILE_SHARES == 23);
    CHECK(CAD_PROFILE_UNRECORDED == 39 && CAD_PROFILE_ELSEWHERE == 40);
    CHECK(CAD_VALUE_PDU == 0 && CAD_VALUE_USER_RANGE == 1 && CAD_VALUE_USERS == 2 && CAD_VALUE_MASKED == 107);
    CHECK(CAD_VALUE_MASK == 108 && CAD_VALUE_RESULT == 116 && CAD_VALUE_REASON == 117 && CAD_VALUE_CAUSE == 118);
    CHECK(CAD_VALUE_IDENTIFIER == 119 && CAD_VALUE_OPTION == 121 && CAD_VALUE_DISPATCHER_RANGE == 122);
    CHECK(CAD_VALUE_DISPATCHERS == 123 && CAD_ADDRESS_SSI == 1 && CAD_ADDRESS_EXTENSION == 4);
    CHECK(CAD_VALUE_HAS_CALLED == 228 && CAD_VALUE_HAS_MNI == 229);
    CHECK(CAD_VALUE_HAS_CALLING_AREA == 230 && CAD_VALUE_HAS_CALLED_AREA == 231);
    CHECK(CAD_VALUE_HAS_CALLING_SERVICE == 232 && CAD_VALUE_HAS_CALLED_SERVICE == 233 && CAD_VALUE_MNI == 234);
    CHECK(CAD_VALUE_CALLING_AREA == 237 && CAD_VALUE_CALLED_AREA == 238);
    CHECK(CAD_VALUE_CALLING_SERVICE == 239 && CAD_VALUE_CALLED_SERVICE == 240);
    CHECK(CAD_VALUE_HAS_SOURCES == 228 && CAD_VALUE_HAS_DESTINATIONS == 229 && CAD_VALUE_HAS_AREAS == 230);
    CHECK(CAD_VALUE_ACTIVATION_TYPE == 241 && CAD_VALUE_INTERCEPTION_TYPE == 242);
    CHECK(CAD_VALUE_SOURCE_RANGE == 243 && CAD_VALUE_SOURCES == 244 && CAD_VALUE_DESTINATION_RANGE == 349);
    CHECK(CAD_VALUE_DESTINATIONS == 350 && CAD_VALUE_AREA_RANGE == 455 && CAD_VALUE_AREAS == 456);
    CHECK(CAD_RANGES == 16 && CAD_POSTS == 8 && CAD_ADDRESSES == 15 && CAD_IDENTITIES == 64);
    CHECK(CAD_READ_BITS == 4096 && CAD_MESSAGE_BITS == 3119 && CAD_MESSAGE_BYTES == (3119 + 7) / 8);
    /* the areas end where the layouts end */
    CHECK(CAD_PROFILE_MEANINGS + CAD_RANGES == CAD_PROFILE_COUNT);
    CHECK(CAD_PROFILE_SHARES + CAD_POSTS * CAD_SHARE_BYTES == CAD_PROFILE_UNRECORDED && CAD_PROFILE_ELSEWHERE + 1 == CAD_PROFILE_BYTES);
    CHECK(CAD_VALUE_USERS + CAD_ADDRESSES * CAD_ADDRESS_BYTES == CAD_VALUE_MASKED);
    CHECK(CAD_VALUE_MASK + CAD_IDENTITIES / 8 == CAD_VALUE_RESULT);
    CHECK(CAD_VALUE_DISPATCHERS + CAD_ADDRESSES * CAD_ADDRESS_BYTES == CAD_VALUE_HAS_CALLED);
    CHECK(CAD_VALUE_MNI + 3 == CAD_VALUE_CALLING_AREA && CAD_VALUE_CALLED_SERVICE + 1 == CAD_VALUE_ACTIVATION_TYPE);
    CHECK(CAD_VALUE_SOURCES + CAD_ADDRESSES * CAD_ADDRESS_BYTES == CAD_VALUE_DESTINATION_RANGE);
    CHECK(CAD_VALUE_DESTINATIONS + CAD_ADDRESSES * CAD_ADDRESS_BYTES == CAD_VALUE_AREA_RANGE);
    CHECK(CAD_VALUE_AREAS + CAD_ADDRESSES == CAD_VALUE_BYTES);

    CHECK(CAD_ACTIVATE == 2 && CAD_ACTIVATE_ACK == 3 && CAD_INTERROGATE == 8 && CAD_INTERCEPTED == 10);
    CHECK(CAD_ACCEPT == 12 && CAD_ACCEPTED == 13 && CAD_DIVERT == 15 && CAD_DIVERTED == 16);
    CHECK(CAD_REQUEST == 11 && CAD_CANCEL == 14 && CAD_REJECT == 17 && CAD_REJECTED == 18);
    CHECK(CAD_DEACTIVATE == 4 && CAD_DEACTIVATE_ACK == 5 && CAD_INTERROGATE_ACK == 9);
    CHECK(CAD_MEANS_RESERVED == 0 && CAD_MEANS_NOBODY == 16 && CAD_MEANS_FIRST_LAST == 17);
    CHECK(CAD_KIND_HOME == 1 && CAD_KIND_OTHER == 2);
    CHECK(CAD_DONE == 0 && CAD_REFUSED_PROFILE == 1 && CAD_REFUSED_LENGTH == 3 && CAD_REFUSED_SHORT == 4);
    CHECK(CAD_REFUSED_SS_TYPE == 5 && CAD_REFUSED_UNKNOWN == 6 && CAD_REFUSED_NOT_CARRIED == 7 && CAD_REFUSED_RANGE == 9);
    CHECK(CAD_REFUSED_KIND == 10 && CAD_REFUSED_ENDS == 11 && CAD_REFUSED_OPTION == 12 && CAD_REFUSED_LEFT_OVER == 13);
    CHECK(CAD_REFUSED_ROOM == 14 && CAD_REFUSED_VALUE == 22 && CAD_REFUSED_EXTERNAL == 27);
}

static void words(void)
{
    static const struct {
        unsigned pdu;
        const char *name;
    } names[] = {{2, "ACTIVATE"},     {3, "ACTIVATE ACK"}, {4, "DEACTIVATE"}, {5, "DEACTIVATE ACK"}, {8, "INTERROGATE"},
                 {10, "INTERCEPTED"}, {11, "REQUEST"},     {12, "ACCEPT"},    {13, "ACCEPTED"},      {14, "CANCEL"},
                 {15, "DIVERT"},      {16, "DIVERTED"},    {17, "REJECT"},    {18, "REJECTED"},      {9, "INTERROGATE ACK"}};
    static const unsigned given[] = {0, 1, 3, 4, 5, 6, 7, 9, 10, 11, 12, 13, 14, 22, 27};
    unsigned number, named = 0, said = 0;
    size_t i;
    for (i = 0; i < sizeof names / sizeof names[0]; i++)
        CHECK(strcmp(cad_pdu_name(names[i].pdu), names[i].name) == 0);
    for (i = 0; i < sizeof given / sizeof given[0]; i++)
        CHECK(strcmp(cad_refusal_text(given[i]), "?") != 0);
    for (number = 0; number < 300; number++) {
        named += strcmp(cad_pdu_name(number), "?") != 0;
        said += strcmp(cad_refusal_text(number), "?") != 0;
    }
    CHECK(named == sizeof names / sizeof names[0]);
    CHECK(said == sizeof given / sizeof given[0]);
}

static void profiles(void)
{
    static const uint8_t sample[41] = {9, 0, 0, 0,  1, 2, 16, 1, 2, 3, 0, 0, 0, 0, 0, 0, 0, 0, 0, 0,
                                       0, 17, 2, 2, 30, 4, 8, 0, 0, 0, 0, 0, 0, 0, 0, 0, 0, 0, 0, 1, 2};
    uint8_t profile[41], other[41];
    unsigned i;
    memset(profile, 0xAA, sizeof profile);
    cad_profile_sample(profile);
    CHECK(memcmp(profile, sample, sizeof sample) == 0);

    for (i = 0; i < 41; i++)
        profile[i] = (uint8_t)(37 * i + 11);
    CHECK(cad_profile_ss_type(profile) == profile[0]);
    CHECK(cad_profile_home(profile) == 65536ul * profile[1] + 256ul * profile[2] + profile[3]);
    CHECK(cad_profile_no_record(profile) == profile[4]);
    CHECK(cad_profile_other_post(profile) == profile[5]);
    for (i = 0; i < 16; i++)
        CHECK(cad_profile_meaning(profile, i) == profile[6 + i]);
    CHECK(cad_profile_meaning(profile, 16) == 0 && cad_profile_meaning(profile, ~0u) == 0);
    CHECK(cad_profile_posts(profile) == profile[22]);
    for (i = 0; i < 8; i++) {
        CHECK(cad_profile_reserved(profile, i) == profile[23 + 2 * i]);
        CHECK(cad_profile_ceiling(profile, i) == profile[24 + 2 * i]);
    }
    CHECK(cad_profile_reserved(profile, 8) == 0 && cad_profile_ceiling(profile, 8) == 0);
    CHECK(cad_profile_unrecorded(profile) == profile[39] && cad_profile_elsewhere(profile) == profile[40]);

    memset(profile, 0xAA, sizeof profile);
    cad_profile_start(profile, 63, 0xABCDEF, 127, 126);
    memset(other, 0, sizeof other);
    other[0] = 63;
    other[1] = 0xAB;
    other[2] = 0xCD;
    other[3] = 0xEF;
    other[4] = 127;
    other[5] = 126;
    CHECK(memcmp(profile, other, sizeof other) == 0);
    for (i = 0; i < 16; i++) {
        cad_profile_set_meaning(profile, i, i + 1);
        other[6 + i] = (uint8_t)(i + 1);
        CHECK(memcmp(profile, other, sizeof other) == 0);
    }
    for (i = 0; i < 8; i++) {
        cad_profile_add_post(profile, i, 32 - i);
        other[22] = (uint8_t)(i + 1);
        other[23 + 2 * i] = (uint8_t)i;
        other[24 + 2 * i] = (uint8_t)(32 - i);
        CHECK(memcmp(profile, other, sizeof other) == 0);
    }
    cad_profile_set_unrecorded(profile, 7);
    other[39] = 7;
    CHECK(memcmp(profile, other, sizeof other) == 0);
    cad_profile_set_elsewhere(profile, 6);
    other[40] = 6;
    CHECK(memcmp(profile, other, sizeof other) == 0);
    /* a ninth post, a range that is not there and numbers that no byte holds */
    cad_profile_add_post(profile, 0, 1);
    other[22] = 9;
    CHECK(memcmp(profile, other, sizeof other) == 0);
    cad_profile_set_meaning(profile, 16, 1);
    other[0] = 0xFF;
    CHECK(memcmp(profile, other, sizeof other) == 0);
    cad_profile_start(profile, 9, 0x1000000, 1, 2);
    CHECK(profile[0] == 0xFF);
    cad_profile_start(profile, 256 + 9, 0, 256 + 1, 256 + 2);
    CHECK(profile[0] == 0xFF && profile[4] == 0xFF && profile[5] == 0xFF);
    cad_profile_set_meaning(profile, 3, 256 + 1);
    CHECK(profile[6 + 3] == 0xFF);
    cad_profile_set_unrecorded(profile, 256 + 1);
    cad_profile_set_elsewhere(profile, 256 + 2);
    CHECK(profile[39] == 0xFF && profile[40] == 0xFF);
}

static int is_address(struct cad_address address, unsigned kind, uint32_t ssi, uint32_t extension)
{
    return address.kind == kind && address.ssi == ssi && address.extension == extension;
}

static int is_identity(struct cad_identity identity, uint32_t ssi, uint32_t extension)
{
    return identity.ssi == ssi && identity.extension == extension;
}

static uint32_t three(const uint8_t *bytes)
{
    return 65536u * bytes[0] + 256u * bytes[1] + bytes[2];
}

static void accessors(void)
{
    uint8_t value[471];
    unsigned i, k;
    for (i = 0; i < 471; i++)
        value[i] = (uint8_t)(37 * i + 11);
    CHECK(cad_value_pdu(value) == value[0]);
    CHECK(cad_value_user_range(value) == value[1]);
    for (k = 0; k < 15; k++) {
        const uint8_t *user = value + 2 + 7 * k, *dispatcher = value + 123 + 7 * k;
        const uint8_t *source = value + 244 + 7 * k, *destination = value + 350 + 7 * k;
        CHECK(is_address(cad_value_user(value, k), user[0], three(user + 1), three(user + 4)));
        CHECK(is_address(cad_value_dispatcher(value, k), dispatcher[0], three(dispatcher + 1), three(dispatcher + 4)));
        CHECK(is_address(cad_value_source(value, k), source[0], three(source + 1), three(source + 4)));
        CHECK(is_address(cad_value_destination(value, k), destination[0], three(destination + 1), three(destination + 4)));
        CHECK(cad_value_area(value, k) == value[456 + k]);
    }
    CHECK(is_address(cad_value_user(value, 15), 0, 0, 0) && is_address(cad_value_dispatcher(value, 15), 0, 0, 0));
    CHECK(is_address(cad_value_user(value, ~0u), 0, 0, 0) && is_address(cad_value_dispatcher(value, ~0u), 0, 0, 0));
    CHECK(is_address(cad_value_source(value, 15), 0, 0, 0) && is_address(cad_value_destination(value, 15), 0, 0, 0));
    CHECK(is_address(cad_value_source(value, ~0u), 0, 0, 0) && is_address(cad_value_destination(value, ~0u), 0, 0, 0));
    CHECK(cad_value_area(value, 15) == 0 && cad_value_area(value, ~0u) == 0);
    CHECK(cad_value_activation_type(value) == value[241] && cad_value_interception_type(value) == value[242]);
    CHECK(cad_value_source_range(value) == value[243] && cad_value_destination_range(value) == value[349]);
    CHECK(cad_value_area_range(value) == value[455]);
    CHECK(cad_value_result(value) == value[116]);
    CHECK(cad_value_reason(value) == value[117]);
    CHECK(cad_value_cause(value) == value[118]);
    CHECK(cad_value_identifier(value) == 256u * value[119] + value[120]);
    CHECK(cad_value_dispatcher_range(value) == value[122]);
    CHECK(is_address(cad_value_calling(value), value[2], three(value + 3), three(value + 6)));
    CHECK(is_address(cad_value_called(value), value[9], three(value + 10), three(value + 13)));
    CHECK(cad_value_mni(value) == three(value + 234));
    CHECK(cad_value_calling_area(value) == value[237] && cad_value_called_area(value) == value[238]);
    CHECK(cad_value_calling_service(value) == value[239] && cad_value_called_service(value) == value[240]);
    /* one option at a time: of a REQUEST, of an INTERROGATE ACK, which has others at the same bytes, and of a message with neither */
    for (i = 0; i < 7; i++) {
        value[121] = i == 0;
        for (k = 1; k < 7; k++)
            value[227 + k] = k == i;
        for (k = 9; k <= 11; k++) {
            value[0] = (uint8_t)k;
            CHECK(cad_value_option(value) == (i == 0));
            CHECK(cad_value_has_calling(value) == (k == 11 && i == 0) && cad_value_has_called(value) == (k == 11 && i == 1));
            CHECK(cad_value_has_mni(value) == (k == 11 && i == 2));
            CHECK(cad_value_has_calling_area(value) == (k == 11 && i == 3) && cad_value_has_called_area(value) == (k == 11 && i == 4));
            CHECK(cad_value_has_calling_service(value) == (k == 11 && i == 5));
            CHECK(cad_value_has_called_service(value) == (k == 11 && i == 6));
            CHECK(cad_value_has_sources(value) == (k == 9 && i == 1) && cad_value_has_destinations(value) == (k == 9 && i == 2));
            CHECK(cad_value_has_areas(value) == (k == 9 && i == 3));
        }
    }
    /* which types are ACKs, and which have a range of users */
    for (i = 0; i < 256; i++) {
        value[0] = (uint8_t)i;
        CHECK(cad_value_is_ack(value) == (i == 3 || i == 5 || i == 9));
        CHECK(cad_value_has_user_range(value) == ((i >= 2 && i <= 5) || i == 9));
    }
    value[107] = 0;
    value[121] = 1;
    CHECK(!cad_value_masked(value) && cad_value_option(value));
    value[107] = 1;
    value[121] = 0;
    CHECK(cad_value_masked(value) && !cad_value_option(value));
    /* one mask bit at a time: the first identity is the top bit of byte 108, the ninth that of byte 109 */
    for (i = 0; i < 64; i++) {
        memset(value + 108, 0, 8);
        value[108 + i / 8] = (uint8_t)(128 >> (i % 8));
        for (k = 0; k < 64; k++)
            CHECK(cad_value_mask_bit(value, k) == (k == i));
    }
    memset(value, 0xFF, sizeof value);
    CHECK(cad_value_mask_bit(value, 63) == 1 && cad_value_mask_bit(value, 64) == 0 && cad_value_mask_bit(value, ~0u) == 0);
}

static void setters(void)
{
    uint8_t value[471], other[471];
    unsigned i, k;
    memset(value, 0xAA, sizeof value);
    memset(other, 0, sizeof other);
    cad_value_start(value, 16);
    other[0] = 16;
    CHECK(memcmp(value, other, sizeof other) == 0);

#define SETS(call, change)                                                                                                             \
    do {                                                                                                                               \
        cad_value_start(value, 3);                                                                                                     \
        memset(other, 0, sizeof other);                                                                                                \
        other[0] = 3;                                                                                                                  \
        call;                                                                                                                          \
        change;                                                                                                                        \
        CHECK(memcmp(value, other, sizeof other) == 0);                                                                                \
    } while (0)
    SETS(cad_value_set_user_range(value, 15), other[1] = 15);
    SETS(cad_value_set_masked(value), other[107] = 1);
    SETS(cad_value_set_result(value, 1), other[116] = 1);
    SETS(cad_value_set_reason(value, 127), other[117] = 127);
    SETS(cad_value_set_cause(value, 31), other[118] = 31);
    SETS(cad_value_set_identifier(value, 0x3FFE), (other[119] = 0x3F, other[120] = 0xFE));
    SETS(cad_value_set_option(value), other[121] = 1);
    SETS(cad_value_set_dispatcher_range(value, 3), (other[121] = 1, other[122] = 3));
    SETS(cad_value_set_calling(value, cad_address_home(0x000102)), (other[121] = 1, other[2] = 1, other[4] = 1, other[5] = 2));
    SETS(cad_value_set_called(value, cad_address_home(0x000304)), (other[228] = 1, other[9] = 1, other[11] = 3, other[12] = 4));
    SETS(cad_value_set_mni(value, 0xABCDEF), (other[229] = 1, other[234] = 0xAB, other[235] = 0xCD, other[236] = 0xEF));
    SETS(cad_value_set_calling_area(value, 15), (other[230] = 1, other[237] = 15));
    SETS(cad_value_set_called_area(value, 14), (other[231] = 1, other[238] = 14));
    SETS(cad_value_set_calling_service(value, 3), (other[232] = 1, other[239] = 3));
    SETS(cad_value_set_called_service(value, 2), (other[233] = 1, other[240] = 2));
    SETS(cad_value_set_activation_type(value, 1), other[241] = 1);
    SETS(cad_value_set_interception_type(value, 1), other[242] = 1);
    SETS(cad_value_set_source_range(value, 14), (other[228] = 1, other[243] = 14));
    SETS(cad_value_set_destination_range(value, 13), (other[229] = 1, other[349] = 13));
    SETS(cad_value_set_area_range(value, 12), (other[230] = 1, other[455] = 12));
    /* the services of an INTERROGATE ACK have no mark */
    SETS((value[0] = 9, cad_value_set_calling_service(value, 3)), (other[0] = 9, other[239] = 3));
    SETS((value[0] = 9, cad_value_set_called_service(value, 2)), (other[0] = 9, other[240] = 2));
    for (k = 0; k < 15; k++) {
        static const uint8_t home[7] = {1, 0xAB, 0xCD, 0xEF, 0, 0, 0}, far[7] = {2, 0x12, 0x34, 0x56, 0xFE, 0xDC, 0xBA};
        SETS(cad_value_set_user(value, k, cad_address_home(0xABCDEF)), memcpy(other + 2 + 7 * k, home, 7));
        SETS(cad_value_set_user(value, k, cad_address_other(0x123456, 0xFEDCBA)), memcpy(other + 2 + 7 * k, far, 7));
        SETS(cad_value_set_dispatcher(value, k, cad_address_home(0xABCDEF)),
             (other[121] = 1, memcpy(other + 123 + 7 * k, home, 7)));
        SETS(cad_value_set_dispatcher(value, k, cad_address_other(0x123456, 0xFEDCBA)),
             (other[121] = 1, memcpy(other + 123 + 7 * k, far, 7)));
        SETS(cad_value_set_source(value, k, cad_address_home(0xABCDEF)), (other[228] = 1, memcpy(other + 244 + 7 * k, home, 7)));
        SETS(cad_value_set_source(value, k, cad_address_other(0x123456, 0xFEDCBA)),
             (other[228] = 1, memcpy(other + 244 + 7 * k, far, 7)));
        SETS(cad_value_set_destination(value, k, cad_address_home(0xABCDEF)), (other[229] = 1, memcpy(other + 350 + 7 * k, home, 7)));
        SETS(cad_value_set_destination(value, k, cad_address_other(0x123456, 0xFEDCBA)),
             (other[229] = 1, memcpy(other + 350 + 7 * k, far, 7)));
        SETS(cad_value_set_area(value, k, 15 - k), (other[230] = 1, other[456 + k] = (uint8_t)(15 - k)));
    }
    for (i = 0; i < 64; i++) {
        SETS(cad_value_set_mask_bit(value, i, 1), (other[107] = 1, other[108 + i / 8] = (uint8_t)(128 >> (i % 8))));
        SETS((cad_value_set_mask_bit(value, i, 2), cad_value_set_mask_bit(value, i, 0)), other[107] = 1);
    }
#undef SETS

    /* nothing is cut to fit: a number too large, or an index that is not there, leaves a value that can't be written */
#define SPOILS(call, byte)                                                                                                             \
    do {                                                                                                                               \
        cad_value_start(value, 3);                                                                                                     \
        call;                                                                                                                          \
        CHECK(value[byte] == 0xFF);                                                                                                    \
    } while (0)
    SPOILS(cad_value_start(value, 256 + 13), 0);
    SPOILS(cad_value_set_user_range(value, 256 + 15), 1);
    SPOILS(cad_value_set_dispatcher_range(value, 256 + 15), 122);
    SPOILS(cad_value_set_result(value, 256 + 1), 116);
    SPOILS(cad_value_set_reason(value, 256 + 1), 117);
    SPOILS(cad_value_set_cause(value, 256 + 1), 118);
    SPOILS(cad_value_set_identifier(value, 65536 + 5), 0);
    SPOILS(cad_value_set_user(value, 0, cad_address_home(0x1000001)), 0);
    SPOILS(cad_value_set_user(value, 0, cad_address_other(1, 0x1000001)), 0);
    SPOILS(cad_value_set_user(value, 15, cad_address_home(1)), 0);
    SPOILS(cad_value_set_dispatcher(value, 0, cad_address_home(0x1000001)), 0);
    SPOILS(cad_value_set_dispatcher(value, 15, cad_address_home(1)), 0);
    SPOILS(cad_value_set_mask_bit(value, 64, 1), 0);
    SPOILS(cad_value_set_calling(value, cad_address_home(0x1000001)), 0);
    SPOILS(cad_value_set_called(value, cad_address_other(1, 0x1000001)), 0);
    SPOILS(cad_value_set_mni(value, 0x1000005), 0);
    SPOILS(cad_value_set_calling_area(value, 256 + 1), 237);
    SPOILS(cad_value_set_called_area(value, 256 + 1), 238);
    SPOILS(cad_value_set_calling_service(value, 256 + 1), 239);
    SPOILS(cad_value_set_called_service(value, 256 + 1), 240);
    SPOILS(cad_value_set_activation_type(value, 256 + 1), 241);
    SPOILS(cad_value_set_interception_type(value, 256 + 1), 242);
    SPOILS(cad_value_set_source_range(value, 256 + 15), 243);
    SPOILS(cad_value_set_source(value, 0, cad_address_home(0x1000001)), 0);
    SPOILS(cad_value_set_source(value, 15, cad_address_home(1)), 0);
    SPOILS(cad_value_set_destination_range(value, 256 + 15), 349);
    SPOILS(cad_value_set_destination(value, 0, cad_address_other(1, 0x1000001)), 0);
    SPOILS(cad_value_set_destination(value, 15, cad_address_home(1)), 0);
    SPOILS(cad_value_set_area_range(value, 256 + 15), 455);
    SPOILS(cad_value_set_area(value, 14, 256 + 1), 470);
    SPOILS(cad_value_set_area(value, 15, 1), 0);
#undef SPOILS
}

/* Starts a message of the users 1,001 to 1,004. */
static void four_users(uint8_t *value, unsigned pdu)
{
    cad_value_start(value, pdu);
    cad_value_set_user_range(value, 15);
    cad_value_set_user(value, 0, cad_address_home(1001));
    cad_value_set_user(value, 1, cad_address_home(1004));
}

/* Whom a message with a range of users names. */
static void range_of_users(unsigned pdu)
{
    uint8_t profile[41], value[471];
    unsigned i;
    home_profile(profile);

    four_users(value, pdu);
    CHECK(cad_value_users(profile, value) == 2 && cad_value_users_first_last(profile, value));
    CHECK(cad_value_identities(profile, value) == 4);
    for (i = 0; i < 4; i++)
        CHECK(is_identity(cad_value_identity(profile, value, i), 1001 + i, 0x0A0B0C));
    CHECK(is_identity(cad_value_identity(profile, value, 4), 0, 0));
    /* one identity, 64, and ranges that no reading gives */
    cad_value_set_user(value, 1, cad_address_home(1001));
    CHECK(cad_value_identities(profile, value) == 1);
    cad_value_set_user(value, 1, cad_address_home(1064));
    CHECK(cad_value_identities(profile, value) == 64 && is_identity(cad_value_identity(profile, value, 63), 1064, 0x0A0B0C));
    cad_value_set_user(value, 1, cad_address_home(1065));
    CHECK(cad_value_identities(profile, value) == 64);
    cad_value_set_user(value, 1, cad_address_home(0xFFFFFF));
    CHECK(cad_value_identities(profile, value) == 64);
    cad_value_set_user(value, 1, cad_address_home(1000));
    CHECK(cad_value_identities(profile, value) == 1);
    /* of kind 2 the extension is its own */
    cad_value_set_user(value, 0, cad_address_other(7, 5));
    cad_value_set_user(value, 1, cad_address_other(8, 5));
    CHECK(is_identity(cad_value_identity(profile, value, 1), 8, 5));

    cad_value_start(value, pdu);
    cad_value_set_user_range(value, 7);
    for (i = 0; i < 15; i++)
        cad_value_set_user(value, i, i % 2 == 0 ? cad_address_home(100 + i) : cad_address_other(100 + i, i));
    CHECK(cad_value_users(profile, value) == 15 && !cad_value_users_first_last(profile, value));
    CHECK(cad_value_identities(profile, value) == 15);
    for (i = 0; i < 15; i++)
        CHECK(is_identity(cad_value_identity(profile, value, i), 100 + i, i % 2 == 0 ? 0x0A0B0C : i));
    CHECK(cad_value_dispatchers(profile, value) == 0);
    /* nobody, reserved, and a range that is no range value */
    cad_value_set_user_range(value, 0);
    CHECK(cad_value_identities(profile, value) == 0);
    cad_value_set_user_range(value, 4);
    CHECK(cad_value_identities(profile, value) == 0);
    cad_value_set_user_range(value, 16);
    CHECK(cad_value_identities(profile, value) == 0);
}

static void identities(void)
{
    uint8_t profile[41], value[471];
    unsigned i;
    home_profile(profile);

    range_of_users(CAD_ACTIVATE);
    range_of_users(CAD_ACTIVATE_ACK);
    range_of_users(CAD_DEACTIVATE);
    range_of_users(CAD_DEACTIVATE_ACK);
    range_of_users(CAD_INTERROGATE_ACK);
    for (i = 0; i < 256; i++)
        CHECK(cad_meaning_addresses(i) == (i == 17 ? 2 : i <= 15 ? i : 0u));

    /* of these four ACTIVATE alone has dispatchers */
    for (i = CAD_ACTIVATE; i <= CAD_DEACTIVATE_ACK; i++) {
        four_users(value, i);
        cad_value_set_dispatcher_range(value, 15);
        CHECK(cad_value_dispatchers(profile, value) == (i == CAD_ACTIVATE ? 2u : 0u));
        cad_value_set_dispatcher_range(value, 0);
        CHECK(cad_value_dispatchers(profile, value) == 0);
        cad_value_set_dispatcher_range(value, 3);
        CHECK(cad_value_dispatchers(profile, value) == (i == CAD_ACTIVATE ? 3u : 0u));
    }

    /* INTERROGATE ACK alone has sources, destinations and areas, and dispatchers too */
    for (i = 0; i < 256; i++) {
        cad_value_start(value, i);
        CHECK(cad_value_sources(profile, value) == 0);
        CHECK(cad_value_destinations(profile, value) == 0 && cad_value_areas(profile, value) == 0);
        cad_value_set_source_range(value, 7);
        CHECK(cad_value_sources(profile, value) == (i == CAD_INTERROGATE_ACK ? 15u : 0u));
        CHECK(cad_value_destinations(profile, value) == 0 && cad_value_areas(profile, value) == 0);
        cad_value_set_destination_range(value, 15);
        CHECK(cad_value_destinations(profile, value) == (i == CAD_INTERROGATE_ACK ? 2u : 0u) && cad_value_areas(profile, value) == 0);
        cad_value_set_area_range(value, 3);
        CHECK(cad_value_areas(profile, value) == (i == CAD_INTERROGATE_ACK ? 3u : 0u));
    }
    cad_value_start(value, CAD_INTERROGATE_ACK);
    cad_value_set_dispatcher_range(value, 2);
    CHECK(cad_value_dispatchers(profile, value) == 2 && cad_value_sources(profile, value) == 0);
    cad_value_set_source_range(value, 0);
    cad_value_set_destination_range(value, 4);
    cad_value_set_area_range(value, 16);
    CHECK(cad_value_sources(profile, value) == 0 && cad_value_destinations(profile, value) == 0 && cad_value_areas(profile, value) == 0);

    cad_value_start(value, CAD_INTERROGATE);
    cad_value_set_user(value, 0, cad_address_home(1001));
    CHECK(cad_value_users(profile, value) == 1 && cad_value_identities(profile, value) == 1);
    CHECK(is_identity(cad_value_identity(profile, value, 0), 1001, 0x0A0B0C));
    CHECK(cad_value_dispatchers(profile, value) == 0);

    cad_value_start(value, CAD_DIVERTED);
    CHECK(cad_value_identities(profile, value) == 0 && cad_value_dispatchers(profile, value) == 0);
    cad_value_set_dispatcher(value, 0, cad_address_home(9));
    CHECK(cad_value_dispatchers(profile, value) == 1);
    cad_value_start(value, CAD_INTERCEPTED);
    cad_value_set_dispatcher(value, 0, cad_address_home(9));
    CHECK(cad_value_dispatchers(profile, value) == 1);
    cad_value_start(value, CAD_REJECTED);
    CHECK(cad_value_dispatchers(profile, value) == 0);
    cad_value_set_dispatcher(value, 0, cad_address_home(9));
    CHECK(cad_value_dispatchers(profile, value) == 1);
    cad_value_start(value, CAD_ACCEPT);
    CHECK(cad_value_users(profile, value) == 0 && cad_value_identities(profile, value) == 0);
    /* REQUEST's addresses are two parties, not a group */
    cad_value_start(value, CAD_REQUEST);
    cad_value_set_calling(value, cad_address_home(1001));
    CHECK(cad_value_users(profile, value) == 0 && cad_value_identities(profile, value) == 0 && cad_value_dispatchers(profile, value) == 0);
}

/*
 * DEACTIVATE and its ACK, written and read, and what they may not have: DEACTIVATE nothing but its users; the ACK no mask bit past its
 * identities, none without a mask, no reason with an accepted result, no option.
 */
static void deactivation(void)
{
    static const uint8_t request[9] = {0x24, 0x9E, 0x80, 0x01, 0xF4, 0xA0, 0x00, 0x7D, 0x80};
    static const uint8_t third[10] = {0x24, 0xBE, 0x80, 0x01, 0xF4, 0xA0, 0x00, 0x7D, 0x92, 0x01};
    static const uint8_t all[9] = {0x24, 0xBE, 0x80, 0x01, 0xF4, 0xA0, 0x00, 0x7D, 0x88};
    uint8_t profile[41], value[471], read[471], message[CAD_MESSAGE_BYTES];
    size_t bits = 77;
    unsigned k;
    cad_profile_sample(profile);

    four_users(value, CAD_DEACTIVATE);
    round_trip(profile, value, 67, request);
    CHECK(cad_read(profile, sizeof profile, request, sizeof request, 66, read, sizeof read) == CAD_REFUSED_SHORT);
    CHECK(cad_read(profile, sizeof profile, request, sizeof request, 68, read, sizeof read) == CAD_REFUSED_LEFT_OVER);
    for (k = 16; k < 471; k++) {
        value[k] = 1;
        CHECK(cad_write(profile, sizeof profile, value, sizeof value, message, sizeof message, &bits) == CAD_REFUSED_VALUE);
        value[k] = 0;
    }

    four_users(value, CAD_DEACTIVATE_ACK);
    cad_value_set_result(value, 1);
    round_trip(profile, value, 69, all);
    cad_value_set_reason(value, 1);
    CHECK(cad_write(profile, sizeof profile, value, sizeof value, message, sizeof message, &bits) == CAD_REFUSED_VALUE);

    four_users(value, CAD_DEACTIVATE_ACK);
    cad_value_set_mask_bit(value, 2, 1);
    cad_value_set_reason(value, 1);
    round_trip(profile, value, 80, third);
    CHECK(cad_read(profile, sizeof profile, third, sizeof third, 80, read, sizeof read) == CAD_DONE);
    CHECK(cad_value_is_ack(read) && cad_value_masked(read) && cad_value_result(read) == 0 && cad_value_reason(read) == 1);
    for (k = 0; k < 5; k++)
        CHECK(cad_value_mask_bit(read, k) == (k == 2));
    cad_value_set_mask_bit(value, 4, 1);
    CHECK(cad_write(profile, sizeof profile, value, sizeof value, message, sizeof message, &bits) == CAD_REFUSED_VALUE);
    cad_value_set_mask_bit(value, 4, 0);
    value[107] = 0;
    CHECK(cad_write(profile, sizeof profile, value, sizeof value, message, sizeof message, &bits) == CAD_REFUSED_VALUE);
    value[107] = 1;
    cad_value_set_option(value);
    CHECK(cad_write(profile, sizeof profile, value, sizeof value, message, sizeof message, &bits) == CAD_REFUSED_VALUE);

    /* the longest of each: fifteen users of kind 2; of the ACK with a mask and a reason */
    home_profile(profile);
    cad_value_start(value, CAD_DEACTIVATE);
    cad_value_set_user_range(value, 7);
    for (k = 0; k < 15; k++)
        cad_value_set_user(value, k, cad_address_other(k, 0xFFFFFF - k));
    round_trip(profile, value, 765, NULL);
    value[CAD_VALUE_PDU] = CAD_DEACTIVATE_ACK;
    cad_value_set_mask_bit(value, 14, 1);
    cad_value_set_reason(value, 127);
    round_trip(profile, value, 789, NULL);
}

/*
 * INTERROGATE ACK, written and read, and what it may not have: with one result what belongs to the other, a reason over 3 bits, a type over
 * 1, anything in a group that is absent or says "none", areas that fall, a destination that is an external number.
 */
static void interrogation(void)
{
    static const uint8_t active[7] = {0x25, 0x22, 0x80, 0x01, 0xF4, 0xB0, 0x00};
    static const uint8_t unrecorded[6] = {0x25, 0x22, 0x80, 0x01, 0xF4, 0x84};
    static const uint8_t areas[8] = {0x25, 0x22, 0x80, 0x01, 0xF4, 0x86, 0x3E, 0x6A};
    static const uint8_t falling[8] = {0x25, 0x22, 0x80, 0x01, 0xF4, 0x86, 0x3E, 0xA6};
    static const uint8_t external[7] = {0x25, 0x22, 0x80, 0x01, 0xF4, 0x86, 0x47};
    static const uint8_t all[30] = {0x25, 0x22, 0x80, 0x01, 0xF4, 0xB1, 0xE2, 0x80, 0x01, 0xF6, 0x4A, 0x00, 0x03, 0xE9, 0x00,
                                    0x00, 0x05, 0x40, 0x00, 0xFB, 0x3E, 0x80, 0x01, 0xF4, 0xA0, 0x00, 0x7D, 0x93, 0x1F, 0x00};
    static const unsigned flags[4] = {121, 228, 229, 230}, ranges[4] = {122, 243, 349, 455}, beyond[4] = {130, 258, 364, 459};
    uint8_t profile[41], value[471], read[471], message[CAD_MESSAGE_BYTES];
    size_t bits = 77;
    unsigned k;
    cad_profile_sample(profile);
#define REFUSES_VALUE(given) \
    CHECK(cad_write(profile, sizeof profile, given, sizeof given, message, sizeof message, &bits) == CAD_REFUSED_VALUE)

    /* accepted: activated, the types and services, and nothing else; a reason is the other result's */
    cad_value_start(value, CAD_INTERROGATE_ACK);
    cad_value_set_user_range(value, 1);
    cad_value_set_user(value, 0, cad_address_home(1001));
    cad_value_set_result(value, 1);
    cad_value_set_activation_type(value, 1);
    round_trip(profile, value, 50, active);
    memcpy(read, value, sizeof read);
    cad_value_set_reason(read, 1);
    REFUSES_VALUE(read);
    for (k = 239; k <= 242; k++) {
        memcpy(read, value, sizeof read);
        read[k] = k < 241 ? 4 : 2;
        REFUSES_VALUE(read);
    }
    for (k = 231; k <= 238; k++) {
        memcpy(read, value, sizeof read);
        read[k] = 1;
        REFUSES_VALUE(read);
    }

    /* with all four groups */
    cad_value_set_calling_service(value, 3);
    cad_value_set_dispatcher_range(value, 1);
    cad_value_set_dispatcher(value, 0, cad_address_home(1004));
    cad_value_set_source_range(value, 2);
    cad_value_set_source(value, 0, cad_address_other(1001, 5));
    cad_value_set_source(value, 1, cad_address_home(1004));
    cad_value_set_destination_range(value, 15);
    cad_value_set_destination(value, 0, cad_address_home(1001));
    cad_value_set_destination(value, 1, cad_address_home(1004));
    cad_value_set_area_range(value, 3);
    cad_value_set_area(value, 0, 1);
    cad_value_set_area(value, 1, 15);
    round_trip(profile, value, 236, all);
    CHECK(cad_read(profile, sizeof profile, all, sizeof all, 236, read, sizeof read) == CAD_DONE);
    CHECK(cad_value_is_ack(read) && !cad_value_masked(read) && cad_value_result(read) == 1 && cad_value_activation_type(read) == 1);
    CHECK(cad_value_interception_type(read) == 0 && cad_value_called_service(read) == 0 && cad_value_calling_service(read) == 3);
    CHECK(cad_value_option(read) && cad_value_has_sources(read) && cad_value_has_destinations(read) && cad_value_has_areas(read));
    CHECK(cad_value_dispatchers(profile, read) == 1 && is_address(cad_value_dispatcher(read, 0), 1, 1004, 0));
    CHECK(cad_value_sources(profile, read) == 2 && is_address(cad_value_source(read, 0), 2, 1001, 5));
    CHECK(is_address(cad_value_source(read, 1), 1, 1004, 0) && is_address(cad_value_source(read, 2), 0, 0, 0));
    CHECK(cad_value_destinations(profile, read) == 2 && is_address(cad_value_destination(read, 0), 1, 1001, 0));
    CHECK(is_address(cad_value_destination(read, 1), 1, 1004, 0));
    CHECK(cad_value_areas(profile, read) == 3);
    CHECK(cad_value_area(read, 0) == 1 && cad_value_area(read, 1) == 15 && cad_value_area(read, 2) == 0);
    for (k = 0; k < 4; k++) {
        /* a mark over 1, one that is not there, a reserved range, a place beyond the count, and "none" with what follows left there */
        memcpy(read, value, sizeof read);
        read[flags[k]] = 2;
        REFUSES_VALUE(read);
        read[flags[k]] = 0;
        REFUSES_VALUE(read);
        memcpy(read, value, sizeof read);
        read[ranges[k]] = 4;
        REFUSES_VALUE(read);
        memcpy(read, value, sizeof read);
        read[beyond[k]] = 1;
        REFUSES_VALUE(read);
        memcpy(read, value, sizeof read);
        read[ranges[k]] = 0;
        REFUSES_VALUE(read);
    }
    memcpy(read, value, sizeof read);
    read[456] = 16;
    REFUSES_VALUE(read);
    memcpy(read, value, sizeof read);
    read[350] = 3;
    REFUSES_VALUE(read);

    /* not accepted: a reason of 3 bits, and none of the other result's; groups are read and written all the same */
    cad_value_start(value, CAD_INTERROGATE_ACK);
    cad_value_set_user_range(value, 1);
    cad_value_set_user(value, 0, cad_address_home(1001));
    cad_value_set_reason(value, cad_profile_unrecorded(profile));
    round_trip(profile, value, 47, unrecorded);
    for (k = 239; k <= 242; k++) {
        memcpy(read, value, sizeof read);
        read[k] = 1;
        REFUSES_VALUE(read);
    }
    cad_value_set_area_range(value, 15);
    cad_value_set_area(value, 0, 3);
    cad_value_set_area(value, 1, 5);
    round_trip(profile, value, 63, areas);
    cad_value_set_area(value, 1, 2);
    REFUSES_VALUE(value);
    cad_value_set_area(value, 1, 5);
    cad_value_set_reason(value, 8);
    REFUSES_VALUE(value);
    memset(read, 0x55, sizeof read);
    CHECK(cad_read(profile, sizeof profile, falling, sizeof falling, 63, read, sizeof read) == CAD_REFUSED_ENDS);
    CHECK(cad_read(profile, sizeof profile, external, sizeof external, 56, read, sizeof read) == CAD_REFUSED_EXTERNAL);
    for (k = 0; k < 471; k++)
        CHECK(read[k] == 0x55);

    /* a profile whose reasons do not fit */
    for (k = 39; k <= 40; k++) {
        cad_profile_sample(profile);
        profile[k] = 7;
        CHECK(cad_read(profile, sizeof profile, active, sizeof active, 50, read, sizeof read) == CAD_DONE);
        profile[k] = 8;
        CHECK(cad_read(profile, sizeof profile, active, sizeof active, 50, read, sizeof read) == CAD_REFUSED_PROFILE);
    }
#undef REFUSES_VALUE
}

/* The three functions themselves, where the header's words meet them; the differential test is elsewhere. */
static void functions(void)
{
    static const uint8_t case_8[9] = {0x24, 0x5E, 0x80, 0x01, 0xF4, 0xA0, 0x00, 0x7D, 0x80};
    static const uint8_t request[19] = {0x25, 0x60, 0x02, 0x8B, 0x40, 0x00, 0xFA, 0x70, 0x00, 0x1F,
                                        0x60, 0x00, 0x00, 0x2C, 0x00, 0x00, 0x16, 0x32, 0xB8};
    uint8_t profile[41], value[471], read[471], message[CAD_MESSAGE_BYTES];
    size_t bits = 77;
    unsigned k;
    cad_profile_sample(profile);
    four_users(value, CAD_ACTIVATE);
    round_trip(profile, value, 68, case_8);

    /* a REQUEST with all its options, and what each of them may not be: over 1, over its width, given and absent */
    cad_value_start(value, CAD_REQUEST);
    cad_value_set_identifier(value, 5);
    cad_value_set_cause(value, 2);
    cad_value_set_calling(value, cad_address_home(1001));
    cad_value_set_called(value, cad_address_other(1004, 5));
    cad_value_set_mni(value, 5);
    cad_value_set_calling_area(value, 1);
    cad_value_set_called_area(value, 2);
    cad_value_set_calling_service(value, 1);
    cad_value_set_called_service(value, 2);
    round_trip(profile, value, 150, request);
    CHECK(cad_read(profile, sizeof profile, request, sizeof request, 150, read, sizeof read) == CAD_DONE);
    CHECK(cad_write(profile, sizeof profile, value, sizeof value - 1, message, sizeof message, &bits) == CAD_REFUSED_VALUE);
    CHECK(cad_read(profile, sizeof profile, request, sizeof request, 150, read, sizeof read - 1) == CAD_REFUSED_ROOM);
    for (k = 0; k < 7; k++) {
        static const unsigned flags[7] = {121, 228, 229, 230, 231, 232, 233};
        read[flags[k]] = 2;
        CHECK(cad_write(profile, sizeof profile, read, sizeof read, message, sizeof message, &bits) == CAD_REFUSED_VALUE);
        read[flags[k]] = 0;
        CHECK(cad_write(profile, sizeof profile, read, sizeof read, message, sizeof message, &bits) == CAD_REFUSED_VALUE);
        read[flags[k]] = 1;
    }
    for (k = 237; k < 241; k++) {
        uint8_t was = read[k];
        read[k] = k < 239 ? 16 : 4;
        CHECK(cad_write(profile, sizeof profile, read, sizeof read, message, sizeof message, &bits) == CAD_REFUSED_VALUE);
        read[k] = was;
    }
    CHECK(cad_write(profile, sizeof profile, read, sizeof read, message, sizeof message, &bits) == CAD_DONE);
    four_users(value, CAD_ACTIVATE);

    /* no bytes at all: NULL with the length 0 */
    bits = 77;
    CHECK(cad_read(NULL, 0, case_8, sizeof case_8, 68, read, sizeof read) == CAD_REFUSED_PROFILE);
    CHECK(cad_read(profile, sizeof profile, NULL, 0, 68, read, sizeof read) == CAD_REFUSED_LENGTH);
    CHECK(cad_read(profile, sizeof profile, case_8, sizeof case_8, 68, NULL, 0) == CAD_REFUSED_ROOM);
    CHECK(cad_write(NULL, 0, value, sizeof value, message, sizeof message, &bits) == CAD_REFUSED_PROFILE);
    CHECK(cad_write(profile, sizeof profile, NULL, 0, message, sizeof message, &bits) == CAD_REFUSED_VALUE);
    CHECK(cad_write(profile, sizeof profile, value, sizeof value, NULL, 0, &bits) == CAD_REFUSED_ROOM);
    CHECK(bits == 77);

    /* what the setters spoil is refused */
    cad_value_set_user(value, 2, cad_address_home(0x1000000));
    CHECK(cad_write(profile, sizeof profile, value, sizeof value, message, sizeof message, &bits) == CAD_REFUSED_VALUE);
    cad_profile_start(profile, 9, 0x1000000, 1, 2);
    cad_profile_add_post(profile, 2, 30);
    CHECK(cad_read(profile, sizeof profile, case_8, sizeof case_8, 68, read, sizeof read) == CAD_REFUSED_PROFILE);
    cad_profile_sample(profile);
    for (k = 2; k < 9; k++)
        cad_profile_add_post(profile, 0, 1);
    CHECK(cad_read(profile, sizeof profile, case_8, sizeof case_8, 68, read, sizeof read) == CAD_REFUSED_PROFILE);

    /* the longest ACTIVATE: fifteen users and fifteen dispatchers of kind 2 */
    home_profile(profile);
    cad_value_start(value, CAD_ACTIVATE);
    cad_value_set_user_range(value, 7);
    cad_value_set_dispatcher_range(value, 7);
    for (k = 0; k < 15; k++) {
        cad_value_set_user(value, k, cad_address_other(k, k));
        cad_value_set_dispatcher(value, k, cad_address_other(k, 0xFFFFFF - k));
    }
    round_trip(profile, value, 1521, NULL);

    /* the longest message: an INTERROGATE ACK with a mask, accepted, and fifteen of each group beside them */
    value[CAD_VALUE_PDU] = CAD_INTERROGATE_ACK;
    cad_value_set_mask_bit(value, 14, 1);
    cad_value_set_result(value, 1);
    cad_value_set_interception_type(value, 1);
    cad_value_set_called_service(value, 3);
    cad_value_set_source_range(value, 7);
    cad_value_set_destination_range(value, 7);
    cad_value_set_area_range(value, 7);
    for (k = 0; k < 15; k++) {
        cad_value_set_source(value, k, cad_address_other(0xFFFFFF - k, k));
        cad_value_set_destination(value, k, cad_address_other(0xFFFFFF, k));
        cad_value_set_area(value, k, 15 - k);
    }
    round_trip(profile, value, CAD_MESSAGE_BITS, NULL);
    CHECK(cad_write(profile, sizeof profile, value, sizeof value, message, sizeof message - 1, &bits) == CAD_REFUSED_ROOM);

    cad_value_start(read, 0);
    CHECK(memcmp(read, zeros, sizeof zeros) == 0);
}

/* The element that did not fit, by number and name, as document 02 has them in order; and where it begins. */
static void broken_off(void)
{
    static const char *const names[] = {"?", "ss-type", "pdu-type", "range", "kind", "ssi", "extension", "mask-present", "mask", "result",
                                        "reason", "cause", "identifier", "o-bit", "p-bit", "mni", "area", "basic-service",
                                        "activation-type", "interception-type", "type-of-restriction", "?"};
    static const uint8_t accept[4] = {0x25, 0x80, 0x02, 0x80};
    static const uint8_t masked[10] = {0x24, 0xBE, 0x80, 0x01, 0xF4, 0xA0, 0x00, 0x7D, 0x92, 0x01};
    static const uint8_t answered[7] = {0x25, 0x22, 0x80, 0x01, 0xF4, 0xB0, 0x00};
    static const uint8_t failed[6] = {0x25, 0x22, 0x80, 0x01, 0xF4, 0x84};
    uint8_t profile[41], read[471];
    uint32_t position, element, k;
    size_t bits;
    cad_profile_sample(profile);
    CHECK(CAD_ELEMENT_SS_TYPE == 1 && CAD_ELEMENT_EXTENSION == 6 && CAD_ELEMENT_MASK == 8 && CAD_ELEMENT_IDENTIFIER == 12);
    CHECK(CAD_ELEMENT_P_BIT == 14 && CAD_ELEMENT_BASIC_SERVICE == 17 && CAD_ELEMENT_ACTIVATION_TYPE == 18);
    CHECK(CAD_ELEMENT_INTERCEPTION_TYPE == 19 && CAD_ELEMENT_TYPE_OF_RESTRICTION == 20);
    for (k = 0; k < sizeof names / sizeof names[0]; k++)
        CHECK(strcmp(cad_element_name(k), names[k]) == 0);
    CHECK(strcmp(cad_element_name(0xFFFFFFFFu), "?") == 0);

    /* an ACCEPT, cut at each of its bits: SS type from 0, PDU type from 6, identifier from 11 */
    for (bits = 1; bits < 25; bits++) {
        position = element = 77;
        CHECK(cad_read_at(profile, 41, accept, sizeof accept, bits, read, sizeof read, &position, &element) == CAD_REFUSED_SHORT);
        CHECK(position == (bits < 6 ? 0u : bits < 11 ? 6u : 11u));
        CHECK(element == (bits < 6 ? CAD_ELEMENT_SS_TYPE : bits < 11 ? CAD_ELEMENT_PDU_TYPE : CAD_ELEMENT_IDENTIFIER));
    }

    /* a DEACTIVATE ACK, cut behind its users: mask present at 67, four mask bits from 68, result at 72, reason from 73 */
    for (bits = 67; bits < 80; bits++) {
        position = element = 77;
        CHECK(cad_read_at(profile, 41, masked, sizeof masked, bits, read, sizeof read, &position, &element) == CAD_REFUSED_SHORT);
        CHECK(position == (bits < 68 ? 67u : bits < 72 ? 68u : bits < 73 ? 72u : 73u));
        CHECK(element == (bits < 68   ? CAD_ELEMENT_MASK_PRESENT
                          : bits < 72 ? CAD_ELEMENT_MASK
                          : bits < 73 ? CAD_ELEMENT_RESULT
                                      : CAD_ELEMENT_REASON));
    }

    /* an INTERROGATE ACK, cut behind its user: mask present at 41, result, activation type, interception type, two services, O-bit at 49 */
    for (bits = 41; bits < 50; bits++) {
        static const uint32_t begins[9] = {41, 42, 43, 44, 45, 45, 47, 47, 49};
        static const uint32_t broken[9] = {7, 9, 18, 19, 17, 17, 17, 17, 13};
        position = element = 77;
        CHECK(cad_read_at(profile, 41, answered, sizeof answered, bits, read, sizeof read, &position, &element) == CAD_REFUSED_SHORT);
        CHECK(position == begins[bits - 41] && element == broken[bits - 41]);
    }
    /* not accepted: a reason of 3 bits from 43, O-bit at 46 */
    for (bits = 43; bits < 47; bits++) {
        position = element = 77;
        CHECK(cad_read_at(profile, 41, failed, sizeof failed, bits, read, sizeof read, &position, &element) == CAD_REFUSED_SHORT);
        CHECK(position == (bits < 46 ? 43u : 46u) && element == (bits < 46 ? CAD_ELEMENT_REASON : CAD_ELEMENT_O_BIT));
    }

    /* whole, left over, no bits, an area too short, no profile: both numbers stay */
    position = 7;
    element = 9;
    CHECK(cad_read_at(profile, 41, accept, sizeof accept, 25, read, sizeof read, &position, &element) == CAD_DONE);
    CHECK(cad_read_at(profile, 41, accept, sizeof accept, 26, read, sizeof read, &position, &element) == CAD_REFUSED_LEFT_OVER);
    CHECK(cad_read_at(profile, 41, accept, sizeof accept, 0, read, sizeof read, &position, &element) == CAD_REFUSED_LENGTH);
    CHECK(cad_read_at(profile, 41, accept, sizeof accept, 25, read, sizeof read - 1, &position, &element) == CAD_REFUSED_ROOM);
    CHECK(cad_read_at(NULL, 0, accept, sizeof accept, 24, read, sizeof read, &position, &element) == CAD_REFUSED_PROFILE);
    CHECK(position == 7 && element == 9);
}

int main(void)
{
    constants();
    words();
    profiles();
    accessors();
    setters();
    identities();
    deactivation();
    interrogation();
    broken_off();
    functions();
    printf("%lu checks of the header, %lu failed\n", checks, failures);
    return failures == 0 ? 0 : 1;
}
