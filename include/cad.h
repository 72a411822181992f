/**
 * @file cad.h
 * @brief SS-CAD messages of ETS 300 392-12-6, read and written, for C99 and C++.
 *
 * Three functions, cad_read(), cad_read_at(), which also says where a message broke off, and cad_write(), and names for the bytes that
 * they take and give: a constant for every offset and small inline functions, so that no program counts bytes or mask bits by itself.
 * docs/LAYOUTS.md has both layouts with worked examples, docs/REFUSALS.md the numbers, examples/console.c a program.
 *
 * The three are proved, for every content of every buffer and every length: they end, answer 0 or one number of cad_refusal, look at no
 * bit past the message's length, and write nothing but what is said here; on a refusal, nothing at all but cad_read_at()'s two numbers
 * with a 4. They allocate nothing and keep nothing between calls, so they may be called from several threads at once and from a signal
 * handler.
 *
 * What no proof can cover is the caller's duty:
 *  - a pointer leads to at least as many bytes as the length after it says; it may be NULL where that length is 0, and nowhere else;
 *  - what is lent to be written (the value of a reading, cad_read_at()'s two numbers, cad_write()'s message and bits) overlaps nothing
 *    else that is lent;
 *  - nothing that is lent changes during the call.
 *
 * The inline functions below the three are plain C, tested and not proved. They ask for whole buffers (a profile of
 * #CAD_PROFILE_BYTES, a value of #CAD_VALUE_BYTES) and nothing else: an index that is not there reads as zero, and a number that its
 * bytes can't hold, or an index that is not there, is never cut to fit but makes a profile that is refused with 1, or a value that is
 * refused with 22.
 */
#ifndef CAD_H
#define CAD_H

#include <stddef.h>
#include <stdint.h>

#ifdef __cplusplus
extern "C" {
#endif

/** The version of this interface; later ones append to both layouts and move nothing. */
#define CAD_VERSION "1.4.0"

/** @name Limits
 * @{ */
#define CAD_RANGES 16            /**< range values, 0 to 15, each with a meaning */
#define CAD_POSTS 8              /**< the most posts of a profile */
#define CAD_ADDRESSES 15         /**< the most addresses of a group, and the most areas */
#define CAD_IDENTITIES 64        /**< the most identities of a group, so the most mask bits */
#define CAD_READ_BITS 4096       /**< the most bits that cad_read() takes; more are refused with 3 */
#define CAD_MESSAGE_BITS 3119    /**< the most bits that a message has: INTERROGATE ACK with fifteen users and fifteen of each group */
#define CAD_MESSAGE_BYTES 390    /**< an area of so many bytes has room for every message */
/** @} */

/** @name The profile's bytes
 * Numbers of several bytes are big-endian.
 * @{ */
#define CAD_PROFILE_BYTES 41     /**< a profile has so many bytes, neither more nor fewer */
#define CAD_PROFILE_SS_TYPE 0    /**< SS type, 0 to 63 */
#define CAD_PROFILE_HOME 1       /**< home extension, 3 bytes */
#define CAD_PROFILE_U 4          /**< U, the failure reason for an identity with no record, 0 to 127 */
#define CAD_PROFILE_N 5          /**< N, the failure reason for another post's user, 0 to 127 */
#define CAD_PROFILE_MEANINGS 6   /**< sixteen meanings, 1 byte each, see cad_meaning */
#define CAD_PROFILE_COUNT 22     /**< how many posts there are, 1 to 8 */
#define CAD_PROFILE_SHARES 23    /**< eight shares of #CAD_SHARE_BYTES; zero where there is no post */
#define CAD_SHARE_BYTES 2        /**< a share: the reserved number, then the ceiling */
#define CAD_PROFILE_UNRECORDED 39 /**< INTERROGATE ACK's failure reason for an identity with no record, 0 to 7 */
#define CAD_PROFILE_ELSEWHERE 40 /**< INTERROGATE ACK's failure reason for another post's user, 0 to 7 */
/** @} */

/** @name The value's bytes
 * One layout for all messages; what a message doesn't carry is zero. Numbers of several bytes are big-endian.
 * @{ */
#define CAD_VALUE_BYTES 471           /**< a value has so many bytes */
#define CAD_VALUE_PDU 0               /**< PDU type, see cad_pdu */
#define CAD_VALUE_USER_RANGE 1        /**< range value of the users, 0 to 15 */
#define CAD_VALUE_USERS 2             /**< fifteen user addresses of #CAD_ADDRESS_BYTES */
#define CAD_VALUE_MASKED 107          /**< whether there is a mask, 0 or 1 */
#define CAD_VALUE_MASK 108            /**< the mask, 8 bytes: identity i is bit 7 - i % 8 of byte i / 8 */
#define CAD_VALUE_RESULT 116          /**< result: 1 accepted, 0 not accepted */
#define CAD_VALUE_REASON 117          /**< reason where the result is 0: 0 to 127, of an INTERROGATE ACK 0 to 7 */
#define CAD_VALUE_CAUSE 118           /**< cause, 0 to 31 */
#define CAD_VALUE_IDENTIFIER 119      /**< call identifier, 2 bytes, 0 to 16,383 */
#define CAD_VALUE_OPTION 121          /**< whether the option is there, 0 or 1; of a REQUEST the calling address */
#define CAD_VALUE_DISPATCHER_RANGE 122 /**< range value of the dispatchers, 0 to 15 */
#define CAD_VALUE_DISPATCHERS 123     /**< fifteen dispatcher addresses of #CAD_ADDRESS_BYTES */
#define CAD_VALUE_HAS_CALLED 228      /**< of a REQUEST, whether the called address is there, 0 or 1; so with the next five */
#define CAD_VALUE_HAS_MNI 229         /**< the network */
#define CAD_VALUE_HAS_CALLING_AREA 230 /**< the area of the calling */
#define CAD_VALUE_HAS_CALLED_AREA 231 /**< the area of the called */
#define CAD_VALUE_HAS_CALLING_SERVICE 232 /**< the basic service of the calling */
#define CAD_VALUE_HAS_CALLED_SERVICE 233 /**< the basic service of the called */
#define CAD_VALUE_HAS_SOURCES 228     /**< of an INTERROGATE ACK, whether the sources are there, 0 or 1; so with the next two */
#define CAD_VALUE_HAS_DESTINATIONS 229 /**< the destinations */
#define CAD_VALUE_HAS_AREAS 230       /**< the areas */
#define CAD_VALUE_MNI 234             /**< the network (MNI), 3 bytes */
#define CAD_VALUE_CALLING_AREA 237    /**< area of the calling, 0 to 15 */
#define CAD_VALUE_CALLED_AREA 238     /**< area of the called, 0 to 15 */
#define CAD_VALUE_CALLING_SERVICE 239 /**< basic service of the calling, 0 to 3 */
#define CAD_VALUE_CALLED_SERVICE 240  /**< basic service of the called, 0 to 3 */
#define CAD_VALUE_ACTIVATION_TYPE 241 /**< activation type: 1 activated, 0 not */
#define CAD_VALUE_INTERCEPTION_TYPE 242 /**< interception type: 0 immediate set-up, 1 set-up at the dispatcher's request */
#define CAD_VALUE_SOURCE_RANGE 243    /**< range value of the sources, 0 to 15 */
#define CAD_VALUE_SOURCES 244         /**< fifteen source addresses of #CAD_ADDRESS_BYTES */
#define CAD_VALUE_DESTINATION_RANGE 349 /**< range value of the destinations, 0 to 15 */
#define CAD_VALUE_DESTINATIONS 350    /**< fifteen destination addresses of #CAD_ADDRESS_BYTES */
#define CAD_VALUE_AREA_RANGE 455      /**< range value of the areas, 0 to 15 */
#define CAD_VALUE_AREAS 456           /**< fifteen areas of a byte, 0 to 15 */
#define CAD_ADDRESS_BYTES 7           /**< an address: kind, SSI in 3 bytes, extension in 3 bytes */
#define CAD_ADDRESS_SSI 1             /**< the SSI within an address */
#define CAD_ADDRESS_EXTENSION 4       /**< the extension within an address */
/** @} */

/** The PDU types that are carried. */
enum cad_pdu {
    CAD_ACTIVATE = 2,       /**< users, option: dispatchers */
    CAD_ACTIVATE_ACK = 3,   /**< users, mask, result, reason */
    CAD_DEACTIVATE = 4,     /**< users */
    CAD_DEACTIVATE_ACK = 5, /**< users, mask, result, reason */
    CAD_INTERROGATE = 8,    /**< user address 0 */
    CAD_INTERROGATE_ACK = 9, /**< users, mask, result; reason, or activation type, interception type and basic services; options:
                                  dispatchers, sources, destinations, areas */
    CAD_INTERCEPTED = 10,   /**< cause, option: dispatcher address 0 */
    CAD_REQUEST = 11,       /**< call identifier, cause, options: calling (user address 0), called (1), MNI, areas, basic services */
    CAD_ACCEPT = 12,        /**< call identifier */
    CAD_ACCEPTED = 13,      /**< nothing more */
    CAD_CANCEL = 14,        /**< call identifier */
    CAD_DIVERT = 15,        /**< call identifier */
    CAD_DIVERTED = 16,      /**< cause, option: dispatcher address 0 */
    CAD_REJECT = 17,        /**< call identifier, cause */
    CAD_REJECTED = 18       /**< cause, option: dispatcher address 0 */
};

/** What the three functions answer. Where several grounds hold, docs/REFUSALS.md says which number comes; its other numbers are the
 * desk's, and never come from C. */
enum cad_refusal {
    CAD_DONE = 0,                 /**< read, or written */
    CAD_REFUSED_PROFILE = 1,      /**< the profile breaks a rule, or has not #CAD_PROFILE_BYTES bytes */
    CAD_REFUSED_LENGTH = 3,       /**< reading: bit length 0, over #CAD_READ_BITS, or more than 8 times the bytes lent */
    CAD_REFUSED_SHORT = 4,        /**< reading: an element reaches past the bit length; cad_read_at() says which, and where it begins */
    CAD_REFUSED_SS_TYPE = 5,      /**< reading: the SS type is not the profile's */
    CAD_REFUSED_UNKNOWN = 6,      /**< reading: PDU type 0, 1 or 19 to 31 */
    CAD_REFUSED_NOT_CARRIED = 7,  /**< reading: a PDU type that is known and not carried */
    CAD_REFUSED_RANGE = 9,        /**< reading: a range that is reserved, or means "none" for users */
    CAD_REFUSED_KIND = 10,        /**< reading: an address of kind 0, or of kind 3 if it is no destination */
    CAD_REFUSED_ENDS = 11,        /**< reading: range ends that differ in kind or extension, fall, or span over 64; areas that fall */
    CAD_REFUSED_OPTION = 12,      /**< reading: O-bit 1 and no P-bit 1 */
    CAD_REFUSED_LEFT_OVER = 13,   /**< reading: bits are left over */
    CAD_REFUSED_ROOM = 14,        /**< the area lent is shorter than the value (reading) or the message (writing) */
    CAD_REFUSED_VALUE = 22,       /**< writing: the value is not a valid one, or has not #CAD_VALUE_BYTES bytes */
    CAD_REFUSED_EXTERNAL = 27     /**< reading: a destination of kind 3, an external number; it comes in 10's place */
};

/** The elements of a message, as cad_read_at() names the one that did not fit. No element has the number 0. */
enum cad_element {
    CAD_ELEMENT_SS_TYPE = 1,             /**< SS type, 6 bits */
    CAD_ELEMENT_PDU_TYPE = 2,            /**< PDU type, 5 bits */
    CAD_ELEMENT_RANGE = 3,               /**< range of users or of another group, 4 bits */
    CAD_ELEMENT_KIND = 4,                /**< kind of an address, 2 bits */
    CAD_ELEMENT_SSI = 5,                 /**< SSI of an address, 24 bits */
    CAD_ELEMENT_EXTENSION = 6,           /**< extension of an address of kind 2, 24 bits */
    CAD_ELEMENT_MASK_PRESENT = 7,        /**< whether an ACK has a mask, 1 bit */
    CAD_ELEMENT_MASK = 8,                /**< the mask, one bit for each identity; it is one element */
    CAD_ELEMENT_RESULT = 9,              /**< result of an ACK, 1 bit */
    CAD_ELEMENT_REASON = 10,             /**< failure reason, 7 bits, of an INTERROGATE ACK 3 */
    CAD_ELEMENT_CAUSE = 11,              /**< interception cause, 5 bits */
    CAD_ELEMENT_IDENTIFIER = 12,         /**< call identifier, 14 bits */
    CAD_ELEMENT_O_BIT = 13,              /**< whether there are options, 1 bit */
    CAD_ELEMENT_P_BIT = 14,              /**< whether an option is there, 1 bit */
    CAD_ELEMENT_MNI = 15,                /**< network (MNI), 24 bits */
    CAD_ELEMENT_AREA = 16,               /**< area, 4 bits */
    CAD_ELEMENT_BASIC_SERVICE = 17,      /**< basic service, 2 bits */
    CAD_ELEMENT_ACTIVATION_TYPE = 18,    /**< activation type, 1 bit */
    CAD_ELEMENT_INTERCEPTION_TYPE = 19,  /**< interception type, 1 bit */
    CAD_ELEMENT_TYPE_OF_RESTRICTION = 20 /**< comes with a message that is not carried yet */
};

/** What a range value means, one byte of the profile. 1 to 15 mean a list of so many addresses. */
enum cad_meaning {
    CAD_MEANS_RESERVED = 0,   /**< refused */
    CAD_MEANS_NOBODY = 16,    /**< no address follows */
    CAD_MEANS_FIRST_LAST = 17 /**< two addresses follow, the first and the last of a range */
};

/** Kinds of address. */
enum cad_kind {
    CAD_KIND_HOME = 1,  /**< an SSI of the home network; the extension is zero here */
    CAD_KIND_OTHER = 2  /**< an SSI with its extension */
};

/**
 * @brief Reads a message.
 *
 * On 0 the first #CAD_VALUE_BYTES bytes of @p value are the value; the bytes after them stay as they were. On a refusal all do.
 *
 * @param profile     the profile
 * @param profile_len its length, #CAD_PROFILE_BYTES
 * @param message     the bytes of the message; its first bit is the top bit of byte 0
 * @param message_len how many bytes are lent; there may be more than the message needs
 * @param bits        the message's length in bits
 * @param value       where the value goes
 * @param value_len   how many bytes are lent there, at least #CAD_VALUE_BYTES
 * @return 0, or the refusal: 1, then 3, then along the bits 4 to 13 and 27, then 14
 */
uint32_t cad_read(const uint8_t *profile, size_t profile_len, const uint8_t *message, size_t message_len, size_t bits, uint8_t *value,
                  size_t value_len);

/**
 * @brief Reads a message, and says where it broke off.
 *
 * The same as cad_read(), with two parameters more. On #CAD_REFUSED_SHORT, and on no other answer, they are written: the element that
 * reaches past the bit length is the first along the bits that does, it begins at *position, counted from 0 and at most @p bits, and the
 * message cut anywhere within that element gives the same two numbers.
 *
 * @param profile       the profile
 * @param profile_len   its length, #CAD_PROFILE_BYTES
 * @param message       the bytes of the message
 * @param message_len   how many bytes are lent
 * @param bits          the message's length in bits
 * @param value         where the value goes
 * @param value_len     how many bytes are lent there, at least #CAD_VALUE_BYTES
 * @param[out] position where the element begins; never NULL
 * @param[out] element  which one it is, see cad_element; never NULL
 * @return what cad_read() gives
 */
uint32_t cad_read_at(const uint8_t *profile, size_t profile_len, const uint8_t *message, size_t message_len, size_t bits, uint8_t *value,
                     size_t value_len, uint32_t *position, uint32_t *element);

/**
 * @brief Writes a message.
 *
 * On 0 the message stands in @p message from byte 0, the spare bits of its last byte are zero, and the bytes after it stay as they
 * were. On a refusal all do, and so does @p bits.
 *
 * @param profile     the profile
 * @param profile_len its length, #CAD_PROFILE_BYTES
 * @param value       the value
 * @param value_len   its length, #CAD_VALUE_BYTES
 * @param message     where the message goes
 * @param message_len how many bytes are lent there; #CAD_MESSAGE_BYTES are always enough
 * @param[out] bits   where the message's length in bits goes; never NULL
 * @return 0, or the refusal: 1, then 22, then 14
 */
uint32_t cad_write(const uint8_t *profile, size_t profile_len, const uint8_t *value, size_t value_len, uint8_t *message,
                   size_t message_len, size_t *bits);

#ifdef __cplusplus
}
#endif

/** @name Words
 * @{ */

/** The name of a PDU type that is carried, in capitals; of any other, "?". */
static inline const char *cad_pdu_name(unsigned pdu)
{
    switch (pdu) {
    case CAD_ACTIVATE: return "ACTIVATE";
    case CAD_ACTIVATE_ACK: return "ACTIVATE ACK";
    case CAD_DEACTIVATE: return "DEACTIVATE";
    case CAD_DEACTIVATE_ACK: return "DEACTIVATE ACK";
    case CAD_INTERROGATE: return "INTERROGATE";
    case CAD_INTERROGATE_ACK: return "INTERROGATE ACK";
    case CAD_INTERCEPTED: return "INTERCEPTED";
    case CAD_REQUEST: return "REQUEST";
    case CAD_ACCEPT: return "ACCEPT";
    case CAD_ACCEPTED: return "ACCEPTED";
    case CAD_CANCEL: return "CANCEL";
    case CAD_DIVERT: return "DIVERT";
    case CAD_DIVERTED: return "DIVERTED";
    case CAD_REJECT: return "REJECT";
    case CAD_REJECTED: return "REJECTED";
    default: return "?";
    }
}

/** The name of an element, as the replay prints it; of any other number, "?". */
static inline const char *cad_element_name(uint32_t element)
{
    switch (element) {
    case CAD_ELEMENT_SS_TYPE: return "ss-type";
    case CAD_ELEMENT_PDU_TYPE: return "pdu-type";
    case CAD_ELEMENT_RANGE: return "range";
    case CAD_ELEMENT_KIND: return "kind";
    case CAD_ELEMENT_SSI: return "ssi";
    case CAD_ELEMENT_EXTENSION: return "extension";
    case CAD_ELEMENT_MASK_PRESENT: return "mask-present";
    case CAD_ELEMENT_MASK: return "mask";
    case CAD_ELEMENT_RESULT: return "result";
    case CAD_ELEMENT_REASON: return "reason";
    case CAD_ELEMENT_CAUSE: return "cause";
    case CAD_ELEMENT_IDENTIFIER: return "identifier";
    case CAD_ELEMENT_O_BIT: return "o-bit";
    case CAD_ELEMENT_P_BIT: return "p-bit";
    case CAD_ELEMENT_MNI: return "mni";
    case CAD_ELEMENT_AREA: return "area";
    case CAD_ELEMENT_BASIC_SERVICE: return "basic-service";
    case CAD_ELEMENT_ACTIVATION_TYPE: return "activation-type";
    case CAD_ELEMENT_INTERCEPTION_TYPE: return "interception-type";
    case CAD_ELEMENT_TYPE_OF_RESTRICTION: return "type-of-restriction";
    default: return "?";
    }
}

/** What an answer of the three functions says, in words; of a number that they never give, "?". */
static inline const char *cad_refusal_text(uint32_t refusal)
{
    switch (refusal) {
    case CAD_DONE: return "done";
    case CAD_REFUSED_PROFILE: return "the profile breaks a rule";
    case CAD_REFUSED_LENGTH: return "no bits, over 4096, or more than the bytes have";
    case CAD_REFUSED_SHORT: return "an element reaches past the bit length";
    case CAD_REFUSED_SS_TYPE: return "the SS type is not the profile's";
    case CAD_REFUSED_UNKNOWN: return "the PDU type is unknown";
    case CAD_REFUSED_NOT_CARRIED: return "the PDU type is not carried";
    case CAD_REFUSED_RANGE: return "the range is reserved, or means none for users";
    case CAD_REFUSED_KIND: return "an address of kind 0 or 3";
    case CAD_REFUSED_ENDS: return "range ends that differ, fall, or span over 64";
    case CAD_REFUSED_OPTION: return "O-bit 1 and no P-bit 1";
    case CAD_REFUSED_LEFT_OVER: return "bits are left over";
    case CAD_REFUSED_ROOM: return "the area is too short";
    case CAD_REFUSED_VALUE: return "the value is not a valid one";
    case CAD_REFUSED_EXTERNAL: return "a destination that is an external number";
    default: return "?";
    }
}

/** @} */

/** @name Numbers of several bytes
 * @{ */

/** The number in @p count bytes (at most 4), big-endian. */
static inline uint32_t cad_get_number(const uint8_t *bytes, size_t count)
{
    uint32_t number = 0;
    size_t i;
    for (i = 0; i < count; i++)
        number = (number << 8) | bytes[i];
    return number;
}

/** Puts a number into @p count bytes (at most 4), big-endian. Answers 1, or 0 if it doesn't fit, and then puts nothing. */
static inline int cad_put_number(uint8_t *bytes, size_t count, uint32_t number)
{
    size_t i;
    if (count < 4 && number >> (8 * count) != 0)
        return 0;
    for (i = count; i > 0; i--) {
        bytes[i - 1] = (uint8_t)(number & 0xFFu);
        number >>= 8;
    }
    return 1;
}

/** Puts @p number into one byte, or a number that no field allows if it doesn't fit. */
static inline void cad_put_byte(uint8_t *byte, unsigned number)
{
    *byte = (uint8_t)(number > 0xFFu ? 0xFFu : number);
}

/** @} */

/** @name Profiles
 * Start one, give its ranges meanings and add its posts; or take the sample.
 * @{ */

/** Starts a profile: all ranges reserved, no post yet, both failure reasons of INTERROGATE ACK 0. */
static inline void cad_profile_start(uint8_t *profile, unsigned ss_type, uint32_t home, unsigned no_record, unsigned other_post)
{
    size_t i;
    for (i = 0; i < CAD_PROFILE_BYTES; i++)
        profile[i] = 0;
    cad_put_byte(profile + CAD_PROFILE_SS_TYPE, ss_type);
    cad_put_byte(profile + CAD_PROFILE_U, no_record);
    cad_put_byte(profile + CAD_PROFILE_N, other_post);
    if (!cad_put_number(profile + CAD_PROFILE_HOME, 3, home))
        profile[CAD_PROFILE_SS_TYPE] = 0xFF;
}

/** Gives a range value its meaning: one of cad_meaning, or 1 to 15 for a list of so many. */
static inline void cad_profile_set_meaning(uint8_t *profile, unsigned range, unsigned meaning)
{
    if (range < CAD_RANGES)
        cad_put_byte(profile + CAD_PROFILE_MEANINGS + range, meaning);
    else
        profile[CAD_PROFILE_SS_TYPE] = 0xFF;
}

/** Adds a post with its reserved number and its ceiling. */
static inline void cad_profile_add_post(uint8_t *profile, unsigned reserved, unsigned ceiling)
{
    unsigned post = profile[CAD_PROFILE_COUNT];
    if (post < CAD_POSTS) {
        cad_put_byte(profile + CAD_PROFILE_SHARES + CAD_SHARE_BYTES * post, reserved);
        cad_put_byte(profile + CAD_PROFILE_SHARES + CAD_SHARE_BYTES * post + 1, ceiling);
    }
    cad_put_byte(profile + CAD_PROFILE_COUNT, post + 1);
}

/** Sets INTERROGATE ACK's failure reason for an identity with no record, 0 to 7. */
static inline void cad_profile_set_unrecorded(uint8_t *profile, unsigned reason)
{
    cad_put_byte(profile + CAD_PROFILE_UNRECORDED, reason);
}

/** Sets INTERROGATE ACK's failure reason for another post's user, 0 to 7. */
static inline void cad_profile_set_elsewhere(uint8_t *profile, unsigned reason)
{
    cad_put_byte(profile + CAD_PROFILE_ELSEWHERE, reason);
}

/** The sample profile, which the listing uses: SS type 9, home 0, range 0 nobody, 1 to 3 lists, 15 first and last, two posts. */
static inline void cad_profile_sample(uint8_t *profile)
{
    cad_profile_start(profile, 9, 0, 1, 2);
    cad_profile_set_meaning(profile, 0, CAD_MEANS_NOBODY);
    cad_profile_set_meaning(profile, 1, 1);
    cad_profile_set_meaning(profile, 2, 2);
    cad_profile_set_meaning(profile, 3, 3);
    cad_profile_set_meaning(profile, 15, CAD_MEANS_FIRST_LAST);
    cad_profile_add_post(profile, 2, 30);
    cad_profile_add_post(profile, 4, 8);
    cad_profile_set_unrecorded(profile, 1);
    cad_profile_set_elsewhere(profile, 2);
}

/** The SS type. */
static inline unsigned cad_profile_ss_type(const uint8_t *profile)
{
    return profile[CAD_PROFILE_SS_TYPE];
}

/** The home extension. */
static inline uint32_t cad_profile_home(const uint8_t *profile)
{
    return cad_get_number(profile + CAD_PROFILE_HOME, 3);
}

/** U, the failure reason for an identity with no record. */
static inline unsigned cad_profile_no_record(const uint8_t *profile)
{
    return profile[CAD_PROFILE_U];
}

/** N, the failure reason for another post's user. */
static inline unsigned cad_profile_other_post(const uint8_t *profile)
{
    return profile[CAD_PROFILE_N];
}

/** The meaning of a range value: one of cad_meaning, or 1 to 15 for a list of so many; reserved for a range over 15. */
static inline unsigned cad_profile_meaning(const uint8_t *profile, unsigned range)
{
    return range < CAD_RANGES ? profile[CAD_PROFILE_MEANINGS + range] : 0u;
}

/** How many posts there are. */
static inline unsigned cad_profile_posts(const uint8_t *profile)
{
    return profile[CAD_PROFILE_COUNT];
}

/** The reserved number of a post, from 0; 0 for a post from 8 on. */
static inline unsigned cad_profile_reserved(const uint8_t *profile, unsigned post)
{
    return post < CAD_POSTS ? profile[CAD_PROFILE_SHARES + CAD_SHARE_BYTES * post] : 0u;
}

/** The ceiling of a post, from 0; 0 for a post from 8 on. */
static inline unsigned cad_profile_ceiling(const uint8_t *profile, unsigned post)
{
    return post < CAD_POSTS ? profile[CAD_PROFILE_SHARES + CAD_SHARE_BYTES * post + 1] : 0u;
}

/** INTERROGATE ACK's failure reason for an identity with no record. */
static inline unsigned cad_profile_unrecorded(const uint8_t *profile)
{
    return profile[CAD_PROFILE_UNRECORDED];
}

/** INTERROGATE ACK's failure reason for another post's user. */
static inline unsigned cad_profile_elsewhere(const uint8_t *profile)
{
    return profile[CAD_PROFILE_ELSEWHERE];
}

/** @} */

/** @name Addresses and identities
 * @{ */

/** An address as it stands on the air. */
struct cad_address {
    unsigned kind;      /**< see cad_kind; 0 where there is no address */
    uint32_t ssi;       /**< 24 bits */
    uint32_t extension; /**< 24 bits; zero with kind 1 */
};

/** Whom an address means: SSI and extension, the home extension with kind 1. */
struct cad_identity {
    uint32_t ssi;       /**< 24 bits */
    uint32_t extension; /**< 24 bits */
};

/** An address of kind 1. */
static inline struct cad_address cad_address_home(uint32_t ssi)
{
    struct cad_address address;
    address.kind = CAD_KIND_HOME;
    address.ssi = ssi;
    address.extension = 0;
    return address;
}

/** An address of kind 2. */
static inline struct cad_address cad_address_other(uint32_t ssi, uint32_t extension)
{
    struct cad_address address;
    address.kind = CAD_KIND_OTHER;
    address.ssi = ssi;
    address.extension = extension;
    return address;
}

/** Whom an address means under a profile. */
static inline struct cad_identity cad_address_identity(const uint8_t *profile, struct cad_address address)
{
    struct cad_identity identity;
    identity.ssi = address.ssi;
    identity.extension = address.kind == CAD_KIND_HOME ? cad_profile_home(profile) : address.extension;
    return identity;
}

/** The address in #CAD_ADDRESS_BYTES bytes. */
static inline struct cad_address cad_get_address(const uint8_t *bytes)
{
    struct cad_address address;
    address.kind = bytes[0];
    address.ssi = cad_get_number(bytes + CAD_ADDRESS_SSI, 3);
    address.extension = cad_get_number(bytes + CAD_ADDRESS_EXTENSION, 3);
    return address;
}

/** Puts an address into #CAD_ADDRESS_BYTES bytes. Answers 1, or 0 if a number doesn't fit. */
static inline int cad_put_address(uint8_t *bytes, struct cad_address address)
{
    cad_put_byte(bytes, address.kind);
    return cad_put_number(bytes + CAD_ADDRESS_SSI, 3, address.ssi) &&
           cad_put_number(bytes + CAD_ADDRESS_EXTENSION, 3, address.extension);
}

/** @} */

/** @name Values, read
 * What each message carries stands beside its name in cad_pdu; all else of a value that was read is zero.
 * @{ */

/** The PDU type, see cad_pdu. */
static inline unsigned cad_value_pdu(const uint8_t *value)
{
    return value[CAD_VALUE_PDU];
}

/** Whether it is an ACK, which has a result and may have a mask: ACTIVATE ACK, DEACTIVATE ACK or INTERROGATE ACK. */
static inline int cad_value_is_ack(const uint8_t *value)
{
    return cad_value_pdu(value) == CAD_ACTIVATE_ACK || cad_value_pdu(value) == CAD_DEACTIVATE_ACK ||
           cad_value_pdu(value) == CAD_INTERROGATE_ACK;
}

/** Whether its users stand behind a range value: ACTIVATE, DEACTIVATE and the three ACKs. */
static inline int cad_value_has_user_range(const uint8_t *value)
{
    return cad_value_pdu(value) == CAD_ACTIVATE || cad_value_pdu(value) == CAD_DEACTIVATE || cad_value_is_ack(value);
}

/** The range value of the users. */
static inline unsigned cad_value_user_range(const uint8_t *value)
{
    return value[CAD_VALUE_USER_RANGE];
}

/** User address @p k, from 0; all zero where there is none. */
static inline struct cad_address cad_value_user(const uint8_t *value, unsigned k)
{
    static const uint8_t none[CAD_ADDRESS_BYTES] = {0, 0, 0, 0, 0, 0, 0};
    return cad_get_address(k < CAD_ADDRESSES ? value + CAD_VALUE_USERS + CAD_ADDRESS_BYTES * k : none);
}

/** Whether there is a mask. */
static inline int cad_value_masked(const uint8_t *value)
{
    return value[CAD_VALUE_MASKED] != 0;
}

/** The mask bit of identity @p i, from 0; 0 where there is none. The first identity is number 0. */
static inline unsigned cad_value_mask_bit(const uint8_t *value, unsigned i)
{
    return i < CAD_IDENTITIES ? (value[CAD_VALUE_MASK + i / 8] >> (7 - i % 8)) & 1u : 0u;
}

/** The result of an ACK: 1 accepted, 0 not accepted. */
static inline unsigned cad_value_result(const uint8_t *value)
{
    return value[CAD_VALUE_RESULT];
}

/** The reason of an ACK whose result is 0. */
static inline unsigned cad_value_reason(const uint8_t *value)
{
    return value[CAD_VALUE_REASON];
}

/** The cause of INTERCEPTED, REQUEST, DIVERTED, REJECT and REJECTED. */
static inline unsigned cad_value_cause(const uint8_t *value)
{
    return value[CAD_VALUE_CAUSE];
}

/** The call identifier of REQUEST, ACCEPT, CANCEL, DIVERT and REJECT. */
static inline unsigned cad_value_identifier(const uint8_t *value)
{
    return (unsigned)cad_get_number(value + CAD_VALUE_IDENTIFIER, 2);
}

/** Whether the first option is there: dispatchers; of a REQUEST the calling address. */
static inline int cad_value_option(const uint8_t *value)
{
    return value[CAD_VALUE_OPTION] != 0;
}

/** The range value of the dispatchers. */
static inline unsigned cad_value_dispatcher_range(const uint8_t *value)
{
    return value[CAD_VALUE_DISPATCHER_RANGE];
}

/** Dispatcher address @p k, from 0; all zero where there is none. */
static inline struct cad_address cad_value_dispatcher(const uint8_t *value, unsigned k)
{
    static const uint8_t none[CAD_ADDRESS_BYTES] = {0, 0, 0, 0, 0, 0, 0};
    return cad_get_address(k < CAD_ADDRESSES ? value + CAD_VALUE_DISPATCHERS + CAD_ADDRESS_BYTES * k : none);
}

/** Whether it is a message of this type and has the option that is marked at this byte, where another type may mark another. */
static inline int cad_value_has(const uint8_t *value, unsigned pdu, size_t mark)
{
    return cad_value_pdu(value) == pdu && value[mark] != 0;
}

/** Whether a REQUEST has the calling address. */
static inline int cad_value_has_calling(const uint8_t *value)
{
    return cad_value_has(value, CAD_REQUEST, CAD_VALUE_OPTION);
}

/** The calling address of a REQUEST; all zero where it is not there. */
static inline struct cad_address cad_value_calling(const uint8_t *value)
{
    return cad_value_user(value, 0);
}

/** Whether a REQUEST has the called address. */
static inline int cad_value_has_called(const uint8_t *value)
{
    return cad_value_has(value, CAD_REQUEST, CAD_VALUE_HAS_CALLED);
}

/** The called address of a REQUEST; all zero where it is not there. */
static inline struct cad_address cad_value_called(const uint8_t *value)
{
    return cad_value_user(value, 1);
}

/** Whether a REQUEST has the network. */
static inline int cad_value_has_mni(const uint8_t *value)
{
    return cad_value_has(value, CAD_REQUEST, CAD_VALUE_HAS_MNI);
}

/** The network (MNI) of a REQUEST. */
static inline uint32_t cad_value_mni(const uint8_t *value)
{
    return cad_get_number(value + CAD_VALUE_MNI, 3);
}

/** Whether a REQUEST has the area of the calling. */
static inline int cad_value_has_calling_area(const uint8_t *value)
{
    return cad_value_has(value, CAD_REQUEST, CAD_VALUE_HAS_CALLING_AREA);
}

/** The area of the calling of a REQUEST. */
static inline unsigned cad_value_calling_area(const uint8_t *value)
{
    return value[CAD_VALUE_CALLING_AREA];
}

/** Whether a REQUEST has the area of the called. */
static inline int cad_value_has_called_area(const uint8_t *value)
{
    return cad_value_has(value, CAD_REQUEST, CAD_VALUE_HAS_CALLED_AREA);
}

/** The area of the called of a REQUEST. */
static inline unsigned cad_value_called_area(const uint8_t *value)
{
    return value[CAD_VALUE_CALLED_AREA];
}

/** Whether a REQUEST has the basic service of the calling. */
static inline int cad_value_has_calling_service(const uint8_t *value)
{
    return cad_value_has(value, CAD_REQUEST, CAD_VALUE_HAS_CALLING_SERVICE);
}

/** The basic service of the calling, of a REQUEST or of an INTERROGATE ACK that is accepted. */
static inline unsigned cad_value_calling_service(const uint8_t *value)
{
    return value[CAD_VALUE_CALLING_SERVICE];
}

/** Whether a REQUEST has the basic service of the called. */
static inline int cad_value_has_called_service(const uint8_t *value)
{
    return cad_value_has(value, CAD_REQUEST, CAD_VALUE_HAS_CALLED_SERVICE);
}

/** The basic service of the called, of a REQUEST or of an INTERROGATE ACK that is accepted. */
static inline unsigned cad_value_called_service(const uint8_t *value)
{
    return value[CAD_VALUE_CALLED_SERVICE];
}

/** The activation type of an INTERROGATE ACK that is accepted: 1 activated, 0 not. */
static inline unsigned cad_value_activation_type(const uint8_t *value)
{
    return value[CAD_VALUE_ACTIVATION_TYPE];
}

/** The interception type of an INTERROGATE ACK that is accepted: 0 immediate set-up, 1 set-up at the dispatcher's request. */
static inline unsigned cad_value_interception_type(const uint8_t *value)
{
    return value[CAD_VALUE_INTERCEPTION_TYPE];
}

/** Whether an INTERROGATE ACK has sources; its dispatchers are cad_value_option(). */
static inline int cad_value_has_sources(const uint8_t *value)
{
    return cad_value_has(value, CAD_INTERROGATE_ACK, CAD_VALUE_HAS_SOURCES);
}

/** The range value of the sources. */
static inline unsigned cad_value_source_range(const uint8_t *value)
{
    return value[CAD_VALUE_SOURCE_RANGE];
}

/** Source address @p k, from 0; all zero where there is none. */
static inline struct cad_address cad_value_source(const uint8_t *value, unsigned k)
{
    static const uint8_t none[CAD_ADDRESS_BYTES] = {0, 0, 0, 0, 0, 0, 0};
    return cad_get_address(k < CAD_ADDRESSES ? value + CAD_VALUE_SOURCES + CAD_ADDRESS_BYTES * k : none);
}

/** Whether an INTERROGATE ACK has destinations. */
static inline int cad_value_has_destinations(const uint8_t *value)
{
    return cad_value_has(value, CAD_INTERROGATE_ACK, CAD_VALUE_HAS_DESTINATIONS);
}

/** The range value of the destinations. */
static inline unsigned cad_value_destination_range(const uint8_t *value)
{
    return value[CAD_VALUE_DESTINATION_RANGE];
}

/** Destination address @p k, from 0; all zero where there is none. */
static inline struct cad_address cad_value_destination(const uint8_t *value, unsigned k)
{
    static const uint8_t none[CAD_ADDRESS_BYTES] = {0, 0, 0, 0, 0, 0, 0};
    return cad_get_address(k < CAD_ADDRESSES ? value + CAD_VALUE_DESTINATIONS + CAD_ADDRESS_BYTES * k : none);
}

/** Whether an INTERROGATE ACK has areas. */
static inline int cad_value_has_areas(const uint8_t *value)
{
    return cad_value_has(value, CAD_INTERROGATE_ACK, CAD_VALUE_HAS_AREAS);
}

/** The range value of the areas. */
static inline unsigned cad_value_area_range(const uint8_t *value)
{
    return value[CAD_VALUE_AREA_RANGE];
}

/** Area @p k, from 0; 0 where there is none. */
static inline unsigned cad_value_area(const uint8_t *value, unsigned k)
{
    return k < CAD_ADDRESSES ? value[CAD_VALUE_AREAS + k] : 0u;
}

/** How many addresses or areas a meaning asks for: 1 to 15 for a list, 2 for first and last, else 0. */
static inline unsigned cad_meaning_addresses(unsigned meaning)
{
    if (meaning == CAD_MEANS_FIRST_LAST)
        return 2;
    return meaning <= CAD_ADDRESSES ? meaning : 0u;
}

/** How many user addresses a value has under a profile. INTERROGATE has one; REQUEST's are cad_value_calling() and cad_value_called(). */
static inline unsigned cad_value_users(const uint8_t *profile, const uint8_t *value)
{
    if (cad_value_has_user_range(value))
        return cad_meaning_addresses(cad_profile_meaning(profile, cad_value_user_range(value)));
    return cad_value_pdu(value) == CAD_INTERROGATE ? 1u : 0u;
}

/** How many dispatcher addresses a value has under a profile. INTERCEPTED, DIVERTED and REJECTED have one, with the option. */
static inline unsigned cad_value_dispatchers(const uint8_t *profile, const uint8_t *value)
{
    if (!cad_value_option(value))
        return 0;
    switch (cad_value_pdu(value)) {
    case CAD_INTERCEPTED:
    case CAD_DIVERTED:
    case CAD_REJECTED: return 1;
    case CAD_ACTIVATE:
    case CAD_INTERROGATE_ACK: return cad_meaning_addresses(cad_profile_meaning(profile, cad_value_dispatcher_range(value)));
    default: return 0;
    }
}

/** How many source addresses a value has under a profile. */
static inline unsigned cad_value_sources(const uint8_t *profile, const uint8_t *value)
{
    return cad_value_has_sources(value) ? cad_meaning_addresses(cad_profile_meaning(profile, cad_value_source_range(value))) : 0u;
}

/** How many destination addresses a value has under a profile. */
static inline unsigned cad_value_destinations(const uint8_t *profile, const uint8_t *value)
{
    return cad_value_has_destinations(value) ? cad_meaning_addresses(cad_profile_meaning(profile, cad_value_destination_range(value))) : 0u;
}

/** How many areas a value has under a profile; REQUEST's are cad_value_calling_area() and cad_value_called_area(). */
static inline unsigned cad_value_areas(const uint8_t *profile, const uint8_t *value)
{
    return cad_value_has_areas(value) ? cad_meaning_addresses(cad_profile_meaning(profile, cad_value_area_range(value))) : 0u;
}

/** Whether the users are the first and the last of a range. */
static inline int cad_value_users_first_last(const uint8_t *profile, const uint8_t *value)
{
    return cad_value_has_user_range(value) && cad_profile_meaning(profile, cad_value_user_range(value)) == CAD_MEANS_FIRST_LAST;
}

/** How many identities the users are under a profile, 0 to 64; so many bits has their mask. */
static inline unsigned cad_value_identities(const uint8_t *profile, const uint8_t *value)
{
    uint32_t first, last;
    if (!cad_value_users_first_last(profile, value))
        return cad_value_users(profile, value);
    first = cad_value_user(value, 0).ssi;
    last = cad_value_user(value, 1).ssi;
    if (last < first)
        return 1;
    return last - first < CAD_IDENTITIES ? (unsigned)(last - first) + 1u : (unsigned)CAD_IDENTITIES;
}

/** Identity @p i of the users, from 0, whose mask bit is cad_value_mask_bit() of the same @p i; all zero where there is none. */
static inline struct cad_identity cad_value_identity(const uint8_t *profile, const uint8_t *value, unsigned i)
{
    struct cad_identity identity = {0, 0};
    if (i >= cad_value_identities(profile, value))
        return identity;
    if (!cad_value_users_first_last(profile, value))
        return cad_address_identity(profile, cad_value_user(value, i));
    identity = cad_address_identity(profile, cad_value_user(value, 0));
    identity.ssi += i;
    return identity;
}

/** @} */

/** @name Values, to be written
 * Start one with its PDU type and set what that message carries.
 * @{ */

/** Starts a value: the PDU type, and zero in all else. */
static inline void cad_value_start(uint8_t *value, unsigned pdu)
{
    size_t i;
    for (i = 0; i < CAD_VALUE_BYTES; i++)
        value[i] = 0;
    cad_put_byte(value + CAD_VALUE_PDU, pdu);
}

/** Sets the range value of the users. */
static inline void cad_value_set_user_range(uint8_t *value, unsigned range)
{
    cad_put_byte(value + CAD_VALUE_USER_RANGE, range);
}

/** Sets user address @p k, from 0. */
static inline void cad_value_set_user(uint8_t *value, unsigned k, struct cad_address address)
{
    if (k >= CAD_ADDRESSES || !cad_put_address(value + CAD_VALUE_USERS + CAD_ADDRESS_BYTES * k, address))
        value[CAD_VALUE_PDU] = 0xFF;
}

/** Says that there is a mask. */
static inline void cad_value_set_masked(uint8_t *value)
{
    value[CAD_VALUE_MASKED] = 1;
}

/** Sets the mask bit of identity @p i, from 0, to 0 or (any other @p bit) to 1, and says that there is a mask. */
static inline void cad_value_set_mask_bit(uint8_t *value, unsigned i, unsigned bit)
{
    cad_value_set_masked(value);
    if (i < CAD_IDENTITIES) {
        unsigned one = 0x80u >> (i % 8);
        unsigned byte = value[CAD_VALUE_MASK + i / 8];
        value[CAD_VALUE_MASK + i / 8] = (uint8_t)(bit != 0 ? byte | one : byte & ~one);
    } else {
        value[CAD_VALUE_PDU] = 0xFF;
    }
}

/** Sets the result: 1 accepted, 0 not accepted. */
static inline void cad_value_set_result(uint8_t *value, unsigned result)
{
    cad_put_byte(value + CAD_VALUE_RESULT, result);
}

/** Sets the reason of a result of 0: 0 to 127, of an INTERROGATE ACK 0 to 7. */
static inline void cad_value_set_reason(uint8_t *value, unsigned reason)
{
    cad_put_byte(value + CAD_VALUE_REASON, reason);
}

/** Sets the cause, 0 to 31. */
static inline void cad_value_set_cause(uint8_t *value, unsigned cause)
{
    cad_put_byte(value + CAD_VALUE_CAUSE, cause);
}

/** Sets the call identifier, 0 to 16,383. */
static inline void cad_value_set_identifier(uint8_t *value, uint32_t identifier)
{
    if (!cad_put_number(value + CAD_VALUE_IDENTIFIER, 2, identifier))
        value[CAD_VALUE_PDU] = 0xFF;
}

/** Says that the first option is there. */
static inline void cad_value_set_option(uint8_t *value)
{
    value[CAD_VALUE_OPTION] = 1;
}

/** Sets the range value of the dispatchers, and says that the option is there. */
static inline void cad_value_set_dispatcher_range(uint8_t *value, unsigned range)
{
    cad_value_set_option(value);
    cad_put_byte(value + CAD_VALUE_DISPATCHER_RANGE, range);
}

/** Sets dispatcher address @p k, from 0, and says that the option is there. */
static inline void cad_value_set_dispatcher(uint8_t *value, unsigned k, struct cad_address address)
{
    cad_value_set_option(value);
    if (k >= CAD_ADDRESSES || !cad_put_address(value + CAD_VALUE_DISPATCHERS + CAD_ADDRESS_BYTES * k, address))
        value[CAD_VALUE_PDU] = 0xFF;
}

/** Sets the calling address of a REQUEST, and says that it is there. */
static inline void cad_value_set_calling(uint8_t *value, struct cad_address address)
{
    cad_value_set_option(value);
    cad_value_set_user(value, 0, address);
}

/** Sets the called address of a REQUEST, and says that it is there. */
static inline void cad_value_set_called(uint8_t *value, struct cad_address address)
{
    value[CAD_VALUE_HAS_CALLED] = 1;
    cad_value_set_user(value, 1, address);
}

/** Sets the network (MNI) of a REQUEST, and says that it is there. */
static inline void cad_value_set_mni(uint8_t *value, uint32_t mni)
{
    value[CAD_VALUE_HAS_MNI] = 1;
    if (!cad_put_number(value + CAD_VALUE_MNI, 3, mni))
        value[CAD_VALUE_PDU] = 0xFF;
}

/** Sets the area of the calling of a REQUEST, 0 to 15, and says that it is there. */
static inline void cad_value_set_calling_area(uint8_t *value, unsigned area)
{
    value[CAD_VALUE_HAS_CALLING_AREA] = 1;
    cad_put_byte(value + CAD_VALUE_CALLING_AREA, area);
}

/** Sets the area of the called of a REQUEST, 0 to 15, and says that it is there. */
static inline void cad_value_set_called_area(uint8_t *value, unsigned area)
{
    value[CAD_VALUE_HAS_CALLED_AREA] = 1;
    cad_put_byte(value + CAD_VALUE_CALLED_AREA, area);
}

/** Sets the basic service of the calling, 0 to 3, and says that it is there; an INTERROGATE ACK has it without saying so. */
static inline void cad_value_set_calling_service(uint8_t *value, unsigned service)
{
    if (cad_value_pdu(value) != CAD_INTERROGATE_ACK)
        value[CAD_VALUE_HAS_CALLING_SERVICE] = 1;
    cad_put_byte(value + CAD_VALUE_CALLING_SERVICE, service);
}

/** Sets the basic service of the called, 0 to 3, and says that it is there; an INTERROGATE ACK has it without saying so. */
static inline void cad_value_set_called_service(uint8_t *value, unsigned service)
{
    if (cad_value_pdu(value) != CAD_INTERROGATE_ACK)
        value[CAD_VALUE_HAS_CALLED_SERVICE] = 1;
    cad_put_byte(value + CAD_VALUE_CALLED_SERVICE, service);
}

/** Sets the activation type of an INTERROGATE ACK that is accepted: 1 activated, 0 not. */
static inline void cad_value_set_activation_type(uint8_t *value, unsigned type)
{
    cad_put_byte(value + CAD_VALUE_ACTIVATION_TYPE, type);
}

/** Sets the interception type of an INTERROGATE ACK that is accepted, 0 or 1. */
static inline void cad_value_set_interception_type(uint8_t *value, unsigned type)
{
    cad_put_byte(value + CAD_VALUE_INTERCEPTION_TYPE, type);
}

/** Sets the range value of an INTERROGATE ACK's sources, and says that they are there. */
static inline void cad_value_set_source_range(uint8_t *value, unsigned range)
{
    value[CAD_VALUE_HAS_SOURCES] = 1;
    cad_put_byte(value + CAD_VALUE_SOURCE_RANGE, range);
}

/** Sets source address @p k of an INTERROGATE ACK, from 0, and says that the sources are there. */
static inline void cad_value_set_source(uint8_t *value, unsigned k, struct cad_address address)
{
    value[CAD_VALUE_HAS_SOURCES] = 1;
    if (k >= CAD_ADDRESSES || !cad_put_address(value + CAD_VALUE_SOURCES + CAD_ADDRESS_BYTES * k, address))
        value[CAD_VALUE_PDU] = 0xFF;
}

/** Sets the range value of an INTERROGATE ACK's destinations, and says that they are there. */
static inline void cad_value_set_destination_range(uint8_t *value, unsigned range)
{
    value[CAD_VALUE_HAS_DESTINATIONS] = 1;
    cad_put_byte(value + CAD_VALUE_DESTINATION_RANGE, range);
}

/** Sets destination address @p k of an INTERROGATE ACK, from 0, and says that the destinations are there. */
static inline void cad_value_set_destination(uint8_t *value, unsigned k, struct cad_address address)
{
    value[CAD_VALUE_HAS_DESTINATIONS] = 1;
    if (k >= CAD_ADDRESSES || !cad_put_address(value + CAD_VALUE_DESTINATIONS + CAD_ADDRESS_BYTES * k, address))
        value[CAD_VALUE_PDU] = 0xFF;
}

/** Sets the range value of an INTERROGATE ACK's areas, and says that they are there. */
static inline void cad_value_set_area_range(uint8_t *value, unsigned range)
{
    value[CAD_VALUE_HAS_AREAS] = 1;
    cad_put_byte(value + CAD_VALUE_AREA_RANGE, range);
}

/** Sets area @p k of an INTERROGATE ACK, from 0, to 0 to 15, and says that the areas are there. */
static inline void cad_value_set_area(uint8_t *value, unsigned k, unsigned area)
{
    value[CAD_VALUE_HAS_AREAS] = 1;
    if (k < CAD_ADDRESSES)
        cad_put_byte(value + CAD_VALUE_AREAS + k, area);
    else
        value[CAD_VALUE_PDU] = 0xFF;
}

/** @} */

#endif
