/* Sculldrip: reads, writes and rules on Android key attestation extensions (OID 1.3.6.1.4.1.11129.2.1.17).
 *
 * Every function of the library takes anything and answers: no length, image, request or clock needs to be checked before.
 * What remains to the caller:
 *
 *   - each pointer is good for the length beside it; where that is 0 it may be NULL;
 *   - what is lent to be written (image, output, part, permit, text) overlaps nothing else that the same call is lent;
 *   - a thread that calls has SCULLDRIP_STACK_BYTES of stack left.
 *
 * The inline functions of this file take no lengths: an image that they are lent has SCULLDRIP_IMAGE_WORDS words, a request
 * SCULLDRIP_REQUEST_WORDS, and every other pointer is good for what it points to. The words themselves may hold anything.
 *
 * Nothing is kept between calls and nothing is allocated, so any thread may call at any time. What is lent as const is not
 * changed. libsculldrip.a is for Linux on x86-64 alone, and asks the linker for memcpy and memset alone.
 *
 * An answer is one number. Its low byte is 0 where the function did what it is for, and then the rest (answer >> 8) is a
 * count or a length; else the low byte is the refusal's number (SCULLDRIP_REFUSED_..; sculldrip_sentence has what to say of
 * it) and the rest is the byte place that it is given for. A refused call changes nothing that was lent.
 *
 * A record is an image of SCULLDRIP_IMAGE_WORDS words, which a read fills. Ask and change it by the functions at the end of
 * this file: they hide its layout.
 */
#ifndef SCULLDRIP_H
#define SCULLDRIP_H

#include <stddef.h>
#include <stdint.h>

#include "sculldrip_refusals.h"

#ifdef __cplusplus
extern "C" {
#endif

/* This header's interface. sculldrip_version says the library's: they must be the same. */
#define SCULLDRIP_VERSION 2

#define SCULLDRIP_IMAGE_WORDS 410
#define SCULLDRIP_REQUEST_WORDS 16
#define SCULLDRIP_PERMIT_WORDS 4
#define SCULLDRIP_PART_WORDS 2

/* The most bytes that an extension has, and so the room that is enough for every encoding. */
#define SCULLDRIP_EXTENSION_BYTES 8192

/* The room that is enough for every listing: 32,768 bytes, and 56 for each byte that an extension can have. */
#define SCULLDRIP_LISTING_BYTES 491520

/* The room that is enough for the listing of a refusal. */
#define SCULLDRIP_REFUSED_LISTING_BYTES 64

/* The stack that is enough for every call. Measured, in KB: read 8, list 8, write 9, rule 8, octets 4, enrol 9; and 3
 * more in a program's first call, where the linker finds memcpy only then. */
#define SCULLDRIP_STACK_BYTES 32768

/* The most members of a set. */
#define SCULLDRIP_SET_MEMBERS 16

/* ---- Names of numbers ---- */

enum sculldrip_list { SCULLDRIP_SOFTWARE = 0, SCULLDRIP_HARDWARE = 1 };

enum sculldrip_level {
    SCULLDRIP_LEVEL_SOFTWARE = 0,
    SCULLDRIP_LEVEL_TRUSTED_ENVIRONMENT = 1,
    SCULLDRIP_LEVEL_STRONGBOX = 2
};

enum sculldrip_boot {
    SCULLDRIP_BOOT_VERIFIED = 0,
    SCULLDRIP_BOOT_SELF_SIGNED = 1,
    SCULLDRIP_BOOT_UNVERIFIED = 2,
    SCULLDRIP_BOOT_FAILED = 3
};

enum sculldrip_purpose {
    SCULLDRIP_PURPOSE_DECRYPT = 1,
    SCULLDRIP_PURPOSE_SIGN = 2,
    SCULLDRIP_PURPOSE_AGREE_KEY = 6,
    SCULLDRIP_PURPOSE_ATTEST_KEY = 7
};

enum sculldrip_algorithm { SCULLDRIP_ALGORITHM_RSA = 1, SCULLDRIP_ALGORITHM_EC = 3 };

enum sculldrip_digest {
    SCULLDRIP_DIGEST_NONE = 0,
    SCULLDRIP_DIGEST_MD5 = 1,
    SCULLDRIP_DIGEST_SHA1 = 2,
    SCULLDRIP_DIGEST_SHA_2_224 = 3,
    SCULLDRIP_DIGEST_SHA_2_256 = 4,
    SCULLDRIP_DIGEST_SHA_2_384 = 5,
    SCULLDRIP_DIGEST_SHA_2_512 = 6
};

enum sculldrip_padding {
    SCULLDRIP_PADDING_NONE = 1,
    SCULLDRIP_PADDING_RSA_OAEP = 2,
    SCULLDRIP_PADDING_RSA_PSS = 3,
    SCULLDRIP_PADDING_RSA_PKCS1_ENCRYPT = 4,
    SCULLDRIP_PADDING_RSA_PKCS1_SIGN = 5
};

/* The words of a request. Times are in ms: clock and floor since 1970, the others since the device started. A yes-or-no word
 * is yes where it is not 0. */
enum sculldrip_request {
    SCULLDRIP_REQUEST_PURPOSE = 0,
    SCULLDRIP_REQUEST_DIGEST = 1,
    SCULLDRIP_REQUEST_PADDING = 2,
    SCULLDRIP_REQUEST_CLOCK = 3,
    SCULLDRIP_REQUEST_CLOCK_FLOOR = 4, /* a moment that is known to have passed: a clock before it is wrong */
    SCULLDRIP_REQUEST_UPTIME = 5,
    SCULLDRIP_REQUEST_OPERATION_HANDLE = 6,
    SCULLDRIP_REQUEST_HAS_TOKEN = 7, /* yes or no; without a token the next three words are not looked at */
    SCULLDRIP_REQUEST_TOKEN_TYPE = 8,
    SCULLDRIP_REQUEST_TOKEN_UPTIME = 9,
    SCULLDRIP_REQUEST_TOKEN_CHALLENGE = 10,
    SCULLDRIP_REQUEST_DEVICE_LOCKED = 11,   /* yes or no */
    SCULLDRIP_REQUEST_USER_PRESENT = 12,    /* yes or no */
    SCULLDRIP_REQUEST_USER_CONFIRMED = 13,  /* yes or no */
    SCULLDRIP_REQUEST_EARLY_BOOT_OVER = 14, /* yes or no */
    SCULLDRIP_REQUEST_USES_SO_FAR = 15
};

/* The words of a permit: which rules of the hardware list were applied, and how many they are; likewise of the software
 * list. Where either security level is Software all rules count as the software's. */
enum sculldrip_permit {
    SCULLDRIP_PERMIT_HARDWARE = 0,
    SCULLDRIP_PERMIT_HARDWARE_COUNT = 1,
    SCULLDRIP_PERMIT_SOFTWARE = 2,
    SCULLDRIP_PERMIT_SOFTWARE_COUNT = 3
};

/* The bits of a permit's marks, each for a field that was looked at. */
enum sculldrip_mark {
    SCULLDRIP_MARK_PURPOSE = 1,
    SCULLDRIP_MARK_ALGORITHM = 2,
    SCULLDRIP_MARK_PADDING = 4,
    SCULLDRIP_MARK_DIGEST = 8,
    SCULLDRIP_MARK_KEY_SIZE = 16,
    SCULLDRIP_MARK_ACTIVE_DATE_TIME = 32,
    SCULLDRIP_MARK_ORIGINATION_EXPIRE_DATE_TIME = 64,
    SCULLDRIP_MARK_USAGE_EXPIRE_DATE_TIME = 128,
    SCULLDRIP_MARK_USER_AUTH_TYPE = 256,
    SCULLDRIP_MARK_AUTH_TIMEOUT = 512,
    SCULLDRIP_MARK_UNLOCKED_DEVICE_REQUIRED = 1024,
    SCULLDRIP_MARK_TRUSTED_USER_PRESENCE_REQUIRED = 2048,
    SCULLDRIP_MARK_TRUSTED_CONFIRMATION_REQUIRED = 4096,
    SCULLDRIP_MARK_EARLY_BOOT_ONLY = 8192,
    SCULLDRIP_MARK_USAGE_COUNT_LIMIT = 16384,
    SCULLDRIP_MARK_NO_AUTH_REQUIRED = 32768
};

/* The fields of a list, by their rows; behind each its tag number and its kind. */
enum sculldrip_row {
    SCULLDRIP_ROW_PURPOSE = 0,                         /*   1, set */
    SCULLDRIP_ROW_ALGORITHM = 1,                       /*   2, number */
    SCULLDRIP_ROW_KEY_SIZE = 2,                        /*   3, number, bits */
    SCULLDRIP_ROW_DIGEST = 3,                          /*   5, set */
    SCULLDRIP_ROW_PADDING = 4,                         /*   6, set */
    SCULLDRIP_ROW_EC_CURVE = 5,                        /*  10, number */
    SCULLDRIP_ROW_RSA_PUBLIC_EXPONENT = 6,             /* 200, number of 64 bits */
    SCULLDRIP_ROW_MGF_DIGEST = 7,                      /* 203, set */
    SCULLDRIP_ROW_ROLLBACK_RESISTANCE = 8,             /* 303, flag */
    SCULLDRIP_ROW_EARLY_BOOT_ONLY = 9,                 /* 305, flag */
    SCULLDRIP_ROW_ACTIVE_DATE_TIME = 10,               /* 400, number of 64 bits, ms since 1970 */
    SCULLDRIP_ROW_ORIGINATION_EXPIRE_DATE_TIME = 11,   /* 401, number of 64 bits, ms since 1970 */
    SCULLDRIP_ROW_USAGE_EXPIRE_DATE_TIME = 12,         /* 402, number of 64 bits, ms since 1970 */
    SCULLDRIP_ROW_USAGE_COUNT_LIMIT = 13,              /* 405, number */
    SCULLDRIP_ROW_NO_AUTH_REQUIRED = 14,               /* 503, flag */
    SCULLDRIP_ROW_USER_AUTH_TYPE = 15,                 /* 504, number, bits */
    SCULLDRIP_ROW_AUTH_TIMEOUT = 16,                   /* 505, number, seconds */
    SCULLDRIP_ROW_ALLOW_WHILE_ON_BODY = 17,            /* 506, flag */
    SCULLDRIP_ROW_TRUSTED_USER_PRESENCE_REQUIRED = 18, /* 507, flag */
    SCULLDRIP_ROW_TRUSTED_CONFIRMATION_REQUIRED = 19,  /* 508, flag */
    SCULLDRIP_ROW_UNLOCKED_DEVICE_REQUIRED = 20,       /* 509, flag */
    SCULLDRIP_ROW_ALL_APPLICATIONS = 21,               /* 600, flag */
    SCULLDRIP_ROW_APPLICATION_ID = 22,                 /* 601, octets; no version holds it */
    SCULLDRIP_ROW_CREATION_DATE_TIME = 23,             /* 701, number of 64 bits, ms since 1970 */
    SCULLDRIP_ROW_ORIGIN = 24,                         /* 702, number */
    SCULLDRIP_ROW_ROLLBACK_RESISTANT = 25,             /* 703, flag */
    SCULLDRIP_ROW_ROOT_OF_TRUST = 26,                  /* 704, root of trust */
    SCULLDRIP_ROW_OS_VERSION = 27,                     /* 705, number */
    SCULLDRIP_ROW_OS_PATCH_LEVEL = 28,                 /* 706, number */
    SCULLDRIP_ROW_ATTESTATION_APPLICATION_ID = 29,     /* 709, octets */
    SCULLDRIP_ROW_ATTESTATION_ID_BRAND = 30,           /* 710, octets */
    SCULLDRIP_ROW_ATTESTATION_ID_DEVICE = 31,          /* 711, octets */
    SCULLDRIP_ROW_ATTESTATION_ID_PRODUCT = 32,         /* 712, octets */
    SCULLDRIP_ROW_ATTESTATION_ID_SERIAL = 33,          /* 713, octets */
    SCULLDRIP_ROW_ATTESTATION_ID_IMEI = 34,            /* 714, octets */
    SCULLDRIP_ROW_ATTESTATION_ID_MEID = 35,            /* 715, octets */
    SCULLDRIP_ROW_ATTESTATION_ID_MANUFACTURER = 36,    /* 716, octets */
    SCULLDRIP_ROW_ATTESTATION_ID_MODEL = 37,           /* 717, octets */
    SCULLDRIP_ROW_VENDOR_PATCH_LEVEL = 38,             /* 718, number */
    SCULLDRIP_ROW_BOOT_PATCH_LEVEL = 39,               /* 719, number */
    SCULLDRIP_ROW_DEVICE_UNIQUE_ATTESTATION = 40,      /* 720, flag */
    SCULLDRIP_ROW_ATTESTATION_ID_SECOND_IMEI = 41,     /* 723, octets */
    SCULLDRIP_ROWS = 42
};

/* The tag numbers of the rows, in their order. */
#define SCULLDRIP_FIELD_NUMBERS                                                                                        \
    {1,   2,   3,   5,   6,   10,  200, 203, 303, 305, 400, 401, 402, 405, 503, 504, 505, 506, 507, 508, 509,          \
     600, 601, 701, 702, 703, 704, 705, 706, 709, 710, 711, 712, 713, 714, 715, 716, 717, 718, 719, 720, 723}

/* ---- The library ---- */

/* The number of a refusal, or 0; and the count, length or place beside it. */
static inline unsigned sculldrip_number(uint64_t answer) { return (unsigned)(answer & 0xff); }
static inline uint64_t sculldrip_rest(uint64_t answer) { return answer >> 8; }

/* The interface that the library was built for: SCULLDRIP_VERSION, or header and library are not of one kind. */
uint64_t sculldrip_version(void);

/* Reads an extension into an image. The rest is its count of elements. Refusals 1 to 14, and 200. */
uint64_t sculldrip_read(const uint8_t *extension, size_t length, uint64_t *image, size_t words);

/* Writes the one encoding of an image's record, its octet parts lying in buffer, at the front of the output, and changes
 * nothing else. The rest is how many bytes were written. Refusals 20, 22 and 21 in that order, and 200. */
uint64_t sculldrip_write(const uint64_t *image, size_t words, const uint8_t *buffer, size_t buffer_length, uint8_t *output,
                         size_t room);

/* Asks for an octet field by list (0 software, else hardware) and tag number, of an image that goes with buffer_length
 * bytes. The rest is 1 where it is there, with its start and length in part[0] and part[1]; 0 where it is absent, or the
 * number is no octet field. Refusals 20 and 200. */
uint64_t sculldrip_octets(const uint64_t *image, size_t words, uint64_t hardware, uint64_t number, size_t buffer_length,
                          uint64_t *part, size_t part_words);

/* Rules on a use: request[SCULLDRIP_REQUEST_..] says which, and permit[SCULLDRIP_PERMIT_..] what permits it. Start a request
 * with sculldrip_strict_request, below. The rest is 0. Refusals 20 and 30 to 46, and 200. */
uint64_t sculldrip_rule(const uint64_t *image, size_t words, const uint64_t *request, size_t request_words, uint64_t *permit,
                        size_t permit_words);

/* Rules on taking on the key of an image's record, its octet parts lying in buffer, where expected is the challenge that
 * was asked for. The rest is 0. Refusals 20 and 50 to 55, and 200. */
uint64_t sculldrip_enrol(const uint64_t *image, size_t words, const uint8_t *buffer, size_t buffer_length,
                         const uint8_t *expected, size_t expected_length);

/* Lists an extension, or its refusal, as text. The rest is the text's length. The listing of an accepted extension asks for
 * 32,768 bytes of room and 56 for each byte of the extension, that of a refusal for SCULLDRIP_REFUSED_LISTING_BYTES; with
 * less the answer is 21, and with SCULLDRIP_LISTING_BYTES never. */
uint64_t sculldrip_list(const uint8_t *extension, size_t length, uint8_t *text, size_t room);

/* ---- A request ---- */

/* A request in which what is not said afterwards is refused: no purpose, digest or padding that there is, the clock below
 * its floor, no token (and one would be of the future and for another operation), the device locked, the user neither present
 * nor confirming, early boot over, and no uses left. */
static inline void sculldrip_strict_request(uint64_t *request) {
    size_t i;
    for (i = 0; i < SCULLDRIP_REQUEST_WORDS; i++)
        request[i] = 0;
    request[SCULLDRIP_REQUEST_PURPOSE] = UINT64_MAX;
    request[SCULLDRIP_REQUEST_DIGEST] = UINT64_MAX;
    request[SCULLDRIP_REQUEST_PADDING] = UINT64_MAX;
    request[SCULLDRIP_REQUEST_CLOCK_FLOOR] = UINT64_MAX;
    request[SCULLDRIP_REQUEST_TOKEN_UPTIME] = UINT64_MAX;
    request[SCULLDRIP_REQUEST_TOKEN_CHALLENGE] = UINT64_MAX;
    request[SCULLDRIP_REQUEST_DEVICE_LOCKED] = 1;
    request[SCULLDRIP_REQUEST_EARLY_BOOT_OVER] = 1;
    request[SCULLDRIP_REQUEST_USES_SO_FAR] = UINT64_MAX;
}

/* ---- An image: its layout ----
 *
 *   word      what it is
 *   0         attestation version
 *   1         attestation security level
 *   2         KeyMint version
 *   3         KeyMint security level
 *   4, 5      challenge: start and length in the extension, or in whatever buffer the image goes with
 *   6, 7      uniqueId: start and length
 *   8         the software-enforced list, 201 words
 *   209       the hardware-enforced list, 201 words
 *
 * and a list, counted from its first word:
 *
 *   0 + k     1 where the list has the field of row k, else 0
 *   42 + k    its number; or the start of its octets
 *   84 + k    the length of its octets
 *   126       purpose:   16 slots for members and, in word 142, how many of them are members
 *   143       digest:    the same, the count in word 159
 *   160       padding:   the same, the count in word 176
 *   177       mgfDigest: the same, the count in word 193
 *   194       rootOfTrust: key start, key length, locked (1 or 0), boot state, 1 where there is a boot hash else 0,
 *             hash start, hash length
 *
 * An image is that of no record where a version or a level passes 32 bits or a flag of the first 42 words of a list is neither
 * 0 nor 1; or in a present field a member, the boot state (over 32 bits) or a flag of the root of trust (neither 0 nor 1) is
 * so. sculldrip_write, rule, enrol and octets refuse it with 20. The first three refuse so a record that is not well-shaped,
 * too; write and enrol also one with an octet part outside the buffer, and octets one whose asked field lies outside, and no
 * more. Words of absent fields, of an absent boot hash and slots past a set's count may hold anything: they are not looked at.
 * A read leaves 0 in all of them.
 */
enum sculldrip_layout {
    SCULLDRIP_AT_VERSION = 0,
    SCULLDRIP_AT_LEVEL = 1,
    SCULLDRIP_AT_KEYMINT_VERSION = 2,
    SCULLDRIP_AT_KEYMINT_LEVEL = 3,
    SCULLDRIP_AT_CHALLENGE = 4,
    SCULLDRIP_AT_UNIQUE_ID = 6,
    SCULLDRIP_AT_SOFTWARE = 8,
    SCULLDRIP_AT_HARDWARE = 209,
    SCULLDRIP_AT_NUMBERS = 42,
    SCULLDRIP_AT_LENGTHS = 84,
    SCULLDRIP_AT_ROOT = 194
};

/* ---- An image: asking ----
 *
 * A list is SCULLDRIP_SOFTWARE or SCULLDRIP_HARDWARE (any number but 0), a row one of SCULLDRIP_ROW_... What answers an int
 * answers 1 where the list has the field and it is of that kind, and fills *found; else 0, and *found stays as it was. A word
 * over 32 bits where a record has 32, which no read leaves, is told as UINT32_MAX. */

enum sculldrip_kind {
    SCULLDRIP_KIND_NONE, /* there is no such row */
    SCULLDRIP_KIND_SET,
    SCULLDRIP_KIND_NUMBER,
    SCULLDRIP_KIND_FLAG,
    SCULLDRIP_KIND_OCTETS,
    SCULLDRIP_KIND_ROOT
};

/* Octets as where they lie. Those of an image that a read filled lie in the extension that was read. */
struct sculldrip_part {
    uint64_t start;
    uint64_t length;
};

struct sculldrip_set {
    size_t count;
    uint32_t members[SCULLDRIP_SET_MEMBERS];
};

struct sculldrip_root {
    struct sculldrip_part key;
    int is_locked;
    uint32_t state;
    int has_hash;
    struct sculldrip_part hash;
};

/* A row's tag number; 0 where there is no such row. */
static inline unsigned sculldrip_field_of(unsigned row) {
    static const uint16_t numbers[SCULLDRIP_ROWS] = SCULLDRIP_FIELD_NUMBERS;
    return row < SCULLDRIP_ROWS ? numbers[row] : 0;
}

/* The row of a tag number; SCULLDRIP_ROWS where there is none. */
static inline unsigned sculldrip_row_of(unsigned number) {
    unsigned row = 0;
    while (row < SCULLDRIP_ROWS && sculldrip_field_of(row) != number)
        row++;
    return row;
}

/* The kind of a row's field; the first letters of the kinds, row by row. */
static inline enum sculldrip_kind sculldrip_kind_of(unsigned row) {
    static const char kinds[SCULLDRIP_ROWS + 1] = "snnssnnsffnnnnfnnfffffonnfrnnooooooooonnfo";
    switch (row < SCULLDRIP_ROWS ? kinds[row] : ' ') {
    case 's':
        return SCULLDRIP_KIND_SET;
    case 'n':
        return SCULLDRIP_KIND_NUMBER;
    case 'f':
        return SCULLDRIP_KIND_FLAG;
    case 'o':
        return SCULLDRIP_KIND_OCTETS;
    case 'r':
        return SCULLDRIP_KIND_ROOT;
    default:
        return SCULLDRIP_KIND_NONE;
    }
}

/* Not cut: 2^32 is not 0. */
static inline uint32_t sculldrip_narrow(uint64_t word) { return word < UINT32_MAX ? (uint32_t)word : UINT32_MAX; }

static inline uint32_t sculldrip_attestation_version(const uint64_t *image) {
    return sculldrip_narrow(image[SCULLDRIP_AT_VERSION]);
}
static inline uint32_t sculldrip_attestation_level(const uint64_t *image) {
    return sculldrip_narrow(image[SCULLDRIP_AT_LEVEL]);
}
static inline uint32_t sculldrip_keymint_version(const uint64_t *image) {
    return sculldrip_narrow(image[SCULLDRIP_AT_KEYMINT_VERSION]);
}
static inline uint32_t sculldrip_keymint_level(const uint64_t *image) {
    return sculldrip_narrow(image[SCULLDRIP_AT_KEYMINT_LEVEL]);
}

static inline struct sculldrip_part sculldrip_part_at(const uint64_t *words) {
    struct sculldrip_part part;
    part.start = words[0];
    part.length = words[1];
    return part;
}

static inline struct sculldrip_part sculldrip_challenge(const uint64_t *image) {
    return sculldrip_part_at(image + SCULLDRIP_AT_CHALLENGE);
}
static inline struct sculldrip_part sculldrip_unique_id(const uint64_t *image) {
    return sculldrip_part_at(image + SCULLDRIP_AT_UNIQUE_ID);
}

/* Where a list starts. */
static inline size_t sculldrip_at_list(unsigned list) {
    return list == SCULLDRIP_SOFTWARE ? SCULLDRIP_AT_SOFTWARE : SCULLDRIP_AT_HARDWARE;
}

/* Where a set's slots start, in a list; its count stands behind them. */
static inline size_t sculldrip_at_set(unsigned row) {
    return row == SCULLDRIP_ROW_PURPOSE ? 126 : row == SCULLDRIP_ROW_DIGEST ? 143 : row == SCULLDRIP_ROW_PADDING ? 160 : 177;
}

/* Whether a list has a field; of a flag this is all that there is to ask. */
static inline int sculldrip_has(const uint64_t *image, unsigned list, unsigned row) {
    return row < SCULLDRIP_ROWS && image[sculldrip_at_list(list) + row] == 1;
}

static inline int sculldrip_has_kind(const uint64_t *image, unsigned list, unsigned row, enum sculldrip_kind kind) {
    return sculldrip_kind_of(row) == kind && sculldrip_has(image, list, row);
}

static inline int sculldrip_number_field(const uint64_t *image, unsigned list, unsigned row, uint64_t *found) {
    if (!sculldrip_has_kind(image, list, row, SCULLDRIP_KIND_NUMBER))
        return 0;
    *found = image[sculldrip_at_list(list) + SCULLDRIP_AT_NUMBERS + row];
    return 1;
}

static inline int sculldrip_octet_field(const uint64_t *image, unsigned list, unsigned row, struct sculldrip_part *found) {
    if (!sculldrip_has_kind(image, list, row, SCULLDRIP_KIND_OCTETS))
        return 0;
    found->start = image[sculldrip_at_list(list) + SCULLDRIP_AT_NUMBERS + row];
    found->length = image[sculldrip_at_list(list) + SCULLDRIP_AT_LENGTHS + row];
    return 1;
}

/* A present set without members is not an absent one. A count past the slots, which no read leaves, is told as 16. */
static inline int sculldrip_set_field(const uint64_t *image, unsigned list, unsigned row, struct sculldrip_set *found) {
    const uint64_t *slots;
    size_t i;
    if (!sculldrip_has_kind(image, list, row, SCULLDRIP_KIND_SET))
        return 0;
    slots = image + sculldrip_at_list(list) + sculldrip_at_set(row);
    found->count = slots[SCULLDRIP_SET_MEMBERS] < SCULLDRIP_SET_MEMBERS ? (size_t)slots[SCULLDRIP_SET_MEMBERS]
                                                                         : SCULLDRIP_SET_MEMBERS;
    for (i = 0; i < found->count; i++)
        found->members[i] = sculldrip_narrow(slots[i]);
    return 1;
}

/* Of a set with a larger count the 16 members that it has room for are looked at. */
static inline int sculldrip_is_member(const struct sculldrip_set *set, uint32_t number) {
    size_t i;
    for (i = 0; i < set->count && i < SCULLDRIP_SET_MEMBERS; i++)
        if (set->members[i] == number)
            return 1;
    return 0;
}

static inline int sculldrip_root_of_trust(const uint64_t *image, unsigned list, struct sculldrip_root *found) {
    const uint64_t *words = image + sculldrip_at_list(list) + SCULLDRIP_AT_ROOT;
    if (!sculldrip_has(image, list, SCULLDRIP_ROW_ROOT_OF_TRUST))
        return 0;
    found->key = sculldrip_part_at(words);
    found->is_locked = words[2] == 1;
    found->state = sculldrip_narrow(words[3]);
    found->has_hash = words[4] == 1;
    found->hash.start = found->has_hash ? words[5] : 0;
    found->hash.length = found->has_hash ? words[6] : 0;
    return 1;
}

/* ---- An image: setting it up ----
 *
 * What answers an int answers 1, or 0 where the row is of another kind, and then the image stays as it was. Anything can be
 * put: sculldrip_write, rule and enrol refuse what is not well-shaped with 20. */

/* A record that says nothing: version 0, which there is none of, Software levels, empty octets and empty lists. */
static inline void sculldrip_clear(uint64_t *image) {
    size_t i;
    for (i = 0; i < SCULLDRIP_IMAGE_WORDS; i++)
        image[i] = 0;
}

static inline void sculldrip_put_attestation(uint64_t *image, uint32_t version, uint32_t level) {
    image[SCULLDRIP_AT_VERSION] = version;
    image[SCULLDRIP_AT_LEVEL] = level;
}
static inline void sculldrip_put_keymint(uint64_t *image, uint32_t version, uint32_t level) {
    image[SCULLDRIP_AT_KEYMINT_VERSION] = version;
    image[SCULLDRIP_AT_KEYMINT_LEVEL] = level;
}

static inline void sculldrip_put_part_at(uint64_t *words, struct sculldrip_part part) {
    words[0] = part.start;
    words[1] = part.length;
}
static inline void sculldrip_put_challenge(uint64_t *image, struct sculldrip_part part) {
    sculldrip_put_part_at(image + SCULLDRIP_AT_CHALLENGE, part);
}
static inline void sculldrip_put_unique_id(uint64_t *image, struct sculldrip_part part) {
    sculldrip_put_part_at(image + SCULLDRIP_AT_UNIQUE_ID, part);
}

/* Takes a field out of a list, whatever its kind. */
static inline void sculldrip_remove(uint64_t *image, unsigned list, unsigned row) {
    if (row < SCULLDRIP_ROWS)
        image[sculldrip_at_list(list) + row] = 0;
}

static inline int sculldrip_put_flag(uint64_t *image, unsigned list, unsigned row) {
    if (sculldrip_kind_of(row) != SCULLDRIP_KIND_FLAG)
        return 0;
    image[sculldrip_at_list(list) + row] = 1;
    return 1;
}

static inline int sculldrip_put_number(uint64_t *image, unsigned list, unsigned row, uint64_t number) {
    if (sculldrip_kind_of(row) != SCULLDRIP_KIND_NUMBER)
        return 0;
    image[sculldrip_at_list(list) + row] = 1;
    image[sculldrip_at_list(list) + SCULLDRIP_AT_NUMBERS + row] = number;
    return 1;
}

static inline int sculldrip_put_octets(uint64_t *image, unsigned list, unsigned row, struct sculldrip_part part) {
    if (sculldrip_kind_of(row) != SCULLDRIP_KIND_OCTETS)
        return 0;
    image[sculldrip_at_list(list) + row] = 1;
    image[sculldrip_at_list(list) + SCULLDRIP_AT_NUMBERS + row] = part.start;
    image[sculldrip_at_list(list) + SCULLDRIP_AT_LENGTHS + row] = part.length;
    return 1;
}

/* Members ascend, each above the one before, and are at most 16: more are counted, so that the record is refused. */
static inline int sculldrip_put_set(uint64_t *image, unsigned list, unsigned row, const uint32_t *members, size_t count) {
    uint64_t *slots;
    size_t i;
    if (sculldrip_kind_of(row) != SCULLDRIP_KIND_SET)
        return 0;
    image[sculldrip_at_list(list) + row] = 1;
    slots = image + sculldrip_at_list(list) + sculldrip_at_set(row);
    for (i = 0; i < SCULLDRIP_SET_MEMBERS; i++)
        slots[i] = i < count ? members[i] : 0;
    slots[SCULLDRIP_SET_MEMBERS] = count;
    return 1;
}

/* A hash stands exactly from version 3. */
static inline void sculldrip_put_root(uint64_t *image, unsigned list, const struct sculldrip_root *root) {
    uint64_t *words = image + sculldrip_at_list(list) + SCULLDRIP_AT_ROOT;
    image[sculldrip_at_list(list) + SCULLDRIP_ROW_ROOT_OF_TRUST] = 1;
    sculldrip_put_part_at(words, root->key);
    words[2] = root->is_locked != 0;
    words[3] = root->state;
    words[4] = root->has_hash != 0;
    words[5] = root->has_hash ? root->hash.start : 0;
    words[6] = root->has_hash ? root->hash.length : 0;
}

#ifdef __cplusplus
}
#endif
#endif
