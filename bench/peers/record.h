// What every reader of the comparison reads into, and what its library offers.
#ifndef PEERS_RECORD_H
#define PEERS_RECORD_H

#include <stdbool.h>
#include <stddef.h>
#include <stdint.h>

#define ROWS 42
#define MEMBERS 16

typedef struct { size_t start, len; } part;
typedef struct { uint32_t members[MEMBERS]; size_t count; } number_set;
typedef struct { part key; bool locked; uint32_t state; bool hashed; part hash; } root_of_trust;
typedef struct {
    bool present[ROWS];
    uint64_t values[ROWS], sizes[ROWS];  // a number, or octets' start; octets' length
    number_set purpose, digest, padding, mgfDigest;
    root_of_trust rootOfTrust;
} field_list;
typedef struct { uint32_t version, level; } security;
typedef struct { security attestation, keymint; part challenge, unique; field_list software, hardware; } record;

// A checksum of all that a record says. A part's start counts from base: the bytes read, or null where the reader keeps
// copies of its own and start is an address.
typedef uint64_t (*summing)(const record *said, const uint8_t *base);

// Each reader's library has these two. The first is timed: a read of all fields into a plain struct, the caller's record or
// a local one of the reader's own type, and giving back what was taken for it; in Sculldrip's place sculldrip_read itself is.
// The second reads in the same way and answers the sum of what was said; 0 where it is refused.
bool peer_read(const uint8_t *bytes, size_t len, record *said);
uint64_t peer_sum(const uint8_t *bytes, size_t len, summing sum);

// The compiler must take it that all of *what is used.
#define USED(what) __asm__ volatile("" : : "r"(what) : "memory")

// The fields of a list in ascending number, by kind: KIND(row, name, number, first version, last version).
#define LIST_ROWS(SET, NARROW, WIDE, NONE, OCTETS, ROOT)                                                               \
    SET(0, purpose, 1, 1, 300)                                                                                         \
    NARROW(1, algorithm, 2, 1, 300)                                                                                    \
    NARROW(2, keySize, 3, 1, 300)                                                                                      \
    SET(3, digest, 5, 1, 300)                                                                                          \
    SET(4, padding, 6, 1, 300)                                                                                         \
    NARROW(5, ecCurve, 10, 1, 300)                                                                                     \
    WIDE(6, rsaPublicExponent, 200, 1, 300)                                                                            \
    SET(7, mgfDigest, 203, 100, 300)                                                                                   \
    NONE(8, rollbackResistance, 303, 3, 300)                                                                           \
    NONE(9, earlyBootOnly, 305, 4, 300)                                                                                \
    WIDE(10, activeDateTime, 400, 1, 300)                                                                              \
    WIDE(11, originationExpireDateTime, 401, 1, 300)                                                                   \
    WIDE(12, usageExpireDateTime, 402, 1, 300)                                                                         \
    NARROW(13, usageCountLimit, 405, 100, 300)                                                                         \
    NONE(14, noAuthRequired, 503, 1, 300)                                                                              \
    NARROW(15, userAuthType, 504, 1, 300)                                                                              \
    NARROW(16, authTimeout, 505, 1, 300)                                                                               \
    NONE(17, allowWhileOnBody, 506, 1, 300)                                                                            \
    NONE(18, trustedUserPresenceRequired, 507, 3, 300)                                                                 \
    NONE(19, trustedConfirmationRequired, 508, 3, 300)                                                                 \
    NONE(20, unlockedDeviceRequired, 509, 3, 300)                                                                      \
    NONE(21, allApplications, 600, 1, 4)                                                                               \
    OCTETS(22, applicationId, 601, 1, 0)                                                                               \
    WIDE(23, creationDateTime, 701, 1, 300)                                                                            \
    NARROW(24, origin, 702, 1, 300)                                                                                    \
    NONE(25, rollbackResistant, 703, 1, 2)                                                                             \
    ROOT(26, rootOfTrust, 704, 1, 300)                                                                                 \
    NARROW(27, osVersion, 705, 1, 300)                                                                                 \
    NARROW(28, osPatchLevel, 706, 1, 300)                                                                              \
    OCTETS(29, attestationApplicationId, 709, 2, 300)                                                                  \
    OCTETS(30, attestationIdBrand, 710, 2, 300)                                                                        \
    OCTETS(31, attestationIdDevice, 711, 2, 300)                                                                       \
    OCTETS(32, attestationIdProduct, 712, 2, 300)                                                                      \
    OCTETS(33, attestationIdSerial, 713, 2, 300)                                                                       \
    OCTETS(34, attestationIdImei, 714, 2, 300)                                                                         \
    OCTETS(35, attestationIdMeid, 715, 2, 300)                                                                         \
    OCTETS(36, attestationIdManufacturer, 716, 2, 300)                                                                 \
    OCTETS(37, attestationIdModel, 717, 2, 300)                                                                        \
    NARROW(38, vendorPatchLevel, 718, 3, 300)                                                                          \
    NARROW(39, bootPatchLevel, 719, 3, 300)                                                                            \
    NONE(40, deviceUniqueAttestation, 720, 4, 300)                                                                     \
    OCTETS(41, attestationIdSecondImei, 723, 300, 300)

#endif
