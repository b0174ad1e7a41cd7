// OpenSSL's ASN.1 templates: d2i into its structs, then each value taken from them, then the structs are freed. Octets are
// left where OpenSSL copied them.
#include "record.h"
#include <openssl/asn1t.h>
#include <string.h>

typedef struct {
    ASN1_OCTET_STRING *verifiedBootKey;
    ASN1_BOOLEAN deviceLocked;
    ASN1_ENUMERATED *verifiedBootState;
    ASN1_OCTET_STRING *verifiedBootHash;
} ROOT_OF_TRUST;
ASN1_SEQUENCE(ROOT_OF_TRUST) = {
    ASN1_SIMPLE(ROOT_OF_TRUST, verifiedBootKey, ASN1_OCTET_STRING),
    ASN1_SIMPLE(ROOT_OF_TRUST, deviceLocked, ASN1_BOOLEAN),
    ASN1_SIMPLE(ROOT_OF_TRUST, verifiedBootState, ASN1_ENUMERATED),
    ASN1_OPT(ROOT_OF_TRUST, verifiedBootHash, ASN1_OCTET_STRING),
} ASN1_SEQUENCE_END(ROOT_OF_TRUST)

#define SET_MEMBER(row, name, number, first, last) STACK_OF(ASN1_INTEGER) *name;
#define NUMBER_MEMBER(row, name, number, first, last) ASN1_INTEGER *name;
#define NONE_MEMBER(row, name, number, first, last) ASN1_NULL *name;
#define OCTETS_MEMBER(row, name, number, first, last) ASN1_OCTET_STRING *name;
#define ROOT_MEMBER(row, name, number, first, last) ROOT_OF_TRUST *name;
typedef struct {
    LIST_ROWS(SET_MEMBER, NUMBER_MEMBER, NUMBER_MEMBER, NONE_MEMBER, OCTETS_MEMBER, ROOT_MEMBER)
} AUTH_LIST;

#define SET_TEMPLATE(row, name, number, first, last) ASN1_EXP_SET_OF_OPT(AUTH_LIST, name, ASN1_INTEGER, number),
#define NUMBER_TEMPLATE(row, name, number, first, last) ASN1_EXP_OPT(AUTH_LIST, name, ASN1_INTEGER, number),
#define NONE_TEMPLATE(row, name, number, first, last) ASN1_EXP_OPT(AUTH_LIST, name, ASN1_NULL, number),
#define OCTETS_TEMPLATE(row, name, number, first, last) ASN1_EXP_OPT(AUTH_LIST, name, ASN1_OCTET_STRING, number),
#define ROOT_TEMPLATE(row, name, number, first, last) ASN1_EXP_OPT(AUTH_LIST, name, ROOT_OF_TRUST, number),
ASN1_SEQUENCE(AUTH_LIST) = {
    LIST_ROWS(SET_TEMPLATE, NUMBER_TEMPLATE, NUMBER_TEMPLATE, NONE_TEMPLATE, OCTETS_TEMPLATE, ROOT_TEMPLATE)
} ASN1_SEQUENCE_END(AUTH_LIST)

typedef struct {
    ASN1_INTEGER *attestationVersion;
    ASN1_ENUMERATED *attestationSecurityLevel;
    ASN1_INTEGER *keyMintVersion;
    ASN1_ENUMERATED *keyMintSecurityLevel;
    ASN1_OCTET_STRING *attestationChallenge, *uniqueId;
    AUTH_LIST *softwareEnforced, *hardwareEnforced;
} KEY_DESCRIPTION;
ASN1_SEQUENCE(KEY_DESCRIPTION) = {
    ASN1_SIMPLE(KEY_DESCRIPTION, attestationVersion, ASN1_INTEGER),
    ASN1_SIMPLE(KEY_DESCRIPTION, attestationSecurityLevel, ASN1_ENUMERATED),
    ASN1_SIMPLE(KEY_DESCRIPTION, keyMintVersion, ASN1_INTEGER),
    ASN1_SIMPLE(KEY_DESCRIPTION, keyMintSecurityLevel, ASN1_ENUMERATED),
    ASN1_SIMPLE(KEY_DESCRIPTION, attestationChallenge, ASN1_OCTET_STRING),
    ASN1_SIMPLE(KEY_DESCRIPTION, uniqueId, ASN1_OCTET_STRING),
    ASN1_SIMPLE(KEY_DESCRIPTION, softwareEnforced, AUTH_LIST),
    ASN1_SIMPLE(KEY_DESCRIPTION, hardwareEnforced, AUTH_LIST),
} ASN1_SEQUENCE_END(KEY_DESCRIPTION)
DECLARE_ASN1_FUNCTIONS(KEY_DESCRIPTION)
IMPLEMENT_ASN1_FUNCTIONS(KEY_DESCRIPTION)

static bool number(const ASN1_INTEGER *from, uint64_t top, uint64_t *out) {
    return ASN1_INTEGER_get_uint64(out, from) == 1 && *out <= top;
}

static bool number32(const ASN1_INTEGER *from, uint32_t *out) {
    uint64_t value;
    if (!number(from, UINT32_MAX, &value)) return false;
    *out = (uint32_t)value;
    return true;
}

static bool enumerated(const ASN1_ENUMERATED *from, uint32_t *out) {
    int64_t value;
    if (ASN1_ENUMERATED_get_int64(&value, from) != 1 || value < 0 || value > UINT32_MAX) return false;
    *out = (uint32_t)value;
    return true;
}

static part octets(const ASN1_OCTET_STRING *from) {
    return (part){(size_t)ASN1_STRING_get0_data(from), (size_t)ASN1_STRING_length(from)};
}

static bool set(const STACK_OF(ASN1_INTEGER) *from, number_set *out) {
    int count = sk_ASN1_INTEGER_num(from);
    if (count > MEMBERS) return false;
    for (int i = 0; i < count; i++)
        if (!number32(sk_ASN1_INTEGER_value(from, i), &out->members[i])) return false;
    out->count = (size_t)count;
    return true;
}

static bool root(const ROOT_OF_TRUST *from, root_of_trust *out) {
    out->key = octets(from->verifiedBootKey);
    out->locked = from->deviceLocked != 0;
    out->hashed = from->verifiedBootHash != NULL;
    if (out->hashed) out->hash = octets(from->verifiedBootHash);
    return enumerated(from->verifiedBootState, &out->state);
}

#define SET_TAKE(row, name, number_, first, last)                                                                      \
    if ((out->present[row] = from->name != NULL) && !set(from->name, &out->name)) return false;
#define NARROW_TAKE(row, name, number_, first, last)                                                                   \
    if ((out->present[row] = from->name != NULL) && !number(from->name, UINT32_MAX, &out->values[row])) return false;
#define WIDE_TAKE(row, name, number_, first, last)                                                                     \
    if ((out->present[row] = from->name != NULL) && !number(from->name, UINT64_MAX, &out->values[row])) return false;
#define NONE_TAKE(row, name, number_, first, last) out->present[row] = from->name != NULL;
#define OCTETS_TAKE(row, name, number_, first, last)                                                                   \
    if ((out->present[row] = from->name != NULL)) {                                                                    \
        part it = octets(from->name);                                                                                  \
        out->values[row] = it.start;                                                                                   \
        out->sizes[row] = it.len;                                                                                      \
    }
#define ROOT_TAKE(row, name, number_, first, last)                                                                     \
    if ((out->present[row] = from->name != NULL) && !root(from->name, &out->name)) return false;
static bool take_list(const AUTH_LIST *from, field_list *out) {
    LIST_ROWS(SET_TAKE, NARROW_TAKE, WIDE_TAKE, NONE_TAKE, OCTETS_TAKE, ROOT_TAKE)
    return true;
}

static bool take(const KEY_DESCRIPTION *from, record *out) {
    out->challenge = octets(from->attestationChallenge);
    out->unique = octets(from->uniqueId);
    return number32(from->attestationVersion, &out->attestation.version)
        && enumerated(from->attestationSecurityLevel, &out->attestation.level)
        && number32(from->keyMintVersion, &out->keymint.version)
        && enumerated(from->keyMintSecurityLevel, &out->keymint.level)
        && take_list(from->softwareEnforced, &out->software) && take_list(from->hardwareEnforced, &out->hardware);
}

static KEY_DESCRIPTION *read_record(const uint8_t *bytes, size_t len, record *out) {
    const uint8_t *at = bytes;
    KEY_DESCRIPTION *all = d2i_KEY_DESCRIPTION(NULL, &at, (long)len);
    if (all && at == bytes + len && take(all, out)) return all;
    KEY_DESCRIPTION_free(all);
    return NULL;
}

bool peer_read(const uint8_t *bytes, size_t len, record *said) {
    KEY_DESCRIPTION *all = read_record(bytes, len, said);
    KEY_DESCRIPTION_free(all);
    return all != NULL;
}

uint64_t peer_sum(const uint8_t *bytes, size_t len, summing sum) {
    record said;
    KEY_DESCRIPTION *all = read_record(bytes, len, &said);
    uint64_t told = all ? sum(&said, NULL) : 0;
    KEY_DESCRIPTION_free(all);
    return told;
}
