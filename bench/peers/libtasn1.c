// libtasn1: a compiled module definition (key_description.asn), a structure decoded by it, each value read out by its name,
// and the structure deleted. Octets are read into a buffer of the reader's own.
#include "record.h"
#include <libtasn1.h>
#include <stdio.h>
#include <stdlib.h>
#include <string.h>

extern const asn1_static_node key_description[];

typedef struct { asn1_node all; uint8_t *room; size_t left; } source;
typedef enum { REFUSED, ABSENT, THERE } found;

static asn1_node definitions;

__attribute__((constructor)) static void define(void) {
    char why[ASN1_MAX_ERROR_DESCRIPTION_SIZE];
    if (asn1_array2tree(key_description, &definitions, why) != ASN1_SUCCESS) abort();
}

static found value(const source *from, const char *path, void *out, int *len) {
    int answer = asn1_read_value(from->all, path, out, len);
    return answer == ASN1_SUCCESS ? THERE : answer == ASN1_ELEMENT_NOT_FOUND ? ABSENT : REFUSED;
}

static found number(const source *from, const char *path, uint64_t top, uint64_t *out) {
    uint8_t octets[16];
    int len = sizeof octets;
    found is = value(from, path, octets, &len);
    if (is != THERE) return is;
    if (len < 1 || len > 9 || octets[0] & 128 || (len == 9 && octets[0])) return REFUSED;
    *out = 0;
    for (int i = 0; i < len; i++) *out = *out << 8 | octets[i];
    return *out <= top ? THERE : REFUSED;
}

static bool number32(const source *from, const char *path, uint32_t *out) {
    uint64_t wide;
    if (number(from, path, UINT32_MAX, &wide) != THERE) return false;
    *out = (uint32_t)wide;
    return true;
}

static found octets(source *from, const char *path, part *out) {
    int len = (int)from->left;
    found is = value(from, path, from->room, &len);
    if (is != THERE) return is;
    *out = (part){(size_t)from->room, (size_t)len};
    from->room += len;
    from->left -= (size_t)len;
    return THERE;
}

static found set(const source *from, const char *path, number_set *out) {
    int count;
    int answer = asn1_number_of_elements(from->all, path, &count);
    if (answer != ASN1_SUCCESS) return answer == ASN1_ELEMENT_NOT_FOUND ? ABSENT : REFUSED;
    if (count > MEMBERS) return REFUSED;
    for (int i = 0; i < count; i++) {
        char member[96];
        snprintf(member, sizeof member, "%s.?%d", path, i + 1);
        if (!number32(from, member, &out->members[i])) return REFUSED;
    }
    out->count = (size_t)count;
    return THERE;
}

static found octet_field(source *from, const char *path, uint64_t *start, uint64_t *size) {
    part it;
    found is = octets(from, path, &it);
    if (is != THERE) return is;
    *start = it.start;
    *size = it.len;
    return THERE;
}

static found none(const source *from, const char *path) {
    char text[8];
    int len = sizeof text;
    return value(from, path, text, &len);
}

// The list that path names is one of the two.
#define ROOT_PATH(list, member) ((list)[0] == 's' ? "softwareEnforced.rootOfTrust." member : "hardwareEnforced.rootOfTrust." member)
static found root(source *from, const char *path, root_of_trust *out) {
    char text[8];
    int len = sizeof text;
    found is = octets(from, ROOT_PATH(path, "verifiedBootKey"), &out->key);
    if (is != THERE) return is;
    if (value(from, ROOT_PATH(path, "deviceLocked"), text, &len) != THERE) return REFUSED;
    out->locked = strcmp(text, "TRUE") == 0;
    if (!number32(from, ROOT_PATH(path, "verifiedBootState"), &out->state)) return REFUSED;
    found hash = octets(from, ROOT_PATH(path, "verifiedBootHash"), &out->hash);
    out->hashed = hash == THERE;
    return hash == REFUSED ? REFUSED : THERE;
}

#define TAKE(row, reading)                                                                                             \
    is = reading;                                                                                                      \
    if (is == REFUSED) return false;                                                                                   \
    out->present[row] = is == THERE;
#define LIST(list, function)                                                                                           \
    static bool function(source *from, field_list *out) {                                                              \
        found is;                                                                                                      \
        LIST_ROWS(SET_##list, NARROW_##list, WIDE_##list, NONE_##list, OCTETS_##list, ROOT_##list)                     \
        return true;                                                                                                   \
    }
#define SET_software(row, name, n, a, z) TAKE(row, set(from, "softwareEnforced." #name, &out->name))
#define NARROW_software(row, name, n, a, z) TAKE(row, number(from, "softwareEnforced." #name, UINT32_MAX, &out->values[row]))
#define WIDE_software(row, name, n, a, z) TAKE(row, number(from, "softwareEnforced." #name, UINT64_MAX, &out->values[row]))
#define NONE_software(row, name, n, a, z) TAKE(row, none(from, "softwareEnforced." #name))
#define OCTETS_software(row, name, n, a, z)                                                                            \
    TAKE(row, octet_field(from, "softwareEnforced." #name, &out->values[row], &out->sizes[row]))
#define ROOT_software(row, name, n, a, z) TAKE(row, root(from, "softwareEnforced." #name, &out->name))
#define SET_hardware(row, name, n, a, z) TAKE(row, set(from, "hardwareEnforced." #name, &out->name))
#define NARROW_hardware(row, name, n, a, z) TAKE(row, number(from, "hardwareEnforced." #name, UINT32_MAX, &out->values[row]))
#define WIDE_hardware(row, name, n, a, z) TAKE(row, number(from, "hardwareEnforced." #name, UINT64_MAX, &out->values[row]))
#define NONE_hardware(row, name, n, a, z) TAKE(row, none(from, "hardwareEnforced." #name))
#define OCTETS_hardware(row, name, n, a, z)                                                                            \
    TAKE(row, octet_field(from, "hardwareEnforced." #name, &out->values[row], &out->sizes[row]))
#define ROOT_hardware(row, name, n, a, z) TAKE(row, root(from, "hardwareEnforced." #name, &out->name))
LIST(software, take_software)
LIST(hardware, take_hardware)

static bool take(source *from, record *out) {
    return number32(from, "attestationVersion", &out->attestation.version)
        && number32(from, "attestationSecurityLevel", &out->attestation.level)
        && number32(from, "keyMintVersion", &out->keymint.version)
        && number32(from, "keyMintSecurityLevel", &out->keymint.level)
        && octets(from, "attestationChallenge", &out->challenge) == THERE && octets(from, "uniqueId", &out->unique) == THERE
        && take_software(from, &out->software) && take_hardware(from, &out->hardware);
}

static bool read_record(const uint8_t *bytes, size_t len, record *out) {
    static uint8_t room[8192];
    source from = {NULL, room, sizeof room};
    if (asn1_create_element(definitions, "KeyAttestation.KeyDescription", &from.all) != ASN1_SUCCESS) return false;
    bool read = asn1_der_decoding(&from.all, bytes, (int)len, NULL) == ASN1_SUCCESS && take(&from, out);
    asn1_delete_structure(&from.all);
    return read;
}

bool peer_read(const uint8_t *bytes, size_t len, record *said) { return read_record(bytes, len, said); }

uint64_t peer_sum(const uint8_t *bytes, size_t len, summing sum) {
    record said;
    return read_record(bytes, len, &said) ? sum(&said, NULL) : 0;
}
