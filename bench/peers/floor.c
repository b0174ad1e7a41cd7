// The floor: a reader written by hand in plain C, with document 01's two passes and all of its checks but no refusal
// numbers or places, and no proof.
#include "record.h"
#include <string.h>

enum { BOOLEAN = 0x01, INTEGER = 0x02, OCTET_STRING = 0x04, NOTHING = 0x05, ENUMERATED = 0x0A, SEQUENCE = 0x30, SET = 0x31 };

typedef struct { uint8_t first; uint32_t number; size_t body, end; } element;

static inline __attribute__((always_inline)) bool open_element(const uint8_t *s, size_t at, size_t end, element *e) {
    if (at >= end) return false;
    e->first = s[at++];
    e->number = e->first & 31;
    if (e->number == 31) {
        if (at >= end) return false;
        uint32_t number = s[at++];
        if (number & 128) {
            if (number == 128 || at >= end || s[at] & 128) return false;
            number = (number & 127) << 7 | s[at++];
        }
        if (number < 31) return false;
        e->number = number;
    }
    if (at >= end) return false;
    size_t len = s[at++];
    if (len == 0x81) {
        if (at >= end || s[at] < 128) return false;
        len = s[at++];
    } else if (len == 0x82) {
        if (end - at < 2 || s[at] == 0) return false;
        len = (size_t)s[at] << 8 | s[at + 1];
        at += 2;
    } else if (len >= 128) {
        return false;
    }
    if (len > end - at) return false;
    e->body = at;
    e->end = at + len;
    return true;
}

static bool walk(const uint8_t *s, size_t at, size_t end, unsigned depth, size_t *count) {
    while (at < end) {
        element e;
        if (depth > 8 || ++*count > 512 || !open_element(s, at, end, &e)) return false;
        if (e.first & 32 && !walk(s, e.body, e.end, depth + 1, count)) return false;
        at = e.end;
    }
    return true;
}

static bool tagged(const uint8_t *s, size_t *at, size_t end, uint8_t first, element *e) {
    if (!open_element(s, *at, end, e) || e->first != first) return false;
    *at = e->end;
    return true;
}

static bool read_number(const uint8_t *s, size_t *at, size_t end, uint8_t first, uint64_t top, uint64_t *out) {
    element e;
    if (!tagged(s, at, end, first, &e)) return false;
    size_t n = e.end - e.body;
    const uint8_t *p = s + e.body;
    if (n == 0 || n > 9 || p[0] & 128 || (n == 9 && p[0]) || (n > 1 && !p[0] && !(p[1] & 128))) return false;
    uint64_t value = 0;
    for (size_t i = 0; i < n; i++) value = value << 8 | p[i];
    *out = value;
    return value <= top;
}

static bool read_number32(const uint8_t *s, size_t *at, size_t end, uint8_t first, uint32_t top, uint32_t *out) {
    uint64_t value;
    if (!read_number(s, at, end, first, top, &value)) return false;
    *out = (uint32_t)value;
    return true;
}

static bool read_octets(const uint8_t *s, size_t *at, size_t end, part *out) {
    element e;
    if (!tagged(s, at, end, OCTET_STRING, &e)) return false;
    *out = (part){e.body, e.end - e.body};
    return true;
}

static bool read_set(const uint8_t *s, size_t *at, size_t end, number_set *out) {
    element e;
    if (!tagged(s, at, end, SET, &e)) return false;
    size_t count = 0, in = e.body;
    while (in < e.end) {
        if (count == MEMBERS || !read_number32(s, &in, e.end, INTEGER, UINT32_MAX, &out->members[count])) return false;
        if (count && out->members[count] <= out->members[count - 1]) return false;
        count++;
    }
    out->count = count;
    return true;
}

static bool read_root(const uint8_t *s, size_t *at, size_t end, uint32_t version, root_of_trust *out) {
    element e, locked;
    if (!tagged(s, at, end, SEQUENCE, &e)) return false;
    size_t in = e.body;
    if (!read_octets(s, &in, e.end, &out->key) || !tagged(s, &in, e.end, BOOLEAN, &locked)) return false;
    if (locked.end - locked.body != 1 || (s[locked.body] != 0 && s[locked.body] != 255)) return false;
    out->locked = s[locked.body] != 0;
    if (!read_number32(s, &in, e.end, ENUMERATED, 3, &out->state)) return false;
    out->hashed = version >= 3;
    if (out->hashed && !read_octets(s, &in, e.end, &out->hash)) return false;
    return in == e.end;
}

typedef enum { ABSENT, SET_KIND, NARROW_KIND, WIDE_KIND, NONE_KIND, OCTETS_KIND, ROOT_KIND } kind;
typedef struct { uint8_t kind, row; uint16_t first, last; } field_row;

#define SET_ROW(row, name, number, first, last) [number] = {SET_KIND, row, first, last},
#define NARROW_ROW(row, name, number, first, last) [number] = {NARROW_KIND, row, first, last},
#define WIDE_ROW(row, name, number, first, last) [number] = {WIDE_KIND, row, first, last},
#define NONE_ROW(row, name, number, first, last) [number] = {NONE_KIND, row, first, last},
#define OCTETS_ROW(row, name, number, first, last) [number] = {OCTETS_KIND, row, first, last},
#define ROOT_ROW(row, name, number, first, last) [number] = {ROOT_KIND, row, first, last},
static const field_row by_number[724] = {LIST_ROWS(SET_ROW, NARROW_ROW, WIDE_ROW, NONE_ROW, OCTETS_ROW, ROOT_ROW)};

static number_set *set_of(field_list *list, unsigned row) {
    return row == 0 ? &list->purpose : row == 3 ? &list->digest : row == 4 ? &list->padding : &list->mgfDigest;
}

static bool read_content(const uint8_t *s, size_t *at, size_t end, field_row is, uint32_t version, field_list *out) {
    element e;
    part octets;
    switch (is.kind) {
    case SET_KIND: return read_set(s, at, end, set_of(out, is.row));
    case NARROW_KIND: return read_number(s, at, end, INTEGER, UINT32_MAX, &out->values[is.row]);
    case WIDE_KIND: return read_number(s, at, end, INTEGER, UINT64_MAX, &out->values[is.row]);
    case NONE_KIND: return tagged(s, at, end, NOTHING, &e) && e.end == e.body;
    case OCTETS_KIND:
        if (!read_octets(s, at, end, &octets)) return false;
        out->values[is.row] = octets.start;
        out->sizes[is.row] = octets.len;
        return true;
    default: return read_root(s, at, end, version, &out->rootOfTrust);
    }
}

static bool read_field(const uint8_t *s, const element *field, uint32_t version, field_list *out) {
    if (field->number >= sizeof by_number / sizeof *by_number) return false;
    field_row is = by_number[field->number];
    if (is.kind == ABSENT || version < is.first || version > is.last) return false;
    size_t at = field->body;
    out->present[is.row] = true;
    return read_content(s, &at, field->end, is, version, out) && at == field->end;
}

static bool read_list(const uint8_t *s, size_t *at, size_t end, uint32_t version, field_list *out) {
    element list, field;
    memset(out->present, 0, sizeof out->present);
    if (!tagged(s, at, end, SEQUENCE, &list)) return false;
    uint32_t last = 0;
    for (size_t in = list.body; in < list.end; in = field.end) {
        if (!open_element(s, in, list.end, &field) || (field.first & 0xE0) != 0xA0) return false;
        if (field.number <= last || !read_field(s, &field, version, out)) return false;
        last = field.number;
    }
    return true;
}

static bool known(uint32_t v) { return (v >= 1 && v <= 4) || v == 100 || v == 200 || v == 300; }

static bool read_record(const uint8_t *s, size_t len, record *out) {
    element whole;
    size_t count = 0, at = 0;
    if (len > 8192 || !walk(s, 0, len, 1, &count)) return false;
    if (!tagged(s, &at, len, SEQUENCE, &whole) || at != len) return false;
    at = whole.body;
    size_t end = whole.end;
    if (!read_number32(s, &at, end, INTEGER, UINT32_MAX, &out->attestation.version)) return false;
    uint32_t version = out->attestation.version, top = version < 3 ? 1 : 2;
    return known(version) && read_number32(s, &at, end, ENUMERATED, top, &out->attestation.level)
        && read_number32(s, &at, end, INTEGER, UINT32_MAX, &out->keymint.version)
        && read_number32(s, &at, end, ENUMERATED, top, &out->keymint.level) && read_octets(s, &at, end, &out->challenge)
        && read_octets(s, &at, end, &out->unique) && read_list(s, &at, end, version, &out->software)
        && read_list(s, &at, end, version, &out->hardware) && at == end;
}

bool peer_read(const uint8_t *bytes, size_t len, record *said) { return read_record(bytes, len, said); }

uint64_t peer_sum(const uint8_t *bytes, size_t len, summing sum) {
    record said;
    return read_record(bytes, len, &said) ? sum(&said, bytes) : 0;
}
