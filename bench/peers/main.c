// Compares readers on the files named. Built and run by bench/peers/run; the directory holds the readers' libraries, and one
// that is not there is left out.
//
//   compare check DIRECTORY FILE..   each reader must accept each file and say the same; a line for each file
//   compare time DIRECTORY FILE..    READER|FILE|BYTES|ELEMENTS|KIND|NS for each reader and file
//
// Rounds of all readers take turns, so that other work on the machine disturbs all alike, and the least round of each is
// printed. Where a process's stack happens to lie moves the figures of short reads: the script takes the median of many.
#include "../../include/sculldrip.h"
#include "record.h"
#include <dlfcn.h>
#include <stdio.h>
#include <stdlib.h>
#include <string.h>
#include <time.h>
#include <unistd.h>

enum { ROUNDS = 20, ROUND_NS = 2000000, MOST_FILES = 8, READERS = 7, SCULLDRIP = 0, FLOOR = 1, FIRST_PEER = 3 };

typedef struct {
    const char *name, *library, *kind;
    bool (*read)(const uint8_t *, size_t, record *);
    uint64_t (*sum)(const uint8_t *, size_t, summing);
    double ns[MOST_FILES];
} reader;
typedef struct { const char *name; uint8_t bytes[8193]; size_t len, elements; uint64_t sum; } input;

static reader readers[READERS] = {{.name = "Sculldrip", .library = "sculldrip", .kind = "sculldrip"},
                                  {.name = "floor: plain C, gcc", .library = "floor", .kind = "floor"},
                                  {.name = "floor: plain C, clang", .library = "floor_clang", .kind = "floor"},
                                  {.name = "asn1 (Rust)", .library = "asn1", .kind = "peer"},
                                  {.name = "der-parser (Rust)", .library = "der_parser", .kind = "peer"},
                                  {.name = "OpenSSL templates", .library = "openssl", .kind = "peer"},
                                  {.name = "libtasn1", .library = "libtasn1", .kind = "peer"}};
static uint64_t (*read_itself)(const uint8_t *, size_t, uint64_t *, size_t);  // sculldrip_read, of the library
static input inputs[MOST_FILES];
static record room;  // what is read into
static uint64_t image[SCULLDRIP_IMAGE_WORDS];
static int files;

static bool is_there(int reader) { return readers[reader].sum != NULL; }

static void stop(const char *what, const char *name) {
    fprintf(stderr, "compare: %s: %s\n", name, what);
    exit(1);
}

// FNV-1a over eight bytes at a time is enough to tell records apart; octets are taken one by one.
static uint64_t mix(uint64_t sum, uint64_t value) { return (sum ^ value) * 0x100000001B3u; }

static uint64_t mix_part(uint64_t sum, const uint8_t *base, size_t start, size_t len) {
    const uint8_t *at = (const uint8_t *)((uintptr_t)base + start);
    sum = mix(sum, len);
    for (size_t i = 0; i < len; i++) sum = mix(sum, at[i]);
    return sum;
}

static uint64_t mix_set(uint64_t sum, const number_set *set) {
    sum = mix(sum, set->count);
    for (size_t i = 0; i < set->count; i++) sum = mix(sum, set->members[i]);
    return sum;
}

static uint64_t mix_list(uint64_t sum, const field_list *list, const uint8_t *base) {
#define SET_MIX(row, name, number, first, last) if (list->present[row]) sum = mix_set(mix(sum, number), &list->name);
#define NUMBER_MIX(row, name, number, first, last) if (list->present[row]) sum = mix(mix(sum, number), list->values[row]);
#define NONE_MIX(row, name, number, first, last) if (list->present[row]) sum = mix(sum, number);
#define OCTETS_MIX(row, name, number, first, last)                                                                     \
    if (list->present[row]) sum = mix_part(mix(sum, number), base, list->values[row], list->sizes[row]);
#define ROOT_MIX(row, name, number, first, last)                                                                       \
    if (list->present[row]) {                                                                                          \
        const root_of_trust *root = &list->name;                                                                       \
        sum = mix_part(mix(sum, number), base, root->key.start, root->key.len);                                        \
        sum = mix(mix(mix(sum, root->locked), root->state), root->hashed);                                             \
        if (root->hashed) sum = mix_part(sum, base, root->hash.start, root->hash.len);                                 \
    }
    LIST_ROWS(SET_MIX, NUMBER_MIX, NUMBER_MIX, NONE_MIX, OCTETS_MIX, ROOT_MIX)
    return mix(sum, 0xFFFF);
}

static uint64_t sum_of(const record *said, const uint8_t *base) {
    uint64_t sum = 0xCBF29CE484222325u;
    sum = mix(mix(sum, said->attestation.version), said->attestation.level);
    sum = mix(mix(sum, said->keymint.version), said->keymint.level);
    sum = mix_part(sum, base, said->challenge.start, said->challenge.len);
    sum = mix_part(sum, base, said->unique.start, said->unique.len);
    return mix_list(mix_list(sum, &said->software, base), &said->hardware, base) | 1;
}

// How many elements stand in accepted bytes.
static size_t elements(const uint8_t *s, size_t len) {
    size_t count = 0;
    for (size_t at = 0; at < len;) {
        uint8_t first = s[at++];
        if ((first & 31) == 31) while (s[at++] & 128) {}
        size_t size = s[at++];
        if (size == 0x81) size = s[at++];
        else if (size == 0x82) size = (size_t)s[at] << 8 | s[at + 1], at += 2;
        count += 1 + (first & 32 ? elements(s + at, size) : 0);
        at += size;
    }
    return count;
}

static void load_readers(const char *directory) {
    for (int r = 0; r < READERS; r++) {
        char path[4096];
        snprintf(path, sizeof path, "%s/lib%s.so", directory, readers[r].library);
        if (access(path, R_OK) != 0) continue;
        void *library = dlopen(path, RTLD_NOW | RTLD_LOCAL);
        if (!library) stop(dlerror(), path);
        *(void **)&readers[r].sum = dlsym(library, "peer_sum");
        *(void **)&readers[r].read = dlsym(library, "peer_read");
        if (r == SCULLDRIP) *(void **)&read_itself = dlsym(library, "sculldrip_read");
        if (!readers[r].sum || !(r == SCULLDRIP ? read_itself != NULL : readers[r].read != NULL))
            stop("lacks peer_sum, or peer_read or sculldrip_read", path);
    }
    if (!is_there(SCULLDRIP) || !is_there(FLOOR)) stop("lacks Sculldrip or the floor", directory);
}

static void load_input(const char *name, input *in) {
    FILE *file = fopen(name, "rb");
    if (!file) stop("cannot be read", name);
    in->name = strrchr(name, '/') ? strrchr(name, '/') + 1 : name;
    in->len = fread(in->bytes, 1, sizeof in->bytes, file);
    fclose(file);
    in->sum = readers[SCULLDRIP].sum(in->bytes, in->len, sum_of);
    if (!in->sum) stop("refused by Sculldrip", name);
    in->elements = elements(in->bytes, in->len);
}

// Every reader says of the file what Sculldrip says, and so of the file with any one bit changed that Sculldrip accepts.
// The floors must refuse what Sculldrip refuses too; a peer's library need not, since it knows none of document 01's limits.
static void compare(input *in) {
    size_t accepted = 0;
    for (size_t at = 0; at <= 8 * in->len; at++) {
        if (at) in->bytes[(at - 1) / 8] ^= (uint8_t)(1 << (at - 1) % 8);
        uint64_t sum = readers[SCULLDRIP].sum(in->bytes, in->len, sum_of);
        accepted += sum != 0;
        for (int r = FLOOR; r < READERS; r++) {
            if (!is_there(r) || (!sum && r >= FIRST_PEER)) continue;
            if (readers[r].sum(in->bytes, in->len, sum_of) != sum) {
                fprintf(stderr, "compare: %s, change %zu: %s does not say what Sculldrip says\n", in->name, at, readers[r].name);
                exit(1);
            }
            if (readers[r].read(in->bytes, in->len, &room) != (sum != 0)) stop("timed read answers otherwise", readers[r].name);
        }
        if (at) in->bytes[(at - 1) / 8] ^= (uint8_t)(1 << (at - 1) % 8);
    }
    printf("- %s: %zu bytes, %zu elements, checksum %016llx from every reader; likewise the same from every reader for the"
           " %zu of its %zu changes of one bit that are accepted.\n",
           in->name, in->len, in->elements, (unsigned long long)in->sum, accepted - 1, 8 * in->len);
}

static double now(void) {
    struct timespec t;
    clock_gettime(CLOCK_MONOTONIC, &t);
    return (double)t.tv_sec * 1e9 + (double)t.tv_nsec;
}

// Sculldrip's are calls of sculldrip_read itself, without a function around it.
static double one_round(int r, const input *in, size_t turns) {
    size_t accepted = 0;
    double start = now();
    if (r == SCULLDRIP)
        for (size_t i = 0; i < turns; i++) {
            USED(in->bytes);
            accepted += sculldrip_number(read_itself(in->bytes, in->len, image, SCULLDRIP_IMAGE_WORDS)) == 0;
        }
    else
        for (size_t i = 0; i < turns; i++) {
            USED(in->bytes);
            accepted += readers[r].read(in->bytes, in->len, &room);
        }
    double took = (now() - start) / (double)turns;
    if (accepted != turns) stop("refused while timed", readers[r].name);
    return took;
}

static void measure(int file) {
    size_t turns[READERS];
    for (int r = 0; r < READERS; r++) {
        if (!is_there(r)) continue;
        readers[r].ns[file] = 1e18;
        turns[r] = 1 + (size_t)(ROUND_NS / one_round(r, &inputs[file], 20));
    }
    for (int round = 0; round < ROUNDS; round++)
        for (int r = 0; r < READERS; r++) {
            if (!is_there(r)) continue;
            double took = one_round(r, &inputs[file], turns[r]);
            if (took < readers[r].ns[file]) readers[r].ns[file] = took;
        }
}

static void print_figures(void) {
    for (int f = 0; f < files; f++)
        for (int r = 0; r < READERS; r++)
            if (is_there(r))
                printf("%s|%s|%zu|%zu|%s|%.2f\n", readers[r].name, inputs[f].name, inputs[f].len, inputs[f].elements,
                       readers[r].kind, readers[r].ns[f]);
}

int main(int count, char **names) {
    bool is_timing = count > 1 && !strcmp(names[1], "time");
    if (count < 4 || count - 3 > MOST_FILES || (!is_timing && strcmp(names[1], "check")))
        stop("needs check or time, a directory and one to eight files", names[0]);
    load_readers(names[2]);
    files = count - 3;
    for (int f = 0; f < files; f++) load_input(names[f + 3], &inputs[f]);
    for (int f = 0; f < files; f++) is_timing ? measure(f) : compare(&inputs[f]);
    if (is_timing) print_figures();
    return 0;
}
