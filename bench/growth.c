/* growth: the time of sculldrip_read on ladders of extensions, from 76 to 8,192 bytes, as lines LADDER|BYTES|ELEMENTS|NS. Built
 * and run by bench/growth. A ladder goes from document 01's sample, 26 elements in 76 bytes, by more fields and members, by a
 * longer challenge, or by both; each rung is set up as an image and written by the library. Rounds of all rungs take turns, so
 * that other work on the machine disturbs all alike, and the least round of each is printed. */
#define _POSIX_C_SOURCE 200809L /* clock_gettime */
#include <stdio.h>
#include <stdlib.h>
#include <string.h>
#include <time.h>

#include "sculldrip.h"

enum { ROUNDS = 20, ROUND_NS = 1000000, MOST_RUNGS = 48, FEWEST_BYTES = 76, FEWEST_ELEMENTS = 26 };

struct rung {
    const char *ladder;
    uint8_t bytes[SCULLDRIP_EXTENSION_BYTES];
    size_t length, elements, turns;
    double ns;
};

static struct rung rungs[MOST_RUNGS];
static int count;
static const uint8_t buffer[SCULLDRIP_EXTENSION_BYTES]; /* what the octets are taken from */

static void stop(const char *what) {
    fprintf(stderr, "growth: %s\n", what);
    exit(1);
}

/* ---- Records */

/* Document 01's sample, but of version 300, whose schema has the most fields; its version takes one byte more. */
static void begin(uint64_t *image) {
    static const uint32_t sign[] = {SCULLDRIP_PURPOSE_SIGN}, digest[] = {SCULLDRIP_DIGEST_SHA_2_256},
                          padding[] = {SCULLDRIP_PADDING_NONE};
    sculldrip_clear(image);
    sculldrip_put_attestation(image, 300, SCULLDRIP_LEVEL_TRUSTED_ENVIRONMENT);
    sculldrip_put_keymint(image, 4, SCULLDRIP_LEVEL_TRUSTED_ENVIRONMENT);
    sculldrip_put_number(image, SCULLDRIP_SOFTWARE, SCULLDRIP_ROW_ACTIVE_DATE_TIME, 1609459200000);
    sculldrip_put_set(image, SCULLDRIP_HARDWARE, SCULLDRIP_ROW_PURPOSE, sign, 1);
    sculldrip_put_number(image, SCULLDRIP_HARDWARE, SCULLDRIP_ROW_ALGORITHM, SCULLDRIP_ALGORITHM_EC);
    sculldrip_put_set(image, SCULLDRIP_HARDWARE, SCULLDRIP_ROW_DIGEST, digest, 1);
    sculldrip_put_set(image, SCULLDRIP_HARDWARE, SCULLDRIP_ROW_PADDING, padding, 1);
    sculldrip_put_flag(image, SCULLDRIP_HARDWARE, SCULLDRIP_ROW_NO_AUTH_REQUIRED);
    sculldrip_put_number(image, SCULLDRIP_HARDWARE, SCULLDRIP_ROW_ORIGIN, 0);
}

/* Fields that version 300 does not hold. */
static int is_left_out(unsigned row) {
    return row == SCULLDRIP_ROW_ALL_APPLICATIONS || row == SCULLDRIP_ROW_APPLICATION_ID ||
           row == SCULLDRIP_ROW_ROLLBACK_RESISTANT;
}

/* A set with one member more, from 1 on. */
static void add_member(uint64_t *image, unsigned list, unsigned row) {
    static const uint32_t members[] = {1, 2, 3, 4, 5, 6, 7, 8, 9, 10, 11, 12, 13, 14, 15, 16};
    struct sculldrip_set set = {0, {0}};
    sculldrip_set_field(image, list, row, &set);
    if (set.count < SCULLDRIP_SET_MEMBERS)
        sculldrip_put_set(image, list, row, members, set.count + 1);
}

static void add_field(uint64_t *image, unsigned list, unsigned row) {
    const struct sculldrip_part octets = {0, 4};
    const struct sculldrip_root root = {{0, 4}, 1, SCULLDRIP_BOOT_VERIFIED, 1, {0, 4}};
    if (sculldrip_kind_of(row) == SCULLDRIP_KIND_SET)
        add_member(image, list, row);
    else if (sculldrip_has(image, list, row) || is_left_out(row))
        return;
    else if (sculldrip_kind_of(row) == SCULLDRIP_KIND_ROOT)
        sculldrip_put_root(image, list, &root);
    else if (!sculldrip_put_flag(image, list, row) && !sculldrip_put_number(image, list, row, row))
        sculldrip_put_octets(image, list, row, octets);
}

/* The steps that a record grows by: each adds a field, or a member to a set. They are shuffled, always alike, so that any run of
 * them adds of every kind. */
enum { MOST_STEPS = 2 * SCULLDRIP_ROWS * SCULLDRIP_SET_MEMBERS };
static struct step {
    unsigned list, row;
} steps[MOST_STEPS];
static size_t step_count;

static void shuffle_steps(void) {
    uint64_t random = 1;
    unsigned i, k;
    for (i = 0; i < 2 * SCULLDRIP_ROWS; i++)
        for (k = 0; k < (sculldrip_kind_of(i / 2) == SCULLDRIP_KIND_SET ? SCULLDRIP_SET_MEMBERS : 1); k++) {
            const struct step step = {i % 2, i / 2};
            size_t place;
            random = random * 6364136223846793005u + 1442695040888963407u;
            place = (size_t)(random >> 33) % (step_count + 1);
            steps[step_count++] = steps[place];
            steps[place] = step;
        }
}

/* ---- Extensions */

/* The record's encoding with a challenge and a uniqueId of these lengths; 0 where it is too long. */
static size_t encode(uint64_t *image, size_t challenge, size_t unique, uint8_t *output) {
    const struct sculldrip_part first = {0, challenge}, second = {0, unique};
    uint64_t answer;
    sculldrip_put_challenge(image, first);
    sculldrip_put_unique_id(image, second);
    answer = sculldrip_write(image, SCULLDRIP_IMAGE_WORDS, buffer, sizeof buffer, output, SCULLDRIP_EXTENSION_BYTES);
    return sculldrip_number(answer) == 0 ? (size_t)sculldrip_rest(answer) : 0;
}

static size_t elements_of(const uint8_t *bytes, size_t length) {
    uint64_t image[SCULLDRIP_IMAGE_WORDS], answer = sculldrip_read(bytes, length, image, SCULLDRIP_IMAGE_WORDS);
    if (sculldrip_number(answer) != 0)
        stop("what was written is refused");
    return (size_t)sculldrip_rest(answer);
}

/* The least record of at least so many elements, or that of all steps; how many it has. */
static size_t grow(uint64_t *image, size_t elements) {
    uint8_t output[SCULLDRIP_EXTENSION_BYTES];
    size_t found, i = 0;
    begin(image);
    while ((found = elements_of(output, encode(image, 0, 0, output))) < elements && i < step_count) {
        add_field(image, steps[i].list, steps[i].row);
        i++;
    }
    return found;
}

/* Lengthens the challenge until the encoding has so many bytes. Where length octets grow it skips a few: the uniqueId has them. */
static size_t fill(uint64_t *image, size_t length, uint8_t *output) {
    size_t challenge = length, unique = 0, found = 0;
    while (((found = encode(image, challenge, 0, output)) == 0 || found > length) && challenge > 0)
        challenge--;
    while (found != 0 && found < length)
        found = encode(image, challenge, ++unique, output);
    if (found != length)
        stop("no extension of a rung's length");
    return found;
}

static void add_rung(const char *ladder, size_t length, size_t elements) {
    uint64_t image[SCULLDRIP_IMAGE_WORDS];
    struct rung *rung = &rungs[count++];
    if (count > MOST_RUNGS)
        stop("too many rungs");
    grow(image, elements);
    rung->ladder = ladder;
    rung->length = fill(image, length, rung->bytes);
    rung->elements = elements_of(rung->bytes, rung->length);
}

/* Bytes by halves of doublings; elements on a line with them, or each by itself. */
static void set_up(void) {
    static const size_t lengths[] = {76, 128, 192, 256, 384, 512, 768, 1024, 1536, 2048, 3072, 4096, 6144, 8192};
    const size_t rungs_of_lengths = sizeof lengths / sizeof *lengths, most_bytes = SCULLDRIP_EXTENSION_BYTES, parts = 8;
    uint64_t image[SCULLDRIP_IMAGE_WORDS];
    size_t most, i;
    shuffle_steps();
    most = grow(image, SIZE_MAX);
    for (i = 0; i < rungs_of_lengths; i++)
        add_rung("both", lengths[i],
                 FEWEST_ELEMENTS + (most - FEWEST_ELEMENTS) * (lengths[i] - FEWEST_BYTES) / (most_bytes - FEWEST_BYTES));
    for (i = 0; i <= parts; i++)
        add_rung("elements", most_bytes, FEWEST_ELEMENTS + (most - FEWEST_ELEMENTS) * i / parts);
    for (i = 0; i < rungs_of_lengths; i++)
        add_rung("bytes", lengths[i], FEWEST_ELEMENTS);
}

/* ---- Times */

static double now(void) {
    struct timespec t;
    clock_gettime(CLOCK_MONOTONIC, &t);
    return (double)t.tv_sec * 1e9 + (double)t.tv_nsec;
}

static double one_round(const struct rung *rung, size_t turns) {
    static uint64_t image[SCULLDRIP_IMAGE_WORDS];
    size_t i, accepted = 0;
    double start = now();
    for (i = 0; i < turns; i++) {
        __asm__ volatile("" : : "r"(rung) : "memory");
        accepted += sculldrip_number(sculldrip_read(rung->bytes, rung->length, image, SCULLDRIP_IMAGE_WORDS)) == 0;
    }
    if (accepted != turns)
        stop("refused while timed");
    return (now() - start) / (double)turns;
}

static void measure(void) {
    int round, i;
    for (i = 0; i < count; i++) {
        rungs[i].ns = 1e18;
        rungs[i].turns = 1 + (size_t)(ROUND_NS / one_round(&rungs[i], 20));
    }
    for (round = 0; round < ROUNDS; round++)
        for (i = 0; i < count; i++) {
            double took = one_round(&rungs[i], rungs[i].turns);
            if (took < rungs[i].ns)
                rungs[i].ns = took;
        }
}

int main(void) {
    int i;
    set_up();
    measure();
    for (i = 0; i < count; i++)
        printf("%s|%zu|%zu|%.2f\n", rungs[i].ladder, rungs[i].length, rungs[i].elements, rungs[i].ns);
    return 0;
}
