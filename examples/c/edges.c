/* edges: what the header says of calls that lend nothing, of a listing's room, of words that are not looked at or that no
 * record has, of a request that says nothing, and of numbers that have no row, tried. It answers 0 where all of it holds.
 *
 *   gcc -Wall -Wextra -Werror -Iinclude examples/c/edges.c target/staticlib/libsculldrip.a -o target/edges && target/edges */
#include <stdio.h>
#include <stdlib.h>
#include <string.h>

#include "sculldrip.h"

static int failed;

/* The answer must have this number and rest. */
static void expect(const char *what, uint64_t answer, unsigned number, uint64_t rest) {
    if (sculldrip_number(answer) == number && sculldrip_rest(answer) == rest)
        return;
    printf("edges: %s: %u and %llu, not %u and %llu\n", what, sculldrip_number(answer),
           (unsigned long long)sculldrip_rest(answer), number, (unsigned long long)rest);
    failed = 1;
}

static void expect_true(const char *what, int holds) {
    if (!holds) {
        printf("edges: %s\n", what);
        failed = 1;
    }
}

/* Each slice of each function as NULL and length 0, beside others that are good. */
static void lend_nothing(void) {
    uint64_t image[SCULLDRIP_IMAGE_WORDS], request[SCULLDRIP_REQUEST_WORDS], permit[SCULLDRIP_PERMIT_WORDS];
    uint64_t part[SCULLDRIP_PART_WORDS];
    uint8_t output[64];
    const uint8_t byte = 0x30;
    sculldrip_clear(image);
    sculldrip_put_attestation(image, 3, SCULLDRIP_LEVEL_SOFTWARE);
    sculldrip_strict_request(request);
    expect("read, no extension", sculldrip_read(NULL, 0, image, SCULLDRIP_IMAGE_WORDS), SCULLDRIP_REFUSED_RUNS_OUT, 0);
    expect("read, no image", sculldrip_read(&byte, 1, NULL, 0), SCULLDRIP_REFUSED_SHORT_IMAGE, 0);
    expect("write, no image", sculldrip_write(NULL, 0, &byte, 1, output, sizeof output), SCULLDRIP_REFUSED_SHORT_IMAGE, 0);
    expect("write, no buffer", sculldrip_write(image, SCULLDRIP_IMAGE_WORDS, NULL, 0, output, sizeof output), 0, 22);
    expect("write, no output", sculldrip_write(image, SCULLDRIP_IMAGE_WORDS, &byte, 1, NULL, 0),
           SCULLDRIP_REFUSED_OUTPUT_SHORT, 0);
    expect("octets, no image", sculldrip_octets(NULL, 0, 0, 709, 1, part, SCULLDRIP_PART_WORDS),
           SCULLDRIP_REFUSED_SHORT_IMAGE, 0);
    expect("octets, no part", sculldrip_octets(image, SCULLDRIP_IMAGE_WORDS, 0, 709, 1, NULL, 0),
           SCULLDRIP_REFUSED_SHORT_IMAGE, 0);
    expect("rule, no image",
           sculldrip_rule(NULL, 0, request, SCULLDRIP_REQUEST_WORDS, permit, SCULLDRIP_PERMIT_WORDS),
           SCULLDRIP_REFUSED_SHORT_IMAGE, 0);
    expect("rule, no request", sculldrip_rule(image, SCULLDRIP_IMAGE_WORDS, NULL, 0, permit, SCULLDRIP_PERMIT_WORDS),
           SCULLDRIP_REFUSED_SHORT_IMAGE, 0);
    expect("rule, no permit", sculldrip_rule(image, SCULLDRIP_IMAGE_WORDS, request, SCULLDRIP_REQUEST_WORDS, NULL, 0),
           SCULLDRIP_REFUSED_SHORT_IMAGE, 0);
    expect("enrol, no image", sculldrip_enrol(NULL, 0, &byte, 1, &byte, 1), SCULLDRIP_REFUSED_SHORT_IMAGE, 0);
    expect("enrol, no buffer", sculldrip_enrol(image, SCULLDRIP_IMAGE_WORDS, NULL, 0, &byte, 1),
           SCULLDRIP_REFUSED_CHALLENGE_DIFFERS, 0);
    expect("enrol, no challenge", sculldrip_enrol(image, SCULLDRIP_IMAGE_WORDS, &byte, 1, NULL, 0),
           SCULLDRIP_REFUSED_CHALLENGE_DIFFERS, 0);
    expect("list, no text", sculldrip_list(&byte, 1, NULL, 0), SCULLDRIP_REFUSED_OUTPUT_SHORT, 0);
}

/* The listing of nothing is a refusal's, and so is that of anything too long, whatever its length: neither asks for more
 * than a refusal does. */
static void list_refusals(void) {
    static const uint8_t too_long[100000];
    uint8_t text[SCULLDRIP_REFUSED_LISTING_BYTES];
    expect("list, no extension", sculldrip_list(NULL, 0, text, sizeof text), 0, strlen("refused 2 at 0\n"));
    expect_true("list, no extension: the text", memcmp(text, "refused 2 at 0\n", 15) == 0);
    expect("list, too long", sculldrip_list(too_long, sizeof too_long, text, sizeof text), 0, strlen("refused 1 at 0\n"));
    expect("list, little room", sculldrip_list(NULL, 0, text, sizeof text - 1), SCULLDRIP_REFUSED_OUTPUT_SHORT, 0);
}

/* The listing of what is accepted asks for 32,768 bytes and 56 for each of its own. */
static void list_record(void) {
    static uint8_t text[SCULLDRIP_LISTING_BYTES];
    uint64_t image[SCULLDRIP_IMAGE_WORDS];
    uint8_t output[64];
    size_t length;
    sculldrip_clear(image);
    sculldrip_put_attestation(image, 3, SCULLDRIP_LEVEL_SOFTWARE);
    length = (size_t)sculldrip_rest(sculldrip_write(image, SCULLDRIP_IMAGE_WORDS, NULL, 0, output, sizeof output));
    expect("list, just enough room", sculldrip_list(output, length, text, 32768 + 56 * length), 0,
           strlen("version 3 level 0\nkeymint 0 level 0\nchallenge -\nunique -\nelements 9\n"));
    expect("list, too little room", sculldrip_list(output, length, text, 32768 + 56 * length - 1),
           SCULLDRIP_REFUSED_OUTPUT_SHORT, 0);
}

/* Words of absent fields are not looked at, nor are slots past a count: an image without any field is well-shaped whatever
 * else it holds, and so is one with an empty set. */
static void look_away(void) {
    const struct sculldrip_part empty = {0, 0};
    uint64_t image[SCULLDRIP_IMAGE_WORDS];
    uint8_t output[64];
    unsigned row;
    memset(image, 0xff, sizeof image);
    sculldrip_put_attestation(image, 3, SCULLDRIP_LEVEL_SOFTWARE);
    sculldrip_put_keymint(image, 4, SCULLDRIP_LEVEL_SOFTWARE);
    sculldrip_put_challenge(image, empty);
    sculldrip_put_unique_id(image, empty);
    for (row = 0; row < 2 * SCULLDRIP_ROWS; row++)
        sculldrip_remove(image, row % 2, row / 2);
    expect("write, no field", sculldrip_write(image, SCULLDRIP_IMAGE_WORDS, NULL, 0, output, sizeof output), 0, 22);
    sculldrip_put_set(image, SCULLDRIP_HARDWARE, SCULLDRIP_ROW_DIGEST, NULL, 0);
    expect("write, an empty set", sculldrip_write(image, SCULLDRIP_IMAGE_WORDS, NULL, 0, output, sizeof output), 0, 26);
}

/* A word over 32 bits is told as none that a record is well-shaped with, where it would be 0 or 2 if it were cut. */
static void ask_wide_words(void) {
    const uint64_t wide = UINT64_C(1) << 32;
    const uint32_t sign[] = {SCULLDRIP_PURPOSE_SIGN};
    const size_t hardware = sculldrip_at_list(SCULLDRIP_HARDWARE);
    uint64_t image[SCULLDRIP_IMAGE_WORDS];
    uint8_t output[64];
    struct sculldrip_root root = {{0, 0}, 1, SCULLDRIP_BOOT_FAILED, 0, {0, 0}};
    struct sculldrip_set set = {0, {0}};
    sculldrip_clear(image);
    image[SCULLDRIP_AT_VERSION] = wide + 3;
    image[SCULLDRIP_AT_LEVEL] = wide;
    image[SCULLDRIP_AT_KEYMINT_VERSION] = wide + 4;
    image[SCULLDRIP_AT_KEYMINT_LEVEL] = wide + 2;
    expect_true("a wide version", sculldrip_attestation_version(image) == UINT32_MAX);
    expect_true("a wide level", sculldrip_attestation_level(image) == UINT32_MAX);
    expect_true("a wide KeyMint version", sculldrip_keymint_version(image) == UINT32_MAX);
    expect_true("a wide KeyMint level", sculldrip_keymint_level(image) == UINT32_MAX);
    sculldrip_clear(image);
    sculldrip_put_attestation(image, 2, SCULLDRIP_LEVEL_TRUSTED_ENVIRONMENT);
    sculldrip_put_root(image, SCULLDRIP_HARDWARE, &root);
    image[hardware + SCULLDRIP_AT_ROOT + 3] = wide;
    expect_true("a wide state", sculldrip_root_of_trust(image, SCULLDRIP_HARDWARE, &root) && root.state == UINT32_MAX);
    expect("write, a wide state", sculldrip_write(image, SCULLDRIP_IMAGE_WORDS, NULL, 0, output, sizeof output),
           SCULLDRIP_REFUSED_ILL_SHAPED, 0);
    sculldrip_put_set(image, SCULLDRIP_HARDWARE, SCULLDRIP_ROW_PURPOSE, sign, 1);
    image[hardware + sculldrip_at_set(SCULLDRIP_ROW_PURPOSE)] = wide + SCULLDRIP_PURPOSE_SIGN;
    expect_true("a wide member", sculldrip_set_field(image, SCULLDRIP_HARDWARE, SCULLDRIP_ROW_PURPOSE, &set) &&
                                     set.count == 1 && !sculldrip_is_member(&set, SCULLDRIP_PURPOSE_SIGN) &&
                                     sculldrip_is_member(&set, UINT32_MAX));
    expect_true("what has 32 bits is told as it is", sculldrip_narrow(UINT32_MAX) == UINT32_MAX &&
                                                         sculldrip_narrow(UINT32_MAX - 1) == UINT32_MAX - 1 &&
                                                         sculldrip_narrow(0) == 0);
}

/* A count past the slots: no more than 16 members are looked at. The set ends a heap block, so that a step outside is seen. */
static void count_too_many(void) {
    struct sculldrip_set *set = calloc(1, sizeof *set);
    if (set == NULL) {
        expect_true("no memory", 0);
        return;
    }
    set->count = SIZE_MAX;
    set->members[SCULLDRIP_SET_MEMBERS - 1] = 7;
    expect_true("the last member", sculldrip_is_member(set, 7) && !sculldrip_is_member(set, 8));
    free(set);
}

/* sculldrip_octets refuses an image of no record and a field that lies outside, but not a record that is not well-shaped. */
static void refuse_octets(void) {
    const struct sculldrip_part two = {0, 2};
    uint64_t image[SCULLDRIP_IMAGE_WORDS], part[SCULLDRIP_PART_WORDS];
    sculldrip_clear(image);
    sculldrip_put_attestation(image, 5, 9);
    sculldrip_put_octets(image, SCULLDRIP_SOFTWARE, SCULLDRIP_ROW_ATTESTATION_APPLICATION_ID, two);
    expect("octets, version 5", sculldrip_octets(image, SCULLDRIP_IMAGE_WORDS, 0, 709, 2, part, SCULLDRIP_PART_WORDS), 0, 1);
    expect("octets, outside", sculldrip_octets(image, SCULLDRIP_IMAGE_WORDS, 0, 709, 1, part, SCULLDRIP_PART_WORDS),
           SCULLDRIP_REFUSED_ILL_SHAPED, 0);
    expect("octets, another field", sculldrip_octets(image, SCULLDRIP_IMAGE_WORDS, 0, 710, 1, part, SCULLDRIP_PART_WORDS), 0,
           0);
    image[SCULLDRIP_AT_LEVEL] = UINT64_MAX;
    expect("octets, no record", sculldrip_octets(image, SCULLDRIP_IMAGE_WORDS, 0, 709, 2, part, SCULLDRIP_PART_WORDS),
           SCULLDRIP_REFUSED_ILL_SHAPED, 0);
}

/* A key that may sign; its request says no more than that, and is strict in all else. */
static void make_key(uint64_t *image, uint64_t *request) {
    static const uint32_t sign[] = {SCULLDRIP_PURPOSE_SIGN}, digest[] = {SCULLDRIP_DIGEST_SHA_2_256},
                          padding[] = {SCULLDRIP_PADDING_NONE};
    sculldrip_clear(image);
    sculldrip_put_attestation(image, 300, SCULLDRIP_LEVEL_TRUSTED_ENVIRONMENT);
    sculldrip_put_set(image, SCULLDRIP_HARDWARE, SCULLDRIP_ROW_PURPOSE, sign, 1);
    sculldrip_put_set(image, SCULLDRIP_HARDWARE, SCULLDRIP_ROW_DIGEST, digest, 1);
    sculldrip_put_set(image, SCULLDRIP_HARDWARE, SCULLDRIP_ROW_PADDING, padding, 1);
    sculldrip_put_number(image, SCULLDRIP_HARDWARE, SCULLDRIP_ROW_ALGORITHM, SCULLDRIP_ALGORITHM_EC);
    sculldrip_put_flag(image, SCULLDRIP_HARDWARE, SCULLDRIP_ROW_NO_AUTH_REQUIRED);
    sculldrip_strict_request(request);
    request[SCULLDRIP_REQUEST_PURPOSE] = SCULLDRIP_PURPOSE_SIGN;
    request[SCULLDRIP_REQUEST_DIGEST] = SCULLDRIP_DIGEST_SHA_2_256;
    request[SCULLDRIP_REQUEST_PADDING] = SCULLDRIP_PADDING_NONE;
}

static unsigned rule(const uint64_t *image, const uint64_t *request) {
    uint64_t permit[SCULLDRIP_PERMIT_WORDS];
    return sculldrip_number(sculldrip_rule(image, SCULLDRIP_IMAGE_WORDS, request, SCULLDRIP_REQUEST_WORDS, permit,
                                           SCULLDRIP_PERMIT_WORDS));
}

/* The ruling where the key has one field more, in the list that software enforces. */
static unsigned unsaid(unsigned row, uint64_t number) {
    uint64_t image[SCULLDRIP_IMAGE_WORDS], request[SCULLDRIP_REQUEST_WORDS];
    make_key(image, request);
    if (!sculldrip_put_flag(image, SCULLDRIP_SOFTWARE, row))
        sculldrip_put_number(image, SCULLDRIP_SOFTWARE, row, number);
    return rule(image, request);
}

/* A token of which its type alone is said, for a key with a timeout and for one without. */
static unsigned unsaid_token(int has_timeout) {
    uint64_t image[SCULLDRIP_IMAGE_WORDS], request[SCULLDRIP_REQUEST_WORDS];
    make_key(image, request);
    sculldrip_put_number(image, SCULLDRIP_HARDWARE, SCULLDRIP_ROW_USER_AUTH_TYPE, 2);
    if (has_timeout)
        sculldrip_put_number(image, SCULLDRIP_HARDWARE, SCULLDRIP_ROW_AUTH_TIMEOUT, UINT32_MAX);
    request[SCULLDRIP_REQUEST_HAS_TOKEN] = 1;
    request[SCULLDRIP_REQUEST_TOKEN_TYPE] = 2;
    return rule(image, request);
}

static void say_nothing(void) {
    expect_true("a strict request is met where a key asks for nothing more", unsaid(SCULLDRIP_ROW_ORIGIN, 0) == 0);
    expect_true("no clock", unsaid(SCULLDRIP_ROW_ACTIVE_DATE_TIME, 0) == SCULLDRIP_REFUSED_CLOCK_BELOW_FLOOR);
    expect_true("no token", unsaid(SCULLDRIP_ROW_USER_AUTH_TYPE, UINT32_MAX) == SCULLDRIP_REFUSED_TOKEN_UNFIT);
    expect_true("an old token", unsaid_token(1) == SCULLDRIP_REFUSED_TOKEN_NOT_FRESH);
    expect_true("another's token", unsaid_token(0) == SCULLDRIP_REFUSED_TOKEN_NOT_FRESH);
    expect_true("locked", unsaid(SCULLDRIP_ROW_UNLOCKED_DEVICE_REQUIRED, 0) == SCULLDRIP_REFUSED_DEVICE_LOCKED);
    expect_true("not there", unsaid(SCULLDRIP_ROW_TRUSTED_USER_PRESENCE_REQUIRED, 0) == SCULLDRIP_REFUSED_USER_NOT_PRESENT);
    expect_true("unconfirmed", unsaid(SCULLDRIP_ROW_TRUSTED_CONFIRMATION_REQUIRED, 0) == SCULLDRIP_REFUSED_NOT_CONFIRMED);
    expect_true("boot over", unsaid(SCULLDRIP_ROW_EARLY_BOOT_ONLY, 0) == SCULLDRIP_REFUSED_EARLY_BOOT_OVER);
    expect_true("no uses", unsaid(SCULLDRIP_ROW_USAGE_COUNT_LIMIT, UINT32_MAX) == SCULLDRIP_REFUSED_USED_UP);
}

static void name_everything(void) {
    unsigned number, row, named = 0;
    uint64_t image[SCULLDRIP_IMAGE_WORDS];
    for (number = 0; number < 256; number++)
        named += *sculldrip_advice(number) != '\0' && *sculldrip_sentence(number) != '\0' && *sculldrip_name(number) != '\0';
    expect_true("each of the 41 refusals has a sentence", named == 41);
    for (row = 0; row < SCULLDRIP_ROWS; row++)
        expect_true("a row is that of its number", sculldrip_row_of(sculldrip_field_of(row)) == row);
    expect_true("row of 704", sculldrip_row_of(704) == SCULLDRIP_ROW_ROOT_OF_TRUST);
    expect_true("no row", sculldrip_row_of(4) == SCULLDRIP_ROWS && sculldrip_field_of(SCULLDRIP_ROWS) == 0);
    memset(image, 0xff, sizeof image);
    expect_true("what has no row is absent", !sculldrip_has(image, SCULLDRIP_SOFTWARE, SCULLDRIP_ROWS));
}

int main(void) {
    lend_nothing();
    list_refusals();
    list_record();
    look_away();
    ask_wide_words();
    count_too_many();
    refuse_octets();
    say_nothing();
    name_everything();
    expect_true("header and library are of one version", sculldrip_version() == SCULLDRIP_VERSION);
    return failed;
}
