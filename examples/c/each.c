/* each: reads extensions as hex, one to a line, from standard input, and calls every function of the library on each of them,
 * with buffers on the heap that end where their lengths say, so that a step outside is seen, and in a thread with no more
 * stack than the header asks for. It writes the listings, and answers 1 where an accepted extension is not written again as
 * it was: from its image, and from a copy made field by field with the header's functions.
 *
 *   gcc -g -Wall -Wextra -Werror -pthread -Iinclude examples/c/each.c target/staticlib/libsculldrip.a -o target/each
 *   grep -o '"hex":"[0-9a-f]*' cases/reader.jsonl | cut -d'"' -f4 | valgrind -q --error-exitcode=1 target/each
 *
 * With -fsanitize=address,undefined this file is watched, and of the library its copying and clearing of memory alone. */
#define _POSIX_C_SOURCE 200809L /* getline */
#include <ctype.h>
#include <pthread.h>
#include <stdio.h>
#include <stdlib.h>
#include <string.h>

#include "sculldrip.h"

/* What a thread takes for itself, and what the functions here do. */
#define OWN_STACK_BYTES 16384

/* A buffer of exactly so many bytes. */
static void *lend(size_t bytes) {
    void *buffer = malloc(bytes == 0 ? 1 : bytes);
    if (buffer == NULL) {
        fprintf(stderr, "each: no memory\n");
        exit(2);
    }
    return buffer;
}

/* Into just the room that the header asks for. */
static void list(const uint8_t *extension, size_t length, int is_accepted) {
    size_t room = is_accepted ? 32768 + 56 * length : SCULLDRIP_REFUSED_LISTING_BYTES;
    uint8_t *text = lend(room);
    uint64_t answer = sculldrip_list(extension, length, text, room);
    if (sculldrip_number(answer) == 0)
        fwrite(text, 1, (size_t)sculldrip_rest(answer), stdout);
    free(text);
}

/* Each field of both lists: it is absent or no octet field, or its part lies in the extension. */
static int asks_well(const uint64_t *image, size_t length) {
    for (unsigned i = 0; i < 2 * SCULLDRIP_ROWS; i++) {
        uint64_t part[SCULLDRIP_PART_WORDS] = {0, 0};
        uint64_t answer = sculldrip_octets(image, SCULLDRIP_IMAGE_WORDS, i % 2, sculldrip_field_of(i / 2), length, part,
                                           SCULLDRIP_PART_WORDS);
        struct sculldrip_part asked = {0, 0};
        int is_there = sculldrip_octet_field(image, i % 2, i / 2, &asked);
        if (sculldrip_number(answer) != 0 || part[0] > length || part[1] > length - part[0])
            return 0;
        if (sculldrip_rest(answer) != (uint64_t)is_there || asked.start != part[0] || asked.length != part[1])
            return 0;
    }
    return 1;
}

/* Every purpose, and every digest and padding that there is. */
static void rule(const uint64_t *image) {
    for (uint64_t i = 0; i < 9 * 8 * 7; i++) {
        uint64_t request[SCULLDRIP_REQUEST_WORDS] = {
            [SCULLDRIP_REQUEST_PURPOSE] = i % 9,
            [SCULLDRIP_REQUEST_DIGEST] = i / 9 % 8,
            [SCULLDRIP_REQUEST_PADDING] = i / 72,
            [SCULLDRIP_REQUEST_CLOCK] = 1609459200000,
            [SCULLDRIP_REQUEST_CLOCK_FLOOR] = 1600000000000,
            [SCULLDRIP_REQUEST_UPTIME] = 5000,
            [SCULLDRIP_REQUEST_OPERATION_HANDLE] = 7,
            [SCULLDRIP_REQUEST_HAS_TOKEN] = 1,
            [SCULLDRIP_REQUEST_TOKEN_TYPE] = UINT64_MAX,
            [SCULLDRIP_REQUEST_TOKEN_UPTIME] = 4000,
            [SCULLDRIP_REQUEST_TOKEN_CHALLENGE] = 7,
            [SCULLDRIP_REQUEST_USER_PRESENT] = 1,
            [SCULLDRIP_REQUEST_USER_CONFIRMED] = 1,
        };
        uint64_t permit[SCULLDRIP_PERMIT_WORDS];
        sculldrip_rule(image, SCULLDRIP_IMAGE_WORDS, request, SCULLDRIP_REQUEST_WORDS, permit, SCULLDRIP_PERMIT_WORDS);
    }
}

/* One field of an image, asked for by its kind and put into another image. */
static void copy_field(const uint64_t *image, unsigned list, unsigned row, uint64_t *copy) {
    uint64_t number;
    struct sculldrip_part part;
    struct sculldrip_set set;
    struct sculldrip_root root;
    if (sculldrip_number_field(image, list, row, &number))
        sculldrip_put_number(copy, list, row, number);
    else if (sculldrip_octet_field(image, list, row, &part))
        sculldrip_put_octets(copy, list, row, part);
    else if (sculldrip_set_field(image, list, row, &set))
        sculldrip_put_set(copy, list, row, set.members, set.count);
    else if (sculldrip_kind_of(row) == SCULLDRIP_KIND_ROOT && sculldrip_root_of_trust(image, list, &root))
        sculldrip_put_root(copy, list, &root);
    else if (sculldrip_has(image, list, row))
        sculldrip_put_flag(copy, list, row);
}

/* The header's functions ask all that an image says and put it all, and nothing else: a copy by them is the same, and a
 * read leaves 0 in what is absent. */
static int copies_the_same(const uint64_t *image) {
    uint64_t copy[SCULLDRIP_IMAGE_WORDS];
    sculldrip_clear(copy);
    sculldrip_put_attestation(copy, sculldrip_attestation_version(image), sculldrip_attestation_level(image));
    sculldrip_put_keymint(copy, sculldrip_keymint_version(image), sculldrip_keymint_level(image));
    sculldrip_put_challenge(copy, sculldrip_challenge(image));
    sculldrip_put_unique_id(copy, sculldrip_unique_id(image));
    for (unsigned i = 0; i < 2 * SCULLDRIP_ROWS; i++)
        copy_field(image, i % 2, i / 2, copy);
    return memcmp(copy, image, sizeof copy) == 0;
}

/* Into exactly the room that is needed, and into one byte less. */
static int writes_the_same(const uint64_t *image, const uint8_t *extension, size_t length) {
    uint8_t *output = lend(length);
    uint64_t answer = sculldrip_write(image, SCULLDRIP_IMAGE_WORDS, extension, length, output, length);
    int is_same = sculldrip_number(answer) == 0 && sculldrip_rest(answer) == length && memcmp(output, extension, length) == 0;
    free(output);
    output = lend(length - 1);
    answer = sculldrip_write(image, SCULLDRIP_IMAGE_WORDS, extension, length, output, length - 1);
    is_same = is_same && answer == SCULLDRIP_REFUSED_OUTPUT_SHORT;
    free(output);
    return is_same;
}

static int try(const uint8_t *extension, size_t length) {
    uint64_t *image = lend(SCULLDRIP_IMAGE_WORDS * sizeof *image);
    int is_accepted = sculldrip_number(sculldrip_read(extension, length, image, SCULLDRIP_IMAGE_WORDS)) == 0;
    int is_well = 1;
    list(extension, length, is_accepted);
    if (is_accepted) {
        rule(image);
        struct sculldrip_part challenge = sculldrip_challenge(image);
        sculldrip_enrol(image, SCULLDRIP_IMAGE_WORDS, extension, length, extension + challenge.start,
                        (size_t)challenge.length);
        is_well = asks_well(image, length) && writes_the_same(image, extension, length) && copies_the_same(image);
    }
    free(image);
    return is_well;
}

static unsigned digit(int character) {
    return (unsigned)(isdigit(character) ? character - '0' : tolower(character) - 'a' + 10);
}

/* The bytes of the next line, in a buffer that is just as long; none at the end. */
static uint8_t *next(char **line, size_t *room, size_t *length) {
    if (getline(line, room, stdin) < 0)
        return NULL;
    *length = strspn(*line, "0123456789abcdefABCDEF") / 2;
    uint8_t *bytes = lend(*length);
    for (size_t i = 0; i < *length; i++)
        bytes[i] = (uint8_t)(digit((*line)[2 * i]) << 4 | digit((*line)[2 * i + 1]));
    return bytes;
}

static void *try_all(void *failed) {
    char *line = NULL;
    size_t room = 0, length;
    uint8_t *extension;
    while ((extension = next(&line, &room, &length)) != NULL) {
        *(size_t *)failed += !try(extension, length);
        free(extension);
    }
    free(line);
    return NULL;
}

int main(void) {
    size_t failed = 0;
    pthread_attr_t small;
    pthread_t thread;
    if (pthread_attr_init(&small) != 0 || pthread_attr_setstacksize(&small, SCULLDRIP_STACK_BYTES + OWN_STACK_BYTES) != 0 ||
        pthread_create(&thread, &small, try_all, &failed) != 0 || pthread_join(thread, NULL) != 0) {
        fprintf(stderr, "each: no thread\n");
        return 2;
    }
    if (failed > 0)
        fprintf(stderr, "each: %zu extensions that were not asked, copied or written well\n", failed);
    return failed > 0;
}
