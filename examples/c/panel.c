/* panel FILE CLOCK [CHALLENGE]: what an extension says of a panel's key, whether the key may sign an alarm at CLOCK (ms since
 * 1970), whether it may be taken on where CHALLENGE (hex) was asked for, and whether writing it gives the same bytes again.
 *
 *   gcc -Wall -Wextra -Werror -Iinclude examples/c/panel.c target/staticlib/libsculldrip.a -o target/panel
 *   target/panel samples/document01.der 1609459200000 010203
 *
 * It answers 0 where the key may sign, 1 where it may not, and 2 where there is nothing to rule on or to write to. */
#include <errno.h>
#include <inttypes.h>
#include <stdio.h>
#include <stdlib.h>
#include <string.h>

#include "sculldrip.h"

#define CHALLENGE_BYTES 128

/* No clock of a panel is before this: a lower one is dead or was set back. */
#define CLOCK_FLOOR UINT64_C(1600000000000)

/* One byte more than an extension has, so that a file that is too long is seen. */
struct extension {
    uint8_t bytes[SCULLDRIP_EXTENSION_BYTES + 1];
    size_t length;
};

struct challenge {
    uint8_t bytes[CHALLENGE_BYTES + 1];
    size_t length;
};

static int load(const char *path, struct extension *extension) {
    FILE *file = fopen(path, "rb");
    if (file == NULL) {
        perror(path);
        return 0;
    }
    extension->length = fread(extension->bytes, 1, sizeof extension->bytes, file);
    int is_read = !ferror(file);
    fclose(file);
    return is_read;
}

static void print_refusal(const char *what, uint64_t answer) {
    unsigned number = sculldrip_number(answer);
    printf("%s refused %u at %" PRIu64 ": %s\n", what, number, sculldrip_rest(answer), sculldrip_sentence(number));
}

static void list(const struct extension *extension) {
    static uint8_t text[SCULLDRIP_LISTING_BYTES];
    uint64_t answer = sculldrip_list(extension->bytes, extension->length, text, sizeof text);
    if (sculldrip_number(answer) == 0)
        fwrite(text, 1, (size_t)sculldrip_rest(answer), stdout);
}

/* The panel runs, unlocked, with someone before it who has not confirmed and gave no token. Of the panel nothing else is
 * said, and a rule on that is not met. */
static int may_sign(const uint64_t *image, uint64_t clock) {
    uint64_t request[SCULLDRIP_REQUEST_WORDS];
    sculldrip_strict_request(request);
    request[SCULLDRIP_REQUEST_PURPOSE] = SCULLDRIP_PURPOSE_SIGN;
    request[SCULLDRIP_REQUEST_DIGEST] = SCULLDRIP_DIGEST_SHA_2_256;
    request[SCULLDRIP_REQUEST_PADDING] = SCULLDRIP_PADDING_NONE;
    request[SCULLDRIP_REQUEST_CLOCK] = clock;
    request[SCULLDRIP_REQUEST_CLOCK_FLOOR] = CLOCK_FLOOR;
    request[SCULLDRIP_REQUEST_DEVICE_LOCKED] = 0;
    request[SCULLDRIP_REQUEST_USER_PRESENT] = 1;
    request[SCULLDRIP_REQUEST_USER_CONFIRMED] = 0;
    request[SCULLDRIP_REQUEST_EARLY_BOOT_OVER] = 1;
    uint64_t permit[SCULLDRIP_PERMIT_WORDS];
    uint64_t answer = sculldrip_rule(image, SCULLDRIP_IMAGE_WORDS, request, SCULLDRIP_REQUEST_WORDS, permit,
                                     SCULLDRIP_PERMIT_WORDS);
    if (sculldrip_number(answer) != 0) {
        print_refusal("signing", answer);
        return 0;
    }
    printf("signing permitted, hardware %" PRIu64 " (bits: %" PRIu64 "), software %" PRIu64 " (bits: %" PRIu64 ")\n",
           permit[SCULLDRIP_PERMIT_HARDWARE], permit[SCULLDRIP_PERMIT_HARDWARE_COUNT], permit[SCULLDRIP_PERMIT_SOFTWARE],
           permit[SCULLDRIP_PERMIT_SOFTWARE_COUNT]);
    return 1;
}

/* Digits alone, of a number of 64 bits. Anything else is no clock, and nothing is ruled by it. */
static int clock_from(const char *digits, uint64_t *clock) {
    size_t length = strlen(digits);
    errno = 0;
    *clock = strtoull(digits, NULL, 10);
    return length > 0 && strspn(digits, "0123456789") == length && errno == 0;
}

/* Pairs of hex digits alone. Of too many bytes one more is kept than a challenge may have, which no enrolment allows. */
static int challenge_from(const char *digits, struct challenge *challenge) {
    size_t length = strlen(digits), count = length / 2;
    if (length % 2 != 0 || strspn(digits, "0123456789abcdefABCDEF") != length)
        return 0;
    challenge->length = count < sizeof challenge->bytes ? count : sizeof challenge->bytes;
    for (size_t i = 0; i < challenge->length; i++) {
        const char pair[] = {digits[2 * i], digits[2 * i + 1], '\0'};
        challenge->bytes[i] = (uint8_t)strtoul(pair, NULL, 16);
    }
    return 1;
}

static void enrol(const uint64_t *image, const struct extension *extension, const struct challenge *expected) {
    uint64_t answer = sculldrip_enrol(image, SCULLDRIP_IMAGE_WORDS, extension->bytes, extension->length, expected->bytes,
                                      expected->length);
    if (sculldrip_number(answer) == 0)
        printf("enrolment yes\n");
    else
        print_refusal("enrolment", answer);
}

static void write_again(const uint64_t *image, const struct extension *extension) {
    uint8_t output[SCULLDRIP_EXTENSION_BYTES];
    uint64_t answer = sculldrip_write(image, SCULLDRIP_IMAGE_WORDS, extension->bytes, extension->length, output,
                                      sizeof output);
    if (sculldrip_number(answer) != 0) {
        print_refusal("writing", answer);
        return;
    }
    size_t length = (size_t)sculldrip_rest(answer);
    int is_same = length == extension->length && memcmp(output, extension->bytes, length) == 0;
    printf("written again: %s %zu bytes\n", is_same ? "the same" : "OTHER", length);
}

int main(int argc, char **argv) {
    static struct extension extension;
    static uint64_t image[SCULLDRIP_IMAGE_WORDS];
    struct challenge challenge;
    uint64_t clock;
    if (argc < 3 || argc > 4) {
        fprintf(stderr, "usage: panel FILE CLOCK [CHALLENGE]\n");
        return 2;
    }
    if (!clock_from(argv[2], &clock)) {
        fprintf(stderr, "panel: %s: a clock is a number of ms since 1970, in digits and within 64 bits\n", argv[2]);
        return 2;
    }
    if (argc == 4 && !challenge_from(argv[3], &challenge)) {
        fprintf(stderr, "panel: %s: a challenge is pairs of hex digits\n", argv[3]);
        return 2;
    }
    if (!load(argv[1], &extension))
        return 2;
    list(&extension);
    if (sculldrip_number(sculldrip_read(extension.bytes, extension.length, image, SCULLDRIP_IMAGE_WORDS)) != 0)
        return 2;
    int permitted = may_sign(image, clock);
    if (argc == 4)
        enrol(image, &extension, &challenge);
    write_again(image, &extension);
    if (fflush(stdout) != 0 || ferror(stdout)) {
        perror("panel: standard output");
        return 2;
    }
    return permitted ? 0 : 1;
}
