/* calls FILE..: the time of each call that a user of the library makes, on each extension named, as a table of ns. Built and
 * run by bench/calls. Rounds of all calls take turns, so that other work on the machine disturbs all alike, and the least
 * round of each is printed. */
#define _POSIX_C_SOURCE 200809L /* clock_gettime */
#include <stdio.h>
#include <stdlib.h>
#include <string.h>
#include <time.h>

#include "sculldrip.h"

enum { CALLS = 6, ROUNDS = 60, ROUND_NS = 2000000, MOST_FILES = 8 };

struct input {
    const char *name;
    uint8_t bytes[SCULLDRIP_EXTENSION_BYTES];
    size_t length;
    uint64_t image[SCULLDRIP_IMAGE_WORDS];
    double ns[CALLS];
};

static struct input inputs[MOST_FILES];
static uint64_t request[SCULLDRIP_REQUEST_WORDS];

static uint64_t read_it(struct input *in) {
    uint64_t image[SCULLDRIP_IMAGE_WORDS];
    uint64_t answer = sculldrip_read(in->bytes, in->length, image, SCULLDRIP_IMAGE_WORDS);
    __asm__ volatile("" : : "r"(image) : "memory");
    return answer;
}

static uint64_t write_it(struct input *in) {
    uint8_t output[SCULLDRIP_EXTENSION_BYTES];
    uint64_t answer = sculldrip_write(in->image, SCULLDRIP_IMAGE_WORDS, in->bytes, in->length, output, sizeof output);
    __asm__ volatile("" : : "r"(output) : "memory");
    return answer;
}

static uint64_t octets_of_it(struct input *in) {
    uint64_t part[SCULLDRIP_PART_WORDS];
    return sculldrip_octets(in->image, SCULLDRIP_IMAGE_WORDS, SCULLDRIP_HARDWARE, 709, in->length, part,
                            SCULLDRIP_PART_WORDS);
}

static uint64_t rule_on_it(struct input *in) {
    uint64_t permit[SCULLDRIP_PERMIT_WORDS];
    return sculldrip_rule(in->image, SCULLDRIP_IMAGE_WORDS, request, SCULLDRIP_REQUEST_WORDS, permit, SCULLDRIP_PERMIT_WORDS);
}

static uint64_t enrol_it(struct input *in) {
    struct sculldrip_part challenge = sculldrip_challenge(in->image);
    return sculldrip_enrol(in->image, SCULLDRIP_IMAGE_WORDS, in->bytes, in->length, in->bytes + challenge.start,
                           (size_t)challenge.length);
}

static uint64_t list_it(struct input *in) {
    static uint8_t text[SCULLDRIP_LISTING_BYTES];
    return sculldrip_list(in->bytes, in->length, text, sizeof text);
}

static const struct {
    const char *name;
    uint64_t (*run)(struct input *);
} calls[CALLS] = {{"sculldrip_read", read_it}, {"sculldrip_write", write_it},   {"sculldrip_octets", octets_of_it},
                  {"sculldrip_rule", rule_on_it}, {"sculldrip_enrol", enrol_it}, {"sculldrip_list", list_it}};

static double now(void) {
    struct timespec t;
    clock_gettime(CLOCK_MONOTONIC, &t);
    return (double)t.tv_sec * 1e9 + (double)t.tv_nsec;
}

static double one_round(int call, struct input *in, size_t turns) {
    double start = now();
    for (size_t i = 0; i < turns; i++) {
        __asm__ volatile("" : : "r"(in) : "memory");
        calls[call].run(in);
    }
    return (now() - start) / (double)turns;
}

static void measure(struct input *in) {
    size_t turns[CALLS];
    for (int call = 0; call < CALLS; call++) {
        in->ns[call] = 1e18;
        turns[call] = 1 + (size_t)(ROUND_NS / one_round(call, in, 20));
    }
    for (int round = 0; round < ROUNDS; round++)
        for (int call = 0; call < CALLS; call++) {
            double took = one_round(call, in, turns[call]);
            if (took < in->ns[call])
                in->ns[call] = took;
        }
}

static void load(const char *name, struct input *in) {
    FILE *file = fopen(name, "rb");
    in->name = strrchr(name, '/') ? strrchr(name, '/') + 1 : name;
    in->length = file ? fread(in->bytes, 1, sizeof in->bytes, file) : 0;
    if (file)
        fclose(file);
    if (sculldrip_number(sculldrip_read(in->bytes, in->length, in->image, SCULLDRIP_IMAGE_WORDS)) != 0) {
        fprintf(stderr, "calls: %s cannot be read, or is refused\n", name);
        exit(1);
    }
}

int main(int count, char **names) {
    int files = count - 1 < MOST_FILES ? count - 1 : MOST_FILES;
    sculldrip_strict_request(request);
    request[SCULLDRIP_REQUEST_PURPOSE] = SCULLDRIP_PURPOSE_SIGN;
    request[SCULLDRIP_REQUEST_DIGEST] = SCULLDRIP_DIGEST_SHA_2_256;
    request[SCULLDRIP_REQUEST_PADDING] = SCULLDRIP_PADDING_NONE;
    request[SCULLDRIP_REQUEST_CLOCK] = 1735689600000; /* the start of 2025 */
    request[SCULLDRIP_REQUEST_CLOCK_FLOOR] = 1600000000000;
    printf("| ns a call; the refusal, if it is one |");
    for (int f = 0; f < files; f++) {
        load(names[f + 1], &inputs[f]);
        measure(&inputs[f]);
        printf(" %s, %zu bytes |", inputs[f].name, inputs[f].length);
    }
    printf("\n|---|");
    for (int f = 0; f < files; f++)
        printf("--:|");
    for (int call = 0; call < CALLS; call++) {
        printf("\n| %s |", calls[call].name);
        for (int f = 0; f < files; f++) {
            unsigned number = sculldrip_number(calls[call].run(&inputs[f]));
            printf(" %.0f", inputs[f].ns[call]);
            if (number != 0)
                printf(" (%u)", number);
            printf(" |");
        }
    }
    printf("\n");
    return 0;
}
