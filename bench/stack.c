/* stack [FIGURES]: how much stack each call takes, in KB, over extensions as hex, one to a line, from standard input. It writes
 * a line as the header has it at SCULLDRIP_STACK_BYTES, and answers 1 where FIGURES, such a line, is not what was measured.
 *
 *   gcc -O2 -Wall -Wextra -Werror -pthread -Wl,-z,now -Iinclude bench/stack.c target/staticlib/libsculldrip.a -o target/stack
 *   grep -o '"hex":"[0-9a-f]*' cases/reader.jsonl | cut -d'"' -f4 | target/stack
 *
 * A call is made from a thread whose stack was painted down to its end with one byte: the lowest byte that is another after
 * the call was the last in use. Without -z now the first call of all also has to find memcpy, which takes 3 KB more. */
#define _POSIX_C_SOURCE 200809L /* getline */
#include <pthread.h>
#include <stdio.h>
#include <stdlib.h>
#include <string.h>

#include "sculldrip.h"

#define KB 1024
#define THREAD_BYTES (96 * KB)
#define FRAME_BYTES 512
#define PAINT 0xa5

enum call { READ, LIST, WRITE, RULE, OCTETS, ENROL, CALLS };
static const char *const names[CALLS] = {"read", "list", "write", "rule", "octets", "enrol"};

/* What the calls are lent; none of it lies in the stack that is measured. */
static uint8_t *stack, extension[SCULLDRIP_EXTENSION_BYTES + 1], text[SCULLDRIP_LISTING_BYTES];
static uint64_t image[SCULLDRIP_IMAGE_WORDS], request[SCULLDRIP_REQUEST_WORDS], permit[SCULLDRIP_PERMIT_WORDS];
static uint64_t part[SCULLDRIP_PART_WORDS];
static size_t length, deepest[CALLS];

static uint64_t make(enum call call) {
    switch (call) {
    case READ:
        return sculldrip_read(extension, length, image, SCULLDRIP_IMAGE_WORDS);
    case LIST:
        return sculldrip_list(extension, length, text, sizeof text);
    case WRITE:
        return sculldrip_write(image, SCULLDRIP_IMAGE_WORDS, extension, length, text, sizeof text);
    case RULE:
        return sculldrip_rule(image, SCULLDRIP_IMAGE_WORDS, request, SCULLDRIP_REQUEST_WORDS, permit, SCULLDRIP_PERMIT_WORDS);
    case OCTETS:
        return sculldrip_octets(image, SCULLDRIP_IMAGE_WORDS, 1, 709, length, part, SCULLDRIP_PART_WORDS);
    default:
        return sculldrip_enrol(image, SCULLDRIP_IMAGE_WORDS, extension, length, extension + image[SCULLDRIP_AT_CHALLENGE],
                               (size_t)image[SCULLDRIP_AT_CHALLENGE + 1]);
    }
}

/* From this frame on, so that the frame counts too; it is not painted over. */
__attribute__((noinline)) static uint64_t measure(enum call call) {
    uint8_t *top = __builtin_frame_address(0);
    volatile uint8_t *byte;
    uint64_t answer;
    size_t taken;
    for (byte = stack; byte < top - FRAME_BYTES; byte++)
        *byte = PAINT;
    answer = make(call);
    for (byte = stack; byte < top && *byte == PAINT; byte++)
        continue;
    taken = (size_t)(top - byte);
    if (taken > deepest[call])
        deepest[call] = taken;
    return answer;
}

/* Every purpose, digest and padding, with a token and all else said in the use's favour. */
static void measure_rules(void) {
    uint64_t i;
    for (i = 0; i < 8 * 7 * 6; i++) {
        memset(request, 0, sizeof request);
        request[SCULLDRIP_REQUEST_PURPOSE] = i % 8;
        request[SCULLDRIP_REQUEST_DIGEST] = i / 8 % 7;
        request[SCULLDRIP_REQUEST_PADDING] = i / 56;
        request[SCULLDRIP_REQUEST_CLOCK] = 1609459200000;
        request[SCULLDRIP_REQUEST_HAS_TOKEN] = 1;
        request[SCULLDRIP_REQUEST_TOKEN_TYPE] = UINT64_MAX;
        request[SCULLDRIP_REQUEST_USER_PRESENT] = 1;
        request[SCULLDRIP_REQUEST_USER_CONFIRMED] = 1;
        measure(RULE);
    }
}

static void *measure_all(void *unused) {
    char *line = NULL;
    size_t room = 0, i;
    unsigned byte;
    while (getline(&line, &room, stdin) >= 0) {
        length = strspn(line, "0123456789abcdefABCDEF") / 2;
        length = length < sizeof extension ? length : sizeof extension;
        for (i = 0; i < length && sscanf(line + 2 * i, "%2x", &byte) == 1; i++)
            extension[i] = (uint8_t)byte;
        measure(LIST);
        if (sculldrip_number(measure(READ)) != 0)
            continue;
        measure(WRITE);
        measure(OCTETS);
        measure(ENROL);
        measure_rules();
    }
    free(line);
    return unused;
}

/* "read 13, list 15, .." */
static void print_figures(void) {
    int call;
    for (call = 0; call < CALLS; call++)
        printf("%s%s %zu", call == 0 ? "" : ", ", names[call], (deepest[call] + KB - 1) / KB);
    printf("\n");
}

/* Whether each call takes what these words say, give or take a KB, and no more than the header promises. */
static int are_said(const char *figures) {
    int call;
    for (call = 0; call < CALLS; call++) {
        const char *name = strstr(figures, names[call]);
        size_t said = name == NULL ? 0 : KB * (size_t)strtoul(name + strlen(names[call]), NULL, 10);
        if (deepest[call] > said + KB || deepest[call] + 2 * KB < said || deepest[call] > SCULLDRIP_STACK_BYTES)
            return 0;
    }
    return 1;
}

int main(int argc, char **argv) {
    pthread_attr_t own;
    pthread_t thread;
    if (posix_memalign((void **)&stack, 4096, THREAD_BYTES) != 0 || pthread_attr_init(&own) != 0 ||
        pthread_attr_setstack(&own, stack, THREAD_BYTES) != 0 ||
        pthread_create(&thread, &own, measure_all, NULL) != 0 || pthread_join(thread, NULL) != 0) {
        fprintf(stderr, "stack: no thread\n");
        return 2;
    }
    print_figures();
    return argc == 2 && !are_said(argv[1]);
}
