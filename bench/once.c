/* once FILE: reads the extension, writes it again and rules on a use of its key, each once. bench/instructions counts what each
 * call takes. */
#include <stdio.h>
#include <stdlib.h>

#include "sculldrip.h"

int main(int argc, char **argv) {
    static uint8_t bytes[SCULLDRIP_EXTENSION_BYTES], output[SCULLDRIP_EXTENSION_BYTES];
    static uint64_t image[SCULLDRIP_IMAGE_WORDS];
    uint64_t request[SCULLDRIP_REQUEST_WORDS] = {0}, permit[SCULLDRIP_PERMIT_WORDS];
    FILE *file = argc == 2 ? fopen(argv[1], "rb") : NULL;
    if (!file) return EXIT_FAILURE;
    size_t length = fread(bytes, 1, sizeof bytes, file);
    fclose(file);
    request[SCULLDRIP_REQUEST_PURPOSE] = SCULLDRIP_PURPOSE_SIGN;
    request[SCULLDRIP_REQUEST_DIGEST] = SCULLDRIP_DIGEST_SHA_2_256;
    request[SCULLDRIP_REQUEST_PADDING] = SCULLDRIP_PADDING_NONE;
    request[SCULLDRIP_REQUEST_CLOCK] = 1700000000000u;
    request[SCULLDRIP_REQUEST_CLOCK_FLOOR] = 1600000000000u;
    request[SCULLDRIP_REQUEST_EARLY_BOOT_OVER] = 1;
    if (sculldrip_number(sculldrip_read(bytes, length, image, SCULLDRIP_IMAGE_WORDS)) != 0) return EXIT_FAILURE;
    if (sculldrip_number(sculldrip_write(image, SCULLDRIP_IMAGE_WORDS, bytes, length, output, sizeof output)) != 0) return EXIT_FAILURE;
    sculldrip_rule(image, SCULLDRIP_IMAGE_WORDS, request, SCULLDRIP_REQUEST_WORDS, permit, SCULLDRIP_PERMIT_WORDS);
    return EXIT_SUCCESS;
}
