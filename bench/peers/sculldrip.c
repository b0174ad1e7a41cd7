// Sculldrip's proved read, as a caller has it: an image of words, asked by the header's functions for the sum.
#include "../../include/sculldrip.h"
#include "record.h"

static part part_of(struct sculldrip_part from) { return (part){from.start, from.length}; }

static void take_set(const uint64_t *image, unsigned list, unsigned row, number_set *to) {
    struct sculldrip_set set;
    if (!sculldrip_set_field(image, list, row, &set)) return;
    for (size_t i = 0; i < set.count; i++) to->members[i] = set.members[i];
    to->count = set.count;
}

static void take_root(const uint64_t *image, unsigned list, root_of_trust *to) {
    struct sculldrip_root root;
    if (!sculldrip_root_of_trust(image, list, &root)) return;
    *to = (root_of_trust){part_of(root.key), root.is_locked, root.state, root.has_hash, part_of(root.hash)};
}

static void take_list(const uint64_t *image, unsigned list, field_list *to) {
    for (unsigned row = 0; row < ROWS; row++) {
        struct sculldrip_part octets;
        to->present[row] = sculldrip_has(image, list, row);
        sculldrip_number_field(image, list, row, &to->values[row]);
        if (sculldrip_octet_field(image, list, row, &octets)) to->values[row] = octets.start, to->sizes[row] = octets.length;
    }
    take_set(image, list, SCULLDRIP_ROW_PURPOSE, &to->purpose);
    take_set(image, list, SCULLDRIP_ROW_DIGEST, &to->digest);
    take_set(image, list, SCULLDRIP_ROW_PADDING, &to->padding);
    take_set(image, list, SCULLDRIP_ROW_MGF_DIGEST, &to->mgfDigest);
    take_root(image, list, &to->rootOfTrust);
}

uint64_t peer_sum(const uint8_t *bytes, size_t len, summing sum) {
    uint64_t image[SCULLDRIP_IMAGE_WORDS];
    record said = {0};
    if (sculldrip_number(sculldrip_read(bytes, len, image, SCULLDRIP_IMAGE_WORDS)) != 0) return 0;
    said.attestation = (security){sculldrip_attestation_version(image), sculldrip_attestation_level(image)};
    said.keymint = (security){sculldrip_keymint_version(image), sculldrip_keymint_level(image)};
    said.challenge = part_of(sculldrip_challenge(image));
    said.unique = part_of(sculldrip_unique_id(image));
    take_list(image, SCULLDRIP_SOFTWARE, &said.software);
    take_list(image, SCULLDRIP_HARDWARE, &said.hardware);
    return sum(&said, bytes);
}
