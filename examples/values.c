/* Reads a TCP data packet from standard input and prints each value: ID, kind, offset, size, bytes.
 * cc -I include -o values examples/values.c crates/capi/out/libcapi.a */
#include <stdio.h>

#include "brundilope.h"

int main(void) {
    uint8_t bytes[BRUNDILOPE_LARGEST + 1]; /* one more than the longest packet */
    uint64_t words[BRUNDILOPE_LARGEST_CONTENTS];
    size_t size = fread(bytes, 1, sizeof bytes, stdin);

    size_t family = BRUNDILOPE_FAMILY_STANDARD; /* all units but FMB640, FMB641, FMC640, FMM640 */
    struct brundilope_written answer =
        brundilope_contents_of_packet(family, bytes, size, words, BRUNDILOPE_LARGEST_CONTENTS);
    if (answer.number != 0) {
        printf("refusal %zu, byte %zu\n", answer.number, answer.place);
        return 1;
    }
    const uint64_t *r = brundilope_contents_records(words);
    for (size_t n = 0; n < brundilope_contents_count(words); n++, r = brundilope_contents_record_next(r)) {
        printf("record %zu\n", n);
        for (size_t e = 0; e < brundilope_contents_record_elements(r); e++) {
            uint64_t v = brundilope_contents_record_values(r)[e];
            size_t offset = brundilope_contents_value_offset(v), length = brundilope_contents_value_size(v);
            printf("id %u, kind %u, offset %zu, size %zu, bytes", brundilope_contents_value_id(v),
                   brundilope_contents_value_kind(v), offset, length);
            for (size_t i = 0; i < length; i++) printf(" %02X", bytes[offset + i]);
            putchar('\n');
        }
    }
    return 0;
}
