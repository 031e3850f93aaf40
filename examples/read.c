/* Reads a TCP data packet from standard input and prints what is in it.
 * cc -I include -o read examples/read.c crates/capi/out/libcapi.a */
#include <inttypes.h>
#include <stdio.h>

#include "brundilope.h"

int main(void) {
    uint8_t bytes[BRUNDILOPE_LARGEST + 1]; /* one more than the longest packet */
    uint64_t words[BRUNDILOPE_LARGEST_CONTENTS];
    size_t size = fread(bytes, 1, sizeof bytes, stdin);

    size_t family = BRUNDILOPE_FAMILY_STANDARD; /* all units but FMB640, FMB641, FMC640, FMM640 */
    struct brundilope_written answer =
        brundilope_contents_of_packet(family, bytes, size, words, BRUNDILOPE_LARGEST_CONTENTS);
    if (answer.number != 0) {
        printf("refusal %zu, byte %zu\n", answer.number, answer.place);
        return 1;
    }
    printf("codec %02X, records %u\n", brundilope_contents_codec(words), brundilope_contents_count(words));
    const uint64_t *r = brundilope_contents_records(words);
    for (size_t n = 0; n < brundilope_contents_count(words); n++, r = brundilope_contents_record_next(r))
        printf("time %" PRIu64 ", longitude %" PRId32 ", latitude %" PRId32 ", values %zu\n",
               brundilope_contents_record_timestamp(r), brundilope_contents_record_longitude(r),
               brundilope_contents_record_latitude(r), brundilope_contents_record_elements(r));
    return 0;
}
