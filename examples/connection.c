/* Reads a connection from standard input, a few bytes at a time as a socket may give them, and prints each item.
 * cc -I include -o connection examples/connection.c crates/capi/out/libcapi.a */
#include <inttypes.h>
#include <stdio.h>

#include "brundilope.h"

enum { PIECE = 7 }; /* bytes; a gateway takes what the socket has */

int main(void) {
    /* for all units but FMB640, FMB641, FMC640, FMM640; the start of a known family is never refused */
    struct brundilope_connection state = brundilope_start(BRUNDILOPE_FAMILY_STANDARD).state;
    uint8_t packet[BRUNDILOPE_LARGEST], piece[PIECE];
    size_t size;

    while ((size = fread(piece, 1, sizeof piece, stdin)) > 0) {
        for (size_t at = 0; at < size;) {
            struct brundilope_taken taken = brundilope_feed_at(&state, piece + at, size - at, packet, sizeof packet);
            at += taken.used;
            if (taken.number != 0) {
                printf("refusal %zu, byte %zu\n", taken.number, taken.place); /* the byte of this item */
                return 1;
            }
            if (taken.item == 1) printf("login of %015" PRIu64 "\n", taken.imei);
            if (taken.item == 2) /* of data: store it here, then acknowledge it */
                printf("packet of %zu bytes, codec %02X, count %u\n", taken.size, brundilope_codec_of(packet),
                       brundilope_count_of(packet));
        }
    }
    printf("end, %zu bytes held, %zu wanted\n", state.fill,
           brundilope_wanted(state.family, state.phase, state.fill, state.held, sizeof state.held));
    return 0;
}
