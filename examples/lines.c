/* Reads a TCP data packet from standard input and prints the billing line of each record.
 * cc -I include -o lines examples/lines.c crates/capi/out/libcapi.a */
#include <stdio.h>

#include "brundilope.h"

int main(void) {
    uint8_t bytes[BRUNDILOPE_LARGEST + 1]; /* one more than the longest packet */
    uint8_t lines[BRUNDILOPE_LARGEST_LINES];
    size_t size = fread(bytes, 1, sizeof bytes, stdin);

    struct brundilope_written answer =
        brundilope_lines_of_packet(BRUNDILOPE_FAMILY_STANDARD, bytes, size, lines, sizeof lines);
    if (answer.number != 0) {
        printf("refusal %zu, byte %zu\n", answer.number, answer.place);
        return 1;
    }
    return fwrite(lines, 1, answer.written, stdout) == answer.written ? 0 : 1;
}
