/* Linked around five calls by the linker's --wrap, does what DAMAGE says: what the driver has to see. */
#include "brundilope.h"

enum { COUNT = 1, PLACE, BEFORE, BEHIND, INPUT, WORD, STATE, FAMILY, SPARE, HELD, LENT };

/* A call of the library, and the one around it, whose body follows. */
#define AROUND(answer, call, ...)                                     \
    struct brundilope_##answer __real_brundilope_##call(__VA_ARGS__); \
    struct brundilope_##answer __wrap_brundilope_##call(__VA_ARGS__); \
    struct brundilope_##answer __wrap_brundilope_##call(__VA_ARGS__)

AROUND(packet, read_packet, size_t family, const uint8_t *p, size_t p_len) {
    struct brundilope_packet answer = __real_brundilope_read_packet(family, p, p_len);
    if (DAMAGE == COUNT && answer.number) answer.count = 1;
    if (DAMAGE == PLACE) answer.place++;
    return answer;
}

AROUND(written, acknowledge_packet, size_t family, const uint8_t *p, size_t p_len, uint8_t *out, size_t out_len) {
    struct brundilope_written answer = __real_brundilope_acknowledge_packet(family, p, p_len, out, out_len);
    if (DAMAGE == BEFORE && out_len) out[-1] ^= 1;
    if (DAMAGE == BEHIND && out_len) out[out_len] ^= 1;
    if (DAMAGE == INPUT && p_len) ((uint8_t *)p)[p_len - 1] ^= 1;
    return answer;
}

AROUND(written, contents_of_packet, size_t family, const uint8_t *p, size_t p_len, uint64_t *out, size_t out_len) {
    struct brundilope_written answer = __real_brundilope_contents_of_packet(family, p, p_len, out, out_len);
    if (DAMAGE == WORD) out[out_len] ^= 1;
    return answer;
}

AROUND(fed, feed, struct brundilope_connection state, const uint8_t *bytes, size_t bytes_len) {
    struct brundilope_fed answer = __real_brundilope_feed(state, bytes, bytes_len);
    if (DAMAGE == STATE) answer.state.held[answer.state.fill] = 1;
    if (DAMAGE == FAMILY) answer.state.family = BRUNDILOPE_FAMILY_640;
    if (DAMAGE == SPARE) answer.packet[answer.size] = 1;
    return answer;
}

AROUND(taken, feed_lent, size_t family, uint8_t phase, size_t fill, uint8_t *held, size_t held_len,
       const uint8_t *bytes, size_t bytes_len, uint8_t *packet, size_t packet_len) {
    struct brundilope_taken answer =
        __real_brundilope_feed_lent(family, phase, fill, held, held_len, bytes, bytes_len, packet, packet_len);
    if (DAMAGE == HELD) held[answer.fill] = 1;
    if (DAMAGE == LENT) packet[answer.size] ^= 1;
    return answer;
}
