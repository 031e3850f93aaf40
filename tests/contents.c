/* Each function of the header that reads a table of contents, on a datagram: its last record begins behind byte 255 and
 * has no two fields alike, the others have priorities 0 to 2 and else zeros. Valid in C and in C++. */
#include <string.h>

#include "brundilope.h"
#include "hold.h"

enum { BARE = 8, BARE_SIZE = 32, WORDS = 2 + 4 * (BARE + 1) + 3 }; /* records before the last; their size */
enum { PRIORITY = 25 + BARE * BARE_SIZE + 8 };                     /* of the last */

static const uint8_t head[] = {0xC0, 0xDE, 0x5A, 0x69, 0x00, 0x0F, '1', '2', '3', '4', '5', '6',
                               '7',  '8',  '9',  '0',  '1',  '2',  '3', '4', '5', 0x10, BARE + 1};
static const uint8_t last[] = {
    0x01, 0x02, 0x03, 0x04, 0x05, 0x06, 0x07, 0x08, /* timestamp */
    0x02,                                           /* priority */
    0xFF, 0xED, 0x29, 0x79, 0xFF, 0x8B, 0x34, 0x4F, /* longitude, latitude */
    0xFE, 0xD4, 0x01, 0x67, 0x0B, 0x01, 0x5E,       /* altitude, angle, satellites, speed */
    0x01, 0x81, 0x07, 0x03,                         /* event ID, generation type, total */
    0x01, 0x01, 0x02, 0xA1,                         /* a value of one byte */
    0x01, 0x03, 0x04, 0xA2, 0xA3,                   /* one of two */
    0x00,                                           /* none of four */
    0x01, 0x05, 0x06, 1,    2,    3,    4,    5,    6, 7, 8};

static size_t datagram(uint8_t *bytes) {
    uint8_t *at = bytes + 2;
    memcpy(at, head, sizeof head);
    at += sizeof head;
    memset(at, 0, BARE * BARE_SIZE);
    for (int n = 0; n < BARE; n++, at += BARE_SIZE) at[8] = (uint8_t)(n % 3); /* priority */
    memcpy(at, last, sizeof last);
    at += sizeof last;
    *at++ = BARE + 1;
    size_t behind = (size_t)(at - bytes) - 2;
    bytes[0] = (uint8_t)(behind >> 8);
    bytes[1] = (uint8_t)behind;
    return behind + 2;
}

int main(void) {
    uint8_t bytes[BRUNDILOPE_LARGEST];
    uint64_t words[WORDS];
    size_t size = datagram(bytes);
    HOLD(brundilope_contents_of_datagram(3, bytes, size, words, 0).number, 21);
    bytes[PRIORITY]++;
    struct brundilope_written answer =
        brundilope_contents_of_datagram(BRUNDILOPE_FAMILY_640, bytes, size, words, WORDS);
    HOLD(answer.number, 10);
    HOLD(answer.index, BARE);
    HOLD(answer.place, PRIORITY);
    HOLD(answer.written, 0);
    bytes[PRIORITY]--;
    answer = brundilope_contents_of_datagram(BRUNDILOPE_FAMILY_640, bytes, size, words, WORDS);
    HOLD(answer.number, 0);
    HOLD(answer.place, 0);
    HOLD(answer.written, WORDS);
    if (wrong) return 1;

    HOLD(brundilope_contents_codec(words), 16);
    HOLD(brundilope_contents_count(words), BARE + 1);
    HOLD(brundilope_contents_packet_id(words), 0xC0DE);
    HOLD(brundilope_contents_unused(words), 0x5A);
    HOLD(brundilope_contents_avl_packet_id(words), 0x69);
    HOLD(brundilope_contents_imei(words), 123456789012345);

    static const uint8_t acknowledgement[] = {0x00, 0x05, 0xC0, 0xDE, 0x5A, 0x69, BARE + 1, 0xEE};
    uint8_t given[] = {0xEE, 0xEE, 0xEE, 0xEE, 0xEE, 0xEE, 0xEE, 0xEE};
    brundilope_contents_acknowledge_datagram(words, given);
    HOLD(memcmp(given, acknowledgement, sizeof given), 0);
    brundilope_contents_acknowledge_packet(words, given);
    static const uint8_t count[] = {0x00, 0x00, 0x00, BARE + 1, 0x5A, 0x69, BARE + 1, 0xEE};
    HOLD(memcmp(given, count, sizeof given), 0);

    const uint64_t *r = brundilope_contents_records(words);
    for (int n = 0; n < BARE; n++, r = brundilope_contents_record_next(r)) {
        HOLD(brundilope_contents_record_priority(r), n % 3);
        HOLD(brundilope_contents_record_start(r), 25 + BARE_SIZE * n);
        HOLD(brundilope_contents_record_elements(r), 0);
    }
    HOLD(brundilope_contents_record_timestamp(r), 72623859790382856);
    HOLD(brundilope_contents_record_priority(r), 2);
    HOLD(brundilope_contents_record_longitude(r), -1234567);
    HOLD(brundilope_contents_record_latitude(r), -7654321);
    HOLD(brundilope_contents_record_altitude(r), -300);
    HOLD(brundilope_contents_record_angle(r), 359);
    HOLD(brundilope_contents_record_satellites(r), 11);
    HOLD(brundilope_contents_record_speed(r), 350);
    HOLD(brundilope_contents_record_event(r), 385);
    HOLD(brundilope_contents_record_generation(r), 7);
    HOLD(brundilope_contents_record_start(r), 281);
    HOLD(brundilope_contents_record_size(r), 49);
    HOLD(brundilope_contents_record_elements(r), 3);
    HOLD(brundilope_contents_record_next(r) - words, WORDS);

    static const long long values[][4] = {{258, 1, 312, 1}, {772, 2, 316, 2}, {1286, 8, 322, 8}};
    for (int e = 0; e < 3; e++) {
        uint64_t v = brundilope_contents_record_values(r)[e];
        HOLD(brundilope_contents_value_id(v), values[e][0]);
        HOLD(brundilope_contents_value_kind(v), values[e][1]);
        HOLD(brundilope_contents_value_offset(v), values[e][2]);
        HOLD(brundilope_contents_value_size(v), values[e][3]);
    }

    /* the ends of both ranges, with other bits above them */
    HOLD(brundilope_signed32(0x5A7FFFFFFF), 2147483647);
    HOLD(brundilope_signed32(0x5A80000000), -2147483647 - 1);
    HOLD(brundilope_signed16(0x5A7FFF), 32767);
    HOLD(brundilope_signed16(0x5A8000), -32768);
    return wrong;
}
