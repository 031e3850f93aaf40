/* Lines both ways: the records of a packet and of a datagram become lines, each is read back, and no byte behind a
 * buffer is changed. Inputs and buffers are blocks of their exact size, so that a tool sees a read or a write past
 * them. Valid in C and in C++. */
#include <stdlib.h>
#include <string.h>

#include "brundilope.h"
#include "hold.h"

enum { FAMILY = BRUNDILOPE_FAMILY_STANDARD, ROOM = 64, SIZE = 143, RECORDS = 2, HEAD = 23, GRAM = HEAD + SIZE - 12 };
enum { PRIORITY = 89 }; /* of the second record */

/* samples/driver-tags.hex, the first name's bytes made odd: quote, comma, backslash, LF and 0xFF among them. */
static uint8_t packet[] = {
    0, 0, 0, 0, 0, 0, 0, 0x83, 0x8E, 0x02,                            /* head, codec, count */
    0x00, 0x00, 0x01, 0x6B, 0xDB, 0xC7, 0x83, 0x30, 0x01,             /* timestamp, priority */
    0x0F, 0x11, 0x60, 0xCA, 0x20, 0x98, 0x9A, 0xF2,                   /* longitude, latitude */
    0x00, 0x70, 0x00, 0xD5, 0x0B, 0x00, 0x2F, 0x01, 0x93, 0x00, 0x05, /* the other fields, event ID, total */
    0x00, 0x02, 0x00, 0x15, 0x03, 0x00, 0xEF, 0x01,                   /* values of one byte */
    0x00, 0x01, 0x00, 0x42, 0x5E, 0x0F, 0x00, 0x00, 0x00, 0x00,       /* of two; none of four and eight */
    0x00, 0x02, 0x01, 0x93, 0x00, 0x0F,                               /* two tags, the first */
    'J', '"', ',', '\\', '\n', ' ', 'P', 0x00, 0x1F, 0x20, 0x7E, 0x7F, 0x80, 0xFF, 's',
    0x01, 0x96, 0x00, 0x00,                                           /* an empty tag */
    0x00, 0x00, 0x01, 0x6B, 0xDB, 0xC7, 0x87, 0x18, 0x01,             /* the second record */
    0xFF, 0xFF, 0xFF, 0xFF, 0x80, 0x00, 0x00, 0x00,
    0x00, 0x70, 0x00, 0xD6, 0x0B, 0x00, 0x2E, 0x00, 0x00, 0x00, 0x03,
    0x00, 0x01, 0x00, 0x15, 0x03, 0x00, 0x00, 0x00, 0x00, 0x00, 0x00,
    0x00, 0x02, 0x01, 0x93, 0x00, 0x03, 'O', 'n', 'a', 0x01, 0x93, 0x00, 0x05, 'J', 'o', 'n', 'a', 's',
    0x02, 0, 0, 0, 0};                                                /* count again, CRC */

/* What stands before the same data field in a datagram: its length without these two bytes, IDs, IMEI. */
static const uint8_t head[HEAD] = {0,   GRAM - 2, 0xCA, 0xFE, 0x01, 0x05, 0x00, 0x0F, '1', '2', '3', '4',
                                   '5', '6',      '7',  '8',  '9',  '0',  '1',  '2',  '3', '4', '5'};

static const char *const lines[] = {
    "1562760414000,25.2797130,54.6872050,47,21=3,239=1,66=24079,"
    "403=\"J\\22\\2C\\5C\\0A P\\00\\1F ~\\7F\\80\\FFs\",406=\"\"\n",
    "1562760415000,-0.0000001,-214.7483648,46,21=3,403=\"Ona\",403=\"Jonas\"\n"};

static void put_crc(void) {
    unsigned crc = 0;
    for (size_t i = 8; i < SIZE - 4; i++) {
        crc ^= packet[i];
        for (int bit = 0; bit < 8; bit++) crc = crc & 1 ? crc >> 1 ^ 0xA001 : crc >> 1;
    }
    packet[SIZE - 2] = (uint8_t)(crc >> 8);
    packet[SIZE - 1] = (uint8_t)crc;
}

/* A block of so many bytes, all 0xEE; it has one more where there are none. */
static uint8_t *block(size_t size) {
    uint8_t *b = (uint8_t *)malloc(size ? size : 1);
    if (!b) exit(2);
    memset(b, 0xEE, size);
    return b;
}

/* The same with these bytes. */
static uint8_t *copy(const void *bytes, size_t size) {
    uint8_t *b = block(size);
    memcpy(b, bytes, size);
    return b;
}

static int untouched(const uint8_t *b, size_t size) {
    for (size_t i = 0; i < size; i++)
        if (b[i] != 0xEE) return 0;
    return 1;
}

/* Writes a record's line, or all lines if there is no such number, with this room; of the datagram or the packet, which
 * differ in size. */
static struct brundilope_written write_into(const uint8_t *p, size_t size, size_t record, uint8_t *out, size_t room) {
    if (size == GRAM)
        return record < RECORDS ? brundilope_line_of_datagram(FAMILY, p, size, record, out, room)
                                : brundilope_lines_of_datagram(FAMILY, p, size, out, room);
    return record < RECORDS ? brundilope_line_of_packet(FAMILY, p, size, record, out, room)
                            : brundilope_lines_of_packet(FAMILY, p, size, out, room);
}

/* A text is written into a block that is just long enough, into a longer one, and not into one that is too short. */
static void written(const uint8_t *p, size_t p_len, size_t record, const char *text) {
    size_t size = strlen(text);
    for (size_t more = 0; more < 3; more++) {
        uint8_t *out = block(size + more);
        struct brundilope_written a = write_into(p, p_len, record, out, size + more);
        HOLD(a.number, 0);
        HOLD(a.written, (long long)size);
        HOLD(memcmp(out, text, size), 0);
        HOLD(untouched(out + size, more), 1);
        free(out);
    }
    for (size_t room = 0; room < size; room += room + 1 < size ? size - room - 1 : 1) { /* none, and one too few */
        uint8_t *out = block(room);
        struct brundilope_written a = write_into(p, p_len, record, out, room);
        HOLD(a.number, 18);
        HOLD(a.written, 0);
        HOLD(untouched(out, room), 1);
        free(out);
    }
}

/* An element of a line by its number and by its byte: an ID with a number, or with a tag of so many bytes. */
static void element(const uint8_t *s, size_t s_len, size_t k, size_t *at, int id, long long value, const char *tag,
                    size_t size) {
    uint8_t wide[ROOM];
    size_t next = brundilope_element_at(s, s_len, *at, wide, sizeof wide).next;
    HOLD(s[next - 1] == ',' || next == s_len, 1);
    for (size_t room = tag ? size : 0; room < size + 3; room++) {
        for (int by_byte = 0; by_byte < 2; by_byte++) {
            uint8_t *out = block(room);
            struct brundilope_line_element e = by_byte ? brundilope_element_at(s, s_len, *at, out, room)
                                                       : brundilope_element_in_line(s, s_len, k, out, room);
            HOLD(e.number, 0);
            HOLD(e.id, id);
            HOLD(e.tag, tag != NULL);
            HOLD(e.value, value);
            HOLD(e.size, (long long)size);
            HOLD(e.next, (long long)next);
            if (tag) HOLD(memcmp(out, tag, size), 0);
            HOLD(untouched(out + size, room - size), 1);
            free(out);
        }
    }
    if (size > 0) {
        uint8_t *out = block(size - 1);
        HOLD(brundilope_element_in_line(s, s_len, k, out, size - 1).number, 18);
        HOLD(brundilope_element_at(s, s_len, *at, out, size - 1).number, 18);
        HOLD(untouched(out, size - 1), 1);
        free(out);
    }
    *at = next;
}

static void first_line(const uint8_t *s, size_t s_len) {
    struct brundilope_line l = brundilope_read_line(s, s_len);
    HOLD(l.number, 0);
    HOLD(l.timestamp, 1562760414000);
    HOLD(l.longitude, 252797130);
    HOLD(l.latitude, 546872050);
    HOLD(l.speed, 47);
    HOLD(l.elements, 5);
    HOLD(l.start, 39);
    size_t at = l.start;
    element(s, s_len, 0, &at, 21, 3, NULL, 0);
    element(s, s_len, 1, &at, 239, 1, NULL, 0);
    element(s, s_len, 2, &at, 66, 24079, NULL, 0);
    element(s, s_len, 3, &at, 403, 0, "J\",\\\n P\0\x1F ~\x7F\x80\xFFs", 15);
    element(s, s_len, 4, &at, 406, 0, "", 0);
    HOLD(at, (long long)s_len);
    HOLD(brundilope_element_in_line(s, s_len, 5, NULL, 0).number, 16);
    HOLD(brundilope_element_at(s, s_len, at, NULL, 0).number, 20);
    HOLD(brundilope_wrong_byte(s, s_len), (long long)s_len);
}

static void second_line(const uint8_t *s, size_t s_len) {
    struct brundilope_line l = brundilope_read_line(s, s_len);
    HOLD(l.number, 0);
    HOLD(l.longitude, -1);
    HOLD(l.latitude, -2147483647 - 1);
    HOLD(l.speed, 46);
    HOLD(l.elements, 3);
}

/* Each beginning of a line in a block of its own, and the line with each byte changed: never more is read. */
static void damaged(const char *text) {
    size_t size = strlen(text);
    uint8_t room[ROOM];
    for (size_t kept = 0; kept < size; kept++) {
        uint8_t *s = copy(text, kept);
        HOLD(brundilope_read_line(s, kept).number, 20);
        HOLD(brundilope_wrong_byte(s, kept), (long long)kept);
        HOLD(brundilope_element_in_line(s, kept, 0, room, sizeof room).number, 20);
        for (size_t at = 0; at < kept + 2; at++) {
            struct brundilope_line_element e = brundilope_element_at(s, kept, at, room, sizeof room);
            HOLD(e.number == 20 || (e.number == 0 && e.next <= kept), 1);
        }
        free(s);
    }
    for (size_t place = 0; place < size; place++) {
        uint8_t *s = copy(text, size);
        s[place] = 0x80;
        struct brundilope_line l = brundilope_read_line(s, size);
        HOLD(l.number, 20);
        HOLD(l.elements, 0);
        size_t wrong_at = brundilope_wrong_byte(s, size);
        HOLD(place == size - 1 ? wrong_at == size : wrong_at <= place, 1);
        free(s);
    }
}

/* A byte of the packet and of the datagram is missing, and there is no room. */
static void refused(size_t family, const uint8_t *p, const uint8_t *gram, long long number) {
    HOLD(brundilope_line_of_packet(family, p, SIZE - 1, 0, NULL, 0).number, number);
    HOLD(brundilope_lines_of_packet(family, p, SIZE - 1, NULL, 0).number, number);
    HOLD(brundilope_line_of_datagram(family, gram, GRAM - 1, 0, NULL, 0).number, number);
    HOLD(brundilope_lines_of_datagram(family, gram, GRAM - 1, NULL, 0).number, number);
}

/* The second record's priority is wrong, and there is no room. */
static void broken(uint8_t *p, uint8_t *gram) {
    packet[PRIORITY] = 3;
    put_crc();
    memcpy(p, packet, SIZE);
    memcpy(gram + HEAD, packet + 8, GRAM - HEAD);
    for (size_t n = 0; n <= RECORDS; n++) {
        struct brundilope_written of_packet = write_into(p, SIZE, n, NULL, 0);
        struct brundilope_written of_gram = write_into(gram, GRAM, n, NULL, 0);
        HOLD(of_packet.number, 10);
        HOLD(of_gram.number, 10);
        HOLD(of_packet.index, 1);
        HOLD(of_gram.index, 1);
        HOLD(of_packet.place, PRIORITY);
        HOLD(of_gram.place, PRIORITY - 8 + HEAD);
    }
}

int main(void) {
    put_crc();
    HOLD(sizeof packet, SIZE);
    uint8_t *p = copy(packet, SIZE), *gram = block(GRAM);
    memcpy(gram, head, HEAD);
    memcpy(gram + HEAD, packet + 8, GRAM - HEAD);
    char all[512];
    strcpy(all, lines[0]);
    strcat(all, lines[1]);
    for (size_t n = 0; n <= RECORDS; n++) {
        written(p, SIZE, n, n < RECORDS ? lines[n] : all);
        written(gram, GRAM, n, n < RECORDS ? lines[n] : all);
    }
    HOLD(brundilope_line_of_packet(FAMILY, p, SIZE, RECORDS, NULL, 0).number, 16);
    HOLD(brundilope_line_of_datagram(FAMILY, gram, GRAM, RECORDS, NULL, 0).number, 16);
    refused(FAMILY, p, gram, 4);
    refused(0, p, gram, 21);
    refused(FAMILY + 256, p, gram, 21);
    for (size_t n = 0; n < RECORDS; n++) {
        uint8_t *s = copy(lines[n], strlen(lines[n]));
        if (n == 0) first_line(s, strlen(lines[n]));
        else second_line(s, strlen(lines[n]));
        free(s);
        damaged(lines[n]);
    }
    HOLD(brundilope_read_line(NULL, 0).number, 20);
    HOLD(brundilope_element_in_line(NULL, 0, 0, NULL, 0).number, 20);
    HOLD(brundilope_element_at(NULL, 0, 0, NULL, 0).number, 20);
    HOLD(brundilope_wrong_byte(NULL, 0), 0);
    broken(p, gram);
    free(p);
    free(gram);
    return wrong;
}
