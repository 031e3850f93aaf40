/*
 * Brundilope: packets of Teltonika AVL trackers, read and written.
 *
 * Every call judges its input itself and answers every input. `number` is 0 where the input is accepted. Else it is
 * the refusal's number, `index` is the record's index from 0, which goes with 8 to 12 in data packets and datagrams
 * (left-over bytes: the number of records), and `place` is the offset at which the offending field starts in the
 * input. Both are 0 otherwise, and on a refusal all other fields are 0; only a feed still says how many bytes it used,
 * and a feed or a start what the connection's state is.
 *
 *    1  under 8 bytes (TCP packet), 17 (login), 26 (UDP)
 *    2  first four bytes not zero
 *    3  data length or datagram outside its family's limits
 *    4  input length differs from what its length field gives; login over 17 bytes
 *    5  CRC field wrong
 *    6  codec not one this entry point takes
 *    7  counts or quantities break their rule
 *    8  a field's bytes are not all there, or bytes are left over
 *    9  IO total wrong
 *   10  priority over 2
 *   11  generation type over 7
 *   12  record over 255 bytes (family 1)
 *   13  message type not allowed for its codec
 *   14  text size breaks its rule, or a command to write is over its family's limit
 *   15  IMEI length or digit wrong
 *   16  no such record, element or ID
 *   17  not the TLV form of any acceptable TCP data packet of the family
 *   18  lent buffer too short for the result
 *   19  connection closed, or a state that no feeds from a fresh one give
 *   20  not a billing line
 *   21  unknown family
 *
 * `place`, counted from the first byte of the packet, datagram or login, in a feed from the first byte of the item:
 *
 *    2  0
 *    3  4, the data length; 0 on a datagram
 *    5  the CRC field
 *    6  the codec
 *    7  the first count if that is 0 (a quantity: if it is not 1), else the second
 *    8  the first field whose bytes are not all there, each row of the layout being a field (an ID, a length, a value);
 *       or the first of the bytes that are left over; at the latest, the byte of the second count
 *    9  the record, as 12
 *   10  the priority
 *   11  the generation type
 *   13  the message type
 *   14  the size; with type 0x11 the text
 *   15  the length of the IMEI; else the byte of its first wrong digit
 *
 * There is always a byte of the input at it. It is 0 with all other numbers, and where a writer refuses its own
 * arguments (6, 13, 14, 15). A call that reads a packet to write something else of it, or to look something up, gives
 * the packet's own.
 *
 * A call that judges or builds a packet or datagram names the family of the unit as a number, its first argument; a
 * connection names it when it starts. There are two, and whatever family 1 accepts, family 2 accepts with the same
 * result:
 *
 *    1  FMB640, FMB641, FMC640, FMM640: a TCP packet (data or command) or datagram has at most 512 bytes, a record 255
 *    2  all other units: a TCP packet or datagram has at most 1,280 bytes, and a record has no limit of its own
 *
 * So 3 says that a TCP packet's data length is outside 3 to the family's limit less 12, or that a datagram is over the
 * limit. Any other number is refused with 21, before all other refusals and before any byte is read; the refusals that
 * are named below at a call with a family come behind it. Only a state of an unknown family gets 19 instead.
 *
 * An input is a pointer and a length; a null pointer with length 0 is an empty input, and so for buffers. A call that
 * writes puts its result at the start of the lent buffer `out` and changes nothing behind it; a refusal changes no
 * byte of it. Inputs, buffers and lent states must not overlap. The library allocates nothing and keeps nothing between
 * calls (a connection's state is the caller's), so calls may run in any number of threads at once.
 */
#ifndef BRUNDILOPE_H
#define BRUNDILOPE_H

#include <stdbool.h>
#include <stddef.h>
#include <stdint.h>

/* The library's version, and the number of the interface that this header describes. Whatever breaks a caller who is
 * not compiled anew gives it another number (CHANGELOG.md). The library has it in the name of a function, to which
 * every file that includes this header refers: with a library of another number it does not link, and with such a
 * shared library it does not start. */
#define BRUNDILOPE_VERSION "0.2.0"
#define BRUNDILOPE_ABI 1

/* The refusals: number, name, meaning. Each has a constant, as BRUNDILOPE_REFUSED_CRC. */
#define BRUNDILOPE_REFUSALS(REFUSAL) \
    REFUSAL(1, SHORT, "under 8 bytes (TCP packet), 17 (login), 26 (UDP)") \
    REFUSAL(2, PREAMBLE, "first four bytes not zero") \
    REFUSAL(3, LIMIT, "data length or datagram outside its family's limits") \
    REFUSAL(4, LENGTH, "input length differs from what its length field gives; login over 17 bytes") \
    REFUSAL(5, CRC, "CRC field wrong") \
    REFUSAL(6, CODEC, "codec not one this entry point takes") \
    REFUSAL(7, COUNT, "counts or quantities break their rule") \
    REFUSAL(8, FIELD, "a field's bytes are not all there, or bytes are left over") \
    REFUSAL(9, TOTAL, "IO total wrong") \
    REFUSAL(10, PRIORITY, "priority over 2") \
    REFUSAL(11, GENERATION_TYPE, "generation type over 7") \
    REFUSAL(12, RECORD_SIZE, "record over 255 bytes (family 1)") \
    REFUSAL(13, MESSAGE_TYPE, "message type not allowed for its codec") \
    REFUSAL(14, TEXT_SIZE, "text size breaks its rule, or a command to write is over its family's limit") \
    REFUSAL(15, IMEI, "IMEI length or digit wrong") \
    REFUSAL(16, NOT_FOUND, "no such record, element or ID") \
    REFUSAL(17, FORM, "not the TLV form of any acceptable TCP data packet of the family") \
    REFUSAL(18, ROOM, "lent buffer too short for the result") \
    REFUSAL(19, CLOSED, "connection closed, or a state that no feeds from a fresh one give") \
    REFUSAL(20, LINE, "not a billing line") \
    REFUSAL(21, FAMILY, "unknown family")

#define BRUNDILOPE_NAMED(number, name, meaning) BRUNDILOPE_REFUSED_##name = number,
enum brundilope_refusal { BRUNDILOPE_REFUSALS(BRUNDILOPE_NAMED) BRUNDILOPE_ACCEPTED = 0 };
#undef BRUNDILOPE_NAMED

/* Codecs of data and of commands, message types of commands, kinds of element. */
enum brundilope_codec {
    BRUNDILOPE_CODEC_8 = 0x08,
    BRUNDILOPE_CODEC_8_EXTENDED = 0x8E,
    BRUNDILOPE_CODEC_16 = 0x10,
    BRUNDILOPE_CODEC_12 = 0x0C,
    BRUNDILOPE_CODEC_13 = 0x0D,
    BRUNDILOPE_CODEC_14 = 0x0E
};
enum brundilope_type { BRUNDILOPE_COMMAND = 0x05, BRUNDILOPE_RESPONSE = 0x06, BRUNDILOPE_IMEI_MISMATCH = 0x11 };
enum brundilope_kind { BRUNDILOPE_ONE = 1, BRUNDILOPE_TWO = 2, BRUNDILOPE_FOUR = 4, BRUNDILOPE_EIGHT = 8,
                       BRUNDILOPE_VARIABLE = 9 };

/* The families of unit. */
#define BRUNDILOPE_FAMILY_640 1
#define BRUNDILOPE_FAMILY_STANDARD 2

/* The most bytes of a packet or a datagram: of any family, and of the 640 family. */
#define BRUNDILOPE_LARGEST 1280
#define BRUNDILOPE_LARGEST_640 512

/* How long a buffer is always enough for a TLV form, which has at most four times as many bytes as its packet: of a
 * packet of so many bytes, of any packet, and of any packet of the 640 family. Three times is not enough: the packet of
 * 1,095 bytes with 255 values of one byte in each of two records, codec 8, has a form of 3,637. */
#define BRUNDILOPE_FORM_ROOM(packet_len) (4 * (size_t)(packet_len))
#define BRUNDILOPE_LARGEST_FORM (4 * BRUNDILOPE_LARGEST)
#define BRUNDILOPE_LARGEST_FORM_640 (4 * BRUNDILOPE_LARGEST_640)

/* The most bytes of all lines of a packet or a datagram together, and so of any one line: at most four times as many as
 * its packet. */
#define BRUNDILOPE_LARGEST_LINES (4 * BRUNDILOPE_LARGEST)

/* The most words of a table of contents: at most one for every two bytes of its packet or datagram. */
#define BRUNDILOPE_LARGEST_CONTENTS (BRUNDILOPE_LARGEST / 2)

#ifdef __cplusplus
extern "C" {
#endif

/* BRUNDILOPE_ABI as the library has it. The pointer is what the linker has to find it for. */
size_t brundilope_abi_1(void);
#ifdef __GNUC__
__attribute__((used))
#ifdef __has_attribute
#if __has_attribute(retain)
__attribute__((retain)) /* also where the linker drops what nothing refers to */
#endif
#endif
static size_t (*const brundilope_abi_linked)(void) = brundilope_abi_1;
#endif

/* What a refusal's number means; of any other number "not the number of a refusal". */
static inline const char *brundilope_meaning(size_t number) {
    switch (number) {
#define BRUNDILOPE_MEANT(number, name, meaning) \
    case number: \
        return meaning;
        BRUNDILOPE_REFUSALS(BRUNDILOPE_MEANT)
#undef BRUNDILOPE_MEANT
    default:
        return "not the number of a refusal";
    }
}

/* ---- answers */

/* A TCP data packet. */
struct brundilope_packet {
    size_t number;
    size_t index;
    size_t place;
    uint8_t codec; /* 0x08, 0x8E or 0x10 */
    uint8_t count; /* of records, 1 to 255 */
};

/* A UDP datagram. */
struct brundilope_datagram {
    size_t number;
    size_t index;
    size_t place;
    uint8_t codec; /* 0x08, 0x8E or 0x10 */
    uint8_t count; /* of records, 1 to 255 */
    uint16_t packet_id;
    uint8_t unused; /* the unused byte, as received */
    uint8_t avl_packet_id;
    uint64_t imei; /* below 10^15 */
};

/* A TCP login. */
struct brundilope_login {
    size_t number;
    size_t index;
    size_t place;
    uint64_t imei; /* below 10^15 */
};

/* A command packet. Its text is the `size` bytes of the input from `offset` on. */
struct brundilope_command {
    size_t number;
    size_t index;
    size_t place;
    uint8_t codec; /* 0x0C, 0x0D or 0x0E */
    uint8_t type;  /* 0x05 command, 0x06 response, 0x11 IMEI doesn't match (0x0E only) */
    uint32_t time; /* of a message of 0x0D, as it was sent: seconds or milliseconds is not judged; 0 in the others */
    uint64_t imei; /* below 10^15, in 0x0E; 0 in 0x0C and 0x0D */
    size_t offset;
    size_t size;
};

/* A record's fixed fields, and the number of its elements. */
struct brundilope_record {
    size_t number;
    size_t index;
    size_t place;
    uint64_t timestamp; /* ms since 1970, UTC */
    uint8_t priority;   /* 0 to 2 */
    int32_t longitude;  /* degrees times 10^7, as latitude */
    int32_t latitude;
    int16_t altitude; /* m */
    uint16_t angle;   /* degrees from north */
    uint8_t satellites;
    uint16_t speed; /* km/h */
    uint16_t event;
    uint8_t generation; /* 0 to 7 in codec 0x10, else 0 */
    size_t elements;
};

/* An element. Its value is the `size` bytes of the input from `offset` on; they lie within its record. */
struct brundilope_value {
    size_t number;
    size_t index;
    size_t place;
    uint16_t id;
    uint8_t kind; /* 1, 2, 4, 8: a value of so many bytes; 9: of variable length, which may be 0 */
    size_t offset;
    size_t size;
};

/* What a look-up by ID gives: the element, and how many elements of the record were passed in looking for it: its place
 * in the record, from 1; the number of all the record's elements where none has the ID (16); 0 where the packet or
 * datagram is refused or has no such record. */
struct brundilope_found {
    struct brundilope_value value;
    size_t passed;
};

/* The last known value of an ID. */
struct brundilope_known {
    size_t number;
    size_t index;
    size_t place;
    bool older; /* the value is in the older packet, else in the newer */
    uint16_t id;
    uint8_t kind;
    size_t offset; /* in that packet */
    size_t size;
    size_t passed; /* elements passed in the last records of both packets, as in brundilope_found; where the older is not
                    * judged or is refused, those of the newer */
};

/* What a writer gives: how many bytes it wrote (words, where `out` is of words), 0 on a refusal. */
struct brundilope_written {
    size_t number;
    size_t index;
    size_t place;
    size_t written;
};

/* A billing line: its four leading fields, and the number of its elements. */
struct brundilope_line {
    size_t number;
    size_t index;
    size_t place;
    uint64_t timestamp; /* ms since 1970, UTC */
    int32_t longitude;  /* degrees times 10^7, as latitude */
    int32_t latitude;
    uint16_t speed; /* km/h */
    size_t elements;
    size_t start; /* the byte at which the field of its first element starts */
};

/* An element of a billing line. The bytes of a tag stand at the start of the lent buffer. */
struct brundilope_line_element {
    size_t number;
    size_t index;
    size_t place;
    uint16_t id;
    bool tag;       /* a value of variable length, else one of 1, 2, 4 or 8 bytes */
    uint64_t value; /* its number; 0 for a tag */
    size_t size;    /* how many bytes a tag has; 0 for a number */
    size_t next;    /* the byte at which the next field starts */
};

/* ---- reading */

/* A TCP data packet. Refusals 1 to 12. */
struct brundilope_packet brundilope_read_packet(size_t family, const uint8_t *p, size_t p_len);

/* A UDP datagram. Refusals 1, 3, 4, 15, 6 to 12. */
struct brundilope_datagram brundilope_read_datagram(size_t family, const uint8_t *p, size_t p_len);

/* A TCP login. Refusals 1, 4, 15. */
struct brundilope_login brundilope_read_login(const uint8_t *p, size_t p_len);

/* A command packet. Refusals 1 to 8, 13, 14, 15; `index` is always 0. */
struct brundilope_command brundilope_read_command(size_t family, const uint8_t *p, size_t p_len);

/* ---- looking up: records and elements are numbered from 0 */

/* A record by its number. Refusals: those of reading the packet or datagram, then 16. */
struct brundilope_record brundilope_record_in_packet(size_t family, const uint8_t *p, size_t p_len, size_t record);
struct brundilope_record brundilope_record_in_datagram(size_t family, const uint8_t *p, size_t p_len, size_t record);

/* An element by its record's number and its own. Refusals: those of reading, then 16. */
struct brundilope_value brundilope_value_in_packet(size_t family, const uint8_t *p, size_t p_len,
                                                   size_t record, size_t element);
struct brundilope_value brundilope_value_in_datagram(size_t family, const uint8_t *p, size_t p_len,
                                                     size_t record, size_t element);

/* The first element of a record with this ID, in byte order, and how many were passed. Refusals: those of reading, then
 * 16. */
struct brundilope_found brundilope_id_in_packet(size_t family, const uint8_t *p, size_t p_len,
                                                size_t record, uint16_t id);
struct brundilope_found brundilope_id_in_datagram(size_t family, const uint8_t *p, size_t p_len,
                                                  size_t record, uint16_t id);

/* The first element with this ID in the last record of the newer TCP data packet; if there is none, in the last record
 * of the older; both are packets of the named family. Refusals: those of reading the newer; those of reading the older,
 * which is judged only if the newer lacks the ID; then 16. */
struct brundilope_known brundilope_last_known(size_t family, const uint8_t *newer, size_t newer_len,
                                              const uint8_t *older, size_t older_len, uint16_t id);

/* ---- whole packets: judged once, then everything is read from a table
 *
 * A look-up judges its whole input each time. These two calls judge it once and write its table of contents, 64-bit
 * words from which every field of every record and element can be read; a value's bytes stay in the input. `out_len`
 * and `written` count words, and BRUNDILOPE_LARGEST_CONTENTS words are enough for every table.
 *
 * The table has two words for the packet, then for each record four words and behind them one word for each of its
 * elements; records and elements stand in byte order. The fields of a word from its lowest bits up, with their bits:
 *
 *   packet   0  codec 16, number of records 16, packet ID 16, unused byte 8, AVL packet ID 8
 *            1  IMEI 64
 *   record   0  timestamp 64
 *            1  latitude 32, longitude 32
 *            2  speed 16, satellites 8, angle 16, altitude 16, priority 4, generation type 4
 *            3  event ID 16, start 16, size 16, number of elements 16
 *   element  0  ID 16, kind 16, offset 16, size 16
 *
 * A record is the `size` bytes of the input from `start` on, a value the `size` bytes from `offset` on. Packet ID,
 * unused byte, AVL packet ID and IMEI are 0 for a TCP packet. Longitude, latitude and altitude are two's complement. */

/* The table of contents. Refusals: those of reading the packet or datagram, then 18: it has more words than `out`. */
struct brundilope_written brundilope_contents_of_packet(size_t family, const uint8_t *p, size_t p_len,
                                                        uint64_t *out, size_t out_len);
struct brundilope_written brundilope_contents_of_datagram(size_t family, const uint8_t *p, size_t p_len,
                                                          uint64_t *out, size_t out_len);

/* The functions below read a table that was written, so that no caller has to shift: `words` is its start, `r` the
 * first of a record's words, `v` an element's word. What a field means is said where the answers are. */

/* The packet. */
static inline uint8_t brundilope_contents_codec(const uint64_t *words) { return (uint8_t)words[0]; }
static inline uint8_t brundilope_contents_count(const uint64_t *words) { return (uint8_t)(words[0] >> 16); }
static inline uint16_t brundilope_contents_packet_id(const uint64_t *words) { return (uint16_t)(words[0] >> 32); }
static inline uint8_t brundilope_contents_unused(const uint64_t *words) { return (uint8_t)(words[0] >> 48); }
static inline uint8_t brundilope_contents_avl_packet_id(const uint64_t *words) { return (uint8_t)(words[0] >> 56); }
static inline uint64_t brundilope_contents_imei(const uint64_t *words) { return words[1]; }

/* The acknowledgement of the packet, four bytes, or of the datagram, seven: those of brundilope_acknowledge_packet and
 * brundilope_acknowledge_datagram, without another judgement. */
static inline void brundilope_contents_acknowledge_packet(const uint64_t *words, uint8_t out[4]) {
    out[0] = out[1] = out[2] = 0;
    out[3] = brundilope_contents_count(words);
}
static inline void brundilope_contents_acknowledge_datagram(const uint64_t *words, uint8_t out[7]) {
    out[0] = 0;
    out[1] = 5;
    out[2] = (uint8_t)(brundilope_contents_packet_id(words) >> 8);
    out[3] = (uint8_t)brundilope_contents_packet_id(words);
    out[4] = brundilope_contents_unused(words);
    out[5] = brundilope_contents_avl_packet_id(words);
    out[6] = brundilope_contents_count(words);
}

/* The first record; the record behind this one, unless this is the last; the first of this one's elements. */
static inline const uint64_t *brundilope_contents_records(const uint64_t *words) { return words + 2; }
static inline const uint64_t *brundilope_contents_record_next(const uint64_t *r) { return r + 4 + (r[3] >> 48); }
static inline const uint64_t *brundilope_contents_record_values(const uint64_t *r) { return r + 4; }

/* Two's complement numbers of a word's lowest bits, for the functions below. */
static inline int32_t brundilope_signed32(uint64_t word) {
    return (int32_t)((int64_t)((word & 0xFFFFFFFF) ^ 0x80000000) - 0x80000000);
}
static inline int16_t brundilope_signed16(uint64_t word) {
    return (int16_t)((int64_t)((word & 0xFFFF) ^ 0x8000) - 0x8000);
}

/* A record. */
static inline uint64_t brundilope_contents_record_timestamp(const uint64_t *r) { return r[0]; }
static inline uint8_t brundilope_contents_record_priority(const uint64_t *r) { return (uint8_t)(r[2] >> 56 & 15); }
static inline int32_t brundilope_contents_record_longitude(const uint64_t *r) {
    return brundilope_signed32(r[1] >> 32);
}
static inline int32_t brundilope_contents_record_latitude(const uint64_t *r) { return brundilope_signed32(r[1]); }
static inline int16_t brundilope_contents_record_altitude(const uint64_t *r) { return brundilope_signed16(r[2] >> 40); }
static inline uint16_t brundilope_contents_record_angle(const uint64_t *r) { return (uint16_t)(r[2] >> 24); }
static inline uint8_t brundilope_contents_record_satellites(const uint64_t *r) { return (uint8_t)(r[2] >> 16); }
static inline uint16_t brundilope_contents_record_speed(const uint64_t *r) { return (uint16_t)r[2]; }
static inline uint16_t brundilope_contents_record_event(const uint64_t *r) { return (uint16_t)r[3]; }
static inline uint8_t brundilope_contents_record_generation(const uint64_t *r) { return (uint8_t)(r[2] >> 60); }
static inline size_t brundilope_contents_record_start(const uint64_t *r) { return (uint16_t)(r[3] >> 16); }
static inline size_t brundilope_contents_record_size(const uint64_t *r) { return (uint16_t)(r[3] >> 32); }
static inline size_t brundilope_contents_record_elements(const uint64_t *r) { return (uint16_t)(r[3] >> 48); }

/* An element. */
static inline uint16_t brundilope_contents_value_id(uint64_t v) { return (uint16_t)v; }
static inline uint8_t brundilope_contents_value_kind(uint64_t v) { return (uint8_t)(v >> 16); }
static inline size_t brundilope_contents_value_offset(uint64_t v) { return (uint16_t)(v >> 32); }
static inline size_t brundilope_contents_value_size(uint64_t v) { return (uint16_t)(v >> 48); }

/* The unsigned number in a value's bytes: 1, 2, 4 or 8 of them, where the caller has seen that its kind is not 9. */
static inline uint64_t brundilope_number(const uint8_t *bytes, size_t size) {
    uint64_t number = 0;
    for (size_t i = 0; i < size; i++) number = number << 8 | bytes[i];
    return number;
}

/* ---- a connection: fed as the socket gives the bytes, cut anywhere
 *
 * A connection is one login, then data or command packets, by the limits of the family that it is started with. A feed
 * takes the state and the next bytes. It uses every byte up to the one that finishes or refuses an item and none after
 * it, and says how many it used; the unused rest is fed again. A login is judged when 17 bytes are gathered (15), a
 * packet's header at 8 (2, 3), the rest when the whole packet is (5, then 7, 8, 13, 14, 15 for codecs 0x0C to 0x0E,
 * and 6 to 12 for all others); 1 and 4 never occur. However the bytes are cut, the items, the closing refusal and the
 * state at the end are the same.
 *
 * Any refusal but 18 and 19 closes the connection, and each later feed gives 19. So does a feed of a state that no
 * feeds from a fresh one give, for example with a byte behind `fill` that is not zero, or with an unknown family. 19
 * comes before all others, on an empty feed too; it uses no byte and changes nothing.
 *
 * A unit forgets its records once they are acknowledged: store a data packet that a feed gave, then answer it with the
 * bytes 0, 0, 0 and brundilope_count_of(packet); brundilope_acknowledge_packet with the connection's family gives the
 * same and judges it again. */

/* The state of a connection: what is gathered of the next item. A fresh one is all zero but for its family. All fields
 * are the library's: the caller keeps them and hands them back as they are, and may read them. */
struct brundilope_connection {
    uint8_t held[BRUNDILOPE_LARGEST]; /* the bytes gathered so far, zeros behind them */
    size_t fill;                      /* how many they are */
    uint8_t phase;                    /* 0 the login is expected, 1 packets are, 2 closed */
    uint8_t family;                   /* whose limits hold; feeds leave it as it is */
};

/* What a start gives. */
struct brundilope_started {
    size_t number;
    size_t index;
    size_t place;
    struct brundilope_connection state;
};

/* What a feed gives, with the state by value. */
struct brundilope_fed {
    size_t number;
    size_t index;
    size_t place;
    size_t used;   /* how many of the bytes were used */
    uint8_t item;  /* 1 a login, 2 a packet; 0 none: more bytes are needed, unless `number` says why */
    uint64_t imei; /* of the login, below 10^15; else 0 */
    size_t size;   /* of the packet; else 0 */
    uint8_t packet[BRUNDILOPE_LARGEST]; /* its bytes, zeros behind them; all zero where there is none */
    struct brundilope_connection state; /* for the next feed; without bytes after an item or a refusal but 19 */
};

/* What a feed of a lent state gives; fields of the same name mean the same. */
struct brundilope_taken {
    size_t number;
    size_t index;
    size_t place;
    size_t used;
    uint8_t item;
    uint64_t imei;
    size_t size; /* of the packet, which stands at the start of the lent buffer */
    size_t fill; /* the state's, for the next feed, as is `phase` */
    uint8_t phase;
};

/* Starts a connection: a fresh one of this family. Refusal 21, with a closed one of family 1: each feed of it gives
 * 19. */
struct brundilope_started brundilope_start(size_t family);

/* Feeds the next bytes. Refusals 19, 15 for a login, 2, 3, 5 to 15 for a packet. */
struct brundilope_fed brundilope_feed(struct brundilope_connection state, const uint8_t *bytes, size_t bytes_len);

/* The connection that brundilope_start gives for the state's family, in place of any state, a closed one or a broken
 * one too: a fresh one, or a closed one of family 1 if the state's family is unknown. */
struct brundilope_connection brundilope_reset(struct brundilope_connection state);

/* The same feed for a state that is lent. `held` are the state's BRUNDILOPE_LARGEST bytes, in every family (19 if
 * `held_len` is another number), and afterwards it holds what the state by value would: it is unchanged where nothing
 * was held and the item is whole in `bytes`. A packet is put at the start of the buffer `packet`; nothing behind it is
 * changed, and no byte where there is no packet. Refusals: 19, then 18, then those of brundilope_feed. 18 says that
 * `packet_len` is under the most bytes of a TCP packet of the family, 512 or 1,280, whatever the bytes are; it uses no
 * byte, changes nothing and does not close. */
struct brundilope_taken brundilope_feed_lent(size_t family, uint8_t phase, size_t fill, uint8_t *held, size_t held_len,
                                             const uint8_t *bytes, size_t bytes_len,
                                             uint8_t *packet, size_t packet_len);

/* How many more bytes are wanted before anything is judged; 0 where a feed gives 19. */
size_t brundilope_wanted(size_t family, uint8_t phase, size_t fill, const uint8_t *held, size_t held_len);

/* Feeds a state where it stands: for callers who keep many, of 1,296 bytes each. */
static inline struct brundilope_taken brundilope_feed_at(struct brundilope_connection *c,
                                                         const uint8_t *bytes, size_t bytes_len,
                                                         uint8_t *packet, size_t packet_len) {
    struct brundilope_taken taken = brundilope_feed_lent(c->family, c->phase, c->fill, c->held, sizeof c->held,
                                                         bytes, bytes_len, packet, packet_len);
    c->fill = taken.fill;
    c->phase = taken.phase;
    return taken;
}

/* Of a packet that a feed gave: its codec, and its number of records, 1 for a command. */
static inline uint8_t brundilope_codec_of(const uint8_t *packet) { return packet[8]; }
static inline uint8_t brundilope_count_of(const uint8_t *packet) { return packet[9]; }

/* ---- answering */

/* One byte to a login: 01 if it is well formed and `known` says that the caller knows the unit, else 00.
 * Refusal 18 only. */
struct brundilope_written brundilope_answer_login(const uint8_t *p, size_t p_len, bool known,
                                                  uint8_t *out, size_t out_len);

/* Four bytes to a TCP data packet: the number of records, big-endian; zeros for a refused packet. Refusals 21
 * and 18 only. */
struct brundilope_written brundilope_acknowledge_packet(size_t family, const uint8_t *p, size_t p_len,
                                                        uint8_t *out, size_t out_len);

/* Seven bytes to a datagram: 00 05, packet ID, unused byte and AVL packet ID as received, number of records.
 * Refusals: those of reading the datagram, which then gets no acknowledgement; then 18. */
struct brundilope_written brundilope_acknowledge_datagram(size_t family, const uint8_t *p, size_t p_len,
                                                          uint8_t *out, size_t out_len);

/* ---- writing: BRUNDILOPE_LARGEST bytes are enough for every packet, BRUNDILOPE_LARGEST_FORM for every TLV form, and
 * of the 640 family BRUNDILOPE_LARGEST_640 and BRUNDILOPE_LARGEST_FORM_640 */

/* A command packet. `imei` is 15 ASCII digits for codec 0x0E and empty for 0x0C and 0x0D; `time` is any number for 0x0D
 * and ignored for 0x0C and 0x0E; `text` is any bytes, none with type 0x11. Refusals, in this order: 6, 13, 15, 14 (also
 * if the packet would be over the family's limit), 18. */
struct brundilope_written brundilope_write_command(size_t family, uint8_t codec, uint8_t type,
                                                   const uint8_t *imei, size_t imei_len, uint32_t time,
                                                   const uint8_t *text, size_t text_len, uint8_t *out, size_t out_len);

/* The TLV form of a TCP data packet or of a datagram. Refusals: those of reading it, then 18, which cannot occur with a
 * buffer of BRUNDILOPE_FORM_ROOM(p_len) bytes. */
struct brundilope_written brundilope_form_of_packet(size_t family, const uint8_t *p, size_t p_len,
                                                    uint8_t *out, size_t out_len);
struct brundilope_written brundilope_form_of_datagram(size_t family, const uint8_t *p, size_t p_len,
                                                      uint8_t *out, size_t out_len);

/* The TCP data packet of a TLV form. Refusals 17 (no acceptable packet of the named family has this form), 18. */
struct brundilope_written brundilope_packet_of_form(size_t family, const uint8_t *form, size_t form_len,
                                                    uint8_t *out, size_t out_len);

/* ---- lines for the billing desk
 *
 * A line is a record as text: timestamp, longitude, latitude and speed, then ID=value for each element, with commas
 * between them and LF at the end:
 *
 *   1000,-0.0000001,54.7146368,5,21=3
 *   1562760414000,25.2797130,54.6872050,47,21=3,239=1,66=24079,403="Jonas Petraitis",406=""
 *
 * Coordinates are degrees with exactly seven places, and a minus sign when negative. A value of 1, 2, 4 or 8 bytes is
 * the unsigned number in them. One of variable length, a tag, stands between double quotes: bytes 0x20 to 0x7E as
 * themselves, but quote, comma, backslash and all other bytes as a backslash and two upper-case hexadecimal digits. So
 * a line has one LF, its last byte, and as many commas as fields but one, whatever is in a tag.
 *
 * The reader takes exactly lines of this form: numbers in their field's range (timestamps and values below 2^64,
 * coordinates of 32 bits, speeds and IDs to 65,535) without spare zeros, tags behind all other values, a byte escaped
 * only where it has to be. How long the record would be is not judged. Anything else gets 20. */

/* The line of a record by its number, from 0. Refusals: those of reading the packet or datagram, then 16, then 18. */
struct brundilope_written brundilope_line_of_packet(size_t family, const uint8_t *p, size_t p_len, size_t record,
                                                    uint8_t *out, size_t out_len);
struct brundilope_written brundilope_line_of_datagram(size_t family, const uint8_t *p, size_t p_len, size_t record,
                                                      uint8_t *out, size_t out_len);

/* The lines of all records, one behind another; the packet or datagram is judged once. BRUNDILOPE_LARGEST_LINES bytes
 * are enough for every one. Refusals: those of reading it, then 18. */
struct brundilope_written brundilope_lines_of_packet(size_t family, const uint8_t *p, size_t p_len,
                                                     uint8_t *out, size_t out_len);
struct brundilope_written brundilope_lines_of_datagram(size_t family, const uint8_t *p, size_t p_len,
                                                       uint8_t *out, size_t out_len);

/* A line. Refusal 20. */
struct brundilope_line brundilope_read_line(const uint8_t *s, size_t s_len);

/* An element of a line by its number, from 0. A number leaves the buffer alone, as a refusal does. Refusals 20, 16,
 * then 18: it is a tag with more bytes than `out`. */
struct brundilope_line_element brundilope_element_in_line(const uint8_t *s, size_t s_len, size_t element,
                                                          uint8_t *out, size_t out_len);

/* The element whose field starts at the byte `at`; the rest of the line is not read. This is for going along a line
 * that brundilope_read_line accepted: from its `start`, then from each `next`, `elements` times. Refusals 20, where no
 * element stands from `at` up to the next comma or the last byte, then 18. */
struct brundilope_line_element brundilope_element_at(const uint8_t *s, size_t s_len, size_t at,
                                                     uint8_t *out, size_t out_len);

/* The byte at which a line is wrong: where its first wrong field starts; the LF where fields are missing; the length
 * of the line where the LF at its end is missing, and where nothing is wrong. */
size_t brundilope_wrong_byte(const uint8_t *s, size_t s_len);

#ifdef __cplusplus
}
#endif

#endif
