/* How many bytes of stack each call uses at the most, on the largest packets, datagrams and forms that there are, and on
 * refused ones: a row for each call. The call runs on a stack of its own that was painted before.
 * cc -O2 -I include -o stack bench/stack.c dist/lib/libbrundilope.a && ./stack */
#define _XOPEN_SOURCE 700
#include <stdio.h>
#include <string.h>
#include <ucontext.h>

#include "brundilope.h"

enum { STACK = 256 * 1024, PAINT = 0xA5, FAMILY = BRUNDILOPE_FAMILY_STANDARD };

static uint8_t stack[STACK], packet[BRUNDILOPE_LARGEST], datagram[BRUNDILOPE_LARGEST], form[BRUNDILOPE_LARGEST_FORM];
static uint8_t out[BRUNDILOPE_LARGEST_FORM], room[BRUNDILOPE_LARGEST], text[1024];
static uint64_t words[BRUNDILOPE_LARGEST_CONTENTS];
static const uint8_t login[] = "\0\x0f" "356307042441013";
static const char line[] = "1562760414000,25.2797130,54.6872050,47,21=3,239=1,66=24079,403=\"Jonas Petraitis\",406=\"\"\n";
static size_t packet_len, datagram_len, form_len, text_len;
static struct brundilope_connection state;
static ucontext_t here, there;

static void put(uint8_t *at, uint64_t number, int size) {
    for (int i = 0; i < size; i++) at[i] = (uint8_t)(number >> 8 * (size - 1 - i));
}

/* A data field of codec 8 Extended that fills the space up to the limit: records of a fixed part, values of one byte and
 * one variable value, its bytes beyond ASCII. */
static size_t field(uint8_t *d, size_t room_for) {
    enum { VALUES = 40, TAG = 60, RECORD = 24 + 2 + 2 + 2 + 3 * VALUES + 2 + 2 + 2 + 2 + 4 + TAG };
    uint8_t count = (uint8_t)((room_for - 3) / RECORD);
    uint8_t *at = d;
    *at++ = BRUNDILOPE_CODEC_8_EXTENDED;
    *at++ = count;
    for (int n = 0; n < count; n++) {
        memset(at, 0x7F, RECORD);
        at[8] = 2;                           /* priority */
        put(at + 26, VALUES + 1, 2);         /* total */
        put(at + 28, VALUES, 2);             /* values of one byte */
        uint8_t *behind = at + 30 + 3 * VALUES;
        memset(behind, 0, 6);                /* none of two, four and eight */
        put(behind + 6, 1, 2);               /* one of variable length */
        put(behind + 10, TAG, 2);
        memset(behind + 12, 0xC3, TAG);
        at += RECORD;
    }
    *at++ = count;
    return (size_t)(at - d);
}

static uint16_t crc(const uint8_t *d, size_t size) {
    unsigned c = 0;
    for (size_t i = 0; i < size; i++) {
        c ^= d[i];
        for (int k = 0; k < 8; k++) c = c >> 1 ^ (c & 1 ? 0xA001u : 0);
    }
    return (uint16_t)c;
}

static void prepare(void) {
    size_t size = field(packet + 8, BRUNDILOPE_LARGEST - 12);
    put(packet + 4, size, 4);
    put(packet + 8 + size, crc(packet + 8, size), 4);
    packet_len = size + 12;
    size = field(datagram + 23, BRUNDILOPE_LARGEST - 23);
    put(datagram, size + 21, 2);
    memcpy(datagram + 6, login, 17);
    datagram_len = size + 23;
    form_len = brundilope_form_of_packet(FAMILY, packet, packet_len, form, sizeof form).written;
    memset(text, 'x', sizeof text);
    text_len = brundilope_write_command(FAMILY, BRUNDILOPE_CODEC_14, BRUNDILOPE_COMMAND, login + 2, 15, 0, text,
                                        sizeof text, room, sizeof room).written;
    memcpy(text, room, text_len < sizeof text ? text_len : sizeof text);
    state = brundilope_start(FAMILY).state;
}

#define P FAMILY, packet, packet_len
#define D FAMILY, datagram, datagram_len
#define OUT out, sizeof out
/* Each call on what it accepts. */
#define CALLS(CALL) \
    CALL(read_packet, P) CALL(read_datagram, D) CALL(read_login, login, 17) CALL(read_command, FAMILY, room, text_len) \
    CALL(record_in_packet, P, 0) CALL(record_in_datagram, D, 0) CALL(value_in_packet, P, 0, 40) \
    CALL(value_in_datagram, D, 0, 40) CALL(id_in_packet, P, 0, 1) CALL(id_in_datagram, D, 0, 1) \
    CALL(last_known, P, packet, packet_len, 1) \
    CALL(contents_of_packet, P, words, BRUNDILOPE_LARGEST_CONTENTS) \
    CALL(contents_of_datagram, D, words, BRUNDILOPE_LARGEST_CONTENTS) \
    CALL(start, FAMILY) CALL(feed, state, login, 17) CALL(reset, state) \
    CALL(feed_lent, FAMILY, 1, 0, state.held, sizeof state.held, packet, packet_len, room, sizeof room) \
    CALL(wanted, FAMILY, 0, 0, state.held, sizeof state.held) \
    CALL(answer_login, login, 17, true, OUT) CALL(acknowledge_packet, P, OUT) CALL(acknowledge_datagram, D, OUT) \
    CALL(write_command, FAMILY, BRUNDILOPE_CODEC_14, BRUNDILOPE_COMMAND, login + 2, 15, 0, text, 1000, OUT) \
    CALL(form_of_packet, P, OUT) CALL(form_of_datagram, D, OUT) CALL(packet_of_form, FAMILY, form, form_len, OUT) \
    CALL(line_of_packet, P, 0, OUT) CALL(line_of_datagram, D, 0, OUT) CALL(lines_of_packet, P, OUT) \
    CALL(lines_of_datagram, D, OUT) CALL(read_line, (const uint8_t *)line, sizeof line - 1) \
    CALL(element_in_line, (const uint8_t *)line, sizeof line - 1, 3, OUT) \
    CALL(element_at, (const uint8_t *)line, sizeof line - 1, 39, OUT) \
    CALL(wrong_byte, (const uint8_t *)line, sizeof line - 1)

#define BODY(name, ...) \
    static void call_##name(void) { brundilope_##name(__VA_ARGS__); }
CALLS(BODY)
static void nothing(void) {}

/* The bytes of its stack that a function has written to. */
static size_t used(void (*function)(void)) {
    memset(stack, PAINT, sizeof stack);
    getcontext(&there);
    there.uc_stack.ss_sp = stack;
    there.uc_stack.ss_size = sizeof stack;
    there.uc_link = &here;
    makecontext(&there, function, 0);
    swapcontext(&here, &there);
    size_t free = 0;
    while (stack[free] == PAINT) free++;
    return sizeof stack - free;
}

int main(void) {
    prepare();
    if (brundilope_read_packet(P).number != 0 || brundilope_read_datagram(D).number != 0 || form_len == 0) {
        puts("the inputs are not accepted");
        return 1;
    }
    size_t none = used(nothing);
#define ROW(name, ...) printf("%-22s %6zu\n", #name, used(call_##name) - none);
    CALLS(ROW)
    return 0;
}
