/* Connections of both families, and of none: the header's functions that feed a state where it stands and read a packet
 * that was fed; the calls with the state by value give the same. Valid in C and in C++. */
#include <stdlib.h>
#include <string.h>

#include "brundilope.h"
#include "hold.h"

enum { LOGIN = 17, COMMAND = 25, BEHIND = 20, LARGEST_640 = 512 };

/* A login, a command of codec 12, and a header that 3 refuses. */
static const uint8_t bytes[LOGIN + COMMAND + 8] = {
    0x00, 0x0F, '1',  '2',  '3',  '4',  '5',  '6',  '7',  '8',  '9', '0', '1', '2', '3', '4',  '5',
    0x00, 0x00, 0x00, 0x00, 0x00, 0x00, 0x00, 0x0D, 0x0C, 0x01,
    0x05, 0x00, 0x00, 0x00, 0x05, 'g',  'e',  't',  'i',  'o',  0x01, 0x00, 0x00, 0x00, 0xCB,
    0x00, 0x00, 0x00, 0x00, 0x00, 0x00, 0x00, 0x02};

static struct brundilope_connection by_value, state;
static uint8_t packet[BRUNDILOPE_LARGEST + BEHIND], before[BRUNDILOPE_LARGEST + BEHIND];

/* Feeds both states, which have to stay the same and give the same; the packet's buffer keeps what is behind it. */
static struct brundilope_taken feed(const uint8_t *from, size_t size, size_t room) {
    memset(packet, 0xEE, sizeof packet);
    memset(before, 0xEE, sizeof before);
    struct brundilope_taken taken = brundilope_feed_at(&state, from, size, packet, room);
    if (taken.number == 18) return taken;
    struct brundilope_fed fed = brundilope_feed(by_value, from, size);
    by_value = fed.state;
    HOLD(taken.number - fed.number, 0);
    HOLD(taken.index - fed.index, 0);
    HOLD(taken.place - fed.place, 0);
    HOLD(taken.used - fed.used, 0);
    HOLD(taken.item - fed.item, 0);
    HOLD(taken.imei - fed.imei, 0);
    HOLD(taken.size - fed.size, 0);
    HOLD(taken.fill - state.fill, 0);
    HOLD(taken.phase - state.phase, 0);
    HOLD(state.fill - by_value.fill, 0);
    HOLD(state.phase - by_value.phase, 0);
    HOLD(state.family - by_value.family, 0);
    HOLD(memcmp(state.held, by_value.held, sizeof state.held), 0);
    memcpy(before, fed.packet, fed.size);
    HOLD(memcmp(packet, before, sizeof packet), 0);
    return taken;
}

/* The state's phase and fill. */
static void expect(long long phase, long long fill) {
    HOLD(state.phase, phase);
    HOLD(state.fill, fill);
}

/* Puts a state that holds no bytes in place of both. */
static void put_empty(struct brundilope_connection c, long long phase, long long family) {
    static const uint8_t none[BRUNDILOPE_LARGEST] = {0};
    HOLD(memcmp(c.held, none, sizeof none), 0);
    HOLD(c.fill, 0);
    HOLD(c.phase, phase);
    HOLD(c.family, family);
    state = by_value = c;
}

/* Starts both states, and feeds them the login. */
static void log_in(size_t family) {
    struct brundilope_started started = brundilope_start(family);
    HOLD(started.number, 0);
    HOLD(started.index, 0);
    HOLD(started.place, 0);
    put_empty(started.state, 0, (long long)family);
    HOLD(feed(bytes, LOGIN, sizeof packet).item, 1);
    HOLD(state.family, (long long)family);
}

/* A login and a command in pieces, a buffer that is too short, and one that is just long enough. */
static void items(size_t family, size_t largest) {
    put_empty(brundilope_start(family).state, 0, (long long)family);
    HOLD(feed(bytes, 10, sizeof packet).used, 10);
    expect(0, 10);
    struct brundilope_taken taken = feed(bytes + 10, 30, sizeof packet);
    HOLD(taken.used, LOGIN - 10);
    HOLD(taken.item, 1);
    HOLD(taken.imei, 123456789012345);
    expect(1, 0);

    HOLD(feed(bytes + LOGIN, 9, sizeof packet).item, 0);
    expect(1, 9);
    HOLD(feed(bytes + LOGIN + 9, 16, largest - 1).number, 18);
    expect(1, 9);
    taken = feed(bytes + LOGIN + 9, COMMAND, largest);
    HOLD(taken.used, COMMAND - 9);
    HOLD(taken.item, 2);
    HOLD(taken.size, COMMAND);
    HOLD(memcmp(packet, bytes + LOGIN, COMMAND), 0);
    HOLD(brundilope_codec_of(packet), 12);
    HOLD(brundilope_count_of(packet), 1);
    expect(1, 0);
}

/* A refused header closes, and a reset opens again. */
static void refusal(size_t family) {
    log_in(family);
    HOLD(feed(bytes + LOGIN + COMMAND, 7, sizeof packet).number, 0);
    expect(1, 7);
    struct brundilope_taken taken = feed(bytes + LOGIN + COMMAND + 7, 1, sizeof packet);
    HOLD(taken.number, 3);
    HOLD(taken.place, 4);
    HOLD(taken.used, 1);
    expect(2, 0);
    taken = feed(bytes, LOGIN, sizeof packet);
    HOLD(taken.number, 19);
    HOLD(taken.place, 0);
    HOLD(taken.used, 0);
    expect(2, 0);

    put_empty(brundilope_reset(state), 0, (long long)family);
    HOLD(feed(bytes, LOGIN, sizeof packet).item, 1);
    expect(1, 0);
}

/* Places count from the item's first byte, wherever it is cut: a wrong digit of the login, a wrong CRC of a command
 * behind another. */
static void places(size_t family) {
    uint8_t damaged[COMMAND];
    memcpy(damaged, bytes, LOGIN);
    damaged[12] = ':';
    for (size_t cut = 0; cut < LOGIN; cut++) {
        put_empty(brundilope_start(family).state, 0, (long long)family);
        HOLD(feed(damaged, cut, sizeof packet).place, 0);
        struct brundilope_taken taken = feed(damaged + cut, LOGIN - cut, sizeof packet);
        HOLD(taken.number, 15);
        HOLD(taken.place, 12);
    }
    memcpy(damaged, bytes + LOGIN, COMMAND);
    damaged[COMMAND - 1] ^= 1;
    for (size_t cut = 0; cut < COMMAND; cut++) {
        log_in(family);
        HOLD(feed(bytes + LOGIN, COMMAND, sizeof packet).place, 0);
        HOLD(feed(damaged, cut, sizeof packet).place, 0);
        struct brundilope_taken taken = feed(damaged + cut, COMMAND - cut, sizeof packet);
        HOLD(taken.number, 5);
        HOLD(taken.place, COMMAND - 4);
    }
}

/* A start of no family is closed, and its reset is a fresh connection of family 1. */
static void refused_start(size_t family) {
    struct brundilope_started started = brundilope_start(family);
    HOLD(started.number, 21);
    HOLD(started.index, 0);
    HOLD(started.place, 0);
    put_empty(started.state, 2, BRUNDILOPE_FAMILY_640);
    HOLD(feed(NULL, 0, sizeof packet).number, 19);
    struct brundilope_taken taken = feed(bytes, LOGIN, sizeof packet);
    HOLD(taken.number, 19);
    HOLD(taken.used, 0);
    put_empty(brundilope_reset(state), 0, BRUNDILOPE_FAMILY_640);
    HOLD(feed(bytes, LOGIN, sizeof packet).item, 1);
}

/* A state whose family is lost takes nothing and stays as it is; with its family it goes on. */
static void lost_family(uint8_t family) {
    put_empty(brundilope_start(BRUNDILOPE_FAMILY_STANDARD).state, 0, BRUNDILOPE_FAMILY_STANDARD);
    HOLD(feed(bytes, 10, sizeof packet).used, 10);
    HOLD(brundilope_wanted(state.family, state.phase, state.fill, state.held, sizeof state.held), LOGIN - 10);
    state.family = by_value.family = family;
    HOLD(brundilope_wanted(state.family, state.phase, state.fill, state.held, sizeof state.held), 0);
    struct brundilope_taken taken = feed(bytes + 10, LOGIN - 10, 0);
    HOLD(taken.number, 19);
    HOLD(taken.used, 0);
    expect(0, 10);
    HOLD(state.family, family);
    HOLD(memcmp(state.held, bytes, 10), 0);
    struct brundilope_connection closed = brundilope_reset(state);
    state.family = by_value.family = BRUNDILOPE_FAMILY_STANDARD;
    HOLD(feed(bytes + 10, LOGIN - 10, sizeof packet).item, 1);
    put_empty(closed, 2, BRUNDILOPE_FAMILY_640);
}

/* Writes a command packet of this size; gives the refusal's number. */
static size_t command_of(size_t family, size_t size, uint8_t *out) {
    static const uint8_t text[BRUNDILOPE_LARGEST] = {0};
    struct brundilope_written w = brundilope_write_command(family, 0x0C, 0x05, NULL, 0, 7, text, size - 20, out, size);
    HOLD(w.written, w.number ? 0 : (long long)size);
    return w.number;
}

/* A family's longest packet goes into a block of just that size; one that is a byte longer is refused by its header. */
static void longest(size_t family, size_t largest) {
    static uint8_t sent[BRUNDILOPE_LARGEST + 1];
    uint8_t *room = (uint8_t *)malloc(largest);
    if (!room) exit(2);
    HOLD(command_of(family, largest, sent), 0);
    log_in(family);
    struct brundilope_connection open = state;
    HOLD(brundilope_feed_at(&open, sent, largest, room, largest - 1).number, 18);
    struct brundilope_taken taken = brundilope_feed_at(&open, sent, largest, room, largest);
    HOLD(taken.item, 2);
    HOLD(taken.size, (long long)largest);
    HOLD(memcmp(room, sent, largest), 0);
    free(room);

    HOLD(feed(sent, largest, sizeof packet).size, (long long)largest);
    HOLD(command_of(family, largest + 1, sent), 14);
    sent[6] = (uint8_t)((largest - 11) >> 8);
    sent[7] = (uint8_t)(largest - 11);
    taken = feed(sent, largest + 1, sizeof packet);
    HOLD(taken.number, 3);
    HOLD(taken.used, 8);
    expect(2, 0);
}

/* What is too long for family 1 is a packet of family 2. */
static void too_long_for_640(void) {
    uint8_t sent[LARGEST_640 + 1];
    HOLD(command_of(BRUNDILOPE_FAMILY_STANDARD, sizeof sent, sent), 0);
    log_in(BRUNDILOPE_FAMILY_STANDARD);
    struct brundilope_taken taken = feed(sent, sizeof sent, sizeof packet);
    HOLD(taken.item, 2);
    HOLD(taken.size, sizeof sent);
    log_in(BRUNDILOPE_FAMILY_640);
    taken = feed(sent, sizeof sent, sizeof packet);
    HOLD(taken.number, 3);
    HOLD(taken.used, 8);
}

int main(void) {
    items(BRUNDILOPE_FAMILY_STANDARD, BRUNDILOPE_LARGEST);
    items(BRUNDILOPE_FAMILY_640, LARGEST_640);
    refusal(BRUNDILOPE_FAMILY_STANDARD);
    refusal(BRUNDILOPE_FAMILY_640);
    places(BRUNDILOPE_FAMILY_STANDARD);
    places(BRUNDILOPE_FAMILY_640);
    static const size_t none[] = {0, 3, 255, 256, 257, 258, SIZE_MAX};
    for (size_t n = 0; n < sizeof none / sizeof *none; n++) refused_start(none[n]);
    lost_family(0);
    lost_family(3);
    lost_family(255);
    longest(BRUNDILOPE_FAMILY_STANDARD, BRUNDILOPE_LARGEST);
    longest(BRUNDILOPE_FAMILY_640, LARGEST_640);
    too_long_for_640();
    return wrong;
}
