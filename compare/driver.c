/* Answers calls from standard input, one a line, as compare/reference.py does: the library's side of the comparison.
 * An answer has every field of its struct, on refusals too; a look-up by ID and the last-known one end theirs with
 * ` passed N`, the number of elements passed. Every input and buffer stands between two guards, and the line says so if
 * a call changed a byte of them or of an input. A call that names a family has its number as the first word. A buffer
 * of 64-bit words is given and shown as its bytes; one that is no whole number of words ends the driver. The bytes of a
 * connection's state are given and shown without the zeros at their end. `driver bare` lends blocks of the exact size
 * instead, so that a tool sees a read or a write past them. */
#include <inttypes.h>
#include <stdio.h>
#include <stdlib.h>
#include <string.h>

#include "brundilope.h"

enum { MOST_WORDS = 9, GUARD = 64 };

/* The bytes of a word and zeros behind them, in a block of their own. */
struct bytes {
    const char *word;
    size_t given; /* how many are the word's */
    uint8_t *block;
    uint8_t *at;
    size_t size;
};

static size_t guard = GUARD; /* bytes before and behind */

static int digit(char c) {
    if ('0' <= c && c <= '9') return c - '0';
    if ('a' <= c && c <= 'f') return c - 'a' + 10;
    return -1;
}

static _Noreturn void fail(const char *why, const char *word) {
    fprintf(stderr, "driver: %s: %.60s\n", why, word);
    exit(2);
}

/* ---- blocks */

static uint8_t byte_of(struct bytes b, size_t i) {
    if (i >= b.given) return 0;
    int high = digit(b.word[2 * i]), low = digit(b.word[2 * i + 1]);
    if (high < 0 || low < 0) fail("not lower-case hexadecimal", b.word);
    return (uint8_t)(high * 16 + low);
}

/* What a guard holds at a place; neighbours differ, and no place holds 0. */
static uint8_t guard_byte(size_t i) { return (uint8_t)(0x5B + 37 * (i % 4)); }

/* A block that holds what guards do; a null pointer for no bytes. */
static struct bytes block_of(const char *word, size_t size) {
    struct bytes b = {word, 0, NULL, NULL, size};
    if (size == 0) return b;
    size_t room = guard + size + guard;
    b.block = malloc(room);
    if (!b.block) fail("no memory", word);
    for (size_t i = 0; i < room; i++) b.block[i] = guard_byte(i);
    b.at = b.block + guard;
    return b;
}

/* How many bytes a word of hexadecimal gives, '-' for none. */
static size_t size_of(const char *word) {
    if (strcmp(word, "-") == 0) return 0;
    if (strlen(word) % 2) fail("an odd number of digits", word);
    return strlen(word) / 2;
}

/* The bytes of a word, cut or with zeros behind them: so many as are asked for. */
static struct bytes bytes_up_to(const char *word, size_t size) {
    struct bytes b = block_of(word, size);
    b.given = size_of(word);
    for (size_t i = 0; i < size; i++) b.at[i] = byte_of(b, i);
    return b;
}

static struct bytes bytes_of(const char *word) { return bytes_up_to(word, size_of(word)); }

static void check_guards(struct bytes b) {
    for (size_t i = 0; b.block && i < guard; i++) {
        size_t behind = guard + b.size + i;
        if (b.block[i] != guard_byte(i)) printf(" CHANGED: byte %zu before a block", guard - i);
        if (b.block[behind] != guard_byte(behind)) printf(" CHANGED: byte %zu behind a block", i);
    }
}

/* After the call: a lent buffer, of which only the guards have to be as they were. */
static void done_buffer(struct bytes b) {
    check_guards(b);
    free(b.block);
}

/* After the call: an input, which has to be as it was. */
static void done_input(struct bytes b) {
    for (size_t i = 0; i < b.size; i++)
        if (b.at[i] != byte_of(b, i)) printf(" CHANGED: byte %zu of an input", i);
    done_buffer(b);
}

/* ---- answers, every field of them */

static void print_bytes(const uint8_t *at, size_t size) {
    if (size == 0) putchar('-');
    for (size_t i = 0; i < size; i++) printf("%02x", at[i]);
}

static void head(const char *accepted, size_t number, size_t index, size_t place) {
    printf("%s %zu %zu %zu ", number ? "refused" : accepted, number, index, place);
}

static void packet(struct brundilope_packet r) {
    head("accepted", r.number, r.index, r.place);
    printf("%u %u", r.codec, r.count);
}

static void datagram(struct brundilope_datagram r) {
    head("accepted", r.number, r.index, r.place);
    printf("%u %u %" PRIu64 " %u %u %u", r.codec, r.count, r.imei, r.packet_id, r.unused, r.avl_packet_id);
}

static void login(struct brundilope_login r) {
    head("accepted", r.number, r.index, r.place);
    printf("%" PRIu64, r.imei);
}

static void command(struct brundilope_command r) {
    head("accepted", r.number, r.index, r.place);
    printf("%u %u %" PRIu32 " %" PRIu64 " %zu %zu", r.codec, r.type, r.time, r.imei, r.offset, r.size);
}

static void record(struct brundilope_record r) {
    head("accepted", r.number, r.index, r.place);
    printf("%" PRIu64 " %u %" PRId32 " %" PRId32 " %d %u %u %u %u %u %zu", r.timestamp, r.priority, r.longitude, r.latitude, r.altitude,
           r.angle, r.satellites, r.speed, r.event, r.generation, r.elements);
}

static void value(struct brundilope_value v) {
    head("accepted", v.number, v.index, v.place);
    printf("%u %u %zu %zu", v.id, v.kind, v.offset, v.size);
}

static void passed(size_t elements) { printf(" passed %zu", elements); }

static void found(struct brundilope_found f) {
    value(f.value);
    passed(f.passed);
}

static void known(struct brundilope_known k) {
    head("accepted", k.number, k.index, k.place);
    printf("%d %u %u %zu %zu", k.older, k.id, k.kind, k.offset, k.size);
    passed(k.passed);
}

static void written(struct brundilope_written w, struct bytes out) {
    head("written", w.number, w.index, w.place);
    printf("%zu ", w.written);
    print_bytes(out.at, out.size);
}

static void line(struct brundilope_line l) {
    head("accepted", l.number, l.index, l.place);
    printf("%" PRIu64 " %" PRId32 " %" PRId32 " %u %zu %zu", l.timestamp, l.longitude, l.latitude, l.speed, l.elements, l.start);
}

static void line_element(struct brundilope_line_element e, struct bytes out) {
    head("accepted", e.number, e.index, e.place);
    printf("%u %d %" PRIu64 " %zu %zu ", e.id, e.tag, e.value, e.size, e.next);
    print_bytes(out.at, out.size);
}

/* ---- calls */

static size_t number(const char *word) { return (size_t)strtoull(word, NULL, 10); }

/* The calls on one login or line, which name no family. */
static int on_text(const char *call, struct bytes p) {
    if (!strcmp(call, "read_login")) login(brundilope_read_login(p.at, p.size));
    else if (!strcmp(call, "read_line")) line(brundilope_read_line(p.at, p.size));
    else if (!strcmp(call, "wrong_byte")) printf("byte %zu", brundilope_wrong_byte(p.at, p.size));
    else return 0;
    return 1;
}

/* Those of them that write into the buffer of their last word. */
static void on_text_buffer(const char *call, struct bytes p, char **w) {
    struct bytes out = bytes_of(w[3]);
    if (!strcmp(call, "element_in_line")) line_element(brundilope_element_in_line(p.at, p.size, number(w[2]), out.at, out.size), out);
    else if (!strcmp(call, "element_at")) line_element(brundilope_element_at(p.at, p.size, number(w[2]), out.at, out.size), out);
    else written(brundilope_answer_login(p.at, p.size, number(w[2]) != 0, out.at, out.size), out);
    done_buffer(out);
}

/* The calls on one packet, command or datagram of a family. */
static int on_input(const char *call, size_t family, struct bytes p, char **w) {
    if (!strcmp(call, "read_packet")) packet(brundilope_read_packet(family, p.at, p.size));
    else if (!strcmp(call, "read_datagram")) datagram(brundilope_read_datagram(family, p.at, p.size));
    else if (!strcmp(call, "read_command")) command(brundilope_read_command(family, p.at, p.size));
    else if (!strcmp(call, "record_in_packet")) record(brundilope_record_in_packet(family, p.at, p.size, number(w[2])));
    else if (!strcmp(call, "record_in_datagram")) record(brundilope_record_in_datagram(family, p.at, p.size, number(w[2])));
    else if (!strcmp(call, "value_in_packet")) value(brundilope_value_in_packet(family, p.at, p.size, number(w[2]), number(w[3])));
    else if (!strcmp(call, "value_in_datagram")) value(brundilope_value_in_datagram(family, p.at, p.size, number(w[2]), number(w[3])));
    else if (!strcmp(call, "id_in_packet")) found(brundilope_id_in_packet(family, p.at, p.size, number(w[2]), (uint16_t)number(w[3])));
    else if (!strcmp(call, "id_in_datagram")) found(brundilope_id_in_datagram(family, p.at, p.size, number(w[2]), (uint16_t)number(w[3])));
    else return 0;
    return 1;
}

typedef struct brundilope_written words_call(size_t family, const uint8_t *p, size_t p_len, uint64_t *out, size_t out_len);

/* A call that writes words. A block begins where a word may: malloc aligns it, and a guard is of whole words. */
static void contents(words_call *call, size_t family, struct bytes p, struct bytes out) {
    if (out.size % sizeof(uint64_t)) fail("no whole number of 64-bit words", out.word);
    written(call(family, p.at, p.size, (void *)out.at, out.size / sizeof(uint64_t)), out);
}

/* Those of them that write into the buffer of their last word. */
static void on_buffer(const char *call, size_t family, struct bytes p, char **w) {
    struct bytes out = bytes_of(w[w[3] ? 3 : 2]);
    if (!strcmp(call, "acknowledge_packet")) written(brundilope_acknowledge_packet(family, p.at, p.size, out.at, out.size), out);
    else if (!strcmp(call, "acknowledge_datagram")) written(brundilope_acknowledge_datagram(family, p.at, p.size, out.at, out.size), out);
    else if (!strcmp(call, "form_of_packet")) written(brundilope_form_of_packet(family, p.at, p.size, out.at, out.size), out);
    else if (!strcmp(call, "form_of_datagram")) written(brundilope_form_of_datagram(family, p.at, p.size, out.at, out.size), out);
    else if (!strcmp(call, "packet_of_form")) written(brundilope_packet_of_form(family, p.at, p.size, out.at, out.size), out);
    else if (!strcmp(call, "contents_of_packet")) contents(brundilope_contents_of_packet, family, p, out);
    else if (!strcmp(call, "contents_of_datagram")) contents(brundilope_contents_of_datagram, family, p, out);
    else if (!strcmp(call, "lines_of_packet")) written(brundilope_lines_of_packet(family, p.at, p.size, out.at, out.size), out);
    else if (!strcmp(call, "lines_of_datagram")) written(brundilope_lines_of_datagram(family, p.at, p.size, out.at, out.size), out);
    else if (!strcmp(call, "line_of_packet")) written(brundilope_line_of_packet(family, p.at, p.size, number(w[2]), out.at, out.size), out);
    else written(brundilope_line_of_datagram(family, p.at, p.size, number(w[2]), out.at, out.size), out);
    done_buffer(out);
}

static void write_command(size_t family, char **w) {
    struct bytes imei = bytes_of(w[3]), text = bytes_of(w[5]), out = bytes_of(w[6]);
    uint8_t codec = (uint8_t)number(w[1]), type = (uint8_t)number(w[2]);
    uint32_t time = (uint32_t)number(w[4]);
    written(brundilope_write_command(family, codec, type, imei.at, imei.size, time, text.at, text.size, out.at, out.size), out);
    done_input(imei);
    done_input(text);
    done_buffer(out);
}

static void last_known(size_t family, char **w) {
    struct bytes newer = bytes_of(w[1]), older = bytes_of(w[2]);
    known(brundilope_last_known(family, newer.at, newer.size, older.at, older.size, (uint16_t)number(w[3])));
    done_input(newer);
    done_input(older);
}

/* ---- connections */

/* The first `least` bytes, and those behind them up to the last that is not zero. */
static void print_ended(const uint8_t *at, size_t size, size_t least) {
    while (size > least && at[size - 1] == 0) size--;
    print_bytes(at, size);
}

static void print_gathered(uint8_t phase, size_t fill, const uint8_t *held, size_t size) {
    printf(" %u %zu ", phase, fill);
    print_ended(held, size, 0);
}

static void print_state(struct brundilope_connection c) {
    printf(" family %u", c.family);
    print_gathered(c.phase, c.fill, c.held, sizeof c.held);
}

static struct brundilope_connection state_of(size_t family, char **w) {
    struct brundilope_connection c;
    struct bytes held = bytes_up_to(w[3], sizeof c.held);
    c.family = (uint8_t)family;
    c.phase = (uint8_t)number(w[1]);
    c.fill = number(w[2]);
    memcpy(c.held, held.at, sizeof c.held);
    done_input(held);
    return c;
}

static void start(size_t family) {
    struct brundilope_started s = brundilope_start(family);
    printf("%s %zu %zu %zu", s.number ? "refused" : "started", s.number, s.index, s.place);
    print_state(s.state);
}

static void reset(size_t family, char **w) {
    printf("state");
    print_state(brundilope_reset(state_of(family, w)));
}

static void fed(struct brundilope_fed f) {
    head("fed", f.number, f.index, f.place);
    printf("%zu %u %" PRIu64 " %zu ", f.used, f.item, f.imei, f.size);
    print_ended(f.packet, sizeof f.packet, f.size);
    print_state(f.state);
}

static void taken(struct brundilope_taken t, struct bytes held, struct bytes packet) {
    size_t shown = t.size < packet.size ? t.size : packet.size;
    head("fed", t.number, t.index, t.place);
    printf("%zu %u %" PRIu64 " %zu ", t.used, t.item, t.imei, t.size);
    print_bytes(packet.at, shown);
    print_gathered(t.phase, t.fill, held.at, held.size);
    for (size_t i = shown; i < packet.size; i++)
        if (packet.at[i] != guard_byte(guard + i)) printf(" CHANGED: byte %zu behind the packet", i - shown);
}

/* A feed by value, if a state by value can be such a one, and of a lent state. */
static void feed(size_t family, char **w) {
    struct bytes held = bytes_up_to(w[3], number(w[4])), p = bytes_of(w[5]), packet = block_of(w[6], number(w[6]));
    if (held.size == BRUNDILOPE_LARGEST && family <= UINT8_MAX) fed(brundilope_feed(state_of(family, w), p.at, p.size));
    else putchar('-');
    printf(" lent ");
    taken(brundilope_feed_lent(family, (uint8_t)number(w[1]), number(w[2]), held.at, held.size, p.at, p.size, packet.at, packet.size),
          held, packet);
    done_buffer(held);
    done_input(p);
    done_buffer(packet);
}

static void wanted(size_t family, char **w) {
    struct bytes held = bytes_up_to(w[3], number(w[4]));
    printf("wanted %zu", brundilope_wanted(family, (uint8_t)number(w[1]), number(w[2]), held.at, held.size));
    done_input(held);
}

typedef struct brundilope_taken feed_call(struct brundilope_connection *c, const uint8_t *bytes, size_t bytes_len,
                                          uint8_t *packet, size_t packet_len);

/* A feed by value as one of a lent state. */
static struct brundilope_taken feed_by_value(struct brundilope_connection *c, const uint8_t *bytes, size_t bytes_len,
                                             uint8_t *packet, size_t packet_len) {
    struct brundilope_fed f = brundilope_feed(*c, bytes, bytes_len);
    *c = f.state;
    memcpy(packet, f.packet, packet_len);
    return (struct brundilope_taken){f.number, f.index, f.place, f.used, f.item, f.imei, f.size, f.state.fill, f.state.phase};
}

/* Starts a connection and feeds the pieces of a stream, each unused rest again, until it is closed; sizes of pieces go
 * over and over. */
static void stream(feed_call *call, size_t family, const char *sizes, struct bytes p) {
    struct brundilope_started s = brundilope_start(family);
    struct brundilope_connection c = s.state;
    struct brundilope_taken t = {.number = s.number, .index = s.index, .place = s.place};
    uint8_t packet[BRUNDILOPE_LARGEST];
    const char *next = sizes;
    size_t used = 0, end = 0;
    if (strspn(sizes, "0,") == strlen(sizes)) fail("no piece with a byte", sizes);
    printf("items");
    while (end < p.size && t.number == 0) {
        char *behind;
        size_t piece = strtoull(next, &behind, 10);
        next = *behind == ',' ? behind + 1 : sizes;
        end = piece < p.size - used ? used + piece : p.size;
        do {
            t = call(&c, p.at + used, end - used, packet, sizeof packet);
            if (t.item == 1) printf(" login %" PRIu64, t.imei);
            if (t.item == 2) {
                printf(" packet ");
                print_bytes(packet, t.size);
            }
            if (t.used > end - used || (t.used == 0 && used < end)) {
                printf(" WRONG: %zu of %zu bytes used", t.used, end - used);
                return;
            }
            used += t.used;
        } while (used < end && t.number == 0);
    }
    printf(" end %zu %zu %zu %zu", t.number, t.index, t.place, used);
    print_state(c);
}

static void streams(size_t family, char **w) {
    struct bytes p = bytes_of(w[2]);
    stream(feed_by_value, family, w[1], p);
    printf(" lent ");
    stream(brundilope_feed_at, family, w[1], p);
    done_input(p);
}

/* ---- the lines of standard input */

/* A call: how many words follow its name, and whether the first of them is a family. */
struct call {
    const char *name;
    int words;
    bool family;
};

static const struct call calls[] = {
    {"read_packet", 2, true},         {"read_datagram", 2, true},        {"read_command", 2, true},
    {"record_in_packet", 3, true},    {"record_in_datagram", 3, true},   {"value_in_packet", 4, true},
    {"value_in_datagram", 4, true},   {"id_in_packet", 4, true},         {"id_in_datagram", 4, true},
    {"last_known", 4, true},          {"acknowledge_packet", 3, true},   {"acknowledge_datagram", 3, true},
    {"form_of_packet", 3, true},      {"form_of_datagram", 3, true},     {"packet_of_form", 3, true},
    {"contents_of_packet", 3, true},  {"contents_of_datagram", 3, true}, {"write_command", 7, true},
    {"line_of_packet", 4, true},      {"line_of_datagram", 4, true},     {"lines_of_packet", 3, true},
    {"lines_of_datagram", 3, true},   {"start", 1, true},                {"reset", 4, true},
    {"wanted", 5, true},              {"feed", 7, true},                 {"stream", 3, true},
    {"read_login", 1, false},         {"answer_login", 3, false},        {"read_line", 1, false},
    {"element_in_line", 3, false},    {"element_at", 3, false},          {"wrong_byte", 1, false},
};

static const struct call *call_of(const char *name) {
    for (size_t i = 0; i < sizeof calls / sizeof *calls; i++)
        if (!strcmp(name, calls[i].name)) return &calls[i];
    return NULL;
}

/* A call that names no family: w[0] is its name, the words behind it follow. */
static void answer_text(char **w) {
    struct bytes p = bytes_of(w[1]);
    if (!on_text(w[0], p)) on_text_buffer(w[0], p, w);
    done_input(p);
}

/* A call that names one: w[0] is its name, the words behind the family follow. */
static void answer_family(size_t family, char **w) {
    if (!strcmp(w[0], "write_command")) write_command(family, w);
    else if (!strcmp(w[0], "last_known")) last_known(family, w);
    else if (!strcmp(w[0], "start")) start(family);
    else if (!strcmp(w[0], "reset")) reset(family, w);
    else if (!strcmp(w[0], "wanted")) wanted(family, w);
    else if (!strcmp(w[0], "feed")) feed(family, w);
    else if (!strcmp(w[0], "stream")) streams(family, w);
    else {
        struct bytes p = bytes_of(w[1]);
        if (!on_input(w[0], family, p, w)) on_buffer(w[0], family, p, w);
        done_input(p);
    }
}

static void answer(char *line) {
    char *w[MOST_WORDS + 1] = {0};
    int n = 0;
    for (char *t = strtok(line, " \n"); t && n < MOST_WORDS; t = strtok(NULL, " \n")) w[n++] = t;
    const struct call *call = n ? call_of(w[0]) : NULL;
    if (!call) printf("error unknown call");
    else if (call->words != n - 1) printf("error wrong number of words");
    else if (call->family) {
        size_t family = number(w[1]);
        w[1] = w[0];
        answer_family(family, w + 1);
    } else answer_text(w);
    putchar('\n');
}

int main(int argc, char **argv) {
    char *line = NULL;
    size_t room = 0;
    if (argc == 2 && !strcmp(argv[1], "bare")) guard = 0;
    else if (argc != 1) fail("not a word of the driver", argv[1]);
    while (getline(&line, &room, stdin) > 0) answer(line);
    free(line);
    return 0;
}
