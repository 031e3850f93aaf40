#!/usr/bin/env python3
"""A second implementation of the rules of document 01 and of requests 1, 2 and 4 to 8 of document 02.

    python3 reference.py     answers calls from standard input, one a line

It is written from the papers alone and is meant to be read beside them; only how
the calls for C lay an answer out (`flat`), the words of a table of contents,
what a feed of a lent state adds to document 02, and how a line is gone along or
its wrong byte said are from include/brundilope.h. Billing lines are in lines.py.
Byte strings in a call are lower-case hexadecimal, '-' stands for none. A call
that names a family has its number as the first word. A buffer of 64-bit words is
given and shown as its bytes, each word's lowest first; one that is no whole
number of words is an error. Look-ups by ID and the last-known one end their answer
with the number of elements passed. The bytes of a connection's state are given and
shown without the zeros at their end, a feed's packet buffer is given as its
length.
"""

import re
import struct
import sys
from collections import Counter, namedtuple

import lines

# The families of unit: the most bytes of a TCP packet, of a datagram and of a record. None: no such limit.
Family = namedtuple("Family", "number packet datagram record")
FAMILIES = {family.number: family for family in (
    Family(1, packet=512, datagram=512, record=255),
    Family(2, packet=1280, datagram=1280, record=None),
)}
AROUND = 12                         # bytes of a TCP packet around its data field
STATE_ROOM = max(family.packet for family in FAMILIES.values())     # bytes that a connection's state holds

# The widths of a codec's IO part. Generation 0 means: no such field.
Widths = namedtuple("Widths", "event generation count id variable")
WIDTHS = {
    0x08: Widths(event=1, generation=0, count=1, id=1, variable=False),
    0x8E: Widths(event=2, generation=0, count=2, id=2, variable=True),
    0x10: Widths(event=2, generation=1, count=1, id=2, variable=False),
}
FIXED_KINDS = (1, 2, 4, 8)
VARIABLE_KIND = 9
GROUP_FIELDS = {size: tuple(f"{size or 'variable'} {field}" for field in ("count", "ID", "value"))
                for size in FIXED_KINDS + (None,)}

# A command codec: the message types that it allows, and the bytes of a time and of an IMEI between the size, which
# counts them, and the text. 0 means: no such field.
CommandLayout = namedtuple("CommandLayout", "types time imei")
COMMANDS = {
    0x0C: CommandLayout(types=(0x05, 0x06), time=0, imei=0),
    0x0D: CommandLayout(types=(0x05, 0x06), time=4, imei=0),
    0x0E: CommandLayout(types=(0x05, 0x06, 0x11), time=0, imei=8),
}
NO_MATCH = 0x11

# TLV form (document 01 calls it the house form): the kinds of its first entry
# and of a record's, and the layout of the latter: the fixed fields of Record,
# little-endian, 27 bytes.
CODEC_ENTRY = 100
RECORD_ENTRY = 101
RECORD_BODY = struct.Struct("<QBiihHBHHB")

# Table of contents: the words of a packet, of a record (its priority and generation
# type share a byte) and of an element, whose fields are those of Element.
PACKET_WORDS = struct.Struct("<HHHBB Q")
RECORD_WORDS = struct.Struct("<Q ii HBHhB HHHH")
ELEMENT_WORD = struct.Struct("<HHHH")
WORD = 8                            # bytes

Element = namedtuple("Element", "id kind offset size")
Record = namedtuple("Record", "timestamp priority longitude latitude altitude angle"
                              " satellites speed event generation elements start size")
FIXED_FIELDS = slice(Record._fields.index("elements"))
Packet = namedtuple("Packet", "codec records")
Datagram = namedtuple("Datagram", "codec records imei packet unused avl")
Command = namedtuple("Command", "codec type time imei offset size")
Item = namedtuple("Item", "kind imei packet")


class Refused(Exception):
    """A refusal: its number, its record index and the offset of the offending field
    in the input; and how many elements a look-up by ID has passed, 0 unless an ID is
    not there. The place, a field or a part of the rule, is no part of an answer: the
    comparison counts the places it reached."""

    def __init__(self, number, index=0, place="", offset=0, passed=0):
        super().__init__(number, index, place, offset, passed)
        self.number, self.index, self.place, self.offset, self.passed = number, index, place, offset, passed


def family_of(number):
    if number not in FAMILIES:
        raise Refused(21)
    return FAMILIES[number]


# ---------------------------------------------------------------- numbers

def big(data):
    return int.from_bytes(data, "big")


def signed(data):
    return int.from_bytes(data, "big", signed=True)


def byte_crc(byte):
    for _ in range(8):
        byte = byte >> 1 ^ (0xA001 if byte & 1 else 0)
    return byte


CRC_TABLE = [byte_crc(byte) for byte in range(256)]


def crc16(data):
    """CRC-16/IBM: start 0, lowest bit first, polynomial A001, no final change."""
    crc = 0
    table = CRC_TABLE
    for byte in data:
        crc = crc >> 8 ^ table[(crc ^ byte) & 0xFF]
    return crc


def wrong_digits(data):
    """The bytes, by number, that are no ASCII digits."""
    return [place for place, byte in enumerate(data) if not 0x30 <= byte <= 0x39]


def login_imei(data, at):
    """The number of an IMEI of 15 ASCII digits after its length; at is the offset of the data in the input."""
    wrong = wrong_digits(data[2:])
    if big(data[:2]) != 15:
        raise Refused(15, place="length and digit" if wrong else "length", offset=at)
    if wrong:
        raise Refused(15, place="digit" if len(wrong) == 1 else "digits", offset=at + 2 + wrong[0])
    return int(data[2:])


def packed_imei(data, at):
    """The number of an IMEI of sixteen digits, two a byte, the first of them 0; at as above."""
    digits = data.hex()
    wrong = [place for place, digit in enumerate(digits) if digit not in ("0123456789" if place else "0")]
    if wrong:
        first, last = wrong[0] // 2, wrong[-1] // 2
        place = ("digit" if wrong[0] else "first digit") + (", others behind" if first != last else "")
        raise Refused(15, place=place, offset=at + first)
    return int(digits)


# ---------------------------------------------------------------- reading records

class Space:
    """Fields taken one after the other from data[at:end]."""

    def __init__(self, data, at, end):
        self.data, self.at, self.end = data, at, end
        self.index = 0          # the record index of a refusal

    def take(self, size, field):
        if self.end - self.at < size:
            raise Refused(8, self.index, field + (", in part" if self.at < self.end else ""), self.at)
        start = self.at
        self.at = start + size
        return self.data[start:self.at]


def read_elements(space, widths, size):
    """One group: a count, then its elements. Size None: each with its own length."""
    count_field, id_field, value_field = GROUP_FIELDS[size]
    elements = []
    for _ in range(big(space.take(widths.count, count_field))):
        ident = big(space.take(widths.id, id_field))
        length = big(space.take(2, "variable length")) if size is None else size
        offset = space.at
        space.take(length, value_field)
        elements.append(Element(ident, VARIABLE_KIND if size is None else size, offset, length))
    return elements


def read_record(space, widths, longest, index):
    space.index = index
    start = space.at
    timestamp = big(space.take(8, "timestamp"))
    priority = big(space.take(1, "priority"))
    if priority > 2:
        raise Refused(10, index, offset=space.at - 1)
    longitude = signed(space.take(4, "longitude"))
    latitude = signed(space.take(4, "latitude"))
    altitude = signed(space.take(2, "altitude"))
    angle = big(space.take(2, "angle"))
    satellites = big(space.take(1, "satellites"))
    speed = big(space.take(2, "speed"))
    event = big(space.take(widths.event, "event ID"))
    generation = 0
    if widths.generation:
        generation = big(space.take(widths.generation, "generation type"))
        if generation > 7:
            raise Refused(11, index, offset=space.at - 1)
    total = big(space.take(widths.count, "total"))
    elements = []
    for size in FIXED_KINDS:
        elements += read_elements(space, widths, size)
    if widths.variable:
        elements += read_elements(space, widths, None)
    if total != len(elements):      # variable values count too: so says request 2, not 006
        fixed = sum(element.kind != VARIABLE_KIND for element in elements)
        raise Refused(9, index, "variable left out" if total == fixed else "", start)
    if longest is not None and space.at - start > longest:
        raise Refused(12, index, offset=start)
    return Record(timestamp, priority, longitude, latitude, altitude, angle,
                  satellites, speed, event, generation, elements, start, space.at - start)


def read_data_field(family, data, start, end):
    """A data field: codec, count, records, count. It has at least 3 bytes."""
    codec = data[start]
    if codec not in WIDTHS:
        raise Refused(6, offset=start)
    count, again = data[start + 1], data[end - 1]
    if count == 0:
        raise Refused(7, place="zero" if again == 0 else "first zero", offset=start + 1)
    if count != again:
        raise Refused(7, place="differ", offset=end - 1)
    space = Space(data, start + 2, end - 1)
    records = [read_record(space, WIDTHS[codec], family.record, index) for index in range(count)]
    if space.at != space.end:
        raise Refused(8, count, "left over", space.at)
    return codec, records


# ---------------------------------------------------------------- reading inputs

def check_header(family, data):
    """The data length in the first 8 bytes of a TCP packet: refusals 2 and 3."""
    if data[:4] != bytes(4):
        raise Refused(2)
    length = big(data[4:8])
    if not 3 <= length <= family.packet - AROUND:
        raise Refused(3, place="under" if length < 3 else "over", offset=4)
    return length


def check_frame(family, data):
    """What all TCP packets share: refusals 1 to 5."""
    if len(data) < 8:
        raise Refused(1)
    size = check_header(family, data) + AROUND
    if len(data) != size:
        raise Refused(4, place="missing" if len(data) < size else "too many")
    if big(data[-4:]) != crc16(data[8:-4]):
        raise Refused(5, place="upper" if any(data[-4:-2]) else "lower", offset=len(data) - 4)


def read_packet(family, data):
    check_frame(family, data)
    return Packet(*read_data_field(family, data, 8, len(data) - 4))


def read_datagram(family, data):
    if len(data) < 26:
        raise Refused(1)
    if len(data) > family.datagram:
        raise Refused(3)
    if len(data) != 2 + big(data[:2]):
        raise Refused(4, place="missing" if len(data) < 2 + big(data[:2]) else "too many")
    imei = login_imei(data[6:23], 6)
    codec, records = read_data_field(family, data, 23, len(data))
    return Datagram(codec, records, imei, big(data[2:4]), data[4], data[5])


def read_login(data):
    if len(data) < 17:
        raise Refused(1)
    if len(data) > 17:
        raise Refused(4)
    return login_imei(data, 0)


def read_command(family, data):
    check_frame(family, data)
    codec = data[8]
    if codec not in COMMANDS:
        raise Refused(6, offset=8)
    layout = COMMANDS[codec]
    if data[9] != 1:
        raise Refused(7, place="first" if data[-5] == 1 else "both", offset=9)
    if data[-5] != 1:
        raise Refused(7, place="second", offset=len(data) - 5)
    space = Space(data, 10, len(data) - 5)
    kind = big(space.take(1, "type"))
    if kind not in layout.types:
        raise Refused(13, offset=10)
    size = big(space.take(4, "size"))
    if size != space.end - space.at:
        raise Refused(14, place="size", offset=11)
    if size < layout.time + layout.imei:
        raise Refused(14, place="under", offset=11)
    time = big(space.take(layout.time, "time"))
    imei = packed_imei(space.take(layout.imei, "IMEI"), space.at - layout.imei) if layout.imei else 0
    text = space.end - space.at
    if kind == NO_MATCH and text > 0:
        raise Refused(14, place="text with 11", offset=space.at)
    return Command(codec, kind, time, imei, space.at, text)


# ---------------------------------------------------------------- looking up

def record_at(packet, number):
    if number >= len(packet.records):
        raise Refused(16, place="record")
    return packet.records[number]


def element_at(packet, number, place):
    elements = record_at(packet, number).elements
    if place >= len(elements):
        raise Refused(16, place="element")
    return elements[place]


def first_with(record, ident):
    """The record's first element with this ID and its place, from 1; or None and the number of elements. Either number
    is that of the elements passed (request 8)."""
    for place, element in enumerate(record.elements, 1):
        if element.id == ident:
            return element, place
    return None, len(record.elements)


def found_with(packet, number, ident):
    """The element, and the number of elements passed."""
    element, passed = first_with(record_at(packet, number), ident)
    if element is None:
        raise Refused(16, place="ID", passed=passed)
    return element, passed


def element_with(packet, number, ident):
    return found_with(packet, number, ident)[0]


def last_known(family, newer, older, ident):
    """Which packet (0 newer, 1 older), the element in its last record, and the number of elements passed in the last
    records of the packets judged; a refused one adds none."""
    passed = 0
    for which, data in enumerate((newer, older)):
        try:
            record = read_packet(family, data).records[-1]
        except Refused as refusal:
            refusal.passed = passed
            raise
        element, more = first_with(record, ident)
        passed += more
        if element is not None:
            return which, element, passed
    raise Refused(16, place="ID", passed=passed)


def part(data, element):
    return data[element.offset:element.offset + element.size]


# ---------------------------------------------------------------- writing

def tcp_packet(field):
    """The TCP packet around a data field."""
    return bytes(4) + len(field).to_bytes(4, "big") + field + crc16(field).to_bytes(4, "big")


def entry(kind, body):
    return len(body).to_bytes(2, "little") + kind.to_bytes(2, "little") + body


def tlv_form(data, packet):
    """The TLV form of a packet or datagram that was read from data."""
    form = [entry(CODEC_ENTRY, bytes([packet.codec]))]
    for record in packet.records:
        form.append(entry(RECORD_ENTRY, RECORD_BODY.pack(*record[FIXED_FIELDS])))
        for element in record.elements:
            form.append(entry(element.kind, element.id.to_bytes(2, "little") + part(data, element)))
    return b"".join(form)


def contents(packet, *head):
    """The table of contents of a packet or datagram; head is what only a datagram has."""
    words = [PACKET_WORDS.pack(packet.codec, len(packet.records), *head)]
    for record in packet.records:
        words.append(RECORD_WORDS.pack(
            record.timestamp, record.latitude, record.longitude,
            record.speed, record.satellites, record.angle, record.altitude, record.generation * 16 + record.priority,
            record.event, record.start, record.size, len(record.elements)))
        words += [ELEMENT_WORD.pack(*element) for element in record.elements]
    return b"".join(words)


# ---------------------------------------------------------------- TLV forms, judged entry by entry

# Refusal 17 is decided here by the rules themselves and not by reading back what
# was written, as the library does: the two are not to share a slip.

def form_entries(form):
    """The (kind, body) pairs of a form: a length, a kind and so many bytes, until its end."""
    entries = []
    at = 0
    while at < len(form):
        if len(form) - at < 4:
            raise Refused(17, place="entry's head")
        length, kind = struct.unpack_from("<HH", form, at)
        at += 4
        if len(form) - at < length:
            raise Refused(17, place="entry's body")
        entries.append((kind, form[at:at + length]))
        at += length
    return entries


def form_codec(entries):
    """The codec of the first entry."""
    if not entries:
        raise Refused(17, place="no entry")
    kind, body = entries[0]
    if kind != CODEC_ENTRY:
        raise Refused(17, place="first kind")
    if len(body) != 1:
        raise Refused(17, place="codec's length")
    if body[0] not in WIDTHS:
        raise Refused(17, place="codec")
    return body[0]


def form_fields(widths, body):
    """The fields of a record's entry, which have to fit the packet's and keep their rules."""
    if len(body) != RECORD_BODY.size:
        raise Refused(17, place="record's length")
    fields = RECORD_BODY.unpack(body)
    priority, event, generation = fields[1], fields[-2], fields[-1]
    if priority > 2:
        raise Refused(17, place="priority")
    if event >= 256 ** widths.event:
        raise Refused(17, place="event ID")
    if generation > 7:
        raise Refused(17, place="generation type")
    if generation > 0 and not widths.generation:
        raise Refused(17, place="generation type outside 16")
    return fields


def form_element(widths, kind, body, before):
    """An element's ID and value. Before is the kind of the record's element before it, or 0: a packet
    has the groups in the order 1, 2, 4, 8, 9."""
    if kind not in FIXED_KINDS and not (kind == VARIABLE_KIND and widths.variable):
        raise Refused(17, place="kind")
    if kind < before:
        raise Refused(17, place="order")
    if len(body) < 2:
        raise Refused(17, place="element's length")
    if kind != VARIABLE_KIND and len(body) != 2 + kind:
        raise Refused(17, place="value's length")
    ident = int.from_bytes(body[:2], "little")
    if ident >= 256 ** widths.id:
        raise Refused(17, place="ID")
    return kind, ident, body[2:]


def record_size(widths, elements):
    """How many bytes a record with these elements has in a packet."""
    groups = 5 if widths.variable else 4
    size = 24 + widths.event + widths.generation + widths.count * (1 + groups)
    for kind, _, value in elements:
        size += widths.id + (2 if kind == VARIABLE_KIND else 0) + len(value)
    return size


def check_sizes(family, sizes):
    """Records of so many bytes and the packet around them have to keep to the family's limits. So there are never 256
    records, which no count could hold: these are too long for a packet of any family."""
    if family.record is not None and max(sizes) > family.record:
        raise Refused(17, place="record's size")
    if AROUND + 3 + sum(sizes) > family.packet:
        raise Refused(17, place="packet's size")


def check_counts(widths, elements):
    """A record's groups, and its elements together, have to be counted by numbers of the codec's width."""
    most = 256 ** widths.count - 1
    if max(Counter(kind for kind, _, _ in elements).values(), default=0) > most:
        raise Refused(17, place="group's count")
    if len(elements) > most:
        raise Refused(17, place="total")


def read_form(family, form):
    """The codec of a form and its records, each (fields, elements); 17 unless every rule is kept."""
    entries = form_entries(form)
    codec = form_codec(entries)
    widths = WIDTHS[codec]
    records = []
    for kind, body in entries[1:]:
        if kind == RECORD_ENTRY:
            records.append((form_fields(widths, body), []))
            continue
        if not records:
            raise Refused(17, place="no record before it")
        elements = records[-1][1]
        elements.append(form_element(widths, kind, body, elements[-1][0] if elements else 0))
    if not records:
        raise Refused(17, place="no record")
    check_sizes(family, [record_size(widths, elements) for _, elements in records])
    for _, elements in records:
        check_counts(widths, elements)
    return codec, records


def record_bytes(widths, fields, elements):
    """A record as it stands in a packet."""
    *fixed, event, generation = fields
    parts = [struct.pack(">QBiihHBH", *fixed), event.to_bytes(widths.event, "big")]
    if widths.generation:
        parts.append(bytes([generation]))
    parts.append(len(elements).to_bytes(widths.count, "big"))
    for kind in FIXED_KINDS + ((VARIABLE_KIND,) if widths.variable else ()):
        group = [(ident, value) for own, ident, value in elements if own == kind]
        parts.append(len(group).to_bytes(widths.count, "big"))
        for ident, value in group:
            parts.append(ident.to_bytes(widths.id, "big"))
            if kind == VARIABLE_KIND:
                parts.append(len(value).to_bytes(2, "big"))
            parts.append(value)
    return b"".join(parts)


def packet_of_form(family, form):
    """The family's packet with this TLV form."""
    codec, records = read_form(family, form)
    count = bytes([len(records)])
    body = b"".join(record_bytes(WIDTHS[codec], *record) for record in records)
    return tcp_packet(bytes([codec]) + count + body + count)


# ---------------------------------------------------------------- writing commands and answers

def write_command(family, codec, kind, imei, time, text):
    """A command packet; a time is ignored where the codec has none. What is refused here are arguments, so no offset
    goes with it."""
    if codec not in COMMANDS:
        raise Refused(6)
    layout = COMMANDS[codec]
    if kind not in layout.types:
        raise Refused(13)
    if len(imei) != (15 if layout.imei else 0):
        raise Refused(15, place="length")
    if wrong_digits(imei):
        raise Refused(15, place="digit")
    stamp = time.to_bytes(layout.time, "big") if layout.time else b""
    packed = bytes.fromhex("0" + imei.decode("ascii")) if layout.imei else b""
    body = stamp + packed + text
    field = bytes([codec, 1, kind]) + len(body).to_bytes(4, "big") + body + b"\x01"
    if AROUND + len(field) > family.packet:
        raise Refused(14, place="over")
    if kind == NO_MATCH and text:
        raise Refused(14, place="text with 11")
    return tcp_packet(field)


def packet_acknowledgement(family, data):
    """The acknowledgement, and the refusal of the packet behind it or None."""
    try:
        return len(read_packet(family, data).records).to_bytes(4, "big"), None
    except Refused as refusal:
        return bytes(4), refusal


def datagram_acknowledgement(family, data):
    count = len(read_datagram(family, data).records)
    return b"\x00\x05" + data[2:6] + bytes([count])


def login_answer(data, known):
    """The answer, and the refusal of the login behind it or None."""
    try:
        read_login(data)
        return bytes([known]), None
    except Refused as refusal:
        return bytes(1), refusal


# ---------------------------------------------------------------- billing lines (document 02, request 4)

def record_line(data, record):
    """The line of a record that was read from data."""
    elements = [lines.Printed(element.id, part(data, element) if element.kind == VARIABLE_KIND
                              else big(part(data, element))) for element in record.elements]
    return lines.line_text(lines.Line(record.timestamp, record.longitude, record.latitude, record.speed, elements))


def read_line(data):
    """A line, and the bytes at which its fields start."""
    try:
        return lines.read_line(data)
    except lines.Wrong as wrong:
        raise Refused(20, place=wrong.why) from None


def element_in_line(data, number):
    """An element of a line, and where the next field starts."""
    line, starts = read_line(data)
    if number >= len(line.elements):
        raise Refused(16, place="element")
    return line.elements[number], starts[number + 5]


def element_from(data, at):
    """The element whose field starts at a byte, and where the next field starts. The last byte is not the field's."""
    text = data[:-1][at:].split(lines.COMMA)[0]
    try:
        return lines.read_element(text), at + len(text) + 1
    except lines.Wrong as wrong:
        raise Refused(20, place=wrong.why) from None


# ---------------------------------------------------------------- connections (document 02, requests 1 and 5)

EXPECTS_LOGIN, EXPECTS_PACKET, CLOSED = range(3)    # the phases
NO_ITEM = Item(0, 0, b"")


class Connection:
    """A connection of a family, which takes its bytes one by one."""

    def __init__(self, family, phase=EXPECTS_LOGIN):
        self.family, self.phase, self.held = family, phase, b""

    def due(self):
        """How many bytes are held when something is judged next."""
        if self.phase == EXPECTS_LOGIN:
            return 17
        return 8 if len(self.held) < 8 else big(self.held[4:8]) + AROUND

    def judged(self):
        """The item that the bytes held are, now that they are as many as were due."""
        if self.phase == EXPECTS_LOGIN:
            return Item(1, read_login(self.held), b"")
        if len(self.held) == 8:
            check_header(self.family, self.held)
            return NO_ITEM
        reader = read_command if self.held[8] in COMMANDS else read_packet
        reader(self.family, self.held)
        return Item(2, 0, self.held)

    def feed(self, data):
        """How many bytes are used, the item that they finish and the refusal that they give, or None."""
        for used, byte in enumerate(data, 1):
            due = self.due()
            self.held += bytes([byte])
            if len(self.held) < due:
                continue
            try:
                item = self.judged()
            except Refused as refusal:
                self.phase, self.held = CLOSED, b""
                return used, NO_ITEM, refusal
            if item != NO_ITEM:
                self.phase, self.held = EXPECTS_PACKET, b""
                return used, item, None
        return len(data), NO_ITEM, None

    def state(self):
        return self.phase, len(self.held), self.held.ljust(STATE_ROOM, b"\0")


def started(number):
    """A connection as it starts: fresh and of this family, or 21 and a closed one of family 1."""
    try:
        return Connection(family_of(number)), None
    except Refused as refusal:
        return Connection(FAMILIES[1], CLOSED), refusal


def connection_in(number, phase, fill, held):
    """The connection in a state; 19 if it is closed, or if no feeds from a fresh one give it. That is found out by
    feeding: a state tells only of the item not yet finished, so its bytes, behind a login where one has been, are all
    that can matter."""
    if number not in FAMILIES:
        raise Refused(19, place="family")
    if phase == CLOSED:
        raise Refused(19, place="closed")
    if phase > CLOSED:
        raise Refused(19, place="phase")
    if len(held) != STATE_ROOM:
        raise Refused(19, place="length")
    if fill > STATE_ROOM:
        raise Refused(19, place="fill")
    connection = Connection(FAMILIES[number])
    if phase == EXPECTS_PACKET:
        connection.feed(b"\x00\x0f" + b"0" * 15)
    _, item, refusal = connection.feed(held[:fill])
    if refusal:
        raise Refused(19, place=f"{refusal.number} held")
    if item != NO_ITEM:
        raise Refused(19, place="login held" if item.kind == 1 else "packet held")
    if connection.state() != (phase, fill, held):
        raise Refused(19, place="spare byte")
    return connection


# ---------------------------------------------------------------- the calls

def shown(data):
    return data.hex() or "-"


def numbers_of(refusal):
    """The number, the index and the offset of a refusal, 0 where there is none."""
    return f"{refusal.number} {refusal.index} {refusal.offset}" if refusal else "0 0 0"


def packet_words(family, data):
    packet = read_packet(family, data)
    return packet.codec, len(packet.records)


def datagram_words(family, data):
    datagram = read_datagram(family, data)
    return (datagram.codec, len(datagram.records)) + datagram[2:]


def record_words(reader):
    def call(family, data, number):
        record = record_at(reader(family, data), number)
        return record[FIXED_FIELDS] + (len(record.elements),)
    return call


def command_text(family, data):
    return part(data, read_command(family, data))


def last_known_words(family, newer, older, ident):
    which, element, passed = last_known(family, newer, older, ident)
    return (which,) + element, passed


def last_known_view(family, newer, older, ident):
    which, element, _ = last_known(family, newer, older, ident)
    return part((newer, older)[which], element)


def lookup(reader, find):
    return lambda family, data, number, wanted: find(reader(family, data), number, wanted)


def lookup_view(reader, find):
    return lambda family, data, number, wanted: part(data, find(reader(family, data), number, wanted))


def form_of(reader):
    return lambda family, data: tlv_form(data, reader(family, data))


def contents_of_packet(family, data):
    return contents(read_packet(family, data), 0, 0, 0, 0)


def contents_of_datagram(family, data):
    datagram = read_datagram(family, data)
    return contents(datagram, datagram.packet, datagram.unused, datagram.avl, datagram.imei)


def line_of(reader):
    return lambda family, data, number: record_line(data, record_at(reader(family, data), number))


def lines_of(reader):
    return lambda family, data: b"".join(record_line(data, record) for record in reader(family, data).records)


def line_words(data):
    line, starts = read_line(data)
    return line[:4] + (len(line.elements), starts[4])


def wrong_byte(data):
    try:
        lines.read_line(data)
    except lines.Wrong as wrong:
        return f"byte {wrong.at}", Refused(20, place=wrong.why)
    return f"byte {len(data)}", None


# ---------------------------------------------------------------- the calls with a connection

def lent_held(held, length):
    return held.ljust(length, b"\0")[:length]


def gathered_words(phase, fill, held):
    """A state without its family, as a call with a lent state leaves it."""
    return f"{phase} {fill} {shown(held.rstrip(bytes(1)))}"


def state_words(number, *gathered):
    return f"family {number} {gathered_words(*gathered)}"


def start(number):
    connection, refusal = started(number)
    head = "refused" if refusal else "started"
    return f"{head} {numbers_of(refusal)} {state_words(connection.family.number, *connection.state())}", refusal


def reset(number, *_):
    """Any state is reset to how its family starts; a family that is not known is not told."""
    connection, _ = started(number)
    return "state " + state_words(connection.family.number, *connection.state()), None


def fed_words(used, item, refusal):
    head = "refused" if refusal else "fed"
    return f"{head} {numbers_of(refusal)} {used} {item.kind} {item.imei} {len(item.packet)} {shown(item.packet)}"


def fed(number, phase, fill, held, data, room):
    """A feed with room for the packet: what is told, the refusal in it or None, and the state without its family."""
    try:
        connection = connection_in(number, phase, fill, held)
        if room < connection.family.packet:
            raise Refused(18, place="by one" if room == connection.family.packet - 1 else "by more")
    except Refused as refusal:
        return fed_words(0, NO_ITEM, refusal), refusal, (phase, fill, held)
    used, item, refusal = connection.feed(data)
    return fed_words(used, item, refusal), refusal, connection.state()


def feed(number, phase, fill, held, length, data, room):
    """A feed by value, whose answer has the room, if a state by value can be such a one; and one with a lent state and
    buffer."""
    held = lent_held(held, length)
    value = "-"
    if length == STATE_ROOM and number < BOUNDS["c"]:
        told, _, state = fed(number, phase, fill, held, data, STATE_ROOM)
        value = f"{told} {state_words(number, *state)}"
    told, refusal, state = fed(number, phase, fill, held, data, room)
    return f"{value} lent {told} {gathered_words(*state)}", refusal


def wanted(number, phase, fill, held, length):
    try:
        connection = connection_in(number, phase, fill, lent_held(held, length))
    except Refused as refusal:
        return "wanted 0", refusal
    return f"wanted {connection.due() - len(connection.held)}", None


def stream(number, _, data):
    """The items and the end of a stream. Where it is cut changes nothing."""
    connection, refusal = started(number)
    used, answer = 0, "items"
    while used < len(data) and not refusal:
        more, item, refusal = connection.feed(data[used:])
        used += more
        answer += ("", f" login {item.imei}", f" packet {shown(item.packet)}")[item.kind]
    answer += f" end {numbers_of(refusal)} {used} {state_words(connection.family.number, *connection.state())}"
    return f"{answer} lent {answer}", refusal


# Each call: its sort of answer, the sorts of its words, its function. The last
# word of a 'write', 'receipt' or 'element' call, the lent buffer, does not go to the
# function. That of a 'found' call gives the number of elements passed, too, that of a
# 'receipt' call the refusal behind it, and that of a 'whole' call the answer itself,
# and the refusal in it or behind it.
CALLS = {
    "read_packet": ("read", "FP", packet_words),
    "read_datagram": ("read", "FP", datagram_words),
    "read_login": ("read", "P", lambda data: (read_login(data),)),
    "read_command": ("read", "FP", read_command),
    "command_text": ("view", "FP", command_text),
    "record_in_packet": ("read", "FPN", record_words(read_packet)),
    "record_in_datagram": ("read", "FPN", record_words(read_datagram)),
    "value_in_packet": ("read", "FPNN", lookup(read_packet, element_at)),
    "value_in_datagram": ("read", "FPNN", lookup(read_datagram, element_at)),
    "id_in_packet": ("found", "FPNI", lookup(read_packet, found_with)),
    "id_in_datagram": ("found", "FPNI", lookup(read_datagram, found_with)),
    "view_in_packet": ("view", "FPNN", lookup_view(read_packet, element_at)),
    "view_in_datagram": ("view", "FPNN", lookup_view(read_datagram, element_at)),
    "id_view_in_packet": ("view", "FPNI", lookup_view(read_packet, element_with)),
    "id_view_in_datagram": ("view", "FPNI", lookup_view(read_datagram, element_with)),
    "last_known": ("found", "FPPI", last_known_words),
    "last_known_view": ("view", "FPPI", last_known_view),
    "acknowledge_packet": ("receipt", "FPP", packet_acknowledgement),
    "acknowledge_datagram": ("write", "FPP", datagram_acknowledgement),
    "answer_login": ("receipt", "PKP", login_answer),
    "write_command": ("write", "FBBPTPP", write_command),
    "form_of_packet": ("write", "FPP", form_of(read_packet)),
    "form_of_datagram": ("write", "FPP", form_of(read_datagram)),
    "packet_of_form": ("write", "FPP", packet_of_form),
    "contents_of_packet": ("write", "FPW", contents_of_packet),
    "contents_of_datagram": ("write", "FPW", contents_of_datagram),
    "line_of_packet": ("write", "FPNP", line_of(read_packet)),
    "line_of_datagram": ("write", "FPNP", line_of(read_datagram)),
    "lines_of_packet": ("write", "FPP", lines_of(read_packet)),
    "lines_of_datagram": ("write", "FPP", lines_of(read_datagram)),
    "read_line": ("read", "P", line_words),
    "element_in_line": ("element", "PNP", element_in_line),
    "element_at": ("element", "PNP", element_from),
    "wrong_byte": ("whole", "P", wrong_byte),
    "start": ("whole", "C", start),
    "reset": ("whole", "cBNP", reset),
    "wanted": ("whole", "CBNPL", wanted),
    "feed": ("whole", "CBNPLPL", feed),
    "stream": ("whole", "CSP", stream),
}

# How many fields an answer of C has besides the number, the index and the offset, all 0 on a refusal. The number of
# elements passed is not among them: a refusal can have one.
FIELDS = {
    "read_packet": 2, "read_datagram": 6, "read_login": 1, "read_command": 6, "record_in_packet": 11,
    "record_in_datagram": 11, "value_in_packet": 4, "value_in_datagram": 4, "id_in_packet": 4, "id_in_datagram": 4,
    "last_known": 5, "acknowledge_packet": 1, "acknowledge_datagram": 1, "answer_login": 1, "write_command": 1,
    "form_of_packet": 1, "form_of_datagram": 1, "packet_of_form": 1, "contents_of_packet": 1, "contents_of_datagram": 1,
    "line_of_packet": 1, "line_of_datagram": 1, "lines_of_packet": 1, "lines_of_datagram": 1, "read_line": 6,
    "element_in_line": 5, "element_at": 5,
}

# The sorts of words: P bytes; W a buffer of 64-bit words; S sizes of pieces, which go over and over; numbers below
# these bounds. F is a family, refused with 21 before anything else; C a connection's, c that of a state by value.
BOUNDS = {"F": 1 << 64, "C": 1 << 64, "c": 1 << 8, "N": 1 << 64, "T": 1 << 32, "I": 1 << 16, "L": 1 << 16, "B": 1 << 8,
          "K": 2}
FAMILY_SORTS = ("F", "C", "c")
DECIMAL = re.compile(r"[0-9]{1,20}")
SIZES = re.compile(r"(?=.*[1-9])[0-9]{1,9}(,[0-9]{1,9})*")


def argument(sort, word):
    """A word's value; ValueError if it is not of its sort."""
    if sort in "PW":
        if word == "-":
            return b""
        data = bytes.fromhex(word)
        if data.hex() != word:
            raise ValueError("not lower-case hexadecimal bytes")
        if sort == "W" and len(data) % WORD:
            raise ValueError("no whole number of 64-bit words")
        return data
    if sort == "S":
        if not SIZES.fullmatch(word):
            raise ValueError("not sizes of pieces")
        return word
    if not DECIMAL.fullmatch(word) or int(word) >= BOUNDS[sort]:
        raise ValueError("not a number of this place")
    return int(word)


def names_family(line):
    """Is it a call that names a family?"""
    return CALLS.get(line.split(" ", 1)[0].strip(), ("", ""))[1][:1] in FAMILY_SORTS


def in_family(number, line):
    """A call line that lacks its family's word, with it; unchanged if the call names none."""
    if not names_family(line):
        return line
    name, *words = line.split()
    return " ".join((name, str(number), *words))


def unit(name):
    """How many bytes a writer counts as one."""
    return WORD if CALLS[name][1].endswith("W") else 1


def written(result, lent, one):
    """The lent buffer with the result at its start; 18 if it is shorter."""
    if len(lent) < len(result):
        raise Refused(18, place="by one" if len(lent) == len(result) - one else "by more")
    return shown(result + lent[len(result):])


def evaluate(line):
    """The answer to a call line, and the refusal behind it or None. A view, a receipt,
    how many bytes are wanted or which byte is wrong shows no refusal; it is given all the same."""
    words = line.split()
    if not words or words[0] not in CALLS:
        return "error unknown call", None
    answered, sorts, function = CALLS[words[0]]
    if len(words) != len(sorts) + 1:
        return "error wrong number of words", None
    try:
        arguments = [argument(sort, word) for sort, word in zip(sorts, words[1:])]
    except ValueError as error:
        return "error " + str(error), None
    if answered == "whole":
        return function(*arguments)
    lent = arguments.pop() if answered in ("write", "receipt", "element") else b""
    try:
        if sorts[0] == "F":
            arguments[0] = family_of(arguments[0])
        result = function(*arguments)
        if answered == "read":
            return "accepted " + " ".join(map(str, result)), None
        if answered == "found":
            result, passed = result
            return f"accepted {' '.join(map(str, result))} passed {passed}", None
        if answered == "view":
            return "bytes " + shown(result), None
        if answered == "element":
            (ident, value), behind = result
            tag, data = (1, value) if isinstance(value, bytes) else (0, b"")
            after = written(data, lent, 1)
            return f"accepted {ident} {tag} {0 if tag else value} {len(data)} {behind} {after}", None
        result, behind = result if answered == "receipt" else (result, None)
        one = unit(words[0])
        return f"written {len(result) // one} {written(result, lent, one)}", behind
    except Refused as refusal:
        text = f"refused {numbers_of(refusal)}"
        if answered == "view":
            text = "bytes -"
        elif answered == "found":
            text += f" passed {refusal.passed}"
        elif answered in ("write", "receipt", "element"):
            text += " " + shown(lent)
        return text, refusal


def flat(line, answer):
    """An answer as the calls for C give it, every field of it: the number, the index and the offset, all 0 for
    an accepted input, then the others, all 0 on a refusal; then the number of elements passed or the lent buffer, as it
    is. Views are not for C."""
    name = line.split()[0] if line.strip() else ""
    said, *words = answer.split()
    if said == "error" or name not in FIELDS:
        return answer
    if said == "refused":
        words[3:3] = ["0"] * FIELDS[name]
    else:
        words[:0] = numbers_of(None).split()
    return " ".join((said, *words))


def answer(line):
    return flat(line, evaluate(line)[0])


def is_view(line):
    """Is it a call that gives a view?"""
    return CALLS.get(line.split(" ", 1)[0].strip(), ("",))[0] == "view"


# ---------------------------------------------------------------- running

def main():
    if sys.argv[1:]:
        print("usage: reference.py < calls", file=sys.stderr)
        return 2
    for line in sys.stdin:
        print(answer(line), flush=True)
    return 0


if __name__ == "__main__":
    sys.exit(main())
