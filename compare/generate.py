#!/usr/bin/env python3
"""Call lines for the comparison, valid and damaged.

    python3 generate.py COUNT SEED

The inputs are built here; of the reference only its checksum, its table of
families and how a line names one are used. They are built to the limits of the
family that their line names, now and then to those of another one. Most damage
is done before the CRC is put on, so that it reaches the rule it is aimed at. An
aim is the number of a refusal, or 0 for any damage; an input with no aims is
valid in the family to whose limits it is built. With several aims the order of
the rules decides, and damage may also miss its aim.
"""

import random
import sys

sys.dont_write_bytecode = True

from reference import FAMILIES, STATE_ROOM, crc16, in_family

# Numbers that are no family's; some of them are one's in fewer bits.
UNKNOWN = (0, max(FAMILIES) + 1, 255, 256, *(256 + number for number in FAMILIES), (1 << 32) + 1, (1 << 64) - 1)
CONTENTS_LIMIT = 640            # words that hold every table of contents

# Codec: bytes of event ID, generation type, count, ID; least record.
WIDTHS = {0x08: (1, 0, 1, 1), 0x8E: (2, 0, 2, 2), 0x10: (2, 1, 1, 2)}
LEAST = {0x08: 30, 0x8E: 38, 0x10: 32}
KINDS = (1, 2, 4, 8, 9)

# Command codec: its types; where its text starts, which is behind a time in 0D and behind an IMEI in 0E.
TYPES = {0x0C: (0x05, 0x06), 0x0D: (0x05, 0x06), 0x0E: (0x05, 0x06, 0x11)}
TEXT_AT = {0x0C: 15, 0x0D: 19, 0x0E: 23}

# The codecs of data packets, those of commands, and some that are neither's.
CODECS = tuple(WIDTHS)
COMMANDS = tuple(TYPES)
NO_CODECS = (0x00, 0x07, 0x09, 0x0B, 0x0F, 0x11, 0x80, 0x8C, 0x8D, 0x8F, 0xFF)

# The bytes around the records of a TCP packet and of a datagram, and around the text of a command, behind which are the
# quantity and the CRC field.
AROUND = {"packet": 15, "datagram": 26}
AROUND_TEXT = {codec: at + 5 for codec, at in TEXT_AT.items()}

# The aims of damage; those that are missed more often stand here twice.
TCP_AIMS = (1, 2, 3, 4, 5, 6, 7, 8, 8, 9, 9, 10, 11, 12, 12)
UDP_AIMS = (1, 3, 4, 6, 7, 8, 8, 9, 9, 10, 11, 12, 12, 15)
COMMAND_AIMS = (1, 2, 3, 4, 5, 6, 7, 8, 13, 14, 14, 15)
IDS = (0, 1, 2, 3, 21, 66, 127, 128, 239, 241, 255, 256, 257, 277, 10500, 32768, 65535)


def fewest_elements(codec):
    """fewest[n]: of how few elements can n bytes of this codec be made? Of NEVER, if of none."""
    ident = WIDTHS[codec][3]
    steps = [ident + kind for kind in KINDS[:4]]
    fewest = [0]
    for size in range(1, 2 * STATE_ROOM):       # inputs that are too long are at most twice as long
        fewest.append(min((fewest[size - step] + 1 for step in steps if step <= size), default=NEVER))
        if codec == 0x8E and size >= 4:
            fewest[size] = 1
    return fewest


NEVER = 1 << 30
FEWEST = {codec: fewest_elements(codec) for codec in CODECS}


def number(value, width):
    """Big-endian, cut to its width."""
    return (value & ((1 << 8 * width) - 1)).to_bytes(width, "big")


def little(value, width):
    return (value & ((1 << 8 * width) - 1)).to_bytes(width, "little")


def shown(data):
    return bytes(data).hex() or "-"


# ---------------------------------------------------------------- the text of billing lines

def degrees(value):
    """Ten-millionths of a degree."""
    whole, rest = divmod(abs(value), 10 ** 7)
    return b"%s%d.%07d" % (b"-" if value < 0 else b"", whole, rest)


def quoted(value):
    """A tag; all that is not plain, and quote, comma and backslash, by its number."""
    return b'"%s"' % b"".join(bytes([byte]) if 0x20 <= byte < 0x7F and byte not in b'",\\' else b"\\%02X" % byte
                              for byte in value)


def joined(fields):
    return b",".join(fields) + b"\n"


class Record:
    """A record's fields. Total, counts and lengths say what is written in place
    of the right number; counts go by group, lengths by place in the last group."""

    def __init__(self, time, priority, place, event, generation, groups):
        self.time = time                # 8 bytes
        self.priority = priority
        self.place = place              # longitude to speed, 15 bytes
        self.event = event
        self.generation = generation
        self.groups = groups            # five lists of (ID, value)
        self.total = None
        self.counts = {}
        self.lengths = {}

    def elements(self):
        """How many there are: the right total."""
        return sum(map(len, self.groups))

    def ids(self):
        return [ident for group in self.groups for ident, _ in group]

    def size(self, codec):
        """The number of bytes that encode gives."""
        extra = WIDTHS[codec][3]
        size = LEAST[codec]
        for place, group in enumerate(self.groups if codec == 0x8E else self.groups[:4]):
            size += len(group) * (extra + (KINDS[place] if place < 4 else 2))
            if place == 4:
                size += sum(len(value) for _, value in group)
        return size

    def line(self, codec):
        """The record as a billing line."""
        fields = [b"%d" % int.from_bytes(self.time, "big"),
                  *(degrees(int.from_bytes(self.place[at:at + 4], "big", signed=True)) for at in (0, 4)),
                  b"%d" % int.from_bytes(self.place[13:], "big")]
        for kind, group in zip(KINDS if codec == 0x8E else KINDS[:4], self.groups):
            fields += [b"%d=%s" % (ident, quoted(value) if kind == 9 else b"%d" % int.from_bytes(value, "big"))
                       for ident, value in group]
        return joined(fields)

    def encode(self, codec):
        event, generation, count, ident = WIDTHS[codec]
        parts = [self.time, number(self.priority, 1), self.place, number(self.event, event)]
        if generation:
            parts.append(number(self.generation, 1))
        parts.append(number(self.elements() if self.total is None else self.total, count))
        for place in range(5 if codec == 0x8E else 4):
            group = self.groups[place]
            parts.append(number(self.counts.get(place, len(group)), count))
            for item, (name, value) in enumerate(group):
                parts.append(number(name, ident))
                if place == 4:
                    parts.append(number(self.lengths.get(item, len(value)), 2))
                parts.append(value)
        return b"".join(parts)


class Maker:
    def __init__(self, seed):
        self.rng = random.Random(seed)
        self.family = FAMILIES[2]       # whose limits inputs are built to

    # ------------------------------------------------------------ small choices

    def chance(self, share):
        return self.rng.random() < share

    def pick(self, items):
        return items[int(self.rng.random() * len(items))]

    def upto(self, bound):
        """0 to bound - 1."""
        return int(self.rng.random() * bound)

    def bytes(self, size):
        style = self.rng.random()
        if style < 0.8:
            return self.rng.randbytes(size)
        return bytes([self.pick((0x00, 0x00, 0xFF, 0x01, 0x30))]) * size

    def digits(self):
        return bytes(0x30 + self.upto(10) for _ in range(15))

    def wrong_digits(self, imei):
        """One wrong digit, or a few."""
        imei = bytearray(imei)
        for _ in range(self.pick((1, 1, 2, 3))):
            imei[self.upto(15)] = self.pick((0x00, 0x09, 0x20, 0x2F, 0x3A, 0x41, 0x61, 0xB5, 0xFF))
        return bytes(imei)

    def wrong_imei(self, imei):
        """A login's bytes with a wrong length, wrong digits, or both."""
        style = self.rng.random()
        if style < 0.5:
            imei = self.pick((b"\x00\x00", b"\x00\x0e", b"\x00\x10", b"\x00\x11", b"\x0f\x00", b"\x01\x0f",
                              b"\x80\x0f", b"\xff\xff")) + imei[2:]
        if style > 0.4:
            imei = imei[:2] + self.wrong_digits(imei[2:])
        return imei

    def buffer(self, size):
        """A lent buffer for a result of this size."""
        style = self.rng.random()
        if style < 0.06:
            room = 0
        elif style < 0.16:
            room = max(size - 1, 0)
        elif style < 0.24:
            room = self.upto(size + 1)
        elif style < 0.55:
            room = size
        elif style < 0.70:
            room = size + 1
        elif style < 0.94:
            room = size + 1 + self.upto(64)
        elif style < 0.995:
            room = size + self.upto(1400)
        else:
            room = self.pick((5000, 65536))
        return self.bytes(room)

    def words(self, size):
        """A lent buffer of 64-bit words for a table of contents of this size."""
        room = self.pick((0, size - 1, self.upto(size), size, size, size, size + 1, size + 2 + self.upto(64),
                          CONTENTS_LIMIT, CONTENTS_LIMIT + 1))
        return self.bytes(8 * room)

    def wide(self, bits):
        """A number of so many bits: any, a small one, an end of the range or a round one."""
        return self.pick((0, 1, 9, 10, 255, (1 << bits) - 1, 1 << bits - 1, 10 ** self.upto(bits * 3 // 10 + 1),
                          self.rng.getrandbits(bits), self.rng.getrandbits(bits))) & (1 << bits) - 1

    def beyond(self, bound):
        """A number from bound on, some of them within it in fewer bits."""
        inside = self.upto(bound) if bound else 0
        return max(bound, self.pick((
            bound, bound, bound, bound + 1, 255, 256, 65535, 65536, 256 + inside, 65536 + inside,
            (1 << 31) + inside, (1 << 32) - 1, (1 << 32) + inside, (1 << 63) + inside,
            (1 << 64) - 1, (1 << 64) - 1 - inside)))

    def numbered(self, bound):
        """A number below bound in most cases."""
        if bound and self.chance(0.85):
            return self.upto(bound)
        return self.beyond(bound)

    # ------------------------------------------------------------ records

    def ident(self, codec):
        ident = self.pick(IDS) if self.chance(0.7) else self.upto(65536)
        return ident & 0xFF if codec == 0x08 else ident

    def groups_of(self, codec, room):
        """Groups whose elements have room bytes together, or a little less, and no more than the total can count."""
        fewest = FEWEST[codec]
        width = WIDTHS[codec][3]
        left = 256 ** WIDTHS[codec][2] - 1
        while fewest[room] > left:
            room -= 1
        groups = [[], [], [], [], []]
        style = self.pick((5, 5, 5, 4, 3, 2, 1))    # how many of the groups are used
        while room:
            place = self.upto(style)
            if place == 4 and codec != 0x8E:
                place = self.upto(4)
            if place < 4:
                size = KINDS[place]
                used = width + size
                if used > room or fewest[room - used] >= left:
                    place = self.upto(5 if codec == 0x8E else 4)
                    size = KINDS[place]
                    used = width + size
            if place == 4:
                size = self.pick((0, 0, 1, 2, 3, 4, 7, 8, 15, 16, 40, 200, room - 4, room - 4))
                used = 4 + size
            if size < 0 or used > room or fewest[room - used] >= left:
                continue
            groups[place].append((self.ident(codec), self.bytes(size)))
            room -= used
            left -= 1
        return groups

    def record(self, codec, size=None):
        """A valid record, of this size if given and if there is such a one."""
        rng = self.rng
        if size is None:
            groups = [[(self.ident(codec), self.bytes(kind)) for _ in range(self.pick((0, 0, 1, 1, 2, 3)))]
                      for kind in KINDS[:4]]
            groups.append([(self.ident(codec), self.bytes(self.pick((0, 0, 1, 2, 5, 8, 17))))
                           for _ in range(self.pick((0, 1, 1, 2, 3)) if codec == 0x8E else 0)])
        else:
            groups = self.groups_of(codec, size - LEAST[codec])
        event = self.pick((0, 0, 1, 239, 255, 256, 65535, self.upto(65536)))
        if codec == 0x08:
            event &= 0xFF
        return Record(self.bytes(8), self.upto(3), rng.randbytes(15) if self.chance(0.8) else self.bytes(15),
                      event, self.upto(8) if codec == 0x10 else 0, groups)

    def size(self, codec, room):
        """A record size: anything up to the limit or the room, often close to 255 bytes."""
        longest = min(self.family.record or room, room)
        if self.chance(0.5):
            return min(self.pick((250, 252, 253, 254, 255, 255, 255, 256, 256, 257)), longest)
        return LEAST[codec] + self.upto(longest - LEAST[codec] + 1)

    def filled(self, codec, room):
        """Records of room bytes together, or a little less."""
        least = LEAST[codec]
        small = self.pick((0, 0, 1, 8))        # records close to the least size
        records = []
        while room >= least:
            if room < 2 * least or (room <= (self.family.record or room) and not small and self.chance(0.5)):
                size = room
            else:
                size = least + self.upto(small) if small else self.size(codec, room)
                size = min(size, room - least)
            records.append(self.record(codec, max(size, least)))
            room -= records[-1].size(codec)
        return records

    def records(self, codec, room):
        """The records of a valid packet, at most room bytes."""
        style = self.rng.random()
        if style < 0.72:
            records = [self.record(codec) for _ in range(self.pick((1, 1, 2, 2, 3, 3, 4, 5, 6)))]
        elif style < 0.86:
            records = [self.record(codec, self.size(codec, room)) for _ in range(self.pick((1, 1, 2, 3, 4)))]
        else:
            records = self.filled(codec, room - self.pick((0, 0, 0, 1, 2, 3, 20)))
        return self.fitting(codec, records, room)

    def fitting(self, codec, records, room, kept=0):
        """As many of the records as fit; the one at kept is not given up."""
        sizes = [record.size(codec) for record in records]
        while sum(sizes) > room and len(records) > 1:
            place = len(records) - 1 if len(records) - 1 != kept else 0
            if place < kept:
                kept -= 1
            del records[place], sizes[place]
        return records

    # ------------------------------------------------------------ damage to records

    def wrong_total(self, record):
        right, variable = record.elements(), len(record.groups[4])
        # without the variable values, and with each of them twice
        record.total = self.pick((right + 1, right - 1, right - variable, right + variable, right + 256,
                                  0, 255, 65535, right + 128, self.upto(65536)))

    def wrong_count(self, codec, record):
        place = self.upto(5 if codec == 0x8E else 4)
        right = len(record.groups[place])
        record.counts[place] = self.pick((right + 1, right + 1, right - 1, right + 2, 0, 127, 128, 255, 256,
                                          right + 256, 32768, 65535))
        if self.chance(0.5):                    # the total goes along with it
            record.total = record.elements() - right + record.counts[place]

    def wrong_length(self, codec, records, place):
        """A variable length that runs past its value, record, records or packet."""
        record = records[place]
        if not record.groups[4]:
            record.groups[4].append((self.ident(codec), self.bytes(self.upto(6))))
        item = self.upto(len(record.groups[4])) if self.chance(0.3) else len(record.groups[4]) - 1
        right = len(record.groups[4][item][1])
        after = sum(4 + len(value) for _, value in record.groups[4][item + 1:])
        later = after + sum(other.size(codec) for other in records[place + 1:])
        # later + 1 takes in the second count, later + 5 the CRC field
        record.lengths[item] = right + self.pick((
            1, 1, 2, 4, -1, self.upto(40), 256, later, later + 1, later + 1, later + 2, later + 5, later + 6,
            (after + later) // 2, 255 - right, 32768 - right, 65535 - right, 65535 - self.upto(40)))

    def long_record(self, codec, room, total=None):
        """A record over 255 bytes; with the total wrong if asked for."""
        style = self.rng.random()
        if style < 0.25 and codec != 0x8E and room > 1000:
            # 256 elements or a few more, which wrap in a one-byte total
            count = self.pick((256, 256, 257, 300 if codec == 0x08 else 260))
            record = self.record(codec, LEAST[codec])
            ones = self.pick((128, 100, 200))
            for place, many in ((0, ones), (self.pick((0, 1)), min(count - ones, 255))):
                if place == 0 and record.groups[0]:
                    many = min(many, 255 - len(record.groups[0]))
                record.groups[place] += [(self.ident(codec), self.bytes(KINDS[place]))
                                         for _ in range(many)]
            return record
        size = self.pick((256, 256, 256, 257, 258, 260, 300, 511, 512, room, 256 + self.upto(max(room - 255, 1))))
        record = self.record(codec, min(size, room))
        if total or (total is None and self.chance(0.2)):
            self.wrong_total(record)
        return record

    def walk_damage(self, codec, records, aim, room, place):
        """Damages one record towards a refusal of the walk, 8 to 12."""
        if place is None or place >= len(records):
            place = self.upto(len(records))
        record = records[place]
        if aim == 8:
            if codec == 0x8E and self.chance(0.6):
                self.wrong_length(codec, records, self.pick((place, place, len(records) - 1)))
            else:
                self.wrong_count(codec, record)
        elif aim == 9:
            if self.chance(0.15):
                records[place] = self.long_record(codec, room, total=True)
            else:
                self.wrong_total(record)
        elif aim == 10:
            record.priority = self.pick((3, 3, 4, 128, 255, 3 + self.upto(253)))
        elif aim == 11:
            record.generation = self.pick((8, 8, 9, 128, 255, 8 + self.upto(248)))
        else:
            records[place] = self.long_record(codec, room, total=False)
        return self.fitting(codec, records, room, place)

    def raw_damage(self, data):
        """Damages any bytes."""
        data = bytearray(data)
        for _ in range(self.pick((1, 1, 1, 2, 3))):
            style = self.upto(7)
            place = self.upto(len(data)) if data else 0
            if style <= 1 and data:
                data[place] ^= 1 << self.upto(8)
            elif style == 2 and data:
                data[place] = self.pick((0, 1, 2, 3, 255, data[place] + 1 & 255, self.upto(256)))
            elif style == 3:
                del data[place:place + 1 + self.upto(4)]
            elif style == 4:
                data[place:place] = self.bytes(1 + self.upto(4))
            elif style == 5:
                del data[len(data) - 1 - self.upto(len(data) + 1):]
            else:
                data += self.bytes(1 + self.upto(12))
        return bytes(data)

    def data_field(self, codec, records, aims, room):
        """A data field with damage towards 6 to 12."""
        together = self.upto(len(records)) if self.chance(0.6) else None
        for aim in sorted(aims):
            if 8 <= aim <= 12:
                records = self.walk_damage(codec, records, aim, room, together)
        body = b"".join(record.encode(codec) for record in records)
        first = second = len(records)
        if 8 in aims and self.chance(0.35):
            style = self.upto(6)
            if style == 0:
                first = second = min(first + self.pick((1, 1, 2, 200)), 255)
            elif style == 1 and first > 1:
                first = second = first - self.pick((1, 1, first - 1))
            elif style == 2:
                body = body[:self.upto(len(body))]
            elif style == 3:
                body = body[:-1 - self.upto(12)]
            elif style == 4:
                body += self.bytes(1 + self.upto(40))
            else:
                body = b""
        if 7 in aims:
            first, second = self.pick((
                (0, 0), (0, second), (first, 0), (first + 1, second), (first, second + 1),
                (first - 1, second), (first, second - 1), (255, second), (first, 255),
                (second ^ 128, second), (self.upto(256), self.upto(256))))
        if 6 in aims:
            codec = self.pick(COMMANDS + NO_CODECS) if self.chance(0.8) else self.upto(256)
        ends = bytes([codec, first & 255]), bytes([second & 255])
        if 0 in aims:
            if self.chance(0.7):
                body = self.raw_damage(body)
            else:
                return self.at_least_3(self.raw_damage(ends[0] + body + ends[1]))
        return ends[0] + body + ends[1]

    def at_least_3(self, field):
        return field + bytes(max(3 - len(field), 0))

    # ------------------------------------------------------------ TCP packets

    def frame(self, field, aims, old=None):
        """A TCP packet round a data field, with damage towards 1 to 5. Old is a
        length to leave standing."""
        length = len(field) if old is None else old
        start = bytearray(4)
        if 2 in aims:
            for _ in range(self.pick((1, 1, 2))):
                start[self.upto(4)] = self.pick((1, 128, 255, 1 + self.upto(255)))
        most = self.family.packet - 12
        if 3 in aims and 3 <= length <= most:
            length = self.pick((0, 1, 2, most + 1, most + 2, most + 12, 501, 1269, 65535, 65536, 65536 + length,
                                (1 << 24) + length, (1 << 31) + length, (1 << 32) - 1, (1 << 32) - 12,
                                (1 << 32) - 8, self.rng.getrandbits(32)))
        elif 4 in aims:
            length += self.pick((-12, -8, -4, -1, -1, 1, 1, 4, 8, 12, self.upto(300)))
            length = max(3, min(most, length))
        crc = crc16(field)
        if 5 in aims:
            crc = self.pick((crc ^ 1 << self.upto(32), crc ^ 1 << self.upto(16), crc ^ 0x10000,
                             crc + 1, crc << 16, crc16(number(length, 4) + field),
                             crc | 0xFFFF0000, (crc & 255) << 8 | crc >> 8, crc16(field[:-1]), 0))
        data = bytes(start) + number(length, 4) + field + number(crc, 4)
        if 4 in aims and self.chance(0.5):
            data = self.pick((data[:-1], data + b"\0", data[:8 + self.upto(len(data) - 8)],
                              data + self.bytes(1 + self.upto(100)), data + data))
        if 1 in aims:
            data = data[:self.upto(8)]
        return data

    def too_long(self, codec, room):
        """Records of a few bytes more than there is room for."""
        return self.filled(codec, room + self.pick((1, 1, 2, 3, 40, 110)))

    def records_aimed(self, codec, room, over):
        """The records of an input and the room that damage may use: too many of them, or as many as fit."""
        if over:
            return self.too_long(codec, room), 2 * room
        return self.records(codec, room), room

    def aims(self, numbers, valid):
        """What is to be damaged: nothing with this chance, else mostly one thing."""
        style = self.rng.random()
        if style < valid:
            return set()
        if style < valid + 0.08:
            return {0}
        aims = {self.pick(numbers)}
        if self.chance(0.12):       # two rules that follow each other
            aims.add(min([number for number in numbers if number > min(aims)], default=0))
        while self.chance(0.25):
            aims.add(self.pick(numbers))
        return aims

    def packet(self, valid=0.4):
        """A TCP data packet: its bytes, codec and records."""
        aims = self.aims(TCP_AIMS, valid)
        codec = 0x10 if 11 in aims else self.pick(CODECS)
        records, room = self.records_aimed(codec, self.family.packet - AROUND["packet"], 3 in aims and self.chance(0.4))
        clean = 3 + sum(record.size(codec) for record in records)
        field = self.data_field(codec, records, aims, room)
        # the length is repaired in half of the cases, but more often for 8
        left = len(field) != clean and self.chance(0.5 if 0 in aims else 0.15)
        data = self.frame(field, aims, clean if left else None)
        if 0 in aims and self.chance(0.25):
            data = self.raw_damage(data)
        return self.huge(data, 0.003), codec, records

    def huge(self, data, share):
        """Now and then, a very long input in its place."""
        if not self.chance(share):
            return data
        size = self.pick((5000, 5000, 65536))
        style = self.upto(5)
        if style == 0:
            return self.bytes(size)
        if style == 1:
            return data + bytes(max(size - len(data), 0))
        if style == 2:
            return number(size - 2, 2) + data[2:] + self.bytes(max(size - len(data), 0))
        field = data[8:-4] + self.bytes(max(size - len(data), 0))
        return bytes(4) + number(len(field), 4) + field + number(crc16(field), 4)

    # ------------------------------------------------------------ datagrams

    def datagram(self, valid=0.4):
        """A UDP datagram: its bytes, codec and records."""
        aims = self.aims(UDP_AIMS, valid)
        codec = 0x10 if 11 in aims else self.pick(CODECS)
        records, room = self.records_aimed(codec, self.family.datagram - AROUND["datagram"], 3 in aims)
        clean = 3 + sum(record.size(codec) for record in records)
        field = self.data_field(codec, records, aims, room)
        imei = b"\x00\x0f" + self.digits()
        if 15 in aims:
            imei = self.wrong_imei(imei)
        data = self.bytes(4) + imei + field
        length = len(data)
        if len(field) != clean and self.chance(0.5 if 0 in aims else 0.15):
            length += clean - len(field)
        if 4 in aims:
            length += self.pick((-2, -1, -1, 1, 1, 2, 256, -256, 32768, self.upto(65536)))
        data = number(length, 2) + data
        if 4 in aims and self.chance(0.4):
            data = self.pick((data[:-1], data + b"\0", data + self.bytes(1 + self.upto(20)),
                              data[:26 + self.upto(len(data) - 26)]))
        if 1 in aims:
            data = data[:self.pick((25, self.upto(26)))]
            if self.chance(0.5) and len(data) >= 2:
                data = number(len(data) - 2, 2) + data[2:]
        if 0 in aims and self.chance(0.25):
            data = self.raw_damage(data)
        return self.huge(data, 0.003), codec, records

    # ------------------------------------------------------------ commands, logins

    def command_type(self, codec):
        """A type that the codec allows, 11 less often than the others."""
        return self.pick(TYPES[codec] + TYPES[codec][:2])

    def text(self, most):
        style = self.rng.random()
        if style < 0.15:
            return b""
        if style < 0.25:
            return self.pick((b"getinfo", b"getio", b"getver", b"setparam 2001:internet"))
        if style < 0.75:
            return self.bytes(1 + self.upto(40))
        if style < 0.85:
            return self.bytes(self.upto(most + 1))
        return self.bytes(most - self.pick((0, 0, 0, 1, 2)))

    def before_text(self, codec):
        """What stands between the size of a command and its text."""
        if codec == 0x0D:
            return number(self.wide(32), 4)
        return bytes.fromhex("0" + self.digits().decode()) if codec == 0x0E else b""

    def command_body(self, codec, aims):
        """Type, size, and what is before the text with it, with damage towards 3, 13, 14 and 15."""
        most = self.family.packet - AROUND_TEXT[codec]
        kind = self.command_type(codec)
        text = b"" if kind == 0x11 else self.text(most)
        if 3 in aims and self.chance(0.4):
            text = self.bytes(most + self.pick((1, 1, 2, 50, 120)))
        before = self.before_text(codec)
        least = len(before)
        if 15 in aims:
            before = self.wrong_packed(before)
        matched = True
        if codec == 0x0E and (14 in aims and self.chance(0.3) or 15 in aims and self.chance(0.2)):
            kind = 0x11
            text = text or self.bytes(self.pick((1, 8, 1 + self.upto(9))))
            matched = False
        body = before + text
        if 14 in aims and least and self.chance(0.25):
            body = body[:self.pick((least - 1, self.upto(least)))]
            matched = False
        size = len(body)
        if 14 in aims and (matched or self.chance(0.1)):
            # 4 less counts the text of 0D alone, 8 less that of 0E
            size += self.pick((1, 1, -1, -1, 4, -4, -4, 8, -8, -8, -size, 256, 1 << 16, 1 << 24, 1 << 31, 1 << 31,
                               -1 - size, -15 - size, -19 - size, -23 - size, self.rng.getrandbits(32)))
        if 13 in aims:
            kind = self.pick((0x00, 0x04, 0x07, 0x10, 0x12, 0x85, 0xFF, 0x11, 0x11, 0x11, self.upto(256)))
        return kind, size, body

    def command(self, valid=0.4):
        """A command packet: its bytes."""
        aims = self.aims(COMMAND_AIMS, valid)
        codec = 0x0E if 15 in aims else self.pick(COMMANDS)
        kind, size, body = self.command_body(codec, aims)
        if 14 in aims and self.chance(0.1):         # the layout of one codec under the name of another
            codec = self.pick(COMMANDS)
        first = second = 1
        if 7 in aims:
            first, second = self.pick(((2, 2), (2, 1), (1, 2), (0, 0), (0, 1), (1, 0), (255, 1),
                                       (1, 129), (self.upto(256), self.upto(256))))
        if 6 in aims:
            codec = self.pick((*CODECS, *NO_CODECS, self.upto(256)))
        field = bytes([codec, first, kind]) + number(size, 4) + body + bytes([second])
        clean = len(field)
        if 8 in aims:
            field = field[:self.pick((2, 3, 4, 5, 6))] + field[-1:]
        if 0 in aims:
            if self.chance(0.6):
                field = self.at_least_3(self.raw_damage(field))
            else:
                field = field[:2] + self.raw_damage(field[2:-1]) + field[-1:]
        left = len(field) != clean and self.chance(0.5 if 0 in aims else 0.15)
        data = self.frame(field, aims, clean if left else None)
        if 0 in aims and self.chance(0.25):
            data = self.raw_damage(data)
        return self.huge(data, 0.003)

    def wrong_packed(self, imei):
        """An IMEI of sixteen digits with one that is not allowed, or a few."""
        imei = bytearray(imei)
        for _ in range(self.pick((1, 1, 2, 3))):
            place = self.upto(8)
            if self.chance(0.4):
                imei[0] |= self.pick((0x10, 0x10, 0x30, 0x80, 0x90, 0xA0, 0xF0))
            elif self.chance(0.5):
                imei[place] = imei[place] & 0xF0 | self.pick((0x0A, 0x0B, 0x0F))
            else:
                imei[place] = imei[place] & 0x0F | self.pick((0xA0, 0xB0, 0xF0))
        return bytes(imei)

    def login(self, valid=0.4):
        data = b"\x00\x0f" + self.digits()
        if self.chance(valid):
            return data
        style = self.rng.random()
        if style < 0.2:
            return data[:self.pick((0, 1, 2, 16, 16, self.upto(17)))]
        if style < 0.37:
            return data + self.bytes(self.pick((1, 1, 2, 17, 100)))
        if style < 0.74:
            return self.wrong_imei(data)
        if style < 0.84:
            return self.bytes(17)
        return self.huge(self.raw_damage(data), 0.03)

    def command_words(self):
        """The words of a write_command call. Each codec is given a time, of which only 0D has a use."""
        codec = self.pick(COMMANDS)
        kind = self.command_type(codec)
        imei = self.digits() if codec == 0x0E else b""
        most = self.family.packet - AROUND_TEXT[codec]
        text = b"" if kind == 0x11 and self.chance(0.7) else self.text(most)
        size = AROUND_TEXT[codec] + len(text)
        aims = self.aims((6, 13, 14, 15), 0.45)
        if 0 in aims:
            aims = {aim for aim in (6, 13, 14, 15) if self.chance(0.5)}
        if 6 in aims:
            codec = self.pick((*CODECS, *NO_CODECS, self.upto(256)))
        if 13 in aims:
            kind = self.pick((0x00, 0x04, 0x07, 0x10, 0x11, 0x12, 0xFF, self.upto(256)))
        if 14 in aims:
            text = self.bytes(most + self.pick((1, 1, 2, 20, 100, 148)))
            if self.chance(0.02):
                text = self.bytes(self.pick((5000, 65536)))
        if 15 in aims:
            imei = self.pick((b"", b"0", self.digits()[:14], self.digits() + b"0", b"0" + self.digits(),
                              self.wrong_digits(self.digits()), self.wrong_digits(self.digits()),
                              self.digits(), self.wrong_digits(self.digits()) + b"7"))
        return f"{codec} {kind} {shown(imei)} {self.wide(32)} {shown(text)} {shown(self.buffer(size))}"

    # ------------------------------------------------------------ TLV forms

    def form_entries(self, codec, records):
        """The entries of a form, each [length, kind, body]."""
        def entry(kind, body):
            return [len(body), kind, body]

        entries = [entry(100, bytes([codec]))]
        for record in records:
            place = record.place
            body = b"".join((
                record.time[::-1], number(record.priority, 1), place[0:4][::-1], place[4:8][::-1],
                place[8:10][::-1], place[10:12][::-1], place[12:13], place[13:15][::-1],
                little(record.event, 2), little(record.generation, 1)))
            entries.append(entry(101, body))
            for kind, group in zip(KINDS, record.groups):
                for ident, value in group:
                    entries.append(entry(kind, little(ident, 2) + value))
        return entries

    def form(self):
        """A TLV form and the size of its packet."""
        codec = self.pick(CODECS)
        room = self.family.packet - AROUND["packet"]
        records = self.records(codec, room)
        style = self.rng.random()
        if style < 0.45:
            damage = None
        elif style < 0.6:
            damage = "record"
        elif style < 0.92:
            damage = "entry"
        else:
            damage = "raw"
        record = self.pick(records)
        if damage == "record":
            self.spoil_record(codec, records, record, room)
        size = AROUND["packet"] + sum(record.size(codec) for record in records)
        entries = self.form_entries(codec, records)
        if damage == "entry":
            entries = self.spoil_entries(codec, entries)
        form = b"".join(little(length, 2) + little(kind, 2) + body for length, kind, body in entries)
        if damage == "raw":
            form = self.raw_damage(form)
        if self.chance(0.003):
            form = self.pick((self.bytes(5000), form * (5000 // len(form) + 1), form + bytes(65536 - len(form)),
                              (form + form[5:] * (65536 // max(len(form) - 5, 1)))[:65536]))
        return form, size

    def spoil_record(self, codec, records, record, room):
        """A form of a packet that breaks a rule of its records, in most families."""
        style = self.upto(9)        # in 08 and 10 some are another damage
        if style == 0:
            record.priority = self.pick((3, 255))
        elif style == 1:
            record.generation = self.pick((8, 255)) if codec == 0x10 else self.pick((1, 7, 255))
        elif style == 2 and codec == 0x08:
            record.event = self.pick((256, 257, 65535))
        elif style == 3 and codec == 0x08:
            place = self.upto(4)
            record.groups[place].append((self.pick((256, 257, 65535)), self.bytes(KINDS[place])))
        elif style in (2, 3, 4):
            records[records.index(record)] = self.long_record(codec, room)
        elif style == 5:
            records[:] = self.too_long(codec, room)
        elif style == 6 and codec != 0x8E:
            record.groups[4].append((self.ident(codec), self.bytes(self.upto(9))))
        elif style == 7:            # as many as a group's count of one byte holds, or one more
            records[:] = [self.record(codec, LEAST[codec])]
            records[0].groups[0] = [(self.ident(codec), self.bytes(1)) for _ in range(self.pick((255, 256)))]
        elif self.chance(0.3):
            records[:] = [self.record(codec, LEAST[codec]) for _ in range(self.pick((17, 43, 255, 256, 257)))]
        else:
            del records[:]

    def spoil_entries(self, codec, entries):
        """A form with one entry broken, moved, lost or doubled."""
        place = self.upto(len(entries))
        chosen = entries[place]
        style = self.upto(13)
        if style < 5:
            self.spoil_entry(codec, entries, chosen, style)
        elif style == 5:
            del entries[place]
        elif style == 6:
            entries.insert(place, list(chosen))
        elif style == 7:
            entries.insert(self.upto(len(entries) + 1), list(chosen))
        elif style == 8:
            other = self.upto(len(entries))
            entries[place], entries[other] = entries[other], chosen
        elif style == 9:
            kind = self.pick(KINDS)
            size = 2 + (self.upto(9) if kind == 9 or self.chance(0.3) else kind)
            entries.insert(self.upto(len(entries) + 1), [size, kind, self.bytes(size)])
        elif style == 10:
            entries.append([self.pick((0, 1, 2, 3, 27)), self.pick((1, 9, 101, 100)), b""])
        elif style == 11:
            # neighbours of different kinds change places
            for at in range(1, len(entries) - 1):
                if entries[at][1] != entries[at + 1][1] and self.chance(0.5):
                    entries[at], entries[at + 1] = entries[at + 1], entries[at]
                    break
        else:
            # a value of another width under its old kind, or under a new one
            chosen[1] = self.pick(KINDS)
        return entries

    def spoil_entry(self, codec, entries, chosen, style):
        """A wrong length, kind, body or codec entry."""
        if style == 0:
            chosen[0] += self.pick((1, -1, 2, 256, -256, 65535, 4))
        elif style == 1:
            chosen[1] = self.pick((0, 1, 2, 3, 4, 5, 8, 9, 10, 16, 99, 100, 101, 102, 255,
                                   chosen[1] + 256, chosen[1] ^ 0x8000, self.upto(65536)))
        elif style == 2:
            body = self.pick((chosen[2] + b"\0", chosen[2][:-1], chosen[2] + self.bytes(4),
                              chosen[2][:1], b"", chosen[2][1:]))
            chosen[0], chosen[2] = len(body), body
        elif style == 3:
            entries[0][2] = bytes([self.pick(CODECS + COMMANDS + NO_CODECS)])
        else:
            entries[0] = [2, 100, bytes([codec, 0])]

    def form_size(self, codec, records):
        return sum(4 + len(body) for _, _, body in self.form_entries(codec, records))

    # ------------------------------------------------------------ billing lines

    def coordinate(self):
        value = self.wide(32)
        return value - (1 << 32) if value >> 31 else value

    def tag(self):
        """The bytes of a tag."""
        style = self.rng.random()
        size = self.pick((0, 1, 2, 3, 8, 20, 20, self.upto(256)))
        if style < 0.3:
            return self.bytes(size)
        letters = b"Jonas 0129AF" if style < 0.6 else b'"",,\\\\\n\r 0A2C=~\x1f\x7f\x80\xff\0'
        return bytes(self.pick(letters) for _ in range(size))

    def line_fields(self):
        """The fields of a line, and the tags among its elements by place, None for numbers."""
        fields = [b"%d" % self.wide(64), degrees(self.coordinate()), degrees(self.coordinate()), b"%d" % self.wide(16)]
        numbers, tags = self.pick((0, 1, 1, 2, 5, 12)), self.pick((0, 0, 1, 1, 2, 4))
        values = [None] * numbers + [self.tag() for _ in range(tags)]
        fields += [b"%d=%s" % (self.wide(16), b"%d" % self.wide(64) if value is None else quoted(value))
                   for value in values]
        return fields, values

    def spoil_field(self, text):
        """A field with a rule broken, or with any byte changed."""
        head, sign, value = text.rpartition(b"=")
        at = self.upto(len(text) + 1)
        other = bytes([self.pick(b'0129-+. ,="\\\n\rAFaf\0\x7f\xff' + text)])
        return self.pick((
            text[:at] + other + text[at:], text[:at] + other + text[at + 1:], text[:at] + text[at + 1:], text[:at],
            text[:at] + text[at:at + 1] + text[at:], b"0" + text, b"-" + text, b"+" + text, b" " + text, text + b" ",
            text + b"0", b"", head + sign + b"0" + value, head + sign + value + b"0", head + sign, b"1" + text, value,
            head + sign + b"%d" % ((1 << 64) + self.upto(2)), head + sign + b'"' + value + b'"', text.lower(),
            text.replace(b"\\", b"\\4"), text.replace(b'"', b""), b"%d" % (65535 + self.upto(2)) + sign + value,
            degrees(self.pick((1, -1)) * ((1 << 31) + self.upto(2))), b"-0.0000000", text.replace(b".", b""),
            b"%d" % ((1 << 64) - self.upto(2)), head + sign + b"7" * self.pick((19, 20, 21, 50)), text + text))

    def spoil_line(self, fields):
        """Fields as a line that is most likely none."""
        fields = list(fields)
        place, other = self.upto(len(fields)), self.upto(len(fields))
        style = self.upto(14)
        if style == 0:
            del fields[place]
        elif style == 1:
            fields.insert(other, fields[place])
        elif style == 2:
            fields[place], fields[other] = fields[other], fields[place]
        elif style == 3:
            fields = fields[:place]
        elif style == 4:
            fields.append(self.pick((b"", b"5", b"5=", b"=5", b'5="', b"5=5", b'5="5"')))
        elif style < 12:
            fields[place] = self.spoil_field(fields[place])
        text = joined(fields)
        if style < 12:
            return text
        at = self.upto(len(text))
        return self.pick((text[:-1], text[:-1] + b"\r\n", text + b"\n", text[:at], text[at:], text + text,
                          text[:-1] + b"\0", self.bytes(at), text[:at] + self.bytes(1) + text[at + 1:], b""))

    def line_words(self, name):
        """The words of a call that reads a line."""
        fields, values = self.line_fields()
        text = joined(fields) if self.chance(0.4 if name in ("read_line", "wrong_byte") else 0.7) else \
            self.spoil_line(fields)
        if name in ("read_line", "wrong_byte"):
            return shown(text)
        place = self.numbered(len(values))
        size = len((values[place] if place < len(values) else None) or b"")
        if name == "element_at":
            fields = text.split(b",")
            place = min(place + 4, self.upto(len(fields) + 1) + 3)
            place = sum(len(field) + 1 for field in fields[:place])
            if self.chance(0.15):
                end = len(text)
                place = self.pick((0, self.upto(end + 1), end, max(end - 1, 0), self.beyond(end)))
        return f"{shown(text)} {place} {shown(self.buffer(size))}"

    # ------------------------------------------------------------ connections

    def item(self, phase, valid):
        """A login, or a packet of either sort: its bytes."""
        if phase == 0:
            return self.login(valid)
        return self.packet(valid)[0] if self.chance(0.6) else self.command(valid)

    def state(self):
        """A state and what its item lacks: phase, fill, bytes held, how many are lent, the item's other bytes."""
        phase = self.pick((0, 1, 1, 1))
        item = self.item(phase, 0.5)
        fill = min(self.pick((0, 0, 1, 7, 8, 9, 16, max(len(item) - 1, 0), self.upto(len(item) + 1))), len(item))
        held, rest, lent = item[:fill], item[fill:], STATE_ROOM
        if self.chance(0.8):
            return phase, fill, held, lent, rest
        style = self.upto(6)
        if style == 0:
            phase = self.pick((2, 2, 2, 3, 255, 1 - phase, self.upto(256)))
        elif style == 1:
            fill = self.pick((fill + 1, max(fill - 1, 0), 17, 511, 512, 513, 1279, 1280, 1281, (1 << 32) + fill,
                              (1 << 64) - 1))
        elif style == 2:
            held += bytes(self.pick((0, 0, 1, 8, max(1279 - fill, 0), self.upto(1280)))) + b"\x01"
        elif style == 3:
            lent = self.pick((0, fill & 1023, 17, 512, 1279, 1281, self.upto(1500)))
        elif style == 4:
            held, fill = item, len(item)
        else:
            held, fill = item + b"\0", len(item) + 1
        return phase, fill, held, lent, rest

    def next_bytes(self, rest):
        """What comes behind a state's bytes: the rest of its item, a part of it, or more."""
        return self.pick((rest, rest, rest + self.bytes(1 + self.upto(30)), rest + self.login(0.9),
                          rest[:self.upto(len(rest) + 1)], rest[:-1], rest[:1], b""))

    def stream(self):
        """The words of a stream: sizes of its pieces, which go over and over, and its bytes."""
        data = self.item(0, 0.9) + b"".join(self.item(1, 0.75) for _ in range(self.pick((0, 1, 1, 2, 2, 3))))
        if self.chance(0.3):
            data = data[:self.upto(len(data) + 1)]
        style = self.rng.random()
        if style < 0.25:
            sizes = [len(data) + 1]
        elif style < 0.5 and len(data) < 250:       # thousands of feeds cost time
            sizes = [1]
        else:
            sizes = [self.pick((0, 1, 7, 8, 9, 16, 17, 18, 45, self.upto(400))) for _ in range(self.upto(6))]
            sizes.append(1 + self.upto(1400))
        return f"{','.join(map(str, sizes))} {shown(data)}"

    def connection_words(self, name):
        """The words of a call that takes a connection's state."""
        phase, fill, held, lent, rest = self.state()
        words = f"{phase} {fill} {shown(held)}"
        if name == "reset":
            return words
        if name == "wanted":
            return f"{words} {lent}"
        room = STATE_ROOM if self.chance(0.6) else \
            self.pick((0, 511, 512, 512, 513, 1279, 1280, 1281, 1400, self.upto(512), self.upto(1280)))
        return f"{words} {lent} {shown(self.next_bytes(rest))} {room}"

    # ------------------------------------------------------------ calls

    def record_word(self, records):
        return self.numbered(len(records))

    def element_words(self, records):
        """A record number and an element number."""
        place = self.record_word(records)
        elements = records[place].elements() if place < len(records) else 3
        return f"{place} {self.numbered(elements)}"

    def wanted(self, codec, record, records):
        """An ID: this record's, another record's, or any."""
        ids = record.ids()
        style = self.rng.random()
        if style < 0.6 and ids:
            ident = self.pick(ids)
        elif style < 0.8:
            ident = self.pick([ident for other in records for ident in other.ids()] or [5])
        elif style < 0.9:
            ident = self.pick((0, 1, 255, 256, 32768, 65535))
        elif style < 0.95 and ids:
            ident = self.pick(ids) ^ self.pick((0x100, 0x8000, 0xFF00))
        else:
            ident = self.upto(65536)
        return ident & 0xFFFF

    def id_words(self, codec, records):
        """A record number and an ID."""
        place = self.record_word(records)
        record = records[place] if place < len(records) else records[-1]
        return f"{place} {self.wanted(codec, record, records)}"

    def two_packets(self):
        """The words of a last-known call."""
        newer, codec, records = self.packet(0.55)
        older, _, older_records = self.packet(0.45)
        if self.chance(0.05):
            older = newer
        known = self.pick((records, older_records))
        if self.chance(0.65):
            ident = self.wanted(codec, older_records[-1], older_records)
        else:
            ident = self.wanted(codec, known[-1], known)
        return f"{shown(newer)} {shown(older)} {ident}"

    def any_input(self, maker):
        """Sometimes an input of another sort than the call expects."""
        if self.chance(0.03):
            maker = self.pick((self.packet, self.datagram, lambda: (self.command(), None, None),
                               lambda: (self.login(), None, None), lambda: (self.form()[0], None, None)))
            data, codec, records = maker()
            return data, codec or 8, records or [self.record(8)]
        return maker()

    def number_of(self, name):
        """The number of the family that a call names, mostly a known one. A state by value has one of a byte."""
        if not self.chance(0.08 if name in ("start", "reset", "wanted", "feed") else 0.03):
            return self.pick(tuple(FAMILIES))
        return self.pick([number for number in UNKNOWN if number < 256 or name != "reset"])

    def line(self):
        name = self.pick(NAMES)
        number = self.number_of(name)
        other = number not in FAMILIES or self.chance(0.15)
        self.family = self.pick(tuple(FAMILIES.values())) if other else FAMILIES[number]
        return in_family(number, self.call(name))

    def call(self, name):
        """A call, without the word of its family."""
        if name == "start":
            return name
        if name in ("read_command", "command_text"):
            data, _, _ = self.any_input(lambda: (self.command(), None, None))
            return f"{name} {shown(data)}"
        if name == "read_login":
            data, _, _ = self.any_input(lambda: (self.login(), None, None))
            return f"{name} {shown(data)}"
        if name == "answer_login":
            data, _, _ = self.any_input(lambda: (self.login(), None, None))
            return f"{name} {shown(data)} {self.upto(2)} {shown(self.buffer(1))}"
        if name == "write_command":
            return f"{name} {self.command_words()}"
        if name == "packet_of_form":
            form, size = self.form()
            return f"{name} {shown(form)} {shown(self.buffer(size))}"
        if name in ("last_known", "last_known_view"):
            return f"{name} {self.two_packets()}"
        if name == "stream":
            return f"{name} {self.stream()}"
        if name in ("feed", "wanted", "reset"):
            return f"{name} {self.connection_words(name)}"
        if name in ("read_line", "element_in_line", "element_at", "wrong_byte"):
            return f"{name} {self.line_words(name)}"
        data, codec, records = self.any_input(self.datagram if name.endswith("datagram") else self.packet)
        records = records or [self.record(codec)]
        start = f"{name} {shown(data)}"
        if name.startswith("read_"):
            return start
        if name.startswith("record_"):
            return f"{start} {self.record_word(records)}"
        if name.startswith(("value_", "view_")):
            return f"{start} {self.element_words(records)}"
        if name.startswith("id_"):
            return f"{start} {self.id_words(codec, records)}"
        if name.startswith("form_"):
            return f"{start} {shown(self.buffer(self.form_size(codec, records)))}"
        if name.startswith("line_"):
            place = self.record_word(records)
            record = records[place] if place < len(records) else records[-1]
            return f"{start} {place} {shown(self.buffer(len(record.line(codec))))}"
        if name.startswith("lines_"):
            return f"{start} {shown(self.buffer(sum(len(record.line(codec)) for record in records)))}"
        if name.startswith("contents_"):
            return f"{start} {shown(self.words(2 + sum(4 + record.elements() for record in records)))}"
        return f"{start} {shown(self.buffer(7 if name == 'acknowledge_datagram' else 4))}"


NAMES = (
    "read_packet", "read_datagram", "read_login", "read_command", "command_text",
    "record_in_packet", "record_in_datagram", "value_in_packet", "value_in_datagram",
    "id_in_packet", "id_in_datagram", "view_in_packet", "view_in_datagram",
    "id_view_in_packet", "id_view_in_datagram", "last_known", "last_known_view",
    "acknowledge_packet", "acknowledge_datagram", "answer_login", "write_command",
    "form_of_packet", "form_of_datagram", "packet_of_form", "contents_of_packet", "contents_of_datagram",
    "line_of_packet", "line_of_datagram", "lines_of_packet", "lines_of_datagram", "read_line", "element_in_line",
    "element_at", "wrong_byte", "feed", "feed", "feed", "stream", "wanted", "reset", "start")


def lines(count, seed):
    """Count call lines; the first ones do not depend on count."""
    maker = Maker(seed)
    for _ in range(count):
        yield maker.line()


def main():
    if len(sys.argv) != 3:
        print("usage: generate.py COUNT SEED", file=sys.stderr)
        return 2
    for line in lines(int(sys.argv[1]), int(sys.argv[2])):
        print(line)
    return 0


if __name__ == "__main__":
    sys.exit(main())
