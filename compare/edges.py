"""Calls at the edges of the rules: (name, call line, expected answer or None).

Damage is done before length and CRC are put on, so that every rule and every
field is reached. The expected answers follow from documents 01 and 02 and from the
way an input is built here; with None the two programs only have to agree.

A part is made for each family, by that family's limits, and its calls are written
without the word of their family; `in_each_family` puts it in.
"""

from examples import SAMPLE, both, fed
from generate import (AROUND, AROUND_TEXT, CODECS, COMMANDS, CONTENTS_LIMIT, KINDS, LEAST, NO_CODECS, TEXT_AT, TYPES,
                      UNKNOWN, WIDTHS, Maker, Record, little, number, shown)
from reference import CALLS, FAMILIES, STATE_ROOM, in_family, names_family

MAKER = Maker(1)
HEAD = bytes.fromhex("c0de5a69000f") + b"123456789012345"
LOGIN = HEAD[4:]
IMEI = b"123456789012345"
TIME = 0x64E83281                       # of the message in document 010
# What stands before a command's text.
BEFORE = {0x0C: b"", 0x0D: number(TIME, 4), 0x0E: bytes.fromhex("0" + IMEI.decode())}
LARGE = (255, 256, 65535, 65536, (1 << 32) - 1, 1 << 32, 1 << 63, (1 << 64) - 1)
ROOMY = "ee" * (STATE_ROOM + 20)        # a lent buffer with room for every packet


# ---------------------------------------------------------------- inputs

def tcp(field):
    return MAKER.frame(field, ())


def udp(field):
    return number(len(HEAD) + len(field), 2) + HEAD + field


SIDES = {"packet": tcp, "datagram": udp}        # how a data field becomes an input
FIELD_AT = {"packet": 8, "datagram": 23}        # where it starts in the input
RECORDS_AT = {"packet": 10, "datagram": 25}     # where its records do


def room_for_records(family, side):
    return getattr(family, side) - AROUND[side]


def longest_text(family, codec):
    return family.packet - AROUND_TEXT[codec]


def changed(data, place, value):
    return data[:place] + bytes([value]) + data[place + 1:]


def record(codec, tag=0):
    """A record with two elements in each group, all IDs its own."""
    groups = [[(20 * tag + 2 * place + item, bytes([16 * (place + 1) + item]) * size)
               for item in range(2)] for place, size in enumerate((1, 2, 4, 8, 3))]
    if codec != 0x8E:
        groups[4] = []
    return Record(number(1000 + tag, 8), 1, bytes(range(200, 215)), 7, 3, groups)


def of_elements(codec, *counts):
    """A record with so many elements in its groups, variable values empty."""
    groups = [[(item & 255, bytes(size)) for item in range(many)]
              for size, many in zip((1, 2, 4, 8, 0), counts + (0,) * (5 - len(counts)))]
    return Record(bytes(8), 0, bytes(15), 0, 0, groups)


def filling(codec, size):
    """Records of so many bytes together, none of them over 255."""
    many = -(-size // 255)
    return [MAKER.record(codec, size // many + (place < size % many)) for place in range(many)]


def ones_filling(family, room):
    """Records of codec 08, the fewest that fill the room, by how many values of one byte each has."""
    least = LEAST[0x08]
    counts = []
    while room >= least:
        counts.append(min(255, (min(room, family.record or room) - least) // 2))
        room -= least + 2 * counts[-1]
    return counts


def with_ids(*groups):
    """A record with elements of these IDs in its groups, variable values of three bytes."""
    groups = [[(ident, bytes([ident & 255]) * size) for ident in group] for size, group in zip((1, 2, 4, 8, 3), groups)]
    return Record(bytes(8), 0, bytes(15), 0, 0, groups + [[]] * (5 - len(groups)))


def many_elements(codec):
    """A record with as many elements as a count of one byte holds, or more where a count has two; all IDs its own."""
    ones = [(item, bytes([item ^ 0x55])) for item in range(200)]
    others = [(200 + item, bytes([item]) * 2) for item in range(55)]
    empty = [(400 + item, b"") for item in range(20)]
    groups = [ones, [], [], [], others + empty] if codec == 0x8E else [ones, others, [], [], []]
    return Record(bytes(8), 0, bytes(15), 0, 0, groups)


def data_field(codec, records, first=None, second=None):
    first = len(records) if first is None else first
    second = first if second is None else second
    body = b"".join(each.encode(codec) for each in records)
    return bytes([codec, first]) + body + bytes([second])


def pair(codec):
    return [record(codec, 0), record(codec, 1)]


def command_field(codec, kind=5, text=b"getio", size=None, before=None):
    body = (BEFORE[codec] if before is None else before) + text
    return bytes([codec, 1, kind]) + number(len(body) if size is None else size, 4) + body + b"\x01"


def command_accepted(codec, kind, text, time=TIME):
    """The answer to a command, if what is before its text is right."""
    time, imei = time if codec == 0x0D else 0, int(IMEI) if codec == 0x0E else 0
    return f"accepted {codec} {kind} {time} {imei} {TEXT_AT[codec]} {len(text)}"


def writing(codec, kind, text, time=TIME):
    """The call that writes a command, without its buffer. Each codec is given the time."""
    return f"write_command {codec} {kind} {shown(IMEI) if codec == 0x0E else '-'} {time} {shown(text)}"


def each_side(family):
    """Each codec over TCP and UDP, with the bytes that records have room for."""
    for codec in CODECS:
        for side, wrap in SIDES.items():
            yield codec, side, wrap, room_for_records(family, side)


def reading(name, side, data, expected=None):
    return name, f"read_{side} {shown(data)}", expected


def refused(number, index=0, offset=0):
    return f"refused {number} {index} {offset}"


def counted(answer, passed):
    """The answer of a look-up that has passed so many elements."""
    return f"{answer} passed {passed}"


def absent(passed):
    """That of one for a record or an ID that is not there."""
    return counted(refused(16), passed)


# The answer to an input that is too long.
TOO_LONG = {"packet": refused(3, offset=4), "datagram": refused(3)}


def rows(codec, each):
    """The widths of a record's fields, as the layout has them: of an element its ID, its length if it is written, and
    its value."""
    event, generation, count, ident = WIDTHS[codec]
    widths = [8, 1, 4, 4, 2, 2, 1, 2, event, *([generation] if generation else []), count]
    for kind, group in zip(KINDS if codec == 0x8E else KINDS[:4], each.groups):
        widths.append(count)
        for _, value in group:
            widths += [ident, *([2] if kind == 9 else []), len(value)]
    return widths


def missing_at(codec, records, kept):
    """Where the first field starts that is not whole in so many bytes of records, fewer than there are."""
    at = 0
    for width in (width for each in records for width in rows(codec, each)):
        if at + width > kept:
            break
        at += width
    return at


def laid_out(side, codec, records):
    """The elements of each record of an input, each as an answer has it: ID, kind, offset and size."""
    event, generation, count, ident = WIDTHS[codec]
    at = RECORDS_AT[side]
    for each in records:
        elements = []
        at += 24 + event + generation + count
        for kind, group in zip(KINDS if codec == 0x8E else KINDS[:4], each.groups):
            at += count
            for name, value in group:
                at += ident + (2 if kind == 9 else 0)
                elements.append((name, kind, at, len(value)))
                at += len(value)
        yield elements


def found(element):
    """The answer to a look-up of an element of laid_out; of a last-known one, with the packet's number before it."""
    return "accepted " + " ".join(map(str, element))


def known(which, codec, records, item, passed):
    """The answer to a last-known look-up that finds an element, by its number, in the last of these records."""
    *_, elements = laid_out("packet", codec, records)
    return counted(found((which, *elements[item])), passed)


def second_count(side, data):
    """Where the second count or quantity of an input is."""
    return len(data) - (1 if side == "datagram" else 5)


def accepted(side, codec, count):
    """The answer to an input with HEAD, if it is a datagram."""
    head = f" {int(IMEI)} {0xC0DE} {0x5A} {0x69}" if side == "datagram" else ""
    return f"accepted {codec} {count}{head}"


def over_255(family, index, start, otherwise):
    """The answer where a record has more than 255 bytes; start is where it does."""
    return refused(12, index, start) if family.record else otherwise


# ---------------------------------------------------------------- heads

def beginnings(_):
    """Every beginning of an input, none of it too, and a byte too many."""
    for side, data, least, call in (
            ("packet", tcp(data_field(0x8E, pair(0x8E))), 8, "read_packet"),
            ("datagram", udp(data_field(0x8E, pair(0x8E))), 26, "read_datagram"),
            *(("command", tcp(command_field(codec)), 8, "read_command") for codec in COMMANDS),
            ("login", LOGIN, 17, "read_login")):
        for size in range(len(data)):
            yield f"beginning of a {side}", f"{call} {shown(data[:size])}", refused(1 if size < least else 4)
        yield f"more than a {side}", f"{call} {shown(data + bytes(1))}", refused(4)


def frames(family):
    """First four bytes, data length and CRC, bit by bit; of commands with an unknown codec, too."""
    most = family.packet - 12
    commands = [command_field(codec, text=text) for codec in COMMANDS for text in (b"", b"getio")]
    commands += [b"\x0f" + field[1:] for field in commands[:2]]
    for side, field in (("packet", data_field(0x08, pair(0x08))), *(("command", field) for field in commands)):
        data = tcp(field)
        wrong_crc = refused(5, offset=8 + len(field))
        for bit in range(32):
            flipped = 1 << bit
            yield reading("first bytes", side, number(flipped, 4) + data[4:], refused(2))
            length = len(field) ^ flipped
            yield reading("data length", side, data[:4] + number(length, 4) + data[8:],
                          refused(4) if 3 <= length <= most else refused(3, offset=4))
            crc = int.from_bytes(data[-4:], "big") ^ flipped
            yield reading("CRC field", side, data[:-4] + number(crc, 4), wrong_crc)
        for length in (0, 1, 2, most + 1, family.packet):
            yield reading("data length", side, data[:4] + number(length, 4) + data[8:], refused(3, offset=4))
        for place in range(8, len(data) - 4):
            yield reading("data byte", side, changed(data, place, data[place] ^ 1), wrong_crc)
        whole = tcp(data[4:8] + field)
        yield reading("CRC over the length too", side, data[:-4] + whole[-4:], wrong_crc)
        yield reading("CRC bytes the other way", side, data[:-2] + data[:-3:-1], wrong_crc)
    for size in range(3):
        yield reading("short data field", "packet", tcp(bytes([8, 0])[:size]), refused(3, offset=4))
    data = udp(data_field(0x08, pair(0x08)))
    for bit in range(16):
        length = int.from_bytes(data[:2], "big") ^ 1 << bit
        yield reading("datagram length", "datagram", number(length, 2) + data[2:], refused(4))


def checksums(family):
    """A data field of every length with its CRC, and with its last bit changed."""
    for size in range(3, family.packet - 11):
        text = bytes((37 * place + size) & 255 for place in range(size - 8))
        data = tcp(command_field(0x0C, text=text)[:size])
        yield reading("CRC of each length", "command", data)
        yield reading("CRC of each length", "command", changed(data, size + 7, data[size + 7] ^ 0x80),
                      refused(5, offset=8 + size))


def codecs_and_counts(family):
    for codec in range(256):
        for side, wrap in SIDES.items():
            field = bytes([codec]) + data_field(0x08, pair(0x08))[1:]
            yield reading("codec", side, wrap(field), None if codec in CODECS else refused(6, offset=FIELD_AT[side]))
        known = codec in COMMANDS
        field = bytes([codec]) + command_field(0x0C)[1:]
        yield reading("codec", "command", tcp(field), None if known else refused(6, offset=8))
        yield ("codec", f"write_command {codec} 5 - {TIME} - {'ee' * 20}",
               None if known else refused(6) + " " + "ee" * 20)
    for codec, side, wrap, _ in each_side(family):
        for counts in ((0, 0), (0, 2), (2, 0), (1, 2), (2, 1), (3, 2), (255, 2), (2, 255), (130, 2)):
            data = wrap(data_field(codec, pair(codec), *counts))
            wrong = second_count(side, data) if counts[0] else FIELD_AT[side] + 1
            yield reading("counts", side, data, refused(7, offset=wrong))
        yield reading("no records", side, wrap(data_field(codec, [])), refused(7, offset=FIELD_AT[side] + 1))


# ---------------------------------------------------------------- the walk

def cuts(family):
    """The records end within or before each field; bytes are left over."""
    for codec, side, wrap, _ in each_side(family):
        field, start = data_field(codec, pair(codec)), RECORDS_AT[side]
        first = record(codec).size(codec)
        for size in range(len(field) - 3):
            expected = refused(8, int(size >= first), start + missing_at(codec, pair(codec), size))
            yield reading("cut", side, wrap(field[:2 + size] + field[-1:]), expected)
        behind = refused(8, 2, start + 2 * first)
        for more in (1, 2, LEAST[codec], 255):
            yield reading("left over", side, wrap(field[:-1] + bytes(more) + field[-1:]), behind)
        one = changed(changed(field, 1, 1), len(field) - 1, 1)
        yield reading("a record too many", side, wrap(one), refused(8, 1, start + first))
        for count in (3, 42, 43, 255):
            yield reading("missing records", side, wrap(data_field(codec, pair(codec), count)), behind)


def fields(family):
    """Priority, generation type and total, in the first and in the second record."""
    for codec, side, wrap, _ in each_side(family):
        for place in range(2):
            def attempt(name, expected, **values):
                records = pair(codec)
                vars(records[place]).update(values)
                return reading(name, side, wrap(data_field(codec, records)), expected)

            accepted = f"accepted {codec} 2" if side == "packet" else None
            start = RECORDS_AT[side] + place * record(codec).size(codec)
            for priority in (0, 1, 2, 3, 4, 128, 255):
                yield attempt("priority", accepted if priority < 3 else refused(10, place, start + 8),
                              priority=priority)
            for generation in (0, 7, 8, 9, 128, 255):
                wrong = codec == 0x10 and generation > 7
                yield attempt("generation", refused(11, place, start + 26) if wrong else accepted,
                              generation=generation)
            # the right one of 8E is 10: 8 leaves out the variable values, 12 has them twice, 266 is 10 in one byte
            for total in (0, 8, 9, 11, 12, 255, 266, 65535) if codec == 0x8E else (0, 7, 9, 10, 255):
                yield attempt("total", refused(9, place, start), total=total)


def later_records(family):
    """Each refusal of a record, and bytes left over, behind records of other sizes."""
    for codec, side, wrap, _ in each_side(family):
        def several():
            return [of_elements(codec, *counts) for counts in ((3,), (), (1, 2, 0, 1), (0, 1))]

        start, field = RECORDS_AT[side], data_field(codec, several())
        for place, each in enumerate(several()):
            def attempt(expected, **values):
                records = several()
                vars(records[place]).update(values)
                return reading("later record", side, wrap(data_field(codec, records)), expected)

            yield attempt(refused(9, place, start), total=99)
            yield attempt(refused(10, place, start + 8), priority=3)
            if codec == 0x10:
                yield attempt(refused(11, place, start + 26), generation=8)
            if family.record:
                yield attempt(refused(12, place, start), groups=MAKER.record(codec, 256).groups)
            for kept in range(each.size(codec)):
                cut = field[:start - FIELD_AT[side] + kept] + field[-1:]
                yield reading("later record cut", side, wrap(cut),
                              refused(8, place, start + missing_at(codec, [each], kept)))
            start += each.size(codec)
            if place < 3:
                yield reading("records left over", side, wrap(data_field(codec, several(), place + 1)),
                              refused(8, place + 1, start))


def counts_and_lengths(family):
    """Group counts and variable lengths that say something else than is there."""
    for codec, side, wrap, _ in each_side(family):
        for place in range(2):
            for group in range(5 if codec == 0x8E else 4):
                for count in (0, 1, 3, 127, 128, 255) + ((256, 258, 65535) if codec == 0x8E else ()):
                    for total in (None, record(codec).elements() - 2 + count):
                        records = pair(codec)
                        records[place].counts[group] = count
                        records[place].total = total
                        yield reading("group count", side, wrap(data_field(codec, records)))
            if codec == 0x8E:
                for item in range(2):
                    for length in (0, 1, 2, 4, 5, 7, 11, 120, 125, 255, 256, 259, 32768, 65535):
                        records = pair(codec)
                        records[place].lengths[item] = length
                        yield reading("variable length", side, wrap(data_field(codec, records)))


def past_the_record(_):
    """A variable length that takes in just the second count, the CRC, or the packet's end."""
    for side, wrap in SIDES.items():
        for more in (1, 2, 4, 5, 6):
            records = pair(0x8E)
            records[1].lengths[1] = 3 + more
            value = RECORDS_AT[side] + 2 * records[1].size(0x8E) - 3
            yield reading("past the records", side, wrap(data_field(0x8E, records)), refused(8, 1, value))


def sizes(family):
    """Records of 255 and 256 bytes, inputs of the most bytes and of one more, the most records."""
    for codec, side, wrap, room in each_side(family):
        def attempt(name, records, expected=None):
            right = accepted(side, codec, len(records))
            return reading(name, side, wrap(data_field(codec, records)), expected or right)

        start = RECORDS_AT[side]
        full, over, least = (MAKER.record(codec, size) for size in (255, 256, LEAST[codec]))
        yield attempt("255 bytes", [full, least])
        yield attempt("256 bytes", [over, least], over_255(family, 0, start, None))
        yield attempt("256 bytes", [least, over], over_255(family, 1, start + LEAST[codec], None))
        over.total = over.elements() + 1
        yield attempt("256 bytes and a wrong total", [least, over], refused(9, 1, start + LEAST[codec]))
        yield attempt("the most bytes", filling(codec, room))
        yield attempt("a byte more", filling(codec, room + 1), TOO_LONG[side])
        yield attempt("the most bytes in one record", [MAKER.record(codec, room)], over_255(family, 0, start, None))
        yield attempt("a byte more in one record", [MAKER.record(codec, room + 1)], TOO_LONG[side])
        most = room // LEAST[codec]
        yield attempt("most records", [least] * most)
        yield attempt("a record more", [least] * (most + 1), TOO_LONG[side])
        yield reading("255 records", side, wrap(data_field(codec, [least] * most, 255)),
                      refused(8, most, start + most * LEAST[codec]))


def wraps(family):
    """Group counts that make 256 together, 0 in one byte, which no total of one byte can be; and 255, which one can."""
    for codec, side, wrap, room in each_side(family):
        least = MAKER.record(codec, LEAST[codec])
        for counts in ((128, 128), (255, 1), (1, 255), (129, 127), (64, 64, 64, 64), (256,), (257,),
                       (255, 0, 0, 0, 1), (0, 0, 0, 0, 256), (255,), (128, 127)):
            each = of_elements(codec, *counts)
            if codec != 0x8E and (max(counts) > 255 or counts[4:]):
                continue
            for before in ([], [least]):
                if sum(one.size(codec) for one in before + [each]) > room:
                    continue
                start = RECORDS_AT[side] + len(before) * LEAST[codec]
                for total in (0, 1, 255, 256):
                    each.total = total
                    right = total == sum(counts) < 256 ** WIDTHS[codec][2]
                    taken = over_255(family, len(before), start, accepted(side, codec, len(before) + 1))
                    yield reading("256 elements", side, wrap(data_field(codec, before + [each])),
                                  taken if right else refused(9, len(before), start))


def limits():
    """What each family takes at most and what is a byte too long, in the numbers of the papers and in calls that have
    their family's word; and a record of 256 bytes, in the same packet for both."""
    for codec, side, wrap, _ in each_side(FAMILIES[1]):
        data = shown(wrap(data_field(codec, [MAKER.record(codec, size) for size in (LEAST[codec], 256)])))
        yield "256 bytes", f"read_{side} 1 {data}", refused(12, 1, RECORDS_AT[side] + LEAST[codec])
        yield "256 bytes", f"read_{side} 2 {data}", accepted(side, codec, 2)
    for family, most in ((1, 512), (2, 1280)):
        for codec in CODECS:
            yield from data_limits(family, most, codec)
        for codec in COMMANDS:
            yield from command_limits(family, most, codec)


def limit_fed(family, most, packet):
    """A packet of the most bytes, or of more, fed with just the room for one of the most."""
    told = fed("fed 0 0 0", most, f"2 0 {most} {shown(packet)}", 1)
    if len(packet) > most:
        told = fed(TOO_LONG["packet"], 8, NONE, 2)
    return "limit", in_family(family, feeding(1, b"", packet, most)), both(FAMILIES[family], told)


def data_limits(family, most, codec):
    for more in (0, 1):
        records = filling(codec, most + more - 15)
        packet = tcp(data_field(codec, records))
        yield "limit", f"read_packet {family} {shown(packet)}", \
            TOO_LONG["packet"] if more else accepted("packet", codec, len(records))
        name, line, expected = rebuilt("limit", codec, records, not more)
        yield name, in_family(family, line), expected
        yield limit_fed(family, most, packet)
        records = filling(codec, most + more - 26)
        yield "limit", f"read_datagram {family} {shown(udp(data_field(codec, records)))}", \
            TOO_LONG["datagram"] if more else accepted("datagram", codec, len(records))


def command_limits(family, most, codec):
    for more in (0, 1):
        text = b"a" * (most + more - AROUND_TEXT[codec])
        data = tcp(command_field(codec, 5, text))
        yield "limit", f"read_command {family} {shown(data)}", \
            TOO_LONG["packet"] if more else command_accepted(codec, 5, text)
        yield "limit", in_family(family, f"{writing(codec, 5, text)} {ROOMY}"), \
            f"{refused(14)} {ROOMY}" if more else f"written {most} {shown(data)}{ROOMY[2 * most:]}"
        yield limit_fed(family, most, data)


def tags(_):
    """Records of 8E with variable values alone, empty ones and an ID twice among them: total, values, form both ways."""
    for side, wrap in SIDES.items():
        for values in ((b"",), (b"Ona",), (b"Ona", b"Jonas"), (b"", b"Ona", b"")):
            each = of_elements(0x8E)
            each.groups[4] = [(403, value) for value in values]
            records = [of_elements(0x8E), each]
            field, form = data_field(0x8E, records), whole_form(0x8E, records)
            yield from lending("tags", f"form_of_{side} {shown(wrap(field))}", form)
            yield from lending("tags", f"packet_of_form {shown(form)}", tcp(field))
            for place, value in enumerate(values):
                yield "tag", f"view_in_{side} {shown(wrap(field))} 1 {place}", f"bytes {shown(value)}"
            for total in (0, 2 * len(values), 256 + len(values)):
                each.total = total
                yield reading("total of tags", side, wrap(data_field(0x8E, records)),
                              refused(9, 1, RECORDS_AT[side] + LEAST[0x8E]))


# ---------------------------------------------------------------- commands and IMEIs

def command_rules(family):
    for codec in COMMANDS:
        for kind in range(256):
            allowed = kind in TYPES[codec]
            yield reading("type", "command", tcp(command_field(codec, kind, b"")),
                          command_accepted(codec, kind, b"") if allowed else refused(13, offset=10))
            if not allowed:
                yield reading("type", "command", tcp(command_field(codec, kind)), refused(13, offset=10))
                lent = "ee" * 28
                yield "type", f"{writing(codec, kind, b'')} {lent}", f"{refused(13)} {lent}"
        size = len(command_field(codec)) - 8
        for wrong in (0, size - 1, size + 1, size - 4, size + 4, size - 8, size + 8, size + 256, size + 65536, 1 << 31,
                      (1 << 32) - 1):
            data = tcp(command_field(codec, size=wrong & 0xFFFFFFFF))
            yield reading("text size", "command", data, refused(14, offset=11))
        for quantities in ((0, 1), (1, 0), (2, 2), (255, 1), (1, 255), (2, 1), (1, 2), (0, 0)):
            field = command_field(codec)
            data = tcp(changed(changed(field, 1, quantities[0]), len(field) - 1, quantities[1]))
            wrong = second_count("command", data) if quantities[0] == 1 else 9
            yield reading("quantities", "command", data, refused(7, offset=wrong))
        field = command_field(codec)
        for kept in range(2, len(field) - 1):
            yield reading("cut", "command", tcp(field[:kept] + b"\x01"),
                          refused(8 if kept < 7 else 14, offset=10 if kept < 3 else 11))
        text = bytes(longest_text(family, codec))
        yield reading("longest text", "command", tcp(command_field(codec, 6, text)), command_accepted(codec, 6, text))
        yield reading("too long a text", "command", tcp(command_field(codec, 6, text + b"\0")), TOO_LONG["packet"])
        if BEFORE[codec]:
            yield reading("size of the text alone", "command", tcp(command_field(codec, 6, text, len(text))),
                          refused(14, offset=11))
        for size in range(len(BEFORE[codec])):
            for kind in TYPES[codec]:
                yield reading("size under its least", "command",
                              tcp(command_field(codec, kind, b"", before=b"\xff" * size)), refused(14, offset=11))
    for text in (b"\0", b"nACK", bytes(longest_text(family, 0x0E))):
        yield reading("text with type 11", "command", tcp(command_field(0x0E, 0x11, text)), refused(14, offset=23))


def few_bytes(_):
    """Messages of 0D with up to 7 bytes behind the size, which says as many or others: from 4 on the time is whole."""
    for there in range(8):
        body = bytes(range(1, there + 1))
        time, text = body[:4], body[4:]
        for said in range(9):
            right = said == there >= 4
            data = tcp(command_field(0x0D, 6, text, said, time))
            yield reading("few bytes", "command", data,
                          command_accepted(0x0D, 6, text, 0x01020304) if right else refused(14, offset=11))
            yield "few bytes", f"command_text {shown(data)}", f"bytes {shown(text)}" if right else "bytes -"


def times(family):
    """Messages that differ in the time alone: each bit of it, none and all. What is written with it in 0C and 0E does
    not differ."""
    for time in (0, (1 << 32) - 1, 0x01020304, *(1 << bit for bit in range(32))):
        for codec in COMMANDS:
            for kind, text in ((5, b""), (6, b"getio")):
                before = number(time, 4) if codec == 0x0D else None
                data = tcp(command_field(codec, kind, text, before=before))
                yield reading("time", "command", data, command_accepted(codec, kind, text, time))
                yield ("time", f"{writing(codec, kind, text, time)} {ROOMY}",
                       f"written {len(data)} {shown(data)}{ROOMY[2 * len(data):]}")
    for time in (0, (1 << 32) - 1):
        text = b"a" * longest_text(family, 0x0D)
        data = tcp(command_field(0x0D, 6, text, before=number(time, 4)))
        yield reading("time", "command", data, command_accepted(0x0D, 6, text, time))
        yield from lending("time", writing(0x0D, 6, text, time), data)


def commands_as_data(_):
    """Good commands where data packets and datagrams are read: their codec is none of these, and they get the receipt
    of a refused packet."""
    for codec in COMMANDS:
        for side, wrap in SIDES.items():
            data, answer = wrap(command_field(codec)), refused(6, offset=FIELD_AT[side])
            yield reading("command as data", side, data, answer)
            yield "command as data", f"form_of_{side} {shown(data)} {'ee' * 99}", f"{answer} {'ee' * 99}"
            yield ("command as data", f"acknowledge_{side} {shown(data)} {'ee' * 9}",
                   f"written 4 {'00' * 4 + 'ee' * 5}" if side == "packet" else f"{answer} {'ee' * 9}")


def wrong_imei(name, length, digits, wrong):
    """A wrong IMEI, with the byte, from its length on, at which it is: in a login and in a datagram; and its digits
    where they are given to write."""
    yield name, f"read_login {shown(length + digits)}", refused(15, offset=wrong)
    data = udp(data_field(0x08, [record(0x08)]))
    yield reading(name, "datagram", data[:6] + length + digits + data[23:], refused(15, offset=6 + wrong))
    if not digits.isdigit():
        yield name, f"write_command 14 5 {shown(digits)} {TIME} - -", refused(15) + " -"


def imeis(_):
    for place in range(15):
        for wrong in (0x00, 0x2F, 0x3A, 0xFF):
            yield from wrong_imei("digit", LOGIN[:2], changed(IMEI, place, wrong), 2 + place)
        for behind in range(place + 1, 15):
            yield from wrong_imei("two digits", LOGIN[:2], changed(changed(IMEI, behind, 0x2F), place, 0x3A), 2 + place)
        yield from wrong_imei("length and digit", number(14, 2), changed(IMEI, place, 0x41), 0)
    for length in (0, 1, 14, 16, 0x0F00, 0x010F, 0x800F, 0xFFFF):
        for digits in (IMEI, b"\xff" * 15):
            yield from wrong_imei("IMEI length", number(length, 2), digits, 0)
    right = "0352093081452251"

    def packed(expected, *wrong):
        digits = list(right)
        for place, digit in wrong:
            digits[place] = f"{digit:x}"
        data = tcp(command_field(0x0E, before=bytes.fromhex("".join(digits))))
        return reading("packed digit", "command", data, expected)

    for place in range(16):
        expected = refused(15, offset=15 + place // 2)
        for digit in range(1, 16):
            yield packed(expected if digit > 9 or place == 0 else None, (place, digit))
        for behind in range(place + 1, 16):
            yield packed(expected, (place, 10), (behind, 15))
            if place == 0:
                yield packed(expected, (0, 1), (behind, 10))
    for codec in COMMANDS:
        for given in (b"1", IMEI[1:], IMEI + b"0", b"0" + IMEI, b"" if codec == 0x0E else IMEI):
            yield ("IMEI to write", f"write_command {codec} 5 {shown(given)} {TIME} - {'ee' * 40}",
                   f"{refused(15)} {'ee' * 40}")


# ---------------------------------------------------------------- looking up

def lookups(family):
    """Every element by its number and by its ID; what is not there; the other record's IDs."""
    for codec, side, wrap, _ in each_side(family):
        records, total = pair(codec), 10 if codec == 0x8E else 8
        data = shown(wrap(data_field(codec, records)))
        for place, (each, laid) in enumerate(zip(records, laid_out(side, codec, records))):
            elements = [item for group in each.groups for item in group]
            for item, (ident, value) in enumerate(elements):
                told = found(laid[item])
                for view, other, words, right, wrong in (("view", "value", item, told, refused(16)),
                                                         ("id_view", "id", ident, counted(told, item + 1), absent(0))):
                    yield "element", f"{view}_in_{side} {data} {place} {words}", f"bytes {shown(value)}"
                    yield "element", f"{other}_in_{side} {data} {place} {words}", right
                    yield "no such record", f"{other}_in_{side} {data} 2 {words}", wrong
                words = f"{data} {1 - place} {ident}"
                yield "the other record's ID", f"id_in_{side} {words}", absent(total)
                yield "the other record's ID", f"id_view_in_{side} {words}", "bytes -"
            yield "record", f"record_in_{side} {data} {place}", None
            for beyond in (len(elements), len(elements) + 1) + LARGE:
                yield "no such element", f"value_in_{side} {data} {place} {beyond}", refused(16)
                yield "no such element", f"view_in_{side} {data} {place} {beyond}", "bytes -"
        for beyond in (2, 3) + LARGE:
            yield "no such record", f"record_in_{side} {data} {beyond}", refused(16)
            yield "no such record", f"view_in_{side} {data} {beyond} 0", "bytes -"
            yield "no such record", f"id_in_{side} {data} {beyond} 0", absent(0)
            yield "no such record", f"id_view_in_{side} {data} {beyond} 0", "bytes -"


def long_records(family):
    """Values by number and by ID in a record of many elements, where there is no limit; its form both ways."""
    if family.record:
        return
    for codec, side, wrap, _ in each_side(family):
        each = many_elements(codec)
        records = [record(codec), each]
        data = wrap(data_field(codec, records))
        _, laid = laid_out(side, codec, records)
        elements = [item for group in each.groups for item in group]
        last = 274 if codec == 0x8E else 254
        for item in (0, 199, 200, 253, 254, *((255, 256, 273, 274) if codec == 0x8E else ())):
            ident, value = elements[item]
            yield "long record", f"view_in_{side} {shown(data)} 1 {item}", f"bytes {shown(value)}"
            yield "long record", f"id_view_in_{side} {shown(data)} 1 {ident}", f"bytes {shown(value)}"
            yield "long record", f"value_in_{side} {shown(data)} 1 {item}", found(laid[item])
            yield "long record", f"id_in_{side} {shown(data)} 1 {ident}", counted(found(laid[item]), item + 1)
        for beyond in (last + 1, last + 257):
            yield "long record", f"value_in_{side} {shown(data)} 1 {beyond}", refused(16)
        for ident in (300, 399, 420, 65535):
            yield "long record", f"id_in_{side} {shown(data)} 1 {ident}", absent(last + 1)
        yield "long record", f"record_in_{side} {shown(data)} 1", f"accepted {'0 ' * 10}{len(elements)}"
        form = whole_form(codec, records)
        yield from lending("long record", f"form_of_{side} {shown(data)}", form)
        yield from lending("long record", f"packet_of_form {shown(form)}", tcp(data_field(codec, records)))
        yield from listing("long record", side, data, table(side, codec, records))


def twice(family):
    """An ID twice: the first in byte order counts, an empty value too."""
    for codec, side, wrap, _ in each_side(family):
        each = record(codec)
        each.groups[0] = [(109, b"\x01"), (105, b"\x02"), (105, b"\x03")]
        each.groups[3] = [(109, bytes(8)), (106, bytes(range(8)))]
        if codec == 0x8E:
            each.groups[4] = [(106, b"no"), (104, b""), (104, b"no")]
        data, total = shown(wrap(data_field(codec, [each]))), 12 if codec == 0x8E else 9
        [laid] = laid_out(side, codec, [each])
        for ident, value, place in ((109, b"\x01", 1), (105, b"\x02", 2), (106, bytes(range(8)), 9), (104, b"", 11)):
            yield "twice", f"id_view_in_{side} {data} 0 {ident}", f"bytes {shown(value)}"
            yield ("twice", f"id_in_{side} {data} 0 {ident}",
                   counted(found(laid[place - 1]), place) if place <= total else absent(total))
        for ident in (256 + 105, 32768 + 105, 65535):
            yield "wide ID", f"id_in_{side} {data} 0 {ident}", absent(total)


def last_known(_):
    """In the newer's last record, else in the older's; the older judged only when needed."""
    for codec in CODECS:
        newer = tcp(data_field(codec, pair(codec)))
        older = tcp(data_field(0x8E, [record(0x8E, 3), record(0x8E, 2), record(0x8E, 1)]))
        only = [record(0x08, 2)]
        last = tcp(data_field(0x08, only))
        # elements of the newer's last record; the older's has 10, the only one of the last packet 8
        total = 10 if codec == 0x8E else 8
        there = known(0, codec, pair(codec), 0, 1)
        for second, ident, view, expected in (
                (older, 20, "10", there), (older, 0, "-", absent(total + 10)), (older, 60, "-", absent(total + 10)),
                (older, 40, "-", absent(total + 10)), (last, 40, "10", known(1, 0x08, only, 0, total + 1)),
                (last, 41, "11", known(1, 0x08, only, 1, total + 2)), (last, 0, "-", absent(total + 8)),
                (last, 47, "41" * 8, known(1, 0x08, only, 7, total + 8)), (b"", 20, "10", there),
                (newer, 20, "10", there), (newer, 0, "-", absent(total + total))):
            words = f"{shown(newer)} {shown(second)} {ident}"
            yield "last known", f"last_known_view {words}", f"bytes {view}"
            yield "last known", f"last_known {words}", expected
        # one refused for its second record's priority, one for its CRC: the newer counts before the older
        records = pair(codec)
        records[1].priority = 3
        first, second = tcp(data_field(codec, records)), changed(last, len(last) - 1, last[-1] ^ 1)
        priority, crc = refused(10, 1, 10 + record(codec).size(codec) + 8), refused(5, offset=len(last) - 4)
        for packets, expected, passed in (
                ((first, second), priority, 0), ((first, older), priority, 0), ((newer, first), priority, total),
                ((second, first), crc, 0), ((second, older), crc, 0), ((newer, second), crc, total)):
            yield "last known", f"last_known {' '.join(map(shown, packets))} 500", counted(expected, passed)


# ---------------------------------------------------------------- how many elements are passed

def places(family):
    """The place of each element, the first and the last of each group among them: the IDs go from 101 on in byte order,
    so that 100 less is the place. In the records around they go the other way, from 112 on."""
    for codec, side, wrap, _ in each_side(family):
        def attempt(total, *groups):
            records = [with_ids(range(112, 100, -1)), with_ids(*groups), with_ids(range(112, 100, -1))]
            data, laid = shown(wrap(data_field(codec, records))), list(laid_out(side, codec, records))
            for ident in range(101, 113):
                yield ("place", f"id_in_{side} {data} 1 {ident}",
                       counted(found(laid[1][ident - 101]), ident - 100) if ident <= 100 + total else absent(total))
                for around in (0, 2):
                    yield ("place", f"id_in_{side} {data} {around} {ident}",
                           counted(found(laid[around][112 - ident]), 113 - ident))
            for ident in (0, 100, 113, 256 + 101, 65535):
                for place, many in enumerate((12, total, 12, 0)):
                    yield "no such ID", f"id_in_{side} {data} {place} {ident}", absent(many)

        fixed, variable = ((101, 102, 103), (104,), (105, 106), (107, 108, 109, 110)), (111, 112)
        yield from attempt(12, *fixed, variable) if codec == 0x8E else attempt(10, *fixed)
        for group in range(5 if codec == 0x8E else 4):
            yield from attempt(3, *[()] * group, (101, 102, 103))


# IDs by group, 7 more than once in one group, in two or in all: the place of the first 7, and the number of elements.
DOUBLES = (
    (((7, 7),), 1, 2), (((1, 7, 2, 7),), 2, 4), (((), (1, 7, 7)), 2, 3), (((), (), (), (1, 2, 7, 7)), 3, 4),
    (((7, 1), (7,)), 1, 3), (((1, 2, 7, 7), (7,)), 3, 5), (((1,), (2, 3, 7), (), (7, 4)), 4, 6),
    (((), (), (1, 7), (7, 7)), 2, 4), (((7,), (7,), (7,), (7,)), 1, 4), (((7,), (), (), (), (7,)), 1, 2),
    (((1,), (), (), (2, 7), (7, 7)), 3, 5), (((1,), (2,), (3,), (4,), (5, 7, 7)), 6, 7),
)


def doubles(family):
    for codec, side, wrap, _ in each_side(family):
        for groups, place, total in DOUBLES:
            if codec != 0x8E and groups[4:]:
                continue
            records = [with_ids((7, 7, 7)), with_ids(*groups)]
            data, [_, laid] = shown(wrap(data_field(codec, records))), laid_out(side, codec, records)
            yield "double", f"id_in_{side} {data} 1 7", counted(found(laid[place - 1]), place)
            yield "double", f"id_in_{side} {data} 1 8", absent(total)


# The most elements of a record in a packet and in a datagram, worked out by hand.
MOST_ELEMENTS = {(1, 0x08): (112, 112), (1, 0x8E): (72, 72), (1, 0x10): (74, 74),
                 (2, 0x08): (255, 255), (2, 0x8E): (409, 405), (2, 0x10): (255, 255)}


def totals(family):
    """IDs that are not in their record, so that as many elements are passed as it has; and a record of the most
    elements, whose IDs are their numbers."""
    for codec, side, wrap, _ in each_side(family):
        some, one, none = with_ids((1, 2), (3,), (), (4, 5, 6)), with_ids((7,)), with_ids()
        data = shown(wrap(data_field(codec, [some, none, one, some, none])))
        for place, total in enumerate((6, 0, 1, 6, 0, 0)):
            for ident in (0, 10, 200, 255, 256 + 7, 65535):
                yield "no such ID", f"id_in_{side} {data} {place} {ident}", absent(total)
        for ident in (0, 1, 255, 65535):
            yield "no elements", f"id_in_{side} {shown(wrap(data_field(codec, [none])))} 0 {ident}", absent(0)
        most = MOST_ELEMENTS[family.number, codec][side == "datagram"]
        records = [with_ids(range(most))]
        data, [laid] = shown(wrap(data_field(codec, records))), laid_out(side, codec, records)
        for item in (0, 1, *(many for many in (127, 128, 254, 255, 256, 257) if many < most), most - 1):
            yield "most elements", f"id_in_{side} {data} 0 {item}", counted(found(laid[item]), item + 1)
        for ident in (most, most + 1, 65535):
            yield "most elements", f"id_in_{side} {data} 0 {ident}", absent(most)
        yield "most elements", f"id_in_{side} {data} 1 0", absent(0)


def endings(codec, many):
    """Packets by how a look-up of ID 7 in their last record, which has so many other elements, ends: the packet, the
    element or the refusal, None if the ID is not there, and the number of elements passed."""
    others, before = range(10, 10 + many), with_ids((7, 8, 9))

    def attempt(last):
        records = [before, last]
        _, laid = laid_out("packet", codec, records)
        return tcp(data_field(codec, records)), laid

    data, laid = attempt(with_ids((7, *others), (7,)))
    yield data, laid[0], 1
    later = with_ids(others, (7, 7))
    data, laid = attempt(later)
    yield data, laid[many], many + 1
    yield changed(data, len(data) - 1, data[-1] ^ 1), refused(5, offset=len(data) - 4), 0
    later.priority = 3
    yield attempt(later)[0], refused(10, 1, 10 + before.size(codec) + 8), 0
    yield attempt(with_ids(others[:2], others[2:]))[0], None, many
    yield attempt(with_ids())[0], None, 0
    yield b"", refused(1), 0


def both_passed(_):
    """The last-known look-up in each two of these packets and in the same one twice: a newer one that is refused or has
    the ID is the only one judged, else what the older one passes is added."""
    for codec, other, many, more in ((0x08, 0x8E, 5, 9), (0x8E, 0x10, 30, 4), (0x10, 0x08, 2, 23)):
        for newer, first, passed in endings(codec, many):
            for older, second, behind in (*endings(other, more), (newer, first, passed)):
                which, told, total = (0, first, passed) if first else (1, second, passed + behind)
                if isinstance(told, tuple):
                    told = found((which, *told))
                yield "passed", f"last_known {shown(newer)} {shown(older)} 7", counted(told or refused(16), total)


def most_passed(family):
    """The last-known look-up in two records of the most elements: how many each has, and both together."""
    many, more, both_have = {1: (112, 72, 184), 2: (255, 409, 664)}[family.number]
    first, second = [with_ids(range(many))], [with_ids(range(300, 300 + more))]
    newer, older = tcp(data_field(0x08, first)), tcp(data_field(0x8E, second))
    bad = changed(older, len(older) - 1, older[-1] ^ 1)
    for packets, ident, expected in (
            ((newer, older), many - 1, known(0, 0x08, first, many - 1, many)),
            ((newer, older), 300, known(1, 0x8E, second, 0, many + 1)),
            ((newer, older), 300 + more - 1, known(1, 0x8E, second, more - 1, both_have)),
            ((newer, older), 299, absent(both_have)), ((older, newer), 299, absent(both_have)),
            ((newer, newer), 299, absent(many + many)), ((older, older), 299, absent(more + more)),
            ((older, newer), 0, known(1, 0x08, first, 0, more + 1)),
            ((older, newer), many - 1, known(1, 0x08, first, many - 1, both_have)),
            ((newer, bad), 299, counted(refused(5, offset=len(bad) - 4), many)),
            ((older, bad), 299, counted(refused(5, offset=len(bad) - 4), more)),
            ((bad, older), 299, counted(refused(5, offset=len(bad) - 4), 0))):
        yield "most passed", f"last_known {' '.join(map(shown, packets))} {ident}", expected


# ---------------------------------------------------------------- writing

def lending(name, call, result, unit=1, more=()):
    """A writer's call with no room, one byte (or word) too few, just enough, and more; what is behind stays."""
    need = len(result) // unit
    for room in (0, 1, need - 1, need, need + 1, need + 100, *more):
        lent = (bytes(range(1, 256)) + bytes(unit * room))[:unit * room]
        expected = f"{refused(18)} {shown(lent)}"
        if room >= need:
            expected = f"written {need} {shown(result + lent[len(result):])}"
        yield name, f"{call} {shown(lent)}", expected


def buffers(family):
    """Results of each writer of bytes, and the longest commands."""
    data = data_field(0x8E, pair(0x8E))
    packet, datagram = tcp(data), udp(data)
    form = whole_form(0x8E)
    writers = (
        (f"acknowledge_packet {shown(packet)}", number(2, 4)),
        (f"acknowledge_packet {shown(packet[:-1])}", bytes(4)),
        (f"acknowledge_datagram {shown(datagram)}", b"\x00\x05" + datagram[2:6] + b"\x02"),
        (f"answer_login {shown(LOGIN)} 1", b"\x01"), (f"answer_login {shown(LOGIN)} 0", b"\x00"),
        (f"answer_login {shown(LOGIN[:-1])} 1", b"\x00"),
        *((writing(codec, 5, b"getio"), tcp(command_field(codec))) for codec in COMMANDS),
        *((writing(codec, kind, b""), tcp(command_field(codec, kind, b"")))
          for codec in COMMANDS for kind in TYPES[codec]),
        (f"form_of_packet {shown(packet)}", form), (f"form_of_datagram {shown(datagram)}", form),
        (f"packet_of_form {shown(form)}", packet))
    for call, result in writers:
        yield from lending("buffer", call, result)
    for codec in COMMANDS:
        text = b"a" * longest_text(family, codec)
        yield from lending("longest text", writing(codec, 6, text), tcp(command_field(codec, 6, text)))
        for lent in ("-", ROOMY):
            yield "too long a text", f"{writing(codec, 6, text + b'a')} {lent}", f"{refused(14)} {lent}"
    yield "text with type 11", f"{writing(0x0E, 0x11, bytes(1))} {'ee' * 30}", f"{refused(14)} {'ee' * 30}"


# ---------------------------------------------------------------- tables of contents

def words(*numbers):
    return b"".join(little(value, 8) for value in numbers)


def quarters(*numbers):
    """A word of four numbers, the first in its lowest 16 bits."""
    return words(sum(value << 16 * place for place, value in enumerate(numbers)))


def table(side, codec, records):
    """The table of contents of a packet, or of a datagram with HEAD, from the way its records are built."""
    start, *head, imei = (10, 0, 0, 0) if side == "packet" else (25, 0xC0DE, 0x695A, int(IMEI))
    parts = [quarters(codec, len(records), *head), words(imei)]
    for each, elements in zip(records, laid_out(side, codec, records)):
        # words 1 and 2: longitude to speed as in the packet from the highest bits down, which is reversed in bytes
        last = each.priority + 16 * each.generation * WIDTHS[codec][1]
        size = each.size(codec)
        parts += [each.time[::-1], each.place[7::-1], each.place[:7:-1], number(last, 1),
                  quarters(each.event, start, size, len(elements)), *(quarters(*element) for element in elements)]
        start += size
    return b"".join(parts)


def listing(name, side, data, result):
    return lending(name, f"contents_of_{side} {shown(data)}", result, unit=8, more=[CONTENTS_LIMIT])


def sample_contents(_):
    """The bench sheet's sample as a datagram and as a TCP packet: seven words, worked out by hand."""
    sample = bytes.fromhex(SAMPLE)
    fields = (1000, 0xFFFFFFFF_209CCA80, 0x01_0064_0000_07_0005)
    yield from listing("sample", "datagram", sample, words(
        0x0501_CAFE_0001_0008, 123456789012345, *fields, 0x0001_0020_0019_0000, 0x0001_0035_0001_0015))
    yield from listing("sample", "packet", tcp(sample[23:]), words(
        0x0000_0000_0001_0008, 0, *fields, 0x0001_0020_000A_0000, 0x0001_0026_0001_0015))
    for place, value, refusal, wrong in ((1, 0x37, 4, 0), (9, 0x41, 15, 9), (33, 3, 10, 33), (50, 2, 9, 25),
                                         (51, 2, 8, 57), (57, 2, 7, 57)):
        data, lent = shown(changed(sample, place, value)), "ee" * 56
        yield "sample", f"contents_of_datagram {data} {lent}", f"{refused(refusal, 0, wrong)} {lent}"


# In words, worked out by hand.
LONGEST_TABLES = {(1, "packet"): 228, (1, "datagram"): 223, (2, "packet"): 601, (2, "datagram"): 596}


def contents(family):
    """Tables of records of all kinds, of the most records, and the longest."""
    for codec, side, wrap, room in each_side(family):
        def attempt(name, records):
            return listing(name, side, wrap(data_field(codec, records)), table(side, codec, records))

        bare = of_elements(codec)
        place = bytes.fromhex("80000000 7fffffff 8000 ffff ff ffff")
        outer = Record(b"\xff" * 8, 2, place, 256 ** WIDTHS[codec][0] - 1, 7, record(codec, 4).groups)
        same = record(codec, 2)
        same.groups[:4] = [[(5, bytes(kind))] * 2 for kind in KINDS[:4]]
        if codec == 0x8E:
            same.groups[4] = [(5, b""), (5, b"last"), (5, b"")]
        yield from attempt("records", [record(codec), bare, outer, same, bare, record(codec, 1)])
        yield from attempt("no values", [bare])
        yield from attempt("most records", [bare] * (room // LEAST[codec]))
        yield from attempt("255 bytes", [MAKER.record(codec, 255) for _ in range(room // 255)])
        if not family.record:
            yield from attempt("one record", [MAKER.record(codec, room)])
    # A word for two bytes in a value of one byte, four for the other 30 of a record: the fewest records that fill an
    # input give the longest table, 2 + 3 * 4 + 587 words in a packet of family 2.
    for side, wrap in SIDES.items():
        records = [of_elements(0x08, ones) for ones in ones_filling(family, room_for_records(family, side))]
        result = table(side, 0x08, records)
        assert len(result) == 8 * LONGEST_TABLES[family.number, side] <= 8 * CONTENTS_LIMIT
        yield from listing("longest table", side, wrap(data_field(0x08, records)), result)


# ---------------------------------------------------------------- TLV forms

def joined(entries):
    return b"".join(little(length, 2) + little(kind, 2) + body for length, kind, body in entries)


def whole_form(codec, records=None):
    records = records or pair(codec)
    for each in records:
        each.generation = each.generation if codec == 0x10 else 0
    return joined(MAKER.form_entries(codec, records))


def rebuilding(name, form, expected=None):
    return name, f"packet_of_form {shown(form)} {ROOMY}", f"{refused(17)} {ROOMY}" if expected == 17 else expected


def rebuilt(name, codec, records, right=True):
    """The form of records, which is that of a packet of the family or not."""
    packet = tcp(data_field(codec, records))
    written = f"written {len(packet)} {shown(packet)}{ROOMY[2 * len(packet):]}"
    return rebuilding(name, whole_form(codec, records), written if right else 17)


def form_entries(_):
    """Each entry cut, lengthened, renamed, lost, doubled or moved."""
    for codec in CODECS:
        form = whole_form(codec)
        entries = MAKER.form_entries(codec, pair(codec))
        if codec != 0x10:
            for each in entries:
                each[2] = each[2][:26] + b"\0" if each[1] == 101 else each[2]
        ends = {len(joined(entries[:kept])) for kept in range(2, len(entries))}
        for size in range(len(form)):
            yield rebuilding("beginning", form[:size], None if size in ends else 17)
        for place, (length, kind, body) in enumerate(entries):
            before, after = entries[:place], entries[place + 1:]
            for wrong in (length - 1, length + 1, length ^ 256, length ^ 32768):
                yield rebuilding("length", joined(before + [[wrong & 65535, kind, body]] + after))
            for wrong in (0, 3, 10, 99, 102, kind ^ 256, kind ^ 32768):
                yield rebuilding("kind", joined(before + [[length, wrong, body]] + after), 17)
            for wrong in (1, 2, 4, 8, 9, 100, 101):
                yield rebuilding("kind", joined(before + [[length, wrong, body]] + after))
            for changed_body in (body[:-1], body + b"\0", body[:1], b""):
                new = [len(changed_body), kind, changed_body]
                yield rebuilding("body", joined(before + [new] + after))
            this = [[length, kind, body]]
            yield rebuilding("lost", joined(before + after))
            yield rebuilding("doubled", joined(before + this + this + after))
            yield rebuilding("moved", joined(before + after[:1] + this + after[1:]))


def form_rules(_):
    """Forms of packets that a rule refuses."""
    yield rebuilding("no form", b"", 17)
    for codec in CODECS:
        def spoiled(**values):
            records = pair(codec)
            vars(records[1]).update(values)
            return joined(MAKER.form_entries(codec, records))

        yield rebuilding("no records", joined([[1, 100, bytes([codec])]]), 17)
        yield rebuilding("priority", spoiled(priority=3, generation=0), 17)
        for generation in (1, 7, 8, 255):
            yield rebuilding("generation", spoiled(generation=generation), None if codec == 0x10 else 17)
        for ident in (255, 256, 257, 65535):
            yield rebuilding("event", whole_form(codec, [Record(bytes(8), 0, bytes(15), ident, 0, [[]] * 5)]))
            groups = [[(ident, b"\x01")]] + [[]] * 4
            yield rebuilding("ID", whole_form(codec, [Record(bytes(8), 0, bytes(15), 0, 0, groups)]))
        for other in range(256):
            form = bytes([1, 0, 100, 0, other]) + whole_form(codec)[5:]
            yield rebuilding("codec", form, None if other in CODECS else 17)


def form_limits(family):
    """Forms of records and packets at the limits, and of as many elements as a count of one byte holds and more."""
    room = room_for_records(family, "packet")
    for codec in CODECS:
        least = MAKER.record(codec, LEAST[codec])
        unlimited = not family.record
        yield rebuilt("255 bytes", codec, [MAKER.record(codec, 255)])
        yield rebuilt("256 bytes", codec, [least, MAKER.record(codec, 256)], unlimited)
        yield rebuilt("the most bytes", codec, filling(codec, room))
        yield rebuilt("a byte more", codec, filling(codec, room + 1), False)
        yield rebuilt("the most bytes in one record", codec, [MAKER.record(codec, room)], unlimited)
        yield rebuilt("a byte more in one record", codec, [MAKER.record(codec, room + 1)], False)
        yield rebuilt("most records", codec, [least] * (room // LEAST[codec]))
        for many in (room // LEAST[codec] + 1, 255, 256, 257):
            yield rebuilding(f"{many} records", whole_form(codec, [least] * many), 17)
        for counts in ((255,), (128, 127), (256,), (255, 1), (128, 128), (64, 64, 64, 64)):
            for records in ([of_elements(codec, *counts)], [least, of_elements(codec, *counts)]):
                fits = sum(each.size(codec) for each in records) <= room
                counted = sum(counts) < 256 ** WIDTHS[codec][2]
                yield rebuilt("many elements", codec, records, unlimited and fits and counted)


# By family and codec the packet whose form has the most times its bytes and the one whose form is longest, if that is
# another: how many values of one byte and of two its records have, its bytes and those of its form. Worked out by hand:
# an element with a value of one byte has 7 bytes in a form, and 2 in a packet of 08, 3 in the others. No other element
# has more for each byte, nor have a record's other fields (31, and 30, 38 or 32) or what is around the records (5, and
# 15). So the records have as many of these as they can; one of two bytes fills up the packet.
CLOSEST = {
    (1, 0x08): ((((112,), (106,)), 511, 1593), (((111, 1), (106,)), 512, 1594)),
    (1, 0x8E): ((((72,), (68,)), 511, 1047), (((71, 1), (68,)), 512, 1048)),
    (1, 0x10): ((((74,), (70,)), 511, 1075), (((73, 1), (70,)), 512, 1076)),
    (2, 0x08): ((((255,), (255,)), 1095, 3637), (((254, 1), (255,), (77,)), 1280, 4208)),
    (2, 0x8E): ((((409,),), 1280, 2899),),
    (2, 0x10): ((((255,),), 812, 1821), (((254, 1), (145,)), 1280, 2868)),
}


def form_sizes(family):
    """The forms that come closest to four times their packet, and those of a record with as many values of one kind as
    it can have. Three and four times the packet's bytes are lent, too, and more, so that a longer form would show."""
    for codec in CODECS:
        def attempt(name, records):
            packet, form = tcp(data_field(codec, records)), whole_form(codec, records)
            yield from lending(name, f"form_of_packet {shown(packet)}", form,
                               more=[times * len(packet) for times in (3, 4, 6)])
            yield from lending(name, f"packet_of_form {shown(form)}", packet)

        for counts, size, need in CLOSEST[family.number, codec]:
            records = [of_elements(codec, *each) for each in counts]
            assert (size, need) == (len(tcp(data_field(codec, records))), len(whole_form(codec, records)))
            yield from attempt("closest form", records)
        room = room_for_records(family, "packet")
        for place, kind in enumerate(KINDS if codec == 0x8E else KINDS[:4]):
            width = WIDTHS[codec][3] + (2 if kind == 9 else kind)
            many = min(256 ** WIDTHS[codec][2] - 1, ((family.record or room) - LEAST[codec]) // width)
            yield from attempt("form of one kind", [of_elements(codec, *[0] * place, many)])


# ---------------------------------------------------------------- the order of refusals

def walk_orders(family):
    """Records that break several rules at once: the first in the walk counts."""
    for codec, side, wrap, _ in each_side(family):
        def attempt(expected, first, second, count=2, last=None, more=b"", named=codec):
            records = pair(codec)
            vars(records[0]).update(first)
            vars(records[1]).update(second)
            field = data_field(codec, records, count, last)
            return reading("order", side, wrap(bytes([named]) + field[1:-1] + more + field[-1:]), expected)

        start, size = RECORDS_AT[side], record(codec).size(codec)
        wrong = {"priority": 3, "generation": 8, "total": 1}
        yield attempt(refused(6, offset=FIELD_AT[side]), wrong, wrong, last=9, named=0x07)
        yield attempt(refused(7, offset=start + 2 * size + 1), wrong, wrong, last=9, more=b"\0")
        yield attempt(refused(10, 0, start + 8), wrong, wrong)
        yield attempt(refused(11, 0, start + 26) if codec == 0x10 else refused(9, 0, start), wrong | {"priority": 2},
                      wrong)
        yield attempt(refused(9, 0, start), {"total": 1}, {"priority": 3})
        yield attempt(refused(10, 1, start + size + 8), {}, {"priority": 3}, more=b"\0")
        yield attempt(refused(9, 1, start + size), {}, {"total": 1}, count=3)
        # The first record's values of 8 bytes go on to the records' end: there an ID or a value is missing. Behind its
        # own two of them are 16 bytes of tags in 8E.
        ident = WIDTHS[codec][3]
        at = size - 2 * (ident + 8) - (16 if codec == 0x8E else 0)
        values, rest = divmod(2 * size - at, ident + 8)
        at += values * (ident + 8) + (ident if rest >= ident else 0)
        yield attempt(refused(8, 0, start + at), {"total": 1, "counts": {3: 255}}, {"priority": 3})
        long = of_elements(codec, (256 - LEAST[codec]) // (ident + 1) + 1)
        second, long = start + long.size(codec), vars(long)
        yield attempt(refused(9, 0, start), long | {"total": 1}, {"priority": 3})
        yield attempt(over_255(family, 0, start, refused(10, 1, second + 8)), long, {"priority": 3}, more=b"\0")
        yield attempt(over_255(family, 0, start, refused(8, 2, second + size)), long, {}, more=b"\0")


def head_orders(family):
    """Inputs that break several rules of their head, or a rule of it and one of the walk."""
    bad = data_field(0x08, pair(0x08), 3, 9)
    frame = tcp(bytes([7]) + bad[1:])
    spoiled = frame[:-1] + bytes([frame[-1] ^ 1])
    for side in ("packet", "command"):
        for data, refusal, at in ((b"\x01" * 7, 1, 0), (b"\x01" * 8, 2, 0), (bytes(4) + b"\xff" * 9, 3, 4),
                                  (spoiled[:-2], 4, 0), (spoiled, 5, len(spoiled) - 4), (frame, 6, 8)):
            yield reading("order", side, data, refused(refusal, offset=at))
    wrong = changed(udp(bytes([7]) + bad[1:]), 9, 0x41)
    for data, refusal, at in ((wrong[:25], 1, 0), (wrong + bytes(family.datagram), 3, 0), (wrong + b"\0", 4, 0),
                              (wrong, 15, 9), (changed(wrong, 9, 0x31), 6, 23), (udp(bad), 7, len(wrong) - 1)):
        yield reading("order", "datagram", data, refused(refusal, offset=at))
    yield "order", f"read_login {shown(bytes(16))}", refused(1)
    yield "order", f"read_login {shown(bytes(18))}", refused(4)


def command_orders(family):
    """Commands, read and to be written, that break several rules."""
    digit, long = bytes([0x1F] * 8), "61" * (longest_text(family, 0x0C) + 1)
    fields = [(b"\x0f\x02\x04\x00\x03", 6, 8), (command_field(0x0E, 0x11, size=1, before=digit), 14, 11),
              (command_field(0x0E, 0x11, before=digit), 15, 15), (command_field(0x0E, 0x11), 14, 23),
              (command_field(0x0D, 0x11, b"", before=b""), 13, 10), (command_field(0x0D, 6, b"", 4, b"abc"), 14, 11)]
    calls = [(f"write_command 15 4 30 {TIME} {long}", 6), (f"write_command 14 17 {shown(IMEI)} {TIME} {long}", 14),
             (writing(0x0E, 0x11, b"a"), 14)]
    for codec in COMMANDS:
        name = bytes([codec])
        fields += [(name + b"\x02\x04\x00\x03", 7, 9), (name + b"\x01\x04\x00\x03", 7, 12),
                   (name + b"\x01\x04\x00\x01", 13, 10), (name + b"\x01\x05\x00\x01", 8, 11),
                   (command_field(codec, 4, size=1, before=digit), 13, 10)]
        wrong = 4 if codec == 0x0E else 0x11
        calls += [(f"write_command {codec} {wrong} 30 {TIME} {long}", 13),
                  (f"write_command {codec} 5 30 {TIME} {long}", 15),
                  (writing(codec, 5, bytes.fromhex(long)), 14), (writing(codec, 5, b"a"), 18)]
    for field, refusal, at in fields:
        yield reading("order", "command", tcp(field), refused(refusal, offset=at))
    for call, refusal in calls:
        yield "order", f"{call} -", refused(refusal) + " -"


# ---------------------------------------------------------------- every refusal in every call

def refused_fields(family, codec):
    """(number, index, offset from the field's start, data field) for 6 to 12."""
    field, end = data_field(codec, pair(codec)), 2 + 2 * record(codec).size(codec)
    yield 6, 0, 0, bytes([0x0C]) + field[1:]
    yield 7, 0, 1, changed(field, 1, 0)
    yield 7, 0, end, changed(field, end, 3)
    yield 8, 2, end, data_field(codec, pair(codec), 3)
    yield 8, 2, end, field[:-1] + bytes(5) + field[-1:]
    for place in range(2):
        yield from refused_records(family, codec, place)


def refused_records(family, codec, place):
    """The same for 9 to 12, in one of two records."""
    def spoiled(**values):
        records = pair(codec)
        vars(records[place]).update(values)
        return data_field(codec, records)

    start = 2 + place * record(codec).size(codec)
    yield 9, place, start, spoiled(total=1)
    if codec == 0x8E:
        yield 9, place, start, spoiled(total=8)     # without the variable values
    yield 10, place, start + 8, spoiled(priority=3)
    if codec == 0x10:
        yield 11, place, start + 26, spoiled(generation=8)
    if family.record:
        yield 12, place, start, spoiled(groups=MAKER.record(codec, 256).groups)


def refused_inputs(family, side, codec):
    """(number, index, offset, input) for every refusal of a data packet or datagram."""
    good = SIDES[side](data_field(codec, pair(codec)))
    yield 1, 0, 0, b""
    yield 4, 0, 0, good[:-1]
    if side == "packet":
        yield 2, 0, 0, b"\x80" + good[1:]
        yield 3, 0, 4, good[:4] + number(family.packet - 11, 4) + good[8:]
        yield 5, 0, len(good) - 4, changed(good, len(good) - 1, good[-1] ^ 1)
        yield 5, 0, len(good) - 4, changed(good, len(good) - 4, 1)
    else:
        yield 3, 0, 0, number(family.datagram - 1, 2) + good[2:] + bytes(family.datagram + 1 - len(good))
        yield 15, 0, 6, changed(good, 7, 16)
        yield 15, 0, 21, changed(changed(good, 21, 0x2F), 22, 0x3A)
    for refusal, index, at, field in refused_fields(family, codec):
        yield refusal, index, FIELD_AT[side] + at, SIDES[side](field)


def everywhere(family):
    """Each refusal of an input, in each call that takes it."""
    for codec, side, wrap, _ in each_side(family):
        for refusal, index, at, data in refused_inputs(family, side, codec):
            data, answer = shown(data), refused(refusal, index, at)
            yield reading("everywhere", side, bytes.fromhex(data.strip("-")), answer)
            yield "everywhere", f"record_in_{side} {data} 9", answer
            yield "everywhere", f"value_in_{side} {data} 9 0", answer
            for words in ("0 1", "0 500", "9 1"):
                yield "everywhere", f"id_in_{side} {data} {words}", counted(answer, 0)
            yield "everywhere", f"view_in_{side} {data} 0 0", "bytes -"
            yield "everywhere", f"id_view_in_{side} {data} 0 0", "bytes -"
            yield "everywhere", f"form_of_{side} {data} -", answer + " -"
            yield "everywhere", f"form_of_{side} {data} {'ee' * 400}", f"{answer} {'ee' * 400}"
            yield "everywhere", f"contents_of_{side} {data} -", answer + " -"
            yield "everywhere", f"contents_of_{side} {data} {'ee' * 400}", f"{answer} {'ee' * 400}"
            yield "everywhere", f"line_of_{side} {data} 9 -", answer + " -"
            yield "everywhere", f"line_of_{side} {data} 0 {'ee' * 99}", f"{answer} {'ee' * 99}"
            yield "everywhere", f"lines_of_{side} {data} -", answer + " -"
            yield "everywhere", f"lines_of_{side} {data} {'ee' * 400}", f"{answer} {'ee' * 400}"
            if side == "datagram":
                yield "everywhere", f"acknowledge_datagram {data} -", answer + " -"
                continue
            yield "everywhere", f"acknowledge_packet {data} eeeeeeeeee", "written 4 00000000ee"
            good = shown(wrap(data_field(0x08, pair(0x08))))
            yield "everywhere", f"last_known {data} {good} 20", counted(answer, 0)
            yield "everywhere", f"last_known {good} {data} 500", counted(answer, 8)
            yield "everywhere", f"last_known {good} {data} 20", known(0, 0x08, pair(0x08), 0, 1)
            yield "everywhere", f"last_known {good} {data} 27", known(0, 0x08, pair(0x08), 7, 8)
            yield "everywhere", f"last_known_view {data} {good} 20", "bytes -"
            yield "everywhere", f"last_known_view {good} {data} 500", "bytes -"


def unknown_families():
    """21 before all others, whatever the input is and however short the buffer, in each call that judges a family; with
    its family's word."""
    packet = tcp(data_field(0x8E, pair(0x8E)))
    inputs = (b"", packet, udp(packet[8:-4]), tcp(command_field(0x0C)), whole_form(0x8E), packet[:-1], b"\x01" * 30,
              bytes(2000))
    for name, (answered, sorts, _) in CALLS.items():
        if sorts[0] != "F":
            continue
        for data in inputs:
            words = [{"P": shown(data), "W": shown(data)}.get(sort, "12") for sort in sorts[1:]]
            lents = ("-", "ee" * 1280) if answered in ("write", "receipt") else (None,)
            for lent in lents:
                yield from unknown_calls(name, answered, words if lent is None else words[:-1] + [lent], lent)
    for codec in COMMANDS:
        name, *words = writing(codec, 5, b"getio").split()
        for lent in ("-", "ee" * 40):
            yield from unknown_calls(name, "write", [*words, lent], lent)


def unknown_calls(name, answered, words, lent):
    answer = {"view": "bytes -", "found": counted(refused(21), 0)}.get(answered, refused(21))
    for family in UNKNOWN:
        yield "unknown family", " ".join((name, str(family), *words)), answer if lent is None else f"{answer} {lent}"


def command_texts(_):
    """Each refusal of a command behind the view of its text."""
    for codec in COMMANDS:
        good, other = tcp(command_field(codec)), tcp(b"\x08" + command_field(codec)[1:])
        yield "text", f"command_text {shown(good)}", "bytes 676574696f"
        yield "text", f"command_text {shown(tcp(command_field(codec, text=b'')))}", "bytes -"
        for data in (b"", b"\x01" + good[1:], good[:4] + number(2, 4) + good[8:], good[:-1], good[:-1] + b"\0",
                     other, other[:-1] + b"\0", tcp(good[8:-5] + b"\x02"), tcp(bytes([codec, 1, 1])),
                     tcp(command_field(codec, 4)), tcp(command_field(codec, size=1))):
            yield "text", f"command_text {shown(data)}", "bytes -"
    yield "text", f"command_text {shown(tcp(command_field(0x0E, before=bytes([16] * 8))))}", "bytes -"
    for data in (b"", LOGIN[:-1], LOGIN + b"0", changed(LOGIN, 9, 65)):
        yield "answer", f"answer_login {shown(data)} 1 eeee", "written 1 00ee"
        yield "answer", f"answer_login {shown(data)} 1 -", refused(18) + " -"


# ---------------------------------------------------------------- connections

NONE = "0 0 0 -"                # what a feed without an item says of it


def held_words(phase, held):
    return phase, len(held), shown(held.rstrip(b"\0"))


def feeding(phase, held, data, room=STATE_ROOM):
    return f"feed {phase} {len(held)} {shown(held)} {STATE_ROOM} {shown(data)} {room}"


def finishing(family, name, phase, item, answer, places=(0, 1, 7, 8, 9, 16)):
    """Feeds up to the byte before the item's last, up to it and beyond it, with so many bytes of the item held, or
    all but one. The answer is the head, the item and the phase of what the last byte gives."""
    head, told, after = answer
    for kept in sorted({*places, len(item) - 1}):
        held, rest = item[:kept], item[kept:]
        if not rest:
            break
        for behind in (b"", b"\0", LOGIN):
            yield name, feeding(phase, held, rest + behind), both(family, fed(head, len(rest), told, after))
        for part in sorted({b"", rest[:1], rest[:-1]} - {rest}):
            more = fed("fed 0 0 0", len(part), NONE, *held_words(phase, held + part))
            yield name, feeding(phase, held, part), both(family, more)


def least_data(codec):
    return tcp(data_field(codec, [MAKER.record(codec, LEAST[codec])]))


def good_packets(family):
    """(name, packet) for packets that a connection takes: of each codec, the shortest and the longest."""
    for codec in CODECS:
        yield "data", tcp(data_field(codec, pair(codec)))
        yield "shortest data", least_data(codec)
        room = room_for_records(family, "packet")
        yield "longest data", tcp(data_field(codec, filling(codec, room)))
        if not family.record:
            yield "longest record", tcp(data_field(codec, [MAKER.record(codec, room)]))
    for codec in COMMANDS:
        yield "command", tcp(command_field(codec))
        yield "shortest command", tcp(command_field(codec, text=b""))
        most = longest_text(family, codec)
        yield "longest command", tcp(command_field(codec, 6, bytes(range(1, 21)) * (most // 20) + bytes(most % 20)))


def refused_logins():
    """(offset, login) for its refusal, 15."""
    yield 0, bytes(17)
    yield 0, changed(LOGIN, 0, 1)
    yield 0, changed(LOGIN, 1, 16)
    yield 0, changed(LOGIN, 1, 14)[:-1] + b"\0"
    yield 0, tcp(command_field(0x0C))[:17]
    yield 2, changed(LOGIN, 2, 0x2F)
    yield 3, changed(changed(LOGIN, 3, 0x41), 9, 0x41)
    yield 9, changed(changed(LOGIN, 9, 0x41), 16, 0x41)
    yield 16, changed(LOGIN, 16, 0x3A)


def refused_headers(family):
    """(number, index, offset, first 8 bytes): a login is none either, nor is the longest packet of a family with longer
    ones."""
    for place in range(4):
        yield 2, 0, 0, changed(bytes(7) + b"\x21", place, 1)
    yield 2, 0, 0, LOGIN[:8]
    yield 2, 0, 0, b"\x80" + bytes(7)
    yield 2, 0, 0, bytes(3) + b"\xff" * 5
    longer = [other.packet - 12 for other in FAMILIES.values() if other.packet > family.packet]
    for length in (0, 1, 2, family.packet - 11, family.packet, *longer, 65536 + 33, 1 << 31, (1 << 32) - 12,
                   (1 << 32) - 1):
        yield 3, 0, 4, bytes(4) + number(length, 4)


def refused_packets(family):
    """(number, index, offset, packet) for the refusals of whole packets."""
    for codec in CODECS:
        for refusal, index, at, data in refused_inputs(family, "packet", codec):
            if refusal in (5, 7, 8, 9, 10, 11, 12):
                yield refusal, index, at, data
        field, size = data_field(codec, pair(codec)), record(codec).size(codec)
        yield 7, 0, 9, tcp(data_field(codec, []))
        yield 8, 2, 10 + 2 * size, tcp(field[:-1] + b"\0\x02")
        for place in range(2):
            yield 8, place, 10 + place * size, tcp(field[:9 + place * size] + b"\x02")
    for codec in NO_CODECS:
        yield 6, 0, 8, tcp(bytes([codec, 1, 1]))
    yield 8, 0, 10, tcp(b"\x08\x01\x01")
    for codec in COMMANDS:
        for text in (b"", b"getio"):
            field = command_field(codec, text=text)
            good = tcp(field)
            for place in range(1, 5):
                yield 5, 0, len(good) - 4, changed(good, len(good) - place, good[-place] ^ 128)
            yield 7, 0, 9, tcp(bytes([codec, 2]) + field[2:])
            yield 7, 0, 9, tcp(bytes([codec, 2]) + field[2:-1] + b"\x02")
            yield 7, 0, 7 + len(field), tcp(field[:-1] + b"\x02")
        yield 8, 0, 10, tcp(bytes([codec, 1, 1]))
        yield 8, 0, 11, tcp(bytes([codec, 1, 5, 0, 1]))
        yield 8, 0, 11, tcp(bytes([codec, 1, 6, 1]))
        yield 13, 0, 10, tcp(command_field(codec, 7))
        yield 14, 0, 11, tcp(command_field(codec, size=4))
        if BEFORE[codec]:
            yield 14, 0, 11, tcp(command_field(codec, 6, b"", before=BEFORE[codec][1:]))
        if 0x11 not in TYPES[codec]:
            yield 13, 0, 10, tcp(command_field(codec, 0x11, b""))
    yield 14, 0, 11, tcp(command_field(0x0E, 0x11, b"", before=bytes(7)))
    yield 14, 0, 23, tcp(command_field(0x0E, 0x11))
    yield 15, 0, 15, tcp(command_field(0x0E, before=b"\x10" + bytes(7)))
    yield 15, 0, 15, tcp(command_field(0x0E, before=b"\x10" + bytes(6) + b"\xaa"))
    yield 15, 0, 16, tcp(command_field(0x0E, before=b"\x09\xa0" + bytes(5) + b"\xff"))
    yield 15, 0, 19, tcp(command_field(0x0E, before=bytes(4) + b"\x0a\xa0\0\xff"))
    yield 15, 0, 17, tcp(command_field(0x0E, before=bytes(2) + b"\xa0" + bytes(5)))
    yield 15, 0, 22, tcp(command_field(0x0E, before=bytes(7) + b"\x0a"))


def feeds(family):
    """Each item with its every refusal, cut where something is judged."""
    yield from finishing(family, "login", 0, LOGIN, ("fed 0 0 0", f"1 {int(IMEI)} 0 -", 1))
    yield from finishing(family, "login", 0, LOGIN[:2] + b"0" * 15, ("fed 0 0 0", "1 0 0 -", 1))
    for at, bad in refused_logins():
        yield from finishing(family, "login refused", 0, bad, (refused(15, offset=at), NONE, 2))
    for refusal, index, at, header in refused_headers(family):
        yield from finishing(family, "header refused", 1, header, (refused(refusal, index, at), NONE, 2))
    for name, data in good_packets(family):
        yield from finishing(family, name, 1, data, ("fed 0 0 0", f"2 0 {len(data)} {shown(data)}", 1))
    for refusal, index, at, data in refused_packets(family):
        yield from finishing(family, "packet refused", 1, data, (refused(refusal, index, at), NONE, 2), (0, 9))
    for length in (3, family.packet - 12):
        header = bytes(4) + number(length, 4)
        yield "header", feeding(1, b"", header), both(family, fed("fed 0 0 0", 8, NONE, *held_words(1, header)))


def unreachable(family):
    """States that no feeds from a fresh one give, a closed one first: phase, fill, bytes held, how many are lent."""
    good, bad = tcp(command_field(0x0C)), tcp(b"\x0f\x01\x01")
    for held in (b"", LOGIN[:5], good[:12]):
        fill = len(held)
        yield 2, fill, held, STATE_ROOM
        for phase in (3, 4, 127, 128, 255):
            yield phase, fill, held, STATE_ROOM
        for phase in (0, 1):
            for lent in (0, 1, 8, 17, 512, STATE_ROOM - 12, STATE_ROOM - 1, STATE_ROOM + 1, 2 * STATE_ROOM):
                yield phase, fill, held, lent
            for wrong in (513, STATE_ROOM + 1, 65536 + fill, (1 << 32) + fill, (1 << 63) + fill, (1 << 64) - 1,
                          (1 << 64) - STATE_ROOM):
                yield phase, wrong, held, STATE_ROOM
            for spare in (fill, fill + 1, STATE_ROOM - 1):
                yield phase, fill, held.ljust(spare, b"\0") + b"\x01", STATE_ROOM
    yield 0, 0, LOGIN, STATE_ROOM
    yield 0, 16, LOGIN, STATE_ROOM
    yield 0, STATE_ROOM, b"", STATE_ROOM
    for held in (LOGIN, LOGIN + b"\0", changed(LOGIN, 9, 0x41), bytes(17)):
        yield 0, len(held), held, STATE_ROOM
    for *_, header in refused_headers(family):
        for more in (0, 1, 30, STATE_ROOM - 8):
            yield 1, 8 + more, header, STATE_ROOM
    for data in (good, bad, changed(good, 24, 0), least_data(0x08), tcp(command_field(0x0D))):
        for more in (0, 1, 8, STATE_ROOM - len(data)):
            yield 1, len(data) + more, data, STATE_ROOM
    longest = tcp(command_field(0x0C, 6, bytes(longest_text(family, 0x0C))))
    for data in (longest, longest[:8]):
        yield 1, family.packet, data, STATE_ROOM


def unused(number, phase, fill, held):
    """The answer of a feed that uses and changes nothing."""
    return fed(refused(number), 0, NONE, phase, fill, shown(held.rstrip(b"\0")))


def lent_alone(lent):
    """The answer of a feed where a state by value cannot be such a one."""
    return f"- lent {' '.join(lent)}"


def refused_states(family):
    """19 comes first: with no bytes too, and with no room for a packet; any state can be reset."""
    for phase, fill, held, lent in unreachable(family):
        answer = unused(19, phase, fill, held[:lent])
        expected = both(family, answer) if lent == STATE_ROOM else lent_alone(answer)
        for data, room in ((b"", STATE_ROOM), (LOGIN, STATE_ROOM), (tcp(command_field(0x0C)), STATE_ROOM), (b"", 0),
                           (LOGIN, 511)):
            yield "no state", f"feed {phase} {fill} {shown(held)} {lent} {shown(data)} {room}", expected
        yield "no state", f"wanted {phase} {fill} {shown(held)} {lent}", "wanted 0"
        yield "reset", f"reset {phase} {fill} {shown(held)}", f"state family {family.number} 0 0 -"


def starts(family):
    """A start; and resets of states that feeds give."""
    fresh = f"family {family.number} 0 0 -"
    yield "start", "start", f"started 0 0 0 {fresh}"
    for phase, held in ((0, b""), (0, LOGIN[:5]), (1, b""), (1, tcp(command_field(0x0C))[:12])):
        yield "reset", f"reset {phase} {len(held)} {shown(held)}", f"state {fresh}"


def unknown_starts():
    """A start with an unknown family gives a closed connection of family 1, and so does the reset of a state of such a
    family. A feed of that state gets 19, and nothing is wanted. All calls have their family's word."""
    closed, good = "family 1 2 0 -", tcp(command_field(0x0C))
    for family in UNKNOWN:
        yield "start", f"start {family}", f"{refused(21)} {closed}"
        for sizes, data in (("1", b""), ("1", LOGIN), ("99999", LOGIN + good), ("7", b"\xff" * 30)):
            ended = f"items end 21 0 0 0 {closed}"
            yield "start", f"stream {family} {sizes} {shown(data)}", f"{ended} lent {ended}"
        for phase, held in ((0, b""), (0, LOGIN[:5]), (1, b""), (1, good[:12]), (2, b""), (3, b"")):
            state = f"{phase} {len(held)} {shown(held)}"
            told, gathered = unused(19, phase, len(held), held)
            value = f"{told} family {family} {gathered}" if family < 256 else "-"
            expected = f"{value} lent {told} {gathered}"
            for data, room in ((b"", STATE_ROOM), (LOGIN, STATE_ROOM), (good, STATE_ROOM), (LOGIN, 512), (b"", 0)):
                yield "unknown family", in_family(family, feeding(phase, held, data, room)), expected
            yield "unknown family", f"wanted {family} {state} {STATE_ROOM}", "wanted 0"
            if family < 256:
                yield "unknown family", f"reset {family} {state}", f"state {closed}"


def packet_rooms(family):
    """A packet's buffer too short, whatever is fed, just long enough for the family's longest packet and longer."""
    good, longest = tcp(command_field(0x0C)), tcp(command_field(0x0C, text=bytes(longest_text(family, 0x0C))))
    most = family.packet
    for phase, held, data, value in (
            (0, b"", b"", fed("fed 0 0 0", 0, NONE, 0)),
            (0, LOGIN[:3], LOGIN[3:], fed("fed 0 0 0", 14, f"1 {int(IMEI)} 0 -", 1)),
            (1, good[:9], b"", fed("fed 0 0 0", 0, NONE, *held_words(1, good[:9]))),
            (1, b"", good[:9], fed("fed 0 0 0", 9, NONE, *held_words(1, good[:9]))),
            (1, good[:9], good[9:], fed("fed 0 0 0", len(good) - 9, f"2 0 {len(good)} {shown(good)}", 1)),
            (1, b"", longest, fed("fed 0 0 0", most, f"2 0 {most} {shown(longest)}", 1)),
            (1, longest[:9], longest[9:], fed("fed 0 0 0", most - 9, f"2 0 {most} {shown(longest)}", 1)),
            (1, b"", b"\x01" * 8, fed(refused(2), 8, NONE, 2))):
        for room in (0, 1, len(good), 511, 512, 513, 1279, 1280, 1281, STATE_ROOM + 1, 2 * STATE_ROOM):
            lent = value if room >= most else unused(18, phase, len(held), held)
            yield "packet's room", feeding(phase, held, data, room), both(family, value, lent)


def wanted(family):
    """How many bytes are wanted in each state on the way to an item."""
    for held in range(17):
        yield "wanted", f"wanted 0 {held} {shown(LOGIN[:held])} {STATE_ROOM}", f"wanted {17 - held}"
    for _, data in good_packets(family):
        for held in (0, 1, 7, 8, 9, 12, len(data) - 1):
            whole = len(data) if held >= 8 else 8
            yield "wanted", f"wanted 1 {held} {shown(data[:held])} {STATE_ROOM}", f"wanted {whole - held}"
    # what is held need not be the beginning of an item that is accepted
    for held in range(1, 17):
        yield "wanted", f"wanted 0 {held} {'ff' * held} {STATE_ROOM}", f"wanted {17 - held}"
        if held < 8:
            yield "wanted", f"wanted 1 {held} {'ff' * held} {STATE_ROOM}", f"wanted {8 - held}"


def streaming(family, name, sizes, data, items, end="0 0 0", used=None, phase=1, held=b""):
    """A stream cut into pieces of these sizes; items are the login and the packets, end is the refusal's numbers."""
    used = len(data) if used is None else used
    told = [f"login {int(item[2:])}" if len(item) == 17 else f"packet {shown(item)}" for item in items]
    end = f"end {end} {used} family {family.number}"
    answer = " ".join(("items", *told, end, *map(str, held_words(phase, held))))
    return name, f"stream {sizes} {shown(data)}", f"{answer} lent {answer}"


def streams(family):
    """Whole connections, cut in every way; those that end within an item, and those that are closed."""
    short = [LOGIN, tcp(command_field(0x0C, text=b"")), least_data(0x08),
             *(tcp(command_field(codec)) for codec in COMMANDS)]
    data = b"".join(short)
    for cut in range(len(data)):
        yield streaming(family, "two pieces", f"{cut},{len(data)}", data, short)
    whole = [LOGIN] + [packet for _, packet in good_packets(family)]
    for sizes in ("1", "0,1", "2", "7", "8", "9", "16", "17", "18", "8,9", "17,8", "1,1280", "1279", "1280", "99999"):
        yield streaming(family, "pieces", sizes, data, short)
    for sizes in ("17", "255", "1279", "1280", "99999"):
        yield streaming(family, "pieces", sizes, b"".join(whole), whole)
    yield streaming(family, "nothing", "1", b"", [], phase=0)
    ends = [sum(map(len, short[:many])) for many in range(len(short) + 1)]
    for size in range(len(data)):
        done = max(many for many in range(len(ends)) if ends[many] <= size)
        for sizes in ("1", "99999"):
            yield streaming(family, "beginning", sizes, data[:size], short[:done], phase=min(done, 1),
                            held=data[ends[done]:size])
    for *end, last in (*refused_headers(family), *refused_packets(family)):
        end = " ".join(map(str, end))
        for sizes in ("1", "8", "11,30", "99999"):
            yield streaming(family, "closed", sizes, data + last + LOGIN, short, end, len(data + last), 2)
        yield streaming(family, "closed at once", "99999", LOGIN + last, [LOGIN], end, len(LOGIN + last), 2)
    for sizes in ("1", "16", "17", "99999"):
        for at, login in refused_logins():
            yield streaming(family, "login refused", sizes, login + data, [], f"15 0 {at}", 17, 2)
        yield streaming(family, "a second login", sizes, LOGIN + data, [LOGIN], "2 0 0", 25, 2)


PARTS = (beginnings, frames, checksums, codecs_and_counts, cuts, fields, later_records, counts_and_lengths,
         past_the_record, sizes, wraps, tags, command_rules, few_bytes, times, commands_as_data, imeis, lookups,
         long_records, twice, last_known, places, doubles, totals, both_passed, most_passed, buffers, sample_contents,
         contents, form_entries, form_rules, form_limits, form_sizes, walk_orders, head_orders, command_orders,
         everywhere, command_texts, feeds, refused_states, starts, packet_rooms, wanted, streams)


def in_each_family(parts):
    """The calls of parts in each family; those that name none are made once."""
    for family in FAMILIES.values():
        for part in parts:
            for name, line, expected in part(family):
                if names_family(line) or family == FAMILIES[2]:
                    yield f"{name}, family {family.number}", in_family(family.number, line), expected


def edge_calls():
    yield from in_each_family(PARTS)
    for part in (limits, unknown_families, unknown_starts):
        yield from part()
