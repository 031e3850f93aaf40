"""Billing lines at the edges of their rules: (name, call line, expected answer or None).

The expected answers follow from request 4 of document 02 and from the way an
input is built here; with None the two programs only have to agree. Lines are
written in each family (as in edges.py); their readers name none.
"""

from edges import (LARGE, SIDES, changed, data_field, each_side, in_each_family, lending, many_elements, of_elements,
                   ones_filling, pair, refused, room_for_records, tcp)
from examples import SAMPLE
from generate import KINDS, Record, joined, quoted, shown

LINES_LIMIT = 5120                  # bytes that hold the lines of every input
SAMPLE_LINE = b"1000,-0.0000001,54.7146368,5,21=3\n"

# The leading fields of a line that is right, and of each element that is put behind them.
LEADING = [b"1000", b"-0.0000001", b"54.7146368", b"5"]
START = len(b",".join(LEADING)) + 1

PLAIN = bytes(byte for byte in range(0x20, 0x7F) if byte not in b'",\\')
OTHERS = bytes(byte for byte in range(256) if byte not in PLAIN)


# ---------------------------------------------------------------- writing

def writing(name, side, data, codec, records):
    """Each record's line by its number, and all of them; what is not there."""
    texts = [each.line(codec) for each in records]
    for place, text in enumerate(texts):
        yield from lending(name, f"line_of_{side} {shown(data)} {place}", text)
        yield from reading_back(name, text, records[place], codec)
    yield from lending(name, f"lines_of_{side} {shown(data)}", b"".join(texts))
    for beyond in (len(records), len(records) + 1) + LARGE:
        for lent in ("-", "ee" * 100):
            yield name, f"line_of_{side} {shown(data)} {beyond} {lent}", f"{refused(16)} {lent}"


def reading_back(name, text, each, codec):
    """The line of a record gives its fields and elements."""
    elements = [(kind, ident, value) for kind, group in zip(KINDS if codec == 0x8E else KINDS[:4], each.groups)
                for ident, value in group]
    numbers = [int.from_bytes(each.time, "big"),
               *(int.from_bytes(each.place[at:at + 4], "big", signed=True) for at in (0, 4)),
               int.from_bytes(each.place[13:], "big")]
    starts = [0]
    for field in text[:-1].split(b","):
        starts.append(starts[-1] + len(field) + 1)
    yield name, f"read_line {shown(text)}", f"accepted {' '.join(map(str, numbers))} {len(elements)} {starts[4]}"
    yield name, f"wrong_byte {shown(text)}", f"byte {len(text)}"
    for place, (kind, ident, value) in enumerate(elements):
        if kind == 9:
            answer = f"accepted {ident} 1 0 {len(value)} {starts[place + 5]} {shown(value + b'~~')}"
        else:
            told = int.from_bytes(value, "big")
            answer = f"accepted {ident} 0 {told} 0 {starts[place + 5]} {'7e' * (len(value) + 2)}"
        for call in (f"element_in_line {shown(text)} {place}", f"element_at {shown(text)} {starts[place + 4]}"):
            yield name, f"{call} {'7e' * (len(value) + 2)}", answer


def sample(_):
    """The line that the request gives, of the bench sheet's sample as a datagram and as a TCP packet."""
    data = bytes.fromhex(SAMPLE)
    for side, of in (("datagram", data), ("packet", tcp(data[23:]))):
        yield from lending("sample", f"line_of_{side} {shown(of)} 0", SAMPLE_LINE)
        yield from lending("sample", f"lines_of_{side} {shown(of)}", SAMPLE_LINE)
    yield "sample", f"read_line {shown(SAMPLE_LINE)}", "accepted 1000 -1 547146368 5 1 29"
    yield "sample", f"element_in_line {shown(SAMPLE_LINE)} 0 -", "accepted 21 0 3 0 34 -"


def records(family):
    """Records of all kinds, and both ends of each field's range, in each codec."""
    for codec, side, wrap, _ in each_side(family):
        ends = []
        for byte, place in ((0x00, "00000000 00000000"), (0xFF, "ffffffff ffffffff"), (0x00, "80000000 7fffffff"),
                            (0x80, "7fffffff 80000000"), (0x01, "00000001 fffffffe"), (0x7F, "00989680 ff676980")):
            fill = bytes([byte])
            groups = [[(byte if codec == 0x08 else 257 * byte, fill * kind)] for kind in KINDS[:4]]
            groups.append([(257 * byte, fill * 3)] if codec == 0x8E else [])
            ends.append(Record(8 * fill, 0, bytes.fromhex(place) + 7 * fill, 0, 0, groups))
        long = [] if family.record else [[pair(codec)[0], many_elements(codec)]]
        for several in (pair(codec) + [of_elements(codec)], ends, [of_elements(codec)], *long):
            yield from writing("records", side, wrap(data_field(codec, several)), codec, several)


def tags(_):
    """Tags of every byte, and those that would add a field or a line."""
    texts = [bytes(range(64 * part, 64 * part + 64)) for part in range(4)]
    texts += [b"", b'"', b",", b"\\", b"\n", b"\r\n", b'","', b'",7="', b'"\n1000,0.0000000,0.0000000,0',
              b"\\22", b"=", b" ", b"~", b"\x7f", b"\xff", b"\0", "Žydrūnė".encode(), b'""', b"1", b"\\" * 60]
    for side, wrap in SIDES.items():
        for data in texts:
            each = of_elements(0x8E)
            each.groups[4] = [(403, data)]
            yield from writing("tag", side, wrap(data_field(0x8E, [each])), 0x8E, [each])
    each = of_elements(0x8E, 1)
    each.groups[4] = [(65535, b'a",\\\n'), (0, b""), (7, b"\xc5\xbd")]
    line = b'0,0.0000000,0.0000000,0,0=0,65535="a\\22\\2C\\5C\\0A",0="",7="\\C5\\BD"\n'
    yield from lending("tag", f"lines_of_packet {shown(tcp(data_field(0x8E, [each])))}", line)


def longest(family):
    """Inputs of the most bytes whose lines are longest, in a buffer that holds the lines of any."""
    for side, wrap in SIDES.items():
        room = room_for_records(family, side)
        several = [of_elements(0x08, ones) for ones in ones_filling(family, room)]
        for each in several:
            each.groups[0] = [(255, b"\xff")] * each.elements()
            each.time, each.place = b"\xff" * 8, bytes.fromhex("80000000 80000000") + b"\xff" * 7
        data, text = wrap(data_field(0x08, several)), b"".join(each.line(0x08) for each in several)
        most = getattr(family, side)
        assert most - 1 <= len(data) <= most and len(text) <= LINES_LIMIT
        yield from lending("longest", f"lines_of_{side} {shown(data)}", text, more=[LINES_LIMIT])
        each = of_elements(0x8E)
        each.groups[4] = [(65535, bytes((family.record or room) - each.size(0x8E) - 4))]
        data = wrap(data_field(0x8E, [each]))
        yield from lending("longest", f"line_of_{side} {shown(data)} 0", each.line(0x8E), more=[LINES_LIMIT])


# ---------------------------------------------------------------- reading fields

def numbers(limit):
    """Texts of a number below a limit, each with its value or None."""
    for value in (0, 1, 9, 10, 11, 99, 100, limit // 2, limit - 2, limit - 1):
        yield b"%d" % value, value
    for value in (limit, limit + 1, 10 * limit, 10 * limit + 5, limit << 32, (1 << 64) + 1, (1 << 128) + 1, 10 ** 50):
        yield b"%d" % value, None
    for wrong in (b"", b"00", b"01", b"007", b"0" * 20, b"+1", b"-1", b"-0", b" 1", b"1 ", b"\t1", b"1.0", b"1.",
                  b"0x1", b"1e3", b"1_0", b"1\0", b"\x001", b"/", b":", b"1/", b"1:", b"\xb21", b'"1"', b"1\r", b"1\n",
                  b"1=1", b"A", b"1;"):
        yield wrong, None


def coordinates():
    """The same of a coordinate."""
    for value in (b"0.0000000", b"0.0000001", b"-0.0000001", b"0.9999999", b"1.0000000", b"-1.0000000", b"9.9999999",
                  b"10.0000000", b"99.0000000", b"100.0000000", b"-180.0000000", b"213.9999999", b"214.7483646",
                  b"214.7483647", b"-214.7483647", b"-214.7483648"):
        yield value, int(value.replace(b".", b""))
    for wrong in (b"214.7483648", b"-214.7483649", b"214.7483650", b"214.9999999", b"215.0000000", b"-215.0000000",
                  b"429.4967295", b"429.4967296", b"-429.4967297", b"1844674407370.9551617", b"9" * 50 + b".0000000",
                  b"-0.0000000", b"00.0000000", b"-00.0000001", b"01.0000000", b"-01.0000000", b"+1.0000000",
                  b"--1.0000000", b"- 1.0000000", b" 1.0000000", b"1.0000000 ", b"1 .0000000", b"1. 000000",
                  b"1.000000", b"1.00000000",
                  b"1.", b"1", b".0000000", b"-.0000001", b"-", b"", b".", b"1..0000000", b"1.000.000", b"1.0.00000",
                  b"1:0000000", b"1.000000A", b"1.0000000-", b"1.-000000", b"1.+000000", b"1.00000e1", b"A.0000000",
                  b"1-.0000000", b"0000000",
                  b"1.0000000\r", b'"1.0000000"', b"0.0000000\0"):
        yield wrong, None


def values():
    """Texts of an element's value, each with its number or tag, or None."""
    yield from ((text, value) for text, value in numbers(1 << 64) if text[:1] != b'"')
    for data in (b"", PLAIN, OTHERS, b"a", b" ", b"=", b"~", b"22", bytes(300), b"x" * 300):
        yield quoted(data), data
    for byte in range(256):
        one = bytes([byte])
        yield b'"\\%02X"' % byte, one if byte in OTHERS else None
        if byte in OTHERS and one != b",":
            yield b'"%s"' % one, None
        if b"\\%02x" % byte != b"\\%02X" % byte:
            yield b'"\\%02x"' % byte, None
    for wrong in (b'"', b'"a', b'a"', b'""a', b'"a"b"', b'"a""', b'"\\', b'"\\"', b'"\\2"', b'"\\22', b'"\\2',
                  b'"\\G2"', b'"\\2G"', b'"\\/0"', b'"\\:0"', b'"\\@0"', b'"\\0/"', b'"\\0:"', b'"\\0@"', b'"\\x22"',
                  b'"\\\\"',
                  b'"\\n"', b'"\\"22"', b"'a'",
                  b'1"a"', b' "a"', b'"a" ', b'\\22a\\22', b'"a"=1', b'"\\0"0"', b'"\\ 22"'):
        yield wrong, None


def placed(before, text, behind=()):
    """A line with a field in its place, and the byte at which that starts."""
    return joined([*before, text, *behind]), sum(len(field) + 1 for field in before)


def judged(name, text, wrong, answer=None):
    """A line read: wrong from a byte on, or right (None) with this answer."""
    yield name, f"read_line {shown(text)}", answer if wrong is None else refused(20)
    yield name, f"wrong_byte {shown(text)}", f"byte {len(text) if wrong is None else wrong}"


def leading_fields():
    """Each leading field, the others being right."""
    right = [1000, -1, 547146368, 5]
    for place, texts in enumerate((numbers(1 << 64), coordinates(), coordinates(), numbers(1 << 16))):
        for field, value in texts:
            for behind in ([b"21=3"], [b"", b"?"]) if value is None else ([b"21=3"],):
                text, at = placed(LEADING[:place], field, LEADING[place + 1:] + behind)
                told = [*right[:place], value, *right[place + 1:]]
                start = START - len(LEADING[place]) + len(field)
                yield from judged("field", text, at if value is None else None,
                                  f"accepted {' '.join(map(str, told))} 1 {start}")


def element_fields():
    """Each element's field: first, behind a number, behind a tag, before others; by its number and by its byte."""
    fields = [(b"%s=%s" % (text, field), None if ident is None else (ident, value))
              for field, value in ((b"3", 3), (b'"3"', b"3")) for text, ident in numbers(1 << 16)]
    fields += [(b"21=" + text, None if value is None else (21, value)) for text, value in values()]
    fields += [(text, None) for text in (
        b"", b"=", b"21", b"=3", b"21==3", b"21=3=", b'21"3"', b'"21"=3', b'="3"', b"21:3", b"21 =3", b"21= 3",
        b"21=3 ", b" 21=3", b"21=+3", b"21=-3", b'21="3"\r')]
    for field, told in fields:
        yield from one_element(field, told)


def one_element(field, told):
    text, at = placed(LEADING, field)
    yield from judged("element", text, at if told is None else None, f"accepted 1000 -1 547146368 5 1 {at}")
    by_number, by_byte = f"element_in_line {shown(text)} 0", f"element_at {shown(text)} {at}"
    if told is None:
        for call in (by_number, by_byte):
            yield "element", f"{call} eeee", f"{refused(20)} eeee"
        text, at = placed(LEADING + [b"0=0"], field, [b'7=""'])
        yield from judged("element", text, at)
        yield "element", f"element_in_line {shown(text)} 0 -", f"{refused(20)} -"
        yield "element", f"element_at {shown(text)} {at} -", f"{refused(20)} -"
        yield "element", f"element_at {shown(text)} {START} -", f"accepted 0 0 0 0 {START + 4} -"
        return
    ident, value = told
    for call in (by_number, by_byte):
        if isinstance(value, int):
            for lent in ("-", "eeee"):
                yield "element", f"{call} {lent}", f"accepted {ident} 0 {value} 0 {len(text)} {lent}"
            continue
        for room in {0, max(len(value) - 1, 0), len(value), len(value) + 3}:
            lent = b"\xee" * room
            answer = f"{refused(18)} {shown(lent)}"
            if room >= len(value):
                answer = f"accepted {ident} 1 0 {len(value)} {len(text)} {shown(value + lent[len(value):])}"
            yield "element", f"{call} {shown(lent)}", answer


def orders():
    """A number behind a tag is wrong from its field on; a tag behind a tag is right."""
    for behind in (b"7=1", b"7=0", b"7=x", b"7="):
        for before in ([b'5="a"'], [b"1=1", b'5=""'], [b'5="a"', b'6="b"']):
            text, at = placed(LEADING + before, behind, [b'9="c"'])
            yield from judged("order", text, at)
            yield "order", f"element_in_line {shown(text)} 0 eeee", f"{refused(20)} eeee"
            if behind in (b"7=1", b"7=0"):
                yield "order", f"element_at {shown(text)} {at} -", f"accepted 7 0 {behind[-1] - 48} 0 {at + 4} -"
    text = joined(LEADING + [b"1=1", b"1=1", b'1=""', b'1="1"', b'0=""'])
    yield from judged("order", text, None, f"accepted 1000 -1 547146368 5 5 {START}")


# ---------------------------------------------------------------- reading whole lines

def ends():
    """The LF, missing fields, empty ones, and a comma at the end."""
    body = b",".join(LEADING + [b"21=3", b'7="a"'])
    for text in (b"", b"0", b",", body, body + b"\r", body + b"\0", body + b",", body + b"\n ", body + b"\nx", b'"'):
        yield from judged("no LF", text, len(text))
    last = len(body) - len(b'7="a"')
    for text, wrong in ((body + b"\n\n", last), (body + b"\r\n", last), (body + b",\n", len(body) + 1),
                        (b"\n" + body + b"\n", 0), (body + b"\n" + body + b"\n", last), (body + b" \n", last),
                        (b" " + body + b"\n", 0), (b"\n", 0), (b"\n\n", 0), (b",\n", 0), (b",,,\n", 0), (b"\r\n", 0),
                        (body + b",,\n", len(body) + 1), (b'"\n', 0)):
        yield from judged("end", text, wrong)
        yield "end", f"element_in_line {shown(text)} 0 -", f"{refused(20)} -"
    for kept in range(1, 4):
        text = joined(LEADING[:kept])
        yield from judged("fields missing", text, len(text) - 1)
        yield from judged("empty field", joined(LEADING[:kept] + [b""]), len(text))
    for place in range(6):
        fields = LEADING + [b"21=3", b"66=4"]
        text, at = placed(fields[:place], b"", fields[place:])
        yield from judged("empty field", text, at)
        text, at = placed(fields[:place], b"", fields[place + 1:])
        yield from judged("empty field", text, at)
    text = joined(LEADING)
    yield from judged("no elements", text, None, f"accepted 1000 -1 547146368 5 0 {len(text)}")
    for number in (0, 1) + LARGE:
        yield "no elements", f"element_in_line {shown(text)} {number} ee", f"{refused(16)} ee"
    yield "no elements", f"element_at {shown(text)} {len(text)} ee", f"{refused(20)} ee"


def elements():
    """By number, and by each byte of a line; a line of many elements, one of a long tag."""
    text = joined(LEADING + [b"21=3", b"66=24079", b'403="a\\2C"', b'406=""'])
    for number in (4, 5) + LARGE:
        yield "no such element", f"element_in_line {shown(text)} {number} eeee", f"{refused(16)} eeee"
    for at in (*range(len(text) + 2), *LARGE):
        yield "byte", f"element_at {shown(text)} {at} eeeeee", None
        # whatever the last byte is, it is no part of the field
        yield "byte", f"element_at {shown(text[:at])} {START} eeeeee", None
    many = joined(LEADING + [b"%d=%d" % (place, place * place) for place in range(2000)])
    yield from judged("many elements", many, None, f"accepted 1000 -1 547146368 5 2000 {START}")
    for number in (0, 9, 999, 1999):
        ends_at = START + len(b",".join(many.split(b",")[4:5 + number])) + 1 - (number == 1999)
        answer = f"accepted {number} 0 {number ** 2} 0 {ends_at} -"
        yield "many elements", f"element_in_line {shown(many)} {number} -", answer
    yield "many elements", f"element_in_line {shown(many)} 2000 -", f"{refused(16)} -"
    data = bytes(range(256)) * 20
    text = joined(LEADING + [b"1=" + quoted(data)])
    yield from judged("long tag", text, None, f"accepted 1000 -1 547146368 5 1 {START}")
    for call in (f"element_in_line {shown(text)} 0", f"element_at {shown(text)} {START}"):
        yield "long tag", f"{call} {'00' * 5119}", f"{refused(18)} {'00' * 5119}"
        yield "long tag", f"{call} {'00' * 5121}", f"accepted 1 1 0 5120 {len(text)} {shown(data)}00"


def damages():
    """A line damaged by one byte: replaced, left out, doubled, cut short there."""
    text = joined(LEADING + [b"21=3", b"65535=18446744073709551615", b'403="a\\22F"', b'7=""'])
    for at in range(len(text)):
        damaged = [changed(text, at, byte) for byte in b'019,=".-+\\\n A' if byte != text[at]]
        damaged += [changed(text, at, text[at] ^ bit) for bit in (1, 32, 128)]
        damaged += [text[:at] + text[at + 1:], text[:at] + text[at:at + 1] + text[at:], text[:at], text[at:]]
        for wrong in damaged:
            yield "damaged", f"wrong_byte {shown(wrong)}", None
            yield "damaged", f"read_line {shown(wrong)}", None
        yield "damaged", f"element_in_line {shown(damaged[at % len(damaged)])} 2 {'ee' * 8}", None


def line_edge_calls():
    yield from in_each_family((sample, records, tags, longest))
    for part in (leading_fields, element_fields, orders, ends, elements, damages):
        yield from part()
