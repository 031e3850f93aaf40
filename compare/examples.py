"""The papers' examples and one of our own as calls of family 2: (name, call line, expected answer or None).

P1 to P13 are the bench sheet of document 01; compare/vectors/006.txt holds the
streams of document 006, 010.txt the one of Codec 13, which only document 010 has,
request-2.txt our own, for request 2 of document 02, samples/lines.txt the lines of
samples. The expected answers are those of the papers, a refusal's offset that of
request 6 and the number of elements passed that of request 8 by hand; but TLV forms
and the packets behind them are made by the reference. The calls are written here
without the word of their family; `example_calls` puts it in.
"""

import os

import reference
from generate import TEXT_AT

HERE = os.path.dirname(os.path.abspath(__file__))
VECTORS = os.path.join(HERE, "vectors")
SAMPLES = os.path.join(HERE, "..", "samples")

SAMPLE = ("0038cafe0105000f313233343536373839303132333435080100000000000003e801ffffffff209cca80"
          "00640000070005000101150300000001")
SAMPLE_FORM = ("01006400081b006500e80300000000000001ffffffff80ca9c2064000000070500000000"
               "03000100150003")
GETIO = "000000000000000d0c010500000005676574696f01000000cb"
FAMILY = reference.FAMILIES[2]          # the bench sheet's (document 02, request 5)
ROOM = reference.STATE_ROOM


def changed(text, place, value):
    """Hexadecimal text with the byte at place (from the end if negative) replaced."""
    data = bytearray.fromhex(text)
    data[place] = value
    return data.hex()


def bench_calls():
    """P1 to P13 as (name, call, expected answer)."""
    counts = changed(changed(SAMPLE, 24, 2), -1, 2)
    return [
        ("P1", f"form_of_datagram {SAMPLE} {'ee' * 45}", f"written 43 {SAMPLE_FORM}eeee"),
        ("P2", f"acknowledge_datagram {SAMPLE} {'ee' * 7}", "written 7 0005cafe010501"),
        ("P3", f"read_datagram {changed(SAMPLE, 1, 0x37)}", "refused 4 0 0"),
        ("P4", f"read_datagram {changed(SAMPLE, -1, 2)}", "refused 7 0 57"),
        ("P5", f"read_datagram {changed(SAMPLE, 33, 3)}", "refused 10 0 33"),
        ("P6", f"read_datagram {changed(SAMPLE, 50, 2)}", "refused 9 0 25"),
        ("P7", f"read_datagram {changed(SAMPLE, 51, 2)}", "refused 8 0 57"),
        ("P8", f"read_datagram {counts}", "refused 8 1 57"),
        ("P9", f"read_command {GETIO}", "accepted 12 5 0 0 15 5"),
        ("P10", f"read_command {changed(GETIO, -1, 0xCA)}", "refused 5 0 21"),
        ("P11", "read_packet -", "refused 1 0 0"),
        ("P11", "read_command -", "refused 1 0 0"),
        ("P12", "read_packet 0000000000000000", "refused 3 0 4"),
        ("P12", "read_command 0000000000000000", "refused 3 0 4"),
        ("P13", "read_packet 00000000000004f5", "refused 3 0 4"),
        ("P13", "read_packet 00000000000004f4", "refused 4 0 0"),
        ("P13", "read_command 00000000000004f5", "refused 3 0 4"),
        ("P13", "read_command 00000000000004f4", "refused 4 0 0"),
        ("sample", f"read_datagram {SAMPLE}", "accepted 8 1 123456789012345 51966 1 5"),
        ("sample", f"record_in_datagram {SAMPLE} 0",
         "accepted 1000 1 -1 547146368 100 0 7 5 0 0 1"),
        ("sample", f"value_in_datagram {SAMPLE} 0 0", "accepted 21 1 53 1"),
        ("sample", f"id_in_datagram {SAMPLE} 0 21", "accepted 21 1 53 1 passed 1"),
        ("sample", f"id_in_datagram {SAMPLE} 0 3", "refused 16 0 0 passed 1"),
        ("sample", f"id_in_datagram {SAMPLE} 1 21", "refused 16 0 0 passed 0"),
        ("sample", f"id_view_in_datagram {SAMPLE} 0 21", "bytes 03"),
        ("sample", f"line_of_datagram {SAMPLE} 0 {'ee' * 36}",
         f"written 34 {b'1000,-0.0000001,54.7146368,5,21=3'.hex()}0aeeee"),
    ]


def refused_calls(name, kind, text, refused, offset):
    """An input that document 01 refuses, in each call that takes it."""
    answer = f"refused {refused} 0 {offset}"
    if kind == "command":
        return [(name, f"read_command {text}", answer), (name, f"command_text {text}", "bytes -")]
    calls = [f"read_{kind} {text}", f"record_in_{kind} {text} 0", f"value_in_{kind} {text} 0 0"]
    return [(name, call, answer) for call in calls] + [
        (name, f"id_in_{kind} {text} 0 1", f"{answer} passed 0"),
        (name, f"view_in_{kind} {text} 0 0", "bytes -"), (name, f"id_view_in_{kind} {text} 0 1", "bytes -"),
        (name, f"form_of_{kind} {text} eeee", answer + " eeee"),
        (name, f"contents_of_{kind} {text} {'ee' * 64}", f"{answer} {'ee' * 64}"),
        (name, f"line_of_{kind} {text} 0 {'ee' * 64}", f"{answer} {'ee' * 64}"),
        (name, f"lines_of_{kind} {text} {'ee' * 64}", f"{answer} {'ee' * 64}"),
        (name, f"acknowledge_{kind} {text} {'ee' * 7}",
         f"{answer} {'ee' * 7}" if kind == "datagram" else "written 4 00000000eeeeee")]


def fed(head, used, item, phase, fill=0, held="-"):
    """The answer of a feed: what is told, and the state without its family."""
    return f"{head} {used} {item}", f"{phase} {fill} {held}"


def both(family, value, lent=None):
    """The answers of a feed by value, whose state has the family too, and with a lent state; mostly the same."""
    told, state = value
    return f"{told} family {family.number} {state} lent {' '.join(lent or value)}"


def packet_fed(name, text):
    """A packet fed whole to a connection that expects one."""
    size = len(text) // 2
    return name, f"feed 1 0 - {ROOM} {text} {ROOM}", both(FAMILY, fed("fed 0 0 0", size, f"2 0 {size} {text}", 1))


def login_calls(name, text, imei):
    return [(name, f"read_login {text}", f"accepted {imei}"),
            (name, f"feed 0 0 - {ROOM} {text} {ROOM}", both(FAMILY, fed("fed 0 0 0", 17, f"1 {imei} 0 -", 1))),
            (name, f"answer_login {text} 1 ee", "written 1 01"),
            (name, f"answer_login {text} 0 ee", "written 1 00")]


def command_calls(name, packet, codec, type, time="0", imei="", text=""):
    """A command: read, fed, written, and refused where data packets are."""
    codec, kind, text = int(codec, 16), int(type, 16), text.lower()
    start, size = TEXT_AT[codec], len(packet) // 2
    words = f"{codec} {kind} {imei.encode().hex() or '-'} {time} {text or '-'}"
    return [(name, f"read_command {packet}", f"accepted {codec} {kind} {time} {imei or 0} {start} {len(text) // 2}"),
            (name, f"command_text {packet}", f"bytes {text or '-'}"),
            packet_fed(name, packet),
            (name, f"write_command {words} {'ee' * size}", f"written {size} {packet}"),
            (name, f"read_packet {packet}", "refused 6 0 8"),
            (name, f"acknowledge_packet {packet} {'ee' * 7}", "written 4 00000000eeeeee")]


def data_calls(name, kind, text, codec, records, reply):
    """A data packet or datagram: read, acknowledged, turned into its form, and that into a packet."""
    codec, reply, data = int(codec, 16), reply.lower(), bytes.fromhex(text)
    accepted = f"accepted {codec} {records}"
    if kind == "datagram":
        accepted += f" {data[8:23].decode()} {data[2] * 256 + data[3]} {data[4]} {data[5]}"
        packet, read = reference.tcp_packet(data[23:]), reference.read_datagram(FAMILY, data)
    else:
        packet, read = data, reference.read_packet(FAMILY, data)
    form = reference.tlv_form(data, read)
    lent = "ee" * (len(form) + 2)
    return [(name, f"read_{kind} {text}", accepted),
            (name, f"acknowledge_{kind} {text} {'ee' * 7}",
             f"written {len(reply) // 2} {reply}{'ee' * (7 - len(reply) // 2)}"),
            (name, f"form_of_{kind} {text} {lent}", f"written {len(form)} {form.hex()}eeee"),
            (name, f"packet_of_form {form.hex()} {'ee' * len(packet)}", f"written {len(packet)} {packet.hex()}"),
            (name, f"contents_of_{kind} {text} {'ee' * 512}", None),
            packet_fed(name, packet.hex()),
            (name, f"record_in_{kind} {text} {records}", "refused 16 0 0"),
            (name, f"id_in_{kind} {text} {records} 1", "refused 16 0 0 passed 0")]


def record_calls(name, kind, text, number, fields, elements):
    """A record by its number, and each of its values by number and by ID."""
    values = [item.lower().split("=") for item in elements]
    first = dict(reversed(values))      # of each ID
    calls = [(name, f"record_in_{kind} {text} {number}", f"accepted {' '.join(fields)} {len(values)}"),
             (name, f"value_in_{kind} {text} {number} {len(values)}", "refused 16 0 0"),
             (name, f"id_in_{kind} {text} {number} 65535", f"refused 16 0 0 passed {len(values)}")]
    for place, (ident, value) in enumerate(values):
        for call, word, found in (("view", place, value), ("id_view", ident, first[ident])):
            calls.append((name, f"{call}_in_{kind} {text} {number} {word}", f"bytes {found or '-'}"))
        for call, word in (("value", place), ("id", ident)):
            calls.append((name, f"{call}_in_{kind} {text} {number} {word}", None))
    return calls


def vector_calls(lines):
    """The calls of a file of vectors: (name, call, expected answer or None)."""
    for line in lines:
        name, kind, *told = line.split()
        if kind == "record":            # of the line before
            yield from record_calls(name, side, text, told[0], told[1:11], told[11:])
            continue
        side, text = kind, told[0].lower()
        told = dict(zip(told[1::2], told[2::2]))
        if "refused" in told:
            yield from refused_calls(name, side, text, **told)
        else:
            calls = {"login": login_calls, "command": command_calls}
            first = (name, text) if side in calls else (name, side, text)
            yield from calls.get(side, data_calls)(*first, **told)


def sample_line_calls():
    """The lines of the samples, as samples/lines.txt has them: each and all of them written."""
    with open(os.path.join(SAMPLES, "lines.txt"), "rb") as file:
        lines = file.readlines()
    for name, kind, records in (
            ("codec8", "packet", 1), ("codec8e", "packet", 1), ("codec16", "packet", 2),
            ("udp-codec8", "datagram", 1), ("udp-codec8e", "datagram", 1), ("driver-tags", "packet", 2)):
        with open(os.path.join(SAMPLES, f"{name}.hex"), encoding="ascii") as file:
            text = file.read().strip().lower()
        own, lines = lines[:records], lines[records:]
        for number, line in enumerate(own):
            yield name, f"line_of_{kind} {text} {number} {'ee' * len(line)}", f"written {len(line)} {line.hex()}"
            yield name, f"wrong_byte {line.hex()}", f"byte {len(line)}"
        together = b"".join(own)
        yield name, f"lines_of_{kind} {text} {'ee' * len(together)}", f"written {len(together)} {together.hex()}"
    assert not lines


def bare_calls():
    yield from bench_calls()
    yield from sample_line_calls()
    for name in ("006.txt", "010.txt", "request-2.txt"):
        with open(os.path.join(VECTORS, name), encoding="ascii") as file:
            yield from vector_calls(line for line in file if line.strip() and not line.startswith("#"))


def example_calls():
    for name, line, expected in bare_calls():
        yield name, reference.in_family(FAMILY.number, line), expected
