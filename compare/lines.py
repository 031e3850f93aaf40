"""Billing lines: request 4 of document 02, written from its text alone.

A field is read leniently and then held to what the writer would write of it, so
that exactly the writer's fields are taken. `Wrong` says why not; only the byte
at which the field starts is part of an answer.
"""

import re
from collections import namedtuple
from decimal import Decimal

LF, COMMA, QUOTE, BACKSLASH = b"\n", b",", b'"', b"\\"
LEADING = ("timestamp", "longitude", "latitude", "speed")
VALUE_LIMIT = 1 << 64               # of timestamps, and of fixed values
ID_LIMIT = 1 << 16                  # of speeds, too
COORDINATE_LIMIT = 1 << 31
PLACES = 7                          # of a coordinate
MANY = 40                           # digits, more than any field has

DIGITS = re.compile(rb"[0-9]+")
DEGREES = re.compile(rb"-?[0-9]+\.[0-9]{%d}" % PLACES)
ESCAPE = re.compile(rb"\\([0-9A-F]{2})")
ESCAPED = re.compile(rb"(?:[^\\]|\\[0-9A-F]{2})*", re.DOTALL)

# An element's ID, and its number or the bytes of its tag.
Printed = namedtuple("Printed", "id value")
Line = namedtuple("Line", LEADING + ("elements",))


class Wrong(Exception):
    """Not a line: why, and the byte at which the wrong field starts."""

    def __init__(self, why, at=0):
        super().__init__(why, at)
        self.why, self.at = why, at


# ---------------------------------------------------------------- writing

def number_text(value):
    return b"%d" % value


def degrees_text(value):
    """Ten-millionths of a degree as degrees."""
    return f"{Decimal(value).scaleb(-PLACES):f}".encode("ascii")


def escaped(byte):
    one = bytes([byte])
    if 0x20 <= byte <= 0x7E and one not in (QUOTE, COMMA, BACKSLASH):
        return one
    return b"\\%02X" % byte


def tag_text(data):
    return QUOTE + b"".join(map(escaped, data)) + QUOTE


def printed_text(element):
    value = element.value
    return number_text(element.id) + b"=" + (tag_text(value) if isinstance(value, bytes) else number_text(value))


def line_text(line):
    fields = [number_text(line.timestamp), degrees_text(line.longitude), degrees_text(line.latitude),
              number_text(line.speed)]
    return COMMA.join(fields + [printed_text(element) for element in line.elements]) + LF


# ---------------------------------------------------------------- reading

def whole_number(digits):
    """The number that digits say, or one too great for any field where they are too many."""
    return int(digits) if len(digits) <= MANY else 10 ** MANY


def read_number(field, text, limit):
    if not DIGITS.fullmatch(text):
        raise Wrong(f"{field}: {'digit' if text else 'empty'}")
    value = whole_number(text)
    if value >= limit:
        raise Wrong(f"{field}: range")
    if number_text(value) != text:
        raise Wrong(f"{field}: spare zero")
    return value


def read_degrees(field, text):
    if not DEGREES.fullmatch(text):
        raise Wrong(f"{field}: form")
    value = whole_number(text.replace(b".", b""))
    if not -COORDINATE_LIMIT <= value < COORDINATE_LIMIT:
        raise Wrong(f"{field}: range")
    if degrees_text(value) != text:
        raise Wrong(f"{field}: {'minus zero' if value == 0 and text[:1] == b'-' else 'spare zero'}")
    return value


def read_tag(text):
    if len(text) < 2 or text[-1:] != QUOTE:
        raise Wrong("tag: end")
    inner = text[1:-1]
    if not ESCAPED.fullmatch(inner):
        raise Wrong("tag: escape")
    data = ESCAPE.sub(lambda found: bytes.fromhex(found[1].decode("ascii")), inner)
    if tag_text(data) != text:
        # a byte that had to be escaped, or one that had not to
        raise Wrong("tag: byte" if len(tag_text(data)) > len(text) else "tag: escape not due")
    return data


def read_element(text, behind_tag=False):
    """An element's field; behind a tag there is no number."""
    ident, sign, value = text.partition(b"=")
    if not sign:
        raise Wrong("element: no =")
    ident = read_number("ID", ident, ID_LIMIT)
    if value[:1] == QUOTE:
        return Printed(ident, read_tag(value))
    value = read_number("value", value, VALUE_LIMIT)
    if behind_tag:
        raise Wrong("element: order")
    return Printed(ident, value)


def fields(body):
    """The fields between the commas, each with the byte at which it starts, and where one more would start."""
    starts, at = [], 0
    texts = body.split(COMMA)
    for text in texts:
        starts.append(at)
        at += len(text) + 1
    return texts, starts + [at]


def read_line(data):
    """A line, and the bytes at which its fields start, with that of one more."""
    if data[-1:] != LF:
        raise Wrong("line: LF", len(data))
    texts, starts = fields(data[:-1])
    readers = [lambda text: read_number("timestamp", text, VALUE_LIMIT),
               lambda text: read_degrees("longitude", text), lambda text: read_degrees("latitude", text),
               lambda text: read_number("speed", text, ID_LIMIT)]
    read, behind_tag = [], False
    for place, text in enumerate(texts):
        try:
            if place < len(readers):
                read.append(readers[place](text))
                continue
            read.append(read_element(text, behind_tag))
        except Wrong as wrong:
            raise Wrong(wrong.why, starts[place]) from None
        behind_tag = isinstance(read[-1].value, bytes)
    if len(read) < len(readers):
        raise Wrong("line: fields missing", len(data) - 1)
    return Line(*read[:4], read[4:]), starts
