"""Reads a TCP data packet from standard input through the shared library, and prints what is in it.

BRUNDILOPE=dist/lib/libbrundilope.so.1 python3 dist/examples/read.py <dist/samples/codec16.bin
"""
import ctypes
import os
import sys

FAMILY = 2  # all units but FMB640, FMB641, FMC640, FMM640
LARGEST = 1280  # bytes of a packet


class Answer(ctypes.Structure):
    """What every answer of the header begins with."""

    _fields_ = [("number", ctypes.c_size_t), ("index", ctypes.c_size_t), ("place", ctypes.c_size_t)]


class Packet(Answer):
    _fields_ = [("codec", ctypes.c_uint8), ("count", ctypes.c_uint8)]


class Record(Answer):
    _fields_ = [
        ("timestamp", ctypes.c_uint64),
        ("priority", ctypes.c_uint8),
        ("longitude", ctypes.c_int32),
        ("latitude", ctypes.c_int32),
        ("altitude", ctypes.c_int16),
        ("angle", ctypes.c_uint16),
        ("satellites", ctypes.c_uint8),
        ("speed", ctypes.c_uint16),
        ("event", ctypes.c_uint16),
        ("generation", ctypes.c_uint8),
        ("elements", ctypes.c_size_t),
    ]


def call(library, name, result, *more):
    """A call on a packet of the family; `more` are the types of its arguments behind the packet."""
    function = getattr(library, "brundilope_" + name)
    function.restype = result
    function.argtypes = [ctypes.c_size_t, ctypes.c_char_p, ctypes.c_size_t, *more]
    return lambda packet, *words: function(FAMILY, packet, len(packet), *words)


def main():
    library = ctypes.CDLL(os.environ.get("BRUNDILOPE", "libbrundilope.so.1"))
    library.brundilope_abi_1  # these structs are those of ABI 1: a library of another one has no such name
    read_packet = call(library, "read_packet", Packet)
    record_in_packet = call(library, "record_in_packet", Record, ctypes.c_size_t)

    packet = sys.stdin.buffer.read(LARGEST + 1)
    answer = read_packet(packet)
    if answer.number:
        print(f"refusal {answer.number}, byte {answer.place}")
        sys.exit(1)
    print(f"codec {answer.codec:02X}, records {answer.count}")
    for number in range(answer.count):
        r = record_in_packet(packet, number)
        print(f"time {r.timestamp}, longitude {r.longitude}, latitude {r.latitude}, values {r.elements}")


main()
