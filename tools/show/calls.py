"""The library's calls that the pages and lines for scripts are made of, through ctypes."""
import ctypes

LARGEST = 1280  # bytes of a packet or a datagram
BYTES, SIZE = ctypes.c_char_p, ctypes.c_size_t


class Answer(ctypes.Structure):
    """What every answer of the header begins with; `number` is 0 where the input is accepted."""

    _fields_ = [("number", SIZE), ("index", SIZE), ("place", SIZE)]


class Written(Answer):
    _fields_ = [("written", SIZE)]


class Login(Answer):
    _fields_ = [("imei", ctypes.c_uint64)]


class Command(Answer):
    _fields_ = [
        ("codec", ctypes.c_uint8),
        ("type", ctypes.c_uint8),
        ("time", ctypes.c_uint32),
        ("imei", ctypes.c_uint64),
        ("offset", SIZE),
        ("size", SIZE),
    ]


class Taken(Answer):
    _fields_ = [
        ("used", SIZE),
        ("item", ctypes.c_uint8),
        ("imei", ctypes.c_uint64),
        ("size", SIZE),
        ("fill", SIZE),
        ("phase", ctypes.c_uint8),
    ]


def signed(number, bits):
    return number - (1 << bits) if number >> (bits - 1) else number


class Library:
    """The calls, of a shared library of this ABI."""

    def __init__(self, path):
        self.calls = ctypes.CDLL(str(path))
        self.calls.brundilope_abi_1  # a library of another ABI has no such name

    def call(self, name, result, types, *words):
        function = getattr(self.calls, "brundilope_" + name)
        function.restype, function.argtypes = result, types
        return function(*words)

    def login(self, data):
        return self.call("read_login", Login, [BYTES, SIZE], data, len(data))

    def command(self, family, data):
        return self.call("read_command", Command, [SIZE, BYTES, SIZE], family, data, len(data))

    def contents(self, kind, family, data):
        """The answer and the words of the table of contents of a packet or a datagram."""
        words = (ctypes.c_uint64 * (LARGEST // 2))()
        types = [SIZE, BYTES, SIZE, ctypes.POINTER(ctypes.c_uint64), SIZE]
        answer = self.call(f"contents_of_{kind}", Written, types, family, data, len(data), words, len(words))
        return answer, words[: answer.written]

    def packet_of_form(self, family, data):
        """The answer and the packet."""
        out = ctypes.create_string_buffer(LARGEST)
        answer = self.call(
            "packet_of_form", Written, [SIZE, BYTES, SIZE, BYTES, SIZE], family, data, len(data), out, LARGEST
        )
        return answer, out.raw[: answer.written]

    def items(self, family, data):
        """What a fresh connection gives of these bytes: for each item the answer, where it starts, its bytes; at the end
        no answer for the bytes that are held or not used."""
        held, packet = ctypes.create_string_buffer(LARGEST), ctypes.create_string_buffer(LARGEST)
        types = [SIZE, ctypes.c_uint8, SIZE, BYTES, SIZE, BYTES, SIZE, BYTES, SIZE]
        phase = fill = start = at = 0
        while at < len(data) and phase != 2:
            piece = data[at : at + LARGEST]
            words = family, phase, fill, held, LARGEST, piece, len(piece), packet, LARGEST
            taken = self.call("feed_lent", Taken, types, *words)
            phase, fill, at = taken.phase, taken.fill, at + taken.used
            if taken.item or taken.number:
                yield taken, start, data[start:at]
                start = at
        if start < len(data):
            yield None, start, data[start:]


class Record:
    """A record by its words in a table of contents."""

    def __init__(self, words):
        time, places, motion, rest = words[:4]
        self.timestamp = time
        self.latitude, self.longitude = signed(places & 0xFFFFFFFF, 32), signed(places >> 32, 32)
        self.speed, self.satellites, self.angle = motion & 0xFFFF, motion >> 16 & 0xFF, motion >> 24 & 0xFFFF
        self.altitude = signed(motion >> 40 & 0xFFFF, 16)
        self.priority, self.generation = motion >> 56 & 15, motion >> 60
        self.event, self.start, self.size = rest & 0xFFFF, rest >> 16 & 0xFFFF, rest >> 32 & 0xFFFF
        self.values = [Value(word) for word in words[4 : 4 + (rest >> 48)]]


class Value:
    """An element by its word."""

    def __init__(self, word):
        self.id, self.kind = word & 0xFFFF, word >> 16 & 0xFFFF
        self.offset, self.size = word >> 32 & 0xFFFF, word >> 48


class Table:
    """A packet or datagram by the words of its table of contents."""

    def __init__(self, words):
        head, self.imei = words[:2]
        self.codec, self.count = head & 0xFFFF, head >> 16 & 0xFFFF
        self.packet_id, self.unused, self.avl_packet_id = head >> 32 & 0xFFFF, head >> 48 & 0xFF, head >> 56
        self.records, at = [], 2
        while at < len(words):
            self.records.append(Record(words[at:]))
            at += 4 + len(self.records[-1].values)
