"""Captures made by hand, each of the same connection and datagram: every link type, order of bytes and fault that
tools/show/capture.py knows. Exits 1 where one of them is read otherwise: python3 tests/captures.py"""
import pathlib
import struct
import sys

root = pathlib.Path(__file__).resolve().parent.parent
sys.dont_write_bytecode = True
sys.path.insert(0, str(root / "tools/show"))
import capture  # noqa: E402

UNIT, GATEWAY = (b"\x0a\x00\x00\x05", 40000), (b"\x0a\x00\x00\x01", 5027)
SYN, ACK = 2, 16
sample = lambda name: bytes.fromhex((root / f"samples/{name}.hex").read_text())
SENT = sample("login") + sample("codec8") + sample("codec16")
DATAGRAM = sample("udp-codec8")


def ip4(protocol, source, target, part, fragment=0):
    head = struct.pack(">BxHHHBBH", 0x45, 20 + len(part), 1, fragment, 64, protocol, 0) + source[0] + target[0]
    return head + part


def ip6(protocol, source, target, part):
    address = lambda end: b"\x20\x01" + bytes(10) + end[0]
    extension = struct.pack(">BB6x", protocol, 0)  # hop by hop
    return struct.pack(">IHBB", 0x60000000, 8 + len(part), 0, 64) + address(source) + address(target) + extension + part


def tcp(source, target, number, flags, payload=b""):
    return struct.pack(">HHIIBBHHH4x", source[1], target[1], number % 2**32, 0, 6 << 4, flags, 100, 0, 0) + payload


def udp(source, target, payload):
    return struct.pack(">HHHH", source[1], target[1], 8 + len(payload), 0) + payload


def ethernet(packet):
    kind = b"\x08\x00" if packet[0] >> 4 == 4 else b"\x86\xdd"
    return (bytes(12) + kind + packet).ljust(60, b"\0")  # short frames are padded


FRAMES = {  # link type, and how a frame of it is made
    "Ethernet": (1, ethernet),
    "VLAN": (1, lambda packet: bytes(12) + b"\x81\x00\x00\x07" + ethernet(packet)[12:]),
    "Linux cooked": (113, lambda packet: bytes(14) + ethernet(packet)[12:]),
    "Linux cooked 2": (276, lambda packet: ethernet(packet)[12:14] + bytes(18) + packet),
    "raw": (101, lambda packet: packet),
    "loopback": (0, lambda packet: b"\x02\0\0\0" + packet),
}


def segments(start=1000, ip=ip4, syn=True):
    """The connection: the login in two pieces, the last packet before the one that it follows, a piece sent twice."""
    to_gateway = lambda at, flags, payload=b"": ip(6, UNIT, GATEWAY, tcp(UNIT, GATEWAY, start + at, flags, payload))
    to_unit = lambda at, flags, payload=b"": ip(6, GATEWAY, UNIT, tcp(GATEWAY, UNIT, 77 + at, flags, payload))
    opening = [to_gateway(0, SYN), to_unit(0, SYN | ACK)] if syn else []
    return opening + [
        to_gateway(1, ACK, SENT[:5]),
        to_gateway(6, ACK, SENT[5:17]),
        to_unit(1, ACK, b"\x01"),
        to_gateway(1 + 83, ACK, SENT[83:]),
        to_gateway(18, ACK, SENT[17:83]),
        to_gateway(10, ACK, SENT[9:60]),
        to_unit(2, ACK, b"\0\0\0\1"),
        ip(17, UNIT, GATEWAY, udp(UNIT, GATEWAY, DATAGRAM)),
    ]


def pcap(packets, link="Ethernet", order="<", magic=0xA1B2C3D4, held=65536):
    number, frame = FRAMES[link]
    data = struct.pack(order + "IHHIIII", magic, 2, 4, 0, 0, 65536, number)
    for packet in packets:
        whole = frame(packet)
        data += struct.pack(order + "IIII", 1562760414, 0, len(whole[:held]), len(whole)) + whole[:held]
    return data


def read(data):
    """What is read: of each stream its bytes, how many are behind a gap, and whether it is the gateway's; the datagrams."""
    streams, datagrams = capture.read(data)
    return [(*one.joined(), capture.from_gateway(one, streams)) for one in streams], [payload for _, payload in datagrams]


def fails(data):
    try:
        read(data)
    except capture.Unreadable as error:
        return str(error)
    return None


WHOLE = ([(SENT, 0, False), (b"\x01\0\0\0\1", 0, True)], [DATAGRAM])
gap = segments()
del gap[6]  # the codec 8 packet; but for the piece that was sent twice
CASES = {
    **{link: (read(pcap(segments(), link)), WHOLE) for link in FRAMES},
    "big-endian": (read(pcap(segments(), order=">")), WHOLE),
    "nanoseconds": (read(pcap(segments(), magic=0xA1B23C4D)), WHOLE),
    "IPv6": (read(pcap(segments(ip=ip6))), WHOLE),
    "numbers that go round": (read(pcap(segments(start=2**32 - 30))), WHOLE),
    "opening not captured": (read(pcap(segments(syn=False))), WHOLE),
    "opened twice": (read(pcap(segments() + segments(start=9999)))[0][2], (SENT, 0, False)),
    "a gap": (read(pcap(gap))[0][0], (SENT[:60], 107, False)),
    "a fragment": (read(pcap([ip4(17, UNIT, GATEWAY, udp(UNIT, GATEWAY, DATAGRAM), 0x2000)])), ([], [])),
    "ARP": (read(pcap([])[:24] + struct.pack("<IIII", 0, 0, 42, 42) + bytes(12) + b"\x08\x06" + bytes(28)), ([], [])),
    "cut by the capture": (read(pcap(segments(), held=100))[0][0][0], SENT[:60]),
    "cut off": (fails(pcap(segments())[:-1]), "a pcap file that is cut off at byte 904"),
    "another link": (fails(pcap(segments())[:20] + b"\x69" + pcap(segments())[21:]), "frames of link type 105, which are not known here"),
    "pcapng": (fails(b"\x0a\x0d\x0d\x0a" + bytes(40)), "a pcapng file: turn it into pcap by 'tcpdump -r FILE -w FILE.pcap'"),
    "a header alone": (fails(pcap([])[:20]), "a pcap file without its header"),
}
wrong = [name for name, (given, expected) in CASES.items() if given != expected]
for name in wrong:
    print(f"tests/captures.py: {name}: {CASES[name][0]!r}, expected {CASES[name][1]!r}", file=sys.stderr)
print(f"{len(CASES)} captures, {len(wrong)} read otherwise")
sys.exit(1 if wrong else 0)
