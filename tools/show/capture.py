"""Captures of tcpdump (pcap files): the bytes of each TCP stream, in order, and each UDP datagram."""
import ipaddress
import struct

from records import time_of

MAGIC = {  # the order of bytes, and parts of a second
    b"\xa1\xb2\xc3\xd4": (">", 1e6),
    b"\xd4\xc3\xb2\xa1": ("<", 1e6),
    b"\xa1\xb2\x3c\x4d": (">", 1e9),
    b"\x4d\x3c\xb2\xa1": ("<", 1e9),
}
PCAPNG = b"\x0a\x0d\x0d\x0a"
TCP, UDP = 6, 17
SYN, ACK = 2, 16
LINKS = {1: 12, 113: 14, 276: 0}  # Ethernet, Linux cooked, Linux cooked 2: where the protocol's number stands
BARE = {12, 14, 101, 228, 229}  # an IP packet alone


class Unreadable(Exception):
    """What is wrong with a capture."""


def is_capture(data):
    return data[:4] in MAGIC or data[:4] == PCAPNG


def frames(data):
    """Link type, seconds and bytes of each frame, and how many of its bytes were not captured."""
    if data[:4] == PCAPNG:
        raise Unreadable("a pcapng file: turn it into pcap by 'tcpdump -r FILE -w FILE.pcap'")
    order, fraction = MAGIC[data[:4]]
    if len(data) < 24:
        raise Unreadable("a pcap file without its header")
    link = struct.unpack_from(order + "I", data, 20)[0] & 0xFFFF
    at = 24
    while at < len(data):
        if at + 16 > len(data):
            raise Unreadable(f"a pcap file that is cut off at byte {at}")
        seconds, parts, held, size = struct.unpack_from(order + "IIII", data, at)
        if at + 16 + held > len(data):
            raise Unreadable(f"a pcap file that is cut off at byte {at}")
        yield link, seconds + parts / fraction, data[at + 16 : at + 16 + held], size - held
        at += 16 + held


def packet_in(link, frame):
    """The IP packet of a frame; nothing where it has none."""
    if link in BARE:
        return frame
    if link in (0, 108):
        return frame[4:]  # loopback: the family's number, in either order
    if link not in LINKS:
        raise Unreadable(f"frames of link type {link}, which are not known here")
    at = LINKS[link]
    kind = int.from_bytes(frame[at : at + 2], "big")
    at += 20 if link == 276 else 2
    while kind in (0x8100, 0x88A8):  # VLAN
        kind = int.from_bytes(frame[at + 2 : at + 4], "big")
        at += 4
    return frame[at:] if kind in (0x0800, 0x86DD) else b""


def segment_in(packet):
    """Protocol, source and destination address, segment or datagram of an IP packet; nothing where it is no whole one."""
    version = packet[0] >> 4 if packet else 0
    if version == 4 and len(packet) >= 20:
        head, size, part, protocol = (packet[0] & 15) * 4, *struct.unpack_from(">H2xHxB", packet, 2)
        if part & 0x3FFF:
            return None  # a fragment
        return protocol, ipaddress.ip_address(packet[12:16]), ipaddress.ip_address(packet[16:20]), packet[head:size]
    if version == 6 and len(packet) >= 40:
        size, protocol, at = 40 + int.from_bytes(packet[4:6], "big"), packet[6], 40
        while protocol in (0, 43, 60) and at + 8 <= len(packet):  # extension headers
            protocol, at = packet[at], at + 8 + packet[at + 1] * 8
        return protocol, ipaddress.ip_address(packet[8:24]), ipaddress.ip_address(packet[24:40]), packet[at:size]
    return None


def title(protocol, ends, seconds):
    source, target = (f"[{address}]:{port}" if address.version == 6 else f"{address}:{port}" for address, port in ends)
    return f"{protocol} {source} -> {target}, {time_of(round(seconds * 1000))}"


class Stream:
    """One direction of a TCP connection."""

    def __init__(self, ends, seconds):
        self.ends, self.seconds, self.parts = ends, seconds, []
        self.start = None  # the sequence number of its first byte, from the SYN
        self.opened = False  # by this side
        self.lost = 0  # bytes that the capture cut off

    def title(self, size, left):
        gap = f", {left} bytes behind a gap in the capture" if left else ""
        cut = f", {self.lost} bytes cut off by the capture" if self.lost else ""
        return f"{title('TCP', self.ends, self.seconds)}, {size} bytes{gap}{cut}"

    def joined(self):
        """Its bytes up to the first that is missing, and how many are known to be behind that."""
        if not self.parts:
            return b"", 0
        first = self.parts[0][0] if self.start is None else self.start
        behind = lambda number: (number - first + 2**31) % 2**32 - 2**31  # sequence numbers go round
        data, left = b"", 0
        for at, part in sorted(((behind(number), part) for number, part in self.parts), key=lambda pair: pair[0]):
            if at > len(data):
                left += len(part)
            elif at + len(part) > len(data):
                data += part[len(data) - at :]
        return data, left


def from_gateway(stream, streams):
    """Whether a stream is the gateway's side: the other side opened the connection, or sent the login."""
    other = [one for one in streams if one.ends == stream.ends[::-1]]
    if stream.opened or any(one.opened for one in other):
        return not stream.opened
    return any(one.joined()[0][:2] == b"\x00\x0f" for one in other)


def read(data):
    """The streams of a capture in order of their first segments, and the titles and bytes of its datagrams."""
    streams, datagrams, current = [], [], {}
    for link, seconds, frame, missing in frames(data):
        found = segment_in(packet_in(link, frame))
        if not found or len(found[3]) < 8:
            continue
        protocol, source, target, part = found
        ports = struct.unpack_from(">HH", part)
        ends = ((source, ports[0]), (target, ports[1]))
        if protocol == UDP:
            size = int.from_bytes(part[4:6], "big")
            cut = f", {missing} bytes cut off by the capture" if missing else ""
            datagrams.append((f"{title('UDP', ends, seconds)}, {size - 8} bytes{cut}", part[8:size]))
        elif protocol == TCP and len(part) >= 20:
            add_segment(streams, current, ends, seconds, part, missing)
    return streams, datagrams


def add_segment(streams, current, ends, seconds, part, missing):
    """A segment to its stream; a SYN of another number starts a stream anew."""
    number, flags = int.from_bytes(part[4:8], "big"), part[13]
    stream = current.get(ends)
    if stream is None or (flags & SYN and stream.start not in (None, (number + 1) % 2**32)):
        stream = current[ends] = Stream(ends, seconds)
        streams.append(stream)
    if flags & SYN:
        stream.start, stream.opened = (number + 1) % 2**32, not flags & ACK
    payload = part[(part[12] >> 4) * 4 :]
    if payload:
        stream.parts.append((number, payload))
    stream.lost += missing
