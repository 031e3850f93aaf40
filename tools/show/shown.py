"""What is shown of an input: its items, as the library answers them; of each its bytes, fields, values and words."""
import subprocess
from dataclasses import dataclass, field

import calls
import capture
import fields
import records

NAMES = {
    "packet": "TCP data packet",
    "datagram": "UDP datagram",
    "login": "TCP login",
    "command": "TCP command packet",
    "form": "TLV form",
}
COMMANDS = (0x0C, 0x0D, 0x0E)


class Failed(Exception):
    """A line for standard error."""


@dataclass
class Item:
    heading: str
    data: bytes
    given: list  # for scripts: a dictionary for each record, or one
    words: str = ""  # what the program says of it
    fields: list = field(default_factory=list)


def run(program, words, **source):
    """What the program writes to standard output for these words; what it writes to standard error fails."""
    done = subprocess.run([str(program), *words], stdout=subprocess.PIPE, stderr=subprocess.PIPE, check=False, **source)
    if done.stderr or done.returncode:
        raise Failed(done.stderr.decode(errors="replace").strip() or f"inspect: the program ended with {done.returncode}")
    return done.stdout


class Shown:
    """The items of an input in a family, and whether one of them was refused. `all_words`: what the program says is
    asked of accepted items too."""

    def __init__(self, program, library, family, all_words):
        self.program, self.library = program, calls.Library(library)
        self.family, self.number = family, int(family) if family.isdigit() else 0
        self.all_words, self.items, self.refused = all_words, [], False

    def read(self, kind, data):
        """The library's answer; where it accepts, what scripts get of it and the fields over the bytes."""
        if kind == "login":
            answer = self.library.login(data)
            return answer, records.of_login(answer), fields.of_login()
        if kind == "command":
            answer = self.library.command(self.number, data)
            return (answer, [], []) if answer.number else (answer, records.of_command(data, answer), fields.of_command(answer))
        if kind == "form":
            answer, packet = self.library.packet_of_form(self.number, data)
            return answer, [] if answer.number else self.read("packet", packet)[1], []
        answer, words = self.library.contents(kind, self.number, data)
        if answer.number:
            return answer, [], []
        table = calls.Table(words)
        return answer, records.of_data(kind, data, table), fields.of_data(kind, data, table)

    def add(self, kind, data, more, heading=""):
        """An item of this kind; `more` is what scripts get of where it stands."""
        answer, given, over = self.read(kind, data)
        words = ""
        if answer.number or self.all_words:
            words = run(self.program, ["family", self.family, kind], input=data.hex().encode()).decode().rstrip("\n")
        if answer.number:
            self.refused = True
            given = [records.of_refusal(kind, answer, len(data), words.split("\n")[0])]
            over = [(answer.place, 1, "wrong", "refused here")] if "offset" in given[0] else []
        self.items.append(Item(heading or NAMES[kind], data, [{**more, **one} for one in given], words, over))

    def add_bytes(self, kind, heading, data, more, words=""):
        """Bytes that are no item."""
        self.items.append(Item(heading, data, [{**more, "kind": kind, "size": len(data), "hex": data.hex().upper()}], words))

    def add_connection(self, data, more):
        """The items of a connection, as its reader gives them."""
        for taken, at, piece in self.library.items(self.number, data):
            place = {**more, "from_byte": at}
            if taken is None:
                held = "bytes behind the refusal, not used" if self.refused else "bytes of an item that is not whole"
                self.add_bytes("rest", f"{held}, from byte {at}", piece, place, f"{len(piece)} {held}")
                continue
            kind = "login" if at == 0 else "command" if len(piece) > 8 and piece[8] in COMMANDS else "packet"
            self.add(kind, piece, place, f"{NAMES[kind]}, from byte {at}")

    def add_capture(self, data):
        """Each stream of a unit, item by item, and each datagram; what the gateway sent, as bytes."""
        streams, datagrams = capture.read(data)
        for stream in streams:
            joined, left = stream.joined()
            title = stream.title(len(joined), left)
            if capture.from_gateway(stream, streams):
                self.add_bytes("sent", title, joined, {"stream": title}, f"sent by the gateway: {joined.hex().upper()}")
            else:
                self.add_bytes("stream", title, b"", {"stream": title})
                self.add_connection(joined, {"stream": title})
        for title, payload in datagrams:
            if len(payload) == 7 and payload[:2] == b"\x00\x05":
                self.add_bytes("sent", title, payload, {"stream": title}, f"acknowledgement: {payload.hex().upper()}")
            else:
                self.add("datagram", payload, {"stream": title}, title)
