"""What documents 01 and 02 let each call answer, and how often a run reached it.

Every call has to reach every refusal that it can give, and all calls on a sort of
input together every place of it; each time with an offset that tells something:
where the place has the same offset in every input, with that one; else with two
at least, since one alone could come from a fixed number. Only answers that show
an offset count for this. A field of several bytes has to be missing as a whole
and in part, so that its start is told from the end of the bytes. A call on
commands has to reach all this with each codec of them by itself. A look-up by ID
has to end in every way that decides how many elements it passes, with a number
that tells something in the same sense. A form of more than three times its packet
has to be written, so that it tells something if none has more than four times.
"""

from collections import Counter, defaultdict

import reference

NUMBERS = range(1, 22)
CODECS = {0x08: "8", 0x8E: "8E", 0x10: "16"}
COMMANDS = {codec: f"codec {codec}" for codec in reference.COMMANDS}
KNOWN = tuple(reference.FAMILIES)
UNKNOWN = "unknown"             # stands for every family that is not known

# The refusals of each input in the order of document 01, each with its places: the parts of the rule.
FRAME = {1: [""], 2: [""], 3: ["under", "over"], 4: ["missing", "too many"], 5: ["upper", "lower"]}
COUNTS = {6: [""], 7: ["zero", "first zero", "differ"]}
# The fields of a record: each can be missing.
RECORD_FIELDS = [
    "timestamp", "priority", "longitude", "latitude", "altitude", "angle", "satellites", "speed", "event ID",
    "generation type", "total", "1 count", "1 ID", "1 value", "2 count", "2 ID", "2 value", "4 count", "4 ID",
    "4 value", "8 count", "8 ID", "8 value", "variable count", "variable ID", "variable length", "variable value"]
PART = ", in part"


def one_byte(field, codec):
    """Has a field one byte in a codec, so that it cannot be missing in part?"""
    widths = reference.WIDTHS[codec]
    if field == "event ID":
        return widths.event == 1
    if field.endswith(" ID"):
        return widths.id == 1
    if field == "total" or field.endswith(" count"):
        return widths.count == 1
    return field in ("priority", "satellites", "generation type", "1 value")


# The walk of a data packet or datagram.
PARTED = [field + PART for field in RECORD_FIELDS if not all(one_byte(field, codec) for codec in CODECS)]
WALK = {8: [*RECORD_FIELDS, *PARTED, "left over"], 9: ["", "variable left out"], 10: [""], 11: [""], 12: [""]}


def number_places(field):
    return [f"{field}: {why}" for why in ("empty", "digit", "range", "spare zero")]


def degrees_places(field):
    return [f"{field}: {why}" for why in ("form", "range", "spare zero", "minus zero")]


# Why a field is no element of a billing line.
ELEMENT_PLACES = ["element: no =", *number_places("ID"), *number_places("value"),
                  "tag: end", "tag: byte", "tag: escape", "tag: escape not due"]
LOGIN_IMEI = ["length", "length and digit", "digit", "digits"]
PACKED_IMEI = [place + others for place in ("first digit", "digit") for others in ("", ", others behind")]

# Commands of each codec: what is refused of them behind their header, and of the arguments that they are written from.
READ = {5: ["upper", "lower"], 7: ["first", "both", "second"], 8: ["type", "size", "size" + PART], 13: [""],
        14: ["size"]}
READ_COMMANDS = {
    0x0C: READ,
    0x0D: READ | {14: ["size", "under"]},
    0x0E: READ | {14: ["size", "under", "text with 11"], 15: PACKED_IMEI},
}
WRITTEN = {13: [""], 15: ["length"], 14: ["over"]}
WRITTEN_COMMANDS = {
    0x0C: WRITTEN,
    0x0D: WRITTEN,
    0x0E: WRITTEN | {15: ["length", "digit"], 14: ["over", "text with 11"]},
}


def of_commands(name, rules):
    """The inputs of this name by their codec, with the rules of each."""
    return {f"{name}, {COMMANDS[codec]}": own for codec, own in rules.items()}


# "command", "text" and "connection" by themselves: what is judged before the codec, and those of no command's codec.
INPUTS = {
    "packet": FRAME | COUNTS,
    "datagram": {1: [""], 3: [""], 4: ["missing", "too many"], 15: LOGIN_IMEI} | COUNTS,
    "command": FRAME | {6: [""]},
    **of_commands("command", READ_COMMANDS),
    "login": {1: [""], 4: [""], 15: LOGIN_IMEI},
    "text": {6: [""]},
    **of_commands("text", WRITTEN_COMMANDS),
    "form": {17: ["no entry", "entry's head", "entry's body", "first kind", "codec's length", "codec",
                  "record's length", "priority", "event ID", "generation type", "generation type outside 16",
                  "no record before it", "kind", "order", "element's length", "value's length", "ID", "no record",
                  "record's size", "packet's size", "group's count", "total"]},
    "connection": {2: [""], 3: ["under", "over"], 5: ["upper", "lower"], **COUNTS,
                   8: ["timestamp", "timestamp" + PART, "left over"], 9: WALK[9], 10: [""], 11: [""], 12: [""],
                   15: LOGIN_IMEI},
    **of_commands("connection", READ_COMMANDS),
    "state": {},
    "line": {20: ["line: LF", "line: fields missing", *number_places("timestamp"), *degrees_places("longitude"),
                  *degrees_places("latitude"), *number_places("speed"), *ELEMENT_PLACES, "element: order"]},
    "field": {20: ELEMENT_PLACES},
}

TELLING = "at an offset that tells something"

# The offsets (request 6) that are the same in every input, by number or by number and place; 0 beyond 15, too.
HEADER_AT = {1: 0, 2: 0, 3: 4, 4: 0, 6: 8}
READ_AT = {(7, "first"): 9, (7, "both"): 9, (8, "type"): 10, (8, "size"): 11, (8, "size" + PART): 11, 13: 10,
           (14, "size"): 11, (14, "under"): 11, (14, "text with 11"): 23, (15, "first digit"): 15,
           (15, "first digit, others behind"): 15}
WRITTEN_AT = {6: 0, 13: 0, 14: 0, 15: 0}
FIXED = {
    "packet": HEADER_AT | {(7, "zero"): 9, (7, "first zero"): 9},
    "datagram": {1: 0, 3: 0, 4: 0, 6: 23, (7, "zero"): 24, (7, "first zero"): 24, (15, "length"): 6,
                 (15, "length and digit"): 6},
    "command": HEADER_AT,
    **of_commands("command", dict.fromkeys(COMMANDS, READ_AT)),
    "login": {1: 0, 4: 0, (15, "length"): 0, (15, "length and digit"): 0},
    "text": WRITTEN_AT,
    **of_commands("text", dict.fromkeys(COMMANDS, WRITTEN_AT)),
    **of_commands("connection", dict.fromkeys(COMMANDS, READ_AT)),
}
FIXED["connection"] = FIXED["packet"] | FIXED["login"]


def fixed(source, number, place):
    """The offset that a place has in every input, None where it depends on the input."""
    if number > 15:
        return 0
    offsets = FIXED.get(source, {})
    return offsets.get((number, place), offsets.get(number))


def telling(seen, wanted):
    """Do the offsets seen tell something? Wanted are those of the places, None among them where they depend."""
    return len(seen) > 1 if None in wanted else wanted <= seen


# What only a family with a record limit can give, and what only one without: as many elements are over 255 bytes.
LIMITED = {(12, ""), (17, "record's size")}
UNLIMITED = {(17, "group's count"), (17, "total")}


def pairs(rules, family=None):
    """The (number, place) pairs of rules, those that a known family can give if one is named."""
    never = set()
    if family in KNOWN:
        never = LIMITED if reference.FAMILIES[family].record is None else UNLIMITED
    return [(number, place) for number, places in rules.items() for place in places if (number, place) not in never]


def walk_places(codec, family=None):
    """The (number, place) pairs of a codec's walk."""
    return [(number, place) for number, place in pairs(WALK, family)
            if (codec == 0x10 or (number != 11 and place != "generation type"))
            and (codec == 0x8E or not place.startswith("variable"))
            and not (place.endswith(PART) and one_byte(place.removesuffix(PART), codec))]


# Each call: its input, and what it can give behind or before that input's refusals. A lent buffer is too short by one
# byte or word or by more, or it is as long as the result or longer.
ROOM = {18: ["by one"], None: ["exact", "longer"]}

# An element of a line: a number leaves the buffer alone, a tag may have more bytes.
TAG_ROOM = {18: ["by one", "by more"], None: ["number", "exact", "longer"]}

# Why a state of a known family gets 19; the last ones hold an item, or what a refusal should have taken out of it.
NO_STATE = {19: ["closed", "phase", "length", "fill", "spare byte", "login held", "packet held", "2 held", "3 held",
                 "5 held", "15 held"]}

# Where a feed begins, and where it ends.
BEFORE = ("fresh", "in a login", "between packets", "in a header", "in a packet")
AFTER = ("no bytes", "more", "item", "item, bytes left", "refusal", "refusal, bytes left")
FEEDS = [f"{before}: {after}" for before in BEFORE for after in AFTER]
COMMAND_FEEDS = [f"{before}: {after}" for before in ("between packets", "in a packet") for after in AFTER[2:]]

# How a look-up by ID ends, and how many elements it passes then (request 8); None where that depends on the input.
PASSED = {"found first": 1, "found later": None, "none of some": None, "none of none": 0, "no such record": 0,
          "refused": 0}
NOT_THERE = ("none of some", "none of none")


def both_passed(newer, older):
    """The same for a last-known look-up, by how one in each packet's last record ends. The older packet is judged only
    if the ID is not in the newer."""
    if newer not in NOT_THERE:
        return PASSED[newer]
    return None if None in (PASSED[newer], PASSED[older]) else PASSED[newer] + PASSED[older]


# The ways of a last-known look-up: all of them, those with an answer from the older packet, and the others.
IN_LAST = tuple(way for way in PASSED if way != "no such record")
BOTH_PASSED = {f"newer {newer}, older {older}": both_passed(newer, older) for newer in IN_LAST for older in IN_LAST}
IN_OLDER = [f"newer {newer}, older {older}" for newer in NOT_THERE for older in IN_LAST if older not in NOT_THERE]
IN_NEWER = [way for way in BOTH_PASSED if way not in IN_OLDER]
WAYS = PASSED | BOTH_PASSED
TELLING_NUMBER = "with a number that tells something"

# A form that comes near the bound of request 8.
LONG_FORM = "over three times its packet"

# The item of a stream that is refused: its offsets count from its start.
STREAMS = ["login refused", "first packet refused", "later packet refused"]


def by_codec(name, source, more):
    """The rows of a call on commands by their codec, besides the row of the call by itself."""
    return {f"{name}, {said}": (f"{source}, {said}", more) for said in COMMANDS.values()}


CALLS = {
    "read_packet": ("packet", {}),
    "read_datagram": ("datagram", {}),
    "read_login": ("login", {}),
    "read_command": ("command", {}),
    **by_codec("read_command", "command", {}),
    "command_text": ("command", {}),
    **by_codec("command_text", "command", {}),
    "record_in_packet": ("packet", {16: ["record"]}),
    "record_in_datagram": ("datagram", {16: ["record"]}),
    "value_in_packet": ("packet", {16: ["record", "element"]}),
    "value_in_datagram": ("datagram", {16: ["record", "element"]}),
    "id_in_packet": ("packet", {16: ["record", "ID"], None: PASSED}),
    "id_in_datagram": ("datagram", {16: ["record", "ID"], None: PASSED}),
    "view_in_packet": ("packet", {16: ["record", "element"]}),
    "view_in_datagram": ("datagram", {16: ["record", "element"]}),
    "id_view_in_packet": ("packet", {16: ["record", "ID"]}),
    "id_view_in_datagram": ("datagram", {16: ["record", "ID"]}),
    "last_known": ("packet", {16: ["ID"], None: IN_NEWER}),
    "last_known, older": ("packet", {None: IN_OLDER}),
    "last_known_view": ("packet", {16: ["ID"]}),
    "last_known_view, older": ("packet", {}),
    "acknowledge_packet": ("packet", ROOM),
    "acknowledge_datagram": ("datagram", ROOM),
    "answer_login": ("login", ROOM),
    "write_command": ("text", {}),
    **by_codec("write_command", "text", ROOM),
    "form_of_packet": ("packet", ROOM | {None: [*ROOM[None], LONG_FORM]}),
    "form_of_datagram": ("datagram", ROOM),
    "packet_of_form": ("form", ROOM),
    "contents_of_packet": ("packet", ROOM),
    "contents_of_datagram": ("datagram", ROOM),
    "line_of_packet": ("packet", {16: ["record"]} | ROOM),
    "line_of_datagram": ("datagram", {16: ["record"]} | ROOM),
    "lines_of_packet": ("packet", ROOM),
    "lines_of_datagram": ("datagram", ROOM),
    "read_line": ("line", {}),
    "element_in_line": ("line", {16: ["element"]} | TAG_ROOM),
    "element_at": ("field", TAG_ROOM),
    "wrong_byte": ("line", {}),
    "feed": ("connection", NO_STATE | {18: ["by one", "by more"], None: FEEDS}),
    **by_codec("feed", "connection", {None: COMMAND_FEEDS}),
    "stream": ("connection", {None: STREAMS}),
    **by_codec("stream", "connection", {None: STREAMS[1:]}),
    "wanted": ("state", NO_STATE),
    "reset": ("state", {}),
    "start": ("state", {}),
}

# What an unknown family is answered with: 21 but in these calls, which take a state. Any state can be reset.
OF_UNKNOWN = {"feed": (19, "family"), "wanted": (19, "family"), "reset": (None, "")}

# Calls that do not show the refusal behind their answer, or not all of them. The reference tells it.
HIDING = {"wanted", "wrong_byte",
          *(name for name, (sort, _, _) in reference.CALLS.items() if sort in ("view", "receipt"))}


def call_of(row):
    return row.split(",")[0]


def families_of(row):
    """The families that a row's call can name, None if none. The older packet is not judged in an unknown one, nor is
    the codec of a command."""
    if not reference.names_family(call_of(row)):
        return (None,)
    return (*KNOWN, UNKNOWN) if row == call_of(row) else KNOWN


def has_walk(row):
    return CALLS[row][0] in ("packet", "datagram")


def more_of(row, family):
    """What a call can give besides the refusals of its input."""
    if family != UNKNOWN:
        return CALLS[row][1]
    number, place = OF_UNKNOWN.get(row, (21, ""))
    return {number: [place]} if number else {}


def rules_of(row, family):
    """The refusals of a row with their places."""
    if family == UNKNOWN:
        return more_of(row, family)
    return INPUTS[CALLS[row][0]] | more_of(row, family) | (WALK if has_walk(row) else {})


def allowed(row, family):
    """The refusals that the papers let a call give, or hide, in a family; None among them if it may accept, which it
    never does without a command's codec where one is wanted."""
    numbers = {number for number, _ in pairs(rules_of(row, family), family)}
    if family == UNKNOWN:
        return numbers or {None}
    return numbers if CALLS[row][0] in ("command", "text") else numbers | {None}


def family_named(line):
    """The family that a line names, one of families_of, and the words behind it."""
    name, *words = line.split()
    if not reference.names_family(name):
        return None, words
    return int(words[0]) if int(words[0]) in KNOWN else UNKNOWN, words[1:]


def from_older(family, words, refusal):
    """Does a last-known answer come from the older packet? 16 comes from both."""
    if refusal is None:
        return reference.evaluate(f"last_known {family} {' '.join(words)}")[0].startswith("accepted 1")
    return refusal.number not in (16, 21) and reference.evaluate(f"read_packet {family} {words[0]}")[1] is None


def packet_fed(name, words, answer, number):
    """The packet, in hexadecimal, that a feed or a stream finishes or refuses last, and what is behind it; empty where
    there is none."""
    told = answer.split(" lent ")[1].split()
    if name == "feed":
        phase, fill, held, _, data, _ = words
        finished = phase == "1" and (number or told[5] == "2")
        return held.strip("-").ljust(2 * int(fill), "0") + data if finished else ""
    packets = [told[place + 1] for place, word in enumerate(told) if word == "packet"]
    if number is None:
        return "".join(packets[-1:])
    return words[1][2 * 17 + len("".join(packets)):] if "login" in told else ""


def command_codec(name, words, answer, number):
    """The codec of the command that a line writes, reads or feeds to its end; None if it is no command's, or if it is
    refused before that is judged."""
    codec = None
    if name == "write_command":
        codec = int(words[0])
    elif number not in (1, 2, 3, 4, 18, 19) and CALLS[name][0] in ("command", "connection"):
        packet = words[0] if CALLS[name][0] == "command" else packet_fed(name, words, answer, number)
        codec = int(packet[16:18] or "0", 16)
    return codec if codec in COMMANDS else None


def feed_kind(words, answer):
    """Where a feed begins and ends, one of FEEDS."""
    phase, fill, _, _, data, _ = words
    number, _, _, used, item = answer.split(" lent ")[1].split()[1:6]
    if fill == "0":
        before = "fresh" if phase == "0" else "between packets"
    else:
        before = "in a login" if phase == "0" else "in a header" if int(fill) < 8 else "in a packet"
    if data == "-":
        return f"{before}: no bytes"
    if (number, item) == ("0", "0"):
        return f"{before}: more"
    left = "" if len(data) == 2 * int(used) else ", bytes left"
    return f"{before}: {'item' if number == '0' else 'refusal'}{left}"


def passed(answer):
    """How many elements a look-up by ID has passed."""
    return int(answer.split()[-1])


def way_of(answer, refusal):
    """How a look-up by ID ends, one of PASSED."""
    if refusal is None:
        return "found first" if passed(answer) == 1 else "found later"
    if refusal.number != 16:
        return "refused"
    if refusal.place == "record":
        return "no such record"
    return "none of some" if passed(answer) else "none of none"


def way_in_last(family, packet, ident):
    """How one ends in a packet's last record."""
    answer, refusal = reference.evaluate(f"read_packet {family} {packet}")
    if refusal:
        return "refused"
    last = int(answer.split()[-1]) - 1
    return way_of(*reference.evaluate(f"id_in_packet {family} {packet} {last} {ident}"))


def kinds_of(name, family, words, answer, refusal):
    """How a call's room compares with what is written, and if that is a long form; where a feed begins and ends; which
    item of a stream is refused; or how a look-up by ID ends."""
    number = refusal.number if refusal else None
    if answer.startswith("written"):
        _, size, lent = answer.split()
        yield "exact" if len(lent) == 2 * int(size) * reference.unit(name) else "longer"
        if name == "form_of_packet" and 2 * int(size) > 3 * len(words[0]):
            yield LONG_FORM
    elif name.startswith("element_") and number is None:
        _, _, tag, _, size, _, lent = answer.split()
        yield "number" if tag == "0" else "exact" if len(lent.strip("-")) == 2 * int(size) else "longer"
    elif name == "feed" and number not in (18, 19):
        yield feed_kind(words, answer)
    elif name == "stream" and number not in (None, 21):
        items = answer.split(" lent ")[0]
        yield STREAMS[("login" in items) + ("packet" in items)]
    elif name.startswith("id_in_") and number != 21:
        yield way_of(answer, refusal)
    elif name == "last_known" and number != 21:
        newer, older, ident = words
        yield f"newer {way_in_last(family, newer, ident)}, older {way_in_last(family, older, ident)}"


def rows_of(source):
    return [row for row, (of, _) in CALLS.items() if of == source]


class Coverage:
    def __init__(self):
        self.reached = Counter()        # (row of CALLS, family, codec or "kind" or None, number or None, place)
        self.offsets = defaultdict(set)         # that were shown, by the same
        self.row_offsets = defaultdict(set)     # by (row, family, number)
        self.passed = defaultdict(set)          # numbers of elements, by (row, family, one of WAYS)
        self.indices = {number: Counter() for number in WALK}

    def count(self, line, answer, refusal):
        """Notes what a line reached."""
        row = name = line.split(" ", 1)[0]
        family, words = family_named(line)
        data = "".join(words[:1])
        number, place = (refusal.number, refusal.place) if refusal else (None, "")
        if name.startswith("last_known") and from_older(family, words, refusal):
            row, data = f"{name}, older", words[1]
        elif family in KNOWN:
            command = command_codec(name, words, answer, number)
            row = f"{name}, {COMMANDS[command]}" if command else name
        codec = None
        if number in WALK and has_walk(row):
            codec = int(data[16:18] if CALLS[row][0] == "packet" else data[46:48], 16)
            self.indices[number][refusal.index] += 1
        self.reached[row, family, codec, number, place] += 1
        if refusal and name not in HIDING:
            self.offsets[row, family, codec, number, place].add(refusal.offset)
            self.row_offsets[row, family, number].add(refusal.offset)
        for kind in kinds_of(name, family, words, answer, refusal):
            self.reached[row, family, "kind", None, kind] += 1
            if kind in WAYS:
                self.passed[row, family, kind].add(passed(answer))

    def times(self, rows, families, codec, number, place):
        return sum(self.reached[row, family, codec, number, place] for row in rows for family in families)

    def offsets_at(self, rows, family, codec, number, place):
        return set().union(*(self.offsets[row, family, codec, number, place] for row in rows))

    def given(self, row, families):
        """How often a row gave each number, None for an acceptance."""
        given = Counter()
        for (name, family, codec, number, _), times in self.reached.items():
            if name == row and family in families and codec != "kind":
                given[number] += times
        return given

    # ------------------------------------------------------------ what is missing

    def missing(self):
        """What has to be reached and was not, as lines of text."""
        for row in CALLS:
            for family in families_of(row):
                said = row if family is None else f"{row} in family {family}"
                yield from (f"{said} with {missed}" for missed in self.missing_of_row(row, family))
        for source in INPUTS:
            rows = rows_of(source)
            for family in KNOWN if reference.names_family(call_of(rows[0])) else (None,):
                said = source if family is None else f"{source} in family {family}"
                yield from (f"{said} with {missed}" for missed in self.missing_of_source(source, rows, family))

    def missing_of_row(self, row, family):
        given = self.given(row, (family,))
        yield from (number or "an acceptance" for number in allowed(row, family) if not given[number])
        if call_of(row) not in HIDING:
            yield from self.untold_of_row(row, family)
        for number, place in pairs(more_of(row, family), family):
            if not self.times([row], (family,), None if number else "kind", number, place):
                yield f"{number or 'a call'}, {place}"
            elif place in WAYS and not telling(self.passed[row, family, place], {WAYS[place]}):
                yield f"a call, {place}, {TELLING_NUMBER}"

    def untold_of_row(self, row, family):
        """The refusals of a row, over all their places, without an offset that tells something."""
        wanted = defaultdict(set)
        for number, place in pairs(rules_of(row, family), family):
            if number:
                wanted[number].add(fixed(CALLS[row][0], number, place))
        yield from (f"{number}, {TELLING}" for number in wanted
                    if not telling(self.row_offsets[row, family, number], wanted[number]))

    def missing_of_source(self, source, rows, family):
        for number, place in pairs(INPUTS[source], family):
            yield from self.missing_place(source, rows, family, None, number, place)
        for codec, name in CODECS.items() if has_walk(rows[0]) else ():
            for number, place in walk_places(codec, family):
                yield from (f"{missed}, codec {name}"
                            for missed in self.missing_place(source, rows, family, codec, number, place))

    def missing_place(self, source, rows, family, codec, number, place):
        said = f"{number}, {place or 'the rule'}"
        if not self.times(rows, (family,), codec, number, place):
            yield said
        elif not telling(self.offsets_at(rows, family, codec, number, place), {fixed(source, number, place)}):
            yield f"{said}, {TELLING}"

    def unforeseen(self):
        """What the papers do not let a call give and the reference gave."""
        for row, family, codec, number, _ in self.reached:
            if codec != "kind" and number not in allowed(row, family):
                yield f"{row} in family {family} with {number or 'an acceptance'}"
        for (row, family, _, number, place), offsets in self.offsets.items():
            only = fixed(CALLS[row][0], number, place)
            if only is not None and offsets - {only}:
                yield f"{row} in family {family} with {number}, {place or 'the rule'}, at {min(offsets - {only})}"
        for (row, family, way), numbers in self.passed.items():
            if WAYS[way] is not None and numbers - {WAYS[way]}:
                yield f"{row} in family {family}, {way}, with {min(numbers - {WAYS[way]})} elements passed"

    # ------------------------------------------------------------ tables

    def calls_table(self):
        columns = (None, *NUMBERS)
        yield f"{'calls and refusals':24}" + "".join(f"{number:>7}" for number in ("none", *NUMBERS))
        sums = {family: Counter() for family in (*KNOWN, UNKNOWN, None)}
        for row in CALLS:
            can = set().union(*(allowed(row, family) for family in families_of(row)))
            for family in families_of(row):
                sums[family] += self.given(row, (family,))
            given = self.given(row, families_of(row))
            cells = [given[number] if number in can else "." for number in columns]
            hiding = call_of(row) in HIDING
            yield f"{row + ('*' if hiding else ''):24}" + "".join(f"{cell:>7}" for cell in cells)
        for family, given in sums.items():
            said = "no family named" if family is None else f"family {family}"
            yield f"{said:24}" + "".join(f"{given[number]:>7}" for number in columns)
        yield f"{'sum':24}" + "".join(f"{sum(given[number] for given in sums.values()):>7}" for number in columns)
        yield "* these calls do not show their refusals, or not all of them"

    def walk_table(self):
        columns = [(source, codec) for source in ("packet", "datagram") for codec in CODECS]
        heads = (f"{source} {CODECS[codec]}" for source, codec in columns)
        yield f"{'refusals of the walk':24}" + "".join(f"{head:>13}" for head in heads)
        for number, place in pairs(WALK):
            cells = []
            for source, codec in columns:
                can = (number, place) in walk_places(codec)
                cells.append(self.times(rows_of(source), KNOWN, codec, number, place) if can else ".")
            yield f"{str(number) + ' ' + place:24}" + "".join(f"{cell:>13}" for cell in cells)

    def places_lines(self):
        for source, rules in INPUTS.items():
            rows = rows_of(source)
            cells = [f"{number}{' ' + place if place else ''}: {self.times(rows, (*KNOWN, None), None, number, place)}"
                     for number, place in pairs(rules)]
            if cells:
                yield f"{source}: " + ", ".join(cells)
        for row in ("feed", "wanted"):
            places = [(place, KNOWN) for place in NO_STATE[19]] + [("family", (UNKNOWN,))]
            cells = [f"{place}: {self.times([row], families, None, 19, place)}" for place, families in places]
            yield f"{row} with 19, " + ", ".join(cells)
        feeds = [row for row in CALLS if call_of(row) == "feed"]
        for before in BEFORE:
            cells = [f"{after}: {self.times(feeds, KNOWN, 'kind', None, f'{before}: {after}')}" for after in AFTER]
            yield f"feed, {before}, " + "; ".join(cells)
        for row in ("id_in_packet", "id_in_datagram"):
            yield f"{row}, " + "; ".join(f"{way}: {self.times([row], KNOWN, 'kind', None, way)}" for way in PASSED)
        rows = [row for row in CALLS if call_of(row) == "last_known"]
        for newer in IN_LAST:
            cells = [f"{older}: {self.times(rows, KNOWN, 'kind', None, f'newer {newer}, older {older}')}"
                     for older in IN_LAST]
            yield f"last_known, newer {newer}, older " + "; ".join(cells)
        numbers = set().union(*self.passed.values())
        yield f"elements passed: {len(numbers)} numbers, the greatest {max(numbers, default='none')}"
        for number, indices in self.indices.items():
            yield f"refusal {number} at {len(indices)} record indices, the greatest {max(indices, default='none')}"
        cells = []
        for number in range(1, 16):
            offsets = set().union(*(seen for (*_, given), seen in self.row_offsets.items() if given == number))
            cells.append(f"{number}: {len(offsets)}, the greatest {max(offsets, default='none')}")
        yield "offsets shown with " + "; ".join(cells)

    def report(self):
        """Prints the tables; returns whether all was reached that has to be."""
        for part in (self.calls_table, self.walk_table, self.places_lines):
            print("\n".join(part()) + "\n")
        missing, unforeseen = list(self.missing()), sorted(set(self.unforeseen()))
        for title, found in (("never reached", missing), ("not in the papers", unforeseen)):
            if found:
                print(f"{title}: " + "; ".join(found))
        return not missing and not unforeseen
