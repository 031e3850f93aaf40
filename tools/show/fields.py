"""The fields of an accepted input over its bytes, for the page: offset, size, class, name and value of each."""
FIXED = [  # a record's first 24 bytes
    ("timestamp", 8, "time"),
    ("priority", 1, "fixed"),
    ("longitude", 4, "place"),
    ("latitude", 4, "place"),
    ("altitude", 2, "place"),
    ("angle", 2, "motion"),
    ("satellites", 1, "motion"),
    ("speed", 2, "motion"),
]
GENERATION = 0x10  # the codec with a generation type
NAMES = {0x08: "codec 8", 0x8E: "codec 8 Extended", 0x10: "codec 16", 0x0C: "codec 12", 0x0D: "codec 13", 0x0E: "codec 14"}
TYPES = {0x05: "command", 0x06: "response", 0x11: "IMEI doesn't match"}


def row(at, parts):
    """Fields one behind another from `at` on."""
    fields = []
    for name, size, colour in parts:
        fields.append((at, size, colour, name))
        at += size
    return fields


def of_element(codec, value, number):
    """An element's ID (and length), and its value."""
    width = 1 if codec == 0x08 else 2
    name = f"element {number}, ID {value.id}"
    if value.kind == 9:
        return row(value.offset - 2 - width, [(f"{name}: ID", width, "id"), (f"{name}: length", 2, "count"), (name, value.size, "value")])
    return row(value.offset - width, [(f"{name}: ID", width, "id"), (name, value.size, "value")])


def of_record(codec, record, number):
    fields = row(record.start, FIXED)
    wide = 1 if codec == 0x08 else 2
    event = [("event ID", wide, "fixed")] + ([("generation type", 1, "fixed")] if codec == GENERATION else [])
    fields += row(record.start + 24, event + [("IO total", 2 if codec == 0x8E else 1, "count")])
    for place, value in enumerate(record.values):
        fields += of_element(codec, value, place)
    return [(at, size, colour, f"record {number}: {name}") for at, size, colour, name in fields]


def of_data(kind, data, table):
    """Those of a packet or a datagram. What lies between them are counts of groups."""
    if kind == "datagram":
        head = [("length", 2, "frame"), ("packet ID", 2, "frame"), ("unused byte", 1, "frame"), ("AVL packet ID", 1, "frame")]
        head += [("IMEI's length", 2, "count"), ("IMEI", 15, "id")]
        end = len(data) - 1
    else:
        head = [("four zero bytes", 4, "frame"), ("data length", 4, "frame")]
        end = len(data) - 5
    fields = row(0, head + [("codec", 1, "fixed"), ("number of records", 1, "count")])
    for number, record in enumerate(table.records):
        fields += of_record(table.codec, record, number)
    fields.append((end, 1, "count", "number of records"))
    if kind != "datagram":
        fields.append((end + 1, 4, "frame", "CRC"))
    return fields


def of_command(answer):
    between = {0x0D: [("time", 4, "time")], 0x0E: [("IMEI", 8, "id")]}.get(answer.codec, [])
    head = [("four zero bytes", 4, "frame"), ("data length", 4, "frame"), ("codec", 1, "fixed"), ("quantity", 1, "count")]
    head += [("type", 1, "fixed"), ("size", 4, "count"), *between, ("text", answer.size, "value")]
    return row(0, head + [("quantity", 1, "count"), ("CRC", 4, "frame")])


def of_login():
    return row(0, [("IMEI's length", 2, "count"), ("IMEI", 15, "id")])
