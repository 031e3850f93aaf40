"""What is in an input, as values for scripts: a dictionary for each record, login, command or refusal."""
import datetime

from fields import NAMES, TYPES

EPOCH = datetime.datetime(1970, 1, 1)


def time_of(milliseconds):
    """The date and time, UTC; none from the year 10000 on."""
    try:
        return (EPOCH + datetime.timedelta(milliseconds=milliseconds)).isoformat(timespec="milliseconds") + "Z"
    except OverflowError:
        return None


def imei_of(number):
    return f"{number:015}"


def of_value(data, value):
    found = data[value.offset : value.offset + value.size]
    given = {"id": value.id, "offset": value.offset, "size": value.size, "hex": found.hex().upper()}
    if value.kind == 9:
        given["variable"] = True
        if all(32 <= byte <= 126 for byte in found):
            given["text"] = found.decode("ascii")
    else:
        given["number"] = int.from_bytes(found, "big")
    return given


def of_record(data, table, number):
    record = table.records[number]
    given = {
        "codec": NAMES[table.codec],
        "record": number,
        "records": table.count,
        "offset": record.start,
        "size": record.size,
        "timestamp_ms": record.timestamp,
        "time": time_of(record.timestamp),
        "priority": record.priority,
        "longitude_deg": record.longitude / 10_000_000,
        "latitude_deg": record.latitude / 10_000_000,
        "altitude_m": record.altitude,
        "angle_deg": record.angle,
        "satellites": record.satellites,
        "speed_kmh": record.speed,
        "event": record.event,
    }
    if table.codec == 0x10:
        given["generation"] = record.generation
    given["values"] = [of_value(data, value) for value in record.values]
    return given


def of_data(kind, data, table):
    head = {"kind": kind}
    if kind == "datagram":
        head["imei"] = imei_of(table.imei)
        head["packet_id"], head["avl_packet_id"] = f"{table.packet_id:04X}", f"{table.avl_packet_id:02X}"
        head["unused"] = f"{table.unused:02X}"
    return [{**head, **of_record(data, table, number)} for number in range(table.count)]


def of_command(data, answer):
    text = data[answer.offset : answer.offset + answer.size]
    given = {"kind": "command", "codec": NAMES[answer.codec], "type": TYPES[answer.type]}
    if answer.codec == 0x0E:
        given["imei"] = imei_of(answer.imei)
    if answer.codec == 0x0D:
        given["message_time"] = answer.time  # the maker's pages do not agree on its unit
    given.update({"offset": answer.offset, "size": answer.size, "hex": text.hex().upper()})
    if all(32 <= byte <= 126 or byte in (10, 13) for byte in text):
        given["text"] = text.decode("ascii")
    return [given]


def of_login(answer):
    return [{"kind": "login", "imei": imei_of(answer.imei)}]


def of_refusal(kind, answer, size, line):
    """`line` is what the program says of it. The record goes with 8 to 12 of data, the byte with what has one."""
    given = {"kind": kind, "size": size, "refused": answer.number, "line": line}
    if kind in ("packet", "datagram") and 8 <= answer.number <= 12:
        given["record"] = answer.index
    if answer.place > 0 or answer.number in (2, 15):
        given["offset"] = answer.place
    return given
