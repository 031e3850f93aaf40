"""One page of HTML for an input: its bytes with each field in its colour, and beside them what they say."""
from html import escape

STYLE = """
body { font: 15px/1.45 system-ui, sans-serif; margin: 2em; color: #222; background: #fff; }
h1 { font-size: 1.3em; } h3 { font-size: 1em; margin: 0 0 .4em; } h2 { font-size: 1.1em; margin-top: 1.6em; border-top: 1px solid #ccc; padding-top: .8em; }
.both { display: flex; flex-wrap: wrap; gap: 2em; align-items: flex-start; }
pre { font: 14px/1.7 ui-monospace, monospace; margin: 0; }
pre.said { background: #f4f4f4; padding: .8em; white-space: pre-wrap; }
.at { color: #888; } pre span { border-radius: 3px; padding: 1px 0; }
table { border-collapse: collapse; } td, th { padding: 2px 10px 2px 0; text-align: left; vertical-align: top; }
th { font-weight: 600; border-bottom: 1px solid #ccc; } td.number { text-align: right; font-variant-numeric: tabular-nums; }
code { font: 14px ui-monospace, monospace; overflow-wrap: anywhere; }
.frame { background: #d9d9d9; } .fixed { background: #f7d9b0; } .count { background: #efe6a8; } .time { background: #cfe3ff; }
.place { background: #c8ecc8; } .motion { background: #bfe8e6; } .id { background: #e6d3f7; } .value { background: #f9c9d6; }
.wrong { background: #d40000; color: #fff; } .legend span { padding: 1px 6px; border-radius: 3px; margin-right: .4em; }
"""
LEGEND = [
    ("frame", "frame"),
    ("fixed", "codec, type, priority, event"),
    ("count", "counts and lengths"),
    ("time", "time"),
    ("place", "position"),
    ("motion", "motion"),
    ("id", "IDs, IMEI"),
    ("value", "values, text"),
    ("wrong", "refused here"),
]


def marks(data, fields):
    """For each byte the class and name of its field. Between the fields of what is accepted stand the groups' counts; of
    what is refused one byte is marked and nothing is known of the others."""
    refused = any(colour == "wrong" for _, _, colour, _ in fields)
    of_byte = [("", "") if refused or not fields else ("count", "number of elements of a size")] * len(data)
    for at, size, colour, name in fields:
        of_byte[at : at + size] = [(colour, name)] * size
    return of_byte


def dump(data, of_byte):
    """The bytes, 16 to a line; neighbours of one field in one piece."""
    lines = []
    for start in range(0, len(data), 16):
        line, at, end = [f'<span class="at">{start:5}</span>  '], start, min(start + 16, len(data))
        while at < end:
            behind = at + 1
            while behind < end and of_byte[behind] == of_byte[at]:
                behind += 1
            colour, name = of_byte[at]
            line.append(f'<span class="{colour}" title="{escape(name)}">{data[at:behind].hex(" ").upper()}</span>')
            at = behind
        lines.append(line[0] + " ".join(line[1:]))
    return "<pre>" + "\n".join(lines) + "</pre>"


def facts(given):
    """What is known of an item or a record, but for its values."""
    left_out = ("kind", "record", "records", "stream", "from_byte", "values", "line")
    rows = [(name, fact) for name, fact in given.items() if name not in left_out and fact is not None]
    heading = f'<h3>record {given["record"]} of {given["records"]}</h3>' if "records" in given else ""
    cells = (f"<tr><td>{escape(name)}</td><td>{escape(str(fact))}</td></tr>" for name, fact in rows)
    return heading + "<table>" + "".join(cells) + "</table>"


def values(given):
    rows = []
    for value in given.get("values", []):
        meant = escape(repr(value["text"])) if "text" in value else value.get("number", "")
        rows.append(f'<tr><td class="number">{value["id"]}</td><td class="number">{value["offset"]}</td>'
                    f'<td><code>{value["hex"]}</code></td><td>{meant}</td></tr>')
    if not rows:
        return ""
    return "<table><tr><th>ID</th><th>byte</th><th>bytes</th><th>value</th></tr>" + "".join(rows) + "</table>"


def section(item):
    """An item of an input: its heading, its bytes, and for each record its facts and values."""
    shown = "".join(f"<div>{facts(one)}{values(one)}</div>" for one in item.given)
    words = f'<pre class="said">{escape(item.words)}</pre>' if item.words else ""
    bytes_shown = dump(item.data, marks(item.data, item.fields))
    return f'<h2>{escape(item.heading)}</h2>{words}<div class="both">{bytes_shown}{shown}</div>'


def page(title, items):
    legend = "".join(f'<span class="{colour}">{name}</span>' for colour, name in LEGEND)
    body = "".join(section(item) for item in items)
    return (f'<!doctype html>\n<html lang="en"><head><meta charset="utf-8"><title>{escape(title)}</title><style>{STYLE}</style>'
            f'</head><body><h1>{escape(title)}</h1><p class="legend">{legend}</p>{body}</body></html>\n')
