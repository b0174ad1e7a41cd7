"""The input of the program record_cases: records with what is asked of them, as crates/record_cases/src tells it.

writer_cases, ruling_cases, enrol_cases and octet_cases add their cases here; record_cases.py writes the files.
"""
from reader_cases import FIELDS

TOP32, TOP64 = 2**32 - 1, 2**64 - 1
TABLE = sorted(set().union(*FIELDS.values()) | {601})
WRITE, USE, ENROL, OCTETS = range(4)
cases, blobs, stdout = [], {}, []


def words(*numbers):
    """Eight octets for each number, highest first."""
    return b"".join(int(n).to_bytes(8, "big") for n in numbers)


def field_words(number, kind, value, *absent):
    """A part is [start, length]; a set is its members, or its count and its slots; an absent field has a fourth entry; a
    boot hash that is not there may yet have a part."""
    head, more = [0, 0], []
    if kind == "set":
        told = value if isinstance(value, dict) else {"count": len(value), "slots": value}
        head, more = [told["count"], 0], told["slots"]
    elif kind == "oct":
        head = value
    elif kind == "rot":
        hashed = value["hash"] is not None
        head = value["key"]
        more = [value["locked"], value["state"], hashed] + (value["hash"] or value.get("spare", [0, 0]))
    elif kind != "null":
        head = [value, 0]
    return words(number, not absent, *head, len(more), *more)


def record_words(record, buffer):
    software, hardware = (b"".join(field_words(*f) for f in record[where]) for where in ("software", "hardware"))
    return (words(record["version"], record["level"], record["keymint"], record["kmlevel"],
                  *record.get("challenge", [0, 0]), *record.get("unique", [0, 0]), len(record["software"]), len(software),
                  len(record["hardware"]), len(hardware), len(buffer)) + software + hardware + buffer)


def held(record):
    """Whether the types of a record hold what a sample tells."""
    def good(number, kind, value):
        if kind == "set":
            return len(value) <= 16 and all(n <= TOP32 for n in value)
        if kind == "oct":
            return max(value) <= TOP64
        if kind == "rot":
            return value["state"] <= TOP32 and max(value["key"] + (value["hash"] or [])) <= TOP64
        return kind == "null" or value <= TOP64

    return (all(f[0] in TABLE and good(*f) for f in record["software"] + record["hardware"])
            and max(record[name] for name in ("version", "level", "keymint", "kmlevel")) <= TOP32
            and max(record["challenge"] + record["unique"]) <= TOP64)


def place_of(data):
    """Where data stands in the input, past the table of cases; the same data stands there once."""
    if data not in blobs:
        blobs[data] = sum(map(len, blobs))
    return blobs[data]


def add(kind, name, record, buffer, extra, answer):
    """A case: what is asked of the record, with what goes with it, and the text that the program says of it."""
    places = [place_of(data) for data in (name.encode(), record_words(record, buffer), extra)]
    cases.append((kind, places[0], len(name.encode()), places[1], places[2]))
    stdout.append("%s: %s\n" % (name, answer))


def refusal(number):
    return "refused %d at 0" % number


def stdin():
    base = 8 + 40 * len(cases)
    table = b"".join(words(kind, base + name, size, base + record, base + extra)
                     for kind, name, size, record, extra in cases)
    data = words(len(cases)) + table + b"".join(blobs)
    assert len(data) <= 524288, len(data)
    return data
