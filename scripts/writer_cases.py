"""Cases of writing for the program record_cases: the samples of cases/writer.jsonl, and our own.

Each states its answer, and the listing of what is read back, beside its record: from document 01 and the schemas printed in
source document 001, not from a run. Three of the 94 samples are left out, since no record can hold them: a field that the
table lacks, a member of 2^32, and 17 members (a count above 16 is among the cases below).
"""
import json
import os

from reader_cases import (FIELDS, NULLS, OCTETS, ROOT, SETS, element, elements, enumerated, explicit, integer, octets,
                          sequence)
from record_input import TABLE, TOP32, TOP64, WRITE, add, held, refusal, words

WIDE = {200, 400, 401, 402, 701}


# ---- a record as its encoding and as its listing. A part is [start, length] in the buffer; a set is its members, or
# its count and its slots; an absent field has a fourth entry; a boot hash that is not there may yet have a part

def octets_at(part, buffer):
    return buffer[part[0] : part[0] + part[1]]


def members(value):
    return value["slots"][: value["count"]] if isinstance(value, dict) else value


def value_octets(kind, value, buffer):
    if kind == "set":
        return element(b"\x31", b"".join(map(integer, members(value))))
    if kind == "null":
        return element(b"\x05")
    if kind == "oct":
        return octets(octets_at(value, buffer))
    if kind == "rot":
        hashed = [] if value["hash"] is None else [octets(octets_at(value["hash"], buffer))]
        locked = element(b"\x01", b"\xff" if value["locked"] else b"\x00")
        return sequence(octets(octets_at(value["key"], buffer)), locked, enumerated(value["state"]), *hashed)
    return integer(value)


def present(fields):
    return [field[:3] for field in sorted(fields, key=lambda field: field[0]) if len(field) == 3]


def encoding(record, buffer):
    def fields(told):
        return sequence(*(explicit(n, value_octets(kind, value, buffer)) for n, kind, value in present(told)))

    return sequence(integer(record["version"]), enumerated(record["level"]), integer(record["keymint"]),
                    enumerated(record["kmlevel"]), octets(octets_at(record["challenge"], buffer)),
                    octets(octets_at(record["unique"], buffer)), fields(record["software"]), fields(record["hardware"]))


def text(kind, value, buffer):
    if kind == "set":
        return " ".join(map(str, members(value))) or "-"
    if kind == "null":
        return "yes"
    if kind == "oct":
        return octets_at(value, buffer).hex() or "-"
    if kind == "rot":
        parts = [text("oct", value["key"], buffer), str(int(value["locked"])), str(value["state"])]
        return " ".join(parts + ([] if value["hash"] is None else [text("oct", value["hash"], buffer)]))
    return str(value)


def listing(record, buffer):
    lines = ["version %d level %d" % (record["version"], record["level"]),
             "keymint %d level %d" % (record["keymint"], record["kmlevel"]),
             "challenge " + text("oct", record["challenge"], buffer), "unique " + text("oct", record["unique"], buffer)]
    for where in ("software", "hardware"):
        lines += ["%s %d %s" % (where, n, text(kind, value, buffer)) for n, kind, value in present(record[where])]
    return "\n".join(lines + ["elements %d" % elements(encoding(record, buffer))]) + "\n"


def case(name, record, buffer, room, want):
    """Writing the record into room bytes answers want: its encoding, or a refusal's number."""
    if isinstance(want, int):
        answer = refusal(want) + " output kept"
    else:
        answer = "wrote %d %s rest kept\n%sas written" % (len(want), want.hex(), listing(record, buffer))
    add(WRITE, name, record, buffer, words(room), answer)


# ---- the sample cases
left_out = 0
with open(os.path.join(ROOT, "cases", "writer.jsonl"), encoding="utf-8") as lines:
    for place, line in enumerate(lines, 1):
        told = json.loads(line)
        if not held(told["record"]):
            left_out += 1
            continue
        buffer, want = bytes.fromhex(told["buffer"]), told["want"]
        case("sample %d of writing" % place, told["record"], buffer, told["outlen"],
             bytes.fromhex(want["ok"]) if "ok" in want else want["refused"])
assert left_out == 3


# ---- own cases
BYTES = bytes(range(40))


def record(version=3, software=(), hardware=(), **other):
    return {"version": version, "level": 1, "keymint": version, "kmlevel": 1, "challenge": [0, 3], "unique": [3, 0],
            "software": list(software), "hardware": list(hardware), **other}


def root(version, **other):
    return {"key": [8, 4], "locked": True, "state": 0, "hash": [12, 5] if version >= 3 else None, **other}


def sample(version, number):
    """A field that the version's schema prints, with a value."""
    if number in SETS:
        return [number, "set", [0, 2, 300]]
    if number in NULLS:
        return [number, "null", 0]
    if number in OCTETS:
        return [number, "oct", [number % 32, 7]]
    if number == 704:
        return [number, "rot", root(version)]
    return [number, "u64" if number in WIDE else "u32", number * 3]


def written(name, told, buffer=BYTES, spare=0):
    """The record is written, with spare bytes left."""
    data = encoding(told, buffer)
    case(name, told, buffer, len(data) + spare, data)


def refused(name, told, number=20, buffer=BYTES, room=9000):
    case(name, told, buffer, room, number)


# every field that a version's schema prints, in both lists; each number alone that it does not print
for version, numbers in FIELDS.items():
    every = [sample(version, n) for n in numbers]
    told = record(version, every, every)
    size = len(encoding(told, BYTES))
    written("all fields of version %d" % version, told)
    written("all fields of version %d, one byte more" % version, told, spare=1)
    written("all fields of version %d, 100 bytes more" % version, told, spare=100)
    refused("all fields of version %d, one byte less" % version, told, 21, room=size - 1)
    refused("all fields of version %d, no output" % version, told, 21, room=0)
    for n in TABLE:
        if n not in numbers:
            field = sample(version, n)
            refused("[%d] in version %d" % (n, version), record(version, hardware=[field]))
            written("[%d] absent in version %d" % (n, version), record(version, hardware=[field + ["absent"]]))

# versions and levels
for version in (0, 5, 99, 101, 201, 299, 301, 400, TOP32):
    refused("version %d" % version, record(version))
for version in FIELDS:
    for level in (0, 1, 2, 3, TOP32):
        for name in ("level", "kmlevel"):
            told = record(version, **{name: level})
            if level < (3 if version >= 3 else 2):
                written("%s %d in version %d" % (name, level, version), told)
            else:
                refused("%s %d in version %d" % (name, level, version), told)
for keymint in (0, 127, 128, 41, TOP32):
    written("KeyMint version %d" % keymint, record(3, keymint=keymint))

# "127 takes one content octet, 128 two, 2^64-1 nine"
for n in (0, 1, 127, 128, 255, 256, 32767, 32768, 2**31 - 1, 2**31, TOP32):
    written("[2] of %d" % n, record(hardware=[[2, "u32", n]]))
for n in (0, 127, 128, 2**32, 2**55 - 1, 2**55, 2**63 - 1, 2**63, TOP64):
    written("[200] of %d" % n, record(hardware=[[200, "u64", n]]))
for n in (2**32, TOP64):
    refused("[2] of %d" % n, record(hardware=[[2, "u32", n]]))

# sets: empty, full, with spare slots; a count above 16; members out of order or equal
for n in sorted(SETS):
    written("[%d] empty" % n, record(100, hardware=[[n, "set", []]]))
    written("[%d] of 16" % n, record(100, hardware=[[n, "set", list(range(15)) + [TOP32]]]))
    written("[%d] with spare slots" % n, record(100, hardware=[[n, "set", {"count": 2, "slots": [1, 2, 0, 0, 7]}]]))
    refused("[%d] of 17" % n, record(100, hardware=[[n, "set", {"count": 17, "slots": list(range(16))}]]))
    refused("[%d] of 2^64-1" % n, record(100, software=[[n, "set", {"count": TOP64, "slots": list(range(16))}]]))
    refused("[%d] out of order" % n, record(100, hardware=[[n, "set", [1, 3, 2]]]))
    refused("[%d] with equals" % n, record(100, software=[[n, "set", [1, 1]]]))
    written("[%d] absent, of 17" % n, record(100, hardware=[[n, "set", {"count": 17, "slots": [3, 2, 1]}, "absent"]]))

# the root of trust: locked or not, each state, and a boot hash exactly from version 3
for version in FIELDS:
    for locked in (True, False):
        for state in range(4):
            told = record(version, [[704, "rot", root(version, locked=locked, state=state)]])
            written("704 locked %d state %d in version %d" % (locked, state, version), told)
    refused("704 state 4 in version %d" % version, record(version, [[704, "rot", root(version, state=4)]]))
    other = root(version, hash=None if version >= 3 else [12, 5])
    refused("704 with the other hash in version %d" % version, record(version, [[704, "rot", other]]))
written("704 without hash, its part outside", record(2, [[704, "rot", root(2, spare=[TOP64, TOP64])]]))

# parts: over each other, to the buffer's end, of no octets at its end, past it, around 2^64
PARTS = {"whole": ([0, 40], True), "last octet": ([39, 1], True), "nothing at the end": ([40, 0], True),
         "nothing in between": ([7, 0], True), "one too long": ([0, 41], False), "one past the end": ([40, 1], False),
         "nothing past the end": ([41, 0], False), "around 2^64": ([TOP64, 2], False), "to 2^64": ([TOP64, 1], False),
         "from the last octet around": ([39, TOP64 - 37], False), "as long as can be": ([1, TOP64], False),
         "nothing at 2^64-1": ([TOP64, 0], False)}
for name, (part, inside) in PARTS.items():
    for where, told in (("challenge", record(challenge=part)), ("unique", record(unique=part)),
                        ("709", record(hardware=[[709, "oct", part]])),
                        ("a boot key", record(software=[[704, "rot", root(3, key=part)]])),
                        ("a boot hash", record(hardware=[[704, "rot", root(3, hash=part)]]))):
        (written if inside else refused)("%s %s" % (where, name), told)
    written("absent 709 %s" % name, record(hardware=[[709, "oct", part, "absent"]]))
written("parts over each other", record(challenge=[0, 30], unique=[10, 30], software=[[709, "oct", [5, 30]]],
                                        hardware=[[709, "oct", [0, 40]], [710, "oct", [20, 20]]]))
for name, size, case_of in (("an empty buffer", 0, written), ("an empty buffer and a part", 1, refused)):
    case_of(name, record(challenge=[0, 0], unique=[0, 0], hardware=[[709, "oct", [0, size]]]), buffer=b"")

# lengths of content: 127 is 7F, 128 is 81 80, 256 is 82 01 00
LONG = bytes(n * 7 % 256 for n in range(9000))
for n in (127, 128, 255, 256, 257):
    written("challenge of %d octets" % n, record(challenge=[0, n]), LONG[:300])
    written("709 of %d octets" % n, record(hardware=[[709, "oct", [1, n]]]), LONG[:300], spare=3)

# "encoding over 8,192 bytes", and before it 20, after it 21
for size, rooms in ((8191, (8190, 8191)), (8192, (0, 8191, 8192, 8193)), (8193, (0, 8192, 8193, 9000))):
    told = record(challenge=[0, 4000], unique=[1, 0], hardware=[[709, "oct", [3, 4000]]])
    told["unique"][1] = size - len(encoding(told, LONG)) - 1  # from 128 octets on, one length octet more
    data = encoding(told, LONG)
    assert len(data) == size
    for room in rooms:
        name = "%d bytes into %d" % (size, room)
        case(name, told, LONG, room, 22 if size > 8192 else 21 if room < size else data)
    refused("%d bytes, ill-shaped" % size, {**told, "level": 3}, buffer=LONG, room=0)
every = [[n, "oct", [0, 9000]] for n in sorted(OCTETS - {601})]
refused("all octet fields the whole buffer", record(300, every, every), 22, LONG)
refused("all octet fields the whole buffer, no output", record(300, every, every), 22, LONG, 0)
