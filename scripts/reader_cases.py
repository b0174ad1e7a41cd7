#!/usr/bin/env python3
"""Writes the input and the expected output of the program reader_cases, crates/reader_cases/stdin and stdout, and the
expected output of the program table_cases, crates/table_cases/stdout; and the larger samples: samples/every_field.der,
samples/twenty_fields.der and samples/limit.der.

The cases are the sample cases in cases/reader.jsonl and those below. Each states its answer beside its bytes, from
document 01 and the schemas printed in source document 001, not from a run. With --check nothing is written, and the
exit status says whether the files are as this script would write them.
"""
import json
import os
import sys

ROOT = os.path.join(os.path.dirname(os.path.abspath(__file__)), "..")
stdin, stdout = bytearray(), []

# The numbers in each version's AuthorizationList, as source 001 prints them.
FIELDS = {
    1: [1, 2, 3, 5, 6, 10, 200, 400, 401, 402, 503, 504, 505, 506, 600, 701, 702, 703, 704, 705, 706],
    2: [1, 2, 3, 5, 6, 10, 200, 400, 401, 402, 503, 504, 505, 506, 600, 701, 702, 703, 704, 705, 706, 709, 710, 711,
        712, 713, 714, 715, 716, 717],
    3: [1, 2, 3, 5, 6, 10, 200, 303, 400, 401, 402, 503, 504, 505, 506, 507, 508, 509, 600, 701, 702, 704, 705, 706,
        709, 710, 711, 712, 713, 714, 715, 716, 717, 718, 719],
    4: [1, 2, 3, 5, 6, 10, 200, 303, 305, 400, 401, 402, 503, 504, 505, 506, 507, 508, 509, 600, 701, 702, 704, 705,
        706, 709, 710, 711, 712, 713, 714, 715, 716, 717, 718, 719, 720],
    100: [1, 2, 3, 5, 6, 10, 200, 203, 303, 305, 400, 401, 402, 405, 503, 504, 505, 506, 507, 508, 509, 701, 702, 704,
          705, 706, 709, 710, 711, 712, 713, 714, 715, 716, 717, 718, 719, 720],
    200: [1, 2, 3, 5, 6, 10, 200, 203, 303, 305, 400, 401, 402, 405, 503, 504, 505, 506, 507, 508, 509, 701, 702, 704,
          705, 706, 709, 710, 711, 712, 713, 714, 715, 716, 717, 718, 719, 720],
    300: [1, 2, 3, 5, 6, 10, 200, 203, 303, 305, 400, 401, 402, 405, 503, 504, 505, 506, 507, 508, 509, 701, 702, 704,
          705, 706, 709, 710, 711, 712, 713, 714, 715, 716, 717, 718, 719, 720, 723],
}
SETS = {1, 5, 6, 203}
NULLS = {303, 305, 503, 506, 507, 508, 509, 600, 703, 720}
OCTETS = {601, 709, 710, 711, 712, 713, 714, 715, 716, 717, 723}
NUMBERS = sorted(set().union(*FIELDS.values()) | {0, 4, 7, 202, 204, 304, 403, 404, 510, 601, 602, 700, 707, 708, 721,
                                                  722, 724, 16383})


def length(n):
    """A shortest length, as X.690 has it."""
    if n < 128:
        return bytes([n])
    octets = n.to_bytes((n.bit_length() + 7) // 8, "big")
    return bytes([0x80 + len(octets)]) + octets


def element(identifier, content=b""):
    return identifier + length(len(content)) + content


def integer(n, tag=2):
    return element(bytes([tag]), n.to_bytes(n.bit_length() // 8 + 1, "big"))


def enumerated(n):
    return integer(n, 10)


def octets(s):
    return element(b"\x04", s)


def sequence(*parts):
    return element(b"\x30", b"".join(parts))


def explicit(number, *parts):
    """[number] EXPLICIT."""
    if number < 31:
        return element(bytes([0xA0 + number]), b"".join(parts))
    groups = [number % 128]
    while number >= 128:
        number //= 128
        groups.insert(0, number % 128 + 128)
    return element(bytes([0xBF] + groups), b"".join(parts))


def root(version, locked=True):
    """Field 704's content and its text."""
    parts = [octets(b"\xaa\xbb"), element(b"\x01", b"\xff" if locked else b"\x00"), enumerated(2)]
    text = "aabb %d 2" % locked
    if version >= 3:
        parts.append(octets(b"\x5c" * 3))
        text += " 5c5c5c"
    return sequence(*parts), text


def sample(version, number):
    """A value of a field, as bytes and as text."""
    if number in SETS:
        return element(b"\x31", integer(0) + integer(2) + integer(300)), "0 2 300"
    if number in NULLS:
        return element(b"\x05"), "yes"
    if number in OCTETS:
        return octets(number.to_bytes(2, "big")), "%04x" % number
    if number == 704:
        return root(version)
    return integer(number * 3), str(number * 3)


def extension(version, software=b"", hardware=b"", level=1, challenge=b"\x01\x02", unique=b""):
    return sequence(integer(version), enumerated(level), integer(version + 1), enumerated(level), octets(challenge),
                    octets(unique), sequence(software), sequence(hardware))


def every_field(version):
    """One list with each field that the version's schema prints."""
    return b"".join(explicit(n, sample(version, n)[0]) for n in FIELDS[version])


def filled(n, seed):
    """n octets that differ with their place and with seed."""
    return bytes((seed * 31 + 7 * i + i // 256) % 256 for i in range(n))


def number_set(*members):
    return element(b"\x31", b"".join(map(integer, members)))


def hashed_root(seed):
    """A version 3 root of trust with a key and a hash of 32 octets, as devices have it."""
    return sequence(octets(filled(32, seed)), element(b"\x01", b"\xff"), enumerated(0), octets(filled(32, seed + 1)))


def twenty_fields():
    """An extension of the size that a device's has: twenty fields in each list, with values of their usual widths."""
    def fields(seed):
        return b"".join(explicit(n, content) for n, content in (
            (1, number_set(2, 3)), (2, integer(3)), (3, integer(256)), (5, number_set(0, 4, 6)),
            (6, number_set(1, 3, 5)), (10, integer(1)), (200, integer(65537)), (400, integer(1609459200000 + seed)),
            (401, integer(1924991999000)), (402, integer(1924991999999)), (503, element(b"\x05")),
            (701, integer(1640995200000 + seed)), (702, integer(0)), (704, hashed_root(seed)), (705, integer(140000)),
            (706, integer(202411)), (709, octets(filled(62, seed + 2))), (710, octets(b"panel")),
            (718, integer(20241101)), (719, integer(20241105))))
    return extension(300, fields(1), fields(2), challenge=filled(32, 3), unique=filled(16, 4))


def limit():
    """The most that a read can be asked to do: every field of version 300 in both lists, every set with sixteen
    members, octet fields of 330 bytes, and a challenge that fills the extension up to 8,192 bytes."""
    def content(n, seed):
        if n in SETS:
            return number_set(*(1 << 2 * i for i in range(16)))
        if n in OCTETS:
            return octets(filled(330, n + seed))
        return hashed_root(seed) if n == 704 else sample(300, n)[0]

    software, hardware = (b"".join(explicit(n, content(n, seed)) for n in FIELDS[300]) for seed in (5, 50))
    for size in range(8192):
        whole = extension(300, software, hardware, challenge=filled(size, 9), unique=filled(16, 4))
        if len(whole) >= 8192:
            assert len(whole) == 8192
            return whole


def head(version, level=1):
    return "version %d level %d\nkeymint %d level %d\nchallenge 0102\nunique -\n" % (version, level, version + 1, level)


def elements(data):
    """How many elements data has, one after the other and in one another."""
    count, at = 0, 0
    while at < len(data):
        first, at = data[at], at + 1
        if first % 32 == 31:
            while data[at] >= 128:
                at += 1
            at += 1
        size, at = data[at], at + 1
        if size >= 128:
            k = size - 128
            size, at = int.from_bytes(data[at : at + k], "big"), at + k
        count += 1
        if first & 32:
            count += elements(data[at : at + size])
        at += size
    return count


def case(name, data, answer):
    """Reading data lists answer, or refuses with (number, place)."""
    text = answer if isinstance(answer, str) else "refused %d at %d\n" % answer
    stdin.extend(bytes([len(name.encode())]) + name.encode() + len(data).to_bytes(2, "big") + data)
    stdout.append("%s:\n%s" % (name, text))


def accepted(name, version, data, lines, level=1):
    case(name, data, head(version, level) + "".join(lines) + "elements %d\n" % elements(data))


# ---- the sample cases
with open(os.path.join(ROOT, "cases", "reader.jsonl"), encoding="utf-8") as lines:
    for at, line in enumerate(lines, 1):
        told = json.loads(line)
        case("sample %d" % at, bytes.fromhex(told["hex"]), told["listing"])

# ---- every field that a version's schema prints, in both lists
for version, numbers in FIELDS.items():
    held = every_field(version)
    accepted("all fields of version %d" % version, version, extension(version, held, held),
             ["%s %d %s\n" % (where, n, sample(version, n)[1]) for where in ("software", "hardware") for n in numbers])

# ---- each number alone: held where the version's schema prints it, 11 at the field where not
for version, numbers in FIELDS.items():
    for n in NUMBERS:
        content, text = sample(version, n)
        data = extension(version, b"", explicit(n, content))
        name = "[%d] in version %d" % (n, version)
        if n in numbers:
            accepted(name, version, data, ["hardware %d %s\n" % (n, text)])
        else:
            case(name, data, (11, len(data) - len(explicit(n, content))))

# ---- versions and levels
for version in (0, 5, 99, 101, 201, 299, 301, 400, 2**32 - 1):
    case("version %d" % version, extension(version), (8, 2))
for version in FIELDS:
    data = extension(version, level=2)
    if version < 3:
        case("StrongBox in version %d" % version, data, (10, 5))
    else:
        accepted("StrongBox in version %d" % version, version, data, [], level=2)

# ---- document 01's own points
case("nothing", b"", (2, 0))
case("05 00", b"\x05\x00", (9, 0))
case("8,193 bytes", bytes(8193), (1, 0))
bare = extension(3)
case("a byte after it", bare + b"\x00", (7, len(bare)))
FIRST = 22  # where the software list's first field starts
date = explicit(400, integer(1609459200000))
accepted("a start date in software", 3, extension(3, date), ["software 400 1609459200000\n"])
accepted("a start date in hardware", 3, extension(3, b"", date), ["hardware 400 1609459200000\n"])
case("fields out of order", extension(3, explicit(401, integer(1)) + date), (12, FIRST + 7))
accepted("the second list starts anew", 3, extension(3, explicit(702, integer(0)), date),
         ["software 702 0\n", "hardware 400 1609459200000\n"])
accepted("an empty set", 3, extension(3, explicit(1, element(b"\x31"))), ["software 1 -\n"])
accepted("sixteen members", 3, extension(3, explicit(1, element(b"\x31", b"".join(map(integer, range(16)))))),
         ["software 1 %s\n" % " ".join(map(str, range(16)))])
case("seventeen members", extension(3, explicit(1, element(b"\x31", b"".join(map(integer, range(17)))))),
     (14, FIRST + 2 + 2 + 48))
case("locked is 01", extension(3, explicit(704, sequence(octets(b""), element(b"\x01", b"\x01"), enumerated(0),
                                                         octets(b"")))), (10, FIRST + 4 + 2 + 2))


def main():
    table = "".join("%d: %s\n" % (version, " ".join(map(str, numbers))) for version, numbers in FIELDS.items())
    large = extension(300, every_field(300), every_field(300), challenge=bytes(range(32)))
    good = True
    for name, data in (("crates/reader_cases/stdin", bytes(stdin)),
                       ("crates/reader_cases/stdout", "".join(stdout).encode()),
                       ("crates/table_cases/stdout", table.encode()), ("samples/every_field.der", large),
                       ("samples/twenty_fields.der", twenty_fields()), ("samples/limit.der", limit())):
        path = os.path.join(ROOT, name)
        if "--check" in sys.argv[1:]:
            with open(path, "rb") as kept:
                if kept.read() != data:
                    print("%s is not what scripts/reader_cases.py writes" % name)
                    good = False
        else:
            with open(path, "wb") as out:
                out.write(data)
    return 0 if good else 1


if __name__ == "__main__":
    sys.exit(main())
