#!/usr/bin/env python3
"""Writes the input and the expected output of the program der_cases: crates/der_cases/stdin and stdout.

Each case states its answer beside its bytes, from document 01 and not from a run. With --check nothing is written, and
the exit status says whether both files are as this script would write them.
"""
import os
import sys

EXTENSION = (8192, 8, 512)
CERTIFICATE = (16384, 16, 2048)
ANY = (2**64 - 1, 2**64 - 1, 2**64 - 1)
stdin, stdout = bytearray(), []


def word(n):
    return n.to_bytes(8, "big")


def length(n):
    """A shortest length, as X.690 has it."""
    if n < 128:
        return bytes([n])
    octets = n.to_bytes((n.bit_length() + 7) // 8, "big")
    return bytes([0x80 + len(octets)]) + octets


def element(identifier, content=b""):
    return bytes.fromhex(identifier) + length(len(content)) + content


def nested(depth, inner=b""):
    """depth SEQUENCEs, each in the one before, around inner."""
    for _ in range(depth):
        inner = element("30", inner)
    return inner


def begin(kind, name):
    stdin.extend(kind.encode() + bytes([len(name.encode())]) + name.encode())


def walk(name, data, answer, limits=EXTENSION):
    """The first pass over data answers a count of elements, or (number, place)."""
    data = bytes.fromhex(data) if isinstance(data, str) else data
    begin("w", name)
    for n in limits + (len(data),):
        stdin.extend(word(n))
    stdin.extend(data)
    said = "elements %d" % answer if isinstance(answer, int) else "refused %d at %d" % answer
    stdout.append("%s: %s" % (name, said))


def left(answer, at, octets):
    """What 16 octets EE hold after a write; a refusal leaves them."""
    out = bytearray([0xEE] * 16)
    if isinstance(answer, int):
        out[at : at + len(octets)] = octets
    said = "next %d" % answer if isinstance(answer, int) else "refused %d at %d" % answer
    return said + "".join(" %02x" % b for b in out)


def header(name, out, at, form, number, size, octets):
    """put_header into the first out of 16 octets writes octets, or answers (number, place)."""
    begin("h", name)
    for n in (out, at, form, number, size):
        stdin.extend(word(n))
    octets = bytes.fromhex(octets) if isinstance(octets, str) else octets
    answer = at + len(octets) if isinstance(octets, bytes) else octets
    stdout.append("%s: %s" % (name, left(answer, at, octets)))


def integer(name, out, at, n, octets):
    begin("i", name)
    for w in (out, at, n):
        stdin.extend(word(w))
    octets = bytes.fromhex(octets) if isinstance(octets, str) else octets
    answer = at + len(octets) if isinstance(octets, bytes) else octets
    stdout.append("%s: %s" % (name, left(answer, at, octets)))


WHOLE = bytes.fromhex(
    "304A0201030A01010201040A010104030102030400300CBF83100802060176BB3E70003027A1053103020102A203020103"
    "A5053103020104A6053103020101BF8377020500BF853E03020100"
)

# ---- documents' samples
walk("the whole extension", WHOLE, 26)
walk("empty input", "", (2, 0))
walk("30 80", "3080", (4, 0))
walk("05 00 00", "050000", (7, 2))
walk("05 00", "0500", 1)
walk("[400]", "BF8310 00", 1)
walk("[704]", "BF8540 00", 1)
walk("length 7F", b"\x04\x7f" + bytes(127), 1)
walk("length 81 80", b"\x04\x81\x80" + bytes(128), 1)
walk("length 82 01 00", b"\x04\x82\x01\x00" + bytes(256), 1)

# ---- 1: over the limit of bytes, ahead of everything
walk("8,192 bytes", element("04", bytes(8188)), 1)
walk("8,193 bytes", element("04", bytes(8189)), (1, 0))
walk("8,193 bytes that are no element", b"\x30\x80" + bytes(8191), (1, 0))
walk("limit of 0 bytes, none given", "", (2, 0), (0, 8, 512))
walk("limit of 0 bytes, one given", "05", (1, 0), (0, 8, 512))
walk("16,384 bytes of a certificate", element("04", bytes(16380)), 1, CERTIFICATE)
walk("16,385 bytes of a certificate", element("04", bytes(16381)), (1, 0), CERTIFICATE)

# ---- 2: missing, or running out; at the element that does not fit its own holder
walk("identifier cut after 1F", "1F", (2, 0))
walk("identifier cut after 1F 81", "1F81", (2, 0))
walk("no length", "30", (2, 0))
walk("no length after a high number", "BF8310", (2, 0))
walk("length cut after 81", "3081", (2, 0))
walk("length cut after 82", "3082", (2, 0))
walk("length cut after 82 01", "308201", (2, 0))
walk("content cut by one", "040201", (2, 0))
walk("content missing", "0401", (2, 0))
walk("content of 65,535 missing", "0482FFFF", (2, 0))
walk("cut input, whatever stands inside", "3005 3080", (2, 0))
walk("inner identifier cut", "3001 1F 00", (2, 2))
walk("inner second octet cut by its holder", "3002 1F81 00", (2, 2))
walk("inner length missing", "3003 0500 05", (2, 4))
walk("inner length cut by its holder", "3002 0481", (2, 2))
walk("inner content longer than its holder", "3003 040201", (2, 2))
walk("inner content one over, bytes after the holder", "3006 3002 0401 0500", (2, 4))
walk("inner content runs into the next", "3004 0403 0500", (2, 2))

# ---- 3: identifier against the rules
walk("1F 80", "1F80", (3, 0))
walk("1F 80 01 is not shortest", "1F8001 00", (3, 0))
walk("1F 1E is under 31", "1F1E 00", (3, 0))
walk("1F 00", "1F00 00", (3, 0))
walk("1F 1F is 31", "1F1F 00", 1)
walk("1F 7F is 127", "1F7F 00", 1)
walk("1F 81 00 is 128", "1F8100 00", 1)
walk("1F FF 7F is 16,383", "1FFF7F 00", 1)
walk("1F 81 80 takes three octets", "1F8180", (3, 0))
walk("1F FF FF 7F takes three octets", "1FFFFF7F 00", (3, 0))
walk("inner identifier against the rules", "3005 0500 1F80 00", (3, 4))
walk("identifier against the rules ahead of its length", "1F1E 80", (3, 0))

# ---- 4: length against the rules
walk("length 80", "0480", (4, 0))
walk("length 83", "0483000001 00", (4, 0))
walk("length 84", "0484", (4, 0))
walk("length FF", "04FF", (4, 0))
walk("81 7F is not shortest", "04817F" + "00" * 127, (4, 0))
walk("81 00", "048100", (4, 0))
walk("82 00 as soon as 00 follows", "048200", (4, 0))
walk("82 00 80", "04820080" + "00" * 128, (4, 0))
walk("82 00 FF", "048200FF" + "00" * 255, (4, 0))
walk("inner length against the rules", "3004 0500 0480", (4, 4))
walk("length against the rules ahead of its fit", "3003 048401", (4, 2))

# ---- 5: one level deeper than allowed
walk("depth 8", nested(8), 8)
walk("depth 8 around nothing is no depth 9", nested(7, element("30")), 8)
walk("depth 9", nested(9), (5, 16))
walk("depth 9 by a primitive element", nested(8, b"\x05\x00"), (5, 16))
walk("depth 9 by a cut identifier", nested(8, b"\x1f"), (5, 16))
walk("depth 9 after a good neighbour", nested(7, b"\x05\x00" + element("30", b"\x05\x00")), (5, 18))
walk("depth 9 ahead of element 513", element("30", nested(7, b"\x05\x00") + b"\x05\x00" * 600), (5, 18))
walk("depth 16 of a certificate", nested(16), 16, CERTIFICATE)
walk("depth 17 of a certificate", nested(17), (5, 32), CERTIFICATE)
walk("no depth at all", "0500", (5, 0), (8192, 0, 512))
walk("no depth and no input", "", (2, 0), (8192, 0, 512))
walk("any depth", nested(3000), 3000, ANY)

# ---- 6: one element more than allowed
walk("512 elements", element("30", b"\x05\x00" * 511), 512)
walk("513 elements", element("30", b"\x05\x00" * 512), (6, 4 + 1022))
walk("element 513 that is cut", element("30", b"\x05\x00" * 511 + b"\x1f"), (6, 4 + 1022))
walk("element 513 at depth 9", nested(6, element("30", b"\x05\x00" * 503 + element("30", b"\x05\x00" * 2))), (5, 1036))
walk("512 elements, the last holding none", element("30", b"\x05\x00" * 510 + b"\x30\x00"), 512)
walk("2,048 elements of a certificate", element("30", b"\x05\x00" * 2047), 2048, CERTIFICATE)
walk("2,049 elements of a certificate", element("30", b"\x05\x00" * 2048), (6, 4 + 4094), CERTIFICATE)
walk("no element at all", "0500", (6, 0), (8192, 8, 0))
walk("no element and no input", "", (2, 0), (8192, 8, 0))
walk("any count", element("30", b"\x05\x00" * 30000), 30001, ANY)

# ---- 7: bytes after the outermost, once all of it is walked
walk("a spare byte", "300000", (7, 2))
walk("a spare element", "05000500", (7, 2))
walk("a spare byte after 512 elements", element("30", b"\x05\x00" * 511) + b"\x00", (7, 4 + 1022))
walk("an inner refusal ahead of a spare byte", "3002048000", (4, 2))
walk("a spare byte that is bad", "0500FF", (7, 2))

# ---- the first pass knows number forms only
walk("00 00", "0000", 1)
walk("a primitive SEQUENCE", "1000", 1)
walk("a constructed INTEGER", "2200", 1)
walk("a primitive element is not opened", "04021F80", 1)
walk("an element that holds elements is", "24021F80", (3, 2))

# ---- the writer's leaves
header("write [400]", 16, 0, 5, 400, 8, "BF8310 08")
header("write [704]", 16, 3, 5, 704, 2, "BF8540 02")
header("write SEQUENCE of 127", 16, 0, 1, 16, 127, "307F")
header("write SEQUENCE of 128", 16, 0, 1, 16, 128, "308180")
header("write SEQUENCE of 255", 16, 0, 1, 16, 255, "3081FF")
header("write SEQUENCE of 256", 16, 0, 1, 16, 256, "30820100")
header("write OCTET STRING of 65,535", 16, 0, 0, 4, 65535, "0482FFFF")
header("write OCTET STRING of 65,536", 16, 7, 0, 4, 65536, (4, 7))
header("write number 30", 16, 0, 5, 30, 0, "BE00")
header("write number 31", 16, 0, 5, 31, 0, "BF1F00")
header("write number 127", 16, 0, 5, 127, 0, "BF7F00")
header("write number 128", 16, 0, 5, 128, 0, "BF810000")
header("write number 16,383", 16, 0, 7, 16383, 0, "FFFF7F00")
header("write number 16,384", 16, 2, 5, 16384, 0, (3, 2))
header("write form 8", 16, 2, 8, 1, 0, (3, 2))
header("write form 8 ahead of a long length", 16, 2, 8, 1, 65536, (3, 2))
header("write at the very end", 6, 2, 5, 400, 8, "BF8310 08")
header("write one short", 5, 2, 5, 400, 8, (21, 0))
header("write past the end", 4, 5, 0, 4, 0, (21, 0))
header("write at the last place there is", 16, 2**64 - 1, 5, 400, 8, (21, 0))
header("write into nothing", 0, 0, 0, 5, 0, (21, 0))
integer("write 0", 16, 0, 0, "020100")
integer("write 127", 16, 0, 127, "02017F")
integer("write 128", 16, 0, 128, "02020080")
integer("write 255", 16, 0, 255, "020200FF")
integer("write 256", 16, 0, 256, "02020100")
integer("write 32,767", 16, 0, 32767, "02027FFF")
integer("write 32,768", 16, 0, 32768, "0203008000")
integer("write 1609459200000", 16, 5, 1609459200000, "02060176BB3E7000")
integer("write 2^63-1", 16, 0, 2**63 - 1, "02087FFFFFFFFFFFFFFF")
integer("write 2^63", 16, 0, 2**63, "0209008000000000000000")
integer("write 2^64-1", 16, 5, 2**64 - 1, "020900FFFFFFFFFFFFFFFF")
integer("write 2^64-1, one short", 15, 5, 2**64 - 1, (21, 0))
integer("write 0 at the last place there is", 16, 2**64 - 1, 0, (21, 0))

folder = os.path.join(os.path.dirname(os.path.abspath(__file__)), "..", "crates", "der_cases")
files = {"stdin": bytes(stdin), "stdout": ("\n".join(stdout) + "\n").encode()}
if "--check" in sys.argv:
    stale = [n for n, text in files.items() if open(os.path.join(folder, n), "rb").read() != text]
    sys.exit("not as scripts/der_cases.py writes them: " + " ".join(stale) if stale else 0)
for name, text in files.items():
    with open(os.path.join(folder, name), "wb") as f:
        f.write(text)
print("%d cases, %d bytes" % (len(stdout), len(stdin)))
