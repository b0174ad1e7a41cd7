"""Cases of enrolments for the program record_cases: the samples of cases/enrol.jsonl, and our own.

Each states its answer from document 01 beside its record and challenge, not from a run. A sample that the record's types
cannot hold is left out.
"""
import json
import os

from reader_cases import ROOT
from record_input import ENROL, TOP32, TOP64, add, held, refusal, words


def case(name, record, buffer, expected, want):
    """Ruling on the enrolment answers want: a refusal's number, or None for yes."""
    add(ENROL, name, record, buffer, words(len(expected)) + expected, "yes" if want is None else refusal(want))


left_out = 0
with open(os.path.join(ROOT, "cases", "enrol.jsonl"), encoding="utf-8") as lines:
    for place, line in enumerate(lines, 1):
        told = json.loads(line)
        if not held(told["record"]):
            left_out += 1
            continue
        case("sample %d of an enrolment" % place, told["record"], bytes.fromhex(told["buffer"]),
             bytes.fromhex(told["expected"]), told["want"].get("refused"))
assert left_out == 0

# ---- cases of our own: a panel that is taken on, and what each check asks of it

BYTES = bytes(n * 7 % 256 for n in range(200))


def root(**other):
    return {"key": [40, 4], "locked": True, "state": 0, "hash": [44, 5], **other}


def panel(name, want, expected=BYTES[:16], hardware=None, **other):
    fields = [[702, "u32", 0], [704, "rot", root()]] if hardware is None else hardware
    record = {"version": 4, "level": 1, "keymint": 4, "kmlevel": 1, "challenge": [0, len(expected)], "unique": [0, 0],
              "software": [], "hardware": fields, **other}
    case("enrolment: " + name, record, BYTES, expected, want)


panel("yes", None)
panel("yes, StrongBox", None, level=2, kmlevel=2)
panel("yes, without a boot hash", None, version=2, hardware=[[702, "u32", 0], [704, "rot", root(hash=None)]])
# 20 as for the writer: octet parts are looked at, those of the software list too
panel("20, a version that no schema has", 20, version=5)
panel("20, a part outside", 20, unique=[200, 1])
panel("a part of no octets at the end", None, unique=[200, 0])
panel("20, a part around 2^64", 20, unique=[TOP64, 2])
panel("20, a part of the software list outside", 20, software=[[709, "oct", [0, 201]]])
panel("20, before 50", 20, b"", version=5)
# 50: 1 to 128 bytes, and equal
panel("a challenge of one byte", None, BYTES[:1])
panel("a challenge of 128 bytes", None, BYTES[:128])
panel("50, a challenge of 129 bytes", 50, BYTES[:129])
panel("50, an empty challenge", 50, b"")
panel("50, its last byte differs", 50, BYTES[:15] + b"\xff", challenge=[0, 16])
panel("50, its first byte differs", 50, b"\xff" + BYTES[1:16], challenge=[0, 16])
panel("50, one byte less", 50, BYTES[:15], challenge=[0, 16])
panel("50, one byte more", 50, BYTES[:17], challenge=[0, 16])
panel("50, none attested", 50, BYTES[:16], challenge=[0, 0])
panel("50, the same bytes elsewhere do", None, BYTES[:16], challenge=[0, 16])
panel("50, before 51", 50, b"", level=0)
# 51: either level
panel("51, the attestation", 51, level=0)
panel("51, KeyMint", 51, kmlevel=0)
panel("51, both, and before 52", 51, hardware=[], level=0, kmlevel=0)
# 52 to 55: the hardware list alone
GOOD = [[702, "u32", 0], [704, "rot", root()]]
panel("52, no root of trust", 52, hardware=[[702, "u32", 0]])
panel("52, it stands in the software list", 52, hardware=[], software=GOOD)
panel("52, absent though told", 52, hardware=[[702, "u32", 0], [704, "rot", root(), "absent"]])
panel("53, not locked", 53, hardware=[[702, "u32", 0], [704, "rot", root(locked=False)]])
panel("53, before 54", 53, hardware=[[702, "u32", 0], [704, "rot", root(locked=False, state=1)]])
for state, name in ((1, "SelfSigned"), (2, "Unverified"), (3, "Failed")):
    panel("54, " + name, 54, hardware=[[702, "u32", 0], [704, "rot", root(state=state)]])
panel("54, before 55", 54, hardware=[[704, "rot", root(state=1)]])
panel("55, no origin", 55, hardware=[[704, "rot", root()]])
panel("55, it stands in the software list", 55, hardware=[[704, "rot", root()]], software=[[702, "u32", 0]])
for origin in (1, 2, 3, TOP32):
    panel("55, origin %d" % origin, 55, hardware=[[702, "u32", origin], [704, "rot", root()]])
panel("the software list says otherwise", None, level=1,
      software=[[702, "u32", 3], [704, "rot", root(locked=False, state=3)]])
