"""Cases of uses for the program record_cases: the samples of cases/ruling.jsonl, and our own.

Each states its answer from document 01 beside its record and request, not from a run.
"""
import json
import os

from reader_cases import NULLS, ROOT, SETS
from record_input import TOP32, TOP64, USE, add, refusal, words


def text(want):
    """An answer as the program says it."""
    if "refused" in want:
        return refusal(want["refused"])
    return "permit hardware %d of %d software %d of %d" % (want["hw"], want["hw_bits"], want["sw"], want["sw_bits"])


def case(name, record, request, want):
    """Ruling on the record and the request answers what the case wants."""
    token = request["token"]
    asked = words(*(request[k] for k in ("purpose", "digest", "padding", "clock", "floor", "uptime", "handle")),
                  *(token[k] for k in ("there", "type", "time", "challenge")),
                  *(request[k] for k in ("locked", "present", "confirmed", "early_boot_over", "uses")))
    add(USE, name, record, b"", asked, text(want))


with open(os.path.join(ROOT, "cases", "ruling.jsonl"), encoding="utf-8") as lines:
    for place, line in enumerate(lines, 1):
        sample = json.loads(line)
        case("sample %d of a use" % place, sample["record"], sample["request"], sample["want"])

# ---- cases of our own

DECRYPT, SIGN, AGREE_KEY, ATTEST_KEY = 1, 2, 6, 7
RSA, EC = 1, 3
# "Bits from 0: purpose, algorithm, padding, digest, keySize, 400, 401, 402, 504, 505, 509, 507, 508, 305, 405, 503"
BITS = [1, 2, 6, 5, 3, 400, 401, 402, 504, 505, 509, 507, 508, 305, 405, 503]


def fields(held):
    """A list's fields from a dict of number and value; a NULL's value is not looked at."""
    kinds = {n: "set" if n in SETS else "null" if n in NULLS else "u64" for n in held}
    return [[n, kinds[n], held[n]] for n in sorted(held)]


def permit(hardware, software=()):
    """A permit whose marks have the bits of these field numbers."""
    marks = [sum(1 << BITS.index(n) for n in numbers) for numbers in (hardware, software)]
    return {"hw": marks[0], "hw_bits": len(set(hardware)), "sw": marks[1], "sw_bits": len(set(software))}


def refused(number):
    return {"refused": number, "place": 0}


def token(kinds, time=0, challenge=0):
    return {"there": True, "type": kinds, "time": time, "challenge": challenge}


def ruled(name, want, hardware, software=None, version=300, level=1, keymint_level=1, **asked):
    """One case: its name says what it is for. Where nothing is said, a SIGN with digest 4 and padding 1 is asked for, on
    a device that is in use, with the user present and no token."""
    record = {"version": version, "level": level, "keymint": 100, "kmlevel": keymint_level,
              "software": fields(software or {}), "hardware": fields(hardware)}
    request = {"purpose": SIGN, "digest": 4, "padding": 1, "clock": 0, "floor": 0, "uptime": 0, "handle": 0,
               "token": {"there": False, "type": 0, "time": 0, "challenge": 0}, "locked": False, "present": True,
               "confirmed": True, "early_boot_over": True, "uses": 0}
    request.update(asked)
    case(name, record, request, want)


# "One extension, whole": "Rulings on it, SIGN, digest 4, padding 1, floor 1600000000000"
for clock, digest, want in ((1609459200000, 4, {"hw": 32783, "hw_bits": 5, "sw": 32, "sw_bits": 1}),
                            (1609459199999, 4, refused(37)), (0, 4, refused(36)), (1609459200000, 5, refused(34))):
    ruled("the 76-byte extension", want, {1: [2], 2: EC, 5: [4], 6: [1], 503: True, 702: 0}, {400: 1609459200000},
          version=3, clock=clock, digest=digest, floor=1600000000000)

# A key that may sign, by EC: what the cases below add to.
SIGNS = {1: [2], 2: EC, 5: [4], 6: [1], 503: True}
ALL = (1, 2, 6, 5, 503)


def signing(name, want, more=None, software=None, **asked):
    ruled(name, want, SIGNS | (more or {}), software, **asked)


# "Slips we have seen"
signing("dates taken from the hardware list alone: active", refused(37), {400: 10}, {400: 30}, clock=20)
signing("dates taken from the hardware list alone: expiry", refused(38), {401: 30}, {401: 10}, clock=20)
signing("dates taken from the hardware list alone: software's only", refused(37), {}, {400: 30}, clock=20)
signing("a clock of 0, under the floor, answered not yet valid", refused(36), {400: 20}, clock=0, floor=10)
signing("without 400, permitted past an expiry date", refused(36), {401: 20}, clock=0, floor=10)
signing("503 silencing 504", refused(40), {504: 1})
signing("503 silencing 504, each in a list of its own", refused(40), {}, {504: 1})

# 35, each boundary: padding 3 and a digest of D octets want 2D+2 octets
RSA_KEY = {1: [2], 2: RSA, 5: [0, 1, 2, 3, 4, 5, 6], 6: [3, 5], 503: True}
for digest, bits in ((1, 264), (2, 328), (3, 456), (4, 520), (5, 776), (6, 1032)):
    ruled("35, one bit short", refused(35), RSA_KEY | {3: bits}, digest=digest, padding=3)
    ruled("35, just enough", permit(ALL + (3,)), RSA_KEY | {3: bits + 1}, digest=digest, padding=3)
ruled("35, absent", refused(35), RSA_KEY, digest=1, padding=3)
ruled("35, in the software list", permit(ALL, (3,)), RSA_KEY, {3: 265}, digest=1, padding=3)
ruled("35, too small in one list", refused(35), RSA_KEY | {3: 265}, {3: 264}, digest=1, padding=3)
ruled("35, too small in the other", refused(35), RSA_KEY | {3: 264}, {3: 265}, digest=1, padding=3)
ruled("35 is for padding 3", permit(ALL), RSA_KEY | {3: 1}, digest=1, padding=5)

# 36, each boundary, by each date tag
DECRYPTS = {1: [1], 2: RSA, 6: [1], 503: True}
signing("36, 400 and a clock under its floor", refused(36), {400: 0}, clock=9, floor=10)
signing("36, 400 and a clock at its floor", permit(ALL + (400,)), {400: 0}, clock=10, floor=10)
signing("36, 401 and a clock under its floor", refused(36), {}, {401: TOP64}, clock=9, floor=10)
signing("36, 401 and a clock at its floor", permit(ALL, (401,)), {}, {401: TOP64}, clock=10, floor=10)
ruled("36, 402 and a clock under its floor", refused(36), DECRYPTS | {402: TOP64}, purpose=DECRYPT, clock=9, floor=10)
ruled("36, 402 and a clock at its floor", permit((1, 2, 6, 503, 402)), DECRYPTS | {402: TOP64}, purpose=DECRYPT,
      clock=10, floor=10)
signing("36, no date tag applies: 402 is not for SIGN", permit(ALL), {402: 0}, clock=9, floor=10)
ruled("36, no date tag applies: 401 is not for DECRYPT", permit((1, 2, 6, 503)), DECRYPTS | {401: 0}, purpose=DECRYPT,
      clock=9, floor=10)
signing("36, 701 is no date tag", permit(ALL), {701: 5}, clock=9, floor=10)
signing("36 before 37", refused(36), {400: 30}, clock=9, floor=10)
signing("36 before 38", refused(36), {401: 5}, clock=9, floor=10)

# 37 and 38, each boundary
signing("37, one ms early", refused(37), {400: 20}, clock=19)
signing("37, equality", permit(ALL + (400,)), {400: 20}, clock=20)
signing("37, both lists, both must allow", refused(37), {400: 20}, {400: 21}, clock=20)
signing("37, both lists allow", permit(ALL + (400,), (400,)), {400: 20}, {400: 20}, clock=20)
signing("37 before 38", refused(37), {400: 20, 401: 10}, clock=15)
signing("38, equality", permit(ALL + (401,)), {401: 20}, clock=20)
signing("38, one ms late", refused(38), {401: 20}, clock=21)
signing("38, at the top", permit(ALL + (401,)), {401: TOP64}, clock=TOP64)
ruled("38, 402 and equality", permit((1, 2, 6, 503, 402)), DECRYPTS | {402: 20}, purpose=DECRYPT, clock=20)
ruled("38, 402 and one ms late", refused(38), DECRYPTS | {402: 20}, purpose=DECRYPT, clock=21)
ruled("38, 401 for ATTEST_KEY", refused(38), {1: [7], 2: EC, 401: 20, 503: True}, purpose=ATTEST_KEY, clock=21)
ruled("38, 402 for AGREE_KEY", refused(38), {1: [6], 2: EC, 402: 20, 503: True}, purpose=AGREE_KEY, clock=21)
ruled("38, 401 is not for AGREE_KEY", permit((1, 2, 503)), {1: [6], 2: EC, 401: 20, 503: True}, purpose=AGREE_KEY,
      clock=21)

# A clock of 0, with and without 400, 401 and 402
signing("clock 0 under a floor, no date tag", permit(ALL), clock=0, floor=10)
signing("clock 0 at floor 0, 400 at 0", permit(ALL + (400,)), {400: 0}, clock=0)
signing("clock 0 at floor 0, 400 at 1", refused(37), {400: 1}, clock=0)
signing("clock 0 at floor 0, 401 at 0", permit(ALL + (401,)), {401: 0}, clock=0)
ruled("clock 0 at floor 0, 402 at 0", permit((1, 2, 6, 503, 402)), DECRYPTS | {402: 0}, purpose=DECRYPT, clock=0)
ruled("clock 0 under a floor, 402 alone", refused(36), DECRYPTS | {402: TOP64}, purpose=DECRYPT, clock=0, floor=1)

# 39 to 41
GUARDED = {1: [2], 2: EC, 5: [4], 6: [1], 504: 3}
GUARDED_BITS = (1, 2, 6, 5, 504)
FREE = {1: [2], 2: EC, 5: [4], 6: [1]}
ruled("39, neither 503 nor 504", refused(39), FREE)
ruled("39, 505 alone is neither", refused(39), FREE | {505: 9}, token=token(1))
ruled("39, 503 in the software list", permit((1, 2, 6, 5), (503,)), FREE, {503: True})
ruled("40, no token", refused(40), GUARDED)
ruled("40, no bit shared", refused(40), GUARDED, token=token(4))
ruled("40, one bit shared", permit(GUARDED_BITS), GUARDED, token=token(6))
ruled("40, 504 of 0", refused(40), FREE | {504: 0}, token=token(TOP64))
ruled("40, both lists, one shares no bit", refused(40), GUARDED, {504: 4}, token=token(3))
ruled("40, both lists share a bit", permit(GUARDED_BITS, (504,)), GUARDED, {504: 4}, token=token(5))
ruled("41, the challenge is the handle", permit(GUARDED_BITS), GUARDED, token=token(1, TOP64, 7), handle=7)
ruled("41, the challenge differs", refused(41), GUARDED, token=token(1, 0, 7), handle=8)
TIMED = GUARDED | {505: 5}
ruled("41, just young enough", permit(GUARDED_BITS + (505,)), TIMED, token=token(1, 1000, 1), uptime=6000)
ruled("41, one ms too old", refused(41), TIMED, token=token(1, 1000, 0), uptime=6001)
ruled("41, one second short of too old", permit(GUARDED_BITS + (505,)), TIMED, token=token(1, 1000), uptime=5999)
ruled("41, at the uptime", permit(GUARDED_BITS + (505,)), FREE | {504: 1, 505: 0}, token=token(1, 6000), uptime=6000)
ruled("41, after the uptime", refused(41), TIMED, token=token(1, 6001), uptime=6000)
ruled("41, no wrap-around", refused(41), GUARDED | {505: TOP32}, token=token(1), uptime=TOP64)
ruled("41, the longest time", permit(GUARDED_BITS + (505,)), GUARDED | {505: TOP32}, token=token(1),
      uptime=1000 * TOP32)
ruled("41, just past the longest time", refused(41), GUARDED | {505: TOP32}, token=token(1), uptime=1000 * TOP32 + 1)
ruled("41, both lists, both must allow", refused(41), TIMED, {505: 4}, token=token(1), uptime=5000)
ruled("504 in one list and 505 in the other", permit(GUARDED_BITS, (505,)), GUARDED, {505: 5}, token=token(1, 0, 1),
      uptime=5000)
ruled("504 in one list and 505 in the other, too old", refused(41), GUARDED, {505: 5}, token=token(1), uptime=5001)
ruled("503 beside 504", permit(GUARDED_BITS), GUARDED | {503: True}, token=token(1))
ruled("503 beside 504, in the other list", permit(GUARDED_BITS), GUARDED, {503: True}, token=token(1))
signing("505 without 504 is not looked at", permit(ALL), {505: 0}, {505: 0}, token=token(1, 0, 1), uptime=9)

# 42 to 46, each list
for number, asked, number_given in ((509, {"locked": True}, 42), (507, {"present": False}, 43),
                               (508, {"confirmed": False}, 44), (305, {"early_boot_over": True}, 45)):
    good = {k: not v for k, v in asked.items()}
    signing("42 to 45, the hardware list's", refused(number_given), {number: True}, **asked)
    signing("42 to 45, the software list's", refused(number_given), {}, {number: True}, **asked)
    signing("42 to 45, allowed", permit(ALL + (number,), (number,)), {number: True}, {number: True}, **good)
    signing("42 to 45, no such tag", permit(ALL), **asked)
signing("46, one use left", permit(ALL + (405,)), {405: 5}, uses=4)
signing("46, none left", refused(46), {405: 5}, uses=5)
signing("46, past the limit", refused(46), {405: 5}, uses=TOP64)
signing("46, a limit of 0", refused(46), {405: 0})
signing("46, both lists, both must allow", refused(46), {405: 5}, {405: 4}, uses=4)
signing("46, in the software list", permit(ALL, (405,)), {}, {405: 5}, uses=4)

# 30 to 34
for purpose in (0, 3, 4, 5, 8, TOP64):
    signing("30", refused(30), {1: [0, 3, 4, 5, 8]}, purpose=purpose)
ruled("31, in no list", refused(31), {2: EC, 5: [4], 6: [1], 503: True})
signing("31, in each list that has it", refused(31), {}, {1: [1]})
signing("31, an empty set is not an absent one", refused(31), {}, {1: []})
signing("31, in both lists", permit(ALL, (1,)), {}, {1: [1, 2]})
ruled("32, absent", refused(32), {1: [2], 5: [4], 6: [1], 503: True})
signing("32, the lists disagree", refused(32), {}, {2: RSA})
signing("32, the lists agree", permit(ALL, (2,)), {}, {2: EC})
signing("32, neither RSA nor EC", refused(32), {2: 2})
ruled("32, RSA for AGREE_KEY", refused(32), {1: [6], 2: RSA, 503: True}, purpose=AGREE_KEY)
ruled("32, EC for DECRYPT", refused(32), {1: [1], 2: EC, 6: [1], 503: True}, purpose=DECRYPT)
for purpose, algorithm in ((AGREE_KEY, EC), (ATTEST_KEY, EC), (ATTEST_KEY, RSA)):
    ruled("purposes 6 and 7: neither padding nor digest is looked at", permit((1, 2, 503)),
          {1: [6, 7], 2: algorithm, 5: [4], 6: [1], 503: True}, purpose=purpose, padding=TOP64, digest=TOP64)
ruled("33 before 34", refused(33), RSA_KEY, padding=4, digest=9)
ruled("33, by the sets", refused(33), RSA_KEY, padding=1, digest=0)
ruled("34, a digest that does not go with the padding", refused(34), RSA_KEY | {6: [1]}, padding=1, digest=1)
ruled("34, padding 3 wants a digest", refused(34), RSA_KEY, padding=3, digest=0)
ruled("padding 5 goes without a digest", permit(ALL), RSA_KEY, padding=5, digest=0)
ruled("RSA DECRYPT: the digest is not looked at", permit((1, 2, 6, 503)), DECRYPTS | {5: [1]}, purpose=DECRYPT,
      digest=TOP64)
ruled("RSA DECRYPT: padding 2 has a digest", permit((1, 2, 6, 5, 503)), DECRYPTS | {5: [4], 6: [2]}, purpose=DECRYPT,
      padding=2)
ruled("RSA DECRYPT: padding 2 wants a digest", refused(34), DECRYPTS | {5: [0], 6: [2]}, purpose=DECRYPT, padding=2,
      digest=0)

# Levels
BOTH = {1: [2], 2: EC, 400: 5}
signing("both levels above Software", permit(ALL, (1, 2, 400)), {}, BOTH, clock=5)
signing("Software, a tag in both lists is one bit", permit((), ALL + (400,)), {}, BOTH, clock=5, level=0)
signing("Software, KeyMint's level", permit((), ALL + (400,)), {}, BOTH, clock=5, keymint_level=0)
signing("Software, both levels", permit((), ALL + (400,)), {}, BOTH, clock=5, level=0, keymint_level=0)
signing("StrongBox", permit(ALL), level=2, keymint_level=2)

# 20 before all else; octet parts are not looked at
signing("20, a version that no schema has", refused(20), version=5, purpose=0)
signing("20, a level above its top", refused(20), level=3)
signing("20, 601 is in no version", refused(20), {601: 0})
signing("20, 405 is from version 100 on", refused(20), {405: 9}, version=4)
signing("20, members that do not ascend", refused(20), {1: [2, 2]})
signing("20, a number above its top", refused(20), {405: 2**32})
signing("an octet part that lies nowhere", permit(ALL), {709: TOP64})
