"""Cases of asking for octet fields for the program record_cases: the samples of cases/octets.jsonl, and our own at a buffer's
end. Each states its answer beside its record, not from a run. A sample that the record's types cannot hold is left out.
"""
import json
import os

from reader_cases import ROOT
from record_input import OCTETS, TOP64, add, held, refusal, words


def text(want):
    """An answer as the program says it."""
    if want[0] == "part":
        return "part %d %d" % (want[1], want[2])
    if want[0] == "refused":
        return refusal(want[1])
    assert want == ["absent"]
    return "absent"


def case(name, told):
    """Asking the record for the field answers what the case wants."""
    asked = words(told["list"] == "hardware", told["number"], told["buffer_len"])
    add(OCTETS, name, told["record"], b"", asked, text(told["want"]))


with open(os.path.join(ROOT, "cases", "octets.jsonl"), encoding="utf-8") as lines:
    for place, line in enumerate(lines, 1):
        sample = json.loads(line)
        if held(sample["record"]) and max(sample["buffer_len"], sample["number"]) <= TOP64:
            case("sample %d of an octet field" % place, sample)


def edge(start, size, room, want):
    """Field 709 of the hardware list alone, a part at the edge of its buffer."""
    record = {"version": 3, "level": 1, "keymint": 3, "kmlevel": 1, "software": [],
              "hardware": [[709, "oct", [start, size]]]}
    case("709 of %d octets from %d in %d" % (size, start, room),
         {"record": record, "list": "hardware", "number": 709, "buffer_len": room, "want": want})


edge(0, 100, 100, ["part", 0, 100])
edge(0, 101, 100, ["refused", 20, 0])
edge(99, 1, 100, ["part", 99, 1])
edge(99, 2, 100, ["refused", 20, 0])
edge(100, 0, 100, ["part", 100, 0])
edge(101, 0, 100, ["refused", 20, 0])
edge(1, TOP64, 100, ["refused", 20, 0])
edge(TOP64, 1, 100, ["refused", 20, 0])
edge(TOP64 - 9, 20, 100, ["refused", 20, 0])
edge(0, 0, 0, ["part", 0, 0])
