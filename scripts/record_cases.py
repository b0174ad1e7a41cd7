#!/usr/bin/env python3
"""Writes the input and the expected output of the program record_cases: crates/record_cases/stdin and stdout.

The cases are those of writer_cases, ruling_cases, enrol_cases and octet_cases: the sample cases in cases/ and our own. Each
states its answer from document 01 beside its record, not from a run. With --check nothing is written, and the exit status
says whether both files are as this script would write them.
"""
import os
import sys

import record_input
import writer_cases  # noqa: F401  (each adds its cases)
import ruling_cases  # noqa: F401
import enrol_cases  # noqa: F401
import octet_cases  # noqa: F401
from reader_cases import ROOT


def main():
    good = True
    for name, data in (("stdin", record_input.stdin()), ("stdout", "".join(record_input.stdout).encode())):
        path = os.path.join(ROOT, "crates", "record_cases", name)
        if "--check" in sys.argv[1:]:
            with open(path, "rb") as kept:
                if kept.read() != data:
                    print("%s is not what scripts/record_cases.py writes" % os.path.relpath(path, ROOT))
                    good = False
        else:
            with open(path, "wb") as out:
                out.write(data)
    return 0 if good else 1


if __name__ == "__main__":
    sys.exit(main())
