#!/usr/bin/env python3
"""Writes what C and Rust say of refusals from docs/REFUSALS.md, the one source of their names, sentences and advice:
include/sculldrip_refusals.h and bindings/rust/src/refusals.rs. A number that stands in several tables is told by the first.

The names and numbers must be those of `enum Refusal` in crates/answer/src/lib.rt. With --check nothing is written, and the
exit status says whether both files are as this script would write them.
"""
import os
import re
import sys

ROOT = os.path.join(os.path.dirname(os.path.abspath(__file__)), "..")
SOURCE, NAMES = "docs/REFUSALS.md", "crates/answer/src/lib.rt"
HEADER, RUST = "include/sculldrip_refusals.h", "bindings/rust/src/refusals.rs"
WIDTH = 110
NO_SUCH = {"name": "no refusal", "sentence": "No refusal of the library has this number.", "advice": ""}


def text_of(path):
    with open(os.path.join(ROOT, path), encoding="utf-8") as file:
        return file.read()


def documented():
    """Each number's name, sentence and advice: the second, third and last column."""
    found = {}
    for line in text_of(SOURCE).split("\n"):
        cells = [cell.strip() for cell in line.strip("|").split("|")]
        if line.startswith("|") and cells[0].isdigit():
            row = {"name": cells[1], "sentence": cells[2], "advice": cells[-1]}
            found.setdefault(int(cells[0]), row)
    return dict(sorted(found.items()))


def constant(name):
    return re.sub(r"[ -]", "_", name).upper()


def named_in_code():
    """The number and the name of each case of `enum Refusal`, the name as a constant is spelled: TooLong as TOO_LONG."""
    cases = text_of(NAMES).split("\npub enum Refusal {\n")[1].split("\n}")[0]
    named = re.findall(r"^    (\w+) = (\d+),$", cases, re.M)
    return {int(number): re.sub(r"(?<=[a-z])(?=[A-Z])", "_", name).upper() for name, number in named}


def quoted(text, indent):
    """A string in C and in Rust; it breaks at blanks, and in Rust a backslash joins the lines."""
    assert '"' not in text and "\\" not in text and text.isascii(), text
    lines, words = [""], text.split(" ")
    for i, word in enumerate(words):
        word += " " if i + 1 < len(words) else ""
        if len(lines[-1]) + len(word) > WIDTH - indent:
            lines.append("")
        lines[-1] += word
    return lines


def c_string(text, indent):
    return ("\n" + " " * indent).join('"%s"' % line for line in quoted(text, indent))


def rust_string(text, indent):
    return '"%s"' % ("\\\n" + " " * (indent + 1)).join(line for line in quoted(text, indent))


def c_function(rows, what, about):
    cases = "".join("    case %d:\n        return %s;\n" % (n, c_string(row[what], 15)) for n, row in rows.items())
    return (
        "/* %s */\nstatic inline const char *sculldrip_%s(unsigned number) {\n    switch (number) {\n%s    default:\n"
        '        return "%s";\n    }\n}\n' % (about, what, cases, NO_SUCH[what])
    )


def header(rows):
    names = ["    SCULLDRIP_REFUSED_%s = %d" % (constant(row["name"]), n) for n, row in rows.items()]
    return "\n".join([
        "/* The refusals of Sculldrip: their names, and what is to be said of them. sculldrip.h includes this file.",
        " * Written by scripts/refusals.py from %s: change it there. */" % SOURCE,
        "#ifndef SCULLDRIP_REFUSALS_H",
        "#define SCULLDRIP_REFUSALS_H",
        "",
        "enum sculldrip_refusal {",
        ",\n".join(names),
        "};",
        "",
        c_function(rows, "name", "A refusal's name, in two or three words."),
        c_function(rows, "sentence", "What was found, in a sentence or two."),
        c_function(rows, "advice", "Who can mend it, and how."),
        "#endif",
        "",
    ])


def rust(rows):
    name = "    /// %d, %s.\n    pub const %s: u8 = %d;"
    names = [name % (n, row["name"], constant(row["name"]), n) for n, row in rows.items()]
    cells = "".join(
        "    (\n        %d,\n        %s,\n    ),\n"
        % (n, ",\n        ".join(rust_string(row[what], 8) for what in ("name", "sentence", "advice")))
        for n, row in rows.items()
    )
    return "\n".join([
        "//! The refusals' names, and what is to be said of them.",
        "//! Written by scripts/refusals.py from %s: change it there." % SOURCE,
        "",
        "use crate::refusal::Refusal;",
        "",
        "/// The numbers by name.",
        "impl Refusal {",
        "\n".join(names),
        "}",
        "",
        "/// Number, name, sentence and advice.",
        "pub(crate) const ROWS: [(u8, &str, &str, &str); %d] = [" % len(rows),
        cells + "];",
        "",
    ])


def main():
    rows, code = documented(), named_in_code()
    for number in sorted(set(rows) | set(code)):
        name = constant(rows[number]["name"]) if number in rows else "nothing"
        if name != code.get(number):
            sys.exit("refusals.py: %d is %s in %s and %s in %s" % (number, name, SOURCE, code.get(number), NAMES))
    for path, text in ((HEADER, header(rows)), (RUST, rust(rows))):
        if "--check" not in sys.argv[1:]:
            with open(os.path.join(ROOT, path), "w", encoding="utf-8") as file:
                file.write(text)
        elif not os.path.exists(os.path.join(ROOT, path)) or text_of(path) != text:
            sys.exit("refusals.py: %s is not what %s says; run scripts/refusals.py" % (path, SOURCE))


main()
