#!/usr/bin/env python3
"""Spells the repository's own definitions, fields, constructors and lemmas as the toolchain's guides do (CONTRACT_STYLE.md, "Names").

usage: tools/respell.py [--table]      at the top of the repository; once, right after port.py

Words are in snake case, and types and facts keep their capitals. A dash stays only between two parts that are themselves names of
definitions (length-splice); between other words it becomes an underscore (guard_yes). A lemma that would have its definition's
name gets _lem. What turns: the .antt files, the clauses and ghost imports of the .rt files, the must-fail edits, and code spans of
comments and of the pages. Generated names (behind tie., goal., c., l.) stay, and so does every name of code, a string or a file,
but for those in FILES. --table prints old and new names and writes nothing.
"""
import collections
import os
import re
import sys

WORD = r"[^\s(){}.;,@\"«»`]+"
SIGNATURE = re.compile(
    r"^[ \t]*(?:mutual +)?(?:(?:pub|abbrev|unfoldable|ruleset)\s+)*([^\W\d_][\w→'₀-₉\-]*)\s*(?:\{[^}]*\}\s*)?:\s", re.M
)
# Words of the library and of arithmetic that count as names of definitions, beside those declared in specs/.
LIBRARY = set("length take drop set sets append get_or map add mul sub suc le lt eq cond".split())
# Where the rule gives a name that means something else already, a field of the code.
CHOSEN = {"earlyBootOver": "early_boot_is_over"}
# A module whose name Rattle now makes itself.
FILES = {"crates/one_record/specs/Contracts.antt": ("Contracts", "Accepting")}
PAGES = ("README.md", "docs", "bench", "bindings/rust/README.md")
GENERATED = {"tie", "goal", "c", "l", "args", "before", "initial", "fn", "new", "old", "now"}


def files(root, ending, under=""):
    for folder, dirs, names in os.walk(os.path.join(root, under)):
        dirs[:] = sorted(d for d in dirs if d not in ("out", ".git", "target", "wip"))
        for name in sorted(names):
            if name.endswith(ending):
                yield os.path.join(folder, name)


def read(path):
    with open(path, encoding="utf-8") as file:
        return file.read()


def snake(part):
    if part[:1].isupper():
        return part
    return re.sub(r"(?<=[a-z0-9])[A-Z]", lambda m: "_" + m[0].lower(), part)


def is_lemma_file(path):
    return "/proofs/" in path


def declared(root):
    """Each declared name with the files that declare it; what is named in the proof of one function stays."""
    found = collections.defaultdict(set)
    for path in files(root, ".antt", "crates"):
        if re.search(r"/proofs/.+/", path):
            continue
        text = re.sub(r"--[^\n]*", "", read(path))
        for m in SIGNATURE.finditer(text):
            found[m[1]].add(path)
    return found


def spelled(name, known):
    parts = [snake(p) for p in name.split("-")]
    out = parts[0]
    for before, part in zip(parts, parts[1:]):
        out += ("-" if before in known and part in known else "_") + part
    return out


def table(root):
    names = declared(root)
    in_specs = {n for n, paths in names.items() if not all(is_lemma_file(p) for p in paths)}
    known = {snake(n) for n in in_specs if "-" not in n and not n[:1].isupper() and len(n) > 1} | LIBRARY
    definitions = {CHOSEN.get(n) or snake(n) for n in in_specs}
    turned = {}
    for name in sorted(names):
        if name in CHOSEN:
            turned[name] = CHOSEN[name]
            continue
        new = spelled(name, known)
        if name not in in_specs and new in definitions:
            new += "_lem"
        if new != name:
            turned[name] = new
    taken = collections.defaultdict(set)
    for name in names:
        taken[turned.get(name, name)].add(name)
    for new, olds in sorted(taken.items()):
        if len(olds) < 2:
            continue
        # names that fall together: a definition of specs/ keeps it, then what has no dash; a lemma gets _lem
        keep = min(olds, key=lambda n: (n not in in_specs, "-" in n, n))
        for other in sorted(olds - {keep}):
            turned[other] = new + "_lem"
    return turned


def turn_words(text, turned):
    """Whole words of antt text; a word behind a generated head stays."""
    out, last = [], 0
    for m in re.finditer(WORD, text):
        word = m[0]
        new = turned.get(word)
        if new is None:
            continue
        if m.start() and text[m.start() - 1] == ".":
            head = re.search(r"([^\s(){};,@\"«»]*)\.$", text[: m.start()])
            first = head[1].split(".")[0] if head else ""
            path = head[1].split(".") if head else [""]
            if first in ("tie", "goal") or (first in GENERATED and "-" in word):
                continue
            if first and first[:1].islower() and "-" in word:
                continue
            if path[-1] == "" and "-" in word:
                continue
        out.append(text[last : m.start()])
        out.append(new)
        last = m.end()
    out.append(text[last:])
    return "".join(out)


def turn_spans(text, turned):
    return re.sub(r"`[^`\n]*`", lambda m: turn_words(m[0], turned), text)


def turn_antt(text, turned):
    out = []
    for line in text.split("\n"):
        m = re.search(r"(?<![^\s(){}.;,@\"«»])--", line)
        code, comment = (line[: m.start()], line[m.start() :]) if m else (line, "")
        out.append(turn_words(code, turned) + turn_spans(comment, turned))
    return "\n".join(out)


def turn_rt(text, turned):
    """Camel-case words are no names of code, so they turn wherever they stand, but in strings and in comments outside code spans."""
    camel = {n: v for n, v in turned.items() if re.search(r"[a-z0-9][A-Z]", n) and "-" not in n}

    def words(code):
        return re.sub(r"[^\W\d]\w*", lambda m: camel.get(m[0], m[0]), code)

    out = []
    for line in text.split("\n"):
        pieces = re.split(r'("(?:\\.|[^"\\])*"|//.*$)', line)
        for i, piece in enumerate(pieces):
            if piece.startswith("//"):
                pieces[i] = turn_spans(piece, turned)
            elif not piece.startswith('"'):
                pieces[i] = words(piece)
        out.append("".join(pieces))
    return "\n".join(out)


def turn_edit(text, turned):
    out, kind = [], ""
    for line in text.split("\n"):
        if line.startswith("file:"):
            kind = line.split(".")[-1].strip()
        if line.startswith("#") or line.startswith("file:"):
            out.append(turn_spans(line, turned))
        elif kind == "antt":
            out.append(turn_antt(line, turned))
        else:
            out.append(turn_rt(line, turned))
    return "\n".join(out)


def write(path, text):
    if read(path) != text:
        with open(path, "w", encoding="utf-8") as file:
            file.write(text)
        return 1
    return 0


def main():
    root = os.getcwd()
    turned = table(root)
    if "--table" in sys.argv:
        for old, new in turned.items():
            print(f"{old}\t{new}")
        return
    changed = 0
    for path in files(root, ".antt", "crates"):
        changed += write(path, turn_antt(read(path), turned))
    for path in files(root, ".rt", "crates"):
        changed += write(path, turn_rt(read(path), turned))
    for path in files(root, ".edit", "crates"):
        changed += write(path, turn_edit(read(path), turned))
    for page in PAGES:
        full = os.path.join(root, page)
        for path in [full] if os.path.isfile(full) else files(root, ".md", page):
            changed += write(path, turn_spans(read(path), turned))
    for path, (old, new) in FILES.items():
        full = os.path.join(root, path)
        if os.path.exists(full):
            os.rename(full, os.path.join(os.path.dirname(full), new + ".antt"))
            crate = path.split("/")[1]
            lib = os.path.join(os.path.dirname(full), "Lib.antt")
            write(lib, re.sub(rf"\bmod {old}\b", f"mod {new}", read(lib)))
            for ending in (".antt", ".rt"):
                for user in files(root, ending, "crates"):
                    changed += write(user, read(user).replace(f"Rattle.{crate}.specs.{old}.", f"Rattle.{crate}.specs.{new}."))
    print(f"respell: {len(turned)} names, {changed} files")


main()
