#!/usr/bin/env python3
"""Checks that each name which docs/PROMISES.md cites stands where its column says; likewise what README.md names under
"Where to read on", and docs/DECISIONS.md in its last table.

A cell of these columns is – or items in backquotes, parted by commas:

  Definition  `CRATE NAME ..`  declared in crates/CRATE/specs, or a type or constant of its src; TYPE.NAME is a member
  Contract    `CRATE NAME ..`  a function in crates/CRATE/src; TYPE::NAME is a type's own
  Theorem     `CRATE NAME ..`  declared in crates/CRATE/proofs
  Case        `PROGRAM NAME`   a case that crates/PROGRAM runs, with * for any letters; or `PATH`, a file
  Edit        `CRATE/LABEL`    crates/CRATE/must-fail/LABEL.edit

Each statement of a specs/Statements.antt must have the theorem of its name in proofs/, declared as of that type. Nothing is
written, with --check or without: the exit status is 1 where a name is missing. What no row cites, of must-fail
edits, public functions and stated theorems, is told and is no fault.
"""
import functools
import glob
import os
import re
import sys

ROOT = os.path.join(os.path.dirname(os.path.abspath(__file__)), "..")
PROMISES, README, DECISIONS = "docs/PROMISES.md", "README.md", "docs/DECISIONS.md"
COLUMNS = ("Definition", "Contract", "Theorem", "Case", "Edit")
HEADERS = (["Sentence", *COLUMNS], ["Contract", "Two wrong programs"])
NOTHING = "–"


def text_of(path):
    with open(os.path.join(ROOT, path), encoding="utf-8") as file:
        return file.read()


def files(pattern):
    return sorted(os.path.relpath(path, ROOT) for path in glob.glob(os.path.join(ROOT, pattern), recursive=True))


def exists(path):
    return os.path.exists(os.path.join(ROOT, path))


CRATES = [path.split("/")[1] for path in files("crates/*/src")]


# ---- what is declared

def in_blocks(text, opens, declares):
    """The names that lines declare, and TYPE.NAME inside the block that a line opens, by indentation."""
    names, block, inside = set(), None, -1
    for line in text.split("\n"):
        indent = len(line) - len(line.lstrip())
        if line.strip() and indent <= inside:
            block, inside = None, -1
        opened = opens.match(line)
        if opened:
            block, inside = opened[1], indent
            names.add(block)
            continue
        for name in declares(line, block):
            names.add(name if block is None else block + "." + name)
    return names


ANTT_TYPE = re.compile(r"\s*pub (?:record|data) ([^\s(:{]+)")
LEVELS = r"(?: \{[^}]*\})*"  # as in `pub guard_case {ℓ} : ..`
ANTT_NAME = re.compile(r"\s*(?:(?:abbrev|unfoldable) )*pub ([^\s(:{]+)%s :" % LEVELS)
ANTT_LAW = re.compile(r"\s*pub ([^\s(:{]+)%s :(?: ([A-Z]\w*)$)?" % LEVELS)
ANTT_CONSTRUCTOR = re.compile(r"\s+([\w']+(?: [\w']+)*) : ")


def antt_line(line, block):
    if ANTT_NAME.match(line):
        return [ANTT_NAME.match(line)[1]]
    return ANTT_CONSTRUCTOR.match(line)[1].split(" ") if block and ANTT_CONSTRUCTOR.match(line) else []


def law_line(line, block):
    return [ANTT_LAW.match(line)[1]] if ANTT_LAW.match(line) and not block else []


@functools.cache
def antt(folder, declares=antt_line):
    """What the .antt files of a folder declare in public: NAME, and TYPE.NAME for fields and constructors."""
    texts = (re.sub("--.*", "", text_of(path)) for path in files(folder + "/*.antt"))
    return set().union(*(in_blocks(text, ANTT_TYPE, declares) for text in texts))


RATTLE_TYPE = re.compile(r"\s*(?:pub |pub\(crate\) )?(?:struct|enum|impl(?:<[^>]*>)?) (\w+)")
RATTLE_NAME = re.compile(r'\s*(?:pub |pub\(crate\) )?(?:extern "C" )?(fn|const) (\w+)')
RATTLE_MEMBER = re.compile(r"    (?:pub |pub\(crate\) )?(\w+)\b")


def rattle_line(line, block):
    if RATTLE_NAME.match(line):
        return [" ".join(RATTLE_NAME.match(line).groups())]
    return [RATTLE_MEMBER.match(line)[1]] if block and RATTLE_MEMBER.match(line) else []


@functools.cache
def rattle(crate):
    """What a crate's code declares: TYPE, TYPE.MEMBER, "const NAME", "fn NAME", "TYPE.fn NAME"."""
    texts = map(text_of, files("crates/%s/src/*.rt" % crate))
    return set().union(*(in_blocks(text, RATTLE_TYPE, rattle_line) for text in texts))


# ---- what is cited

def defined(crate, name):
    return name in antt("crates/%s/specs" % crate) or name in rattle(crate) or "const " + name in rattle(crate)


def contracted(crate, name):
    owner, _, function = name.rpartition("::")
    return (owner + "." if owner else "") + "fn " + function in rattle(crate)


def proved(crate, name):
    return name in antt("crates/%s/proofs" % crate, law_line) and name[0].islower()


@functools.cache
def case_lines(program):
    path = "crates/%s/stdout" % program
    return text_of(path) if exists(path) else ""


def runs(program, case):
    return re.search("^%s:" % ".*".join(map(re.escape, case.split("*"))), case_lines(program), re.M) is not None


def faults_of(column, item):
    """What is wrong with an item of a column, in words."""
    first, _, rest = item.partition(" ")
    if column == "Edit":
        crate, _, label = item.partition("/")
        return [] if exists("crates/%s/must-fail/%s.edit" % (crate, label)) else ["no must-fail edit " + item]
    if column == "Case":
        if not rest:
            return [] if "/" in item and os.path.isfile(os.path.join(ROOT, item)) else ["no file " + item]
        return [] if runs(first, rest) else ['crates/%s runs no case "%s"' % (first, rest)]
    if first not in CRATES or not rest:
        return ["%s is no crate and name" % item]
    test = {"Definition": defined, "Contract": contracted, "Theorem": proved}[column]
    return ["no %s %s in crates/%s" % (column.lower(), name, first) for name in rest.split(" ") if not test(first, name)]


ITEMS = re.compile("`[^`]+`(, `[^`]+`)*")


def faults_of_cell(column, cell, cited):
    """What is wrong with a cell; what it cites is added."""
    if column not in COLUMNS or cell == NOTHING:
        return []
    if not ITEMS.fullmatch(cell):
        return ["%s: %s is neither %s nor items in backquotes" % (column, cell, NOTHING)]
    items = re.findall("`([^`]+)`", cell)
    cited[column].update(items)
    return [fault for item in items for fault in faults_of(column, item)]


def promises():
    """The faults of docs/PROMISES.md, and all that it cites, by column."""
    faults, cited, header = [], {column: set() for column in COLUMNS}, None
    for at, line in enumerate(text_of(PROMISES).split("\n"), 1):
        cells = [cell.strip() for cell in line.strip("|").split("|")]
        here = []
        if not line.startswith("|"):
            header = None
        elif header is None:
            header = cells
            here = [] if header in HEADERS else ["columns that are not checked: " + line]
        elif len(cells) != len(header):
            here = ["not as many cells as columns"]
        elif set(line) - set("|-"):
            here = [fault for column, cell in zip(header, cells) for fault in faults_of_cell(column, cell, cited)]
        faults += ["%s:%d: %s" % (PROMISES, at, fault) for fault in here]
    return faults if all(cited.values()) else faults + [PROMISES + " has an empty column"], cited


def readme():
    """Paths under "Where to read on", and names in backquotes, each declared in the file named last before it."""
    section = text_of(README).split("\n## Where to read on\n")[1].split("\n## ")[0]
    faults, path = [], ""
    for word in re.findall(r"`[^`]+`|(?:crates|docs)/[\w./-]*\w|(?:specs|proofs)/\w+\.antt", section):
        if word.startswith("`"):
            if exists(path) and word[1:-1] not in in_blocks(text_of(path), ANTT_TYPE, antt_line):
                faults.append("%s: %s declares no %s" % (README, path, word))
            continue
        path = word if word.startswith(("crates", "docs")) else "/".join(path.split("/")[:2] + [word])
        if not exists(path):
            faults.append("%s: no %s" % (README, path))
    return faults


def declared_somewhere(name):
    owner, _, own = name.rpartition("::")
    if owner and owner[0].islower():  # of the language itself: used is enough
        return any(name + "(" in text_of(path) for path in files("crates/*/src/*.rt"))
    ways = {name, "fn " + name, owner + "." + own, owner + ".fn " + own}
    return any(ways & rattle(crate) or name in antt("crates/%s/specs" % crate) for crate in CRATES)


def decisions():
    """The names in the last table, which says where each form stands."""
    rows = text_of(DECISIONS).split("\n## Forms that document 01 names\n")[1]
    names = re.findall("`([^`]+)`", rows)
    return ["%s: nothing is called %s" % (DECISIONS, name) for name in names if not declared_somewhere(name)]


def single(items):
    """`CRATE NAME ..` as CRATE NAME, one by one, without the type that a name belongs to."""
    words = [item.split(" ") for item in items]
    return {"%s %s" % (crate, re.sub(r"\w+::", "", name)) for crate, *names in words for name in names}


@functools.cache
def laws_of(crate):
    """What the crate's lemma files prove of a statement: SomeName to the names of what is declared as `pub some_name : SomeName`."""
    laws = {}
    for path in files("crates/%s/proofs/*.antt" % crate):
        for line in re.sub("--.*", "", text_of(path)).split("\n"):
            law = ANTT_LAW.match(line.rstrip())
            if law and law[2]:
                laws.setdefault(law[2], set()).add(law[1])
    return laws


def same_words(law, statement):
    """Whether a theorem has its statement's name: some_name or some-name for SomeName."""
    words = "_".join(re.findall(r"[A-Z][a-z]*|\d+", statement)).lower()
    return re.sub("-", "_", law) == words


def stated():
    """Each theorem that a crate's specs/Statements.antt states: the crate, the statement and the names of what proves it."""
    for path in files("crates/*/specs/Statements.antt"):
        crate = path.split("/")[1]
        for name in re.findall(r"^abbrev pub ([A-Z]\w+) : Type [01]$", text_of(path), re.M):
            yield crate, name, {law for law in laws_of(crate).get(name, ()) if same_words(law, name)}


def unproved():
    """The statements of which no lemma file has the theorem of that name."""
    return ["crates/%s/specs/Statements.antt: proofs/ has no theorem of the name and type %s" % (crate, name)
            for crate, name, laws in stated() if not laws]


def uncited(cited):
    edits = {"%s/%s" % (path.split("/")[1], os.path.basename(path)[:-5]) for path in files("crates/*/must-fail/*.edit")}
    public = {"%s %s" % (path.split("/")[1], name) for path in files("crates/*/src/*.rt")
              for name in re.findall(r'^\s*pub (?:extern "C" )?fn (\w+)', text_of(path), re.M)}
    return [("must-fail edit", edits - cited["Edit"]), ("public function", public - single(cited["Contract"])),
            ("theorem", {"%s %s" % (crate, law) for crate, _, laws in stated() for law in laws} - single(cited["Theorem"]))]


def main():
    faults, cited = promises()
    for what, names in uncited(cited):
        for name in sorted(names):
            print("promises.py: no row of %s cites the %s %s" % (PROMISES, what, name))
    faults += readme() + decisions() + unproved()
    if faults:
        sys.exit("\n".join("promises.py: " + fault for fault in faults))


if __name__ == "__main__":
    main()
