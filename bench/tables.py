#!/usr/bin/env python3
"""Tables in Markdown of the figures that a benchmark's processes wrote: of each figure the median over the processes.

  tables.py peers FIGURES     lines READER|FILE|BYTES|ELEMENTS|KIND|NS of bench/peers/main.c
  tables.py growth FIGURES    lines LADDER|BYTES|ELEMENTS|NS of bench/growth.c
"""
import statistics
import sys


def medians(path):
    """Each figure's median, by all that stands before it in its line; in the order of the first process."""
    figures = {}
    with open(path, encoding="utf-8") as file:
        for line in file:
            *key, ns = line.rstrip("\n").split("|")
            figures.setdefault(tuple(key), []).append(float(ns))
    return {key: statistics.median(each) for key, each in figures.items()}


def processes(path):
    """How many processes wrote: each wrote its first line once."""
    with open(path, encoding="utf-8") as file:
        lines = [line.rsplit("|", 1)[0] for line in file]
    return lines.count(lines[0])


def firsts(items):
    """Each item once, in order."""
    return list(dict.fromkeys(items))


def print_table(head, rows):
    print("| " + " | ".join(head) + " |")
    print("|---|" + "--:|" * (len(head) - 1))
    for row in rows:
        print("| " + " | ".join(row) + " |")


# ---- bench/peers

def times(found, files, readers):
    """Beside each time its ratios: to the fastest peer, and to each floor."""
    floors = [reader for reader, kind in readers if kind == "floor"]
    head = ["Reader"]
    for name, size, _ in files:
        head += ["%s, %s bytes" % (name, size), "to fastest peer"]
        head += ["to %s" % floor.replace(": plain C,", " by") for floor in floors]
    rows = []
    for reader, _ in readers:
        row = [reader]
        for file in files:
            ns = found[reader, file]
            peers = [found[peer, file] for peer, kind in readers if kind == "peer"]
            row += ["%.0f" % ns, "%.2f" % (ns / min(peers)) if peers else "-"]
            row += ["%.2f" % (ns / found[floor, file]) for floor in floors]
        rows.append(row)
    print_table(head, rows)


def growth_of_readers(found, files, readers):
    head = ["Reader"] + ["%s bytes, %s elements" % file[1:] for file in files] + ["last / first"]
    rows = []
    for reader, _ in readers:
        row = [reader]
        for file in files:
            ns, size, elements = found[reader, file], int(file[1]), int(file[2])
            row.append("%.2f / %.1f" % (ns / size, ns / elements))
        rows.append(row + ["%.1f" % (found[reader, files[-1]] / found[reader, files[0]])])
    print_table(head, rows)


def peers(path):
    each = medians(path)
    found = {(reader, (name, size, elements)): ns for (reader, name, size, elements, _), ns in each.items()}
    files = firsts(key[1:4] for key in each)
    readers = firsts((key[0], key[4]) for key in each)
    first, last = files[0], files[-1]
    print("## Time of a read\n")
    print("ns, the median of %d processes, each of which gives its least round; then the ratio to the fastest peer library, and to"
          % processes(path))
    print("each floor.\n")
    times(found, files, readers)
    print("\n## How it grows\n")
    print("ns a byte / ns an element; then how many times as long the last file takes as the first, which has %.0f times the bytes"
          % (int(last[1]) / int(first[1])))
    print("and %.1f times the elements. bench/GROWTH.md has more sizes of Sculldrip's read.\n" % (int(last[2]) / int(first[2])))
    growth_of_readers(found, files, readers)


# ---- bench/growth

LADDERS = {
    "both": ("Bytes and elements", "Both grow together, from document 01's sample to the longest extension."),
    "elements": ("Elements alone", "More fields and members in as many bytes: the challenge makes up for them."),
    "bytes": ("Bytes alone", "A longer challenge, and nothing else."),
}


def line_through(points):
    """Least squares of what the points are off, in parts of each: start and slope."""
    weights = [1 / y ** 2 for _, y in points]
    total = sum(weights)
    x0 = sum(w * x for w, (x, _) in zip(weights, points)) / total
    y0 = sum(w * y for w, (_, y) in zip(weights, points)) / total
    slope = (sum(w * (x - x0) * (y - y0) for w, (x, y) in zip(weights, points))
             / sum(w * (x - x0) ** 2 for w, (x, _) in zip(weights, points)))
    return y0 - slope * x0, slope


def print_ladder(name, rungs):
    title, about = LADDERS[name]
    across = 0 if name == "bytes" else 1  # what the line runs over
    start, slope = line_through([(rung[across], rung[2]) for rung in rungs])
    line = [start + slope * rung[across] for rung in rungs]
    off = [rung[2] / expected - 1 for rung, expected in zip(rungs, line)]
    each = [rung[2] / rung[1] for rung in rungs]
    print("\n## %s\n\n%s An element takes %.1f to %.1f ns on every rung." % (title, about, min(each), max(each)))
    print("The line through the rungs: %.0f ns and %.*f for each %s; none is off it by more than %.0f %%.\n"
          % (start, 4 if across == 0 else 2, slope, ("byte", "element")[across], 100 * max(map(abs, off))))
    print_table(["Bytes", "Elements", "ns", "ns a byte", "ns an element", "the line", "off it"],
                [["{:,}".format(size), str(elements), "%.0f" % ns, "%.2f" % (ns / size), "%.1f" % (ns / elements),
                  "%.0f" % expected, "%+.0f %%" % (100 * part)]
                 for (size, elements, ns), expected, part in zip(rungs, line, off)])


def growth(path):
    each = medians(path)
    print("ns of a read, the median of %d processes, each of which gives its least round." % processes(path))
    for name in firsts(key[0] for key in each):
        print_ladder(name, [(int(size), int(elements), ns) for (ladder, size, elements), ns in each.items() if ladder == name])


if __name__ == "__main__":
    {"peers": peers, "growth": growth}[sys.argv[1]](sys.argv[2])
