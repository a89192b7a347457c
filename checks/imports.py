#!/usr/bin/env python3
"""Compares docs/imports.md with the sources: that its tables have each module of a crate's proofs/ that another crate
imports, no other one, and the crates that import it.

    python3 checks/imports.py           compares; fails where the page isn't right
    python3 checks/imports.py --list    prints what is imported now: module, names, and by which crates
    python3 checks/imports.py --write   puts the present modules and crates into the page's tables
"""
import collections
import os
import re
import sys

ROOT = os.path.join(os.path.dirname(os.path.abspath(__file__)), "..")
PAGE = os.path.join(ROOT, "docs", "imports.md")
# An import of a module of a crate's proofs/: its names in braces, or the module under another name.
IMPORT = re.compile(r"^\s*(?:pub |ghost )*use\s+Rattle\.(\w+)\.proofs\.(\w+)(?:\.\{([^}]*)\})?", re.M)
# What a module holds and why it is imported, where the page doesn't say so yet.
UNKNOWN = "?"
WIDTH = 120


def imports():
    """By module, as (crate, module): the names that are imported, each with the crates that import it."""
    found = collections.defaultdict(lambda: collections.defaultdict(set))
    crates = set(os.listdir(os.path.join(ROOT, "crates")))
    for folder, _, files in os.walk(os.path.join(ROOT, "crates")):
        reader = os.path.relpath(folder, os.path.join(ROOT, "crates")).split(os.sep)[0]
        for name in files:
            if name.endswith((".antt", ".rt")):
                with open(os.path.join(folder, name), encoding="utf-8") as file:
                    text = file.read()
                for crate, module, names in IMPORT.findall(text):
                    if crate != reader and crate in crates:
                        for item in names.split(",") if names else ["the module"]:
                            found[crate, module][item.split(" as ")[0].strip()].add(reader)
    return found


def readers(names):
    """The crates that import some of the names."""
    return sorted(set().union(*names.values()))


def page():
    """The page's text before its tables, its reasons, and its rows: what a module holds, crates that import it, why."""
    with open(PAGE, encoding="utf-8") as file:
        text = file.read()
    head, _, tables = text.partition("\n## `")
    rows, crate, row = collections.OrderedDict(), None, None
    for line in ("## `" + tables).splitlines():
        if line.startswith("## `"):
            crate = line.split("`")[1]
        cells = [cell.strip() for cell in line.strip("|").split("|")]
        if len(cells) != 4 or cells[0] in ("Module", "---"):
            continue
        # A row without a module goes on with the crates of the row above.
        if cells[0]:
            row = rows[crate, cells[0].strip("`")] = (cells[1], [], re.findall(r"\w|\?", cells[3]))
        row[1].extend(re.findall(r"`(\w+)`", cells[2]))
    return head, set(re.findall(r"^- \*\*(\w)\*\*", head, re.M)), rows


def lines_of(module, holds, crates, reasons):
    """The lines of a table's row, within the width."""
    first, cells = "| `%s` | %s | " % (module, holds), ["`%s`" % crate for crate in crates]
    last = " | %s |" % ", ".join(reasons)
    while cells:
        taken = cells[:1]
        while len(first + ", ".join(taken + cells[len(taken):len(taken) + 1]) + "," + last) <= WIDTH:
            if len(taken) == len(cells):
                break
            taken = cells[:len(taken) + 1]
        cells = cells[len(taken):]
        yield first + ", ".join(taken) + ("," if cells else "") + last
        first, last = "| | | ", " | |"


def write():
    """Writes the tables anew."""
    found, (head, _, rows) = imports(), page()
    text, last = head.rstrip("\n") + "\n", None
    order = [line.split(":")[0] for line in open(os.path.join(ROOT, "crates.txt"), encoding="utf-8")]
    for crate, module in sorted(found, key=lambda key: (order.index(key[0]), key[1])):
        if crate != last:
            text += "\n## `%s`\n\n| Module | What it holds | Imported by | Why |\n|---|---|---|---|\n" % crate
            last = crate
        holds, _, reasons = rows.get((crate, module), (UNKNOWN, [], [UNKNOWN]))
        text += "\n".join(lines_of(module, holds, readers(found[crate, module]), reasons)) + "\n"
    with open(PAGE, "w", encoding="utf-8") as file:
        file.write(text)


def faults():
    """What is wrong with the page, in words."""
    found, (_, known, rows) = imports(), page()
    for key in sorted(set(found) - set(rows)):
        yield "lacks %s.%s, imported by %s" % (key + (", ".join(readers(found[key])),))
    for key in sorted(set(rows) - set(found)):
        yield "has %s.%s, which no other crate imports" % key
    for key, (holds, crates, reasons) in rows.items():
        if key in found and crates != readers(found[key]):
            yield "%s.%s is imported by %s" % (key + (", ".join(readers(found[key])),))
        if UNKNOWN in (holds, *reasons) or not set(reasons) or not set(reasons) <= known:
            yield "doesn't say what %s.%s holds, or why it is imported" % key


def main():
    if sys.argv[1:] == ["--list"]:
        for key, names in sorted(imports().items()):
            print("%s.%s" % key)
            for name, crates in sorted(names.items()):
                print("    %s: %s" % (name, ", ".join(sorted(crates))))
        return 0
    if sys.argv[1:] == ["--write"]:
        write()
    elif sys.argv[1:]:
        print(__doc__)
        return 2
    found = list(faults())
    for fault in found:
        print("docs/imports.md %s" % fault)
    print("imports: %d modules, %d faults" % (len(imports()), len(found)))
    return 1 if found else 0


if __name__ == "__main__":
    sys.exit(main())
