#!/usr/bin/env python3
"""Runs the commands that the documents show, and compares what they print.

    python3 checks/guide.py PROGRAM [--write] [PAGE ..]

In an indented block a line that begins with `$ ` is a command, which goes on in the next line where it ends with
`|` or a backslash. The lines after it, up to the next command or the end of the block, are what it prints. The
commands of a page run in order in one new folder, with the program on the path as `boltz` and with the
repository's examples/ beside them. `--write` puts what was printed into the pages.
"""
import os
import shutil
import subprocess
import sys
import tempfile

ROOT = os.path.join(os.path.dirname(os.path.abspath(__file__)), "..")
PAGES = ("README.md", "docs/guide.md", "docs/formats.md", "examples/README.md")
INDENT = "    "


def parts_of(lines):
    """The page in order: ("text", line), or ("command", its lines, the lines that it prints)."""
    place = 0
    while place < len(lines):
        if not lines[place].startswith(INDENT + "$ "):
            yield "text", lines[place], None
            place += 1
            continue
        first = place
        while lines[place].rstrip().endswith(("|", "\\")):
            place += 1
        place += 1
        after = place
        while place < len(lines) and lines[place].startswith(INDENT) and not lines[place].startswith(INDENT + "$ "):
            place += 1
        yield "command", lines[first:after], lines[after:place]


def printed_by(command, folder, path):
    """The lines that a command prints, on both outputs."""
    ran = subprocess.run(["sh", "-c", command], cwd=folder, env={**os.environ, "PATH": path},
                         stdin=subprocess.DEVNULL, stdout=subprocess.PIPE, stderr=subprocess.STDOUT, timeout=120)
    return ran.stdout.decode("ascii", "replace").splitlines()


def read_page(page, program, write):
    """Runs a page's commands. How many there are, and how many print something else."""
    with open(page, encoding="utf-8") as file:
        lines = file.read().split("\n")
    out, commands, others = [], 0, 0
    with tempfile.TemporaryDirectory() as folder:
        os.mkdir(os.path.join(folder, "bin"))
        os.symlink(os.path.abspath(program), os.path.join(folder, "bin", "boltz"))
        work = os.path.join(folder, "work")
        os.mkdir(work)
        shutil.copytree(os.path.join(ROOT, "examples"), os.path.join(work, "examples"))
        path = os.path.join(folder, "bin") + os.pathsep + os.environ.get("PATH", "")
        for kind, first, shown in parts_of(lines):
            if kind == "text":
                out.append(first)
                continue
            commands += 1
            command = "\n".join(line[len(INDENT):] for line in first)[2:]
            got = [(INDENT + line).rstrip() for line in printed_by(command, work, path)]
            if not write and got != [line.rstrip() for line in shown]:
                others += 1
                print("%s: %s\n  prints\n%s\n  and the page has\n%s" % (
                    os.path.relpath(page, ROOT), command, "\n".join(got), "\n".join(shown)))
            out += first + got
    if write:
        with open(page, "w", encoding="utf-8") as file:
            file.write("\n".join(out))
    return commands, others


def main(words):
    write = "--write" in words
    words = [word for word in words if word != "--write"]
    if not words:
        sys.exit(__doc__)
    pages = words[1:] or [os.path.join(ROOT, page) for page in PAGES]
    counts = [read_page(page, words[0], write) for page in pages if os.path.exists(page)]
    commands, others = (sum(column) for column in zip(*counts))
    print("documents: %d commands, %d of them print something else" % (commands, others))
    return 1 if others else 0


if __name__ == "__main__":
    sys.exit(main(sys.argv[1:]))
