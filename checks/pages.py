#!/usr/bin/env python3
"""Compares the pages with the repository: that docs/laws.md names each law and no other, docs/architecture.md and
docs/claims.md the crates, the links of each page lead somewhere, and each file that a page names is there.

    python3 checks/pages.py
"""
import glob
import os
import re
import sys

ROOT = os.path.join(os.path.dirname(os.path.abspath(__file__)), "..")
# A law is a public function without arguments and without a result, with its sentence above it.
LAW = re.compile(r"^\s*///.*\n(?:#\[.*\n)*pub fn (\w+)\(\)\s*$", re.M)
# A file of the repository as pages name it.
FILE = re.compile(r"`((?:crates|docs|checks|examples|companions|bench)/[\w./-]+\.(?:rt|antt|md|py|boltz|txt|1))`")
LINK = re.compile(r"\]\(([^)#:]+)\)")


def text_of(path):
    with open(os.path.join(ROOT, path), encoding="utf-8") as file:
        return file.read()


def laws():
    """The laws of the crates, by their full names."""
    for path in glob.glob(os.path.join(ROOT, "crates", "*", "src", "**", "*.rt"), recursive=True):
        crate, module = os.path.relpath(path, os.path.join(ROOT, "crates"))[:-3].split(os.sep + "src" + os.sep)
        for name in LAW.findall(text_of(path)):
            full = "%s::%s::%s" % (crate, module.replace(os.sep, "::"), name)
            yield full[len("bz_laws::"):] if crate == "bz_laws" else full


def is_function(name):
    """A public function has this name: some laws have parameters."""
    parts = name.split("::") if name.count("::") > 1 else ["bz_laws"] + name.split("::")
    path = os.path.join("crates", parts[0], "src", *parts[1:-1]) + ".rt"
    return os.path.exists(os.path.join(ROOT, path)) and re.search(r"^pub fn %s\b" % parts[-1], text_of(path), re.M)


def faults():
    """What is wrong, in words."""
    there, named = set(laws()), set(re.findall(r"\| `([\w:]+)` \|$", text_of("docs/laws.md"), re.M))
    for law in sorted(there - named):
        yield "docs/laws.md lacks %s" % law
    for law in sorted(named - there):
        if not is_function(law):
            yield "docs/laws.md has %s, which isn't there" % law
    for crate in (line.split(":")[0] for line in text_of("crates.txt").splitlines()):
        if "`%s`" % crate not in text_of("docs/architecture.md"):
            yield "docs/architecture.md lacks %s" % crate
        if crate != "boltz_cli" and "`%s" % crate not in text_of("docs/claims.md") + "`boltz`":
            yield "docs/claims.md lacks %s" % crate
    pages = ["README.md", "CHANGELOG.md", "CONTRIBUTING.md", "examples/README.md"]
    pages += ["docs/" + name for name in sorted(os.listdir(os.path.join(ROOT, "docs"))) if name.endswith(".md")]
    for page in pages:
        text = text_of(page)
        for link in LINK.findall(text):
            if not os.path.exists(os.path.join(ROOT, os.path.dirname(page), link)):
                yield "%s has a link to %s, which isn't there" % (page, link)
        for file in FILE.findall(text):
            if not os.path.exists(os.path.join(ROOT, file)):
                yield "%s names %s, which isn't there" % (page, file)


def main():
    found = list(faults())
    for fault in found:
        print(fault)
    print("pages: %d faults" % len(found))
    return 1 if found else 0


if __name__ == "__main__":
    sys.exit(main())
