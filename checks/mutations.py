#!/usr/bin/env python3
"""Changes certificates, specifications and objects a little, and gives them to the built program.

    python3 checks/mutations.py [PROGRAM] [--cases N] [--seed N] [--processes N] [--seconds N]

Of N cases 15 of 16 are certificates: one to three changes (a byte, a number, a cell, a line dropped, doubled, swapped
or taken from another certificate, the end cut off). The answer of `verify` is to be the line of checks/verdicts.py,
which shares no code with the program; that of `migrate` the same line, or the certificate in version 2. The others are
specifications for `spec`, whose text is to read back as itself, and objects for `rank` and `chance`; `unrank` is to
give the object back. No call may crash, take 10 seconds of processor time, or write what isn't known. After the
seconds given no further case begins.
"""
import collections
import os
import random
import re
import sys
import tempfile
import time

sys.dont_write_bytecode = True

import rows  # noqa: E402
import verdicts  # noqa: E402

SECONDS = 10
FIRST_WORDS = (b"boltzmann", b"unlabelled", b"labelled", b"refused", b"invalid", b"end", b"rank", b"chance")
SOURCES = [  # specification, x, further words of `sample`; the certificates that are changed
    ("unlabelled\nA = B*B\nB = E + Z\n", "1/1", ""), ("unlabelled\nB = E + Z*B*B\n", "3/16", "--max 9"),
    ("unlabelled\nB = E + Z*B*B\n", "24/100", "--min 2 --max 6 --fraction 40"),
    ("unlabelled\nW = Seq(Z:a + Z:b)\n", "1/4", "--max 9"), ("unlabelled\nC = Z + Z\n", "1/2", "--turns 7"),
    ("unlabelled\nT = Z*Seq(T)\n", "3/16", "--fraction 52 --max 8"),
    ("unlabelled\nC = Seq>=2(Z) + Seq<=2(E + Z)\n", "1/3", "--max 8"),
    ("labelled\nT = Z*Set(T)\n", "1/4", "--max 7"), ("labelled\nP = Set(Cyc(Z))\n", "1/2", "--max 6"),
    ("labelled\nC = Cyc=3(Z + E) + Set<=2(Z*Z)\n", "1/2", "--max 7"),
    ("labelled\nQ = Seq>=1(Set>=1(Z))\n", "1/4", "--max 6"),
    ("unlabelled\nA = E + Z*B\nB = Z + A*A\n", "1/8", "--max 9 --turns 40")]
SPECS = [source[0] for source in SOURCES] + [
    "# a comment\n\nlabelled\r\nF = Set<=3(C) # maps\nC = Cyc>=2(Z:x)\n", "unlabelled\nA=(Z+(E*Z))*B\nB=Seq=2(Z)\n"]
TOKENS = b"E|Z|Seq|Set|Cyc|(|)|+|*|=|>=|<=|2|64|A|B|:a|\n| |#|labelled|unlabelled".split(b"|")
MARKS = b"0123456789abcEZ.#()[]{}<>/ \n"


class Program:
    """The program, called in a folder of its own."""

    def __init__(self, path):
        self.path, self.longest, self.calls = path, 0.0, 0

    def call(self, words):
        """The status and what was written; -1 where it crashed, took too long, or wrote what isn't known."""
        reader, writer = os.pipe()
        child = os.posix_spawn(self.path, [self.path] + words, {}, file_actions=[
            (os.POSIX_SPAWN_DUP2, writer, 1), (os.POSIX_SPAWN_DUP2, writer, 2), (os.POSIX_SPAWN_CLOSE, reader)])
        os.close(writer)
        with os.fdopen(reader, "rb") as file:
            wrote = file.read()
        _, ended, used = os.wait4(child, 0)
        status, seconds = os.waitstatus_to_exitcode(ended), used.ru_utime + used.ru_stime
        self.longest, self.calls = max(self.longest, seconds), self.calls + 1
        known = wrote.split(b"\n", 1)[0].split(b" ", 1)[0] in FIRST_WORDS or words[0] == "unrank"
        if not 0 <= status <= 15 or seconds >= SECONDS or not known:
            return -1, b"status %d in %.1f s: " % (status, seconds) + wrote
        return status, wrote


def write(name, content):
    with open(name, "wb") as file:
        file.write(content)


# Changes.

def changed_byte(dice, content):
    at = dice.randrange(len(content) + 1)
    new = bytes([dice.choice(MARKS) if dice.random() < 0.8 else dice.randrange(256)])
    return content[:at] + dice.choice([new, new, b""]) + content[at + dice.choice([0, 1, 1]):]


def changed_number(dice, content):
    """A number becomes a neighbour, another one of the same text, one of its ends or bits."""
    found = list(re.finditer(rb"\d+", content))
    if not found:
        return content
    one, other = dice.choice(found), int(dice.choice(found).group()[:30])
    value = int(one.group()[:30])
    new = dice.choice([value + 1, max(value - 1, 0), other, value ^ 1 << dice.randrange(64), 2 * value, value // 2, 0,
                       dice.choice([1000000, 1000001, 2 ** 32, 2 ** 64 - 1, 2 ** 64, 60, 61])])
    return content[:one.start()] + b"%d" % new + content[one.end():]


def changed_cell(dice, content):
    """A cell is halved, doubled, moved, dropped, doubled or added."""
    found = list(re.finditer(rb" (\d{1,20})/(\d\d?)", content))
    if not found:
        return content
    one = dice.choice(found)
    k, b = int(one.group(1)), int(one.group(2))
    new = dice.choice([[(2 * k, b + 1)], [(2 * k + 1, b + 1)], [(k // 2, b - 1)], [(k ^ 1, b)], [], [(k, b)] * 2,
                       [(k, b), (0, 1)], [(k ^ 1 << dice.randrange(b or 1), b)], [(k >> b // 2, b - b // 2)]])
    return content[:one.start()] + b"".join(b" %d/%d" % cell for cell in new) + content[one.end():]


def changed_lines(dice, content, other):
    """A line is dropped, doubled, swapped with another, or replaced by one of another text; or the end is cut off."""
    lines, more = content.splitlines(True), other.splitlines(True)
    i, j = dice.randrange(len(lines) or 1), dice.randrange(len(lines) or 1)
    kind = dice.randrange(6)
    if not lines or kind == 0:
        return content[:dice.randrange(len(content) + 1)]
    if kind == 1:
        del lines[i]
    elif kind == 2:
        lines.insert(j, lines[i])
    elif kind == 3:
        lines[i], lines[j] = lines[j], lines[i]
    elif kind == 4:
        lines[i] = dice.choice(more or [b""])
    else:
        del lines[min(i, j):max(i, j) + 1]
    return b"".join(lines)


def changed_token(dice, content):
    at = dice.randrange(len(content) + 1)
    return content[:at] + dice.choice(TOKENS) + content[at + dice.choice([0, 0, 1, 2]):]


def changed(dice, content, other, kinds):
    for _ in range(dice.choice([1, 1, 2, 3])):
        kind = dice.choice(kinds)
        content = changed_lines(dice, content, other) if kind is changed_lines else kind(dice, content)
    return content


# Cases.

class Cases:
    """The cases of one process."""

    def __init__(self, program, seed):
        self.program, self.dice = Program(program), random.Random(seed)
        self.counts, self.wrong, self.known = collections.Counter(), [], {}
        self.certificates, self.objects = [], []
        for number, (spec, x, more) in enumerate(SOURCES):
            name = "spec%d" % number
            write(name, spec.encode())
            canonical = self.program.call(["spec", name])[1].rsplit(b"end done", 1)[0].decode()
            verifier = verdicts.Verifier(canonical)
            for seed in range(1, 4):
                words = ["sample", name, x, "--seed", str(seed), "--count", str(seed)] + more.split()
                text = self.program.call(words)[1]
                self.certificates.append((name, verifier, text))
                first = text.splitlines(True)
                if b"fraction 48\n" in first:
                    self.certificates.append((name, verifier, b"".join([b"boltzmann 1\n", first[1]] + first[3:])))
                self.objects += [(name, x, line[5:]) for line in first if line.startswith(b"text ")]

    def fail(self, name, got, wanted, *contents):
        self.counts["wrong"] += 1
        self.wrong.append("%s: got %r, wanted %r; of %r" % (name, got, wanted, contents))

    def certificate(self):
        name, verifier, text = self.dice.choice(self.certificates)
        other = self.dice.choice(self.certificates)[2]
        content = changed(self.dice, text, other,
                          [changed_byte, changed_number, changed_number, changed_cell, changed_lines])
        wanted = verifier.answer(content)
        valid = wanted.startswith("end valid")
        write("certificate", content)
        got = self.program.call(["verify", name, "certificate"])
        if got != (0 if valid else 11, wanted.encode() + b"\n"):
            self.fail("verify " + name, got, wanted, content)
        kind = wanted.split()[::3] if wanted.startswith("invalid") else wanted.split()[:2]
        self.counts["same" if content == text else " ".join(kind)] += 1
        if valid or self.dice.random() < 0.25:
            self.counts["migrated"] += 1
            got = self.program.call(["migrate", name, "certificate"])
            if got != ((0, in_version_2(content, verifier)) if valid else (11, wanted.encode() + b"\n")):
                self.fail("migrate " + name, got, wanted, content)

    def specification(self):
        text = changed(self.dice, self.dice.choice(SPECS).encode(), self.dice.choice(SPECS).encode(),
                       [changed_byte, changed_token, changed_token, changed_number, changed_lines])
        write("text", text)
        status, wrote = self.program.call(["spec", "text"])
        self.counts["spec status %d" % status] += 1
        if status not in (0, 3):
            return self.fail("spec", (status, wrote), "status 0 or 3", text)
        if status == 0:
            write("again", wrote.rsplit(b"end done", 1)[0])
            again = self.program.call(["spec", "again"])
            if again != (0, wrote):
                self.fail("spec of its own text", again, wrote, text)

    def object(self):
        name, x, text = self.dice.choice(self.objects)
        text = changed(self.dice, text, text, [changed_byte, changed_byte, changed_number, changed_token])
        write("object", text)
        for words in (["rank", name, "object"], ["chance", name, x, "object"]):
            status, wrote = self.program.call(words)
            self.counts["%s status %d" % (words[0], status)] += 1
            if status not in (0, 14, 15) or (status == 0 and not wrote.endswith(b"end done\n")):
                self.fail(" ".join(words), (status, wrote), "status 0, 14 or 15", text)
            elif status == 0 and words[0] == "rank":
                self.unrank(name, text, wrote)

    def unrank(self, name, text, wrote):
        rank = wrote.split()[1].decode()
        size = str(len(re.findall(rb"Z|(?<=\.)[ab]\b", text)))
        again = self.program.call(["unrank", name, size, rank])
        wanted = (0, text[:-1] + b"\nend done\n" if text.endswith(b"\n") else text + b"\nend done\n")
        if again != wanted:
            self.fail("unrank %s %s %s" % (name, size, rank), again, wanted, text)

    def run(self, cases, until):
        for number in range(cases):
            if time.monotonic() > until:
                break
            if number % 16:
                self.certificate()
            elif number % 32:
                self.object()
            else:
                self.specification()


def in_version_2(content, verifier):
    """A valid certificate as `migrate` writes it."""
    lines = content.splitlines(True)
    if lines[0] == b"boltzmann 2\n":
        return content
    return b"".join([b"boltzmann 2\n", lines[1], b"spec %s\n" % verifier.digest.encode()] + lines[2:])


def work(program, seed, cases, until, out):
    """A process: its counts and what is wrong, as text."""
    os.nice(5)
    with tempfile.TemporaryDirectory() as folder:
        os.chdir(folder)
        found = Cases(program, seed)
        found.run(cases, until)
        os.chdir("/")
    program = found.program
    out.write(repr((dict(found.counts), found.wrong[:10], program.longest, program.calls)))
    out.flush()


def spread(program, seed, cases, processes, until):
    """What each of some processes found, and which of them died."""
    children = []
    for number in range(processes):
        out = tempfile.TemporaryFile("w+")
        child = os.fork()
        if child == 0:
            try:
                work(program, seed * 1000 + number, cases // processes, until, out)
                os._exit(0)
            except BaseException as error:
                print("mutations: process %d: %r" % (number, error), flush=True)
                os._exit(1)
        children.append((child, out))
    for child, out in children:
        died = os.waitpid(child, 0)[1] != 0
        out.seek(0)
        yield None if died else eval(out.read(), {"__builtins__": {}})


def option(name, usual):
    return int(sys.argv[sys.argv.index(name) + 1]) if name in sys.argv else usual


def main():
    program = sys.argv[1] if len(sys.argv) > 1 and not sys.argv[1].startswith("-") else rows.PROGRAM
    cases, seed, processes = option("--cases", 400), option("--seed", 1), option("--processes", 1)
    begun, counts, wrong, longest, calls = time.monotonic(), collections.Counter(), [], 0.0, 0
    until = begun + option("--seconds", 10 ** 6)
    for found in spread(os.path.abspath(program), seed, cases, processes, until):
        if found is None:
            wrong.append("a process died")
            continue
        counts.update(found[0])
        wrong, longest, calls = wrong + found[1], max(longest, found[2]), calls + found[3]
    seconds = time.monotonic() - begun
    for line in wrong[:20]:
        print(line)
    certificates = sum(counts[name] for name in counts if name.split()[0] in ("same", "end", "invalid", "refused"))
    print("mutations: " + ", ".join("%s %d" % pair for pair in sorted(counts.items())))
    print("mutations: seed %d, %d certificates and %d calls in %.0f s, %.0f certificates a second; the longest call "
          "took %.2f s; %d wrong" % (seed, certificates, calls, seconds, certificates / seconds, longest, len(wrong)))
    return 1 if wrong else 0


if __name__ == "__main__":
    sys.exit(main())
