#!/usr/bin/env python3
"""Refuses the built program its memory: each request in turn, and all above 64 MB.

    python3 checks/memory.py [PROGRAM] [--short]

First, over stored runs of checks/rows and certificates made of them, the n-th request is refused for every n,
once alone and once with all after it. Wanted is status 10 and a prefix of the whole text, or the whole text with
its status. The requests are counted by checks/refuse_memory.c, which is loaded before the program; without gcc this
part is skipped. Then every stored run, and specifications that are as great or as deep as they may be and one more,
run in 64 MB of address space, each in less than a second of processor time.
With --short at most 25 requests of a run are refused.
"""
import mmap
import os
import resource
import shutil
import struct
import subprocess
import sys
import tempfile

sys.dont_write_bytecode = True

import rows  # noqa: E402

HERE = os.path.dirname(os.path.abspath(__file__))
ROWS = os.path.join(HERE, "rows")
REFUSED = ["spec_labelled_tree", "spec_comments_and_words", "spec_too_deep", "bounds_sequence", "bounds_by_a_proposal",
           "draw_binary_tree", "draw_labelled_tree", "draw_through_two_classes", "draw_undecided", "draw_set_of_cycles",
           "fast_labelled_tree", "pool_in_turn", "run_of_3", "count_binary_trees", "object_of_rank_1",
           "rank_of_an_object", "chance_of_a_half", "chance_of_a_permutation", "point_binary_trees", "point_one_option"]
CERTIFICATES = ["draw_binary_tree", "draw_labelled_tree"]
SPACE = 64 << 20
SECONDS = 1.0
SHORT = 25


def run(program, words, folder, more=None, space=None):
    """The status, what was written and the seconds of processor time."""

    def limit():
        resource.setrlimit(resource.RLIMIT_CPU, (60, 60))
        if space:
            resource.setrlimit(resource.RLIMIT_AS, (space, space))

    with tempfile.TemporaryFile() as out:
        child = subprocess.Popen([program] + words, cwd=folder, env={**os.environ, **(more or {})},
                                 stdin=subprocess.DEVNULL, stdout=out, stderr=subprocess.STDOUT, preexec_fn=limit)
        _, ended, used = os.wait4(child.pid, 0)
        child.returncode = os.waitstatus_to_exitcode(ended)
        out.seek(0)
        return child.returncode, out.read(), used.ru_utime + used.ru_stime


def write(folder, **files):
    for name, content in files.items():
        with open(os.path.join(folder, name), "wb") as file:
            file.write(content)


# Each request refused in turn.

def stored(row):
    """The words of a stored run, the wanted status and text."""
    path = os.path.join(ROWS, row)
    words = rows.read(os.path.join(path, "args")).split(b"\n")[:-1]
    status = os.path.join(path, "status")
    return words, int(rows.read(status)) if os.path.exists(status) else 0, rows.read(os.path.join(path, "stdout"))


def refusable(program):
    """The runs: name, the row whose files they read, further files, words, wanted status and text."""
    for row in REFUSED:
        yield (row, row, {}) + stored(row)
    for row in CERTIFICATES:
        text = stored(row)[2]
        lines = text.splitlines(True)
        first = b"".join([b"boltzmann 1\n", lines[1]] + lines[3:])
        for name, content in (("verify", text), ("migrate", first)):
            words = [name.encode(), b"s", b"c"]
            with tempfile.TemporaryDirectory() as folder:
                rows.copy_files(os.path.join(ROWS, row), folder)
                write(folder, c=content)
                status, output, _ = run(program, words, folder)
            valid = output == text if name == "migrate" else output == b"end valid entries 1\n"
            yield "%s of %s" % (name, row), row, {"c": content}, words, 0 if valid else -1, output


class Page:
    """The page that the preloaded library reads and counts in."""

    def __init__(self, path):
        with open(path, "wb+") as file:
            file.write(bytes(32))
            file.flush()
            self.words = mmap.mmap(file.fileno(), 32)

    def set(self, number, all_after):
        self.words[:] = struct.pack("4Q", 0, number, all_after, 0)

    def count(self):
        return struct.unpack("4Q", self.words[:])[0]


def refuse_each(program, library, run_of, short):
    """How many requests a run makes, how often it was run, how often it ended with 10; and what is wrong."""
    name, row, files, words, status, text = run_of
    wrong, ended, times = [], 0, 0
    with tempfile.TemporaryDirectory() as folder, tempfile.TemporaryDirectory() as place:
        rows.copy_files(os.path.join(ROWS, row), folder)
        write(folder, **files)
        page = Page(os.path.join(place, "page"))
        more = {"LD_PRELOAD": library, "REFUSE_PAGE": os.path.join(place, "page")}
        page.set(0, 0)
        if run(program, words, folder, more)[:2] != (status, text):
            return 0, 1, 0, ["%s: another answer without any refusal" % name]
        requests = page.count()
        for number in spread(requests, short):
            for all_after in (0, 1):
                page.set(number, all_after)
                got, wrote, _ = run(program, words, folder, more)
                times, ended = times + 1, ended + (got == 10)
                if not (got == 10 and text.startswith(wrote)) and (got, wrote) != (status, text):
                    wrong.append("%s: request %d%s refused: status %d, wrote %r" % (
                        name, number, " and all after it" * all_after, got, wrote[-100:]))
    return requests, times, ended, wrong


def spread(most, short):
    """The numbers from 1 to most, or some of them."""
    if not short or most <= SHORT:
        return range(1, most + 1)
    return sorted({1 + i * (most - 1) // (SHORT - 1) for i in range(SHORT)})


def refuse_all(program, short):
    """What is wrong; prints how much was tried."""
    compiler = shutil.which("gcc")
    if not compiler:
        print("memory: refusing each request was skipped: no gcc")
        return []
    wrong, runs, requests, times, ended = [], 0, 0, 0, 0
    with tempfile.TemporaryDirectory() as folder:
        library = os.path.join(folder, "refuse.so")
        subprocess.run([compiler, "-O2", "-shared", "-fPIC", "-o", library, os.path.join(HERE, "refuse_memory.c")],
                       check=True)
        for run_of in refusable(program):
            found = refuse_each(program, library, run_of, short)
            runs, requests, times, ended = runs + 1, requests + found[0], times + found[1], ended + found[2]
            wrong += found[3]
            if not found[0] and not found[3]:
                wrong.append("%s: no request was counted" % run_of[0])
    print("memory: %d runs make %d requests; refused in %d runs, %d of which ended with status 10; %d wrong" % (
        runs, requests, times, ended, len(wrong)))
    return wrong


# 64 MB, and a second.

def spec(mode, *lines):
    return (mode + "\n" + "".join(line + "\n" for line in lines)).encode()


def nested(word, times):
    return "C = " + (word + "(") * times + "Z" + ")" * times


def of_nodes(last):
    """Seven classes of 64 nodes, and one of `last` and one more."""
    return spec("unlabelled", *["C%d = %s" % (c, "*".join("Z" * (63 if c < 7 else last))) for c in range(8)])


def hostile():
    """Specifications, and what `spec` is to say of them: (name, text, status, line)."""
    name, padding = "N" * 32, b"\n" * (65536 - 17)
    return [
        ("30,000 parentheses", spec("unlabelled", "C = " + "(" * 30000 + "Z" + ")" * 30000), 0,
         "end done classes 1 nodes 1"),
        ("30,000 open ones", spec("unlabelled", "C = " + "(" * 30000 + "Z"), 3,
         "refused spec syntax line 2 column 30006"),
        ("63 sequences", spec("unlabelled", nested("Seq", 63)), 3, "refused spec zero part node 2"),
        ("64 sequences", spec("unlabelled", nested("Seq", 64)), 3, "refused spec too deep 65"),
        ("63 cycles", spec("labelled", nested("Cyc", 63)), 0, "end done classes 1 nodes 64"),
        ("64 cycles", spec("labelled", nested("Cyc", 64)), 3, "refused spec too deep 65"),
        ("512 nodes", of_nodes(63), 0, "end done classes 8 nodes 512"),
        ("513 nodes", of_nodes(64), 3, "refused spec too many nodes 513"),
        ("65,536 bytes", b"unlabelled\nC = Z\n" + padding, 0, "end done classes 1 nodes 1"),
        ("65,537 bytes", b"unlabelled\nC = Z\n" + padding + b"\n", 3, "refused spec too long 65537"),
        ("a name of 32 bytes", spec("unlabelled", name + " = Z"), 0, "end done classes 1 nodes 1"),
        ("a name of 33 bytes", spec("unlabelled", name + "N = Z"), 3, "refused spec syntax line 2 column 1"),
        ("a word of 32 bytes", spec("unlabelled", "C = Z:" + name), 0, "end done classes 1 nodes 1"),
        ("a word of 33 bytes", spec("unlabelled", "C = Z:" + name + "N"), 3, "refused spec syntax line 2 column 5"),
    ]


def limit_all(program):
    """What is wrong in 64 MB; prints how much was tried, and the longest time."""
    wrong, longest = [], (0.0, "")
    names = sorted(os.listdir(ROWS))
    for row in names:
        words, status, text = stored(row)
        with tempfile.TemporaryDirectory() as folder:
            rows.copy_files(os.path.join(ROWS, row), folder)
            got, wrote, seconds = run(program, words, folder, space=SPACE)
        longest = max(longest, (seconds, row))
        if (got, wrote) != (status, text) or seconds >= SECONDS:
            wrong.append("%s in 64 MB: status %d in %.2f s, wrote %r" % (row, got, seconds, wrote[-100:]))
    cases = hostile()
    for name, content, status, line in cases:
        with tempfile.TemporaryDirectory() as folder:
            write(folder, s=content)
            got, wrote, seconds = run(program, ["spec", "s"], folder, space=SPACE)
        longest = max(longest, (seconds, name))
        if got != status or wrote.decode("latin1").splitlines()[-1:] != [line] or seconds >= SECONDS:
            wrong.append("%s in 64 MB: status %d in %.2f s, wrote %r" % (name, got, seconds, wrote[-100:]))
    print("memory: %d stored runs and %d hostile specifications in 64 MB; the longest took %.2f s (%s); %d wrong" % (
        len(names), len(cases), *longest, len(wrong)))
    return wrong


def main():
    words = [word for word in sys.argv[1:] if word != "--short"]
    program = os.path.abspath(words[0] if words else rows.PROGRAM)
    wrong = refuse_all(program, "--short" in sys.argv) + limit_all(program)
    for line in wrong[:40]:
        print(line)
    return 1 if wrong else 0


if __name__ == "__main__":
    sys.exit(main())
