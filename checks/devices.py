#!/usr/bin/env python3
"""Gives the built program files and outputs that fail, and looks at its status and text.

    python3 checks/devices.py [PROGRAM] [--short]

Each file of each command is in turn missing, a folder, a pipe, without leave, a loop of links and others: `refused
read`, status 8, or for a tape `end read-fault`. Each command writes to a full device, a closed output, a pipe that
nobody reads, a file that may not grow: status 9 and a prefix of the whole text. Signals that are ignored change
nothing; a tape that shrinks while it is read ends; tapes are cut at each length. All is as docs/formats.md has it.
"""
import hashlib
import os
import re
import resource
import shutil
import signal
import socket
import subprocess
import sys
import tempfile
import time

sys.dont_write_bytecode = True

import rows  # noqa: E402

ROOT = os.path.join(os.path.dirname(os.path.abspath(__file__)), "..")
SPEC = "unlabelled\nC = Z + Z\n"
TREES = "unlabelled\nB = E + Z*B*B\n"
LABELLED = "labelled\nT = Z*Set(T)\n"
NOBODY = 65534
TAPE = b"".join(hashlib.sha256(b"%d" % i).digest() for i in range(4096))
FAULT = b"end read-fault kept 0 thrown 0 bits 0 turns 2\n"
READERS = [  # the words of each command that reads a file, FILE being the file that fails
    "spec FILE", "oracle FILE 1/2", "sample FILE 1/2 --seed 1", "pool FILE 1/2 c t", "pool s 1/2 FILE t", "point FILE",
    "chance FILE 1/2 o", "chance s 1/2 FILE", "count FILE 3", "unrank FILE 1 0", "rank FILE o", "rank s FILE",
    "verify FILE d", "verify s FILE", "migrate FILE d", "migrate s FILE"]
WRITERS = ["spec s", "oracle s 1/2", "sample s 1/2 --seed 1", "pool s 1/2 c t", "bulk 3", "point s", "chance s 1/2 o",
           "count s 3", "unrank s 1 0", "rank s o", "verify s d", "migrate s d", "spec absent", "sample s 0/1 --seed 1"]


class Place:
    """A folder with good and bad files, and the program in it, so that another user may run it."""

    def __init__(self, program, folder):
        self.folder, self.program = folder, os.path.join(folder, "program")
        os.chmod(folder, 0o755)
        shutil.copy(program, self.program)
        os.chmod(self.program, 0o755)
        for name, content in (("s", SPEC), ("trees", TREES), ("labelled", LABELLED), ("o", "1.Z\n")):
            self.write(name, content.encode())
        self.write("c", b"\1\0")
        self.write("big", TAPE)
        self.write("t", b"\x80")
        self.write("d", self.run("sample s 1/2 --tape t")[1])
        self.wrong, self.cases = [], 0

    def path(self, name):
        return os.path.join(self.folder, name)

    def write(self, name, content):
        with open(self.path(name), "wb") as file:
            file.write(content)

    def run(self, words, **more):
        """The status, and what was written to the output, or None where it isn't kept."""
        more.setdefault("stdout", subprocess.PIPE)
        ran = subprocess.run([self.program] + words.split(), cwd=self.folder, stdin=subprocess.DEVNULL, timeout=600,
                             **more)
        return ran.returncode, ran.stdout

    def wants(self, name, got, *wanted):
        self.cases += 1
        if got not in wanted:
            self.wrong.append("%s: %r, wanted %s" % (name, got, " or ".join(map(repr, wanted))))


# Files that fail.

def bad_files(place):
    """The names of files that can't be read, and what is held open for them."""
    os.mkdir(place.path("folder"))
    os.mkfifo(place.path("pipe"))
    os.symlink("loop", place.path("loop"))
    os.symlink("absent", place.path("link"))
    held = [socket.socket(socket.AF_UNIX), os.open(place.path("pipe"), os.O_RDWR)]
    here = os.getcwd()
    os.chdir(place.folder)
    held[0].bind("socket")
    os.chdir(here)
    names = ["absent", "folder", "pipe", "loop", "link", "socket", "s/s", "n" * 300, "/dev/stdin", "/proc/self/mem"]
    return [name for name in names if name[0] != "/" or os.path.exists(name)], held


def failing_files(place):
    """Each file of each command is one that can't be read."""
    names, held = bad_files(place)
    for name in names:
        for words in READERS:
            place.wants("%s, FILE %s" % (words, name[:20]), piped(place, words.replace("FILE", name)),
                        (8, b"refused read\n"))
        status, text = piped(place, "sample s 1/2 --tape " + name)
        place.wants("a tape %s" % name[:20], (status, text[text.index(b"end"):]), (8, FAULT))
        status, text = piped(place, "pool s 1/2 c t %s t" % name)
        place.wants("a pool's tape %s" % name[:20], (status, text.count(b"end done kept 1"), text.count(FAULT)),
                    (8, 2, 1))
    held[0].close()
    os.close(held[1])


def piped(place, words):
    """A run whose standard input is a pipe that something stands in."""
    ran = subprocess.run([place.program] + words.split(), cwd=place.folder, input=SPEC.encode(), timeout=600,
                         stdout=subprocess.PIPE)
    return ran.returncode, ran.stdout


def without_leave(place):
    """A file that the user may not read; as root, by another user."""
    more = {"user": NOBODY} if os.getuid() == 0 else {}
    for name, content in (("secret", SPEC), ("code", "\1")):
        place.write(name, content.encode())
        os.chmod(place.path(name), 0)
    try:
        place.wants("another user runs it", place.run("spec s", **more)[0], 0)
    except (PermissionError, OSError) as error:
        print("devices: a file without leave was skipped: %s" % error)
        return
    place.wants("a file without leave", place.run("spec secret", **more), (8, b"refused read\n"))
    place.wants("a schedule without leave", place.run("pool s 1/2 code t", **more), (8, b"refused read\n"))
    status, text = place.run("sample s 1/2 --tape code", **more)
    place.wants("a tape without leave", (status, text[-len(FAULT):]), (8, FAULT))


def endless_files(place, short):
    """Devices without an end, or with nothing."""
    place.wants("/dev/null", place.run("spec /dev/null"), (3, b"refused spec syntax line 1 column 1\n"))
    place.wants("/dev/zero", place.run("spec /dev/zero"), (3, b"refused spec too long 65537\n"))
    place.wants("an endless object", place.run("rank s /dev/zero"), (14, b"refused object too long\n"))
    if not short:
        place.wants("an endless schedule", place.run("pool s 1/2 /dev/zero t")[0], 0)
    place.wants("an endless tape", place.run("sample s 1/2 --tape /dev/zero")[0], 0)
    status, text = place.run("sample s 1/2 --tape /dev/null")
    place.wants("an empty tape", (status, text.splitlines()[-1]), (5, b"end tape-ended kept 0 thrown 0 bits 0 turns 2"))


# Outputs that fail.

def failing_outputs(place, short):
    """Each command writes to what takes nothing, or only some bytes."""
    for words in WRITERS:
        status, whole = place.run(words)
        with open("/dev/full", "wb") as full:
            place.wants(words + " to /dev/full", place.run(words, stdout=full)[0], 9)
        with open(place.path("s"), "rb") as unwritable:
            place.wants(words + " to a file for reading", place.run(words, stdout=unwritable)[0], 9)
        reader, writer = os.pipe()
        os.close(reader)
        place.wants(words + " to nobody", place.run(words, stdout=writer)[0], 9)
        os.close(writer)
        place.wants(words + " to a closed output", place.run(words, stdout=None, preexec_fn=lambda: os.close(1))[0], 9)
        for most in {0, 1, len(whole) // 2, len(whole) - 1} if short else range(len(whole)):
            place.wants("%s in %d bytes" % (words, most), in_bytes(place, words, most), (9, whole[:most]))
        place.wants(words + " in as many bytes", in_bytes(place, words, len(whole)), (status, whole))


def in_bytes(place, words, most):
    """A run whose output is a file of at most so many bytes."""

    def limit():
        signal.signal(signal.SIGXFSZ, signal.SIG_IGN)
        resource.setrlimit(resource.RLIMIT_FSIZE, (most, most))

    with tempfile.TemporaryFile() as out:
        status, _ = place.run(words, stdout=out, preexec_fn=limit, restore_signals=False)
        out.seek(0)
        return status, out.read()


LONG = "sample trees 24/100 --seed 1 --count 3000 --turns 50000000"


def started(place, words):
    """A run that goes on; the shell may have had SIGINT ignored, so that it is put back."""
    return subprocess.Popen([place.program] + words.split(), cwd=place.folder, stdin=subprocess.DEVNULL,
                            stdout=subprocess.PIPE, preexec_fn=lambda: signal.signal(signal.SIGINT, signal.SIG_DFL))


def readers_that_leave(place):
    """A reader that goes away after some bytes, and one that never reads a pipe that doesn't wait."""
    whole = place.run(LONG)[1]
    for most in (1, 1000, 40000, 100000):
        child = started(place, LONG)
        taken = child.stdout.read(most)
        child.stdout.close()
        place.wants("a reader that leaves after %d bytes" % most, (child.wait(), whole.startswith(taken)), (9, True))
    reader, writer = os.pipe()
    os.set_blocking(writer, False)
    status, _ = place.run(LONG, stdout=writer)
    os.close(writer)
    with os.fdopen(reader, "rb") as file:
        taken = file.read()
    place.wants("a full pipe that doesn't wait", (status, whole.startswith(taken), 0 < len(taken) < len(whole)),
                (9, True, True))
    return whole


def signals(place, whole):
    """Signals that are ignored, stopping and going on change nothing; what a killed run wrote is a prefix."""
    for number in (signal.SIGWINCH, signal.SIGURG, signal.SIGCHLD, signal.SIGCONT, signal.SIGSTOP):
        child, taken = started(place, LONG), b""
        while piece := os.read(child.stdout.fileno(), 5000):
            taken += piece
            child.send_signal(number)
            time.sleep(0.002)
            child.send_signal(signal.SIGCONT)
        child.stdout.close()
        place.wants("signal %d again and again" % number, (child.wait(), taken == whole), (0, True))
    for number in (signal.SIGTERM, signal.SIGINT, signal.SIGKILL):
        child = started(place, LONG)
        taken = child.stdout.read(1000)
        child.send_signal(number)
        taken += child.stdout.read()
        child.stdout.close()
        place.wants("a run that is ended by signal %d" % number, (child.wait(), whole.startswith(taken)),
                    (-number, True))


# Files that change, and tapes that are cut.

def entries(text):
    """The entries of a drawing, each with the number of bits up to its end."""
    found = []
    for entry in re.finditer(rb"object \d+ at (\d+) size \d+\ntext .*\ncells(.*)\n", text):
        bits = sum(int(cell.split(b"/")[1]) for cell in entry.group(2).split())
        found.append((entry.group(0), int(entry.group(1)) + bits))
    return found


def cut_text(whole, bits):
    """The entries of a drawing whose tape ends after so many bits, and the beginning of its last line."""
    kept = [entry for entry, end in entries(whole) if end <= bits]
    return b"".join(kept), b"end tape-ended kept %d thrown " % len(kept), b" bits %d turns " % bits


def check_cut(place, name, whole, bits, status, text):
    """A drawing whose tape ends after so many bits is as the whole one up to there."""
    if bits >= int(re.search(rb" bits (\d+) turns", whole).group(1)):
        place.wants(name, (status, text), (0, whole))
        return
    body, first, last = cut_text(whole, bits)
    start = whole[:whole.index(b"object 1 ")] + body + first
    more = text[len(start):]
    place.wants(name, (status, text.startswith(start), last in more, more.count(b"\n")), (5, True, True, 1))


def cut_tapes(place, short):
    """Tapes cut at each length from 0 to 8 bytes, and around the end of what is used."""
    for words in ("sample trees 24/100 --count 40", "sample labelled 30/100 --count 40",
                  "sample trees 24/100 --count 9 --min 3"):
        status, whole = place.run(words + " --tape big")
        used = int(re.search(rb" bits (\d+) turns", whole).group(1))
        place.wants(words, status, 0)
        last = -(-used // 8)
        for length in sorted({*range(9), *range(last - 2, last + 3), *([] if short else range(9, last, 5))}):
            place.write("cut", TAPE[:length])
            status, text = place.run(words + " --tape cut")
            check_cut(place, "%s, %d bytes" % (words, length), whole, 8 * length, status, text)


def shrinking_tape(place):
    """A tape that is cut while the drawing waits for its reader."""
    words = "sample trees 24/100 --count 20000 --turns 50000000 --tape big"
    whole = place.run(words)[1]
    for most in (0, 4096, 8191, 20000):
        place.write("big", TAPE)
        child = started(place, words)
        text = child.stdout.read(70000)
        os.truncate(place.path("big"), most)
        text += child.stdout.read()
        child.stdout.close()
        status = child.wait()
        used = int(re.search(rb" bits (\d+) turns \d+\n$", text).group(1))
        place.wants("a tape cut to %d bytes ends behind the piece that was read" % most, used, 8 * max(most, 4096))
        check_cut(place, "a tape cut to %d bytes" % most, whole, used, status, text)


def changing_specification(place, times):
    """A specification that is cut and written again while it is read."""
    text = (SPEC + "# padding\n" * 6000).encode()
    writer = os.fork()
    if writer == 0:
        while True:
            place.write("changing", text)
            os.truncate(place.path("changing"), 0)
    try:
        for _ in range(times):
            status, wrote = place.run("spec changing")
            place.wants("a specification that changes", (status, wrote.split(b" ")[0]), (0, b"unlabelled\nC"),
                        (3, b"refused"), (8, b"refused"))
    finally:
        os.kill(writer, signal.SIGKILL)
        os.waitpid(writer, 0)


def main():
    short = "--short" in sys.argv
    words = [word for word in sys.argv[1:] if word != "--short"]
    program = os.path.abspath(words[0] if words else rows.PROGRAM)
    with tempfile.TemporaryDirectory() as folder:
        place = Place(program, folder)
        failing_files(place)
        without_leave(place)
        endless_files(place, short)
        failing_outputs(place, short)
        whole = readers_that_leave(place)
        signals(place, whole)
        cut_tapes(place, short)
        shrinking_tape(place)
        changing_specification(place, 20 if short else 200)
    for line in place.wrong[:40]:
        print(line)
    print("devices: %d cases, %d wrong" % (place.cases, len(place.wrong)))
    return 1 if place.wrong else 0


if __name__ == "__main__":
    sys.exit(main())
