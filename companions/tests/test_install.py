"""Installing."""
import os
import subprocess
import sys
import tempfile
import unittest

from tests.support import ROOT, TOOLS, program

INSTALL = os.path.join(ROOT, "companions", "install")
COMPLETION = os.path.join(ROOT, "companions", "completion", "boltz")


def completed(*words: str) -> list[str]:
    """What bash offers for the last word."""
    function = "_" + words[0].replace("-", "_")
    script = (
        'source "$1"; shift; COMP_WORDS=("$@"); COMP_CWORD=$(($# - 1)); '
        + function
        + '; printf "%s\\n" "${COMPREPLY[@]}"'
    )
    ran = subprocess.run(
        ["bash", "-c", script, "bash", COMPLETION, *words],
        stdout=subprocess.PIPE,
        text=True,
        check=True,
    )
    return ran.stdout.split()


class InstallTest(unittest.TestCase):
    def test_what_is_installed_works_from_anywhere(self):
        path = program().path
        with tempfile.TemporaryDirectory() as prefix:
            subprocess.run(
                [INSTALL, prefix],
                check=True,
                env={**os.environ, "BOLTZ": path},
                stdout=subprocess.DEVNULL,
            )
            for name in (
                "bin/boltz",
                "bin/boltz-tools",
                "share/man/man1/boltz-tools.1",
                "share/bash-completion/completions/boltz-tools",
            ):
                self.assertTrue(os.path.exists(os.path.join(prefix, name)), name)
            with open(os.path.join(prefix, "s"), "w") as file:
                file.write("unlabelled\nB = E + Z*B*B\n")
            ran = subprocess.run(
                [sys.executable, "-I", os.path.join(prefix, "bin", "boltz-tools"), "nodes", "s"],
                cwd=prefix,
                stdout=subprocess.PIPE,
                text=True,
                env={"PATH": os.path.join(prefix, "bin") + ":" + os.environ["PATH"]},
            )
        self.assertEqual((ran.returncode, len(ran.stdout.splitlines())), (0, 7))

    def test_completion_offers_commands_and_options(self):
        self.assertEqual(completed("boltz", "s"), ["spec", "sample"])
        self.assertEqual(completed("boltz", "sample", "f", "--t"), ["--tape", "--turns"])
        self.assertEqual(completed("boltz-tools", "sh"), ["shards"])
        self.assertEqual(completed("boltz-tools", "shards", "p"), ["plan"])
        self.assertEqual(
            completed("boltz-tools", "--program", "p", "convert", "f", "--to", "j"), ["json"]
        )

    def test_completion_knows_every_option(self):
        for command in ("nodes", "convert", "picture", "stats", "tune"):
            text = subprocess.run(
                [sys.executable, TOOLS, command, "--help"], stdout=subprocess.PIPE, text=True
            ).stdout
            for word in completed("boltz-tools", command, "--"):
                self.assertIn(word, text)


if __name__ == "__main__":
    unittest.main()
