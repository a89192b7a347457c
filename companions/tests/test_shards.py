"""Shards."""
import json
import os
import shutil
import signal
import subprocess
import sys
import tempfile
import time
import unittest

from tests.support import ROOT, TOOLS, needs, program, takes

BINARY = "unlabelled\nB = E + Z*B*B\n"
SLOW = '#!/bin/sh\n[ "$1" = sample ] && sleep 0.4\nexec %s "$@"\n'
KILLED = os.path.join(ROOT, "companions", "measure", "killed_worker.py")


class ShardTest(unittest.TestCase):
    def setUp(self):
        real = program().path
        place = tempfile.TemporaryDirectory()
        self.addCleanup(place.cleanup)
        self.folder = place.name
        self.slow = os.path.join(
            self.folder, "slow-boltz"
        )  # slow enough to be killed in the middle
        self.write("slow-boltz", SLOW % real)
        os.chmod(self.slow, 0o755)
        self.write("s", BINARY)

    def write(self, name: str, text: str) -> None:
        with open(os.path.join(self.folder, name), "w") as file:
            file.write(text)

    def words(self, *words: str) -> list[str]:
        return [sys.executable, TOOLS, "--program", self.slow, "shards", *words]

    def tools(self, *words: str, status: int = 0) -> str:
        """A command of shards; what it wrote."""
        ran = subprocess.run(
            self.words(*words),
            cwd=self.folder,
            stdout=subprocess.PIPE,
            stderr=subprocess.PIPE,
            text=True,
        )
        self.assertEqual(ran.returncode, status, ran.stdout + ran.stderr)
        return ran.stdout

    def plan(self, name: str, shards: int, *words: str) -> None:
        self.tools("plan", name, "s", "24/100", "--seed", "7", "--shards", str(shards), *words)

    def merged(self, name: str) -> str:
        return self.tools("merge", name)

    @takes(20)
    def test_a_killed_run_goes_on_and_gives_the_same_bytes(self):
        for name in ("one", "two"):
            self.plan(name, 6, "--count", "5", "--min", "3", "--max", "30")
        self.tools("run", "one", "--workers", "3")
        killed = subprocess.Popen(
            self.words("run", "two", "--workers", "1"),
            cwd=self.folder,
            env={**os.environ, "TMPDIR": self.folder},
            stdout=subprocess.DEVNULL,
            stderr=subprocess.DEVNULL,
        )
        receipt = os.path.join(self.folder, "two", "000001.json")
        until = time.monotonic() + 30
        while not os.path.exists(receipt) and time.monotonic() < until:
            time.sleep(0.02)
        killed.send_signal(signal.SIGKILL)
        killed.wait()
        text = self.tools("status", "two", status=1)
        self.assertRegex(text, r"^[2345] of 6 shards")
        self.tools("run", "two", "--workers", "3")
        self.assertEqual(self.merged("two"), self.merged("one"))
        self.assertEqual(
            [name for name in os.listdir(os.path.join(self.folder, "two")) if "part" in name], []
        )
        self.assertEqual(len(self.tools("merge", "two", "--objects").splitlines()), 30)

    def test_a_certificate_that_was_changed_is_made_again(self):
        self.plan("d", 2, "--count", "2")
        self.tools("run", "d", "--workers", "2")
        before = self.merged("d")
        with open(os.path.join(self.folder, "d", "000000.certificate"), "a") as file:
            file.write("x")
        self.tools("merge", "d", status=1)
        self.tools("one", "d", "0")
        self.assertEqual(self.merged("d"), before)

    def test_every_ending_is_counted(self):
        self.plan("d", 4, "--count", "50", "--turns", "300")
        text = self.tools("run", "d", "--workers", "4", status=7)
        self.assertRegex(text, "ended by turn-limit: [1-4]: the limit of turns was reached")
        with open(os.path.join(self.folder, "d", "manifest.json")) as file:
            manifest = json.load(file)
        self.assertEqual(len(manifest["shards"]), 4)
        kept = sum(shard["kept"] for shard in manifest["shards"])
        self.assertEqual(self.merged("d").count("\ntext "), kept)

    def test_each_shard_is_verified(self):
        self.plan("d", 2)
        text = self.tools("run", "d", "--workers", "2")
        self.assertIn("verified: 2\n", text)

    def test_another_plan_or_program_is_refused(self):
        self.plan("d", 2)
        self.tools("plan", "d", "s", "23/100", "--seed", "7", "--shards", "2", status=1)
        self.write("slow-boltz", SLOW % program().path + "# another version\n")
        self.tools("one", "d", "0", status=1)

    def test_bad_words_are_refused_in_the_plan(self):
        self.tools(
            "plan", "d", "s", "24/100", "--seed", "7", "--shards", "2", "--count", "0", status=1
        )
        self.tools("plan", "d", "s", "1/2", "--seed", "7", "--shards", "2", status=1)

    @unittest.skipUnless(shutil.which("parallel"), "not installed: parallel")
    @takes(20)
    def test_gnu_parallel_makes_the_same(self):
        for name in ("one", "two"):
            self.plan(name, 3, "--count", "3")
        self.tools("run", "one", "--workers", "3")
        line = self.tools("script", "two", "--parallel", "2").replace(
            "parallel ", "parallel --will-cite ", 1
        )
        subprocess.run(
            ["sh", "-c", line], check=True, stdout=subprocess.DEVNULL, stderr=subprocess.DEVNULL
        )
        self.assertIn("verified: 3\n", self.tools("status", "two"))
        self.assertEqual(self.merged("two"), self.merged("one"))

    @takes(20)
    def test_a_script_for_slurm_makes_a_shard_for_each_task(self):
        for name in ("one", "two"):
            self.plan(name, 3, "--count", "2")
        self.tools("run", "one", "--workers", "3")
        script = self.tools("script", "two", "--slurm")
        lines = script.splitlines()
        self.assertEqual(
            lines[:3], ["#!/bin/sh", "#SBATCH --array=0-2", "#SBATCH --job-name=boltz"]
        )
        self.assertTrue(lines[-1].endswith(' "$SLURM_ARRAY_TASK_ID"'), lines)
        self.assertEqual(len(lines), 4)
        for task in ("2", "0", "1"):
            subprocess.run(
                ["sh"],
                input=script,
                text=True,
                check=True,
                cwd="/",
                env={"PATH": os.environ["PATH"], "SLURM_ARRAY_TASK_ID": task},
                stdout=subprocess.DEVNULL,
            )
        self.assertIn("verified: 3\n", self.tools("status", "two"))
        self.assertEqual(self.merged("two"), self.merged("one"))

    @needs("distributed")
    @takes(40)
    def test_a_worker_of_two_is_killed(self):
        for apart in ([], ["--apart"]) if os.environ.get("COMPANIONS_ALL") else ([],):
            ran = subprocess.run(
                [
                    sys.executable,
                    KILLED,
                    "s",
                    "24/100",
                    "--shards",
                    "10",
                    "--after",
                    "3",
                    "--count",
                    "3",
                    *apart,
                ],
                cwd=self.folder,
                env={**os.environ, "BOLTZ": self.slow},
                text=True,
                stdout=subprocess.PIPE,
                stderr=subprocess.STDOUT,
                timeout=100,
            )
            self.assertEqual(ran.returncode, 0, ran.stdout)
            self.assertIn("10 of 10 shards", ran.stdout)
            self.assertIn("verified: 10\n", ran.stdout)
            self.assertIn("the merged stream equals that of one machine", ran.stdout)


if __name__ == "__main__":
    unittest.main()
