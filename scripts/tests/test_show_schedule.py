"""The words of scripts/show_schedule.py, its statuses, and what it says where it draws nothing."""
from __future__ import annotations

import os
import subprocess
import sys
import tempfile
import unittest
from pathlib import Path

from viewer_cases import FAULTS, SCRIPTS, STUB, example

from viewer.replays import show_list

SCHEDULE = show_list(FAULTS["nm_no_tag"])
NM = str(example("nm_no_tag"))


def run(*words: str, given: str = "", mood: str = "", columns: str = "80") -> subprocess.CompletedProcess[str]:
    command = [sys.executable, str(SCRIPTS / "show_schedule.py"), *words, "--program", STUB]
    surroundings = {**os.environ, "STUB": mood, "COLUMNS": columns}
    return subprocess.run(command, input=given, capture_output=True, text=True, env=surroundings)


class Words(unittest.TestCase):
    def refused(self, done: subprocess.CompletedProcess[str], text: str) -> None:
        self.assertEqual(done.returncode, 1)
        self.assertEqual(done.stdout, "")
        self.assertEqual(len(done.stderr.strip().split("\n")), 1, done.stderr)
        self.assertTrue(done.stderr.startswith("show_schedule: "), done.stderr)
        self.assertIn(text, done.stderr)

    def test_drawn(self) -> None:
        done = run(NM, SCHEDULE)
        self.assertEqual((done.returncode, done.stderr), (0, ""))
        self.assertIn("fault history\n", done.stdout)

    def test_columns(self) -> None:
        narrow = run(NM, "0,0,0,0,0,0", columns="24").stdout
        self.assertEqual(narrow.count("step   "), 1)
        self.assertLessEqual(max(map(len, narrow.split("\n"))), 24)
        self.assertEqual(run(NM, "0,0,0,0,0,0", columns="20").stdout.count("step   "), 2)

    def test_standard_input(self) -> None:
        text = Path(NM).read_text(encoding="utf-8")
        self.assertIn("standard input, 2 steps", run("-", "0,1", given=text).stdout)
        explored = "fault history after 3 steps\nschedule 0,1,0\nstates 133\n"
        self.assertIn("nm_no_tag.json, 3 steps", run(NM, "-", given=explored).stdout)
        self.refused(run(NM, "-", given="holds to 12 steps\nstates 116\n"), "'holds to 12 steps'")
        self.refused(run(NM, "-"), "it is empty")

    def test_refusals(self) -> None:
        self.refused(run("/no/such/file", "0"), "can't read /no/such/file: No such file")
        self.refused(run(str(SCRIPTS), "0"), "Is a directory")
        self.refused(run(NM, "0;1"), "no list of thread numbers")
        self.refused(run(NM, "0", mood="refuse P9 Op"), "is no program (P9 Op)")
        self.refused(run(NM, "0", mood="nonsense"), "is not treesched")
        self.refused(run(NM, "5"), "can't be run to its end")
        self.refused(run(NM, "0", "--svg", "/no/such/folder/it.svg"), "can't write /no/such/folder/it.svg")
        self.refused(run(NM, "0", "--still", "2", "/dev/null"), "no tree after step 2")

    def test_a_page_that_does_not_agree_is_refused(self) -> None:
        with tempfile.TemporaryDirectory() as folder:
            page = Path(folder) / "page.html"
            for mood in ("reply", "verdict"):
                done = run(NM, "0,0,0,0,0,0,1,1,0", "--html", str(page), mood=mood)
                self.refused(done, "the place tables in Python")
                self.assertFalse(page.exists())

    def test_usage(self) -> None:
        for words in (["-", "-"], [NM, "0", "--compare", "1"], [NM, "0", "--still", "x", "y"], [NM]):
            self.assertEqual(run(*words).returncode, 2, words)
        for words in ([NM, "-", "--compare", "-", "--html", "x"],):
            self.assertEqual(run(*words).returncode, 2, words)

    def test_outputs(self) -> None:
        with tempfile.TemporaryDirectory() as folder:
            names = ["page.html", "lanes.svg", "lanes.tex", "still.svg"]
            page, lanes, tikz, still = (str(Path(folder) / name) for name in names)
            outs = ["--html", page, "--svg", lanes, "--tikz", tikz, "--still", "11", still]
            done = run(NM, SCHEDULE, *outs, "--compare", "nearest")
            self.assertEqual((done.returncode, done.stderr), (0, ""))
            self.assertTrue(all((Path(folder) / name).stat().st_size > 1000 for name in names))
            self.assertIn("--compare 0,0,0,0,0,0,1,0", Path(page).read_text(encoding="utf-8"))


if __name__ == "__main__":
    unittest.main()
