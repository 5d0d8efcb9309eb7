"""Tests of sweep.py and of the lines that it writes, with a program that answers at once."""
from __future__ import annotations

import fcntl
import hashlib
import json
import os
import signal
import subprocess
import sys
import tempfile
import time
import unittest
from dataclasses import replace
from pathlib import Path

from script_runs import SCRIPTS, result_line, run_script, stub_program
from common import Refused, Unusable, read_answer
from programs import Family, Part
from results import Result, digest_of, mend, read_results, result_of, whole_results

FAMILY = ["--trees", "nm", "--initial", "-", "--keys", "5", "--most", "1"]
NAMES = ["nm::i5:i5", "nm::i5:d5", "nm::i5:f5", "nm::d5:d5", "nm::d5:f5", "nm::f5:f5"]
DIGEST = digest_of(Result(name, "every", 2, 1, True, 0.0, 0.0) for name in NAMES)
SUMMARY = f"nm: 6 programs: every 6; most states 2, most steps 1\ndigest {DIGEST}\n"


class Answers(unittest.TestCase):
    """What `explore` prints."""

    def test_each_answer_is_read(self) -> None:
        self.assertEqual(read_answer("holds for every schedule\nstates 7\n").verdict, "every")
        self.assertEqual(read_answer("holds to 3 steps\nstates 7\n").steps, 3)
        self.assertEqual(read_answer("stopped at 7 states\nholds to 3 steps\n").states, 7)
        fault = read_answer("fault history after 2 steps\nschedule 0,1\nstates 7\n")
        self.assertEqual((fault.verdict, fault.steps, fault.schedule), ("history", 2, "0,1"))

    def test_another_text_is_no_answer(self) -> None:
        with self.assertRaises(Refused):
            read_answer("holds\n")


class Lines(unittest.TestCase):
    """Folders of results."""

    def setUp(self) -> None:
        folder = tempfile.TemporaryDirectory()
        self.addCleanup(folder.cleanup)
        self.folder = Path(folder.name)
        self.file = self.folder / "1of1.jsonl"

    def test_a_line_is_read_back(self) -> None:
        line = result_line("nm::i5:f5@0.0", verdict="history", schedule="0,1")
        result = result_of(line.encode())
        assert result
        self.assertEqual(result.line(), line)
        self.assertEqual(result.answer, "nm::i5:f5@0.0 history 2 1")

    def test_a_line_that_is_not_whole_is_named_and_cut_out(self) -> None:
        good, other = result_line("nm::i5:i5"), result_line("nm::i5:d5")
        damaged = [
            *("{}\n", "[]\n", "[{\n", "nonsense\n", other[:-1], other[:20], other[1:]),
            other.replace('"states": 2', '"states": 3'),
            other.replace('"steps": 1', '"steps": "1"'),
            other.replace("{", '{"size": 1, '),
        ]
        for bad in damaged:
            self.file.write_text(good + bad, encoding="utf-8")
            with self.subTest(bad), self.assertRaises(Unusable) as caught:
                read_results(self.folder)
            self.assertIn(f"{self.file}:2 is not whole", str(caught.exception))
            self.assertEqual([result.program for result in whole_results(self.folder)], ["nm::i5:i5"])
            self.assertEqual(mend(self.file), 1)
            self.assertEqual(self.file.read_text(encoding="utf-8"), good)
            self.assertEqual((self.folder / "1of1.damaged").read_text(encoding="utf-8"), good + bad)
            self.assertEqual(mend(self.file), 0)

    def test_the_digest_is_that_of_the_sorted_answers(self) -> None:
        right = Result("nm::i5:i5", "every", 7, 4, True, 0.1, 0.2)
        wrong = Result("nm::d5:i5", "order", 9, 5, True, 0.1, 0.2, "0")
        told = hashlib.sha256(b"nm::d5:i5 order 9 5\nnm::i5:i5 every 7 -\n").hexdigest()
        self.assertEqual(digest_of([right, wrong]), told)
        self.assertEqual(digest_of([replace(wrong, seconds=3.0, commit="c0ffee"), right]), told)
        self.assertNotEqual(digest_of([right, replace(wrong, states=8)]), told)


class Sweeps(unittest.TestCase):
    """The script as a user runs it."""

    def setUp(self) -> None:
        folder = tempfile.TemporaryDirectory()
        self.addCleanup(folder.cleanup)
        self.folder = Path(folder.name)
        self.program = stub_program(self.folder)

    def sweep(self, *words: object) -> tuple[int, str, str]:
        """The status and the outputs of a sweep."""
        ended = run_script("scripts/sweep.py", *words, folder=self.folder)
        self.assertNotIn("Traceback", ended.stderr)
        return ended.returncode, ended.stdout, ended.stderr

    def test_a_family_is_swept_and_goes_on_where_it_was(self) -> None:
        words = ["--out", "r", *FAMILY, "--program", self.program, "--commit", "c0ffee"]
        status, out, err = self.sweep(*words)
        self.assertEqual((status, out), (0, SUMMARY), err)
        file = self.folder / "r" / "1of1.jsonl"
        lines = file.read_text(encoding="utf-8").splitlines(keepends=True)
        self.assertEqual(json.loads(lines[0])["commit"], "c0ffee")
        file.write_text("".join(lines[:2]) + lines[2].replace("every", "evert") + lines[3] + '{"pro', encoding="utf-8")
        status, out, err = self.sweep(*words)
        self.assertEqual((status, out), (0, SUMMARY))
        self.assertIn("1of1.jsonl: not whole, and cut out: 2 lines, whose programs run again", err)
        self.assertIn("3 of 3, 3 were there", err)
        self.assertEqual(self.sweep(*words), (0, SUMMARY, "sweep: all 6 were there\n"))

    def test_parts_are_joined_and_nothing_is_done_twice(self) -> None:
        words = ["--out", "r", *FAMILY, "--program", self.program]
        family = Family(["nm"], ["-"], [5], 2, 1)
        for number in (3, 1):
            status, out, _ = self.sweep(*words, "--part", f"{number}/3")
            names = list(family.names(Part(number, 3)))
            self.assertEqual((status, out.splitlines()[0].split()[1]), (0, str(len(names))))
            there = whole_results(self.folder / "r")
            self.assertLessEqual(set(names), {result.program for result in there})
        status, out, err = self.sweep(*words)
        self.assertEqual((status, out), (0, SUMMARY))
        self.assertIn(f"{len(there)} were there", err)
        self.assertEqual(len(read_results(self.folder / "r")), 6)

    def test_a_part_is_run_by_one_at_a_time(self) -> None:
        (self.folder / "r").mkdir()
        with (self.folder / "r" / "1of1.jsonl").open("a") as file:
            fcntl.flock(file, fcntl.LOCK_EX)
            status, out, err = self.sweep("--out", "r", *FAMILY, "--program", self.program)
        self.assertEqual((status, out, err), (2, "", "sweep: another run writes r/1of1.jsonl\n"))

    def test_an_interrupted_sweep_ends_in_one_line_and_keeps_what_is_done(self) -> None:
        for sent in (signal.SIGINT, signal.SIGTERM):
            with self.subTest(sent):
                self.interrupt(sent, sent.name)

    def interrupt(self, sent: signal.Signals, name: str) -> None:
        """Interrupts a sweep once it has a line."""
        words = ["--out", name, "--trees", "nm", "--program", self.program]
        process = subprocess.Popen(
            [sys.executable, str(SCRIPTS / "sweep.py"), *map(str, words)],
            cwd=self.folder,
            stderr=subprocess.PIPE,
            text=True,
            start_new_session=True,
            preexec_fn=lambda: signal.signal(signal.SIGINT, signal.SIG_DFL),
        )
        results = self.folder / name / "1of1.jsonl"
        while not results.exists() or not results.read_bytes():
            time.sleep(0.05)
        os.killpg(process.pid, sent)
        _, err = process.communicate(timeout=60)
        self.assertEqual(process.returncode, 130)
        self.assertNotIn("Traceback", err)
        self.assertEqual(err.splitlines()[-1], "sweep: interrupted; the same command goes on from here")
        self.assertTrue(whole_results(self.folder / name))

    def test_another_program_names_no_commit(self) -> None:
        self.sweep("--out", "r", *FAMILY, "--program", self.program)
        self.assertNotIn("commit", (self.folder / "r" / "1of1.jsonl").read_text(encoding="utf-8"))

    def test_an_answer_that_is_judged_otherwise_makes_the_status_1(self) -> None:
        lying = stub_program(self.folder, "lying")
        status, _, err = self.sweep("--out", "r", *FAMILY, "--program", lying)
        self.assertEqual(status, 1)
        self.assertIn("6 wrong", err)

    def test_a_program_that_is_refused_has_no_line(self) -> None:
        status, out, err = self.sweep("--out", "r", *FAMILY, "--program", self.program, "--states", 1)
        self.assertEqual((status, out), (1, f"digest {digest_of([])}\n"))
        self.assertIn("sweep: nm::i5:i5: explore ended with status", err)
        self.assertIn("6 of 6, 6 wrong", err)

    def test_faults_of_use_are_one_line(self) -> None:
        (self.folder / "file").touch()
        faults: list[tuple[list[object], str]] = [
            (["--show", "nonsense"], "'nonsense' is no name of a program"),
            (["--out", "file", "--program", self.program], "can't write file/1of1.jsonl: File exists"),
            (["--out", "x", "--part", "9/8"], "'9/8' is no part, as 1/8 or 8/8"),
            (["--out", "x", "--part", "0/8"], "'0/8' is no part"),
            (["--out", "x", "--states", "3000000"], "'3000000' is not a number from 1 to 2000000"),
            (["--out", "x", "--initial", "10,10"], "a key stands twice in '10,10'"),
            (["--out", "x", "--initial", "1,x"], "'1,x' is no list of keys"),
            (["--out", "x", "--keys", "5,5"], "a key stands twice"),
            (["--out", "x", "--threads", "4", "--most", "4"], "these are 4 threads and 16 operations"),
            (["--out", "x", "--program", "nowhere"], "does not run"),
            ([], "one of the arguments --out --show is required"),
        ]
        for words, cause in faults:
            with self.subTest(words):
                status, out, err = self.sweep(*words)
                self.assertEqual((status, out, len(err.splitlines())), (2, "", 1), err)
                self.assertTrue(err.startswith("sweep: "), err)
                self.assertIn(cause, err)
                self.assertNotRegex(err, "_list|_of|number_from")


if __name__ == "__main__":
    unittest.main()
