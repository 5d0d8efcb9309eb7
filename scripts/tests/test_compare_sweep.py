"""Tests of compare_sweep.py: what its explorer finds of known programs, and what it says of lines."""
from __future__ import annotations

import tempfile
import unittest
from fractions import Fraction
from pathlib import Path

from script_runs import result_line, run_script
from book_judge import Program
from compare_sweep import Explorer, Outcome, drawn
from programs import Family, program_text
from results import Result


def outcome(name: str) -> Outcome:
    """What the explorer finds of a program."""
    return Explorer(Program(program_text(name).encode())).outcome()


class Explorations(unittest.TestCase):
    """Programs whose answers the pages show."""

    def test_known_programs(self) -> None:
        self.assertEqual(outcome("atomic::i1:i1"), Outcome(frozenset({"every"}), 2, 5))
        self.assertEqual(outcome("ellen:10:i5:d10"), Outcome(frozenset({"every"}), 27, 276))
        self.assertEqual(outcome("nm:10,20:d10:i25,f25"), Outcome(frozenset({"every"}), 25, 198))
        self.assertEqual(outcome("nm-no-tag:10,20:d10:i25,f25"), Outcome(frozenset({"history"}), 13, None))

    def test_operations_that_wait(self) -> None:
        self.assertEqual(outcome("ellen-no-mark:10:i5:d10:f5@0.0"), Outcome(frozenset({"history"}), 17, None))


class Comparisons(unittest.TestCase):
    """The script as a user runs it."""

    def setUp(self) -> None:
        folder = tempfile.TemporaryDirectory()
        self.addCleanup(folder.cleanup)
        self.folder = Path(folder.name)

    def results(self, name: str, *lines: str) -> None:
        """A folder of results."""
        (self.folder / name).mkdir()
        (self.folder / name / "1of1.jsonl").write_text("".join(lines), encoding="utf-8")

    def compare(self, *words: object) -> tuple[int, str, str]:
        """The status and the outputs of a comparison."""
        ended = run_script("scripts/compare_sweep.py", *words, folder=self.folder)
        self.assertNotIn("Traceback", ended.stderr)
        return ended.returncode, ended.stdout, ended.stderr

    def test_lines_are_compared(self) -> None:
        right = result_line("atomic::i1:i1", states=5, steps=2)
        self.results("right", right)
        self.assertEqual(self.compare("right"), (0, "1 programs, 0 differ\n", ""))
        self.results("wrong", right, result_line("atomic::i1:i1", states=6, steps=2))
        status, out, _ = self.compare("wrong")
        self.assertEqual((status, out.splitlines()[1:]), (1, ["2 programs, 1 differ"]))
        self.assertIn("atomic::i1:i1 every 6 -, after 2 steps, and here Outcome(", out)

    def test_another_program_is_asked(self) -> None:
        """It answers each program with the same text."""
        fault = "fault history after 13 steps\nschedule 0,1\nstates 9\n"
        every = result_line("atomic::i1:i1", states=5, steps=2)
        order = result_line("nm-no-tag:10,20:d10:i25,f25", verdict="order", states=9, steps=13, schedule="0,1")
        self.results("every", every)
        self.results("order", order)
        answers = [
            ("holds for every schedule\nstates 5\n", "every", 0),
            ("holds for every schedule\nstates 6\n", "every", 1),
            (fault, "every", 1),
            (fault, "order", 0),
            (fault.replace("13", "12"), "order", 1),
            (fault.replace("9", "8"), "order", 1),
            ("holds for every schedule\nstates 9\n", "order", 1),
            ("no answer\n", "order", 1),
        ]
        for answer, folder, differing in answers:
            with self.subTest(answer, folder=folder):
                program = self.folder / "program"
                program.write_text(f"#!/bin/sh\nprintf '{answer}'\n", encoding="utf-8")
                program.chmod(0o755)
                status, out, _ = self.compare("--program", program, folder)
                self.assertEqual((status, out.splitlines()[-1]), (differing, f"1 programs, {differing} differ"))

    def test_lines_without_a_verdict_are_left_out(self) -> None:
        self.results("stopped", result_line("atomic::i1:i1", verdict="stopped"))
        status, out, err = self.compare("stopped")
        self.assertEqual((status, out), (1, "0 programs, 0 differ\n"))
        self.assertIn("1 lines without a verdict", err)

    def test_what_is_drawn_rests_on_the_programs_alone(self) -> None:
        lines = [Result(name, "every", 2, 1, True, 0.0, 0.0) for name in Family(["nm"], ["-"], [5, 10], 2, 2).names()]
        share = drawn(lines, Fraction(5, 100), 1)
        self.assertEqual((len(lines), len(share)), (903, 46))
        self.assertEqual(drawn(lines[::-1], Fraction(5, 100), 1), share)
        self.assertNotEqual(drawn(lines, Fraction(5, 100), 2), share)
        self.assertEqual(len(drawn(lines, 2000, 1)), 903)

    def test_faults_of_use_are_one_line(self) -> None:
        self.results("damaged", '{"program": 1}\n')
        faults: list[tuple[list[object], str]] = [
            (["nofolder"], "nofolder has no results"),
            (["damaged"], "damaged/1of1.jsonl:1 is not whole"),
            (["--processes", "0", "damaged"], "'0' is not a number from 1 to 256"),
            (["--sample", "some", "damaged"], "'some' is not a number"),
            (["--sample", "101%", "damaged"], "'101' is not a number from 1 to 100"),
            ([], "required: FOLDER"),
        ]
        for words, cause in faults:
            with self.subTest(words):
                status, out, err = self.compare(*words)
                self.assertEqual((status, out, len(err.splitlines())), (2, "", 1), err)
                self.assertIn(cause, err)


if __name__ == "__main__":
    unittest.main()
