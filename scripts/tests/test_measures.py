"""Tests of what counts and measures: count_beliefs.py, check_times.py and bench/."""
from __future__ import annotations

import os
import tempfile
import unittest
from pathlib import Path

from script_runs import TOP, run_script
from count_beliefs import Block, WORD, braced, imports, without_parameters

BINARY = """#!/bin/sh
case $1 in
check) printf 'every schedule holds\\nstates 7\\n' ;;
*) [ -z "$BOOK" ] || exit 1
   printf 'holds to 400 steps\\nstates 7\\n'
   for word; do last=$word; done
   case " $* " in *" --book "*) printf 'a line\\n' > "$last" ;; esac ;;
esac
"""


class Beliefs(unittest.TestCase):
    """How definitions are read."""

    def test_imports(self) -> None:
        place = "book.specs.Law"
        names = f"use Rattle.{place}.{{IsLawful, StandsFor as Stands}};"
        brought = imports([names, "use Rattle.lin.specs.Keys as K;"])
        self.assertEqual(brought.names, {"IsLawful": (place, "IsLawful"), "Stands": (place, "StandsFor")})
        self.assertEqual(brought.modules, {"K": "lin.specs.Keys"})

    def test_blocks(self) -> None:
        block = Block(["-- What it is for.", "abbrev IsKey : ℕ → Set", "  IsKey n = n ≤ 99"], [])
        self.assertEqual((block.names, block.is_definition, block.comments()), (["IsKey"], True, 1))
        self.assertNotIn("What", block.text())

    def test_parts_of_sources(self) -> None:
        self.assertEqual(braced("a { b { c } d } e", 2), " b { c } d ")
        self.assertEqual(without_parameters("Machine<A<B>, C> for D"), "Machine for D")
        self.assertEqual(WORD.findall("K.keys_of (l') ≤ n0"), ["K.keys_of", "l'", "n0"])

    def test_the_page_is_what_the_contracts_cite(self) -> None:
        ended = run_script("scripts/count_beliefs.py", "--check")
        self.assertIn(ended.returncode, (0, 1), ended.stderr)
        ended = run_script("scripts/count_beliefs.py", "--chek")
        self.assertEqual((ended.returncode, ended.stdout, len(ended.stderr.splitlines())), (2, "", 1), ended.stderr)


class Times(unittest.TestCase):
    """What check_times.py reads off files."""

    def test_times_by_function_and_kind(self) -> None:
        with tempfile.TemporaryDirectory() as folder:
            for second, name in enumerate(["a-specs.Law", "a-proofs.step.Lts", "a-proofs.step.Proof"]):
                file = Path(folder) / f"{name}.oantt"
                file.touch()
                os.utime(file, (second, second))
            ended = run_script("scripts/check_times.py", folder)
            self.assertEqual(ended.returncode, 0, ended.stderr)
            self.assertIn("     2.0 all modules", ended.stdout)
            self.assertIn("     2.0 a-proofs.step\n", ended.stdout)
        ended = run_script("scripts/check_times.py", folder)
        self.assertEqual((ended.returncode, ended.stderr), (2, f"check_times: {folder} has no module of a check\n"))


class Benchmarks(unittest.TestCase):
    """The tables of bench/, with a binary that answers at once."""

    def setUp(self) -> None:
        folder = tempfile.TemporaryDirectory()
        self.addCleanup(folder.cleanup)
        self.binary = Path(folder.name) / "binary"
        self.binary.write_text(BINARY, encoding="utf-8")
        self.binary.chmod(0o755)

    def test_rows(self) -> None:
        ended = run_script("bench/run.py", "--only", "nm-2x3", "--workers", "1,2", self.binary)
        self.assertEqual((ended.returncode, ended.stderr), (0, ""))
        names = [line[:28].strip() for line in ended.stdout.splitlines()]
        rows = ["nm-2x3 by 1", "nm-2x3 by 2", "nm-2x3 names by 1", "nm-2x3 names by 2"]
        self.assertEqual(names, ["program", *rows])
        ended = run_script("bench/books.py", "--only", "slowest-two-nm", self.binary)
        self.assertEqual((ended.returncode, ended.stderr), (0, ""))
        self.assertEqual(ended.stdout.splitlines()[1].split()[:2], ["slowest-two-nm", "7"])

    def test_faults_of_use_are_one_line(self) -> None:
        faults: list[tuple[str, list[object], str]] = [
            ("bench/run.py", ["nowhere"], "nowhere is no program that can be run"),
            ("bench/run.py", ["--workers", "9", self.binary], "--workers: '9' is not a number from 1 to 8"),
            ("bench/run.py", ["--repeat", "0", self.binary], "'0' is not a number"),
            ("bench/books.py", [TOP / "README.md"], "is no program that can be run"),
        ]
        for script, words, cause in faults:
            with self.subTest(cause):
                ended = run_script(script, *words)
                self.assertEqual((ended.returncode, ended.stdout, len(ended.stderr.splitlines())), (2, "", 1))
                self.assertIn(cause, ended.stderr)


if __name__ == "__main__":
    unittest.main()
