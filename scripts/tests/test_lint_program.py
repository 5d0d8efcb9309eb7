"""Tests of lint_program.py."""
from __future__ import annotations

import json
import tempfile
import unittest
from pathlib import Path

from script_runs import TOP, run_script
from common import Unusable
from lint_program import warnings_of


Operation = dict[str, object]


def text_of(threads: list[list[Operation]], **others: object) -> str:
    """The text of a program of version 2 on the tree `nm` with the initial key 10, with other members too."""
    return json.dumps({"version": 2, "tree": "nm", "initial": [10], "threads": threads, **others})


def operation(word: str, key: int, **others: object) -> Operation:
    """An operation of a text."""
    return {"op": word, "key": key, **others}


class Warnings(unittest.TestCase):
    """What a text says in vain."""

    def test_what_matters_has_no_warning(self) -> None:
        threads = [[operation("insert", 5)], [operation("delete", 10)], [operation("find", 5, after=[0, 1])]]
        self.assertEqual(warnings_of(text_of(threads, **{"$schema": "a schema"})), [])

    def test_members_that_are_ignored(self) -> None:
        threads = [[operation("insert", 5)], [operation("find", 5, Afer=[0, 1], note="")]]
        self.assertEqual(
            warnings_of(text_of(threads, tre="nm")),
            [
                "the program ignores 'tre'; is 'tree' meant?",
                "1.0 find 5: the program ignores 'Afer'; is 'after' meant?",
                "1.0 find 5: the program ignores 'note'",
            ],
        )

    def test_members_that_stand_twice(self) -> None:
        text = text_of([[operation("delete", 10)]]).replace('"op"', '"op": "find", "op"')
        warning = "0.0 delete 10: 'op' stands there twice, and the format gives that no meaning"
        self.assertEqual(warnings_of(text), [warning])

    def test_after_in_version_1(self) -> None:
        threads = [[operation("insert", 5)], [operation("find", 5, after=[0, 1])]]
        warning = "1.0 find 5: version 1 ignores 'after'; write \"version\": 2"
        self.assertEqual(warnings_of(text_of(threads, version=1)), [warning])

    def test_operations_that_can_never_matter(self) -> None:
        threads = [[operation("find", 7), operation("insert", 7)], [operation("insert", 10)], [operation("delete", 8)]]
        places = [warning.partition(":")[0] for warning in warnings_of(text_of(threads))]
        self.assertEqual(places, ["0.0 find 7", "1.0 insert 10", "2.0 delete 8"])

    def test_what_comes_only_after_makes_no_difference(self) -> None:
        threads = [[operation("find", 7)], [operation("insert", 7, after=[0, 1])]]
        self.assertEqual(len(warnings_of(text_of(threads))), 1)
        threads = [[operation("insert", 7)], [operation("find", 7)]]
        self.assertEqual(warnings_of(text_of(threads)), [])

    def test_a_wait_that_asks_for_nothing(self) -> None:
        waits = [operation("find", 5, after=[0, 1]), operation("find", 10, after=[0, 1])]
        threads = [[operation("insert", 5)], waits]
        warning = "1.1 find 10: 'after' asks for nothing: 0.0 has ended when 1.0 begins"
        self.assertEqual(warnings_of(text_of(threads)), [warning])

    def test_what_is_no_program(self) -> None:
        faulty: list[list[list[Operation]]] = [[], [[operation("find", 100)]], [[operation("find", 1, after=[0, 1])]]]
        for text in ("", "[]", *map(text_of, faulty)):
            with self.subTest(text), self.assertRaises(Unusable):
                warnings_of(text)


class Files(unittest.TestCase):
    """The script as a user runs it."""

    def test_status_and_lines(self) -> None:
        claim, finds = TOP / "examples/claim.json", TOP / "examples/two_finds.json"
        ended = run_script("scripts/lint_program.py", claim)
        self.assertEqual((ended.returncode, ended.stdout, ended.stderr), (0, "1 files, 0 warnings\n", ""))
        ended = run_script("scripts/lint_program.py", claim, finds)
        self.assertEqual((ended.returncode, ended.stdout.splitlines()[-1]), (1, "2 files, 2 warnings"))
        with tempfile.TemporaryDirectory() as folder:
            bad = Path(folder) / "bad.json"
            bad.write_bytes(b"\xff")
            ended = run_script("scripts/lint_program.py", bad, "nowhere.json", claim)
        self.assertEqual((ended.returncode, ended.stdout), (2, "3 files, 0 warnings\n"))
        self.assertEqual(len(ended.stderr.splitlines()), 2, ended.stderr)


if __name__ == "__main__":
    unittest.main()
