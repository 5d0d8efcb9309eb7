"""Tests of names, families and program files (scripts/programs.py)."""
from __future__ import annotations

import json
import unittest

import script_runs  # noqa: F401  puts the scripts on the path
from common import Unusable
from programs import Family, Part, program_text, read_name


def family(**changes: object) -> Family:
    """A small family, with some of it changed."""
    values: dict[str, object] = {"trees": ["nm"], "initials": ["-"], "keys": [5, 10, 15], "threads": 2, "most": 2}
    return Family(**{**values, **changes})  # type: ignore[arg-type]


class Names(unittest.TestCase):
    """Names of programs."""

    def test_a_name_has_a_file(self) -> None:
        value = json.loads(program_text("ellen:10,20:i5,d10:f15"))
        self.assertEqual((value["version"], value["tree"], value["initial"]), (1, "ellen", [10, 20]))
        self.assertEqual(value["threads"][0], [{"op": "insert", "key": 5}, {"op": "delete", "key": 10}])

    def test_what_waits_is_of_version_2(self) -> None:
        value = json.loads(program_text("nm::i5:f5@0.0"))
        self.assertEqual(value["version"], 2)
        self.assertEqual(value["threads"][1], [{"op": "find", "key": 5, "after": [0, 1]}])

    def test_what_is_no_name_is_refused(self) -> None:
        for name, cause in {
            "nonsense": "it does not begin with a tree",
            "ellen:10": "it does not begin with a tree",
            "ellen:10,10:i5": "a key stands twice in '10,10'",
            "ellen:100:i5": "'100' is no list of keys",
            "ellen:10:i05": "'i05' is no operation",
            "ellen:10:i5,": "'' is no operation",
            "ellen:10:f5@0.0": "f5@0.0 waits for no operation of an earlier thread",
            "ellen:10:i5:f5@0.1": "f5@0.1 waits for no operation of an earlier thread",
            "ellen:10:i5:i5:i5:i5:i5": "more threads or operations",
            "ellen:10:i1,i2,i3,i4,i5,i6,i7": "more threads or operations",
            "ellen:1,2,3,4,5,6,7,8,9,10,11,12,13:i5": "has 13 initial keys",
        }.items():
            with self.subTest(name), self.assertRaisesRegex(Unusable, "is no name of a program") as caught:
                read_name(name)
            self.assertIn(cause, str(caught.exception))


class Families(unittest.TestCase):
    """Families of programs."""

    def test_a_family_has_one_of_each_class(self) -> None:
        names = list(family().names())
        self.assertEqual((len(names), len(set(names))), (4095, 4095))
        self.assertEqual(names[0], "nm::i5:i5")

    def test_one_more_thread_has_a_find_that_waits(self) -> None:
        names = list(family(waits=True, keys=[5, 10]).names())
        self.assertEqual((len(names), len(set(names))), (6552, 6552))
        for name in names[::97]:
            *others, last = read_name(name).threads
            (find,) = last
            self.assertEqual((len(others), find.word), (2, "find"))
            assert find.after is not None
            self.assertLessEqual(find.after[1], len(others[find.after[0]]))
            self.assertFalse(any(operation.after for thread in others for operation in thread))

    def test_of_threads_that_are_alike_one_is_waited_for(self) -> None:
        names = list(family(waits=True, most=1, keys=[5]).names())
        self.assertIn("nm::i5:i5:f5@0.0", names)
        self.assertNotIn("nm::i5:i5:f5@1.0", names)
        self.assertIn("nm::i5:d5:f5@1.0", names)

    def test_each_program_is_in_one_part(self) -> None:
        there = family()
        parts = [list(there.names(Part(number, 7))) for number in range(1, 8)]
        self.assertEqual(sorted(sum(parts, [])), sorted(there.names()))
        self.assertLess(max(map(len, parts)), 2 * min(map(len, parts)))
        self.assertEqual(list(family(keys=[5]).names(Part(1, 20))), ["nm::i5:d5,f5", "nm::i5,i5:f5,f5"])

    def test_a_family_that_the_program_refuses_is_refused(self) -> None:
        families: list[tuple[dict[str, object], str]] = [
            ({"threads": 4, "most": 4}, "these are 4 threads and 16 operations: a program has at most 4 threads"),
            ({"threads": 4, "waits": True}, "these are 5 threads and 9 operations"),
            ({"trees": ["nm", "nm"]}, "stands twice"),
            ({"initials": ["10", "10"]}, "stands twice"),
        ]
        for changes, cause in families:
            with self.subTest(cause), self.assertRaisesRegex(Unusable, cause):
                family(**changes).refuse()
        family(threads=2, most=6).refuse()


if __name__ == "__main__":
    unittest.main()
