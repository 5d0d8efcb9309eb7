"""What is read of the program: replays, schedules, refusals."""
from __future__ import annotations

import contextlib
import io
import os
import unittest
from unittest import mock

from viewer_cases import FAULTS, STUB, example, run_of

from common import Unusable
from viewer.clash import is_explained, smallest_clash
from viewer.replays import Asker, Operation, read_replay, read_schedule, schedule_in


class Reading(unittest.TestCase):
    def test_replays(self) -> None:
        answer = read_replay("0.0 delete 10 pending\n1.0 insert 5 true\nfault history\n", "it")
        self.assertEqual([each.label for each in answer.listed], ["0.0 delete 10 pending", "1.0 insert 5 true"])
        self.assertEqual((answer.order, answer.fault), (None, "history"))
        self.assertEqual(read_replay("order -\nno fault\n", "it").order, [])
        for text in ("", "order -\n", "0.0 delete ten true\norder -\nno fault\n", "fault history\nmore\n"):
            with self.assertRaises(Unusable):
                read_replay(text, "it")

    def test_schedules(self) -> None:
        self.assertEqual(read_schedule(""), [])
        self.assertEqual(read_schedule("0,1,0"), [0, 1, 0])
        for text in ("0,,1", "0 1", "x", "10", ",", "٣", ",".join("0" * 401)):
            with self.assertRaises(Unusable, msg=text):
                read_schedule(text)

    def test_schedule_in_what_explore_printed(self) -> None:
        self.assertEqual(schedule_in("fault order after 2 steps\nschedule 0,1\nstates 3\n"), "0,1")
        self.assertEqual(schedule_in("0,1\n"), "0,1")
        for text in ("", "\n", "holds to 3 steps\nstates 4\n"):
            with self.assertRaises(Unusable, msg=text):
                schedule_in(text)


class Asking(unittest.TestCase):
    def ask(self, mood: str, program: str = STUB) -> str:
        """The text of the refusal."""
        with mock.patch.dict(os.environ, STUB=mood), self.assertRaises(Unusable) as caught:
            Asker(program, str(example("nm")), "nm.json").replay([0])
        return str(caught.exception)

    def test_refusals_name_their_cause(self) -> None:
        self.assertIn("no JSON text", self.ask("refuse P1 NotJson"))
        self.assertIn("nm.json is no program (P10 Key)", self.ask("refuse P10 Key"))
        self.assertIn("out of memory", self.ask("refuse out of memory"))
        self.assertIn("is not treesched", self.ask("nonsense"))
        self.assertIn("signal 9", self.ask("die"))
        self.assertIn("can't run /no/such/program", self.ask("", "/no/such/program"))

    def test_a_step_that_nobody_has(self) -> None:
        with self.assertRaisesRegex(Unusable, "can't be run to its end: step 1"):
            Asker(STUB, str(example("nm")), "nm.json").replay([3])

    def test_what_the_program_has_to_say_is_handed_on(self) -> None:
        errors = io.StringIO()
        with mock.patch.dict(os.environ, STUB="chatter"), contextlib.redirect_stderr(errors):
            Asker(STUB, str(example("nm")), "nm.json").replay([0])
        self.assertEqual(errors.getvalue(), "treesched: crate 1 of 1: proving\n")

    def test_each_schedule_is_asked_once(self) -> None:
        asker = Asker(STUB, str(example("nm")), "nm.json")
        first = asker.replay([0])
        with mock.patch.dict(os.environ, STUB="die"):
            self.assertIs(asker.replay([0]), first)


class Clashes(unittest.TestCase):
    def test_words_of_the_faults(self) -> None:
        words = {name: run_of(name, schedule).finding for name, schedule in FAULTS.items()}
        self.assertEqual(
            words["ellen_no_mark"][1],
            "No order explains these replies: `1.0 insert 5` replied true; `1.1 find 5` replied false, and began "
            "after `1.0` ended; no operation of this program deletes 5.",
        )
        self.assertEqual(words["nm_no_tag"][0], "fault history")
        self.assertEqual(words["nm_no_tag_order"][0], "fault order")

    def test_explained(self) -> None:
        insert = Operation("0.0", "insert", 5, True, 1, 3)
        find = Operation("1.0", "find", 5, False, 2, 4)
        late = Operation("1.0", "find", 5, False, 4, 5)
        self.assertTrue(is_explained([insert, find], frozenset()))
        self.assertFalse(is_explained([insert, late], frozenset()))
        self.assertTrue(is_explained([insert, late, Operation("2.0", "delete", 5, None)], frozenset()))
        self.assertEqual(smallest_clash([insert, late], frozenset()), [insert, late])
        self.assertEqual(smallest_clash([insert, late], frozenset([5])), [insert])

    def test_where_operations_begin_and_end(self) -> None:
        run = run_of("ellen_no_mark", FAULTS["ellen_no_mark"])
        spans = [(each.name, each.first, each.last) for each in run.operations]
        self.assertEqual(spans, [("0.0", 1, None), ("1.0", 8, 15), ("1.1", 16, 17)])
        self.assertEqual([each.span for each in run.operations][0], "from step 1 on")


if __name__ == "__main__":
    unittest.main()
