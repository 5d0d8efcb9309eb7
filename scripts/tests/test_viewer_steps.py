"""Runs by the place tables: accesses, keys, marks, and the comparison with the program."""
from __future__ import annotations

import os
import unittest
from unittest import mock

from viewer_cases import FAULTS, STUB, TREES, by_chance, example, made, source_of

from common import Unusable
from place_tables import Atomic
from viewer.accesses import access_of, key_text, place_text, record_words
from viewer.nearest import nearest
from viewer.replays import Asker
from viewer.steps import children, compare, finds, key_states, marks, operations_at, reached, verdict, walk

SEEDS = range(10)


class Accesses(unittest.TestCase):
    def test_done_exactly_where_the_memory_changes(self) -> None:
        for tree in TREES[1:]:
            for seed in SEEDS:
                walked = by_chance(tree, seed)
                for step, before, after in zip(walked.steps, walked.states, walked.states[1:]):
                    access = step.access
                    assert access is not None
                    with self.subTest(tree=tree, seed=seed, step=step.number, access=access):
                        if access.kind == "exchange":
                            self.assertEqual(access.is_done, before.memory != after.memory)
                            self.assertEqual(access.is_done, access.found == access.wanted)
                        elif access.kind == "read":
                            self.assertEqual(before.memory, after.memory)

    def test_a_word_that_is_put_is_found_afterwards(self) -> None:
        for tree in TREES[1:]:
            for seed in SEEDS:
                walked = by_chance(tree, seed)
                for step in walked.steps:
                    access = step.access
                    if access is None or access.kind not in ("exchange", "set") or not access.is_done:
                        continue
                    key = step.operation.key
                    again = access_of(walked.machine, key, step.place, step.state.memory)
                    # the operation's own place, in the memory after it: its word is the one that was put
                    assert again is not None
                    self.assertEqual((again.node, again.word, again.found), (access.node, access.word, access.put))

    def test_sentences(self) -> None:
        walked = walk(source_of("ellen_no_mark"), FAULTS["ellen_no_mark"])
        answer = [step.access.sentence for step in walked.steps if step.access]
        self.assertEqual(answer[0], "reads n0’s update word: CLEAN")
        self.assertEqual(answer[4], "exchanges n0’s update word, CLEAN → DFLAG r0: succeeds")
        self.assertEqual(answer[9], "exchanges n0’s left child, n5 → n4: succeeds")
        self.assertEqual(place_text(walked.steps[9].place), "Splice(r0, n4, base Delete)")
        self.assertEqual(record_words(0, walked.states[-1].memory[1][0]), "Del(gp n0, p n5, l n3, pupdate CLEAN)")
        self.assertEqual([key_text(key) for key in (99, 100, 102)], ["99", "∞₀", "∞₂"])

    def test_every_place_has_words(self) -> None:
        for tree in TREES:
            for seed in SEEDS:
                for step in by_chance(tree, seed).steps:
                    self.assertRegex(place_text(step.place), r"^[A-Z][A-Za-z]+(\(.*\))?$")

    def test_a_place_without_an_access(self) -> None:
        walked = walk(made("ellen", [], "i5"), [0])
        self.assertIsNone(access_of(walked.machine, 5, ("update", None, 1), walked.states[0].memory))


class Keys(unittest.TestCase):
    def test_a_reader_finds_the_leaves_of_a_search_tree(self) -> None:
        for tree in TREES:
            for seed in SEEDS:
                walked = by_chance(tree, seed)
                for state in walked.states[::5]:
                    memory = state.memory
                    if not walked.machine.is_ordered(memory):
                        continue
                    if isinstance(walked.machine, Atomic):
                        held = set(memory)
                    else:
                        leaves = [node for node in reached(walked.machine, memory) if len(memory[0][node]) == 1]
                        held = {memory[0][node][0] for node in leaves}
                    for key in walked.source.keys:
                        self.assertEqual(finds(walked.machine, memory, key), key in held, (tree, seed, key))

    def test_published_trees_lose_nothing(self) -> None:
        for tree in ("atomic", "ellen", "nm"):
            for seed in SEEDS:
                walked = by_chance(tree, seed)
                self.assertEqual(marks(walked, key_states(walked)), [], (tree, seed))

    def test_marks_of_the_faults(self) -> None:
        found = {}
        for name, schedule in FAULTS.items():
            walked = walk(source_of(name), schedule)
            found[name] = [(mark.step, mark.text) for mark in marks(walked, key_states(walked))]
        unexplained = "no order explains the replies"
        self.assertEqual(found["ellen_no_mark"], [(15, "key 5 is lost"), (17, unexplained)])
        self.assertEqual(found["ellen_no_iflag"], [(14, "key 5 is lost"), (16, unexplained)])
        self.assertEqual(found["nm_no_tag"], [(11, "key 25 is lost"), (13, unexplained)])
        self.assertEqual(
            found["nm_no_tag_order"],
            [(20, "key 40 should be gone"), (20, "key 45 is lost"), (20, "search order breaks")],
        )

    def test_a_key_stays_lost_when_the_history_is_faulty(self) -> None:
        walked = walk(source_of("nm_no_tag"), FAULTS["nm_no_tag"])
        faults = [[each.key for each in keys if each.fault == "lost"] for keys in key_states(walked)]
        self.assertEqual(faults[10:], [[], [25], [25], [25]])


class Comparison(unittest.TestCase):
    def compare(self, mood: str) -> None:
        source = source_of("nm_no_tag")
        with mock.patch.dict(os.environ, STUB=mood):
            compare(walk(source, FAULTS["nm_no_tag"]), Asker(STUB, str(example("nm_no_tag")), "nm_no_tag.json"))

    def test_one_that_agrees(self) -> None:
        self.compare("")

    def test_other_replies_are_refused(self) -> None:
        with self.assertRaisesRegex(Unusable, "differ in the replies after 9 steps"):
            self.compare("reply")

    def test_another_verdict_is_refused(self) -> None:
        with self.assertRaisesRegex(Unusable, "differ after 0 steps: no fault and order"):
            self.compare("verdict")

    def test_a_step_that_nobody_has(self) -> None:
        with self.assertRaisesRegex(Unusable, "thread 1 has no step 1"):
            walk(made("nm", [], "i5"), [1])

    def test_operations_as_they_were_then(self) -> None:
        walked = walk(source_of("ellen_no_mark"), FAULTS["ellen_no_mark"])
        self.assertEqual(
            [each.label for each in operations_at(walked, 8)], ["0.0 delete 10 pending", "1.0 insert 5 pending"]
        )
        self.assertEqual([each.reply for each in operations_at(walked, 17)], [None, True, False])
        self.assertEqual([verdict(walked, count) for count in (0, 16, 17)], [None, None, "history"])


class Nearest(unittest.TestCase):
    def test_the_faults(self) -> None:
        shared = {"ellen_no_mark": 8, "ellen_no_iflag": 7, "nm_no_tag": 7, "nm_no_tag_order": 12}
        for name, schedule in FAULTS.items():
            source = source_of(name)
            found = nearest(source, schedule)
            common = next(index for index, pair in enumerate(zip(schedule, found)) if pair[0] != pair[1])
            self.assertEqual(common, shared[name], name)
            walked = walk(source, found)
            self.assertEqual(marks(walked, key_states(walked)), [], name)
            self.assertTrue(all(each.reply is not None for each in operations_at(walked, len(found))), name)

    def test_without_a_fault_there_is_none(self) -> None:
        with self.assertRaisesRegex(Unusable, "has no fault"):
            nearest(source_of("nm"), [0, 1])


class Reaching(unittest.TestCase):
    def test_circles_end(self) -> None:
        walked = walk(made("nm", [], "i5"), [])
        memory = walked.states[0].memory
        circle = (((102, (0, 0, 1), (0, 0, 2)), (101, (0, 0, 0), (0, 0, 4)), *memory[0][2:]), ())
        self.assertEqual(sorted(reached(walked.machine, circle)), [0, 1, 2, 4])
        self.assertEqual(children(walked.machine, circle, 1), [0, 4])
        self.assertFalse(finds(walked.machine, circle, 5))


if __name__ == "__main__":
    unittest.main()
