"""The page and the pictures of trees in it."""
from __future__ import annotations

import json
import re
import unittest
import xml.etree.ElementTree as ElementTree
from typing import Any
from unittest import mock

from viewer_cases import FAULTS, TREES, by_chance, made, run_of, source_of

from place_tables import MACHINES, Astray, NatMit
from viewer.clash import Run
from viewer.layout import HEIGHT, Layout
from viewer.nearest import nearest
from viewer.page import Shown, html_page, still_picture
from viewer.steps import key_states, operations_at, walk
from viewer.tree import TreePicture, picture_of, tree_words

SPACE = "{http://www.w3.org/2000/svg}"
SEEDS = range(5)


def shown(name: str, schedule: list[int]) -> Shown:
    return Shown(run_of(name, schedule), walk(source_of(name), schedule))


def data_of(page: str) -> dict[str, Any]:
    found = re.search(r'<script type="application/json" id="data">(.*?)</script>', page, re.DOTALL)
    assert found
    value = json.loads(found[1])
    assert isinstance(value, dict)
    return value


def number(element: ElementTree.Element, name: str) -> float:
    return float(element.attrib[name])


class Pages(unittest.TestCase):
    def test_the_faults(self) -> None:
        for name, schedule in FAULTS.items():
            page = html_page([shown(name, schedule)], "scripts/show_schedule.py it")
            data = data_of(page)
            self.assertEqual(len(data["runs"][0]), len(schedule) + 1)
            self.assertLess(len(page.encode()), 200_000)
            self.assertIn("scripts/show_schedule.py it", page)
            self.assertIn("scripts/place_tables.py", page)
            # nothing is fetched: the only address is the name of the SVG language
            self.assertEqual(set(re.findall(r"https?://[^\s\"'<>]+", page)) - {"http://www.w3.org/2000/svg"}, set())
            self.assertNotRegex(page, r"@[A-Z]+@")
            self.assertNotIn("`fault", page)

    def test_frames_are_whole_markup(self) -> None:
        for name, schedule in FAULTS.items():
            data = data_of(html_page([shown(name, schedule)], "it"))
            for frame in data["runs"][0]:
                for part in frame[:5]:
                    ElementTree.fromstring("<a>" + "".join(data["s"][each] for each in part) + "</a>")

    def test_marks_of_the_slider(self) -> None:
        page = html_page([shown("ellen_no_mark", FAULTS["ellen_no_mark"])], "it")
        self.assertIn('<a href="#step=15">▲ step 15: key 5 is lost</a>', page)

    def test_an_order_is_shown_where_there_is_one(self) -> None:
        self.assertIn("An order that explains", html_page([shown("three_threads", [0, 2, 1, 0, 1, 2])], "it"))
        self.assertNotIn("An order that explains", html_page([shown("nm_no_tag", FAULTS["nm_no_tag"])], "it"))

    def test_two_beside_each_other(self) -> None:
        schedule = FAULTS["nm_no_tag"]
        other = nearest(source_of("nm_no_tag"), schedule)
        page = html_page([shown("nm_no_tag", schedule), shown("nm_no_tag", other)], "it")
        self.assertEqual(len(data_of(page)["runs"]), 2)
        self.assertIn(
            "Both begin with the same 7 steps; at step 8 on the left thread 1 moves, on the right thread 0", page
        )
        self.assertIn("◆ step 8: the schedules part", page)
        same = html_page([shown("nm_no_tag", schedule), shown("nm_no_tag", schedule)], "it")
        self.assertIn("The two schedules are equal.", same)

    def test_names_are_no_markup(self) -> None:
        run, walked = run_of("nm", [0]), walk(source_of("nm"), [0])
        odd = Run("</script><b>.json, 1 step", run.schedule, run.lanes, run.operations, [], [], run.finding)
        page = html_page([Shown(odd, walked)], "</code><script>")
        self.assertNotIn("</script><b>", page)
        self.assertNotIn("</code><script>", page)

    def test_a_thread_that_is_astray(self) -> None:
        class Broken(NatMit):
            def act(self, word: str, key: int, place: Any, memory: Any) -> Any:
                if place[0] == "down":
                    raise Astray
                return super().act(word, key, place, memory)

        with mock.patch.dict(MACHINES, nm=Broken()):
            walked = walk(source_of("nm"), [0, 0])
        run = Run(
            "nm.json, 2 steps", [0, 0], 2, operations_at(walked, 2), [], [], ["fault astray", "It met .."], "astray"
        )
        page = html_page([Shown(run, walked)], "it")
        self.assertIn("the thread is astray", page)
        self.assertIn("step 2: a thread is astray", page)

    def test_no_step(self) -> None:
        page = html_page([shown("nm", [])], "it")
        self.assertEqual(len(data_of(page)["runs"][0]), 1)

    def test_the_signs_told_are_drawn(self) -> None:
        nm = html_page([shown("nm_no_tag", FAULTS["nm_no_tag"])], "it")
        self.assertIn("the flag of that child word", nm)
        self.assertNotIn("the tag of that child word", nm)
        self.assertNotIn("its update word, with", nm)
        self.assertIn("its update word, with", html_page([shown("ellen", [0] * 8)], "it"))


class Trees(unittest.TestCase):
    def test_nodes_stand_apart_and_inside(self) -> None:
        for tree in TREES[1:]:
            for seed in SEEDS:
                layout = Layout(by_chance(tree, seed))
                for count in range(len(layout.walked.states)):
                    spots = list(layout.spots(count).values())
                    for index, spot in enumerate(spots):
                        self.assertTrue(0 <= spot.x - spot.width / 2 and spot.x + spot.width / 2 <= layout.width)
                        self.assertTrue(0 <= spot.y - HEIGHT / 2 and spot.y + HEIGHT / 2 <= layout.height)
                        for other in spots[index + 1 :]:
                            is_apart = abs(spot.x - other.x) >= (spot.width + other.width) / 2
                            self.assertTrue(is_apart or abs(spot.y - other.y) >= HEIGHT, (tree, seed, count))

    def test_a_search_tree_stands_in_the_order_of_its_keys(self) -> None:
        for tree in ("ellen", "nm"):
            for seed in SEEDS:
                layout = Layout(by_chance(tree, seed))
                memory = layout.walked.states[-1].memory
                spots = layout.spots(len(layout.walked.steps))
                leaves = [node for node in layout.inside[-1] if len(memory[0][node]) == 1]
                self.assertEqual(leaves, sorted(leaves, key=lambda node: spots[node].x))

    def test_a_node_keeps_its_column(self) -> None:
        for seed in SEEDS:
            layout = Layout(by_chance("nm-no-tag", seed))
            columns: dict[int, int] = {}
            for count in range(len(layout.walked.states)):
                for node, spot in layout.spots(count).items():
                    self.assertEqual(columns.setdefault(node, spot.x), spot.x)

    def test_each_part_has_a_name_of_its_own(self) -> None:
        for tree in TREES:
            walked = by_chance(tree, 3)
            picture = picture_of(walked, key_states(walked))
            for count in range(len(walked.states)):
                parts = picture.parts(count)
                self.assertEqual(len({part.name for part in parts}), len(parts))
                for part in parts:
                    self.assertIn(f'data-k="{part.name}"', part.text)

    def test_what_a_step_did_is_marked(self) -> None:
        walked = walk(source_of("nm_no_tag"), FAULTS["nm_no_tag"])
        picture = picture_of(walked, key_states(walked))
        put = {part.name: part.text for part in picture.parts(11)}
        self.assertIn("T1 changed", put["access"])
        self.assertIn("new, lost", put["s9"])
        self.assertIn("out", put["n8"])
        swing = {part.name: part.text for part in picture.parts(9)}
        self.assertIn("cut off", swing["s8"])
        self.assertIn("flag", swing["w8l"])

    def test_failed_exchanges_are_marked(self) -> None:
        for seed in range(200):
            walked = by_chance("ellen", seed)
            failed = [step for step in walked.steps if step.access and not step.access.is_done]
            if failed:
                picture = picture_of(walked, key_states(walked))
                parts = {part.name: part.text for part in picture.parts(failed[0].number)}
                self.assertIn("failed", parts["access"])
                return
        self.fail("no exchange failed")

    def test_words_for_those_who_hear(self) -> None:
        walked = walk(source_of("nm"), [])
        picture = picture_of(walked, key_states(walked))
        self.assertIsInstance(picture, TreePicture)
        self.assertTrue(tree_words(walked, picture, 0).startswith("n0 of key ∞₂ has n1 and n2; "))
        listed = walk(made("atomic", [7, 3], "i5"), [0])
        self.assertEqual(tree_words(listed, picture_of(listed, key_states(listed)), 1), "The list holds 3, 5, 7")

    def test_still(self) -> None:
        for name, schedule in FAULTS.items():
            tree = ElementTree.fromstring(still_picture(shown(name, schedule), len(schedule)))
            self.assertGreater(number(tree, "height"), 100)
            self.assertTrue(any(each.attrib.get("data-k") == "access" for each in tree.iter(f"{SPACE}g")))
        ElementTree.fromstring(still_picture(shown("nm", []), 0))


if __name__ == "__main__":
    unittest.main()
