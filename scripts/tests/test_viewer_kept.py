"""The pages and pictures of docs/pictures are those that the scripts make now."""
from __future__ import annotations

import unittest

from viewer_cases import FAULTS, TOP, run_of, source_of

from viewer.lanes import svg_picture
from viewer.nearest import nearest
from viewer.page import Shown, html_page, still_picture
from viewer.replays import show_list
from viewer.steps import walk

PICTURES = TOP / "docs" / "pictures"
STILLS = {"ellen_no_mark": 14, "ellen_no_iflag": 14, "nm_no_tag": 11, "nm_no_tag_order": 20}


class Kept(unittest.TestCase):
    def same(self, name: str, text: str) -> None:
        kept = (PICTURES / name).read_text(encoding="utf-8")
        self.assertTrue(
            kept == text, f"docs/pictures/{name} is not what is made now: docs/FAULTS.md has the command"
        )

    def test_faults(self) -> None:
        for name, schedule in FAULTS.items():
            with self.subTest(name=name):
                shown = Shown(run_of(name, schedule), walk(source_of(name), schedule))
                command = f"scripts/show_schedule.py examples/{name}.json {show_list(schedule)}"
                self.same(f"{name}.html", html_page([shown], f"{command} --html docs/pictures/{name}.html"))
                self.same(f"{name}.svg", svg_picture(shown.run))
                self.same(f"{name}_step_{STILLS[name]}.svg", still_picture(shown, STILLS[name]))

    def test_beside_each_other(self) -> None:
        name = "ellen_no_mark"
        schedules = [FAULTS[name], nearest(source_of(name), FAULTS[name])]
        shown = [Shown(run_of(name, each), walk(source_of(name), each)) for each in schedules]
        words = (
            f"{show_list(schedules[0])} --compare {show_list(schedules[1])} --html docs/pictures/{name}_beside.html"
        )
        self.same(f"{name}_beside.html", html_page(shown, f"scripts/show_schedule.py examples/{name}.json {words}"))

    def test_nothing_else_is_kept(self) -> None:
        made = (
            {f"{name}.html" for name in FAULTS} | {f"{name}.svg" for name in FAULTS} | {"ellen_no_mark_beside.html"}
        )
        made |= {f"{name}_step_{step}.svg" for name, step in STILLS.items()}
        self.assertEqual({path.name for path in PICTURES.iterdir()}, made)


if __name__ == "__main__":
    unittest.main()
