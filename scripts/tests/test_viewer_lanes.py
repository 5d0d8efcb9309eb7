"""Lanes as text, as SVG and as TikZ."""
from __future__ import annotations

import re
import unittest
import xml.etree.ElementTree as ElementTree

from viewer_cases import FAULTS, example, made, run_of

from viewer.clash import Run
from viewer.lanes import Lanes, blocks, label_rows, labelled, legend, points, quoted, svg_picture
from viewer.replays import Operation
from viewer.text import text_picture
from viewer.tikz import tex, tikz_picture

SPACE = "{http://www.w3.org/2000/svg}"


def long_run(steps: int) -> Run:
    """Two threads by turns, the first in one operation, the second in many."""
    schedule = [step % 2 for step in range(steps)]
    operations = [Operation("0.0", "insert", 5, None, 1, None)]
    operations += [
        Operation(f"1.{index}", "find", 5, False, 2 + 6 * index, 6 + 6 * index) for index in range((steps - 6) // 6)
    ]
    return Run("long.json", schedule, 2, operations, [], [], ["order: -", "no fault"])


class Text(unittest.TestCase):
    def test_a_fault(self) -> None:
        answer = text_picture(run_of("ellen_no_mark", FAULTS["ellen_no_mark"]), 80).split("\n")
        self.assertEqual(answer[2], "step       1         6         11        16")
        self.assertEqual(answer[3], "          0.0 delete 10")
        self.assertEqual(answer[4], "thread 0  |x-x-x-x-x-x-x-----x-------------->")
        self.assertEqual(answer[5], "                        1.0 insert 5    1.1 find 5")
        self.assertEqual(answer[6], "thread 1                |x-x---x-x-x-x-x|x-x|")
        self.assertIn("1.0 insert 5 true, steps 8 to 15", answer)

    def test_no_line_is_wider_than_the_columns(self) -> None:
        for columns in (40, 80, 132):
            for steps in (6, 35, 36, 120):
                for line in text_picture(long_run(steps), columns).split("\n"):
                    self.assertLessEqual(len(line), columns, line)

    def test_every_step_stands_in_some_row(self) -> None:
        answer = text_picture(long_run(120), 60)
        self.assertEqual(answer.count("x"), 120)
        self.assertIn("… 0.0 insert 5", answer)

    def test_nothing_to_draw(self) -> None:
        self.assertIn("no fault", text_picture(run_of("nm", []), 80))

    def test_bars_of_one_step_are_named_in_rows(self) -> None:
        answer = text_picture(run_of("three_threads", [0, 2, 1, 0, 1, 2]), 80)
        for name in ("0.0 insert 1", "0.1 delete 5", "1.1 find 5", "2.1 find 1"):
            self.assertRegex(answer, rf"(?m)^ +.*{re.escape(name)}")


class Pictures(unittest.TestCase):
    def test_rows(self) -> None:
        self.assertEqual(blocks(0, 30), [(0, 0)])
        self.assertEqual(blocks(30, 30), [(0, 30)])
        self.assertEqual(blocks(61, 30), [(0, 30), (30, 60), (60, 61)])

    def test_labels_do_not_run_into_each_other(self) -> None:
        lanes = Lanes(long_run(120))
        for low, high in blocks(120, lanes.size):
            lane = labelled(lanes.run, 1, low, high)
            spans = [(lanes.edge(each.first - 1, low), 7.4 * len(each.text)) for each in lane]
            rows = label_rows(spans, 8)
            for index, (left, width) in enumerate(spans):
                for other in range(index + 1, len(spans)):
                    if rows[index] == rows[other]:
                        self.assertLessEqual(left + width, spans[other][0])

    def test_svg(self) -> None:
        for name, schedule in FAULTS.items():
            text = svg_picture(run_of(name, schedule))
            self.assertNotIn("`", text)
            tree = ElementTree.fromstring(text)
            dots = tree.findall(f"{SPACE}circle")
            self.assertEqual(len(dots), len(schedule))

    def test_long_schedules_stand_in_rows(self) -> None:
        tree = ElementTree.fromstring(svg_picture(long_run(120)))
        self.assertLess(int(tree.attrib["width"]), 1300)
        self.assertEqual(sum(each.text == "step" for each in tree.iter(f"{SPACE}text")), 4)

    def test_legend_of_what_is_drawn(self) -> None:
        self.assertEqual(legend(run_of("nm", [])), "")
        self.assertEqual(legend(run_of("nm_no_tag_order", FAULTS["nm_no_tag_order"])), "Dot: a step of the thread.")
        answer = legend(run_of("ellen_no_mark", FAULTS["ellen_no_mark"]))
        self.assertIn("Dashed", answer)
        self.assertIn("Thick", answer)
        self.assertNotIn("Diamonds", answer)
        self.assertIn("Diamonds", legend(run_of("three_threads", [0, 2, 1, 0, 1, 2])))

    def test_points_ascend_in_their_bars(self) -> None:
        run = run_of("three_threads", [0, 2, 1, 0, 1, 2])
        places = [place for _, place in points(run)]
        self.assertEqual(places, sorted(places))
        for operation, place in points(run):
            self.assertTrue(operation.first - 1 <= place <= run.end(operation))

    def test_quotation_marks(self) -> None:
        self.assertEqual(quoted("`a` and `b c`."), "“a” and “b c”.")
        self.assertEqual(quoted("none"), "none")

    def test_names_are_no_markup(self) -> None:
        run = run_of("nm", [0])
        odd = Run("<b>&.json, 1 step", run.schedule, run.lanes, run.operations, [], [], run.finding)
        self.assertIn("<b>&.json, 1 step", "".join(ElementTree.fromstring(svg_picture(odd)).itertext()))


class Papers(unittest.TestCase):
    def test_tikz(self) -> None:
        for name, schedule in FAULTS.items():
            text = tikz_picture(run_of(name, schedule))
            drawn = "\n".join(line for line in text.split("\n") if not line.startswith("%"))
            self.assertEqual(drawn.count("{"), drawn.count("}"))
            self.assertEqual(drawn.count("circle[radius"), len(schedule))
            self.assertTrue(drawn.strip().startswith(r"\begin{tikzpicture}"))
            self.assertTrue(drawn.strip().endswith(r"\end{tikzpicture}"))
            self.assertTrue(drawn.isascii())

    def test_signs_of_tex(self) -> None:
        self.assertEqual(tex("a_b & 5% of `x_1`"), r"a\_b \& 5\% of \texttt{x\_1}")

    def test_long_schedules_stand_in_rows(self) -> None:
        self.assertEqual(tikz_picture(long_run(120)).count("{step}"), 4)


class Examples(unittest.TestCase):
    def test_examples_are_there(self) -> None:
        self.assertTrue(all(example(name).is_file() for name in FAULTS))
        self.assertEqual(made("nm", [10], "i5 d10").threads, [[("insert", 5), ("delete", 10)]])


if __name__ == "__main__":
    unittest.main()
