"""Tests of sweep_report.py, on lines that no program made."""
from __future__ import annotations

import re
import tempfile
import unittest
from pathlib import Path

from script_runs import result_line, run_script
from programs import Family, Part
from results import digest_of, file_of, read_results

OLD = "# Results\n\nas it was\n"


class Reports(unittest.TestCase):
    """The script as a user runs it."""

    def setUp(self) -> None:
        folder = tempfile.TemporaryDirectory()
        self.addCleanup(folder.cleanup)
        self.folder = Path(folder.name)
        self.page = self.folder / "page.md"

    def results(self, name: str, family: Family, part: Part = Part(), **changes: object) -> Path:
        """A folder with a line for each program of a part of a family."""
        folder = self.folder / name
        folder.mkdir(exist_ok=True)
        lines = [result_line(program, **changes) for program in family.names(part)]
        file_of(folder, part).write_text("".join(lines), encoding="utf-8")
        return folder

    def report(self, *words: object) -> tuple[int, str, str]:
        """The status and the outputs of a report."""
        ended = run_script("scripts/sweep_report.py", *words, folder=self.folder)
        self.assertNotIn("Traceback", ended.stderr)
        return ended.returncode, ended.stdout, ended.stderr

    def put(self, *words: object) -> None:
        """Makes sections of the page, on which others may stand."""
        self.assertEqual(self.report("--out", self.page, *words), (0, "", ""))

    def text(self) -> str:
        """What stands on the page."""
        return self.page.read_bytes().decode()

    def sections(self) -> dict[str, str]:
        """The sections of the page by their titles, each with all that stands before the next."""
        return {text.partition("\n")[0][3:]: text for text in re.split(r"(?m)^(?=## )", self.text())[1:]}

    def test_a_page_has_each_family_with_its_command_and_its_digest(self) -> None:
        family = Family(["nm", "nm-no-tag"], ["-", "10"], [5], 2, 1)
        one = self.results("one", family, Part(1, 2))
        self.results("one", family, Part(2, 2), commit="beefed")
        two = self.results("two", Family(["nm"], ["-"], [5, 10], 2, 2, True), commit="beefed")
        self.put("--note", "A note.", one, two)
        text = self.text()
        for part in [
            "of them to explore, by the sources of commit `beefed` and `c0ffee`.\n",
            "## Two threads of one operation\n",
            "Key 5; initial lists [] and [10]. All 12 programs of each tree were run.",
            "    scripts/sweep.py --out one --trees nm nm-no-tag --initial - 10 --keys 5 --threads 2 --most 1\n",
            "| `nm` | 12 | 12 | 0 | 0 | 2 (`nm:10:d5:d5`) | 1 | 0.50 (`nm:10:d5:d5`) |",
            f"Digest: `{digest_of(read_results(one))}`\n",
            "None of these programs goes wrong on `nm-no-tag`.",
            "`nm-no-tag`.\n\nA note.\n\n## Two threads of one or two operations, and a find that waits, on `nm`\n",
            "--threads 2 --most 2 --waits\n",
            "It took 1.8 CPU hours, 0.91 of them to explore, by the sources of commit `beefed`.\n",
            "`\n\nA note.\n\n## What is not covered\n",
        ]:
            self.assertIn(part, text)
        self.assertTrue(text.startswith("# Results\n\nWhat the program answered"))
        self.assertTrue(text.endswith("exclude that fault.\n"))
        prose = [line for line in text.splitlines() if not line.startswith(("|", "    "))]
        self.assertLessEqual(max(map(len, prose)), 100)

    def test_a_family_comes_behind_the_others_which_stay_as_they_are(self) -> None:
        one = self.results("one", Family(["nm", "nm-no-tag"], ["-"], [5], 2, 1))
        two = self.results("two", Family(["nm"], ["-"], [5], 2, 1))
        self.put(one)
        self.put(two)
        self.assertEqual(self.text(), self.report(one, two)[1])
        opening, closing = self.text().split("\n## ")[0], self.sections()["What is not covered"]
        edited = self.text().replace("It took", "By hand:  it\n\n\n took", 1)
        edited = edited.replace("What the program", "What a program").replace("Other numbers", "Numbers")
        self.page.write_text(edited, encoding="utf-8")
        before = self.sections()
        self.put(self.results("three", Family(["nm"], ["-"], [5], 3, 1)))
        after = self.sections()
        self.assertEqual([*after][2:], ["Three threads of one operation, on `nm`", "What is not covered"])
        self.assertEqual([*after.items()][:2], [*before.items()][:2])
        self.assertEqual((self.text().split("\n## ")[0], after["What is not covered"]), (opening, closing))

    def test_a_family_made_again_takes_the_place_of_its_section(self) -> None:
        family = Family(["nm", "nm-no-tag"], ["-"], [5], 2, 1)
        one, two = self.results("one", family), self.results("two", Family(["nm"], ["-"], [5], 2, 1))
        self.put("--note", "A note.", one, two)
        before = self.sections()
        self.put(self.results("one", family, commit="beefed"))
        title = "Two threads of one operation"
        before[title] = before[title].replace("`c0ffee`", "`beefed`").replace("A note.\n\n", "")
        self.assertEqual([*self.sections().items()], [*before.items()])

    def test_the_whole_takes_the_place_of_its_part_but_a_part_none_of_a_whole(self) -> None:
        family, whole = Family(["nm"], ["-"], [5], 2, 2), "Two threads of one or two operations, on `nm`"
        part, other = self.results("part", family, Part(1, 2)), self.results("part2", family, Part(2, 2))
        ellen = self.results("ellen", Family(["ellen"], ["-"], [5], 2, 2))
        self.put(f"{part}@1/2", ellen)
        self.put(f"{other}@2/2")
        self.assertEqual([*self.sections()][0], f"{whole}: a part")
        self.assertIn("--part 2/2\n", self.text())
        self.put(self.results("whole", family))
        text, titles = self.text(), [whole, whole.replace("nm", "ellen"), "What is not covered"]
        self.assertEqual([*self.sections()], titles)
        cause = f"sweep_report: {whole}: the page has the whole family, and a part can't take its place\n"
        self.assertEqual(self.report("--out", self.page, f"{part}@1/2"), (1, "", cause))
        self.assertEqual(self.text(), text)

    def test_a_page_of_something_else_stays(self) -> None:
        folder = self.results("one", Family(["nm"], ["-"], [5], 2, 1))
        cause = f"sweep_report: {self.page} is no page of results: it does not begin with `# Results`\n"
        for text in ["as it was\n", "# Results of others\n", f"\n{OLD}", ""]:
            with self.subTest(text):
                self.page.write_text(text, encoding="utf-8")
                self.assertEqual(self.report("--out", self.page, folder), (2, "", cause))
                self.assertEqual(self.text(), text)

    def test_a_part_is_said_to_be_a_part(self) -> None:
        family = Family(["nm", "ellen"], ["-"], [5, 10], 2, 2)
        folder = self.results("part", family, Part(2, 20))
        status, out, err = self.report(f"{folder}@2/20")
        self.assertEqual(status, 0, err)
        self.assertIn("## Two threads of one or two operations: a part\n", out)
        drawn = len(list(family.names(Part(2, 20))))
        self.assertIn(f"Of the 903 programs of each tree one in 20 was run, in all {drawn}:", " ".join(out.split()))
        self.assertIn("--most 2 --part 2/20\n", out)
        self.assertEqual(self.report(folder)[0], 1)
        self.assertEqual(self.report(f"{folder}@1/20")[0], 1)

    def test_parts_of_a_family_are_joined(self) -> None:
        family = Family(["nm"], ["-"], [5, 10], 2, 2)
        for number in (1, 2, 3):
            folder = self.results("parts", family, Part(number, 3))
        whole = self.results("whole", family)
        self.assertEqual(self.report(folder)[1].replace("--out parts", "--out whole"), self.report(whole)[1])

    def test_programs_without_an_answer_are_counted(self) -> None:
        folder = self.results("one", Family(["nm"], ["-"], [5], 2, 1), verdict="stopped", states=2000000)
        status, out, _ = self.report(folder)
        self.assertEqual(status, 0)
        self.assertIn("| `nm` | 6 | 0 | 0 | 6 |", out)

    def test_the_smallest_programs_that_go_wrong_are_shown(self) -> None:
        name, schedule = "ellen-no-mark:10:d10:i5,f5", "0,0,0,0,0,0,0,1,1,0,1,1,1,1,1,1,1"
        folder = self.results("one", Family(["ellen-no-mark"], ["10"], [5, 10], 2, 2))
        file = folder / "1of1.jsonl"
        wrong = result_line(name, verdict="history", steps=17, schedule=schedule)
        file.write_text(file.read_text(encoding="utf-8").replace(result_line(name), wrong), encoding="utf-8")
        status, out, _ = self.report(folder)
        self.assertEqual(status, 0)
        self.assertIn("On `ellen-no-mark` 1 of these programs goes wrong with 3 operations, and none with fewer.", out)
        self.assertIn("| 902 | 1 `history` | 0 |", out)
        self.assertIn("thread 1                |x-x---x-x-x-x-x|x-x|\n", out)
        self.assertIn("No order explains these replies: `1.0 insert 5` replied true;", out)

    def test_an_incomplete_family_leaves_the_page_as_it_is(self) -> None:
        family = Family(["nm"], ["-"], [5], 2, 1)
        folder = self.results("one", family)
        self.page.write_text(OLD, encoding="utf-8")
        whole = (folder / "1of1.jsonl").read_text(encoding="utf-8")
        first, rest = whole.split("\n", 1)
        for text, cause, status in [
            (rest, "1 programs of the family have no line", 1),
            (f"{first}\n{whole}", "1 have more than one", 1),
            (whole + result_line("nm:10:i5:i5"), "programs of the family have no line", 1),
            (result_line("nm::i5:i5", checked=False) + rest, "was not judged anew, or judged otherwise", 1),
            (result_line("nm::i5:i5", verdict="holds") + rest, "was not judged anew", 1),
            (result_line("nm::i5:i5", commit=None) + rest, "names no commit", 1),
            (whole.replace('"states": 2', '"states": 3', 1), "1of1.jsonl:1 is not whole", 2),
        ]:
            (folder / "1of1.jsonl").write_text(text, encoding="utf-8")
            with self.subTest(cause):
                ended = self.report("--out", self.page, folder)
                self.assertEqual((ended[0], ended[1], len(ended[2].splitlines())), (status, "", 1), ended[2])
                self.assertIn(cause, ended[2])
                self.assertEqual(self.text(), OLD)

    def test_faults_of_use_are_one_line(self) -> None:
        folder = self.results("one", Family(["nm"], ["-"], [5], 2, 1))
        (self.folder / "empty").mkdir()
        faults: list[tuple[list[object], str]] = [
            (["nofolder"], "nofolder has no results: sweep.py --out writes such a folder"),
            (["empty"], "empty has no results: sweep.py --out writes such a folder"),
            ([f"{folder}@3"], "argument FOLDER: '3' is no part, as 1/8 or 8/8 (--help shows the use)"),
            (["--out", "nodir/page.md", folder], "can't write nodir/page.md: No such file or directory"),
            ([folder, folder], "two of these families have one title"),
        ]
        for words, cause in faults:
            with self.subTest(cause):
                self.assertEqual(self.report(*words), (2, "", f"sweep_report: {cause}\n"))


if __name__ == "__main__":
    unittest.main()
