"""Tests of check_links.py, on small pages."""
from __future__ import annotations

import contextlib
import io
import sys
import tempfile
import unittest
from pathlib import Path
from unittest import mock

from script_runs import run_script

import check_links  # isort: skip


def targets(text: str) -> list[str]:
    """The targets of a page's links."""
    return [link.target for link in check_links.links_of(text)]


class Links(unittest.TestCase):
    """Which links a page has."""

    def test_inline_links_and_images(self) -> None:
        text = "see [a](a.md), [b](<b c.md>) and ![c](c.svg \"a title\")"
        self.assertEqual(targets(text), ["a.md", "b c.md", "c.svg"])

    def test_references(self) -> None:
        self.assertEqual(targets("[a]: docs/a.md\n[b] is no definition: docs/b.md"), ["docs/a.md"])

    def test_a_link_around_an_image(self) -> None:
        self.assertEqual(targets("[![a](a.svg)](a.md)"), ["a.svg", "a.md"])

    def test_code_has_no_links(self) -> None:
        self.assertEqual(targets("`[a](a.md)` ``b`[b](b.md)``\n```console\n[c](c.md)\n```\n[d](d.md)"), ["d.md"])

    def test_a_longer_fence_ends_at_its_like(self) -> None:
        self.assertEqual(targets("````\n```\n[a](a.md)\n````\n[b](b.md)"), ["b.md"])

    def test_lines_are_counted_from_one(self) -> None:
        self.assertEqual(check_links.links_of("\n\n[a](a.md)"), [check_links.Link(3, "a.md")])


class Anchors(unittest.TestCase):
    """Which anchors a page has."""

    def test_slugs(self) -> None:
        for heading, slug in (
            ("Book files", "book-files"),
            ("`ellen-no-mark`: the parent is not marked", "ellen-no-mark-the-parent-is-not-marked"),
            ("Output of `explore --book`", "output-of-explore---book"),
            ("A [link](a.md), *and* more", "a-link-and-more"),
        ):
            self.assertEqual(check_links.slug_of(heading), slug)

    def test_headings_of_one_text_are_numbered(self) -> None:
        self.assertEqual(check_links.anchors_of("# A\n## A\n### A #\n"), {"a", "a-1", "a-2"})

    def test_code_has_no_headings(self) -> None:
        self.assertEqual(check_links.anchors_of("```\n# a\n```\n<a name=\"b\"></a>"), {"b"})


class Pages(unittest.TestCase):
    """What is said of a repository's pages."""

    def setUp(self) -> None:
        folder = tempfile.TemporaryDirectory()
        self.addCleanup(folder.cleanup)
        self.top = Path(folder.name).resolve()
        (self.top / "docs").mkdir()
        (self.top / "docs" / "A.md").write_text("# One\n[up](../README.md#top) [two](#two)\n", encoding="utf-8")

    def run_main(self, readme: str) -> tuple[int, list[str]]:
        """The status and the lines of the script over the pages, with this text as the README."""
        (self.top / "README.md").write_text(readme, encoding="utf-8")
        out = io.StringIO()
        with mock.patch.object(check_links, "TOP", self.top), mock.patch.object(sys, "argv", ["check_links.py"]):
            with contextlib.redirect_stdout(out):
                status = check_links.main()
        return status, out.getvalue().splitlines()

    def test_links_that_resolve(self) -> None:
        (self.top / "docs" / "A.md").write_text("# One\n[up](../README.md#top) [one](#one)\n", encoding="utf-8")
        readme = "# Top\n[a](docs/A.md) [one](docs/A.md#one) [docs](docs) [far](https://example.org/none#none)\n"
        self.assertEqual(self.run_main(readme), (0, ["5 links, 0 broken"]))

    def test_each_broken_link_is_one_line(self) -> None:
        status, lines = self.run_main("# Top\n[b](docs/B.md)\n[c](docs/A.md#two) [d](../else.md)\n")
        self.assertEqual(status, 1)
        self.assertEqual(
            lines,
            [
                "README.md:2: docs/B.md: no such file",
                "README.md:3: docs/A.md#two: no such heading",
                "README.md:3: ../else.md: outside the repository",
                "docs/A.md:2: #two: no such heading",
                "5 links, 4 broken",
            ],
        )

    def test_a_page_that_is_no_text(self) -> None:
        page = self.top / "docs" / "A.md"
        page.write_bytes(b"\xff")
        ended = run_script("scripts/check_links.py", page)
        self.assertEqual((ended.returncode, ended.stdout), (2, ""))
        self.assertEqual(ended.stderr, f"check_links: can't read {page}: it is not UTF-8\n")


if __name__ == "__main__":
    unittest.main()
