"""Tests of check_pages.py, on small pages."""
from __future__ import annotations

import tempfile
import unittest
from pathlib import Path

from script_runs import run_script, stub_program


class Pages(unittest.TestCase):
    """The script as a user runs it, on one page."""

    def setUp(self) -> None:
        folder = tempfile.TemporaryDirectory()
        self.addCleanup(folder.cleanup)
        self.folder = Path(folder.name)
        self.program = stub_program(self.folder)

    def check(self, text: str) -> tuple[int, str, str]:
        """The status and the outputs for a page of this text."""
        page = self.folder / "page.md"
        page.write_text(text, encoding="utf-8")
        ended = run_script("scripts/check_pages.py", "--program", self.program, page)
        self.assertNotIn("Traceback", ended.stderr)
        return ended.returncode, ended.stdout, ended.stderr

    def assert_right(self, text: str, counts: str) -> None:
        """Asserts that no example of a page differs."""
        self.assertEqual(self.check(text), (0, f"{counts}\n", ""))

    def test_fenced_examples_stand_alone(self) -> None:
        blocks = "```console\n$ echo a > f; echo b >&2; echo c\nc\nb\n[status 0]\n$ cat f\n...\n[status 1]\n```\n"
        self.assert_right(blocks, "2 examples, 0 differ, 0 not run")

    def test_indented_examples_share_a_folder(self) -> None:
        block = "$ cat > f <<'END'\na\n\nb\nEND\n$ cat f\na\n\nb\n"
        indented = "".join(f"    {line}\n" if line else "\n" for line in block.splitlines())
        self.assert_right(f"A file:\n\n{indented}\nText.\n\n    $ rm f\n", "3 examples, 0 differ, 0 not run")

    def test_the_standard_error_may_come_first_without_a_status(self) -> None:
        self.assert_right("\n    $ echo a; echo b >&2\n    b\n    a\n", "1 examples, 0 differ, 0 not run")

    def test_a_command_may_go_on_in_the_next_line(self) -> None:
        self.assert_right("\n    $ echo a \\\n      b\n    a b\n", "1 examples, 0 differ, 0 not run")

    def test_a_difference_is_shown(self) -> None:
        status, out, _ = self.check("\n    $ echo a\n    b\n")
        self.assertEqual(status, 1)
        self.assertIn("page.md:2: $ echo a\n", out)
        self.assertIn("    -b\n    +a\n1 examples, 1 differ, 0 not run\n", out)

    def test_what_needs_more_is_not_run(self) -> None:
        text = "\n    $ ls\n    ...\n    $ rt ci\n    $ ./treesched --unproved x\n"
        text += "\n<!-- not run -->\n\n    $ exit 3\n\n    more\n"
        status, out, _ = self.check(text)
        self.assertEqual((status, out), (0, "1 examples, 0 differ, 3 not run\n"))

    def test_files_of_the_repository_stay_as_they_are(self) -> None:
        status, out, _ = self.check("\n    $ echo a >> docs/FORMATS.md\n")
        self.assertEqual(status, 1)
        self.assertIn("its commands write something else into docs/FORMATS.md than stands there", out)
        self.assert_right("\n    $ echo a >> new.md; rm docs/FORMATS.md\n", "1 examples, 0 differ, 0 not run")

    def test_pages_whose_blocks_are_unclear_are_refused(self) -> None:
        for text, cause in [
            ("```console\n$ a\n", "a block without an end"),
            ("```console\na\n$ b\n```\n", "a line before the first command of its block"),
            ("```console\n$ a\n``` b\n", "a fence that does not end the block of line 1"),
            ("  ```console\n$ a\n```\n", "a fence that is not at the beginning of its line"),
            ("```console\n$ true\n[status 0]\n$ true\n```\n", "no line [status N]"),
        ]:
            with self.subTest(cause):
                status, out, err = self.check(text)
                self.assertEqual((status, out, len(err.splitlines())), (2, "", 1), err)
                self.assertIn(cause, err)

    def test_a_page_without_examples_is_no_success(self) -> None:
        self.assertEqual(self.check("Text.\n")[:2], (1, "0 examples, 0 differ, 0 not run\n"))


if __name__ == "__main__":
    unittest.main()
