"""Tests of the judge of book files (scripts/book_judge.py), and of how mutate_books.py and check_schema.py begin."""
from __future__ import annotations

import unittest

from script_runs import TOP, run_script
from book_judge import Program, judge, passing

FILE = TOP / "examples" / "two_inserts.json"
BOOK = (TOP / "examples" / "two_inserts.book").read_bytes()


class Judgements(unittest.TestCase):
    """The right answer to each book of docs/REFUSALS.md."""

    def judge(self, book: bytes) -> str:
        """The answer to a book of two inserts."""
        return judge(Program(FILE.read_bytes()), book)

    def with_line(self, number: int, text: str) -> bytes:
        """The book with another line."""
        lines = BOOK.split(b"\n")
        lines[number - 1] = text.encode()
        return b"\n".join(lines)

    def test_the_book_passes(self) -> None:
        self.assertEqual(self.judge(BOOK), passing(5))

    def test_each_refusal(self) -> None:
        shorter = BOOK.replace(b"entries 5", b"entries 4").replace(b"2 0 1.0,0.0\n", b"")
        for book, right in [
            (b"", "C1 at line 1"),
            (BOOK[:-1], "C1 at line 1"),
            (BOOK.replace(b"\n", b"\r\n"), "C1 at line 1"),
            (self.with_line(2, "0 0 -"), "C1 at line 2"),
            (self.with_line(4, "00 1 1.0"), "C1 at line 4"),
            (self.with_line(5, "3 1 0.0,1.0"), "C2 at line 5"),
            (self.with_line(5, "1 0 0.0,1.0"), "C3 at line 5"),
            (self.with_line(5, "1 1 1.0,0.0"), "C5 at line 5"),
            (self.with_line(5, "1 1 0.0,1.7"), "C5 at line 5"),
            (shorter, "C6 at line 4"),
        ]:
            with self.subTest(right):
                self.assertEqual(self.judge(book), right)


class Beginnings(unittest.TestCase):
    """Scripts that need the program say so in one line where it does not run."""

    def test_a_program_that_does_not_run(self) -> None:
        for name, *words in [
            ("mutate_books.py", "nowhere"),
            ("check_schema.py", "--program", "nowhere"),
            ("check_pages.py", "--program", "nowhere"),
            ("sweep.py", "--out", "nofolder", "--program", "nowhere"),
        ]:
            with self.subTest(name):
                ended = run_script(f"scripts/{name}", *words)
                self.assertEqual((ended.returncode, ended.stdout), (2, ""))
                self.assertRegex(ended.stderr, rf"^{name[:-3]}: .*/nowhere does not run: .*\n$")


if __name__ == "__main__":
    unittest.main()
