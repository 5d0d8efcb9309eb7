#!/usr/bin/env python3
"""Measures what it costs to write a book and to check it, beside the exploration alone.

usage: bench/books.py [--only WORD] [--repeat N] BINARY

For each program that run.py explores by names: the states, CPU seconds (user and system) of the exploration without a
book, of the exploration that writes one, and of the check of it; the book's bytes, and its bytes a line; and the peak
memory of the check in bytes a state. The three take turns N times, and medians are shown. The status is 0, or 2 where
a word or the binary can't be used or a run fails.
"""
from __future__ import annotations

import tempfile
from pathlib import Path
from statistics import median

# run.py puts the folder of the scripts on the path, where `common` is.
from run import PROGRAMS, RUNS, Run, binary_of, run

from common import RIGHT, Unusable, end, number_from, words_of  # isort: skip

ROW = "{:<16} {:>9} {:>9} {:>9} {:>9} {:>12} {:>8} {:>8}"


def measure(binary: Path, program: str, words: list[str], book: Path) -> list[Run]:
    """One turn of the three, which report the same states."""
    path = str(PROGRAMS / program)
    turns = [["explore", path, *words], ["explore", path, *words, "--book", str(book)], ["check", path, str(book)]]
    runs = [run(binary, turn) for turn in turns]
    for turn, ended in zip(turns, runs):
        if ended.status or ended.states is None or ended.states != runs[0].states:
            raise Unusable(f"{program}: {turn[0]} ended with status {ended.status} and printed {ended.text!r}")
    return runs


def main() -> int:
    """Prints the table, and answers the status."""
    parser = words_of(__doc__)
    parser.add_argument("--only", metavar="WORD", default="", help="the programs whose names have this word")
    parser.add_argument("--repeat", metavar="N", type=number_from(1, 1000), default=1)
    parser.add_argument("binary", metavar="BINARY")
    options = parser.parse_args()
    binary = binary_of(options.binary)
    print(ROW.format("program", "states", "explore", "with book", "check", "bytes", "B/line", "B/state"))
    for program, words in RUNS:
        if options.only not in program or "names" not in words:
            continue
        with tempfile.TemporaryDirectory() as folder:
            book = Path(folder) / "book"
            turns = [measure(binary, program, words, book) for _ in range(options.repeat)]
            size = book.stat().st_size
        states = turns[0][0].states or 0
        seconds = [f"{median(runs[place].cpu for runs in turns):.2f}" for place in range(3)]
        peak = max(runs[2].peak for runs in turns)
        cells = [states, *seconds, size, f"{size / (states + 1):.1f}", peak // states]
        print(ROW.format(program.removesuffix(".json"), *cells), flush=True)
    return RIGHT


if __name__ == "__main__":
    end(main)
