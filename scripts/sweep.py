#!/usr/bin/env python3
"""Explores every program of a family, has each answer judged anew, and writes one line of JSON for each program.

usage: scripts/sweep.py --out FOLDER [FAMILY] [--part K/N] [--program PROGRAM] [--commit C] [--states M]
                        [--books BOOKS]
       scripts/sweep.py --show NAME
                        prints the program file of a name

FAMILY is [--trees T ..] [--initial LIST ..] [--keys LIST] [--threads N] [--most K] [--waits]: on each tree and
each list of initial keys (`-` is the empty one), N threads of 1 to K operations each, every operation an
insert, a delete or a find of one of the keys. With --waits the programs are of version 2: there is one more
thread, whose one find waits for an operation of the others. Of programs that differ in the order of their
threads alone there is one.

A program's name is short for its file: ellen:10,20:i5,d10:f15@0.0 has the initial keys 10 and 20, a thread that
inserts 5 and deletes 10, and one that finds 15 once the operation 0.0 has ended.

Each program is explored by names to 400 steps. Where every schedule holds, `PROGRAM check` judges the book;
where there is a fault, `PROGRAM replay` judges the schedule. A line has: `program`, its name; `verdict`: every,
holds, stopped, astray, order or history; `states`; `steps`, where every schedule holds the fewest after which
each state was reached, else those of the answer; `checked`, whether check or replay answered the same (where
the verdict is holds or stopped, nothing judges it anew); `seconds`, the processor's seconds of the exploration,
and `seconds_all` of the whole; with a fault its `schedule`; the `commit` of the sources: this checkout's, for
./treesched where no source is changed (for another PROGRAM, --commit names it); and a `sum` over the rest.

With --part K/N it runs part K of N, which other processes and machines can run at once. The part of a program is
drawn by its name. FOLDER has a file for each part. What stands in any of them is not run again, so that an
interrupted part goes on where it was, and the sweep without --part runs what all parts left. Lines that are not
whole are cut out, and their programs run again.

How far it is stands on the standard error, and at the end the totals of the part on the standard output, with
one SHA-256 over its answers; scripts/sweep_report.py makes a page of families. The status is 0 if each program
has a line and none was judged otherwise, 1 if not, 2 where the words or a file can't be used or PROGRAM doesn't
run, and 130 where it was interrupted.
"""
from __future__ import annotations

import argparse
import fcntl
import resource
import signal
import sys
import tempfile
import time
from collections import Counter
from dataclasses import dataclass
from pathlib import Path
from typing import TextIO

from common import MOST_STATES, MOST_STEPS, PROGRAM, RIGHT, WRONG
from common import Refused, Unusable, ask, end, number_from, read_answer, runnable, words_of
from programs import MOST_OPERATIONS, MOST_THREADS, TREES, Family, Part
from programs import initial_list, key_list, part_of, program_text
from results import Result, commit_here, digest_of, file_of, mend, whole_results

SECONDS_BETWEEN_LINES = 10


@dataclass(frozen=True)
class Setting:
    """How programs are run, where their books are kept, if they are, and the commit that each line names."""

    treesched: Path
    states: int
    books: Path | None
    commit: str | None


def depth_of(book: bytes) -> int:
    """How many steps lead to the last entry of a book. None has more, as `explore` writes entries in that order."""
    lines = book.split(b"\n")
    entry, count = len(lines) - 3, 0
    while entry:
        entry, count = int(lines[entry + 1].partition(b" ")[0]), count + 1
    return count


def processor_seconds() -> float:
    """What the programs that ended so far took of the processor."""
    usage = resource.getrusage(resource.RUSAGE_CHILDREN)
    return usage.ru_utime + usage.ru_stime


def judged(setting: Setting, name: str) -> Result:
    """Explores a program, and has the answer judged anew."""
    with tempfile.TemporaryDirectory() as folder:
        file = Path(folder) / "program.json"
        file.write_text(program_text(name), encoding="utf-8")
        book = (setting.books or Path(folder)) / f"{name.replace(':', '_')}.book"
        limits = ["--steps", MOST_STEPS, "--states", setting.states]
        begun = processor_seconds()
        words = ["explore", file, *limits, "--merge", "names", "--book", book]
        answer = read_answer(ask(setting.treesched, *words))
        seconds = processor_seconds() - begun
        steps, checked = answer.steps, True
        if answer.verdict == "every":
            steps = depth_of(book.read_bytes())
            passes = f"every schedule holds\nstates {answer.states}\n"
            checked = ask(setting.treesched, "check", file, book) == passes
        elif answer.schedule is not None:
            replayed = ask(setting.treesched, "replay", file, "--schedule", answer.schedule)
            checked = replayed.endswith(f"\nfault {answer.verdict}\n")
        seconds_all = processor_seconds() - begun
    return Result(
        name,
        answer.verdict,
        answer.states,
        steps,
        checked,
        round(seconds, 4),
        round(seconds_all, 4),
        answer.schedule,
        setting.commit,
    )


def run_one(setting: Setting, name: str, out: TextIO) -> Result | None:
    """Runs a program and writes its line, or prints that it was refused."""
    try:
        result = judged(setting, name)
    except Refused as refusal:
        print(f"sweep: {name}: {refusal}", file=sys.stderr)
        return None
    print(result.line(), end="", file=out, flush=True)
    return result


class Progress:
    """How far a sweep is, on the standard error: on a terminal in one line that is written over, else now and then."""

    def __init__(self, there: int, left: int) -> None:
        self.begun = self.shown = time.monotonic()
        self.there, self.left, self.done, self.wrong = there, left, 0, 0

    def count(self, is_right: bool) -> None:
        """Counts one program, and prints how far it is where that is due."""
        self.done += 1
        self.wrong += not is_right
        now = time.monotonic()
        is_terminal = sys.stderr.isatty()
        if self.done == self.left or now - self.shown >= (0.2 if is_terminal else SECONDS_BETWEEN_LINES):
            self.shown = now
            rest = (now - self.begun) / self.done * (self.left - self.done)
            had = f", {self.there} were there" if self.there else ""
            line = f"sweep: {self.done} of {self.left}{had}, {self.wrong} wrong, about {rest:.0f} s more"
            ending = "\r" if is_terminal and self.done < self.left else "\n"
            print(line, end=ending, file=sys.stderr, flush=True)


def opened(file: Path) -> TextIO:
    """The file of a part, to be added to. It is another run's as long as that has it open."""
    try:
        file.parent.mkdir(parents=True, exist_ok=True)
        out = file.open("a", encoding="utf-8")
        fcntl.flock(out, fcntl.LOCK_EX | fcntl.LOCK_NB)
    except BlockingIOError:
        raise Unusable(f"another run writes {file}") from None
    except OSError as fault:
        raise Unusable(f"can't write {file}: {fault.strerror}") from None
    return out


def sweep(setting: Setting, folder: Path, names: list[str], file: Path) -> list[Result]:
    """Runs the programs that have no line in the folder, and answers the results of all."""
    wanted = set(names)
    with opened(file) as out:
        damaged = mend(file)
        if damaged:
            print(f"sweep: {file}: not whole, and cut out: {damaged} lines, whose programs run again", file=sys.stderr)
        results = [result for result in whole_results(folder) if result.program in wanted]
        there = {result.program for result in results}
        left = [name for name in names if name not in there]
        progress = Progress(len(there), len(left))
        if not left:
            print(f"sweep: all {len(names)} were there", file=sys.stderr)
        for name in left:
            result = run_one(setting, name, out)
            results += [result] if result else []
            progress.count(bool(result and result.checked))
    return results


def print_summary(results: list[Result]) -> None:
    """Prints the totals for each tree, and the digest."""
    for tree in TREES:
        those = [result for result in results if result.tree == tree]
        if those:
            kinds = Counter(result.verdict for result in those).most_common()
            verdicts = ", ".join(f"{verdict} {count}" for verdict, count in kinds)
            states, steps = (max(getattr(result, name) for result in those) for name in ("states", "steps"))
            print(f"{tree}: {len(those)} programs: {verdicts}; most states {states}, most steps {steps}")
    print(f"digest {digest_of(results)}")


def read_words() -> argparse.Namespace:
    """The words of the command line."""
    parser = words_of(__doc__)
    parser.add_argument("--trees", metavar="T", nargs="+", choices=TREES, default=["ellen", "nm"])
    parser.add_argument("--initial", metavar="LIST", type=initial_list, nargs="+", default=["10"])
    parser.add_argument("--keys", metavar="LIST", type=key_list, default=[5, 10])
    parser.add_argument("--threads", metavar="N", type=number_from(1, MOST_THREADS), default=2)
    parser.add_argument("--most", metavar="K", type=number_from(1, MOST_OPERATIONS), default=2)
    parser.add_argument("--waits", action="store_true", help="one more thread, whose find waits for an operation")
    parser.add_argument("--part", metavar="K/N", type=part_of, default=Part(), help="part K of N")
    parser.add_argument("--program", metavar="PROGRAM", type=Path, default=PROGRAM)
    parser.add_argument("--commit", metavar="C", help="the commit by whose sources PROGRAM was built")
    parser.add_argument("--states", metavar="M", type=number_from(1, MOST_STATES), default=MOST_STATES)
    parser.add_argument("--books", metavar="BOOKS", type=Path, help="a folder for the books, which else are not kept")
    mode = parser.add_mutually_exclusive_group(required=True)
    mode.add_argument("--out", metavar="FOLDER", type=Path)
    mode.add_argument("--show", metavar="NAME")
    return parser.parse_args()


def setting_of(words: argparse.Namespace) -> Setting:
    """How programs are run by these words."""
    books = words.books.resolve() if words.books else None
    if books:
        try:
            books.mkdir(parents=True, exist_ok=True)
        except OSError as fault:
            raise Unusable(f"can't make the folder {books}: {fault.strerror}") from None
    program = runnable(words.program)
    return Setting(program, words.states, books, words.commit or (commit_here() if program == PROGRAM else None))


def main() -> int:
    """Does what the words say, and answers the status."""
    # GNU parallel and batch systems interrupt so
    signal.signal(signal.SIGTERM, signal.default_int_handler)
    words = read_words()
    if words.show is not None:
        print(program_text(words.show), end="")
        return RIGHT
    family = Family(words.trees, words.initial, words.keys, words.threads, words.most, words.waits)
    family.refuse()
    names = list(family.names(words.part))
    results = sweep(setting_of(words), words.out, names, file_of(words.out, words.part))
    print_summary(results)
    return RIGHT if {result.program for result in results if result.checked} == set(names) else WRONG


if __name__ == "__main__":
    end(main, "interrupted; the same command goes on from here")
