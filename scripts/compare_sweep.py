#!/usr/bin/env python3
"""Explores the programs of a sweep a second time, by the place tables in Python, and compares what comes of them.

usage: scripts/compare_sweep.py [--program PROGRAM] [--sample N|N%] [--seed N] [--processes P] FOLDER ..

The explorer here shares nothing with treesched: its machines are scripts/place_tables.py, written from
docs/MACHINES.md. For each line of a FOLDER, which scripts/sweep.py wrote, it finds the verdict and the number
of steps, and where every schedule holds the number of states. It takes some twenty times as long as treesched.

With --program, PROGRAM is asked instead: an explorer that takes treesched's words, as bench/baseline/explorer
does for `nm`. It has to print as many states, and a fault after as many steps. Which of several shortest faults
it shows is open.

With --sample, only N lines are drawn, or N of each hundred: with one seed always the same. Lines whose verdict
is `holds` or `stopped` bound the exploration, and are left out.

Each program for which the two differ is shown, and at the end comes 'N programs, M differ'. The status is 0
if none differs, 1 if one does or none was compared, and 2 where a file can't be used.
"""
from __future__ import annotations

import argparse
import sys
import tempfile
from concurrent.futures import ProcessPoolExecutor
from dataclasses import dataclass
from fractions import Fraction
from functools import partial
from math import ceil
from pathlib import Path
from random import Random
from typing import Any

from book_judge import Name, Program, State
from common import MOST_PROCESSES, MOST_STATES, MOST_STEPS, RIGHT, WRONG
from common import Refused, ask, end, number_from, read_answer, runnable, words_of
from place_tables import reply_on
from results import FAULTS, Result, read_results

LINES_BETWEEN = 500


@dataclass(frozen=True)
class Outcome:
    """What came of a program: `every` with the fewest steps after which each state was reached and the states, or the
    kinds that the shortest faults may have with their steps. What is not known is none."""

    verdicts: frozenset[str]
    steps: int | None
    states: int | None


def has_order(program: Program, state: State) -> bool:
    """Whether a state's history has a linearization."""
    refuted: set[tuple[frozenset[Name], frozenset[int]]] = set()

    def extends(placed: frozenset[Name], keys: frozenset[int]) -> bool:
        left = [name for name in state.replies if name not in placed]
        if not left:
            return True
        if (placed, keys) in refuted:
            return False
        for name, note in state.notes.items():
            if name in placed or any(note[thread] > index for thread, index in left):
                continue
            operation = program.threads[name[0]][name[1]]
            reply, after = reply_on(operation.word, operation.key, keys)
            if state.replies.get(name, reply) == reply and extends(placed | {name}, after):
                return True
        refuted.add((placed, keys))
        return False

    return extends(frozenset(), frozenset(program.initial))


class Explorer:
    """Explores a program by layers of as many steps."""

    def __init__(self, program: Program) -> None:
        self.program = program
        self.seen: set[Any] = set()
        self.explained: dict[Any, bool] = {}

    def fault_of(self, state: State) -> str | None:
        """The fault of a state, if it has one."""
        if state.astray is not None:
            return "astray"
        if self.program.is_faulty(state):
            return "order"
        history = (tuple(sorted(state.notes.items())), tuple(sorted(state.replies.items())))
        if history not in self.explained:
            self.explained[history] = has_order(self.program, state)
        return None if self.explained[history] else "history"

    def is_new(self, state: State) -> bool:
        """Whether no state that is alike was met before."""
        form = self.program.form(state)
        count = len(self.seen)
        self.seen.add(form)
        return len(self.seen) > count

    def outcome(self) -> Outcome:
        """Explores layer by layer, to the first that is empty or has a fault."""
        layer = [self.program.start()]
        self.is_new(layer[0])
        steps = 0
        while True:
            threads = range(len(self.program.threads))
            after = (self.program.step(state, thread) for state in layer for thread in threads)
            layer = [state for state in after if state and self.is_new(state)]
            if not layer:
                return Outcome(frozenset({"every"}), steps, len(self.seen))
            steps += 1
            faults = frozenset(fault for state in layer if (fault := self.fault_of(state)))
            if faults:
                return Outcome(faults, steps, None)


def answered(program: Path, text: str) -> Outcome:
    """What another explorer answers. With a fault, any kind may be the one of another shortest schedule."""
    with tempfile.NamedTemporaryFile(suffix=".json") as file:
        file.write(text.encode())
        file.flush()
        limits = ["--steps", MOST_STEPS, "--states", MOST_STATES]
        answer = read_answer(ask(program, "explore", file.name, *limits, "--merge", "names"))
    if answer.verdict in FAULTS:
        return Outcome(frozenset(FAULTS), answer.steps, answer.states)
    return Outcome(frozenset({answer.verdict}), None, answer.states)


def difference(program: Path | None, result: Result) -> str | None:
    """How a result differs from what is found here, or from what the program answers, if it does."""
    text = result.named.text
    try:
        found = answered(program, text) if program else Explorer(Program(text.encode())).outcome()
    except Refused as refusal:
        return f"{result.answer}, and here: {refusal}"
    is_same = result.verdict in found.verdicts and found.steps in (None, result.steps)
    if is_same and found.states in (None, result.states):
        return None
    return f"{result.answer}, after {result.steps} steps, and here {found}"


def share_of(text: str) -> Fraction | int:
    """For argparse: how many lines are drawn, or which share of them."""
    if text.endswith("%"):
        return Fraction(number_from(1, 100)(text[:-1]), 100)
    return number_from(1, 10**8)(text)


def drawn(results: list[Result], sample: Fraction | int, seed: int) -> list[Result]:
    """So many of the results, or such a share, at random. What is drawn rests on the programs and the seed alone."""
    there = sorted(results, key=lambda result: result.program)
    number = ceil(len(there) * sample) if isinstance(sample, Fraction) else min(sample, len(there))
    return Random(seed).sample(there, number)


def read_words() -> argparse.Namespace:
    """The words of the command line."""
    parser = words_of(__doc__)
    parser.add_argument("--program", metavar="PROGRAM", type=Path, help="an explorer that is asked instead")
    parser.add_argument("--sample", metavar="N", type=share_of, help="how many lines are drawn, or N%% of them")
    parser.add_argument("--seed", metavar="N", type=int, default=1, help="with which the drawing begins")
    parser.add_argument("--processes", metavar="P", type=number_from(1, MOST_PROCESSES), default=1)
    parser.add_argument("folders", metavar="FOLDER", type=Path, nargs="+")
    return parser.parse_args()


def main() -> int:
    """Compares the lines, and answers the status."""
    words = read_words()
    lines = [result for folder in words.folders for result in read_results(folder)]
    results = [result for result in lines if result.verdict not in ("holds", "stopped")]
    if len(results) < len(lines):
        print(f"compare_sweep: {len(lines) - len(results)} lines without a verdict to compare", file=sys.stderr)
    if words.sample is not None:
        results = drawn(results, words.sample, words.seed)
    program = runnable(words.program) if words.program else None
    differing = 0
    with ProcessPoolExecutor(words.processes) as pool:
        for count, differs in enumerate(pool.map(partial(difference, program), results, chunksize=8), start=1):
            if differs:
                differing += 1
                print(differs)
            if count % LINES_BETWEEN == 0:
                print(f"compare_sweep: {count} of {len(results)}, {differing} differ", file=sys.stderr)
    print(f"{len(results)} programs, {differing} differ")
    return WRONG if differing or not results else RIGHT


if __name__ == "__main__":
    end(main)
