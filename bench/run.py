#!/usr/bin/env python3
"""Runs a fixed list of programs with any explorer that takes treesched's words, and prints a table.

usage: bench/run.py [--only WORD] [--repeat N] [--workers W,W,..] BINARY [BINARY ..]

For each program, merge, number of workers and binary: the states that it reports, wall seconds, CPU seconds (user and
system), states per second of CPU, peak memory in MB and in bytes a state. With N repeats, numbers of workers and
binaries take turns, and medians are shown. A binary may refuse programs (the unverified explorer knows `atomic` and
`nm` alone, and no `--workers`): standard error says so, and the rest runs on. The status is 0, or 1 where binaries
report different states of a program, and 2 where a word or a binary can't be used.
"""
from __future__ import annotations

import os
import re
import sys
import time
from pathlib import Path
from statistics import median
from typing import NamedTuple

PROGRAMS = Path(__file__).resolve().parent / "programs"
sys.path.insert(0, str(PROGRAMS.parents[1] / "scripts"))

from common import RIGHT, WRONG, Unusable, end, number_from, words_of  # noqa: E402

LIMITS = ["--steps", "400", "--states", "2000000"]
NAMES = ["--merge", "names"]

# A program of bench/programs, and the words after it.
RUNS: list[tuple[str, list[str]]] = [
    ("atomic-4x2.json", ["--steps", "400"]),
    ("atomic-2x6.json", ["--steps", "400"]),
    ("atomic-3x4.json", ["--steps", "400"]),
    ("atomic-4x3.json", LIMITS),
    ("ellen-3x1.json", LIMITS),
    ("ellen-2x3.json", LIMITS),
    ("ellen-3x2.json", LIMITS),
    ("nm-2x3.json", LIMITS),
    ("nm-3x2.json", LIMITS),
    ("ellen-2x3.json", [*LIMITS, *NAMES]),
    ("ellen-3x1.json", [*LIMITS, *NAMES]),
    ("nm-2x3.json", [*LIMITS, *NAMES]),
    ("nm-3x2.json", [*LIMITS, *NAMES]),
    # A state space that a user would care for: four threads, one operation each on neighbouring keys.
    ("neighbours-ellen.json", [*LIMITS, *NAMES]),
    ("neighbours-nm.json", [*LIMITS, *NAMES]),
    # The slowest programs that sweeps met (docs/SWEEPS.md).
    ("slowest-two-ellen.json", [*LIMITS, *NAMES]),
    ("slowest-two-nm.json", [*LIMITS, *NAMES]),
    ("slowest-three-ellen.json", [*LIMITS, *NAMES]),
    ("slowest-three-nm.json", [*LIMITS, *NAMES]),
    ("slowest-waits-ellen.json", [*LIMITS, *NAMES]),
]


ROW = "{:<28} {:<24} {:>9} {:>8} {:>8} {:>10} {:>8} {:>8}"


class Run(NamedTuple):
    """One run of a binary: its standard output and status, its wall and CPU seconds, and its peak memory in bytes."""

    text: str
    status: int
    wall: float
    cpu: float
    peak: int

    @property
    def states(self) -> int | None:
        """The states that it reports, if it does."""
        found = re.search(r"^states (\d+)$", self.text, re.MULTILINE)
        return int(found[1]) if found else None


def binary_of(word: str) -> Path:
    """The whole path of a binary that can be run, under the name that was given."""
    path = Path(word).absolute()
    if not path.is_file() or not os.access(path, os.X_OK):
        raise Unusable(f"{word} is no program that can be run")
    return path


def run(binary: Path, words: list[str]) -> Run:
    """Runs a binary on words."""
    out_read, out_write = os.pipe()
    begun = time.monotonic()
    child = os.fork()
    if child == 0:
        try:
            os.dup2(out_write, 1)
            os.close(out_write)
            os.execv(binary, [str(binary), *words])
        finally:
            os._exit(127)
    os.close(out_write)
    with os.fdopen(out_read) as pipe:
        text = pipe.read()
    _, status, usage = os.wait4(child, 0)
    wall = time.monotonic() - begun
    return Run(text, os.waitstatus_to_exitcode(status), wall, usage.ru_utime + usage.ru_stime, usage.ru_maxrss * 1024)


def crews_of(text: str) -> list[list[str]]:
    """The words for each number of workers of a list, or no words where the list is empty."""
    try:
        counts = [number_from(1, 8)(count) for count in text.split(",") if count]
    except Exception as fault:
        raise Unusable(f"--workers: {fault}") from None
    return [["--workers", str(count)] for count in counts] or [[]]


def print_row(name: str, binary: Path, runs: list[Run], states: int) -> None:
    """Prints the row of a binary and a number of workers."""
    cpu, peak = median(run.cpu for run in runs), max(run.peak for run in runs)
    wall = median(run.wall for run in runs)
    cells = [states, f"{wall:.2f}", f"{cpu:.2f}", int(states / max(cpu, 0.001)), f"{peak / 1e6:.0f}", peak // states]
    print(ROW.format(name, binary.name, *cells), flush=True)


def measure(program: str, words: list[str], crews: list[list[str]], binaries: list[Path], repeat: int) -> set[int]:
    """Runs a program in all ways, and prints a row for each. Answers the numbers of states that were reported."""
    turns = [(place, binary) for place in range(len(crews)) for binary in binaries]
    runs: dict[tuple[int, Path], list[Run]] = {turn: [] for turn in turns}
    for _ in range(repeat):
        for place, binary in turns:
            runs[place, binary].append(run(binary, ["explore", str(PROGRAMS / program), *words, *crews[place]]))
    reported: set[int] = set()
    for place, binary in turns:
        names = ["names"] if "names" in words else []
        name = " ".join([program.removesuffix(".json"), *names, *(f"by {count}" for count in crews[place][1:])])
        states = runs[place, binary][0].states
        if states is None:
            status = runs[place, binary][0].status
            print(f"run: {name}: {binary}: status {status}, no line 'states N'", file=sys.stderr)
            continue
        reported.add(states)
        print_row(name, binary, runs[place, binary], states)
    return reported


def main() -> int:
    """Prints the table, and answers the status."""
    parser = words_of(__doc__)
    parser.add_argument("--only", metavar="WORD", default="", help="the programs whose names have this word")
    parser.add_argument("--repeat", metavar="N", type=number_from(1, 1000), default=1)
    parser.add_argument("--workers", metavar="W,W,..", default="", help="numbers of workers, each run in turn")
    parser.add_argument("binary", metavar="BINARY", nargs="+")
    words = parser.parse_args()
    binaries, crews = list(map(binary_of, words.binary)), crews_of(words.workers)
    print(ROW.format("program", "binary", "states", "seconds", "cpu", "states/s", "MB", "B/state"))
    status = RIGHT
    for program, limits in RUNS:
        if words.only in program:
            reported = measure(program, limits, crews, binaries, words.repeat)
            if len(reported) > 1:
                status = WRONG
                numbers = ", ".join(map(str, sorted(reported)))
                print(f"run: {program} {' '.join(limits)}: different numbers of states: {numbers}", file=sys.stderr)
    return status


if __name__ == "__main__":
    end(main)
