#!/usr/bin/env python3
"""Shows where the time of a check went, by function and by kind of module.

usage: scripts/check_times.py FOLDER [ROWS]

    rm -r crates/NAME/out/incremental; (cd crates/NAME && rt check --jobs 1)
    scripts/check_times.py crates/NAME/out/incremental

A check writes a file for each module when it is done with it. With one job it takes them one after the other, so the
time from one file to the next is what the module took. With several jobs these times mean little. ROWS is how many
functions are shown, 30 without it.
"""
from __future__ import annotations

import re
from collections import defaultdict
from collections.abc import Iterator
from pathlib import Path

from common import RIGHT, Unusable, end, number_from, words_of

# What a module of a function holds, by the last part of its name.
KINDS = {
    "Lts": "what the code does",
    "Proof": "the proof of a function",
    "Tie": "the code as the proof sees it",
    "Answers": "goals answered by hand",
    "Goals": "goals that are left",
    "Invariants": "invariants of loops",
}
DERIVED = re.compile(r"\w(Hash\.hash|Debug\.fmt|PartialEq\.eq|Clone\.clone)(\.|$)")


def modules(folder: Path) -> Iterator[tuple[str, float]]:
    """The modules in the order in which they were done, each with its seconds."""
    written = sorted((file.stat().st_mtime, file.name) for file in folder.rglob("*.oantt"))
    before = written[0][0] if written else 0.0
    for moment, file in written:
        yield file.removesuffix(".oantt").removesuffix(".decls"), moment - before
        before = moment


def function_of(module: str) -> str:
    """The function that a module belongs to, or the module itself where it belongs to none."""
    head, _, last = module.rpartition(".")
    return head if "-proofs." in module and last[:1].isupper() and head else module


def kind_of(module: str) -> str:
    """What a module holds."""
    if "-specs" in module:
        return "definitions, laws and contracts"
    return KINDS.get(module.rpartition(".")[2], "other modules of proofs")


def main() -> int:
    """Prints the times, and answers the status."""
    parser = words_of(__doc__)
    parser.add_argument("folder", metavar="FOLDER", type=Path, help="out/incremental of a crate")
    parser.add_argument("rows", metavar="ROWS", type=number_from(1, 10**6), nargs="?", default=30)
    words = parser.parse_args()
    functions: defaultdict[str, float] = defaultdict(float)
    kinds: defaultdict[str, float] = defaultdict(float)
    derived = total = 0.0
    for module, seconds in modules(words.folder):
        functions[function_of(module)] += seconds
        kinds[kind_of(module)] += seconds
        derived += seconds if DERIVED.search(module) else 0
        total += seconds
    if not functions:
        raise Unusable(f"{words.folder} has no module of a check")
    print(f"{total:8.1f} all modules, {derived:.1f} of them of derived functions")
    for kind, seconds in by_seconds(kinds):
        print(f"{seconds:8.1f} {kind}")
    print("by function")
    for name, seconds in by_seconds(functions)[: words.rows]:
        print(f"{seconds:8.1f} {name}")
    return RIGHT


def by_seconds(times: dict[str, float]) -> list[tuple[str, float]]:
    """The names with their seconds, the most first."""
    return sorted(times.items(), key=lambda item: -item[1])


if __name__ == "__main__":
    end(main)
