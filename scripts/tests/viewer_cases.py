"""What the tests of the viewer have in common: where things are, the four faults, and schedules by chance."""
from __future__ import annotations

import json
import random
import sys
from functools import lru_cache
from pathlib import Path

SCRIPTS = Path(__file__).resolve().parents[1]
TOP = SCRIPTS.parent
sys.path.insert(0, str(SCRIPTS))

import treesched_stub  # noqa: E402

from viewer.clash import Run, examine  # noqa: E402
from viewer.replays import Asker, Replay, Source, read_replay, read_source  # noqa: E402
from viewer.steps import Walk, walk  # noqa: E402

STUB = str(SCRIPTS / "tests" / "treesched_stub.py")
TREES = ["atomic", "ellen", "ellen-no-mark", "ellen-no-iflag", "nm", "nm-no-tag"]


def digits(text: str) -> list[int]:
    return [int(digit) for digit in text]


FAULTS = {
    "ellen_no_mark": digits("00000001101111111"),
    "ellen_no_iflag": digits("0000011100001111"),
    "nm_no_tag": digits("0000001101111"),
    "nm_no_tag_order": digits("00000001111110000001"),
}


def example(name: str) -> Path:
    return TOP / "examples" / f"{name}.json"


def source_of(name: str) -> Source:
    return read_source(example(name).read_bytes(), name)


class StubAsker(Asker):
    """Asks the stub without starting it."""

    def ask(self, schedule: str) -> Replay:
        return read_replay(treesched_stub.replay(self.file, schedule, ""), self.program)


def run_of(name: str, schedule: list[int]) -> Run:
    return examine(StubAsker(STUB, str(example(name)), f"{name}.json"), schedule, source_of(name))


def made(tree: str, initial: list[int], *threads: str) -> Source:
    """A program whose threads are written as in 'i5 d10 f5'."""
    words = {"i": "insert", "d": "delete", "f": "find"}
    lists = [[{"op": words[each[0]], "key": int(each[1:])} for each in thread.split()] for thread in threads]
    value = {"version": 1, "tree": tree, "initial": initial, "threads": lists}
    return read_source(json.dumps(value).encode(), "made")


@lru_cache(maxsize=None)
def by_chance(tree: str, seed: int) -> Walk:
    """A run of a program that is made by chance."""
    chance = random.Random(seed)
    keys = [5, 10, 20, 30, 45]

    def thread() -> str:
        return " ".join(f"{chance.choice('iiddf')}{chance.choice(keys)}" for _ in range(chance.randint(1, 3)))

    source = made(tree, chance.sample(keys, chance.randint(0, 3)), *[thread() for _ in range(chance.randint(2, 4))])
    program = walk(source, []).program
    state = program.start()
    steps: list[int] = []
    while len(steps) < 150:
        enabled = [each for each in range(len(source.threads)) if program.step(state, each) is not None]
        if not enabled:
            break
        steps.append(
            steps[-1] if steps and steps[-1] in enabled and chance.random() < 0.5 else chance.choice(enabled)
        )
        after = program.step(state, steps[-1])
        assert after is not None
        state = after
    return walk(source, steps)
