#!/usr/bin/env python3
"""Replays as treesched does, by the place tables in Python, for tests that have no program to call.

The variable STUB changes what it does: `reply` turns every reply, `verdict` turns the verdict, `chatter` writes
a line of progress first, `nonsense` prints what is no replay, `refuse LINE` refuses with that line and status 3,
and `die` ends it by a signal.
"""
from __future__ import annotations

import itertools
import os
import signal
import sys
from pathlib import Path

sys.path.insert(0, str(Path(__file__).resolve().parents[1]))

from common import Unusable  # noqa: E402
from viewer.replays import read_schedule, read_source  # noqa: E402
from viewer.steps import operations_at, verdict, walk  # noqa: E402


def replay(file: str, schedule: str, mood: str) -> str:
    source = read_source(Path(file).read_bytes(), file)
    walked = walk(source, read_schedule(schedule))
    count = len(walked.steps)
    operations = operations_at(walked, count)
    lines = []
    for each in operations:
        reply = "pending" if each.reply is None else str(each.reply != (mood == "reply")).lower()
        lines.append(f"{each.text} {reply}")
    fault = verdict(walked, count)
    if mood == "verdict":
        fault = None if fault else "order"
    if fault:
        return "\n".join([*lines, f"fault {fault}", ""])
    names = [(int(each.name[0]), int(each.name[2])) for each in operations]
    orders = itertools.chain.from_iterable(
        itertools.permutations(names, size) for size in range(len(names), -1, -1)
    )
    order = next((each for each in orders if walked.program.explains(walked.states[count], list(each))), ())
    shown = " ".join(f"{thread}.{index}" for thread, index in order) or "-"
    return "\n".join([*lines, f"order {shown}", "no fault", ""])


def main() -> int:
    mood = os.environ.get("STUB", "")
    if mood == "die":
        os.kill(os.getpid(), signal.SIGKILL)
    if mood == "nonsense":
        print("nothing that is known")
        return 0
    if mood.startswith("refuse "):
        print(f"treesched: {mood[7:]}", file=sys.stderr)
        return 3
    if mood == "chatter":
        print("treesched: crate 1 of 1: proving", file=sys.stderr)
    try:
        text = replay(sys.argv[2], sys.argv[4], mood)
    except Unusable:
        print("treesched: step 1: thread 9 has no step", file=sys.stderr)
        return 4
    sys.stdout.write(text)
    return 1 if "\nfault " in text else 0


if __name__ == "__main__":
    sys.exit(main())
