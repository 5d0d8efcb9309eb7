"""For a schedule with a fault, one without: it begins alike for as long as can be, then another thread moves.

After each beginning two ways to go on are tried, so that a longer one may have been overlooked.
"""
from __future__ import annotations

from collections.abc import Iterator

from common import MOST_STEPS, Unusable
from viewer.replays import Source
from viewer.steps import Walk, key_states, marks, verdict, walk


def continued(walked: Walk, cut: int, other: int, rest: list[int]) -> list[int]:
    """The schedule that after so many steps goes on with another thread, then with these, each where it has a
    step, and then with the threads in turn until all have ended."""
    program, state = walked.program, walked.states[cut]
    steps = [step.thread for step in walked.steps[:cut]]
    for thread in [other, *rest]:
        after = program.step(state, thread)
        if after is not None and len(steps) < MOST_STEPS:
            state = after
            steps.append(thread)
    for thread in range(len(program.threads)):
        after = program.step(state, thread)
        while after is not None and len(steps) < MOST_STEPS:
            state = after
            steps.append(thread)
            after = program.step(state, thread)
    return steps


def continuations(walked: Walk, cut: int, other: int) -> Iterator[list[int]]:
    """How it may go on: the other thread alone first, or one step of it and then what was left."""
    yield continued(walked, cut, other, [other] * MOST_STEPS)
    yield continued(walked, cut, other, [step.thread for step in walked.steps[cut:]])


def nearest(source: Source, schedule: list[int]) -> list[int]:
    walked = walk(source, schedule)
    if verdict(walked, len(schedule)) is None:
        raise Unusable("the schedule has no fault, so there is no nearest schedule without one")
    second: list[int] | None = None
    for cut in range(len(schedule) - 1, -1, -1):
        for other in range(len(source.threads)):
            if other == schedule[cut] or walked.program.step(walked.states[cut], other) is None:
                continue
            for candidate in continuations(walked, cut, other):
                found = walk(source, candidate)
                if any(verdict(found, count) for count in range(cut, len(candidate) + 1)):
                    continue
                if not marks(found, key_states(found)):
                    return candidate
                # no operation noticed it, but the tree lost a key: taken only where there is nothing better
                second = second or candidate
    if second is None:
        raise Unusable("no schedule without a fault was found: give one")
    return second
