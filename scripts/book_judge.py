"""A judge of book files, written from docs/FORMATS.md and docs/MACHINES.md, for scripts/mutate_books.py.

It shares nothing with the program: the form of a file, the order of the refusals and their lines are judged here, and
states are stepped by scripts/place_tables.py. It is slow, and meant for small books.
"""
from __future__ import annotations

import json
import re
from dataclasses import dataclass
from typing import Any

from common import MOST_STATES as MOST_ENTRIES
from place_tables import MACHINES, Astray, reply_on
from programs import Operation

HEAD = re.compile(rb"treesched book 1 entries ([1-9][0-9]*)")
START = b"- - -"
ENTRY = re.compile(rb"(0|[1-9][0-9]*) ([0-9]) (-|[0-9]\.[0-9](?:,[0-9]\.[0-9])*)")

Name = tuple[int, int]


@dataclass(frozen=True)
class State:
    """A state of a program: the memory, the place of each thread that is in an operation, and for each operation that
    began how many operations each thread had finished then, and its reply if it has one."""

    memory: Any
    places: tuple[Any, ...]
    notes: dict[Name, tuple[int, ...]]
    replies: dict[Name, bool]
    astray: int | None = None

    def finished(self, thread: int) -> int:
        """How many operations of a thread have a reply."""
        return sum(1 for name in self.replies if name[0] == thread)


@dataclass(frozen=True)
class Line:
    """What a book says of an entry after the first."""

    parent: int
    thread: int
    order: list[Name]


class Program:
    """What a program file says, and the steps of it."""

    def __init__(self, text: bytes) -> None:
        value = json.loads(text)

        def operation(item: dict[str, Any]) -> Operation:
            after = item.get("after") if value["version"] == 2 else None
            return Operation(item["op"], item["key"], (after[0], after[1]) if after else None)

        self.machine = MACHINES[value["tree"]]
        self.initial: list[int] = value["initial"]
        self.threads = [[operation(item) for item in thread] for thread in value["threads"]]

    def start(self) -> State:
        return State(self.machine.start(self.initial), (None,) * len(self.threads), {}, {})

    def step(self, state: State, thread: int) -> State | None:
        """The state after a step of a thread, if it has one."""
        if state.astray is not None or thread >= len(self.threads):
            return None
        name = (thread, state.finished(thread))
        if name[1] == len(self.threads[thread]):
            return None
        operation = self.threads[thread][name[1]]
        notes, place = state.notes, state.places[thread]
        if place is None:
            if operation.after and state.finished(operation.after[0]) < operation.after[1]:
                return None
            notes = {**notes, name: tuple(map(state.finished, range(len(self.threads))))}
            place = self.machine.first()
        replies, astray = state.replies, None
        memory = state.memory
        try:
            memory, outcome = self.machine.act(operation.word, operation.key, place, memory)
            if isinstance(outcome, bool):
                replies, place = {**replies, name: outcome}, None
            else:
                place = outcome
        except Astray:
            astray = thread
        places = (*state.places[:thread], place, *state.places[thread + 1 :])
        return State(memory, places, notes, replies, astray)

    def form(self, state: State) -> Any:
        """Equal exactly for alike states."""
        history = (tuple(sorted(state.notes.items())), tuple(sorted(state.replies.items())))
        return (self.machine.form(state.memory, state.places), *history, state.astray)

    def is_faulty(self, state: State) -> bool:
        """Whether a thread went astray, or search order is broken."""
        return state.astray is not None or not self.machine.is_ordered(state.memory)

    def explains(self, state: State, order: list[Name]) -> bool:
        """Whether an order is a linearization of a state's history."""
        if len(set(order)) < len(order) or not state.replies.keys() <= set(order) <= state.notes.keys():
            return False
        for place, first in enumerate(order):
            if any(state.notes[first][thread] > index for thread, index in order[place + 1 :]):
                return False
        keys = frozenset(self.initial)
        for thread, index in order:
            operation = self.threads[thread][index]
            reply, keys = reply_on(operation.word, operation.key, keys)
            if state.replies.get((thread, index), reply) != reply:
                return False
        return True


def read_line(text: bytes) -> Line | None:
    """What the line of an entry after the first says, if it is one."""
    found = ENTRY.fullmatch(text)
    if not found:
        return None
    parent, thread, order = found.groups()
    names = [] if order == b"-" else [(int(name[:1]), int(name[2:])) for name in order.split(b",")]
    return Line(int(parent) if len(parent) < 8 else MOST_ENTRIES, int(thread), names)


def read_book(data: bytes) -> list[Line] | int:
    """The lines of a book's entries after the first, or the number of the first line that is not in the form."""
    texts = data.split(b"\n")
    head = HEAD.fullmatch(texts[0])
    if not head or len(head[1]) > 7 or int(head[1]) > MOST_ENTRIES or int(head[1]) != len(texts) - 2 or texts[-1]:
        return 1
    if texts[1] != START:
        return 2
    lines: list[Line] = []
    for number, text in enumerate(texts[2:-1], start=3):
        line = read_line(text)
        if line is None:
            return number
        lines.append(line)
    return lines


def replay_book(program: Program, lines: list[Line]) -> list[State] | str:
    """The states of a book's entries, or the first refusal that stands in its lines, but for C6."""
    states = [program.start()]
    for number, line in enumerate(lines, start=3):
        if line.parent >= len(states):
            return f"C2 at line {number}"
        state = program.step(states[line.parent], line.thread)
        if state is None:
            return f"C3 at line {number}"
        if program.is_faulty(state):
            return f"C4 at line {number}"
        if not program.explains(state, line.order):
            return f"C5 at line {number}"
        states.append(state)
    return states


def passing(entries: int) -> str:
    """The answer to a book that passes."""
    return f"passes with {entries} entries"


def judge(program: Program, data: bytes) -> str:
    """The right answer to a book of a program."""
    lines = read_book(data)
    if isinstance(lines, int):
        return f"C1 at line {lines}"
    states = replay_book(program, lines)
    if isinstance(states, str):
        return states
    forms = {program.form(state) for state in states}
    for number, state in enumerate(states, start=2):
        steps = (program.step(state, thread) for thread in range(len(program.threads)))
        if any(step and program.form(step) not in forms for step in steps):
            return f"C6 at line {number}"
    return passing(len(states))
