"""A schedule run by the place tables in Python, and compared with what the program says of it."""
from __future__ import annotations

from dataclasses import dataclass, replace
from functools import lru_cache
from typing import Any

from book_judge import Program, State
from common import Unusable
from place_tables import Astray, Atomic, Node, Tree
from viewer.accesses import Access, access_of
from viewer.clash import is_explained
from viewer.replays import Asker, Operation, Source

Name = tuple[int, int]


@dataclass(frozen=True)
class Step:
    """One step of a thread: its operation, the place it stood at, the access, and the state after it. `goes` is
    the next place, the reply, or none where the thread went astray."""

    number: int
    thread: int
    operation: Operation
    begins: bool
    place: Any
    access: Access | None
    goes: Any
    state: State


@dataclass(frozen=True)
class Walk:
    """All states of a schedule, from the start on, and the steps between them."""

    program: Program
    source: Source
    states: list[State]
    steps: list[Step]

    @property
    def machine(self) -> Any:
        return self.program.machine

    @property
    def is_tree(self) -> bool:
        return isinstance(self.program.machine, Tree)


def walk(source: Source, schedule: list[int]) -> Walk:
    """Runs a schedule by the place tables."""
    program = Program(source.text)
    state = program.start()
    states, steps = [state], []
    for number, thread in enumerate(schedule, start=1):
        after = program.step(state, thread)
        if after is None:
            raise Unusable(f"by the place tables in Python, thread {thread} has no step {number}")
        index = state.finished(thread)
        word, key = source.threads[thread][index]
        place = state.places[thread]
        begins = place is None
        place = program.machine.first() if begins else place
        reply = after.replies.get((thread, index))
        goes = None if after.astray is not None else after.places[thread] if reply is None else reply
        operation = Operation(f"{thread}.{index}", word, key, reply)
        access = None if after.astray is not None else access_of(program.machine, key, place, state.memory)
        steps.append(Step(number, thread, operation, begins, place, access, goes, after))
        states.append(after)
        state = after
    return Walk(program, source, states, steps)


def operations_at(walked: Walk, count: int) -> list[Operation]:
    """The operations after so many steps, by thread and index, with where they began and ended."""
    found: dict[str, Operation] = {}
    for step in walked.steps[:count]:
        known = found.setdefault(step.operation.name, replace(step.operation, first=step.number, reply=None))
        if step.operation.reply is not None:
            found[known.name] = replace(known, reply=step.operation.reply, last=step.number)
    return [found[name] for name in sorted(found)]


def verdict(walked: Walk, count: int) -> str | None:
    """The fault of a state, or none."""
    state = walked.states[count]
    if state.astray is not None:
        return "astray"
    if not walked.machine.is_ordered(state.memory):
        return "order"
    return None if is_explained(operations_at(walked, count), walked.source.initial) else "history"


def compare(walked: Walk, asker: Asker) -> None:
    """Refuses a run whose replies or verdict are others than those of the program, after any of its steps."""
    schedule = [step.thread for step in walked.steps]
    for count in range(len(schedule) + 1):
        answer = asker.replay(schedule[:count])
        shown = [(each.name, each.word, each.key, each.reply) for each in operations_at(walked, count)]
        if shown != [(each.name, each.word, each.key, each.reply) for each in answer.listed]:
            raise Unusable(
                f"the place tables in Python and {asker.program} differ in the replies after {count} steps"
            )
        fault = verdict(walked, count)
        if fault != answer.fault:
            words = f"{fault or 'no fault'} and {answer.fault or 'no fault'}"
            raise Unusable(f"the place tables in Python and {asker.program} differ after {count} steps: {words}")
        order = [(int(name[0]), int(name[2])) for name in answer.order or []]
        if fault is None and not walked.program.explains(walked.states[count], order):
            raise Unusable(f"after {count} steps the order of {asker.program} is none by the place tables in Python")


def finds(machine: Any, memory: Any, key: int) -> bool:
    """The reply of a find that runs alone. One that goes astray or in a circle finds nothing."""
    if isinstance(machine, Atomic):
        return key in memory
    place = machine.first()
    try:
        for _ in range(2 * len(memory[0]) + 2):
            memory, place = machine.act("find", key, place, memory)
            if isinstance(place, bool):
                return place
    except Astray:
        pass
    return False


@dataclass(frozen=True)
class KeyState:
    """A key after a step: whether a find that begins then and runs alone finds it, and which replies of it some
    order would explain."""

    key: int
    is_found: bool
    may_be: bool
    may_lack: bool

    @property
    def fault(self) -> str:
        """What is wrong with the key: lost, extra, or nothing."""
        if self.is_found:
            return "extra" if self.may_lack and not self.may_be else ""
        return "lost" if self.may_be and not self.may_lack else ""


class KeyJudge:
    """What a find of each key would reply after a step, and what it would have to reply."""

    def __init__(self, walked: Walk) -> None:
        self.walked = walked
        self.due = lru_cache(maxsize=None)(self.due_anew)

    def due_anew(self, operations: tuple[Operation, ...], key: int) -> tuple[bool, bool]:
        """Whether a find that begins after all these operations began or ended may reply true, and false. As
        replies on one key do not depend on other keys, the operations on this key are enough."""
        initial = self.walked.source.initial
        late = 1 + max((each.last or each.first for each in operations), default=0)
        on_key = [each for each in operations if each.key == key]
        readers = (Operation("", "find", key, reply, late, late) for reply in (True, False))
        may_be, may_lack = (is_explained([*on_key, reader], initial) for reader in readers)
        return may_be, may_lack

    def at(self, count: int) -> list[KeyState]:
        operations = tuple(operations_at(self.walked, count))
        memory = self.walked.states[count].memory
        return [
            KeyState(key, finds(self.walked.machine, memory, key), *self.due(operations, key))
            for key in self.walked.source.keys
        ]


FAULTS = {"lost": "is lost", "extra": "should be gone"}


def key_states(walked: Walk) -> list[list[KeyState]]:
    """The keys at every step. Where no order explains what was replied before, what held last goes on to hold."""
    judge = KeyJudge(walked)
    all_states = [judge.at(0)]
    for count in range(1, len(walked.states)):
        all_states.append(
            [
                now if now.may_be or now.may_lack else replace(now, may_be=before.may_be, may_lack=before.may_lack)
                for now, before in zip(judge.at(count), all_states[-1])
            ]
        )
    return all_states


@dataclass(frozen=True)
class Mark:
    """A step that the slider marks, and why."""

    step: int
    text: str


def marks(walked: Walk, keys: list[list[KeyState]]) -> list[Mark]:
    """The first steps after which a key is lost or too many, search order is broken, a thread is astray, and no
    order explains the replies."""
    first: dict[str, int] = {}
    for count in range(len(walked.states)):
        for each in keys[count]:
            if each.fault:
                first.setdefault(f"key {each.key} {FAULTS[each.fault]}", count)
        fault = verdict(walked, count)
        if fault:
            names = {"order": "search order breaks", "history": "no order explains the replies"}
            first.setdefault(names.get(fault, "a thread is astray"), count)
    return sorted((Mark(step, text) for text, step in first.items()), key=lambda mark: mark.step)


def node_references(value: Any) -> list[int]:
    """The nodes that a value names."""
    if isinstance(value, Node):
        return [int(value)]
    return [node for part in value for node in node_references(part)] if isinstance(value, tuple) else []


def children(machine: Any, memory: Any, node: int) -> list[int]:
    cells = memory[0][node]
    return [] if len(cells) == 1 else [int(machine.child_of(word)) for word in cells[-2:]]


def reached(machine: Any, memory: Any) -> list[int]:
    """The nodes that the root reaches, in the order of a walk from it."""
    met: dict[int, None] = {}
    waiting = [0]
    while waiting:
        node = waiting.pop()
        if node not in met:
            met[node] = None
            waiting += reversed(children(machine, memory, node))
    return list(met)
