"""Why no order explains the replies: the fewest operations that contradict each other, in words."""
from __future__ import annotations

from dataclasses import dataclass, replace
from itertools import combinations
from pathlib import Path

from common import Unusable
from viewer.replays import Asker, Operation, Source, trace


def is_explained(operations: list[Operation], initial: frozenset[int]) -> bool:
    """Whether some order of the operations gives every known reply and keeps 'ended before'. It holds every
    operation whose reply is known; any other may stand in it or not."""
    refuted: set[tuple[tuple[Operation, ...], frozenset[int]]] = set()

    def extends(rest: tuple[Operation, ...], keys: frozenset[int]) -> bool:
        if all(operation.reply is None for operation in rest):
            return True
        if (rest, keys) in refuted:
            return False
        for operation in rest:
            if any(other.reply is not None and other.ended_before(operation) for other in rest):
                continue
            reply = (operation.key in keys) != (operation.word == "insert")
            if operation.reply not in (None, reply):
                continue
            # one that ended before this began can't come any more, and need not: its reply is not known
            later = tuple(other for other in rest if other != operation and not other.ended_before(operation))
            if extends(later, keys ^ {operation.key} if reply and operation.word != "find" else keys):
                return True
        refuted.add((rest, keys))
        return False

    return extends(tuple(operations), initial)


def only_known(operations: list[Operation], chosen: list[Operation]) -> list[Operation]:
    """The operations, but of those not chosen the reply is not known: each keeps its steps, and may have taken
    effect."""
    return [operation if operation in chosen else replace(operation, reply=None) for operation in operations]


def smallest_clash(operations: list[Operation], initial: frozenset[int]) -> list[Operation]:
    """The fewest operations, the first such in the order of lists, whose replies alone no order explains. As
    what operations on one key reply does not depend on other keys, all of them have one key. A pending one has
    no reply and is never among them."""
    finished = [operation for operation in operations if operation.reply is not None]
    for size in range(1, len(finished) + 1):
        for combination in combinations(finished, size):
            chosen = list(combination)
            if not is_explained(only_known(operations, chosen), initial):
                return chosen
    raise Unusable("the program found no order of the operations, but there is one")


def reply_clause(operation: Operation, clash: list[Operation]) -> str:
    """The reply, and the last operations of the clash that ended before this one began; the others ended before
    one of those began."""
    before = [other for other in clash if other.ended_before(operation)]
    last = [other for other in before if not any(other.ended_before(later) for later in before)]
    after = f", and began after {' and '.join(f'`{other.name}`' for other in last)} ended" if last else ""
    return f"`{operation.text}` replied {str(operation.reply).lower()}{after}"


def reasons(clash: list[Operation], operations: list[Operation], source: Source) -> list[str]:
    """What else the contradiction rests on: facts without which an order would be found, and what plays no part
    in it."""
    key, known = clash[0].key, only_known(operations, clash)
    matters = is_explained(known, source.initial ^ {key})
    facts = [f"{key} is {'an' if key in source.initial else 'no'} initial key"] if matters else []
    for word in ("insert", "delete"):
        # an operation that is imagined, at any time: where it would help, that there is none is a reason
        would_help = is_explained([*known, Operation("", word, key, None)], source.initial)
        if would_help and not any((word, key) in thread for thread in source.threads):
            facts.append(f"no operation of this program {word}s {key}")
        elif would_help and not any((other.word, other.key) == (word, key) for other in operations):
            facts.append(f"no operation that began {word}s {key}")
    others = [
        f"`{other.text}`"
        for other in operations
        if other.key == key and other.word != "find" and other not in clash
    ]
    if others:
        facts.append(f"whether {' and '.join(others)} took effect or not makes no difference")
    return facts


def clash_words(clash: list[Operation], operations: list[Operation], source: Source) -> str:
    in_time = sorted(clash, key=lambda operation: operation.first)
    clauses = [reply_clause(operation, clash) for operation in in_time] + reasons(clash, operations, source)
    return f"No order explains {'this reply' if len(clash) == 1 else 'these replies'}: {'; '.join(clauses)}."


@dataclass(frozen=True)
class Run:
    """A schedule with its operations and its finding, as lanes show it."""

    title: str
    schedule: list[int]
    lanes: int
    operations: list[Operation]
    order: list[str]
    clash: list[Operation]
    finding: list[str]
    fault: str | None = None

    def end(self, operation: Operation) -> int:
        """The last step of the bar: a pending operation is under way to the end of the schedule."""
        return len(self.schedule) if operation.last is None else operation.last

    def in_lane(self, thread: int) -> list[Operation]:
        return [operation for operation in self.operations if operation.thread == thread]


def examine(asker: Asker, steps: list[int], source: Source) -> Run:
    """The run with its finding in words."""
    operations, whole = trace(asker, steps)
    clash: list[Operation] = []
    finding = ["order: " + (" ".join(whole.order or []) or "-"), "no fault"]
    if whole.fault == "history":
        clash = smallest_clash(operations, source.initial)
        finding = ["fault history", clash_words(clash, operations, source)]
    elif whole.fault == "order":
        finding = ["fault order", "Search order is broken in the memory: what the root reaches is no search tree."]
    elif whole.fault is not None:
        finding = [f"fault {whole.fault}", f"Thread {steps[-1]} met what the machine's table does not have."]
    name = Path(asker.name).name
    name = name if name.isprintable() else ascii(name)
    title = f"{name}, {len(steps)} step{'' if len(steps) == 1 else 's'}"
    return Run(title, steps, len(source.threads), operations, whole.order or [], clash, finding, whole.fault)
