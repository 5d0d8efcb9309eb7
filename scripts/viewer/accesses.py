"""The access of a place: which word of which node it reads or exchanges, what it finds, and what it would put
there.

The accesses stand here once more beside scripts/place_tables.py, which does the steps: `Access.is_done` is
learnt by comparing words, and scripts/tests/test_viewer_steps.py holds it against the memory after each step.
"""
from __future__ import annotations

from dataclasses import dataclass
from typing import Any

from place_tables import INF0, LEFT, RIGHT, Ellen, NatMit, Value

SIDES = {LEFT: "left", RIGHT: "right"}
SUBSCRIPTS = "₀₁₂"
ARROW = "→"


def key_text(key: int) -> str:
    """A key as it is shown: the three keys above all others by the sign of infinity."""
    return f"∞{SUBSCRIPTS[key - INF0]}" if key >= INF0 else str(key)


def node_text(node: int) -> str:
    return f"n{node}"


def record_text(record: int) -> str:
    return f"r{record}"


def update_text(update: Value) -> str:
    """An update word of `ellen`."""
    return str(update[0]) if update[1] is None else f"{update[0]} {record_text(update[1])}"


def child_text(word: Any) -> str:
    """A child word of either tree."""
    return node_text(word) if isinstance(word, int) else f"({word[0]},{word[1]},{node_text(word[2])})"


@dataclass(frozen=True)
class Access:
    """One access. `kind` is read, exchange, set or do; `word` is update, left or right. Where it exchanges,
    `is_done` says whether the word found was the word wanted. `node` is none for `atomic`."""

    kind: str
    node: int | None = None
    word: str = ""
    found: str = ""
    wanted: str = ""
    put: str = ""
    is_done: bool = True

    @property
    def target(self) -> str:
        noun = "update word" if self.word == "update" else f"{self.word} child"
        return f"{node_text(self.node or 0)}’s {noun}"

    @property
    def sentence(self) -> str:
        if self.kind == "do":
            return "does the whole operation on the list of keys"
        if self.kind == "read":
            return f"reads {self.target}: {self.found}"
        if self.kind == "set":
            return f"sets the tag in {self.target}: {self.found} {ARROW} {self.put}"
        outcome = "succeeds" if self.is_done else f"fails, found {self.found}"
        return f"exchanges {self.target}, {self.wanted} {ARROW} {self.put}: {outcome}"

    @property
    def intent(self) -> str:
        """What the access is to do, before it is done."""
        if self.kind in ("do", "read"):
            return self.sentence.split(":")[0]
        if self.kind == "set":
            return f"sets the tag in {self.target}"
        return f"exchanges {self.target}, {self.wanted} {ARROW} {self.put}"

    @property
    def badge(self) -> str:
        """The access in one word, for the picture."""
        if self.kind == "read":
            return "read"
        return "changed" if self.is_done else "failed"


class Looking:
    """Words of a memory."""

    def __init__(self, machine: Ellen | NatMit, memory: Any) -> None:
        self.machine, self.memory = machine, memory

    def child(self, node: int, side: int) -> Any:
        return self.memory[0][node][side - 2]

    def read(self, node: int, side: int) -> Access:
        return Access("read", node, SIDES[side], child_text(self.child(node, side)))

    def exchange(self, node: int, side: int, wanted: Any, put: str) -> Access:
        found = self.child(node, side)
        return Access("exchange", node, SIDES[side], child_text(found), child_text(wanted), put, found == wanted)

    def side(self, node: int, key: int) -> int:
        return LEFT if key < self.memory[0][node][0] else RIGHT


class EllenLooking(Looking):
    """Accesses of `ellen` and its variants."""

    def update_exchange(self, node: int, wanted: Value, put: str) -> Access:
        found = self.memory[0][node][1]
        return Access("exchange", node, "update", update_text(found), update_text(wanted), put, found == wanted)

    def child_exchange(self, node: int, wanted: int, new: int) -> Access:
        return self.exchange(node, self.side(node, self.memory[0][new][0]), wanted, node_text(new))

    def access(self, key: int, place: Value) -> Access:
        count, record = len(self.memory[0]), len(self.memory[1])
        match place:
            case ("update", _, p):
                return Access("read", p, "update", update_text(self.memory[0][p][1]))
            case ("child", _, p, _):
                return self.read(p, self.side(p, key))
            case ("iflag", p, u, _):
                return self.update_exchange(p, u, f"IFLAG {record_text(record)}")
            case ("insonly", p, l):
                high = max(key, self.memory[0][l][0])
                return self.exchange(p, self.side(p, high), l, node_text(count + 2))
            case ("dflag", gp, gpu, *_):
                return self.update_exchange(gp, gpu, f"DFLAG {record_text(record)}")
        return self.help_access(place)

    def help_access(self, place: Value) -> Access:
        name, record, *others = place
        fields = self.memory[1][record]
        if name in ("inschild", "insclean"):
            _, p, l, new = fields
            if name == "inschild":
                return self.child_exchange(p, l, new)
            return self.update_exchange(p, ("IFLAG", record), f"CLEAN {record_text(record)}")
        _, gp, p, l, pupdate = fields
        if name == "mark":
            return self.update_exchange(p, pupdate, f"MARK {record_text(record)}")
        if name == "right":
            return self.read(p, RIGHT)
        if name == "other":
            return self.read(p, others[0])
        if name == "splice":
            return self.child_exchange(gp, p, others[0])
        return self.update_exchange(gp, ("DFLAG", record), f"CLEAN {record_text(record)}")


class NatMitLooking(Looking):
    """Accesses of `nm` and its variant."""

    def access(self, key: int, place: Value) -> Access:
        match place:
            case ("begin", _):
                return self.read(1, LEFT)
            case ("down", _, _, _, leaf, _, _):
                return self.read(leaf, self.side(leaf, key))
            case ("put", _, _, par, leaf):
                new = len(self.memory[0]) + 1
                return self.exchange(par, self.side(par, key), (0, 0, leaf), child_text((0, 0, new)))
            case ("flag", _, _, par, leaf):
                return self.exchange(par, self.side(par, key), (0, 0, leaf), child_text((1, 0, leaf)))
            case ("look" | "cleanread", _, _, par, _):
                return self.read(par, self.side(par, key))
            case ("tag", _, _, par, side, _):
                flag, _, node = self.child(par, side)
                found = child_text(self.child(par, side))
                return Access("set", par, SIDES[side], found, put=child_text((flag, 1, node)))
            case ("sibling", _, _, par, side, _):
                return self.read(par, side)
            case ("swing", anc, suc, flag, node, _):
                return self.exchange(anc, self.side(anc, key), (0, 0, suc), child_text((flag, 0, node)))
        raise ValueError(f"no access at {place!r}")


def access_of(machine: Any, key: int, place: Value, memory: Any) -> Access | None:
    """The access that an operation at a place does next; none where the table does not have it."""
    try:
        if isinstance(machine, Ellen):
            return EllenLooking(machine, memory).access(key, place)
        if isinstance(machine, NatMit):
            return NatMitLooking(machine, memory).access(key, place)
    except (LookupError, TypeError, ValueError):
        return None
    return Access("do")


NAMES = {
    "do": "Do", "update": "Update", "child": "Child", "iflag": "IFlag", "insonly": "InsOnly", "dflag": "DFlag",
    "inschild": "InsChild", "insclean": "InsClean", "mark": "Mark", "right": "Right", "other": "Other",
    "splice": "Splice", "delclean": "DelClean", "back": "Back", "begin": "Begin", "down": "Down", "put": "Put",
    "flag": "Flag", "look": "Look", "cleanread": "CleanRead", "tag": "Tag", "sibling": "Sibling", "swing": "Swing",
}  # fmt: skip


def mode_text(mode: Value) -> str:
    return "Plain" if len(mode) == 1 else f"Owner({node_text(mode[1])})"


def place_text(place: Value) -> str:
    """A place as docs/MACHINES.md writes it: its name and its locals."""
    name = NAMES[place[0]]
    match place:
        case ("do",):
            return name
        case ("update", above, p):
            return f"{name}(above {above_text(above)}, {node_text(p)})"
        case ("child", above, p, u):
            return f"{name}(above {above_text(above)}, {node_text(p)}, {update_text(u)})"
        case ("iflag", p, u, l):
            return f"{name}({node_text(p)}, {update_text(u)}, {node_text(l)})"
        case ("insonly", p, l):
            return f"{name}({node_text(p)}, {node_text(l)})"
        case ("dflag", gp, gpu, p, u, l):
            parts = [node_text(gp), update_text(gpu), node_text(p), update_text(u), node_text(l)]
            return f"{name}({', '.join(parts)})"
        case ("begin", mode):
            return f"{name}({mode_text(mode)})"
        case ("down", *nodes, tag, mode):
            return f"{name}({', '.join(map(node_text, nodes))}, tag {tag}, {mode_text(mode)})"
        case ("put" | "flag" | "look", *nodes):
            return f"{name}({', '.join(map(node_text, nodes))})"
        case ("cleanread", *nodes, mode):
            return f"{name}({', '.join(map(node_text, nodes))}, {mode_text(mode)})"
        case ("tag" | "sibling", *nodes, side, mode):
            return f"{name}({', '.join(map(node_text, nodes))}, {SIDES[side]}, {mode_text(mode)})"
        case ("swing", anc, suc, flag, node, mode):
            return f"{name}({node_text(anc)}, {node_text(suc)}, {flag}, {node_text(node)}, {mode_text(mode)})"
        case (_, record, *others, stack, base):
            shown = [record_text(record)]
            shown += [node_text(other) if place[0] == "splice" else SIDES[other] for other in others]
            shown += [f"stack {' '.join(map(record_text, stack))}"] if stack else []
            return f"{name}({', '.join([*shown, f'base {base.capitalize()}'])})"
    return name


def above_text(above: Any) -> str:
    return "none" if above is None else f"({node_text(above[0])}, {update_text(above[1])})"


def record_words(record: int, fields: Value) -> str:
    """A record with its fields."""
    if fields[0] == "ins":
        _, p, l, new = fields
        return f"Ins(p {node_text(p)}, l {node_text(l)}, new {node_text(new)})"
    _, gp, p, l, pupdate = fields
    return f"Del(gp {node_text(gp)}, p {node_text(p)}, l {node_text(l)}, pupdate {update_text(pupdate)})"
