"""The machines of docs/MACHINES.md in Python, for judges that share nothing with the program.

A machine has a `start` memory for the initial keys, the `first` place of each operation, and `act`, which does one
access: it answers the memory after it and where the operation goes, which is a place, or its reply. `Astray` is raised
where the access is one that the table does not have. Memories and places are nested tuples, in which `Node` and
`Record` are numbers of nodes and records: by `form`, memories with places that differ in nothing but these numbers
are equal.
"""
from __future__ import annotations

from dataclasses import dataclass
from typing import Any

LEFT, RIGHT = 0, 1
INF0, INF1, INF2 = 100, 101, 102
NO_KEY_ABOVE = 103

Value = tuple[Any, ...]
Memory = tuple[tuple[Value, ...], tuple[Value, ...]]


class Node(int):
    """The number of a node."""


class Record(int):
    """The number of a record."""


class Astray(Exception):
    """An access that the place table does not have."""


def reply_on(word: str, key: int, keys: frozenset[int]) -> tuple[bool, frozenset[int]]:
    """The reply of an operation on a set of keys, and the keys after it."""
    if word == "find":
        return key in keys, keys
    if word == "insert":
        return key not in keys, keys | {key}
    return key in keys, keys - {key}


def with_item(items: tuple[Value, ...], place: int, item: Value) -> tuple[Value, ...]:
    return (*items[:place], item, *items[place + 1 :])


@dataclass(frozen=True)
class Atomic:
    """The machine `atomic`, whose memory is the set of keys."""

    def start(self, initial: list[int]) -> Any:
        return frozenset(initial)

    def first(self) -> Value:
        return ("do",)

    def act(self, word: str, key: int, place: Value, memory: Any) -> tuple[Any, Value | bool]:
        reply, after = reply_on(word, key, memory)
        return after, reply

    def is_ordered(self, memory: Any) -> bool:
        return True

    def form(self, memory: Any, places: Value) -> Value:
        return (memory, places)


class Tree:
    """What both trees have in common. A node is `(key,)`, a leaf, or `(key, .., left, right)`; `child_of` reads a
    child word."""

    roots: list[Node]

    def child_of(self, word: Any) -> Node:
        raise NotImplementedError

    def key(self, memory: Memory, node: Node) -> int:
        key: int = memory[0][node][0]
        return key

    def is_leaf(self, memory: Memory, node: Node) -> bool:
        return len(memory[0][node]) == 1

    def side(self, memory: Memory, node: Node, key: int) -> int:
        return LEFT if key < self.key(memory, node) else RIGHT

    def word(self, memory: Memory, node: Node, side: int) -> Any:
        """A child word."""
        if self.is_leaf(memory, node):
            raise Astray
        return memory[0][node][side - 2]

    def with_word(self, memory: Memory, node: Node, side: int, word: Any) -> Memory:
        cells = list(memory[0][node])
        cells[side - 2] = word
        return with_item(memory[0], node, tuple(cells)), memory[1]

    def is_ordered(self, memory: Memory) -> bool:
        """Whether node 0 is in order between 0 and 103, on paths that end."""

        def between(node: Node, low: int, high: int, levels: int) -> bool:
            key = self.key(memory, node)
            if self.is_leaf(memory, node):
                return low <= key < high
            left, right = (self.child_of(self.word(memory, node, side)) for side in (LEFT, RIGHT))
            if levels == 0 or not between(left, low, min(key, high), levels - 1):
                return False
            return between(right, max(key, low), high, levels - 1)

        return between(Node(0), 0, NO_KEY_ABOVE, len(memory[0]))

    def form(self, memory: Memory, places: Value) -> Value:
        """The memory as it is met from the roots and the places, with numbers in the order in which they are met."""
        met: list[Node | Record] = []
        numbers: dict[type, dict[int, int]] = {Node: {}, Record: {}}

        def renamed(value: Any) -> Any:
            kind = type(value)
            if kind is tuple:
                return tuple([renamed(part) for part in value])
            if kind not in numbers:
                return value
            if value not in numbers[kind]:
                numbers[kind][value] = len(met)
                met.append(value)
            return numbers[kind][value]

        held = renamed((*self.roots, *places))
        cells: list[Any] = []
        while len(cells) < len(met):
            reference = met[len(cells)]
            cells.append(renamed(memory[0 if isinstance(reference, Node) else 1][reference]))
        return (held, tuple(cells))


AGAIN: Value = ("update", None, Node(0))
CLEAN: Value = ("CLEAN", None)


@dataclass(frozen=True)
class Ellen(Tree):
    """Ellen's machine. Update words are (state, record); `help_` places end with the stack and the base."""

    mark: bool = True
    iflag: bool = True
    roots = [Node(0)]

    def child_of(self, word: Any) -> Node:
        node: Node = word
        return node

    def start(self, initial: list[int]) -> Memory:
        memory: Memory = (((INF2, CLEAN, Node(1), Node(2)), (INF1,), (INF2,)), ())
        for key in initial:
            node = Node(0)
            while not self.is_leaf(memory, node):
                parent, node = node, self.word(memory, node, self.side(memory, node, key))
            memory, new = self.with_new(memory, key, node)
            memory = self.with_word(memory, parent, self.side(memory, parent, key), new)
        return memory

    def first(self) -> Value:
        return AGAIN

    def with_new(self, memory: Memory, key: int, leaf: Node) -> tuple[Memory, Node]:
        """The memory with a new internal node for a key at a leaf."""
        count, other = len(memory[0]), self.key(memory, leaf)
        children = (Node(count), Node(count + 1)) if key < other else (Node(count + 1), Node(count))
        return ((*memory[0], (key,), (other,), (max(key, other), CLEAN, *children)), memory[1]), Node(count + 2)

    def update(self, memory: Memory, node: Node) -> Value:
        if self.is_leaf(memory, node):
            raise Astray
        update: Value = memory[0][node][1]
        return update

    def exchanged(self, memory: Memory, node: Node, old: Value, new: Value) -> tuple[Memory, Value]:
        """An exchange of an update word: the memory after it, and the word found."""
        found = self.update(memory, node)
        if found != old:
            return memory, found
        cells = memory[0][node]
        return (with_item(memory[0], node, (cells[0], new, *cells[2:])), memory[1]), found

    def child_exchanged(self, memory: Memory, node: Node, old: Node, new: Node) -> tuple[Memory, bool]:
        """A child exchange: the memory after it, and whether it succeeded."""
        side = LEFT if self.key(memory, new) < self.key(memory, node) else RIGHT
        if self.word(memory, node, side) != old:
            return memory, False
        return self.with_word(memory, node, side, new), True

    def act(self, word: str, key: int, place: Value, memory: Memory) -> tuple[Memory, Value | bool]:
        match place:
            case ("update", above, p):
                return memory, ("child", above, p, self.update(memory, p))
            case ("child", above, p, u):
                c = self.word(memory, p, self.side(memory, p, key))
                if not self.is_leaf(memory, c):
                    return memory, ("update", (p, u), c)
                return memory, self.decide(word, key, memory, above, p, u, c)
            case ("iflag", p, u, l):
                grown, new = self.with_new(memory, key, l)
                record = Record(len(memory[1]))
                after, found = self.exchanged((grown[0], (*memory[1], ("ins", p, l, new))), p, u, ("IFLAG", record))
                if found != u:
                    return memory, self.help(found, (), "again")
                return after, ("inschild", record, (), "insert")
            case ("insonly", p, l):
                grown, new = self.with_new(memory, key, l)
                after, is_done = self.child_exchanged(grown, p, l, new)
                if not is_done:
                    return memory, AGAIN
                return after, True
            case ("dflag", gp, gpu, p, u, l):
                record = Record(len(memory[1]))
                grown = (memory[0], (*memory[1], ("del", gp, p, l, u)))
                after, found = self.exchanged(grown, gp, gpu, ("DFLAG", record))
                if found != gpu:
                    return memory, self.help(found, (), "again")
                return after, self.marking(record, (), "delete")
        return self.act_help(place, memory)

    def decide(self, word: str, key: int, memory: Memory, above: Any, p: Node, u: Value, l: Node) -> Value | bool:
        is_there = self.key(memory, l) == key
        if word == "find" or is_there == (word == "insert"):
            return word == "find" and is_there
        if word == "insert":
            if u[0] != "CLEAN":
                return self.help(u, (), "again")
            return ("iflag", p, u, l) if self.iflag else ("insonly", p, l)
        if above is None:
            raise Astray
        for update in (above[1], u):
            if update[0] != "CLEAN":
                return self.help(update, (), "again")
        return ("dflag", *above, p, u, l)

    def marking(self, record: Record, stack: Value, base: str) -> Value:
        return ("mark" if self.mark else "right", record, stack, base)

    def help(self, update: Value, stack: Value, base: str) -> Value | bool:
        match update:
            case ("IFLAG", record):
                return ("inschild", record, stack, base)
            case ("DFLAG", record):
                return self.marking(record, stack, base)
            case ("MARK", record):
                return ("right", record, stack, base)
        return self.returned(True, stack, base)

    def returned(self, is_done: bool, stack: Value, base: str) -> Value | bool:
        if stack:
            return ("back", stack[-1], stack[:-1], base)
        return True if base == "insert" or base == "delete" and is_done else AGAIN

    def act_help(self, place: Value, memory: Memory) -> tuple[Memory, Value | bool]:
        name, record, *others, stack, base = place
        fields = memory[1][record]
        if fields[0] != ("ins" if name in ("inschild", "insclean") else "del"):
            raise Astray
        match name, fields:
            case "inschild", (_, p, l, new):
                return self.child_exchanged(memory, p, l, new)[0], ("insclean", record, stack, base)
            case "insclean", (_, p, _, _):
                after, _ = self.exchanged(memory, p, ("IFLAG", record), ("CLEAN", record))
                return after, self.returned(True, stack, base)
            case "mark", (_, _, p, _, pupdate):
                after, found = self.exchanged(memory, p, pupdate, ("MARK", record))
                is_marked = found in (pupdate, ("MARK", record))
                return after, ("right", record, stack, base) if is_marked else self.help(found, (*stack, record), base)
            case "right", (_, _, p, l, _):
                return memory, ("other", record, LEFT if self.word(memory, p, RIGHT) == l else RIGHT, stack, base)
            case "other", (_, _, p, _, _):
                return memory, ("splice", record, self.word(memory, p, others[0]), stack, base)
            case "splice", (_, gp, p, _, _):
                return self.child_exchanged(memory, gp, p, others[0])[0], ("delclean", record, stack, base)
            case _, (_, gp, _, _, _):
                after, _ = self.exchanged(memory, gp, ("DFLAG", record), ("CLEAN", record))
                return after, self.returned(name == "delclean", stack, base)
        raise Astray


PLAIN: Value = ("plain",)


@dataclass(frozen=True)
class NatMit(Tree):
    """Natarajan and Mittal's machine. Child words are (flag, tag, node)."""

    tag: bool = True
    roots = [Node(0), Node(1)]

    def child_of(self, word: Any) -> Node:
        node: Node = word[2]
        return node

    def start(self, initial: list[int]) -> Memory:
        def internal(key: int, left: int, right: int) -> Value:
            return (key, (0, 0, Node(left)), (0, 0, Node(right)))

        memory: Memory = ((internal(INF2, 1, 2), internal(INF1, 3, 4), (INF2,), (INF0,), (INF1,)), ())
        for key in initial:
            node = Node(0)
            while not self.is_leaf(memory, node):
                parent, node = node, self.child_of(self.own_word(memory, node, key))
            memory, new = self.with_new(memory, key, node)
            memory = self.with_word(memory, parent, self.side(memory, parent, key), (0, 0, new))
        return memory

    def first(self) -> Value:
        return ("begin", PLAIN)

    def with_new(self, memory: Memory, key: int, leaf: Node) -> tuple[Memory, Node]:
        """The memory with a new internal node for a key at a leaf."""
        count, other = len(memory[0]), self.key(memory, leaf)
        new, old = (0, 0, Node(count)), (0, 0, leaf)
        internal = (max(key, other), *((new, old) if key < other else (old, new)))
        return ((*memory[0], (key,), internal), memory[1]), Node(count + 1)

    def own_word(self, memory: Memory, node: Node, key: int) -> Value:
        """The child word of a node on a key's side."""
        word: Value = self.word(memory, node, self.side(memory, node, key))
        return word

    def exchanged(
        self, memory: Memory, grown: Memory, node: Node, key: int, old: Value, new: Value
    ) -> tuple[Memory, bool]:
        """An exchange of the word of a node, in the grown memory if it succeeds."""
        side = self.side(memory, node, key)
        if self.word(memory, node, side) != old:
            return memory, False
        return self.with_word(grown, node, side, new), True

    def act(self, word: str, key: int, place: Value, memory: Memory) -> tuple[Memory, Value | bool]:
        match place:
            case ("begin", mode):
                found = self.word(memory, Node(1), LEFT)
                return memory, self.arrived(word, key, memory, Node(0), Node(1), Node(1), found[2], found[1], mode)
            case ("down", anc, suc, par, leaf, tag, mode):
                found = self.own_word(memory, leaf, key)
                anc, suc = (anc, suc) if tag else (par, leaf)
                return memory, self.arrived(word, key, memory, anc, suc, leaf, found[2], found[1], mode)
            case ("put", anc, suc, par, leaf):
                grown, new = self.with_new(memory, key, leaf)
                after, is_done = self.exchanged(memory, grown, par, key, (0, 0, leaf), (0, 0, new))
                return after, is_done or ("look", anc, suc, par, leaf)
            case ("flag", anc, suc, par, leaf):
                after, is_done = self.exchanged(memory, memory, par, key, (0, 0, leaf), (1, 0, leaf))
                if not is_done:
                    return after, ("look", anc, suc, par, leaf)
                return after, ("cleanread", anc, suc, par, ("owner", leaf))
            case ("look", anc, suc, par, leaf):
                flag, tag, node = self.own_word(memory, par, key)
                is_under_way = node == leaf and (flag or tag)
                return memory, ("cleanread", anc, suc, par, PLAIN) if is_under_way else ("begin", PLAIN)
            case ("cleanread", anc, suc, par, mode):
                is_flagged, side = self.own_word(memory, par, key)[0], self.side(memory, par, key)
                other = 1 - side if is_flagged else side
                return memory, ("tag" if self.tag else "sibling", anc, suc, par, other, mode)
            case ("tag", anc, suc, par, side, mode):
                flag, _, node = self.word(memory, par, side)
                return self.with_word(memory, par, side, (flag, 1, node)), ("sibling", anc, suc, par, side, mode)
            case ("sibling", anc, suc, par, side, mode):
                flag, _, node = self.word(memory, par, side)
                return memory, ("swing", anc, suc, flag, node, mode)
            case ("swing", anc, suc, flag, node, mode):
                after, is_done = self.exchanged(memory, memory, anc, key, (0, 0, suc), (flag, 0, node))
                return after, True if is_done and mode != PLAIN else ("begin", mode)
        raise Astray

    def arrived(
        self, word: str, key: int, memory: Memory, anc: Node, suc: Node, par: Node, leaf: Node, tag: int, mode: Value
    ) -> Value | bool:
        if not self.is_leaf(memory, leaf):
            return ("down", anc, suc, par, leaf, tag, mode)
        if mode != PLAIN:
            return True if leaf != mode[1] else ("cleanread", anc, suc, par, mode)
        is_there = self.key(memory, leaf) == key
        if word == "find" or is_there == (word == "insert"):
            return word == "find" and is_there
        return ("put" if word == "insert" else "flag", anc, suc, par, leaf)


MACHINES: dict[str, Atomic | Ellen | NatMit] = {
    "atomic": Atomic(),
    "ellen": Ellen(),
    "ellen-no-mark": Ellen(mark=False),
    "ellen-no-iflag": Ellen(iflag=False),
    "nm": NatMit(),
    "nm-no-tag": NatMit(tag=False),
}
