"""Where the nodes of a tree stand at every step of a run.

Every key has a column, first for the internal nodes of that key and then for its leaves, so that from left to
right a search tree is in the order of its keys, and a node keeps its column through the whole run. A row is a
level. What the root does not reach stands in rows below the tree.
"""
from __future__ import annotations

from dataclasses import dataclass

from place_tables import Ellen, Memory, Value
from viewer.steps import Walk, children, reached

HEIGHT, ROW, MARGIN, TOP, BAND = 38, 78, 40, 22, 30
LEAF, GAP = 34, 8


@dataclass(frozen=True)
class Spot:
    """Where a node stands: its middle, its width, and whether the root reaches it."""

    x: int
    y: int
    width: int
    is_outside: bool


@dataclass(frozen=True)
class Sizes:
    """The width of internal nodes and the distance of columns."""

    inner: int
    pitch: int


def sizes_of(walked: Walk) -> Sizes:
    return Sizes(78, 28) if isinstance(walked.machine, Ellen) else Sizes(42, 23)


class Layout:
    """The spots of all steps."""

    def __init__(self, walked: Walk) -> None:
        self.walked = walked
        self.sizes = sizes_of(walked)
        self.machine = walked.machine
        memories = [state.memory for state in walked.states]
        start = memories[0]
        # leaves that the initial keys replaced before the run, which nothing names
        unseen = set(range(len(start[0]))) - set(reached(self.machine, start))
        self.inside = [reached(self.machine, memory) for memory in memories]
        self.is_inside = [set(nodes) for nodes in self.inside]
        self.outside = [
            [node for node in range(len(memory[0])) if node not in unseen and node not in inside]
            for memory, inside in zip(memories, self.is_inside)
        ]
        last = memories[-1][0]
        kinds = {self.kind(last, node) for node in range(len(last)) if node not in unseen}
        self.columns = {kind: column for column, kind in enumerate(sorted(kinds))}
        rows = [self.placed(memory, nodes, 0, {}) for memory, nodes in zip(memories, self.inside)]
        self.main_rows = 1 + max(max(found.values()) for found in rows)
        self.rows = [
            {**found, **self.placed(memory, self.from_roots(memory, nodes), self.main_rows, found)}
            for memory, nodes, found in zip(memories, self.outside, rows)
        ]
        self.all_rows = 1 + max(max(found.values()) for found in self.rows)
        self.has_outside = any(self.outside)

    @staticmethod
    def kind(cells: tuple[Value, ...], node: int) -> tuple[int, bool]:
        """The key of a node, and whether it is a leaf: by these columns are ordered."""
        return cells[node][0], len(cells[node]) == 1

    def column(self, memory: Memory, node: int) -> int:
        return self.columns[self.kind(memory[0], node)]

    def node_width(self, is_leaf: bool) -> int:
        return LEAF if is_leaf else self.sizes.inner

    def from_roots(self, memory: Memory, nodes: list[int]) -> list[int]:
        """Nodes that the root does not reach, each behind one that names it, where there is one."""
        own = set(nodes)

        def below(start: int) -> list[int]:
            met: dict[int, None] = {}
            waiting = [start]
            while waiting:
                node = waiting.pop()
                if node not in met:
                    met[node] = None
                    waiting += [child for child in reversed(children(self.machine, memory, node)) if child in own]
            return list(met)

        named = {child for node in nodes for child in children(self.machine, memory, node)}
        parts = [below(node) for node in nodes if node not in named] + [below(node) for node in nodes]
        parts.sort(key=lambda part: (part[0] in named, -len(part)))
        return list(dict.fromkeys(node for part in parts for node in part))

    def placed(self, memory: Memory, nodes: list[int], base: int, taken: dict[int, int]) -> dict[int, int]:
        """The row of each node: below its parent, and so far down that nothing stands there."""
        rows: dict[int, int] = {}
        wanted: dict[int, int] = {}
        lines: dict[int, list[tuple[float, float]]] = {}
        own = set(nodes)
        for node in nodes:
            column = self.column(memory, node) * self.sizes.pitch
            half = self.node_width(len(memory[0][node]) == 1) / 2
            row = wanted.get(node, base)
            while any(
                column - half < right + GAP and left - GAP < column + half for left, right in lines.get(row, [])
            ):
                row += 1
            lines.setdefault(row, []).append((column - half, column + half))
            rows[node] = row
            for child in children(self.machine, memory, node):
                if child in own and child not in rows and child not in taken:
                    wanted[child] = row + 1
        return rows

    @property
    def width(self) -> int:
        return 2 * MARGIN + self.sizes.pitch * (len(self.columns) - 1) + 28

    @property
    def height(self) -> int:
        band = BAND if self.has_outside else 0
        return TOP + ROW * (self.all_rows - 1) + HEIGHT + band + 24

    @property
    def band_top(self) -> int:
        """Where the rows of what the root does not reach begin."""
        return TOP + ROW * self.main_rows - (ROW - HEIGHT) + 16

    def spot(self, count: int, node: int) -> Spot:
        memory = self.walked.states[count].memory
        row = self.rows[count][node]
        is_outside = row >= self.main_rows and node not in self.is_inside[count]
        y = TOP + HEIGHT // 2 + ROW * row + (BAND if is_outside else 0)
        x = MARGIN + self.sizes.pitch * self.column(memory, node)
        return Spot(x, y, self.node_width(len(memory[0][node]) == 1), is_outside)

    def spots(self, count: int) -> dict[int, Spot]:
        return {node: self.spot(count, node) for node in self.rows[count]}
