"""The picture of the memory after a step, as parts of an SVG. Each part has a name by which the page finds it
again in the next step: a node that moves and a word that changes are then seen to do so."""
from __future__ import annotations

from dataclasses import dataclass
from html import escape
from typing import Any

from place_tables import Atomic, Ellen, NatMit
from viewer.accesses import access_of, key_text, node_text, update_text
from viewer.layout import HEIGHT, Layout, Spot
from viewer.steps import KeyState, Step, Walk

LETTER = 7.3


@dataclass(frozen=True)
class Part:
    """An element of the picture with its name."""

    name: str
    text: str


def chip(name: str, kind: str, x: float, y: float, text: str) -> Part:
    """A word on a plate."""
    width = round(LETTER * len(text) + 10)
    return Part(
        name,
        f'<g data-k="{name}" class="chip {kind}" transform="translate({round(x)},{round(y)})">'
        f'<rect x="{-width / 2:g}" y="-9" width="{width}" height="18" rx="5"/>'
        f'<text y="4">{escape(text)}</text></g>',
    )


def along(edge: tuple[int, int, int, int], share: float) -> tuple[float, float]:
    x1, y1, x2, y2 = edge
    return x1 + (x2 - x1) * share, y1 + (y2 - y1) * share


class TreePicture:
    """The pictures of a run on a tree."""

    def __init__(self, walked: Walk, keys: list[list[KeyState]]) -> None:
        self.walked, self.keys = walked, keys
        self.machine: Ellen | NatMit = walked.machine
        self.layout = Layout(walked)
        self.width, self.height = self.layout.width, self.layout.height

    def parts(self, count: int) -> list[Part]:
        memory = self.walked.states[count].memory
        spots = self.layout.spots(count)
        step = self.walked.steps[count - 1] if count else None
        found: list[Part] = []
        if any(spot.is_outside for spot in spots.values()):
            top = self.layout.band_top
            found.append(
                Part("band", f'<g data-k="band" class="band"><path d="M8 {top}H{self.width - 8}"/>'
                     f'<text x="8" y="{top + 17}">Outside: the root does not reach these</text></g>')
            )  # fmt: skip
        plates: list[Part] = []
        for node, spot in spots.items():
            for side, letter in ((-2, "l"), (-1, "r")):
                if len(memory[0][node]) > 1:
                    self.add_edge(found, plates, count, (node, side, letter), spots)
        for node, spot in spots.items():
            found.append(self.node(count, node, spot, step))
        if step is not None and step.access is not None:
            plates += self.access_plate(step, spots)
        return found + plates + self.news(count, spots) + self.standing(count, spots)

    def add_edge(
        self, edges: list[Part], plates: list[Part], count: int, of: tuple[int, int, str], spots: dict[int, Spot]
    ) -> None:
        """The edge of a child word, and what the word is flagged and tagged with."""
        node, side, letter = of
        word = self.walked.states[count].memory[0][node][side]
        line = self.line(node, side, int(self.machine.child_of(word)), spots)
        kinds = ["edge"] + (["out"] if spots[node].is_outside else [])
        is_marked = isinstance(word, tuple)
        marks = [name for name, bit in zip(("flag", "tag"), word) if bit] if is_marked else []
        if self.touched(count) == (node, "left" if side == -2 else "right"):
            kinds.append(self.walked.steps[count - 1].access.badge)  # type: ignore[union-attr]
        name, (x1, y1, x2, y2) = f"e{node}{letter}", line
        edges.append(
            Part(
                name,
                f'<line data-k="{name}" class="{" ".join(kinds + marks)}" x1="{x1}" y1="{y1}" x2="{x2}" y2="{y2}"/>',
            )
        )
        if marks:
            share = 0.75 if kinds[-1] in ("read", "changed", "failed") else 0.4
            x, y = along(line, share)
            plates.append(chip(f"w{node}{letter}", marks[0], x + (-7 if side == -2 else 7), y, " ".join(marks)))

    def line(self, node: int, side: int, child: int, spots: dict[int, Spot]) -> tuple[int, int, int, int]:
        """From the lower side of a node to the upper side of its child, or the other way round where the child
        stands higher."""
        start, end = spots[node], spots[child]
        shift = round(start.width / 4) * (-1 if side == -2 else 1)
        half = HEIGHT // 2 if end.y > start.y else -HEIGHT // 2
        return start.x + shift, start.y + half, end.x, end.y - half

    def touched(self, count: int) -> tuple[int | None, str]:
        """The node and the word of the access of a step."""
        access = self.walked.steps[count - 1].access if count else None
        return (access.node, access.word) if access else (None, "")

    def node(self, count: int, node: int, spot: Spot, step: Step | None) -> Part:
        cells = self.walked.states[count].memory[0][node]
        is_leaf, half = len(cells) == 1, spot.width / 2
        kinds = ["node", "leaf" if is_leaf else "inner"]
        kinds += ["out"] if spot.is_outside else []
        kinds += [self.fault(count, node)] if self.fault(count, node) else []
        if self.touched(count)[0] == node and step is not None and step.access is not None:
            kinds.append(f"at-{step.access.badge}")
        size = f'width="{spot.width}" height="{HEIGHT}" rx="{2 if is_leaf else 13}"'
        shape = f'<rect x="{-half:g}" y="{-HEIGHT // 2}" {size}/>'
        key, number = escape(key_text(cells[0])), node_text(node)
        if isinstance(self.machine, Ellen) and not is_leaf:
            update = cells[1]
            texts = (
                f'<text class="key" x="-18" y="-3">{key}</text><text class="number" x="16" y="-3">{number}</text>'
            )
            plate = "" if update[0] == "CLEAN" else f'<rect class="word {update[0].lower()}" x="{4 - half:g}" y="2" ' \
                f'width="{spot.width - 8}" height="15" rx="4"/>'  # fmt: skip
            texts += f'{plate}<text class="update" y="14">{update_text(update)}</text>'
        else:
            texts = f'<text class="key" y="-2">{key}</text><text class="number" y="14">{number}</text>'
        name = f"n{node}"
        return Part(
            name,
            f'<g data-k="{name}" class="{" ".join(kinds)}" transform="translate({spot.x},{spot.y})">'
            f"{shape}{texts}</g>",
        )

    def fault(self, count: int, node: int) -> str:
        """Whether a leaf has a key that is lost, or one that should be gone."""
        cells = self.walked.states[count].memory[0][node]
        faults = {each.key: each.fault for each in self.keys[count]}
        fault = faults.get(cells[0], "") if len(cells) == 1 else ""
        return fault if fault == "lost" or node in self.layout.inside[count] else ""

    def access_plate(self, step: Step, spots: dict[int, Spot]) -> list[Part]:
        """Which thread did the access, and what came of it, at the word."""
        access = step.access
        if access is None or access.node not in spots:
            return []
        spot = spots[access.node]
        text = f"T{step.thread} {access.badge}"
        if access.word == "update":
            return [chip("access", access.badge, spot.x, spot.y + HEIGHT / 2 + 8, text)]
        side = -2 if access.word == "left" else -1
        word = step.state.memory[0][access.node][side]
        line = self.line(access.node, side, int(self.machine.child_of(word)), spots)
        x, y = along(line, 0.25)
        away = LETTER * len(text) / 2 - 8
        return [chip("access", access.badge, x + (-away if side == -2 else away), y, text)]

    def news(self, count: int, spots: dict[int, Spot]) -> list[Part]:
        """Which nodes are new, were cut off, came in, or hold a key that is lost."""
        if not count:
            return []
        before, after = set(self.layout.inside[count - 1]), set(self.layout.inside[count])
        known = set(self.layout.rows[count - 1])
        parts = []
        for node, spot in spots.items():
            signs = []
            fault = self.fault(count, node)
            if node not in known:
                signs.append("new")
            elif node in before and node not in after:
                signs.append("cut off")
            elif node in after and node not in before and not fault:
                signs.append("comes in")
            if fault:
                signs.append("lost" if fault == "lost" else "should be gone")
            if signs:
                text = ", ".join(signs)
                x, y = spot.x, spot.y - HEIGHT / 2 - 5
                parts.append(
                    Part(f"s{node}", f'<text data-k="s{node}" class="news" x="{x}" y="{y:g}">{text}</text>')
                )
        return parts

    def standing(self, count: int, spots: dict[int, Spot]) -> list[Part]:
        """Where each thread that is in an operation does its next access."""
        state = self.walked.states[count]
        at_node: dict[int, list[int]] = {}
        for thread, place in enumerate(state.places):
            if place is not None:
                index = state.finished(thread)
                access = access_of(self.machine, self.walked.source.threads[thread][index][1], place, state.memory)
                if access is not None and access.node in spots:
                    at_node.setdefault(access.node, []).append(thread)
        parts = []
        for node, threads in at_node.items():
            spot = spots[node]
            for index, thread in enumerate(threads):
                y = spot.y + 20 * (index - (len(threads) - 1) / 2)
                parts.append(chip(f"t{thread}", f"thread{thread}", spot.x + spot.width / 2 + 13, y, f"T{thread}"))
        return parts


class ListPicture:
    """The pictures of a run on `atomic`: one slot for each key, full or empty."""

    def __init__(self, walked: Walk, keys: list[list[KeyState]]) -> None:
        self.walked = walked
        self.slots = walked.source.keys
        self.width, self.height = 74 * max(1, len(self.slots)) + 20, 104

    def parts(self, count: int) -> list[Part]:
        memory = self.walked.states[count].memory
        before = self.walked.states[max(0, count - 1)].memory
        parts: list[Part] = []
        for index, key in enumerate(self.slots):
            x, kind = 47 + 74 * index, "leaf" if key in memory else "leaf out"
            text = f'<text class="key" y="5">{key}</text>'
            shape = f'<rect x="-22" y="-19" width="44" height="{HEIGHT}" rx="2"/>'
            parts.append(
                Part(
                    f"n{key}",
                    f'<g data-k="n{key}" class="node {kind}" transform="translate({x},52)">{shape}{text}</g>',
                )
            )
            news = "put in" if key in memory - before else "taken out" if key in before - memory else ""
            if news:
                parts.append(Part(f"s{key}", f'<text data-k="s{key}" class="news" x="{x}" y="26">{news}</text>'))
        if count:
            step = self.walked.steps[count - 1]
            x = 47 + 74 * self.slots.index(step.operation.key)
            kind = "changed" if memory != before else "read"
            parts.append(chip("access", kind, x, 84, f"T{step.thread} {str(step.goes).lower()}"))
        return parts


def picture_of(walked: Walk, keys: list[list[KeyState]]) -> TreePicture | ListPicture:
    return ListPicture(walked, keys) if isinstance(walked.machine, Atomic) else TreePicture(walked, keys)


def tree_words(walked: Walk, picture: Any, count: int) -> str:
    """The tree in words, for those who hear the page: each internal node with its children."""
    memory = walked.states[count].memory
    if isinstance(picture, ListPicture):
        return "The list holds " + (", ".join(map(str, sorted(memory))) or "no key")
    clauses = []
    for node in picture.layout.inside[count]:
        cells = memory[0][node]
        if len(cells) > 1:
            left, right = (int(walked.machine.child_of(word)) for word in cells[-2:])
            clauses.append(
                f"{node_text(node)} of key {key_text(cells[0])} has {node_text(left)} and {node_text(right)}"
            )
    outside = ", ".join(map(node_text, picture.layout.outside[count]))
    return "; ".join(clauses) + (f"; outside: {outside}" if outside else "")
