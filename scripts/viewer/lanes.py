"""Lanes as an SVG: one for each thread, one bar for each operation, in rows of so many steps."""
from __future__ import annotations

from dataclasses import dataclass
from textwrap import wrap
from typing import NamedTuple
from xml.sax.saxutils import escape

from viewer.clash import Run
from viewer.replays import Operation

LEFT, BAR, LABEL, GAP, LETTER, LINE = 84, 32, 18, 16, 7.4, 20
STYLE = """
  text { font: 13px system-ui, "Segoe UI", "DejaVu Sans", Arial, sans-serif }
  .head { font-weight: 600 } .step { text-anchor: middle; font-size: 12px }
  .label { paint-order: stroke; stroke-width: 4 }
  .bar { stroke-width: 1.5 } .pending { stroke-dasharray: 6 4 } .clash { stroke-width: 3 }
"""
COLOURS = """
  .paper { fill: %s } .label { stroke: %s } text { fill: %s } .grid { stroke: %s }
  .bar { fill: %s; stroke: %s } .mark { fill: %s } .clash { stroke: %s } .point { fill: %s }
"""
LIGHT = COLOURS % (
    "#ffffff",
    "#ffffff",
    "#1f2328",
    "#d5dae0",
    "#d8e6f7",
    "#3f6fa8",
    "#3f6fa8",
    "#c62828",
    "#8a4b00",
)
DARK = COLOURS % ("#14181d", "#14181d", "#e6edf3", "#363d46", "#20354f", "#79aae3", "#79aae3", "#ff8379", "#ffb454")


def legend(run: Run) -> str:
    """What the signs mean, of those that are drawn."""
    signs = [
        (bool(run.schedule), "Dot: a step of the thread."),
        (any(operation.last is None for operation in run.operations), "Dashed: not ended."),
        (bool(run.order), "Diamonds, from left to right: the order."),
        (bool(run.clash), "Thick: the replies that no order explains."),
    ]
    return " ".join(text for is_drawn, text in signs if is_drawn)


def quoted(text: str) -> str:
    """A text in which names stand between backticks, with quotation marks in their place."""
    parts = text.split("`")
    return "".join(part + ("" if index == len(parts) - 1 else "“”"[index % 2]) for index, part in enumerate(parts))


def blocks(count: int, size: int) -> list[tuple[int, int]]:
    """The rows of steps: from each first number of steps done to its last."""
    return [(low, min(low + size, count)) for low in range(0, count, size)] or [(0, 0)]


def points(run: Run) -> list[tuple[Operation, float]]:
    """The operations of the order, each with its place in steps, which ascend. The last of the first steps up to
    an operation is a step of its bar, as none of them began after it ended; the points with one such step share
    its cell evenly."""
    named = {operation.name: operation for operation in run.operations}
    ordered = [named[name] for name in run.order]
    cells = [max(operation.first for operation in ordered[: index + 1]) for index in range(len(ordered))]
    return [
        (operation, cell - 0.85 + 0.7 * (cells[:index].count(cell) + 0.5) / cells.count(cell))
        for index, (operation, cell) in enumerate(zip(ordered, cells))
    ]


class Labelled(NamedTuple):
    """An operation in a row of steps, with its label there."""

    operation: Operation
    first: int
    text: str


def labelled(run: Run, thread: int, low: int, high: int) -> list[Labelled]:
    """The operations of a lane in a row of steps. One that began in a row before is named once more."""
    found = []
    for operation in run.in_lane(thread):
        if operation.first <= high and run.end(operation) > low:
            goes_on = operation.first <= low
            found.append(
                Labelled(operation, max(operation.first, low + 1), ("… " if goes_on else "") + operation.label)
            )
    return found


def label_rows(spans: list[tuple[float, float]], gap: float) -> list[int]:
    """For each label, which begins and is as wide as its span says, its row, counted up from the bars: above every
    label to the right that it would run into."""
    rows = [0] * len(spans)
    for index in reversed(range(len(spans))):
        end = sum(spans[index]) + gap
        met = [rows[other] + 1 for other in range(index + 1, len(spans)) if spans[other][0] < end]
        rows[index] = max(met, default=0)
    return rows


def svg_text(x: float, y: float, kind: str, text: str) -> str:
    return f'<text class="{kind}" x="{x:g}" y="{y:g}">{escape(text)}</text>'


@dataclass
class Lanes:
    """The lanes of a run, whose rows have at most `size` steps of `cell` pixels, behind names as wide as `left`."""

    run: Run
    cell: float = 34
    size: int = 30
    ticks: int = 1
    left: int = LEFT
    thread: str = "thread "

    def edge(self, step: float, low: int) -> float:
        """The place on the paper where so many steps have been done."""
        return self.left + self.cell * (step - low)

    @property
    def right(self) -> float:
        """Where the longest row ends, labels with it."""
        ends = [self.left + self.cell * min(len(self.run.schedule), self.size)]
        for low, high in blocks(len(self.run.schedule), self.size):
            for thread in range(self.run.lanes):
                for each in labelled(self.run, thread, low, high):
                    ends.append(self.edge(each.first - 1, low) + LETTER * len(each.text) + 8)
        return max(ends)

    def operation(self, each: Labelled, row: int, top: float, low: int, high: int) -> list[str]:
        """The label, a thread from it to the bar where rows lie between, the bar, and its steps."""
        operation, run = each.operation, self.run
        last = min(run.end(operation), high)
        inset = min(2, self.cell / 8)
        left, right = self.edge(each.first - 1, low) + inset, self.edge(last, low) - inset
        kind = "bar" + (" pending" if operation.last is None else "") + (" clash" if operation in run.clash else "")
        base = top - 6 - LABEL * row
        parts = [svg_text(left + 3, base, "label", each.text)]
        if row:
            parts.append(f'<path class="grid" d="M{left:g} {base - 10:g}V{top:g}"/>')
        parts.append(
            f'<rect class="{kind}" x="{left:g}" y="{top:g}" width="{right - left:g}" height="{BAR}" rx="5"/>'
        )
        radius = min(4.5, self.cell * 0.36)
        for step in range(each.first, last + 1):
            if run.schedule[step - 1] == operation.thread:
                x = self.edge(step - 0.5, low)
                parts.append(f'<circle class="mark" cx="{x:g}" cy="{top + 10:g}" r="{radius:g}"/>')
        return parts

    def block(self, low: int, high: int, y: float) -> tuple[list[str], float]:
        """A row of steps with its lanes, and where it ends."""
        run, middles = self.run, range(low + 1, high + 1)
        bars: list[str] = []
        tops: dict[int, float] = {}
        start = y
        for thread in range(run.lanes):
            lane = labelled(run, thread, low, high)
            rows = label_rows([(self.edge(each.first - 1, low), LETTER * len(each.text)) for each in lane], 8)
            tops[thread] = y + LABEL * (1 + max(rows, default=0))
            bars.append(svg_text(12, tops[thread] + 21, "head", f"{self.thread}{thread}"))
            for each, row in zip(lane, rows):
                bars += self.operation(each, row, tops[thread], low, high)
            y = tops[thread] + BAR + GAP
        for operation, place in points(run):
            if low < place <= high:
                x = self.edge(place, low)
                bars.append(f'<path class="point" d="M{x:g} {tops[operation.thread] + 16:g}l5 6l-5 6l-5 -6z"/>')
        heads = [svg_text(12, start - 12, "head", "step")]
        for step in middles:
            if (step - 1) % self.ticks == 0:
                x = self.edge(step - 0.5, low)
                heads.append(f'<path class="grid" d="M{x:g} {start - 6:g}V{y - GAP:g}"/>')
                heads.append(svg_text(x, start - 12, "step", str(step)))
        return heads + bars, y

    def all_blocks(self, top: float) -> tuple[list[str], float]:
        parts: list[str] = []
        bottom = top
        for index, (low, high) in enumerate(blocks(len(self.run.schedule), self.size)):
            found, bottom = self.block(low, high, bottom + (30 if index else 0))
            parts += found
        return parts, bottom


def svg_picture(run: Run) -> str:
    lanes = Lanes(run)
    parts, bottom = lanes.all_blocks(66)
    width = round(max(lanes.right + 16, 620))
    finding = [quoted(text) for text in run.finding]
    texts = [line for text in (*finding, legend(run)) for line in wrap(text, int((width - 24) / LETTER))]
    height = round(bottom + LINE * len(texts) + 12)
    spoken = [f"{operation.label}, {operation.span}" for operation in run.operations] + finding
    lines = [
        f'<svg xmlns="http://www.w3.org/2000/svg" width="{width}" height="{height}" '
        f'viewBox="0 0 {width} {height}" role="img">',
        f"<title>{escape(run.title)}</title>",
        "<desc>" + escape("\n".join(spoken)) + "</desc>",
        f"<style>{STYLE}{LIGHT}  @media (prefers-color-scheme: dark) {{{DARK}  }}</style>",
        f'<rect class="paper" width="{width}" height="{height}"/>',
        svg_text(12, 24, "head", run.title),
        *parts,
        *(svg_text(12, bottom + LINE * (row + 0.6), "finding", line) for row, line in enumerate(texts)),
        "</svg>",
    ]
    return "\n".join(lines) + "\n"
