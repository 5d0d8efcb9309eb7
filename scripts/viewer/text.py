"""Lanes as text, no wider than so many columns."""
from __future__ import annotations

from textwrap import wrap

from viewer.clash import Run
from viewer.lanes import Labelled, blocks, label_rows, labelled

NAME = 10
LEAST_STEPS, LEAST_COLUMNS = 5, 20


def lane_text(run: Run, thread: int) -> str:
    """Two columns a step: what stands between it and the step before, and the step."""
    row = [" "] * (2 * len(run.schedule) + 1)
    for operation in run.in_lane(thread):
        left, right = 2 * (operation.first - 1), 2 * run.end(operation)
        row[left : right + 1] = ["|", *"-" * (right - left - 1), ">" if operation.last is None else "|"]
    for index, mover in enumerate(run.schedule):
        if mover == thread:
            row[2 * index + 1] = "x"
    return "".join(row)


def name_lines(lane: list[Labelled], low: int, columns: int) -> list[str]:
    """The operations' names above their bars, in as many lines as they need. One that would run over the last column
    begins so far to the left that it does not."""
    lefts = [max(0, min(NAME + 2 * (each.first - 1 - low), columns - len(each.text))) for each in lane]
    rows = label_rows([(left, len(each.text)) for left, each in zip(lefts, lane)], 1)
    lines = []
    for wanted in range(max(rows, default=-1), -1, -1):
        line = ""
        for left, each, row in zip(lefts, lane, rows):
            if row == wanted:
                line = line.ljust(left) + each.text
        lines.append(line)
    return lines


def text_picture(run: Run, columns: int) -> str:
    count = len(run.schedule)
    lines = [*wrap(run.title, max(LEAST_COLUMNS, columns)), ""]
    for low, high in blocks(count, max(LEAST_STEPS, (columns - NAME - 1) // 2)):
        steps = "".join(f" {step:<9}" for step in range(low + 1, high + 1, 5))
        lines.append(f"{'step':<{NAME}}{steps}".rstrip())
        for thread in range(run.lanes):
            shown = [each._replace(text=each.text.rsplit(" ", 1)[0]) for each in labelled(run, thread, low, high)]
            lines += name_lines(shown, low, columns)
            lines.append(f"{f'thread {thread}':<{NAME}}{lane_text(run, thread)[2 * low : 2 * high + 1]}".rstrip())
        lines.append("")
    for text in (*(f"{operation.label}, {operation.span}" for operation in run.operations), *run.finding):
        lines += wrap(text, max(LEAST_COLUMNS, columns), break_on_hyphens=False) or [""]
    return "\n".join(lines) + "\n"
