"""Lanes as a TikZ picture for papers. It needs the package tikz and no library of it."""
from __future__ import annotations

from viewer.clash import Run
from viewer.lanes import Labelled, blocks, label_rows, labelled, legend, points

CELL, BAR, LABEL, GAP = 0.42, 0.42, 0.36, 0.24
LETTER = 0.15
SIZE = 30
SPECIAL = {"\\": r"\textbackslash{}", "{": r"\{", "}": r"\}", "~": r"\textasciitilde{}", "^": r"\textasciicircum{}"}
SPECIAL |= {sign: "\\" + sign for sign in "#$%&_"} | {"…": r"\dots{}"}


def tex(text: str) -> str:
    """A text for TeX, in which what stands between backticks is set as code."""
    parts = ["".join(SPECIAL.get(sign, sign) for sign in part) for part in text.split("`")]
    return "".join(rf"\texttt{{{part}}}" if index % 2 else part for index, part in enumerate(parts))


def bar_lines(run: Run, each: Labelled, row: int, low: int, high: int, top: float) -> list[str]:
    """The bar of an operation in a row of steps, with its label and a dot for each step."""
    operation, last = each.operation, min(run.end(each.operation), high)
    left, right = CELL * (each.first - 1 - low) + 0.03, CELL * (last - low) - 0.03
    looks = ["rounded corners=1.5pt", "fill=black!8"]
    looks += ["dashed"] if operation.last is None else []
    looks += ["line width=1.2pt"] if operation in run.clash else []
    lines = []
    if row:
        lines.append(rf"  \draw[black!40] ({left:.2f},{top + LABEL * (row + 0.2):.2f}) -- ({left:.2f},{top:.2f});")
    lines.append(rf"  \draw[{', '.join(looks)}] ({left:.2f},{top:.2f}) rectangle ({right:.2f},{top - BAR:.2f});")
    name = rf"{{{tex(each.text)}}}"
    lines.append(rf"  \node[anchor=west, inner sep=0pt] at ({left:.2f},{top + LABEL * (row + 0.5):.2f}) {name};")
    steps = [step for step in range(each.first, last + 1) if run.schedule[step - 1] == operation.thread]
    lines += [rf"  \fill ({CELL * (step - 0.5 - low):.2f},{top - 0.14:.2f}) circle[radius=1.3pt];" for step in steps]
    return lines


def block_lines(run: Run, low: int, high: int, y: float) -> tuple[list[str], float]:
    """The lanes of a row of steps, and where it ends."""
    lines = [rf"  \node[anchor=east] at (-0.2,{y:.2f}) {{step}};"]
    heads = [
        (step, CELL * (step - 0.5 - low)) for step in range(low + 1, high + 1) if step % 5 == 1 or high - low <= 20
    ]
    lines += [rf"  \node at ({x:.2f},{y:.2f}) {{{step}}};" for step, x in heads]
    y -= 0.3
    tops = {}
    for thread in range(run.lanes):
        lane = labelled(run, thread, low, high)
        rows = label_rows([(CELL * (each.first - 1 - low), LETTER * len(each.text)) for each in lane], 0.1)
        top = y - LABEL * (1 + max(rows, default=0))
        tops[thread] = top
        lines.append(rf"  \node[anchor=east] at (-0.2,{top - BAR / 2:.2f}) {{thread {thread}}};")
        for each, row in zip(lane, rows):
            lines += bar_lines(run, each, row, low, high, top)
        y = top - BAR - GAP
    for operation, place in points(run):
        if low < place <= high:
            x, middle = CELL * (place - low), tops[operation.thread] - 0.3
            corners = [(x, middle + 0.08), (x + 0.07, middle), (x, middle - 0.08), (x - 0.07, middle)]
            lines.append(
                r"  \fill[black!60] " + " -- ".join(f"({a:.2f},{b:.2f})" for a, b in corners) + " -- cycle;"
            )
    return lines, y


def tikz_picture(run: Run) -> str:
    lines = [
        "% " + run.title,
        r"% \usepackage{tikz} and \input{..}; the sentences below the picture are meant for its caption",
        r"\begin{tikzpicture}[font=\footnotesize]",
    ]
    y = 0.0
    for low, high in blocks(len(run.schedule), SIZE):
        found, y = block_lines(run, low, high, y)
        lines += found
        y -= 0.4
    lines.append(r"\end{tikzpicture}")
    lines += ["% " + tex(text) for text in (*run.finding, legend(run))]
    return "\n".join(lines) + "\n"
