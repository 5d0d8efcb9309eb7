#!/usr/bin/env python3
"""Draws a schedule: as lanes on the terminal, and where it is asked for as a picture or as a page that shows the
tree at every step.

    scripts/show_schedule.py FILE SCHEDULE
    scripts/show_schedule.py FILE SCHEDULE --html page.html
    scripts/show_schedule.py FILE SCHEDULE --compare SCHEDULE2 --html page.html
    ./treesched explore FILE --steps 20 | scripts/show_schedule.py FILE -

Lanes: one for each thread, one bar for each operation, from its first step to its last. What stands in them is
learnt from `PROGRAM replay` alone, called for every beginning of the schedule: an operation begins with the
first beginning that lists it, and has ended with the first that gives its reply. Where the last replay has an
order, each of its operations gets a point inside its bar, from left to right. Where it has `fault history`, the
fewest operations whose replies no order explains are named.

A page, and a still picture of the tree, come from the place tables in Python (scripts/place_tables.py), which
are apart from the proved program. Their replies and their verdict after each step are compared with PROGRAM's,
and a run that differs is refused.

The text is as wide as the variable COLUMNS says, else as the terminal is, else 80 columns.

Status 0: drawn, whether there is a fault or not. 1: FILE or the schedule is refused, or an output failed. 2:
usage.
"""
from __future__ import annotations

import argparse
import shlex
import shutil
import sys
import tempfile
from pathlib import Path

from common import Unusable
from viewer.clash import Run, examine
from viewer.lanes import svg_picture
from viewer.nearest import nearest
from viewer.page import Shown, html_page, still_picture
from viewer.replays import Asker, Source, read_schedule, read_source, schedule_in, show_list
from viewer.replays import read_file, write_file
from viewer.steps import compare, walk
from viewer.text import text_picture
from viewer.tikz import tikz_picture

NEAREST = "nearest"
HERE = Path(__file__)
# the program that lies beside the script as it was called, where there is one, else beside the script itself
PROGRAMS = [path.parent.parent / "treesched" for path in (HERE.absolute(), HERE.resolve())]
DEFAULT_PROGRAM = next((path for path in PROGRAMS if path.exists()), PROGRAMS[-1])


def read_words() -> argparse.Namespace:
    parser = argparse.ArgumentParser(description=__doc__, formatter_class=argparse.RawDescriptionHelpFormatter)
    parser.add_argument("file", metavar="FILE", help="a program, as docs/FORMATS.md says, or - for standard input")
    parser.add_argument(
        "schedule",
        metavar="SCHEDULE",
        help="thread numbers joined by commas, or nothing, or - for standard input, which may be what explore printed",
    )
    parser.add_argument("--svg", metavar="OUT", help="write the lanes there as a picture")
    parser.add_argument("--tikz", metavar="OUT", help="write the lanes there as a TikZ picture for LaTeX")
    parser.add_argument("--html", metavar="OUT", help="write a page there that shows the tree at every step")
    parser.add_argument(
        "--compare",
        metavar="SCHEDULE2",
        help="another schedule of FILE, beside the first on the page, or the word 'nearest': one without a fault "
        "is looked for, with as long a beginning in common as can be",
    )
    parser.add_argument(
        "--still", nargs=2, metavar=("STEP", "OUT"), help="write the tree after STEP there as a picture"
    )
    parser.add_argument(
        "--program", default=str(DEFAULT_PROGRAM), metavar="PROGRAM", help="the program that replays"
    )
    words = parser.parse_args()
    if words.file == "-" and "-" in (words.schedule, words.compare):
        parser.error("FILE and a schedule can't both come from standard input")
    if words.schedule == "-" and words.compare == "-":
        parser.error("the two schedules can't both come from standard input")
    if words.compare is not None and not words.html:
        parser.error("--compare needs --html")
    if words.still and not words.still[0].isdecimal():
        parser.error(f"--still needs a number of steps, not {words.still[0]!r}")
    return words


def schedule_of(word: str) -> list[int]:
    if word == "-":
        word = schedule_in(read_file("-").decode("utf-8", "replace"))
    return read_schedule(word)


def command_of(words: argparse.Namespace, schedules: list[list[int]], name: str) -> str:
    """The command that makes the page again."""
    command = ["scripts/show_schedule.py", name, show_list(schedules[0])]
    command += ["--compare", show_list(schedules[1])] if len(schedules) > 1 else []
    return shlex.join([*command, "--html", words.html])


def shown_of(asker: Asker, source: Source, run: Run) -> Shown:
    walked = walk(source, run.schedule)
    compare(walked, asker)
    return Shown(run, walked)


def draw(words: argparse.Namespace, file: str, text: bytes, schedules: list[list[int]]) -> Run:
    """Writes every picture that is asked for."""
    name = words.file
    if file != words.file:
        name = "standard input" if words.file == "-" else "the program"
    if words.still and int(words.still[0]) > len(schedules[0]):
        raise Unusable(
            f"the schedule has {len(schedules[0])} steps, so there is no tree after step {words.still[0]}"
        )
    asker = Asker(words.program, file, name)
    asker.replay(schedules[0])
    source = read_source(text, name)
    if words.compare == NEAREST:
        schedules = [*schedules, nearest(source, schedules[0])]
    runs = [examine(asker, schedule, source) for schedule in schedules]
    if words.svg:
        write_file(words.svg, svg_picture(runs[0]))
    if words.tikz:
        write_file(words.tikz, tikz_picture(runs[0]))
    if words.html or words.still:
        shown = [shown_of(asker, source, run) for run in runs]
        if words.html:
            write_file(words.html, html_page(shown, command_of(words, schedules, words.file)))
        if words.still:
            write_file(words.still[1], still_picture(shown[0], int(words.still[0])))
    return runs[0]


def show(text: str) -> None:
    try:
        sys.stdout.write(text)
        sys.stdout.flush()
    except OSError as fault:
        # Python would try at its end to write once more what could not be written
        sys.stdout = None  # type: ignore[assignment]
        raise Unusable(f"can't write standard output: {fault.strerror}") from fault


def main() -> int:
    words = read_words()
    try:
        given = [word for word in (words.schedule, words.compare) if word not in (None, NEAREST)]
        schedules = [schedule_of(word) for word in given]
        text = read_file(words.file)
        # the program reads FILE many times, and what is no plain file gives its text once
        with tempfile.NamedTemporaryFile(suffix=".json") as copy:
            is_plain = words.file != "-" and Path(words.file).is_file()
            if not is_plain:
                copy.write(text)
                copy.flush()
            run = draw(words, words.file if is_plain else copy.name, text, schedules)
        show(text_picture(run, shutil.get_terminal_size((80, 24)).columns))
    except (Unusable, OSError) as fault:
        print(f"show_schedule: {fault}", file=sys.stderr)
        return 1
    return 0


if __name__ == "__main__":
    sys.exit(main())
