#!/usr/bin/env python3
"""Runs the examples of pages, and compares what they print with what the pages show.

usage: scripts/check_pages.py [--program PROGRAM] [PAGE ..]

Without pages, those at the top and in docs/, examples/ and bench/ are meant; without PROGRAM, the script
`treesched` at the top.

An example is a line `$ COMMAND` and the lines that the command prints, in a fenced block of kind `console` or in
a block that is indented by four spaces. A command goes on after a backslash at the end of its line, and to the
end of a text that it begins by `<<END`. `...` stands for one or more further lines.

- With a line `[status N]` at its end an example stands alone: it runs in a folder of its own, and prints the
  lines of the standard output and after them those of the standard error. Where a page has such a line, each of
  its fenced examples needs one.
- The others of a page run in one folder, in order, as a reader types them. Their status is not compared, and the
  standard error may come first.

Each folder has copies of docs/, examples/ and scripts/, and PROGRAM as ./treesched; the standard input is empty.
What the commands of a page write over a file of docs/, examples/ or scripts/ has to be what stands there.

A command that needs more than that (the kit, git, other machines) is not run, nor is a block after a line
`<!-- not run -->`. Each example that differs is shown with a difference, and at the end comes 'N examples, M
differ, K not run'. The status is 0 if an example ran and none differs, 1 if not, and 2 where a page can't be read
or PROGRAM doesn't run.
"""
from __future__ import annotations

import difflib
import os
import re
import shutil
import signal
import subprocess
import tempfile
from collections.abc import Iterator
from dataclasses import dataclass, field
from pathlib import Path

from common import PROGRAM, RIGHT, TOP, WRONG, Unusable, end, pages_of, runnable, text_of, words_of

FENCE, KIND, INDENT, PROMPT, FURTHER = "```", "console", "    ", "$ ", "..."
SKIPPED = "<!-- not run -->"
STATUS = re.compile(r"\[status \d+\]")
HERE_TEXT = re.compile(r"(?<!<)<<-?\s*['\"]?(\w+)")
COPIED = ["docs", "examples", "scripts"]
MOST_SECONDS = 300

# What needs more than a folder with the program: the kit, the history, other machines, or minutes of compiling.
NOT_RUN = re.compile(
    r"(?:^|[|;&(]\s*)(?:rt|git|parallel|sbatch|curl|tar|sha256sum"
    r"|scripts/release\.sh|\./treesched --(?:unproved|version|build))\b"
)


@dataclass
class Example:
    """A command of a page, and the lines that the page shows for it, the line of the status with them."""

    page: Path
    line: int
    command: str
    is_fenced: bool
    is_skipped: bool
    shown: list[str] = field(default_factory=list)

    @property
    def place(self) -> str:
        """Where it stands."""
        return f"{self.page}:{self.line}"

    @property
    def has_status(self) -> bool:
        """Whether its last line is that of the status."""
        return bool(self.shown) and STATUS.fullmatch(self.shown[-1]) is not None


@dataclass
class Block:
    """The lines of a block of a page, without their indent."""

    first: int
    is_fenced: bool
    is_skipped: bool
    lines: list[str] = field(default_factory=list)


def fenced_end(page: Path, lines: list[str], start: int) -> int:
    """The place of the fence that ends the block which begins at this place."""
    if not lines[start].startswith(FENCE):
        raise Unusable(f"{page}:{start + 1}: a fence that is not at the beginning of its line")
    for place in range(start + 1, len(lines)):
        if lines[place].lstrip().startswith(FENCE):
            # Inside a block, a fence with anything beside it would hide the examples after it.
            if lines[place] != FENCE:
                raise Unusable(f"{page}:{place + 1}: a fence that does not end the block of line {start + 1}")
            return place
    raise Unusable(f"{page}:{start + 1}: a block without an end")


def indented_end(lines: list[str], start: int) -> int:
    """The place after an indented block, which may have empty lines inside."""
    last = start
    for place in range(start, len(lines)):
        if lines[place].startswith(INDENT):
            last = place
        elif lines[place].strip():
            break
    return last + 1


def blocks_of(page: Path) -> Iterator[Block]:
    """The blocks of a page that may have examples."""
    lines = text_of(page).split("\n")
    place, is_skipped = 0, False
    while place < len(lines):
        line = lines[place]
        if line.lstrip().startswith(FENCE):
            last = fenced_end(page, lines, place)
            if (line.removeprefix(FENCE).split() or [""])[0] == KIND:
                yield Block(place + 2, True, is_skipped, lines[place + 1 : last])
            place, is_skipped = last + 1, False
        elif line.startswith(INDENT + PROMPT) and not (place and lines[place - 1].strip()):
            last = indented_end(lines, place)
            yield Block(place + 1, False, is_skipped, [it.removeprefix(INDENT) for it in lines[place:last]])
            place, is_skipped = last, False
        else:
            is_skipped = line == SKIPPED or (is_skipped and not line.strip())
            place += 1


def examples_in(page: Path, block: Block) -> Iterator[Example]:
    """The examples of a block in their order."""
    example: Example | None = None
    until: str | None = None
    for number, line in enumerate(block.lines, start=block.first):
        if example and until is not None:
            example.command += f"\n{line}"
            until = None if line == until else until
        elif example and example.command.endswith("\\") and not example.shown:
            example.command += f"\n{line}"
        elif line.startswith(PROMPT):
            if example:
                yield example
            command = line.removeprefix(PROMPT)
            is_skipped = block.is_skipped or NOT_RUN.search(command) is not None
            example = Example(page, number, command, block.is_fenced, is_skipped)
            here = HERE_TEXT.search(command)
            until = here[1] if here else None
        elif example:
            example.shown.append(line)
        else:
            raise Unusable(f"{page}:{number}: a line before the first command of its block")
    if example:
        yield example


def examples_of(page: Path) -> list[Example]:
    """The examples of a page in their order."""
    examples = [example for block in blocks_of(page) for example in examples_in(page, block)]
    for example in examples:
        while example.shown and not example.shown[-1]:
            example.shown.pop()
    if any(example.has_status for example in examples):
        for example in examples:
            if example.is_fenced and not example.has_status and not example.is_skipped:
                raise Unusable(f"{example.place}: no line [status N], which other examples of the page have")
    return examples


def lines_of(printed: bytes) -> list[str]:
    """The lines of an output. Bytes that are not UTF-8 are written out, as they stand in no page."""
    text = printed.decode("utf-8", "backslashreplace")
    return text.removesuffix("\n").split("\n") if text else []


def run(command: str, folder: Path) -> tuple[list[str], list[str], str]:
    """The lines that a command prints in a folder on both outputs, and the line of its status."""
    process = subprocess.Popen(
        ["bash", "-c", command],
        cwd=folder,
        env={name: value for name, value in os.environ.items() if name != "COLUMNS"},
        stdin=subprocess.DEVNULL,
        stdout=subprocess.PIPE,
        stderr=subprocess.PIPE,
        start_new_session=True,
    )
    try:
        out, err = process.communicate(timeout=MOST_SECONDS)
    except subprocess.TimeoutExpired:
        # The command and all that it started, which are a group of their own.
        os.killpg(process.pid, signal.SIGKILL)
        process.communicate()
        return [], [], f"[not ended after {MOST_SECONDS} seconds]"
    return lines_of(out), lines_of(err), f"[status {process.returncode}]"


def furnish(folder: Path, program: Path) -> None:
    """Puts into a folder what commands of pages use."""
    for name in COPIED:
        shutil.copytree(TOP / name, folder / name, ignore=shutil.ignore_patterns("__pycache__", "tests"))
    (folder / "treesched").symlink_to(program)


def is_shown(shown: list[str], printed: list[str]) -> bool:
    """Whether a page's lines are those that were printed, where `...` stands for one or more further lines."""
    if FURTHER not in shown:
        return shown == printed
    cut = shown.index(FURTHER)
    head, tail = shown[:cut], shown[cut + 1 :]
    return (
        len(printed) > len(head) + len(tail)
        and printed[: len(head)] == head
        and printed[len(printed) - len(tail) :] == tail
    )


def is_right(example: Example, folder: Path) -> bool:
    """Runs an example, and shows where it differs from what it prints."""
    out, err, status = run(example.command, folder)
    printed = [*out, *err, status] if example.has_status else [*out, *err]
    if is_shown(example.shown, printed) or not example.has_status and is_shown(example.shown, [*err, *out]):
        return True
    print(f"{example.place}: {PROMPT}{example.command}")
    difference = difflib.unified_diff(example.shown, printed, "the page", "the command", lineterm="")
    print("\n".join(f"    {line}" for line in difference))
    return False


def overwritten(folder: Path) -> list[Path]:
    """The files of the repository in whose copies a folder has something else."""
    files = [file for name in COPIED for file in (TOP / name).rglob("*") if file.is_file()]
    copies = [(file, folder / file.relative_to(TOP)) for file in files]
    return [file for file, copy in copies if copy.exists() and copy.read_bytes() != file.read_bytes()]


def check(page: Path, examples: list[Example], program: Path) -> int:
    """Runs the examples of a page, and answers how many differ."""
    count = 0
    with tempfile.TemporaryDirectory() as name:
        shared = Path(name)
        furnish(shared, program)
        for example in examples:
            if example.has_status:
                with tempfile.TemporaryDirectory() as own:
                    furnish(Path(own), program)
                    count += not is_right(example, Path(own))
            else:
                count += not is_right(example, shared)
        for file in overwritten(shared):
            print(f"{page}: its commands write something else into {file.relative_to(TOP)} than stands there")
            count += 1
    return count


def main() -> int:
    """Checks the pages, and answers the status."""
    parser = words_of(__doc__)
    parser.add_argument("--program", metavar="PROGRAM", type=Path, default=PROGRAM, help="what ./treesched means")
    parser.add_argument("pages", metavar="PAGE", type=Path, nargs="*", default=pages_of())
    words = parser.parse_args()
    pages = {page: examples_of(page) for page in words.pages}
    program = runnable(words.program)
    ran = differing = skipped = 0
    for page, examples in pages.items():
        meant = [example for example in examples if not example.is_skipped]
        ran += len(meant)
        skipped += len(examples) - len(meant)
        differing += check(page, meant, program)
    print(f"{ran} examples, {differing} differ, {skipped} not run")
    return RIGHT if ran and not differing else WRONG


if __name__ == "__main__":
    end(main)
