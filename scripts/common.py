"""What the scripts share: the program that they run, what it answers and refuses, files, and how a script ends.

A script's `main` returns its status. `end` runs it, and prints whatever the user can mend as one line.
"""
from __future__ import annotations

import argparse
import os
import re
import subprocess
import sys
from collections.abc import Callable
from dataclasses import dataclass
from pathlib import Path
from typing import NoReturn

TOP = Path(__file__).resolve().parent.parent
EXAMPLES = TOP / "examples"
PROGRAM = TOP / "treesched"
MOST_STEPS = 400
MOST_STATES = 2_000_000
MOST_PROCESSES = 256
PAGES = ("*.md", "docs/*.md", "bench/*.md", "examples/*.md")

# The statuses of a script. What it was asked for is wrong, or one answer is; the words or a file are unusable.
RIGHT, WRONG, UNUSABLE, INTERRUPTED = 0, 1, 2, 130

# The statuses with which the program answers: it holds, there is a fault, it stopped at its limit of states.
ANSWERS = (0, 1, 2)
REFUSAL = re.compile(r"treesched: (?:book refused: )?(P\d+ \w+|C\d at line \d+)\n")


class Unusable(Exception):
    """What was asked for can't be done. The text says why, in one line for the user."""


class Refused(Exception):
    """The program refused, or printed what is no answer. The text says which."""


@dataclass(frozen=True)
class Answer:
    """What `explore` printed. Where every schedule holds it has no steps."""

    verdict: str
    states: int
    steps: int = 0
    schedule: str | None = None


def run_program(program: Path, *words: object) -> subprocess.CompletedProcess[str]:
    """One run of the program on these words, whatever comes of it."""
    return subprocess.run([program, *map(str, words)], capture_output=True, text=True, check=False)


def ask(program: Path, *words: object) -> str:
    """What the program answers to these words, or that it refused."""
    ended = run_program(program, *words)
    if ended.returncode not in ANSWERS:
        raise Refused(f"{words[0]} ended with status {ended.returncode}: {ended.stderr.strip()}")
    return ended.stdout


def read_answer(text: str) -> Answer:
    """The answer that `explore` printed, without a ledger."""
    match [line.split() for line in text.splitlines()]:
        case [["holds", "for", "every", "schedule"], ["states", states]]:
            return Answer("every", int(states))
        case [["holds", "to", steps, "steps"], ["states", states]]:
            return Answer("holds", int(states), int(steps))
        case [["fault", kind, "after", steps, "steps"], ["schedule", schedule], ["states", states]]:
            return Answer(kind, int(states), int(steps), schedule)
        case [["stopped", "at", states, "states"], ["holds", "to", steps, "steps"]]:
            return Answer("stopped", int(states), int(steps))
    raise Refused(f"explore printed what is no answer: {text!r}")


def refusal_of(errors: str) -> str | None:
    """The refusal of a text or a book that stands on the standard error: `P3 Version`, `C6 at line 4`."""
    found = REFUSAL.fullmatch(errors)
    return found[1] if found else None


def pages_of(top: Path = TOP) -> list[Path]:
    """The pages of the repository that stands there."""
    return [page for pattern in PAGES for page in sorted(top.glob(pattern))]


def bytes_of(file: Path) -> bytes:
    """What stands in a file."""
    try:
        return file.read_bytes()
    except OSError as fault:
        raise Unusable(f"can't read {file}: {fault.strerror}") from None


def text_of(file: Path) -> str:
    """The text of a file."""
    try:
        return bytes_of(file).decode()
    except UnicodeDecodeError:
        raise Unusable(f"can't read {file}: it is not UTF-8") from None


def runnable(program: Path) -> Path:
    """The whole path of a program that runs. The script `treesched` at the top proves and builds it here."""
    path = program.resolve()
    try:
        words = [str(path), "explore", str(EXAMPLES / "two_inserts.json"), "--steps", "0"]
        status = subprocess.run(words, stdout=subprocess.DEVNULL, check=False).returncode
    except OSError as fault:
        raise Unusable(f"{path} does not run: {fault.strerror}") from None
    if status != 0:
        raise Unusable(f"{path} does not run: an exploration of no step ended with status {status}")
    return path


def number_from(least: int, most: int) -> Callable[[str], int]:
    """For argparse: reads a whole number of a range, and names the range where the word is none."""

    def read(word: str) -> int:
        if not re.fullmatch(r"[0-9]{1,9}", word) or not least <= int(word) <= most:
            raise argparse.ArgumentTypeError(f"{word!r} is not a number from {least} to {most}")
        return int(word)

    return read


def words_of(usage: str | None) -> argparse.ArgumentParser:
    """A parser whose help is the script's docstring, and whose errors are one line."""

    class Parser(argparse.ArgumentParser):
        def error(self, message: str) -> NoReturn:
            raise Unusable(f"{message} (--help shows the use)")

    return Parser(
        description=usage,
        formatter_class=argparse.RawDescriptionHelpFormatter,
        usage=argparse.SUPPRESS,
        allow_abbrev=False,
    )


def end(main: Callable[[], int], interrupted: str = "interrupted") -> None:
    """Runs a script's `main`, and exits with its status. What the user can mend is one line on the standard error."""
    name = Path(sys.argv[0]).stem
    try:
        status = main()
        sys.stdout.flush()
    except Unusable as fault:
        print(f"{name}: {fault}", file=sys.stderr)
        status = UNUSABLE
    except BrokenPipeError:
        # What read the output has ended. Nothing is left to flush at exit.
        os.dup2(os.open(os.devnull, os.O_WRONLY), sys.stdout.fileno())
        status = WRONG
    except OSError as fault:
        print(f"{name}: {fault.filename or 'the output'}: {fault.strerror or fault}", file=sys.stderr)
        status = UNUSABLE
    except KeyboardInterrupt:
        print(f"{name}: {interrupted}", file=sys.stderr)
        status = INTERRUPTED
    sys.exit(status)
