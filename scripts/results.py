"""The lines of JSON that scripts/sweep.py writes, one for each program, for the scripts that read them.

A folder of results has a file for each part of a family. A line ends with a sum over the rest of it, so that what was
damaged is known.
"""
from __future__ import annotations

import hashlib
import json
import subprocess
from collections.abc import Iterable
from dataclasses import asdict, dataclass
from pathlib import Path
from shutil import copyfile

from common import TOP, Unusable, bytes_of
from programs import NamedProgram, Part, read_name

FAULTS = ["history", "order", "astray"]


@dataclass(frozen=True)
class Result:
    """What came of one program. `commit` names the sources by which it was explored, where that is known."""

    program: str
    verdict: str
    states: int
    steps: int
    checked: bool
    seconds: float
    seconds_all: float
    schedule: str | None = None
    commit: str | None = None

    @property
    def named(self) -> NamedProgram:
        """The program itself."""
        return read_name(self.program)

    @property
    def tree(self) -> str:
        """The tree on which it runs."""
        return self.program.partition(":")[0]

    @property
    def answer(self) -> str:
        """What a rerun has to find again: the program, the verdict, the states, and the steps of a fault."""
        return f"{self.program} {self.verdict} {self.states} {'-' if self.schedule is None else self.steps}"

    def line(self) -> str:
        """As a line of JSON, without what is not known, and with a sum at its end."""
        text = json.dumps({name: value for name, value in asdict(self).items() if value is not None})
        return f'{text[:-1]}, "sum": "{hashlib.sha256(text.encode()).hexdigest()[:16]}"}}\n'


def digest_of(results: Iterable[Result]) -> str:
    """One number for all answers, by which a rerun is compared: the SHA-256 of their sorted lines."""
    answers = sorted(result.answer for result in results)
    return hashlib.sha256("".join(f"{answer}\n" for answer in answers).encode()).hexdigest()


def file_of(folder: Path, part: Part) -> Path:
    """The file of a part."""
    return folder / f"{part.number}of{part.all}.jsonl"


def result_of(line: bytes) -> Result | None:
    """The result of a line, or none where the line is not as it was written."""
    try:
        value = json.loads(line)
        value.pop("sum")
        result = Result(**value)
    except (ValueError, LookupError, TypeError, AttributeError):
        return None
    return result if result.line().encode() == line else None


def lines_in(file: Path) -> list[tuple[bytes, Result | None]]:
    """The lines of a file, each with its result."""
    return [(line, result_of(line)) for line in bytes_of(file).splitlines(keepends=True)]


def mend(file: Path) -> int:
    """Cuts the lines that are not whole out of a file, which is kept beside as it was, and answers how many there were.
    An interruption leaves such a line, and so does a disk that lost something."""
    lines = lines_in(file)
    whole = [line for line, result in lines if result]
    if len(whole) < len(lines):
        copyfile(file, file.with_suffix(".damaged"))
        file.write_bytes(b"".join(whole))
    return len(lines) - len(whole)


def whole_results(folder: Path) -> list[Result]:
    """The results of a folder, without the lines that are not whole: a sweep may be writing them now."""
    return [result for file in sorted(folder.glob("*.jsonl")) for _, result in lines_in(file) if result]


def read_results(folder: Path) -> list[Result]:
    """The results of a folder. One with a line that is not whole is refused."""
    files = sorted(folder.glob("*.jsonl"))
    if not files:
        raise Unusable(f"{folder} has no results: sweep.py --out writes such a folder")
    for file in files:
        for number, (_, result) in enumerate(lines_in(file), start=1):
            if not result:
                raise Unusable(f"{file}:{number} is not whole: the sweep of this part mends it")
    return whole_results(folder)


def commit_here() -> str | None:
    """The commit of this checkout, if git knows it and no source of the program differs from it."""

    def git(*words: str) -> str | None:
        try:
            ended = subprocess.run(["git", "-C", TOP, *words], capture_output=True, text=True, check=False)
        except OSError:
            return None
        return None if ended.returncode else ended.stdout.strip()

    return git("rev-parse", "HEAD") if git("status", "--porcelain", "--", "crates", "crates.txt") == "" else None
