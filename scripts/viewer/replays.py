"""A schedule by `PROGRAM replay`: the operations with where they begin and end, and an order of them or a fault."""
from __future__ import annotations

import json
import re
import subprocess
import sys
from dataclasses import dataclass, replace
from pathlib import Path

from common import MOST_STEPS, Unusable, bytes_of


@dataclass(frozen=True)
class Operation:
    """An operation that began. Without `last` it is pending; without `reply` its reply is not known."""

    name: str
    word: str
    key: int
    reply: bool | None
    first: int = 1
    last: int | None = None

    @property
    def thread(self) -> int:
        return int(self.name.split(".")[0])

    @property
    def text(self) -> str:
        return f"{self.name} {self.word} {self.key}"

    @property
    def label(self) -> str:
        return f"{self.text} {'pending' if self.reply is None else str(self.reply).lower()}"

    @property
    def span(self) -> str:
        """Its steps in words."""
        if self.last is None:
            return f"from step {self.first} on"
        return f"step {self.first}" if self.first == self.last else f"steps {self.first} to {self.last}"

    def ended_before(self, other: Operation) -> bool:
        return self.last is not None and self.last < other.first


@dataclass(frozen=True)
class Replay:
    """The output of one replay: its operations, where they begin and end left open, then an order of them or a
    fault."""

    listed: list[Operation]
    order: list[str] | None
    fault: str | None


@dataclass(frozen=True)
class Source:
    """What FILE says: its bytes, the tree, the initial keys, and for each thread its operations as (word, key)."""

    text: bytes
    tree: str
    initial: frozenset[int]
    threads: list[list[tuple[str, int]]]

    @property
    def keys(self) -> list[int]:
        """Every key that is an initial one or an operation's."""
        return sorted(self.initial | {key for thread in self.threads for _, key in thread})


OPERATION_LINE = r"(\d\.\d) (insert|delete|find) (\d+) (true|false|pending)\n"
REPLAY_TEXT = re.compile(
    rf"(?P<listed>({OPERATION_LINE})*)(order (?P<order>[\d. -]+)\nno fault|fault (?P<fault>[a-z]+))\n"
)
REPLY_OF = {"true": True, "false": False, "pending": None}
REFUSAL_LINE = re.compile(
    r"treesched: (P\d+ \w+|bad schedule|step \d+: thread \d has no step|out of memory|can't read .*)\n?"
)
MEANINGS = {
    "P1": "it is no JSON text in UTF-8",
    "P2": "its JSON value is no object",
    "P3": "'version' is absent or not 1 or 2",
    "P4": "'tree' is absent or no name of a tree",
    "P5": "'initial' is absent, or no list of at most 12 keys from 0 to 99",
    "P6": "a key stands twice in 'initial'",
    "P7": "'threads' is absent, or no list of 1 to 4 threads",
    "P8": "a thread is no list of 1 to 6 operations, or all threads have more than 12",
    "P9": "an operation is no object whose 'op' is insert, delete or find",
    "P10": "the 'key' of an operation is absent, or no number from 0 to 99",
    "P12": "an 'after' is no list of a lower thread and a number of its operations",
}


def read_replay(text: str, program: str) -> Replay:
    found = REPLAY_TEXT.fullmatch(text)
    if not found:
        raise Unusable(f"{program} is not treesched: what it printed is no replay")
    listed = [
        Operation(name, word, int(key), REPLY_OF[reply])
        for name, word, key, reply in re.findall(OPERATION_LINE, found["listed"])
    ]
    order = [name for name in found["order"].split() if name != "-"] if found["order"] else None
    return Replay(listed, order, found["fault"])


def read_schedule(text: str) -> list[int]:
    """The steps of a schedule that stands on the command line."""
    if text and not re.fullmatch(r"\d(,\d)*", text, re.ASCII):
        raise Unusable("the schedule is no list of thread numbers, single digits joined by commas without spaces")
    steps = [int(digit) for digit in text.split(",")] if text else []
    if len(steps) > MOST_STEPS:
        raise Unusable(f"the schedule has {len(steps)} steps, and a replay has at most {MOST_STEPS}")
    return steps


def schedule_in(output: str) -> str:
    """The schedule in what `explore` printed, or in a text that is a schedule alone."""
    found = re.search(r"^schedule (.*)$", output, re.MULTILINE)
    if found:
        return found[1].strip()
    if not output.strip():
        raise Unusable("standard input has no schedule: it is empty")
    lines = output.split("\n")
    if re.fullmatch(r"[\d,]*", lines[0], re.ASCII) and not any(lines[1:]):
        return lines[0]
    raise Unusable(f"standard input has no schedule: its first line is {lines[0][:60]!r}")


def show_list(steps: list[int]) -> str:
    return ",".join(map(str, steps))


@dataclass
class Asker:
    """Asks PROGRAM for replays of one FILE, each schedule once."""

    program: str
    file: str
    name: str

    def __post_init__(self) -> None:
        self.known: dict[str, Replay] = {}

    def replay(self, steps: list[int]) -> Replay:
        schedule = show_list(steps)
        if schedule not in self.known:
            self.known[schedule] = self.ask(schedule)
        return self.known[schedule]

    def ask(self, schedule: str) -> Replay:
        words = [self.program, "replay", self.file, "--schedule", schedule]
        try:
            with subprocess.Popen(
                words, stdin=subprocess.DEVNULL, stdout=subprocess.PIPE, stderr=subprocess.PIPE
            ) as run:
                refused = self.pass_on(run)
                assert run.stdout is not None
                output = run.stdout.read().decode("utf-8", "replace")
        except OSError as fault:
            raise Unusable(f"can't run {self.program}: {fault.strerror}") from fault
        if run.returncode < 0:
            raise Unusable(f"{self.program} was ended by signal {-run.returncode}")
        if refused:
            raise Unusable(self.refusal(refused))
        if run.returncode not in (0, 1):
            raise Unusable(f"{self.program} ended with status {run.returncode}")
        return read_replay(output, self.program)

    def pass_on(self, run: subprocess.Popen[bytes]) -> str:
        """Passes on at once what the program says on standard error, but for the line by which it refuses.
        Returns that line."""
        refused = ""
        assert run.stderr is not None
        for line in run.stderr:
            text = line.decode("utf-8", "replace")
            found = REFUSAL_LINE.fullmatch(text)
            if found:
                refused = found[1]
            else:
                sys.stderr.write(text)
                sys.stderr.flush()
        return refused

    def refusal(self, line: str) -> str:
        number = line.split(" ")[0]
        if number in MEANINGS:
            return f"{self.name} is no program ({line}): {MEANINGS[number]}"
        if line.startswith("step "):
            return f"the schedule can't be run to its end: {line}"
        return f"can't read {self.name}" if line.startswith("can't read") else line


def read_source(text: bytes, name: str) -> Source:
    """The program in a text that treesched takes as one."""
    try:
        value = json.loads(text)
        threads = [[(operation["op"], operation["key"]) for operation in thread] for thread in value["threads"]]
        return Source(text, value["tree"], frozenset(value["initial"]), threads)
    except (ValueError, LookupError, TypeError, RecursionError) as fault:
        raise Unusable(f"can't read {name} as a program") from fault


def trace(asker: Asker, steps: list[int]) -> tuple[list[Operation], Replay]:
    """The operations with where they began and ended, and the replay of the whole schedule."""
    # the whole one first: it is refused before anything is made of its text
    whole = asker.replay(steps)
    first: dict[str, int] = {}
    last: dict[str, int] = {}
    for count in range(1, len(steps) + 1):
        for operation in asker.replay(steps[:count]).listed:
            first.setdefault(operation.name, count)
            if operation.reply is not None:
                last.setdefault(operation.name, count)
    operations = [
        replace(operation, first=first[operation.name], last=last.get(operation.name)) for operation in whole.listed
    ]
    return operations, whole


def write_file(path: str, text: str) -> None:
    try:
        Path(path).write_text(text, encoding="utf-8")
    except OSError as fault:
        raise Unusable(f"can't write {path}: {fault.strerror}") from fault


def read_file(path: str) -> bytes:
    return sys.stdin.buffer.read() if path == "-" else bytes_of(Path(path))
