#!/usr/bin/env python3
"""Compares the schemas of programs with the program: what a schema refuses the program refuses, and what the program
accepts docs/program.schema.json accepts.

usage: scripts/check_schema.py [--program PROGRAM]

Without PROGRAM the script `treesched` at the top is meant. Needed is the Python package jsonschema
(python3-jsonschema in Debian).

Both judge: the files of examples/, which both accept; texts at the limits, which both accept; texts with one
fault each, which both refuse, the program by the name that stands here; texts whose fault only the program
sees; and each text that comes of one program of each version by leaving out one part of it or putting another
value in its place, on which both agree. The strict schema, for editors, accepts those programs in which
scripts/lint_program.py finds no ignored member.

Each text on which they answer something else than stands here is shown, and at the end comes 'N texts, M
wrong'. The status is 0 if none is wrong, 1 if one is, and 2 where jsonschema is missing or PROGRAM doesn't
run.
"""
from __future__ import annotations

import json
import tempfile
from collections.abc import Callable, Iterator
from importlib import import_module
from pathlib import Path
from typing import Any

from common import EXAMPLES, PROGRAM, RIGHT, TOP, WRONG, Unusable, end, refusal_of, run_program, runnable, words_of
from lint_program import ignored_members
from programs import TREES

SCHEMA = TOP / "docs" / "program.schema.json"
STRICT = TOP / "docs" / "program.strict.schema.json"
ACCEPTED = ""

# Beginnings and ends of programs, which the tables put together.
START = '{"version": 1, "tree": "atomic", "initial": [7], '
THREADS = '"threads": [[{"op": "find", "key": 7}]]}'
FIND = {"op": "find", "key": 3}


def with_version(text: str) -> str:
    """A program whose version is this text."""
    return f'{{"version": {text}, "tree": "atomic", "initial": [7], {THREADS}'


def with_tree(text: str) -> str:
    """A program whose tree is this text."""
    return f'{{"version": 1, "tree": {text}, "initial": [7], {THREADS}'


def with_initial(text: str) -> str:
    """A program whose initial keys are this text."""
    return f'{{"version": 1, "tree": "atomic", "initial": {text}, {THREADS}'


def with_threads(text: str) -> str:
    """A program whose threads are this text."""
    return f'{START}"threads": {text}}}'


def with_operation(text: str) -> str:
    """A program whose last operation is this text."""
    return with_threads(f'[[{{"op": "insert", "key": 1}}], [{{"op": "find", "key": 2}}, {text}]]')


def with_key(text: str) -> str:
    """A program whose last key is this text."""
    return with_operation(f'{{"op": "delete", "key": {text}}}')


def with_member(text: str) -> str:
    """A program with a member of this text, which is ignored."""
    return f'{START}"size": {text}, {THREADS}'


def of_lengths(*lengths: int) -> str:
    """A program whose threads have so many operations."""
    return with_threads(json.dumps([[FIND] * length for length in lengths]))


def of_version_2(text: str) -> str:
    """A text of version 1 as one of version 2."""
    return text.replace('"version": 1', '"version": 2', 1)


def ignoring(thread: int, text: str, key: str = "7") -> str:
    """A program of version 1, four threads of two operations each, where the last of this thread has this key and an
    `after` of this text, which is ignored."""
    both = '{"op": "insert", "key": 1}, {"op": "delete", "key": 1}'
    waits = f'{{"op": "find", "key": 2}}, {{"op": "find", "key": {key}, "after": {text}}}'
    return with_threads("[" + ", ".join(f"[{waits if other == thread else both}]" for other in range(4)) + "]")


def waiting(thread: int, text: str, key: str = "7") -> str:
    """The same of version 2, where that operation waits."""
    return of_version_2(ignoring(thread, text, key))


# Texts at the limits, and members that are ignored.
LAWFUL = [
    *(with_tree(f'"{name}"') for name in TREES),
    with_initial("[]"),
    with_initial("[0, 99, 1, 2, 3, 4, 5, 6, 7, 8, 9, 10]"),
    of_lengths(1),
    of_lengths(6, 6),
    of_lengths(3, 3, 3, 3),
    *map(with_key, ("0", "99")),
    with_member("[" * 126 + "]" * 126),
    with_operation('{"key": 5, "thread": 9, "op": "find"}'),
    f'{{"title": "a program", "tree-2": 1, {START[1:]}"notes": [null, true, {{}}], {THREADS}',
    f'{{"\\u0076ersion": 1, "tree": "\\u006em", "initial": [], {THREADS}',
]

# Texts of version 2 that wait, up to the limits, and texts of version 1, in which `after` is ignored.
LAWFUL += [
    *(of_version_2(text) for text in LAWFUL if '"version": 1' in text),
    *(waiting(1, text) for text in ("[0, 1]", "[0, 2]", "[ 0,1 ]")),
    *(waiting(2, text) for text in ("[0, 1]", "[1, 2]")),
    *(waiting(3, text) for text in ("[0, 2]", "[1, 1]", "[2, 2]")),
    of_version_2(with_threads(json.dumps([[FIND] * 6, [{"after": [0, 6], **FIND}]]))),
    *(ignoring(1, text) for text in ("null", "[1, 1]", "[0, 9]", '"thread 0"', "[0, 1]", "[0, 1.0]")),
    ignoring(0, "[3, 1]"),
]

# Texts with one fault, by the name that the program prints.
SEEN: dict[str, list[str]] = {
    "P2 NotObject": ["[]", "null", "true", "1", '"version"', f"[{START}{THREADS}]"],
    "P3 Version": [
        f'{{"tree": "atomic", "initial": [7], {THREADS}',
        *map(with_version, ("3", "0", "-1", "12", '"1"', '"2"', "true", "null", "[1]", "[2]")),
    ],
    "P4 Tree": [
        f'{{"version": 1, "initial": [7], {THREADS}',
        *map(with_tree, ('"Ellen"', '"nm-no-mark"', '""', "null", '["nm"]')),
    ],
    "P5 Initial": [
        f'{{"version": 1, "tree": "atomic", {THREADS}',
        *map(with_initial, ("null", "7", "{}", '"7"', str([*range(13)]), "[100]", "[-1]")),
        *map(with_initial, ("[5.5]", '["5"]', "[null]", "[true]", "[[5]]")),
    ],
    "P6 InitialTwice": [with_initial(text) for text in ("[7, 7]", "[0, 1, 2, 3, 4, 5, 6, 7, 8, 9, 10, 0]")],
    "P7 Threads": [
        '{"version": 1, "tree": "atomic", "initial": [7]}',
        *map(with_threads, ("null", "{}", "1", "[]")),
        of_lengths(1, 1, 1, 1, 1),
    ],
    "P8 Ops": [
        *map(with_threads, ("[null]", "[{}]", '[{"op": "find", "key": 7}]', "[[]]")),
        of_lengths(1, 0),
        of_lengths(7),
    ],
    "P9 Op": [
        *map(with_operation, ("null", "1", "[]", '"find"', "{}", '{"key": 5}', '{"op": "Find", "key": 5}')),
        *map(with_operation, ('{"op": "", "key": 5}', '{"op": null, "key": 5}', '{"op": ["find"], "key": 5}')),
    ],
    "P10 Key": [
        with_operation('{"op": "find"}'),
        *map(with_key, ("100", "-1", "5.5", '"5"', "null", "true", "[5]")),
        waiting(1, "[1, 1]", key="100"),
        waiting(0, "[0, 1]", key='"5"'),
    ],
    "P12 After": [
        *(waiting(1, text) for text in ("null", "true", "0", '"[0, 1]"', "{}", '{"0": 1}')),
        *(waiting(1, text) for text in ("[]", "[0]", "[0, 1, 1]", "[[0, 1]]", "[null, 1]")),
        *(waiting(1, text) for text in ('["0", 1]', '[0, "1"]', "[0, null]", "[true, 1]", "[0, true]")),
        *(waiting(1, text) for text in ("[0, 0]", "[0, -1]", "[-1, 1]", "[0.5, 1]", "[0, 1.5]", "[0, 7]")),
        *(waiting(thread, f"[{other}, 1]") for thread in range(4) for other in range(thread, 5)),
        waiting(0, "null"),
    ],
}

# Of the texts with one fault, those of an earlier fault have it in version 2 too.
for name in ("P4 Tree", "P5 Initial", "P6 InitialTwice", "P7 Threads", "P8 Ops", "P9 Op", "P10 Key"):
    SEEN[name] += [of_version_2(text) for text in SEEN[name] if '"version": 1' in text]

# Texts whose fault JSON Schema can't see, by the name that the program prints.
UNSEEN: dict[str, list[str]] = {
    "P1 NotJson": [with_member(text) for text in ("1e999", '"\\ud800"', "[" * 127 + "]" * 127)],
    "P3 Version": [with_version(text) for text in ("1.0", "1e0", "2.0", "2e0")],
    "P5 Initial": [with_initial(text) for text in ("[5.0]", "[1e1]", "[-0]")],
    "P8 Ops": [of_lengths(6, 6, 1), of_lengths(6, 6, 6, 6), of_lengths(4, 3, 3, 3)],
    "P10 Key": [*(with_key(text) for text in ("5.0", "1e1", "-0")), waiting(1, "[0, 3]", key="7.0")],
    "P12 After": [waiting(1, text) for text in ("[0, 3]", "[0, 6]", "[0, 1.0]", "[0, 1e0]", "[0.0, 1]", "[-0, 1]")],
}

# What is put in the place of each part of a program. None of it has a fault that JSON Schema can't see.
OTHERS: list[Any] = [
    *(None, True, False, 0, 1, 2, 99, 100, -1, 0.5, "", "find", "nm", [], [1], [0, 1], [[]], {}),
    {"op": "find", "key": 1},
    {"op": "find", "key": 1, "after": [0, 1]},
]

# Threads of version 2 that wait. Those waited for have two operations: with 2 for the 1 of an `after` all is right.
WAITING: list[Any] = [
    [{"op": "insert", "key": 1}, {"op": "delete", "key": 7}],
    [{"op": "find", "key": 1, "after": [0, 1]}, {"op": "find", "key": 2}],
    [{"op": "find", "key": 7, "after": [1, 1]}],
]


def variants(value: Any) -> Iterator[Any]:
    """The values that come of this one by putting another in the place of one part of it, or by leaving one out."""
    yield from OTHERS
    if isinstance(value, dict):
        for name, part in value.items():
            yield {other: kept for other, kept in value.items() if other != name}
            yield from ({**value, name: changed} for changed in variants(part))
    if isinstance(value, list):
        for place, part in enumerate(value):
            yield value[:place] + value[place + 1 :]
            yield from ([*value[:place], changed, *value[place + 1 :]] for changed in variants(part))


def validator_of(schema: dict[str, Any]) -> Any:
    """A judge of values by a schema."""
    try:
        validator = import_module("jsonschema").Draft202012Validator
    except ImportError:
        raise Unusable("the Python package jsonschema is missing (in Debian, python3-jsonschema)") from None
    validator.check_schema(schema)
    return validator(schema)


class Judges:
    """The schemas and the program, and a count of the texts that they judged."""

    def __init__(self, program: Path, file: Path) -> None:
        self.program = program
        self.file = file
        self.validator = validator_of(json.loads(SCHEMA.read_text(encoding="utf-8")))
        strict = json.loads(STRICT.read_text(encoding="utf-8"))
        if strict.pop("$ref") != SCHEMA.name:
            raise Unusable(f"{STRICT} does not stand on {SCHEMA.name}")
        self.strict = validator_of(strict)
        self.texts = 0
        self.wrong = 0

    def fault_of(self, text: str) -> str:
        """The number and the name of the program's refusal of the text, or that it accepts it."""
        self.file.write_text(text, encoding="utf-8")
        ended = run_program(self.program, "explore", self.file, "--steps", 0)
        if ended.returncode == 0 and not ended.stderr:
            return ACCEPTED
        return refusal_of(ended.stderr) or f"status {ended.returncode}: {ended.stderr}"

    def judge(self, text: str, is_right: Callable[[bool, str], bool]) -> None:
        """Has a text judged by all, and shows it where what they answer is not right."""
        value = json.loads(text)
        accepts = bool(self.validator.is_valid(value))
        is_strict = accepts and bool(self.strict.is_valid(value))
        fault = self.fault_of(text)
        self.texts += 1
        if not is_right(accepts, fault) or is_strict != (accepts and not ignored_members(value)):
            self.wrong += 1
            words = {True: "accepts", False: "refuses"}
            schemas = f"the schema {words[accepts]} it, the strict one {words[is_strict]} it"
            print(f"{text}\n    {schemas}, the program: {fault or 'accepted'}")


def judge_all(judges: Judges) -> None:
    """Has all texts judged."""
    examples = [path.read_text(encoding="utf-8") for path in sorted(EXAMPLES.glob("*.json"))]
    for text in [*examples, *LAWFUL]:
        judges.judge(text, lambda accepts, fault: accepts and fault == ACCEPTED)
    for name, texts in SEEN.items():
        for text in texts:
            judges.judge(text, lambda accepts, fault, name=name: not accepts and fault == name)  # type: ignore[misc]
    for name, texts in UNSEEN.items():
        for text in texts:
            judges.judge(text, lambda accepts, fault, name=name: accepts and fault == name)  # type: ignore[misc]
    programs = [with_operation('{"op": "delete", "key": 7}'), of_version_2(with_threads(json.dumps(WAITING)))]
    names = {*SEEN, ACCEPTED}
    for text in sorted({json.dumps(value) for program in programs for value in variants(json.loads(program))}):
        judges.judge(text, lambda accepts, fault: fault in names and accepts == (fault == ACCEPTED))


def main() -> int:
    """Compares them, and answers the status."""
    parser = words_of(__doc__)
    parser.add_argument("--program", type=Path, default=PROGRAM, help="the program that is compared")
    program = runnable(parser.parse_args().program)
    with tempfile.TemporaryDirectory() as folder:
        judges = Judges(program, Path(folder) / "program.json")
        judge_all(judges)
    print(f"{judges.texts} texts, {judges.wrong} wrong")
    return WRONG if judges.wrong else RIGHT


if __name__ == "__main__":
    end(main)
