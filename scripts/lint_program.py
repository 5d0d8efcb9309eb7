#!/usr/bin/env python3
"""Warns of what a program file says in vain: members that the program ignores, and operations that can never matter.

usage: scripts/lint_program.py FILE ..

The program accepts a file with members that it does not know, and ignores them. So a misspelled `after` makes another
program than the one that was meant, and so does an `after` in version 1. Each of these gets a line:

- a member that is ignored (`$schema` at the top is for editors), with the name that was perhaps meant;
- a member that stands twice, whose meaning FORMATS.md leaves open;
- `after` in version 1;
- an operation that can never matter: a find or a delete of a key that nothing can have inserted before it ends, or an
  insert of an initial key that nothing can have deleted before it ends. It changes nothing, and its reply is certain;
- an `after` that asks for no more than the thread has waited for already.

At the end comes 'N files, M warnings'. The status is 0 without a warning, 1 with one, and 2 where a file can't be read
or is no program: `treesched explore FILE --steps 0` names the refusal.
"""
from __future__ import annotations

import json
import sys
from collections import Counter
from collections.abc import Iterator
from difflib import get_close_matches
from pathlib import Path
from typing import Any

from common import RIGHT, UNUSABLE, WRONG, Unusable, end, text_of, words_of
from programs import MOST_IN_ALL, MOST_INITIAL, MOST_KEY, MOST_OPERATIONS, MOST_THREADS, TREES, WORDS, Operation

PROGRAM_MEMBERS = ["version", "tree", "initial", "threads", "$schema"]
OPERATION_MEMBERS = ["op", "key", "after"]

# An operation by its thread and its number there.
Name = tuple[int, int]


class Members(dict[str, Any]):
    """A JSON object, and the names that stand in it more than once."""

    def __init__(self, pairs: list[tuple[str, Any]]) -> None:
        super().__init__(pairs)
        counts = Counter(name for name, _ in pairs)
        self.twice = [name for name, count in counts.items() if count > 1]


def is_key(value: Any) -> bool:
    """Whether a value is a key."""
    return type(value) is int and 0 <= value <= MOST_KEY


def is_list(value: Any, least: int, most: int) -> bool:
    """Whether a value is a list of so many items."""
    return isinstance(value, list) and least <= len(value) <= most


def is_operation(value: Any) -> bool:
    """Whether a value is an operation, whatever it waits for."""
    return isinstance(value, dict) and value.get("op") in [*WORDS.values()] and is_key(value.get("key"))


def is_wait(value: Any, thread: int, threads: list[list[Any]]) -> bool:
    """Whether a value is an `after` of an operation of a thread."""
    if not is_list(value, 2, 2) or not all(type(number) is int for number in value):
        return False
    other, count = value
    return bool(0 <= other < thread and 1 <= count <= len(threads[other]))


def is_program(value: Any) -> bool:
    """Whether a value is a program as docs/FORMATS.md has it."""
    if not isinstance(value, dict) or type(value.get("version")) is not int or value["version"] not in (1, 2):
        return False
    if value.get("tree") not in TREES:
        return False
    initial: Any = value.get("initial")
    threads: Any = value.get("threads")
    if not is_list(initial, 0, MOST_INITIAL) or not all(map(is_key, initial)) or len(set(initial)) < len(initial):
        return False
    if not is_list(threads, 1, MOST_THREADS) or not all(is_list(thread, 1, MOST_OPERATIONS) for thread in threads):
        return False
    if sum(map(len, threads)) > MOST_IN_ALL or not all(is_operation(item) for thread in threads for item in thread):
        return False
    return value["version"] == 1 or all(
        is_wait(item["after"], number, threads)
        for number, thread in enumerate(threads)
        for item in thread
        if "after" in item
    )


def member_warnings(place: str, value: dict[str, Any], known: list[str]) -> Iterator[str]:
    """Warnings of the members of one object."""
    for name in value.twice if isinstance(value, Members) else []:
        yield f"{place}{name!r} stands there twice, and the format gives that no meaning"
    for name in value:
        if name not in known:
            meant = get_close_matches(name.lower(), known, 1)
            yield f"{place}the program ignores {name!r}" + (f"; is {meant[0]!r} meant?" if meant else "")


def ended_before(threads: list[list[Operation]]) -> dict[Name, set[Name]]:
    """For each operation those that have ended in every schedule when it begins."""
    before: dict[Name, set[Name]] = {}
    for number, thread in enumerate(threads):
        ended: set[Name] = set()
        for index, operation in enumerate(thread):
            if operation.after:
                last = (operation.after[0], operation.after[1] - 1)
                ended = ended | before[last] | {last}
            before[number, index] = ended
            ended = ended | {(number, index)}
    return before


def idle_reply(name: Name, operation: Operation, initial: list[int], others: dict[Name, Operation]) -> str | None:
    """Why an operation can never matter, if so. The others are those that do not always begin after it has ended."""
    words = {other.word for at, other in others.items() if other.key == operation.key and at != name}
    key = operation.key
    if operation.word == "insert":
        is_idle = key in initial and "delete" not in words
        return f"{key} is there from the start, and nothing can have deleted it" if is_idle else None
    return f"nothing can have inserted {key}" if key not in initial and "insert" not in words else None


def operation_warnings(initial: list[int], threads: list[list[Operation]]) -> Iterator[str]:
    """Warnings of operations that can never matter, and of waits that ask for nothing."""
    before = ended_before(threads)
    operations = {(number, index): item for number, thread in enumerate(threads) for index, item in enumerate(thread)}
    for name, operation in operations.items():
        place = operation_place(*name, operation.value)
        others = {at: other for at, other in operations.items() if name not in before[at]}
        cause = idle_reply(name, operation, initial, others)
        if cause:
            yield f"{place}it can never matter: {cause}, so it replies false and changes nothing"
        earlier = (name[0], name[1] - 1)
        if operation.after and earlier in before:
            last = (operation.after[0], operation.after[1] - 1)
            if last in before[earlier]:
                ended = f"{last[0]}.{last[1]} has ended when {earlier[0]}.{earlier[1]} begins"
                yield f"{place}'after' asks for nothing: {ended}"


def operation_place(thread: int, index: int, value: dict[str, Any]) -> str:
    """Where a warning of an operation is: its name, its word and its key."""
    return f"{thread}.{index} {value['op']} {value['key']}: "


def ignored_members(value: dict[str, Any]) -> list[str]:
    """Warnings of the members of a program that are ignored, or stand there twice."""
    warnings = list(member_warnings("", value, PROGRAM_MEMBERS))
    for number, thread in enumerate(value["threads"]):
        for index, item in enumerate(thread):
            place = operation_place(number, index, item)
            warnings += member_warnings(place, item, OPERATION_MEMBERS)
            if "after" in item and value["version"] == 1:
                warnings.append(f"{place}version 1 ignores 'after'; write \"version\": 2")
    return warnings


def threads_of(value: dict[str, Any]) -> list[list[Operation]]:
    """The operations of a program."""
    waits = value["version"] == 2

    def operation(item: dict[str, Any]) -> Operation:
        after = (item["after"][0], item["after"][1]) if waits and "after" in item else None
        return Operation(item["op"], item["key"], after)

    return [[operation(item) for item in thread] for thread in value["threads"]]


def warnings_of(text: str) -> list[str]:
    """The warnings of the text of a program."""
    try:
        value = json.loads(text, object_pairs_hook=Members)
    except ValueError as fault:
        raise Unusable(f"no JSON: {fault}") from None
    except RecursionError:
        raise Unusable("no program: it nests too deep") from None
    if not is_program(value):
        raise Unusable("no program: treesched explore FILE --steps 0 names the refusal")
    return [*ignored_members(value), *operation_warnings(value["initial"], threads_of(value))]


def warnings_in(file: Path) -> list[str]:
    """The warnings of a file."""
    text = text_of(file)
    try:
        return warnings_of(text)
    except Unusable as fault:
        raise Unusable(f"{file} is {fault}") from None


def main() -> int:
    """Warns of each file, and answers the status."""
    parser = words_of(__doc__)
    parser.add_argument("files", metavar="FILE", type=Path, nargs="+")
    files: list[Path] = parser.parse_args().files
    count = unusable = 0
    for file in files:
        try:
            warnings = warnings_in(file)
        except Unusable as fault:
            print(f"lint_program: {fault}", file=sys.stderr)
            unusable += 1
            continue
        for warning in warnings:
            print(f"{file}: {warning}")
        count += len(warnings)
    print(f"{len(files)} files, {count} warnings")
    return UNUSABLE if unusable else WRONG if count else RIGHT


if __name__ == "__main__":
    end(main)
