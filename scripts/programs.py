"""Names of programs, the families that a sweep explores, and what the format allows.

A name is short for a program file. `ellen:10,20:i5,d10:f15` is the tree `ellen` with the initial keys 10 and 20, a
thread that inserts 5 and deletes 10, and one that finds 15. In `ellen:10:i5:f5@0.0`, of version 2, the find of 5
waits until the operation 0.0, which is the first of thread 0, has ended.
"""
from __future__ import annotations

import argparse
import hashlib
import json
import re
from collections.abc import Iterable, Iterator
from dataclasses import dataclass
from itertools import combinations_with_replacement, product
from typing import NamedTuple

from common import Unusable

VARIANTS = ["ellen-no-mark", "ellen-no-iflag", "nm-no-tag"]
TREES = ["atomic", "ellen", "ellen-no-mark", "ellen-no-iflag", "nm", "nm-no-tag"]
WORDS = {"i": "insert", "d": "delete", "f": "find"}
LETTERS = {word: letter for letter, word in WORDS.items()}
MOST_INITIAL, MOST_THREADS, MOST_OPERATIONS, MOST_IN_ALL, MOST_KEY = 12, 4, 6, 12, 99
KEY = re.compile(r"0|[1-9][0-9]?")
OPERATION = re.compile(rf"([idf])({KEY.pattern})(?:@([0-9])\.([0-9]))?")


class Operation(NamedTuple):
    """An operation, and what it waits for: a thread, and how many operations that has to have finished."""

    word: str
    key: int
    after: tuple[int, int] | None = None

    @property
    def name(self) -> str:
        """As it stands in the name of a program."""
        waits = f"@{self.after[0]}.{self.after[1] - 1}" if self.after else ""
        return f"{LETTERS[self.word]}{self.key}{waits}"

    @property
    def value(self) -> dict[str, object]:
        """As it stands in the file of a program."""
        return {"op": self.word, "key": self.key, **({"after": list(self.after)} if self.after else {})}


Thread = tuple[Operation, ...]


def keys_of(text: str) -> list[int]:
    """The keys of a list joined by commas, where each may stand once."""
    words = text.split(",") if text else []
    if not all(map(KEY.fullmatch, words)):
        raise Unusable(f"{text!r} is no list of keys, which are numbers from 0 to {MOST_KEY} with commas between")
    keys = [int(word) for word in words]
    if len(set(keys)) < len(keys):
        raise Unusable(f"a key stands twice in {text!r}")
    return keys


def initial_of(text: str) -> list[int]:
    """The initial keys of a list, which is empty where it is `-` or nothing."""
    keys = keys_of("" if text == "-" else text)
    if len(keys) > MOST_INITIAL:
        raise Unusable(f"{text!r} has {len(keys)} initial keys: a program has at most {MOST_INITIAL}")
    return keys


def key_list(text: str) -> list[int]:
    """For argparse: the keys of a list, which is not empty."""
    try:
        keys = keys_of(text)
    except Unusable as fault:
        raise argparse.ArgumentTypeError(str(fault)) from None
    if not keys:
        raise argparse.ArgumentTypeError("a family needs a key")
    return keys


def initial_list(text: str) -> str:
    """For argparse: a list of initial keys, as it stands in names and on the command line."""
    try:
        return ",".join(map(str, initial_of(text))) or "-"
    except Unusable as fault:
        raise argparse.ArgumentTypeError(str(fault)) from None


def read_operation(text: str) -> Operation:
    """An operation of a name."""
    found = OPERATION.fullmatch(text)
    if not found:
        raise Unusable(f"{text!r} is no operation, as i5, d10 or f15@0.0")
    letter, key, thread, index = found.groups()
    return Operation(WORDS[letter], int(key), (int(thread), int(index) + 1) if thread else None)


@dataclass(frozen=True)
class NamedProgram:
    """A program that has a name."""

    tree: str
    initial: list[int]
    threads: list[Thread]

    @property
    def version(self) -> int:
        """2 where an operation waits."""
        return 2 if any(operation.after for thread in self.threads for operation in thread) else 1

    @property
    def text(self) -> str:
        """The text of its file."""
        lines = ",\n".join(
            f"    {json.dumps([operation.value for operation in thread])}" for thread in self.threads
        )
        head = f'  "version": {self.version},\n  "tree": "{self.tree}",\n  "initial": {self.initial},\n'
        return f'{{\n{head}  "threads": [\n{lines}\n  ]\n}}\n'


def read_name(name: str) -> NamedProgram:
    """The program of a name. What the program would refuse is no name."""
    tree, *parts = name.split(":")
    try:
        if tree not in TREES or len(parts) < 2:
            raise Unusable(f"it does not begin with a tree ({', '.join(TREES)}), initial keys and a thread")
        threads = [tuple(map(read_operation, part.split(","))) for part in parts[1:]]
        counts = [len(thread) for thread in threads]
        if len(counts) > MOST_THREADS or max(counts) > MOST_OPERATIONS or sum(counts) > MOST_IN_ALL:
            raise Unusable("it has more threads or operations than a program may have")
        for number, thread in enumerate(threads):
            for operation in thread:
                other, count = operation.after or (-1, 0)
                if other >= number or count > len(threads[other]):
                    raise Unusable(f"{operation.name} waits for no operation of an earlier thread")
        return NamedProgram(tree, initial_of(parts[0]), threads)
    except Unusable as fault:
        raise Unusable(f"{name!r} is no name of a program: {fault}") from None


def program_text(name: str) -> str:
    """The program file of a name."""
    return read_name(name).text


def with_waiting_find(threads: tuple[Thread, ...], keys: list[int]) -> Iterator[tuple[Thread, ...]]:
    """The programs that have one more thread, whose find of a key waits for one operation of these threads. Of threads
    that are alike it waits for the first."""
    for number, thread in enumerate(threads):
        if thread not in threads[:number]:
            for index, key in product(range(len(thread)), keys):
                yield (*threads, (Operation("find", key, (number, index + 1)),))


def name_of(thread: Iterable[Operation]) -> str:
    """A thread as it stands in a name."""
    return ",".join(operation.name for operation in thread)


@dataclass(frozen=True)
class Part:
    """One of `all` parts of a family. A program's part is drawn by its name alone, so that each part is a random
    sample, and is the same on every machine."""

    number: int = 1
    all: int = 1

    def __str__(self) -> str:
        return f"{self.number}/{self.all}"

    def has(self, name: str) -> bool:
        """Whether the program of this name is in the part."""
        drawn = int.from_bytes(hashlib.sha256(name.encode()).digest(), "big")
        return drawn % self.all == self.number - 1


def part_of(text: str) -> Part:
    """For argparse: a part, as K/N."""
    found = re.fullmatch(r"([1-9][0-9]{0,5})/([1-9][0-9]{0,5})", text)
    if not found or int(found[1]) > int(found[2]):
        raise argparse.ArgumentTypeError(f"{text!r} is no part, as 1/8 or 8/8")
    return Part(int(found[1]), int(found[2]))


@dataclass(frozen=True)
class Family:
    """Which programs a sweep explores: on each tree and each list of initial keys, so many threads of 1 to `most`
    operations on the keys. With `waits` there is one more thread, whose find waits for an operation of the others."""

    trees: list[str]
    initials: list[str]
    keys: list[int]
    threads: int
    most: int
    waits: bool = False

    def refuse(self) -> None:
        """Refuses a family that is none, or that has a program which treesched would refuse."""
        threads, most = self.threads + self.waits, self.threads * self.most + self.waits
        if threads > MOST_THREADS or most > MOST_IN_ALL:
            limits = f"a program has at most {MOST_THREADS} threads and {MOST_IN_ALL} operations"
            raise Unusable(f"these are {threads} threads and {most} operations: {limits}")
        if len(set(self.trees)) < len(self.trees) or len(set(self.initials)) < len(self.initials):
            raise Unusable("a tree or a list of initial keys stands twice")

    def threads_of(self) -> Iterator[tuple[Thread, ...]]:
        """The threads of its programs, one of each class that differs in the order of threads alone."""
        operations = [Operation(word, key) for word in WORDS.values() for key in self.keys]
        threads = [chosen for count in range(1, self.most + 1) for chosen in product(operations, repeat=count)]
        for chosen in combinations_with_replacement(threads, self.threads):
            if self.waits:
                yield from with_waiting_find(chosen, self.keys)
            else:
                yield chosen

    def names(self, part: Part = Part()) -> Iterator[str]:
        """The names of the programs of a part."""
        for tree, initial in product(self.trees, self.initials):
            for threads in self.threads_of():
                name = ":".join([tree, initial.strip("-"), *map(name_of, threads)])
                if part.has(name):
                    yield name
