#!/usr/bin/env python3
"""Damages book files in many ways, and compares what `PROGRAM check` says of each with a judge of its own.

usage: scripts/mutate_books.py [PROGRAM] [--count N] [--seed N] [--keep FOLDER]

Without PROGRAM the script `treesched` at the top is meant. The books are those that PROGRAM writes of small
programs: of the machine `atomic`, of both trees, and of programs of version 2; and one that follows a
schedule with a fault, step by step. They are damaged N times in all (2000 without --count): bytes changed,
put in and left out, lines left out, repeated and moved, other parents, threads, orders and numbers of
entries, spaces, zeros, files cut off or with something after their end; and changes that do no harm.
scripts/book_judge.py says which answer is right.

Each book on which PROGRAM answers something else is shown, and kept in FOLDER where one is given. At the end
come how often each kind of answer was given, and 'N books, M wrong'. The status is 0 if none is wrong and
each kind of answer was seen, 1 if not, and 2 where PROGRAM doesn't run.
"""
from __future__ import annotations

import json
import re
import tempfile
from collections import Counter
from collections.abc import Callable
from dataclasses import dataclass
from pathlib import Path
from random import Random

from book_judge import Program, judge, passing, read_book
from common import EXAMPLES, MOST_STEPS, PROGRAM, RIGHT, WRONG
from common import Unusable, end, number_from, refusal_of, run_program, runnable, words_of

FAULTY = "nm_no_tag_order.json"
CLOSED = [
    *("two_inserts.json", "delete_and_find.json", "three_threads.json"),
    *("two_finds.json", "nm.json", "nm_after.json"),
]
KINDS = ["passes", "C1", "C2", "C3", "C4", "C5", "C6"]

# Programs that no example is: the machine `atomic` in version 2, and a tree with few states.
WAITING = {
    "version": 2,
    "tree": "atomic",
    "initial": [3],
    "threads": [
        [{"op": "insert", "key": 1}, {"op": "delete", "key": 3}],
        [{"op": "find", "key": 3, "after": [0, 1]}, {"op": "insert", "key": 1}],
        [{"op": "delete", "key": 1, "after": [1, 1]}],
    ],
}
SMALL = {
    "version": 1,
    "tree": "ellen",
    "initial": [10],
    "threads": [[{"op": "insert", "key": 5}], [{"op": "delete", "key": 10}]],
}


@dataclass(frozen=True)
class Base:
    """A program with a book of it."""

    file: Path
    program: Program
    book: bytes


def closed_base(treesched: Path, file: Path, folder: Path) -> Base:
    """A program whose every schedule holds, and its book."""
    out = folder / f"{file.stem}.book"
    ended = run_program(treesched, "explore", file, "--steps", MOST_STEPS, "--merge", "names", "--book", out)
    if ended.returncode or not ended.stdout.startswith("holds for every schedule\n"):
        raise Unusable(f"no book of {file}: {(ended.stdout + ended.stderr).strip()}")
    return Base(file, Program(file.read_bytes()), out.read_bytes())


def faulty_base(treesched: Path, file: Path) -> Base:
    """A program with a fault, and a book that follows the schedule to it."""
    explored = run_program(treesched, "explore", file, "--steps", MOST_STEPS).stdout
    found = re.search(r"^schedule (.+)$", explored, re.MULTILINE)
    if not found:
        raise Unusable(f"no fault of {file}")
    threads = found[1].split(",")
    lines = [f"treesched book 1 entries {len(threads) + 1}", "- - -"]
    for count, thread in enumerate(threads):
        replay = run_program(treesched, "replay", file, "--schedule", ",".join(threads[: count + 1])).stdout
        order = re.search(r"^order (.+)$", replay, re.MULTILINE)
        lines.append(f"{count} {thread} {order[1].replace(' ', ',') if order else '-'}")
    return Base(file, Program(file.read_bytes()), ("\n".join(lines) + "\n").encode())


def bases(treesched: Path, folder: Path) -> list[Base]:
    """All programs with their books."""
    files = [EXAMPLES / name for name in CLOSED]
    for name, value in (("waiting", WAITING), ("small", SMALL)):
        files.append(folder / f"{name}.json")
        files[-1].write_text(json.dumps(value), encoding="utf-8")
    return [*(closed_base(treesched, file, folder) for file in files), faulty_base(treesched, EXAMPLES / FAULTY)]


def other_byte(random: Random, data: bytes) -> bytes:
    """One byte changed, put in or left out."""
    place = random.randrange(len(data) + 1)
    telling = random.choice([b"0", b"9", b" ", b"\n", b"-", b".", b",", b"\r", b"\0"])
    put = random.choice([b"", bytes([random.randrange(256)]), telling])
    return data[:place] + put + data[place + random.randrange(2) :]


def other_end(random: Random, data: bytes) -> bytes:
    """The file cut off, or with something after its end."""
    if random.randrange(2):
        return data[: random.randrange(len(data))]
    return data + random.choice([b"\n", b" ", b"0", b"0 0 -\n", b"\0", b"\n\n", b"\xef\xbb\xbf", data])


def with_lines(change: Callable[[Random, list[bytes]], None]) -> Callable[[Random, bytes], bytes]:
    """A change of the lines of the entries after the first. Most of the time the first line then has their number."""

    def changed(random: Random, data: bytes) -> bytes:
        head, *lines = data.removesuffix(b"\n").split(b"\n")
        start, lines = lines[:1], lines[1:]
        if lines:
            change(random, lines)
        if random.randrange(4):
            head = b"treesched book 1 entries %d" % (len(lines) + 1)
        return b"\n".join([head, *start, *lines]) + b"\n"

    return changed


def drop_lines(random: Random, lines: list[bytes]) -> None:
    """Some lines at the end, or one anywhere."""
    if random.randrange(2):
        del lines[-random.randint(1, 3) :]
    else:
        del lines[random.randrange(len(lines))]


def repeat_line(random: Random, lines: list[bytes]) -> None:
    """A line once more, at the end or anywhere."""
    lines.insert(random.choice([len(lines), random.randrange(len(lines))]), random.choice(lines))


def swap_lines(random: Random, lines: list[bytes]) -> None:
    """Two lines in each other's place."""
    first = random.randrange(len(lines))
    second = random.choice([random.randrange(len(lines)), (first + 1) % len(lines)])
    lines[first], lines[second] = lines[second], lines[first]


def with_fields(change: Callable[[Random, list[bytes], int], None]) -> Callable[[Random, bytes], bytes]:
    """A change of the fields of one line, which gets its number among the entries too."""

    def changed(random: Random, data: bytes) -> bytes:
        lines = data.split(b"\n")
        if len(lines) < 3:
            return data
        number = random.randrange(1, len(lines) - 1)
        fields = lines[number].split(b" ")
        change(random, fields, number - 1)
        lines[number] = b" ".join(fields)
        return b"\n".join(lines)

    return changed


def other_parent(random: Random, fields: list[bytes], entry: int) -> None:
    """Another parent: an earlier entry, one near by, or one of no file."""
    near = [entry, entry + 1, max(entry - 1, 0)]
    numbers = [random.randrange(max(entry, 1)), *near, 2_000_000, 10**30, 2**64, 2**32 + entry - 1]
    fields[0] = b"%d" % random.choice([numbers[0], random.choice(numbers)])


def other_thread(random: Random, fields: list[bytes], entry: int) -> None:
    """Another thread."""
    if len(fields) > 1:
        fields[1] = b"%d" % random.choice([random.randrange(4), random.randrange(12)])


def other_order(random: Random, fields: list[bytes], entry: int) -> None:
    """Another order: names in other places, left out, put in, repeated or strange."""
    names = [] if fields[-1] == b"-" else fields[-1].split(b",")
    strange = b"%d.%d" % (random.randrange(4), random.randrange(7))
    if names and random.randrange(3):
        place = random.randrange(len(names))
        names[place : place + 1] = random.choice([[], [strange], [names[place], names[place]], [random.choice(names)]])
    else:
        names.insert(random.randint(0, len(names)), strange)
    if random.randrange(2):
        random.shuffle(names)
    fields[-1] = b",".join(names) or random.choice([b"-", b"-", b""])


def other_shape(random: Random, fields: list[bytes], entry: int) -> None:
    """Spaces, zeros and signs where none belong, a field too many or too few."""
    place = random.randrange(len(fields))
    field = fields[place]
    spaced = [[field, b""], [b"", field], [field + b"\r"], [b"\t" + field]]
    other: list[list[bytes]] = [[b"0" + field], [b"+" + field], [field, field], [], [field + b","], [b"-"]]
    fields[place : place + 1] = random.choice([*spaced, *other])


def other_head(random: Random, data: bytes) -> bytes:
    """Another first line."""
    head, _, rest = data.partition(b"\n")
    words, _, count = head.rpartition(b" ")
    number = int(count) if count.isdigit() and len(count) < 10 else 1
    counts = [number + 1, max(number - 1, 0), 0, 2_000_000, 2_000_001, 2**32 + number, 2**64 + number, 10**30]
    texts = [b"%d" % random.choice(counts), b"0" + count, b"+" + count, count + b" ", count + b"\r"]
    texts += [b"", b"five", count[:-1]]
    heads = [b"treesched book 2 entries", b"Treesched book 1 entries", b"treesched book 1 entry"]
    heads += [words + b" ", b"\xef\xbb\xbf" + words]
    if random.randrange(3):
        return words + b" " + random.choice(texts) + b"\n" + rest
    return random.choice(heads) + b" " + count + b"\n" + rest


def harmless(random: Random, data: bytes) -> bytes:
    """Changes after which a book that passes still does: other order of entries, parents first, and one repeated."""
    lines = read_book(data)
    if isinstance(lines, int) or not lines:
        return data
    texts = data.split(b"\n")[2:-1]
    placed, waiting, out = {0: 0}, list(range(1, len(lines) + 1)), []
    while waiting:
        ready = [entry for entry in waiting if lines[entry - 1].parent in placed]
        if not ready:
            return data
        entry = random.choice(ready)
        waiting.remove(entry)
        out.append(b"%d %s" % (placed[lines[entry - 1].parent], texts[entry - 1].split(b" ", 1)[1]))
        placed[entry] = len(out)
    if random.randrange(2):
        out.append(random.choice(out))
    return b"\n".join([b"treesched book 1 entries %d" % (len(out) + 1), b"- - -", *out]) + b"\n"


# Changes of the form, and as many again after which a book is mostly in the form and says something else.
CHANGES: list[Callable[[Random, bytes], bytes]] = [
    *(other_byte, other_end, other_head, with_fields(other_shape)),
    *map(with_lines, (drop_lines, repeat_line, swap_lines)),
    *map(with_fields, (other_parent, other_parent, other_thread, other_order, other_order)),
    harmless,
]


def damaged(random: Random, book: bytes) -> bytes:
    """A book with one to three changes."""
    for _ in range(random.choice([1, 1, 1, 2, 3])):
        book = random.choice(CHANGES)(random, book) if book else book
    return book


def answer(treesched: Path, file: Path, book: Path) -> str:
    """What the program says of a book."""
    ended = run_program(treesched, "check", file, book)
    passed = re.fullmatch(r"every schedule holds\nstates (\d+)\n", ended.stdout)
    if ended.returncode == 0 and passed and not ended.stderr:
        return passing(int(passed[1]))
    refused = refusal_of(ended.stderr)
    if ended.returncode == 3 and refused and not ended.stdout:
        return refused
    return f"status {ended.returncode}: {ended.stdout}{ended.stderr}"


def compare(treesched: Path, count: int, random: Random, keep: Path | None) -> tuple[Counter[str], int]:
    """Has so many books judged by both. Answers how often each kind of answer was given, and how many were wrong."""
    seen, wrong = Counter[str](), 0
    with tempfile.TemporaryDirectory() as name:
        book = Path(name) / "damaged.book"
        programs = bases(treesched, Path(name))
        for number in range(count):
            base = programs[number % len(programs)]
            book.write_bytes(base.book if number < len(programs) else damaged(random, base.book))
            said, right = answer(treesched, base.file, book), judge(base.program, book.read_bytes())
            seen[said.split()[0]] += 1
            if said != right:
                wrong += 1
                print(f"book {number}, of {base.file.name}: the program says {said!r}, and right is {right!r}")
                if keep:
                    keep.mkdir(parents=True, exist_ok=True)
                    (keep / f"{number}-{base.file.stem}.book").write_bytes(book.read_bytes())
    return seen, wrong


def main() -> int:
    """Compares the two, and answers the status."""
    parser = words_of(__doc__)
    parser.add_argument("program", metavar="PROGRAM", type=Path, nargs="?", default=PROGRAM)
    parser.add_argument("--count", metavar="N", type=number_from(1, 10**6), default=2000, help="how many books")
    parser.add_argument("--seed", metavar="N", type=int, default=1, help="with which the choices begin")
    parser.add_argument("--keep", metavar="FOLDER", type=Path, help="a folder for the books that are judged otherwise")
    words = parser.parse_args()
    seen, wrong = compare(runnable(words.program), words.count, Random(words.seed), words.keep)
    print(", ".join(f"{kind} {seen[kind]}" for kind in sorted(seen)))
    print(f"{words.count} books, {wrong} wrong")
    return RIGHT if not wrong and all(seen[kind] for kind in KINDS) else WRONG


if __name__ == "__main__":
    end(main)
