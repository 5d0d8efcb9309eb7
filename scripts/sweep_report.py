#!/usr/bin/env python3
"""Makes sections of a page of what sweeps came to, one for each family, from the folders that scripts/sweep.py wrote.

usage: scripts/sweep_report.py [--note TEXT].. [--out PAGE] FOLDER[@K/N] ..

In PAGE, as docs/RESULTS.md, a section takes the place of the one of the same title, and that of a whole family also
the place of its part's; a new one comes behind those of other families, which stay as they are. What opens PAGE and
its last section, `What is not covered`, are written anew. PAGE is made if there is none, and written only when all
is well. Without --out a page that has the sections of these families alone is printed.

Each FOLDER is one family: the trees, initial keys, keys, numbers of threads and of operations that stand in it;
FOLDER@K/N is part K of N of one. Each program of it has to have one line, each answer has to have been judged
anew, and each line has to name the commit by whose sources it was made. Programs with more states than the sweep
allowed have no answer, and are counted. The notes, a paragraph each, stand at the end of each section that is made.
The status is 0 if the page was made, 1 if the results are incomplete or PAGE has the whole family of a part, and 2
where a folder can't be used, two families have one title, or PAGE is no page of results.
"""
from __future__ import annotations

import argparse
import os
import re
import sys
from collections import Counter
from collections.abc import Callable
from dataclasses import dataclass
from pathlib import Path
from textwrap import wrap

from common import MOST_STATES, MOST_STEPS, RIGHT, WRONG, Unusable, end, text_of, words_of
from programs import TREES, VARIANTS, WORDS, Family, Part, part_of
from results import FAULTS, Result, digest_of, read_results
from viewer.clash import Run, clash_words, smallest_clash
from viewer.replays import read_schedule, read_source
from viewer.steps import operations_at, walk
from viewer.text import text_picture

WIDTH = 100
PICTURE = 80
PART = ": a part"
NUMBERS = ["no", "one", "two", "three", "four", "five", "six"]


def listed(items: list[str], last: str = "and") -> str:
    """A list in words."""
    return f" {last} ".join([", ".join(items[:-1]), items[-1]] if len(items) > 1 else items)


HEAD = [
    "# Results",
    "What the program answered for every program of some families, or of a random part of one, on the trees of"
    f" [MACHINES.md](MACHINES.md) and their broken variants. The sweep explores each by names to {MOST_STEPS} steps.",
    "- *Every schedule holds*: `treesched explore` printed `holds for every schedule` and wrote the book, and"
    " `treesched check` passed that book with the same number of states.\n"
    "- *Fault*: the program printed a shortest schedule with a fault, and `treesched replay` found the same fault on"
    " that schedule.\n"
    f"- *No answer*: there are more states than the sweep allows, by default {MOST_STATES:,}.\n"
    "- *Digest*: the SHA-256 of the sorted lines `PROGRAM VERDICT STATES STEPS`, where the steps are those of a fault,"
    " else `-`. A rerun that found the same has the same digest.",
    f"Every operation is an {listed(list(WORDS.values()), 'or')} of one of the keys. Of programs that differ only in"
    " the order of their threads there is one, and of states that count as one ([by"
    " names](FORMATS.md#command-line)) too. [A name](SWEEPS.md#a-name) is short for a program file.",
]

LIMITS = [
    "## What is not covered",
    "Other numbers of threads, operations, keys or initial keys; initial keys inserted in another order; keys that lie"
    " otherwise between the initial keys; and other waits. That all programs of these families hold says nothing of a"
    " greater program, and proves neither tree. That no program of a family shows some fault of a variant does not"
    " exclude that fault.",
]


class Incomplete(Exception):
    """Results from which no page can be made. The text says what is missing."""


@dataclass(frozen=True)
class Swept:
    """A family, the part of it that was run, and the results."""

    folder: Path
    family: Family
    part: Part
    results: list[Result]

    def of(self, tree: str) -> list[Result]:
        """The results on a tree."""
        return [result for result in self.results if result.tree == tree]


def operations_in(result: Result) -> int:
    """How many operations a program has."""
    return sum(map(len, result.named.threads))


def family_of(results: list[Result]) -> Family:
    """The smallest family that has these programs."""
    programs = [result.named for result in results]
    operations = [operation for program in programs for thread in program.threads for operation in thread]
    trees = {program.tree for program in programs}
    initials = {",".join(map(str, program.initial)) or "-" for program in programs}
    waits = any(operation.after for operation in operations)
    return Family(
        [tree for tree in TREES if tree in trees],
        sorted(initials, key=lambda initial: (len(initial.split(",")), initial)),
        sorted({operation.key for operation in operations}),
        max(len(program.threads) for program in programs) - waits,
        max(len(thread) for program in programs for thread in program.threads),
        waits,
    )


def read_sweep(folder: Path, part: Part) -> Swept:
    """A folder of results as a family: each of its programs has one line, whose answer was judged anew."""
    results = read_results(folder)
    for result in results:
        if not result.checked or result.verdict == "holds":
            raise Incomplete(f"{folder}: {result.program}: {result.verdict} was not judged anew, or judged otherwise")
        if not result.commit:
            raise Incomplete(f"{folder}: the line of {result.program} names no commit (sweep.py --commit names it)")
    family = family_of(results)
    counts = Counter(result.program for result in results)
    names = set(family.names(part))
    missing, strange = len(names - counts.keys()), len(counts.keys() - names)
    twice = sum(count > 1 for count in counts.values())
    if missing or strange or twice:
        counted = f"{missing} programs of the family have no line, {twice} have more than one"
        raise Incomplete(f"{folder}: {counted}, and {strange} lines are of another family")
    return Swept(folder, family, part, results)


def count(number: int) -> str:
    """A number as pages show it."""
    return f"{number:,}"


def filled(text: str) -> str:
    """A paragraph, or items of a list, in lines of the page's width."""
    lines = []
    for line in text.split("\n"):
        indent = "  " if line.startswith("- ") else ""
        lines += wrap(line, WIDTH, subsequent_indent=indent, break_long_words=False, break_on_hyphens=False)
    return "\n".join(lines) + "\n"


def operations_of(family: Family) -> str:
    """How many operations a thread has, in words."""
    if family.most == 1:
        return "one operation"
    return f"one {'or' if family.most == 2 else 'to'} {NUMBERS[family.most]} operations"


def title_of(swept: Swept) -> str:
    """A family in few words. A page has one section of a title."""
    family = swept.family
    title = f"{NUMBERS[family.threads].capitalize()} threads of {operations_of(family)}"
    if family.waits:
        title += ", and a find that waits"
    if len(family.trees) == 1:
        title += f", on `{family.trees[0]}`"
    elif set(family.trees) <= set(VARIANTS):
        title += ", on the variants"
    return title + PART if swept.part.all > 1 else title


def command_of(swept: Swept) -> str:
    """The command that runs the family."""
    family = swept.family
    words = ["scripts/sweep.py --out", swept.folder.name, "--trees", *family.trees]
    words += ["--initial", *family.initials, "--keys", ",".join(map(str, family.keys))]
    words += ["--threads", str(family.threads), "--most", str(family.most)]
    words += ["--waits"] if family.waits else []
    words += ["--part", str(swept.part)] if swept.part.all > 1 else []
    return " ".join(words)


def in_words(swept: Swept) -> str:
    """The keys of a family and what waits in it, in words, with how many programs it has."""
    family, part = swept.family, swept.part
    initials = listed([f"[{initial.strip('-').replace(',', ', ')}]" for initial in family.initials])
    keys = f"Key{'s' if len(family.keys) > 1 else ''} {listed(list(map(str, family.keys)))}"
    words = f"{keys}; initial list{'s' if len(family.initials) > 1 else ''} {initials}."
    if family.waits:
        words += " One more thread has one find, which waits for an operation of the others (version 2)."
    programs = len(family.initials) * sum(1 for _ in family.threads_of())
    if part.all == 1:
        return f"{words} All {count(programs)} programs of each tree were run."
    words += f" Of the {count(programs)} programs of each tree one in {part.all} was run, in all"
    return f"{words} {count(len(swept.results))}: those that `--part {part}` draws, by a hash of their names."


def greatest(results: list[Result], measure: Callable[[Result], float]) -> Result:
    """The result with the greatest measure, the first by its name where there are several."""
    return max(sorted(results, key=lambda result: result.program), key=measure)


def row(tree: str, results: list[Result]) -> list[str]:
    """The row of a tree."""
    verdicts = Counter(result.verdict for result in results)
    faults = [f"{count(verdicts[kind])} `{kind}`" for kind in FAULTS if verdicts[kind]]
    answered = [result for result in results if result.verdict != "stopped"] or results
    largest = greatest(answered, lambda result: result.states)
    slowest = greatest(results, lambda result: result.seconds)
    return [
        f"`{tree}`",
        count(len(results)),
        count(verdicts["every"]),
        ", ".join(faults) or "0",
        count(verdicts["stopped"]),
        f"{count(largest.states)} (`{largest.program}`)",
        count(max(result.steps for result in answered)),
        f"{slowest.seconds:.2f} (`{slowest.program}`)",
    ]


def table(swept: Swept) -> str:
    """The table of a family, with a row for each tree."""
    heads = ["Tree", "Programs", "Every schedule holds", "Fault", "No answer", "Most states", "Most steps"]
    rows = [row(tree, swept.of(tree)) for tree in swept.family.trees]
    lines = [f"| {' | '.join(line)} |" for line in ([*heads, "Most CPU seconds to explore"], *rows)]
    return "\n".join([lines[0], "|---" * (len(heads) + 1) + "|", *lines[1:]]) + "\n"


def sums(swept: Swept) -> str:
    """What a family took, by which sources, and its digest."""
    hours = [sum(taken) / 3600 for taken in zip(*((result.seconds_all, result.seconds) for result in swept.results))]
    commits = listed(sorted({f"`{result.commit}`" for result in swept.results}))
    words = "It took {:.2g} CPU hours, {:.2g} of them to explore, by the sources of commit {}.".format(*hours, commits)
    return f"{filled(words)}\nDigest: `{digest_of(swept.results)}`\n"


def picture(result: Result) -> str:
    """The lanes of a fault, and why its replies have no order."""
    source, schedule = read_source(result.named.text.encode(), result.program), read_schedule(result.schedule or "")
    operations = operations_at(walk(source, schedule), len(schedule))
    finding = [f"fault {result.verdict}"]
    if result.verdict == "history":
        finding.append(clash_words(smallest_clash(operations, source.initial), operations, source))
    title = f"{result.program}, schedule {result.schedule}"
    run = Run(title, schedule, len(source.threads), operations, [], [], finding)
    return f"```text\n{text_picture(run, PICTURE)}```\n"


def smallest(tree: str, results: list[Result]) -> str:
    """The programs of a variant that go wrong with the fewest operations, and one of these with the shortest fault."""
    wrong = [result for result in results if result.verdict in FAULTS]
    if not wrong:
        return f"None of these programs goes wrong on `{tree}`.\n"
    operations = min(map(operations_in, wrong))
    fewest = [result for result in wrong if operations_in(result) == operations]
    steps = min(result.steps for result in fewest)
    shortest = sorted((result for result in fewest if result.steps == steps), key=lambda result: result.program)
    overall = min(result.steps for result in wrong)
    go = "go" if len(fewest) > 1 else "goes"
    words = f"On `{tree}` {count(len(fewest))} of these programs {go} wrong with {operations} operations, and none with"
    words += f" fewer. The shortest fault of these takes {steps} steps, in {len(shortest)} of them"
    words += "; none has a shorter one." if overall == steps else f"; with more operations there are {overall}."
    return "\n".join([filled(words), picture(shortest[0])])


def section(swept: Swept, notes: list[str]) -> str:
    """What a family came to, and the notes."""
    faulty = [smallest(tree, swept.of(tree)) for tree in swept.family.trees if tree in VARIANTS]
    blocks = [f"## {title_of(swept)}\n", filled(in_words(swept)), f"    {command_of(swept)}\n", table(swept)]
    return "\n".join([*blocks, sums(swept), *faulty, *map(filled, notes)])


def by_heading(sections: list[str]) -> dict[str, str]:
    """Sections by their headings. A part goes by that of its whole family."""
    return {text.partition("\n")[0].removesuffix(PART): text for text in sections}


def page(old: str, made: list[str]) -> str:
    """The whole page: the sections of the old one, and those made now in their places or behind them."""
    kept, new = by_heading(re.split(r"\n(?=## )", old)[1:]), by_heading(made)
    kept.pop(LIMITS[0], None)
    if len(new) < len(made):
        raise Unusable("two of these families have one title")
    for heading, text in new.items():
        if text.startswith(heading + PART) and kept.get(heading, "").startswith(f"{heading}\n"):
            raise Incomplete(f"{heading[3:]}: the page has the whole family, and a part can't take its place")
    return "\n".join([*map(filled, HEAD), *(kept | new).values(), *map(filled, LIMITS)])


def old_page(file: Path | None) -> str:
    """The page as it stands, if there is one, which this script has to have made."""
    text = text_of(file) if file and file.exists() else f"{HEAD[0]}\n"
    if not text.startswith(f"{HEAD[0]}\n"):
        raise Unusable(f"{file} is no page of results: it does not begin with `{HEAD[0]}`")
    return text


def write_whole(file: Path, text: str) -> None:
    """Writes a file at once or not at all."""
    beside = file.with_name(f".{file.name}.new")
    try:
        beside.write_text(text, encoding="utf-8")
        os.replace(beside, file)
    except OSError as fault:
        raise Unusable(f"can't write {file}: {fault.strerror}") from None


def folder_of(text: str) -> tuple[Path, Part]:
    """For argparse: a folder of results, and which part of its family it has."""
    folder, at, part = text.partition("@")
    return Path(folder), part_of(part) if at else Part()


def read_words() -> argparse.Namespace:
    """The words of the command line."""
    parser = words_of(__doc__)
    parser.add_argument("--note", metavar="TEXT", action="append", default=[], help="how the runs were made")
    parser.add_argument("--out", metavar="PAGE", type=Path, help="the page, which else is printed")
    parser.add_argument("folders", metavar="FOLDER", type=folder_of, nargs="+")
    return parser.parse_args()


def main() -> int:
    """Makes the page, and answers the status."""
    words = read_words()
    try:
        old = old_page(words.out)
        text = page(old, [section(read_sweep(*folder), words.note) for folder in words.folders])
    except Incomplete as fault:
        print(f"sweep_report: {fault}", file=sys.stderr)
        return WRONG
    if words.out:
        write_whole(words.out, text)
    else:
        print(text, end="")
    return RIGHT


if __name__ == "__main__":
    end(main)
