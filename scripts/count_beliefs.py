#!/usr/bin/env python3
"""Counts what a reader has to believe: the definitions that public contracts cite.

usage: scripts/count_beliefs.py [--files | --names] [--check | --write]

A contract is a `requires`, an `ensures` or a ghost member. Those counted are what a crate shows to others: of the
functions, traits and types that its `lib.rt` lends out, with what they implement; of a program those of its
`main.rt` and of each `pub fn`. From the names that they cite the script goes on to the names that those
definitions cite, over all crates, until there are no more. A name that only a ghost member cites counts if it is a
definition (`abbrev` or `record`), and not if it is a law, since there the member is the proof that its trait asks
for.

A definition's lines are those of its block, from the comment above it to the next blank line; the lines of imports
and blank lines are not counted, nor are types, which stand in `src/`. The same is counted from the clauses of the
functions in PROGRAM alone, which say what the program does.

Without an option the table of crates is printed; with --files a table of each crate's files too, and with --names
each file's definitions. --write puts the table of crates into docs/BELIEFS.md, and --check says by its status whether
it is the one that stands there: 0 if so, 1 if not.
"""
from __future__ import annotations

import re
import sys
from collections.abc import Iterator
from dataclasses import dataclass
from pathlib import Path

from common import RIGHT, TOP, WRONG, Unusable, end, words_of

PAGE = TOP / "docs" / "BELIEFS.md"
BEGIN, END = "<!-- counted -->", "<!-- end of what is counted -->"
PROGRAM = frozenset({"answer", "serve", "ended"})
MODULES = ("use ", "pub use ", "pub mod ", "mod ")
WORD = re.compile(r"[A-Za-z_][A-Za-z0-9_'-]*(?:\.[A-Za-z_][A-Za-z0-9_'-]*)*")
IMPORT = re.compile(r"(?:ghost )?(?:pub )?use Rattle\.([\w.]+)(?:\.\{(.*?)\}| as (\w+))?;?\s*$")
KIND = "abbrev |record |data |unfoldable "
DECLARES = re.compile(rf"^(?:  )*({KIND})?(?:pub )?({KIND})?([A-Za-z_][\w'-]*)(?: :| \(| \{{| where|$)")
PUBLIC = r"(?:pub(?:\([a-z]+\))? )?"

# A name that is brought in stands for a name of another module.
Place = tuple[str, str]


@dataclass
class Imports:
    """What lines bring in: names with where they are from, and short names of whole modules."""

    names: dict[str, Place]
    modules: dict[str, str]


def crates() -> list[str]:
    """The crates but those of tests, lowest first."""
    lines = (TOP / "crates.txt").read_text(encoding="utf-8").splitlines()
    names = [line.split(":")[0].split()[0] for line in lines if line.strip() and not line.startswith("#")]
    return [name for name in names if not name.endswith("_tests")]


def imports(lines: list[str]) -> Imports:
    """What the lines bring in."""
    brought = Imports({}, {})
    for line in lines:
        found = IMPORT.match(line.strip())
        if not found:
            continue
        where, group, short = found.groups()
        if short:
            brought.modules[short] = where
        for item in (group or "").split(","):
            if item.strip():
                name, _, other = item.strip().partition(" as ")
                brought.names[other or name] = (where, name)
    return brought


def depth_of(line: str) -> int:
    """How far a line is indented."""
    return len(line) - len(line.lstrip())


def is_comment(line: str) -> bool:
    """Whether a line is a comment and nothing else."""
    return line.lstrip().startswith("--")


class Block:
    """Lines of a file of definitions between two blank ones."""

    def __init__(self, lines: list[str], header: list[str]) -> None:
        self.lines = lines
        self.header = header  # the modules around it, whose parameters its definitions speak of
        self.names: list[str] = []
        self.is_definition = False
        for line in lines:
            found = DECLARES.match(line)
            is_declared = not line.lstrip().startswith(("--", "module", "where"))
            if found and depth_of(line) <= 2 * len(header) and is_declared:
                self.names.append(found.group(3))
                self.is_definition |= bool(found.group(1) or found.group(2))

    def text(self) -> str:
        """What is not a comment, with the modules around it."""
        return "\n".join(line.split("--")[0] for line in self.header + self.lines)

    def comments(self) -> int:
        """How many lines are comments."""
        return sum(map(is_comment, self.lines))


class File:
    """A file of definitions."""

    def __init__(self, crate: str, path: Path) -> None:
        self.crate, self.path = crate, path
        lines = path.read_text(encoding="utf-8").split("\n")
        self.imports = imports(lines)
        self.head: list[str] = []
        while lines and lines[0].startswith("--"):
            self.head.append(lines.pop(0))
        self.blocks: list[Block] = []
        self.where: dict[str, list[Block]] = {}
        self.divide(lines)
        own = [line for line in lines if line.strip() and not line.startswith(MODULES)]
        self.all = len(self.head) + len(own)

    def divide(self, lines: list[str]) -> None:
        """Divides the lines into blocks."""
        block: list[str] = []
        header: list[str] = []
        for line in [*lines, ""]:
            if line.startswith(MODULES):
                continue
            if line.strip() and not is_comment(line):
                header = header[: depth_of(line) // 2]
            if re.match(r"\s*module _", line):
                self.add(block, header)
                block, header = [], [*header, line]
            elif line.strip():
                block.append(line)
            elif not all(map(is_comment, block)):
                self.add(block, header)
                block = []

    def add(self, lines: list[str], header: list[str]) -> None:
        """Adds a block, if it has lines."""
        if lines:
            block = Block(lines, list(header))
            self.blocks.append(block)
            for name in block.names:
                if block not in self.where.setdefault(name, []):
                    self.where[name].append(block)


def specs(names: list[str]) -> dict[str, File]:
    """All files of definitions, by the name that imports give them."""
    files: dict[str, File] = {}
    for name in names:
        top = TOP / "crates" / name / "specs"
        for path in in_order(top, ".antt"):
            if path.name != "Lib.antt":
                module = ".".join(path.relative_to(top).with_suffix("").parts)
                files[f"{name}.specs.{module}"] = File(name, path)
    return files


def in_order(folder: Path, suffix: str) -> Iterator[Path]:
    """The files of a folder with this suffix: those that stand in it, by name, and then those of each folder in it."""
    for path in sorted(folder.glob(f"*{suffix}")):
        yield path
    for path in sorted(path for path in folder.glob("*") if path.is_dir()):
        yield from in_order(path, suffix)


# The blocks that are reached, by module.
Reached = dict[str, list[Block]]


def braced(text: str, start: int) -> str:
    """The text between the brace at `start` and the one that closes it."""
    depth = 0
    for at in range(start, len(text)):
        depth += {"{": 1, "}": -1}.get(text[at], 0)
        if depth == 0:
            return text[start + 1 : at]
    return text[start + 1 :]


def without_parameters(text: str) -> str:
    """The text without what stands between angle brackets."""
    shorter = re.sub(r"<[^<>]*>", "", text)
    return text if shorter == text else without_parameters(shorter)


@dataclass
class Cited:
    """A name that a contract cites, what its file brings in, the function, and whether a ghost member cites it."""

    word: str
    imports: Imports
    function: str
    is_member: bool


class Sources:
    """The sources of a crate, without its tests."""

    def __init__(self, crate: str) -> None:
        top = TOP / "crates" / crate / "src"
        paths = [path for path in in_order(top, ".rt") if "tests" not in path.relative_to(top).parts[:-1]]
        self.texts = {path: path.read_text(encoding="utf-8") for path in paths}
        self.is_library = (top / "lib.rt").exists()
        self.lent: set[str] = set()
        for text in self.texts.values():
            for group in re.findall(r"^pub use [\w:]*?(\{[^}]*\}|\w+);", text, re.M | re.S):
                self.lent.update(re.findall(r"\w+", group))

    def is_lent(self, name: str) -> bool:
        """Whether others see a name: of a library only what it lends out."""
        return name in self.lent or not self.is_library

    def cited(self) -> Iterator[Cited]:
        """The names that the public contracts cite."""
        for path, text in self.texts.items():
            yield from self.cited_in(text, path.name == "main.rt")

    def cited_in(self, text: str, in_main: bool) -> Iterator[Cited]:
        """The names that the public contracts of one file cite."""
        lines = text.split("\n")
        brought = imports(lines)
        owner, of, is_shown, is_open, at = "", "", False, False, 0
        for line in lines:
            start, at = at, at + len(line) + 1
            item = re.match(PUBLIC + r"(impl|trait|struct|enum)\b(.*)", line)
            if item:
                rest = without_parameters(item.group(2))
                subject = re.findall(r"\w+", rest.split(" for ")[-1])
                owner = subject[0] if subject else ""
                is_shown = (item.group(1) == "trait" or " for " in rest) and self.is_lent(owner)
                is_open = False
            function = re.match(r"(\s*)(pub(?:\([a-z]+\))? )?(?:const )?fn (\w+)", line)
            if function:
                is_free, of = not function.group(1), function.group(3)
                name = of if is_free else owner
                is_open = function.group(2) == "pub " and self.is_lent(name) or is_free and in_main
                is_shown = is_shown and not is_free
            clause = re.match(r"\s*(?:requires|ensures)\*?(?: \w+)? \{|\s*ghost \w+(?: =|:) \{", line)
            if clause and (is_shown or is_open):
                for word in WORD.findall(braced(text, start + clause.end() - 1)):
                    yield Cited(word, brought, of, "=" in clause.group(0))


def place(word: str, brought: Imports, module: str, known: dict[str, File]) -> Place | None:
    """The module and name that a word stands for, if it is one of the definitions."""
    first, _, rest = word.partition(".")
    if module and first in known[module].where:
        return module, first
    if first in brought.names:
        where, name = brought.names[first]
        if where in known and name in known[where].where:
            return where, name
    where = brought.modules.get(first, "")
    name = rest.split(".")[0]
    return (where, name) if where in known and name in known[where].where else None


def believed(names: list[str], known: dict[str, File], only: frozenset[str] = frozenset()) -> Reached:
    """The blocks that are reached from public contracts, by module; where functions are named, from theirs alone."""
    reached: Reached = {}
    todo: list[tuple[str, Block]] = []

    def reach(found: Place) -> None:
        where, name = found
        for block in known[where].where[name]:
            if block not in reached.setdefault(where, []):
                reached[where].append(block)
                todo.append((where, block))

    for crate in names:
        for cited in Sources(crate).cited():
            if only and cited.function not in only:
                continue
            found = place(cited.word, cited.imports, "", known)
            if found and (not cited.is_member or any(it.is_definition for it in known[found[0]].where[found[1]])):
                reach(found)
    while todo:
        where, block = todo.pop()
        for word in WORD.findall(block.text()):
            found = place(word, known[where].imports, where, known)
            if found:
                reach(found)
    return reached


@dataclass
class Count:
    """Lines, those of these that are comments, and those that the program's own clauses lead to."""

    lines: int = 0
    comments: int = 0
    program: int = 0

    def add(self, other: Count) -> None:
        """Adds another count to it."""
        self.lines += other.lines
        self.comments += other.comments
        self.program += other.program


def lines_of(file: File, blocks: list[Block]) -> int:
    """How many lines a reader reads of a file: its head, these blocks, and the modules around them."""
    headers = {id(line) for block in blocks for line in block.header}
    return len(file.head) + sum(len(block.lines) for block in blocks) + len(headers) if blocks else 0


@dataclass
class Counted:
    """A file, those of its blocks that are reached, and what is counted of it."""

    file: File
    blocks: list[Block]
    count: Count

    def rows(self, crate: str, with_names: bool) -> Iterator[str]:
        """Its row in the table of the crate's files, and behind it the names of its definitions."""
        path = self.file.path.relative_to(TOP / "crates" / crate)
        count = self.count
        cells = [f"`{path}`", count.lines, count.comments, count.program or "", self.file.all - count.lines or ""]
        yield "| " + " | ".join(map(str, cells)) + " |"
        if with_names:
            yield f"|   {' '.join(dict.fromkeys(name for block in self.blocks for name in block.names))} |||||"


def files_of(crate: str, known: dict[str, File], reached: Reached, own: Reached) -> list[Counted]:
    """What is counted of each file of a crate from which a definition is reached."""
    counted = []
    for where, file in known.items():
        if file.crate == crate and where in reached:
            blocks = [block for block in file.blocks if block in reached[where]]
            program = [block for block in blocks if block in own.get(where, [])]
            comments = len(file.head) + sum(block.comments() for block in blocks)
            counted.append(Counted(file, blocks, Count(lines_of(file, blocks), comments, lines_of(file, program))))
    return counted


def tables(with_files: bool, with_names: bool) -> str:
    """The table of the crates, and where it is asked for that of each crate's files."""
    names = crates()
    known = specs(names)
    reached, own = believed(names, known), believed(names, known, PROGRAM)
    total, all_files = Count(), 0
    rows = ["| Crate | Files | Lines | of these comments | for the program |", "|---|---|---|---|---|"]
    parts: list[str] = []
    for crate in names:
        mine, files = Count(), files_of(crate, known, reached, own)
        for file in files:
            mine.add(file.count)
        if files:
            rows.append(f"| `{crate}` | {len(files)} | {mine.lines} | {mine.comments} | {mine.program or ''} |")
            total.add(mine)
            all_files += len(files)
        if files and (with_files or with_names):
            heads = ["| File | Lines | of these comments | for the program | not cited |", "|---|---|---|---|---|"]
            table = [row for file in files for row in file.rows(crate, with_names)]
            parts += ["", f"### `{crate}`: {mine.lines} lines", "", *heads, *table]
    rows.append(f"| in all | {all_files} | {total.lines} | {total.comments} | {total.program} |")
    return "\n".join([*rows, *parts, ""])


def main() -> int:
    """Prints, writes or compares the tables, and answers the status."""
    parser = words_of(__doc__)
    parser.add_argument("--files", action="store_true", help="a table of each crate's files too")
    parser.add_argument("--names", action="store_true", help="each file's definitions too")
    mode = parser.add_mutually_exclusive_group()
    mode.add_argument("--check", action="store_true", help="whether docs/BELIEFS.md has these tables")
    mode.add_argument("--write", action="store_true", help="put the tables into docs/BELIEFS.md")
    words = parser.parse_args()
    if not words.check and not words.write:
        print(tables(words.files, words.names))
        return RIGHT
    text = tables(False, False)
    page = PAGE.read_text(encoding="utf-8")
    if page.count(BEGIN) != 1 or page.count(END) != 1 or page.index(BEGIN) > page.index(END):
        raise Unusable(f"{PAGE} has not one line {BEGIN} and after it one line {END}")
    new = f"{page[: page.index(BEGIN)]}{BEGIN}\n\n{text}\n{page[page.index(END) :]}"
    if words.write:
        PAGE.write_text(new, encoding="utf-8")
    elif new != page:
        message = "docs/BELIEFS.md is not what the contracts cite: scripts/count_beliefs.py --write puts it right"
        print(f"count_beliefs: {message}", file=sys.stderr)
        return WRONG
    print(f"docs/BELIEFS.md has what the contracts cite{' now' if words.write else ''}")
    return RIGHT


if __name__ == "__main__":
    end(main)
