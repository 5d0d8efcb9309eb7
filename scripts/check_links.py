#!/usr/bin/env python3
"""Checks that every relative link of the pages leads to a file and, where it has an anchor, to a heading.

usage: scripts/check_links.py [PAGE ..]

Without pages, the Markdown files at the top, in docs/, in bench/ and in examples/ are checked. A link is an inline
link, an image, or the definition of a reference, outside code. Links with a scheme, such as https:, are not followed.

Each broken link is one line, 'PAGE:LINE: TARGET: REASON', and the last line is 'N links, M broken'. The status is 0 if
no link is broken, 1 if one is, and 2 if a page can't be read.
"""
from __future__ import annotations

import re
from collections.abc import Iterator
from dataclasses import dataclass
from pathlib import Path
from urllib.parse import unquote

from common import RIGHT, TOP, WRONG, end, pages_of, text_of, words_of

FENCE = re.compile(r" {0,3}(`{3,}|~{3,})(.*)")
CODE_SPAN = re.compile(r"(?<!`)(`+)(?!`)(.+?)(?<!`)\1(?!`)")
INLINE = re.compile(r"\]\(\s*(<[^>]*>|[^\s()]*(?:\([^\s()]*\)[^\s()]*)*)(?:\s+[\"'(].*?[\"')])?\s*\)")
REFERENCE = re.compile(r" {0,3}\[[^\]]+\]:\s*(<[^>]*>|\S+)")
SCHEME = re.compile(r"[A-Za-z][A-Za-z0-9+.-]*:")
HEADING = re.compile(r" {0,3}#{1,6}\s+(.*?)(?:\s+#+)?\s*$")
LINK_TEXT = re.compile(r"!?\[([^\]]*)\]\([^)]*\)")
NAMED = re.compile(r"<a\s+(?:name|id)=[\"']([^\"']+)[\"']")


@dataclass(frozen=True)
class Link:
    """A link of a page: its line, and the target as it is written."""

    line: int
    target: str


def prose_of(text: str) -> Iterator[tuple[int, str]]:
    """The numbered lines of a page that stand in no fenced block."""
    fence = ""
    for number, line in enumerate(text.split("\n"), start=1):
        mark = FENCE.match(line)
        if fence:
            if mark and mark[1].startswith(fence) and not mark[2].strip():
                fence = ""
        elif mark:
            fence = mark[1]
        else:
            yield number, line


def links_of(text: str) -> list[Link]:
    """The links of a page in their order."""
    links: list[Link] = []
    for number, line in prose_of(text):
        plain = CODE_SPAN.sub("", line)
        targets = [found[1] for found in INLINE.finditer(plain)]
        if reference := REFERENCE.match(plain):
            targets.append(reference[1])
        links.extend(Link(number, target.removeprefix("<").removesuffix(">")) for target in targets)
    return links


def slug_of(heading: str) -> str:
    """The anchor that a heading gets: small letters, without punctuation, with hyphens for spaces."""
    text = LINK_TEXT.sub(r"\1", heading).replace("`", "").replace("*", "")
    return re.sub(r"[^\w\- ]", "", text.strip().lower()).replace(" ", "-")


def anchors_of(text: str) -> set[str]:
    """The anchors of a page. The second heading of one text gets -1 at its end, the third -2."""
    anchors: set[str] = set()
    counts: dict[str, int] = {}
    for _, line in prose_of(text):
        anchors.update(NAMED.findall(line))
        if heading := HEADING.match(line):
            slug = slug_of(heading[1])
            count = counts.get(slug, 0)
            counts[slug] = count + 1
            anchors.add(f"{slug}-{count}" if count else slug)
    return anchors


def reason_of(page: Path, target: str, top: Path) -> str | None:
    """Why a target of a page is broken, or None if it is not."""
    name, _, anchor = target.partition("#")
    path = page if not name else (page.parent / unquote(name)).resolve()
    if not path.is_relative_to(top):
        return "outside the repository"
    if not path.exists():
        return "no such file"
    if anchor and path.suffix == ".md" and unquote(anchor) not in anchors_of(text_of(path)):
        return "no such heading"
    return None


def check(page: Path, top: Path) -> tuple[int, list[str]]:
    """How many relative links a page has, and a line for each that is broken."""
    links = [link for link in links_of(text_of(page)) if not SCHEME.match(link.target)]
    broken: list[str] = []
    for link in links:
        if reason := reason_of(page, link.target, top):
            broken.append(f"{page.relative_to(top)}:{link.line}: {link.target}: {reason}")
    return len(links), broken


def main() -> int:
    """Checks the pages and returns the status."""
    parser = words_of(__doc__)
    parser.add_argument("pages", metavar="PAGE", type=Path, nargs="*", default=pages_of(TOP))
    words = parser.parse_args()
    count = 0
    broken: list[str] = []
    for page in words.pages:
        links, lines = check(page.resolve(), TOP)
        count += links
        broken.extend(lines)
    for line in broken:
        print(line)
    print(f"{count} links, {len(broken)} broken")
    return WRONG if broken else RIGHT


if __name__ == "__main__":
    end(main)
