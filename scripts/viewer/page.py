"""The page: everything that changes from step to step is a number in a table of texts, which a short script
looks up."""
from __future__ import annotations

import json
import re
from dataclasses import dataclass
from html import escape
from pathlib import Path
from textwrap import wrap
from typing import Any

from place_tables import Ellen, Tree
from viewer.clash import Run
from viewer.lanes import Lanes, quoted
from viewer.panels import act, changes, key_item, line_of, plural, record_items, thread_pieces
from viewer.replays import show_list
from viewer.steps import Mark, Walk, key_states, marks
from viewer.tree import picture_of, tree_words

FOLDER = Path(__file__).resolve().parent
LEFT, ROOM = 48, 1120
MOST_HEIGHT = 600


@dataclass(frozen=True)
class Shown:
    """A run by the program, and by the place tables in Python."""

    run: Run
    walked: Walk


class Texts:
    """Texts, each kept once, by their numbers."""

    def __init__(self) -> None:
        self.numbers: dict[str, int] = {}

    def number(self, text: str) -> int:
        return self.numbers.setdefault(text, len(self.numbers))

    def all(self, texts: list[str]) -> list[int]:
        return [self.number(text) for text in texts]


def own_file(name: str) -> str:
    return (FOLDER / name).read_text(encoding="utf-8")


class RunPage:
    """What the page needs of one run."""

    def __init__(self, shown: Shown, texts: Texts) -> None:
        self.run, self.walked = shown.run, shown.walked
        self.keys = key_states(shown.walked)
        self.picture = picture_of(shown.walked, self.keys)
        self.marks: list[Mark] = marks(shown.walked, self.keys)
        self.frames = [self.frame(count, texts) for count in range(len(shown.walked.states))]

    def frame(self, count: int, texts: Texts) -> list[Any]:
        walked = self.walked
        threads = range(len(walked.source.threads))
        return [
            texts.all([*act(walked, count), changes(walked, self.keys, count)]),
            texts.all([part.text for part in self.picture.parts(count)]),
            texts.all([key_item(each) for each in self.keys[count]]),
            texts.all([piece for thread in threads for piece in thread_pieces(walked, thread, count)]),
            texts.all(record_items(walked, count)),
            texts.number(tree_words(walked, self.picture, count)),
            texts.number(line_of(walked, count)) if count else texts.number("Start"),
        ]

    def lanes(self, room: int, parting: int | None) -> tuple[str, float]:
        """The lanes as an SVG with the marked steps and the moment, and how wide a step is there."""
        count = max(1, len(self.run.schedule))
        cell = max(9.0, min(34.0, (room - LEFT) / count))
        drawn = Lanes(self.run, cell, count, 1 if cell > 24 else 5, LEFT, "T")
        parts, bottom = drawn.all_blocks(30)
        width, height = round(drawn.right + 16), round(bottom)
        spoken = (
            "; ".join(f"{operation.label}, {operation.span}" for operation in self.run.operations) or "no operation"
        )
        steps = sorted({mark.step for mark in self.marks if mark.step})
        signs = "".join(
            f'<path class="alarm" d="M{drawn.edge(step - 0.5, 0):g} {height - 13}l6 11h-12z"/>' for step in steps
        )
        if parting is not None and parting <= count:
            signs += f'<path class="parting" d="M{drawn.edge(parting - 1, 0):g} 4V{height - 6}"/>'
        return (
            f'<svg class="lanes" width="{width}" height="{height}" viewBox="0 0 {width} {height}" role="img" '
            f'aria-label="{escape(spoken)}">{"".join(parts)}{signs}'
            f'<g class="moment"><rect x="{LEFT}" y="0" width="{cell:g}" height="{height - 16}"/></g>'
            f'<path class="names" d="M0 0H{LEFT - 4}V{height}H0z"/></svg>'
        ), cell

    def finding(self) -> str:
        kind = "bad" if self.run.fault else "good"
        lines = [quoted(text) for text in self.run.finding]
        return f'<p class="finding {kind}"><b>{escape(lines[0])}</b> {escape(" ".join(lines[1:]))}</p>'

    def order(self) -> str:
        """A linearization, as the order of points."""
        if not self.run.order:
            return ""
        named = {operation.name: operation for operation in self.run.operations}
        items = []
        for name in self.run.order:
            each = named[name]
            reply = "no reply yet" if each.reply is None else f"replied {str(each.reply).lower()}"
            items.append(
                f'<li><span class="who thread{each.thread}">{name}</span> {each.word} {each.key}, {reply}</li>'
            )
        return (
            '<section class="order"><h3>An order that explains the replies</h3>'
            f'<p>The diamonds in the lanes, from left to right.</p><ol>{"".join(items)}</ol></section>'
        )

    def article(self, index: int, head: str, size: tuple[int, int], room: int, parting: int | None) -> str:
        lanes, cell = self.lanes(room, parting)
        width, height = size
        left = (self.picture.width - width) // 2
        # larger where there is room, but no higher than a screen
        scale = max(1.0, min(1.6, MOST_HEIGHT / height))
        records = '<section class="records"><h3>Records</h3><ul></ul></section>'
        noun = "tree" if isinstance(self.walked.machine, Tree) else "list"
        return f"""<article class="run" data-run="{index}" data-cell="{cell:g}">
{head}<section class="timeline"><div class="scroll" tabindex="0" role="group"
 aria-label="Lanes of operations">{lanes}</div></section>
<div class="views">
<figure class="tree"><div class="scroll" tabindex="0" role="group" aria-label="The {noun} after this step">
<svg class="memory" viewBox="{left} 0 {width} {height}" role="img"
 style="min-width:{width}px;max-width:{round(scale * width)}px"></svg></div></figure>
<div class="side">
<section class="act"></section>
<section class="keys"><h3>What a reader finds now</h3><ul></ul></section>
<section class="threads"><h3>Threads</h3><ul></ul></section>
{records if isinstance(self.walked.machine, Ellen) else ""}
</div></div>
{self.order()}</article>"""


def legend(pages: list[RunPage]) -> str:
    """What the signs of the trees mean, of those that are drawn in some step."""
    drawn = "".join(
        part.text for page in pages for count in range(len(page.frames)) for part in page.picture.parts(count)
    )
    machine = pages[0].walked.machine
    is_tree = isinstance(machine, Tree)
    tree_signs = [
        ('class="node inner', "Rounded box: an internal node, with its key and its number n."),
        ('class="node leaf', "Square box: a leaf."),
        ("∞", "∞₀, ∞₁, ∞₂: the keys above all others."),
        ('class="word', "Plate in a node: its update word, with the record r that it names."),
        ('class="chip flag', "Plate “flag” on an edge: the flag of that child word."),
        ("tag</text>", "Plate “tag” on an edge: the tag of that child word."),
        ("edge out", "Dashed: what the root does not reach, and its words."),
        ('data-k="access"', "“T0 read”, “changed” or “failed”: the access of this step, by that thread."),
        ("chip thread", "T0, T1 .. beside a node: where that thread does its next access."),
    ]
    list_signs = [
        ('class="node leaf"', "Box: a key of the list."),
        ("leaf out", "Dashed box: a key that the list does not hold."),
        ('data-k="access"', "“T0 true”: thread 0 did its operation on that key and replied true."),
    ]
    signs = tree_signs if is_tree else list_signs
    items = [f"<li>{escape(text)}</li>" for sign, text in signs if sign in drawn]
    lanes = "Lanes: a dot is a step"
    is_open = any(operation.last is None for page in pages for operation in page.run.operations)
    lanes += "; a dashed bar has not ended" if is_open else ""
    lanes += "; thick bars are replies that no order explains" if any(page.run.clash for page in pages) else ""
    lanes += "; diamonds from left to right are the order" if any(page.run.order for page in pages) else ""
    lanes += "; a triangle below is a marked step" if any(page.marks for page in pages) else ""
    lanes += "; the dashed line is where the schedules part" if len(pages) > 1 else ""
    columns = "Columns are keys, so that a search tree is in order from left to right." if is_tree else ""
    return f"<ul>{''.join(items)}<li>{escape(lanes)}.</li>{f'<li>{columns}</li>' if columns else ''}</ul>"


def parting(pages: list[RunPage]) -> int | None:
    """The first step at which two schedules differ."""
    if len(pages) < 2:
        return None
    first, second = (page.run.schedule for page in pages)
    for index in range(max(len(first), len(second))):
        if first[index : index + 1] != second[index : index + 1]:
            return index + 1
    return None


def parting_words(pages: list[RunPage], step: int | None) -> str:
    if step is None:
        return "The two schedules are equal."
    clauses = []
    for side, page in zip(("left", "right"), pages):
        schedule = page.run.schedule
        clauses.append(
            f"on the {side} {f'thread {schedule[step - 1]} moves' if step <= len(schedule) else 'it has ended'}"
        )
    before = (
        f"Both begin with the same {plural(step - 1, 'step')}" if step > 1 else "They differ from the first step on"
    )
    return f"{before}; at step {step} {', '.join(clauses)}."


def mark_items(pages: list[RunPage], step: int | None) -> list[tuple[int, str, str]]:
    """The marks of the slider: step, kind and text."""
    sides = ["left: ", "right: "] if len(pages) > 1 else [""]
    found = [(mark.step, "bad", side + mark.text) for side, page in zip(sides, pages) for mark in page.marks]
    if step is not None:
        found.append((step, "part", "the schedules part"))
    return sorted(found)


def side_head(side: str, page: RunPage) -> str:
    """What stands above one of two runs."""
    schedule = page.run.schedule
    return (
        f"<h2>{side}: {escape(plural(len(schedule), 'step'))}</h2>{page.finding()}"
        f'<p class="schedule"><code>{show_list(schedule)}</code></p>'
    )


def html_page(all_shown: list[Shown], command: str) -> str:
    texts = Texts()
    pages = [RunPage(shown, texts) for shown in all_shown]
    most = max(len(page.run.schedule) for page in pages)
    step = parting(pages)
    data = {"s": list(texts.numbers), "runs": [page.frames for page in pages]}
    items = mark_items(pages, step)
    tips = "".join(
        f'<span class="tip {kind}" style="--at:{at / most if most else 0:.4f}"></span>' for at, kind, _ in items
    )
    links = "".join(
        f'<li class="{kind}"><a href="#step={at}">{"▲" if kind == "bad" else "◆"} step {at}: {escape(text)}</a></li>'
        for at, kind, text in items
    )
    is_alone = len(pages) == 1
    heads = ['<h2 class="heard">The schedule</h2>'] if is_alone else list(map(side_head, ("Left", "Right"), pages))
    size = (max(page.picture.width for page in pages), max(page.picture.height for page in pages))
    articles = [
        page.article(index, head, size, ROOM if is_alone else ROOM // 2 - 50, step)
        for index, (page, head) in enumerate(zip(pages, heads))
    ]
    steps = plural(most, "step") if is_alone else "two schedules"
    lead = pages[0].finding() if is_alone else f'<p class="finding">{escape(parting_words(pages, step))}</p>'
    fields = {
        "TITLE": escape(f"{pages[0].run.title.rsplit(',', 1)[0]}, {steps}"),
        "TREE": escape(pages[0].walked.source.tree),
        "LEAD": lead,
        "MOST": str(most),
        "TIPS": tips,
        "LINKS": f'<ul class="marks">{links}</ul>' if links else "",
        "RUNS": "\n".join(articles),
        "COUNT": "one" if is_alone else "two",
        "LEGEND": legend(pages),
        "COMMAND": escape(command),
        "STYLE": own_file("colours.css") + own_file("picture.css") + own_file("page.css"),
        "DATA": json.dumps(data, ensure_ascii=False, separators=(",", ":")).replace("</", "<\\/"),
        "SCRIPT": own_file("page.js"),
    }
    return re.sub(r"@([A-Z]+)@", lambda found: fields[found[1]], own_file("page.html"))


def still_picture(shown: Shown, step: int) -> str:
    """The tree after a step as an SVG that stands alone."""
    keys = key_states(shown.walked)
    picture = picture_of(shown.walked, keys)
    sentence = line_of(shown.walked, step) if step else "no operation has begun"
    lines = [f"{shown.run.title.rsplit(',', 1)[0]}, step {step}", *wrap(sentence, max(picture.width, 460) // 8)]
    width, top = max(picture.width, 480), 22 * len(lines) + 10
    height = picture.height + top
    heads = "".join(
        f'<text class="{"title" if index == 0 else "line"}" x="14" y="{24 + 22 * index}">{escape(line)}</text>'
        for index, line in enumerate(lines)
    )
    parts = "".join(part.text for part in picture.parts(step))
    return (
        f'<svg xmlns="http://www.w3.org/2000/svg" class="memory still" width="{width}" height="{height}" '
        f'viewBox="0 0 {width} {height}" role="img">\n<title>{escape("; ".join(lines))}</title>\n'
        f"<desc>{escape(tree_words(shown.walked, picture, step))}</desc>\n"
        f"<style>{own_file('colours.css')}{own_file('picture.css')}</style>\n"
        f'<rect class="paper" width="{width}" height="{height}"/>{heads}\n'
        f'<g transform="translate({(width - picture.width) // 2},{top})">{parts}</g>\n</svg>\n'
    )
