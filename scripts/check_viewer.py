#!/usr/bin/env python3
"""Opens pages of scripts/show_schedule.py in headless Chromium, goes through them by the keyboard, and compares.

usage: scripts/check_viewer.py [--program PROGRAM] [--browser PATH] [--shots FOLDER]

The pages: the four faults of docs/FAULTS.md, and one of them beside a schedule without a fault, all of which have to
be the files of docs/pictures byte by byte; a schedule of 120 steps of `ellen` with four threads; and one of `atomic`.

Of each page: every step is reached by the keyboard, forwards and backwards, shows its number and names it in the
address; the replies shown after the last step are those of `PROGRAM replay`; the keys shown there are those that
PROGRAM itself finds, by a replay of the program with one find more, which runs alone after the schedule;
the marks of the slider lead to their steps; `#step=` opens a step; nothing is written to the console and nothing
is fetched; at 1,280 and at 390 pixels, light and dark, the page is no wider than the window, no text is smaller
than 12 pixels and none has less than 4.5 to 1 of contrast; with reduced motion nothing moves by itself.

With --shots a picture of each page at its first marked step (else its last) is written to FOLDER for both
widths, light and dark. It needs Chromium, which Debian has as a package: apt-get install chromium

Each page gets a line; a check that fails gets one too. Status 0: all is as it should be. 1: it is not. 2: no
browser, or a page can't be made.
"""
from __future__ import annotations

import argparse
import json
import subprocess
import sys
import tempfile
import time
from dataclasses import dataclass
from pathlib import Path
from typing import Any

from common import TOP
from viewer.browser import Browser, BrowserFault, find_browser
from viewer.measures import MEASURE, SHOWN
from viewer.replays import read_replay, show_list

PICTURES = TOP / "docs" / "pictures"
WIDTHS = {1280: 900, 390: 844}
LEAST_LETTER, LEAST_CONTRAST, MOST_BYTES = 12.0, 4.5, 200_000
MOST_FIND_STEPS, MOST_SECONDS = 60, 10

FOUR_THREADS = {
    "version": 1,
    "tree": "ellen",
    "initial": [10, 30, 50],
    "threads": [
        [{"op": "delete", "key": 10}, {"op": "insert", "key": 40}, {"op": "find", "key": 20}],
        [{"op": "insert", "key": 20}, {"op": "delete", "key": 30}],
        [{"op": "delete", "key": 50}, {"op": "insert", "key": 10}, {"op": "delete", "key": 20}],
        [{"op": "insert", "key": 45}, {"op": "delete", "key": 40}, {"op": "find", "key": 10}],
    ],
}
LONG = "222200222222222200000333330303222232222331332200000110331111000111033331300000001111111011331" + "3" * 27


@dataclass(frozen=True)
class Case:
    """A page to be made: its name, its program, its schedules, and whether docs/pictures has it."""

    name: str
    file: str
    schedules: list[list[int]]
    is_kept: bool = False


def digits(text: str) -> list[int]:
    return [int(digit) for digit in text]


FAULTS = [
    Case("ellen_no_mark", "examples/ellen_no_mark.json", [digits("00000001101111111")], True),
    Case("ellen_no_iflag", "examples/ellen_no_iflag.json", [digits("0000011100001111")], True),
    Case("nm_no_tag", "examples/nm_no_tag.json", [digits("0000001101111")], True),
    Case("nm_no_tag_order", "examples/nm_no_tag_order.json", [digits("00000001111110000001")], True),
    Case(
        "ellen_no_mark_beside",
        "examples/ellen_no_mark.json",
        [digits("00000001101111111"), digits("000000010011111111111111")],
        True,
    ),
]


def cases(folder: Path) -> list[Case]:
    four = folder / "four_threads.json"
    four.write_text(json.dumps(FOUR_THREADS), encoding="utf-8")
    return [
        *FAULTS,
        Case("four_threads", str(four), [digits(LONG)]),
        Case("atomic", "examples/three_threads.json", [digits("021012")]),
    ]


class Checker:
    """The checks of one page, and what they found wrong."""

    def __init__(self, browser: Browser, program: str, case: Case, page: Path) -> None:
        self.browser, self.program, self.case, self.page = browser, program, case, page
        self.faults: list[str] = []
        self.count = 0
        self.last = max(map(len, case.schedules))

    def expect(self, is_right: bool, text: str) -> None:
        self.count += 1
        if not is_right:
            self.faults.append(text)

    def shown(self) -> dict[str, Any]:
        found = self.browser.evaluate(SHOWN)
        assert isinstance(found, dict)
        return found

    def at(self, step: int, how: str) -> dict[str, Any]:
        """What is shown, which has to be this step, at once or soon."""
        shown, end = self.shown(), time.monotonic() + MOST_SECONDS
        while shown["step"] != step and time.monotonic() < end:
            time.sleep(0.02)
            shown = self.shown()
        wanted = (step, step, f"step {step} of {self.last}")
        found = (shown["step"], shown["slider"], shown["where"])
        self.expect(found == wanted, f"{how}: it shows {found} and not {wanted}")
        return shown

    def named(self, step: int, how: str) -> dict[str, Any]:
        """What is shown, which has to be this step, and the address has to name it soon."""
        shown, end = self.at(step, how), time.monotonic() + MOST_SECONDS
        while shown["hash"] != f"#step={step}" and time.monotonic() < end:
            time.sleep(0.03)
            shown = self.shown()
        self.expect(shown["hash"] == f"#step={step}", f"{how}: the address names {shown['hash']}, not step {step}")
        return shown

    def walk(self) -> dict[str, Any]:
        """All steps by the keyboard, forwards and back, and what is shown after the last."""
        browser = self.browser
        browser.prefer("light", "no-preference")
        browser.resize(1280, WIDTHS[1280])
        browser.open(self.page.as_uri())
        self.named(0, "opened")
        texts = set()
        for step in range(1, self.last + 1):
            browser.press("ArrowRight")
            look = self.named if step % 10 == 1 else self.at
            shown = look(step, f"arrow to step {step}")
            texts.add((step, *shown["acts"]))
            self.expect(shown["said"].startswith(f"Step {step}. "), f"step {step} is not said to those who hear it")
            running = sum(step <= len(schedule) for schedule in self.case.schedules)
            self.expect(shown["accesses"] >= running, f"step {step}: no access is shown in the picture")
        self.expect(len(texts) == self.last, "two steps are shown alike")
        end = self.shown()
        browser.press("ArrowRight")
        self.named(self.last, "arrow behind the end")
        for step in range(self.last - 1, -1, -1):
            browser.press("ArrowLeft")
        self.named(0, "arrows back")
        browser.press("End")
        again = self.named(self.last, "End")
        self.expect(again["replies"] == end["replies"] and again["keys"] == end["keys"], "End shows another end")
        browser.press("Home")
        self.named(0, "Home")
        self.play()
        return end

    def play(self) -> None:
        browser = self.browser
        browser.press(" ")
        end = time.monotonic() + MOST_SECONDS
        while self.shown()["step"] == 0 and time.monotonic() < end:
            time.sleep(0.05)
        self.expect(self.shown()["step"] > 0, "Space does not play")
        browser.press(" ")
        stopped = self.shown()["step"]
        time.sleep(1.3)
        self.expect(self.shown()["step"] == stopped, "Space does not stop")

    def compare(self, end: dict[str, Any]) -> None:
        """The replies and the keys at the end, against the program."""
        for run, schedule in enumerate(self.case.schedules):
            answer = self.replay(self.case.file, schedule)
            wanted = [
                [each.name, "pending" if each.reply is None else str(each.reply).lower()] for each in answer.listed
            ]
            self.expect(end["replies"][run] == wanted, f"replies {end['replies'][run]} and not {wanted}")
            held = [key for key in self.keys() if self.finds(schedule, key)]
            self.expect(end["keys"][run] == held, f"keys {end['keys'][run]} and not {held}")
            if answer.fault != "order":
                leaves = sorted(int(key) for key in end["leaves"][run] if key.isdecimal())
                self.expect(leaves == held, f"leaves {leaves} and not {held}")

    def program_value(self) -> dict[str, Any]:
        value = json.loads((TOP / self.case.file).read_bytes())
        assert isinstance(value, dict)
        return value

    def keys(self) -> list[int]:
        value = self.program_value()
        return sorted({*value["initial"], *(each["key"] for thread in value["threads"] for each in thread)})

    def replay(self, file: str, schedule: list[int]) -> Any:
        words = [self.program, "replay", file, "--schedule", show_list(schedule)]
        done = subprocess.run(words, cwd=TOP, capture_output=True, text=True, stdin=subprocess.DEVNULL)
        if done.returncode not in (0, 1):
            raise BrowserFault(f"{' '.join(words)}: {done.stderr.strip()}")
        return read_replay(done.stdout, self.program)

    def finds(self, schedule: list[int], key: int) -> bool:
        """Whether the program's tree has a key after a schedule: a find of it is put behind, and runs alone to
        its end. It is a thread of its own, or stands behind the operations of a thread that has ended all of its
        own."""
        value = self.program_value()
        threads = value["threads"]
        if len(threads) < 4:
            threads.append([])
        ended = {each.name for each in self.replay(self.case.file, schedule).listed if each.reply is not None}
        reader = next(
            index
            for index, thread in reversed(list(enumerate(threads)))
            if len(thread) < 6 and all(f"{index}.{number}" in ended for number in range(len(thread)))
        )
        name = f"{reader}.{len(threads[reader])}"
        threads[reader].append({"op": "find", "key": key})
        with tempfile.NamedTemporaryFile("w", suffix=".json") as file:
            json.dump(value, file)
            file.flush()
            for steps in range(1, MOST_FIND_STEPS):
                answer = self.replay(file.name, [*schedule, *[reader] * steps])
                reply = next(each.reply for each in answer.listed if each.name == name)
                if reply is not None:
                    return bool(reply)
        raise BrowserFault(f"a find of {key} does not end")

    def links(self) -> None:
        """The marks of the slider, and a step that the address names."""
        middle = self.last // 2
        self.browser.open(f"{self.page.as_uri()}#step={middle}")
        self.named(middle, f"opened at #step={middle}")
        count = self.browser.evaluate("document.querySelectorAll('.marks a').length")
        for index in range(count):
            link = f"document.querySelectorAll('.marks a')[{index}]"
            step = self.browser.evaluate(f"{link}.click(), +{link}.hash.slice(6)")
            self.named(step, f"mark {index + 1}")

    def looks(self, shots: Path | None) -> None:
        """Widths, letters and contrast of every step, light and dark; pictures at one step."""
        browser = self.browser
        marked = browser.evaluate("(document.querySelector('.marks .bad a') || {hash: ''}).hash.slice(6)")
        pictured = int(marked) if marked else self.last
        for width, height in WIDTHS.items():
            browser.resize(width, height)
            for scheme in ("light", "dark"):
                browser.prefer(scheme, "reduce")
                browser.open(f"{self.page.as_uri()}#step={pictured}")
                if shots:
                    browser.picture(shots / f"{self.case.name}_{width}_{scheme}.png")
                browser.evaluate("document.querySelectorAll('details').forEach(each => each.open = true)")
                stride = 1 if self.last <= 40 else 7
                for step in sorted({*range(0, self.last + 1, stride), pictured, self.last}):
                    browser.evaluate(f"location.hash = '#step={step}'")
                    self.at(step, f"address {step}")
                    self.measure(f"{width} pixels, {scheme}, step {step}")
        moving = "document.getAnimations().length + (getComputedStyle(document.querySelector('.moment'))"
        moving += ".transitionDuration === '0s' ? 0 : 1)"
        self.expect(browser.evaluate(moving) == 0, "with reduced motion something moves")

    def measure(self, where: str) -> None:
        found = self.browser.evaluate(MEASURE)
        self.expect(found["wide"] <= 0, f"{where}: the page is {found['wide']} pixels wider than the window")
        letter, contrast = found["letter"], found["contrast"]
        self.expect(letter >= LEAST_LETTER - 0.01, f"{where}: {found['small']!r} is {letter:.1f} pixels high")
        self.expect(contrast >= LEAST_CONTRAST, f"{where}: {found['faint']!r} has a contrast of {contrast:.1f}")

    def events(self) -> None:
        """What the console got, and what was fetched."""
        for event in self.browser.events:
            method, values = event["method"], event.get("params", {})
            if method in ("Runtime.consoleAPICalled", "Runtime.exceptionThrown", "Log.entryAdded"):
                self.faults.append(f"console: {json.dumps(values)[:200]}")
            elif method == "Network.requestWillBeSent":
                address = values["request"]["url"]
                if not address.startswith((self.page.as_uri(), "data:", "about:")):
                    self.faults.append(f"it fetches {address}")
        self.count += 2
        self.browser.events.clear()

    def all(self, shots: Path | None) -> None:
        self.browser.events.clear()
        size = self.page.stat().st_size
        self.expect(size < MOST_BYTES, f"the page has {size} bytes")
        if self.case.is_kept:
            kept = PICTURES / self.page.name
            is_same = kept.exists() and kept.read_bytes() == self.page.read_bytes()
            self.expect(is_same, f"docs/pictures/{self.page.name} is another page than the one that is made")
        self.compare(self.walk())
        self.links()
        self.looks(shots)
        self.events()


def make(case: Case, program: str, folder: Path) -> Path:
    """The page, made in a folder that looks like the top, as the command for docs/pictures stands in it."""
    out = f"docs/pictures/{case.name}.html"
    (folder / "docs" / "pictures").mkdir(parents=True, exist_ok=True)
    if not (folder / "examples").exists():
        (folder / "examples").symlink_to(TOP / "examples")
    words = [str(TOP / "scripts" / "show_schedule.py"), case.file, show_list(case.schedules[0]), "--html", out]
    words += ["--compare", show_list(case.schedules[1])] if len(case.schedules) > 1 else []
    done = subprocess.run([*words, "--program", program], cwd=folder, capture_output=True, text=True)
    if done.returncode:
        raise BrowserFault(f"{case.name}: {done.stderr.strip()}")
    return folder / out


def main() -> int:
    parser = argparse.ArgumentParser(description=__doc__, formatter_class=argparse.RawDescriptionHelpFormatter)
    parser.add_argument("--program", default=str(TOP / "treesched"), help="the program that replays")
    parser.add_argument("--browser", metavar="PATH", help="Chromium, where it is not on the path")
    parser.add_argument("--shots", metavar="FOLDER", help="write pictures there")
    words = parser.parse_args()
    browser = None
    failed = 0
    try:
        shots = Path(words.shots) if words.shots else None
        if shots:
            shots.mkdir(parents=True, exist_ok=True)
        program = str(Path(words.program).resolve())
        browser = Browser(find_browser(words.browser))
        with tempfile.TemporaryDirectory(prefix="check_viewer.") as name:
            folder = Path(name)
            for case in cases(folder):
                checker = Checker(browser, program, case, make(case, program, folder))
                checker.all(shots)
                size = round(checker.page.stat().st_size / 1000)
                state = (
                    f"{len(checker.faults)} of {checker.count} checks fail" if checker.faults else "as it should be"
                )
                print(f"{case.name}: {checker.last} steps, {size} KB, {checker.count} checks: {state}", flush=True)
                for fault in checker.faults[:20]:
                    print(f"  {fault}")
                failed += bool(checker.faults)
    except (BrowserFault, OSError) as fault:
        print(f"check_viewer: {fault}", file=sys.stderr)
        return 2
    finally:
        if browser:
            browser.close()
    return 1 if failed else 0


if __name__ == "__main__":
    sys.exit(main())
