"""For tests of scripts: runs one as a user does, and a program that answers without exploring.

Importing this puts the folder of the scripts on the path.
"""
from __future__ import annotations

import subprocess
import sys
from pathlib import Path

SCRIPTS = Path(__file__).resolve().parent.parent
TOP = SCRIPTS.parent
sys.path.insert(0, str(SCRIPTS))

from results import Result  # noqa: E402

# A program that says of everything that it holds, and writes a book of two entries where one is asked for. With one
# state it is refused memory; under the name `lying` its check answers otherwise.
STUB = """#!/bin/sh
case $1 in
explore)
    for word; do
        case $before in
        --states) states=$word ;;
        --book) book=$word ;;
        esac
        before=$word
    done
    [ "$states" != 1 ] || { echo 'treesched: out of memory' >&2; exit 5; }
    [ -z "$book" ] || printf 'treesched book 1 entries 2\\n- - -\\n0 0 -\\n' >"$book"
    printf 'holds for every schedule\\nstates 2\\n' ;;
check)
    case $0 in *lying) states=3 ;; *) states=2 ;; esac
    printf 'every schedule holds\\nstates %s\\n' "$states" ;;
esac
"""


def run_script(name: str, *words: object, folder: Path = TOP) -> subprocess.CompletedProcess[str]:
    """What comes of a script of the repository on these words."""
    command = [sys.executable, str(TOP / name), *map(str, words)]
    return subprocess.run(command, cwd=folder, capture_output=True, text=True, check=False)


def stub_program(folder: Path, name: str = "stub") -> Path:
    """A program in a folder that answers at once."""
    program = folder / name
    program.write_text(STUB, encoding="utf-8")
    program.chmod(0o755)
    return program


def result_line(program: str, **changes: object) -> str:
    """A whole line of results, with some members changed."""
    values: dict[str, object] = {
        **{"program": program, "verdict": "every", "states": 2, "steps": 1, "checked": True},
        **{"seconds": 0.5, "seconds_all": 1.0, "commit": "c0ffee"},
        **changes,
    }
    return Result(**values).line()  # type: ignore[arg-type]
