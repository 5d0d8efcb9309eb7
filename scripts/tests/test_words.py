"""Compares what scripts/words.sh makes of words with what the program makes of them, on words drawn at random.

usage: TREESCHED=PROGRAM python3 -m unittest discover -s scripts/tests

Without TREESCHED, the program that stands in crates/treesched/out is meant. Where there is none, nothing is compared.
"""
import os
import random
import subprocess
import tempfile
import unittest
from pathlib import Path

TOP = Path(__file__).resolve().parent.parent.parent
PROGRAM = Path(os.environ.get("TREESCHED", TOP / "crates" / "treesched" / "out" / "treesched"))
CASES = 400
HELP, REFUSED, UNREADABLE = 0, 4, 6

READER = f"""
set -euo pipefail
. '{TOP}/scripts/words.sh'
read_words "$@"
if [ -n "$wants_help" ]; then
    echo {HELP}
elif [ -n "$refusal" ]; then
    echo {REFUSED} "$refusal"
else
    echo {UNREADABLE}
fi
"""

# The file that is named here is nowhere, so that the program ends with UNREADABLE once it takes the words.
TAKEN = [
    "explore no --steps 20",
    "explore no --steps=9 --merge names --book b",
    "replay no --schedule 0,1",
    "check no no.book",
]
MORE = ["--workers 3", "--states=7", "--ledger", "--merge names", "--merge=exact", "--steps 3", "--book b", "-h", "x"]
FIRST = ["explore", "replay", "check", "help", "-h", "--help", "--version", "explode", "", "--"]
REST = """
no no.book --steps 20 --steps=5 --steps=401 0 400 401 -5 +7 007 --workers --workers=8 9 --states 2000000 2000001
--states=1 --merge names exact --merge=names --merge=x --ledger --ledger=1 --book out --book=out --book= --schedule
0,1 0,1, --schedule=0 --schedule= -- -h --help -x - --step help 18446744073709551616 --workers= a=b
""".split()
ODD = ["", " 5"]


def draw(source: random.Random) -> list[str]:
    """Words that the program takes, with up to three changes; or any words at all."""
    if source.random() < 0.3:
        return [source.choice(FIRST), *source.choices(REST + ODD, k=source.randint(0, 6))]
    words = source.choice(TAKEN).split()
    for _ in range(source.randint(0, 3)):
        place = source.randint(1, len(words))
        change = source.random()
        if change < 0.4:
            words[place:place] = source.choice(MORE).split()
        elif change < 0.7:
            words[place - 1 : place] = [source.choice(REST + ODD)]
        elif len(words) > 1:
            del words[place - 1]
    return words


def run_in(folder: str, words: list[str]) -> subprocess.CompletedProcess[str]:
    """One run of a command in a folder."""
    return subprocess.run(words, cwd=folder, capture_output=True, text=True, check=False)


@unittest.skipUnless(os.access(PROGRAM, os.X_OK), "no program is built")
class Words(unittest.TestCase):
    """The script refuses what the program refuses, and nothing else."""

    def test_agreement(self) -> None:
        source = random.Random(1)
        seen = set()
        with tempfile.TemporaryDirectory() as folder:
            for _ in range(CASES):
                words = draw(source)
                ended = run_in(folder, [str(PROGRAM), *words])
                read = run_in(folder, ["bash", "-c", READER, "bash", *words])
                self.assertEqual((read.returncode, read.stderr), (0, ""), words)
                status, _, refusal = read.stdout.removesuffix("\n").partition(" ")
                self.assertEqual(int(status), ended.returncode, words)
                if refusal.startswith("treesched:"):
                    self.assertEqual(refusal, ended.stderr.removesuffix("\n"), words)
                seen.add(ended.returncode)
        self.assertEqual(seen, {HELP, REFUSED, UNREADABLE})


if __name__ == "__main__":
    unittest.main()
