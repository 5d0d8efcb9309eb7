"""A checkout of two crates for tests, and a stub of the kit that stands on its path."""
import os
import shutil
import subprocess
import tempfile
import unittest
from pathlib import Path

TOP = Path(__file__).resolve().parent.parent.parent
STUB = Path(__file__).resolve().parent / "stub_rt.sh"
COPIED = ("treesched", "scripts/words.sh", "scripts/release.sh")
MADE = {
    "crates.txt": "low: serde_json\nlow_tests: low\ntreesched: low\n",
    "HANDLES": "Handles allowed: none.\n",
    ".gitignore": "out/\ndist/\n",
    "LICENSE-ONE": "a licence\n",
    "crates/low/src/lib.rt": "low\n",
    "crates/low/specs/Lib.antt": "specs\n",
    "crates/treesched/src/main.rt": "main\n",
}


class StubCheckout(unittest.TestCase):
    """Tests in a folder that has a checkout, `self.checkout`, and a program file, `f.json`, beside it."""

    def setUp(self) -> None:
        folder = tempfile.TemporaryDirectory()
        self.addCleanup(folder.cleanup)
        self.folder = Path(folder.name).resolve()
        self.checkout = self.folder / "checkout"
        self.calls = self.folder / "calls"
        for name in COPIED:
            if (TOP / name).exists():
                self.put(name, (TOP / name).read_text(encoding="utf-8")).chmod(0o755)
        for name, text in MADE.items():
            self.put(name, text)
        (self.folder / "f.json").write_text("{}\n", encoding="utf-8")
        kit = self.folder / "kit" / "bin"
        kit.mkdir(parents=True)
        shutil.copy(STUB, kit / "rt")
        self.env = {**os.environ, "PATH": f"{kit}:{os.environ['PATH']}", "STUB_CALLS": str(self.calls)}
        for name in ("RT_JOBS", "TREESCHED_KEEP"):
            self.env.pop(name, None)

    def put(self, name: str, text: str) -> Path:
        """Writes a file of the checkout."""
        file = self.checkout / name
        file.parent.mkdir(parents=True, exist_ok=True)
        file.write_text(text, encoding="utf-8")
        return file

    def commit(self) -> str:
        """Makes the checkout one of git with all files in a commit, and gives the commit."""
        words = ["-c", "user.name=a", "-c", "user.email=a@b", "commit", "-q", "-m", "all"]
        for call in (["init", "-q"], ["add", "--all"], words):
            subprocess.run(["git", "-C", self.checkout, *call], check=True)
        done = subprocess.run(["git", "-C", self.checkout, "rev-parse", "HEAD"], check=True, capture_output=True)
        return done.stdout.decode().strip()

    def run_wrapper(self, *words: str, stdin: str = "", **env: str) -> subprocess.CompletedProcess[str]:
        """Runs the wrapper on words, with more of an environment."""
        command = [self.checkout / "treesched", *words]
        return self.run_command(command, stdin, **env)

    def run_command(self, command: list[object], stdin: str = "", **env: str) -> subprocess.CompletedProcess[str]:
        """Runs a command beside the checkout."""
        return subprocess.run(
            [str(it) for it in command], cwd=self.folder, env={**self.env, **env}, input=stdin,
            capture_output=True, text=True, check=False,
        )  # fmt: skip

    def taken_calls(self) -> list[str]:
        """The calls of the kit since the last look."""
        if not self.calls.exists():
            return []
        calls = self.calls.read_text(encoding="utf-8").splitlines()
        self.calls.unlink()
        return calls
