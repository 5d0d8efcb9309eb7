"""Tests of scripts/release.sh, with a stub of the kit.

usage: python3 -m unittest discover -s scripts/tests
"""
import hashlib
import subprocess
import tarfile
import unittest
from pathlib import Path

from stub_checkout import StubCheckout


class Releases(StubCheckout):
    """The archive, and when there is none."""

    def release(self, *words: str, **env: str) -> subprocess.CompletedProcess[str]:
        return self.run_command([self.checkout / "scripts/release.sh", *words], **env)

    def archive(self, ended: subprocess.CompletedProcess[str]) -> tuple[Path, dict[str, bytes]]:
        """The path of the archive, and what its files hold."""
        self.assertEqual(ended.returncode, 0, ended.stderr)
        path = Path(ended.stdout.removesuffix("\n"))
        with tarfile.open(path) as archive:
            files = [(it.name.split("/", 1)[-1], archive.extractfile(it)) for it in archive if it.isfile()]
            return path, {name: file.read() for name, file in files if file}

    def test_archive(self) -> None:
        commit = self.commit()
        path, files = self.archive(self.release())
        self.assertEqual(path, self.checkout / "dist" / f"treesched-{commit[:12]}-x86_64.tar.gz")
        self.assertEqual(sorted(files), ["LICENSE-ONE", "RELEASE.txt", "treesched"])
        self.assertEqual(files["treesched"], (self.checkout / "crates/treesched/out/treesched").read_bytes())
        text = files["RELEASE.txt"].decode()
        sum_of_program = hashlib.sha256(files["treesched"]).hexdigest()
        for line in (
            f"commit    {commit}",
            "kit       stub kit",
            f"sha256    {sum_of_program}",
            "target    Linux, a processor of the level stub or higher",
            "builds    two, in two folders: equal byte by byte; for the second the kit took over libraries"
            " that it had proved before",
        ):
            self.assertIn(line, text.splitlines())
        said = Path(f"{path}.sha256").read_text(encoding="utf-8")
        self.assertEqual(said, f"{hashlib.sha256(path.read_bytes()).hexdigest()}  {path.name}\n")

    def test_two_releases_are_equal(self) -> None:
        self.commit()
        first = self.archive(self.release())[0].read_bytes()
        self.assertEqual(self.archive(self.release())[0].read_bytes(), first)
        status = subprocess.run(["git", "-C", self.checkout, "status", "--porcelain"], capture_output=True, check=True)
        self.assertEqual(status.stdout, b"")

    def test_builds_in_other_folders(self) -> None:
        self.commit()
        self.release()
        self.assertEqual(self.taken_calls()[-1], "treesched run -- --help")
        self.release("--anew")
        self.assertEqual(self.taken_calls(), ["low lib", "treesched run -- --help"])

    def test_anew(self) -> None:
        self.commit()
        text = self.archive(self.release("--anew"))[1]["RELEASE.txt"].decode()
        self.assertIn("for the second every proof was done anew", text)

    def test_builds_that_differ(self) -> None:
        self.commit()
        ended = self.release(STUB_DIFFERS="1")
        self.assertIn("the two builds are different", ended.stderr)
        self.assertIn("two folders: different, the second with", self.archive(ended)[1]["RELEASE.txt"].decode())

    def refused(self, said: str, *words: str, **env: str) -> None:
        ended = self.release(*words, **env)
        self.assertEqual((ended.returncode, ended.stdout), (1, ""))
        self.assertIn(said, ended.stderr)
        self.assertFalse((self.checkout / "dist").exists())

    def test_refusals(self) -> None:
        self.refused("is no checkout of git")
        self.commit()
        self.refused("usage", "--new")
        self.refused("the first build failed", STUB_FAILS="low")
        (self.folder / "kit" / "bin" / "rt").rename(self.folder / "rt")
        self.refused("the Rattle kit is missing", PATH="/usr/bin:/bin")

    def test_changed_checkouts(self) -> None:
        self.commit()
        for name in ("crates/low/src/lib.rt", "notes"):
            file = self.put(name, "another text\n")
            self.refused("the checkout is changed")
            subprocess.run(["git", "-C", self.checkout, "stash", "-q", "-u"], check=True, env={**self.env, **WHO})
            self.assertEqual(file.exists(), name != "notes")

    def test_no_licence(self) -> None:
        (self.checkout / "LICENSE-ONE").unlink()
        self.commit()
        self.refused("there is no licence to pack")


WHO = {f"GIT_{who}_{what}": "a" for who in ("AUTHOR", "COMMITTER") for what in ("NAME", "EMAIL")}


if __name__ == "__main__":
    unittest.main()
