"""Tests of the script `treesched` at the top, with a stub of the kit.

usage: python3 -m unittest discover -s scripts/tests
"""
import os
import subprocess
import unittest

from stub_checkout import StubCheckout

EXPLORE = ("explore", "f.json", "--steps", "2")
BUILD = ["low lib", "treesched run -- --help"]
OWN_FAILURE = 70


class Builds(StubCheckout):
    """What is proved and built, and when."""

    def test_first_run_builds_and_answers(self) -> None:
        ended = self.run_wrapper(*EXPLORE)
        self.assertEqual((ended.returncode, ended.stdout), (0, "answer explore f.json --steps 2\n"))
        self.assertEqual(self.taken_calls(), BUILD)
        low, program = "crate 1 of 2, low", "crate 2 of 2, treesched"
        lines = (f"{low}: proving\n", f"{low}: building\n", f"{program}: proving and building the program")
        places = [ended.stderr.index(f"treesched: {line}") for line in lines]
        self.assertEqual(places, sorted(places))
        self.assertEqual(ended.stderr.count("building\n"), 1)
        self.assertIn("low: 2 of 4 functions checked", ended.stderr)

    def test_second_run_only_answers(self) -> None:
        self.run_wrapper("--build")
        self.taken_calls()
        ended = self.run_wrapper(*EXPLORE)
        self.assertEqual((ended.returncode, ended.stderr), (0, "remark\n"))
        self.assertEqual(self.taken_calls(), [])

    def test_build_alone_prints_no_answer(self) -> None:
        ended = self.run_wrapper("--build")
        self.assertEqual((ended.returncode, ended.stdout), (0, ""))
        self.assertEqual(self.taken_calls(), BUILD)

    def test_statuses_pass_through(self) -> None:
        self.run_wrapper("--build")
        for status in range(7):
            self.assertEqual(self.run_wrapper(*EXPLORE, STUB_STATUS=str(status)).returncode, status)

    def test_jobs_are_handed_on(self) -> None:
        self.run_wrapper("--build", RT_JOBS="3")
        self.assertEqual(self.taken_calls(), ["low lib --jobs 3", "treesched run --jobs 3 -- --help"])

    def test_what_changed_is_seen(self) -> None:
        self.run_wrapper("--build")
        self.taken_calls()
        for name in ("crates/treesched/src/main.rt", "crates/low/src/lib.rt", "crates.txt"):
            with (self.checkout / name).open("a", encoding="utf-8") as file:
                file.write("# more\n")
            self.run_wrapper("--build")
            self.assertEqual(self.taken_calls(), BUILD)

    def test_what_changed_meanwhile_is_seen(self) -> None:
        self.run_wrapper("--build", STUB_CHANGES="1")
        self.taken_calls()
        for calls in (BUILD, []):
            self.run_wrapper("--build")
            self.assertEqual(self.taken_calls(), calls)

    def test_touched_files_are_not_proved_again(self) -> None:
        self.run_wrapper("--build")
        self.taken_calls()
        for file in self.checkout.rglob("crates/*/src/*"):
            file.touch()
        self.run_wrapper("--build")
        self.assertEqual(self.taken_calls(), [])

    def test_old_times_hide_no_change(self) -> None:
        file = self.put("crates/treesched/src/main.rt", "main\n")
        self.run_wrapper("--build")
        self.taken_calls()
        file.write_text("another main\n", encoding="utf-8")
        os.utime(file, (1, 1))
        self.run_wrapper("--build")
        self.assertEqual(self.taken_calls(), BUILD)

    def test_removed_files_are_seen(self) -> None:
        self.run_wrapper("--build")
        self.taken_calls()
        (self.checkout / "crates/low/specs/Lib.antt").unlink()
        self.run_wrapper("--build")
        self.assertEqual(self.taken_calls(), BUILD)

    def test_another_program_in_its_place_is_seen(self) -> None:
        self.run_wrapper("--build")
        self.taken_calls()
        self.put("crates/treesched/out/treesched", "#!/bin/sh\necho other\n")
        self.assertEqual(self.run_wrapper(*EXPLORE).stdout, "answer explore f.json --steps 2\n")
        self.assertEqual(self.taken_calls(), BUILD)

    def test_what_the_kit_built_alone_counts_by_its_time(self) -> None:
        self.run_wrapper("--build")
        self.taken_calls()
        (self.checkout / "crates/treesched/out/built").unlink()
        self.run_wrapper(*EXPLORE)
        self.assertEqual(self.taken_calls(), [])
        self.put("crates/treesched/src/main.rt", "another main\n")
        self.run_wrapper(*EXPLORE)
        self.assertEqual(self.taken_calls(), BUILD)

    def test_what_was_done_before_a_failure_is_kept(self) -> None:
        ended = self.run_wrapper(*EXPLORE, STUB_FAILS="treesched")
        self.assertEqual((ended.returncode, ended.stdout), (OWN_FAILURE, ""))
        self.assertIn("not proved", ended.stderr)
        self.assertTrue((self.checkout / "crates/low/out/rlib/stamp").exists())
        self.taken_calls()
        self.run_wrapper(*EXPLORE)
        self.assertEqual(self.taken_calls(), BUILD)

    def test_second_run_at_once_waits(self) -> None:
        command = [str(self.checkout / "treesched"), *EXPLORE]
        env = {**self.env, "STUB_SECONDS": "1"}
        pipe = subprocess.PIPE
        runs = [
            subprocess.Popen(command, cwd=self.folder, env=env, stdout=pipe, stderr=pipe, text=True) for _ in range(2)
        ]
        said = [it.communicate() for it in runs]
        self.assertEqual([out for out, _ in said], ["answer explore f.json --steps 2\n"] * 2)
        self.assertEqual(sorted(err.count("this one waits for it") for _, err in said), [0, 1])
        self.assertEqual(self.taken_calls(), BUILD)


class Leftovers(StubCheckout):
    """What a build leaves."""

    def kept(self) -> list[str]:
        return sorted(it.parent.parent.name for it in self.checkout.glob("crates/*/out/incremental"))

    def test_kept_work_goes(self) -> None:
        self.run_wrapper("--build")
        self.assertEqual(self.kept(), [])
        self.assertTrue((self.checkout / "crates/low/out/rlib/stamp").exists())

    def test_kept_work_goes_after_a_failure_too(self) -> None:
        self.run_wrapper("--build", STUB_FAILS="low")
        self.assertEqual(self.kept(), ["low"])
        self.run_wrapper("--build")
        self.assertEqual(self.kept(), [])

    def test_kept_work_stays_where_it_is_asked_for(self) -> None:
        self.run_wrapper("--build", TREESCHED_KEEP="1")
        self.assertEqual(self.kept(), ["low", "treesched"])

    def test_kept_work_of_others_stays(self) -> None:
        (self.checkout / "crates/low/out/incremental").mkdir(parents=True)
        self.run_wrapper("--build")
        self.assertEqual(self.kept(), ["low"])


class EarlyAnswers(StubCheckout):
    """What is answered before anything is built."""

    def answered(self, *words: str) -> tuple[int, str, str]:
        """The status and the outputs of a run in which the kit is not called."""
        ended = self.run_wrapper(*words)
        self.assertEqual(self.taken_calls(), [])
        return ended.returncode, ended.stdout, ended.stderr

    def test_help(self) -> None:
        for words in ("--help", "help", "-h", "explore --help", "--unproved --help", "help check"):
            status, out, err = self.answered(*words.split())
            self.assertEqual((status, err), (0, ""))
            self.assertIn("Usage: treesched explore [OPTIONS] --steps <N> <FILE>", out)

    def test_help_of_a_program_that_is_there(self) -> None:
        self.run_wrapper("--build")
        self.taken_calls()
        self.assertEqual(self.answered("--help"), (0, "answer --help\n", "remark\n"))
        self.put("crates/low/src/lib.rt", "another low\n")
        status, out, err = self.answered("--help")
        self.assertEqual((status, out), (0, "answer --help\n"))
        self.assertIn("made of other sources", err)

    def test_refused_words(self) -> None:
        refused = {
            (): "error: no command is given",
            ("--unproved",): "error: no command is given",
            ("explode",): "error: there is no command 'explode'",
            ("explore", "f.json"): "error: --steps is missing",
            ("explore", "--steps", "2"): "error: a file is missing",
            ("explore", "f.json", "--steps", "401"): "error: --steps takes a number from 0 to 400, and not '401'",
            ("explore", "f.json", "--step", "4"): "error: explore has no option '--step'",
            ("explore", "f.json", "--steps"): "error: --steps has no value",
            (*EXPLORE, "--merge", "name"): "error: --merge takes exact or names, and not 'name'",
            (*EXPLORE, "--steps", "2"): "error: --steps stands there twice",
            (*EXPLORE, "g.json"): "error: 'g.json' is a word too many",
            (*EXPLORE, "--book", "b"): "treesched: --book needs --merge names",
            ("replay", "f.json", "--schedule", "0,,1"): "treesched: bad schedule",
            ("check", "f.json"): "error: a file is missing",
            ("help", "me"): "error: there is no such help",
            ("--version", "please"): "error: there is no command '--version'",
            ("--build", "please"): "error: there is no command '--build'",
        }
        for words, line in refused.items():
            status, out, err = self.answered(*words)
            self.assertEqual((status, out, err.split("\n")[0]), (4, "", line))

    def test_files_that_are_not_there(self) -> None:
        for words in ("explore no --steps 2", "--unproved replay no --schedule 0", "check f.json no"):
            self.assertEqual(self.answered(*words.split()), (6, "", "treesched: can't read no\n"))
        self.assertEqual(self.answered("check", "kit", "f.json"), (6, "", "treesched: can't read kit\n"))

    def test_words_at_their_limits_are_taken(self) -> None:
        self.run_wrapper("explore", "--steps=+0400", "--workers", "8", "--states", "2000000", "--", "f.json")
        self.assertEqual(self.taken_calls(), BUILD)


class OwnFailures(StubCheckout):
    """The script's own failures."""

    def test_no_kit(self) -> None:
        for words in (EXPLORE, ("--unproved", *EXPLORE), ("--build",)):
            ended = self.run_wrapper(*words, PATH="/usr/bin:/bin")
            self.assertEqual((ended.returncode, ended.stdout), (OWN_FAILURE, ""))
            self.assertIn("the Rattle kit is missing", ended.stderr)

    def test_a_checkout_that_cannot_be_written(self) -> None:
        self.put("crates/treesched/out", "a file where a folder is to be")
        ended = self.run_wrapper(*EXPLORE)
        self.assertEqual((ended.returncode, ended.stdout), (OWN_FAILURE, ""))
        self.assertIn("can't be written", ended.stderr)

    def test_a_checkout_that_lacks_files(self) -> None:
        (self.checkout / "crates.txt").unlink()
        self.assertEqual(self.run_wrapper(*EXPLORE).returncode, OWN_FAILURE)

    def test_a_failed_proof(self) -> None:
        self.assertEqual(self.run_wrapper(*EXPLORE, STUB_FAILS="low").returncode, OWN_FAILURE)
        self.assertEqual(self.taken_calls(), ["low lib"])

    def test_a_run_with_nothing_proved_that_fails(self) -> None:
        self.assertEqual(self.run_wrapper("--unproved", *EXPLORE, STUB_FAILS="try").returncode, OWN_FAILURE)


class Unproved(StubCheckout):
    """Runs with nothing proved."""

    def tried(self, command: str, stdin: str = "") -> str:
        """The standard output of a run, with the folder of the tests as ."""
        ended = self.run_command(["bash", "-c", f"checkout/treesched --unproved {command}"], stdin, STUB_STATUS="3")
        self.assertEqual(ended.returncode, 3)
        self.assertRegex(ended.stderr, r"^treesched: nothing is proved .*, which takes .*\nremark\n$")
        self.assertEqual(len(self.taken_calls()), 1)
        return ended.stdout.replace(str(self.folder), ".")

    def test_a_file(self) -> None:
        words = "--seconds 86400 --data f.json=./f.json -- explore f.json --steps 2"
        self.assertEqual(self.tried("explore f.json --steps 2"), f"tried try {words}\n{{}}\n")

    def test_a_pipe(self) -> None:
        self.assertIn("\n{}\n", self.tried("explore <(cat f.json) --steps 2"))

    def test_standard_input(self) -> None:
        self.assertIn("\npiped\n", self.tried("explore /dev/stdin --steps 2", stdin="piped\n"))

    def test_a_book_comes_to_lie_where_the_user_stands(self) -> None:
        for option in ("--book ", "--book="):
            shown = self.tried(f"explore f.json --steps 2 --merge names {option}b")
            self.assertIn(f"--merge names {option}./b\n", shown)

    def test_no_copies_are_left(self) -> None:
        room = self.folder / "tmp"
        room.mkdir()
        self.env["TMPDIR"] = str(room)
        self.tried("explore <(cat f.json) --steps 2")
        self.assertEqual(list(room.iterdir()), [])


class Version(StubCheckout):
    """What --version says."""

    def version(self) -> list[str]:
        ended = self.run_wrapper("--version")
        self.assertEqual((ended.returncode, ended.stderr), (0, ""))
        return ended.stdout.splitlines()

    def test_no_checkout_of_git(self) -> None:
        self.assertEqual(self.version()[0], "commit unknown, since this is no checkout of git")

    def test_states_of_the_program(self) -> None:
        commit = self.commit()
        self.assertEqual(self.version(), [f"commit {commit}, clean", "kit stub kit", "program not built yet"])
        self.run_wrapper("--build")
        lines = self.version()
        self.assertEqual(lines[0], f"commit {commit}, clean")
        self.assertEqual(lines[2], "program proved, of these sources, by stub kit")
        self.assertRegex(lines[3], "^sha256 [0-9a-f]{64}$")
        self.put("crates/low/src/lib.rt", "another low\n")
        lines = self.version()
        self.assertEqual(lines[0], f"commit {commit}, changed")
        self.assertEqual(lines[2], "program of other sources, which the next run proves and builds anew")


if __name__ == "__main__":
    unittest.main()
