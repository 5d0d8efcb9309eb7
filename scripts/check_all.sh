#!/usr/bin/env bash
# Runs every check outside the gate that takes less than five minutes, and prints one line for each.
#
# usage: scripts/check_all.sh [PROGRAM]
#
# Without PROGRAM the script `treesched` at the top is meant. A line has the seconds, the name of the
# check, and the last line of its output; of a check that fails all output follows. The status is 0
# if none fails, 1 if one does, and 2 where PROGRAM does not run. Not here, as they take longer,
# measure or need a browser: scripts/refuse_allocations.sh, scripts/check_viewer.py, bench/run.py on
# all programs, and the sweeps of docs/RESULTS.md.
set -u
top=$(cd "$(dirname "${BASH_SOURCE[0]}")/.." && pwd)
program=$(realpath "${1:-$top/treesched}")
if ! "$program" explore "$top/examples/two_inserts.json" --steps 0 >/dev/null; then
    echo "check_all: $program does not run" >&2
    exit 2
fi
cd "$top" || exit 2
work=$(mktemp -d)
trap 'rm -rf "$work"' EXIT
export PYTHONDONTWRITEBYTECODE=1
failed=0

# check NAME WORD..: runs a command, and prints its line.
check() {
    local name=$1 begun=$SECONDS status
    shift
    "$@" >"$work/output" 2>&1
    status=$?
    if [ "$status" -eq 0 ]; then
        printf 'right %4d s  %-10s %s\n' $((SECONDS - begun)) "$name" "$(tail -n 1 "$work/output")"
    else
        printf 'WRONG %4d s  %-10s status %s\n' $((SECONDS - begun)) "$name" "$status"
        sed 's/^/    /' "$work/output"
        failed=$((failed + 1))
    fi
}

# skip NAME CAUSE: prints the line of a check that can't be made here.
skip() {
    printf 'not made      %-10s %s\n' "$1" "$2"
}

unit_tests() {
    local said=$work/unit-tests status
    TREESCHED=$program python3 -m unittest discover -s scripts/tests >"$said" 2>&1
    status=$?
    if [ "$status" -eq 0 ]; then grep '^Ran' "$said"; else cat "$said"; fi
    return "$status"
}

# All programs but the one that shows what can never matter.
lint() {
    local file files=()
    for file in examples/*.json; do
        [ "$file" = examples/two_finds.json ] || files+=("$file")
    done
    scripts/lint_program.py "${files[@]}"
}

# A small family of each version: swept, the first in two parts, made a page of, and explored once more by the place
# tables in Python.
sweeps() {
    local one=$work/one two=$work/two sweep=(scripts/sweep.py --program "$program" --commit here)
    "${sweep[@]}" --out "$one" --initial - 10 --most 1 --part 1/2 &&
        "${sweep[@]}" --out "$one" --initial - 10 --most 1 &&
        "${sweep[@]}" --out "$two" --most 1 --waits --trees ellen ellen-no-mark nm &&
        scripts/sweep_report.py --out "$work/page.md" "$one" "$two" &&
        scripts/compare_sweep.py "$one" "$two"
}

# The explorer in C++ reports as many states, and of a small family the same answers.
baseline() {
    local only
    g++ -O2 -std=c++17 -o "$work/explorer" bench/baseline/explorer.cc || return
    for only in atomic-4x2 atomic-2x6 nm-2x3; do
        bench/run.py --only "$only" "$program" "$work/explorer" || return
    done
    scripts/sweep.py --program "$program" --commit here --out "$work/nm" --trees nm nm-no-tag &&
        scripts/compare_sweep.py --program "$work/explorer" "$work/nm"
}

shell_scripts() {
    local files
    mapfile -t files < <(git ls-files '*.sh' treesched)
    shellcheck -x -S warning "${files[@]}" && echo "${#files[@]} scripts"
}

# Python files have fewer than 400 lines.
python_files() {
    local files
    mapfile -t files < <(git ls-files '*.py')
    awk 'FNR == 400 { print FILENAME ": 400 lines or more"; wrong = 1 } END { exit wrong }' "${files[@]}" &&
        echo "${#files[@]} files"
}

types() {
    local files
    mapfile -t files < <(git ls-files '*.py')
    MYPYPATH=scripts:scripts/tests:bench mypy --strict --cache-dir "$work/mypy" "${files[@]}"
}

check unit-tests unit_tests
check pages scripts/check_pages.py --program "$program"
[ ! -e scripts/check_links.py ] || check links scripts/check_links.py
check schemas scripts/check_schema.py --program "$program"
check books scripts/mutate_books.py "$program"
check lint lint
check beliefs scripts/count_beliefs.py --check
check sweeps sweeps
if command -v g++ >/dev/null; then check baseline baseline; else skip baseline "there is no g++"; fi
if command -v shellcheck >/dev/null; then check shell shell_scripts; else skip shell "there is no shellcheck"; fi
if command -v mypy >/dev/null; then check types types; else skip types "there is no mypy"; fi
check python python_files
[ "$failed" -eq 0 ] || echo "$failed checks fail"
[ "$failed" -eq 0 ]
