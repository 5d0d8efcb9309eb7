#!/usr/bin/env bash
# Runs what takes memory or starts threads with each of these requests refused in turn, one a run. It is no part of the
# gate, in which no request is refused.
#
# usage: scripts/refuse_allocations.sh program      the built program, on programs of examples/ and on faulty words
#        scripts/refuse_allocations.sh tests CRATE  the built tests of a crate, each for itself
#
# `rt ci` builds both. Refused are each of the first 2,000 requests for memory, each multiple of 997
# after them, and each start of a thread. The program has to end with status 5, one line on standard
# error and nothing on standard output, or as it does when nothing is refused; of several workers,
# the schedule and the ledger may be others. A test has to pass: what it is refused once it asks for
# once more.
set -u
top=$(cd "$(dirname "$0")/.." && pwd)
work=$(mktemp -d)
trap 'rm -rf "$work"' EXIT
runs=0
failed=0

lines="explore two_inserts.json --steps 2 --ledger
explore two_inserts.json --steps 2 --states 4
explore two_inserts.json --steps 2 --states 4 --workers 2
explore two_inserts.json --steps 2 --states 4 --workers 8
explore two_finds.json --steps 4
explore two_finds.json --steps 4 --workers 2
explore two_finds.json --steps 4 --workers 8
explore two_finds.json --steps 4 --merge names
explore two_finds.json --steps 4 --merge names --workers 8
explore three_threads.json --steps 3
explore ellen_no_iflag.json --steps 20
explore ellen_no_iflag.json --steps 20 --workers 2
explore ellen_no_iflag.json --steps 20 --workers 8
explore ellen_no_mark.json --steps 20
explore nm_no_tag.json --steps 20
replay two_inserts.json --schedule 1,0
replay two_inserts.json --schedule 0,0
replay two_inserts.json --schedule 0,,1
explore two_inserts.json --steps 400 --merge names --book /dev/null
explore nm_after.json --steps 400 --merge names --book /dev/null
explore nm_after.json --steps 400 --merge names --workers 2 --book /dev/null
check two_inserts.json two_inserts.book
check three_threads.json two_inserts.book
check nm_after.json $work/nm_after.book
check nm.json $work/nm_after.book
explore no-such-file.json --steps 2
check two_inserts.json no-such-file.book
explore two_inserts.json --steps 400 --book /dev/null
explore two_inserts.json --steps 401"

# refuse WHAT N WORD..: runs a command with its Nth request refused, and leaves its output in files. With 0 none is.
refuse() {
  local what=$1 number=$2
  shift 2
  timeout 60 env "$what=$number" LD_PRELOAD="$work/refuse.so" "$@" >"$work/refused.out" 2>"$work/refused.err"
}

# refuse_each JUDGE WORD..: runs a command with each of its requests refused in turn. JUDGE is called with its status.
refuse_each() {
  local judge=$1 requests threads what number
  shift
  local shown="${1##*/} ${*:2}"
  refuse REFUSE 0 "$@"
  read -r requests threads < <(sed -n 's/^requests \([0-9]*\) threads \([0-9]*\)$/\1 \2/p' "$work/refused.err")
  [ -n "$requests" ] || { echo "$shown: its requests are not counted" && failed=$((failed + 1)); }
  while read -r what number; do
    refuse "$what" "$number" "$@"
    "$judge" $? || { echo "$shown: wrong with $what=$number" && failed=$((failed + 1)); }
    runs=$((runs + 1))
  done < <(
    seq -f 'REFUSE %.0f' 1 $((requests < 2000 ? requests : 2000))
    seq -f 'REFUSE %.0f' 2991 997 "$requests"
    seq -f 'REFUSE_THREAD %.0f' 1 "$threads"
  )
  echo "$shown: $requests requests for memory, $threads starts of threads"
}

# What is the same for every number of workers.
common() {
  if [[ $words == *--workers* ]]; then sed '/^schedule /d; /^worker /d' "$1"; else cat "$1"; fi
}

is_answered() {
  if [ "$1" -eq 5 ] && [ ! -s "$work/refused.out" ]; then
    [ "$(cat "$work/refused.err")" != 'treesched: out of memory' ] || return 0
  fi
  [ "$1" -eq "$status" ] && cmp -s "$work/refused.err" "$work/ample.err" &&
    [ "$(common "$work/refused.out")" = "$(common "$work/ample.out")" ]
}

refuse_program() {
  local program=$top/crates/treesched/out/treesched words status
  cd "$top/examples" || exit 2
  "$program" explore nm_after.json --steps 400 --merge names --book "$work/nm_after.book" >/dev/null || exit 2
  while IFS= read -r words; do
    # shellcheck disable=SC2086
    "$program" $words >"$work/ample.out" 2>"$work/ample.err"
    status=$?
    # shellcheck disable=SC2086
    refuse_each is_answered "$program" $words
  done <<<"$lines"
}

is_passed() { [ "$1" -eq 0 ]; }

# A test that several workers are there at once needs all its threads: where one is not started, another does its work,
# and the answer is right all the same.
refuse_tests() {
  local program=$top/crates/$1/out/$1_tests name
  cd "$work" || exit 2
  while IFS= read -r name; do
    refuse_each is_passed "$program" "$name"
  done < <("$program" --list | sed -n 's/: test$//p' | grep -v '_in_one_layer_at_once$')
}

cc -shared -fPIC -O1 -o "$work/refuse.so" "$top/scripts/refuse.c" -ldl || exit 2
case "${1:-}" in
  program) refuse_program ;;
  tests) refuse_tests "${2:?a crate}" ;;
  *) sed -n '2,12p' "$0" && exit 2 ;;
esac
echo "$runs runs, $failed failed"
[ "$failed" -eq 0 ] && [ "$runs" -gt 0 ]
