#!/usr/bin/env bash
# Stands for the kit's command rt in tests: it proves nothing, and leaves the files that the kit would leave.
#
# It writes each call as a line `FOLDER WORD ..` to the file $STUB_CALLS. A proof takes $STUB_SECONDS, and fails in the
# crate $STUB_FAILS. With $STUB_CHANGES set, a source changes meanwhile. The program that it makes answers with its
# words, and ends with the status $STUB_STATUS. With $STUB_DIFFERS set, each build of the program differs.
set -euo pipefail

program() {
    # shellcheck disable=SC2016
    printf '#!/bin/sh\n# %s\necho "answer $*"\necho "remark" >&2\nexit "${STUB_STATUS:-0}"\n' "${STUB_DIFFERS:+$PWD}"
}

# Runs the program unproved: it answers with its words, what is in the files that it is given, and the standard input.
try() {
    local word before=''
    echo "tried $*"
    for word in "$@"; do
        if [ "$before" = --data ]; then
            cat "${word#*=}"
        elif [ "$before" = explore ] && [ -f "$word" ] && [[ $word == /* ]]; then
            cat "$word"
        fi
        before=$word
    done
    cat
    echo "remark" >&2
    [ "${STUB_FAILS-}" = try ] || echo "run=ended status=${STUB_STATUS:-0} runners=1 proved=no" >&2
}

# Proves the crate.
prove() {
    mkdir -p out/incremental
    echo "so far: 2 of 4 functions"
    sleep "${STUB_SECONDS:-0}"
    [ "${STUB_FAILS-}" != "$(basename "$PWD")" ] || { echo "not proved"; exit 1; }
    [ -z "${STUB_CHANGES-}" ] || date +%N >src/changed.rt
}

[ "${1-}" = version ] || echo "$(basename "$PWD") $*" >>"$STUB_CALLS"
case ${1-} in
version) echo "stub kit" ;;
lib)
    prove
    echo "logic=proved functions=4"
    mkdir -p out/rlib
    date >out/rlib/stamp
    ;;
run)
    prove
    program >out/treesched
    chmod +x out/treesched
    echo "logic=proved cpu=stub sum=0"
    STUB_STATUS=0 out/treesched --help
    ;;
try) try "$@" ;;
*) exit 2 ;;
esac
