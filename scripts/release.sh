#!/usr/bin/env bash
# Packs the proved program of a commit: dist/treesched-COMMIT-x86_64.tar.gz, and its SHA-256 in a file beside it.
#
# usage: scripts/release.sh [--anew]
#
# The program is built in this checkout, which must have no change, and once more in a clone in another folder. The
# two are compared byte by byte. For the second build the kit takes over the libraries that it proved before on this
# machine. With --anew it takes over nothing, and proves everything once more, which takes as long as a first build.
# The archive holds the program, the licences, and RELEASE.txt: what the program is, what it needs, and if the builds
# were equal.
#
# The path of the archive goes to standard output, all else to standard error. The status is 1 where none is made.
set -euo pipefail

top=$(dirname "$(dirname "$(readlink -f "${BASH_SOURCE[0]}")")")
program=$top/crates/treesched/out/treesched
room=''
trap '[ -z "$room" ] || rm -rf "$room"' EXIT

say() {
    echo "release: $1" >&2
}

fail() {
    say "$1"
    exit 1
}

# Refuses a checkout that is not the commit and nothing else.
look_at_checkout() {
    local changed
    [ "$(git -C "$top" rev-parse --show-toplevel 2>/dev/null)" = "$top" ] || fail "$top is no checkout of git"
    changed=$(git -C "$top" status --porcelain)
    [ -z "$changed" ] || fail "the checkout is changed, so that it is not the commit:"$'\n'"$changed"
    compgen -G "$top/LICENSE*" >/dev/null || fail "there is no licence to pack: no file LICENSE* at the top"
    command -v rt >/dev/null || fail "the Rattle kit is missing: there is no command rt on the path"
}

# Builds the program once more in a clone, and leaves what the kit said in $room/log.
build_again() {
    local clone=$room/clone/of/treesched path=$PATH
    git clone -q "$top" "$clone"
    if [ -n "$1" ]; then
        link_kit
        path=$room/apart/kit/bin:$PATH
    fi
    PATH=$path "$clone/treesched" --build || fail "the second build failed"
    mv "$clone/crates/treesched/out/build.log" "$room/log"
    mv "$clone/crates/treesched/out/treesched" "$room/second"
}

# Gives the second build a kit in a folder of its own, since a kit keeps what it proved in a folder beside it.
link_kit() {
    local kit
    kit=$(dirname "$(dirname "$(readlink -f "$(command -v rt)")")")
    mkdir -p "$room/apart/kit"
    ln -s "$kit"/* "$room/apart/kit/"
    rm "$room/apart/kit/bin"
    cp -r "$kit/bin" "$room/apart/kit/"
}

sum_of() {
    sha256sum <"$1" | cut -d ' ' -f 1
}

# What the program needs of the system: the libraries that it is linked with, and the C library's version.
needed() {
    local names version
    names=$(ldd "$program" 2>/dev/null | awk '!/vdso/ { print $1 }' | paste -sd ' ') || true
    version=$(grep -ao 'GLIBC_[0-9.]*' "$program" | sort -uV | tail -n 1) || true
    echo "${names:-nothing that is linked dynamically}${version:+, with $version}"
}

describe() {
    local cpu equal=$1 way=$2
    cpu=$(sed -n 's/.* cpu=\([^ ]*\).*/\1/p' "$room/log" | tail -n 1)
    cat <<END
treesched: a proved schedule explorer for non-blocking binary search trees

commit    $(git -C "$top" rev-parse HEAD)
kit       $(rt version)
program   treesched, $(stat -c %s "$program") bytes
sha256    $(sum_of "$program")
target    Linux, a processor of the level ${cpu:-x86-64 (the kit named none)} or higher
linked    $(needed)
builds    two, in two folders: $equal; for the second $way

The program runs by itself. It judges the book file of a claim by ./treesched check claim.json claim.book
All its words are in ./treesched --help, and in the documents of the commit.

The program was built from sources that are proved as a whole. Nothing in this archive shows that: whoever wants
to know it gets the commit and the kit, and in the checkout runs

    ./treesched --build && sha256sum crates/treesched/out/treesched

which proves everything, and compares the sum with the one above.
END
}

pack() {
    local name=$1 folder=$room/pack/$1 time
    mkdir -p "$folder" "$top/dist"
    cp "$program" "$top"/LICENSE* "$folder"
    describe "$2" "$3" >"$folder/RELEASE.txt"
    time=$(git -C "$top" log -1 --format=%ct)
    tar -C "$room/pack" --sort=name --owner=0 --group=0 --numeric-owner --mode=go-w --mtime="@$time" -cf - "$name" \
        | gzip -9n >"$room/$name.tar.gz"
    mv "$room/$name.tar.gz" "$top/dist/"
    (cd "$top/dist" && sha256sum "$name.tar.gz" >"$name.tar.gz.sha256")
    cat "$folder/RELEASE.txt" >&2
}

main() {
    local anew='' way='the kit took over libraries that it had proved before' equal name
    case "$*" in
    '') ;;
    --anew) anew=yes way='every proof was done anew' ;;
    *) fail "usage: scripts/release.sh [--anew]" ;;
    esac
    look_at_checkout
    room=$(mktemp -d)
    say "the first build"
    "$top/treesched" --build || fail "the first build failed"
    say "the second build, in another folder"
    build_again "$anew"
    equal='equal byte by byte'
    cmp "$program" "$room/second" >&2 || equal="different, the second with the SHA-256 $(sum_of "$room/second")"
    say "the two builds are $equal"
    name=treesched-$(git -C "$top" rev-parse --short=12 HEAD)-x86_64
    pack "$name" "$equal" "$way"
    echo "$top/dist/$name.tar.gz"
}

main "$@"
