#!/bin/sh
# Prints the path of the program of the sources as they are: the one that was built here from them, or the shipped one, if it was
# built from the same sources. If there is neither, tools/build_program.sh proves and builds it first, for this processor.
set -u
top=$(CDPATH='' cd -- "$(dirname -- "$0")/.." && pwd) || exit 2
out=$top/crates/stabsim/out
built=$out/stabsim
programs=$top/python/stabsim/programs
# It is as new as the sources that were last found to be those of the shipped program.
as_shipped=$out/as_shipped

# Whether a file is there and nothing that find sees by the other words is newer.
is_newest() {
    file=$1
    shift
    [ -e "$file" ] && newer=$(find "$@" -newer "$file" -print -quit 2>&1) && [ -z "$newer" ]
}

is_built() {
    [ -x "$built" ] && is_newest "$built" "$top/crates" "$top/crates.txt" -name out -prune -o -name must-fail -prune -o -type f
}

is_shipped() {
    [ -r "$programs/shipped.txt" ] || return 1
    is_newest "$as_shipped" "$top/crates" "$top/crates.txt" "$programs" -name out -prune -o && return
    # Sources that change meanwhile are newer than this file.
    { mkdir -p "$out" && : >"$as_shipped.$$"; } 2>/dev/null
    sum=$("$top/tools/sum_sources.sh") || exit 2
    if grep -q -x "sources $sum" "$programs/shipped.txt"; then
        mv -f "$as_shipped.$$" "$as_shipped" 2>/dev/null
        return 0
    fi
    rm -f "$as_shipped.$$" 2>/dev/null
    return 1
}

build() {
    if ! command -v rt >/dev/null 2>&1; then
        echo "stabsim: the sources are not those of a shipped program, so it has to be built, which needs the Rattle toolchain:" \
            "its command rt is not on the PATH" >&2
        exit 2
    fi
    echo "stabsim: proves and builds the program first: from nothing, up to an hour on four processors," >&2
    echo "stabsim: 4 GB of memory and 9 GB of disk; a build that is interrupted goes on where it stopped" >&2
    level=$("$programs/level")
    trap 'exit 130' INT
    if ! "$top/tools/build_program.sh" "x86-64-${level:-v2}"; then
        echo "stabsim: the program was not built" >&2
        exit 2
    fi
    trap - INT
    # The build may have found nothing to do; it counts as made now all the same.
    touch "$built"
    # The logic that --version names is a constant of the source, which another toolchain does not change.
    "$built" --version | grep -q -F "logic $(rt version | sed 's/.* logic //') of" ||
        echo "stabsim: this toolchain proves in another logic than --version says" >&2
}

if is_built; then
    echo "$built"
elif is_shipped; then
    exec "$programs/choose"
else
    build
    echo "$built"
fi
