#!/bin/sh
# Proves and builds the program of the sources by `rt run` for a processor, as x86-64-v2, and says on standard error how far that is.
# What rt said is kept in crates/stabsim/out/build.log, and shown if the build failed. The status is rt's. After an interrupt the next
# call goes on from there.
set -u
top=$(CDPATH='' cd -- "$(dirname -- "$0")/.." && pwd) || exit 2
cd "$top/crates/stabsim" && mkdir -p out || exit 2
trap 'exit 130' INT

# The line of a crate in crates.txt, which lists those below stabsim above it.
number_of() {
    grep -n "^$1:" "$top/crates.txt" | cut -d : -f 1
}

# How far rt is, from what it says.
tell() {
    place="reads the sources"
    echo "stabsim: $place"
    while IFS= read -r line; do
        case $line in
        "rt: chose --jobs "*) place="crate $(number_of "${line##* }") of $(number_of stabsim), ${line##* }" ;;
        "so far: "*) line=${line#so far: } && echo "stabsim: $place: ${line%%;*}" ;;
        esac
    done
}

{
    rt run "--cpu=$1" -- --help </dev/null
    echo $? >out/build.status
} 2>&1 | tee out/build.log | tell >&2
status=$(cat out/build.status)
[ "$status" -eq 0 ] || cat out/build.log >&2
exit "$status"
