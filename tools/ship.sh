#!/bin/sh
# Builds the program from the sources as they are, for x86-64-v3 and for x86-64-v2, and puts both into python/stabsim/programs with
# the text shipped.txt: the version, the checksum of the sources, the logic of the proofs, and the checksum of each program. Proofs that
# are kept here are not made again. The program for x86-64-v2 is built last: that one stays in crates/stabsim/out, and runs here anyway.
set -eu
top=$(CDPATH='' cd -- "$(dirname -- "$0")/.." && pwd)
programs=$top/python/stabsim/programs
cd "$top"

fail() {
    echo "ship: $1" >&2
    exit 1
}

command -v rt >/dev/null || fail "it needs the Rattle toolchain: its command rt is not on the PATH"
[ "$("$programs/level")" = v3 ] || fail "it runs what it builds, which takes a processor with all of x86-64-v3"
# Files that git doesn't keep would count for the checksum, and be missing in each clone.
others=$(git ls-files --others --exclude=out/ -- crates | head -n 1)
[ -z "$others" ] || fail "git does not keep $others, although it is among the sources: add it or remove it"
made=$(mktemp -d)
trap 'rm -rf "$made"' EXIT
trap 'exit 130' INT TERM

version=$(sed -n 's/^__version__ = "\(.*\)"$/\1/p' python/stabsim/__init__.py)
sources=$(tools/sum_sources.sh)
logic=$(rt version | sed 's/.* logic //')
printf '%s\n' "version $version" "sources $sources" "logic $logic" >"$made/shipped.txt"
for level in v3 v2; do
    tools/build_program.sh "x86-64-$level"
    install -m 755 crates/stabsim/out/stabsim "$made/stabsim-x86-64-$level"
done
(cd "$made" && sha256sum stabsim-x86-64-*) | sed 's/^\([^ ]*\)  \(.*\)$/\2 \1/' >>"$made/shipped.txt"
[ "$(tools/sum_sources.sh)" = "$sources" ] || fail "the sources changed while the programs were built, so nothing was shipped: run it again"
says=$("$made/stabsim-x86-64-v2" --version)
[ "$says" = "$(printf 'stabsim %s\nproved in the logic %s of Rattle' "$version" "$logic")" ] || fail "--version says other than shipped.txt: $says"
# A program that runs right now is not written over.
cp -p --remove-destination "$made"/* "$programs"
cat "$programs/shipped.txt"
