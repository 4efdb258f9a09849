#!/bin/sh
# Prints the checksum of all that the program is built from: of the files of crates/, without the out/ folders, and of crates.txt, by
# path and content. It is the SHA-256 of what sha256sum prints for them, in the order of the bytes of their paths.
set -eu
cd "$(dirname -- "$0")/.."
files=$(mktemp)
trap 'rm -f "$files"' EXIT
find crates crates.txt -name out -prune -o -type f -print | LC_ALL=C sort >"$files"
tr '\n' '\0' <"$files" | xargs -0 sha256sum | sha256sum | cut -d ' ' -f 1
