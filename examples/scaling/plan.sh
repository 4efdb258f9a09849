#!/bin/sh
# Lays out a run in parts in a folder, or finds the same run there, and prints the numbers of the parts that are missing.
# Words: the circuit, the seed, how many shots, how many parts, the format, the folder; and after these, if it is not
# `sample`, the command with an option of its own: detect --append_observables.
# The folder then has the circuit, its numbers (`numbers`), what each part runs (`command`), and a line for each part
# (`parts`): its file, its first shot, and how many shots it has. Another run is refused there.
set -eu
if [ $# -lt 6 ]; then
    echo "plan: words: CIRCUIT SEED SHOTS PARTS FORMAT FOLDER [COMMAND [OPTION]]" >&2
    exit 2
fi
top=$(CDPATH='' cd -- "$(dirname -- "$0")/../.." && pwd)
program=${STABSIM:-$top/stabsim}
circuit=$1 seed=$2 shots=$3 parts=$4 format=$5 folder=$6
shift 6
[ $# -gt 0 ] || set -- sample
for number in "$seed" "$shots" "$parts"; do
    case $number in
    '' | *[!0-9]*)
        echo "plan: '$number' is no number: the seed, the shots and the parts are decimal digits" >&2
        exit 2
        ;;
    esac
done
if [ "$parts" -lt 1 ] || [ "$shots" -gt $((parts * 1000000)) ]; then
    echo "plan: a part has at most 1000000 shots, so more parts are needed" >&2
    exit 2
fi

# Keeps what it reads as a file of the folder. If there is one, it must say the same.
keep() {
    cat >"$own"
    ln "$own" "$folder/$1" 2>/dev/null || cmp -s "$own" "$folder/$1" || {
        echo "plan: $folder has another run: its $1 says something else" >&2
        exit 2
    }
    rm -f "$own"
}

lines_of_parts() {
    awk -v shots="$shots" -v parts="$parts" -v format="$format" 'BEGIN {
        each = int(shots / parts)
        more = shots - each * parts
        for (part = 0; part < parts; part++) {
            count = each + (part < more)
            printf "part_%06d.%s %.0f %.0f\n", part, format, first, count
            first += count
        }
    }'
}

numbers=$("$program" check --in "$circuit")
mkdir -p "$folder"
own=$(mktemp "$folder/unfinished_plan.XXXXXX")
trap 'rm -f "$own"' EXIT
keep circuit <"$circuit"
echo "$numbers" | keep numbers
echo "$* --seed $seed --out_format $format" | keep command
lines_of_parts | keep parts

number=0
while read -r name _; do
    [ -e "$folder/$name" ] || echo "$number"
    number=$((number + 1))
done <"$folder/parts"
