#!/bin/sh
#SBATCH --cpus-per-task=1
# Joins the parts of a run that plan.sh laid out, in the order of their shots, to FOLDER/all.FORMAT. Words: the folder.
# It checks first that each part is there and has the size, or the number of shots, that it must have; it names each that
# does not, and then ends with 1 and joins nothing.
set -eu
cd -- "$1"
read -r command <command
format=${command##* }

# How many bits a shot has.
bits_of_shot() {
    case $command in
    'sample '*) want='^records' ;;
    *' --append_observables '*) want='^(detectors|observables)' ;;
    *) want='^detectors' ;;
    esac
    awk -v want="$want" '$0 ~ want { sum += $2 } END { print sum + 0 }' numbers
}
bits=$(bits_of_shot)

# How long a file is: in bytes; or, for a format whose shots differ in length, in shots.
length() {
    case $format in
    01 | b8) wc -c <"$1" ;;
    r8)
        # A byte stands for this many zeros and, except for 255, a one after them; a shot has one bit more than it shows.
        od -v -An -t u1 "$1" | awk -v bits="$bits" '
            { for (i = 1; i <= NF; i++) sum += $i + ($i < 255) }
            END { printf "%.10g\n", sum / (bits + 1) }'
        ;;
    *) wc -l <"$1" ;;
    esac
}

# How long the file of this many shots must be.
wanted() {
    case $format in
    01) echo $(($1 * (bits + 1))) ;;
    b8) echo $(($1 * ((bits + 7) / 8))) ;;
    *) echo "$1" ;;
    esac
}

wrong=0
while read -r name _ count; do
    if [ ! -e "$name" ]; then
        echo "join: $name is missing" >&2
        wrong=1
    elif [ "$(length "$name")" != "$(wanted "$count")" ]; then
        echo "join: $name has not its $count shots: remove it, and run the parts that are missing" >&2
        wrong=1
    fi
done <parts
[ "$wrong" -eq 0 ] || exit 1

own=unfinished_all.$(uname -n).$$
trap 'rm -f "$own"' EXIT
while read -r name _; do
    cat -- "$name"
done <parts >"$own"
mv -- "$own" "all.$format"
