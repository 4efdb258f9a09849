#!/bin/sh
#SBATCH --cpus-per-task=1
# Runs one part of a run that plan.sh laid out. Words: the folder; the number of the part, which Slurm gives a task of an
# array; and, if not this machine, the machine, which ssh reaches and which has the program.
# It writes to a name of its own, and renames that once the program has ended with status 0. So a part that was killed
# leaves nothing that looks whole.
set -eu
folder=$1 number=${2:-${SLURM_ARRAY_TASK_ID:?is the number of the part}} machine=${3:-:}
program=${STABSIM:-stabsim}
cd -- "$folder"
read -r command <command
line=$(sed -n "$((number + 1))p" parts)
read -r name first count <<END
$line
END
own=unfinished_$name.$(uname -n).$$
trap 'rm -f "$own"' EXIT
words="$command --first_shot $first --shots $count"
if [ "$machine" = : ]; then
    # shellcheck disable=SC2086 # these are several words
    "$program" $words <circuit >"$own"
else
    # shellcheck disable=SC2029 # the program is that of this name on the machine
    ${SSH:-ssh} "$machine" "'$program' $words" <circuit >"$own"
fi
mv -- "$own" "$name"
