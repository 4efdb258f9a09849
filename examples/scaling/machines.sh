#!/bin/sh
# Runs a circuit in parts, by GNU parallel (Debian's package parallel), and joins them: the bytes of one run.
# Try examples/scaling/machines.sh examples/surface_code.stim 5 1000 8 b8 parts && ls -l parts
# Words: those of plan.sh. Called again, it runs the parts that are missing, and those alone.
# Without MACHINES the parts run on all processors of this machine. MACHINES='8/first.example 4/second.example' runs 8 at
# a time on the one and 4 on the other, by ssh: the circuit goes there and the part comes back by standard input and
# output. STABSIM is the program, there too, and SSH the words that reach a machine, if they are not just ssh.
set -eu
here=$(CDPATH='' cd -- "$(dirname -- "$0")" && pwd)
STABSIM=${STABSIM:-$(CDPATH='' cd -- "$here/../.." && pwd)/stabsim}
export STABSIM
missing=$("$here/plan.sh" "$@")
folder=$6
run() {
    parallel --quote --halt soon,fail=20% "$@"
}
if [ -n "$missing" ] && [ -z "${MACHINES:-}" ]; then
    echo "$missing" | run "$here/part.sh" "$folder" {}
elif [ -n "$missing" ]; then
    # A line for each part that may run at a time; {%} is the number of such a place.
    places=$(for machine in $MACHINES; do yes "${machine#*/}" | head -n "${machine%%/*}"; done)
    export places
    # shellcheck disable=SC2016 # the shell that each part has reads these
    echo "$missing" | run --jobs "$(echo "$places" | wc -l)" sh -c '"$1/part.sh" "$2" "$3" "$(echo "$places" | sed -n "$4p")"' \
        sh "$here" "$folder" {} {%}
fi
"$here/join.sh" "$folder"
