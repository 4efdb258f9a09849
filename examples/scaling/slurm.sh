#!/bin/sh
# Runs a circuit in parts as a Slurm array, a task for each, and joins them: the bytes of one run.
# Try examples/scaling/slurm.sh examples/surface_code.stim 5 1000000 40 b8 parts
# Words: those of plan.sh; the folder must be one that all machines of the cluster share. Called again, it submits the
# parts that are missing, and those alone. The parts are joined once all tasks have ended well, and not if one failed.
# It prints the number of the job that joins. STABSIM is the program. What a task says is in the folder.
set -eu
here=$(CDPATH='' cd -- "$(dirname -- "$0")" && pwd)
STABSIM=${STABSIM:-$(CDPATH='' cd -- "$here/../.." && pwd)/stabsim}
export STABSIM
missing=$("$here/plan.sh" "$@")
missing=$(echo "$missing" | paste -s -d , -)
folder=$(CDPATH='' cd -- "$6" && pwd)
set --
if [ -n "$missing" ]; then
    tasks=$(sbatch --parsable --job-name=stabsim --array="$missing" --output="$folder/told_%a.txt" "$here/part.sh" "$folder")
    set -- --dependency="afterok:${tasks%%;*}" --kill-on-invalid-dep=yes
fi
sbatch --parsable --job-name=stabsim_join --output="$folder/told_join.txt" "$@" "$here/join.sh" "$folder"
