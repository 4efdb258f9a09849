#!/bin/sh
# Runs all tests, except the wrong bodies that `tools/wrong_bodies.py --try` tries: the gate, `rt ci`, and then, on the programs that it
# built, each further step. It ends with the gate's last line, and with status 0 if the gate and each step passed.
set -u
top=$(CDPATH='' cd -- "$(dirname -- "$0")/.." && pwd) || exit 2
cd "$top" || exit 2
told=$(mktemp -d) || exit 2
trap 'rm -rf "$told"' EXIT
# What needs a Python with packages is skipped if there is none, and said to be.
python=$(tools/find_python.sh) || python='echo skipped:'
pytest="$python -B -m pytest -q -rs -p no:cacheprovider"
if $python -c 'import xdist' >/dev/null 2>&1; then
    # Tests of one xdist_group run in one process.
    pytest="$pytest -n $(nproc) --dist loadgroup"
fi
export told python pytest

# The steps after the gate, a line each: a command, from the top of the repository. They run side by side, as many as there
# are processors, and those that take longest begin first. What the gate printed is in the file $told/gate.
steps='$pytest tools/tests python/tests
tools/check_shipped.py
$python tools/fuzz.py --states
$python tools/fuzz.py --edits
tools/refuse.py
$python tools/fuzz.py --large --seconds 10
$python tools/fuzz.py --seconds 8
$python tools/fuzz.py --faults --seconds 3
$python tools/fuzz.py --codes --seconds 3
tools/wrong_bodies.py "$told/gate"'

# Runs a step, and prints at once what it said and how it ended.
run_step='
said=$(sh -c "$1" 2>&1 </dev/null) && ended=passed || ended=FAILED
{
    flock 9
    printf "== %s\n%s\n%s %s\n" "$1" "$said" "$1" "$ended"
} 9>"$told/lock"
[ "$ended" = passed ]'

(
    rt ci
    echo $? >"$told/status"
) | tee "$told/gate"
status=$(cat "$told/status" 2>/dev/null || echo 2)
if [ "$status" -ne 0 ]; then
    echo "test: the gate failed, and the steps after it were not run" >&2
elif ! echo "$steps" | xargs -d '\n' -n 1 -P "$(nproc)" sh -c "$run_step" step; then
    status=1
fi
tail -n 1 "$told/gate"
exit "$status"
