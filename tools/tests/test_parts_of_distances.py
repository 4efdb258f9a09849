"""A distance in parts by GNU parallel and by Slurm, as docs/use/distances.md shows it, of which one is killed and done again, is one search.

The program notes its parts, and one that is held waits in the middle of what it writes."""

import contextlib
import os
import pathlib
import signal
import subprocess
import sys

import pytest
from part_making import asked_of, processes_of, write_stand_in
from program import TOP
from running import PROGRAM
from servers import PATH, needs, said_by, slurm_in, until

from stabsim import codes

WORDS = ["--everywhere", "--most", "3"]
BY_PARALLEL = "seq 4 | parallel --joblog log --resume-failed '{} distance --everywhere --most 3 --part {{}}/4 --in code.stim --out part_{{}}'"
BY_SLURM = ("sbatch --array={} --wrap '{} distance --everywhere --most 3 --part $SLURM_ARRAY_TASK_ID/4 --in code.stim --out part_$SLURM_ARRAY_TASK_ID'")
HELD = 3


class Distance:
    """A circuit in a folder, the program that makes parts of its distance, and what one search answers."""

    def __init__(self, work: pathlib.Path) -> None:
        self.work, self.notes, self.program = work, work / "notes", work / "the_program"
        (work / "code.stim").write_text(codes.repetition_code(3, 2))
        write_stand_in(self.program, self.notes, PROGRAM)
        self.held = self.notes / f"held_{HELD}"
        self.held.touch()
        self.whole = self.one_run()

    def one_run(self) -> str:
        return subprocess.run([PROGRAM, "distance", *WORDS, "--in", "code.stim"], cwd=self.work, capture_output=True, text=True, check=True).stdout

    def start(self, command: str) -> "subprocess.Popen[bytes]":
        return subprocess.Popen(["sh", "-c", command], cwd=self.work, env={**os.environ, "PATH": PATH}, stderr=subprocess.DEVNULL)

    def number_of_held(self) -> str:
        """The number of the process of the part that is held, once it is there."""
        return next((it for it, (part, _) in asked_of(self.notes).items() if part == f"{HELD}/4"), "")

    def until_held(self) -> None:
        """Waits until all parts except one have ended, and that one has written something."""
        part = self.work / f"part_{HELD}"
        until(lambda: len(asked_of(self.notes)) == 4 and processes_of(self.notes) == [self.number_of_held()] and part.exists() and part.stat().st_size)

    def begin_anew(self) -> None:
        """After a part was killed nothing is merged, since it is torn; then none is held."""
        done = self.merged()
        assert (done.returncode, done.stdout) == (1, "")
        assert done.stderr == f"merge: part_{HELD} is torn: its last line is not `end`, so run that part again\n"
        self.held.unlink()
        for note in self.notes.iterdir():
            note.unlink()

    def merged(self) -> "subprocess.CompletedProcess[str]":
        variables = {**os.environ, "PYTHONPATH": str(TOP / "python")}
        names = sorted(it.name for it in self.work.glob("part_*"))
        return subprocess.run([sys.executable, "-m", "stabsim.merge", *names], cwd=self.work, env=variables, capture_output=True, text=True, check=False)

    def expect_whole(self) -> None:
        """Only the part that was missing was run again, and all are one search."""
        assert [part for part, _ in asked_of(self.notes).values()] == [f"{HELD}/4"]
        done = self.merged()
        assert (done.returncode, done.stdout, done.stderr) == (0, self.whole, "")
        assert self.whole.startswith("distance 3 of all errors everywhere\n")


@needs("parallel")
def test_a_part_that_is_killed_under_gnu_parallel_is_done_again(work: pathlib.Path) -> None:
    distance = Distance(work)
    command = BY_PARALLEL.format(distance.program)
    running = distance.start(command)
    distance.until_held()
    os.kill(int(distance.number_of_held()), signal.SIGKILL)
    assert running.wait() == 1
    distance.begin_anew()
    assert distance.start(command).wait() == 0
    distance.expect_whole()


@needs("slurmctld", "slurmd", "sbatch", "munged", root=True)
def test_a_part_that_is_killed_under_slurm_is_done_again(work: pathlib.Path, monkeypatch: pytest.MonkeyPatch) -> None:
    monkeypatch.setenv("SLURM_CONF", str(work / "slurm/slurm.conf"))
    distance = Distance(work)
    with contextlib.ExitStack() as stack:
        stack.enter_context(slurm_in(work / "slurm"))
        assert distance.start(BY_SLURM.format("1-4", distance.program)).wait() == 0
        distance.until_held()
        [task] = [it for it in said_by("squeue", "-h", "-r", "-o", "%F_%K").split() if it.endswith(f"_{HELD}")]
        said_by("scancel", task)
        until(lambda: not said_by("squeue", "-h", "-o", "%i"))
        distance.begin_anew()
        assert distance.start(BY_SLURM.format(HELD, distance.program)).wait() == 0
        until(lambda: distance.merged().returncode == 0)
        distance.expect_whole()
