"""Runs in parts are one run: parts of several sizes, and those that the scripts of examples/scaling make by GNU parallel on this machine,
the same over an ssh server on the loopback address, and a Slurm of one node, while some parts are killed.

A way whose packages are missing is skipped: parallel; openssh-server; slurmctld, slurmd, slurm-client and munge of Debian. The servers
are started as root, and what is started is ended, by its number."""

import os
import pathlib
import shlex
import shutil
import signal
import subprocess

import pytest
from oracle.formats import FORMATS
from program import TOP
from running import PROGRAM
from servers import PATH, free_ports, needs, said_by, slurm_in, started, until

SCRIPTS = TOP / "examples/scaling"
# Each record of the circuit, each detector and the observable is a coin.
CIRCUIT = "REPEAT 9 {\n    RX 0 1\n    M 0 1\n    DETECTOR rec[-1]\n}\nM 2\nOBSERVABLE_INCLUDE(0) rec[-2] rec[-3]\n"
# A circuit whose shots take long, and are some bytes each: coins decide its resets, which make no record.
SLOW = f"REPEAT 30000 {{\n    RX 0\n    R 0\n}}\nM{' 0' * 32}\n"
# The program as the scripts are given it. It notes each first shot; a part that is to be killed (a file in `killed` has
# the name of its first shot) writes slow shots, which take minutes, so that it is killed while it writes.
NOTING = """\
#!/bin/sh
for word; do
    [ "${before:-}" != --first_shot ] || first=$word
    before=$word
done
if [ -n "${first:-}" ]; then
    : >"WORK/begun/$first"
    if [ -e "WORK/killed/$first" ]; then
        echo $$ >"WORK/killed/$first.making"
        mv "WORK/killed/$first.making" "WORK/killed/$first.number"
        exec "PROGRAM" sample --shots 1000000 --in "WORK/slow.stim"
    fi
fi
exec "PROGRAM" "$@"
"""
SIZES = (1, 63, 64, 65, 1000)
PARTS, SHOTS = 40, 1000
KILLED = (0, 17, 39)
DETECT = ["detect", "--append_observables"]


def first_shot(part: int) -> str:
    return str(part * SHOTS // PARTS)


class Parts:
    """What is run in parts in a folder, which all users may read, and one run of it."""

    def __init__(self, work: pathlib.Path, form: str) -> None:
        self.work, self.form = work, form
        self.circuit, self.folder, self.program = work / "a circuit.stim", work / "some parts", work / "the program"
        self.circuit.write_text(CIRCUIT)
        (work / "slow.stim").write_text(SLOW)
        self.program.write_text(NOTING.replace("WORK", str(work)).replace("PROGRAM", str(PROGRAM)))
        self.program.chmod(0o755)
        for name in ("begun", "killed"):
            (work / name).mkdir()
        for part in KILLED:
            (work / "killed" / first_shot(part)).touch()
        self.whole = self.output(*DETECT, "--seed", "5", "--shots", str(SHOTS))
        self.variables: dict[str, str] = {}

    def output(self, *words: str) -> bytes:
        return subprocess.run([PROGRAM, *words, "--out_format", self.form, "--in", self.circuit], capture_output=True, check=True).stdout

    def start(self, script: str, seed: str = "5") -> subprocess.Popen[bytes]:
        words = map(str, [SCRIPTS / script, self.circuit, seed, SHOTS, PARTS, self.form, self.folder, *DETECT])
        variables = {**os.environ, "STABSIM": str(self.program), **self.variables}
        return subprocess.Popen([*words], env=variables, stdout=subprocess.DEVNULL, stderr=subprocess.DEVNULL)

    def has_written(self, part: int) -> bool:
        return any(file.stat().st_size > 0 for file in self.folder.glob(f"unfinished_part_{part:06d}.*"))

    def kill(self, part: int) -> None:
        """Kills the program of a part, once it has written something."""
        number = self.work / "killed" / f"{first_shot(part)}.number"
        until(lambda: number.exists() and self.has_written(part))
        os.kill(int(number.read_text()), signal.SIGKILL)
        (self.work / "killed" / first_shot(part)).unlink()

    def begin_anew(self) -> None:
        """After some parts were killed nothing is joined, and these have no file; then no part is to be killed."""
        made = {file.name for file in self.folder.iterdir()}
        assert made.isdisjoint({f"all.{self.form}", *(f"part_{part:06d}.{self.form}" for part in KILLED)})
        for file in [*(self.work / "begun").iterdir(), *(self.work / "killed").iterdir()]:
            file.unlink()

    def are_whole(self) -> bool:
        """Whether only parts that were missing were run again, and what is joined is one run."""
        assert {file.name for file in (self.work / "begun").iterdir()} == {first_shot(part) for part in KILLED}
        return (self.folder / f"all.{self.form}").read_bytes() == self.whole


@pytest.mark.parametrize("form", FORMATS)
@pytest.mark.parametrize("command", ["sample", "detect", "detect --append_observables"])
def test_parts_of_any_size_are_the_whole(work: pathlib.Path, command: str, form: str) -> None:
    parts, words = Parts(work, form), [*command.split(), "--seed", "5"]
    each = [parts.output(*words, "--first_shot", str(3 + sum(SIZES[:at])), "--shots", str(shots)) for at, shots in enumerate(SIZES)]
    assert b"".join(each) == parts.output(*words, "--first_shot", "3", "--shots", str(sum(SIZES)))


@pytest.mark.parametrize("script", ["plan.sh", "machines.sh", "slurm.sh"])
@pytest.mark.parametrize("at, wrong", [(1, "-5"), (2, "-1000"), (2, "1e3"), (3, "-8"), (3, "")])
def test_a_number_of_other_than_digits_is_refused_before_anything_runs(work: pathlib.Path, script: str, at: int, wrong: str) -> None:
    (work / "m.stim").write_text("M 0\n")
    words = [str(work / "m.stim"), "5", "1000", "8", "b8", str(work)]
    words[at] = wrong
    done = subprocess.run([SCRIPTS / script, *words], capture_output=True, text=True, check=False)
    said = f"plan: '{wrong}' is no number: the seed, the shots and the parts are decimal digits\n"
    assert (done.returncode, done.stdout, done.stderr) == (2, "", said)
    assert [file.name for file in work.iterdir()] == ["m.stim"]


def run_and_kill_on_machines(parts: Parts) -> None:
    """Runs the parts by GNU parallel, kills three of them, and runs them again."""
    running = parts.start("machines.sh")
    for part in KILLED:
        parts.kill(part)
    assert running.wait() != 0
    parts.begin_anew()
    assert parts.start("machines.sh").wait() == 0
    assert parts.are_whole()
    # Another run is not joined with this one.
    assert parts.start("machines.sh", seed="6").wait() != 0
    assert parts.are_whole()


@needs("parallel")
def test_parts_by_gnu_parallel_are_one_run(work: pathlib.Path) -> None:
    run_and_kill_on_machines(Parts(work, "r8"))


@needs("parallel", "sshd", "ssh", root=True)
def test_parts_over_ssh_are_one_run(work: pathlib.Path) -> None:
    for name in ("host_key", "key"):
        subprocess.run(["ssh-keygen", "-q", "-t", "ed25519", "-N", "", "-f", work / name], check=True)
    [port] = map(str, free_ports(1))
    pathlib.Path("/run/sshd").mkdir(exist_ok=True)
    options = ["ListenAddress=127.0.0.1", f"AuthorizedKeysFile={work}/key.pub", "StrictModes=no", "UsePAM=no", "PidFile=none"]
    server = [shutil.which("sshd", path=PATH) or "", "-D", "-e", "-f", "/dev/null", "-p", port, "-h", str(work / "host_key")]
    asks = ["BatchMode=yes", "StrictHostKeyChecking=no", "UserKnownHostsFile=/dev/null", "LogLevel=ERROR"]
    ssh = ["ssh", "-F", "none", "-p", port, "-i", str(work / "key"), *(word for it in asks for word in ("-o", it))]
    parts = Parts(work, "b8")
    parts.variables = {"SSH": shlex.join(ssh), "MACHINES": "3/127.0.0.1 1/localhost"}
    with started(*server, *(word for it in options for word in ("-o", it))):
        until(lambda: subprocess.run([*ssh, "127.0.0.1", "true"], capture_output=True, check=False).returncode == 0)
        run_and_kill_on_machines(parts)


def running_task(part: int) -> str:
    """The number of a task of the array that runs."""
    lines = said_by("squeue", "-h", "-r", "-t", "RUNNING", "-n", "stabsim", "-o", "%F_%K").split()
    return next((line for line in lines if line.endswith(f"_{part}")), "")


@needs("slurmctld", "slurmd", "sbatch", "munged", root=True)
def test_parts_by_slurm_are_one_run(work: pathlib.Path, monkeypatch: pytest.MonkeyPatch) -> None:
    monkeypatch.setenv("SLURM_CONF", str(work / "slurm/slurm.conf"))
    parts, last = Parts(work, "dets"), KILLED[-1]
    with slurm_in(work / "slurm"):
        assert parts.start("slurm.sh").wait() == 0
        for part in KILLED[:-1]:
            parts.kill(part)
        until(lambda: running_task(last) and parts.has_written(last))
        said_by("scancel", running_task(last))
        until(lambda: not said_by("squeue", "-h", "-o", "%i"))
        parts.begin_anew()
        assert parts.start("slurm.sh").wait() == 0
        until((parts.folder / f"all.{parts.form}").exists)
        assert parts.are_whole()
