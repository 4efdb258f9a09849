#!/usr/bin/env python3
"""Runs the built programs with requests for memory refused, and looks at how they end.

Under tools/refuse.c the first request is refused, then the second and so on, until there are no more; once so that this request alone
fails, and once so that all after it do. A call of a library (crates/tests_refusals) that was refused one has to answer 20, to leave all as
before, and to give what it gives when it is made again. A run of the program ends with a status of its own, never by a signal; what it
wrote is a prefix of its whole output, and its fault line is that of the refusal 20.

It prints counts, and ends with 1 if something is wrong. It needs cc, and proves and builds the programs if they are missing or older than
their sources."""

import itertools
import resource
import shutil
import subprocess
import sys
import tempfile
from collections import Counter
from pathlib import Path
from typing import Any

from program import TOP, find_program

CRATE = TOP / "crates/tests_refusals"
CALLS = CRATE / "out/tests_refusals"
TIME_LIMIT = 60
MOST_REQUESTS = 100_000
LITTLE_ROOM = 100 * 2**20
OUT_OF_MEMORY = b"stabsim: refused 20 OutOfMemory\n"
# What standard input has; `edit` alone reads it, since the others have --in.
SCRIPT = (TOP / "examples/inserted_x.script").read_bytes() + b"show stabilisers\nshow circuit\ninsert 0 REPEAT 2 {\nX 0\n}\n"
ALL = " ".join(map(str, range(1024)))
# Files beside copies of the examples: edits of a Bell pair, coins, rounds that come again, of which few shots go one after another, circuits
# of which `check` explains the fault by its line and by its item, a pair with a record and a parity of records for detectors, a zero
# with a marked place in front of its measurement, and a million steps.
FILES = {
    "bell.script": "insert 2 X 1\nshow measurements\ndelete 0\nshow measurements\nshow free\n",
    "some.coins": "0110\n",
    "again.stim": "H 0\nM 0\nREPEAT 700 {\nX 1\nM 0 1\nDETECTOR rec[-1]\n}\n",
    "far.stim": "M 0\nREPEAT 3 {\n    M 1\n    DETECTOR rec[-3]\n}\n",
    "line.stim": "H 0\nMPP X0*Z1 X0*Y0\n",
    "parities.stim": "H 0\nCX 0 1\nM 0 1\nDETECTOR rec[-1]\nDETECTOR rec[-1] rec[-2]\nOBSERVABLE_INCLUDE(0) rec[-2]\n",
    "marked.stim": "R 0\nI 0\nM 0\nDETECTOR rec[-1]\nOBSERVABLE_INCLUDE(0) rec[-1]\n",
    "large.stim": f"R {ALL}\nREPEAT 511 {{\nH {ALL}\nM {ALL}\n}}\n",
}
# Runs in the folder of these files. Those that are refused anyway end with the status at their end; a script is after <. More than
# 64 shots are run by lanes.
RUNS = """\
sample --shots 3 --in repetition_code.stim
sample --out_format dets --coins 0110 --in five_qubit_code.stim
sample --seed 7 --in bell.stim
sample --shots 65 --seed 7 --in bell.stim
sample --shots 1025 --seed 7 --in bell.stim
detect --append_observables --out_format hits --in surface_code.stim
stabilisers --in steane_code.stim
check --in repetition_code.stim
deterministic --out_format dets --in repetition_code.stim
faults --everywhere --in repetition_code.stim
faults --everywhere --out_format b8 --in teleportation.stim
coins --in teleportation.stim
coins --out_format hits --in bell.stim
distance --everywhere --in repetition_code.stim
distance --everywhere --graphlike --in repetition_code.stim
edit --stride 4 --in repetition_code.stim
edit --stride 2 --seed 7 --in bell.stim < bell.script
sample --shots none = 2
--help
sample --coins_in some.coins --in five_qubit_code.stim
sample --shots 3 --seed 7 --in again.stim
check --in far.stim = 1
check --in line.stim = 1
detect --append_observables --out_format dets --in parities.stim --shots 2 --seed 7
detect --append_observables --out_format dets --in parities.stim --shots 12 --coins 1011 --out=/dev/stdout
deterministic --in parities.stim
deterministic --explain --in parities.stim
faults --in marked.stim
faults --out_format 01 --in marked.stim
distance --in marked.stim
distance --observable 0 --in marked.stim
distance --each --in marked.stim
propagate --at 1 X0 --in bell.stim
propagate --every --at 1 X0 --in bell.stim
propagate_each --in marked.stim
distance --table --in marked.stim
distance --wcnf --in marked.stim
distance --count --in marked.stim
"""

Done = subprocess.CompletedProcess[bytes]


def build_calls() -> None:
    """Proves and builds the program of calls, if a source is newer."""
    parts = [TOP / "crates.txt", *(file for part in ("src", "specs", "proofs") for file in TOP.glob(f"crates/*/{part}/**/*"))]
    if not CALLS.exists() or any(it.is_file() and it.stat().st_mtime > CALLS.stat().st_mtime for it in parts):
        print("refuse: proves and builds the program of calls first", file=sys.stderr)
        subprocess.run(["rt", "run"], cwd=CRATE, stdout=sys.stderr, check=True)
        CALLS.touch()


class Tries:
    """A folder with the files, the program, the library that refuses, and what was found wrong."""

    def __init__(self, folder: Path) -> None:
        self.folder = folder / "files"
        shutil.copytree(TOP / "examples", self.folder)
        for name, text in FILES.items():
            (self.folder / name).write_text(text)
        self.program, self.library, self.told = find_program(), folder / "refuse.so", folder / "told"
        subprocess.run(["cc", "-O2", "-shared", "-fPIC", "-o", self.library, TOP / "tools/refuse.c"], check=True)
        self.wrong = 0

    def expect(self, holds: object, what: str) -> None:
        if not holds:
            self.wrong += 1
            print(what, file=sys.stderr)

    def run(self, words: list[str], script: bytes = SCRIPT, **more: Any) -> Done:
        words = [str(self.program), *words]
        return subprocess.run(words, cwd=self.folder, input=script, capture_output=True, timeout=TIME_LIMIT, check=False, **more)

    def variables(self, number: int, onwards: bool) -> dict[str, str]:
        """What refuses the request of a number, or all from it on."""
        self.told.unlink(missing_ok=True)
        names = {"LD_PRELOAD": str(self.library), "REFUSE": str(number), "TOLD": str(self.told)}
        return names | ({"REFUSE_ON": "1"} if onwards else {})

    def look(self, what: str, done: Done, whole: Done) -> None:
        """A run that was refused memory: it ended as if nothing had been refused, or with 1, a prefix and the line that reports it.

        If a circuit is refused anyway, a prefix of what `check` explains and the line of its own fault will do too.
        """
        self.expect(done.returncode in (whole.returncode, 1), f"{what}: status {done.returncode}")
        if done.returncode == whole.returncode != 1:
            same = (done.stdout, done.stderr) == (whole.stdout, whole.stderr)
            self.expect(same, f"{what}: other bytes, although the status is that of no refusal")
            return
        lines = [OUT_OF_MEMORY, *([whole.stderr] if whole.returncode == 1 else [])]
        self.expect(whole.stdout.startswith(done.stdout), f"{what}: what was written is no prefix")
        self.expect(done.stderr in lines, f"{what}: told {done.stderr!r}")

    def refuse_each(self, what: str, onwards: bool) -> None:
        """Refuses each request of a run in turn, and prints how many runs were refused one, and how many of them answered 20."""
        line, _, status = what.partition(" = ")
        line, _, file = line.partition(" < ")
        words, script = line.split(), (self.folder / file).read_bytes() if file else SCRIPT
        whole = self.run(words, script)
        self.expect(whole.returncode == int(status or 0), f"{what}: status {whole.returncode} though nothing was refused")
        self.expect(whole.stdout or status, f"{what}: no output")
        refused = answered = 0
        for number in range(1, MOST_REQUESTS):
            done = self.run(words, script, env=self.variables(number, onwards))
            if not self.told.exists():
                self.expect(done.stdout == whole.stdout, f"{what}: other bytes though nothing was refused")
                break
            refused += 1
            answered += done.stderr == OUT_OF_MEMORY
            self.look(what, done, whole)
        else:
            self.expect(False, f"{what}: no end of requests")
        self.expect(refused and answered, f"{what}: no request was refused, or no run answered 20")
        print(f"{what}, {'from one on' if onwards else 'one'}: {refused} runs with memory refused, {answered} answered 20")

    def run_calls(self, number: int, onwards: bool) -> tuple[list[str], list[bool]]:
        """What the program of calls says if this request of each call is refused, and for each call whether one was."""
        variables = self.variables(number, onwards) | {"WINDOWS": "1"}
        done = subprocess.run([CALLS], env=variables, capture_output=True, text=True, timeout=TIME_LIMIT, check=False)
        self.expect(done.returncode == 0, f"the calls: status {done.returncode}, told {done.stderr!r}")
        return done.stdout.splitlines(), [it == "r" for it in self.told.read_text()]

    def count_calls(self, onwards: bool) -> Counter[str]:
        """For each call, in how many runs it was refused a request; each time it has to end as a refused call does."""
        whole, _ = self.run_calls(0, False)
        counts: Counter[str] = Counter()
        for number in range(1, MOST_REQUESTS):
            lines, refused = self.run_calls(number, onwards)
            self.expect(len(lines) == len(whole), f"the calls: {len(lines)} lines where there are to be {len(whole)}")
            for line, is_refused in zip(lines, refused):
                name, ending = line.rsplit(": ", 1)
                wanted = "refused, as before, gave" if is_refused else "gave"
                self.expect(ending == wanted, f"request {number}{' and on' * onwards}: {line}, and not {wanted}")
                counts[name] += is_refused
            if not any(refused):
                self.expect(len(refused) == len(whole), f"the calls: {len(whole)} lines of {len(refused)} calls")
                return counts
        self.expect(False, "the calls: no end of requests")
        return counts

    def try_calls(self) -> None:
        once, onwards = self.count_calls(False), self.count_calls(True)
        for name in once:
            self.expect(once[name] > 0 and onwards[name] > 0, f"{name}: no request was refused")
            print(f"{name}: refused {once[name]} times one request, {onwards[name]} times all from one on; each answered 20")

    def try_little_room(self) -> None:
        """A million steps within 100 MiB of addresses: run, or refused with 20."""
        words = ["sample", "--in", "large.stim"]
        done = self.run(words, preexec_fn=lambda: resource.setrlimit(resource.RLIMIT_AS, (LITTLE_ROOM, LITTLE_ROOM)))
        self.look("100 MiB", done, self.run(words))
        print(f"a million steps within 100 MiB of addresses: status {done.returncode}")


def main() -> int:
    build_calls()
    with tempfile.TemporaryDirectory() as folder:
        tries = Tries(Path(folder))
        tries.try_calls()
        for what, onwards in itertools.product(RUNS.splitlines(), (False, True)):
            tries.refuse_each(what, onwards)
        tries.try_little_room()
    print(f"{tries.wrong} wrong")
    return 1 if tries.wrong else 0


if __name__ == "__main__":
    sys.exit(main())
