"""How ./stabsim and the shipped programs start, how they are built, and how tools/check_shipped.py compares them, in small trees with
programs that say their names in place of the real ones."""

import hashlib
import os
import pathlib
import signal
import subprocess
import time

import check_shipped
import pytest
from program import TOP

V2 = "cx16 lahf_lm popcnt sse4_1 sse4_2 ssse3"
V3 = f"{V2} abm avx avx2 bmi1 bmi2 f16c fma movbe xsave"
# It says which program it is, and what words it was given, and ends as the first word asks.
PROGRAM = """#!/bin/sh
[ "$1" = --version ] && echo "stabsim {version}" && exit
echo "{name}: $*"
[ "$1" = end ] && exit "$2"
exit 0
"""
# An rt that says how far it is, and builds a program.
SAID = "rt: chose --jobs 4 for low\nso far: 1 of 2 functions; more\nrt: chose --jobs 4 for stabsim\nso far: 3 of 3 functions; more\n"
TOLD = "stabsim: reads the sources\nstabsim: crate 1 of 5, low: 1 of 2 functions\nstabsim: crate 5 of 5, stabsim: 3 of 3 functions\n"
BUILT = "built in the logic one of Rattle, --cpu=x86-64-v3: {}\n"
RT = f"""[ "$1" = run ] || exec echo kit logic one
printf '{SAID}'
printf '#!/bin/sh\\necho built in the logic one of Rattle, %s: $*\\n' "$2" >out/stabsim
chmod +x out/stabsim"""
CRATES = "low: kit\n\nleft: low kit\nright: low\nstabsim: left right kit # the program\nother: stabsim\n"

Ended = tuple[int, str, str]


def write(path: pathlib.Path, text: str) -> None:
    """Writes a file that can be executed, and is newer than those before it."""
    time.sleep(0.02)
    path.parent.mkdir(parents=True, exist_ok=True)
    path.write_text(text)
    path.chmod(0o755)


class Tree:
    """A small repository with shipped programs, and a folder of commands that come first on the path."""

    def __init__(self, folder: pathlib.Path) -> None:
        self.top = folder / "a tree"
        self.programs = self.top / "python/stabsim/programs"
        self.source, self.out = (self.top / "crates/stabsim" / it for it in ("src/main.rt", "out"))
        self.bin = folder / "bin"
        self.bin.mkdir()
        programs = [f"python/stabsim/programs/{name}" for name in ("choose", "stabsim")]
        for name in ("stabsim", "tools/build_program.sh", "tools/find_program.sh", "tools/sum_sources.sh", *programs):
            write(self.top / name, (TOP / name).read_text())
        write(self.top / "crates.txt", CRATES)
        write(self.source, "fn main() {}\n")
        self.environment = {"PATH": f"{self.bin}:/usr/bin:/bin", "XDG_CACHE_HOME": str(folder / "cache")}
        self.processor(V3)
        self.ship("0.1.0")

    def processor(self, flags: str | None) -> None:
        """Lets the scripts read these flags, or none, as the processor's."""
        told = self.bin / "cpuinfo"
        told.write_text("processor\t: 0\n" + (f"flags\t\t: fpu {flags} last\n" if flags is not None else "Features\t: fp asimd\n"))
        text = (TOP / "python/stabsim/programs/level").read_text()
        assert text.count("/proc/cpuinfo") == 2
        write(self.programs / "level", text.replace("/proc/cpuinfo", f"'{told}'"))

    def ship(self, version: str) -> None:
        """Ships two programs of the sources as they are."""
        lines = [f"version {version}", f"sources {self.sum_of_sources()}", "logic none"]
        for level in ("v2", "v3"):
            program = self.programs / f"stabsim-x86-64-{level}"
            write(program, PROGRAM.format(version=version, name=level))
            lines.append(f"{program.name} {hashlib.sha256(program.read_bytes()).hexdigest()}")
        write(self.programs / "shipped.txt", "\n".join([*lines, ""]))

    def sum_of_sources(self) -> str:
        return subprocess.run([self.top / "tools/sum_sources.sh"], capture_output=True, text=True, check=True).stdout.strip()

    def command(self, name: str, text: str) -> None:
        write(self.bin / name, f"#!/bin/sh\n{text}\n")

    def run(self, *words: str, program: str | pathlib.Path = "stabsim") -> Ended:
        """The status, the output and what was said, from another folder."""
        done = subprocess.run([self.top / program, *words], cwd="/", env=self.environment, capture_output=True, text=True, check=False)
        return done.returncode, done.stdout, done.stderr

    def refuses(self, *parts: str) -> bool:
        """Whether a start ends with 2 and one line that has these parts."""
        status, output, said = self.run("sample")
        assert (status, output, said.count("\n"), [it for it in parts if it not in said]) == (2, "", 1, []), said
        return True


@pytest.fixture(name="tree")
def small_tree(tmp_path: pathlib.Path) -> Tree:
    return Tree(tmp_path)


@pytest.mark.parametrize("flags, answer", [(V3, "v3"), (V2, "v2"), (V3.replace(" movbe", ""), "v2"), (V3.replace("avx2 ", "avx22 "), "v2")])
def test_the_program_is_for_the_processor(tree: Tree, flags: str, answer: str) -> None:
    tree.processor(flags)
    assert tree.run("a  b", "c") == (0, f"{answer}: a  b c\n", "")


def test_a_start_has_the_status_of_the_program_and_goes_by_a_link(tree: Tree) -> None:
    assert tree.run("end", "3") == (3, "v3: end 3\n", "")
    link = tree.bin / "linked"
    link.symlink_to(tree.programs / "stabsim")
    assert tree.run("x", program=link) == (0, "v3: x\n", "")


def test_other_processors_are_refused(tree: Tree) -> None:
    tree.processor(V3.replace("popcnt ", ""))
    assert tree.refuses("needs an x86-64 processor with SSE4.2 and POPCNT", "use another machine")
    tree.processor(None)
    assert tree.refuses("needs an x86-64 processor")
    # Nothing is said of the processor.
    (tree.bin / "cpuinfo").unlink()
    assert tree.run("x") == (0, "v2: x\n", "")


def test_sources_and_programs_are_looked_at_once(tree: Tree) -> None:
    notes = tree.bin / "notes"
    tree.command("sha256sum", f"echo x >>'{notes}'\nexec /usr/bin/sha256sum \"$@\"")

    def looks() -> int:
        """How many checksums a start asks for."""
        notes.write_text("")
        assert tree.run("x") == (0, "v3: x\n", "")
        return notes.read_text().count("x")

    # Two for the sources, and one for the program.
    assert [looks(), looks()] == [3, 0]
    os.utime(tree.top / "crates.txt")
    assert looks() == 2
    tree.ship("0.1.1")
    assert looks() == 3
    del tree.environment["XDG_CACHE_HOME"]
    assert [looks(), looks()] == [1, 1]


def test_other_sources_are_refused_without_a_toolchain_and_built_with_one(tree: Tree) -> None:
    shipped = 0, "v3: x\n", ""
    assert tree.run("x") == shipped
    write(tree.source, "fn main() {}\n// more\n")
    assert tree.refuses("not those of a shipped program", "rt is not on the PATH")
    write(tree.source, "fn main() {}\n")
    assert tree.run("x") == shipped
    write(tree.source.parent / "more.rt", "")
    assert tree.refuses("not those of a shipped program")
    (tree.source.parent / "more.rt").unlink()
    assert tree.run("x") == shipped
    time.sleep(0.02)
    (tree.top / "crates.txt").unlink()
    assert tree.run("x")[0] == 2
    write(tree.top / "crates.txt", CRATES + "more:\n")
    tree.command("rt", RT)
    assert tree.run("x")[:2] == (0, BUILT.format("x"))
    assert tree.run("y") == (0, BUILT.format("y"), "")
    # What was built is run even if the same is shipped.
    tree.ship("0.1.0")
    assert tree.run("y") == (0, BUILT.format("y"), "")


@pytest.mark.parametrize("logic, is_told", [("one", False), ("other", True)])
def test_a_toolchain_of_another_logic_is_told(tree: Tree, logic: str, is_told: bool) -> None:
    write(tree.source, "fn main() {}\n// more\n")
    tree.command("rt", RT.replace("kit logic one", f"kit logic {logic}"))
    status, output, said = tree.run("x")
    assert (status, output, "another logic" in said) == (0, BUILT.format("x"), is_told)


def test_damage_is_refused_although_there_is_a_toolchain(tree: Tree) -> None:
    tree.command("rt", RT)
    program = tree.programs / "stabsim-x86-64-v3"
    whole = program.read_text()
    assert tree.run("x") == (0, "v3: x\n", "")
    write(program, whole.replace("exit 0", "exit 1"))
    sums = [hashlib.sha256(text).hexdigest() for text in (program.read_bytes(), whole.encode())]
    assert tree.refuses(f"{program} is damaged", *sums, "git checkout")
    write(program, whole)
    assert tree.run("x") == (0, "v3: x\n", "")
    program.chmod(0o644)
    assert tree.refuses(f"{program} may not be executed", "chmod +x")
    program.unlink()
    assert tree.refuses(f"{program} is missing", "git checkout")
    write(program, whole)
    (tree.programs / "shipped.txt").unlink()
    status, output, said = tree.run("x", program=tree.programs / "stabsim")
    assert (status, output, said.count("\n"), "no program is shipped" in said) == (2, "", 1, True)


# The version of the C library, and whether it is late enough.
@pytest.mark.parametrize("version, does", [
    ("glibc 2.33", False), ("glibc 2.4", False), ("none", False), ("glibc 2.34", True), ("glibc 2.36.9000", True), ("glibc 2.100", True), ("glibc 3.0", True),
])
def test_the_c_library_has_to_be_late_enough(tree: Tree, version: str, does: bool) -> None:
    tree.command("getconf", "exit 1" if version == "none" else f"echo {version}")
    if does:
        assert tree.run("x") == (0, "v3: x\n", "")
    else:
        assert tree.refuses("needs the GNU C library 2.34 or later", f"has {version}", "use a later system")


def test_a_program_of_another_version_is_refused(tree: Tree) -> None:
    text = (tree.programs / "shipped.txt").read_text()
    write(tree.programs / "shipped.txt", text.replace("version 0.1.0", "version 0.1.2"))
    assert tree.refuses("does not run here", "'stabsim 0.1.0' and not 'stabsim 0.1.2'")


def test_crates_come_in_order() -> None:
    assert check_shipped.crates_of("stabsim", check_shipped.crates_in(CRATES)) == ["low", "left", "right", "stabsim"]


@pytest.mark.parametrize("does, status, more", [("", 0, ""), ("exit 1", 1, ""), ("kill -9 $$", 137, "Killed\n")])
def test_a_build_ends_as_rt_does_and_shows_what_it_said_if_it_failed(tree: Tree, does: str, status: int, more: str) -> None:
    tree.command("rt", f"{RT}\n{does}")
    said = SAID + more
    assert tree.run("x86-64-v3", program="tools/build_program.sh") == (status, "", TOLD + (said if status else ""))
    assert (tree.out / "build.log").read_text() == said
    assert tree.run("x", program=tree.out / "stabsim") == (0, BUILT.format("x"), "")


def test_an_interrupt_ends_a_build_and_keeps_what_rt_said(tree: Tree) -> None:
    tree.command("rt", f"{RT}\nexec sleep 60")
    # A shell starts what it runs in the background with interrupts ignored.
    signal.signal(signal.SIGINT, signal.default_int_handler)
    held, end = os.pipe()
    build = subprocess.Popen([tree.top / "tools/build_program.sh", "x86-64-v3"], env=tree.environment, start_new_session=True, pass_fds=[end],
                             stderr=subprocess.DEVNULL)
    os.close(end)
    log = tree.out / "build.log"
    while not log.exists() or log.read_text() != SAID:
        time.sleep(0.1)
    # A terminal sends an interrupt to the whole group.
    os.killpg(build.pid, signal.SIGINT)
    # The pipe ends once all that it started has ended.
    assert os.read(held, 1) == b""
    os.close(held)
    assert (build.wait(), log.read_text()) == (130, SAID)


# An rt that builds a program which says for which processor it is, and does more.
RT_TO_SHIP = """[ "$1" = run ] || exec echo kit logic one
sed "s/LEVEL/${{2##*-}}/" '{}' >out/stabsim
chmod +x out/stabsim
{}"""
TO_SHIP = """#!/bin/sh
[ "$1" = --version ] && printf 'stabsim 0.1.0\\nproved in the logic one of Rattle\\n' && exit
echo "LEVEL: $*"
"""


def test_both_programs_are_shipped_or_none(tree: Tree) -> None:
    def ship(more: str = "") -> Ended:
        tree.command("rt", RT_TO_SHIP.format(tree.bin / "to_ship", more))
        return tree.run(program="tools/ship.sh")

    write(tree.top / "tools/ship.sh", (TOP / "tools/ship.sh").read_text())
    write(tree.top / "python/stabsim/__init__.py", '__version__ = "0.1.0"\n')
    write(tree.bin / "to_ship", TO_SHIP)
    write(tree.source, "fn main() {}\n// more\n")
    shipped = tree.programs / "shipped.txt"
    before = shipped.read_text()
    assert tree.refuses("not those of a shipped program")
    subprocess.run(["git", "init", "-q"], cwd=tree.top, check=True)
    assert ship()[::2] == (1, "ship: git does not keep crates/stabsim/src/main.rt, although it is among the sources: add it or remove it\n")
    subprocess.run(["git", "add", "crates"], cwd=tree.top, check=True)
    assert ship(f"echo // changed >>'{tree.source}'")[0] == 1 and ship("exit 3")[0] == 3
    write(tree.bin / "to_ship", TO_SHIP.replace("0.1.0", "0.1.1"))
    assert "--version says other than shipped.txt" in ship()[2] and shipped.read_text() == before
    write(tree.bin / "to_ship", TO_SHIP)
    tree.processor(V2)
    assert ship()[::2] == (1, "ship: it runs what it builds, which takes a processor with all of x86-64-v3\n")
    tree.processor(V3)
    status, output, _ = ship()
    assert (status, output) == (0, shipped.read_text()) and output.startswith(f"version 0.1.0\nsources {tree.sum_of_sources()}\nlogic one\n")
    # What was built last runs on every processor, and is what the gate builds.
    assert tree.run("x") == (0, "v2: x\n", "")
    (tree.out / "stabsim").unlink()
    assert tree.run("x") == (0, "v3: x\n", "")
    tree.processor(V2)
    assert tree.run("x") == (0, "v2: x\n", "")
    assert check_shipped.differences(tree.programs, {"version": "0.1.0", "sources": tree.sum_of_sources(), "logic": "one"}, {}) == []


def test_what_is_shipped_is_compared_with_what_was_built(tree: Tree) -> None:
    built = {it: (tree.programs / it).read_bytes() for it in (check_shipped.V2, check_shipped.V3)}

    def differences() -> list[str]:
        wanted = {"version": "0.1.0", "sources": tree.sum_of_sources(), "logic": "none"}
        return check_shipped.differences(tree.programs, wanted, built)

    assert differences() == []
    text = tree.source.read_text()
    tree.source.write_text(text + "// more\n")
    assert differences() == ["the line sources of shipped.txt"]
    tree.source.write_text(text)
    tree.source.rename(tree.source.parent / "other.rt")
    assert differences() == ["the line sources of shipped.txt"]
    (tree.source.parent / "other.rt").rename(tree.source)
    write(tree.source.parents[1] / "out/made", "made")
    assert differences() == []
    for name, program in built.items():
        (tree.programs / name).write_bytes(program.replace(b"exit 0", b"exit 1"))
        assert differences() == [name]
        (tree.programs / name).unlink()
        assert differences() == [name]
        (tree.programs / name).write_bytes(program)
    (tree.programs / "shipped.txt").unlink()
    assert len(differences()) == 5
