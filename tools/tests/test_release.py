"""What tools/release.sh makes, and what a user has from the repository alone, without the toolchain and without a network."""

import hashlib
import pathlib
import re
import shutil
import subprocess
import urllib.request

import pytest
from pages import blocks_of, clean_copy, text_of
from program import TOP

Word = str | pathlib.Path

# The toolchain and a Python of one's own lie elsewhere.
ENVIRONMENT = {"PATH": "/usr/bin:/bin", "LANG": "C.UTF-8"}
NEEDED = ["setuptools", "wheel", "pip", "venv", "ensurepip", "numpy", "aiohttp"]
OFFLINE = ["--quiet", "--no-index", "--disable-pip-version-check"]
SAMPLE: list[Word] = ["sample", "--shots", "2", "--seed", "5", "--in", TOP / "examples/bell.stim"]
README = [*blocks_of(text_of(TOP / "README.md"))]
COUNTS = "name,decoder,model,seed,first_shot,shots,errors,seconds,discards,metadata\nd=3,matching,a1,5,0,1024,8,0.5,0,\n"


@pytest.fixture(name="python")
def able_python() -> str:
    found = subprocess.run([TOP / "tools/find_python.sh", *NEEDED], capture_output=True, text=True, check=False)
    if found.returncode or not shutil.which("dpkg-deb"):
        pytest.skip(f"no dpkg-deb, or {found.stderr}")
    return found.stdout.strip()


@pytest.fixture(name="top")
def clone(tmp_path: pathlib.Path) -> pathlib.Path:
    return clean_copy(tmp_path / "a clone")


def output_of(words: list[Word], folder: pathlib.Path, given: str = "", packages: Word = "") -> str:
    """What a command prints in a folder, which is its home too, if Python's packages are in another one."""
    variables = {**ENVIRONMENT, "HOME": str(folder), "PYTHONPATH": str(packages)}
    done = subprocess.run(words, cwd=folder, env=variables, input=given, capture_output=True, text=True, check=False)
    assert done.returncode == 0, f"{words}: {done.stdout}{done.stderr}"
    return done.stdout


def answers_first_example(command: pathlib.Path, folder: pathlib.Path, packages: Word = "") -> bool:
    """Whether an installed command prints what the first example of the README does."""
    _, language, commands, shown = README[0]
    assert language == "sh" and commands.startswith("./stabsim ")
    script = f"cd '{TOP}'\n" + commands.replace("./stabsim", f'"{command}"')
    return output_of(["sh", "-euc", script], folder, packages=packages) == shown


def has_sums(folder: pathlib.Path, text: str, kind: str) -> bool:
    """Whether the files below a folder, the program among them, have the checksums that came with them."""
    named = [it.split("  ", 1) for it in text.splitlines()]
    assert [it for sum_, it in named if hashlib.new(kind, (folder / it).read_bytes()).hexdigest() != sum_] == []
    return any(it.endswith("/lib/stabsim/stabsim-x86-64-v2") for _, it in named)


def test_a_clean_copy_answers_the_examples_of_the_readme(top: pathlib.Path, python: str) -> None:
    assert shutil.which("rt", path=ENVIRONMENT["PATH"]) is None
    for line, language, commands, shown in README:
        runner: list[Word] = ["sh", "-eu"] if language == "sh" else [python, "-B", "-"]
        assert output_of(runner, top, commands, top / "python") == shown or shown is None, f"README.md, line {line}"
    assert not (top / "crates/stabsim/out/stabsim").exists()


def test_wheel_tar_and_package_answer_the_first_example(top: pathlib.Path, tmp_path: pathlib.Path, python: str) -> None:
    dist, root = tmp_path / "dist", tmp_path / "root"
    names = output_of([TOP / "tools/release.sh", dist], tmp_path).split()
    wheel, tar, package = (dist / next(it for it in names if it.endswith(end)) for end in (".whl", ".tar.gz", ".deb"))
    assert wheel.name.endswith("-py3-none-manylinux_2_34_x86_64.whl")
    assert output_of([python, "-m", "pip", "install", *OFFLINE, "--no-deps", "--target", tmp_path / "target", wheel], tmp_path) == ""
    assert answers_first_example(tmp_path / "target/bin/stabsim", tmp_path, tmp_path / "target")

    assert output_of(["tar", "xzf", tar], tmp_path) == ""
    unpacked = tmp_path / tar.name.removesuffix(".tar.gz")
    assert answers_first_example(unpacked / "bin/stabsim", tmp_path)
    assert has_sums(unpacked, (unpacked / "SHA256SUMS").read_text(), "sha256")
    drivers = (unpacked / "share/doc/stabsim/examples/drive_edit.py", top / "examples/drive_edit.py")
    assert len({output_of([python, "-B", driver], tmp_path) for driver in drivers}) == 1

    assert output_of(["dpkg-deb", "-x", package, root], tmp_path) == ""
    assert answers_first_example(root / "usr/bin/stabsim", tmp_path)
    assert output_of(["dpkg-deb", "-e", package, tmp_path / "control"], tmp_path) == ""
    assert has_sums(root, (tmp_path / "control/md5sums").read_text(), "md5")
    for name in ("man/man1/stabsim.1.gz", "bash-completion/completions/stabsim", "zsh/vendor-completions/_stabsim"):
        assert (root / "usr/share" / name).is_file()


def first_line_served(words: list[Word], folder: pathlib.Path) -> str:
    """The first line of the page that a server gives which these words start."""
    with subprocess.Popen(words, cwd=folder, env={**ENVIRONMENT, "HOME": str(folder)}, stdout=subprocess.PIPE, text=True) as server:
        try:
            assert server.stdout
            with urllib.request.urlopen(server.stdout.readline().strip(), timeout=60) as page:
                return str(page.readline().decode().strip().lower())
        finally:
            server.terminate()


def test_pip_installs_commands_man_page_and_completions(top: pathlib.Path, tmp_path: pathlib.Path, python: str) -> None:
    here = tmp_path / "environment"
    assert output_of([python, "-m", "venv", "--system-site-packages", here], tmp_path) == ""
    assert output_of([here / "bin/pip", "install", *OFFLINE, "--no-build-isolation", top / "python"], tmp_path) == ""
    assert len({output_of([program, *SAMPLE], tmp_path) for program in (here / "bin/stabsim", top / "stabsim")}) == 1
    servers: list[list[Word]] = [[here / "bin/stabsim-page"], [here / "bin/python", "-m", "stabsim.page"]]
    for server in servers:
        assert first_line_served([*server, TOP / "examples/repetition_code.stim"], tmp_path) == "<!doctype html>"
    (tmp_path / "counts.csv").write_text(COUNTS)
    added = output_of([here / "bin/stabsim-collect", "--combine", tmp_path / "counts.csv"], tmp_path)
    assert added.partition("\n")[2].startswith("d=3,matching,1024,0,8,0.0078125,")
    for name in ("man/man1/stabsim.1", "bash-completion/completions/stabsim.bash", "zsh/site-functions/_stabsim"):
        assert (here / "share" / name).is_file()
    helped = output_of([here / "bin/stabsim", "help", "sample"], tmp_path)
    assert "Usage: stabsim sample" in helped and f"{here}/share/doc/stabsim" in helped.splitlines()[0]
    named = re.findall(r"\b(?:docs|examples)/[\w/.-]+\w", helped)
    assert named and all((here / "share/doc/stabsim" / name).is_file() for name in named)


def test_pip_needs_without_a_network_what_the_page_says() -> None:
    [line] = [line for line in text_of(TOP / "docs/use/python.md").splitlines() if "Without a network" in line]
    said = line.split("Without a network", 1)[1]
    assert "`--no-index --no-build-isolation`" in said and all(name in said for name in NEEDED[:2]) and NEEDED[:2] == ["setuptools", "wheel"]
