"""The parts of the page that work without a browser, by `node --test`."""

import json
import os
import pathlib
import shutil
import subprocess

import pytest
from stabsim import codes, page
from stabsim.text import moments
from test_regions import CUTS

NODE = shutil.which("node")
COMPILER = shutil.which("tsc")
FOLDER = pathlib.Path(__file__).parent / "page_parts"
STATIC = pathlib.Path(page.__file__).parent / "static"
# How the compiler reads the page's modules: their types are in comments, and nothing is written.
ASKED = {
    "compilerOptions": {"allowJs": True, "checkJs": True, "noEmit": True, "target": "es2022", "module": "es2022", "moduleResolution": "node",
                        "resolveJsonModule": True, "allowSyntheticDefaultImports": True, "types": []},
    "files": ["browser.d.ts", "main.js"],
}


def cuts_of(text):
    """The lines in front of which moments end, except the last."""
    lines = moments.marked(text, "mark").splitlines()
    return [place + 1 - number for number, place in enumerate(place for place, line in enumerate(lines) if line == "mark")][:-1]


@pytest.mark.skipif(NODE is None, reason="node is missing")
def test_the_parts_of_the_page_do_what_they_say():
    texts = [text for text, _ in CUTS.values()] + [codes.surface_code(3, 4), codes.colour_code(3, 2)]
    told = [{"text": text, "cuts": cuts_of(text)} for text in ("\n".join(line for line in text.splitlines() if not line.startswith("#")) for text in texts)]
    files = [str(file) for file in sorted(FOLDER.glob("*.test.mjs"))]
    done = subprocess.run([NODE, "--test", *files], capture_output=True, text=True, env={**os.environ, "CUTS": json.dumps(told)}, check=False)
    assert done.returncode == 0, done.stdout
    assert "# skipped 0" in done.stdout


def test_each_part_asks_for_the_check_of_its_types():
    assert [file.name for file in sorted(STATIC.glob("*.js")) if not file.read_text().startswith("// @ts-check\n")] == []


def types_said(folder, more=""):
    """What the compiler says of the page's modules, copied to a folder, with more at the end of the main one."""
    for file in [*STATIC.glob("*.js*"), FOLDER / "browser.d.ts"]:
        # Older compilers know no attributes of imports.
        (folder / file.name).write_text(file.read_text().replace(' with { type: "json" }', "") + (more if file.name == "main.js" else ""))
    (folder / "tsconfig.json").write_text(json.dumps(ASKED))
    return subprocess.run([COMPILER, "-p", str(folder)], capture_output=True, text=True, check=False).stdout


@pytest.mark.skipif(COMPILER is None, reason="the TypeScript compiler is missing")
def test_the_compiler_finds_no_wrong_type_and_would_find_one(tmp_path):
    assert types_said(tmp_path) == ""
    assert "main.js" in types_said(tmp_path, "itemAt(circuitText(), 3);\nimport { itemAt } from \"./circuit.js\";\n")
