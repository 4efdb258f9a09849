"""What a tab knows of the circuit after any edits, by the events that it hears: all that a tab knows which opens then."""

import json
import pathlib
import random
import shutil
import subprocess

import pytest
import stabsim
from stabsim.page.board import Board
from stabsim.page.edits import Edit
from stabsim.page.opening import opened
from stabsim.text.reading import Block, items_of
from test_page_random import CIRCUITS

NODE = shutil.which("node")
STATE = pathlib.Path(__file__).parent.parent / "stabsim" / "page" / "static" / "state.js"
RUNS, EDITS = 16, 40
ITEMS = (
    "X 1", "TICK", "M 0", "DETECTOR rec[-1]", "REPEAT 3 {\n    M 1\n}", "REPEAT 2 {\n    M 0\n}", "QUBIT_COORDS(9, 9) 7", "H 5", "CX 3 6", "H 20",
    "H 5000", "QUBIT_COORDS(1, 2) 3", "MPP X0*Z4", "DETECTOR rec[-40]", "H 30", "S 40",
)
# What a tab notes of lines as they were written it hears by itself, a while after an edit. This says how many events it has heard, and those after which the tab knows something else than one that opens then.
HEAR = """
import { State } from %s;
import fs from "node:fs";
const knownOf = ({ items, placement, ancillas, uses, numbers, qubitCoordinates, detectors, observables, coordinates, position, markedAt, savedAt, marked }) => [
  items, [...placement.places], placement.drawer, placement.box, [...ancillas].sort(), [...uses.acting].sort(), numbers, qubitCoordinates, [...detectors],
  [...observables], coordinates, position, markedAt, savedAt, [...marked].sort(),
].map((it) => JSON.stringify(it, (name, value) => (["once", "run", "written"].includes(name) ? undefined : value)));
let state = null;
let count = 0;
const other = [];
for (const line of fs.readFileSync(0, "utf8").trim().split("\\n")) {
  const { event, opened } = JSON.parse(line);
  if (event.event === "opened") state = new State(event);
  else state.take(event);
  count += 1;
  const [own, theirs] = [knownOf(state), knownOf(new State(opened))];
  other.push(...own.filter((it, i) => it !== theirs[i]).map((it) => `event ${count}: ${it.slice(0, 300)}`));
}
console.log(JSON.stringify([count, other.slice(0, 5)]));
""" % json.dumps(str(STATE))


def paths_of(items, before=""):
    """The path of each item, with the item, and of the end of each list."""
    for number, item in enumerate(items):
        yield f"{before}{number}", item
        if isinstance(item, Block):
            yield from paths_of(item.items, f"{before}{number}/")
    yield f"{before}{len(items)}", None


def random_edit(random_, board):
    kind = random_.choice(("insert", "insert", "replace", "delete"))
    path, _ = random_.choice(list(paths_of(items_of(board.text()))))
    return Edit(kind, path, "" if kind == "delete" else random_.choice(ITEMS))


def random_event(random_, board):
    """The event of something that a person does; None if it is refused."""
    blocks = [(path, item) for path, item in paths_of(items_of(board.text())) if isinstance(item, Block)]
    act = random_.choice(("edit", "edit", "edit", "split", "in round", "go", "go", "open", "mark"))
    try:
        if act == "edit":
            return board.edit([random_edit(random_, board) for _ in range(random_.choice((1, 1, 2)))])
        if act == "open":
            return board.open(opened(random_.choice(CIRCUITS)))
        if act == "go":
            return board.go(random_.randint(max(0, board.position - 3), min(len(board.entries), board.position + 3)))
        if act == "mark" or not blocks:
            board.mark()
            return board.opened()
        path, block = random_.choice(blocks)
        number = random_.randrange(block.repeat)
        return board.split(path, number) if act == "split" else board.edit_in_round([random_edit(random_, board)], path, number)
    except stabsim.Refused:
        return None


@pytest.mark.skipif(NODE is None, reason="node is missing")
def test_a_tab_knows_after_any_edits_what_one_that_opens_then_does():
    heard = []
    for run in range(RUNS):
        board, random_ = Board(opened(CIRCUITS[run % len(CIRCUITS)])), random.Random(run)
        heard.append({"event": board.opened(), "opened": board.opened()})
        for _ in range(EDITS):
            event = random_event(random_, board)
            if event is not None:
                heard.append({"event": event, "opened": board.opened()})
        board.close()
    said = subprocess.run([NODE, "--input-type=module", "-e", HEAR], input="\n".join(map(json.dumps, heard)), capture_output=True, text=True, check=True).stdout
    assert json.loads(said) == [len(heard), []] and len(heard) > RUNS * EDITS / 2
