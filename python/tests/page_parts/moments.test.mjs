// Moments, counts and edits of the tree of items.

import assert from "node:assert/strict";
import test from "node:test";

import { applyEdit, applyEdits, parseCircuit, textOf } from "../../stabsim/page/static/circuit.js";
import { before } from "../../stabsim/page/static/counts.js";
import { endOf, momentAt, momentOf, momentsOf, momentsOfDetectors, nameOf } from "../../stabsim/page/static/moments.js";

const BLOCK = "R 0\nREPEAT 3 {\n    TICK\n    H 0\n    TICK\n    M 0\n    DETECTOR rec[-1]\n}\nM 0\n";
const countOf = (items) => JSON.stringify(items.map(({ once, cut, items: inner, ...its }) => [once, cut, its.records, its.bounds, inner?.map((it) => [it.cut, it.bounds])]));
const names = (items, moment) => momentAt(items, moment).map(({ item, rounds }) => `${item.name}${rounds.map((round) => ` ${round}`).join("")}`);

test("a moment has what is between two ticks, in its rounds", () => {
  const items = parseCircuit(BLOCK);
  assert.equal(momentsOf(items), 8);
  assert.deepEqual(names(items, 0), ["R", "TICK 0"]);
  assert.deepEqual(names(items, 2), ["M 0", "DETECTOR 0", "TICK 1"]);
  // The M after the block acts on the qubit of the last round's, so it is a moment of its own.
  assert.deepEqual(names(items, 6), ["M 2", "DETECTOR 2"]);
  assert.deepEqual(names(items, 7), ["M"]);
});

test("a detector is in the moment that declares it", () => {
  assert.deepEqual([...momentsOfDetectors(parseCircuit(BLOCK))], [2, 4, 6]);
});

test("a moment is called by its tick, and by its part where cuts make several", () => {
  const items = parseCircuit("H 0\nS 0\nTICK\nH 0\n");
  assert.deepEqual([0, 1, 2].map((moment) => nameOf(items, moment).name), ["0.1", "0.2", "1"]);
});

test("a moment ends in front of its tick, or of the item that is cut off", () => {
  const items = parseCircuit("H 0\nS 0\nTICK\nREPEAT 2 {\n    M 0\n    TICK\n}\n");
  assert.deepEqual(endOf(items, 0), { path: [1], rounds: [] });
  assert.deepEqual(endOf(items, 1), { path: [2], rounds: [] });
  assert.deepEqual(endOf(items, 3), { path: [3, 1], rounds: [1] });
  assert.deepEqual(endOf(items, 4), { path: [4], rounds: [] });
  assert.equal(momentOf(items, [3, 0], [1]), 3);
});

test("a block that meets what is before it is cut in front, and has no empty moments", () => {
  const items = parseCircuit("M 1\nREPEAT 3 {\n    H 1\n    DETECTOR rec[-1]\n    TICK\n}\nM 1\n");
  assert.equal(momentsOf(items), 5);
  assert.deepEqual([0, 1, 2, 3, 4].map((moment) => names(items, moment)[0]), ["M", "H 0", "H 1", "H 2", "M"]);
  assert.deepEqual([0, 1, 4].map((moment) => endOf(items, moment)), [{ path: [1], rounds: [] }, { path: [1, 2], rounds: [0] }, { path: [3], rounds: [] }]);
  assert.deepEqual([0, 1, 2].map((moment) => nameOf(items, moment).name), ["0.1", "0.2", "1"]);
  assert.deepEqual([...momentsOfDetectors(items)], [1, 2, 3]);
  assert.equal(momentOf(items, [1, 0], [2]), 3);
});

test("after edits items, cuts and counts are those of the text that they make", () => {
  const items = parseCircuit(BLOCK);
  const edits = [
    { kind: "insert", place: "1/2", item: "X 0" }, { kind: "insert", place: "1/2", item: "S 0" }, { kind: "delete", place: "1/0" },
    { kind: "split", place: "1", item: "1" }, { kind: "replace", place: "0", item: "REPEAT 2 {\n    H 1\n}" }, { kind: "delete", place: "4" },
  ];
  for (const edit of edits) {
    applyEdit(items, edit);
    const fresh = parseCircuit(items.map((item) => textOf(item)).join("\n"));
    assert.deepEqual(momentsOf(items), momentsOf(fresh));
    assert.deepEqual(before(items), before(fresh), JSON.stringify(edit));
    assert.deepEqual(momentsOfDetectors(items), momentsOfDetectors(fresh), JSON.stringify(edit));
    for (let moment = 0; moment < momentsOf(fresh); moment += 1) assert.deepEqual(names(items, moment), names(fresh, moment), JSON.stringify(edit));
    assert.deepEqual([...momentsOfDetectors(items)], [...momentsOfDetectors(fresh)]);
  }
});

test("what is put in a round that is split off makes what the text makes", () => {
  const bodies = ["TICK\nH 0\nTICK\nM 0\nDETECTOR rec[-1]", "M 1\nH 1\nREPEAT 2 {\nX 1\nTICK\n}", "H 0\nX 0", "S 2"];
  for (const body of bodies) for (const count of [1, 2, 3, 5]) for (let round = 0; round < count; round += 1) for (const item of ["X 0", "M 1", "TICK"]) {
    const items = parseCircuit(`R 0 1\nREPEAT ${count} {\n${body}\n}\nM 0 1\n`);
    momentsOf(items);
    before(items);
    const part = round ? 2 : 1;
    const edits = [{ kind: "split", place: "1", item: String(round) }, { kind: "insert", place: `${part}/1`, item }];
    applyEdits(items, edits, () => {});
    const fresh = parseCircuit(items.map((it) => textOf(it)).join("\n"));
    assert.deepEqual(before(items), before(fresh));
    assert.equal(momentsOf(items), momentsOf(fresh));
    for (let moment = 0; moment < momentsOf(fresh); moment += 1) assert.deepEqual(names(items, moment), names(fresh, moment));
    assert.equal(countOf(items), countOf(fresh));
  }
});

test("many edits at once make what they make one by one", () => {
  const edits = [
    { kind: "insert", place: "1/2", item: "X 0" }, { kind: "insert", place: "1/2", item: "M 1" }, { kind: "delete", place: "1/0" },
    { kind: "split", place: "1", item: "1" }, { kind: "insert", place: "2/0", item: "TICK" }, { kind: "replace", place: "0", item: "REPEAT 2 {\n    H 1\n}" },
    { kind: "insert", place: "0/1", item: "CX 1 2" }, { kind: "insert", place: "0/1", item: "REPEAT 3 {\n    TICK\n}" }, { kind: "insert", place: "0/1/0", item: "S 2" },
    { kind: "replace", place: "2/1", item: "H 5" }, { kind: "delete", place: "4" },
  ];
  const [items, others] = [parseCircuit(BLOCK), parseCircuit(BLOCK)];
  const noted = [[], []];
  const moves = applyEdits(items, edits, ({ kind, at, before: was }) => noted[0].push([kind, at.join("/"), was && textOf(was)]));
  for (const edit of edits) {
    const { kind, at, before: was } = applyEdit(others, edit);
    noted[1].push([kind, at.join("/"), was && textOf(was)]);
  }
  const text = items.map((item) => textOf(item)).join("\n");
  const fresh = parseCircuit(text);
  assert.equal(text, others.map((item) => textOf(item)).join("\n"));
  assert.deepEqual(noted[0], noted[1]);
  assert.deepEqual(moves.map(({ more }) => more), [1, 1, -1, 2, 1, 0, 1, 1, 1, 0, -1]);
  assert.deepEqual(before(items), before(fresh));
  assert.deepEqual(momentsOfDetectors(items), momentsOfDetectors(fresh));
  for (let moment = 0; moment < momentsOf(fresh); moment += 1) assert.deepEqual(names(items, moment), names(fresh, moment));
});

// moments.py cuts these; what it answers is in the environment.
test("moments are cut as the table of faults has them", { skip: !process.env.CUTS }, () => {
  for (const { text, cuts } of JSON.parse(process.env.CUTS)) {
    const found = [];
    let line = 0;
    const walk = (items) => {
      for (const item of items) {
        line += 1;
        if (item.cut || item.name === "TICK") found.push(line);
        if (item.items) {
          walk(item.items);
          line += 1;
        }
      }
    };
    walk(parseCircuit(text));
    assert.deepEqual(found, cuts, text);
  }
});
