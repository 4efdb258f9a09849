// @ts-check
// The page: what the server says goes into the views, and what a person does goes to the server.

import { by, fieldBy } from "./by_id.js";
import { Carrier } from "./carrying.js";
import { blocksAround, countBefore, pathOf, textOf } from "./circuit.js";
import { Asking } from "./asking.js";
import { Banner } from "./banner.js";
import { isCopied, linesOf, takeCopies } from "./clipboard.js";
import { exchangeThemes, takeTheme } from "./colours.js";
import { DistanceView } from "./distance_view.js";
import { Editor } from "./editor.js";
import { pathOfRound } from "./editing.js";
import { EntryView } from "./entry_view.js";
import { forgetLink, shared, takeFiles } from "./files.js";
import { HistoryView } from "./history_view.js";
import { Inspector } from "./inspector.js";
import { afterSplits } from "./keeping.js";
import { Keyboard } from "./keyboard.js";
import { keepFromPage } from "./keys.js";
import { Knowledge } from "./knowledge.js";
import { LayoutView } from "./layout_view.js";
import { showLegend } from "./legend.js";
import { LineEditor } from "./line_editor.js";
import { Link } from "./link.js";
import { Menu } from "./menu.js";
import { momentsOf } from "./moments.js";
import { hasNoise, kindsOfErrors } from "./noise.js";
import { exportsOf } from "./exports.js";
import { Opening } from "./opening.js";
import { PageFaults } from "./page_faults.js";
import { Palette } from "./palette.js";
import { Panes } from "./panes.js";
import { saidOfRefusal } from "./refusals.js";
import { RateView } from "./rate_view.js";
import { RoundsSwitch } from "./rounds_switch.js";
import { nextWith } from "./search.js";
import { Shown } from "./shown.js";
import { SourceView } from "./source_view.js";
import { State } from "./state.js";
import { TextView } from "./text_view.js";
import { TimelineView } from "./timeline_view.js";
import { saidOfBit, saidOfFlips, showWords } from "./tips.js";
import { WiresView } from "./wires_view.js";

// The most notes on lines that became others that are listed.
const MOST_NOTES = 200;
// With how many items of its outermost list a circuit is given out as it was written, since lines are compared for that.
const MOST_ITEMS = 200_000;
const STRANGE = "The address lacks the token that the server printed: open that address.";
const GONE = "The server is gone: Save, Export and Link still work in this tab. Start it again, and open the address that it prints.";

takeTheme(redraw);
const views = {
  text: new TextView(by("text"), {
    select, write, remove: () => lines.remove(), move: (by_) => lines.move(by_), drawn: () => views.timeline.takeRange(shown.state && lines.moments),
  }),
  entry: new EntryView(by("entry"), { send: sendItem, split, leave: leaveEntry }),
  layout: new LayoutView(by("picture"), {
    choose: (qubit, isMore) => shown.choose(qubit, isMore),
    box: (qubits, isMore) => shown.chooseAll(qubits, isMore),
    use: (qubit, isTurned) => editor.use(qubit, isTurned),
    lead: (first, second, isTurned) => editor.lead(first, second, isTurned),
    useAt: (place, isTurned) => editor.useAt(place, isTurned),
    place: (places) => editor.place(places),
    shift: (qubit, [x, y]) => {
      const [left, top] = shown.state.placement.places.get(qubit);
      editor.shift(qubit, [x - left, y - top]);
    },
    carry: (qubit, place) => carrier.carry(qubit, place),
    drop: (qubit, place) => carrier.drop(qubit, place),
    hover: (qubit) => shown.hover(qubit),
    face: (bit) => chooseBit(bit),
    menu: openMenu,
    zoomed: (part) => { by("scale").textContent = `${Math.round(part * 100)}%`; },
    tool: () => shown.tool,
  }),
  wires: new WiresView(by("wires"), { goTo: (moment) => shown.goTo(moment) }),
  timeline: new TimelineView(by("timeline"), {
    goTo: (moment) => shown.goTo(moment), range: (moment) => lines.chooseTicks(shown.moment, moment), choose: chooseBit, tip: showTip, say: showWords,
    moveTick: (moment, to, gap) => editor.moveTick(moment, to, gap),
  }),
  inspector: new Inspector({ qubit: by("about-qubit"), errors: by("about-errors"), marks: by("about-marks"), detector: by("about-detector") }, {
    choose: chooseBit, select: (path) => shown.select(path), goTo, detect: (layer) => editor.detect(layer),
  }),
  distance: new DistanceView(by("about-distance"), {
    ask: (kind) => ask({ ask: "distance", kind }), end: () => ask({ ask: "end distance" }), show: (set) => shown.state && shown.showSet(set), goTo,
    menu: (...words) => menu.open(...words), kinds: () => kindsOfErrors(shown.state.items),
  }),
  rate: new RateView(by("about-rate"), {
    ask, menu: (...words) => menu.open(...words), number: (...words) => asking.number(...words), hasNoise: () => hasNoise(shown.state.items),
  }),
  history: new HistoryView(by("edits"), (position) => ask({ ask: "go", position })),
  palette: new Palette(by("palette"), (name, isAdded) => editor.take(name, isAdded)),
  rounds: new RoundsSwitch(by("rounds-of-edits")),
};
const menu = new Menu(by("choice"));
const asking = new Asking(by("asking"));
const banner = new Banner(by("banner"));
const link = new Link(hear, (reason) => banner.say("server", reason || (shown.state ? GONE : STRANGE)));
const faults = new PageFaults({ say: (words) => banner.say("fault", words), drawAnew: () => ask({ ask: "all" }) });
const knowledge = new Knowledge((question) => link.ask(question));
const shown = new Shown(views, knowledge);
const opening = new Opening({ shown, ask, say, text: writtenText, banner }, link.token);
const panes = new Panes(document.querySelector("main"), by("tabs"));
const editor = new Editor(shown, {
  send, say, menu: (qubit, offers) => menu.open(by("picture"), placeOf(qubit), offers), isAlone: (isError) => views.rounds.isAlone(isError),
  number: (...words) => asking.number(...words), ask,
});
const lines = new LineEditor({ shown, text: views.text, send, ask, say, number: (...words) => asking.number(...words) });
const source = new SourceView({ text: writtenText, send: (text) => ask({ ask: "text", text }), say, save: () => by("save").click(), leave: () => views.text.focus() });
const carrier = new Carrier({ shown, editor, timeline: views.timeline, tip: showWords, say });
new Keyboard({ shown, editor, menu, layout: views.layout, timeline: views.timeline, openMenu, chooseBit, panes, press: (id) => by(id).click() });

function hear(event) {
  const started = performance.now();
  const { state } = shown;
  if (event.event === "opened") open(event);
  else if (state && event.event === "edited") {
    forgetLink();
    if (event.age <= state.age) return;
    // An event that did not come, as while the tab slept, had edits that this one goes on from.
    if (event.age !== state.age + 1) return void ask({ ask: "all" });
    state.take(event);
  } else if (state && event.event === "deterministic" && event.age === state.age) state.takeDeterministic(event.deterministic);
  else if (state && event.event === "written" && event.age === state.age) state.takeWritten(event.written);
  else if (state && event.event === "marked") state.mark(event.position);
  else if (state && event.event === "saved") state.savedAt = event.position;
  else {
    if (event.event === "faults" && event.age === state?.age) shown.known();
    if ((event.event === "distance" || event.event === "rate") && event.age === state?.age) views[event.event].take(event, state.items);
    return;
  }
  shown.take(event.event);
  opening.sayWhetherSaved();
  if (event.event === "edited") {
    faults.settle();
    by("told").textContent = saidOfFlips(event.flipped);
  }
  // What a test's clock reads: the time from the event to the picture.
  requestAnimationFrame(() => {
    document.body.dataset.shown = String(Number(document.body.dataset.shown ?? 0) + 1);
    document.body.dataset.drawn = (performance.now() - started).toFixed(1);
  });
}

// Draws all that has colours anew.
function redraw() {
  if (!shown.state) return;
  shown.take("deterministic");
  shown.drawLayout();
  showLegend(by("legend"));
}

function open(event) {
  shown.state = new State(event);
  by("save").title = event.saves ? "write the circuit to its file (Ctrl-S)" : "have the browser save the circuit (Ctrl-S)";
  by("save").dataset.writes = event.saves;
  by("left-out").hidden = !event.notice;
  by("left-out").textContent = by("left-out").title = event.notice;
  by("left-out").onclick = () => menu.open(by("left-out"), by("left-out").getBoundingClientRect(), event.notes.slice(0, MOST_NOTES).map((note) => [note, () => {}]));
  by("name").textContent = event.name;
  views.rate.take(null);
  opening.heard();
}

// Says words, or parts of which some are marked.
function say(words, bad = false) {
  by("message").replaceChildren(...[words].flat());
  by("message").title = by("message").textContent;
  by("message").classList.toggle("bad", bad);
}

// Asks, and says a refusal; answers whether it was done.
async function ask(question) {
  try {
    const answer = await link.ask(question);
    if (answer.refused) say(saidOfRefusal(answer), true);
    else say(answer.said ?? "");
    return answer;
  } catch (fault) {
    say(fault.message, true);
    return { refused: fault.message };
  }
}

// Makes edits as one entry of the history, with a name of its own if one is given. With `round`, {place, number}, they are in a round of
// that block that is first taken out of it. Answers the server's answer, or null if they were refused.
async function send(edits, round = null, name = "") {
  const answer = await ask({ ask: "edit", edits, round, name, keep: by("follow").ariaPressed === "true" });
  if (answer.refused) refuse(edits[0].place, answer);
  else views.text.refuse(null);
  return answer.refused ? null : answer;
}

function refuse(place, answer) {
  views.text.refuse(place, answer.refused);
  views.entry.refuse(answer);
}

async function sendItem(kind, path, item) {
  const place = [...path];
  if (kind === "behind") place[place.length - 1] += 1;
  const made = await send([{ kind: kind === "replace" && shown.state.items.length > path[0] ? "replace" : "insert", place: place.join("/"), item }]);
  // What was put in is chosen.
  if (made) views.text.select(afterSplits({ path: place, rounds: blocksAround(shown.state.items, place).map(() => 0) }, made.split_off).path);
  return Boolean(made);
}

// Whether keys are for the chosen lines: the timeline shows them too, if they are several.
const isInText = () => by("text").contains(document.activeElement) || (document.activeElement === by("timeline") && views.timeline.range !== null);

// Takes a round out of the innermost block around a path, and chooses the path's item in it.
async function split(path, round) {
  const block = path.slice(0, -1);
  const answer = await ask({ ask: "split", place: block.join("/"), round });
  if (answer.refused) refuse(block.join("/"), answer);
  else shown.select([...pathOfRound(block, round), path.at(-1)]);
}

// Shows the moment of an item that was chosen in the text, and the detector that it declares, in a block that of the first round.
function select(path, item) {
  if (!item) return void shown.showItem(path);
  shown.select(path);
  if (item.name === "DETECTOR") shown.chooseBit(`D${countBefore(shown.state.items, "detectors", path)}`);
  else if (item.name === "OBSERVABLE_INCLUDE") shown.chooseBit(`L${/\((\d+)\)/.exec(item.text)[1]}`);
}

// Shows what is at a place, {moment, path}.
function goTo({ moment, path }) {
  shown.goTo(moment);
  shown.select(path, false);
}

function write(kind, path, item) {
  const count = shown.showItem(path);
  views.entry.open(kind, path, item, count);
}

function leaveEntry() {
  views.text.refuse(null);
  if (views.text.selected !== null) shown.showItem(pathOf(views.text.selected));
  views.text.focus();
}

// Chooses a bit, and its item in the text if it is a detector; it is said to readers.
function chooseBit(bit) {
  if (!shown.state.isThere(bit)) return void say(`${bit} is not there any more`, true);
  shown.chooseBit(bit);
  const { words, path } = saidOfBit(bit, shown.state);
  if (path) shown.select(path, false);
  by("seen").textContent = words;
}

function showTip(bit, place) {
  showWords(bit && saidOfBit(bit, shown.state).words, place);
}

// Where a qubit is seen in the window.
function placeOf(qubit) {
  const box = by("picture").getBoundingClientRect();
  const [left, top] = views.layout.at(qubit) ?? [0, 0];
  return { left: box.left + left + 16, top: box.top + top + 16 };
}

function openMenu(qubit, place = placeOf(qubit)) {
  if (!shown.chosen.includes(qubit)) shown.choose(qubit);
  menu.open(by("picture"), place, editor.offers(qubit, askSign));
}

async function askSign(pauli) {
  const { sign } = await ask({ ask: "sign", pauli });
  if (sign) say(sign === "0" ? `neither ${pauli} nor -${pauli} is in the group at the end` : `${sign}${pauli} is in the group at the end`);
}

// The circuit as this tab has it.
function circuitText() {
  return shown.state.items.map((item) => `${textOf(item)}\n`).join("");
}

// Goes to the next item that has the words of the field for search, or with -1 to the one before.
function search(direction) {
  const from = views.text.selected === null ? [-1] : pathOf(views.text.selected);
  const path = nextWith(shown.state.items, fieldBy("search-words").value, from, direction);
  if (path) shown.select(path);
  else say("nothing is found", true);
}

const closeSearch = () => { by("search-words").hidden = true; views.text.focus(); };

by("search-words").addEventListener("keydown", (event) => {
  keepFromPage(event);
  if (event.key === "Escape") closeSearch();
  if (event.key === "Enter") search(event.shiftKey ? -1 : 1);
});

// The circuit as it was written, with its comments; without the server, or if it is very long, as this tab has it.
async function writtenText() {
  const answer = link.isOpen && shown.state.items.length < MOST_ITEMS ? await link.ask({ ask: "written" }).catch(() => ({})) : {};
  return answer.text ?? circuitText();
}

const share = () => writtenText().then(shared).then(say, (fault) => say(fault.message, true));

const isCut = ({ scrollWidth, clientWidth, scrollHeight, clientHeight }) => scrollWidth > clientWidth || scrollHeight > clientHeight;

function openKind(kind) {
  if (views.text.selected !== null) write(kind, pathOf(views.text.selected), views.text.item);
}

const exports = exportsOf({ ask, name: () => shown.state.name, written: writtenText, layout: views.layout });
const clicks = {
  undo: () => ask({ ask: "step", by: -1 }),
  redo: () => ask({ ask: "step", by: 1 }),
  mark: () => ask({ ask: "mark" }),
  open: () => by("file").click(),
  link: share,
  export: () => menu.open(by("export"), { left: by("export").getBoundingClientRect().left, top: 40 }, exports.offers),
  save: () => (by("save").dataset.writes === "true" && link.isOpen ? ask({ ask: "save" }) : exports.circuit()),
  theme: () => { exchangeThemes(); redraw(); },
  layer: () => shown.layers.take(shown.layers.at),
  follow: () => { by("follow").ariaPressed = String(by("follow").ariaPressed !== "true"); },
  faces: () => shown.takeFaces(by("faces").ariaPressed !== "true"),
  "wires-there": () => shown.takeWires(!views.wires.isOpen),
  replace: () => openKind("replace"),
  insert: () => openKind("insert"),
  behind: () => views.text.item && openKind("behind"),
  delete: () => lines.remove(),
  "as-text": () => source.toggle(),
  lines: () => menu.open(by("lines"), by("lines").getBoundingClientRect(), lines.offers()),
  search: () => { panes.show(by("text")); by("search-words").hidden = false; fieldBy("search-words").select(); by("search-words").focus(); },
  smaller: () => views.layout.zoom(0.8),
  greater: () => views.layout.zoom(1.25),
  fit: () => views.layout.fit(),
  message: () => isCut(by("message")) && menu.open(by("message"), by("message").getBoundingClientRect(), [[by("message").title, () => {}]]),
  drawer: () => menu.open(by("drawer"), by("drawer").getBoundingClientRect(), [[`without a place: ${shown.state.placement.drawer.join(" ")}`.slice(0, 200), () => {}]]),
};
for (const [id, act] of Object.entries(clicks)) by(id).addEventListener("click", act);
by("since").addEventListener("change", () => shown.showSince(fieldBy("since").value));
takeFiles(by("file"), (file) => opening.file(file), (text) => isCopied(text) && Boolean((isInText() ? lines : editor).paste(linesOf(text))));
takeCopies({ shown, editor, lines, isInText, say });
showLegend(by("legend"));

// Whether views know the sizes of their panes, which the browser says some time after they change.
function isInPlace() {
  /** @param {number[]} size @param {HTMLElement} pane */
  const isSized = ([width, height], pane) => width === pane.clientWidth && height === pane.clientHeight;
  return views.layout.isThere && isSized(views.layout.size, by("picture")) && isSized(views.timeline.size, by("timeline"));
}

// Whether all that is known is drawn, and no more is about to be asked for.
const isDrawn = () => shown.isLearnt && [views.text, views.layout, views.wires, views.timeline].every((view) => view.isDrawn);

// For tests: what is shown, where it is seen, and whether more is to come.
export const page = {
  shown, views, link, send, isInPlace, isDrawn, isIdle: () => link.isIdle, moments: () => momentsOf(shown.state.items), text: circuitText,
};
