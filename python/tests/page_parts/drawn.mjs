// Prints what the page draws of moments, and which kinds of marks it knows, for test_drawing_alike.py. A moment is {text, places, pitch}.

import { parseCircuit } from "../../stabsim/page/static/circuit.js";
import { drawingOf } from "../../stabsim/page/static/drawing.js";
import { DRAWN as parts, elementsOf } from "../../stabsim/page/static/glyphs.js";
import { DRAWN as marks } from "../../stabsim/page/static/marks.js";
import { momentAt } from "../../stabsim/page/static/moments.js";
import { commandsOf } from "../../stabsim/page/static/svg_pen.js";

const ANCHORS = { left: "start", right: "end", center: "middle" };
const box = { left: 0, right: 1, top: 0, bottom: 1 };

function elementsIn({ text, places, pitch }) {
  const items = parseCircuit(text);
  const scene = {
    places: new Map(places), box, hasCoordinates: false, ancillas: new Set(), instructions: momentAt(items, 0), faces: [], region: null, neighbours: [],
    chosen: [],
  };
  const drawn = drawingOf(scene, { scale: 1, x: 0, y: 0, width: 2000, height: 2000, near: pitch });
  return drawn.flatMap((element) => (element.glyph ? elementsOf(element) : [element]));
}

const said = ({ path, words, fill = "", stroke = "", ...it }) => (path
  ? { commands: commandsOf(path), fill, stroke, width: stroke ? it.width ?? 1 : 1, dash: it.dash ?? [], alpha: it.alpha ?? 1, hatch: it.hatch ?? "" }
  : { words, x: it.x, y: it.y, size: it.size, fill, anchor: ANCHORS[it.align ?? "center"], weight: it.weight ?? 400, mono: it.mono ?? false, halo: it.halo ?? "" });

const moments = JSON.parse(process.env.MOMENTS);
console.log(JSON.stringify({ parts: Object.keys(parts), marks: Object.keys(marks), drawn: moments.map((moment) => elementsIn(moment).map(said)) }));
