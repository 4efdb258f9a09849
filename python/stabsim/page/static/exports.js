// @ts-check
// What is given out: the circuit, the edits as a script, and what is seen as SVG.

import { colourOf } from "./colours.js";
import { download } from "./files.js";
import { svgOf } from "./svg_pen.js";

// `page` has ask(question), name(), written(), which answers the circuit as it was written, also without the server, and layout.
export function exportsOf({ ask, name, written, layout }) {
  const circuit = async () => {
    download(name(), await written());
    return ask({ ask: "saved" });
  };
  const script = async () => {
    const answer = await ask({ ask: "script" });
    if (answer.text !== undefined) download("edits.script", answer.text);
  };
  const picture = () => {
    const [width, height] = layout.size;
    download(`${name().replace(/\.\w+$/, "")}.svg`, svgOf(layout.elements(), { width, height, colour: colourOf, ground: "sheet" }), "image/svg+xml");
  };
  return { circuit, offers: [["circuit", circuit, "c"], ["script of the edits", script, "s"], ["SVG of what is seen", picture, "v"]] };
}
