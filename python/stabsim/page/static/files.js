// @ts-check
// Circuits that come from files, what is dropped or pasted and links, and what is given out.

const LINK = "#circuit=";
// A longer link than this is cut by what passes it on.
const MOST_LINK = 30_000;

export function download(name, contents, type = "text/plain") {
  const anchor = document.createElement("a");
  anchor.href = URL.createObjectURL(new Blob([contents], { type }));
  anchor.download = name;
  anchor.click();
  URL.revokeObjectURL(anchor.href);
}

// Has `open(file)` called for a file that is chosen in a field or dropped on the page, and for a circuit that is pasted outside of fields,
// unless `put(text)` answers that it takes it; `file` has its name, its size in bytes, and text(), which reads it.
export function takeFiles(field, open, put) {
  field.addEventListener("change", () => {
    const [file] = field.files;
    if (file) open(file);
    field.value = "";
  });
  addEventListener("dragover", (event) => {
    event.preventDefault();
    document.body.classList.add("dropping");
  });
  addEventListener("dragleave", (event) => event.relatedTarget || document.body.classList.remove("dropping"));
  addEventListener("drop", (event) => {
    event.preventDefault();
    document.body.classList.remove("dropping");
    const [file] = event.dataTransfer.files;
    const given = event.dataTransfer.getData("text");
    if (file) open(file);
    else if (given) open(fileOf(given, "dropped.stim"));
  });
  document.addEventListener("paste", (event) => {
    const { target } = event;
    if (target instanceof Element && target.matches("input, textarea")) return;
    const given = event.clipboardData.getData("text");
    if (!given.trim()) return;
    event.preventDefault();
    if (!put(given)) open(fileOf(given, "pasted.stim"));
  });
}

// What is pasted is a circuit, or a link that holds one.
const fileOf = (given, name) => ({
  name, size: given.length, text: async () => (given.includes(LINK) ? unpacked(given.slice(given.indexOf(LINK) + LINK.length).trim()) : given),
});

// A size in words, by the letters of a text or the bytes of a file.
export const saidOfSize = (size) => (size < 1e6 ? `${Math.ceil(size / 1e3)} kB` : `${(size / 1e6).toFixed(1)} MB`);

// The circuit that the address holds, or null; it is taken out of the address, since edits would make it stale.
export async function circuitOfAddress() {
  if (!location.hash.startsWith(LINK)) return null;
  const letters = location.hash.slice(LINK.length);
  forgetLink();
  return unpacked(letters);
}

// Takes a circuit out of the address: it is another than the present one.
export function forgetLink() {
  if (location.hash.startsWith(LINK)) history.replaceState(null, "", location.pathname + location.search);
}

// Puts a circuit into the address and on the clipboard, and says so; throws if it is too long.
export async function shared(text) {
  const link = LINK + await packed(text);
  if (link.length > MOST_LINK) throw new Error(`the link would have ${link.length} letters, and more than ${MOST_LINK} are cut off on their way: export the circuit instead`);
  history.replaceState(null, "", location.pathname + location.search + link);
  const isCopied = await navigator.clipboard?.writeText(link).then(() => true, () => false);
  return `the address holds the circuit${isCopied ? "; its part from # on is copied" : ""}: stabsim-page opens it, and so does pasting it here`;
}

// A text as a link holds it: deflated, in the letters of base64 for addresses.
export async function packed(text) {
  const bytes = await through(new CompressionStream("deflate-raw"), new TextEncoder().encode(text));
  let letters = "";
  for (let i = 0; i < bytes.length; i += 4096) letters += String.fromCharCode(...bytes.subarray(i, i + 4096));
  return btoa(letters).replaceAll("+", "-").replaceAll("/", "_").replace(/=+$/, "");
}

export async function unpacked(letters) {
  const bytes = Uint8Array.from(atob(letters.replaceAll("-", "+").replaceAll("_", "/")), (letter) => letter.charCodeAt(0));
  return new TextDecoder().decode(await through(new DecompressionStream("deflate-raw"), bytes));
}

async function through(stream, bytes) {
  const packing = new Blob([bytes]).stream().pipeThrough(stream);
  return new Uint8Array(await new Response(packing).arrayBuffer());
}
