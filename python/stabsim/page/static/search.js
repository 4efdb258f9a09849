// @ts-check
// Items of the text that have some words in them.

// The path of the next item from one on, or with -1 of the one before, that has some words in its text or is at that path; null if none has.
export function nextWith(items, words, from, direction) {
  const wanted = words.trim().toLowerCase();
  const paths = [...pathsWith(items, wanted, [])];
  if (!wanted || !paths.length) return null;
  const found = direction > 0 ? paths.find((path) => isAfter(path, from)) : paths.findLast((path) => isAfter(from, path));
  return found ?? paths.at(direction > 0 ? 0 : -1);
}

function* pathsWith(items, words, above) {
  for (let place = 0; place < items.length; place += 1) {
    const path = [...above, place];
    if (`${items[place].text} ${items[place].written?.text ?? ""}`.toLowerCase().includes(words) || path.join("/") === words) yield path;
    if (items[place].items) yield* pathsWith(items[place].items, words, path);
  }
}

function isAfter(path, other) {
  const deep = path.findIndex((place, i) => place !== other[i]);
  return deep >= 0 && (other[deep] === undefined || path[deep] > other[deep]);
}
