"use strict";
// The view of a document and its report. The data: names and texts, each once; of each element its parent, its label, the
// values that differ from its parent's, its winning declarations, their faults, and the declarations that are ignored.

const DATA = JSON.parse(document.getElementById("data").textContent);
const { names: NAMES, texts: TEXTS, inherited: INHERITED } = DATA;
const ROW = 26, INDENT = 14, DEEPEST_INDENT = 22, INVALID = -1;
const CAUSES = {
  cycle: "On a dependency cycle: it refers to itself, directly or through others.",
  missing: "It refers, without a fallback, to a name that has no value here",
  limit: "After substitution it has more tokens than the limit.",
  mismatch: "After substitution it doesn't match the grammar of the property.",
};
const $ = id => document.getElementById(id);

function pairs(flat) {
  const map = new Map();
  for (let i = 0; i < flat.length; i += 2) map.set(flat[i], flat[i + 1]);
  return map;
}

const elements = DATA.elements.map(([parent, label, set, declared, causes, notes], index) => ({
  index, parent, label, set: pairs(set), causes: pairs(causes), notes, depth: 0, children: [], folded: false,
  declared: new Map(declared.map(([name, text, place]) => [name, { text, place }])),
}));
for (const element of elements) {
  if (element.parent !== null) {
    element.depth = elements[element.parent].depth + 1;
    elements[element.parent].children.push(element.index);
  }
}

// ---- values and where they come from

// Of the chosen element, by name: the numbers of the texts, and the elements that declare what has its value there.
let values = new Map(), origins = new Map();

/** Takes the values of an element: one way up the tree for all names. */
function gather(index) {
  values = new Map();
  origins = new Map();
  for (let at = index; at !== null; at = elements[at].parent) {
    for (const [name, text] of elements[at].set) if (!values.has(name)) values.set(name, text);
    for (const name of elements[at].declared.keys()) if (!origins.has(name) && (at === index || INHERITED[name])) origins.set(name, at);
  }
}

/** The number of the text of a name on the chosen element, INVALID, or undefined where the report doesn't tell. */
function valueOf(name) {
  return values.get(name);
}

/** Where the value of a name on the chosen element comes from: { kind: "here" | "inherited" | "initial", element }. */
function originOf(name) {
  const element = origins.get(name);
  return { kind: element === undefined ? "initial" : element === chosen ? "here" : "inherited", element };
}

function ownLabel(element) {
  return element.label.slice(element.label.lastIndexOf(" > ") + 1).replace(/^> /, "") || `element ${element.index}`;
}

// ---- the tree: rows of one height, of which only those in sight are made

let visible = [], chosen = 0, matches = new Set(), matchList = [];
const tree = $("tree"), rows = $("rows"), made = new Map();

function layOut() {
  visible = [];
  const stack = [0];
  while (stack.length) {
    const index = stack.pop();
    visible.push(index);
    if (!elements[index].folded) {
      const { children } = elements[index];
      for (let i = children.length - 1; i >= 0; i--) stack.push(children[i]);
    }
  }
  visible.forEach((index, place) => { elements[index].place = place; });
  rows.style.height = visible.length * ROW + "px";
  drawRows(true);
}

function drawRows(anew) {
  const first = Math.max(0, Math.floor(tree.scrollTop / ROW) - 8);
  const last = Math.min(visible.length, Math.ceil((tree.scrollTop + tree.clientHeight) / ROW) + 8);
  for (const [index, row] of made) {
    const { place } = elements[index];
    if (anew || place < first || place >= last || visible[place] !== index) { row.remove(); made.delete(index); }
  }
  for (let place = first; place < last; place++) {
    if (!made.has(visible[place])) {
      const row = makeRow(elements[visible[place]], place);
      made.set(visible[place], row);
      rows.append(row);
    }
  }
}

function makeRow(element, place) {
  const row = document.createElement("div");
  row.className = "row" + (matches.has(element.index) ? " match" : "");
  row.id = "e" + element.index;
  row.dataset.index = element.index;
  row.style.top = place * ROW + "px";
  row.style.paddingLeft = 8 + Math.min(element.depth, DEEPEST_INDENT) * INDENT + "px";
  row.setAttribute("role", "treeitem");
  row.setAttribute("aria-level", element.depth + 1);
  row.setAttribute("aria-selected", element.index === chosen);
  const fold = span("fold", element.children.length ? (element.folded ? "▶" : "▼") : "");
  if (element.children.length) row.setAttribute("aria-expanded", !element.folded);
  const [, tag, rest] = /^([^.#]*)(.*)$/s.exec(ownLabel(element));
  const text = span("text", "");
  text.append(span("tag", tag), span("rest", rest));
  row.append(fold, text);
  if (element.causes.size) row.append(Object.assign(span("fault", ""), { title: `${element.causes.size} invalid` }));
  if (element.declared.size) row.append(Object.assign(span("count", element.declared.size), { title: `${element.declared.size} declared here` }));
  return row;
}

function span(name, text) {
  const made = document.createElement("span");
  made.className = name;
  made.textContent = text;
  return made;
}

function unfoldTo(index) {
  let changed = false;
  for (let at = elements[index].parent; at !== null; at = elements[at].parent) {
    changed ||= elements[at].folded;
    elements[at].folded = false;
  }
  if (changed) layOut();
}

function choose(index, keepScroll) {
  unfoldTo(index);
  made.get(chosen)?.setAttribute("aria-selected", false);
  chosen = index;
  const top = elements[index].place * ROW;
  if (!keepScroll) {
    if (top < tree.scrollTop) tree.scrollTop = top;
    else if (top + ROW > tree.scrollTop + tree.clientHeight) tree.scrollTop = top + ROW - tree.clientHeight;
  }
  drawRows(false);
  made.get(index)?.setAttribute("aria-selected", true);
  tree.setAttribute("aria-activedescendant", "e" + index);
  showing ||= requestAnimationFrame(showValues);  // once a frame, however many keys came
}

function setFolded(index, folded) {
  if (elements[index].folded !== folded && elements[index].children.length) {
    elements[index].folded = folded;
    layOut();
  }
}

// ---- the values of the chosen element

let filter = "all", query = "", showing = 0;

function showValues() {
  cancelAnimationFrame(showing);
  showing = 0;
  gather(chosen);
  const element = elements[chosen], label = $("label");
  label.replaceChildren(span("", ownLabel(element) + " "), Object.assign(document.createElement("small"), { textContent: "#" + element.index }));
  showPath(element);
  const all = NAMES.map((_, name) => name).filter(name => valueOf(name) !== undefined);
  const tests = {
    all: () => true,
    declared: name => element.declared.has(name),
    changed: name => element.set.has(name),
    invalid: name => element.causes.has(name) || valueOf(name) === INVALID && NAMES[name].startsWith("--") && element.declared.has(name),
  };
  for (const button of document.querySelectorAll(".filter")) {
    button.querySelector("span").textContent = all.filter(tests[button.dataset.filter]).length;
    button.setAttribute("aria-pressed", button.dataset.filter === filter);
  }
  const sorted = all.map(name => [rankOf(element, name), name]).sort((a, b) => a[0] - b[0]).map(([, name]) => name);
  const shown = sorted.filter(tests[filter]).filter(name => !query || isHit(name) || labelHit(element));
  const list = shown.map(name => makeValue(element, name));
  if (element.notes.length && filter !== "changed" && !query) list.unshift(makeNotes(element));
  if (!list.length) list.push(Object.assign(document.createElement("div"), { className: "empty", textContent: "No name to show." }));
  $("values").replaceChildren(...list);
  $("values").scrollTop = 0;
}

/** Where a name stands among the values: first those declared here, then those with a value; custom ones before ordinary ones. */
function rankOf(element, name) {
  const group = element.declared.has(name) ? 0 : valueOf(name) !== INVALID ? 2 : 4;
  return group + (NAMES[name].startsWith("--") ? 0 : 1);
}

function showPath(element) {
  const above = [];
  for (let at = element.parent; at !== null; at = elements[at].parent) above.unshift(at);
  const parts = above.length > 12 ? [...above.slice(0, 3), null, ...above.slice(-8)] : above;
  $("path").replaceChildren(...parts.flatMap(at => at === null ? [" … › "] : [goTo(at, ownLabel(elements[at])), " › "]));
}

function goTo(index, text) {
  const button = document.createElement("button");
  button.type = "button";
  button.textContent = text;
  button.addEventListener("click", () => choose(index));
  return button;
}

function makeValue(element, name) {
  const row = document.createElement("div"), value = valueOf(name), origin = originOf(name);
  row.className = "value";
  row.dataset.name = NAMES[name];
  const is = document.createElement("div");
  is.className = "what";
  if (value === INVALID) is.append(span("nothing", "invalid (no value)"));
  else if (TEXTS[value] === "") is.append(span("nothing", "empty"));
  else {
    const color = colorOf(TEXTS[value]);
    if (color) is.append(swatch(color));
    is.append(marked("is", TEXTS[value]));
  }
  row.append(marked("name", NAMES[name]), is, makeOrigin(origin, name));
  const cause = element.causes.get(name), declared = element.declared.get(name);
  if (declared && (cause || value === INVALID || TEXTS[declared.text] !== TEXTS[value])) row.append(makeDeclared(TEXTS[declared.text]));
  if (cause) row.append(span("why", CAUSES[cause] + (cause === "missing" ? missing(declared) + "." : "") + actsAs(name, value, element)));
  return row;
}

function makeOrigin(origin, name) {
  const from = document.createElement("div"), cause = elements[chosen].causes.get(name);
  from.className = "from";
  if (origin.kind === "initial") from.append(span("badge", "initial"));
  if (origin.kind === "here") from.append(cause ? span("badge bad", "invalid: " + cause) : span("badge here", "declared here"));
  if (origin.kind === "inherited") from.append(span("badge", "inherited"), " from ", goTo(origin.element, `#${origin.element} ${ownLabel(elements[origin.element])}`));
  const place = origin.element === undefined ? "" : TEXTS[elements[origin.element].declared.get(name).place];
  if (place) from.append(" ", Object.assign(span("place", place.slice(place.lastIndexOf("/") + 1)), { title: place }));
  return from;
}

/** The text of a declaration, in which the names that it refers to lead to their rows. */
function makeDeclared(text) {
  const row = document.createElement("div");
  row.className = "as";
  row.append("declared as ");
  for (const part of text.split(/(--[^\s,)(;:]+)/)) {
    const name = part.startsWith("--") ? NAMES.indexOf(part) : -1;
    if (name < 0) { row.append(part); continue; }
    const button = document.createElement("button");
    button.type = "button";
    button.textContent = part;
    button.addEventListener("click", () => showName(part));
    row.append(button);
  }
  return row;
}

/** What a declaration that is invalid at computed-value time acts as. */
function actsAs(name, value, element) {
  if (value === INVALID) return "";
  return ` It acts as unset: this is ${INHERITED[name] && element.parent !== null ? "the parent's value" : "the initial value"}.`;
}

function missing(declared) {
  if (!declared) return "";
  const absent = [...TEXTS[declared.text].matchAll(/var\(\s*(--[^\s,)]+)\s*\)/gi)].map(match => match[1])
    .filter(name => { const at = NAMES.indexOf(name); return at < 0 || (valueOf(at) ?? INVALID) === INVALID; });
  return absent.length ? `: ${[...new Set(absent)].join(", ")}` : "";
}

function showName(name) {
  if (filter !== "all" || query) { filter = "all"; query = $("search").value = ""; search(); showValues(); }
  const row = [...document.querySelectorAll(".value")].find(one => one.dataset.name === name);
  document.querySelectorAll(".value.target").forEach(one => one.classList.remove("target"));
  row?.classList.add("target");
  row?.scrollIntoView({ block: "center" });
}

function makeNotes(element) {
  const box = document.createElement("div"), head = document.createElement("h3");
  box.className = "notes";
  head.textContent = element.notes.length === 1 ? "A declaration is ignored" : `${element.notes.length} declarations are ignored`;
  box.append(head, ...element.notes.map(([number, why]) => {
    const line = document.createElement("div"), code = document.createElement("code");
    code.textContent = `declaration ${number}: ${why}`;
    line.append(code);
    return line;
  }));
  return box;
}

function colorOf(text) {
  if (!/^[#a-z]/i.test(text) || text.length > 120 || /^(inherit|initial|unset|revert|revert-layer|currentcolor)$/i.test(text)) return null;
  return CSS.supports("color", text) ? text : null;
}

function swatch(color) {
  const box = span("swatch", ""), inner = document.createElement("i");
  inner.style.background = color;
  box.append(inner);
  box.title = color;
  return box;
}

/** A text in which what is searched is marked. */
function marked(name, text) {
  const box = span(name, "");
  const at = query ? text.toLowerCase().indexOf(query) : -1;
  if (at < 0) box.textContent = text;
  else box.append(text.slice(0, at), span("hit", text.slice(at, at + query.length)), text.slice(at + query.length));
  return box;
}

// ---- search: names, values, and labels of elements

let nameHits = [], textHits = [];

function isHit(name) {
  const value = valueOf(name);
  return nameHits[name] || value >= 0 && textHits[value] || value === INVALID && "invalid".startsWith(query);
}

function labelHit(element) {
  return ownLabel(element).toLowerCase().includes(query);
}

/** Finds the elements on which a name that matches is declared, a value that matches begins, or whose label matches. */
function search() {
  query = $("search").value.trim().toLowerCase();
  nameHits = NAMES.map(name => query !== "" && name.toLowerCase().includes(query));
  textHits = TEXTS.map(text => query !== "" && text.toLowerCase().includes(query));
  matchList = !query ? [] : elements.filter(element => labelHit(element)
    || [...element.declared.keys()].some(name => nameHits[name])
    || [...element.set].some(([name, text]) => text >= 0 && textHits[text])).map(element => element.index);
  matches = new Set(matchList);
  $("found").textContent = !query ? "" : matchList.length === 1 ? "1 element" : `${matchList.length} elements`;
  $("next").disabled = $("previous").disabled = !matchList.length;
  drawRows(true);
}

/** Goes on from the chosen element to the next in a list of elements, round its end. */
function goOn(list, forwards) {
  if (!list.length) return;
  const next = forwards ? list.find(index => index > chosen) ?? list[0] : list.findLast(index => index < chosen) ?? list[list.length - 1];
  choose(next);
}

const faulty = elements.filter(element => element.causes.size).map(element => element.index);

// ---- the keys and the mouse

function move(by) {
  const place = Math.max(0, Math.min(visible.length - 1, elements[chosen].place + by));
  choose(visible[place]);
}

const TREE_KEYS = {
  ArrowDown: () => move(1),
  ArrowUp: () => move(-1),
  PageDown: () => move(Math.max(1, Math.floor(tree.clientHeight / ROW) - 1)),
  PageUp: () => move(-Math.max(1, Math.floor(tree.clientHeight / ROW) - 1)),
  Home: () => move(-visible.length),
  End: () => move(visible.length),
  ArrowRight: () => elements[chosen].folded ? setFolded(chosen, false) : elements[chosen].children.length && choose(elements[chosen].children[0]),
  ArrowLeft: () => elements[chosen].children.length && !elements[chosen].folded ? setFolded(chosen, true) : elements[chosen].parent !== null && choose(elements[chosen].parent),
  Enter: () => setFolded(chosen, !elements[chosen].folded),
};
const PAGE_KEYS = {
  "/": () => $("search").focus(),
  n: () => goOn(matchList, true),
  p: () => goOn(matchList, false),
  i: () => goOn(faulty, true),
  t: turnTheme,
};

function turnTheme() {
  const root = document.documentElement;
  const dark = root.dataset.theme ? root.dataset.theme === "dark" : matchMedia("(prefers-color-scheme: dark)").matches;
  root.dataset.theme = dark ? "light" : "dark";
}

document.addEventListener("keydown", event => {
  if (event.ctrlKey || event.metaKey || event.altKey) return;
  const typing = event.target === $("search");
  const action = event.target === tree && TREE_KEYS[event.key] || !typing && PAGE_KEYS[event.key];
  if (action) { action(); event.preventDefault(); }
});
$("search").addEventListener("keydown", event => {
  if (event.key === "Enter") goOn(matchList, !event.shiftKey);
  else if (event.key === "Escape") { $("search").value = ""; search(); showValues(); tree.focus(); }
  else if (event.key === "ArrowDown") tree.focus();
  else return;
  event.preventDefault();
});
$("search").addEventListener("input", () => { search(); showValues(); });
$("next").addEventListener("click", () => goOn(matchList, true));
$("previous").addEventListener("click", () => goOn(matchList, false));
$("faults").addEventListener("click", () => goOn(faulty, true));
$("theme").addEventListener("click", turnTheme);
document.querySelector(".filters").addEventListener("click", event => {
  const button = event.target.closest(".filter");
  if (button) { filter = button.dataset.filter; showValues(); }
});
rows.addEventListener("click", event => {
  const row = event.target.closest(".row");
  if (!row) return;
  const index = Number(row.dataset.index);
  if (event.target.classList.contains("fold")) setFolded(index, !elements[index].folded);
  choose(index, true);
});
let drawing = 0;
tree.addEventListener("scroll", () => { drawing ||= requestAnimationFrame(() => { drawing = 0; drawRows(false); }); });
new ResizeObserver(() => drawRows(false)).observe(tree);

// ---- the start

$("fault-count").textContent = faulty.length === 0 ? "nothing invalid" : faulty.length === 1 ? "1 element with invalid" : `${faulty.length} elements with invalid`;
$("faults").classList.toggle("none", !faulty.length);
$("size").textContent = `${elements.length} elements, ${NAMES.length} names, viewport ${DATA.viewport.width}×${DATA.viewport.height}`;
search();
layOut();
choose(0);
tree.focus();
