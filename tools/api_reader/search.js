// The search of the pages that tools/api writes. NAMES comes from names.js: of each item its name, path, kind, first sentence and place.
"use strict";

const field = document.getElementById("q");
const results = document.getElementById("results");
const columns = document.querySelector(".columns");
const MOST = 60;

// How well an item fits some words: 0 if one of them is nowhere in it, and else more for a match in its name than in its path or its sentence.
function fitness(item, words) {
  const [name, path, kind, sentence] = item.map((it) => it.toLowerCase());
  let sum = kind === "definition" ? 0 : 15;
  for (const word of words) {
    if (name === word) sum += 100;
    else if (name.startsWith(word)) sum += 60;
    else if (name.includes(word)) sum += 40;
    else if (path.endsWith(word)) sum += 90;
    else if (path.includes(word)) sum += 20;
    else if (sentence.includes(word)) sum += 8;
    else return 0;
  }
  return sum + 10 / path.length;
}

function element(name, className, text) {
  const made = document.createElement(name);
  if (className) made.className = className;
  if (text) made.textContent = text;
  return made;
}

// A path that a line may break after each pair of colons.
function pathElement(path) {
  const made = element("span", "path");
  for (const part of path.split(/(?<=::)/)) made.append(part, element("wbr"));
  return made;
}

function row([, path, kind, sentence, place]) {
  const made = element("li");
  const link = element("a");
  link.href = place;
  link.addEventListener("click", () => show(""));
  link.append(element("span", "what", kind), pathElement(path));
  if (sentence) link.append(element("span", "sentence", sentence));
  made.append(link);
  return made;
}

// Shows what fits a text in the place of the page, or the page if there is no text.
function show(text) {
  const words = text.toLowerCase().split(/\s+/).filter(Boolean);
  results.hidden = words.length === 0;
  columns.hidden = words.length > 0;
  results.replaceChildren();
  if (words.length === 0) return;
  const found = NAMES.map((item) => [fitness(item, words), item]).filter(([fit]) => fit > 0).sort((a, b) => b[0] - a[0]);
  const said = found.length === 0 ? "Nothing fits" : found.length > MOST ? `The best ${MOST} of ${found.length}` : `${found.length} found`;
  const heading = element("h1", "", `${said}: ${text}`);
  heading.setAttribute("role", "status");
  const list = element("ul", "found");
  list.append(...found.slice(0, MOST).map(([, item]) => row(item)));
  results.append(heading, list);
  scrollTo(0, 0);
}

// Goes to the link after or before the one that is looked at; before the first is the field.
function step(by) {
  const links = [...results.querySelectorAll("a")];
  const at = links.indexOf(document.activeElement) + by;
  (at < 0 ? field : links[Math.min(at, links.length - 1)] || field).focus();
}

field.addEventListener("input", () => show(field.value));
field.form.addEventListener("submit", (event) => {
  event.preventDefault();
  const first = results.querySelector("a");
  if (first) first.click();
});
addEventListener("keydown", (event) => {
  const isTyping = event.target instanceof HTMLInputElement;
  if (event.key === "/" && !isTyping && !event.ctrlKey && !event.metaKey && !event.altKey) {
    event.preventDefault();
    field.focus();
    field.select();
  } else if (event.key === "Escape" && (isTyping || !results.hidden)) {
    field.value = "";
    show("");
    field.blur();
  } else if ((event.key === "ArrowDown" || event.key === "ArrowUp") && !results.hidden) {
    event.preventDefault();
    step(event.key === "ArrowDown" ? 1 : -1);
  }
});

// Unfolds what stands around the place that the address names, and that place itself.
function unfold() {
  const place = document.getElementById(decodeURIComponent(location.hash.slice(1)));
  for (let at = place; at; at = at.parentElement) if (at instanceof HTMLDetailsElement) at.open = true;
  if (place) place.scrollIntoView();
}
addEventListener("hashchange", unfold);
unfold();

// `index.html?q=read` fills the field.
const asked = new URLSearchParams(location.search).get("q");
if (asked) {
  field.value = asked;
  show(asked);
}
