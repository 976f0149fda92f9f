// The search: it reads search.js, an index of the book, when the field is first used.
"use strict";
const top_ = document.documentElement.dataset.top;
const field = document.getElementById("words");
const results = document.getElementById("results");
const MOST = 60;
// How much of a text a result shows, and how much of that is before the word.
const LONGEST = 160;
const BEFORE = 60;
const KINDS = ["call", "type", "word", "label", "page", "section", "edit"];
let loading = null;

// The entries, each with what is compared, in small letters.
function load() {
  loading ??= new Promise((done) => {
    const script = document.createElement("script");
    script.src = top_ + "search.js";
    script.onload = () => done(INDEX.map(prepared));
    document.head.append(script);
  });
  return loading;
}

function prepared([kind, title, address, text], at) {
  const name = title.toLowerCase();
  const first = name.split(" ")[0];
  return { kind, title, address, text, at, name, first, last: first.split(/::|\./).pop(), small: text.toLowerCase() };
}

// A word that is searched for: alone, not as a part of a longer word, and at the beginning of one.
function wanted(word) {
  const text = word.replace(/[.*+?^${}()|[\]\\]/g, "\\$&");
  const before = "(?<![\\p{L}\\p{N}_])";
  return { word, alone: new RegExp(before + text + "(?![\\p{L}\\p{N}_])", "u"), begun: new RegExp(before + text, "u") };
}

// How far a word is from an entry: whole words come before parts, and names before texts. Infinity if the entry doesn't have it.
function distance({ name, first, last, small }, { word, alone, begun }) {
  if (first === word || last === word) return 0;
  if (alone.test(name)) return 1;
  if (small.includes(word) && alone.test(small)) return 2;
  if (begun.test(name)) return 3;
  return name.includes(word) ? 4 : small.includes(word) ? 5 : Infinity;
}

// The entries that have all words, the nearest first. Calls come before pages if the word is in their names.
function found(entries, words) {
  const fitting = [];
  for (const entry of entries) {
    const far = words.map((word) => distance(entry, word));
    const sum = far.reduce((all, one) => all + one, 0);
    if (sum < Infinity) fitting.push([sum, Math.min(...far) < 2 ? KINDS.indexOf(entry.kind) : 0, entry]);
  }
  return fitting.sort((a, b) => a[0] - b[0] || a[1] - b[1] || a[2].at - b[2].at).slice(0, MOST).map(([, , entry]) => entry);
}

// The part of an entry's text in which the first of the words stands.
function around({ text, small }, words) {
  const places = words.map(({ word, alone }) => Math.max(small.search(alone), small.indexOf(word))).filter((at) => at >= 0);
  const at = places.length ? Math.min(...places) : 0;
  const begin = at < BEFORE ? 0 : text.indexOf(" ", at - BEFORE) + 1;
  return (begin ? ".. " : "") + text.slice(begin, begin + LONGEST) + (begin + LONGEST < text.length ? " .." : "");
}

function row(entry, words) {
  const link = document.createElement("a");
  link.href = top_ + entry.address;
  link.textContent = entry.title + " ";
  const more = document.createElement("small");
  more.textContent = entry.text ? entry.kind + ": " + around(entry, words) : entry.kind;
  link.append(more);
  const item = document.createElement("li");
  item.append(link);
  return item;
}

async function show() {
  const entries = await load();
  const words = field.value.toLowerCase().split(/\s+/).filter(Boolean).map(wanted);
  const rows = words.length ? found(entries, words).map((entry) => row(entry, words)) : [];
  if (!rows.length && words.length) {
    const none = document.createElement("li");
    none.textContent = "Nothing has these words.";
    rows.push(none);
  }
  results.replaceChildren(...rows);
  results.hidden = !words.length;
}

function links() {
  return [field, ...results.querySelectorAll("a")];
}

function move(by) {
  const all = links();
  const at = all.indexOf(document.activeElement);
  all[Math.max(0, Math.min(all.length - 1, at + by))].focus();
}

field.addEventListener("focus", load);
field.addEventListener("input", show);
results.addEventListener("click", () => { results.hidden = true; });
document.getElementById("find").addEventListener("submit", (event) => {
  event.preventDefault();
  show().then(() => results.querySelector("a")?.click());
});
document.addEventListener("keydown", (event) => {
  const inSearch = links().includes(document.activeElement);
  if (event.key === "/" && !inSearch) {
    event.preventDefault();
    field.focus();
  } else if (event.key === "Escape") {
    results.hidden = true;
    field.blur();
  } else if (inSearch && (event.key === "ArrowDown" || event.key === "ArrowUp") && !results.hidden) {
    event.preventDefault();
    move(event.key === "ArrowDown" ? 1 : -1);
  }
});
