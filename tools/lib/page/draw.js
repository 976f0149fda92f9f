// Draws the state. What moved is seen to move, unless the reader wants less motion.
const $ = (id) => document.getElementById(id);
const calm = matchMedia("(prefers-reduced-motion: reduce)");
const REGIONS = ["window", "probation", "protected"];
// A long region shows so many entries from its front, and so many from its end.
const FRONT = 40, END = 16;
// Up to so many entries all that shift are seen to move, else those that the line did something with.
const FEW = 40;
const places = new Map(), fillers = new Map();
let shown = 0, sought = null, drawnAt = -1;

function make(tag, kind, text) {
  const made = document.createElement(tag);
  if (kind) made.className = kind;
  if (text !== undefined) made.textContent = text;
  return made;
}

const inWords = (number) => (number === null ? "" : number.toLocaleString("en"));

// As what each key is shown, and by what it is searched for.
const names = numbers.shown || numbers.keys, texts = numbers.texts || numbers.keys;
// What a key's tooltip and a screen reader tell first: its text, if there is a table of texts, and its number.
const wholeName = (key) => (numbers.texts ? `${numbers.texts[key]}, key ${numbers.keys[key]}` : `key ${numbers.keys[key]}`);

function keyButton(key) {
  const button = make("button", "key", names[key]);
  button.dataset.key = key;
  button.title = numbers.texts ? wholeName(key) : "";
  return button;
}

// A note as a sentence, its keys as buttons that show their lives.
function sentence(note, tag = "li") {
  const said = make(tag);
  for (const part of numbers.sentences[note[0]].split(/(\{\d\})/)) {
    const found = /^\{(\d)\}$/.exec(part);
    const told = found ? note[1 + Number(found[1])] : part;
    said.append(Array.isArray(told) ? keyButton(told[0]) : String(told));
  }
  return said;
}

// What the line did with each key, in a word or two.
function marksOf(step) {
  const marks = new Map();
  for (const note of step ? step[NOTES] : []) {
    const mark = numbers.marks[word(note)];
    if (mark && note[1] && !(word(note) === "front" && marks.has(note[1][0]))) marks.set(note[1][0], mark);
  }
  return marks;
}

function placeOf(row, marks, latest) {
  const [key, version, written, used, end] = row, estimate = state.estimates[key];
  if (!places.has(key)) {
    const place = make("li", "place"), chip = make("button", "chip");
    chip.append(make("b", "", names[key]), make("small"), make("i"));
    chip.dataset.key = key;
    place.append(chip);
    places.set(key, place);
  }
  const place = places.get(key), chip = place.firstChild, old = isPast(end, latest), mark = marks.get(key);
  const looks = [row, estimate, old, mark, key === sought].join();
  // A chip that looks as before is left alone, which is most of a step's time.
  if (place.looks === looks) return place;
  place.looks = looks;
  chip.children[1].textContent = estimate;
  chip.children[2].style.width = `${(estimate / 15) * 100}%`;
  const told = [`version ${version}`, `estimate ${estimate}`, `stored at ${written}`, `last used at ${used}`];
  if (numbers.weights) told.push(`weight ${numbers.weights[key]}`);
  if (end !== null) told.push(old ? `expired since ${end}` : `expires at ${end}`);
  chip.title = (numbers.texts ? [wholeName(key), ...told] : told).join(", ");
  chip.setAttribute("aria-label", [wholeName(key), mark ? mark.replace(/^\W+/, "") : "", ...told].filter(Boolean).join(", "));
  place.className = `place${old ? " old" : ""}${key === sought ? " sought" : ""}`;
  if (mark) place.dataset.mark = mark; else delete place.dataset.mark;
  return place;
}

// What fills a region beside its keys: free places, and how many keys are left out.
function filler(name, kind) {
  const id = `${name} ${kind}`;
  if (!fillers.has(id)) {
    fillers.set(id, make("li", kind === "more" ? "more" : "free"));
    if (kind !== "more") fillers.get(id).setAttribute("aria-hidden", "true");
  }
  return fillers.get(id);
}

// Puts parts into a list, and moves as few as it can.
function fill(list, parts) {
  const wanted = new Set(parts);
  let at = list.firstChild;
  const drop = () => { while (at && !wanted.has(at)) { const next = at.nextSibling; at.remove(); at = next; } };
  for (const part of parts) {
    drop();
    if (part === at) at = at.nextSibling; else list.insertBefore(part, at);
  }
  drop();
}

function drawRegion(name, number, most, marks) {
  const rows = state.lists[4 * shown + number], list = document.querySelector(`.${name} ol`);
  const drawn = [], cut = rows.length > FRONT + END + 4;
  const add = (part) => drawn.push(...part.map((row) => placeOf(row, marks, state.latest[shown])));
  add(cut ? rows.slice(0, FRONT) : rows);
  if (cut) {
    drawn.push(filler(name, "more"));
    filler(name, "more").textContent = `\u2026 ${inWords(rows.length - FRONT - END)} more \u2026`;
    add(rows.slice(-END));
  }
  for (let n = rows.length; n < most && most <= 40; n += 1) drawn.push(filler(name, n));
  fill(list, drawn);
  const main = state.lists[4 * shown + 1].length + state.lists[4 * shown + 2].length;
  const [held, of, all, limit] = [rows.length, most, main, numbers.limits.main].map(inWords);
  document.querySelector(`.${name} h2 span`).textContent = most === null ? `${held} (main: ${all} of ${limit})` : `${held} of ${of}`;
}

function drawRegions(step) {
  const marks = marksOf(step), moves = !calm.matches && drawnAt >= 0;
  const moving = !moves ? [] : numbers.limits.window + numbers.limits.main <= FEW ? [...places.keys()] : [...marks.keys()];
  const before = new Map(moving.filter((key) => places.get(key)?.isConnected).map((key) => [key, places.get(key).getBoundingClientRect()]));
  drawRegion("window", 0, numbers.limits.window, marks);
  drawRegion("probation", 1, null, marks);
  drawRegion("protected", 2, numbers.limits.protected, marks);
  (moves ? new Set([...moving, ...marks.keys()]) : []).forEach((key) => slide(places.get(key), before.get(key)));
}

function slide(place, from) {
  if (!place?.isConnected || !place.animate) return;
  const to = place.getBoundingClientRect();
  if (!from) {
    place.animate([{ opacity: 0, transform: "translateY(-.6rem)" }, {}], { duration: 260, easing: "ease-out" });
  } else if (from.left !== to.left || from.top !== to.top) {
    place.animate([{ transform: `translate(${from.left - to.left}px, ${from.top - to.top}px)` }, {}], { duration: 260, easing: "ease-in-out" });
  }
}

function drawLoads() {
  const rows = state.lists[4 * shown + 3];
  const list = rows.slice(0, FRONT).map(([id, key, lines, current]) => {
    const row = make("li");
    const sharers = lines.slice(1, 9).map((n) => `line ${n}`).join(", ") + (lines.length > 9 ? " and more" : "");
    const told = `opened by line ${lines[0]}${sharers ? `, shared by ${sharers}` : ""}${current ? "" : "; stale: its value won't be stored"}`;
    row.append(`load ${id} of `, keyButton(key), make("br"), make("small", "", told));
    return row;
  });
  if (rows.length > FRONT) list.push(make("li", "none", `and ${rows.length - FRONT} more`));
  $("loads").replaceChildren(...(list.length ? list : [make("li", "none", "none")]));
}

function drawLeft(step) {
  const list = (step ? step[NOTES] : []).filter((note) => word(note).startsWith("left ")).map((note) => {
    const row = make("li");
    row.append(keyButton(note[1][0]), `, version ${note[2]} `, make("em", "", word(note).slice(5)));
    return row;
  });
  const more = list.splice(FRONT).length;
  if (more) list.push(make("li", "none", `and ${more} more`));
  $("left").replaceChildren(...(list.length ? list : [make("li", "none", "nothing left with this line")]));
}

function drawSums() {
  const told = sums(), [lookups, hits] = told;
  $("ratio").textContent = lookups ? `${((100 * hits) / lookups).toFixed(1)} %` : "\u2013";
  $("of").textContent = lookups ? "of look-ups hit" : "no look-up yet";
  $("sums").replaceChildren(...numbers.sums.flatMap((name, n) => [make("dt", "", name), make("dd", "", inWords(told[n]))]));
}

// The two of a duel, each with its estimate as so many of fifteen bars.
function drawDuel(step) {
  const note = step && step[NOTES].find((part) => ["wins", "ties", "loses"].includes(word(part)));
  $("duel").hidden = !note;
  if (!note) return;
  const [, [candidate], [victim], own, other] = note, won = own > other;
  $("duel").replaceChildren(...[["candidate", candidate, own, won], ["victim", victim, other, !won]].flatMap(([role, key, estimate, stays]) => {
    const pips = make("span", `pips ${role}`);
    pips.append(...Array.from({ length: 15 }, (_, n) => make("i", n < estimate ? "on" : "")));
    return [make("span", "", role), Object.assign(make("b", "", names[key]), { title: wholeName(key) }), pips, make("span", stays ? "" : "out", `${estimate}, ${stays ? "stays" : "leaves"}`)];
  }));
}

function drawStep(step) {
  $("text").textContent = step ? step[TEXT] : "before the first line shown";
  $("report").textContent = step ? `${step[NUMBER]} ${step[REPORT]}` : "";
  document.querySelector(".prints").hidden = !step;
  $("why").replaceChildren(...(step ? step[NOTES].filter((note) => !word(note).startsWith("left ")).map((note) => sentence(note)) : []));
  const end = steps.length, number = step ? step[NUMBER] : steps[0][NUMBER];
  $("where").replaceChildren(step ? "line " : "before line ", make("b", "", number), ` of ${steps[end - 1][NUMBER]}`);
  if (numbers.shards > 1 && step) $("where").append(step[SHARD] < 0 ? ", all shards" : `, shard ${step[SHARD]}`);
}

function draw() {
  const step = state.at ? steps[state.at - 1] : null;
  if (step && step[SHARD] >= 0 && drawnAt !== state.at) shown = step[SHARD];
  drawStep(step);
  drawDuel(step);
  drawRegions(step);
  drawLoads();
  drawLeft(step);
  drawSums();
  drawShards();
  drawnAt = state.at;
  drawLifeNow();
  $("slider").value = state.at;
  // The address leads back to this line.
  if (step) history.replaceState(null, "", `#line=${step[NUMBER]}`);
  $("slider").setAttribute("aria-valuetext", $("where").textContent);
  for (const id of ["first", "back"]) $(id).disabled = state.at === 0;
  for (const id of ["on", "last"]) $(id).disabled = state.at === steps.length;
  document.querySelectorAll(".here").forEach((line) => line.setAttribute("d", `M${state.at - 0.5} 0V10`));
}

function drawShards() {
  if (numbers.shards < 2) return;
  $("shards").hidden = false;
  $("shards").replaceChildren("Shard", ...Array.from({ length: numbers.shards }, (_, n) => {
    const button = make("button", "", n);
    button.setAttribute("aria-pressed", n === shown);
    button.onclick = () => { shown = n; draw(); };
    return button;
  }));
}
