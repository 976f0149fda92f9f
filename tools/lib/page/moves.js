// What the reader does: steps, plays, jumps, searches.
const TRACKS = [["hit", "hits", "h"], ["removal", "removals", "r"], ["load", "loads", "l"], ["duel", "duels", "d"], ["refused", "refused", "x"]];
let playing = 0;

function go(at) {
  moveTo(at);
  draw();
}

function stop() {
  clearInterval(playing);
  playing = 0;
  $("play").textContent = "Play";
  $("play").setAttribute("aria-pressed", "false");
  $("step").setAttribute("aria-live", "polite");
}

function play() {
  if (playing) return stop();
  if (state.at === steps.length) moveTo(0);
  $("play").textContent = "Pause";
  $("play").setAttribute("aria-pressed", "true");
  $("step").setAttribute("aria-live", "off");
  playing = setInterval(() => (state.at === steps.length ? stop() : go(state.at + 1)), 900);
}

// To the next step of a kind, or to the one before.
function jump(kind, by) {
  let at = state.at + by;
  while (at > 0 && at <= steps.length && !steps[at - 1][JUMPS].includes(kind)) at += by;
  if (at > 0 && at <= steps.length) go(at);
}

function trackButton(kind, by, words) {
  const button = make("button", "", by > 0 ? "\u203A" : "\u2039");
  button.setAttribute("aria-label", button.title = `${by > 0 ? "next" : "previous"} ${words}`);
  button.onclick = () => jump(kind, by);
  return button;
}

// Bars of a track: one for each line, or for several lines as high as the part of them that is of the kind.
function barsOf(kind) {
  const columns = Math.min(steps.length, 240), counts = new Array(columns).fill(0), sizes = new Array(columns).fill(0);
  steps.forEach((step, n) => {
    const column = Math.floor((n * columns) / steps.length);
    sizes[column] += 1;
    counts[column] += step[JUMPS].includes(kind);
  });
  const wide = steps.length / columns, thin = Math.min(0.8 * wide, steps.length / 100);
  return counts.map((count, n) => (count ? `M${(n + 0.5) * wide - thin / 2} 10v${(-9 * count) / sizes[n]}h${thin}V10z` : "")).join("");
}

function drawTracks() {
  const NS = "http://www.w3.org/2000/svg";
  TRACKS.forEach(([name, words, letter], kind) => {
    const count = steps.filter((step) => step[JUMPS].includes(kind)).length;
    const track = document.createElementNS(NS, "svg"), marks = document.createElementNS(NS, "path"), here = document.createElementNS(NS, "path");
    track.setAttribute("viewBox", `0 0 ${steps.length} 10`);
    track.setAttribute("preserveAspectRatio", "none");
    track.setAttribute("class", name);
    track.setAttribute("role", "img");
    track.setAttribute("aria-label", `${count} of ${steps.length} lines`);
    marks.setAttribute("d", barsOf(kind));
    here.setAttribute("class", "here");
    track.append(marks, here);
    track.onclick = (event) => go(1 + Math.floor(((event.clientX - track.getBoundingClientRect().left) / track.getBoundingClientRect().width) * steps.length));
    const one = { hit: "hit", removal: "removal", load: "load", duel: "duel", refused: "refused line" }[name];
    const label = make("span");
    label.append(make("span", "", words), make("span", "", inWords(count)));
    $("tracks").append(trackButton(kind, -1, `${one} (Shift ${letter})`), label, trackButton(kind, 1, `${one} (${letter})`), track);
  });
}

// The life of a key: each line that did something with it.
function isAbout(note, key) {
  return note.slice(1).some((part) => Array.isArray(part) && part[0] === key);
}

function whereIs(key) {
  for (let list = 0; list < state.lists.length; list += 1) {
    const at = list % 4 < 3 ? state.lists[list].findIndex((row) => row[0] === key) : -1;
    if (at >= 0) return `After this line: in ${REGIONS[list % 4]}, place ${at + 1} of ${state.lists[list].length}, estimate ${state.estimates[key]}.`;
  }
  return `After this line: not held, estimate ${state.estimates[key]}.`;
}

function drawLifeNow() {
  $("now").textContent = sought === null ? ($("search").value ? "No line shown has this key." : "") : whereIs(sought);
  const line = state.at ? String(state.at) : "";
  document.querySelectorAll("#life li").forEach((row) => (row.dataset.at === line ? row.setAttribute("aria-current", "step") : row.removeAttribute("aria-current")));
}

// The key of a name that was typed: its number, its name or its text.
function keyOf(name) {
  const key = numbers.keys.indexOf(/^0+\d/.test(name) && !numbers.names ? name.replace(/^0+(?=\d)/, "") : name);
  return key < 0 ? texts.indexOf(name) : key;
}

function search(name) {
  const key = keyOf(name);
  sought = key < 0 ? null : key;
  const rows = [];
  steps.forEach((step, n) => {
    const notes = sought === null ? [] : step[NOTES].filter((note) => isAbout(note, key));
    if (!notes.length) return;
    const row = make("li"), button = make("button", "", `line ${step[NUMBER]}`), said = make("span");
    row.dataset.at = n + 1;
    button.onclick = () => go(n + 1);
    notes.forEach((note) => said.append(sentence(note, "span"), " "));
    row.append(button, said);
    rows.push(row);
  });
  $("life").replaceChildren(...rows.slice(0, 500), ...(rows.length > 500 ? [make("li", "none", `and ${rows.length - 500} lines more`)] : []));
  draw();
}

function press(event) {
  if (event.ctrlKey || event.metaKey || event.altKey) return;
  if (event.target === $("search")) {
    if (event.key !== "Escape") return;
    $("search").blur();
    return event.preventDefault();
  }
  const moves = { ArrowLeft: -1, ArrowRight: 1, PageUp: -10, PageDown: 10, Home: -Infinity, End: Infinity };
  const kind = TRACKS.findIndex(([, , letter]) => letter === event.key.toLowerCase());
  if (event.key in moves) go(state.at + moves[event.key]);
  else if (kind >= 0) jump(kind, event.shiftKey ? -1 : 1);
  else if (event.key === " " && event.target.tagName !== "BUTTON") play();
  else if (event.key === "/") $("search").focus();
  else return;
  event.preventDefault();
}

function start() {
  // Line n is at n - 0.5 of the lanes' axis.
  $("slider").max = steps.length + 0.5;
  document.querySelector(".regions").classList.toggle("few", numbers.limits.window + numbers.limits.main <= 12);
  $("slider").oninput = () => go(Math.round($("slider").value));
  $("first").onclick = () => go(0);
  $("back").onclick = () => go(state.at - 1);
  $("on").onclick = () => go(state.at + 1);
  $("last").onclick = () => go(steps.length);
  $("play").onclick = play;
  $("search").oninput = () => search($("search").value.trim());
  $("keys").append(...texts.slice(0, 1000).map((name) => Object.assign(document.createElement("option"), { value: name })));
  document.addEventListener("keydown", press);
  document.addEventListener("click", (event) => {
    const button = event.target.closest("[data-key]");
    if (!button) return;
    $("search").value = texts[button.dataset.key];
    search($("search").value);
  });
  drawTracks();
  const line = steps.findIndex((step) => [`#line=${step[NUMBER]}`, `#${step[NUMBER]}`].includes(location.hash));
  go(line < 0 ? 1 : line + 1);
}

start();
