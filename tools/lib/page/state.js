// The state of the page: four lists for each shard, moved one step on or back by the differences that the page holds.
const numbers = JSON.parse(document.getElementById("numbers").textContent);
const steps = numbers.steps;
const [NUMBER, TEXT, REPORT, SHARD, NOTES, JUMPS, OUTS, INS, LATEST, SUMS, COUNTED] = [0, 1, 2, 3, 4, 5, 6, 7, 8, 9, 10];
const state = {
  at: 0,
  lists: numbers.start.lists.map((rows) => rows.slice()),
  latest: numbers.start.latest.slice(),
  estimates: numbers.start.estimates.slice(),
};
// What each step that was once done has overwritten.
const overwritten = [];

function forward() {
  const step = steps[state.at];
  const rows = step[OUTS].map(([list, at]) => state.lists[list].splice(at, 1)[0]);
  step[INS].forEach(([list, at, row]) => state.lists[list].splice(at, 0, row));
  const latest = step[LATEST].map(([shard]) => state.latest[shard]);
  step[LATEST].forEach(([shard, moment]) => { state.latest[shard] = moment; });
  const estimates = step[COUNTED].map(([key]) => state.estimates[key]);
  step[COUNTED].forEach(([key, estimate]) => { state.estimates[key] = estimate; });
  overwritten[state.at] = { rows, latest, estimates };
  state.at += 1;
}

function backward() {
  state.at -= 1;
  const step = steps[state.at], was = overwritten[state.at];
  for (let n = step[INS].length - 1; n >= 0; n -= 1) state.lists[step[INS][n][0]].splice(step[INS][n][1], 1);
  for (let n = step[OUTS].length - 1; n >= 0; n -= 1) state.lists[step[OUTS][n][0]].splice(step[OUTS][n][1], 0, was.rows[n]);
  step[LATEST].forEach(([shard], n) => { state.latest[shard] = was.latest[n]; });
  step[COUNTED].forEach(([key], n) => { state.estimates[key] = was.estimates[n]; });
}

// So many steps are done now.
function moveTo(at) {
  const wanted = Math.max(0, Math.min(steps.length, at));
  while (state.at < wanted) forward();
  while (state.at > wanted) backward();
}

const sums = () => (state.at ? steps[state.at - 1][SUMS] : numbers.start.sums);
const isPast = (moment, latest) => moment !== null && BigInt(latest) >= BigInt(moment);
const word = (note) => numbers.words[note[0]];
