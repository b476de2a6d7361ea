// The page: a text, its answers or its run beside it, and the views of the state at the cursor or after the chosen step.
"use strict";
const ASSEMBLY = "assembly";

// What the worker says
const parts = {
  progress(told) { say("busy: " + Math.floor(100 * told.count / told.all) + " % of the text was read"); },
  answers(told, {text}) {
    const answered = told.answers.flatMap((answer, k) => answer ? [k + 1] : []);
    shown = {lines: text.split("\n"), answers: told.answers, answered, why: isPart() ? null : told.why, run: null};
    drawText(told.status);
  },
  state(told) {
    if (by("status").textContent === WAIT) say(...ended);
    if (!told.state && shown.run && isHalfTyped()) return;
    drawState(told.state);
  },
  run(told) {
    const more = told.more ? ", the first lines are shown, and " + told.more + " more were written" : "";
    // The run before is shown as long as a line is half typed
    if (isHalfTyped(told.why) && shown.run) shown = {...shown, why: told.why, image: null};
    else shown = {...NOTHING, why: told.why, run: told.lines, image: told.image, count: told.count};
    by("image").disabled = !shown.image;
    drawText(told.status, told.image ? " \u00b7 an image of " + told.image.length + " bytes" + more : more);
  },
  large(told) {
    shown = {...NOTHING, run: new TextDecoder().decode(told.bytes.subarray(-4096)).split("\n").slice(1, -1)};
    drawText(told.status, " \u00b7 " + counted(told.count, "line") + " of answers, of which the last are shown");
    drawState(null);
  },
  check(told) {
    const agree = told.count - told.differ.length;
    say("checked: " + agree + " agree, " + told.differ.length + " differ" + told.differ.map(name => " " + name).join(""), told.differ.length > 0);
    document.body.dataset.checked = agree + " " + told.differ.length;
  },
  judge: drawVerdict,
  reach: reached,
  retell(told) { if (told.name === chosenExercise()) drawTask(told.text); },
  failed(told) { say("this page fails: " + told.why, true); },
};

// The views

function drawText(status, more = "") {
  explain();
  sayStatus(status, more);
  drawRows(true);
  drawSteps();
}

function drawState(state) {
  by("views").hidden = by("source").hidden = !state;
  if (!state) { mark(null); return; }
  takeState(state);
  drawRows(false);
  markState();
  drawSteps();
  lookAgain();
}

// What the page does

const isAssembly = () => by("kind").value === ASSEMBLY;
const valueOf = id => by(id).value.trim();

function act() {
  const text = large || by("text").value, frame = data.steps.length ? shownFrame() : null;
  document.body.classList.toggle("is-run", isAssembly());
  if (isAssembly()) ask({act: ASSEMBLY, text, steps: valueOf("steps"), seed: valueOf("seed"), count: by("count").value === "" ? null : chosenCount(), frame});
  else ask({act: "script", text, line: cursorLine(), frame});
}

const keys = {
  ...keysOfViews,
  ArrowRight: () => stepBy(1), ArrowLeft: () => stepBy(-1),
};
// Elsewhere these keys scroll the page
const keysOfRows = {
  ArrowDown: () => shown.run ? nextRow(1) : stepBy(1), ArrowUp: () => shown.run ? nextRow(-1) : stepBy(-1),
  Home: () => stepBy(-Infinity), End: () => stepBy(Infinity),
};

function pressed(event) {
  if (event.ctrlKey || event.altKey || event.metaKey || !data.steps.length || large || event.target.closest("textarea, input, select")) return;
  const act = keys[event.key] || document.activeElement === by("answers") && keysOfRows[event.key];
  if (!act) return;
  event.preventDefault();
  act();
}

// The cursor is in another line: a bad one that was half typed is told, and the state is that of the line
function cursorMoved() {
  explain();
  if (shown.why) sayStatus(2);
  if (shown.why && shown.run && shown.run.length) {
    shown = {...NOTHING, why: shown.why, run: []};
    drawState(null);
    drawSteps();
  }
  drawRows(true);
  if (!isAssembly()) act();
}

function listen() {
  const press = (id, act) => by(id).addEventListener("click", act);
  by("text").addEventListener("input", edited);
  by("text").addEventListener("keydown", event => { if (event.ctrlKey && event.key === "Enter") judgeText(); });
  let last = 0;
  document.addEventListener("selectionchange", () => {
    const here = cursorLine();
    if (document.activeElement !== by("text") || here === last || large) return;
    last = here;
    cursorMoved();
  });
  for (const id of ["text", "answers"]) by(id).addEventListener("scroll", () => scrolled(id));
  press("rows", clickedRow);
  new ResizeObserver(() => drawRows(false)).observe(by("editor"));
  by("choice").addEventListener("change", chosen);
  const changed = {kind: act, steps: act, seed: act, count: act, student: drawExercise};
  for (const [id, act] of Object.entries(changed)) by(id).addEventListener("change", () => { act(); if (isKept) keep(); });
  press("opens", () => by("open").click());
  by("open").addEventListener("change", opened);
  for (const [id, act] of Object.entries({save, image: saveImage, link, judge: judgeText, reach})) press(id, act);
  for (const [id, count] of Object.entries({first: -Infinity, back: -1, on: 1, last: Infinity})) press(id, () => stepBy(count));
  window.addEventListener("hashchange", fromAddress);
  document.addEventListener("keydown", pressed);
}

function chosen() {
  const name = by("choice").value;
  notice("");
  history.replaceState(null, "", "#" + encodeURIComponent(name));
  chooseText(name);
}

async function begin() {
  document.querySelectorAll("#views .of-run").forEach(part => part.remove());
  if (!await program.load().then(() => true, () => false)) { say(NO_ENGINE, true); return; }
  data = {...called(), steps: []};
  examples = facts.texts.map(withText);
  fillChoice();
  listen();
  fromAddress();
}
begin();
