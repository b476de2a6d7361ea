// The buttons that step: among the lines of a script that have an answer, or among the steps of a run.
"use strict";

// After how many steps of a run the state is shown: without a choice, after all
const chosenCount = () => valueOf("count") === "" ? shown.count : Math.max(0, Math.min(shown.count, Number(valueOf("count")) || 0));

function chooseCount(count) {
  if (!shown.run || large) return;
  by("count").value = Math.max(0, Math.min(shown.count, count));
  act();
}

function chooseLine(line) {
  const at = by("text").value.split("\n").slice(0, line).join("\n").length;
  by("text").setSelectionRange(at, at);
  bringIntoView("text", line);
  typed = null;
  cursorMoved();
}

// To the state that is `by` further on
function stepBy(by) {
  if (shown.run) { chooseCount(chosenCount() + by); return; }
  const lines = shown.answered, line = lines[Math.max(0, Math.min(lines.length - 1, answeredHere() + by))];
  if (line) chooseLine(line);
}

// The next row of a run below or above the one that is shown
function nextRow(by) {
  const row = shown.run[Math.max(1, rowHere() + by)];
  if (row !== undefined && countAfter(row) !== null) chooseCount(countAfter(row));
}

function clickedRow(event) {
  const row = event.target.closest(".row");
  if (!row || large) return;
  if (!shown.run) chooseLine(Number(row.dataset.row) + 1);
  else if (countAfter(shown.run[row.dataset.row]) !== null) chooseCount(countAfter(shown.run[row.dataset.row]));
}

// On to the next step that runs the line at the cursor
const reach = () => ask({act: "reach", line: cursorLine(), from: chosenCount()});
function reached({count, line}) {
  if (count === null) say(line === null ? "no line from the cursor on is run" : "no later step runs line " + line);
  else chooseCount(count);
}

// Which buttons there are, and where the state is among the others
function drawSteps() {
  const lines = shown.answered, here = shown.run ? chosenCount() : answeredHere(), last = shown.run ? shown.count : lines.length - 1;
  by("first").disabled = by("back").disabled = large || here <= 0;
  by("on").disabled = by("last").disabled = large || here >= last;
  by("reach").disabled = large || !shown.image || here >= last;
  fill("at", lines.length ? "line " + lines[here] + ", answer " + (here + 1) + " of " + lines.length : "");
}

// The line of the text that was answered or run, in view and marked
function markState() {
  const now = data.steps[data.steps.length - 1], line = isRun() ? now.line || null : now.place;
  mark(line);
  if (isRun() && line) bringIntoView("text", line);
  showRow();
}
