// What is said of the text, and the rows beside it: the answers to the lines of a script, or the lines of a run.
"use strict";
const NEAR = 5, MORE = 10;       // rows above those in view, and more than are in view
const NOTHING = {lines: [], answers: [], answered: [], why: null, run: null};   // `answered` are the lines that have an answer
const USAGE = 1, COUNTS = "a run has 0 to 10000000 steps, and a seed from 1 to 4294967295";
let shown = NOTHING;
let ended = ["", false];                                // what was said of the text
let typed = null;                                       // the line in which something was typed last

function say(text, isRefused = false) {
  fill("status", text);
  by("status").classList.toggle("refused", isRefused);
}
function sayStatus(status, more = "") {
  ended = [status === USAGE ? COUNTS : "status " + status + ": " + facts.ends[status] + more, status !== 0];
  if (isPart()) ended = ["the judge runs these lines, on a machine of its own", false];
  else if (isHalfTyped()) ended = ["line " + typed + " isn't whole yet: " + shown.why.here, false];
  say(...ended);
}

// Whether the bad line is the one that is being typed: nothing is red until the cursor leaves it
const isHalfTyped = (why = shown.why) => why !== null && why.place === typed && cursorLine() === typed;

function explain() { fill("why", ...(shown.why && !isHalfTyped() ? whyOf(shown.why) : [])); }

const rowHeight = () => parseFloat(getComputedStyle(by("text")).lineHeight);
const cursorLine = () => by("text").value.slice(0, by("text").selectionStart).split("\n").length;

// Of a row of a run: after how many steps the state is that it leads to; null for its first and last line
const countAfter = row => /^\d/.test(row) ? Number(row.split(" ")[0]) + 1 : null;

// The place among the lines with an answer of the one at the cursor: the last one up to there, or the first
function answeredHere() {
  const line = cursorLine(), next = shown.answered.findIndex(answered => answered > line);
  return Math.max(0, (next < 0 ? shown.answered.length : next) - 1);
}

// The row of the state that is shown: the one at the cursor, or the last one up to the chosen step
function rowHere() {
  if (!shown.run) return shown.answered.length ? shown.answered[answeredHere()] - 1 : -1;
  return shown.run.findLastIndex(row => countAfter(row) !== null && countAfter(row) <= chosenCount());
}

function rowOf(k, here) {
  const line = shown.run ? null : shown.lines[k] || "", answer = shown.run ? shown.run[k] : shown.answers[k] || "";
  const isBad = !shown.run && shown.why !== null && shown.why.place === k + 1 && !isHalfTyped(), text = isBad ? "bad line " + (k + 1) : answer;
  const said = answer ? means(line, answer) : "", brief = k === here ? said : answer ? means(line, answer, true) : "";
  const made = make("div.row", make("span.at", !shown.run && text ? (k + 1) + ": " : ""), make("b", text), make("span.means", brief ? "   " + brief : ""));
  made.classList.toggle("here", k === here);
  made.classList.toggle("bad", isBad);
  made.classList.toggle("refused", isBad || /(^|\s)(reply [1-9]|park)/.test(answer));
  made.title = said;
  made.dataset.row = k;
  return made;
}

// The numbers of that many lines, with room below them for a bar to scroll by
function drawNumbers(count) {
  if (by("numbers").dataset.count === String(count)) return;
  by("numbers").dataset.count = count;
  fill("numbers", Array.from({length: count}, (_, k) => k + 1).join("\n") + "\n\n");
}

// The rows that are in view alone
function drawRows(isNew) {
  const height = rowHeight(), view = by("answers"), count = shown.run ? shown.run.length : by("text").value.split("\n").length;
  if (isNew) {
    by("rows").style.height = count * height + "px";
    drawNumbers(by("text").value.split("\n").length);
  }
  const first = Math.max(0, Math.floor(view.scrollTop / height) - NEAR), here = rowHere();
  const last = Math.min(count, first + Math.ceil(view.clientHeight / height) + MORE);
  fill("rows", ...Array.from({length: Math.max(0, last - first)}, (_, k) => {
    const row = rowOf(first + k, here);
    row.style.top = (first + k) * height + "px";
    return row;
  }));
}

// Brings a line of the text, or a row beside it, into view
function bringIntoView(id, line) {
  const height = rowHeight(), view = by(id), top = (line - 1) * height;
  if (top < view.scrollTop || top + 2 * height > view.scrollTop + view.clientHeight) view.scrollTop = Math.max(0, top - view.clientHeight / 2);
}

// The row of the state, which may have several lines, in view whole
function showRow() {
  if (!shown.run && areBeside()) return;
  bringIntoView("answers", rowHere() + 1);
  drawRows(false);
  const row = document.querySelector(".row.here"), view = by("answers");
  if (row && row.offsetTop + row.offsetHeight > view.scrollTop + view.clientHeight) view.scrollTop = row.offsetTop;
}

const areBeside = () => by("text").offsetTop === by("answers").offsetTop;

// Marks a line of the text, or none
function mark(line) {
  by("text").style.setProperty("--line", line === null ? -2 : line);
  by("text").dataset.marked = line === null ? "" : line;
}

// Text and numbers scroll together, and answers that are beside the text; a run's lines are no lines of the text
function scrolled(from) {
  const to = from === "text" ? "answers" : "text", top = by(from).scrollTop;
  if (!shown.run && areBeside() && Math.abs(by(to).scrollTop - top) > 1) by(to).scrollTop = top;
  by("numbers").scrollTop = by("text").scrollTop;
  drawRows(false);
}
