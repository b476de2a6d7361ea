// What is said of a text in sentences: why a line is refused, an exercise's task, and what the judge found.
"use strict";

// The code between backticks as elements
const withCode = text => text.split("`").map((part, k) => k % 2 ? make("code", part) : part);

// Why a line is refused, `skip` lines before it left out, as paragraphs: what is there, the rule, what to do
function whyOf(why, skip = 0) {
  const place = "line " + (why.place - skip) + (why.column === null ? "" : ", column " + why.column);
  const told = [["", place + ": " + why.here], ["rule: ", why.rule], ["what to do: ", why.act]];
  return told.filter(([, text]) => text).map(([head, text]) => make("p", head, ...withCode(text)));
}

// The paragraphs of a task, with code and what is stressed
function taskOf(text) {
  const stressed = part => part.split("**").flatMap((piece, k) => k % 2 ? make("b", piece) : piece.split("*").map((word, j) => j % 2 ? make("i", word) : word));
  const inside = text => withCode(text).flatMap(part => typeof part === "string" ? stressed(part) : [part]);
  return text.split("\n\n").map(part => make("p", ...inside(part)));
}

// What was refused or parked: of a script line, text and answer, of a run step, processor, partition, address and line
function troubleText(parts) {
  if (parts.length === 3) return "line " + parts[0] + ": " + parts[1] + " \u2192 " + parts[2] + " (" + means(parts[1], parts[2]) + ")";
  const [step, cpu, partition, , line] = parts;
  return "step " + step + ": processor " + cpu + ", partition " + partition + ": " + line + " (" + means(null, line) + ")";
}

const reachedOf = told => (told.goals || []).filter(({good}) => good).length;
const areAllReached = told => told.goals.length > 0 && reachedOf(told) === told.goals.length;

// A verdict in one line
function headOf(told) {
  return told.cant || (told.refused ? "line " + told.refused + " is refused" : reachedOf(told) + " of " + told.goals.length + " goals are reached");
}

// And the rest of it, as elements: of the goals that are missing the first has a hint
function verdictOf(told) {
  if (told.cant) return [];
  if (told.refused) return whyOf(told.why);
  const first = told.goals.find(({good}) => !good), more = told.more ? ["and " + told.more + " more"] : [];
  const rows = told.goals.map(goal => make("li." + (goal.good ? "reached" : "missing"), make("b", goal.good ? "yes" : "no"), " " + goal.told,
    ...(goal === first ? [make("p", "hint: " + goal.hint)] : [])));
  const remarks = [...told.remarks, ...(told.trouble.length ? ["what was refused or parked:"] : []), ...told.trouble.map(troubleText), ...more];
  return [make("ul", ...rows), ...remarks.map(remark => make("p", remark))];
}
