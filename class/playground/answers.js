// A script with its answers: which line has which, and the state after one of them.
"use strict";
const LONGEST = 120;                               // bytes of a line; a longer one is bad, even as a remark

// The lines of a text, the last of which needs no newline
function linesOfText(text) {
  const lines = text.split("\n");
  return lines[lines.length - 1] === "" ? lines.slice(0, -1) : lines;
}

// The lines, and of each its answer, or none. `answered` are the places of lines with an answer, from 1 on, of which a bad line has none.
function answersBeside(input, done) {
  const lines = linesOfText(decoder.decode(input)), answers = decoder.decode(done.bytes).split("\n").slice(0, -1);
  const found = /^bad line (\d+)$/.exec(answers[answers.length - 1] || ""), bad = found ? Number(found[1]) : null;
  if (found) answers.pop();
  const given = Array(lines.length).fill(""), answered = [];
  for (let at = 0; at < lines.length && answered.length < answers.length; at++) {
    if (isBlank(lines[at])) continue;
    given[at] = answers[answered.length];
    answered.push(at + 1);
  }
  return {lines, answers: given, answered, bad, status: done.status, frames: answers.length ? Number(answers[0].split(" ")[1]) : 0};
}

// The data of the state after answer `k`, with the one before it; null where the program doesn't tell it
function stateAfter(engine, {lines, answers, answered}, k, chosen, known) {
  const place = answered[k], pairs = answered.slice(0, k + 1).map(at => [lines[at - 1], answers[at - 1]]);
  const states = converse(engine, statesAt(lines, place, pairs, chosen, known));
  return states && dataOf(states, [k - 1, k].filter(at => at >= 0).map(at => told(lines, answers, answered, at)), chosen);
}

// A line with its answer, and the remarks above it
function told(lines, answers, answered, k) {
  const place = answered[k], above = lines.slice(k ? answered[k - 1] : 0, place - 1);
  return {place, told: lines[place - 1], answer: answers[place - 1],
    remarks: above.filter(line => line).map(line => line.replace(/^[# ]+/, ""))};
}
