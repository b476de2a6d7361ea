// What answers mean, as tools/common/meanings.py says it, with the arguments of a call by name, and in a word also of an answer that says
// all itself. `facts` has the words of docs/FORMATS.md.
"use strict";
const LINES = [32, 48], TOLD_VECTORS = [6, 14, 17];
const DONE = {st: "the word is stored", sb: "the byte is stored", raise: "the line is pending", pc: "the pc is set", poll: "no line is taken"};
const SHOWN = {
  ld: ([, at]) => "the word at " + at, lb: ([, at]) => "the byte at " + at, fetch: () => "the word at the pc",
  peek: ([frame, index]) => "word " + index + " of frame " + frame, reg: ([cpu, number]) => (number === "16" ? "the pc" : "r" + number) + " on processor " + cpu,
};

const statusText = status => status ? facts.statuses[status].join(": ") : facts.statuses[0][0];
function vectorText(vector) {
  if (vector >= LINES[0] && vector < LINES[1]) return "vector " + vector + ", interrupt line " + (vector - LINES[0]);
  return "vector " + vector + (TOLD_VECTORS.includes(vector) ? ": " + facts.vectors[vector] : "");
}

// What an answer means, with the call of its line, which is null for a line of a run; in short without the call's arguments
function means(line, answer, isShort = false) {
  const words = answer.split(" "), asked = line === null ? [""] : line.split(" "), at = words.indexOf("call");
  const call = asked[0] === "call" ? Number(asked[2]) : at < 0 ? null : Number(words[at + 1]);
  const given = asked[0] === "call" && !isShort ? asked.slice(3).map(Number) : null;
  const made = call === null ? "" : (data.calls[call] ? callWith(call, given) : "call " + call) + ": ";
  const reply = words.indexOf("reply"), change = words.indexOf("switch");
  if (reply >= 0) return made + statusText(Number(words[reply + 1]));
  if (change >= 0) {
    const [from, to, vector] = words.slice(change + 1).map(Number);
    return made + "from " + (from ? "partition " + from : "an idle processor") + " to partition " + to + ", " + vectorText(vector);
  }
  if (words.includes("park")) return vectorText(Number(words[words.length - 1])) + "; nobody takes it, and nothing runs there any more";
  return line === null ? ofTrace(words) : ofLine(asked, words);
}

const decimal = word => Number(word) > 9 ? ", " + Number(word) : "";

// Bits of a word of a page table: those that are 0, and those that each one has
const NO_BITS = 0xfe0, EACH_ROW = 5;

// What a word of a frame is as one of a page table, where it can be one
function tableWord(word) {
  const row = Number(word), frame = Math.floor(row / 4096);
  if (!frame || row & NO_BITS || (row & EACH_ROW) !== EACH_ROW) return "";
  return "; in a page table: frame " + frame + ", " + rightsOf([0, row]) + ", " + (row & 2 ? "visible" : "hidden");
}

function ofLine([name, ...given], [answer, ...numbers]) {
  if (answer === "boot") return "a machine of " + counted(numbers[0], "frame") + " and " + counted(numbers[1], "processor") + "; the root runs on processor 0";
  if (answer === "idle") return "nothing runs there";
  if (answer === "none") return "there is no such word";
  if (answer === "done") return DONE[name] || "";
  return SHOWN[name] ? SHOWN[name](given) + (name === "peek" && tableWord(answer) || decimal(answer)) : "";
}

function ofTrace([first, ...words]) {
  if (first === "image") return [[0, "frame"], [1, "processor"], [2, "plan"], [3, "page"]].map(([k, what]) => counted(words[k], what)).join(", ");
  if (first === "end") return counted(words[0], "step") + (words[0] === "1" ? " was" : " were") + " made";
  return words[1] === "out" ? "the word is shown" + decimal(words[2]) : "";
}
