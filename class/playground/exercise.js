// The exercises, by the judge of the module: class/judge/src/lib.rs says which lines a request and an answer have.
"use strict";

// Takes a verdict apart: goals, remarks, and what was refused or parked, of which the page says what it means
function judged(engine, name, text, seed) {
  const found = {name, goals: [], remarks: [], trouble: [], more: 0};
  const secret = Array.from(crypto.getRandomValues(new Uint8Array(8)), byte => byte.toString(16).padStart(2, "0")).join("");
  const takes = {
    yes: told => found.goals.push({told, good: true, hint: ""}), no: told => found.goals.push({told, good: false, hint: ""}),
    hint: told => { found.goals[found.goals.length - 1].hint = told; }, say: told => found.remarks.push(told),
    trouble: told => found.trouble.push(told.split("\t")), more: told => { found.more = Number(told); },
    cant: told => { found.cant = told; }, refused: told => { [found.refused, found.kind] = [Number(told.split(" ")[0]), told.split(" ")[1]]; },
  };
  for (const line of engine.judge(["judge", name, ofStudent(seed), secret, text].join("\n")).split("\n").filter(line => line)) {
    const at = line.indexOf(" ");
    takes[line.slice(0, at)](line.slice(at + 1));
  }
  return found;
}

// An exercise's text with the numbers of a seed in the place of the usual ones
const retold = (engine, name, text, seed) => engine.judge(["tell", name, ofStudent(seed), "", text].join("\n"));

// A name as the tools have it: an accent is a part of its letter
const ofStudent = name => name.normalize("NFC");
