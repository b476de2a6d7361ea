// Works for the page beside it, so that no text makes it wait: answers, the state at the cursor, what is wrong with a bad line.
"use strict";
const MOST_SHOWN = 1 << 18;                        // bytes of a text whose lines are shown one by one
const MOST_LINES = 50000;                          // of a run
const PIECE = 1 << 20;                             // bytes after which it says how far it is
const known = {}, knownOfRun = {};                 // the state before the line at the cursor, or before the step
const MOST_OUT = 1 << 19;                          // bytes of what one command of a session writes
let engine = null, facts = null, files = null, kept = null, made = null;

const tell = (id, told) => postMessage({id, ...told});

function script({id, text, line, frame, isBrief}) {
  let next = PIECE;
  const input = typeof text === "string" ? encoder.encode(text) : text;
  if (text !== undefined) {
    const done = run(engine, "script", input, count => {
      if (count < next) return;
      next += PIECE;
      tell(id, {part: "progress", count, all: input.length});
    });
    kept = input.length > MOST_SHOWN ? {large: done} : {beside: answersBeside(input, done)};
    if (kept.beside) tell(id, {part: "answers", ...shownOf(kept.beside)});
  }
  if (isBrief) return {part: "done"};
  return kept.large ? largeOf(kept.large) : {part: "state", ...stateOf(kept.beside, line, frame)};
}

function shownOf({lines, answers, bad, status}) {
  return {answers, status, why: bad === null ? null : explained(lines, bad)};
}

function largeOf({status, bytes}) {
  return {part: "large", status, bytes, count: bytes.reduce((sum, byte) => sum + (byte === 10), 0)};
}

// The state of the last line up to `line` that has an answer, or of the first one
function stateOf(beside, line, frame) {
  const k = Math.max(0, beside.answered.filter(place => place <= line).length - 1);
  return {state: beside.answered.length ? stateAfter(engine, beside, k, frame, known) : null};
}

// A text that is assembled and run, and the state after `count` of its steps, or after all
function assembly({id, text, steps, seed, count, frame, isBrief}) {
  if (text !== undefined) {
    made = {text, seed, ...assembled(text, steps, seed)};
    const {image, status, lines, why} = made;
    tell(id, {part: "run", image, status, why, count: made.count, lines: lines.slice(0, MOST_LINES), more: Math.max(0, lines.length - MOST_LINES)});
  }
  if (isBrief) return {part: "done"};
  const ran = made.status === 0 && made.image;
  return {part: "state", state: ran ? stateOfRun(engine, made.text, made.image, count === null ? made.count : count, Number(seed), frame, knownOfRun) : null};
}

function assembled(text, steps, seed) {
  const done = run(engine, "asm", encoder.encode(text)), found = /bad line (\d+) (\w+)\n$/.exec(decoder.decode(done.bytes));
  const why = found && explained(linesOfText(text), Number(found[1]), found[2]);
  if (done.status) return {image: null, status: done.status, lines: [], count: 0, why};
  const ran = run(engine, "run " + steps + " " + seed, done.bytes);
  return {image: done.bytes, status: ran.status, lines: linesOf(ran.bytes), count: Number(steps), why: null};
}

// After how many steps, more than `from`, the line has run that is at `line` or next below it
function reach({line, from}) {
  const place = made && made.image ? placeOf(engine, made, line, knownOfRun) : null;
  const step = place && engine.reach(made.image, Number(made.seed), from, made.count, place.frame, place.index);
  return {part: "reach", line: place && place.line, count: place && step >= 0 ? step + 1 : null};
}

// The names of the examples whose answers or traces aren't those that they have beside them
function check({examples}) {
  const differ = examples.filter(({kind, text, words, out}) => {
    const input = encoder.encode(text), given = kind === "script" ? input : run(engine, "asm", input).bytes;
    return decoder.decode(run(engine, words, given).bytes) !== out;
  });
  return {part: "check", count: examples.length, differ: differ.map(({name}) => name)};
}

// What a text reaches of an exercise; a text that is refused is explained
function judgeWork({name, text, seed}) {
  const found = judged(engine, name, text, seed);
  if (found.refused) found.why = explained(linesOfText(text), found.refused, found.kind);
  return {part: "judge", ...found};
}

const retell = ({name, text, seed}) => ({part: "retell", name, text: retold(engine, name, text, seed)});

// What each command writes, after those before it, and why one can't run here
function session({files: own, before, commands}) {
  const shell = new Shell({...files, ...own}), found = before.map(command => written(shell, command)).find(({failed}) => failed);
  return {part: "session", outs: commands.map(command => found || written(shell, command))};
}

function written(shell, command) {
  try {
    return {lines: linesIn(shell.command(command).subarray(0, MOST_OUT)), failed: ""};
  } catch (failed) {
    if (!(failed instanceof CannotRun)) throw failed;
    return {lines: [], failed: failed.message};
  }
}

const acts = {script, assembly, session, reach, check, judge: judgeWork, retell};
onmessage = ({data}) => {
  if (data.act === "begin") {
    engine = new Engine(data.module);
    [facts, files] = [data.facts, data.files];
    return;
  }
  try {
    tell(data.id, acts[data.act](data));
  } catch (error) {
    tell(data.id, {part: "failed", why: String(error)});
  }
};
