// The state of a run after a step, read off the machine that the module's run hands back: its frames and its registers. What a step did
// is the instruction that is there before it. It is told as a page of class/step has it.
"use strict";
const LINE_VECTORS = [32, 48], USER_BIT = 2, EXEC_BIT = 16, FIELDS = {a: 20, b: 16, c: 12};
const linesOf = bytes => decoder.decode(bytes).split("\n").slice(0, -1);
const finished = steps => steps.next().value;          // of a walk that has to ask nobody

// The machine of an image after `count` steps: its words, one frame after the other, its lines by their steps, and what runs
function machineAfter(engine, image, count, seed) {
  const lines = linesOf(run(engine, "run " + count + " " + seed, image).bytes);
  const [frames, cpus] = lines[0].split(" ").slice(1, 3).map(Number), told = lines.slice(1, -1);
  const running = told.reduce(runsAfterTurn, [ROOT, ...Array(cpus - 1).fill(0)]);
  const registers = running.map((name, cpu) => name ? upTo(REGISTERS).map(r => engine.register(cpu, r)) : null);
  return {count, frames, words: engine.frames(frames), running, registers, last: told[told.length - 1] || ""};
}

// What runs after a line of a trace: `STEP CPU .. switch F T V`, `STEP CPU park F V`, or another one
function runsAfterTurn(running, line) {
  const words = line.split(" "), change = words.indexOf("switch"), cpu = Number(words[1]);
  if (change < 0 && words[2] !== "park") return running;
  return Object.assign([...running], {[cpu]: change < 0 ? 0 : Number(words[change + 2])});
}

function stateOfMachine({frames, words, running, registers}) {
  const looker = new Looker(function* (frame, indexes) { return indexes.map(index => words[WORDS * frame + index]); });
  const tree = finished(partitions(looker)), seen = new Map();
  for (let at = 0; at < words.length; at++) {
    if (!words[at]) continue;
    const frame = Math.floor(at / WORDS), kept = seen.get(frame) || new Map();
    seen.set(frame, kept.set(at % WORDS, words[at]));
  }
  const hidden = configuration(tree), looked = new Set(upTo(frames).filter(frame => !hidden.has(frame)));
  return {frames, tree, words: seen, cpus: running.map((name, cpu) => [name, registers[cpu]]), looked};
}

// The processors of the first steps by a seed, of which the last one
function processorOf(seed, step, cpus) {
  let s = seed;
  for (let k = 0; k <= step; k++) { s ^= s << 13; s ^= s >>> 17; s ^= s << 5; }
  return (s >>> 0) % cpus;
}

// The machine after `count` steps, and its state, which `known` may have
function stateAt(engine, image, count, seed, known) {
  const key = [count, seed].join(" ");
  if (known.image !== image) Object.assign(known, {image, states: new Map()});
  if (!known.states.has(key)) {
    const machine = machineAfter(engine, image, count, seed);
    known.states.set(key, {machine, state: stateOfMachine(machine)});
  }
  return {key, ...known.states.get(key)};
}

// The data of the state after `count` steps, with the one before it. `known` keeps the one before, for the next step
function stateOfRun(engine, text, image, count, seed, chosen, known) {
  const told = [], states = (count ? [count - 1, count] : [0]).map(at => stateAt(engine, image, at, seed, known));
  known.states = new Map(states.map(({key, machine, state}) => [key, {machine, state}]));
  if (count) told.push(head(count - 1), {...head(count), ...turn(states, text, seed)});
  else told.push(head(0));
  return dataOf(states.map(({state}) => state), told, chosen);
}

const head = count => ({place: count, told: count ? "after step " + (count - 1) : "the beginning", answer: "", remarks: [], did: ""});

// A step: its line, what it did, and the line of the text that it is from
function turn([{machine: before, state}, {machine: now}], text, seed) {
  const step = before.count, cpu = processorOf(seed, step, before.running.length), name = before.running[cpu];
  const line = now.last.split(" "), answer = Number(line[0]) === step && now.last ? line.slice(1).join(" ") : "";
  const fetched = name && !isLine(answer) ? fetchedAt(before, state.tree, name, before.registers[cpu][16]) : null;
  const told = {told: "step " + step, answer};
  if (!fetched) return {...told, did: "processor " + cpu + ": " + withoutInstruction(answer)};
  const source = sourceAt(text, state.tree, fetched), where = source.label ? " " + source.label : "";
  return {...told, did: "processor " + cpu + ", partition " + name + ", " + hexOf(before.registers[cpu][16]) + where + ": " + instructionText(fetched.word),
    line: source.place, remarks: source.place ? ["line " + source.place + " of the text"] : []};
}

// Whether a step's line says that an interrupt line was taken
function isLine(answer) {
  const words = answer.split(" "), vector = Number(words[words.length - 1]);
  return ["switch", "park"].includes(words[1]) && vector >= LINE_VECTORS[0] && vector < LINE_VECTORS[1];
}
const withoutInstruction = answer => !answer ? "idle" : isLine(answer) ? "a line is taken" : "the fetch faults";

// The word that a partition fetches at an address, with its frame and index; null where the fetch faults
function fetchedAt({words}, tree, name, pc) {
  const row = tree.find(x => x.name === name).rows.find(row => row[0] === frameIn(pc));
  if (!row || pc % 4 || (row[1] & (USER_BIT | EXEC_BIT)) !== (USER_BIT | EXEC_BIT)) return null;
  const frame = frameIn(row[1]), index = pc % FRAME / 4;
  return {frame, index, word: words[WORDS * frame + index]};
}

// Instructions

function instructionText(word) {
  const kind = facts.assembly.kinds[word >>> 24], none = hexOf(word) + ", which is no instruction";
  if (!kind) return none;
  const [name, form, least, most] = kind;
  const values = form.map(operand => operand in FIELDS ? word >>> FIELDS[operand] & 15 : operand === "signed" ? word << 16 >> 16 : word & 0xffff);
  const last = form[form.length - 1], value = values[values.length - 1];
  const bits = form.reduce((sum, operand, k) => sum + (operand in FIELDS ? values[k] * 2 ** FIELDS[operand] : values[k] & 0xffff), (word >>> 24) * 2 ** 24);
  if (bits !== word || !(last in FIELDS) && (value < least || value > most)) return none;
  return [name, ...form.map((operand, k) => operand in FIELDS ? "r" + values[k] : String(values[k]))].join(" ");
}

// Names and places of the text

// Of each page of a text by its address: what its words are from, and where its names are
function pagesOf(text) {
  const pages = new Map();
  let page = null, at = 0;
  text.split("\n").forEach((line, k) => {
    const [name, ...operands] = line.split(" ");
    if (line === "" || line[0] === "#") return;
    if (name === ".page") {
      at = 0;
      page = {places: [], labels: []};
      pages.set(frameIn(Number(operands[0])), page);
    } else if (page && name.endsWith(":")) page.labels.push([at, name.slice(0, -1)]);
    else if (page && name === ".zero") at += Number(operands[0]);
    else if (page) page.places[at++] = k + 1;
  });
  return pages;
}

// Where the machine has the first word of the text that is from `line` or one below it; null where there is none
function placeOf(engine, {text, image, seed}, line, known) {
  const {tree: [root]} = stateAt(engine, image, 0, Number(seed), known).state;
  const found = [...pagesOf(text)].flatMap(([page, {places}]) => places.map((place, index) => ({page, index, line: place})));
  const [first] = found.filter(place => place.line >= line).sort((a, b) => a.line - b.line);
  const row = first && root.rows.find(row => row[0] === first.page);
  return row ? {frame: frameIn(row[1]), ...first} : null;
}

// The line that a word of a frame is from, and the nearest name at or before it: the root has the text's pages where the text has them
function sourceAt(text, [root], {frame, index}) {
  const row = root.rows.find(row => frameIn(row[1]) === frame), page = row && pagesOf(text).get(row[0]);
  if (!page) return {};
  const before = page.labels.filter(([at]) => at <= index).sort(([a, x], [b, y]) => a - b || (x < y ? -1 : 1));
  const [at, label] = before[before.length - 1] || [];
  return {place: page.places[index], label: label && label + (index > at ? "+" + (index - at) : "")};
}
