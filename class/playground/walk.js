// The state of a machine after a line, read off its frames by `peek` and `reg` lines. It is told as a page of class/step has it, whose
// walk.py and states.py find the same.
"use strict";
const ROOT = 1, WORDS = 1024, FRAME = 4096, SLOTS = 170, REGISTERS = 17;
const HANDLERS = 0xfffff000, SAVED_IN = 63, NOWHERE = 256, MOST_TOLD = 16;
const CHANGING = [0, 1, 3, 4, 5, 6];               // the calls that change more of a tree than a mask
const hexOf = word => "0x" + word.toString(16).padStart(8, "0");
const frameIn = word => Math.floor(word / FRAME);
const upTo = count => Array.from({length: count}, (_, k) => k);

// The words of a frame at some indexes, by lines of a script
function* peeked(frame, indexes) {
  const told = yield indexes.map(index => "peek " + frame + " " + index + "\n").join("");
  return indexes.map((_, k) => parseInt(told.substr(11 * k + 2, 8), 16));
}

// Looks at words, and keeps those that it saw and that aren't 0: of each frame a map by index.
class Looker {
  constructor(look = peeked) {
    this.look = look;
    this.seen = new Map();
  }

  *words(frame, indexes) {
    if (!indexes.length) return [];
    const found = yield* this.look(frame, indexes), kept = this.seen.get(frame) || new Map();
    found.forEach((word, k) => { if (word) kept.set(indexes[k], word); });
    this.seen.set(frame, kept);
    return found;
  }

  // The indexes of a frame's words that aren't 0, with these words
  *filled(frame) {
    const words = yield* this.words(frame, upTo(WORDS));
    return upTo(WORDS).filter(index => words[index]).map(index => [index, words[index]]);
  }
}

// All partitions: each before its children, and these by their addresses
function* partitions(looker) {
  const found = [], waiting = [[ROOT, 0]];
  while (waiting.length) {
    const [name, depth] = waiting.pop();
    const made = yield* partition(looker, name, depth);
    found.push(made);
    const born = made.rows.filter(row => row[2] % FRAME === 1).sort((a, b) => b[2] - a[2]);
    waiting.push(...born.map(row => [frameIn(row[1]), depth + 1]));
  }
  return found;
}

function* partition(looker, name, depth) {
  const words = yield* looker.words(name, upTo(16));
  const directories = [words[3], words[5], words[7]], tables = {}, rows = [];
  for (const [index, entry] of yield* looker.filled(directories[0])) {
    const [first] = yield* looker.words(directories[1], [index]), [second] = yield* looker.words(directories[2], [index]);
    const entries = [entry, first, second];
    tables[index] = [entries.map(frameIn), entries];
    rows.push(...yield* tableRows(looker, index, tables[index][0]));
  }
  const lists = yield* listPages(looker, words[9], words[12]);
  return {name, up: words[11], depth, born: words[0], masked: words[14] % 2, pending: words[15], directories, lists, tables, rows};
}

function* tableRows(looker, index, frames) {
  const leaves = yield* looker.filled(frames[0]), places = leaves.map(([place]) => place);
  const first = yield* looker.words(frames[1], places), second = yield* looker.words(frames[2], places);
  return leaves.map(([place, word], k) => [WORDS * index + place, word, first[k], second[k]]);
}

function* listPages(looker, page, tables) {
  const found = [];
  while (page) {
    found.push(page);
    const slots = Math.min(Math.max(tables - SLOTS * (found.length - 1), 0), SLOTS);
    [page] = yield* looker.words(page, upTo(2 + 6 * slots));
  }
  return found;
}

// The same partitions, whose descriptors alone are looked at again: masks and lines may have changed
function* again(looker, before) {
  const tree = [];
  for (const x of before.tree) {
    const words = yield* looker.words(x.name, upTo(16)), masked = words[14] % 2, pending = words[15];
    tree.push(x.masked === masked && x.pending === pending ? x : {...x, masked, pending});
  }
  return {tree, words: new Map([...before.words, ...looker.seen])};
}

// What each frame is: runs of a kind, a partition, and how many frames
function grid(frames, tree) {
  const kinds = Array.from({length: frames}, () => ["none", 0]);
  for (const x of tree) for (const row of x.rows) kinds[frameIn(row[1])] = ["user", x.name];
  for (const x of tree) {
    kinds[x.name] = ["descriptor", x.name];
    x.directories.forEach(frame => { kinds[frame] = ["directory", x.name]; });
    x.lists.forEach(frame => { kinds[frame] = ["list", x.name]; });
    for (const [of] of Object.values(x.tables)) of.forEach((frame, k) => { kinds[frame] = [["table", "first", "second"][k], x.name]; });
  }
  const found = [];
  for (const [kind, name] of kinds) {
    const last = found[found.length - 1];
    if (last && last[0] === kind && last[1] === name) last[2] += 1; else found.push([kind, name, 1]);
  }
  return found;
}

// What runs

const isBlank = line => line === "" || line[0] === "#";

// Whether a line can have changed a page table: no access and no refused call ever does, nor a yield
function mayChange(line, answer) {
  const words = line.split(" ");
  return words[0] === "boot" || words[0] === "call" && CHANGING.includes(Number(words[2])) && answer.startsWith("reply 0");
}

// What runs on each processor after a line, by its answer
function runsAfter(running, line, answer) {
  const words = answer.split(" "), cpu = Number(line.split(" ")[1]);
  if (words[0] === "boot") return [ROOT, ...Array(Number(words[2]) - 1).fill(0)];
  if (words[0] !== "switch" && words[0] !== "park") return running;
  const after = [...running];
  after[cpu] = words[0] === "switch" ? Number(words[2]) : 0;
  return after;
}

function ranOn(running, words) {
  return ["boot", "raise", "peek"].includes(words[0]) ? 0 : running[Number(words[1])];
}

function* registers(cpu) {
  const told = (yield upTo(REGISTERS).map(k => "reg " + cpu + " " + k + "\n").join("")).trimEnd().split("\n");
  return told[0] === "idle" ? null : told.map(word => parseInt(word, 16));
}

// Words of frames that are no configuration

// The frames in which the kernel keeps its partitions
function configuration(tree) {
  const found = new Set();
  for (const x of tree) {
    for (const frame of [x.name, ...x.directories, ...x.lists, ...Object.values(x.tables).flatMap(([frames]) => frames)]) found.add(frame);
  }
  return found;
}

function frameAt(tree, name, address) {
  const row = tree.filter(x => x.name === name).flatMap(x => x.rows).find(row => row[0] === frameIn(address));
  return row ? frameIn(row[1]) : null;
}

// The frame to which a line can have written without a call: by a store, and by saving what ran
function* touchedBy(looker, line, answer, running, tree) {
  const [name, ...words] = line.split(" "), numbers = words.map(Number), ran = ranOn(running, line.split(" "));
  if ((name === "st" || name === "sb") && answer === "done") return frameAt(tree, ran, numbers[1]);
  const vector = name === "call" ? numbers[4] || 0 : SAVED_IN, entries = frameAt(tree, ran, HANDLERS);
  if (!ran || !/^(switch|park)/.test(answer) || vector >= NOWHERE || entries === null) return null;
  const [block] = yield* looker.words(entries, [vector]);
  return frameAt(tree, ran, block);
}

// States

// The state of a machine: its tree, the words that were seen, and what runs. The tables are those of the state before, where it is given.
function* stateNow(running, frames, before) {
  const looker = new Looker();
  const seen = before ? yield* again(looker, before) : {tree: yield* partitions(looker), words: looker.seen};
  const cpus = [];
  for (const [cpu, name] of running.entries()) cpus.push([name, yield* registers(cpu)]);
  return {...seen, frames, cpus, looked: new Set()};
}

// Looks at all words of frames that are no configuration, and keeps them in the state
function* lookInto(state, frames) {
  const hidden = configuration(state.tree), looker = new Looker();
  for (const frame of frames) {
    if (frame === null || frame >= state.frames || hidden.has(frame) || state.looked.has(frame)) continue;
    yield* looker.filled(frame);
    state.looked.add(frame);
  }
  state.words = new Map([...state.words, ...looker.seen]);
}

// Says the lines before `place`, and then that one: the states before it and after it, or one of them where the machine begins there.
// `answered` are the pairs of lines and answers up to there; of the chosen frame all words are seen. `known` keeps the state before, for
// another line in that place.
function* statesAt(lines, place, answered, chosen, known) {
  const line = lines[place - 1], said = lines.slice(0, place - 1).map(text => text + "\n").join("");
  const last = answered.length - 1, answer = answered[last][1], frames = Number(answered[0][1].split(" ")[1]);
  const running = answered.slice(0, last).reduce((running, pair) => runsAfter(running, ...pair), []);
  let before = null, touched = null;
  if (said) yield said;
  if (last) {
    if (known.said !== said) Object.assign(known, {said, state: yield* stateNow(running, frames, null)});
    before = known.state;
    touched = yield* touchedBy(new Looker(), line, answer, running, before.tree);
    yield* lookInto(before, [touched, chosen]);
  }
  yield line + "\n";
  const now = yield* stateNow(runsAfter(running, line, answer), frames, before && !mayChange(line, answer) ? before : null);
  yield* lookInto(now, [touched, chosen]);
  return before ? [before, now] : [now];
}

// What changed between two states, in short sentences

function changes(before, now) {
  const words = wordChanges(before, now), more = words.length - MOST_TOLD;
  return [...partitionChanges(before.tree, now.tree), ...processorChanges(before.cpus, now.cpus), ...words.slice(0, MOST_TOLD),
    ...more > 0 ? ["and " + more + " words more"] : []];
}

function partitionChanges(before, after) {
  const byName = tree => new Map(tree.map(x => [x.name, x])), old = byName(before), now = byName(after);
  const gone = before.filter(x => !now.has(x.name)).map(x => "partition " + x.name + " is no more");
  const come = after.filter(x => !old.has(x.name)).map(x => "partition " + x.name + " is new, a child of " + x.up);
  return [...gone, ...come, ...after.filter(x => old.has(x.name) && old.get(x.name) !== x).flatMap(x => nodeChanges(old.get(x.name), x))];
}

function nodeChanges(old, now) {
  const told = [], of = "partition " + now.name, count = x => Object.keys(x.tables).length;
  if (old.masked !== now.masked) told.push(of + " is " + (now.masked ? "masked" : "unmasked"));
  if (old.pending !== now.pending) told.push("lines that wait: " + (upTo(16).filter(k => now.pending >> k & 1).join(", ") || "none"));
  if (count(old) !== count(now)) told.push(of + " has " + count(now) + " tables, and had " + count(old));
  const rows = new Map(old.rows.map(row => [row[0], row])), views = {0: [], 2: []};
  for (const row of now.rows) {
    const was = rows.get(row[0]);
    rows.delete(row[0]);
    if (!was) told.push(of + " has frame " + frameIn(row[1]) + " at " + hexOf(row[0] * FRAME));
    else if ((was[1] & 2) !== (row[1] & 2)) views[row[1] & 2].push(frameIn(row[1]));
  }
  told.push(...[...rows.keys()].map(vpage => of + " has no page any more at " + hexOf(vpage * FRAME)));
  for (const [bit, view] of [[0, "hidden"], [2, "visible again"]]) if (views[bit].length) {
    told.push(view + " for " + of + ": frame" + (views[bit].length > 1 ? "s " : " ") + views[bit].join(", "));
  }
  return told;
}

function processorChanges(before, after) {
  return after.flatMap(([name, words], cpu) => {
    const [was, old] = before[cpu];
    const told = was === name ? [] : ["processor " + cpu + " runs " + (name ? "partition " + name : "nothing")];
    const changed = (words && old ? words : []).map((word, r) => [r, word]).filter(([r, word]) => word !== old[r])
      .map(([r, word]) => (r === 16 ? "pc" : "r" + r) + " = " + hexOf(word));
    if (changed.length) told.push("processor " + cpu + ": " + changed.slice(0, 6).join(", ") + (changed.length > 6 ? " .." : ""));
    return told;
  });
}

// The words that differ, but for frames that became configuration or are none any more
function wordChanges(before, now) {
  const oldHidden = configuration(before.tree), hidden = configuration(now.tree);
  const both = frame => hidden.has(frame) && oldHidden.has(frame) || before.looked.has(frame) && now.looked.has(frame);
  const frames = [...new Set([...before.words.keys(), ...now.words.keys()])].filter(both).sort((a, b) => a - b);
  return frames.flatMap(frame => {
    const old = before.words.get(frame) || new Map(), words = now.words.get(frame) || new Map();
    const where = hidden.has(frame) ? null : owner(now.tree, frame);
    return [...new Set([...old.keys(), ...words.keys()])].sort((a, b) => a - b).filter(k => (old.get(k) || 0) !== (words.get(k) || 0))
      .map(k => "frame " + frame + ", word " + k + (where ? " (" + where(k) + ")" : "") + ": " + hexOf(old.get(k) || 0) + " \u2192 " + hexOf(words.get(k) || 0));
  });
}

// The address of a word of a frame, as the first partition has it that has the frame
function owner(tree, frame) {
  for (const x of tree) {
    const row = x.rows.find(row => frameIn(row[1]) === frame);
    if (row) return index => hexOf(row[0] * FRAME + 4 * index) + " of partition " + x.name;
  }
  return null;
}

// The data of a page of class/step that has these states and nothing else. Of the words they have those of the chosen frame.
function dataOf(states, told, chosen) {
  const registers = states.flatMap(({cpus}) => cpus.map(([, words]) => words)), partitions = states.flatMap(({tree}) => tree);
  const places = [0, states[0].tree.length], contents = states.map(({words}) => Object.fromEntries(words.get(chosen) || []));
  return {frames: states[0].frames, partitions, registers, contents, words: {[chosen]: states.map((_, k) => [k, k])}, looked: [chosen],
    trees: states.map(({tree}, k) => tree.map((_, at) => places[k] + at)), grids: states.map(({frames, tree}) => grid(frames, tree)),
    steps: states.map(({cpus}, k) => ({did: "", ...told[k], tree: k, grid: k,
      cpus: cpus.map(([name, words], cpu) => [name, words && k * cpus.length + cpu]), changed: k ? changes(states[0], states[1]) : []}))};
}
