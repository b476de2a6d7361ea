// The views of a state: what changed, processors, tree, frames by use, words of a frame, pages, and the way from an address to its frame.
// They draw step `step` of `data`; whoever shows the page gives both, and `draw`, which draws again after another thing was chosen.
"use strict";
let data = null;
const by = id => document.getElementById(id);
const PAGE = 4096, MOST_ROWS = 200;
const isRun = () => data.steps[0].told === "the beginning" || data.steps[0].told.startsWith("after step");
let step = 0, chosenPartition = 1, chosenPage = null, chosenFrame = null;      // no frame: that of the page
let isChosen = false;                                // by hand: then the views don't follow the line

const hex = word => "0x" + (word >>> 0).toString(16).padStart(8, "0");
const counted = (count, what) => count + " " + what + (Number(count) === 1 ? "" : "s");
const frameOf = word => Math.floor(word / PAGE);
const treeOf = k => data.trees[data.steps[k].tree].map(place => data.partitions[place]);
const nameOf = name => name === 1 ? "root, partition 1" : "partition " + name;

// make("p.class", text or elements ..): an element
function make(what, ...inside) {
  const [name, ...classes] = what.split(".");
  const made = document.createElement(name);
  made.className = classes.join(" ");
  made.append(...inside);
  return made;
}
function button(text, act, ...classes) {
  const made = make(["button", ...classes].join("."), text);
  made.type = "button";
  made.addEventListener("click", act);
  return made;
}
const fill = (id, ...inside) => by(id).replaceChildren(...inside);

// A button that is made again at each step keeps the focus by this name
function kept(made, name, isChosen) {
  made.dataset.focus = name;
  if (isChosen) made.setAttribute("aria-current", "true");
  return made;
}

// What a row of a partition is: [vpage, table word, first shadow word, second shadow word]
const addressOf = row => row[0] * PAGE;
const usesOf = {0: "free", 1: "descriptor", 2: "conf", 3: "lent"};
const useOf = row => usesOf[row[2] % PAGE];
const isHidden = row => !(row[1] & 2);
const rightsOf = row => (row[1] & 4 ? "r" : "-") + (row[1] & 8 ? "w" : "-") + (row[1] & 16 ? "x" : "-");
const givenTo = row => row[2] ? row[2] - row[2] % PAGE : null;
const useText = row => ({free: "free", descriptor: "descriptor of the child at ", conf: "configuration of the child at ",
  lent: "lent to the child at "})[useOf(row)] + (row[2] ? hex(givenTo(row)) : "");
const cameText = row => row[3] ? "the parent has it at " + hex(row[3] - 1) : "the root's own";
const rowAt = (partition, vpage) => partition.rows.find(row => row[0] === vpage);

// Who has each frame in a row, but for one partition
function othersWith(tree, partition) {
  const found = new Map();
  for (const x of tree) for (const row of x === partition ? [] : x.rows) {
    const frame = frameOf(row[1]);
    found.set(frame, (found.get(frame) || []).concat((x.name === 1 ? "root" : x.name) + " at " + hex(addressOf(row))));
  }
  return found;
}

const named = {v: "page", d: "child", cv: "address in the child", first: "first page"};
const rightsWord = word => [[1, "r"], [2, "w"], [4, "x"]].map(([bit, letter]) => word & bit ? letter : "-").join("");
const told = {
  rights: word => word < 8 ? rightsWord(word) : hex(word), vector: String, save: word => word === 256 ? "nowhere" : String(word),
  target: word => word === 0 ? "the parent" : word === 1 ? "itself" : "the child at " + hex(word),
};

// A call with its arguments: of a script those of the line, of a run r1 to r5 before the step
function callWith(number, words) {
  const [name, names] = data.calls[number];
  return name + (words === null ? "" : "(" + names.map((argument, k) =>
    (named[argument] || argument) + " " + (told[argument] || hex)(words[k] || 0)).join(", ") + ")");
}
function callText(number, words) {
  return "call " + number + (data.calls[number] ? " is " + callWith(number, words) : ", which isn't there");
}
function callOf(now, before) {
  const line = now.told.split(" "), answer = now.answer.split(" "), at = answer.indexOf("call");
  if (line[0] === "call" && line.length > 2) return callText(Number(line[2]), line.slice(3).map(Number));
  if (at < 0) return null;
  const place = before ? before.cpus[Number(answer[0])][1] : null;
  return callText(Number(answer[at + 1]), place === null ? null : data.registers[place].slice(1, 6));
}

// What a line or a step is about

const INSTRUCTION = /^processor (\d), partition (\d+), 0x[^:]*: (.*)$/;

// The partition that a line or a step is of, and the words that a script would have for it
function deedOf(now, before) {
  const words = now.told.split(" "), runner = cpu => before && before.cpus[cpu] ? before.cpus[cpu][0] : 0;
  if (!isRun()) return [runner(words[1]), words];
  const found = INSTRUCTION.exec(now.did || "");
  if (!found) return [0, []];
  const [, cpu, name, text] = found, registers = data.registers[before.cpus[cpu][1]], [word, ...operands] = text.split(" ");
  if (/^(ld|st)[wb]$/.test(word)) return [Number(name), ["ld", cpu, registers[operands[1].slice(1)] + Number(operands[2])]];
  return [Number(name), word === "sys" ? ["call", cpu, operands[0], ...registers.slice(1, 6)] : ["fetch", cpu]];
}

// Partitions with addresses, the one that tells most first
function aimsOf(now, before, tree) {
  const [runner, [name, ...words]] = deedOf(now, before), numbers = words.map(Number), runs = now.cpus[numbers[0]] || now.cpus[0];
  const pc = runs[1] === null ? [] : [[runs[0], data.registers[runs[1]][16]]];
  if (name === "peek") return tree.flatMap(x => x.rows.filter(row => frameOf(row[1]) === numbers[0]).map(row => [x.name, addressOf(row)]));
  if (name === "boot" || runs[0] !== runner) return pc;
  if (["ld", "lb", "st", "sb"].includes(name)) return [[runner, numbers[1]], ...pc];
  return name === "call" ? [...callAims(runner, numbers[1], numbers.slice(2), tree), ...pc] : pc;
}

function callAims(runner, number, words, tree) {
  const names = data.calls[number] ? data.calls[number][1] : [], of = name => words[names.indexOf(name)];
  const child = tree.find(x => x.depth && x.up === runner && x.born === of("d"));
  return [...(child ? [[child.name, of("cv")]] : []), [runner, of("v")], [runner, of("first")], [runner, words[0]]];
}

// Chooses the page that the line is about; of `peek` its frame, too
function follow(now, before, tree) {
  const aims = aimsOf(now, before, tree).map(([name, address]) => [tree.find(x => x.name === name), Math.floor(address / PAGE)]);
  const [to, page] = aims.find(([x, page]) => x && rowAt(x, page)) || [];
  if (to) [chosenPartition, chosenPage] = [to.name, page];
  const [name, frame] = isRun() ? [] : now.told.split(" ");
  chosenFrame = name === "peek" && Number(frame) < data.frames ? Number(frame) : null;
}

// The line and its answer in words
function meaning(now, before) {
  const answer = now.answer.split(" "), call = callOf(now, before), parts = call === null ? [] : [call];
  const reply = answer.indexOf("reply");
  if (reply >= 0) parts.push("status " + answer[reply + 1] + " is " + (data.statuses[Number(answer[reply + 1])] || "none"));
  const change = answer.indexOf("switch");
  if (change >= 0) parts.push((answer[change + 1] === "0" ? "from an idle processor" : "from partition " + answer[change + 1]) +
    " to partition " + answer[change + 2] + ", vector " + answer[change + 3]);
  if (answer.includes("park")) parts.push("nobody takes vector " + answer[answer.length - 1] + ": nothing runs there any more");
  return parts.join("; ");
}

function drawNow(now, before) {
  fill("remarks", now.remarks.join(" "));
  fill("place", isRun() ? now.told : "line " + now.place);
  fill("told", isRun() ? now.did || "" : now.told);
  fill("answer", now.answer || "no line");
  fill("meaning", meaning(now, before));
  fill("changed", ...(now.changed.length ? now.changed : ["nothing that is shown here"]).map(text => make("li", text)));
}

function drawProcessors(now, before) {
  fill("cpus", ...now.cpus.map(([name, place], cpu) => {
    const made = make("div.cpu", make("b", "processor " + cpu + ": "), name ? nameOf(name) : "idle");
    if (place !== null) {
      const old = before && before.cpus[cpu][1] !== null ? data.registers[before.cpus[cpu][1]] : null;
      const shown = data.registers[place].map((word, r) => make(old && old[r] !== word ? "span.now" : "span",
        (r === 16 ? "pc" : "r" + r).padEnd(4, "\u00a0") + hex(word)));
      made.append(make("div.registers.mono", shown[16], ...shown.slice(0, 16)));
    }
    return made;
  }));
  const pending = treeOf(step)[0].pending, waiting = [...Array(16).keys()].filter(line => pending >> line & 1);
  fill("pending", "Lines that wait: " + (waiting.join(", ") || "none") + (treeOf(step)[0].masked ? " \u00b7 the root is masked" : ""));
}

function drawTree(now, tree) {
  const runs = name => now.cpus.flatMap(([of], cpu) => of === name ? [cpu] : []);
  const branch = x => {
    const label = kept(button((x.name === 1 ? "root, 1" : String(x.name)), () => choose(x.name), x.name === chosenPartition ? "chosen" : "other"),
      "partition " + x.name, x.name === chosenPartition);
    const made = make("li", label, make("span.badge", counted(x.rows.length, "page")));
    if (x.depth) made.append(make("span.badge", "at " + hex(x.born)));
    runs(x.name).forEach(cpu => made.append(make("span.badge", "runs on " + cpu)));
    if (x.masked) made.append(make("span.badge", "masked"));
    const below = tree.filter(y => y.depth && y.up === x.name);
    if (below.length) made.append(make("ul", ...below.map(branch)));
    return made;
  };
  fill("tree", make("ul", branch(tree[0])));
}

const kinds = {none: "nobody's", user: "a page that is nobody's configuration", descriptor: "descriptor", directory: "directory", list: "list page",
  table: "page table", first: "first shadow table", second: "second shadow table"};
const short = {none: "", user: "page", descriptor: "desc", directory: "dir", list: "list", table: "table", first: "sh 1", second: "sh 2"};

const cellsOf = k => data.grids[data.steps[k].grid].flatMap(([kind, name, count]) => Array(count).fill([kind, name]));

// Cells stay, and only what differs in one is written: a machine may have 4096
function drawGrid() {
  const cells = cellsOf(step), old = step ? cellsOf(step - 1) : cells, shown = by("grid").children, chosen = shownFrame();
  cells.forEach(([kind, name], frame) => {
    const made = shown[frame], shared = kind === "user" && name !== 1;
    const look = ["cell", shared ? "lent" : kind, kind === "user" || kind === "none" ? "" : "hidden",
      old[frame][0] === kind && old[frame][1] === name ? "" : "changed", name === chosenPartition ? "of" : "", frame === chosen ? "chosen" : ""].join(" ");
    if (made.tabIndex !== (frame === chosen ? 0 : -1)) made.tabIndex = frame === chosen ? 0 : -1;
    const text = kind === "none" ? "" : short[kind] + " " + name;
    if (made.className !== look) made.className = look;
    if (made.lastChild.textContent !== text) {
      made.lastChild.textContent = text;
      made.title = "frame " + frame + ": " + kinds[kind] + (name ? " of partition " + name : "");
    }
  });
}

function makeGrid() {
  fill("grid", ...Array.from({length: data.frames}, (_, frame) => {
    const made = kept(button(String(frame), () => chooseFrame(frame), "cell"), "frame " + frame, false);
    made.append(make("small", "-"));
    return made;
  }));
  fill("legend", ...[["user", "page of the root"], ["lent", "page of a partition below (the deepest that has it)"], ["descriptor hidden", "descriptor"],
    ["directory hidden", "directory, page table, list page"], ["first hidden", "first shadow"], ["second hidden", "second shadow"],
    ["none", "nobody's"]].map(([kind, text]) => make("span", make("i." + kind.replace(" ", ".")), text)),
    make("span", "hatched: hidden from everybody"), make("span", "framed: changed in this step"));
}

// The words of a frame at a step: of each one the steps are kept at which they became others
function wordsOf(frame, k) {
  const found = (data.words[frame] || []).filter(([at]) => at <= k);
  return found.length ? data.contents[found[found.length - 1][1]] : {};
}
function shownFrame() {
  const partition = treeOf(step).find(x => x.name === chosenPartition), row = partition && rowAt(partition, chosenPage);
  return chosenFrame !== null ? chosenFrame : row ? frameOf(row[1]) : chosenPartition;
}
function drawFrame() {
  const frame = shownFrame(), [kind, name] = cellsOf(step)[frame], now = wordsOf(frame, step), old = step ? wordsOf(frame, step - 1) : now;
  const groups = [...new Set(Object.keys({...old, ...now}).map(index => Math.floor(index / 8)))].sort((a, b) => a - b);
  fill("frame-of", "Words of frame " + frame + ": " + kinds[kind] + (name ? " of partition " + name : ""));
  fill("words", ...groups.map(group => make("div", make("span.index", String(8 * group).padStart(4, "0") + ": "),
    ...Array.from({length: 8}, (_, k) => make((now[8 * group + k] || 0) === (old[8 * group + k] || 0) ? "span" : "span.now", hex(now[8 * group + k] || 0).slice(2))))));
  if (!groups.length) fill("words", "All 1024 words are 0.");
}

// Rows stay where nothing in them differs: to lay out a table takes long
function drawPages(tree, partition, old) {
  fill("pages-of", "Pages of " + nameOf(partition.name));
  const [mmu, first, second] = partition.directories;
  fill("facts", "directories: MMU in frame " + mmu + ", first shadow " + first + ", second shadow " + second + "; " +
    counted(Object.keys(partition.tables).length, "table") + "; list pages: " + partition.lists.join(", "));
  const head = make("tr", ...["address", "frame", "rights", "view", "use", "table word", "first shadow", "second shadow", "who else has it"]
    .map(text => { const made = make("th", text); made.scope = "col"; return made; }));
  const before = new Map(old ? old.rows.map(row => [row[0], row]) : []), others = othersWith(tree, partition);
  const all = partition.rows, chosen = all.findIndex(row => row[0] === chosenPage);
  const start = Math.max(0, Math.min(all.length - MOST_ROWS, chosen - MOST_ROWS / 2)), rows = all.slice(start, start + MOST_ROWS);
  fill("part", rows.length === all.length ? "" :
    "pages " + (start + 1) + " to " + (start + rows.length) + " of " + all.length + ", those around the chosen one");
  if (!by("pages").tBodies.length) fill("pages", make("thead", head), make("tbody"));
  const body = by("pages").tBodies[0];
  while (body.rows.length > rows.length) body.lastChild.remove();
  rows.forEach((row, k) => {
    const isChanged = old && String(before.get(row[0])) !== String(row);
    const key = [row, others.get(frameOf(row[1])), isChanged, row[0] === chosenPage].join(";"), was = body.rows[k];
    if (was && was.dataset.key === key) return;
    const made = pageRow(row, others.get(frameOf(row[1])) || [], isChanged);
    made.dataset.key = key;
    if (was) was.replaceWith(made); else body.append(made);
  });
}

function pageRow(row, others, isChanged) {
  const page = kept(button(hex(addressOf(row)), () => choosePage(row[0])), "page " + row[0], row[0] === chosenPage);
  const made = make("tr", make("td", page), make("td", String(frameOf(row[1]))),
    make("td", rightsOf(row)), make("td", isHidden(row) ? "hidden" : "user"),
    make("td", make("span.use." + ({free: "user"}[useOf(row)] || useOf(row)) + (isHidden(row) ? ".hidden" : ""), useText(row))),
    make("td", hex(row[1])), make("td", hex(row[2])), make("td", hex(row[3])), make("td", others.join(", ") || "nobody"));
  if (isChanged) made.classList.add("changed");
  if (row[0] === chosenPage) made.classList.add("chosen");
  return made;
}

// The way from an address to its frame, as the MMU goes it
function drawTranslation(partition) {
  const row = rowAt(partition, chosenPage);
  by("follow").hidden = !isChosen;
  if (!row) {
    fill("translation-of", "Address translation");
    fill("figure", nameOf(partition.name) + " has no page here.");
    return;
  }
  const index = Math.floor(row[0] / 1024), place = row[0] % 1024, [frames, entries] = partition.tables[index], frame = frameOf(row[1]);
  const bits = (word, count) => word.toString(2).padStart(count, "0");
  const part = (kind, name, range, count, value) => make("div." + kind, make("b", name), " bits " + range, make("div.mono",
    value === null ? "\u2022".repeat(count) : bits(value, count)), value === null ? "the byte in the page" : "= " + value);
  const box = (kind, title, ...lines) => make("div.box." + kind, make("b", title), ...lines.map(line => typeof line === "string" ? make("div", line) : line));
  const word = text => make("div.mono", text);
  const letters = make("div.bits.mono", ...[[16, "x"], [8, "w"], [4, "r"], [2, "u"], [1, "p"]].map(([bit, letter]) =>
    make(row[1] & bit ? "span" : "span.off", letter)));
  fill("translation-of", "Address translation of " + hex(addressOf(row)) + " in " + nameOf(partition.name));
  fill("figure",
    make("div.address", part("d", "directory index", "31 to 22", 10, index), part("t", "table index", "21 to 12", 10, place),
      part("o", "offset", "11 to 0", 12, null)),
    make("div.walk",
      box("d", "MMU directory, frame " + partition.directories[0], word("word " + index + ": " + hex(entries[0])), "a table in frame " + frames[0]),
      make("span.to", "\u2192"),
      box("t", "page table, frame " + frames[0], word("word " + place + ": " + hex(row[1])), "frame " + frame, letters),
      make("span.to", "\u2192"),
      box(isHidden(row) ? "o.hidden" : "o", "frame " + frame, "the word at offset o is word o / 4",
        isHidden(row) ? "hidden: every access faults" : "accesses: " + rightsOf(row))),
    make("div.beside",
      box("first", "first shadow, frame " + frames[1], word("word " + place + ": " + hex(row[2])), useText(row)),
      box("second", "second shadow, frame " + frames[2], word("word " + place + ": " + hex(row[3])), cameText(row))));
}

// Draws the step with all that is chosen; what had the focus has it again
function drawViews() {
  const now = data.steps[step], before = step ? data.steps[step - 1] : null, tree = treeOf(step);
  if (!tree.some(x => x.name === chosenPartition)) [chosenPartition, isChosen] = [1, false];
  if (!isChosen) follow(now, before, tree);
  const partition = tree.find(x => x.name === chosenPartition);
  if (!rowAt(partition, chosenPage)) chosenPage = partition.rows.length ? partition.rows[0][0] : null;
  const old = before ? treeOf(step - 1).find(x => x.name === partition.name) || {rows: []} : null;
  const focused = document.activeElement && document.activeElement.dataset.focus;
  drawNow(now, before);
  drawProcessors(now, before);
  drawTree(now, tree);
  drawGrid();
  drawFrame();
  drawPages(tree, partition, old);
  drawTranslation(partition);
  scrollInside(".scroll", "#pages tr.chosen");
  const again = focused && document.querySelector(`[data-focus="${focused}"]`);
  if (again) again.focus({preventScroll: true});
  Object.assign(document.body.dataset, {step, partition: partition.name, page: chosenPage === null ? "" : hex(chosenPage * PAGE), frame: shownFrame()});
}

// Scrolls a part of the page, and not the page
function scrollInside(outer, inner) {
  const of = document.querySelector(outer), to = document.querySelector(inner);
  if (to && (to.offsetTop - of.offsetTop < of.scrollTop || to.offsetTop - of.offsetTop + to.offsetHeight > of.scrollTop + of.clientHeight))
    of.scrollTop = to.offsetTop - of.offsetTop - of.clientHeight / 2;
}

function chooseView(partition, page, frame) {
  [isChosen, chosenPartition, chosenPage, chosenFrame] = [true, partition, page, frame];
  draw();
}
function choose(name) { chooseView(name, null, null); }
function choosePage(vpage) { chooseView(chosenPartition, vpage, null); }
function chooseFrame(frame) { chooseView(chosenPartition, chosenPage, Math.max(0, Math.min(data.frames - 1, frame))); }
function followAgain() { isChosen = false; draw(); }
by("follow").addEventListener("click", followAgain);
function nextPartition(by) {
  const tree = treeOf(step), at = tree.findIndex(x => x.name === chosenPartition);
  choose(tree[(at + by + tree.length) % tree.length].name);
}
function nextPage(by) {
  const rows = treeOf(step).find(x => x.name === chosenPartition).rows, at = rows.findIndex(row => row[0] === chosenPage);
  if (rows.length) choosePage(rows[Math.max(0, Math.min(rows.length - 1, at + by))][0]);
}
