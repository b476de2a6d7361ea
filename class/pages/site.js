// What runs in a document: its scripts, programs, sessions and exercises become editors. The program comes when something is run first.
"use strict";
{
const SAID = "the same text, not the same proof", SLOW = 700, MOST_SHOWN = 2000;
const LEAST = 16, MARGIN = 5;                      // columns of a text, and those between it and its answers
const SYNTAX = /* syntax */;
const escaped = text => text.replace(/[&<>]/g, sign => "&#" + sign.charCodeAt(0) + ";");
const linesIn = text => text.replace(/\n$/, "").split("\n");
const countOf = text => text ? linesIn(text).length : 0;
const hasPart = (whole, part) => whole.some((_, at) => part.every((line, k) => whole[at + k] === line));

// A text with its colours, by the grammar for editors
const COLOURS = new RegExp(SYNTAX.map(([pattern]) => "(" + pattern + ")").join("|"), "gm");
function coloured(text) {
  let made = "", at = 0;
  for (const found of text.matchAll(COLOURS)) {
    const kind = SYNTAX[found.slice(1).findIndex(part => part !== undefined)][1];
    made += escaped(text.slice(at, found.index)) + "<span class=" + kind + ">" + escaped(found[0]) + "</span>";
    at = found.index + found[0].length;
  }
  return made + escaped(text.slice(at)) + (text === "" || text.endsWith("\n") ? " " : "");
}

// The text with its colours, under a field that shows the cursor alone
class Editor {
  constructor(text, label, changed, moved = () => {}) {
    this.under = make("pre.under");
    this.under.setAttribute("aria-hidden", "true");
    this.field = Object.assign(make("textarea"), {value: text, spellcheck: false, wrap: "off", rows: 1, ariaLabel: label, autocapitalize: "off", autocomplete: "off"});
    this.field.addEventListener("input", () => { this.draw(); changed(); });
    ["keyup", "click", "focus"].forEach(name => this.field.addEventListener(name, moved));
    this.element = make("div.edit", make("div.paper", this.under, this.field));
    this.desk = make("div.desk", this.element);
    this.draw();
  }
  get text() { return this.field.value; }
  set text(text) { this.field.value = text; this.draw(); }
  get line() { return this.text.slice(0, this.field.selectionStart).split("\n").length; }
  draw() {
    this.under.innerHTML = coloured(this.text);
    const widest = Math.max(LEAST, ...this.text.split("\n").filter(line => line[0] !== "#").map(line => line.length));
    this.desk.style.setProperty("--code", widest + MARGIN + "ch");
  }
}

// The buttons of a block, and what is said of its run
class Bar {
  constructor(div, acts, more = []) {
    this.div = div;
    this.out = make("output");
    this.element = make("div.bar", ...Object.entries(acts).map(([name, act]) => button(name, act)), ...more, this.out);
  }
  say(text, kind = "") {
    fillIn(this.out, text);
    this.out.className = this.div.dataset.result = kind;
  }
  ended(isSame, isEdited) {
    const told = isEdited ? "edited" : isSame ? "as the document prints" : "not as the document prints";
    this.say(told + " \u00b7 " + SAID, isEdited ? "ran" : isSame ? "same" : "differs");
  }

  // Asks the program, says that it is busy, and offers to stop what takes long. Answers null where there is no answer
  async ask(what, inner) {
    this.say("..", "busy");
    const slow = setTimeout(() => { this.say("busy ..", "busy"); this.out.append(" ", button("Stop", () => program.stop())); }, SLOW);
    const isLoaded = await program.load().then(() => true, () => false);
    if (isLoaded) data = data || {...called(), steps: []};
    const last = isLoaded ? await program.ask(what, inner) : {part: "failed", why: NO_ENGINE};
    clearTimeout(slow);
    if (!["failed", "stopped"].includes(last.part)) return last;
    this.say(last.why, "failed");
    return null;
  }
}

const fillIn = (element, ...inside) => element.replaceChildren(...inside);
const whenEntered = (field, act) => field.addEventListener("keydown", event => {
  if (event.key === "Enter" && (event.ctrlKey || event.metaKey)) { event.preventDefault(); act(); }
});
const link = (text, href) => Object.assign(make("a", text), {href});
const toPlayground = (kind, text) => open("playground.html#" + kind + "=" + packed(text), "_blank");

// The page of the file that is shown, and how much of it runs first
function sourceOf(told) {
  if (!told.source) return [];
  const count = Array.isArray(told.before) ? told.before.length : countOf(told.before), what = Array.isArray(told.before) ? "command" : "line";
  return [make("p.source", ...(count ? [counted(count, what) + " before this, which run first: "] : []), link(told.source, told.page))];
}

// A row of an answer or of a trace, with its meaning
function row(line, answer, kind) {
  const made = make("span.row." + (answer ? kind : "none"), make("b", answer), make("i", answer && facts ? means(line, answer, true) : ""));
  made.title = answer && facts ? means(line, answer) : "";
  return made;
}

// A script, beside which its answers are: those that the document prints, until it is run
class Script {
  constructor(div, told, more = {}) {
    Object.assign(this, {div, told, changed: more.changed || (() => {}), skip: countOf(told.before), answered: []});
    this.text = told.lines.map(([line]) => line).join("\n");
    this.printed = told.lines.map(([, answer]) => answer);
    this.answers = make("div.answers");
    this.answers.setAttribute("aria-label", "Answers");
    this.answers.addEventListener("click", event => this.clicked(event.target.closest(".row")));
    this.note = make("div.note");
    this.note.setAttribute("role", "status");
    this.edit = new Editor(more.text === undefined ? this.text : more.text, "Script", () => this.edited(), () => this.explain());
    this.bar = new Bar(div, {...more.acts, ...(more.isPart ? {} : {Run: () => this.run(), Views: () => looking.open(this)}),
      Playground: () => toPlayground("script", this.whole()), Reset: () => this.reset()}, more.fields);
    this.edit.desk.append(this.answers);
    fillIn(div, this.edit.desk, this.bar.element, this.note, ...sourceOf(told));
    whenEntered(this.edit.field, more.entered || (() => this.run()));
    this.show(this.printed, "printed");
  }

  get kind() { return "script"; }
  get last() { return this.answered.length - 1; }
  whole() { return this.told.before + this.edit.text + "\n"; }

  show(found, kind) {
    const isEdited = this.edit.text !== this.text, lines = linesIn(this.edit.text);
    const isOther = (answer, k) => kind === "ran" && !isEdited && this.printed[k] && this.printed[k] !== answer;
    fillIn(this.answers, ...found.map((answer, k) => row(lines[k] || "", answer || "", isOther(answer, k) ? "differs" : kind)));
    this.shown = found;
  }

  edited() {
    this.bar.say("");
    fillIn(this.note);
    this.answers.classList.add("old");
    looking.close(this);
    this.changed();
  }

  reset() {
    this.edit.text = this.text;
    this.edited();
    this.answers.classList.remove("old");
    this.show(this.printed, "printed");
  }

  async run() {
    let found = null;
    const last = await this.bar.ask({act: "script", text: this.whole(), isBrief: true}, told => { if (told.part === "answers") found = told; });
    if (!last || !found) return false;
    const given = found.answers.slice(this.skip);
    this.why = found.why;
    this.answered = found.answers.flatMap((answer, k) => answer && k >= this.skip ? [k + 1] : []);
    if (found.why) given[found.why.place - 1 - this.skip] = "bad line " + found.why.place;
    this.answers.classList.remove("old");
    this.show(given, "ran");
    this.bar.ended(this.printed.every((answer, k) => answer === null || given[k] === answer), this.edit.text !== this.text);
    if (this.printed.every(answer => answer === null)) this.bar.say("status " + found.status + " \u00b7 " + SAID, "ran");
    this.explain();
    return true;
  }

  // Below the text: why a line is bad, or what the answer at the cursor means
  explain() {
    if (this.answers.classList.contains("old")) return;
    const at = this.edit.line - 1, answer = (this.shown || [])[at], said = answer && facts && document.activeElement === this.edit.field ? means(linesIn(this.edit.text)[at] || "", answer) : "";
    fillIn(this.note, ...(this.why ? whyOf(this.why, this.skip) : []), ...(said ? [make("p.means", "line " + (at + 1) + ": " + said)] : []));
  }

  clicked(row) {
    const at = row ? this.answered.indexOf([...this.answers.children].indexOf(row) + 1 + this.skip) : -1;
    if (at >= 0) looking.open(this, at);
  }

  // What the views ask for
  stateAt(at, frame) { return {act: "script", text: this.whole(), line: this.answered[at], frame}; }
  where(at) { return "line " + (this.answered[at] - this.skip) + ", answer " + (at + 1) + " of " + this.answered.length; }
}

// A program, with its trace below it
class Assembled {
  constructor(div, told, more = {}) {
    Object.assign(this, {div, told, changed: more.changed || (() => {}), count: 0, text: told.text.replace(/\n$/, ""), skip: countOf(told.before)});
    this.trace = Object.assign(make("div.trace"), {hidden: true, tabIndex: 0});
    this.trace.addEventListener("click", event => this.clicked(event.target.closest(".row")));
    this.note = make("div.note");
    this.note.setAttribute("role", "status");
    this.edit = new Editor(more.text === undefined ? this.text : more.text, "Assembly text", () => this.edited());
    const field = (name, value) => Object.assign(make("input"), {value, size: 6, inputMode: "numeric", ariaLabel: name});
    [this.steps, this.seed] = [field("steps", told.steps), field("seed", told.seed)];
    this.bar = new Bar(div, {...more.acts, Run: () => this.run(), Views: () => looking.open(this), Playground: () => toPlayground("assembly", this.whole()), Reset: () => this.reset()},
      [make("label", "steps ", this.steps), make("label", "seed ", this.seed), ...(more.fields || [])]);
    fillIn(div, this.edit.desk, this.bar.element, this.note, this.trace, ...sourceOf(told));
    whenEntered(this.edit.field, more.entered || (() => this.run()));
  }

  get kind() { return "assembly"; }
  get last() { return this.count; }
  whole() { return this.told.before + this.edit.text + "\n" + this.told.after; }

  edited() {
    this.bar.say("");
    fillIn(this.note);
    this.trace.hidden = true;
    looking.close(this);
    this.changed();
  }

  reset() {
    [this.edit.text, this.steps.value, this.seed.value] = [this.text, this.told.steps, this.told.seed];
    this.edited();
  }

  async run() {
    let found = null;
    const last = await this.bar.ask({act: "assembly", text: this.whole(), steps: this.steps.value, seed: this.seed.value, isBrief: true}, told => { if (told.part === "run") found = told; });
    if (!last) return false;
    const isEdited = this.edit.text !== this.text || this.steps.value !== this.told.steps || this.seed.value !== this.told.seed;
    fillIn(this.note, ...(found.why ? whyOf(found.why, this.skip) : []));
    this.trace.hidden = !found.lines.length;
    const more = found.lines.length - MOST_SHOWN + found.more;
    fillIn(this.trace, ...found.lines.slice(0, MOST_SHOWN).map(line => row(null, line, "ran")), ...(more > 0 ? [make("span.row", "and " + counted(more, "line") + " more")] : []));
    this.count = found.status === 0 ? found.count : 0;
    if (found.why) this.bar.say("line " + (found.why.place - this.skip) + " is refused \u00b7 " + SAID, isEdited ? "ran" : "differs");
    else if (!this.told.due) this.bar.say("status " + found.status + " \u00b7 " + SAID, "ran");
    else this.bar.ended(hasPart(found.lines, this.told.due), isEdited);
    return found.status === 0;
  }

  clicked(row) {
    const step = row && /^\d+ /.exec(row.textContent);
    if (step) looking.open(this, Number(step[0]) + 1);
  }

  stateAt(count, frame) { return {act: "assembly", text: this.whole(), steps: this.steps.value, seed: this.seed.value, count, frame}; }
  where(count) { return count ? "after step " + (count - 1) + " of " + this.count : "the beginning"; }
}

// The commands of a session, each with what it writes
class Session {
  constructor(div, told) {
    Object.assign(this, {div, told});
    this.rows = told.commands.map(([command, printed]) => {
      const input = Object.assign(make("input"), {value: command, spellcheck: false, ariaLabel: "Command", autocomplete: "off"});
      const made = {command, printed, input, out: Object.assign(make("pre.out"), {tabIndex: 0}), element: make("div.command", make("span", "$"), input)};
      input.addEventListener("keydown", event => { if (event.key === "Enter") this.run(); });
      input.addEventListener("input", () => this.bar.say(""));
      return made;
    });
    this.bar = new Bar(div, {Run: () => this.run(), Reset: () => this.reset()});
    fillIn(div, make("div.terminal", ...this.rows.flatMap(({element, out}) => [element, out])), this.bar.element, ...sourceOf(told));
    this.reset();
  }

  show({out}, lines, kind) {
    out.textContent = lines.join("\n");
    out.hidden = !lines.length;
    out.className = "out " + kind;
  }

  reset() {
    this.rows.forEach(row => { row.input.value = row.command; this.show(row, row.printed || [], "printed"); });
    this.bar.say("");
  }

  async run() {
    const {before, files} = this.told, found = await this.bar.ask({act: "session", before, files, commands: this.rows.map(({input}) => input.value)});
    if (!found) return;
    const isSame = ({lines, failed}, {printed}) => !failed && (printed === null || lines.join("\n") === printed.join("\n") || this.told.is_piece && hasPart(lines, printed));
    const all = found.outs.map((out, k) => [out, this.rows[k], isSame(out, this.rows[k])]), failed = all.find(([out]) => out.failed);
    all.forEach(([out, row, same]) => this.show(row, out.failed ? [out.failed] : out.lines, out.failed ? "failed" : same ? "ran" : "differs"));
    const isEdited = this.rows.some(({input, command}) => input.value !== command);
    if (failed) this.bar.say(failed[0].failed, "failed");
    else if (this.rows.every(({printed}) => printed === null)) this.bar.say(SAID, "ran");
    else this.bar.ended(all.every(([, , same]) => same), isEdited);
  }
}

// An exercise: a text of one's own, which the browser keeps, and the judge
class Exercise {
  constructor(div, told) {
    Object.assign(this, {div, told});
    const work = works()["of " + told.name], Kind = told.of === "script" ? Script : Assembled;
    this.student = Object.assign(make("input"), {size: 8, autocomplete: "off", value: works().student || "", title: "with a name: the exercise with numbers that depend on it"});
    this.student.addEventListener("change", () => this.retell());
    [this.task, this.verdict] = [make("div.task"), make("div.verdict")];
    this.verdict.setAttribute("role", "status");
    this.work = new Kind(div, of(told), {text: work ? work.text : told.text, acts: {Judge: () => this.judge()}, entered: () => this.judge(), isPart: told.part,
      fields: [make("label", "student ", this.student)], changed: () => { fillIn(this.verdict); this.keep(); }});
    div.querySelector(".edit").classList.add("empty");
    div.append(this.task, this.verdict);
  }

  keep() {
    const edit = this.work.edit;
    keepWork(this.told.name, {text: edit.text, kind: this.told.of, steps: "1000", seed: "1", at: edit.field.selectionStart}, {student: this.student.value.trim()});
  }

  async retell() {
    const seed = this.student.value.trim(), {name, task} = this.told;
    this.keep();
    fillIn(this.verdict);
    const found = seed && await this.work.bar.ask({act: "retell", name, text: task, seed});
    fillIn(this.task, ...(found ? [make("p", make("b", "With the numbers of " + seed + ":")), ...taskOf(found.text)] : []));
    this.work.bar.say("");
  }

  async judge() {
    const found = await this.work.bar.ask({act: "judge", name: this.told.name, text: this.work.edit.text, seed: this.student.value.trim()});
    if (!found) return;
    fillIn(this.verdict, ...verdictOf(found));
    this.work.bar.say(headOf(found) + " \u00b7 " + SAID, areAllReached(found) ? "same" : "ran");
  }
}

// A text of one's own as a script or a program that is empty but for its first lines
function of({of: kind, text}) {
  return kind === "script" ? {before: "", lines: linesIn(text).map(line => [line, null])} : {before: "", text, after: "", steps: "1000", seed: "1", due: null};
}

// The views of a state, below the block that asked for them
const looking = {
  block: null, at: 0,

  async open(block, at) {
    if (!block.answers && !block.count || block.answers && (!block.answered.length || block.answers.classList.contains("old"))) {
      if (!await block.run() || block.last < 0) return;
    }
    if (block !== this.block) {
      this.block = block;
      block.div.append(by("looking"));
      document.body.classList.toggle("is-run", block.kind === "assembly");
    }
    this.to(at === undefined ? block.last : at);
  },

  to(at) {
    this.at = Math.max(0, Math.min(this.block.last, at));
    by("first").disabled = by("back").disabled = this.at === 0;
    by("on").disabled = by("last").disabled = this.at === this.block.last;
    fill("at", this.block.where(this.at));
    this.ask();
  },

  async ask() {
    const frame = data.steps.length ? shownFrame() : null, {block, at} = this;
    const told = await program.ask(block.stateAt(at, frame));
    if (block !== this.block || at !== this.at || !told.state) return;
    by("looking").hidden = false;
    takeState(told.state);
    lookAgain();
  },

  close(block) {
    if (block && block !== this.block) return;
    by("looking").hidden = true;
    this.block = null;
  },
};
window.act = () => looking.ask();
for (const [id, act] of Object.entries({first: () => 0, back: () => looking.at - 1, on: () => looking.at + 1, last: () => Infinity})) {
  by(id).addEventListener("click", () => looking.to(act()));
}
by("close").addEventListener("click", () => { const {div} = looking.block; looking.close(); div.querySelector(".bar button").focus(); });
by("looking").addEventListener("keydown", event => {
  const act = {...keysOfViews, ArrowLeft: () => looking.to(looking.at - 1), ArrowRight: () => looking.to(looking.at + 1)}[event.key];
  if (!act || event.ctrlKey || event.altKey || event.metaKey) return;
  event.preventDefault();
  act();
});
document.querySelectorAll("#looking .of-run").forEach(part => part.remove());

const makers = {script: Script, program: Assembled, session: Session, exercise: Exercise};
function begin(div) {
  const told = JSON.parse(div.dataset.run), block = new makers[told.kind](div, told);
  div.dataset.kind = told.kind;
  return block;
}
document.querySelectorAll(".run").forEach(begin);
if (innerWidth < 900) document.getElementById("aside").open = false;
}
