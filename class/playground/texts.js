// Where a text comes from and goes to: the examples, files, the address of the page, and what the browser keeps.
"use strict";
const OWN = "", CHANGED = "changed ", FOR = "&exercise=";
let examples = [];                                 // what there is to choose from

// An example with its text, and what is beside that: the answers, or the words of a command and what it writes
function withText(told) {
  if (!told.path) return told;
  const made = {...told, text: files[told.path]}, beside = files[told.beside];
  if (beside === undefined) return made;
  const end = told.kind === ASSEMBLY ? beside.indexOf("\n") : -1;
  return {...made, words: end < 0 ? "script" : beside.slice(0, end), out: beside.slice(end + 1)};
}

let large = null;                                  // the bytes of a file that is too long to be edited
let taken = "";                                    // the text as it was taken, before something was typed
let isKept = false;                                // whether what is shown is what the browser keeps

function take(text, kind, at = lastLine(text)) {
  large = typed = null;
  by("text").disabled = false;
  by("text").value = taken = text;
  by("text").setSelectionRange(at, at);
  by("text").scrollTop = by("answers").scrollTop = 0;
  by("kind").value = kind;
  by("count").value = "";
  isChosen = false;
  fill("verdict");
  act();
}

// Where the last line ends that isn't blank
const lastLine = text => text.replace(/(\n(#.*)?)*$/, "").length;

function takeLarge(bytes, name) {
  large = bytes;
  by("text").value = "# " + name + " has " + bytes.length + " bytes: too many to be edited here";
  by("text").disabled = true;
  act();
}

// What the browser keeps: a text of one's own, one for each exercise, and one for each example that was changed. It may refuse to

const isOwn = name => name === OWN || name.startsWith(CHANGED);

// Where it keeps what is typed in the text that is chosen
function placeOfChosen() {
  const name = by("choice").value;
  return chosenExercise() || (isOwn(name) ? name : CHANGED + name);
}

function chooseOwn(name) {
  if (![...by("choice").options].some(option => option.value === name)) by("own").append(ownOption(name));
  by("choice").value = name;
}
const ownOption = name => new Option(name === OWN ? "your own" : name.slice(CHANGED.length) + ", changed", name);

function keep(more = {}) {
  if (large) return;
  const place = placeOfChosen(), work = {text: by("text").value, kind: by("kind").value, steps: by("steps").value, seed: by("seed").value};
  if (!keepWork(place, {...work, at: by("text").selectionStart, ...more}, {last: place, student: by("student").value})) notice("this browser keeps no texts: save yours");
}

// Whether another text may take the place of the one that is kept there, and that is none of these; asks where it would be lost
function mayReplace(...same) {
  const old = works()["of " + placeOfChosen()];
  if (!old || old.isSaved || same.includes(old.text) || !old.text.trim()) return true;
  return confirm("The text that you wrote here before isn't saved, and this one would take its place. Replace it?");
}

// Something was typed
function edited() {
  if (!isKept && !mayReplace(taken, by("text").value)) { take(taken, by("kind").value); return; }
  if (!chosenExercise()) chooseOwn(placeOfChosen());
  if (!isKept) history.replaceState(null, "", "#");
  isKept = true;
  typed = cursorLine();
  fill("verdict");
  notice("");
  keep();
  act();
}

function takeKept(work) {
  by("steps").value = work.steps;
  by("seed").value = work.seed;
  take(work.text, work.kind, work.at);
  isKept = true;
}

// Goes on where the browser has kept a text, or begins with the first example
function goOn() {
  const all = works(), name = !all.last || isOwn(all.last) ? all.last : "exercise " + all.last;
  by("student").value = all.student || "";
  if (all.last === undefined || !chooseText(name)) chooseText(examples[0].name);
}

// Chooses an example, an exercise, or one's own text; answers whether there is such a one
function chooseText(name) {
  const found = examples.find(example => example.name === name || example.exercise === name), work = works()["of " + (found ? found.exercise : name)];
  if (!found && name !== OWN && !(isOwn(name) && work)) return false;
  if (found) by("choice").value = found.name;
  else chooseOwn(name);
  drawExercise();
  isKept = false;
  if (work) takeKept(work);
  else takeExample(found || {text: "", kind: "script"});
  return true;
}

function takeExample({text, kind, words}) {
  const [, steps, seed] = /^run (\d+) (\d+)$/.exec(words) || [null, "1000", "1"];
  by("steps").value = steps;
  by("seed").value = seed;
  take(text, kind);
}

async function opened() {
  const [file] = by("open").files;
  if (!file) return;
  const bytes = new Uint8Array(await file.arrayBuffer()), kind = file.name.endsWith(".s") ? ASSEMBLY : "script";
  const text = new TextDecoder("utf-8", {ignoreBOM: true}).decode(bytes);
  by("open").value = "";
  if (chosenExercise() && !mayReplace(text)) return;
  if (!chosenExercise()) chooseOwn(OWN);
  isKept = false;
  if (bytes.length > facts.most) {
    by("kind").value = "script";
    takeLarge(bytes, file.name);
  } else take(text, kind);
  if (!chosenExercise() || large) return;
  isKept = true;
  keep();
}

function download(content, name) {
  const link = make("a");
  link.href = URL.createObjectURL(new Blob([content]));
  link.download = name;
  link.click();
  setTimeout(() => URL.revokeObjectURL(link.href), 1000);
}

function save() {
  download(large || by("text").value, isAssembly() ? "program.s" : "script.pip");
  if (isKept) keep({isSaved: true});
}
function saveImage() { if (shown.image) download(shown.image, "program.img"); }

function link() {
  if (large) { say("the text is too long for a link", true); return; }
  const exercise = chosenExercise();
  history.replaceState(null, "", "#" + by("kind").value + "=" + packed(by("text").value) + (exercise ? FOR + exercise : ""));
  const copied = navigator.clipboard ? navigator.clipboard.writeText(location.href) : Promise.reject(new Error("no clipboard"));
  copied.then(() => say("the address of this page holds the text, and was copied"), () => say("the address of this page holds the text"));
}

function notice(text) { fill("notice", text); }

// Begins with what the address says: a text, an example, an exercise, or a check of all examples
function fromAddress() {
  const told = location.hash.slice(1);
  notice("");
  if (told === "check") {
    say("checking ..");
    ask({act: "check", examples: examples.filter(example => example.out !== undefined)});
    return;
  }
  const wrong = told ? wrongAddress(told) : "";
  if (told && !wrong) return;
  goOn();
  notice(wrong);
}

// Takes what an address names; says what is wrong with it otherwise
function wrongAddress(told) {
  const [whole, exercise] = told.split(FOR), [kind, text] = whole.split("=");
  try {
    if (text === undefined || kind !== "script" && kind !== ASSEMBLY) {
      const name = decodeURIComponent(told);
      return chooseText(name) ? "" : "the address of this page ends with #" + name + ", and no example and no exercise is called so";
    }
    const found = unpacked(text);
    if (!chooseText(exercise ? "exercise " + exercise : OWN)) return "the address of this page ends with " + FOR + exercise + ", and no exercise is called so";
    take(found, kind);
    isKept = false;
    return "";
  } catch (error) {
    return "the address of this page ends with #" + told.slice(0, 40) + ", and holds no text: is it cut?";
  }
}

function fillChoice() {
  const kept = Object.keys(works()).map(name => name.slice("of ".length)).filter(name => name.startsWith(CHANGED));
  const groups = [...new Set(examples.map(({group}) => group))];
  const ofGroup = name => examples.filter(({group}) => group === name).map(example => new Option(example.exercise || example.name, example.name));
  const made = [["Yours", [OWN, ...kept].map(ownOption)], ...groups.map(name => [name, ofGroup(name)])].map(([label, options]) => {
    const group = make("optgroup", ...options);
    group.label = label;
    return group;
  });
  made[0].id = "own";
  fill("choice", ...made);
}
