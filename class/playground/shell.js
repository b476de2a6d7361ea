// A small shell: what the sessions of the documents use of one. Its commands are the programs, the lab's as ./lab and pip by any other name of
// the top of a checkout, and a few of a system's; a source of tools/asmx was assembled when the page was made.
"use strict";

class CannotRun extends Error {}
// A pattern of grep and sed as one of this language: what has a meaning with a backslash there has it here without
function patternOf(told, flags = "m") {
  return new RegExp(told.replace(/\\?[+?(){}|]|\\n/g, sign => sign === "\\n" ? "\\n" : sign.length === 2 ? sign[1] : "\\" + sign), flags);
}

function wordsOf(command) {
  const tokens = [], at = /\s*(?:([|;])|(<|>)|((?:'[^']*'|"[^"]*"|\\.|[^\s'"|;<>\\])+))/y;
  while (at.lastIndex < command.trimEnd().length) {
    const found = at.exec(command);
    if (!found) throw new CannotRun("this page can't read the command");
    if (found[3] === undefined) tokens.push({sign: found[1] || found[2]});
    else tokens.push({word: found[3].replace(/'([^']*)'|"([^"]*)"|\\(.)/g, (_, a, b, c) => a ?? b ?? c)});
  }
  return tokens;
}

const linesIn = bytes => decoder.decode(bytes).replace(/\n$/, "").split("\n").slice(bytes.length ? 0 : 1);
const linesOut = lines => encoder.encode(lines.map(line => line + "\n").join(""));

const programs = {
  cat: (words, input, shell) => words.length ? joined(words.map(name => name === "-" ? input : shell.read(name))) : input,
  echo: (words, _, shell) => encoder.encode(words.map(word => word.replace("$?", shell.status)).join(" ") + "\n"),
  printf: ([form]) => encoder.encode(form.replace(/\\n/g, "\n")),
  tail: (words, input, shell) => linesOut(linesGiven(words, input, shell).slice(-countOf(words))),
  head: (words, input, shell) => linesOut(linesGiven(words, input, shell).slice(0, countOf(words))),
  grep(words, input, shell) {
    const patterns = [], options = [];
    let after = 0;
    for (let k = 0; k < words.length; k++) {
      if (words[k] === "-e") patterns.push(words[++k]);
      else if (words[k] === "-A") after = Number(words[++k]);
      else if (words[k].startsWith("-")) options.push(words[k]);
      else patterns.push(words[k]);
    }
    if (patterns.length > 1 && !words.includes("-e")) input = shell.read(patterns.pop());
    const tests = patterns.map(told => patternOf(told)), isKept = line => tests.some(test => test.test(line)) !== options.includes("-v");
    const all = linesIn(input), kept = all.filter((_, at) => all.slice(Math.max(0, at - after), at + 1).some(isKept));
    return options.includes("-c") ? linesOut([String(kept.length)]) : linesOut(kept);
  },
  sed(words, input, shell) {
    const [told, ...names] = words, gone = /^\/(.*)\/d$/.exec(told), lines = linesIn(names.length ? shell.read(names[0]) : input);
    if (gone) return linesOut(lines.filter(line => !patternOf(gone[1]).test(line)));
    const found = /^s(.)((?:\\.|(?!\1).)*)\1((?:\\.|(?!\1).)*)\1(g?)$/.exec(told);
    if (!found) throw new CannotRun("this page's sed has s/../../ and /../d alone");
    const by = whole => found[3].replace(/\\n|\\.|&/g, sign => sign === "&" ? whole : sign === "\\n" ? "\n" : sign[1]);
    return linesOut(lines.map(line => line.replace(patternOf(found[2], found[4]), by)));
  },
  wc: (words, input) => linesOut([String(linesIn(input).length)]),
  "tools/asmx"([name], _, shell) {
    if (!Object.hasOwn(shell.files, "asmx:" + name)) throw new CannotRun("this page has no assembled text of " + name);
    return encoder.encode(shell.files["asmx:" + name]);
  },
};
// How many lines head and tail show, `-n 3` or `-3`, and of what
const countOf = words => Number((/(?:^| )-(?:n ?)?(\d+)/.exec(words.join(" ")) || [0, "10"])[1]);
function linesGiven(words, input, shell) {
  const name = words.find((word, at) => !word.startsWith("-") && words[at - 1] !== "-n");
  return linesIn(name === undefined ? input : shell.read(name));
}
const joined = parts => { const written = new Written(); parts.forEach(part => written.take(part)); return written.bytes(); };

class Shell {
  constructor(files) { this.files = files; this.status = 0; }
  read(name) {
    if (!Object.hasOwn(this.files, name)) throw new CannotRun("this page has no file " + name);
    const found = this.files[name];
    return typeof found === "string" ? encoder.encode(found) : found;
  }
  stage(words, input) {
    let [name, ...rest] = words;
    if (name.startsWith("./")) {
      if (rest[0] === "--unproved") rest = rest.slice(1);
      const done = run(engine, rest.join(" "), input, () => {}, name === "./lab" ? "lab" : "run");
      this.status = done.status;
      return done.bytes;
    }
    if (!Object.hasOwn(programs, name)) throw new CannotRun("this page has no command " + name);
    this.status = name === "echo" ? this.status : 0;
    return programs[name](rest, input, this);
  }
  command(told) {
    const shown = [];
    let words = [], input = new Uint8Array(), to = null, sign = null;
    const finish = () => { if (words.length) input = this.stage(words, input); words = []; };
    const close = () => {
      finish();
      if (to) this.files[to] = input; else shown.push(input);
      [input, to] = [new Uint8Array(), null];
    };
    for (const token of wordsOf(told)) {
      if (token.sign === "|") finish();
      else if (token.sign === ";") close();
      else if (token.sign) sign = token.sign;
      else if (sign === "<") { input = this.read(token.word); sign = null; }
      else if (sign === ">") { to = token.word; sign = null; }
      else words.push(token.word);
    }
    close();
    return joined(shown);
  }
}
