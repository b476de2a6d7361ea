// Why a line of an assembly text is refused, by the kind that the program says: the column and what is there, as tools/asmx --check says it.
// `facts.assembly` has what each word that begins a line takes.
"use strict";
const REGISTER = /^r([0-9]|1[0-5])$/, LABEL = /^[A-Za-z_][A-Za-z0-9_]{0,31}$/, NEGATIVE = /^-[1-9][0-9]*$/, SIGNED = /^-?(0x[0-9a-f]+|[0-9]+)$/;
const LIKENESS = 0.6, MOST_MEANT = 2;

const isNumber = word => NUMBER.test(word) && word.length <= 10 && Number(word) < MOST_WORD;
const isSigned = word => isNumber(word) || NEGATIVE.test(word);
const takes = {
  register: word => REGISTER.test(word), number: isNumber, signed: isSigned,
  word: word => isNumber(word) || LABEL.test(word),
  half: word => isNumber(word) || /^[<>]/.test(word) && LABEL.test(word.slice(1)),
  distance: word => isSigned(word) || LABEL.test(word),
};

// Of a line: its words with their columns
function wrongOperand(words, line) {
  const [[, name], ...operands] = words, due = facts.assembly.operands[name] || [];
  const wrong = operands.find(([, word], k) => k < due.length && !takes[due[k]](word));
  if (wrong && takes[due[operands.indexOf(wrong)]](wrong[1].toLowerCase())) return inUpperCase(...wrong);
  if (wrong) return [wrong[0], quoted(wrong[1]) + " isn't " + facts.assembly.called[due[operands.indexOf(wrong)]] + hint(wrong[1])];
  const column = operands.length > due.length ? operands[due.length][0] : encoder.encode(line).length + 1;
  return [column, name + " has " + andHere(due.length, "operand", operands.length)];
}

function wrongRange(words) {
  const name = words[0][1], [column, word] = name.startsWith(".") ? words[1] : words[words.length - 1];
  if (!SIGNED.test(word)) return [column, quoted(word) + " is too far away"];
  return [column, quoted(word) + " is outside the limits, which are " + (facts.assembly.limits[name] || "those of the table")];
}

const wrongName = words => [words[words.length - 1][0], "no line defines " + quoted(words[words.length - 1][1].replace(/^[<>]+/, ""))];
const wrongTwice = words => [words[words.length - 1][0], quoted(words[words.length - 1][1].replace(/:+$/, "")) + " was defined before"];

// Why no line begins with this word there
function unknownWord(word) {
  const {operands, ofAsmx, like} = facts.assembly, isOne = name => Object.hasOwn(operands, name) && !name.startsWith(".");
  const unknown = (here, act) => cause("asm unknown", 1, here, act);
  if (isOne(word.toLowerCase()) && !isOne(word)) return inUpperCase(1, word);
  const isOfPage = isOne(word) || [".word", ".zero"].includes(word) || word.endsWith(":") && LABEL.test(word.slice(0, -1));
  if (isOfPage) return cause("asm place", 1, quoted(word) + " stands in a page, and no .page is above it");
  if (Object.hasOwn(operands, word)) return cause("asm place", 1, quoted(word) + " doesn't stand here");
  if (word.endsWith(":")) return unknown(quoted(word.slice(0, -1)) + " is no good name", "a name has 1 to 32 letters, digits or `_`, no digit first");
  if (ofAsmx.includes(word)) return unknown("no line of an assembly text begins with " + quoted(word), "`" + word + "` is of a source of `tools/asmx`, which writes an assembly text");
  const isLine = word.startsWith("."), names = Object.keys(operands).filter(name => isLine ? name.startsWith(".") : isOne(name));
  const near = Object.hasOwn(like, word) ? [word] : closest(word, isLine ? names : [...names, ...Object.keys(like)]);
  const meant = [...new Set(near.map(name => like[name] || name))].join(" or ");
  const what = isLine ? "no line begins with " + quoted(word) : quoted(word) + " is no instruction";
  return unknown(what + (meant ? "; did you mean " + meant + "?" : hint(word)));
}

// What to do about a sign that other assemblers have
const hint = word => facts.assembly.signs.filter(([sign]) => word.includes(sign)).map(([, told]) => ": " + told)[0] || "";

// What is wrong with line `place`, of this kind
function judgeAssembly(lines, place, kind) {
  if (place > lines.length) return cause("asm head", 1, "the text ends before its two header lines, .frames and .cpus");
  const line = lines[place - 1], found = ["unknown", "operand"].includes(kind) ? judgeBytes(line, place) : null;
  if (found) return found;
  const words = wordsAt(line), [, last] = words[words.length - 1];
  if (kind === "unknown") return unknownWord(words[0][1]);
  const judges = {operand: wrongOperand, range: wrongRange, label: wrongName, twice: wrongTwice, size: () => [1, "the page has 1024 words"]};
  const isFar = kind === "range" && facts.assembly.distances.includes(words[0][1]) && !SIGNED.test(last);
  const wrong = judges[kind](words, line);
  return Array.isArray(wrong) ? cause(isFar ? "asm distance" : "asm " + kind, ...wrong) : wrong;
}

// Words like another one: the likeness is twice the letters of common pieces by all letters

function closest(word, names) {
  const told = names.map(name => [likeness(name, word), name]).filter(([score]) => score >= LIKENESS);
  return told.sort(([a, x], [b, y]) => b - a || (x < y ? 1 : -1)).slice(0, MOST_MEANT).map(([, name]) => name);
}
const likeness = (a, b) => a.length + b.length ? 2 * common(a, b) / (a.length + b.length) : 1;

// The letters of the longest common piece, and of those before and after it
function common(a, b) {
  const [i, j, size] = longestPiece(a, b);
  return size ? size + common(a.slice(0, i), b.slice(0, j)) + common(a.slice(i + size), b.slice(j + size)) : 0;
}

// The first of the longest common pieces: where it is, and how long
function longestPiece(a, b) {
  const sizeAt = (i, j) => { let size = 0; while (i + size < a.length && a[i + size] === b[j + size]) size++; return size; };
  const places = [...a].flatMap((_, i) => [...b].map((_, j) => [i, j, sizeAt(i, j)]));
  return places.reduce((best, found) => found[2] > best[2] ? found : best, [0, 0, 0]);
}
