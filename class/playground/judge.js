// Why a line of a script is bad: the column and what is there, as tools/asmx --check says it, with the row of docs/FORMATS.md. `facts` has the rows.
"use strict";
const NUMBER = /^(0|[1-9][0-9]*|0x[0-9a-f]{1,8})$/, MOST_WORD = 2 ** 32;

const cause = (name, column, here, act = "") => ({name, column, here, act});
const quoted = word => "'" + word + "'";
const inUpperCase = (column, word) => cause("case", column, quoted(word) + " has a letter in upper case", "write it in lower case: `" + word.toLowerCase() + "`");
const wordsAt = line => {
  let column = 1;
  return line.split(" ").map(word => { const found = [column, word]; column += encoder.encode(word).length + 1; return found; });
};

// What is wrong with a line whatever its form is
function judgeBytes(line, place) {
  const count = encoder.encode(line).length;
  if (count > LONGEST) return cause("long", LONGEST + 1, "the line has " + count + " bytes");
  if (place === 1 && line.startsWith("\ufeff")) return cause("mark", 1, "the file begins with a byte order mark");
  if (line.endsWith("\r")) return cause("return", count, "the line ends with a carriage return");
  const remark = line.indexOf(" #");
  if (remark >= 0) return cause("remark", remark + 2, "a remark begins after the line's words");
  const space = /^ | {2}| $|[\t\v\f]/.exec(line);
  if (!space) return null;
  const what = {" ": "a space", "  ": "two spaces"}[space[0]] || "a tab";
  const where = space.index === 0 ? " at the beginning" : space.index + space[0].length === line.length ? " at the end" : "";
  return cause("spaces", space.index + 1, what + where);
}

function judgeNumber([column, word]) {
  if (!NUMBER.test(word)) {
    if (/[A-Z]/.test(word)) return inUpperCase(column, word);
    if (/^0x[0-9a-f]{9,}$/.test(word)) return cause("large", column, quoted(word) + " has more than eight digits");
    return cause("number", column, quoted(word) + " is no number");
  }
  return word.length > 10 || Number(word) >= MOST_WORD ? cause("large", column, quoted(word) + " is above 4294967295") : null;
}

function judgeName(name) {
  if (Object.hasOwn(facts.forms, name)) return null;
  if (/[A-Z]/.test(name)) return inUpperCase(1, name);
  const near = closest(name, Object.keys(facts.forms)).join(" or ");
  return cause("form", 1, "no line begins with " + quoted(name) + (near ? "; did you mean " + near + "?" : ""));
}

// `2 numbers, and here is 1`
const andHere = (due, what, count) => due + " " + what + (due === 1 ? "" : "s") + ", and here " + (count === 1 ? "is 1" : count ? "are " + count : "is none");

function judgeCount(name, operands, end) {
  const form = facts.forms[name], least = name === "call" ? 2 : form.length, most = name === "call" ? 7 : form.length;
  if (least <= operands.length && operands.length <= most) return null;
  const column = operands.length > most ? operands[most][0] : end + 1;
  return cause("count", column, name + " has " + andHere(least === most ? least : least + " to " + most, "number", operands.length));
}

function judgeBoot([column, word], k) {
  const [least, most] = [[16, 4096], [1, 4]][k], value = Number(word);
  return value < least || value > most ? cause("boot", column, value + " isn't from " + least + " to " + most) : null;
}

// A limit of a form is what its number is below; that of a processor's number is null
function judgeValue([column, word], limit, cpus) {
  const value = Number(word);
  if (limit === null) return value < cpus ? null : cause("processor", column, "there is no processor " + value + ": the machine has " + cpus);
  return value < limit ? null : cause("range", column, value + " is above " + (limit - 1));
}

const firstOf = found => found.find(one => one) || null;

// Why line `place` is bad. The lines above it are good.
function judge(lines, place) {
  const line = lines[place - 1], [[, name], ...operands] = wordsAt(line), booted = lines.slice(0, place - 1).find(above => !isBlank(above));
  const found = judgeBytes(line, place) || judgeName(name) || firstOf(operands.map(judgeNumber));
  if (found) return found;
  if ((name === "boot") === (booted !== undefined)) {
    return cause("second", 1, booted ? "the machine was begun before" : "no machine was begun before");
  }
  const counted = judgeCount(name, operands, line.length);
  if (counted) return counted;
  if (name === "boot") return firstOf(operands.map(judgeBoot));
  const limits = name === "call" ? [null] : facts.forms[name];
  return firstOf(limits.map((limit, k) => judgeValue(operands[k], limit, Number(booted.split(" ")[2]))));
}

// What is said of a bad line: its place, what is there, the rule, and what to do. Of a text that is assembled the program says the kind
function explained(lines, place, kind = "") {
  const found = kind ? judgeAssembly(lines, place, kind) : judge(lines, place);
  if (!found) return {place, column: null, here: "the program refuses this line", rule: "", act: ""};
  const [, rule, act] = facts.causes[found.name];
  return {place, column: found.column, here: found.here, rule, act: found.act || act || ""};
}
