// node why.mjs MODULE FACTS KIND FILE ..  what the page says of each text that is refused, one a line, as JSON; KIND is script or asm, and
// FACTS is what the page knows.
import fs from "node:fs";
import vm from "node:vm";

const folder = new URL(".", import.meta.url);
for (const name of ["engine.js", "walk.js", "answers.js", "judge.js", "assembly.js"]) vm.runInThisContext(fs.readFileSync(new URL(name, folder), "utf8"));
const [path, known, kind, ...files] = process.argv.slice(2);
const engine = new Engine(await WebAssembly.compile(fs.readFileSync(path)));
globalThis.facts = JSON.parse(fs.readFileSync(known, "utf8"));

function ofAssembly(text) {
    const found = /bad line (\d+) (\w+)\n$/.exec(decoder.decode(run(engine, "asm", text).bytes));
    return found && explained(linesOfText(decoder.decode(text)), Number(found[1]), found[2]);
}

function ofScript(text) {
    const {lines, bad} = answersBeside(text, run(engine, "script", text));
    return bad === null ? null : explained(lines, bad);
}

for (const file of files) process.stdout.write(JSON.stringify((kind === "asm" ? ofAssembly : ofScript)(fs.readFileSync(file))) + "\n");
