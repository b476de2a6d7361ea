// node states.mjs MODULE COUNT < SCRIPT  the states after the first COUNT lines of a script that have an answer, one a line, as JSON: what the
// page shows of them.
import fs from "node:fs";
import vm from "node:vm";

const folder = new URL(".", import.meta.url);
for (const name of ["engine.js", "walk.js", "answers.js"]) vm.runInThisContext(fs.readFileSync(new URL(name, folder), "utf8"));
const [path, count] = process.argv.slice(2);
const engine = new Engine(await WebAssembly.compile(fs.readFileSync(path)));
const text = fs.readFileSync(0);
const beside = answersBeside(text, run(engine, "script", text));
const known = {};
for (let k = 0; k < Math.min(count, beside.answered.length); k++) {
    const told = stateAfter(engine, beside, k, k * 7 % beside.frames, known);
    process.stdout.write(JSON.stringify(told) + "\n");
}
