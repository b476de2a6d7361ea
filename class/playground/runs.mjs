// node runs.mjs MODULE FACTS SEED COUNT .. < TEXT  the states of a run of an assembly text after that many steps each, one a line, as JSON:
// what the page shows of them. FACTS is what the page knows.
import fs from "node:fs";
import vm from "node:vm";

const folder = new URL(".", import.meta.url);
for (const name of ["engine.js", "walk.js", "answers.js", "runs.js"]) vm.runInThisContext(fs.readFileSync(new URL(name, folder), "utf8"));
const [path, known, seed, ...counts] = process.argv.slice(2);
const engine = new Engine(await WebAssembly.compile(fs.readFileSync(path)));
globalThis.facts = JSON.parse(fs.readFileSync(known, "utf8"));
const text = fs.readFileSync(0), image = run(engine, "asm", text).bytes, kept = {};
for (const count of counts.map(Number)) {
    const told = stateOfRun(engine, text.toString(), image, count, Number(seed), count * 7 % 16, kept);
    process.stdout.write(JSON.stringify(told) + "\n");
}
