// node judge.mjs MODULE < REQUESTS  what the module's judge answers to requests, one a line, as JSON.
import fs from "node:fs";
import readline from "node:readline";
import vm from "node:vm";

vm.runInThisContext(fs.readFileSync(new URL("engine.js", new URL(".", import.meta.url)), "utf8"));
const engine = new Engine(await WebAssembly.compile(fs.readFileSync(process.argv[2])));
for await (const line of readline.createInterface({input: process.stdin})) process.stdout.write(JSON.stringify(engine.judge(JSON.parse(line))) + "\n");
