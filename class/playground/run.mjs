// node run.mjs MODULE WORD ..  runs the module as the program of that command: standard input, standard output, status. 99 says that it ended by a trap.
import fs from "node:fs";
import vm from "node:vm";

const folder = new URL(".", import.meta.url);
vm.runInThisContext(fs.readFileSync(new URL("engine.js", folder), "utf8"));
const [path, ...words] = process.argv.slice(2);
const engine = new Engine(await WebAssembly.compile(fs.readFileSync(path)));
const {status, bytes} = run(engine, words.join(" "), fs.readFileSync(0));
for (let done = 0; done < bytes.length;) done += fs.writeSync(1, bytes, done);
process.exitCode = status;
