// node asked.mjs ENGINE < REQUESTS  what the worker of a site says to each request, one a line, as JSON: a list of its parts. ENGINE is the
// site's engine.js, and the worker is the one in it.
import fs from "node:fs";
import readline from "node:readline";
import vm from "node:vm";
import zlib from "node:zlib";

globalThis.window = {};
vm.runInThisContext(fs.readFileSync(process.argv[2], "utf8"));
const part = name => zlib.gunzipSync(Buffer.from(window.engine[name], "base64"));
const told = [];
Object.assign(globalThis, {onmessage: null, postMessage: one => told.push(one)});
vm.runInThisContext(part("worker").toString());
onmessage({data: {act: "begin", module: await WebAssembly.compile(part("module")), facts: JSON.parse(part("facts")), files: JSON.parse(part("files"))}});
for await (const line of readline.createInterface({input: process.stdin})) {
    told.length = 0;
    onmessage({data: JSON.parse(line)});
    process.stdout.write(JSON.stringify(told, (name, value) => value instanceof Uint8Array ? value.length : value) + "\n");
}
