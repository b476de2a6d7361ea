// The program for a page: the module in a worker beside it, loaded when something is asked for first. engine.js, which class/site has
// made, holds the module, the worker's text, the files of examples/, and what the documents say.
"use strict";
const INNER = ["progress", "answers", "run"];      // the parts of what the worker says that are followed by another one
const NO_ENGINE = "engine.js, which belongs beside this page, can't be read";
let facts = null, files = null, compiled = null;   // once it is loaded

const loaded = name => new Promise((good, bad) => document.head.append(Object.assign(document.createElement("script"), {src: name, onload: good, onerror: bad})));

// What is zipped and in the letters of base64
async function unzipped(letters) {
  const bytes = Uint8Array.from(atob(letters), letter => letter.charCodeAt(0));
  return new Response(new Blob([bytes]).stream().pipeThrough(new DecompressionStream("gzip"))).arrayBuffer();
}

class Program {
  constructor() {
    this.worker = this.loading = null;
    this.number = 0;
    this.waiting = new Map();
  }

  load() {
    this.loading = this.loading || this.unpacked();
    return this.loading;
  }

  async unpacked() {
    await loaded("engine.js");
    const [module, source, known, texts] = await Promise.all(["module", "worker", "facts", "files"].map(name => unzipped(window.engine[name])));
    const read = bytes => new TextDecoder().decode(bytes);
    [facts, files, compiled] = [JSON.parse(read(known)), JSON.parse(read(texts)), await WebAssembly.compile(module)];
    this.source = URL.createObjectURL(new Blob([source], {type: "text/javascript"}));
  }

  start() {
    this.worker = new Worker(this.source);
    this.worker.onmessage = ({data: told}) => this.take(told);
    this.worker.onerror = event => this.stop(event.message);
    this.worker.postMessage({act: "begin", module: compiled, facts, files});
  }

  take(told) {
    const {inner, last} = this.waiting.get(told.id);
    if (INNER.includes(told.part)) { inner(told); return; }
    this.waiting.delete(told.id);
    last(told);
  }

  // Asks for something: `inner` takes the parts of the answer before its last
  async ask(what, inner = () => {}) {
    await this.load();
    if (!this.worker) this.start();
    return new Promise(last => {
      this.waiting.set(++this.number, {inner, last});
      this.worker.postMessage({...what, id: this.number});
    });
  }

  // Gives up what is asked for
  stop(why = "stopped") {
    if (this.worker) this.worker.terminate();
    this.worker = null;
    const waiting = [...this.waiting.values()];
    this.waiting.clear();
    waiting.forEach(({last}) => last({part: "stopped", why}));
  }
}
const program = new Program();
