// The module of both programs: a run with all its input, and one whose input is given line by line by what its answers say.
"use strict";
const TRAP = 99;                                   // the status of a run that ended by a trap
const FRAME_BYTES = 4096;
const LAB = ["slots", "every", "against", "apart", "part", "merge"];       // the commands of the lab's program
const encoder = new TextEncoder(), decoder = new TextDecoder("utf-8", {ignoreBOM: true});

// An instance of a module, for one run after the other: what was given in a run before is taken back.
class Engine {
  constructor(module) {
    this.module = module;
    this.made = null;
  }

  instance() {
    const bytes = (at, count) => new Uint8Array(this.made.memory.buffer, at >>> 0, count >>> 0);
    const host = {read: (at, count) => this.read(bytes(at, count)), write: (at, count) => this.write(bytes(at, count))};
    this.made = this.made || new WebAssembly.Instance(this.module, {host}).exports;
    this.made.afresh();
    return this.made;
  }

  // Where bytes are in the memory, for one call
  put(made, bytes) {
    const at = made.room(bytes.length) >>> 0;
    new Uint8Array(made.memory.buffer).set(bytes, at);
    return at;
  }

  // A run of `words`, which reads by `read(buffer)` and writes by `write(bytes)`: its status. Pip's program is `run`, the lab's `lab`; without
  // one it is that of the command
  command(words, read, write, program = LAB.includes(words.split(" ")[0]) ? "lab" : "run") {
    Object.assign(this, {read, write});
    const made = this.instance(), head = encoder.encode(words);
    try {
      return made[program](this.put(made, head), head.length);
    } catch (failed) {
      this.made = null;
      if (!(failed instanceof WebAssembly.RuntimeError)) throw failed;
      return TRAP;
    }
  }

  // What the judge answers to a request
  judge(request) {
    const written = new Written();
    this.write = bytes => written.take(bytes);
    const made = this.instance(), bytes = encoder.encode(request);
    try {
      made.judge(this.put(made, bytes), bytes.length);
    } catch (failed) {
      this.made = null;
      throw failed;
    }
    return decoder.decode(written.bytes());
  }

  // The first step of an image's run, from `from` on and before `end`, that runs a word of a frame; -1 where none does
  reach(image, seed, from, end, frame, index) {
    const made = this.instance();
    return made.reach(this.put(made, image), image.length, seed, from, end, frame, index);
  }

  // The words of frames, from `first` on, of the machine that the last run handed back, one frame after the other
  frames(count, first = 0) {
    const at = this.made.room(FRAME_BYTES * count) >>> 0, found = this.made.frames(first, count, at) >>> 0;
    return new Uint32Array(this.made.memory.buffer, at, FRAME_BYTES / 4 * found).slice();
  }

  // A register of what runs on a processor of it
  register(cpu, number) { return Number(this.made.register(cpu, number)); }
}

// A source of bytes in memory, which says after each piece how many were given.
function given(input, told) {
  let done = 0;
  return buffer => {
    const piece = input.subarray(done, done + buffer.length);
    buffer.set(piece);
    done += piece.length;
    told(done);
    return piece.length;
  };
}

class Written {
  constructor() { this.pieces = []; this.count = 0; }
  take(bytes) { this.pieces.push(bytes.slice()); this.count += bytes.length; }
  bytes() {
    const all = new Uint8Array(this.count);
    this.pieces.reduce((at, piece) => { all.set(piece, at); return at + piece.length; }, 0);
    return all;
  }
}

// A run with all its input: the status, and the bytes that were written.
function run(engine, words, input, told = () => {}, program) {
  const written = new Written();
  const status = engine.command(words, given(input, told), bytes => written.take(bytes), program);
  return {status, bytes: written.bytes()};
}

// A script that `speaker` says: a generator that yields lines, and gets the text of their answers. Answers what it returns, or
// null where the script ended before it.
function converse(engine, speaker) {
  let written = new Written(), next = speaker.next(), read = null;
  const pieceOf = said => given(encoder.encode(said), () => {});
  engine.command("script", buffer => {
    let count = read ? read(buffer) : 0;
    while (count === 0 && !next.done) {
      if (read) next = speaker.next(decoder.decode(written.bytes()));
      written = new Written();
      read = next.done ? null : pieceOf(next.value);
      count = read ? read(buffer) : 0;
    }
    return count;
  }, bytes => written.take(bytes));
  return next.done ? next.value : null;
}
