// One call of the program, in a thread of its own: {module, words, text} comes, {exit, written, said} goes back. What the
// program calls of WASI (preview 1) stands here; each other function says that it isn't there.
"use strict";

const SUCCESS = 0, BADF = 8, NOSYS = 52;
const FILES = 3;
const FDSTAT_BYTES = 24;
// of a list of buffers each takes two numbers of 32 bits: where it is and how long
const BUFFER_BYTES = 8;

/** The program ends with this status. */
class Exit extends Error {
  constructor(status) {
    super(`exit status ${status}`);
    this.status = status;
  }
}

/** The functions of WASI over some bytes as standard input. `memory` is set once the program stands; `outputs` gets what it
    writes. */
class System {
  constructor(words, input) {
    const encoder = new TextEncoder();
    this.input = input;
    this.place = 0;
    this.args = ["taskgraph", ...words].map((word) => encoder.encode(`${word}\0`));
    this.outputs = new Map([[1, []], [2, []]]);
    this.memory = null;
  }

  view() {
    return new DataView(this.memory.buffer);
  }

  buffers(where, count) {
    const view = this.view();
    return Array.from({ length: count }, (_, number) => {
      const at = where + BUFFER_BYTES * number;
      return new Uint8Array(this.memory.buffer, view.getUint32(at, true), view.getUint32(at + 4, true));
    });
  }

  args_sizes_get(count, size) {
    this.view().setUint32(count, this.args.length, true);
    this.view().setUint32(size, this.args.reduce((sum, word) => sum + word.length, 0), true);
    return SUCCESS;
  }

  args_get(pointers, bytes) {
    let to = bytes;
    this.args.forEach((word, number) => {
      this.view().setUint32(pointers + 4 * number, to, true);
      new Uint8Array(this.memory.buffer).set(word, to);
      to += word.length;
    });
    return SUCCESS;
  }

  fd_read(file, where, count, result) {
    if (file !== 0) return BADF;
    let read = 0;
    for (const buffer of this.buffers(where, count)) {
      const piece = this.input.subarray(this.place, this.place + buffer.length);
      buffer.set(piece);
      this.place += piece.length;
      read += piece.length;
    }
    this.view().setUint32(result, read, true);
    return SUCCESS;
  }

  fd_write(file, where, count, result) {
    const output = this.outputs.get(file);
    if (!output) return BADF;
    const pieces = this.buffers(where, count).map((buffer) => buffer.slice());
    output.push(...pieces);
    this.view().setUint32(result, pieces.reduce((sum, piece) => sum + piece.length, 0), true);
    return SUCCESS;
  }

  // a file of no known kind, so that no stream is a terminal
  fd_fdstat_get(file, where) {
    if (file >= FILES) return BADF;
    new Uint8Array(this.memory.buffer, where, FDSTAT_BYTES).fill(0);
    return SUCCESS;
  }

  proc_exit(status) {
    throw new Exit(status);
  }

  /** What a module imports: the functions above, and of the others that they aren't there. */
  imports(module) {
    const named = WebAssembly.Module.imports(module).map(({ name }) => name);
    const of = (name) => (name in this ? (...given) => this[name](...given) : () => NOSYS);
    return { wasi_snapshot_preview1: Object.fromEntries(named.map((name) => [name, of(name)])) };
  }

  /** What the program has written to a stream. */
  bytes(file) {
    const pieces = this.outputs.get(file);
    const whole = new Uint8Array(pieces.reduce((sum, piece) => sum + piece.length, 0));
    pieces.reduce((at, piece) => {
      whole.set(piece, at);
      return at + piece.length;
    }, 0);
    return whole;
  }
}

/** Calls the program, and gives its exit status, and what it wrote and said. Where it traps the status is a text. */
function call(module, words, input) {
  const system = new System(words, input);
  const instance = new WebAssembly.Instance(module, system.imports(module));
  system.memory = instance.exports.memory;
  let exit = 0;
  try {
    instance.exports._start();
  } catch (error) {
    exit = error instanceof Exit ? error.status : `stopped: ${error.message}`;
  }
  return { exit, written: system.bytes(1), said: system.bytes(2) };
}

self.onmessage = ({ data }) => {
  const answer = call(data.module, data.words, new TextEncoder().encode(data.text));
  const text = (bytes) => new TextDecoder().decode(bytes);
  self.postMessage({ exit: answer.exit, written: text(answer.written), said: text(answer.said) });
};
