// usage: node serve.mjs taskgraph.wasm
// Reads calls on standard input, one on a line: {"words": [..], "stdin": PATH, "stdout": PATH, "stderr": PATH}. After each it
// writes the exit status on a line. The program is compiled once for all of them, and called as the page calls it. (Node's own
// WASI has been seen to end Node by a signal where it is made anew many times in one process.)
import { openSync, readFileSync, readSync, writeFileSync, writeSync } from "node:fs";
import { argv } from "node:process";
import { runInThisContext } from "node:vm";

// the exit status that stands for a trap, as a signal ends the program on Linux: 128 + SIGABRT
const ABORTED = 134;

globalThis.self = globalThis;
runInThisContext(readFileSync(new URL("../page/worker.js", import.meta.url), "utf8"));
const module = new WebAssembly.Module(readFileSync(argv[2]));
// (opened once more, since Node's own streams don't wait)
const [requests, statuses] = [openSync("/dev/stdin", "r"), openSync("/dev/stdout", "w")];

/** The lines of standard input, each as soon as it is there. */
function* lines() {
  const room = Buffer.alloc(1 << 16);
  let rest = "";
  for (let read = readSync(requests, room); read > 0; read = readSync(requests, room)) {
    rest += room.toString("utf8", 0, read);
    for (let end = rest.indexOf("\n"); end >= 0; end = rest.indexOf("\n")) {
      yield rest.slice(0, end);
      rest = rest.slice(end + 1);
    }
  }
}

for (const line of lines()) {
  const { words, stdin, stdout, stderr } = JSON.parse(line);
  const { exit, written, said } = globalThis.call(module, words, readFileSync(stdin));
  writeFileSync(stdout, written);
  writeFileSync(stderr, said);
  writeSync(statuses, `${typeof exit === "number" ? exit : ABORTED}\n`);
}
