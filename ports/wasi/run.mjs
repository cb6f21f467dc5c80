// usage: node run.mjs taskgraph.wasm WORD..      the program under Node's WASI, on standard input and output
import { readFileSync } from "node:fs";
import { argv, exit } from "node:process";
import { WASI } from "node:wasi";

// the exit status that stands for a trap, as a signal ends the program on Linux: 128 + SIGABRT
const ABORTED = 134;

const [file, ...words] = argv.slice(2);
const module = new WebAssembly.Module(readFileSync(file));
const wasi = new WASI({ version: "preview1", args: ["taskgraph", ...words], returnOnExit: true });
let status = ABORTED;
try {
  status = wasi.start(new WebAssembly.Instance(module, wasi.getImportObject()));
} catch (error) {
  if (!(error instanceof WebAssembly.RuntimeError)) throw error;
}
exit(status);
