// The page: asks the program in a worker, and shows what it answers. EXAMPLES, COMMANDS and WORDS stand above.
"use strict";

const find = (id) => document.getElementById(id);
const editor = find("document");
// the longest address that is made, in characters
const LONGEST_ADDRESS = 100000;

// ---- the address has the document: compressed, in base 64 as addresses take it

async function through(stream, bytes) {
  const piped = new Blob([bytes]).stream().pipeThrough(stream);
  return new Uint8Array(await new Response(piped).arrayBuffer());
}

function base64(bytes) {
  const text = Array.from(bytes, (byte) => String.fromCharCode(byte)).join("");
  return btoa(text).replaceAll("+", "-").replaceAll("/", "_").replace(/=+$/, "");
}

function bytesOf(text) {
  return Uint8Array.from(atob(text.replaceAll("-", "+").replaceAll("_", "/")), (sign) => sign.charCodeAt(0));
}

async function packed(text) {
  return base64(await through(new CompressionStream("deflate-raw"), new TextEncoder().encode(text)));
}

async function unpacked(text) {
  return new TextDecoder().decode(await through(new DecompressionStream("deflate-raw"), bytesOf(text)));
}

async function addressOf(text) {
  const address = `#${await packed(text)}`;
  return address.length > LONGEST_ADDRESS ? location.pathname : address;
}

// ---- help: what the schema says of the word at the cursor

/** The word in quotation marks at a place of a line, or of those in the line the last one before it. */
function wordAt(text, place) {
  const start = text.lastIndexOf("\n", place - 1) + 1;
  const end = text.indexOf("\n", place);
  const line = text.slice(start, end < 0 ? text.length : end);
  const words = [...line.matchAll(/"(\w+)"/g)].filter((found) => Object.hasOwn(WORDS, found[1]));
  const before = words.filter((found) => found.index <= place - start);
  return (before.at(-1) ?? words[0])?.[1] ?? "";
}

function help() {
  const word = wordAt(editor.value, editor.selectionStart);
  find("help").textContent = word ? `${word}: ${WORDS[word].join("\n")}` : "";
}

// ---- asking

async function program() {
  const bytes = await through(new DecompressionStream("gzip"), bytesOf(find("program").textContent));
  return WebAssembly.compile(bytes);
}

const compiled = program();
const source = URL.createObjectURL(new Blob([find("worker").textContent], { type: "text/javascript" }));
let worker = null;
// how many questions were asked: while one is got ready, the next may come
let asked = 0;

function end() {
  worker?.terminate();
  worker = null;
  find("stop").disabled = true;
}

function show(state, { exit = null, written = "", said = "" } = {}) {
  const isPage = written.startsWith("<!");
  find("state").textContent = state;
  find("written").className = exit === null ? "" : exit === 0 ? "yes" : "no";
  find("written").textContent = isPage ? "" : written;
  find("written").hidden = isPage;
  find("page").hidden = !isPage;
  find("page").srcdoc = isPage ? written : "";
  find("said").textContent = said;
}

async function ask() {
  end();
  show("asking");
  const number = ++asked;
  const text = editor.value;
  const words = COMMANDS[find("command").value];
  const address = await addressOf(text);
  const module = await compiled;
  if (number !== asked) return;
  history.replaceState(null, "", address);
  const started = performance.now();
  worker = new Worker(source);
  find("stop").disabled = false;
  worker.onmessage = ({ data }) => {
    end();
    const ended = typeof data.exit === "number" ? `exit status ${data.exit}` : data.exit;
    show(`${ended}, ${Math.round(performance.now() - started)} ms`, data);
  };
  worker.onerror = (event) => {
    end();
    show(`failed: ${event.message}`, { exit: "failed" });
  };
  worker.postMessage({ module, words, text });
}

function take(text) {
  editor.value = text;
  editor.setSelectionRange(0, 0);
  help();
  return ask();
}

// ---- the beginning

for (const name of Object.keys(EXAMPLES)) find("example").append(new Option(name));
for (const name of Object.keys(COMMANDS)) find("command").append(new Option(name));
find("example").onchange = () => take(EXAMPLES[find("example").value]);
find("command").onchange = ask;
find("file").onchange = async () => take(await find("file").files[0].text());
find("asking").onsubmit = (event) => {
  event.preventDefault();
  ask();
};
find("stop").onclick = () => {
  end();
  show("stopped");
};
for (const name of ["keyup", "click", "input"]) editor.addEventListener(name, help);
editor.ondragover = (event) => {
  event.preventDefault();
  editor.classList.add("over");
};
editor.ondragleave = () => editor.classList.remove("over");
editor.ondrop = async (event) => {
  event.preventDefault();
  editor.classList.remove("over");
  const [file] = event.dataTransfer.files;
  take(file ? await file.text() : event.dataTransfer.getData("text"));
};

async function begin() {
  const address = location.hash.slice(1);
  try {
    await take(address ? await unpacked(address) : EXAMPLES[find("example").value]);
  } catch (error) {
    show(`the address has no document: ${error.message}`);
  }
}
window.onhashchange = begin;
begin();
