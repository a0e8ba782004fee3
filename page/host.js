// Runs a module of `host.c` once: words and files go in, a status and what was written come out. The module imports nothing, so it can
// only compute. In a page this is a part of the worker; a test loads the same file in Node.
"use strict";

/** Puts bytes into the module's memory: their place. Memory moves as it grows, so no view of it is kept. */
function putInto(calls, bytes) {
  const place = calls.room(bytes.length) >>> 0;
  if (place === 0) throw new RangeError("the module's memory is full");
  new Uint8Array(calls.memory.buffer).set(bytes, place);
  return place;
}

/** What the module has written to a stream: standard output is 1, standard error 2. */
function writtenTo(calls, stream) {
  const place = calls.written(stream) >>> 0;
  return new Uint8Array(calls.memory.buffer).slice(place, place + (calls.written_size(stream) >>> 0));
}

/** Runs a compiled module with these words, the program's name first, and these files, each a pair of a name and its bytes. */
function runModule(module, words, files) {
  const calls = new WebAssembly.Instance(module, {}).exports;
  const encoder = new TextEncoder();
  const put = (bytes) => [putInto(calls, bytes), bytes.length];
  for (const word of words)
    if (!calls.add_word(...put(encoder.encode(word)))) throw new RangeError("too many words");
  for (const [name, bytes] of files)
    if (!calls.add_file(...put(encoder.encode(name)), ...put(bytes))) throw new RangeError("too many files");
  const status = calls.run();
  return { status, out: writtenTo(calls, 1), err: writtenTo(calls, 2) };
}

if (typeof module !== "undefined") module.exports = { runModule };
