// Runs the worker of the page under Node: node tests/page.js WORKER EXPLAIN CHECKER. Each line of standard input is a job, with bytes in
// base64: a program with words and files, or a script for the worker. Each line of standard output is what came of one.
"use strict";

const fs = require("fs");
const readline = require("readline");
const vm = require("vm");

const [source, explain, checker] = process.argv.slice(2);
const heard = [];
const context = vm.createContext({ WebAssembly, TextDecoder, TextEncoder, postMessage: (data) => heard.push(data), onmessage: null });
vm.runInContext(fs.readFileSync(source, "utf8"), context);

async function done(job) {
  const bytes = (text) => Uint8Array.from(Buffer.from(text, "base64"));
  if (job.script !== undefined) {
    heard.length = 0;
    await context.onmessage({ data: { number: 1, script: bytes(job.script) } });
    return { heard: heard.map((data) => ({ ...data, verdict: data.verdict && { ...data.verdict, certificate: undefined, checked: undefined } })) };
  }
  const files = Object.entries(job.files).map(([name, text]) => [name, bytes(text)]);
  try {
    const { status, out, err } = context.runModule(vm.runInContext("programs", context)[job.program], job.words, files);
    return { status, out: Buffer.from(out).toString("base64"), err: Buffer.from(err).toString("base64") };
  } catch (error) {
    return { stopped: String(error) };
  }
}

async function main() {
  await context.onmessage({ data: { modules: { explain: fs.readFileSync(explain), checker: fs.readFileSync(checker) } } });
  for await (const line of readline.createInterface({ input: process.stdin })) console.log(JSON.stringify(await done(JSON.parse(line))));
}

main();
