// Answers one script at a time, behind `host.js`. The page ends this worker to cancel, and starts another one.
"use strict";

const NAME = "script.sed";
const CERTIFICATE = "script.cert";
const programs = {};

function asText(bytes) {
  return new TextDecoder("utf-8", { ignoreBOM: true }).decode(bytes);
}

/** The report of the large module, and what the small one makes of its own certificate: `check` runs in an instance of its own. */
function verdictOn(script) {
  const report = runModule(programs.explain, ["sedck-explain", "--format", "json", NAME], [[NAME, script]]);
  const rank = runModule(programs.checker, ["sedck", "rank", NAME], [[NAME, script]]);
  const answer = { report: asText(report.out), reportStatus: report.status, said: asText(report.err) + asText(rank.err), rankStatus: rank.status };
  if (rank.status !== 0) return answer;
  const check = runModule(programs.checker, ["sedck", "check", NAME, CERTIFICATE], [[NAME, script], [CERTIFICATE, rank.out]]);
  return { ...answer, certificate: rank.out, checkStatus: check.status, checked: check.out };
}

/** The graph, and for an accepted script its plain spelling. */
function restOf(script, isAccepted) {
  const graph = runModule(programs.explain, ["sedck-explain", "--format", "dot", NAME], [[NAME, script]]);
  if (!isAccepted) return { graph: asText(graph.out) };
  const plain = runModule(programs.explain, ["sedck-explain", "--format", "sed", NAME], [[NAME, script]]);
  return { graph: asText(graph.out), plain: plain.status === 0 ? asText(plain.out) : null, notPlain: asText(plain.err) };
}

onmessage = async ({ data }) => {
  try {
    if (data.modules) {
      for (const [name, bytes] of Object.entries(data.modules)) programs[name] = await WebAssembly.compile(bytes);
      postMessage({ ready: true });
      return;
    }
    const verdict = verdictOn(data.script);
    postMessage({ number: data.number, verdict });
    postMessage({ number: data.number, rest: restOf(data.script, verdict.checkStatus === 0) });
  } catch (error) {
    postMessage({ number: data.number, stopped: String(error && error.message || error) });
  }
};
