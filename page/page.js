// The page: it hands the script to the worker, and shows what comes back. Whatever comes from a script is set as text.
"use strict";

const SVG = "http://www.w3.org/2000/svg";
const PAUSE = 600;
const MOST_DRAWN = 300;
const MOST_BYTES = 1048576;
const facts = JSON.parse(byId("facts").textContent);
const encoder = new TextEncoder();
const decoder = new TextDecoder("utf-8", { ignoreBOM: true });
const modules = {};
let worker = null, isReady = false, asked = 0, begun = 0, waiting = null, ticking = null;
// The bytes of a file that was opened, until its text is edited; and the script that the report is about.
let opened = null, judged = new Uint8Array(0);

function byId(id) {
  return document.getElementById(id);
}

/** An element with these attributes and children; text becomes text nodes. */
function make(tag, attributes = {}, ...children) {
  const element = document.createElement(tag);
  for (const [name, value] of Object.entries(attributes)) {
    if (name.startsWith("on")) element.addEventListener(name.slice(2), value);
    else element.setAttribute(name, value);
  }
  element.append(...children.filter((child) => child !== null));
  return element;
}

function draw(tag, attributes, ...children) {
  const element = document.createElementNS(SVG, tag);
  for (const [name, value] of Object.entries(attributes)) element.setAttribute(name, value);
  element.append(...children);
  return element;
}

function counted(number, one, many) {
  return number + " " + (number === 1 ? one : many);
}

// The script: bytes, and places in them.

function scriptBytes() {
  return opened || encoder.encode(byId("script").value);
}

/** Where a byte of the judged script is in the field, which has each end of a line as one newline. */
function indexOf(offset) {
  return decoder.decode(judged.subarray(0, offset)).replace(/\r\n?/g, "\n").length;
}

function textBetween(start, end) {
  return decoder.decode(judged.subarray(start, end));
}

function select(start, end) {
  const field = byId("script");
  field.focus();
  field.setSelectionRange(indexOf(start), indexOf(end));
}

/** Puts a text into the field as typing does, so that the browser can undo it. */
function putText(start, end, text) {
  const field = byId("script");
  field.focus();
  field.setSelectionRange(start, end);
  if (!document.execCommand("insertText", false, text)) field.setRangeText(text, start, end, "end");
  wasEdited();
  judge();
}

/** Makes a fix: in the bytes of a file that was opened, or else in the field. */
function mend({ start, end, text }) {
  if (!opened) {
    putText(indexOf(start.offset), indexOf(end.offset), text);
    return;
  }
  const between = encoder.encode(text), rest = judged.subarray(end.offset);
  const mended = new Uint8Array(start.offset + between.length + rest.length);
  mended.set(judged.subarray(0, start.offset));
  mended.set(between, start.offset);
  mended.set(rest, start.offset + between.length);
  showBytes(mended);
  byId("script").focus();
}

function placeButton(position, end) {
  const words = position.line + ":" + position.column;
  const last = end ? end.offset : position.offset + 1;
  return make("button", { type: "button", class: "place", "aria-label": words + ", show it in the script", onclick: () => select(position.offset, last) }, words);
}

// The worker.

async function moduleBytes(id) {
  const packed = Uint8Array.from(atob(byId(id).textContent.trim()), (character) => character.charCodeAt(0));
  const stream = new Blob([packed]).stream().pipeThrough(new DecompressionStream("gzip"));
  return new Response(stream).arrayBuffer();
}

function startWorker() {
  const source = new Blob([byId("worker-source").textContent], { type: "text/javascript" });
  const address = URL.createObjectURL(source);
  isReady = false;
  worker = new Worker(address);
  worker.onmessage = ({ data }) => heard(data);
  worker.onerror = (event) => showUnknown("The worker stopped: " + (event.message || "no reason is known") + ".");
  worker.postMessage({ modules });
}

function heard(data) {
  if (data.ready) {
    isReady = true;
    if (waiting) send(waiting);
    return;
  }
  // What stops before any script has no number.
  if (data.number !== undefined && data.number !== asked) return;
  if (data.stopped !== undefined) {
    settle();
    showUnknown("The module stopped: " + data.stopped + ".");
  } else if (data.verdict) {
    showVerdict(data.verdict);
  } else {
    settle();
    showRest(data.rest);
  }
}

function send(script) {
  waiting = null;
  worker.postMessage({ number: asked, script });
}

function judge() {
  const script = scriptBytes();
  if (begun && worker) stopWorker();
  asked += 1;
  judged = script;
  if (script.length > MOST_BYTES) {
    settle();
    showUnknown("The script has more than " + MOST_BYTES + " bytes.");
    return;
  }
  begun = performance.now();
  setBusy(true);
  byId("cancel").disabled = false;
  clearInterval(ticking);
  ticking = setInterval(tick, 500);
  waiting = script;
  if (isReady) send(script);
}

function tick() {
  const seconds = Math.floor((performance.now() - begun) / 1000);
  if (seconds >= 1) byId("working").textContent = "Working for " + counted(seconds, "second", "seconds") + ". Cancel stops it.";
}

function settle() {
  begun = 0;
  waiting = null;
  clearInterval(ticking);
  byId("working").textContent = "";
  byId("cancel").disabled = true;
  document.documentElement.dataset.settled = String(asked);
}

function stopWorker() {
  worker.terminate();
  settle();
  startWorker();
}

function cancel() {
  asked += 1;
  stopWorker();
  showUnknown("It was cancelled.");
}

// The verdict.

const REPLIES = {
  accepted: ["yes", "Accepted.", "Every run of this script ends, and touches only the files listed below."],
  loop: ["no", "No.", "A run of this script may never end: the loop below rules out every certificate."],
  "script-refused": ["no", "Refused.", "This isn't a script that sedck reads, so nothing is known of its runs."],
};

/** While an answer is on its way the last one is pale, and its buttons do nothing. */
function setBusy(isBusy) {
  byId("verdict").setAttribute("aria-busy", String(isBusy));
  byId("report").inert = isBusy;
}

function setVerdict(kind, head, text, ...more) {
  const box = byId("verdict");
  box.className = "verdict " + kind;
  setBusy(false);
  box.replaceChildren(make("p", {}, make("strong", {}, head), " ", ...withCode(text)), ...more.filter((part) => part !== null));
}

function showUnknown(why) {
  setVerdict("unknown", "No answer.", why);
  byId("report").replaceChildren();
}

/** The line of the bound in the report of `check`, if it has one, and the lists of files, each name as the large module shows it. */
function checkedReport(bytes) {
  const lines = Array.from(bytes, (byte) => String.fromCharCode(byte)).join("").split("\n");
  const special = { "\\": "\\\\", "\"": "\\\"" };
  const shown = (name) => name.replace(/[^ !#-\[\]-_a-~]/g, (letter) => special[letter] || "\\x" + letter.charCodeAt(0).toString(16).padStart(2, "0"));
  const bound = lines[1].startsWith("bound ") ? lines[1] : null;
  let at = bound ? 2 : 1;
  const [reads, writes] = ["read", "write"].map((word) => {
    const start = at + 1;
    at = start + Number(lines[at].slice(word.length + 1));
    return lines.slice(start, at).map(shown);
  });
  return { bound, reads, writes };
}

/** Whether both modules say the same, of an accepted script also its bound and which files it reads and writes. */
function agree(report, verdict) {
  const isSame = report.status === verdict.reportStatus && report.status === verdict.rankStatus;
  const isYes = verdict.rankStatus === 0 && verdict.checkStatus === 0 && decoder.decode(verdict.checked).startsWith("accepted\n");
  if (report.answer !== "accepted") return isSame && !isYes && verdict.rankStatus !== 0;
  const names = (files) => files.map((file) => file.name), { bound } = report;
  const due = { bound: bound && ["bound", bound.per_byte, bound.per_line, bound.fixed].join(" "), reads: names(report.reads), writes: names(report.writes) };
  return isSame && isYes && JSON.stringify(checkedReport(verdict.checked)) === JSON.stringify(due);
}

function parsed(verdict) {
  try {
    return JSON.parse(verdict.report);
  } catch (error) {
    return null;
  }
}

/** What is known of the input on which the script never ends: the lines, where the report has some. */
function inputOf(report) {
  if (report.answer !== "loop") return "";
  const messages = report.findings.map((finding) => finding.message);
  const known = messages.map((message) => /in the POSIX locale the script (never ends on the lines? `.*)$/.exec(message)).find((match) => match !== null);
  if (known) return " In the POSIX locale it " + known[1] + ".";
  return messages.some((message) => message.endsWith("it never ends once it is entered")) ? "" : " There may be no input that runs it for ever.";
}

function showVerdict(verdict) {
  const report = parsed(verdict);
  if (!report || !REPLIES[report.answer]) {
    showUnknown("A module ended with status " + verdict.reportStatus + ". " + verdict.said.trim());
    return;
  }
  if (!agree(report, verdict)) {
    showUnknown("The two modules don't agree. Please don't rely on this page.");
    return;
  }
  const [kind, head, text] = REPLIES[report.answer];
  const isYes = report.answer === "accepted", hasWarning = report.findings.some((finding) => finding.level === "warning");
  setVerdict(kind, head, text + inputOf(report) + (isYes && hasWarning ? " Read the warnings first: it may not hold for your sed." : ""), isYes ? make("p", { class: "aside" }, "The small module has checked the certificate, and accepted it.") : null);
  const parts = [...report.findings.map(findingBox), loopListing(report)];
  if (isYes) parts.push(...limitsOf(report), ...filesOf(report), ...certificateOf(verdict));
  byId("report").replaceChildren(...parts.filter((part) => part !== null), make("div", { id: "rest" }));
}

// Findings.

function findingBox(finding) {
  const box = make("div", { class: "finding " + finding.level },
    make("p", {}, make("span", { class: "level" }, finding.level), " ",
      finding.position ? placeButton(finding.position, finding.end) : null, finding.position ? " " : null,
      ...withCode(finding.message), " ", make("code", {}, "[" + finding.code + "]")));
  if (finding.position) box.append(lineWithMark(finding));
  if (finding.steps.length > 0) box.append(make("p", {}, "Step by step:"), make("ol", {}, ...finding.steps.map(stepItem)));
  if (finding.hint) box.append(make("p", {}, make("strong", {}, "What to write instead: "), ...withCode(finding.hint)));
  if (finding.fix) box.append(fixButton(finding.fix));
  if (finding.page) box.append(make("p", { class: "aside" }, "The page docs/" + finding.page + " explains it."));
  return box;
}

/** Words with what stands between grave accents as code. */
function withCode(words) {
  return words.split("`").map((part, at) => at % 2 === 1 ? make("code", {}, part) : part);
}

function lineWithMark(finding) {
  const { offset, column } = finding.position, start = offset - column + 1;
  let end = judged.indexOf(10, offset);
  if (end < 0) end = judged.length;
  const last = Math.min(end, Math.max(offset + 1, finding.end ? finding.end.offset : 0));
  return make("pre", {}, textBetween(start, offset), make("mark", {}, textBetween(offset, last) || " "), textBetween(last, end));
}

function stepItem(step) {
  return make("li", {}, step.position ? placeButton(step.position) : make("span", { class: "mono" }, "end"), " ", ...withCode(step.message));
}

function fixButton(fix) {
  const start = fix.start.offset, end = fix.end.offset, old = textBetween(start, end);
  // What can't be seen is shown as in the reports of the program.
  const shown = (text) => text.replace(/[\0-\x1f\x7f]/g, (character) => "\\x" + character.charCodeAt(0).toString(16).padStart(2, "0"));
  const words = old === "" ? ["Insert ", make("code", {}, shown(fix.text))]
    : fix.text === "" ? ["Take out ", make("code", {}, shown(old))]
    : ["Write ", make("code", {}, shown(fix.text)), " instead of ", make("code", {}, shown(old))];
  return make("p", {}, make("button", { type: "button", class: "fix", onclick: () => mend(fix) }, ...words));
}

/** The script with the commands of the loop marked, each with the numbers of its steps. */
function loopListing(report) {
  const finding = report.findings.find((one) => one.level === "error" && one.steps.length > 0);
  if (!finding) return null;
  const marks = new Map();
  finding.steps.slice(0, -1).forEach((step, at) => {
    if (step.position) marks.set(step.position.offset, [...(marks.get(step.position.offset) || []), at + 1]);
  });
  const items = [];
  let start = 0, number = 1;
  while (start < judged.length) {
    let end = judged.indexOf(10, start);
    if (end < 0) end = judged.length;
    items.push(listedLine(number, start, end, marks));
    start = end + 1;
    number += 1;
  }
  return make("section", { "aria-labelledby": "loop-title" }, make("h3", { id: "loop-title" }, "The loop in the script"),
    make("p", { class: "aside" }, "Each mark has the numbers of the steps above."), make("ol", { class: "listing", tabindex: "0", "aria-label": "The script with the loop marked" }, ...items));
}

/** How many characters the command has whose verb begins this text: with its label, or what `s` and `y` have between their delimiters. */
function commandLength(text) {
  if (/^[:bt]/.test(text)) return text.match(/^.[ \t]*[^;}\s]*/)[0].length;
  const parts = /^[sy]([^\\\n])/.exec(text);
  if (!parts) return 1;
  let at = 2;
  for (let left = 2; left > 0 && at < text.length; at += 1) {
    if (text[at] === "\\") at += 1;
    else if (text[at] === parts[1]) left -= 1;
  }
  return at + text.slice(at).match(/^[^;}\s]*/)[0].length;
}

function listedLine(number, start, end, marks) {
  const code = make("code", {}), inLine = [...marks.keys()].filter((offset) => start <= offset && offset < end).sort((a, b) => a - b);
  let at = start;
  for (const offset of inLine) {
    const text = textBetween(offset, end), last = offset + encoder.encode(text.slice(0, commandLength(text))).length;
    code.append(textBetween(at, offset), make("mark", {}, textBetween(offset, last), make("sup", {}, marks.get(offset).join(","))));
    at = last;
  }
  code.append(textBetween(at, end));
  return make("li", inLine.length > 0 ? { class: "of-loop" } : {}, make("span", { class: "number", "aria-hidden": "true" }, String(number)), code);
}

// Limits, files, certificate, plain spelling.

function boundWords(bound, what) {
  const parts = [];
  if (bound.per_byte) parts.push(bound.per_byte + " × bytes");
  if (bound.per_line) parts.push(bound.per_line + " × lines");
  if (bound.fixed || parts.length === 0) parts.push(String(bound.fixed));
  return "At most " + parts.join(" + ") + ", " + what;
}

function limitsOf(report) {
  const rows = [["Steps", report.bound ? boundWords(report.bound, "in steps") : "No limit is known by bytes and lines"]];
  rows.push(["Steps, by lines alone", report.bound_by_lines ? boundWords(report.bound_by_lines, "in steps") : "No limit by lines alone: some loop reads no line"]);
  rows.push(["Pattern space and hold space", report.space_bound ? boundWords(report.space_bound, "for each, in bytes") : "No limit is known: a command may make a space longer"]);
  return [make("h3", {}, "Limits"), make("p", { class: "aside" }, "Bytes and lines are those of the input. Its newlines aren't counted as bytes."),
    make("div", { class: "scroll" }, make("table", {}, make("tbody", {}, ...rows.map(([head, text]) => make("tr", {}, make("th", { scope: "row" }, head), make("td", {}, text))))))];
}

function fileItem(file) {
  return make("li", {}, make("code", {}, file.name), " at ", ...file.positions.flatMap((position, at) => at ? [", ", placeButton(position)] : [placeButton(position)]));
}

function filesOf(report) {
  const list = (title, files) => files.length === 0 ? [make("p", {}, make("strong", {}, title), " no file")]
    : [make("p", {}, make("strong", {}, title)), make("ul", {}, ...files.map(fileItem))];
  return [make("h3", {}, "Files"), ...list("Reads:", report.reads), ...list("Writes:", report.writes)];
}

function saveLink(bytes, name, words) {
  return make("a", { class: "download", download: name, href: URL.createObjectURL(new Blob([bytes], { type: "application/octet-stream" })) }, words);
}

function certificateOf(verdict) {
  return [make("h3", {}, "Certificate"), make("p", {}, "With it anyone can check the answer, without a search: ", make("code", {}, "sedck check script.sed script.cert")),
    make("div", { class: "row" }, saveLink(verdict.certificate, "script.cert", "Save the certificate"), saveLink(judged, "script.sed", "Save the script")),
    make("details", {}, make("summary", {}, "What the small module said"), make("pre", { tabindex: "0", id: "checked" }, decoder.decode(verdict.checked))),
    make("details", {}, make("summary", {}, "The certificate"), make("pre", { tabindex: "0", id: "certificate" }, decoder.decode(verdict.certificate)))];
}

function plainOf(rest) {
  if (rest.plain === undefined) return [];
  const head = make("h3", {}, "Plain spelling");
  if (rest.plain === null) return [head, make("p", {}, "This script has no spelling that several seds read alike."), make("pre", { tabindex: "0" }, rest.notPlain)];
  const isSame = rest.plain === decoder.decode(judged);
  return [head, make("p", {}, "GNU sed, BusyBox, toybox and ssed were seen to read this spelling alike. It is the same program."), make("pre", { tabindex: "0", id: "plain" }, rest.plain),
    make("div", { class: "row" },
      isSame ? make("span", { class: "aside" }, "The script is in this spelling.") : make("button", { type: "button", onclick: () => putText(0, byId("script").value.length, rest.plain) }, "Use this spelling"),
      saveLink(encoder.encode(rest.plain), "script.sed", "Save this spelling"))];
}

function showRest(rest) {
  const place = byId("rest");
  if (place) place.replaceChildren(...plainOf(rest), ...graphOf(rest.graph));
}

// The graph, from the text for Graphviz.

/** What an escaped label stands for, line by line. */
function labelLines(label) {
  return label.replace(/\\(.)/g, (_, letter) => letter === "n" || letter === "l" ? "\n" : letter).replace(/&amp;/g, "&").split("\n");
}

function readGraph(text) {
  const boxes = [], edges = [];
  for (const line of text.split("\n")) {
    const box = /^  n(\d+) \[label="((?:[^"\\]|\\.)*)"/.exec(line);
    const edge = /^  n(\d+) -> n(\d+) \[label="(\w+)([^"]*)"/.exec(line);
    if (box) boxes.push({ number: Number(box[1]), lines: labelLines(box[2]) });
    if (edge) edges.push({ from: Number(edge[1]), to: Number(edge[2]), kind: edge[3], when: edge[4].trim(), isLoop: line.includes("penwidth") });
  }
  return { boxes, edges };
}

const WHEN = { "[t]": "with the flag of t", "[$]": "on the last line", "[t] [$]": "with the flag of t, on the last line" };
const KINDS = { consume: "a line is read", shorten: "the pattern space gets shorter", keep: "it doesn't get longer", grow: "it may get longer" };

/** Gives each edge that isn't a step to the next row a lane beside the boxes: short ones first, and none through another. */
function giveLanes(edges, rowOf) {
  const lanes = [];
  const far = edges.filter((edge) => rowOf.get(edge.to) !== rowOf.get(edge.from) + 1);
  const ends = (edge) => [rowOf.get(edge.from), rowOf.get(edge.to)].sort((a, b) => a - b);
  far.sort((a, b) => (ends(a)[1] - ends(a)[0]) - (ends(b)[1] - ends(b)[0]) || ends(a)[0] - ends(b)[0]);
  for (const edge of far) {
    const [top, bottom] = ends(edge);
    let lane = lanes.findIndex((taken) => taken.every(([t, b]) => b < top || t > bottom));
    if (lane < 0) lane = lanes.push([]) - 1;
    lanes[lane].push([top, bottom]);
    edge.lane = lane;
  }
  return lanes.length;
}

function graphOf(text) {
  const { boxes, edges } = readGraph(text);
  if (boxes.length === 0 || edges.length === 0) return [];
  const parts = [make("h3", {}, "Flow graph"), legend(edges)];
  if (boxes.length <= MOST_DRAWN) parts.push(make("div", { class: "scroll", tabindex: "0", role: "group", "aria-label": "The flow graph, which the list of steps below has in words" }, drawing(boxes, edges)));
  else parts.push(make("p", {}, "The graph isn't drawn: it has more than " + MOST_DRAWN + " commands."));
  // The table may have thousands of rows, so it is made when it is asked for.
  const details = make("details", { ontoggle: () => details.children.length > 1 || details.append(edgeTable(boxes, edges)) }, make("summary", {}, "The steps of the graph in words"));
  parts.push(details,
    make("div", { class: "row" }, saveLink(encoder.encode(text), "script.dot", "Save the graph for Graphviz")));
  return parts;
}

function legend(edges) {
  const kinds = Object.keys(KINDS).filter((kind) => edges.some((edge) => edge.kind === kind));
  const item = (kind, words) => make("li", {}, draw("svg", { "aria-hidden": "true" }, draw("line", { class: "edge " + kind, x1: 0, y1: 5, x2: 34, y2: 5 })), words);
  return make("ul", { class: "legend" }, ...kinds.map((kind) => item(kind, kind + ": " + KINDS[kind])),
    ...(edges.some((edge) => edge.isLoop) ? [item("keep loop", "red: the loop")] : []));
}

function edgeTable(boxes, edges) {
  const names = new Map(boxes.map((box) => [box.number, box.lines[0] + " " + (box.lines[1] || "")]));
  const rows = edges.map((edge) => make("tr", {}, make("td", { class: "mono" }, names.get(edge.from)), make("td", { class: "mono" }, names.get(edge.to)),
    make("td", {}, edge.kind), make("td", {}, (WHEN[edge.when] || edge.when) + (edge.isLoop ? (edge.when ? ", " : "") + "in the loop" : ""))));
  return make("div", { class: "scroll", tabindex: "0", role: "group", "aria-label": "Steps of the graph" }, make("table", {},
    make("thead", {}, make("tr", {}, ...["From", "To", "Kind", "When"].map((head) => make("th", { scope: "col" }, head)))), make("tbody", {}, ...rows)));
}

function drawing(boxes, edges) {
  const HEIGHT = 30, STEP = 52, LANE = 16, CHARACTER = 7.9;
  const rowOf = new Map(boxes.map((box, row) => [box.number, row]));
  const left = giveLanes(edges, rowOf) * LANE + 22;
  const label = (box) => box.lines[0] + "  " + (box.lines[1] || "");
  const width = Math.max(...boxes.map((box) => label(box).length)) * CHARACTER + 24;
  const middle = (row) => 8 + row * STEP + HEIGHT / 2;
  const svg = draw("svg", { class: "graph", "aria-hidden": "true", width: left + width + 90, height: boxes.length * STEP });
  for (const edge of [...edges].sort((a, b) => a.isLoop - b.isLoop)) svg.append(...arrow(edge, rowOf, middle, left, HEIGHT, LANE));
  boxes.forEach((box, row) => {
    svg.append(draw("rect", { class: "box", x: left, y: middle(row) - HEIGHT / 2, width, height: HEIGHT, rx: box.lines[0].includes("end") ? 15 : 5 }),
      draw("text", { x: left + 12, y: middle(row) + 4.5 }, label(box)));
  });
  return svg;
}

function arrow(edge, rowOf, middle, left, height, laneWidth) {
  const look = edge.kind + (edge.isLoop ? " loop" : ""), tipLook = "tip" + (edge.isLoop ? " loop" : "");
  const from = rowOf.get(edge.from), to = rowOf.get(edge.to);
  if (edge.lane === undefined) {
    // Several kinds of steps to the next row stand side by side.
    const x = left + 26 + 30 * Object.keys(KINDS).indexOf(edge.kind), y1 = middle(from) + height / 2, y2 = middle(to) - height / 2;
    return [draw("path", { class: "edge " + look, d: `M${x},${y1}V${y2 - 6}` }), draw("path", { class: tipLook, d: `M${x - 4},${y2 - 8}h8l-4,8z` }),
      draw("text", { class: "soft", x: x + 6, y: (y1 + y2) / 2 + 3 }, edge.when)];
  }
  const x = left - 16 - edge.lane * laneWidth, y1 = middle(from) + 5, y2 = middle(to) - 5, r = 6;
  const down = y2 > y1 ? 1 : -1;
  return [draw("path", { class: "edge " + look, d: `M${left},${y1}H${x + r}Q${x},${y1} ${x},${y1 + down * r}V${y2 - down * r}Q${x},${y2} ${x + r},${y2}H${left - 7}` }),
    draw("path", { class: tipLook, d: `M${left - 8},${y2 - 4}v8l8,-4z` })];
}

// The field.

let pause = null;

function wasEdited() {
  opened = null;
  byId("file-note").textContent = "";
}

function soon() {
  wasEdited();
  byId("example").value = "";
  setBusy(true);
  clearTimeout(pause);
  pause = setTimeout(judge, PAUSE);
}

/** Shows the bytes of a file. The field has each end of a line as one newline, and can't hold what isn't UTF-8. */
function showBytes(bytes) {
  byId("script").value = decoder.decode(bytes);
  const held = encoder.encode(byId("script").value);
  const isSame = held.length === bytes.length && held.every((byte, at) => byte === bytes[at]);
  opened = isSame ? null : bytes;
  byId("file-note").textContent = isSame ? "" : "The file has bytes that this field can't hold. The answer is for the file, until you edit the text.";
  byId("example").value = "";
  judge();
}

async function openFile(file) {
  showBytes(new Uint8Array(await file.arrayBuffer()));
}

function fillExamples() {
  const choice = byId("example");
  choice.append(make("option", { value: "" }, "your own"), ...facts.examples.map((example) => make("option", { value: example.name }, example.name)));
  choice.addEventListener("change", () => {
    const example = facts.examples.find((one) => one.name === choice.value);
    if (!example) return;
    wasEdited();
    byId("script").value = example.text;
    judge();
  });
  choice.value = facts.examples[0].name;
  byId("script").value = facts.examples[0].text;
}

function sayWhatThisIs() {
  const made = byId("made"), { checker, explain } = facts.proved;
  made.className = checker && explain ? "" : "unproved";
  made.append(make("strong", {}, checker && explain ? "Made from proved programs. " : checker ? "Not proved in whole. " : "Not proved. "),
    checker && explain ? "Both modules come from the LLVM code of programs that Rattle has proved: "
      : checker ? "Not proved is the large module, from a trial build: words, fixes, limits and spelling. The small one, whose yes counts, comes from the proved program: "
      : "The small module comes from a trial build without proofs" + (explain ? ": " : ", and so does the large one: "), facts.versions,
    checker ? "." : ". Take this page for a try-out alone.");
  byId("trust").append(make("p", { class: "aside" }, "Check sums (SHA-256): ", ...facts.sums.flatMap(([name, sum]) => [name + " ", make("code", {}, sum), " "])));
}

async function begin() {
  fillExamples();
  sayWhatThisIs();
  byId("judge").addEventListener("click", judge);
  byId("cancel").addEventListener("click", cancel);
  byId("script").addEventListener("input", soon);
  byId("script").addEventListener("keydown", (event) => {
    if (event.key === "Enter" && (event.ctrlKey || event.metaKey)) judge();
  });
  byId("file").addEventListener("change", ({ target }) => target.files[0] && openFile(target.files[0]));
  try {
    modules.explain = await moduleBytes("explain-module");
    modules.checker = await moduleBytes("checker-module");
    startWorker();
    judge();
  } catch (error) {
    showUnknown("This browser can't run the page: " + error.message + ".");
  }
}

begin();
