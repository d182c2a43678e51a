"use strict";
// What is known of the run: its steps, the state behind each of them, and what is said of a step.
const find = id => document.getElementById(id);
const data = JSON.parse(find("data").textContent), count = data.steps.length, none = [];
// the step that is shown last; none is shown at 0
let now = 0;
// a field that a step leaves out says nothing; what a step of a lab stores and loads is in its accesses
for (const it of data.steps) {
  for (const field of ["registers", "caches", "buffers", "said"]) it[field] ??= none;
  it.words ??= it.said.filter(line => /^s\d/.test(line)).map(line => [placeOf(line), line.split(" ")[1]]);
  it.loads ??= it.said.filter(line => /^l\d/.test(line)).map(placeOf);
}

// the place of an access in short, as a lab names it: the heap begins at line 225 of a buffer
function placeOf(access) {
  const [core, line, word] = access.slice(1).split(" ")[0].split(".");
  return `${core}:${line - 225}.${word}`;
}

// the cores whose words or registers a step touches
const coresOf = step => [...step.loads, ...step.words.map(it => it[0]), ...step.registers.map(it => it[0])].map(it => parseInt(it));

// an element with attributes, and texts or elements in it
function make(name, attributes = {}, ...parts) {
  const made = document.createElement(name);
  for (const [key, value] of Object.entries(attributes)) made.setAttribute(key, value);
  made.append(...parts);
  return made;
}

// the words, the registers, and what each core holds in its cache and its write-combining buffer, before the first step
function firstState() {
  const { words, registers, caches, buffers } = data.start, state = { step: 0, caches: new Map() };
  [state.words, state.registers, state.buffers] = [words, registers, buffers].map(it => new Map(it));
  caches.forEach(([core, changes]) => changeCache(state, core, changes));
  return state;
}

function copyOf(state) {
  const { words, registers, buffers } = state, caches = new Map([...state.caches].map(([core, lines]) => [core, new Map(lines)]));
  return { step: state.step, words: new Map(words), registers: new Map(registers), buffers: new Map(buffers), caches };
}

// each of these changes brings in a line with its words, writes a word of a line, or lets a line leave, or all lines
function changeCache(state, core, changes) {
  if (!state.caches.has(core)) state.caches.set(core, new Map());
  const cache = state.caches.get(core);
  for (const [line, word, value] of changes) {
    if (line === undefined) cache.clear();
    else if (word === undefined) cache.delete(line);
    else cache.set(line, value === undefined ? word : cache.get(line).map((it, k) => k === word ? value : it));
  }
}

function apply(state, step) {
  for (const [place, value] of step.words) state.words.set(place, value);
  for (const [core, says] of step.registers) state.registers.set(core, says);
  for (const [core, changes] of step.caches) changeCache(state, core, changes);
  for (const [core, held] of step.buffers) state.buffers.set(core, held);
}

// the state behind so many steps. It goes on from the state that was asked for last, or from a copy that was kept on the way
const every = 500;
let state = firstState();
const kept = [copyOf(state)];
function stateAt(step) {
  const near = kept[Math.min(Math.floor(step / every), kept.length - 1)];
  if (state.step > step || state.step < near.step) state = copyOf(near);
  while (state.step < step) {
    apply(state, data.steps[state.step++]);
    if (state.step === every * kept.length) kept.push(copyOf(state));
  }
  return state;
}

const wordOf = (state, place) => state.words.get(place) ?? "0";
const lineOf = place => place.slice(0, place.lastIndexOf("."));
const nameOf = lane => data.lanes[lane].name.split(",")[0];

// an access or an answer, which the data has in short, as rccelab prints it
function longLine(line, core) {
  const [place, value, source] = line.slice(1).split(" "), digits = (value ?? "").padStart(16, "0");
  if (/^[ls]\d/.test(line)) return `${core} ${line[0] === "l" ? "load" : "store"} ${place} ${digits} # heap`;
  return /^a\d/.test(line) ? `answer ${place} ${digits} from ${{ c: "cache", b: "buffer line", w: "words" }[source]}` : line;
}

// what a step does: the sentence of an event, or the line of a lab with its accesses and answers
function doesSay(at) {
  const step = data.steps[at], core = data.lanes[step.who].core;
  if (data.kind === "trace") return step.says;
  const prints = step.letter === "h" ? [`It prints what the table of core ${core} shows.`] : [];
  return [data.script[at][1], ...step.said.map(line => longLine(line, core)), ...prints].join("\n");
}

// the arrows that come to a step and those that go from it, and the call that it is in
const comes = new Map(), goes = new Map(), calls = new Map(data.lanes.map((_, lane) => [lane, []]));
for (const it of data.arrows) for (const [ends, step] of [[goes, it[1]], [comes, it[3]]]) ends.set(step, [...(ends.get(step) ?? none), it]);
for (const it of data.spans) calls.get(it[0]).push(it);
const callOf = at => calls.get(data.steps[at].who).find(([, first, last]) => first <= at && at <= last);

// what the picture shows of a step beside its letter, in words: the call that it is in, and where its arrows come from and go to
function alsoSays(at) {
  const call = callOf(at), what = lane => data.kind === "lab" ? `what ${nameOf(lane)} stored` : `the chunk that ${nameOf(lane)} told of`;
  const sentences = call ? [`It is in the call ${call[3]}.`] : [];
  for (const [lane, start] of comes.get(at) ?? none) sentences.push(`It takes ${what(lane)} in step ${start + 1}.`);
  const begun = name => name.replace(/^./, it => it.toUpperCase());
  for (const [, , other, end] of goes.get(at) ?? none) sentences.push(`${begun(nameOf(other))} takes it in step ${end + 1}.`);
  return sentences.length ? `\n${sentences.join(" ")}` : "";
}

// all that is said of the state behind so many steps
function saysAt(step) {
  if (step) return `Step ${step} of ${count}, line ${data.script[step - 1][0]}: ${doesSay(step - 1)}${alsoSays(step - 1)}`;
  const before = data["is part"] ? "the words, the registers and the cores are as the lines before leave them."
    : "all words are 0, and all registers are free.";
  return `Before the first of ${count} steps: ${before}`;
}
