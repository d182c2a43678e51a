// How one goes through the run: by buttons, keys, clicks, by playing, by a search, and by the address.

// shows a step. The present one is in the address; where a jump leads, the browser's Back leads back
function go(step, isJump = false) {
  const before = now;
  now = Math.max(0, Math.min(count, Math.trunc(step) || 0));
  // what can differ from what is shown: all that the steps between touch, with what this step and the one before have tagged
  const [low, high] = [Math.min(before, now), Math.max(before, now)];
  const touched = isShown && high - low < every ? data.steps.slice(Math.max(0, low - 1), high) : null;
  const state = stateAt(now), here = now ? data.steps[now - 1] : { words: none, loads: none, registers: none };
  isShown = true;
  say();
  find("slider").value = now;
  for (const [id, isEnd] of ends()) find(id).setAttribute("aria-disabled", String(isEnd));
  find("who").textContent = `Step of ${now ? nameOf(here.who) : actor}`;
  showLine();
  showWords(state, here, touched);
  showCores(state, here, touched);
  showMesh(here);
  showLanes();
  showStrip();
  if (isJump && now !== before) history.pushState(null, "", `#${now}`);
  else tellAddress();
}
let isShown = false;
const actor = data.kind === "lab" ? "this core" : "this rank";

// the text of the step, which a screen reader says: at the slider as its value, elsewhere as the status, and while it plays fast
// not until it pauses
function say() {
  const text = saysAt(now), isQuiet = document.activeElement === find("slider") || timer && Number(find("speed").value) > 1;
  find("says").setAttribute("aria-live", isQuiet ? "off" : "polite");
  find("says").textContent = text;
  find("says").scrollTop = 0;
  find("slider").setAttribute("aria-valuetext", text);
}

// the address names the step, so that it can be sent; browsers refuse that where it comes too often. One that names it is left alone: to
// write it once more would end the way to another page of the history that has begun meanwhile
let told = 0, later = 0;
function tellAddress() {
  clearTimeout(later);
  if (location.hash === `#${now}`) return;
  const wait = told + 400 - Date.now();
  if (wait > 0) later = setTimeout(tellAddress, wait);
  else {
    told = Date.now();
    try { history.replaceState(null, "", `#${now}`); } catch {}
  }
}

// the step that an address names (no element is called last: the browser would go there)
const named = () => location.hash === "#last" ? count : Number(location.hash.slice(1)) || 0;

// the next step, or with -1 the one before, of which a test holds; or 0
function seek(way, test) {
  for (let step = now + way; step >= 1 && step <= count; step += way) if (test(step - 1)) return step;
  return 0;
}
const stores = at => data.steps[at].words.length > 0;
const isOwn = at => now > 0 && data.steps[at].who === data.steps[now - 1].who;

// which buttons lead nowhere (one that is disabled would lose the focus)
const ends = () => [["to-first", now === 0], ["back", now === 0], ["forward", now === count], ["to-last", now === count],
  ["store-back", !seek(-1, stores)], ["store-forward", !seek(1, stores)], ["own-back", !seek(-1, isOwn)], ["own-forward", !seek(1, isOwn)]];

// goes where somebody asks for; what plays stops
function move(step, isJump = false) {
  if (timer) pause();
  go(step, isJump);
}

// playing: a step after the other, until the last
let timer = 0;
function play() {
  if (now === count) go(0, true);
  find("play").textContent = "Pause";
  timer = setTimeout(tick, 1000 / Number(find("speed").value));
}
function tick() {
  timer = now + 1 < count ? setTimeout(tick, 1000 / Number(find("speed").value)) : 0;
  go(now + 1);
  if (!timer) pause();
}
function pause() {
  clearTimeout(timer);
  timer = 0;
  find("play").textContent = "Play";
  // what was not said while it played is said now
  if (find("says").getAttribute("aria-live") === "off") say();
}

// search: the next step, or the one before, whose text has what is looked for; behind the last it goes on at the first
let texts = null;
function search(way) {
  const wanted = find("search").value.trim().toLowerCase();
  texts ??= data.steps.map((_, at) => `${saysAt(at + 1)}\n${data.script[at][1]}`.toLowerCase());
  const steps = wanted ? texts.flatMap((text, at) => text.includes(wanted) ? [at + 1] : []) : [];
  const after = way > 0 ? steps.find(step => step > now) ?? steps[0] : steps.findLast(step => step < now) ?? steps[steps.length - 1];
  const says = !wanted ? "" : steps.length === 1 ? "in 1 step" : `in ${steps.length || "no"} steps`;
  if (find("found").textContent !== says) find("found").textContent = says;
  if (after) move(after, true);
}

// the lines are links: up and down go from one to the other, and a click goes to its step
function moveInLines(event) {
  const by = { ArrowUp: -1, ArrowDown: 1 }[event.key], at = [...links].find(([, link]) => link === event.target)?.[0];
  if (!by || at === undefined || !links.has(at + by)) return;
  event.preventDefault();
  links.get(at + by).focus();
}
function clickLine(event) {
  const at = [...links].find(([, link]) => link === event.target)?.[0];
  if (at === undefined || event.ctrlKey || event.metaKey || event.shiftKey) return;
  event.preventDefault();
  move(at + 1, true);
}

// in a part that scrolls and in a field the keys do what they do elsewhere; on a button the space bar presses it
function pressKey(event) {
  if (event.altKey || event.ctrlKey || event.metaKey || event.target?.closest?.(".scroll, select, [type=search]")) return;
  const to = { ArrowLeft: now - 1, ArrowRight: now + 1, Home: 0, End: count }[event.key];
  if (to === undefined && (event.key !== " " || event.target?.closest?.("button, a, summary"))) return;
  event.preventDefault();
  if (to !== undefined) move(to, event.key === "Home" || event.key === "End");
  else if (timer) pause();
  else play();
}

// what depends on the window's width
function fit() {
  find("bar").setAttribute("style", `--lift: ${-find("tools").offsetHeight}px`);
  makeStrip();
  showLanes();
  showStrip();
  reveal(find("script-part"), current);
}

function begin() {
  find("words").className += ` ${data.kind}`;
  find("slider").max = count;
  find("slider").addEventListener("input", () => move(Number(find("slider").value)));
  find("slider").addEventListener("focus", say);
  find("slider").addEventListener("blur", () => { find("says").setAttribute("aria-live", "polite"); });
  const buttons = { "to-first": () => move(0, true), back: () => move(now - 1), forward: () => move(now + 1) };
  buttons["to-last"] = () => move(count, true);
  buttons.play = () => timer ? pause() : play();
  const seeks = [["store-back", -1, stores], ["store-forward", 1, stores], ["own-back", -1, isOwn], ["own-forward", 1, isOwn]];
  for (const [id, way, test] of seeks) {
    buttons[id] = () => move(seek(way, test) || now, true);
  }
  buttons["found-back"] = () => search(-1);
  buttons["found-forward"] = () => search(1);
  for (const [id, does] of Object.entries(buttons)) find(id).addEventListener("click", does);
  find("search").addEventListener("keydown", event => { if (event.key === "Enter") search(event.shiftKey ? -1 : 1); });
  find("script").addEventListener("keydown", moveInLines);
  find("script").addEventListener("click", clickLine);
  find("lanes").addEventListener("click", event => { if (stepAt(event)) move(stepAt(event), true); });
  find("strip").addEventListener("click", event => {
    const { left, width } = find("strip").getBoundingClientRect();
    move(Math.ceil(count * (event.clientX - left) / width) || 1, true);
  });
  find("own-back").setAttribute("aria-label", `Previous step of ${actor}`);
  find("own-forward").setAttribute("aria-label", `Next step of ${actor}`);
  addEventListener("keydown", pressKey);
  addEventListener("hashchange", () => move(named()));
  addEventListener("resize", fit);
  makeWords();
  makeCores();
  makeMesh();
  go(named());
  fit();
}
begin();
