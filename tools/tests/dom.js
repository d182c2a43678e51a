// Plays a page of the command page without a browser, over as much of a document as the page uses: node dom.js PAGE. It goes by keys, buttons, the
// slider and the address, and prints as JSON what the page says at each. How something looks, and what a browser does by itself, is not in it.
"use strict";
const fs = require("fs");
const text = fs.readFileSync(process.argv[2], "utf8");
const data = /<script type="application\/json" id="data">(.*?)<\/script>/s.exec(text)[1];
const script = /<script>\n(.*?)<\/script>\n<\/body>/s.exec(text)[1];

class Element {
  constructor(name) {
    Object.assign(this, { name, attributes: {}, children: [], heard: {}, className: "", scrollTop: 0, scrollLeft: 0, clientWidth: 0, clientHeight: 0, offsetHeight: 0, rect: { top: 0, bottom: 0, left: 0, right: 0, width: 0, height: 0 } });
  }
  setAttribute(key, value) { this.attributes[key] = String(value); if (key === "class") this.className = value; }
  append(...parts) { this.children.push(...parts.map(it => it instanceof Element ? it : String(it))); }
  replaceChildren(...parts) { this.children = []; this.append(...parts); }
  get textContent() { return this.children.map(it => it instanceof Element ? it.textContent : it).join(""); }
  set textContent(told) { this.children = [String(told)]; }
  getAttribute(key) { return this.attributes[key] ?? null; }
  removeAttribute(key) { delete this.attributes[key]; }
  contains(it) { return it === this || [...this.all()].includes(it); }
  focus() { document.activeElement = this; }
  addEventListener(kind, does) { this.heard[kind] = does; }
  dispatch(kind, more = {}) { this.heard[kind]?.({ preventDefault() {}, ...more }); }
  getBoundingClientRect() { return this.rect; }
  closest(wanted) { return wanted.split(", ").includes(this.selector) ? this : null; }
  *all(name) { for (const it of this.children) if (it instanceof Element) { if (!name || it.name === name) yield it; yield* it.all(name); } }
}

const elements = new Map(), heard = {}, location = { hash: "" };
for (const [, name, id] of text.matchAll(/<(\w+)[^>]*? id="([\w-]+)"/g)) elements.set(id, new Element(name));
elements.get("data").textContent = data;
elements.get("speed").value = "1";
elements.get("search").value = "";
const document = { getElementById: id => elements.get(id), createElement: name => new Element(name), activeElement: null };
// the pages that Back goes back to; the clock goes on by a second a look; what is to be done later is done by turn()
const past = [], late = new Map();
let clock = 0, number = 0;
const history = { replaceState: (state, title, hash) => { location.hash = hash; }, pushState: (state, title, hash) => { past.push(location.hash); location.hash = hash; } };
const Date = { now: () => clock += 1000 };
const setTimeout = does => { late.set(++number, does); return number; }, clearTimeout = it => { late.delete(it); };
const turn = () => { const all = [...late.values()]; late.clear(); all.forEach(does => does()); };
const addEventListener = (kind, does) => { heard[kind] = does; };
const given = { document, history, location, addEventListener, Date, setTimeout, clearTimeout };
const page = new Function(...Object.keys(given), `${script}\nreturn { at: () => now, cells, go, links, data };`)(...Object.values(given));

const steps = page.data.steps.length, found = { count: steps, opens: page.at(), went: [], said: [] };
function key(name, target = null) {
  let stopped = false;
  heard.keydown({ key: name, target, preventDefault: () => { stopped = true; } });
  found.went.push([name, page.at(), location.hash, stopped]);
}
for (const name of ["ArrowRight", "ArrowRight", "ArrowLeft", "End", "ArrowRight", "Home", "ArrowLeft"]) key(name);
const part = new Element("div");
part.selector = ".scroll";
key("ArrowRight", part);
part.selector = "[type=search]";
key("End", part);
part.selector = "button";
key(" ", part);
for (const hash of ["#2.5", "#last", "#no", "#-3", "#1"]) {
  location.hash = hash;
  heard.hashchange();
  found.went.push([hash, page.at(), location.hash, true]);
}
for (const id of ["to-last", "back", "to-first", "forward"]) {
  elements.get(id).dispatch("click");
  found.went.push([id, page.at(), elements.get("back").attributes["aria-disabled"], elements.get("forward").attributes["aria-disabled"]]);
}
elements.get("slider").value = "2";
elements.get("slider").dispatch("input");
found.went.push(["slider", page.at(), elements.get("slider").attributes["aria-valuetext"], true]);
found.opened = page.at();
// it plays to its end, pauses by the space bar, and begins anew where it is at its end
page.go(0);
found.played = [];
elements.get("play").dispatch("click");
for (let k = 0; k <= steps; k++) { found.played.push([page.at(), elements.get("play").textContent]); turn(); }
heard.keydown({ key: " ", target: null, preventDefault() {} });
found.played.push([page.at(), elements.get("play").textContent]);
heard.keydown({ key: " ", target: null, preventDefault() {} });
found.played.push([page.at(), elements.get("play").textContent]);
// it says a state once: fast it is quiet, and says where it pauses; at the slider its value says it
elements.get("speed").value = "20";
elements.get("play").dispatch("click");
turn();
const live = () => elements.get("says").attributes["aria-live"];
found.live = [live()];
elements.get("play").dispatch("click");
found.live.push(live());
document.activeElement = elements.get("slider");
page.go(1);
found.live.push(live(), elements.get("slider").attributes["aria-valuetext"] === elements.get("says").textContent ? "same" : "other");
document.activeElement = null;
// the next store and the next step of this one from each step; a click on each line, and Back; a search
found.sought = [];
for (let step = 0; step <= steps; step++) {
  const went = [];
  for (const id of ["store-back", "store-forward", "own-back", "own-forward"]) {
    page.go(step);
    const isEnd = elements.get(id).attributes["aria-disabled"];
    elements.get(id).dispatch("click");
    went.push([page.at(), isEnd]);
  }
  found.sought.push(went);
}
found.clicked = [];
for (let step = 1; step <= Math.min(steps, 200); step++) {
  page.go(0);
  elements.get("script").dispatch("click", { target: page.links.get(step - 1) });
  const back = past.at(-1);
  page.go(0);
  elements.get("strip").rect = { left: 0, width: steps };
  elements.get("strip").dispatch("click", { clientX: step - 0.5 });
  found.clicked.push([page.at(), location.hash, back]);
}
page.go(0);
found.searched = [`line ${page.data.script[steps - 1][0]}:`, "no such words"].map(wanted => {
  elements.get("search").value = wanted.toUpperCase();
  elements.get("search").dispatch("keydown", { key: "Enter" });
  return [page.at(), elements.get("found").textContent];
});
found.strip = elements.get("strip-picture").innerHTML.length;
found.data = page.data;
// each step forward and back says the same
const says = () => [elements.get("says").textContent, elements.get("words").textContent, elements.get("cores").textContent, elements.get("lanes").innerHTML.length];
const table = () => Object.fromEntries([...elements.get("words").all("tr")].filter(row => row.children[1]?.name === "td").map(row =>
  [row.children[0].textContent, row.children.slice(1, 5).map(cell => cell.children.map(it => it.textContent).join(" "))]));
const shown = [];
found.tables = [];
for (let step = 0; step <= steps; step++) { page.go(step); shown.push(says()); found.tables.push(table()); }
found.said = shown.map(it => it[0]);
found.same = true;
for (let step = steps; step >= 0; step--) { page.go(step); found.same &&= JSON.stringify(says()) === JSON.stringify(shown[step]); }
page.go(steps);
found.held = [...elements.get("cores").all("table")].flatMap(table => [...table.all("tr")].map(row => [table.children[0].textContent, ...row.children.map(it => it.textContent)].join(" ")));
found.lanes = elements.get("lanes").innerHTML;
// a window of 360 pixels, and one cell below the part that scrolls
elements.get("lanes").clientWidth = 328;
heard.resize();
found.narrow = elements.get("lanes").innerHTML;
for (const id of ["cores", "mesh"]) elements.get(id).rect = { top: 100, bottom: 300, left: 0, right: 300, width: 300, height: 200 };
found.acting = [];
elements.get("words").rect = { top: 100, bottom: 300, left: 0, right: 300, width: 300, height: 200 };
found.scrolled = [];
for (let step = 1; step <= steps; step++) {
  // what the core has and its tile are above their parts here
  for (const id of ["cores", "mesh"]) elements.get(id).scrollTop = 0;
  page.go(step);
  found.acting.push(["cores", "mesh"].map(id => elements.get(id).scrollTop !== 0));
  const it = page.data.steps[step - 1], place = [...it.words.map(it => it[0]), ...it.loads][0];
  if (!place) continue;
  page.cells.get(place).rect = { top: 900, bottom: 920, left: 10, right: 60, width: 50, height: 20 };
  elements.get("words").scrollTop = 0;
  page.go(step);
  found.scrolled.push(elements.get("words").scrollTop);
  page.cells.get(place).rect = { top: 150, bottom: 170, left: 10, right: 60, width: 50, height: 20 };
}
process.stdout.write(JSON.stringify(found));
