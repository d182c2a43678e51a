// The lines, the words, what the cores hold, and the mesh.

// moves a part that scrolls so far that an element of it is seen, clear of the corner that stays where it is
function reveal(part, it, corner) {
  if (!it) return;
  const outer = part.getBoundingClientRect(), inner = it.getBoundingClientRect();
  const { width, height } = corner?.getBoundingClientRect() ?? { width: 0, height: 0 };
  const top = outer.top + height, bottom = outer.top + (part.clientHeight || outer.height);
  const left = outer.left + width, right = outer.left + (part.clientWidth || outer.width);
  if (inner.top < top || inner.bottom > bottom) part.scrollTop += inner.top - top - Math.max(0, bottom - top - inner.height) / 2;
  if (inner.left < left || inner.right > right) part.scrollLeft += inner.left - left - Math.max(0, right - left - inner.width) / 2;
}

// what stands in the cell of a word: its digits, and the tag that says in words what its pattern says
const inCell = (value, tag) => [make("span", { class: "digits" }, value), ...(tag ? [make("span", { class: "tag" }, tag)] : [])];

// the lines around the present one, each a link to its step; they are made anew where a step leaves them
const page = 200, links = new Map();
let current = null;
function makeLines(from, to) {
  links.clear();
  for (let at = from; at < to; at++) {
    const [number, text] = data.script[at];
    links.set(at, make("a", { href: `#${at + 1}`, tabindex: "-1" }, `${String(number).padStart(4)}  ${text}`));
  }
  find("script").replaceChildren(...[...links.values()].map(it => make("li", {}, it)));
}

function showLine() {
  if (!count) return;
  const at = Math.max(0, now - 1), from = Math.floor(at / page) * page, hadFocus = find("script-part").contains(document.activeElement);
  const isNear = at < from + 10 && from && !links.has(from - 1);
  if (!links.has(at) || isNear) makeLines(Math.max(0, from - page), Math.min(count, from + 2 * page));
  current?.setAttribute("tabindex", "-1");
  current?.removeAttribute("aria-current");
  current = links.get(at);
  current.setAttribute("tabindex", "0");
  if (now) current.setAttribute("aria-current", "step");
  if (hadFocus) current.focus({ preventScroll: true });
  reveal(find("script-part"), current);
}

const cells = new Map(), corner = make("th", { scope: "col" }, "Line");
function makeWords() {
  const head = make("tr", {}, corner, ...["Word 0", "Word 1", "Word 2", "Word 3", "What for"].map(it => make("th", { scope: "col" }, it)));
  const rows = data.lines.map(([line, what]) => {
    const words = [0, 1, 2, 3].map(word => {
      const cell = make("td", { class: "value" });
      cells.set(`${line}.${word}`, cell);
      return cell;
    });
    return make("tr", {}, make("th", { scope: "row" }, line), ...words, make("td", {}, what));
  });
  find("words").append(make("table", {}, make("thead", {}, head), make("tbody", {}, ...rows)));
}

// the words that these steps touch, or all; what the present step stores and loads has a tag
function showWords(state, step, touched) {
  const changed = new Map(step.words), loaded = new Set(step.loads);
  const places = touched ? touched.flatMap(it => [...it.words.map(([place]) => place), ...it.loads]) : cells.keys();
  for (const place of new Set(places)) {
    const tag = changed.has(place) ? "stored" : loaded.has(place) ? "loaded" : "";
    const value = wordOf(state, place), shown = `${value} ${tag}`, cell = cells.get(place);
    if (cell.shown === shown) continue;
    cell.shown = shown;
    cell.className = `value${changed.has(place) ? " changed" : ""}${loaded.has(place) ? " loaded" : ""}`;
    cell.replaceChildren(...inCell(value, tag));
  }
  reveal(find("words"), cells.get([...changed.keys(), ...loaded][0]), corner);
}

// the cached lines of a core, each word that is not the shared one marked as old, and the line that waits in its write-combining buffer
function coreRows(state, core) {
  const held = state.buffers.get(core);
  const rows = [...(state.caches.get(core) ?? [])].map(([line, words]) => [`cached ${line}`, words.map((value, word) => {
    const waits = held && held[0] === line && held[1][word] === value;
    return [value, value === wordOf(state, `${line}.${word}`) ? "" : waits ? "waits" : "old"];
  })]);
  if (held) rows.push([`write buffer ${held[0]}`, held[1].map(value => [value ?? "-", value === null ? "" : "waits"])]);
  return rows;
}

// the tables of the cores, and the registers
const tables = new Map(), registers = new Map();
function makeCores() {
  const isLab = data.kind === "lab";
  for (const { core } of isLab ? data.lanes : []) {
    const caption = make("caption", {}, `core ${core}`), body = make("tbody");
    tables.set(core, { caption, body, table: make("table", {}, caption, body), rows: new Map() });
  }
  for (const core of data.registers) registers.set(core, make("li"));
  const parts = isLab ? [...tables.values()].map(it => it.table)
    : [make("p", {}, "A trace tells the shared words and the registers alone: what caches and write-combining buffers hold is not in it.")];
  find("cores").append(...parts, ...(registers.size ? [make("ul", {}, ...registers.values())] : []));
}

// whether these steps touch what the table of a core shows: what it holds, or a shared word of a line that it holds
function touchesCore(state, core, touched) {
  const holds = line => state.caches.get(core)?.has(line);
  const isIts = ([its]) => its === core;
  return touched.some(it => it.caches.some(isIts) || it.buffers.some(isIts) || it.words.some(([place]) => holds(lineOf(place))));
}

function showCores(state, step, touched) {
  for (const [core, it] of tables) {
    if (touched && !touchesCore(state, core, touched)) continue;
    const rows = coreRows(state, core);
    it.rows = new Map(rows.map(([name, words]) => {
      const held = words.map(([value, tag]) => make("td", { class: `value ${tag}` }, ...inCell(value, tag)));
      return [name, make("tr", {}, make("th", { scope: "row" }, name), ...held)];
    }));
    it.body.replaceChildren(...(rows.length ? it.rows.values() : [make("tr", {}, make("td", { colspan: "5" }, "holds nothing"))]));
  }
  for (const [core, it] of registers) {
    const says = `register of core ${core}: ${state.registers.get(core) ?? "free"}`;
    if (it.textContent !== says) it.textContent = says;
  }
  // the register of this step, or the acting core's line, else its table
  const register = step.registers.map(([core]) => registers.get(core))[0];
  const line = [...step.loads, ...step.words.map(it => it[0])].map(lineOf)[0];
  const acts = tables.get(data.lanes[step.who]?.core);
  reveal(find("cores"), register ?? (acts && (acts.rows.get(`cached ${line}`) ?? acts.caption)));
}

// the mesh: its rows are made once, and the tags of a step are put into them
const tiles = new Map();
function makeMesh() {
  const rows = [];
  for (let y = 3; y >= 0; y--) {
    const row = [make("th", { scope: "row" }, `${y}`)];
    for (let x = 0; x < 6; x++) {
      const cores = [12 * y + 2 * x, 12 * y + 2 * x + 1], lanes = data.lanes.filter(it => cores.includes(it.core)), tags = make("div");
      const names = lanes.flatMap(it => [make("br"), it.name]), kind = lanes.length ? "used" : "";
      const cell = make("td", { class: kind }, `cores ${cores.join(", ")}`, ...names, tags);
      cores.forEach(core => tiles.set(core, { cell, tags }));
      row.push(cell);
    }
    rows.push(make("tr", {}, ...row));
  }
  const head = make("tr", {}, make("td"), ...[0, 1, 2, 3, 4, 5].map(x => make("th", { scope: "col" }, `${x}`)));
  const caption = make("caption", {}, "24 tiles with two cores each, by column and row: who acts, and where the words of the step are");
  find("mesh").append(make("table", {}, caption, make("thead", {}, head), make("tbody", {}, ...rows)));
}

let tagged = [];
function showMesh(step) {
  const acts = tiles.get(data.lanes[step.who]?.core), holds = coresOf(step).map(core => tiles.get(core));
  tagged.forEach(it => it.tags.replaceChildren());
  tagged = [...new Set([...(acts ? [acts] : []), ...holds])];
  for (const it of tagged) {
    const tags = [...(it === acts ? ["acts"] : []), ...(holds.includes(it) ? ["words"] : [])];
    it.tags.append(...tags.map(tag => make("span", { class: "tag" }, tag)));
  }
  reveal(find("mesh"), acts?.cell);
}
