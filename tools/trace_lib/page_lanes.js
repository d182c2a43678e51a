// The lanes of the steps around the present one, and the overview of all steps.

const escaped = text => text.replace(/&/g, "&amp;").replace(/</g, "&lt;").replace(/"/g, "&quot;");
const wide = 24, high = 40;
const tip = '<defs><marker id="tip" viewBox="0 0 10 10" refX="9" refY="5" markerWidth="8" markerHeight="8" orient="auto">'
  + '<path class="tip" d="M0 0L10 5L0 10z"/></marker></defs>';

// which steps the picture shows, as many as it has room for, with their calls and arrows, and a place for each lane that acts in them
function pictured() {
  const room = find("lanes").clientWidth || 1200, narrow = room < 600, left = narrow ? 72 : 150;
  const shown = Math.max(4, Math.min(60, Math.floor((room - left) / wide)));
  const from = Math.max(0, Math.min(now - Math.floor(shown / 2), count - shown)), to = Math.min(count, from + shown);
  const inside = step => step >= from && step < to;
  const arrows = data.arrows.filter(([, start, , end]) => inside(start) || inside(end));
  const acting = new Set([...data.steps.slice(from, to).map(it => it.who), ...arrows.flatMap(([lane, , other]) => [lane, other])]);
  const lanes = data.lanes.map((_, lane) => lane).filter(lane => acting.has(lane)), places = new Map(lanes.map((lane, k) => [lane, k]));
  const spans = data.spans.filter(([lane, first, last]) => last >= from && first < to && acting.has(lane));
  const x = step => left + wide * (step - from + 0.5), y = lane => 30 + high * places.get(lane);
  return { narrow, left, shown, from, to, inside, spans, arrows, lanes, x, y, right: left + wide * shown, tall: 20 + high * lanes.length };
}

// an arrow; one that leaves the picture ends at its side, with the step to which it goes or from which it comes
function arrowOf({ inside, x, y, left, right }, [lane, start, other, end]) {
  const down = other > lane, startX = inside(start) ? x(start) : left, endX = inside(end) ? x(end) : right - 2;
  const part = (at, one, two) => one + (two - one) * (at - x(start)) / (x(end) - x(start) || 1);
  const y1 = y(lane) + (down ? 13 : -13), y2 = y(other) + (down ? -15 : 15);
  const startY = inside(start) ? y1 : part(startX, y1, y2), endY = inside(end) ? y2 : part(endX, y1, y2), texts = [];
  const atRight = `x="${right - 4}" y="${endY - 4}" font-size="11" text-anchor="end"`;
  if (!inside(end)) texts.push(`<text class="clear" ${atRight}>to step ${end + 1}</text>`);
  // (at the left side are the names of the calls that began before)
  const clearX = Math.max(left + 2, Math.min(left + 150, endX - 60));
  if (!inside(start)) {
    const place = `x="${clearX}" y="${part(clearX, y1, y2) - 4}"`;
    texts.push(`<text class="clear" ${place} font-size="11">from step ${start + 1}</text>`);
  }
  return [`<line class="message" x1="${startX}" y1="${startY}" x2="${endX}" y2="${endY}" marker-end="url(#tip)"/>`, texts.join("")];
}

// the lanes as a picture: the calls as boxes, the steps by their letters, messages as arrows
let picture = null;
function showLanes() {
  picture = pictured();
  const { narrow, left, from, to, spans, lanes, x, y, right, tall } = picture, parts = [], calls = [];
  for (const lane of lanes) parts.push(`<text x="4" y="${y(lane) + 5}">${escaped(narrow ? nameOf(lane) : data.lanes[lane].name)}</text>`,
    `<line class="lane-line" x1="${left}" y1="${y(lane)}" x2="${right}" y2="${y(lane)}"/>`);
  for (const [lane, first, last, name] of spans) {
    const start = Math.max(first, from), end = Math.min(last, to - 1);
    parts.push(`<rect class="call" x="${x(start) - 11}" y="${y(lane) - 12}" width="${x(end) - x(start) + 22}" height="24" rx="4"/>`);
    calls.push(`<text class="clear" x="${x(start) - 11}" y="${y(lane) - 15}" font-size="11">${escaped(name)}</text>`);
  }
  data.steps.slice(from, to).forEach((it, k) => {
    parts.push(`<text class="clear" x="${x(from + k)}" y="${y(it.who) + 5}" text-anchor="middle">${it.letter}</text>`);
  });
  const drawn = picture.arrows.map(it => arrowOf(picture, it));
  parts.push(...drawn.map(it => it[0]), ...calls, ...drawn.map(it => it[1]));
  if (now) parts.push(`<rect class="now" x="${x(now - 1) - 12}" y="4" width="${wide}" height="${tall - 8}"/>`);
  const said = `Lanes of ${lanes.map(lane => data.lanes[lane].name).join(", ")}, steps ${from + 1} to ${to} of ${count}; `
    + "what is said of a step tells its letter, its call and its arrows";
  const some = lanes.length < data.lanes.length ? ` ${lanes.length} of ${data.lanes.length} lanes are shown: who acts in these steps.` : "";
  const size = `width="${right}" height="${tall}" viewBox="0 0 ${right} ${tall}"`;
  find("lanes").innerHTML = `<svg class="lane" role="img" aria-label="${escaped(said)}" ${size} font-size="13">`
    + `${tip}${parts.join("")}</svg>`;
  find("letters").textContent = data.letters + some;
  if (now) revealLane(y(data.steps[now - 1].who));
}

// moves the lanes so far that the one at this height is seen, with the name of its call
function revealLane(height) {
  const part = find("lanes");
  if (height - 28 < part.scrollTop || height + 16 > part.scrollTop + part.clientHeight) part.scrollTop = height - part.clientHeight / 2;
}

// the step at a place of the picture, or 0
function stepAt(event) {
  const step = Math.floor((event.clientX - find("lanes").getBoundingClientRect().left + find("lanes").scrollLeft - picture.left) / wide);
  return step < 0 || step >= picture.to - picture.from ? 0 : picture.from + step + 1;
}

// the overview: a row a lane, thin where it acts and thick where it stores, the steps that share a column taken together
function makeStrip() {
  const columns = Math.max(1, Math.min(count, Math.floor((find("strip").clientWidth || 1200) / 2)));
  const rows = data.lanes.length, each = Math.max(1, Math.min(9, Math.floor(48 / rows)));
  const seen = data.lanes.map(() => new Uint8Array(columns)), paths = ["", ""];
  data.steps.forEach((it, step) => { seen[it.who][Math.floor(step * columns / count)] |= it.words.length ? 3 : 1; });
  seen.forEach((row, lane) => [1, 2].forEach((bit, k) => {
    for (let at = 0, start = 0; at < columns; at = start) {
      while (at < columns && !(row[at] & bit)) at++;
      for (start = at; start < columns && row[start] & bit; start++);
      if (start > at) paths[k] += `M${at} ${(lane + 0.5) * each}H${start}`;
    }
  }));
  const said = `The run at a glance: ${rows} lanes, ${count} steps`;
  const size = `viewBox="0 0 ${columns} ${rows * each}" height="${rows * each}" preserveAspectRatio="none"`;
  find("strip-picture").innerHTML = `<svg role="img" aria-label="${said}" ${size}>`
    + `<path class="acts" d="${paths[0]}" stroke-width="${Math.max(0.5, each / 3)}"/>`
    + `<path class="stores" d="${paths[1]}" stroke-width="${each * 0.8}"/></svg>`;
}

// where the present step is in the overview, and which steps the lanes show
function showStrip() {
  const part = step => `${(100 * step / (count || 1)).toFixed(3)}%`;
  find("strip-now").setAttribute("style", `left: ${part(Math.max(0, now - 0.5))}`);
  find("strip-window").setAttribute("style", `left: ${part(picture.from)}; width: ${part(picture.to - picture.from)}`);
}
