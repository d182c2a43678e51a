"""Checks how a page looks and behaves in a real browser, where the machine has one: at 360 and at 1,200 pixels, light and dark."""
from __future__ import annotations

import pathlib
import tempfile
from typing import Any

from tests.browser import Browser, find_browser
from tests.labs import LABS
from tests.model import trace_of
from trace_lib.pages import MOST_STEPS
from trace_lib.words import WORDS, Setup

NARROW, WIDE = (360, 740), (1200, 900)
# the bounds of a page of as many steps as a page may have
MOST_BYTES, MOST_SECONDS = 8 << 20, 2
CONTROLS = ("to-first", "back", "play", "forward", "to-last", "speed", "slider")
TOOLS = ("store-back", "store-forward", "own-back", "own-forward", "search", "found-back", "found-forward")
# whether an element is in the window, and clear of the parts that hide what scrolls out of them
SEEN = """(() => {
  const seen = it => {
    const inner = it.getBoundingClientRect(), part = it.closest('.scroll'), near = 1;
    if (!inner.width || !inner.height) return false;
    const outer = part && part !== it ? part.getBoundingClientRect() : { left: 0, right: innerWidth, top: -1e6, bottom: 1e6 };
    return inner.left >= outer.left - near && inner.right <= outer.right + near && inner.top >= outer.top - near && inner.bottom <= outer.bottom + near;
  };
  const inWindow = it => { const { top, bottom, left, right } = it.getBoundingClientRect(); return top >= -1 && bottom <= innerHeight + 1 && left >= -1 && right <= innerWidth + 1; };
  window.looks = { seen, inWindow };
})()"""
# by the rule of WCAG: how clear a colour is on another
CONTRAST = """(() => {
  const light = text => { const [r, g, b] = text.match(/[\\d.]+/g).map(it => it / 255).map(it => it <= 0.03928 ? it / 12.92 : ((it + 0.055) / 1.055) ** 2.4);
    return 0.2126 * r + 0.7152 * g + 0.0722 * b; };
  const ground = it => { const own = getComputedStyle(it).backgroundColor; return /, 0\\)$/.test(own) && it.parentElement ? ground(it.parentElement) : own; };
  const clear = it => { const [one, two] = [getComputedStyle(it).color, ground(it)].map(light).sort((a, b) => b - a); return (one + 0.05) / (two + 0.05); };
  const each = selector => [...document.querySelectorAll(selector)].slice(0, 300).map(clear);
  return { least: Math.min(...each('h1, h2, p, button, select, #search, td, th, caption, #script a, .tag')), ground: light(ground(document.body)) };
})()"""


def looked_at() -> dict[str, str]:
    """The inputs of the pages: a lab, and the trace of 48 ranks."""
    calls = [[("send", rank + 1, "plain", 0, 4, "01020304")] if rank % 2 == 0 else [("recv", rank - 1, "plain", 0, 4, "01020304")] for rank in range(48)]
    return {"a.lab.out": next(iter(LABS.values())), "all.trace": trace_of(Setup(48, WORDS, list(range(48))), [[*it, ("bar", 0)] for it in calls], 1)}


def most_steps() -> str:
    """A trace of as many steps as a page may have: no two polls of one word follow each other."""
    lines = (f"0 store 0.225.0 {at + 1:016x} # heap\n1 load 0.225.0 {at + 1:016x} # heap\n" for at in range(MOST_STEPS // 2))
    return "rcce trace 1 nue 2 layout words hosts 0,1\n" + "".join(lines)


def check_looks(called: Any, write: bool) -> tuple[int, list[str]]:
    """Each page at each width, light and dark, and the page of the most steps; without a browser a line says so, and none is opened."""
    path = find_browser()
    if not path:
        print("tools: there is no Chromium here, and how a page looks and behaves in one was not tried")
        return 0, []
    wrong: list[str] = []
    inputs = {**looked_at(), "most.trace": most_steps()}
    with tempfile.TemporaryDirectory() as folder:
        for name, text in inputs.items():
            pathlib.Path(folder, name).write_text(text, encoding="ascii")
            ran = called(["page", name, "-o", f"{name}.html"], folder)
            if ran.returncode:
                return 1, [f"page {name}: status {ran.returncode}: {ran.stderr!r:.300}"]
        try:
            with Browser(path) as browser:
                for name in looked_at():
                    url = f"file://{folder}/{name}.html"
                    for size in (NARROW, WIDE):
                        wrong += [f"page {name} at {size[0]} pixels: {it}" for it in _looks(browser, url, size) + _goes(browser, url)]
                wrong += [f"page most.trace: {it}" for it in _opens(browser, pathlib.Path(folder, "most.trace.html"))]
        except (OSError, EOFError, RuntimeError) as error:
            wrong.append(f"{path} does not show the pages: {error}")
    return 4 * len(looked_at()) + 1, wrong


def _open(browser: Browser, url: str, hash_: str = "") -> None:
    """Opens a page anew."""
    browser.open("about:blank")
    browser.open(url + hash_)
    browser.run(SEEN)


def _looks(browser: Browser, url: str, size: tuple[int, int]) -> list[str]:
    """What of a page is out of sight, or not clear."""
    wrong, grounds = [], []
    browser.resize(*size)
    for scheme in ("light", "dark"):
        browser.prefer(scheme)
        _open(browser, url)
        told = browser.run(CONTRAST)
        grounds.append(told["ground"])
        wrong += [] if told["least"] >= 4.5 else [f"{scheme}: a text has a contrast of {told['least']:.2f} to 1"]
    wrong += [] if grounds[0] > 0.8 and grounds[1] < 0.2 else [f"the ground is {grounds[0]:.2f} light and {grounds[1]:.2f} dark"]
    count = int(browser.run("count"))
    hidden = browser.run(f"{list(CONTROLS + TOOLS)}.filter(it => !looks.inWindow(find(it)))")
    wrong += [f"not in view when it opens: {', '.join(hidden)}"] if hidden else []
    steps = range(0, count + 1, max(1, count // 40))
    for step in steps:
        told = browser.run(f"""(go({step}), {{ wider: document.documentElement.scrollWidth - innerWidth,
            cells: [...document.querySelectorAll('#words td.changed, #words td.loaded')].map(looks.seen),
            line: !now || looks.seen(document.querySelector('#script [aria-current=step]')),
            lane: !now || (r => {{ const part = find('lanes').getBoundingClientRect(), y = r.top + picture.y(data.steps[now - 1].who);
              return y > part.top && y < part.bottom; }})(document.querySelector('#lanes svg').getBoundingClientRect()) }})""")
        wrong += [f"step {step}: the document is {told['wider']} pixels wider than the window"] if told["wider"] > 0 else []
        wrong += [f"step {step}: {what} is out of sight" for what in ("line", "lane") if not told[what]]
        # (four words of a line may be wider than a narrow part: then one of them is shown)
        wrong += [] if not told["cells"] or any(told["cells"]) else [f"step {step}: the word that it touches is out of sight"]
    # in a window of another width the lines break elsewhere
    browser.resize(*(WIDE if size == NARROW else NARROW))
    browser.run("new Promise(done => requestAnimationFrame(() => setTimeout(done, 100)))")
    wrong += [] if browser.run("looks.seen(document.querySelector('#script [aria-current=step]'))") else ["in another width the line is out of sight"]
    browser.resize(*size)
    # where the page is scrolled the controls and what is said stay
    browser.run("scrollTo(0, document.documentElement.scrollHeight)")
    hidden = browser.run(f"{[*CONTROLS, 'says']}.filter(it => !looks.inWindow(find(it)))")
    return wrong + ([f"not in view when the page is scrolled: {', '.join(hidden)}"] if hidden else [])


def _goes(browser: Browser, url: str) -> list[str]:
    """What is wrong with the focus, the keys, the address and what is said, by real clicks and keys."""
    _open(browser, url)
    wrong, count = [], int(browser.run("count"))
    for button, step in (("forward", 1), ("forward", 2), ("back", 1), ("to-last", count), ("to-first", 0)):
        browser.click(button)
        told = browser.run("[now, document.activeElement.id]")
        wrong += [] if told == [step, button] else [f"a click on {button} leads to step {told[0]}, and the focus is at {told[1]!r}, not {button}"]
    wrong += _plays(browser) + _keys(browser) + _address(browser, url, count)
    # what is said is new at each step, in an element that a screen reader tells
    _open(browser, url)
    said = [str(browser.run(f"(go({step}), find('says').textContent)")) for step in range(min(count, 40) + 1)]
    wrong += [] if len(set(said)) == len(said) else ["two steps say the same"]
    live = browser.run("[find('says').getAttribute('aria-live'), find('says').getAttribute('role')]")
    wrong += [] if live == ["polite", "status"] else [f"what is said has {live}"]
    if count > 100:
        return wrong
    nodes = browser.ask("Accessibility.getFullAXTree")["nodes"]
    texts = [it.get("name", {}).get("value", "") for it in nodes if it.get("role", {}).get("value") in ("StaticText", "status")]
    return wrong + ([] if any(said[-1].split("\n")[0] in text for text in texts) else ["the tree of a screen reader lacks what is said"])


def _plays(browser: Browser) -> list[str]:
    """Playing keeps the focus at its button, and is said at its pause."""
    browser.run("find('speed').value = '20'")
    browser.click("play")
    went = browser.run("""new Promise(done => { const from = Date.now(); (function look() {
        now >= 2 || Date.now() - from > 20000 ? done([now >= 2, document.activeElement.id, find('says').getAttribute('aria-live')]) : setTimeout(look, 20); })(); })""")
    wrong = [] if went in ([True, "play", "off"], [True, "play", "polite"]) else [f"it plays so: {went}"]
    browser.run("timer && pause()")
    told = browser.run("[find('play').textContent, find('says').getAttribute('aria-live'), document.activeElement.id]")
    browser.run("find('speed').value = '1'")
    return wrong + ([] if told == ["Play", "polite", "play"] else [f"at the pause: {told}"])


def _keys(browser: Browser) -> list[str]:
    """In a part that scrolls an arrow scrolls, and does not go; in the field it moves in the text; elsewhere it goes."""
    wrong = []
    browser.run("go(1); document.activeElement.blur(); scrollTo(0, 0)")
    for key, step in (("ArrowRight", 2), ("ArrowLeft", 1), ("Home", 0), ("ArrowRight", 1)):
        browser.press(key)
        wrong += [] if browser.run("now") == step else [f"{key} does not lead to step {step}"]
    for part in ("words", "cores", "lanes", "mesh"):
        browser.run(f"find('{part}').scrollLeft = 0; find('{part}').focus()")
        wide = browser.run(f"find('{part}').scrollWidth - find('{part}').clientWidth") > 20
        browser.press("ArrowRight")
        moved = browser.run(f"""new Promise(done => {{ const from = Date.now(); (function look() {{
            find('{part}').scrollLeft > 0 || Date.now() - from > {5000 if wide else 0} ? done(find('{part}').scrollLeft > 0) : setTimeout(look, 20); }})(); }})""")
        wrong += [] if moved or not wide else [f"an arrow does not scroll {part}"]
        wrong += [] if browser.run("[now, document.activeElement.id]") == [1, part] else [f"an arrow in {part} leads away"]
    browser.run("find('search').value = 'ab'; find('search').focus(); find('search').setSelectionRange(0, 0)")
    browser.press("ArrowRight")
    told = browser.run("[now, find('search').selectionStart]")
    browser.run("find('search').value = ''; find('search').blur()")
    return wrong + ([] if told == [1, 1] else [f"an arrow in the field: step and place {told}"])


def _address(browser: Browser, url: str, count: int) -> list[str]:
    """The browser's Back and Forward go between the steps to which one jumped; an address with a step opens there."""
    _open(browser, url, "#2")
    wrong = [] if browser.run("now") == 2 else ["#2 does not open at step 2"]
    browser.click("to-last")
    browser.click("to-first")
    for way, step in (("back", count), ("back", 2), ("forward", count), ("forward", 0)):
        told = browser.run(f"""new Promise(done => {{ const from = Date.now(); history.{way}(); (function look() {{
            now === {step} && location.hash === '#{step}' || Date.now() - from > 10000 ? done([now, location.hash]) : setTimeout(look, 20); }})(); }})""")
        wrong += [] if told == [step, f"#{step}"] else [f"{way} leads to {told}, not to step {step}"]
    return wrong


def _opens(browser: Browser, file: pathlib.Path) -> list[str]:
    """A page of the most steps is small, and opens soon (counted is what the page computes, not what else the machine does meanwhile)."""
    browser.resize(*WIDE)
    browser.open("about:blank")
    browser.ask("Performance.enable", timeDomain="threadTicks")
    browser.open(f"file://{file}")
    browser.run("new Promise(done => requestAnimationFrame(() => setTimeout(done, 0)))")
    seconds = {it["name"]: it["value"] for it in browser.ask("Performance.getMetrics")["metrics"]}["TaskDuration"]
    steps, size = browser.run("count"), file.stat().st_size
    wrong = [] if steps == MOST_STEPS else [f"it has {steps} steps"]
    wrong += [] if size < MOST_BYTES else [f"it has {size:,} bytes"]
    wrong += [] if seconds < MOST_SECONDS else [f"it takes {seconds:.2f} seconds of a processor to open"]
    browser.run("go(count)")
    return wrong + ([] if str(browser.run("find('says').textContent")).startswith(f"Step {MOST_STEPS} of") else ["it does not go to its last step"])
