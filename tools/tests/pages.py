"""Checks the command page: a page stands alone, and in a browser or over node, where the machine has one, it goes by keys and shows the last state."""
from __future__ import annotations

import base64
import glob
import json
import os
import pathlib
import re
import shutil
import struct
import subprocess
import tempfile
from typing import Any, Iterator

from tests.browser import Browser, find_browser
from tests.labs import LABS, last_state
from tests.model import trace_of
from trace_lib.labs import Lab
from trace_lib.pages import MOST_STEPS, of_lab
from trace_lib.texts import read_trace
from trace_lib.words import BITS, WORDS, Setup

TOP = os.path.dirname(os.path.dirname(os.path.dirname(os.path.realpath(__file__))))
# what the cells of a table of words say, by the name of the row
TABLES = """(() => Object.fromEntries([...document.querySelectorAll('#words tbody tr')].map(row =>
  [row.querySelector('th').textContent, [...row.querySelectorAll('td.value .digits')].map(cell => cell.textContent)])))()"""
HELD = """(() => [...document.querySelectorAll('#cores table')].flatMap(table => [...table.querySelectorAll('tr')].map(row =>
  [table.caption.textContent, ...[...row.children].map(cell => cell.textContent)].join(' '))))()"""


def inputs() -> dict[str, str]:
    """Traces by the model, and what labs print; one of them with the line behind it that says where it stopped."""
    hello = [[("send", 1, "plain", 0, 4, "01020304"), ("bar", 0)], [("recv", 0, "plain", 0, 4, "01020304"), ("bar", 0)]]
    traces = {f"hello.{layout}.trace": trace_of(Setup(2, layout, [0, 47]), hello, 1) for layout in (WORDS, BITS)}
    # two ranks of four that do nothing
    traces["few.trace"] = trace_of(Setup(4, WORDS, [0, 1, 2, 3]), [calls[:1] for calls in hello] + [[], []], 1)
    lesson = pathlib.Path(TOP, "lessons", "old_copy.lab.out").read_text("ascii") + pathlib.Path(TOP, "lessons", "old_copy.lab.err").read_text("ascii")
    return {**traces, **LABS, "stopped.lab.out": lesson}


def check_pages(called: Any, write: bool) -> tuple[int, list[str]]:
    """Each input: its page stands alone; in a browser its last state is that of the input."""
    wrong: list[str] = []
    path, node = find_browser(), shutil.which("node")
    if not path:
        print("tools: there is no Chromium here, and no page was opened" + ("; node plays them" if node else ", nor played by node"))
    with tempfile.TemporaryDirectory() as folder:
        for name, text in inputs().items():
            pathlib.Path(folder, name).write_text(text, encoding="ascii")
            ran: subprocess.CompletedProcess[bytes] = called(["page", name, "-o", f"{name}.html"], folder)
            faults = [f"status {ran.returncode}: {ran.stderr!r:.300}"] if ran.returncode else _alone(pathlib.Path(folder, f"{name}.html").read_text("utf-8"))
            faults = faults or (_over_node(node, f"{folder}/{name}.html", name, text) if node else [])
            wrong += [f"page {name}: {it}" for it in faults]
        wrong += _too_long(called, folder) + _odd_texts(called, folder) + _linear(called, folder)
        wrong += [f"page {path}: {it}" for path in lab_outputs() for it in _replayed(path)]
        if path and not wrong:
            try:
                with Browser(path) as browser:
                    for name, text in inputs().items():
                        wrong += [f"page {name}: {it}" for it in _played(browser, f"file://{folder}/{name}.html", name, text)]
            except (OSError, EOFError, RuntimeError) as error:
                wrong.append(f"{path} does not play the pages: {error}")
    return len(inputs()) * (1 + bool(path) + bool(node)) + 4 + len(lab_outputs()), wrong


def lab_outputs() -> list[str]:
    """The stored outputs of the labs of lessons/."""
    return sorted(glob.glob(f"{TOP}/lessons/**/*.lab.out", recursive=True))


def _replayed(path: str) -> list[str]:
    """Where the words of the last step of a lab are not those that its output tells."""
    text = pathlib.Path(path).read_text(encoding="ascii")
    shown: dict[str, list[str]] = {}
    for line in (line for step in of_lab(Lab(path, text.encode()))["steps"] for line in step.get("said", [])):
        if stored := re.fullmatch(r"s(\d+)\.(\d+)\.(\d) (\w+)", line):
            shown.setdefault(f"{stored[1]}:{int(stored[2]) - 225}", ["0"] * 4)[int(stored[3])] = stored[4]
    words, _ = last_state(text)
    # its accesses are a trace
    accesses = "".join(f"{line}\n" for line in text.split("\n") if re.match(r"\d+ (load|store|take|free) ", line))
    trace = read_trace(path, f"rcce trace 1 nue 48 layout words hosts {','.join(map(str, range(48)))}\n{accesses}".encode())
    told = {str(event.role) for event in trace.events} - {"heap", "register"}
    return [] if shown == words and not told else [f"its words are {shown}, not {words}; {told}"]


def _too_long(called: Any, folder: str) -> list[str]:
    """A trace of one step more than a page shows is refused in one line, which tells a way to a page; equal polls are one step."""
    head = "rcce trace 1 nue 1 layout words hosts 0\n"
    text = head + "".join(f"0 load 0.225.{at % 2} {0:016x}\n0 store 0.226.0 {0:016x}\n" for at in range(MOST_STEPS // 2)) + f"0 load 0.225.0 {0:016x}\n"
    pathlib.Path(folder, "long.trace").write_text(text, encoding="ascii")
    ran = called(["page", "long.trace"], folder)
    told = b"long.trace:1: TooLong: at most 20,000 steps, and here are 20,001; a page of a part: page --from 2 --to 19502 long.trace\n"
    wrong = [] if (ran.returncode, ran.stdout, ran.stderr) == (2, b"", told) else [f"a long trace: {ran.returncode} {ran.stderr!r:.300}"]
    # and the way that it tells is one
    ran = called(["page", "--from", "2", "--to", "19502", "long.trace"], folder)
    wrong += [] if ran.returncode == 0 and len(_data_of(ran.stdout)["steps"]) == 19_501 else [f"a part of a long trace: {ran.returncode} {ran.stderr!r:.300}"]
    ran = called(["page", "--from", "30000", "long.trace"], folder)
    wrong += [] if (ran.returncode, ran.stderr[:24]) == (2, b"long.trace:1: NoSteps: n") else [f"a part without a step: {ran.returncode} {ran.stderr!r:.300}"]
    polls = head + f"0 store 0.225.0 {7:016x} # f\u00fcr M\u00fcller \u2014 \u8ab2\u984c\n" + f"0 load 0.225.0 {7:016x}\n" * (MOST_STEPS + 1) + f"0 store 0.225.0 {8:016x}\n"
    page = _data_of(called(["page", "-"], folder, polls.encode()).stdout)
    wrong += [] if [it["letter"] for it in page["steps"]] == ["s", "p", "s"] else [f"equal polls: {len(page['steps'])} steps"]
    wrong += [] if page["script"] and page["script"][0][1].endswith("# f\u00fcr M\u00fcller \u2014 \u8ab2\u984c") else ["a comment of a trace in another language"]
    page = _data_of(called(["page", "--from", "3", "-"], folder, polls.encode()).stdout)
    return wrong + ([] if page.get("start", {}).get("words") == [["0.225.0", "7"]] else ["a part does not begin with the words that are there"])


def _data_of(page: bytes) -> Any:
    """The data of a page."""
    found = re.search(r'(?s)<script type="application/json" id="data">(.*?)</script>', page.decode())
    return json.loads(found[1]) if found else {"steps": [], "script": []}


def _odd_texts(called: Any, folder: str) -> list[str]:
    """A name that is like a mark of the page, or no UTF-8, and a comment in another language come out as they are."""
    wrong = []
    comment = "core 0 flush # f\u00fcr M\u00fcller \u2014 \u8ab2\u984c @TITLE@"
    for name, title in ((b"x@DATA@@ABOUT@.out", "x@DATA@@ABOUT@.out"), (b"\xff&.out", "\ufffd&amp;.out")):
        with open(os.path.join(folder.encode(), name), "wb") as file:
            file.write(f"line 1: {comment}\nline 2: core 0 flush # ".encode() + b"\xff\xfe\n")
        ran = called(["page", os.fsdecode(name)], folder)
        if ran.returncode or f"<title>{title}</title>" not in ran.stdout.decode():
            wrong.append(f"a page of a file called {name!r}: {ran.returncode} {ran.stderr!r:.300}")
        elif [it[1] for it in _data_of(ran.stdout)["script"]] != [comment, "core 0 flush # \ufffd\ufffd"]:
            wrong.append(f"a comment in another language: {_data_of(ran.stdout)['script']}")
    return wrong


def _linear(called: Any, folder: str) -> list[str]:
    """A core that fills its cache and then writes has a page whose size grows as its steps do."""
    sizes = []
    for count in (200, 400):
        lines = []
        for at in range(count):
            core, line = divmod(at, 31)
            lines += [f"line {at + 1}: core 47 read {core}:{line}.0"]
            lines += [f"47 load {core}.{225 + line}.{word} {0:016x} # heap" for word in range(4)] + [f"answer {core}:{line}.0 {0:016x} from words"]
        lines += [f"line {count + at + 1}: core 47 write 0:0.0 {at % 10}" for at in range(count)]
        ran = called(["page", "-"], folder, "".join(f"{line}\n" for line in lines).encode())
        sizes.append(len(json.dumps(_data_of(ran.stdout)["steps"])))
    return [] if 0 < sizes[1] < 2.2 * sizes[0] else [f"twice as many steps of a core with a full cache make {sizes[1]} bytes of {sizes[0]}"]


def _ways(count: int) -> list[list[Any]]:
    """Where dom.js goes, and where it is to come."""
    def key(name: str, step: int) -> list[Any]:
        return [name, step, f"#{step}", True]

    def button(name: str, step: int) -> list[Any]:
        return [name, step, str(step == 0).lower(), str(step == count).lower()]

    two = min(2, count)
    ways = [key("ArrowRight", 1), key("ArrowRight", two), key("ArrowLeft", two - 1), key("End", count), key("ArrowRight", count), key("Home", 0), key("ArrowLeft", 0)]
    # in a part that scrolls, in a field and at a button keys are not the page's
    ways += [["ArrowRight", 0, "#0", False], ["End", 0, "#0", False], [" ", 0, "#0", False], ["#2.5", two, f"#{two}", True], ["#last", count, f"#{count}", True], key("#no", 0), key("#-3", 0), key("#1", 1)]
    return ways + [button("to-last", count), button("back", count - 1), button("to-first", 0), button("forward", 1), ["slider", two, "", True]]


def _tables(page: Any) -> Iterator[dict[str, list[str]]]:
    """The words before the first step and behind each: what the steps have stored, and of the last one what it stores and loads."""
    words: dict[str, str] = {}
    for step in [{"words": [], "loads": []}, *page["steps"]]:
        words.update(dict(step["words"]))
        tags = {**{place: " loaded" for place in step["loads"]}, **{place: " stored" for place, _ in step["words"]}}
        yield {line: [words.get(place, "0") + tags.get(place, "") for place in (f"{line}.{word}" for word in range(4))] for line, _ in page["lines"]}


def _over_node(node: str, path: str, name: str, text: str) -> list[str]:
    """What is wrong with a page that is played over a document of its own: its ways, what it says forward and back, its last state, its lanes."""
    ran = subprocess.run([node, f"{TOP}/tools/tests/dom.js", path], capture_output=True, timeout=300)
    if ran.returncode:
        return [f"node: {ran.stderr.decode()[-500:]}"]
    found = json.loads(ran.stdout)
    count = found["count"]
    wrong = [] if found["opens"] == 0 else ["it does not open at its first step"]
    ways = _ways(count)
    ways[-1][2] = found["said"][min(2, count)]
    wrong += [f"{made} is to be {wanted}" for made, wanted in zip(found["went"], ways) if made != wanted] + _moves_over_node(found)
    wrong += [] if found["same"] else ["backward it shows another state than forward"]
    said = found["said"]
    wrong += [] if len(said) == count + 1 and all(it.startswith(f"Step {at} of {count}, line ") for at, it in enumerate(said) if at) else [f"it says {said!r:.300}"]
    words, held = last_state(text) if name.endswith(".out") else _words_of(text)
    held = ["core 0 holds nothing", "core 1 cached 0:0 0old 0 0 0"] if name.startswith("stopped") else held
    page, last = found["data"], {line: [cell.split()[0] for cell in cells] for line, cells in found["tables"][-1].items()}
    wrong += [f"line {line} shows {last.get(line)}, not {values}" for line, values in words.items() if last.get(line) != values]
    wrong += [] if found["held"] == held else [f"the cores hold {found['held']}, not {held}"]
    wrong += [] if found["tables"] == list(_tables(page)) else ["the words of a step are not those that its steps stored, with what it stores and loads"]
    # each arrow is a sentence at both of its ends
    arrows = sum(it.count(" takes it in step ") for it in said), sum(it.count("It takes ") for it in said)
    wrong += [] if arrows == (len(page["arrows"]),) * 2 else [f"{len(page['arrows'])} arrows, and {arrows} sentences of them"]
    # a lane for who acts in the steps that are shown alone, and as many steps as there is room for
    for lanes, steps in ((found["lanes"], 43), (found["narrow"], 10)):
        acting, ever = ({it["who"] for it in page["steps"][first:]} for first in (max(0, count - steps), 0))
        drawn = lanes.count("lane-line")
        wrong += [] if len(acting) <= drawn <= len(ever) and lanes.count("middle") == min(count, steps) else [f"{drawn} lanes, {lanes.count('middle')} steps"]
    wrong += [] if 'width="312"' in found["narrow"] else ["the lanes are wider than a narrow window"]
    wrong += [] if found["scrolled"] and all(it > 0 for it in found["scrolled"]) else ["a word out of sight is not brought into it"]
    # (of a trace the registers alone stand with the cores)
    registers = [data["kind"] == "lab" or bool(step["registers"]) for data in [page] for step in page["steps"]]
    wrong += [] if found["acting"] == [[it, True] for it in registers] else ["the core that acts, its tile or the register is not brought into sight"]
    return wrong


def _moves_over_node(found: Any) -> list[str]:
    """What is wrong with how a page plays, seeks and searches, and with what it says while it plays."""
    count, steps = found["count"], found["data"]["steps"]
    played = [[at, "Pause" if at < count else "Play"] for at in range(count + 1)] + [[0, "Pause"], [0, "Play"]]
    wrong = [] if found["played"] == played else [f"it plays {found['played']!r:.200}"]
    wrong += [] if found["live"] == ["off", "polite", "off", "same"] else [f"a state is not said once: {found['live']}"]
    for at, went in enumerate(found["sought"]):
        stores = [step for step, it in enumerate(steps, 1) if it["words"]]
        own = [step for step, it in enumerate(steps, 1) if at and it["who"] == steps[at - 1]["who"]]
        wanted = [side for those in (stores, own) for side in ([step for step in those if step < at][-1:], [step for step in those if step > at][:1])]
        wrong += [] if went == [[*(it or [at]), str(not it).lower()] for it in wanted] else [f"from step {at} it seeks to {went}"]
    clicked = [[step, f"#{step}", "#0"] for step in range(1, min(count, 200) + 1)]
    wrong += [] if found["clicked"] == clicked else [f"clicks lead to {found['clicked']!r:.200}"]
    return wrong + ([] if found["searched"] == [[count, "in 1 step"], [count, "in no steps"]] else [f"a search leads to {found['searched']}"])


def _alone(text: str) -> list[str]:
    """What of a page would reach for something else."""
    page = re.sub(r'(?s)<script type="application/json" id="data">.*?</script>', "", text)
    reaching = re.findall(r"https?:|\bsrc=|<link|@import|url\((?!#)|\bfetch\b|XMLHttpRequest|\bimport\b", page)
    return [f"it reaches for {it}" for it in reaching]


def _played(browser: Browser, url: str, name: str, text: str) -> list[str]:
    """What is wrong with a page that is played: from its first step by keys to its last and back."""
    browser.open("about:blank")
    browser.open(url)
    count = int(browser.run("data.steps.length"))
    wrong = [] if browser.run("now") == 0 else ["it does not open at its first step"]
    for key, step in (("ArrowRight", 1), ("ArrowRight", 2), ("ArrowLeft", 1), ("End", count), ("ArrowRight", count), ("Home", 0), ("End", count)):
        browser.press(key)
        if browser.run("now") != step or browser.run("Number(find('slider').value)") != step:
            wrong.append(f"{key} does not lead to step {step}")
    # with the slider in hand its keys do the same, and no step twice
    browser.run("find('slider').focus()")
    for key, step in (("ArrowLeft", count - 1), ("Home", 0), ("ArrowRight", 1), ("End", count)):
        browser.press(key)
        wrong += [] if browser.run("now") == step else [f"{key} at the slider does not lead to step {step}"]
    for button, step in (("back", count - 1), ("to-first", 0), ("forward", 1), ("to-last", count)):
        browser.run(f"find('{button}').click()")
        wrong += [] if browser.run("now") == step else [f"the button {button} does not lead to step {step}"]
    says = str(browser.run("find('says').textContent"))
    wrong += [] if says.startswith(f"Step {count} of {count}, line ") else [f"the last step says {says!r:.200}"]
    if name.startswith("stopped") and "\nstopped: line 6: 0:0.0 is 0000000000000000, expected 000000000000002a" not in says:
        wrong.append("the page does not say where the lab stopped")
    marked = browser.run("document.querySelector('#script [aria-current=step]').textContent")
    wrong += [] if str(marked).split()[0] == str(browser.run("data.script[count - 1][0]")) else [f"the line that is marked is {marked}"]
    return wrong + _state_faults(browser, name, text) + _reader_faults(browser, count)


def _state_faults(browser: Browser, name: str, text: str) -> list[str]:
    """Where the last state of the document is not that of the input."""
    words, held = last_state(text) if name.endswith(".out") else _words_of(text)
    made = dict(browser.run(TABLES))
    wrong = [f"line {line} shows {made.get(line)}, not {values}" for line, values in words.items() if made.get(line) != values]
    shown = list(browser.run(HELD))
    # a lab that stopped has no print of what its cores hold: there the one old copy is to be seen
    held = ["core 0 holds nothing", "core 1 cached 0:0 0old 0 0 0"] if name.startswith("stopped") else held
    return wrong + ([] if shown == held else [f"the cores hold {shown}, not {held}"])


def _words_of(text: str) -> tuple[dict[str, list[str]], list[str]]:
    """The words that stand in the lines of a trace behind its last event, and what its cores hold, which a trace does not tell."""
    words: dict[str, list[str]] = {}
    for event in read_trace("", text.encode()).events:
        if event.line >= 0:
            line = words.setdefault(f"{event.core}.{event.line}", ["0"] * 4)
            line[event.word] = f"{event.value:x}"
    return words, []


def _reader_faults(browser: Browser, count: int) -> list[str]:
    """What a screen reader would miss: the slider with the step in words, the regions by name, the tables by caption; and the picture."""
    nodes = browser.ask("Accessibility.getFullAXTree")["nodes"]
    told = [(it.get("role", {}).get("value"), it.get("name", {}).get("value", "")) for it in nodes if not it.get("ignored")]
    wanted = [("slider", "Step"), ("button", "Forward"), ("button", "Back"), ("region", "What the cores hold"), ("region", "The words of the buffers in use, as hex digits"),
              ("heading", "The lines"), ("heading", "The lanes"), ("heading", "The mesh")]
    wrong = [f"a screen reader finds no {role} {name}" for role, name in wanted if (role, name) not in told]
    wrong += [] if browser.run("find('slider').getAttribute('aria-valuetext')") .startswith(f"Step {count} of {count}, ") else ["the slider does not say the step"]
    shot = browser.ask("Page.captureScreenshot", format="png")["data"]
    width, height = struct.unpack(">II", base64.b64decode(shot[:64])[16:24])
    return wrong + ([] if width > 1000 and height > 500 else [f"a screenshot of {width} by {height}"])
