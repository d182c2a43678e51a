"""What rccelab printed of a lab at whose end each core prints what it holds; and the last state that it tells."""
from __future__ import annotations

import re

HOLDS = """\
line 3: core 1 read 0:3.0
1 load 0.228.0 0000000000000000 # heap
1 load 0.228.1 0000000000000000 # heap
1 load 0.228.2 0000000000000000 # heap
1 load 0.228.3 0000000000000000 # heap
answer 0:3.0 0000000000000000 from words
line 4: core 1 read 2:0 expect 0 0 0 0
1 load 2.225.0 0000000000000000 # heap
1 load 2.225.1 0000000000000000 # heap
1 load 2.225.2 0000000000000000 # heap
1 load 2.225.3 0000000000000000 # heap
answer 2:0.0 0000000000000000 from words
answer 2:0.1 0000000000000000 from cache
answer 2:0.2 0000000000000000 from cache
answer 2:0.3 0000000000000000 from cache
line 5: core 0 write 3.0 2a
line 6: core 0 write 3.3 2B
line 7: core 1 read 0:3.0 expect 0
answer 0:3.0 0000000000000000 from cache
line 8: core 0 read 3.0 expect 2a
answer 0:3.0 000000000000002a from buffer line
line 9: core 0 flush
0 store 0.228.3 000000000000002b # heap
0 store 0.228.0 000000000000002a # heap
line 10: core 2 take 2 expect took
2 take 2.register 0000000000000001 # register
answer took
line 11: core 1 take 2 expect taken
1 take 2.register 0000000000000000 # register
answer taken
line 12: core 2 put 0 1 2 3 4
2 store 2.225.3 0000000000000004 # heap
2 store 2.225.2 0000000000000003 # heap
2 store 2.225.1 0000000000000002 # heap
2 store 2.225.0 0000000000000001 # heap
line 13: core 2 free 2
2 free 2.register 0000000000000000 # register
line 14: core 1 read 5:30.1 evict 2:0
1 load 5.255.0 0000000000000000 # heap
1 load 5.255.1 0000000000000000 # heap
1 load 5.255.2 0000000000000000 # heap
1 load 5.255.3 0000000000000000 # heap
answer 5:30.1 0000000000000000 from words
evicted 2:0
line 15: core 1 write 5:30.2 ffffffffffffffff
line 16: core 2 get 0:3 expect 2a 0 0 2b
2 load 0.228.0 000000000000002a # heap
2 load 0.228.1 0000000000000000 # heap
2 load 0.228.2 0000000000000000 # heap
2 load 0.228.3 000000000000002b # heap
answer 0:3.0 000000000000002a from words
answer 0:3.1 0000000000000000 from words
answer 0:3.2 0000000000000000 from words
answer 0:3.3 000000000000002b from words
line 17: core 0 print
core 0 caches nothing
core 0 buffers nothing
line 18: core 1 print
core 1 caches 0:3 0000000000000000 0000000000000000 0000000000000000 0000000000000000
core 1 caches 5:30 0000000000000000 0000000000000000 ffffffffffffffff 0000000000000000
core 1 buffers 5:30 - - ffffffffffffffff -
line 19: core 2 print
core 2 caches 0:3 000000000000002a 0000000000000000 0000000000000000 000000000000002b
core 2 buffers nothing
"""
LABS = {"holds.lab.out": HOLDS}


def last_state(text: str) -> tuple[dict[str, list[str]], list[str]]:
    """The words that were stored, by line, and what the cores hold by their own prints, as the page has them."""
    words: dict[str, list[str]] = {}
    for core, line, word, value in re.findall(r"(?m)^\d+ store (\d+)\.(\d+)\.(\d) (\w+) # heap$", text):
        words.setdefault(f"{core}:{int(line) - 225}", ["0"] * 4)[int(word)] = short(value)
    held = []
    for core, part in re.findall(r"(?m)^line \d+: core (\d+) print.*\n((?:core .*\n)+)", text):
        rows, lines = [], re.findall(r"(?m)^core \d+ (caches|buffers) (\S+)((?: \S+)*)$", part)
        waiting = {(place, word): value for sort, place, rest in lines for word, value in enumerate(rest.split()) if sort == "buffers"}
        for sort, place, rest in lines:
            cells = [_cell(words.get(place, ["0"] * 4)[word], value, waiting.get((place, word))) for word, value in enumerate(rest.split())]
            rows += [] if place == "nothing" else [" ".join([f"core {core}", "cached" if sort == "caches" else "write buffer", place, *cells])]
        held += rows or [f"core {core} holds nothing"]
    return words, held


def _cell(shared: str, value: str, waiting: str | None) -> str:
    """What a cell says: the value, and whether it waits in the write-combining buffer, or is old."""
    if value == "-" or short(value) == shared and value != waiting:
        return value if value == "-" else short(value)
    return short(value) + ("waits" if value == waiting else "old")


def short(value: str) -> str:
    """Hex digits without leading zeros."""
    return f"{int(value, 16):x}"
