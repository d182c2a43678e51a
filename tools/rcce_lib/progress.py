"""Long work shows that it goes on: a line on standard error after two seconds, and later ones further apart."""
from __future__ import annotations

import sys
import threading
import time
from types import TracebackType

# the seconds after which a line is written; then each minute
TIMES = (2, 10, 30)


class Progress:
    """Tells from a thread of its own what is being done, as long as it is done."""

    def __init__(self, quiet: bool) -> None:
        self.quiet = quiet
        self.doing = "at work"
        self.ended = threading.Event()
        self.thread = threading.Thread(target=self._tell, daemon=True)

    def _tell(self) -> None:
        """Writes the lines, each at its time."""
        begun, after = time.monotonic(), 0
        while True:
            after = TIMES[TIMES.index(after) + 1] if after in TIMES[:-1] else after + 60 if after else TIMES[0]
            if self.ended.wait(max(0.0, begun + after - time.monotonic())):
                return
            print(f"rcce: goes on after {after} seconds: {self.doing}", file=sys.stderr, flush=True)

    def __enter__(self) -> "Progress":
        if not self.quiet:
            self.thread.start()
        return self

    def __exit__(self, kind: type[BaseException] | None, error: BaseException | None, trace: TracebackType | None) -> None:
        self.ended.set()
        if not self.quiet:
            self.thread.join()
