"""A line on standard error where something takes longer than a second."""
from __future__ import annotations

import shutil
import sys
import threading
import time
from types import TracebackType
from typing import Any, Optional, TextIO, Type

PATIENCE = 1.0  # seconds
MINUTE = 60.0  # seconds between two lines on how far a sweep is, elsewhere than on a terminal
BAR = 20  # letters of the bar


def clock(seconds: float) -> str:
    """A time as 2:05, or 1:02:05 from an hour on."""
    minutes, rest = divmod(round(seconds), 60)
    return f"{minutes // 60}:{minutes % 60:02}:{rest:02}" if minutes >= 60 else f"{minutes}:{rest:02}"


class Progress:
    """Tells the step that is under way, once a second from the first second on; nothing is told of what ends sooner.

    A thread tells it, since a call of the library gives no word until it has ended. A terminal has one line, which is
    taken away at the end; elsewhere each step that is told has a line of its own, and a sweep in parts one a minute.
    """

    def __init__(self, stream: Optional[TextIO] = None) -> None:
        self._stream = sys.stderr if stream is None else stream
        self._step, self._told, self._began = "", "", time.monotonic()
        self._bar, self._last = "", self._began
        self._ended = threading.Event()
        self._thread = threading.Thread(target=self._watch, daemon=True)

    def __enter__(self) -> Progress:
        self._thread.start()
        return self

    def __exit__(
        self, kind: Optional[Type[BaseException]], error: Optional[BaseException], trace: Optional[TracebackType]
    ) -> None:
        self._ended.set()
        self._thread.join()
        if self._told and self._on_terminal():
            self._stream.write("\r\x1b[K")
            self._stream.flush()

    def say(self, step: str) -> None:
        """A step begins."""
        self._step, self._bar, self._last = step, "", time.monotonic()

    def share(self, name: str, done: int, total: int, best: Any, left: float) -> None:
        """A sweep in parts has come so far, to this best figure, and should end in so many seconds."""
        part = done / total
        so_far = f" {best.figure} so far" if best is not None else ""
        self._step = f"{part:.1%}, {clock(left)} left, {name}{so_far}, of {total:,} combinations"
        self._bar = f"[{'#' * int(BAR * part):.<{BAR}}] "  # what does not fit the terminal is cut off at the end

    def _on_terminal(self) -> bool:
        return self._stream is not None and self._stream.isatty()

    def _watch(self) -> None:
        while not self._ended.wait(PATIENCE):
            self._tell()

    def _tell(self) -> None:
        if self._stream is None:
            return
        now = time.monotonic()
        if self._on_terminal():
            line = self._bar + self._step if self._bar else f"{self._step}, {now - self._began:.0f} s"
            self._stream.write(f"\r\x1b[K{line[:shutil.get_terminal_size().columns - 1]}")
        elif self._bar and now - self._last >= MINUTE:
            self._stream.write(f"{self._step}\n")
            self._last = now
        elif not self._bar and self._step != self._told:
            self._stream.write(f"{self._step} ..\n")
        self._told = self._step
        self._stream.flush()
