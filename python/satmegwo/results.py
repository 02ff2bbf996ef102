"""What a command tells, in one of three forms: a text or picture, CSV with a heading line, or JSON with named members.

docs/satmegwo.schema.json has the members of the JSON of every command.
"""
from __future__ import annotations

import csv
import io
import json
from typing import Any, Callable, Iterable, NamedTuple, Optional, Sequence, Union

from .box import Box
from .library import version

CSV, JSON = "csv", "json"


class Given(NamedTuple):
    """A box that was read, and the name of its file as the command was given it."""

    file: str
    box: Box

    def members(self) -> dict[str, Any]:
        """What JSON has of every box; the SHA-256 is that of the box file, also where a table of numbers was read."""
        return {"file": self.file, "n": self.box.n, "m": self.box.m, "sha256": self.box.sha256}


class Result(NamedTuple):
    """What a command found. Each form is made only where it is asked for; a command without CSV and JSON has a text alone."""

    text: Callable[[], Union[str, bytes]]
    lines: Callable[[], Iterable[Sequence[object]]] = list  # of CSV, the heading first
    members: Callable[[], Any] = dict  # of JSON
    file: Optional[bytes] = None  # what -o writes, where it is not what the command tells
    status: int = 0

    def made(self, form: Optional[str]) -> bytes:
        """The bytes of a form; without one those of the text."""
        told = as_csv(self.lines()) if form == CSV else as_json(self.members()) if form == JSON else self.text()
        return told if isinstance(told, bytes) else told.encode("utf-8", "backslashreplace")


def line(*words: object) -> str:
    """A line of text, as a sheet has them."""
    return " ".join(map(str, words)) + "\n"


def as_csv(lines: Iterable[Sequence[object]]) -> str:
    """Lines of CSV; what holds a comma, such as a file's name, is quoted."""
    out = io.StringIO()
    csv.writer(out, lineterminator="\n").writerows(lines)
    return out.getvalue()


def as_json(value: Any) -> str:
    """JSON in ASCII. What holds no list and no object stands in one line, so that a row of a table does."""
    return _indented(value, "") + "\n"


def _indented(value: Any, margin: str) -> str:
    inner = margin + " "
    is_object = isinstance(value, dict)
    parts = value.values() if is_object else value if isinstance(value, list) else ()
    if not any(isinstance(part, (dict, list)) for part in parts):
        return json.dumps(value)
    if is_object:
        shown = [f"{json.dumps(name)}: {_indented(part, inner)}" for name, part in value.items()]
    else:
        shown = [_indented(part, inner) for part in value]
    opening, closing = "{}" if is_object else "[]"
    return f"{opening}\n{inner}" + f",\n{inner}".join(shown) + f"\n{margin}{closing}"


def said(command: str, **members: Any) -> dict[str, Any]:
    """The members of JSON that every command has, and its own."""
    return {"satmegwo": version(), "command": command, **members}
