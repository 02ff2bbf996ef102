"""The state of a sweep in a file: what was done, so that a stopped sweep is taken up again.

A file belongs to one box, or to the boxes of one sum, and has an entry for each figure, so that one file serves a whole sheet. It is JSON:
the format, the version of the library, the SHA-256 of each box file, for each figure its limit, the ranges of combinations that are done
and the best so far, as a part gives it, and a SHA-256 of all that.
"""
from __future__ import annotations

import hashlib
import json
import os
from typing import TYPE_CHECKING, Any, Sequence, Union

from .library import WORD, version
from .reading import Unreadable
from .sweeping import Covered, Question, Words
from .writing import replace

if TYPE_CHECKING:
    from .box import Box

FORMAT = 1
REMEDY = "name another file, or remove this one to begin anew"


class UnusableState(Unreadable):
    """A state file is of another sweep or version, or is damaged."""


def _checksum(content: dict[str, Any]) -> str:
    return hashlib.sha256(json.dumps(content, sort_keys=True).encode()).hexdigest()


def _ranges(told: Any, end: int) -> list[tuple[int, int]]:
    """The ranges of an entry: in ascending order, apart from each other, and within 1 to `end`."""
    ranges = [(int(first), int(last)) for first, last in told]
    before = -1
    for first, last in ranges:
        if not max(1, before + 2) <= first <= last <= end:
            raise ValueError("the ranges are not in order")
        before = last
    return ranges


class State:
    """A state file and what it holds, by figure."""

    def __init__(self, path: Union[str, os.PathLike[str]], boxes: Sequence[Box]) -> None:
        """Reads the file where there is one. It must be of these boxes, and of this version."""
        self._path = os.path.realpath(os.fspath(path))  # a link stays one
        self._name = os.fspath(path)
        self._boxes = [hashlib.sha256(box.to_bytes()).hexdigest() for box in boxes]
        self._figures: dict[str, Any] = self._read() if os.path.exists(self._path) else {}

    def _unusable(self, why: str) -> UnusableState:
        return UnusableState(f"the state file {self._name} {why}: {REMEDY}")

    def _read(self) -> dict[str, Any]:
        with open(self._path, "rb") as file:
            data = file.read()
        try:
            content = dict(json.loads(data))
            written, checksum = content["format"], content.pop("checksum")
        except (ValueError, TypeError, KeyError, RecursionError):
            raise self._unusable("is damaged, or is no state of a sweep") from None
        if written != FORMAT:
            raise self._unusable(f"has format {written}, and this program writes and reads format {FORMAT}")
        if checksum != _checksum(content):
            raise self._unusable("is damaged: what it holds is not what was written")
        if content["library"] != version():
            raise self._unusable(f"was written with version {content['library']} of the library, and this is {version()}")
        if content["boxes"] != self._boxes:
            raise self._unusable("is of another box" if len(self._boxes) == 1 == len(content["boxes"]) else "is of other boxes")
        return dict(content["figures"])

    @staticmethod
    def _entry(question: Question) -> str:
        """The name of a figure: a distance has its order in it, since one box has many."""
        return f"distance {question.limit},{question.flips}" if question.figure == "distance" else question.figure

    def taken_up(self, question: Question) -> tuple[Covered, Words]:
        """What is done of a sweep, and the best so far. The best is asked for once more, of its combination alone."""
        entry = self._figures.get(self._entry(question))
        if entry is None:
            return Covered(), question.nothing()
        try:
            limit = int(entry["limit"])
            covered = Covered(_ranges(entry["done"], question.end))
            best = [int(word) for word in entry["best"]]
            is_sound = len(best) == 1 + question.length and all(0 <= word < WORD for word in best)
        except (ValueError, TypeError, KeyError):
            raise self._unusable("is damaged") from None
        if limit != question.limit:
            raise self._unusable(f"is of the {question.figure} within {limit} outputs, and {question.limit} are asked for")
        if not is_sound or not _is_found(question, covered, best):
            raise self._unusable("is damaged: its best so far is not what the library finds there")
        return covered, best

    def keep(self, question: Question, covered: Covered, best: Words) -> None:
        """Writes what is done of a sweep; the other figures stay as they are."""
        entry = {"limit": question.limit, "done": covered.ranges, "best": best}
        self._figures = {**self._figures, self._entry(question): entry}
        content = {"format": FORMAT, "library": version(), "boxes": self._boxes, "figures": self._figures}
        content["checksum"] = _checksum(content)
        replace(self._path, json.dumps(content, indent=1).encode() + b"\n")


def _is_found(question: Question, covered: Covered, best: Words) -> bool:
    """Whether the library finds the best so far at its combination; where nothing was found, no combination may be done."""
    if best == question.nothing():
        return covered.count(question.limit) == 0
    c = best[2]
    return 1 <= c <= question.end and question.between(c, c) == best
