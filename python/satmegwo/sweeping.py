"""Sweeps in parts: a figure over all combinations within a limit, on several cores or machines, watched, stopped and taken up again.

A part is one call of the proved library, over the combinations from `first` to `last`; two parts are merged by the library too. The theorem
parts_whole says that parts which together cover 1 to 2^m - 1, merged in any order, give the figure and the witness of the plain call. This
file is not proved. It hands out the parts, and before it answers it looks whether those that were merged cover 1 to 2^m - 1, which is what
the theorem asks for.
"""
from __future__ import annotations

import contextlib
import functools
import math
import os
import time
from concurrent.futures import FIRST_COMPLETED, Executor, Future, ThreadPoolExecutor, wait
from typing import TYPE_CHECKING, Any, Callable, Iterator, NamedTuple, Optional, TypeVar, Union

from .library import MOST_BOXES, WORDS, MissingLibrary, call, lent, room, version
from .progress import Progress

if TYPE_CHECKING:
    from .box import Box

SMALL = 2**18  # combinations, times boxes: up to so many the plain call is made, which then takes a fraction of a second
SECONDS = 1.0  # how long a part should take
FIRST_PART = 2**14  # combinations of the first parts, whose time sets the size of those that follow
SMALLEST_PART = 2**10
MOMENT = 0.25  # seconds between two looks at what has ended
SAVING = 5.0  # seconds between two writings of the state

Words = list[int]
Told = Callable[[int, int, Any, float], object]
T = TypeVar("T")


class Kind(NamedTuple):
    """The calls of a figure: the plain one, the one over a part, and the merging."""

    plain: str
    between: str
    merge: str


KINDS = {
    "nonlinearity": Kind("nonlinearity", "nonlinearity_between", "merge_least"),
    "autocorrelation": Kind("autocorrelation", "autocorrelation_between", "merge_largest"),
    "distance": Kind("dynamic_distance", "dynamic_distance_between", "merge_largest"),
    "sum": Kind("sum_nonlinearity", "sum_nonlinearity_between", "merge_least"),
}


class Question(NamedTuple):
    """What is swept: a figure of a box, or of a sum of boxes, within a limit; of a distance also the number of flipped inputs."""

    figure: str
    boxes: tuple[Box, ...]
    limit: int
    flips: int = 0

    @property
    def end(self) -> int:
        """The last combination, 2^m - 1."""
        return (1 << self.boxes[0].m) - 1 if self.boxes else 0

    @property
    def total(self) -> int:
        """How many combinations lie within the limit."""
        return count_up_to(self.end, self.limit)

    @property
    def length(self) -> int:
        """How many numbers the plain call gives: the figure and its witness."""
        return {"nonlinearity": 4, "sum": 3 + len(self.boxes)}.get(self.figure, 3)

    def arguments(self) -> list[Any]:
        """The arguments that all calls of the figure begin with."""
        arguments = [argument for box in self.boxes[:MOST_BOXES] for argument in box.arguments()]
        if self.figure == "sum":
            missing = MOST_BOXES - len(self.boxes[:MOST_BOXES])
            arguments = [len(self.boxes), *arguments, *(missing * [0, 0, room(WORDS, 0)])]
        return arguments + [self.limit] + ([self.flips] if self.figure == "distance" else [])

    def plain(self) -> Words:
        """The figure and its witness, by the plain call."""
        out = room(WORDS, self.length)
        call(KINDS[self.figure].plain, *self.arguments(), out)
        return list(out)

    def nothing(self) -> Words:
        """What is found where there is no combination: merged with a part it gives that part."""
        return (1 + self.length) * [0]

    def between(self, first: int, last: int) -> Words:
        """What a part finds: 1, the figure and its witness; or nothing."""
        out = room(WORDS, 1 + self.length)
        call(KINDS[self.figure].between, *self.arguments(), first, last, out)
        return list(out)

    def merged(self, one: Words, other: Words) -> Words:
        """What is found over the combinations of both."""
        out = room(WORDS, 1 + self.length)
        call(KINDS[self.figure].merge, lent(WORDS, one), lent(WORDS, other), out)
        return list(out)


def part(question: Question, first: int, last: int, wanted: str) -> tuple[float, Words]:
    """A part as a worker runs it: how many seconds it took, and what it found. The worker's library must be of the asker's version."""
    if version() != wanted:
        raise MissingLibrary(f"a worker has version {version()} of the library, and {wanted} is asked for")
    began = time.perf_counter()
    found = question.between(first, last)
    return time.perf_counter() - began, found


# ---- how many combinations lie within a limit


@functools.lru_cache(maxsize=None)
def _numbers(bits: int, most: int) -> int:
    """How many numbers of so many bits have at most so many ones."""
    return sum(math.comb(bits, ones) for ones in range(most + 1))


def count_up_to(last: int, limit: int) -> int:
    """How many combinations from 1 to `last` have at most `limit` outputs."""
    count, used = 0, 0
    for bit in reversed(range((last + 1).bit_length())):
        if (last + 1) >> bit & 1 and used <= limit:
            count += _numbers(bit, limit - used)
            used += 1
    return count - 1


def place_of(count: int, limit: int, end: int) -> int:
    """The least combination up to which there are so many within the limit; `end` where there are fewer."""
    low, high = 1, end
    while low < high:
        middle = (low + high) // 2
        low, high = (low, middle) if count_up_to(middle, limit) >= count else (middle + 1, high)
    return low


class Covered:
    """Which combinations are done, as ranges in ascending order that neither overlap nor touch."""

    def __init__(self, ranges: Optional[list[tuple[int, int]]] = None) -> None:
        self.ranges = ranges or []

    def add(self, first: int, last: int) -> None:
        """Adds a range. It is one assignment, so that nothing is half done where Ctrl-C comes."""
        apart = [(low, high) for low, high in self.ranges if high + 1 < first or last + 1 < low]
        near = [(low, high) for low, high in self.ranges if not (high + 1 < first or last + 1 < low)]
        joined = (min([first] + [low for low, _ in near]), max([last] + [high for _, high in near]))
        self.ranges = sorted(apart + [joined])

    def gaps(self, end: int) -> Iterator[tuple[int, int]]:
        """The ranges from 1 to `end` that are not done."""
        at = 1
        for first, last in self.ranges:
            if at < first:
                yield at, first - 1
            at = last + 1
        if at <= end:
            yield at, end

    def count(self, limit: int) -> int:
        """How many combinations within the limit are done."""
        return sum(count_up_to(last, limit) - count_up_to(first - 1, limit) for first, last in self.ranges)


# ---- the sweep


class Sweep:
    """A sweep under way: what is done, the best so far, and the parts that workers have."""

    def __init__(self, question: Question, covered: Covered, best: Words, executor: Executor, workers: int) -> None:
        self.question, self.covered, self.best = question, covered, best
        self._executor, self._most = executor, 2 * workers  # one part to work on, and one to go on with
        self._gaps = list(covered.gaps(question.end))
        self._size = FIRST_PART
        self._under_way: dict[Future[tuple[float, Words]], tuple[int, int]] = {}
        self._version = version()

    @property
    def is_going(self) -> bool:
        """Whether a part is under way, or one is still to be handed out."""
        return bool(self._under_way or self._gaps)

    def hand_out(self) -> None:
        """Hands parts to the workers, each of as many combinations within the limit as may take a second."""
        limit, end = self.question.limit, self.question.end
        while self._gaps and len(self._under_way) < self._most:
            first, stop = self._gaps[0]
            last = min(stop, place_of(count_up_to(first - 1, limit) + self._size, limit, end))
            self._under_way[self._executor.submit(part, self.question, first, last, self._version)] = first, last
            self._gaps[:1] = [(last + 1, stop)] if last < stop else []

    def gather(self) -> None:
        """Waits a moment, and merges the parts that have ended."""
        for future in wait(self._under_way, timeout=MOMENT, return_when=FIRST_COMPLETED).done:
            seconds, found = future.result()
            first, last = self._under_way.pop(future)
            # In this order: a part that was merged and is not noted is merged once more, which changes nothing.
            self.best = self.question.merged(self.best, found)
            self.covered.add(first, last)
            count = count_up_to(last, self.question.limit) - count_up_to(first - 1, self.question.limit)
            self._size = max(SMALLEST_PART, min(4 * self._size, int(count * SECONDS / max(seconds, 1e-6))))

    def stop(self) -> None:
        """Lets no part begin any more. Those that workers have begun end by themselves, and are not asked."""
        for future in self._under_way:
            future.cancel()

    def answer(self) -> Words:
        """The figure and its witness, once the parts that were merged cover 1 to 2^m - 1."""
        if self.covered.ranges != [(1, self.question.end)] or not self.best[0]:
            raise RuntimeError(f"the parts that were merged cover {self.covered.ranges}, and not 1 to {self.question.end}")
        return self.best[1:]


class Watch:
    """Tells somebody how far a sweep is, and when it will end if it goes on as it did."""

    def __init__(self, tell: Optional[Told], shown: Callable[..., Any], sweep: Sweep) -> None:
        self._tell, self._shown, self._sweep = tell, shown, sweep
        self._began, self._before = time.monotonic(), sweep.covered.count(sweep.question.limit)

    def look(self) -> None:
        """Tells it, from the first part on that has ended."""
        if self._tell is None:
            return
        question, best = self._sweep.question, self._sweep.best
        done = self._sweep.covered.count(question.limit)
        if done > self._before:
            left = (time.monotonic() - self._began) * (question.total - done) / (done - self._before)
            self._tell(done, question.total, self._shown(*best[1:]) if best[0] else None, left)


def cores() -> int:
    """How many cores this process may use."""
    return len(os.sched_getaffinity(0))


def workers_of(executor: Executor) -> int:
    """How many parts an executor runs at once, as far as it can be seen; else the number of cores here."""
    for name in ("_max_workers", "num_workers"):  # of concurrent.futures, of mpi4py
        told = getattr(executor, name, None)
        if isinstance(told, int) and told > 0:
            return told
    client = getattr(executor, "_client", None)  # of Dask
    there: int = sum(client.ncores().values()) if client is not None else 0
    return there or cores()


@contextlib.contextmanager
def _executing(executor: Optional[Executor], workers: Optional[int]) -> Iterator[tuple[Executor, int]]:
    """The given executor, which its owner closes; else threads, which nobody waits for at the end: each is within a part."""
    if executor is not None:
        yield executor, workers or workers_of(executor)
        return
    own = ThreadPoolExecutor(workers or cores())
    try:
        yield own, workers or cores()
    finally:
        own.shutdown(wait=False, cancel_futures=True)


@contextlib.contextmanager
def _telling(name: str, progress: Union[None, bool, Told]) -> Iterator[Optional[Told]]:
    """Whom to tell how far a sweep is: the given callable, or with True a line on standard error."""
    if progress is None or progress is False:
        yield None
    elif progress is True:
        with Progress() as line:
            yield lambda done, total, best, left: line.share(name, done, total, best, left)
    else:
        yield progress


def _run(sweep: Sweep, watch: Watch, keep: Callable[[], None]) -> None:
    """Runs a sweep to its end. What was done is kept now and then, and also where it ends by Ctrl-C or a worker's failure."""
    keep()  # a state that cannot be written is told before the work, and not after it
    saved = time.monotonic()
    try:
        while sweep.is_going:
            sweep.hand_out()
            sweep.gather()
            watch.look()
            if time.monotonic() - saved > SAVING:
                keep()
                saved = time.monotonic()
    finally:
        sweep.stop()
        keep()


def swept(
    question: Question,
    shown: Callable[..., T],
    executor: Optional[Executor] = None,
    progress: Union[None, bool, Told] = None,
    state: Union[None, str, os.PathLike[str]] = None,
    workers: Optional[int] = None,
) -> T:
    """The plain call's figure and witness, shown by `shown`; where there are few combinations, by the plain call itself."""
    from .states import State

    kept = State(state, question.boxes) if state is not None else None
    is_refused = not 1 <= question.limit <= question.end.bit_length()
    if is_refused or question.total * len(question.boxes) <= SMALL:
        return shown(*question.plain())
    question.between(1, 1)  # what the plain call refuses is refused here, with the same number
    covered, best = kept.taken_up(question) if kept else (Covered(), question.nothing())
    with _executing(executor, workers) as (pool, count), _telling(question.figure, progress) as tell:
        sweep = Sweep(question, covered, best, pool, count)
        _run(sweep, Watch(tell, shown, sweep), lambda: kept.keep(question, sweep.covered, sweep.best) if kept else None)
    return shown(*sweep.answer())


def heard(run: Callable[[], T]) -> T:
    """Runs a call that cannot be cut in a thread of its own, so that Ctrl-C is heard meanwhile; the call itself goes on until it ends."""
    pool = ThreadPoolExecutor(1)
    try:
        future = pool.submit(run)
        while not wait([future], timeout=MOMENT).done:
            pass
        return future.result()
    finally:
        pool.shutdown(wait=False)
