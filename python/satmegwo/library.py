"""The proved library by ctypes: its exports, its structs, and how a call is made. Nothing is computed here.

An array of a call is two arguments in C, a pointer and a number of elements; `call` makes both from one ctypes array. ctypes cuts a
number that does not fit without a word (2^32 + 5 becomes 5), so each number goes through `number`, and each array is made by `lent`.
"""
from __future__ import annotations

import ctypes
import functools
import operator
import os
import pathlib
from typing import Any, Callable, Iterable, SupportsIndex

from .refusals import Refusal

WORD = 2**32

# The constants of the headers, by their names there without SATMEGWO_.
VERSION = 10000  # 10000 * major + 100 * minor + patch
MOST_INPUTS = 8
MOST_OUTPUTS = 32
MOST_ROWS = 256
MOST_CELLS = 32640
MOST_BOXES = 4
FILE_BYTES = 1026
SHEET_BYTES = 332
CATALOGUE_MOST = 65535
DESIGN_MARKS = 16
SERVER_PLACES = 8
CONSTANTS = (
    "VERSION", "MOST_INPUTS", "MOST_OUTPUTS", "MOST_ROWS", "MOST_CELLS", "MOST_BOXES", "FILE_BYTES", "SHEET_BYTES",
    "CATALOGUE_MOST", "DESIGN_MARKS", "SERVER_PLACES",
)  # fmt: skip


class Snapshot(ctypes.Structure):
    _fields_ = [("taken", ctypes.c_uint32), ("rows", ctypes.c_uint32 * MOST_ROWS)]


class DesignState(ctypes.Structure):
    _fields_ = [
        ("n", ctypes.c_uint32),
        ("m", ctypes.c_uint32),
        ("rows", ctypes.c_uint32 * MOST_ROWS),
        ("marks", Snapshot * DESIGN_MARKS),
    ]


class DesignOutcome(ctypes.Structure):
    _fields_ = [("design", DesignState), ("status", ctypes.c_uint32)]


class Place(ctypes.Structure):
    _fields_ = [
        ("taken", ctypes.c_uint32),
        ("n", ctypes.c_uint32),
        ("m", ctypes.c_uint32),
        ("rows", ctypes.c_uint32 * MOST_ROWS),
        ("examined", ctypes.c_uint32),
        ("count", ctypes.c_uint32),
        ("c", ctypes.c_uint32),
        ("w", ctypes.c_uint32),
        ("b", ctypes.c_uint32),
    ]


class ServerState(ctypes.Structure):
    _fields_ = [("places", Place * SERVER_PLACES), ("last", ctypes.c_uint32)]


class ServerOutcome(ctypes.Structure):
    _fields_ = [("server", ServerState), ("status", ctypes.c_uint32)]


STRUCTS: dict[str, type[ctypes.Structure]] = {
    "satmegwo_design_snapshot": Snapshot,
    "satmegwo_design": DesignState,
    "satmegwo_design_outcome": DesignOutcome,
    "satmegwo_server_place": Place,
    "satmegwo_server": ServerState,
    "satmegwo_server_outcome": ServerOutcome,
}

# What each export gives and takes, in the headers' words: a number, a struct by value, or an array with its length behind it, which is
# read where it is const and else written. tests/test_header.py compares the table with the headers.
NUMBER, DESIGN, SERVER = "uint32_t", "satmegwo_design", "satmegwo_server"
DESIGNED, SERVED = "satmegwo_design_outcome", "satmegwo_server_outcome"
BYTES, COUNTS, WORDS, SIGNED, CELLS = "uint8_t *", "uint16_t *", "uint32_t *", "int32_t *", "uint64_t *"
READ_BYTES, READ_WORDS, READ_SIGNED = "const uint8_t *", "const uint32_t *", "const int32_t *"
BOX = [NUMBER, NUMBER, READ_WORDS]
EXPORTS: dict[str, tuple[str, list[str]]] = {
    "spectrum": (NUMBER, [NUMBER, READ_BYTES, SIGNED]),
    "inverse_spectrum": (NUMBER, [NUMBER, READ_SIGNED, BYTES]),
    "component_spectrum": (NUMBER, BOX + [NUMBER, SIGNED]),
    "nonlinearity": (NUMBER, BOX + [NUMBER, WORDS]),
    "nearest_pairs": (NUMBER, BOX + [NUMBER, CELLS, CELLS]),
    "add_to_column": (NUMBER, BOX + [NUMBER, NUMBER, NUMBER, WORDS]),
    "xor_row": (NUMBER, BOX + [NUMBER, COUNTS]),
    "largest_cell": (NUMBER, BOX + [WORDS]),
    "largest_cells": (NUMBER, BOX + [CELLS, WORDS]),
    "autocorrelation": (NUMBER, BOX + [NUMBER, WORDS]),
    "dynamic_distance": (NUMBER, BOX + [NUMBER, NUMBER, WORDS]),
    "normal_form": (NUMBER, [NUMBER, READ_BYTES, BYTES]),
    "degree": (NUMBER, BOX + [NUMBER, WORDS]),
    "complete": (NUMBER, BOX + [WORDS]),
    "bijective": (NUMBER, BOX + [WORDS]),
    "enlarge_column": (NUMBER, [NUMBER, READ_BYTES, NUMBER, NUMBER, BYTES]),
    "enlarge_box": (NUMBER, [NUMBER, READ_WORDS, READ_BYTES, NUMBER, WORDS]),
    "bent_function": (NUMBER, [NUMBER, READ_BYTES, READ_BYTES, BYTES]),
    "check_box": (NUMBER, BOX),
    "read_box": (NUMBER, [READ_BYTES, WORDS, WORDS]),
    "write_box": (NUMBER, BOX + [BYTES]),
    "sheet": (NUMBER, [READ_BYTES, BYTES, WORDS]),
    "version": (NUMBER, []),
    "sum_nonlinearity": (NUMBER, [NUMBER] + 4 * BOX + [NUMBER, WORDS]),
    "check_catalogue": (NUMBER, [READ_BYTES, WORDS]),
    "add_record": (NUMBER, [BYTES, READ_BYTES, WORDS]),
    "remove_record": (NUMBER, [BYTES, NUMBER]),
    "fetch_record": (NUMBER, [READ_BYTES, NUMBER, WORDS]),
    "compact_catalogue": (NUMBER, [BYTES]),
    "pack_columns": (NUMBER, BOX + [BYTES]),
    "unpack_columns": (NUMBER, [NUMBER, NUMBER, READ_BYTES, WORDS]),
    "raising_swap": (NUMBER, BOX + [WORDS]),
    "design_begin": (DESIGNED, BOX),
    "design_swap": (DESIGNED, [DESIGN, NUMBER, NUMBER]),
    "design_add": (DESIGNED, [DESIGN, NUMBER, NUMBER, NUMBER]),
    "design_mark": (DESIGNED, [DESIGN, NUMBER]),
    "design_return": (DESIGNED, [DESIGN, NUMBER]),
    "design_read": (NUMBER, [DESIGN, WORDS, WORDS]),
    "server_begin": (SERVER, []),
    "server_put": (SERVED, [SERVER, NUMBER] + BOX),
    "server_withdraw": (SERVED, [SERVER, NUMBER]),
    "server_step": (SERVER, [SERVER]),
    "server_run": (SERVER, [SERVER, NUMBER]),
    "server_ask": (NUMBER, [SERVER, NUMBER, WORDS]),
    "nonlinearity_between": (NUMBER, BOX + [NUMBER, NUMBER, NUMBER, WORDS]),
    "autocorrelation_between": (NUMBER, BOX + [NUMBER, NUMBER, NUMBER, WORDS]),
    "dynamic_distance_between": (NUMBER, BOX + [NUMBER, NUMBER, NUMBER, NUMBER, WORDS]),
    "sum_nonlinearity_between": (NUMBER, [NUMBER] + 4 * BOX + [NUMBER, NUMBER, NUMBER, WORDS]),
    "merge_least": (NUMBER, [READ_WORDS, READ_WORDS, WORDS]),
    "merge_largest": (NUMBER, [READ_WORDS, READ_WORDS, WORDS]),
}
ELEMENTS: dict[str, Any] = {
    BYTES: ctypes.c_uint8,
    COUNTS: ctypes.c_uint16,
    WORDS: ctypes.c_uint32,
    SIGNED: ctypes.c_int32,
    CELLS: ctypes.c_uint64,
}


class MissingLibrary(ImportError):
    """The shared library is not there, or is not the one that this package belongs to."""


def place() -> pathlib.Path:
    """Where the library is: where SATMEGWO_LIBRARY says, else beside an installed package, else where the repository's make puts it."""
    named = os.environ.get("SATMEGWO_LIBRARY")
    if named:
        return pathlib.Path(named)
    package = pathlib.Path(__file__).resolve().parent
    beside = package / "libsatmegwo.so"
    return beside if beside.exists() else package.parents[1] / "target" / "lib" / "libsatmegwo.so"


def _ctype(kind: str) -> list[Any]:
    """The ctypes of one argument of the table."""
    if kind == NUMBER:
        return [ctypes.c_uint32]
    if kind in STRUCTS:
        return [STRUCTS[kind]]
    return [ctypes.POINTER(ELEMENTS[kind.replace("const ", "")]), ctypes.c_size_t]


@functools.lru_cache(maxsize=None)
def functions() -> dict[str, Callable[..., Any]]:
    """The exports by their names, once the library is loaded."""
    path = place()
    remedy = "`make shared` at the root of the repository makes it, or SATMEGWO_LIBRARY names another"
    try:
        library = ctypes.CDLL(str(path))
    except OSError as error:
        raise MissingLibrary(f"the library {path} could not be loaded ({error}): {remedy}") from None
    found = {}
    for name, (result, kinds) in EXPORTS.items():
        try:
            function = getattr(library, "satmegwo_" + name)
        except AttributeError:
            raise MissingLibrary(
                f"the library {path} is older than this package and has no satmegwo_{name}: {remedy}"
            ) from None
        function.argtypes = [ctype for kind in kinds for ctype in _ctype(kind)]
        function.restype = _ctype(result)[0]
        found[name] = function
    if found["version"]() // 10000 != VERSION // 10000:
        raise MissingLibrary(
            f"the library {path} has version {found['version']()}, and this package needs {VERSION}: {remedy}"
        )
    return found


def version() -> str:
    """The version of the library, as 1.0.0."""
    told = functions()["version"]()
    return f"{told // 10000}.{told // 100 % 100}.{told % 100}"


def lent(kind: str, values: Iterable[int]) -> Any:
    """An array with these values, each of which must fit its element."""
    element = ELEMENTS[kind]
    bits = 8 * ctypes.sizeof(element)
    low, high = (-(2 ** (bits - 1)), 2 ** (bits - 1)) if kind == SIGNED else (0, 2**bits)
    values = list(values)
    for at, value in enumerate(values):
        if not low <= value < high:
            raise OverflowError(f"the value at place {at} is {value}, and does not fit {kind}")
    return (element * len(values))(*values)


def room(kind: str, length: int) -> Any:
    """An array of zeros, to be written."""
    return (ELEMENTS[kind] * length)()


def number(value: SupportsIndex, outside: int = 0) -> int:
    """A number for a call. One that does not fit 32 bits is handed over as `outside`, which is refused as the value itself would be."""
    whole = operator.index(value)
    return whole if 0 <= whole < WORD else outside


def call(name: str, *arguments: Any) -> Any:
    """Makes a call: an array stands for its pointer and length. Gives the struct that it returns; a number other than 0 is raised."""
    flat: list[Any] = []
    for argument in arguments:
        flat.append(argument)
        if isinstance(argument, ctypes.Array):
            flat.append(len(argument))
    reply = functions()[name](*flat)
    if not isinstance(reply, int):
        return reply
    if reply:
        raise Refusal(reply)
    return None
