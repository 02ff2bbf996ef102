"""The options of the commands, but for those on what is read, which command.py has."""
from __future__ import annotations

import argparse
import re
from typing import Any, Optional, Sequence, Union

from . import explaining
from .results import CSV, JSON
from .sheets import ALL, LINES

WHOLE = re.compile(r"(-?[0-9]+)|0[xX]([0-9a-fA-F]+)")
SWEEPING = ("sheet", "compare", "distance", "sum")


# ---- words that are read


def whole(word: str) -> int:
    """A whole number, in base ten, or in base sixteen with 0x in front."""
    found = WHOLE.fullmatch(word)
    if not found:
        raise argparse.ArgumentTypeError(f"{word} is no whole number, such as 12 or 0x0c")
    return int(found[1]) if found[1] else int(found[2], 16)


def limit(word: str) -> Union[str, int]:
    """A number of outputs, or all of them."""
    if word != ALL and not WHOLE.fullmatch(word):
        raise argparse.ArgumentTypeError(f"{word} is neither a number of outputs nor the word {ALL}")
    return word if word == ALL else whole(word)


def order(word: str) -> tuple[Union[str, int], int]:
    """The order of a dynamic distance: outputs, and flipped inputs."""
    outputs, comma, flips = word.partition(",")
    if not comma:
        raise argparse.ArgumentTypeError(f"{word} is no order, such as 2,1 or all,1: outputs, and flipped inputs")
    return limit(outputs), whole(flips)


def lines(words: str) -> list[str]:
    """Lines of a sheet."""
    asked = words.split(",")
    if set(asked) - set(LINES):
        raise argparse.ArgumentTypeError(f"the lines of a sheet are {', '.join(LINES)}, and not {words}")
    return asked


def count(word: str) -> int:
    """A number of which there must be one."""
    if whole(word) < 1:
        raise argparse.ArgumentTypeError(f"{word} is less than 1")
    return whole(word)


class Version(argparse.Action):
    """Prints the versions of the package and of the library, and ends. The library is looked for only here."""

    def __call__(
        self,
        parser: argparse.ArgumentParser,
        namespace: argparse.Namespace,
        values: Union[str, Sequence[Any], None],
        option_string: Optional[str] = None,
    ) -> None:
        from . import __version__
        from .library import MissingLibrary, version

        try:
            print(f"satmegwo {__version__}, library {version()}")
        except MissingLibrary as error:
            parser.exit(2, f"satmegwo {__version__}; {error}\n")
        parser.exit()


# ---- the options of a command


def add_forms(command: argparse.ArgumentParser, is_picture: bool) -> None:
    """CSV or JSON in place of the text or the picture."""
    forms = command.add_mutually_exclusive_group()
    instead = "picture" if is_picture else "text"
    heading = f"CSV in place of the {instead}: a heading line, then numbers"
    forms.add_argument("--csv", dest="form", action="store_const", const=CSV, help=heading)
    members = f"JSON in place of the {instead}, with named members and the SHA-256 of the box file"
    forms.add_argument("--json", dest="form", action="store_const", const=JSON, help=members)


def _add_sweep(command: argparse.ArgumentParser, name: str) -> None:
    """The options of the commands that may take long."""
    add = command.add_argument
    if name == "distance":
        words = "combinations of at most I outputs, or all, under at most J flipped inputs"
        add("--order", required=True, type=order, metavar="I,J", help=words)
    else:
        _add_limit(command)
    if name in ("sheet", "compare"):
        add("--only", type=lines, metavar="WORDS", help="only these lines, such as nonlinearity,degree")
    add("-j", "--jobs", dest="jobs", type=count, metavar="N", help="on so many cores; without it on all")
    if name != "compare":
        kept = "a file that keeps what was done where Ctrl-C stops it, and from which the same command goes on"
        add("--state", metavar="KEPT", help=kept)


def _add_limit(command: argparse.ArgumentParser) -> None:
    limits = "combinations of at most I outputs, or all; without it as on the sheet: 4 above 16 outputs"
    command.add_argument("--limit", type=limit, metavar="I", help=limits)


def _add_more(command: argparse.ArgumentParser, name: str) -> None:
    """The further files of a command."""
    if name == "sheet":
        several = "further boxes; each has a line with its status and its name before its sheet"
        command.add_argument("more", nargs="*", metavar="FILE", help=several)
    if name == "compare":
        command.add_argument("more", nargs=1, metavar="FILE", help="the box that it is compared with")
    if name == "sum":
        command.add_argument("more", nargs="*", metavar="FILE", help="the boxes that are added to it, up to three")


def _add_explain(command: argparse.ArgumentParser) -> None:
    add, figures = command.add_argument, list(explaining.FIGURES)
    add("--figure", default="nonlinearity", choices=figures, help="which figure; without it the nonlinearity")
    _add_limit(command)
    add("--flips", type=whole, metavar="J", help="for a distance: at most J flipped inputs")
    add("--html", action="store_true", help="as a part of a page of HTML")


def _add_pack(command: argparse.ArgumentParser) -> None:
    ways = command.add_mutually_exclusive_group()
    ways.add_argument("--hex", action="store_true", help="a line of text for each column, its bytes in base sixteen")
    back = "the way back: FILE has packed columns of N inputs and M outputs, and the box file is written"
    ways.add_argument("--unpack", action="store_true", help=back)


def add_options(command: argparse.ArgumentParser, name: str) -> None:
    """The options and further files that a command has of its own."""
    _add_more(command, name)
    if name in SWEEPING:
        _add_sweep(command, name)
    if name == "pairs":
        _add_limit(command)
    if name == "explain":
        _add_explain(command)
    if name == "pack":
        _add_pack(command)
    if name == "improve":
        command.add_argument(
            "--steps", type=count, default=10**9, metavar="K", help="at most K swaps; without it until none raises the nonlinearity"
        )
    if name == "spectrum":
        which = "which combination (output mask); without it that of the nonlinearity's witness"
        command.add_argument("--combination", type=whole, metavar="C", help=which)
