"""The command satmegwo, or python3 -m satmegwo.

Its exit status is 0; 1 where a box is refused; 2 where what is read is no box, or nothing can be written; 130 where Ctrl-C stopped it; 141
where the program that reads its output has ended. Of several boxes it is the worst of theirs.
"""
from __future__ import annotations

import argparse
import os
import pathlib
import signal
import stat
import sys
from typing import Optional, Sequence

from . import options, reading, sheets, writing
from .box import Box
from .commands import ALIASES, COMMANDS
from .explaining import Contradiction
from .library import MissingLibrary
from .pictures import Undrawable
from .reading import Unreadable
from .progress import Progress
from .refusals import Refusal
from .results import Given, Result
from .sheets import REFUSED, STOPPED, UNREADABLE
from .tables import MOST_OUTPUTS, TooWide

PIPE_CLOSED = 128 + signal.SIGPIPE  # as of a program that this signal ended
PICTURES = ("lat", "xor", "spectrum", "counts")
# What is told with the name of the file in question, and has the status UNREADABLE.
TOLD = (Unreadable, Undrawable, TooWide, Contradiction, OSError)


def _words_of_reading(command: argparse.ArgumentParser) -> None:
    """The words on what is read and where the result goes, which all commands have."""
    add = command.add_argument
    tables = "a box file, a table of numbers (a column, a CSV, a list of C or Python), or a workbook (.xlsx); - for standard input"
    add("file", metavar="FILE", help=tables)
    add("-n", "--inputs", dest="n", type=options.whole, metavar="N", help="the number of inputs, 1 to 8; a box file says it itself")
    add("-m", "--outputs", dest="m", type=options.whole, metavar="M", help="the number of outputs, 1 to 32; a box file says it itself")
    bases = "the base of all numbers; without it 0x means base sixteen, and all else is in base ten"
    add("--base", type=int, choices=[10, 16], help=bases)
    pairs = "each line of the table is an input and its row; or no column has the inputs, and every number that is read is a row"
    add("--pairs", action=argparse.BooleanOptionalAction, help=pairs)
    lines = "four lines of sixteen numbers, as DES prints its boxes, stand in the order of the inputs"
    add("--lines", action="store_true", help=lines)
    add("--heading", action="store_true", help="line 1 of the table, or row 1 of the workbook, is a heading")
    column = "only column K has the rows: its number from 1, or its heading; of a workbook also its letters, such as B"
    add("--column", metavar="K", help=column)
    add("--sheet", metavar="NAME", help="the sheet of a workbook; without it the only one there is")
    add("-o", "--output", dest="output", metavar="OUT", help=_words_of_output(command))


def _words_of_output(command: argparse.ArgumentParser) -> str:
    if command.prog.endswith(" improve"):
        return "the file to write the improved box to, another than FILE; - for standard output, and the swaps then go to standard error"
    return "the file to write, another than FILE; - for standard output, as without it"


def parser() -> argparse.ArgumentParser:
    """The parser of all commands."""
    is_module = pathlib.Path(sys.argv[0]).name == "__main__.py"
    whole = argparse.ArgumentParser(
        prog="python3 -m satmegwo" if is_module else "satmegwo",
        description="The figures of an S-box (substitution box), each proved to be the figure of its definition.",
        epilog="Exit status: 0; 1 where the box is refused; 2 where what is read is no box, or nothing can be written;"
        " 130 where Ctrl-C stopped it.",
    )
    whole.add_argument("--version", action=options.Version, nargs=0, help="prints the versions of the package and of the library")
    commands = whole.add_subparsers(dest="command", required=True, metavar="COMMAND")
    for name, (words, _, has_forms) in COMMANDS.items():
        aliases = [ALIASES[name]] if name in ALIASES else []
        command = commands.add_parser(name, help=words, description=words + ".", aliases=aliases)
        command.set_defaults(command=name, form=None)
        _words_of_reading(command)
        options.add_options(command, name)
        if has_forms:
            options.add_forms(command, name in PICTURES)
    return whole


# ---- reading


def _data(args: argparse.Namespace) -> tuple[bytes, str]:
    """What the file that is read holds, and its name."""
    if args.file != "-":
        return reading.bytes_of_file(args.file), pathlib.Path(args.file).name
    if sys.stdin is None:
        raise Unreadable("standard input is closed")
    return reading.bytes_of_stream(sys.stdin.buffer), ""


def _read(args: argparse.Namespace) -> Box:
    """The box that the words of the command name."""
    data, name = _data(args)
    if getattr(args, "unpack", False):
        if args.n is None or args.m is None:
            raise Unreadable("packed columns do not say how many inputs and outputs the box has: state both, -n and -m")
        return Box.from_packed(data, args.n, args.m, name)
    how = {word: getattr(args, word) for word in ("base", "pairs", "lines", "heading", "column", "sheet")}
    return Box.from_data(data, args.n, args.m, name, **how)


def _files(args: argparse.Namespace) -> list[str]:
    return [args.file, *getattr(args, "more", ())]


def _names_what_is_read(args: argparse.Namespace) -> Optional[str]:
    """The word among -o and --state that names a file that is read, by this name or another, or as standard input: it would be lost."""
    for word, written in (("-o", args.output), ("--state", getattr(args, "state", None))):
        for read in _files(args):
            if written not in (None, "-") and _is_one_file(read, written):
                return f"{word} {written}"
    return None


def _is_one_file(read: str, written: str) -> bool:
    if read == "-" and sys.stdin is None:
        return False
    try:
        found = os.stat(sys.stdin.fileno() if read == "-" else read)
        return stat.S_ISREG(found.st_mode) and os.path.samestat(found, os.stat(written))
    except OSError:  # one of them is not there, or standard input is no file
        return False


def _prints_bytes(args: argparse.Namespace) -> bool:
    """Whether standard output gets what is no text."""
    if args.command == "improve":
        return bool(args.output == "-")
    return args.output in (None, "-") and (args.command == "boxfile" or (args.command == "pack" and not args.hex))


def _must_be_sound(args: argparse.Namespace) -> None:
    """Turns down words that would lose a file, or that do not go together."""
    lost = _names_what_is_read(args)
    if lost:
        raise Unreadable(f"{lost} names the file that is read, which would be lost: name another")
    if _files(args).count("-") > 1:
        raise Unreadable("standard input can be one box only")
    if args.command == "sheet" and args.more and args.state is not None:
        raise Unreadable("a state file is of one box: with --state give one FILE")
    if _prints_bytes(args) and sys.stdout is not None and sys.stdout.isatty():
        raise Unreadable("this prints bytes and no text, and standard output is a terminal: name a file with -o")


# ---- making


def _sheets(args: argparse.Namespace, progress: Progress) -> Result:
    """The sheets of several files. What is wrong with one is told, and the others are gone on with."""
    outcomes = []
    for name in _files(args):
        args.file = name
        progress.say(f"sheet of {name}")
        try:
            found = sheets.sheet_of(Given(name, _read(args)), args, progress)
            outcomes.append(sheets.Outcome(name, found))
        except (Refusal, *TOLD) as error:
            reason = _reason(error, args)
            _tell(f"{name}: {reason}")
            outcomes.append(sheets.Outcome(name, None, error, reason))
    return sheets.sheets(outcomes, args)


def _made(args: argparse.Namespace, progress: Progress) -> Result:
    """What a command makes of its files."""
    if args.command == "sheet" and args.more:
        return _sheets(args, progress)
    given = []
    for name in _files(args):
        args.file = name  # a message names the file that is read
        given.append(Given(name, _read(args)))
    args.file = given[0].file
    progress.say(f"{args.command} of {given[0].box.n} by {given[0].box.m}")
    return COMMANDS[args.command].make(given, args, progress)


# ---- writing


class Unwritten(Exception):
    """Something could not be written: where, and why."""


def _write(data: bytes, output: Optional[str]) -> None:
    """Writes to a file, or to standard output."""
    try:
        if output is None or output == "-":
            _print(data)
        else:
            _replace(data, output)
    except BrokenPipeError:
        raise
    except OSError as error:
        where = "standard output" if output in (None, "-") else output
        raise Unwritten(f"{where}: it could not be written: {error.strerror or error}") from None


def _print(data: bytes) -> None:
    if sys.stdout is None:
        raise OSError("it is closed")
    rest = memoryview(data)
    while rest:  # with PYTHONUNBUFFERED a write may end early, where a disk becomes full or a pipe is closed, and says so only the next time
        rest = rest[sys.stdout.buffer.write(rest) :]
    sys.stdout.buffer.flush()


def _replace(data: bytes, output: str) -> None:
    path = os.path.realpath(output)  # a link stays one
    if os.path.exists(output) and not os.path.isfile(path):
        pathlib.Path(output).write_bytes(data)  # a device or a pipe cannot be replaced
    else:
        writing.replace(path, data)


def _tell(words: str) -> None:
    print(words, file=sys.stderr)


def _deliver(result: Result, told: bytes, args: argparse.Namespace) -> None:
    """Writes what a command tells to where -o says; where -o is for a file of its own, that file too, once the rest is told."""
    if result.file is None or args.output is None:
        _write(told, args.output)
    elif args.output == "-":
        _tell(told.decode("utf-8").rstrip("\n"))
        _write(result.file, None)
    else:
        _write(told, None)
        _write(result.file, args.output)


def _reason(error: Exception, args: argparse.Namespace) -> str:
    """What is wrong, in words that stand behind the name of the file that is read."""
    if isinstance(error, OSError) and error.strerror and error.filename == args.file:
        return f"it could not be read: {error.strerror}"
    if isinstance(error, Undrawable):
        return f"{error}; as data (--csv or --json) it is given up to {MOST_OUTPUTS}"
    return str(error)


def _stopped(args: argparse.Namespace) -> str:
    """How to go on after Ctrl-C."""
    if not hasattr(args, "state"):
        return "stopped"
    if args.command == "sheet" and args.more:
        return "stopped, and nothing is kept: of one FILE, with --state KEPT, the command can be stopped and goes on"
    if args.state is None:
        return "stopped, and nothing is kept: with --state KEPT the same command can be stopped and goes on"
    return f"stopped; what was done is kept in {args.state}, and the same command goes on from there"


def main(words: Optional[Sequence[str]] = None) -> int:
    """Runs the command; gives its exit status."""
    args = parser().parse_args(words)
    try:
        _must_be_sound(args)
        with Progress() as progress:
            result = _made(args, progress)
            told = result.made(args.form)
        _deliver(result, told, args)
    except Refusal as refusal:
        _tell(f"{args.file}: {refusal}")
        return REFUSED
    except Unwritten as error:
        _tell(str(error))
        return UNREADABLE
    except BrokenPipeError:
        return PIPE_CLOSED
    except (*TOLD, MissingLibrary) as error:
        _tell(f"{args.file}: {_reason(error, args)}")
        return UNREADABLE
    except KeyboardInterrupt:
        _tell(f"{args.file}: {_stopped(args)}")
        return STOPPED
    return result.status


def run() -> int:
    """The same as a program of its own."""
    # A call of the library cannot be stopped from Python: Ctrl-C ends the program at once.
    signal.signal(signal.SIGINT, signal.SIG_DFL)
    status = main()
    if status == STOPPED:
        sys.stderr.flush()
        os._exit(status)  # a thread may be within a call of the library, which nobody waits for
    if status in (UNREADABLE, PIPE_CLOSED) and sys.stdout is not None:
        # What could not be written is not tried again at the end.
        os.dup2(os.open(os.devnull, os.O_WRONLY), sys.stdout.fileno())
    return status
