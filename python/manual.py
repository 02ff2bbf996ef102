"""Makes the manual page of the command and the completion of bash from its parser, so that neither misses a command or an option.

    python3 manual.py page          docs/man/satmegwo.1
    python3 manual.py completion    python/completion.bash

`make -C python manual` writes both; the tests compare what is stored with what is made.
"""
import argparse
import functools
import sys

from satmegwo import __version__, command
from satmegwo.sheets import LINES

SUMMARY = "figures of S-boxes (substitution boxes), each proved to be the figure of its definition"
DESCRIPTION = """
An S-box is a table of n inputs (1 to 8) and m outputs (1 to 32). A figure is shown with the first witness that reaches it, so that anybody can
repeat the count. All figures come from the proved library.

FILE is a box file, as boxsheet(1) reads it, or a table of numbers, for input 0 first, of which N and M must be stated. What can be read in two
ways is turned down, and the message names the option that settles it.

The field's names: a combination c of outputs is a component function, and c its output mask; the spectrum is half of the Walsh spectrum;
the XOR table is the difference distribution table (DDT), and its largest cell the differential uniformity; 2^n \\- 2d is the linearity where d is
the nonlinearity; the autocorrelation is the absolute indicator; the degree is the least algebraic degree over the component functions.
"""
FORMS = """
Text is as on the sheet: a word, the figure, its witness, and the limit. Pictures are SVG.

CSV begins with a heading line. A line of the table is an output mask c in lat, and an input difference a in xor; its first cell is that number,
and the heading has the numbers of the columns. Both tables begin with 0, and are given up to 16 outputs. The values of lat are half of Walsh's;
Sage and the textbooks have input masks as lines. A sheet is one line for each box.

JSON has named members; docs/satmegwo.schema.json in the sources has all of them. Each box has the SHA\\-256 of its box file.

With several files sheet writes a line for each, "accepted", "refused" with the number, or "unreadable", and its name, with the sheet below it; JSON
is then a list.
"""
STATUS = (
    ("0", "The box was accepted, and all was written."),
    ("1", "A box or an argument was refused; the message has what was wrong, and the number of the refusal."),
    ("2", "What was read is no box, or something could not be written. A file is written in full or not at all."),
    ("130", "Ctrl\\-C stopped it."),
    ("141", "The program that reads its output has ended."),
)
EXAMPLES = (
    ("satmegwo sheet rows.csv -n 4 -m 4", "The sheet of a table of 16 numbers."),
    ("satmegwo sheet --json *.box", "The sheets of several box files, as a list."),
    ("satmegwo lat --csv aes.box -o lat.csv", "The linear approximation table for a spreadsheet."),
    ("satmegwo improve weak.box -o better.box", "Swaps rows until no swap raises the nonlinearity."),
    ("satmegwo sheet a.box --limit all --state kept", "All combinations of a box of 32 outputs; stopped, the same command goes on."),
)


# ---- what the parser has


@functools.lru_cache(maxsize=None)
def commands():
    """The commands with their parsers; another name of a command is with it in the text alone."""
    (subparsers,) = [action for action in command.parser()._actions if isinstance(action, argparse._SubParsersAction)]
    return {name: subparsers.choices[name] for name in command.COMMANDS}


def options(parser):
    """The options of a parser, by their names."""
    return {tuple(action.option_strings): action for action in parser._actions if action.option_strings and action.dest != "help"}


@functools.lru_cache(maxsize=None)
def common():
    """The options that every command has."""
    first, *others = (options(parser) for parser in commands().values())
    return {names: action for names, action in first.items() if all(names in other for other in others)}


# ---- the manual page


def roff(text):
    """A text in which roff sees no command; a hyphen that is typed is no dash."""
    return text.replace("\\", "\\e").replace("-", "\\-").replace("'", "\\(aq")


def _option(names, action):
    value = "" if action.nargs == 0 else " \\fI" + roff(action.metavar or "|".join(map(str, action.choices))) + "\\fR"
    return [".TP", ", ".join(f"\\fB{roff(name)}\\fR{value}" for name in names), roff(action.help)]


def _command(name, parser):
    files = [action for action in parser._actions if not action.option_strings]
    shown = " ".join("[FILE ...]" if action.nargs == "*" else "FILE" for action in files)
    also = f" (also \\fB{command.ALIASES[name]}\\fR)" if name in command.ALIASES else ""
    lines = [".TP", f"\\fB{name}\\fR \\fI{shown}\\fR{also}", roff(parser.description)]
    own = [(names, action) for names, action in options(parser).items() if names not in common() or action.help != common()[names].help]
    if own:
        lines += [".RS", *(line for names, action in own for line in _option(names, action)), ".RE"]
    return lines


def _paragraphs(text):
    return "\n.PP\n".join(part.strip() for part in text.strip().split("\n\n")).splitlines()


def page():
    """The manual page."""
    lines = [f'.TH SATMEGWO 1 "" "Satmegwo {__version__}" "User Commands"', ".SH NAME", f"satmegwo \\- {SUMMARY}"]
    lines += [".SH SYNOPSIS", ".B satmegwo", ".I COMMAND", ".RI [ OPTION ...]", ".I FILE", ".RI [ FILE ...]"]
    lines += [".br", ".B satmegwo \\-\\-version", ".br", ".B satmegwo", ".RI [ COMMAND ]", ".B \\-\\-help"]
    lines += [".SH DESCRIPTION", *_paragraphs(DESCRIPTION), ".SH COMMANDS"]
    lines += [line for name, parser in commands().items() for line in _command(name, parser)]
    lines += [".SH OPTIONS OF ALL COMMANDS", *(line for names, action in common().items() for line in _option(names, action))]
    lines += ["Numbers are in base ten, or in base sixteen with 0x in front.", ".SH FORMS OF OUTPUT", *_paragraphs(FORMS)]
    lines += [".SH EXIT STATUS", "Of several boxes it is the worst of theirs."]
    lines += [line for status, words in STATUS for line in (".TP", f".B {status}", words)]
    lines += [".SH ENVIRONMENT", ".TP", ".B SATMEGWO_LIBRARY", "The shared library to be used in place of the one beside the package."]
    lines += [".SH EXAMPLES", *(line for words, says in EXAMPLES for line in (".TP", f".B {roff(words)}", says))]
    lines += [".SH SEE ALSO", ".BR boxsheet (1)"]
    return "\n".join(lines) + "\n"


# ---- the completion of bash


def completion():
    """The completion: commands, options, and the words of those options that have a few; all else is the name of a file."""
    names = [*command.COMMANDS, *command.ALIASES.values()]
    cases = []
    for name, parser in commands().items():
        known = [option for names_ in options(parser) for option in names_]
        cases.append(f"    {'|'.join([name, *filter(None, [command.ALIASES.get(name)])])}) options='--help {' '.join(known)}' ;;")
    figures = next(action.choices for names_, action in options(commands()["explain"]).items() if "--figure" in names_)
    return f"""# Completion of bash for the command satmegwo; made by `make -C python manual`.
_satmegwo() {{
    local current=${{COMP_WORDS[COMP_CWORD]}} previous=${{COMP_WORDS[COMP_CWORD - 1]}} command= options= words= k
    for ((k = 1; k < COMP_CWORD; k++)); do
        if [[ ${{COMP_WORDS[k]}} != -* ]]; then
            command=${{COMP_WORDS[k]}}
            break
        fi
    done
    case $command in
    '') options='--help --version {" ".join(names)}' ;;
{chr(10).join(cases)}
    esac
    case $previous in
    --base) words='10 16' ;;
    --figure) words='{" ".join(figures)}' ;;
    --only) words='{" ".join(LINES)}' ;;
    --limit) words=all ;;
    *) [[ $command && $current != -* ]] || words=$options ;;
    esac
    mapfile -t COMPREPLY < <(compgen -W "$words" -- "$current")
}}
complete -o default -F _satmegwo satmegwo
"""


if __name__ == "__main__":
    sys.stdout.write({"page": page, "completion": completion}[sys.argv[1]]())
