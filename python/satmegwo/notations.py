"""What a text or a word is that is no table of rows: other notations, told by their signs, and what to do with them.

Nothing is read here, and nothing that is read depends on it: `reading` asks only where it has turned a text down.
"""
from __future__ import annotations

import re
from typing import Iterable, NamedTuple, Optional

LONGEST = 24  # no row needs so many characters
LONGEST_NAME, MOST_NAMES = 40, 12  # of sheets and headings, in a message


def shown(text: str, most: int = LONGEST) -> str:
    """The start of a text for a message, with a control character by its number."""
    return "".join(letter if letter.isprintable() else f"\\x{ord(letter):02x}" for letter in text[:most])


def listed(names: Iterable[str]) -> str:
    """Names for a message, of which there may be many and long ones."""
    there = [shown(name, LONGEST_NAME) for name in names if name]
    return ", ".join(there[:MOST_NAMES]) + (", .." if len(there) > MOST_NAMES else "") if there else "none"


# ---- texts


class Notation(NamedTuple):
    """A notation: what a text in it is, the signs that tell it, and what to do."""

    name: str
    signs: re.Pattern[str]
    advice: str


ALONE = "write the rows alone, in the order of the inputs, with commas between them"
NOTATIONS = (
    Notation(
        "Verilog",
        re.compile(
            r"\b[0-9]+\s*'s?[hdbo]\s*[0-9a-f_xz?]+|\bendcase\b|\bcase[xz]?\s*\(|\bmodule\s+\w+|\blocalparam\b|\balways(?:_comb)?\b",
            re.IGNORECASE,
        ),
        f"{ALONE} (8'h63 is 0x63)",
    ),
    Notation(
        "VHDL",
        re.compile(
            r"\b[xbo]\"[0-9a-f_]+\"|\b16#[0-9a-f_]+#|\bdownto\b|\bstd_u?logic|\bconstant\s+\w+\s*:|\btype\s+\w+\s+is\b",
            re.IGNORECASE,
        ),
        f'{ALONE} (x"63" is 0x63)',
    ),
    Notation("an object of JSON", re.compile(r"\A\s*\{\s*\"[^\"]*\"\s*:"), "write its list of rows alone, from [ to ]"),
    Notation("a dict of Python", re.compile(r"\A\s*(?:\w+\s*=\s*)?\{\s*\w+\s*:"), ALONE),
    Notation("a list of C with an index before each number", re.compile(r"\[\s*\w+\s*\]\s*=\s*[^\s{=]\w*"), ALONE),
)


def notation(text: str) -> Optional[str]:
    """What a text that was turned down is, with the place of the first sign and what to do; None where no sign is found."""
    for name, signs, advice in NOTATIONS:
        found = signs.search(text)
        if found:
            line = text.count("\n", 0, found.start()) + 1
            return f"line {line}: {shown(' '.join(found[0].split()))} shows that this is {name}, which is not read; {advice}"
    return None


# ---- words


COMMENTS = ("//", "/*", "# ", "--")
WHOLE = "format the cells as whole numbers without decimals or thousands, and export them again"
SEVERAL = "is longer than any row; if it is several rows without separators, put one between them"
# The other ways to write a number, each with the base that it means.
MARKED = (
    (re.compile(r"0[bB]([01_]+)"), 2, "two"),
    (re.compile(r"0[oO]([0-7]+)"), 8, "eight"),
    (re.compile(r"([0-9][0-9a-fA-F]*)[hH]"), 16, "sixteen, as assemblers write it"),
    (re.compile(r"(?:\$|&[hH]|\\x)([0-9a-fA-F]+)"), 16, "sixteen"),
)


def is_several(text: str) -> bool:
    """Whether a word is digits of base sixteen, and more of them than a row can have."""
    return re.fullmatch(r"[0-9a-fA-F]{9,}", text) is not None and int(text, 16) >= 2**32


def _marked(text: str) -> Optional[str]:
    """What a number with the mark of a base is, and how it is read."""
    for form, base, name in MARKED:
        found = form.fullmatch(text)
        if found:
            value = int(found[1].strip("_").replace("_", "") or "0", base)
            return f"is in base {name}, which is not read: write 0x{value:x}, and the others so too"
    return None


def _of_a_spreadsheet(text: str) -> Optional[str]:
    """What a cell of a spreadsheet is that is no whole number."""
    if text.startswith("#"):
        return "is an error of a spreadsheet and no number"
    if re.fullmatch(r"-[0-9]+", text):
        return "is negative"
    if re.fullmatch(r"[0-9]+e[0-9]+", text, re.IGNORECASE):
        return f"is not written as a whole number: {WHOLE}; or state --base 16, if it is in base sixteen"
    if re.fullmatch(r"[0-9]*\.[0-9]*(e[0-9+-]+)?|[0-9]+(,[0-9]+)?e[0-9+-]+|[0-9]+([,.'][0-9]+)+", text, re.IGNORECASE):
        return f"is not written as a whole number: {WHOLE}"
    return None


def _without_a_base(text: str) -> Optional[str]:
    """What a word is where no base is stated."""
    if is_several(text):
        return f"{SEVERAL}, and state --base 16"
    if re.fullmatch(r"0[0-9]+", text):
        return "begins with 0, which means base eight in C; state --base 10 or --base 16, or write it without the 0"
    if re.fullmatch(r"[0-9a-f]+", text, re.IGNORECASE) and not text.startswith("0b"):
        return f"may be in base sixteen; state --base 16, or write 0x{text}"
    return None


def why_no_row(text: str, base: Optional[int], is_first_line: bool) -> str:
    """Why a word is no row, and what settles it."""
    if not text:
        return "a cell is empty; take its separator out if no row is missing there"
    if text.startswith(COMMENTS) or text in ("#", "*/"):
        return "comments are not read; take this one out"
    if len(text.split()) > 1:
        return f"no separator stands in {shown(text)}"
    if len(text) > LONGEST:
        several = re.fullmatch(r"[0-9a-fA-F]+", text) is not None
        return f"{shown(text)}.. {SEVERAL}" if several else f"{shown(text)}.. is longer than any row"
    heading = "; if line 1 is a heading, state --heading" if is_first_line else ""
    why = _of_a_spreadsheet(text)
    if why is None and base is not None:
        why = SEVERAL if is_several(text) else f"is no number in base {base}{heading}"
    if why is None:
        why = _marked(text) or _without_a_base(text) or f"is no number{heading}; what is no row must be taken out"
    return f"{shown(text)} {why}"
