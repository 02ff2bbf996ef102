"""One page about a box: its rows, its sheet in sentences, pictures, the counts behind the witnesses, and what is proved of all this.

The page is one file of HTML that needs no other, and prints on A4. The same box gives the same bytes.
"""
from __future__ import annotations

import hashlib
import html
from typing import Callable, NamedTuple

from . import explaining, pictures, theorems
from .box import Box, Distance
from .explaining import in_html, inputs, over_all, within
from .library import version

STYLE = """
@page { size: A4; margin: 10mm }
body { font: 14px/1.45 "DejaVu Sans", Verdana, Arial, sans-serif; color: #1a1a1a; background: #fff }
body { max-width: 62em; margin: 0 auto; padding: 1em; overflow-wrap: break-word }
h1 { font-size: 1.5em; margin: 0 0 .4em }
h2 { font-size: 1.15em; margin: 1.6em 0 .5em; padding-bottom: .15em; border-bottom: 2px solid #1a1a1a; break-after: avoid }
h3 { font-size: 1em; margin: 1.2em 0 .2em; break-after: avoid }
p { margin: .25em 0; max-width: 52em }
pre, code, .count { font-family: "DejaVu Sans Mono", Consolas, monospace }
pre { margin: .3em 0; font-size: 13px; line-height: 1.35 }
.wide, .frame { overflow-x: auto }
.wide { margin: .3em 0 }
table { border-collapse: collapse }
.sheet th, .sheet td { text-align: left; vertical-align: top; padding: .3em 1em .3em 0; border-bottom: 1px solid #c8c8c8 }
.sheet thead th { font-weight: normal; color: #595959 }
.sheet .figure { text-align: right; font-weight: bold }
.sheet tr { break-inside: avoid }
.witness, .kept, code { white-space: nowrap }
code.digest { white-space: normal }
figure { display: inline-block; vertical-align: top; width: min-content; min-width: min(354px, 100%); max-width: 100% }
figure { margin: 0 0 10px; break-inside: avoid }
figcaption { font-size: 13px; font-weight: bold; break-after: avoid }
figure p { font-size: 12px; margin: 0 0 .4em }
section { break-inside: avoid }
.pictures { orphans: 1; widows: 1 }
figure svg { display: block }
.count { font-size: 12px; line-height: 1.3 }
.count caption { text-align: left; font-family: "DejaVu Sans", Verdana, Arial, sans-serif; padding-bottom: .3em }
.count caption span { display: block; max-width: calc(100vw - 3em) }
.count th, .count td { text-align: right; padding: 0 .3em; font-weight: normal; white-space: nowrap }
.count th:first-child { text-align: left; padding: 0 1em 0 0 }
.count .first th, .count .first td { border-top: 1px solid #c8c8c8; padding-top: .25em; color: #595959 }
.count .counted { background: #f0d9b5; color: #000; font-weight: bold; text-decoration: underline }
.count .sum { padding-left: 1em; font-weight: bold }
footer { margin-top: 1.6em; border-top: 1px solid #c8c8c8; padding-top: .5em; color: #595959 }
@media screen and (max-width: 44em) {
  .sheet thead { display: none }
  .sheet tr { display: block; padding: .4em 0; border-bottom: 1px solid #c8c8c8 }
  .sheet th, .sheet td { border: 0; padding: 0 .8em 0 0; display: inline-block }
  .sheet td:last-child { display: block }
}
@media print {
  body { font-size: 12px; max-width: none; padding: 0 }
  pre { font-size: 12px }
  p { max-width: none }
  h2 { margin-top: 1em }
  .sheet th, .sheet td { padding-top: .12em; padding-bottom: .12em }
  .wide, .frame { overflow: visible }
  * { -webkit-print-color-adjust: exact; print-color-adjust: exact }
}
"""
# The conditions of docs/CERTIFICATE.md, in its words.
CONDITIONS = (
    "Input width: one to eight.",
    "Output width: one to thirty-two.",
    "Every nonzero combination of outputs, not single outputs or pairs.",
    "Every affine function.",
    "No sampling.",
)


class Sentence(NamedTuple):
    """A line of the sheet: its word, its figure, its witness, and what it says."""

    word: str
    figure: object
    witness: str
    says: str


def _criterion(box: Box, word: str, distance: Callable[[], Distance], what: str, name: str) -> Sentence:
    """The line of an avalanche criterion."""
    if word == "bic" and box.m == 1:
        return Sentence(word, "none", "", "A box of one output has no pairs of outputs.")
    figure, (c, d), _, _ = distance()
    half = 2 ** (box.n - 1)
    changes = f"When one input is flipped, {what} changes at "
    if figure == 0:
        says = changes + f"exactly half of all inputs, {half}, whichever they are: {name} holds."
    else:
        says = (
            changes
            + f"{half - figure} to {half + figure} inputs, half of all being {half}; this is the first that is {figure} off:"
            f" {name} does not hold."
        )
    return Sentence(word, figure, f"c = {c}, d = {d}", says)


def _nonlinearity(box: Box) -> Sentence:
    figure, (c, w, b), limit = box.nonlinearity()
    says = (
        f"Every {within(limit, box.m)} (component function) differs from every affine function at {inputs(figure)} or more; this pair is"
        f" the first that differs at exactly {figure}."
    )
    return _bounded("nonlinearity", figure, f"c = {c}, w = {w}, b = {b}", says, limit, box.m)


def _xor(box: Box) -> Sentence:
    figure, (a, beta) = box.largest_cell()
    says = (
        f"The largest cell of the XOR table (difference distribution table, DDT), its differential uniformity: no nonzero input"
        f" difference gives any output difference at more than {inputs(figure)}; this is the first that does at {figure}."
    )
    return Sentence("xor", figure, f"a = {a}, β = {beta}", says)


def _autocorrelation(box: Box) -> Sentence:
    figure, (c, s), limit = box.autocorrelation()
    says = (
        f"For every {within(limit, box.m)} and every nonzero input change, the inputs where it changes and those where it stays differ in"
        f" number by at most {figure} (absolute indicator); this is the first case of {figure}."
    )
    return _bounded("autocorrelation", figure, f"c = {c}, s = {s}", says, limit, box.m)


def _degree(box: Box) -> Sentence:
    figure, (c,), limit = box.degree()
    says = (
        f"Every {within(limit, box.m)} has degree {figure} or more (algebraic degree, here the least over the components); this is the"
        f" first of exactly {figure}."
    )
    return _bounded("degree", figure, f"c = {c}", says, limit, box.m)


def _bounded(word: str, figure: int, witness: str, says: str, limit: int, m: int) -> Sentence:
    """A sentence, and with a limit below m on which side the figure over all combinations lies."""
    return Sentence(word, figure, witness, " ".join([says, *over_all(word, figure, limit, m, word)]))


def sentences(box: Box) -> list[Sentence]:
    """The sheet in sentences."""
    everywhere = "Whether every input changes every output somewhere."
    unlike = "Whether there are as many inputs as outputs, and no two rows are equal."
    return [
        _nonlinearity(box),
        _xor(box),
        _autocorrelation(box),
        _criterion(box, "sac", box.sac, "a single output", "the strict avalanche criterion"),
        _criterion(box, "bic", box.bic, "an output or a sum of two", "the bit independence criterion"),
        _degree(box),
        Sentence("complete", "yes" if box.complete() else "no", "", everywhere),
        Sentence("bijective", "yes" if box.bijective() else "no", "", unlike),
    ]


def _rows(box: Box) -> str:
    """The rows in base sixteen, in lines that fit the page, each with its first input."""
    digits = (box.m + 3) // 4
    step = min(2**box.n, 16 if digits <= 4 else 8)
    words = [f"{row:0{digits}x}" for row in box.rows]
    left = len(str(2**box.n - 1))
    return "\n".join(
        f"{start:>{left}}: " + " ".join(words[start : start + step]) for start in range(0, len(words), step)
    )


def _sheet_in_sentences(box: Box) -> list[str]:
    heads = "".join(f'<th scope="col">{words}</th>' for words in ("line of the sheet", "figure", "witness", "what it says"))
    parts = [f'<div class="wide"><table class="sheet">\n<thead><tr>{heads}</tr></thead>\n<tbody>']
    for word, figure, witness, says in sentences(box):
        parts.append(
            f'<tr><th scope="row">{word}</th><td class="figure">{figure}</td><td class="witness">{html.escape(witness)}</td>'
        )
        parts.append(f"<td>{in_html(says)}</td></tr>")
    return parts + ["</tbody></table></div>"]


def _pictures(box: Box, say: Callable[[str], None]) -> list[str]:
    drawn: dict[str, Callable[[Box], pictures.Picture]] = {
        "histogram of the distances": pictures.histogram,
        "spectrum": pictures.spectrum,
    }
    parts = []
    if box.m <= pictures.MOST_OUTPUTS:
        drawn = {
            "linear approximation table": pictures.lat,
            "distances": pictures.distances,
            "spectrum": pictures.spectrum,
            "XOR table": pictures.xor,
        }
    else:
        parts.append(
            f"<p>The two tables and the distance of each combination are drawn up to {pictures.MOST_OUTPUTS} outputs; this box has"
            f" {box.m}. Shown are how many combinations have each distance, and the spectrum of the nonlinearity's witness.</p>"
        )
    parts.append('<div class="pictures">')
    for name, draw in drawn.items():
        say(f"picture of the {name}" if "histogram" not in name else name)
        parts.append(draw(box).html())
    return parts + ["</div>"]


def _counts(box: Box, say: Callable[[str], None]) -> list[str]:
    parts = []
    for figure in ("nonlinearity", "xor", "autocorrelation", "sac", "bic", "degree"):
        if (figure, box.m) != ("bic", 1):
            say(f"count of {figure}")
            parts.append(f"<section>\n{explaining.explain(box, figure).html()}\n</section>")
    return parts


def _conditions(box: Box) -> list[str]:
    """The certificate's conditions; with a limit below m the one on combinations says it."""
    narrowed = f"Every {within(box.limit, box.m)}"
    return [condition.replace("Every nonzero combination of outputs", narrowed) for condition in CONDITIONS]


def _certified(box: Box) -> list[str]:
    """The certificate's conditions, what is proved, and what is not."""
    covered = "all of them" if box.limit == box.m else f"those of at most {box.limit} outputs"
    return [
        f"<p>{html.escape(' '.join(_conditions(box)))}</p>",
        f"<p>Here: {box.n} inputs, {box.m} outputs; of the nonzero combinations {covered}.</p>",
        "<p>Proved, by a machine and for every box: the figures, their witnesses, the values of the tables and the text of the sheet,"
        " which come from the library, are those of their definitions. The theorems named on this page, such as"
        f" {theorems.BOUNDS['nonlinearity'].name}, stand in crates/*/proofs.</p>",
        "<p>Not proved: the program that read the box and made this page. It counted each figure again from its definition at the"
        " witness, and compared the tables with the figures; where one had differed there would be no page. Nor are the compiler's"
        " last step, the operating system or the machine part of the proof.</p>",
        "<p>There is no blended score. A figure says what it counts, and nothing more.</p>",
    ]


def _fingerprint(box: Box) -> str:
    """What tells one box from another on paper."""
    digest = hashlib.sha256(box.to_bytes()).hexdigest()
    return f'<p>SHA-256 of its box file, which the command boxfile writes: <code class="digest">{digest}</code></p>'


def page(box: Box, say: Callable[[str], None] = lambda step: None) -> str:
    """The page; `say` is told each step that may take long."""
    title = html.escape(f"{box.name or 'A box'}: {inputs(box.n)}, {box.m} output{'' if box.m == 1 else 's'}")
    say("sheet")
    parts = [
        '<!DOCTYPE html>\n<html lang="en">\n<head>\n<meta charset="utf-8">'
        '\n<meta name="viewport" content="width=device-width, initial-scale=1">'
        f"\n<title>{title}</title>\n<style>{STYLE}</style>\n</head>\n<body>\n<h1>{title}</h1>",
        f'<p>The rows in base sixteen, for the inputs 0 to {2**box.n - 1}:</p>\n<div class="wide"><pre>{_rows(box)}</pre></div>',
        _fingerprint(box),
        "<h2>The sheet in sentences</h2>",
        *_sheet_in_sentences(box),
        "<h2>Pictures</h2>",
        *_pictures(box, say),
        "<h2>The counts behind the witnesses</h2>",
        *_counts(box, say),
        "<h2>What is certified</h2>",
        *_certified(box),
        f"<h2>The sheet</h2>\n<pre>{html.escape(box.sheet())}</pre>",
        f"<footer>Satmegwo {version()}</footer>\n</body>\n</html>",
    ]
    return "\n".join(parts) + "\n"
