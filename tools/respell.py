#!/usr/bin/env python3
"""Gives definitions, lemmas, fields and local names of specs/ and proofs/ the spelling of today's Rattle: words in snake case.

usage: respell.py            at the top of the repository, once, right after the scripts of the kit

The table respell.tsv beside this file has a row for each name: the old spelling, a tab, the new one. It turns

  .antt  every name; in a comment the names between backquotes, and those in camel case
  .rt    the names in clauses and in `ghost use` items, which alone have such a spelling; comments as above
  .md    the names between backquotes, in README.md and docs/, and those in camel case
  .edit  the names in lines that begin with old:, new: and law:; comments as in .antt

A name that a file imports from a library that is not of this repository keeps its spelling in that file.
"""
import pathlib
import re
import sys

HERE = pathlib.Path(__file__).resolve().parent
WORD = re.compile(r"[^\s(){}\[\].;,@\"«»`]+")
USE = re.compile(r"^(?:pub )?use ([^\s{]+?)\.?\{([^}]*)\}", re.M)
COMMENT = re.compile(r"(?:(?<=\s)|^)--(?=\s|$).*$", re.M)
SPAN = re.compile(r"`[^`\n]+`")
CAMEL = re.compile(r"(?<![\w.-])[a-z][a-z0-9]*(?:[A-Z][A-Za-z0-9]*)+(?![\w-])")


def table():
    rows = (line.split("\t") for line in (HERE / "respell.tsv").read_text(encoding="utf-8").splitlines())
    return {old: new for old, new in rows}


def words(text, names, kept=frozenset()):
    """Every name of the text that stands in the table and is not kept, in its new spelling."""
    return WORD.sub(lambda m: m[0] if m[0] in kept else names.get(m[0], m[0]), text)


def prose(text, names, kept=frozenset()):
    """The same of a comment or a page: between backquotes, and elsewhere of what is in camel case."""
    text = SPAN.sub(lambda m: words(m[0], names, kept), text)
    return CAMEL.sub(lambda m: m[0] if m[0] in kept else names.get(m[0], m[0]), text)


def foreign(text, own):
    """The names that a file imports from libraries of others."""
    found = set()
    for module, items in USE.findall(text):
        head = module.split(".")
        if head[0] != "Rattle" or head[1] not in own:
            found |= {item.split()[0] for item in items.split(",") if item.strip()}
    return found


def antt(text, names, own):
    kept = foreign(text, own)
    out, at = [], 0
    for comment in COMMENT.finditer(text):
        out += [words(text[at : comment.start()], names, kept), prose(comment[0], names, kept)]
        at = comment.end()
    return "".join(out) + words(text[at:], names, kept)


def rust(text, names, own):
    out = []
    for line in text.split("\n"):
        code, mark, comment = line.partition("//")
        if code.count('"') % 2 == 0:
            out.append(re.sub(r'"(?:[^"\\]|\\.)*"|[^"]+', lambda m: m[0] if m[0].startswith('"') else words(m[0], names), code) + mark + prose(comment, names))
        else:
            out.append(line)
    return "\n".join(out)


def edit(text, names, own):
    out = []
    for line in text.split("\n"):
        named = line.startswith(("old:", "new:", "law:"))
        out.append(words(line, names) if named else prose(line, names))
    return "\n".join(out)


def page(text, names, own):
    return prose(text, names)


def main():
    names = table()
    own = {path.name for path in pathlib.Path("crates").iterdir()}
    files = [(path, {".antt": antt, ".rt": rust, ".edit": edit}.get(path.suffix)) for path in pathlib.Path("crates").rglob("*") if "out" not in path.parts]
    files += [(path, page) for path in [pathlib.Path("README.md"), *pathlib.Path("docs").rglob("*.md")]]
    count = 0
    for path, turn in files:
        if turn is None or not path.is_file():
            continue
        text = path.read_text(encoding="utf-8")
        turned = turn(text, names, own)
        if turned != text:
            path.write_text(turned, encoding="utf-8")
            count += 1
    print(f"respell: {len(names)} names, {count} files changed")


if __name__ == "__main__":
    sys.exit(main())
