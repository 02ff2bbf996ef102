"""The functions of Rattle sources: their names, whether they are public, what they take and give, the clauses of their contracts, and their bodies.

It reads tokens and not the language: enough to find each function, and each call in a body.
"""
import dataclasses
import re

TOKEN = re.compile(r'//[^\n]*|b?"(?:\\.|[^"\\])*"|b\'(?:\\.|[^\'\\])\'|\'[^\W\d]\w*|\w+|::|->|\S')
WORD = re.compile(r"[^\W\d]\w*$")
CLOSES = {"(": ")", "[": "]", "{": "}"}


@dataclasses.dataclass
class Function:
    crate: str
    name: str  # within the crate: `sweep`, `listing::measure`, `Design::swap`
    public: bool
    exported: bool
    takes: list  # the names of its parameters, in order
    types: list  # the tokens of the type of each; for `self` those before it, as & and mut
    gives: list  # the tokens of what it returns
    clauses: list  # `requires` and `ensures`, in order
    promises: list  # the tokens of all its `ensures`
    body: list  # the tokens of its body
    declared: str = ""  # the trait that it is declared in, or the empty text
    implements: str = ""  # the trait that its `impl` is of, or the empty text


def tokens(text):
    return [token for token in TOKEN.findall(text) if not token.startswith("//")]


def closing(words, at):
    """The place of the bracket that closes the one at a place."""
    opened, closes, depth = words[at], CLOSES[words[at]], 0
    for place in range(at, len(words)):
        depth += (words[place] == opened) - (words[place] == closes)
        if depth == 0:
            return place
    raise ValueError(f"nothing closes the {opened} of {' '.join(words[at:at + 8])}")


def parts(words):
    """A list of tokens, cut at its commas; those within brackets do not count. A comma at the end cuts off nothing."""
    found, depth = [[]], 0
    for word in words:
        depth += (word in CLOSES) - (word in CLOSES.values())
        if word == "," and depth == 0:
            found.append([])
        else:
            found[-1].append(word)
    return [part for part in found if part]


def parameter(part):
    return next(word for word in part if word not in ("mut", "&") and not word.startswith("'"))


def type_of(part):
    return part[part.index(":") + 1:] if ":" in part else part[:-1]


def function_at(crate, place, words, at):
    """The function whose word `fn` stands at a place, and the place after it."""
    before = words[max(0, at - 3):at]
    exported = before[-2:] == ["extern", '"C"']
    public = "pub" in (before[:-2] if exported else before)[-1:]
    opened = words.index("(", at)
    closed = closing(words, opened)
    given = parts(words[opened + 1:closed])
    takes, types = [parameter(part) for part in given], [type_of(part) for part in given]
    clauses, promises, gives, next_at = [], [], [], closed + 1
    while words[next_at] not in ("{", ";"):
        start = next_at
        if words[next_at] in ("requires", "ensures"):
            clauses.append(words[next_at])
            next_at = closing(words, words.index("{", next_at))
            promises += words[start:next_at + 1] if words[start] == "ensures" else []
        else:
            if words[next_at] == "[":  # a type may hold a length, and a `;` with it
                next_at = closing(words, next_at)
            gives += words[start:next_at + 1]
        next_at += 1
    end = closing(words, next_at) if words[next_at] == "{" else next_at
    body = words[next_at + 1:end]
    return Function(crate, place + words[at + 1], public, exported, takes, types, gives[1:], clauses, promises, body), end + 1


def type_name(words):
    """The type of an `impl`, without its lifetimes."""
    return next(word for word in reversed(words) if WORD.match(word) and word != "impl")


def trait_name(words):
    """The trait of an `impl`, without its parameters, or the empty text where it is of a type alone."""
    return next(word for word in reversed(words[:words.index("for")]) if WORD.match(word)) if "for" in words else ""


def functions(crate, module, words):
    """The functions of one file; `module` is '' for the root and else as 'listing::'."""
    found, at, place, ends, declared, implements = [], 0, module, len(words), "", ""
    while at < len(words):
        if at >= ends:
            place, ends, declared, implements = module, len(words), "", ""
        if words[at] == "impl":
            opened = words.index("{", at)
            implements = trait_name(words[at:opened])
            place, ends, at = f"{module}{type_name(words[at:opened])}::", closing(words, opened), opened + 1
        elif words[at] == "trait" and at + 1 < len(words) and WORD.match(words[at + 1]):
            opened = words.index("{", at)
            declared, ends, at = words[at + 1], closing(words, opened), opened + 1
        elif words[at] == "fn" and WORD.match(words[at + 1]):
            function, at = function_at(crate, place, words, at)
            found.append(dataclasses.replace(function, declared=declared, implements=implements))
        else:
            at += 1
    return found


def module_of(file):
    return "" if file.stem in ("lib", "main") else f"{file.stem}::"


def of_crates(crates):
    """Every function below crates/."""
    return [
        function
        for file in sorted(crates.glob("*/src/*.rt"))
        for function in functions(file.parent.parent.name, module_of(file), tokens(file.read_text(encoding="utf-8")))
    ]
