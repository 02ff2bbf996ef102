"""Tells an edit that changes the program from one that does not: a parameter that no body reads, there for the contract alone, may be
handed any argument at all.

A parameter is read where its name stands in the body otherwise than as a whole argument, as in a text that is printed, or as the argument of a
parameter that is read. What is not found here, as the functions of the kit and the cases of an enum, reads all that it is given.
"""
import re

import sources

SHOWN = re.compile(r"{(\w+)")  # what a text that is printed names
REFERENCE = ("&", "mut")


def path_before(words, at):
    """The path that ends before a place, as ['masks', 'next_mask']; empty for a method, a declaration, or no name at all."""
    path = []
    while at > 0 and sources.WORD.match(words[at - 1]):
        path.insert(0, words[at - 1])
        at -= 1
        if at == 0 or words[at - 1] != "::":
            break
        at -= 1
    return [] if at > 0 and words[at - 1] in (".", "fn") else path


def calls(words):
    """The calls among tokens: for each the path of the callee, and the first and last place of each argument."""
    for at, word in enumerate(words):
        path = path_before(words, at) if word == "(" else []
        if path:
            start, spans = at + 1, []
            for part in sources.parts(words[start:sources.closing(words, at)]):
                spans.append((start, start + len(part)))
                start += len(part) + 1
            yield path, spans


def imported(words):
    """The names that the `use` lines of a file bring in."""
    found = {}
    for at, word in enumerate(words):
        if word == "use" and (at == 0 or words[at - 1] != "ghost"):
            path = [name for name in words[at + 1:words.index(";", at)] if name != "::"]
            found[path[-1]] = path
    return found


class Program:
    """All functions of the crates, and which of their parameters are read."""

    def __init__(self, crates):
        self.known, self.uses = {}, {}
        for file in sorted(crates.glob("*/src/*.rt")):
            crate, module = file.parent.parent.name, sources.module_of(file)
            words = sources.tokens(file.read_text(encoding="utf-8"))
            self.uses[crate, module] = imported(words)
            for function in sources.functions(crate, module, words):
                self.known[crate, function.name] = (module, function)
        self.read = {(key, place) for key in self.known for place in self.read_at_once(key)}
        handed = [(key, place, to) for key in self.known for place, to in self.handed(key)]
        while True:
            more = {(key, place) for key, place, to in handed if to in self.read} - self.read
            if not more:
                break
            self.read |= more

    def callee(self, crate, module, path):
        """The function that a path names, seen from a file of a crate, or None."""
        path = self.uses.get((crate, module), {}).get(path[0], path[:1]) + path[1:]
        if path[0] == "crate":
            path = [crate] + path[1:]
        inside = "::".join(path)
        keys = [(crate, module + inside), (crate, inside), (path[0], "::".join(path[1:]))]
        return next((key for key in keys if key in self.known), None)

    def whole_arguments(self, key):
        """The places in the body of a function where a parameter stands alone as an argument, with the parameter that it is handed to."""
        module, function = self.known[key]
        found = {}
        for path, spans in calls(function.body):
            to = self.callee(key[0], module, path)
            if to is None:
                continue
            for place, (start, end) in enumerate(spans):
                bare = [at for at in range(start, end) if function.body[at] not in REFERENCE]
                if len(bare) == 1 and function.body[bare[0]] in function.takes:
                    found[bare[0]] = (to, place)
        return found

    def read_at_once(self, key):
        function, handed = self.known[key][1], self.whole_arguments(key)
        body = function.body
        for at, word in enumerate(body):
            is_field = body[at - 1:at] == ["."] and body[at - 2:at - 1] != ["."] or body[at + 1:at + 2] == [":"]  # the end of a range is none
            if word in function.takes and at not in handed and not is_field:
                yield function.takes.index(word)
            if word.startswith('"'):
                yield from (function.takes.index(name) for name in SHOWN.findall(word) if name in function.takes)

    def handed(self, key):
        function = self.known[key][1]
        for at, to in self.whole_arguments(key).items():
            yield function.takes.index(function.body[at]), to

    def seen(self, crate, module, text):
        """The tokens of a file, without the arguments that are not read."""
        words = sources.tokens(text)
        dropped = set()
        for path, spans in calls(words):
            to = self.callee(crate, module, path)
            if to is not None:
                dropped |= {at for place, (start, end) in enumerate(spans) if (to, place) not in self.read for at in range(start, end)}
        return [word for at, word in enumerate(words) if at not in dropped]

    def same(self, crate, module, text, edited):
        """Whether an edited file is the same program as before."""
        return self.seen(crate, module, text) == self.seen(crate, module, edited)
