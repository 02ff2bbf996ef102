#!/usr/bin/env python3
"""Holds the documents to the tree: what a page names exists, where it says that it stands.

Every name in backquotes on a page (README, docs/ without the notes of the landings, PORT and DESIGN-PASS, the other read-me files) is a definition, theorem, function, type,
field, file, crate or option that is there; `name` (`crate/specs/File`) is declared in that file; a link leads to a file, and "DECISIONS 58"
to an entry. A header's comments name calls, macros and files that are there.

Every row of docs/PROMISES.md has a key. The key stands above the statements of `claims` that carry the sentence, as `-- [KEY]`, and the row
names these and no other (`*_call` names every one of that ending); or the row says "none: " and why no statement can carry it. Every statement
of `claims` has a key.

docs/READING.md has every crate of crates.txt, and docs/CONTRIBUTING.md every part of the gate. Page one of docs/CERTIFICATE.md, which is read out, has at most 350 words and no brackets.

usage: names.py ROOT
"""
import dataclasses
import fnmatch
import pathlib
import re
import sys

LONGEST_PAGE = 350
STATEMENTS = ("Demand1", "Demand2", "Demand3", "Document01", "Document02", "Tied", "Worked", "Beside", "Parts")
KEY = r"(?:(?:D[123]|01|02|beside)\.[^\]\s|,]+|parts\.\d+)"
# Words of the languages and of the tools that the pages quote.
WORDS = set(
    "rt cargo gcc g++ clang make ar objdump objcopy python3 git pip pkg-config rustc simp rw search requires ensures match pub fn use let else "
    "ghost self bool return static inline extern unsafe record data where Type typedef struct enum const abbrev unfoldable u8 u16 u32 u64 i32 "
    "size_t uint8_t uint32_t int32_t uint64_t memcpy memset allow-holes libs cflags ldconfig must-fail staticlib".split()
)
CODE = {".rt", ".antt", ".rs", ".c", ".h", ".py", ".edit", ".toml", ".txt", ".md", ".box", ".sheet", ".stdout", ".svg", ".html", ".sh"}
BUILT = ("target/", "lib")
TICKED = re.compile(r"`([^`\n]+)`")
LISTED = r"((?:`[^`\n]+`(?:, and |, | and )?)+)"
IN_FILE = re.compile(LISTED + r" ?(?:\(|in )((?:`[\w.+/-]+/[\w.+/-]+`(?:, | and )?)+)")
LINK = re.compile(r"\]\(([^)\s]+)\)")
NAME = re.compile(r"[^\W\d](?:[\w']|-(?=\w))*$")
COMPOUND = re.compile(r"[^\W\d]\w*(?:[a-z][A-Z]|[_-][^\W_])[\w-]*")
TOP = re.compile(r"^(?:(?:pub|abbrev|unfoldable|opaque) )*(?:(?:record|data) )?([^\s:(){}]+)(?=\s+[:({])", re.M)
INNER = re.compile(r"^ +(?:(?:pub|abbrev|unfoldable) )*(?:(?:record|data) )?([^\s:(){}]+) :", re.M)
STATEMENT = re.compile(r"\s*(?:(?:abbrev|unfoldable) )?pub (?!record |data |mod )(?:(?:abbrev|unfoldable) )?([^\s:(){}]+)\s*(?=[:({]|$)")
RATTLE = re.compile(r"\b(?:fn|struct|enum|const|mod) ([^\W\d]\w*)|^ +(?:pub )?([^\W\d]\w*)(?:,|:|\(| \{)", re.M)


def declared(file, text):
    """The names that a source declares; of C, Rust and Python every word."""
    if file.endswith(".antt"):
        return set(TOP.findall(text)) | set(INNER.findall(text))
    if file.endswith(".rt"):
        return {name for pair in RATTLE.findall(text) for name in pair if name}
    return set(re.findall(r"[^\W\d]\w*", text))


@dataclasses.dataclass
class Tree:
    files: dict  # each file of the repository, from its root, with its text ('' where it is no text)

    def __post_init__(self):
        self.names = {file: declared(file, text) for file, text in self.files.items() if self.is_code(file) or file.endswith(".edit")}
        self.all = set().union(*(names for file, names in self.names.items() if not file.endswith(".edit")))
        self.found = {}
        self.folders = {str(parent) for file in self.files for parent in pathlib.PurePath(file).parents}
        self.crates = {file.split("/")[1] for file in self.files if file.startswith("crates/")}
        self.bases = {file.rsplit("/", 1)[-1] for file in self.files}
        self.stems = {base.rsplit(".", 1)[0] for base in self.bases}
        self.texts = "\n".join(text for file, text in self.files.items() if self.is_code(file))

    @staticmethod
    def is_code(file):
        return file.endswith((".antt", ".rt", ".rs", ".c", ".h", ".py", ".toml")) or file in (".ci/run", "Makefile", "examples/Makefile", "crates.txt")

    def at(self, path, folder="."):
        """The files that a path of a page means, from the root, a crate or the page's folder: one file, those below a folder, or those of a pattern."""
        if (path, folder) not in self.found:
            bare = re.sub(r"(?<![^/])(?:NAME|SUBJECT|FILE|F)(?=[./]|$)", "*", re.sub(r"^\./", "", path.rstrip("/")))  # NAME stands for any
            pattern = re.escape(bare).replace(r"\*", "[^/]*") + r"(?:\.antt|\.rt|\.edit|/.*)?"
            bases = ("", "crates/", "crates/[^/]*/", re.escape(folder) + "/")
            self.found[path, folder] = next((held for base in bases if (held := self.matching(base + pattern))), [])
        return self.found[path, folder]

    def matching(self, pattern):
        whole = re.compile(pattern)
        return [file for file in self.files if whole.fullmatch(file)]

    def declares(self, paths, name):
        return any(name in self.names.get(file, ()) for path in paths for file in self.at(path))


def function_fault(tree, token):
    """`crate::function`, `Type::method`, `file::function`: each part is declared, and the last where the first says."""
    parts = [part for part in token.split("::") if part]
    if parts[0] in tree.crates:
        held = set().union(*(tree.names[file] for file in tree.names if file.startswith(f"crates/{parts[0]}/src/")), {parts[0]})
        held |= {pathlib.PurePath(file).stem for file in tree.names if file.startswith(f"crates/{parts[0]}/src/")}
    else:
        held = tree.all | tree.stems
    lost = [part for part in parts if part not in held]
    return f"no {lost[0]} for {token}" if lost else None


def token_fault(tree, token, folder="."):
    """What is wrong with one name in backquotes on a page of a folder, or None."""
    if token.startswith("-"):
        lost = [option for option in re.findall(r"(?<!\S)--?[\w-]+", token) if option.startswith("--") and option not in tree.texts and option[2:] not in WORDS]
        return f"no option {lost[0]}" if lost else None
    if token.startswith(("http", "$", "/")) or token.startswith(BUILT[0]) or re.fullmatch(r"lib\w+\.(a|so)", token):
        return None
    if re.fullmatch(KEY, token):
        return None if token in [key for key, _ in rows(tree.files.get("docs/PROMISES.md", ""))] else f"no promise {token}"
    if re.fullmatch(r"_\w+", token):
        return None if any(name.endswith(token) for name in tree.all) else f"no name that ends in {token}"
    if " " in token or not re.fullmatch(r"[\w'./:*+<>-]+", token):
        words = [word for word in COMPOUND.findall(token) if word not in WORDS]
        paths = [word for word in re.findall(r"(?<![\w./-])[\w.-]+(?:/[\w.+*-]+)+", token) if not word.startswith("target/")]
        lost = [word for word in words if not known(tree, word) and not any(word in path for path in paths)]
        lost += [path for path in paths if not tree.at(path, folder)]
        return f"no {lost[0]}" if lost else None
    if "/" in token:
        return None if tree.at(token, folder) else f"no file {token}"
    if "::" in token:
        return function_fault(tree, token)
    if "*" in token or token.startswith("..") or token.endswith(":") or token[0] in ".<":
        return None
    if pathlib.PurePath(token).suffix in CODE:
        stem = pathlib.PurePath(token).stem
        return None if token in tree.bases or stem.isupper() else f"no file {token}"
    if re.fullmatch(r"[A-Z]\w*\.[^\s.]+", token):
        module, name = token.split(".", 1)
        held = [file for file in tree.names if pathlib.PurePath(file).stem == module]
        if not held and known(tree, module) and known(tree, name):
            return None  # a class and what it has
        return None if any(name in tree.names[file] for file in held) else f"no {name} in a file {module}"
    return None if known(tree, token) or not NAME.match(token) else f"no {token}"


def known(tree, word):
    return word in tree.all or word in tree.crates or word in tree.stems or word in WORDS or word in tree.bases or word in tree.folders or word.isupper()


def bare(token):
    """The name itself: of `Module.name`, `crate::name` or `name x y` the part that a file declares."""
    return re.split(r"[ (]", token.split("::")[-1])[0].split(".")[-1]


def units(text):
    """The paragraphs, list items and rows of tables of a page, each in one line with its number; what is indented by four or fenced is left out."""
    found, fenced, goes_on = [], False, False
    for number, line in enumerate(text.splitlines(), 1):
        if line.startswith("```"):
            fenced = not fenced
        begins = line.startswith(("|", "#", "- ", "```")) or re.match(r"\d+\. ", line)
        if fenced or line.startswith("```") or not line.strip() or (line.startswith("    ") and not goes_on):
            goes_on = False
        elif goes_on and not begins:
            found[-1] = (found[-1][0], found[-1][1] + " " + line.strip())
        else:
            found.append((number, line))
            goes_on = not line.startswith(("|", "#"))
    return found


def page_faults(tree, page, text):
    """The faults of one page, each with the line where its paragraph begins."""
    found, folder = [], pathlib.PurePath(page).parent
    entries = set(re.findall(r'<a id="([\w.§-]+)">', tree.files.get("docs/DECISIONS.md", "")))
    for number, line in units(text):
        for token in TICKED.findall(line):
            fault = token_fault(tree, token, str(folder))
            if fault:
                found.append(f"{page}:{number}: {fault}")
        for names, paths in IN_FILE.findall(line):
            paths = TICKED.findall(paths)
            for token in TICKED.findall(names):
                if tree.declares(paths, bare(token)):
                    continue
                if token in tree.crates:  # a crate, and files of it
                    found += [f"{page}:{number}: no file {path} in {token}" for path in paths if not tree.at(path if path.startswith((token, "crates")) else f"{token}/{path}")]
                elif NAME.match(bare(token)) and "/" not in token and all(tree.at(path) for path in paths):
                    found.append(f"{page}:{number}: {bare(token)} is not declared in {' or '.join(paths)}")
        for link in LINK.findall(line):
            target, _, anchor = link.partition("#")
            whole = normal(folder / target).as_posix() if target else page
            if "://" in link:
                continue
            if whole not in tree.files and whole not in tree.folders:
                found.append(f"{page}:{number}: no file {link}")
            elif anchor and anchor not in anchors(tree.files.get(whole, "")):
                found.append(f"{page}:{number}: no place {link}")
        for entry in re.findall(r"DECISIONS(?:\.md)? (\d+)", line):
            if entry not in entries:
                found.append(f"{page}:{number}: DECISIONS has no entry {entry}")
    return found


def anchors(text):
    """The places of a page that a link may lead to: its headings, and what is named by hand."""
    headings = re.findall(r"^#+ (.*)$", text, re.M)
    return {re.sub(r"[^\w -]", "", heading.lower()).replace(" ", "-") for heading in headings} | set(re.findall(r'<a id="([^"]+)">', text))


def normal(path):
    parts = []
    for part in path.parts:
        parts = parts[:-1] if part == ".." else parts + [part]
    return pathlib.PurePath(*parts)


def header_faults(tree, file, text):
    """Names of calls, macros and files in a header's comments that are nowhere."""
    held = {word for other, body in tree.files.items() if other.startswith("include/") for word in re.findall(r"\w+", re.sub(r"/\*.*?\*/", " ", body, flags=re.S))}
    found = []
    for comment in re.findall(r"/\*.*?\*/", text, re.S):
        words = re.findall(r"(?<![\w./-])(?:satmegwo_|SATMEGWO_)\w+(?!\w*[*.])", comment)
        found += [f"{file}: no {word}" for word in words if word not in held and word not in tree.crates]
        paths = [path.rstrip(".") for path in re.findall(r"(?<![\w./-])[a-z]\w*/[\w./-]+", comment)]
        found += [f"{file}: no file {path}" for path in paths if path.split("/")[0] in tree.folders and not tree.at(path)]
        found += [f"{file}: no header {name}" for name in re.findall(r"(?<![\w/])\w+\.h\b", comment) if name not in tree.bases]
        found += [f"{file}: no {token}" for token in TICKED.findall(comment) if NAME.match(token) and token not in held]
    return found


def statements(tree):
    """The statements of `claims`: each with its file and its keys. Keys in a comment hold for the statements below it, up to the next comment that has any."""
    found = []
    for stem in STATEMENTS:
        file, keys, block = f"crates/claims/proofs/{stem}.antt", [], []
        for line in tree.files.get(file, "").splitlines():
            if line.strip().startswith("--"):
                block += re.findall(r"\[(" + KEY + r")\]", line)
                continue
            keys, block = ([] if line.startswith("use ") else block or keys), []
            if match := STATEMENT.match(line):
                found.append((match[1], file, keys))
    return found


def rows(text):
    """The rows of PROMISES that have a key: the key, and the last cell."""
    found = []
    for line in text.splitlines():
        cells = [cell.strip() for cell in line.strip().strip("|").split("|")]
        if line.startswith("|") and re.fullmatch(KEY, cells[0]):
            found.append((cells[0], cells[-1]))
    return found


def key_faults(tree):
    """Keys without a statement, statements without a key, rows that name another statement than the one that has their key."""
    listed, held = rows(tree.files.get("docs/PROMISES.md", "")), statements(tree)
    by_key, found = {}, []
    for name, file, keys in held:
        if not keys:
            found.append(f"{file}: {name} has no key")
        for key in keys:
            by_key.setdefault(key, set()).add(name)
    known_keys = [key for key, _ in listed]
    found += [f"PROMISES: {key} stands there twice" for key in sorted(set(known_keys)) if known_keys.count(key) > 1]
    found += [f"claims: [{key}] is no key of PROMISES" for key in sorted(by_key) if key not in known_keys]
    for key, cell in listed:
        named = {name for token in TICKED.findall(cell) for name, _, _ in held if fnmatch.fnmatchcase(name, bare(token))}
        if key not in by_key:
            if not cell.startswith("none: "):
                found.append(f"PROMISES: {key} has no statement in claims")
        elif named != by_key[key]:
            found.append(f"PROMISES: {key} names {', '.join(sorted(named)) or 'nothing'}, and claims has {', '.join(sorted(by_key[key]))} there")
    if not listed:
        found.append("PROMISES: no row has a key")
    return found


def crate_faults(tree):
    """Crates that docs/READING.md does not have."""
    listed = re.findall(r"^(\w+)[^:\n]*:", tree.files.get("crates.txt", ""), re.M)
    held = TICKED.findall(tree.files.get("docs/READING.md", ""))
    return [f"docs/READING.md: the crate {crate} is not in it" for crate in listed if crate not in held]


def part_faults(tree):
    """Parts of the gate that docs/CONTRIBUTING.md does not have, and those that it has and the gate has not."""
    run = re.search(r'case " ([\w ]+) " in', tree.files.get(".ci/run", ""))
    parts = run[1].split() if run else []
    table = tree.files.get("docs/CONTRIBUTING.md", "").partition("| part |")[2].partition("\n\n")[0]
    held = re.findall(r"^\| `(\w+)` \|", table, re.M)
    return [f"docs/CONTRIBUTING.md: the part {part} of the gate is only in one of the two" for part in sorted(set(parts) ^ set(held))]


def certificate_faults(tree):
    """Page one of the certificate is read out: it is short, and has no brackets."""
    page = tree.files.get("docs/CERTIFICATE.md", "").partition("## Page one\n")[2].partition("\n## ")[0]
    words = len(page.split())
    found = [f"docs/CERTIFICATE.md: page one has {words} words, where {LONGEST_PAGE} are the most"] if words > LONGEST_PAGE else []
    return found + [f"docs/CERTIFICATE.md: page one has a bracket: {mark}" for mark in "([" if mark in page]


def pages(tree):
    """The pages that are true of the tree. Notes of landings keep the names of their day, and so do the pages of the move to today's Rattle and of the change to its
    forms, which have old and new side by side; the table of the notes, their README, has today's in backquotes."""
    return sorted(file for file in tree.files if file.endswith(".md") and not re.match(r"docs/(landings/(?!README)|(?:PORT|DESIGN-PASS)\.md)", file))


def faults(tree):
    found = [fault for page in pages(tree) for fault in page_faults(tree, page, tree.files[page])]
    found += [fault for file in sorted(tree.files) if file.startswith("include/") for fault in header_faults(tree, file, tree.files[file])]
    return found + key_faults(tree) + crate_faults(tree) + part_faults(tree) + certificate_faults(tree)


def read(root):
    """The repository's files; what is built, and what git keeps for itself, is left out."""
    found = {}
    for file in sorted(root.rglob("*")):
        name = file.relative_to(root)
        if file.is_file() and not {".git", "target", "out", "__pycache__"} & set(name.parts) and name.suffix not in (".so", ".a", ".o"):
            try:
                found[name.as_posix()] = file.read_text(encoding="utf-8")
            except UnicodeDecodeError:
                found[name.as_posix()] = ""
    return Tree(found)


def main():
    if len(sys.argv) != 2:
        sys.exit("usage: names.py ROOT")
    tree = read(pathlib.Path(sys.argv[1]))
    found = faults(tree)
    for fault in found:
        print(f"names: {fault}")
    if found or not pages(tree):
        sys.exit(f"the documents have {len(found)} faults")
    tokens = sum(len(TICKED.findall(tree.files[page])) for page in pages(tree))
    print(f"{len(pages(tree))} pages: {tokens} names are there, and {len(rows(tree.files['docs/PROMISES.md']))} promises have their statements")


if __name__ == "__main__":
    main()
