"""The table of exports, the structs, the constants and the sentences, against the headers."""
import ctypes
import re
import unittest
import unittest.mock

from satmegwo import __version__, library, refusals

from .places import PACKAGE, ROOT

HEADERS = [ROOT / "include" / name for name in ("satmegwo.h", "satmegwo_design.h", "satmegwo_server.h", "satmegwo_parts.h")]
COMMENTED = "".join(path.read_text(encoding="utf-8") for path in HEADERS)
TEXT = re.sub(r"/\*.*?\*/", "", COMMENTED, flags=re.DOTALL)
PROTOTYPE = re.compile(r"^(\w+) satmegwo_(\w+)\(([^;{)]*)\);", re.MULTILINE)
STRUCT = re.compile(r"^typedef struct (\w+) \{(.*?)^\} \1;", re.MULTILINE | re.DOTALL)
MACRO = re.compile(r"^#define SATMEGWO_(\w+) ([0-9]+)u?\b", re.MULTILINE)
TEXTS = re.compile(r"texts\[\] = \{(.*?)\};", re.DOTALL)
LITERALS = re.compile(r'((?:"[^"]*"\s*)+)(?:,|$)')
MACROS = {name: int(value) for name, value in MACRO.findall(TEXT)}


def kinds(arguments: str) -> list:
    """The kinds of a prototype's arguments, each array with its length behind it."""
    found, words = [], [] if arguments.strip() == "void" else [" ".join(word.split()) for word in arguments.split(",")]
    while words:
        kind, star, name = re.fullmatch(r"((?:const )?\w+) (\*?)(\w+)", words.pop(0)).groups()
        if star:
            assert words.pop(0) == f"size_t {name}_len", f"the array {name} has no length"
        found.append(f"{kind} *" if star else kind)
    return found


def fields(declared: str) -> list:
    """The fields of a struct, each with its element and, of an array, its length."""
    found = []
    for kind, name, length in re.findall(r"(\w+) (\w+)(?:\[(\w+)\])?;", declared):
        macro = length.replace("SATMEGWO_", "")
        found.append((name, kind, MACROS.get(macro) or int(length) if length else None))
    return found


def own_fields(struct: type) -> list:
    """The same of a struct of the package."""
    names = {struct: name for name, struct in library.STRUCTS.items()}
    names[ctypes.c_uint32] = "uint32_t"
    own = []
    for name, kind in struct._fields_:
        is_array = issubclass(kind, ctypes.Array)
        own.append((name, names[kind._type_ if is_array else kind], kind._length_ if is_array else None))
    return own


class Headers(unittest.TestCase):
    maxDiff = None

    def test_every_prototype(self):
        declared = {name: (result, kinds(arguments)) for result, name, arguments in PROTOTYPE.findall(TEXT)}
        self.assertGreaterEqual(len(declared), 50)
        self.assertEqual(declared, library.EXPORTS)

    def test_every_struct(self):
        declared = {name: fields(inside) for name, inside in STRUCT.findall(TEXT)}
        self.assertEqual(
            set(declared) - set(library.STRUCTS), {"satmegwo_box"}
        )  # only for the header's own function over boxes
        for name, struct in library.STRUCTS.items():
            self.assertEqual(declared[name], own_fields(struct), name)
        sizes = re.findall(r"sizeof\((\w+)\) == ([0-9]+)", TEXT)
        self.assertEqual(
            {name: int(size) for name, size in sizes},
            {name: ctypes.sizeof(struct) for name, struct in library.STRUCTS.items()},
        )

    def test_constants(self):
        for name in library.CONSTANTS:
            self.assertEqual(getattr(library, name), MACROS[name], name)

    def test_sentences(self):
        texts = ["".join(re.findall(r'"([^"]*)"', text)) for text in LITERALS.findall(TEXTS.search(TEXT)[1])]
        self.assertEqual(dict(enumerate(texts[1:], 1)), refusals.SENTENCES)

    def test_version(self):
        told = tuple(MACROS[f"VERSION_{part}"] for part in ("MAJOR", "MINOR", "PATCH"))
        self.assertEqual(__version__, "%d.%d.%d" % told)
        self.assertEqual(library.version(), __version__)
        self.assertIn(f'version = "{__version__}"', (PACKAGE / "pyproject.toml").read_text())


class Loading(unittest.TestCase):
    def test_every_export_is_there(self):
        self.assertEqual(set(library.functions()), set(library.EXPORTS))

    def test_a_missing_library_says_what_makes_it(self):
        library.functions.cache_clear()
        self.addCleanup(library.functions.cache_clear)
        with unittest.mock.patch.dict("os.environ", SATMEGWO_LIBRARY="/nowhere/libsatmegwo.so"):
            with self.assertRaisesRegex(library.MissingLibrary, "make shared"):
                library.functions()

    def test_another_library_is_not_taken(self):
        library.functions.cache_clear()
        self.addCleanup(library.functions.cache_clear)
        with unittest.mock.patch.object(library.ctypes, "CDLL", lambda path: object()):
            with self.assertRaisesRegex(library.MissingLibrary, "has no satmegwo_"):
                library.functions()
