"""The package as it is installed and read: by pip without a network, hints for every public name, and the examples of its README."""
import doctest
import email
import importlib.util
import inspect
import os
import pathlib
import pkgutil
import subprocess
import sys
import tempfile
import unittest

import satmegwo

from .places import PACKAGE, ROOT

MODULES = [
    importlib.import_module(f"satmegwo.{found.name}")
    for found in pkgutil.iter_modules(satmegwo.__path__)
    if found.name != "__main__"
]


def pip(*words):
    """pip, without a network."""
    asked = [sys.executable, "-m", "pip", "install", "--no-index", "--disable-pip-version-check", "--quiet", *map(str, words)]
    done = subprocess.run(asked, capture_output=True)
    assert done.returncode == 0, done.stderr.decode()


def python(told, **how):
    """What a Python prints that finds no package here by itself."""
    env = {name: value for name, value in os.environ.items() if name != "PYTHONPATH"}
    return subprocess.run([sys.executable, "-B", "-c", told], capture_output=True, text=True, env=env, **how)


@unittest.skipUnless(importlib.util.find_spec("pip"), "this Python has no pip")
class Installed(unittest.TestCase):
    def tearDown(self):
        left = [path.name for path in PACKAGE.iterdir() if path.suffix == ".egg-info" or path.name == "build"]
        self.assertEqual(left, [])

    def runs(self, script, path):
        """The command that was installed."""
        env = {**os.environ, "PYTHONPATH": str(path)}
        for words, told in ((["--version"], f"satmegwo {satmegwo.__version__}, library {satmegwo.version()}\n"), (["--help"], "usage: satmegwo ")):
            done = subprocess.run([str(script), *words], capture_output=True, text=True, env=env)
            self.assertEqual(done.stdout[: len(told)], told, done.stderr)

    def test_pip(self):
        with tempfile.TemporaryDirectory() as folder:
            pip("--target", folder, PACKAGE)
            place = pathlib.Path(folder, "satmegwo", "libsatmegwo.so")
            self.assertEqual(place.read_bytes(), (ROOT / "target" / "lib" / "libsatmegwo.so").read_bytes())
            told = "import satmegwo; print(satmegwo.library.place(), satmegwo.Box([3, 1, 4, 0, 2, 5, 6, 7], 3, 3).nonlinearity().figure)"
            done = python(told, cwd=folder)
            self.assertEqual(done.stdout, f"{place.resolve()} 0\n", done.stderr)
            self.runs(pathlib.Path(folder, "bin", "satmegwo"), folder)
            for shared, stored in (
                ("share/man/man1/satmegwo.1", ROOT / "docs" / "man" / "satmegwo.1"),
                ("share/bash-completion/completions/satmegwo", PACKAGE / "completion.bash"),
            ):
                self.assertEqual(pathlib.Path(folder, shared).read_bytes(), stored.read_bytes())
            self.describes(folder)

    def describes(self, folder):
        """What pip shows of the package."""
        (info,) = pathlib.Path(folder).glob("*.dist-info")
        told = email.message_from_bytes((info / "METADATA").read_bytes())
        self.assertEqual((told["Name"], told["Version"], told["License"]), ("satmegwo", satmegwo.__version__, "MIT"))
        self.assertIn("S-boxes", told["Summary"])
        self.assertEqual(told["Description-Content-Type"], "text/markdown")
        self.assertEqual(told.get_payload(decode=True).decode(), (PACKAGE / "README.md").read_text(encoding="utf-8"))
        self.assertEqual((info / "LICENSE").read_bytes(), (ROOT / "LICENSE").read_bytes())

    def test_editable(self):
        with tempfile.TemporaryDirectory() as folder:
            pip("--prefix", folder, "--editable", PACKAGE)
            (named,) = pathlib.Path(folder).glob("lib/*/site-packages/satmegwo.pth")
            done = python(f"import site; site.addsitedir({str(named.parent)!r}); import satmegwo; print(satmegwo.__file__, satmegwo.library.place())")
            told = f"{PACKAGE / 'satmegwo' / '__init__.py'} {ROOT / 'target' / 'lib' / 'libsatmegwo.so'}\n"
            self.assertEqual(done.stdout, told, done.stderr)
            self.runs(pathlib.Path(folder, "bin", "satmegwo"), PACKAGE)


class Licence(unittest.TestCase):
    def test_it_is_the_same_everywhere(self):
        text = (ROOT / "LICENSE").read_text()
        self.assertTrue(text.startswith("MIT License\n\nCopyright (c) The Satmegwo authors\n"))
        for file in (PACKAGE / "pyproject.toml", ROOT / "rust" / "Cargo.toml"):
            self.assertIn('\nlicense = "MIT"\n', file.read_text())


class Hints(unittest.TestCase):
    def test_every_public_name_has_hints(self):
        for module in MODULES:
            for name, thing in vars(module).items():
                if inspect.isfunction(thing) and thing.__module__ == module.__name__:
                    self.hinted(thing)
                if inspect.isclass(thing) and thing.__module__ == module.__name__:
                    for part in vars(thing).values():
                        part = getattr(part, "__func__", part)
                        part = part.fget if isinstance(part, property) else part
                        if inspect.isfunction(part) and part.__module__ == module.__name__:
                            self.hinted(part)

    def hinted(self, function):
        signature = inspect.signature(function)
        self.assertIsNot(signature.return_annotation, inspect.Signature.empty, function.__qualname__)
        for name, parameter in signature.parameters.items():
            if name not in ("self", "cls"):
                self.assertIsNot(parameter.annotation, inspect.Parameter.empty, f"{function.__qualname__}: {name}")

    def test_all_names_are_there(self):
        for name in satmegwo.__all__:
            self.assertTrue(hasattr(satmegwo, name), name)


class Examples(unittest.TestCase):
    def test_readme(self):
        for told in (
            doctest.testfile(str(PACKAGE / "README.md"), module_relative=False, optionflags=doctest.ELLIPSIS),
            doctest.testmod(satmegwo, optionflags=doctest.ELLIPSIS),
        ):
            self.assertEqual(told.failed, 0)
            self.assertGreater(told.attempted, 2)
