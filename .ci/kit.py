"""The crates of crates.txt, and the words by which the kit's compiler is called on one of them over the libraries that stand in crates/*/out."""
import pathlib
import re
import shutil
import subprocess

PARTS = ("src", "specs", "proofs")  # what a check of a crate reads


class Crate:
    def __init__(self, root, name, kind, libraries):
        self.name, self.is_static, self.folder = name, "staticlib" in kind, root / "crates" / name
        self.libraries = libraries  # those that its line names; of the repository or of the kit
        self.below = []  # all of the repository that it is made of, the lowest first

    @property
    def rlib(self):
        return self.folder / "out" / "rlib" / f"{self.name}.rlib"

    @property
    def is_program(self):
        return (self.folder / "src" / "main.rt").is_file()


def crates(root):
    """The crates of crates.txt by their names, each after those that it is made of."""
    root = pathlib.Path(root).resolve()  # the kit is called in a crate's folder, and in that of a copy
    lines = re.findall(r"^(\w+)([^:\n]*):([^#\n]*)", (root / "crates.txt").read_text(encoding="utf-8"), re.M)
    listed = {name: Crate(root, name, kind.split(), libraries.split()) for name, kind, libraries in lines}
    found = {}

    def place(crate):
        if crate.name not in found:
            for other in (listed[name] for name in crate.libraries if name in listed):
                place(other)
                crate.below += [it for it in (*other.below, other) if it not in crate.below]
            found[crate.name] = crate

    for crate in listed.values():
        place(crate)
    return found


def folder():
    """The folder of the kit: the command `rt` lies in its bin/."""
    return pathlib.Path(shutil.which("rt") or "rt").resolve().parent.parent


def version():
    return subprocess.run(["rt", "version"], stdout=subprocess.PIPE, text=True, check=True).stdout.strip()


def words(crate, verb, *more):
    """The command that checks or builds a crate, to be called in its folder or in that of a copy."""
    kit, own = folder(), {it.name: it for it in crate.below}
    found = [kit / "bin/rattle", verb, "--crate-name", crate.name, f"src/{'main' if crate.is_program else 'lib'}.rt"]
    for name in dict.fromkeys(["std", *crate.libraries]):
        found += ["--extern", f"{name}={own[name].rlib if name in own else kit / f'rlibs/{name}.rlib'}"]
    for place in [kit / "rlibs", *(it.rlib.parent for it in crate.below)]:
        found += ["-L", f"dependency={place}"]
    found += ["--antt-project", kit / "rattle/logic/antt-project.json", "--logic-built", kit / "logic_built", "--links", f"{crate.name}="]
    found += ["--crate-type", "staticlib"] if crate.is_static else []
    return [str(word) for word in (*found, *more)]
