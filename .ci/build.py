#!/usr/bin/env python3
"""Proves and builds what is made of a crate of the repository: the archive of a static library, or a program.

`rt` does it, in the crate's folder: `rt lib`, or `rt run`, which ends by running the program, here on an empty input. It proves what was changed
since it was last called, and finds what it has to build again by itself.

The gate sets AFTER_CI where `rt ci` has just proved this checkout from nothing and its folders `out/` hold what that run made, and nothing else. `rt`
itself would then prove every library once more, since it takes for its own uses only what it built for them. So the program is taken as `rt ci` built it,
and an archive is built by the kit's compiler over the libraries as `rt ci` left them; the compiler proves the static library itself in that
call. Where that does not do, `rt` does it as ever.

usage: build.py CRATE FILE      (at the root; FILE is written anew)
"""
import os
import pathlib
import shutil
import subprocess
import sys

import kit


def made_of(crate):
    """Where the kit leaves what it made of a crate."""
    return crate.folder / "out" / (f"lib{crate.name}.a" if crate.is_static else crate.name)


def is_left_by_ci(crate):
    """Whether the libraries below a crate are those of the gate's own run: what `rt` builds for other uses has a stamp."""
    return all(it.rlib.is_dir() and not (it.rlib.parent / "stamp").exists() for it in crate.below)


def build_after_ci(crate):
    """Takes what `rt ci` made, or builds an archive over it; gives whether it is there."""
    if not is_left_by_ci(crate):
        return False
    if crate.is_static:
        made_of(crate).parent.mkdir(exist_ok=True)
        toolchain = ["--toolchain", kit.folder() / "toolchain", "--backend", "llvm"]
        called = kit.words(crate, "build", "--jobs", "2", *toolchain, "-o", made_of(crate))
        return subprocess.run(called, cwd=crate.folder, stdin=subprocess.DEVNULL).returncode == 0
    return made_of(crate).is_file() and not made_of(crate).with_suffix(".stamp").exists()


def build_by_rt(crate):
    """Proves and builds a crate by `rt`."""
    quiet = {} if crate.is_static else {"stdout": subprocess.DEVNULL}
    called = ["rt", "lib" if crate.is_static else "run"]
    return subprocess.run(called, cwd=crate.folder, stdin=subprocess.DEVNULL, **quiet).returncode == 0


def main():
    if len(sys.argv) != 3:
        sys.exit("usage: build.py CRATE FILE")
    crate, file = kit.crates(".")[sys.argv[1]], pathlib.Path(sys.argv[2])
    if not (os.environ.get("AFTER_CI") and build_after_ci(crate)) and not build_by_rt(crate):
        sys.exit(f"{crate.name} was not built")
    file.parent.mkdir(parents=True, exist_ok=True)
    new = file.with_name(file.name + ".new")
    shutil.copy(made_of(crate), new)
    new.replace(file)


if __name__ == "__main__":
    main()
