"""Makes the wheel for `pip install ./python`: the package, and beside it the shared library of the proved archives.

pip builds in an empty environment, for which a backend such as setuptools has to be fetched; this one is here and needs nothing but the
standard library, so that the package can be installed without a network. (https://peps.python.org/pep-0517/ and pep-0660 have what pip asks
for, and https://packaging.python.org/specifications/binary-distribution-format/ what a wheel is.)
"""
import base64
import hashlib
import pathlib
import re
import zipfile

HERE = pathlib.Path(__file__).resolve().parent
LIBRARY = HERE.parent / "target" / "lib" / "libsatmegwo.so"
TAG = "py3-none-linux_x86_64"
# What is put beside the package, below the folder of the environment: the manual page, and the completion of bash.
SHARED = {
    "share/man/man1/satmegwo.1": HERE.parent / "docs" / "man" / "satmegwo.1",
    "share/bash-completion/completions/satmegwo": HERE / "completion.bash",
}


def _table(name):
    """The words of a table of pyproject.toml; each is a text in one line."""
    table = (HERE / "pyproject.toml").read_text(encoding="utf-8").split(f"[{name}]\n")[1].split("\n[")[0]
    return dict(re.findall(r'^([\w-]+) = "([^"]*)"$', table, re.MULTILINE))


def _extras():
    """The lines on what pyproject.toml says is needed for more; each extra is a list in one line."""
    table = (HERE / "pyproject.toml").read_text(encoding="utf-8").split("[project.optional-dependencies]\n")[1].split("\n[")[0]
    for extra, listed in re.findall(r"^([\w-]+) = \[(.*)\]$", table, re.MULTILINE):
        yield f"Provides-Extra: {extra}"
        for needed in re.findall(r'"([^"]+)"', listed):
            yield f'Requires-Dist: {needed}; extra == "{extra}"'


def _package():
    """The files of the package, by their names in the wheel."""
    files = {
        f"satmegwo/{path.name}": path.read_bytes()
        for path in sorted((HERE / "satmegwo").iterdir())
        if path.suffix in (".py", ".typed")
    }
    files["satmegwo/libsatmegwo.so"] = LIBRARY.read_bytes()
    return files


def _metadata(project):
    """What pip shows of the package, and its read-me file."""
    lines = [
        "Metadata-Version: 2.1",
        f"Name: {project['name']}",
        f"Version: {project['version']}",
        f"Summary: {project['description']}",
        f"License: {project['license']}",
        "License-File: LICENSE",
        "Classifier: License :: OSI Approved :: MIT License",
        f"Requires-Python: {project['requires-python']}",
        *_extras(),
        "Description-Content-Type: text/markdown",
    ]
    return "\n".join([*lines, "", (HERE / project["readme"]).read_text(encoding="utf-8")])


def _files(project, is_editable):
    """What the wheel holds, by name. An editable one has the package's place in its stead; the library is then that of target/."""
    if not LIBRARY.exists():
        raise SystemExit(f"{LIBRARY} is missing: `make shared` at the root of the repository makes it")
    files = {"satmegwo.pth": f"{HERE}\n".encode()} if is_editable else _package()
    whole = f"satmegwo-{project['version']}"
    for name, path in SHARED.items():
        files[f"{whole}.data/data/{name}"] = path.read_bytes()
    info = f"{whole}.dist-info"
    scripts = "".join(f"{name} = {place}\n" for name, place in _table("project.scripts").items())
    files[f"{info}/METADATA"] = _metadata(project).encode()
    files[f"{info}/LICENSE"] = (HERE.parent / "LICENSE").read_bytes()
    files[f"{info}/entry_points.txt"] = f"[console_scripts]\n{scripts}".encode()
    files[f"{info}/WHEEL"] = f"Wheel-Version: 1.0\nGenerator: satmegwo\nRoot-Is-Purelib: false\nTag: {TAG}\n".encode()
    files[f"{info}/RECORD"] = _record(files, f"{info}/RECORD")
    return files


def _record(files, own):
    """The list of all files with their hashes and sizes; it has neither of itself."""
    lines = []
    for name, data in files.items():
        digest = base64.urlsafe_b64encode(hashlib.sha256(data).digest()).rstrip(b"=").decode()
        lines.append(f"{name},sha256={digest},{len(data)}\n")
    return "".join(lines + [f"{own},,\n"]).encode()


def _write(wheel_directory, is_editable):
    project = _table("project")
    name = f"{project['name']}-{project['version']}-{TAG}.whl"
    with zipfile.ZipFile(pathlib.Path(wheel_directory, name), "w", zipfile.ZIP_DEFLATED) as wheel:
        for path, data in _files(project, is_editable).items():
            wheel.writestr(zipfile.ZipInfo(path), data)
    return name


def build_wheel(wheel_directory, config_settings=None, metadata_directory=None):
    """What `pip install` calls: writes the wheel, and gives its name."""
    return _write(wheel_directory, False)


def build_editable(wheel_directory, config_settings=None, metadata_directory=None):
    """What `pip install --editable` calls: a wheel that names the package where it lies."""
    return _write(wheel_directory, True)
