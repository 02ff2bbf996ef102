#!/usr/bin/env python3
"""Checks each crate with each of its must-fail edits, and keeps what the prover says: LOGS/CRATE/EDIT/.log, which edits.py reads.

`rt ci` tries the edits too, and its word decides whether they are refused; but it tells the first error alone, and an edit makes several
functions wrong. So the kit's prover is called here once more, on a copy of the crate with the edit made, over the libraries that stand in
crates/*/out. It begins with what a check of the crate as it stands has proved, and so has only the changed functions to prove.

What the prover said is kept on this machine, in the folder of the user's caches, under the sum of all that it was said of: the edit, the sources of the crate
and of those below it, and the kit. What has not changed is not tried again.

usage: tries.py ROOT LOGS [CRATE..]      (with names, the edits of these crates alone)
"""
import concurrent.futures
import contextlib
import hashlib
import os
import pathlib
import shutil
import subprocess
import sys
import tempfile
import time

import kit

PROVED, NOT_PROVED, AT_A_LIMIT = 0, 1, 3  # the prover's status; any other says nothing of the crate
ROOM = "satmegwo-tries"  # how the names of its folders among the temporary files begin
A_CHECK = 3 << 30  # the memory that a check may take, in bytes
UNUSED = 30 * 24 * 3600  # seconds after which what was kept, and not read since, is removed


class Failed(Exception):
    """No log could be made."""


def changed(edit, texts):
    """The files that an edit changes, each with its new text; `texts` gives a file's text."""
    found, file, old = {}, None, None
    for line in edit.split("\n"):
        word, _, rest = line.partition(":")
        rest = rest.removeprefix(" ")
        if word == "file":
            file = rest.strip()
        elif word == "old":
            old = rest
        elif word == "new":
            text = found.get(file) or texts(file)
            if not old or text.count(old) != 1:
                raise Failed(f"a text to be changed does not stand in {file} once")
            found[file] = text.replace(old, rest)
    return found


def files_of(crate):
    return [file for part in kit.PARTS for file in sorted((crate.folder / part).rglob("*")) if file.is_file()]


def sum_of(crate, version, sums):
    """A sum of all that a check of a crate reads."""
    if crate.name not in sums:
        whole = hashlib.sha256(repr((version, crate.name, crate.is_static, crate.libraries)).encode())
        for file in files_of(crate):
            whole.update(repr((file.relative_to(crate.folder).as_posix(), file.read_bytes())).encode())
        whole.update(repr([sum_of(it, version, sums) for it in crate.below]).encode())
        sums[crate.name] = whole.hexdigest()
    return sums[crate.name]


def cache():
    """The folder where logs are kept on this machine."""
    return pathlib.Path(os.environ.get("XDG_CACHE_HOME") or pathlib.Path.home() / ".cache") / "satmegwo" / "must-fail"


def linked(folder, to):
    """Copies what a check kept; a check replaces such a file, and changes none."""

    def copy(one, other):
        if one.endswith(".oantt"):
            with contextlib.suppress(OSError):
                return os.link(one, other)
        return shutil.copy2(one, other)

    shutil.copytree(folder, to, copy_function=copy)


def check(crate, changes, kept):
    """Checks a copy of a crate with these texts in place of its own, over what `kept` holds, and gives the status and what was said."""
    with tempfile.TemporaryDirectory(prefix=f"{ROOM}-{os.getpid()}-") as room:
        for part in kit.PARTS:
            if (crate.folder / part).is_dir():
                shutil.copytree(crate.folder / part, f"{room}/{part}")
        for file, text in changes.items():
            pathlib.Path(room, file).write_text(text, encoding="utf-8")
        called = kit.words(crate, "check", "--jobs", "1", "--incremental", kept)
        ran = subprocess.run(called, cwd=room, stdin=subprocess.DEVNULL, stdout=subprocess.PIPE, stderr=subprocess.STDOUT)
    return ran.returncode, ran.stdout.decode(errors="replace")


def seed(crate, to):
    """Checks a crate as it stands, over what earlier checks left in its out/."""
    left = crate.folder / "out" / "incremental"
    linked(left, to) if left.is_dir() else to.mkdir()
    status, said = check(crate, {}, to)
    if status != PROVED:
        raise Failed(f"{crate.name} is not proved as it stands:\n{said[-2000:]}")


def log(crate, edit, begun, own):
    """What the prover says of a crate with an edit, over what the check of the crate as it stands has kept."""
    changes = changed(edit.read_text(encoding="utf-8"), lambda file: (crate.folder / file).read_text(encoding="utf-8"))
    linked(begun, own)
    try:
        status, said = check(crate, changes, own)
    finally:
        shutil.rmtree(own, ignore_errors=True)
    if status not in (PROVED, NOT_PROVED, AT_A_LIMIT):
        raise Failed(f"the check ended with status {status}:\n{said[-2000:]}")
    return said


def try_all(crate, edits, keep_log):
    """Tries edits of a crate, one after the other, and gives a line for each that has no log."""
    faults = []
    with tempfile.TemporaryDirectory(prefix=f"{ROOM}-{os.getpid()}-") as room:
        begun = pathlib.Path(room, "seed")
        try:
            seed(crate, begun)
        except (Failed, OSError) as fault:
            return [f"{crate.name}: {fault}"]
        for edit in edits:
            try:
                keep_log(edit, log(crate, edit, begun, pathlib.Path(room, edit.stem)))
            except (Failed, OSError) as fault:
                faults.append(f"{crate.name}/{edit.stem}: {fault}")
    return faults


def build_libraries(crates):
    """Has `rt` bring the libraries below these crates up to date, unless they stand as `rt ci` has just left them."""
    built = set()
    for crate in crates:
        for it in crate.below:
            after_ci = os.environ.get("AFTER_CI") and it.rlib.is_dir() and not (it.rlib.parent / "stamp").exists()
            if it.name in built or after_ci:
                continue
            ran = subprocess.run(["rt", "lib"], cwd=it.folder, stdin=subprocess.DEVNULL, stdout=subprocess.PIPE, stderr=subprocess.STDOUT, text=True)
            if ran.returncode:
                raise Failed(f"{it.name} is not proved:\n{ran.stdout[-2000:]}")
            built |= {it.name, *(other.name for other in it.below)}


def at_once():
    """How many checks may run side by side: RT_JOBS, as `rt` has it, or one a processor, as many as memory holds."""
    if os.environ.get("RT_JOBS", "").isdigit():
        return int(os.environ["RT_JOBS"])
    free = os.sysconf("SC_AVPHYS_PAGES") * os.sysconf("SC_PAGE_SIZE")
    with contextlib.suppress(OSError, StopIteration):
        with open("/proc/meminfo", encoding="ascii") as told:
            free = next(int(line.split()[1]) << 10 for line in told if line.startswith("MemAvailable:"))
    return max(1, min(len(os.sched_getaffinity(0)), free // A_CHECK))


def keep(file, text):
    """Writes a file at once, so that nobody reads half of it."""
    file.parent.mkdir(parents=True, exist_ok=True)
    with tempfile.NamedTemporaryFile("w", dir=file.parent, delete=False, encoding="utf-8") as new:
        new.write(text)
    os.replace(new.name, file)


def sweep():
    """Removes the folders that runs which were stopped have left among the temporary files."""
    for folder in pathlib.Path(tempfile.gettempdir()).glob(f"{ROOM}-*-*"):
        if not pathlib.Path("/proc", folder.name[len(ROOM) + 1:].partition("-")[0]).exists():
            shutil.rmtree(folder, ignore_errors=True)


def forget(folder):
    """Removes what was kept and not read for long."""
    for file in folder.glob("*"):
        with contextlib.suppress(OSError):
            if time.time() - file.stat().st_mtime > UNUSED:
                file.unlink()


def make(lacking, place, kept_at):
    """Makes the logs that are missing, several crates at a time, and gives a line for each that could not be made."""

    def keep_log(edit, said):
        with contextlib.suppress(OSError):
            keep(kept_at[edit], said)
        keep(place[edit], said)

    # the longest first
    order = sorted(lacking, key=lambda crate: -sum(file.stat().st_size for file in files_of(crate)) * (1 + len(lacking[crate])))
    build_libraries(order)
    with concurrent.futures.ThreadPoolExecutor(at_once()) as pool:
        return [fault for faults in pool.map(lambda crate: try_all(crate, lacking[crate], keep_log), order) for fault in faults]


def main():
    if len(sys.argv) < 3:
        sys.exit("usage: tries.py ROOT LOGS [CRATE..]")
    root, logs, began = pathlib.Path(sys.argv[1]).resolve(), pathlib.Path(sys.argv[2]), time.monotonic()
    sweep()
    version, sums, lacking, place, kept_at = kit.version(), {}, {}, {}, {}
    names = sys.argv[3:] or list(kit.crates(root))
    for crate in (crate for crate in kit.crates(root).values() if crate.name in names):
        shutil.rmtree(logs / crate.name, ignore_errors=True)
        for edit in sorted((crate.folder / "must-fail").glob("*.edit")):
            key = hashlib.sha256(repr((sum_of(crate, version, sums), edit.name, edit.read_bytes())).encode()).hexdigest()
            place[edit], kept_at[edit] = logs / crate.name / edit.stem / ".log", cache() / key
            try:
                text = kept_at[edit].read_text(encoding="utf-8")
                os.utime(kept_at[edit])
                keep(place[edit], text)
            except OSError:
                lacking.setdefault(crate, []).append(edit)
    try:
        faults = make(lacking, place, kept_at) if lacking else []
    except Failed as fault:
        faults = [str(fault)]
    forget(cache())
    for fault in faults:
        print(f"tries: {fault}")
    new = sum(map(len, lacking.values()))
    print(f"{len(place)} must-fail edits: {len(place) - new} stand as they were tried before on this machine, {new} tried in {time.monotonic() - began:.0f} s")
    if faults or not place:
        sys.exit(f"{len(faults)} logs were not made")


if __name__ == "__main__":
    main()
