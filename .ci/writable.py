#!/usr/bin/env python3
"""Holds the C libraries to have no memory of their own, no variable that outlives a call, set or not; and to ask the C library for no more than C.md says.

A contract speaks of the arguments and the reply of a call. A buffer that a compiled library kept between two calls, or shared between two threads,
would be outside of it; so no object of an archive has data that can be written. And who links an archive without a C library gives it what it asks for:
memcpy and memset, of which the sweeps in parts need the second alone.

usage: writable.py ARCHIVE..      (needs `size` and `nm`)
"""
import pathlib
import re
import subprocess
import sys

ROW = re.compile(r"^\s*(\d+)\s+(\d+)\s+(\d+)\s+\d+\s+[0-9a-f]+\s+(\S.*)$", re.M)


def objects(table):
    """The objects of a table that `size` prints: for each its name, and the bytes of its code, of its data, and of what starts as zeros."""
    return [(name.strip(), int(text), int(data), int(bss)) for text, data, bss, name in ROW.findall(table)]


def faults(table):
    return [f"{name} has {data} bytes of data and {bss} that start as zeros" for name, _, data, bss in objects(table) if data or bss]


# What an archive may ask for, by its name where that is less than the others.
OUTSIDE = {"memcpy", "memset"}
OUTSIDE_OF = {"libsatmegwo_parts.a": {"memset"}}
ASKED = re.compile(r"^\s+[Uw] (\S+)$", re.M)


def not_there(file, table):
    """The names that an archive asks for and may not, of what `nm -u` prints."""
    asked = set(ASKED.findall(table)) - OUTSIDE_OF.get(pathlib.Path(file).name, OUTSIDE)
    return [f"asks for {name}, which is more than C.md says" for name in sorted(asked)]


def main(files):
    if not files:
        sys.exit(__doc__)
    found, count = [], 0
    for file in files:
        table = subprocess.run(["size", file], capture_output=True, text=True, check=True).stdout
        code = [name for name, text, _, _ in objects(table) if text]
        count += len(code)
        names = subprocess.run(["nm", "-u", file], capture_output=True, text=True, check=True).stdout
        found += [f"{file}: {fault}" for fault in faults(table) + not_there(file, names)] + ([] if code else [f"{file}: no code was found"])
    print("\n".join(found + [f"{len(files)} archives with {count} objects: {len(found)} faults (data that can be written, a name from outside, or no code)"]))
    sys.exit(1 if found else 0)


if __name__ == "__main__":
    main(sys.argv[1:])
