"""How a file is written: in full, or not at all."""
from __future__ import annotations

import os
import shutil


def replace(path: str, data: bytes) -> None:
    """Writes a file in full, or leaves what stands there as it is: the data go to a new file beside it, which then takes its place."""
    new = os.path.join(os.path.dirname(path), f".satmegwo-{os.urandom(8).hex()}")
    there = os.path.exists(path)
    if there:
        open(path, "r+b").close()  # a file that must not be written is not replaced either
    try:
        with open(new, "xb") as file:
            file.write(data)
            file.flush()
            os.fsync(file.fileno())
        if there:
            shutil.copymode(path, new)
        os.replace(new, path)
    except BaseException:
        if os.path.exists(new):
            os.remove(new)
        raise
