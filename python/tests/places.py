"""Where the repository's files lie, and boxes for the tests."""
import pathlib

from satmegwo import Box

PACKAGE = pathlib.Path(__file__).resolve().parents[1]
ROOT = PACKAGE.parent
EXAMPLES = sorted((ROOT / "examples").glob("*.box"))


def example(name: str) -> Box:
    """A box of the examples."""
    return Box.from_file(ROOT / "examples" / f"{name}.box")
