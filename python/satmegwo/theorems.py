"""The theorems that the sentences of explanations and pages name; a test looks for each of them in crates/*/proofs."""
from __future__ import annotations

from typing import NamedTuple


class Theorem(NamedTuple):
    """A theorem, and the field of its statement that carries the sentence; a theorem that is one statement has no field."""

    name: str
    field: str = ""

    def __str__(self) -> str:
        return self.name + (f", field {self.field}" if self.field else "")


# Nothing is nearer, larger or lower than the figure that is reported: in crates/claims/proofs.
BOUNDS = {
    "nonlinearity": Theorem("nonlinearity_reported", "least"),
    "xor": Theorem("xor_reported", "largest"),
    "autocorrelation": Theorem("autocorrelation_reported", "largest"),
    "distance": Theorem("distance_reported", "largest"),
    "degree": Theorem("degree_reported", "least"),
}
# With a larger limit the figure falls, or rises: in the crates of the figures.
LIMITS = {
    "nonlinearity": Theorem("nonlinearity_falls"),
    "autocorrelation": Theorem("autocorrelation_rises"),
    "distance": Theorem("distance_rises"),
    "degree": Theorem("degree_falls"),
}
