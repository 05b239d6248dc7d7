"""What an answer rests on."""
from __future__ import annotations

import enum


class Ground(str, enum.Enum):
    """The ground of a line, a column or an answer. Its value is the word that each face prints."""

    PROVED = "proved"  # the program's own figure: no plan is better
    CUTS = "by the cuts"  # follows from the cut that the program prints, and holds of every best plan
    PRINTED = "printed plan"  # of the plan that was printed: another best plan may differ
    OWN = "evacask"  # arithmetic of this package, which nobody has proved

    def __str__(self) -> str:
        return self.value
