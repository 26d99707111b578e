"""A capture from which fields are taken, with what its metadata says of each field."""

from typing import Dict, NamedTuple

from ..answer.entries import Answer
from ..join.captures import Capture, Facts

PHASES = {"NTSC": 4, "PAL": 8}  # fields after which the colour's phase is the same again


class Source(NamedTuple):
    """A capture with the facts of its fields."""
    capture: Capture
    facts: Facts = Facts()

    @property
    def answer(self) -> Answer:
        return self.capture.answer

    def period(self) -> int:
        """After how many fields one looks the same again, by its frame and its colour."""
        return PHASES[self.answer.system] if self.facts.phase else 2 if self.facts.first else 1

    def goes_on(self, field: int, other: int) -> bool:
        """Whether a field may be followed by another one on the disc, by its frame and its colour."""
        first, phase = self.facts.first, self.facts.phase
        return (not first or first[field - 1] != first[other - 1]) and (
            not phase or 0 in (phase[field - 1], phase[other - 1])
            or (phase[other - 1] - phase[field - 1]) % PHASES[self.answer.system] == 1)


def straightened(answer: Answer) -> Dict[int, int]:
    """Of each field of a swapped pair the other one."""
    pairs: Dict[int, int] = {}
    for one in answer.swapped:
        pairs[one.field], pairs[one.field + 1] = one.field + 1, one.field
    return pairs
