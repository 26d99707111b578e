"""Detours: runs of numbers between two gaps of the library over which the numbers around go on. It says of each whether
the run is inserted (the player left and came back), or replaces what is due there: then its numbers are misread, or two
cuts cancel each other. It sets these aside if the rows of numbers around weigh more on this side, and the run has none
of the numbers that are due in its fields. Words of which the same bits are misread have none; a player that skips a
few pictures, and goes back by as many, shows most."""

from typing import Any, Dict, Iterable, List, NamedTuple, Tuple

from ldvbi import Gap, GapKind, JudgedSide
from .paces import Pace
from .readings import Reading

KINDS = (GapKind.inserted, GapKind.replaced)  # of gaps, in pairs of neighbours


class Detour(NamedTuple):
    """A run of numbers, as counts or as texts, `inserted` or `replaced`, and its fields, up to the number after it."""
    kind: str
    first: int
    last: int
    from_: Any
    to: Any


def detour_of(one: Gap, other: Gap) -> Detour:
    """The detour between two gaps."""
    return Detour(one.kind.name, one.before + 1, other.before, one.to, other.from_)


def pairs_of(gaps: Iterable[Gap]) -> List[Tuple[Gap, Gap]]:
    """The gaps that are detours, in pairs. If a number stays at one of the two, the player stood still."""
    ones = [gap for gap in gaps if gap.kind in KINDS]
    return [(one, other) for one, other in zip(ones[::2], ones[1::2])
            if one.from_ != one.to and other.from_ != other.to]


def set_aside(judged: JudgedSide) -> List[Detour]:
    """The detours whose numbers the library set aside."""
    return [detour_of(one, other) for one, other in pairs_of(judged.gaps) if one.before in judged.aside]


def without_rows(readings: List[Reading], detours: List[Detour], judged: JudgedSide, pace: Pace) -> List[Reading]:
    """These readings without the numbers that the library has in these detours, and those that go on with them."""
    rows: Dict[int, int] = {field: pace.row(one.first, one.from_) for one in detours
                            for field in range(one.first, one.last + 1)}
    return [one for one in readings if one.field not in rows or judged.numbers[one.field - 1].number != one.number and
            rows[one.field] - pace.row(one.field, one.number) not in pace.steps]
