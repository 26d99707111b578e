"""Which of many sides may be captures of one side of a disc. Nobody says that they are, so it isn't enough that nothing
contradicts: it takes what `join` goes by, and that nothing else they show differs."""

import itertools
import shlex
from typing import Any, Dict, List, NamedTuple, Optional, Sequence

from .marks import Marks
from .others import LEAST, contradiction, kinds_alike, shown_by_marks

TEXT = "may be one disc"


class OneDisc(NamedTuple):
    """Sides that may be captures of one side of a disc: their files, the kinds of codes that show it, and the options
    with which all of them were read."""
    sides: List[str]
    by: List[str]
    options: List[str]

    def text(self) -> str:
        """What is said of them."""
        return "%s (%s)" % (TEXT, ", ".join(self.by))

    def command(self) -> str:
        """The command that joins them."""
        return shlex.join(["ldvbi-side", "join", *self.options, *(["--"] if any(
            side.startswith("-") for side in self.sides) else []), *self.sides])

    def as_json(self) -> Dict[str, Any]:
        """The same as plain data."""
        return {"sides": self.sides, "by": self.by, "join": self.command()}


class Discs:
    """Many sides, put together as they come."""

    def __init__(self) -> None:
        self._groups: List[List[Marks]] = []  # in each the sides stand as they came
        self._options: Dict[str, Sequence[str]] = {}

    def add(self, marks: Optional[Marks], options: Sequence[str] = ()) -> List[str]:
        """Adds a side, which was read with these options. The answer is the names of those sides to which it ties:
        of each group that there was, the first one. A side without marks ties to none."""
        if marks is None:
            return []
        group, tied = [marks], []
        for other in list(self._groups):
            if any(kinds_alike(marks, one) for one in other) and not any(
                    _is_apart(one, two) for one, two in itertools.product(group, other)):
                self._groups.remove(other)
                tied.append(other[0].name)
                group += other
        self._options[marks.name] = options
        self._groups.append(sorted(group, key=self._place))
        return tied

    def found(self) -> List[OneDisc]:
        """Those that may be of one disc, two or more of each."""
        groups = sorted((group for group in self._groups if len(group) > 1), key=lambda group: self._place(group[0]))
        return [OneDisc([one.name for one in group], shown_by_marks(group), self._common_options(group))
                for group in groups]

    def _place(self, marks):
        return list(self._options).index(marks.name)

    def _common_options(self, group):
        first, *others = (self._options[one.name] for one in group)
        return [word for word in first if all(word in other for other in others)]


def _is_apart(one: Marks, other: Marks) -> bool:
    """Whether two sides show that they aren't captures of one side of a disc: `join` refuses them, or each has users'
    codes and no common one, or their first numbers after lead-in, or their last ones before lead-out, differ."""
    return (contradiction(one, other) is not None or bool(one.users and other.users) and not set(
        one.users) & set(other.users) or _is_elsewhere(one, one.begins, other.begins)
        or _is_elsewhere(one, one.ends, other.ends))


def _is_elsewhere(marks, span, other):
    """Whether two sides begin, or end, with other numbers, by more than a player may lose there."""
    most = 0 if marks.unit == "minute" else LEAST
    return bool(span and other) and max(span[0] - other[1], other[0] - span[1]) > most
