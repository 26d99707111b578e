"""What of a capture may show which disc's side it is of, in short: what it says beside stretches of its numbers, users'
codes, and where its numbers begin and end. The head of its page has that, so that an index can compare sides."""

from typing import Any, Dict, Iterable, List, NamedTuple, Optional, Tuple

from ..judge.paces import RATES, Unit

CHAPTER, STATUS = "chapter", "programme status"  # what may stand beside a number
MOST = 2000  # stretches that the head of a page may have; a capture with more of them is too worn to show anything
BEYOND = 1 << 21  # all numbers of discs
Span = Tuple[int, int]


class Said(NamedTuple):
    """Consecutive numbers beside which a capture says the same."""
    first: int
    last: int
    value: Any


class Marks(NamedTuple):
    """What a capture under its name may show of its disc. `said` has, for CHAPTER and STATUS, what is beside which
    numbers. `lasting` are the numbers that last three fields if it is film, else those that last two. `begins` and
    `ends` are the numbers of which one comes first after its lead-in, or last before its lead-out, from the least to
    the greatest; None if it shows none."""
    name: str
    system: str
    unit: Optional[str]
    pace: Optional[str]
    said: Dict[str, List[Said]]
    lasting: List[range]
    users: List[Tuple[int, str]]
    begins: Optional[Span]
    ends: Optional[Span]

    def kind(self) -> Tuple[Optional[str], str]:
        """What its numbers count, and its system."""
        return self.unit, self.system

    def text_of(self, number: int) -> Any:
        """A number as the answer has it."""
        return Unit(self.unit, RATES[self.system]).text_of(number)


def said_beside(pairs: Iterable[Tuple[int, Any]]) -> List[Said]:
    """Ascending numbers, each with what is said beside it, as stretches."""
    found: List[List[Any]] = []
    end: Tuple[Any, Any] = (None, None)  # the pair with which the last stretch goes on
    for number, value in pairs:
        if (number, value) == end:
            found[-1][1] = number
        else:
            found.append([number, number, value])
        end = number + 1, value
    return [Said(*one) for one in found]


def ranges_of(numbers: Iterable[int]) -> List[range]:
    """Ascending numbers as ranges: those of film that last three fields are every other one."""
    found: List[List[int]] = []  # of each its first number, its last one, and its step, 0 for a single number
    for number in numbers:
        if found and found[-1][2] in (0, number - found[-1][1]):
            found[-1][1:] = number, number - found[-1][1]
        else:
            found.append([number, number, 0])
    return [range(first, last + 1, step or 1) for first, last, step in found]


# ---- As plain data, in the head of a page

def plain_marks(marks: Optional[Marks]) -> Optional[Dict[str, Any]]:
    """The plain data of marks, but for what their page says besides; None if there are too many of them."""
    if marks is None or len(marks.lasting) + sum(map(len, marks.said.values())) > MOST:
        return None
    return {"pace": marks.pace, "said": {kind: [list(one) for one in ones] for kind, ones in marks.said.items()},
            "lasting": [[one.start, one.stop, one.step] for one in marks.lasting],
            "users": [list(one) for one in marks.users], "begins": marks.begins, "ends": marks.ends}


def marks_in(said: Dict[str, Any], name: str) -> Optional[Marks]:
    """The marks of the side under this name of which a page says this; None if it has none. A KeyError, a TypeError or
    a ValueError if that isn't their plain data."""
    plain = said["marks"]
    if plain is None:
        return None
    beside = {kind: [Said(first, last, value) for first, last, value in plain["said"][kind]]
              for kind in (CHAPTER, STATUS)}
    users = [(digit, digits) for digit, digits in plain["users"]]
    begins, ends = (None if span is None else _span_of(*span) for span in (plain["begins"], plain["ends"]))
    numbers = [number for ones in (*beside.values(), plain["lasting"]) for one in ones for number in one[:2]]
    values = [*numbers, *(one.value for one in beside[CHAPTER]), *(begins or ()), *(ends or ())]
    texts = [*(one.value for one in beside[STATUS]), *(digits for _, digits in users)]
    if not (all(type(one) is int and abs(one) < BEYOND for one in [*values, *(digit for digit, _ in users)])
            and all(isinstance(one, str) for one in texts)):
        raise TypeError
    return Marks(name, said["system"], said["unit"], plain["pace"], beside,
                 [range(*one) for one in plain["lasting"]], users, begins, ends)


def _span_of(first: Any, last: Any) -> Tuple[Any, Any]:
    return first, last
