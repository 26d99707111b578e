"""Reads JSON texts of any length in pieces. It holds no more of a text than one value, or a few short ones, which
Python's json reads, and the piece after that."""

import json
import math
import re
from typing import Any, Iterator, List, Optional, TextIO

PIECE = 1 << 18  # characters
LONGEST = 1 << 28  # the characters of a value
MOST = LONGEST  # those of a text; the program takes no longer metadata
DEEPEST = 127  # lists and objects, one in the other; the program takes no deeper ones

_SPACE = re.compile(r"[ \t\n\r]*")
# Several items of a list, up to one that is an object and comes before another; more characters aren't read together
_SEVERAL = re.compile(r"(.*\}),[ \t\n\r]*(?=\{)", re.DOTALL)
_TOGETHER = 1 << 12
# What may look wrong only because it ends with what has been read: at most an escape of two parts, \ud834\udd1e
_CUT = 12


def _float(text):
    number = float(text)
    if math.isinf(number):
        raise ValueError("%s is too large" % text)
    return number


def _constant(name):
    raise ValueError("%s is no number" % name)


_DECODER = json.JSONDecoder(parse_float=_float, parse_constant=_constant)


class NotJson(ValueError):
    """A text that isn't JSON, or has a value that is too long or nested too deep."""


class Scanner:
    """A JSON text, read from its beginning on. If an object or a list comes next, `members` or `items` goes through it,
    and `value` goes past each of its values in turn. `begin` is then the place of this value in the whole text, and
    `text` is the value's own text. If the text turns out not to be JSON, a `NotJson` is raised.

    The file is a text file that was opened with newline="", so that places are those of its characters."""
    begin: int
    text: str

    def __init__(self, file: TextIO, piece: int = PIECE) -> None:
        self._file, self._piece = file, piece
        self._held = ""  # what has been read, from some place before the next value on
        self._before = self._at = 0  # how many characters there were before that; what comes next, a place in it
        self._depth = 0  # of lists and objects, inside of which that is

    def comes(self, mark: str) -> bool:
        """Whether this character comes next, after white space."""
        return self._next() == mark

    def members(self) -> Iterator[str]:
        """Goes through an object: yields the name of each member when its value comes next."""
        for _ in self._parts("{", "}"):
            if not self.comes('"'):
                raise self._fault("a name")
            name = self._scanned(":")
            self._at += 1
            yield name

    def items(self) -> Iterator[None]:
        """Goes through a list: yields when each of its values comes next."""
        return self._parts("[", "]")

    def value(self) -> Any:
        """Goes past the value of a member or an item, and returns it."""
        self._next()
        return self._scanned(",]}")

    def values(self) -> Iterator[List[Any]]:
        """Goes through a list, and yields its values, some at a time. Short objects are read together, in two thirds of
        the time. Their places and texts aren't kept."""
        for _ in self.items():
            yield self._several()
            yield [self.value()]

    def _several(self) -> List[Any]:
        """Goes past items that come next, and past a comma after each. They are the answer: none if the last of
        what may be an item is part of another, or if one might be nested too deep."""
        found = _SEVERAL.match(self._held, self._at, self._at + _TOGETHER)
        if not found:
            return []
        try:
            values: List[Any] = _DECODER.decode("[%s]" % found[1])
        except (RecursionError, ValueError):
            return []
        if self._is_deep(found.end(1), values):  # the list is counted twice, which does no harm
            return []
        self._at = found.end()
        return values

    def end(self) -> None:
        """Checks that nothing but white space comes after the text's one value."""
        if self._next():
            raise self._fault("the end")

    def _parts(self, begin: str, end: str) -> Iterator[None]:
        """Goes past these two marks, and past the commas between them; yields where a part comes next."""
        self._past(begin)
        self._depth += 1
        if not self.comes(end):
            yield
            while self.comes(","):
                self._at += 1
                yield
        self._past(end)
        self._depth -= 1

    def _past(self, mark: str) -> None:
        if not self.comes(mark):
            raise self._fault(mark)
        self._at += 1

    def _next(self) -> str:
        """Goes past white space. The answer is the character that comes next, or nothing at the end of the text."""
        while True:
            self._at = _past_space(self._held, self._at)
            if self._at < len(self._held) or not self._more():
                return self._held[self._at:self._at + 1]

    def _scanned(self, ends: str) -> Any:
        """Goes past a value, and past the white space after it, where one of these characters has to come: else a
        number might go on there."""
        while True:
            try:
                value, end = _DECODER.raw_decode(self._held, self._at)
            except json.JSONDecodeError as error:
                may_go_on, wrong, wanted = error.msg.startswith("Unterminated"), error.pos, "a value"
            except (RecursionError, ValueError):
                raise self._beyond() from None
            else:
                may_go_on, wrong = False, _past_space(self._held, end)
                wanted = "a colon" if ends == ":" else "a comma or an end"
                if self._held[wrong:wrong + 1] and self._held[wrong] in ends:
                    if self._is_deep(end, value):
                        raise self._beyond()
                    self.begin, self.text, self._at = self._before + self._at, self._held[self._at:end], wrong
                    return value
            fault = self._fault(wanted, wrong)
            if not (may_go_on or wrong + _CUT > len(self._held)) or not self._more():
                raise fault

    def _more(self) -> bool:
        """Reads more: as much again as there is, so that a long value isn't begun too often. False at the end."""
        if len(self._held) - self._at > LONGEST:
            raise NotJson("too long: what begins at character %d" % (self._before + self._at))
        if self._before + self._at > MOST:
            raise NotJson("too long")
        try:
            read = self._file.read(max(self._piece, len(self._held) - self._at))
        except UnicodeDecodeError:
            raise NotJson("not UTF-8") from None
        self._held = self._held[self._at:] + read
        self._before += self._at
        self._at = 0
        return bool(read)

    def _is_deep(self, end: int, value: Any) -> bool:
        """Whether the value that ends there is nested too deep; few have so many marks at all."""
        marks = self._held.count("[", self._at, end) + self._held.count("{", self._at, end)
        return self._depth + marks > DEEPEST and self._depth + _depth_of(value) > DEEPEST

    def _beyond(self) -> NotJson:
        return NotJson("nested too deep, or with too large a number, at character %d" % (self._before + self._at))

    def _fault(self, wanted: str, place: Optional[int] = None) -> NotJson:
        return NotJson("not JSON at character %d, where %s has to stand" % (
            self._before + (self._at if place is None else place), wanted))


def _past_space(text: str, at: int) -> int:
    match = _SPACE.match(text, at)
    assert match is not None
    return match.end()


def _depth_of(value: Any) -> int:
    """How many lists and objects of a value are in each other."""
    depth, level = 0, [value]
    while True:
        level = [one for one in level if isinstance(one, (dict, list))]
        if not level:
            return depth
        depth += 1
        level = [inner for one in level for inner in (one.values() if isinstance(one, dict) else one)]
