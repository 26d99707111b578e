"""What numbers count, how far apart on the disc two of them are, in fields, and what it costs if a capture has more or
fewer. Numbers that are equal modulo a pace's `period` are placed in the same way."""

import functools
from typing import Any, Callable, NamedTuple, Optional, Union

RATES = {"NTSC": 30, "PAL": 25}  # numbers of a second
# Fields of a minute: at least, in the middle, at most. NTSC has 59.94 in a second, and its clock isn't exact.
MINUTE_FIELDS = {"NTSC": (3590, 3596, 3600), "PAL": (3000, 3000, 3000)}


class Unit(NamedTuple):
    """What numbers count: `picture`, `time` (pictures from the disc's start) or `minute`; None if there are none."""
    name: Optional[str]
    rate: int

    def text_of(self, number: int) -> Any:
        """A number as the answer has it: a picture as it is, a time as text."""
        if self.name == "time":
            seconds, picture = divmod(number, self.rate)
            return _second_text(seconds) + _PICTURES[picture]
        return minute_text(number) if self.name == "minute" else number


_PICTURES = ["%02d" % picture for picture in range(max(RATES.values()))]


@functools.lru_cache(maxsize=1 << 10)  # the pictures of a second come one after the other
def _second_text(seconds):
    """Seconds from the disc's start as hours, minutes and seconds, and a point."""
    return "%d:%02d:%02d." % (seconds // 3600, seconds // 60 % 60, seconds % 60)


@functools.lru_cache(maxsize=1 << 10)
def minute_text(minutes: int) -> str:
    """Minutes from the disc's start as hours and minutes."""
    return "%d:%02d" % divmod(minutes, 60)


def price(off: Optional[int]) -> int:
    """The cost of a break: 1 and the binary digits of the count of fields that are too many or too few, or nothing."""
    return 1 + abs(off).bit_length() if off else 0


class Pace:
    """The pace of pictures and times. What isn't known of a reading is its variant, from 0 on. On a video disc there is
    one, since a picture has two fields. If both fields of a picture have its number ("both"), the variant is the field
    that was read. On film, whose pictures have 2 and 3 fields in turn, it says which pictures have 3: those with an odd
    number (0), those with an even one (1), or none (2), as in a stretch of video. That changes only at a cut of the
    film, which is a break of one field."""

    def __init__(self, kind: str) -> None:
        self.kind = kind
        self.variants = {"video": 1, "both": 2, "film": 3}[kind]
        self.period = 2 if kind == "film" else 1
        self.change = price(1) if kind == "film" else 0
        self.least = 2 if kind == "both" else 1  # fields with which a number can be lost
        self.steps = (0,) if kind == "video" else (0, -1, 1)  # from a row to those that go on with it

    def row(self, field: int, number: int) -> int:
        """The row of a number: one that goes on with it is in the same row, or a step away."""
        return 2 * field - 5 * number if self.kind == "film" else field - 2 * number

    def between(self, number: int, step: int, variant: int, other: int) -> int:
        """The fields on the disc from a reading of this number and variant to the one `step` numbers on."""
        if self.kind == "film" and other < 2:
            return (5 * (number + step) + other) // 2 - (5 * number + other) // 2
        return 2 * step + (other - variant if self.kind == "both" else 0)

    def off(self, fields: int, number: int, step: int, variant: int, other: int) -> Optional[int]:
        """How many fields are too many (or, negative, too few); 0 if they fit; None if the number stays."""
        if step == 0:
            return 0 if self.kind == "both" and fields == other - variant else None
        return fields - self.between(number, step, variant, other)

    def least_off(self, fields: int, number: int, step: int) -> int:
        """How many fields are too many or too few at least, whatever the variants are, if the number doesn't stay."""
        off = abs(fields - 2 * step)
        if self.kind == "film":
            return min(off, abs(2 * fields - 5 * step) // 2)
        return max(off - 1, 0) if self.kind == "both" else off

    def numbers_in(self, fields: int) -> int:
        """How many numbers this many fields have at least, one after the other."""
        return (2 * fields + 1) // 5 if self.kind == "film" else fields // 2


class _LongPace:
    """A pace of numbers that stay for many fields. Its members are as those of `Pace`."""
    steps, variants = (0, -1), 1
    off: Callable[..., int]

    def row(self, field: int, number: int) -> int:
        return number

    def least_off(self, fields: int, number: int, step: int) -> int:
        return self.off(fields, number, step)


class MinutePace(_LongPace):
    """The pace of minutes, each of which stands on all its fields. A minute has about `fields` of them, at least
    `shortest` and at most `longest`."""
    kind, least = "minute", 1

    def __init__(self, system: str) -> None:
        self.shortest, self.fields, self.longest = MINUTE_FIELDS[system]

    def off(self, fields: int, number: int, step: int, *variants: int) -> int:
        return fields - step * self.fields if self.least_wrong(fields, step) else 0

    def numbers_in(self, fields: int) -> int:
        """How many minutes this many fields have at least, one after the other."""
        return fields // self.fields

    def least_wrong(self, fields: int, step: int) -> int:
        """At least how many fields are too many (or, negative, too few), for two fields with minutes this far apart."""
        few, many = (step - 1) * self.shortest + 1, (step + 1) * self.longest - 1
        return min(fields - few, 0) or max(fields - many, 0)


class ChapterPace(_LongPace):
    """The pace of chapters, which have any length. The next chapter is no break. Each one that is passed over counts as
    a picture would. Going back counts as all 80 would, since that can't be without a break of the pictures' numbers.
    One chapter that is passed over in many fields may have been there without being read. A number here is `BREAK`
    times the count of breaks up to its field, plus the chapter: at a break any may follow, for the least price."""
    BREAK = 100
    ALL = 80  # chapters, 0 to 79
    MANY = 18  # fields

    def off(self, fields: int, number: int, step: int, *variants: int) -> int:
        (breaks, chapter), (others, after) = divmod(number, self.BREAK), divmod(number + step, self.BREAK)
        chapters = after - chapter
        if chapters in (0, 1) or chapters == 2 and fields >= self.MANY:
            return 0
        if breaks != others:
            return 1
        return 2 * (chapters - 1) if chapters > 0 else 2 * self.ALL


AnyPace = Union[Pace, MinutePace, ChapterPace]
