"""The output as it grows: fields of captures, and padding between them."""

from typing import List, Optional, Sequence

from .sources import PHASES, Source, straightened
from .stretches import PADDING, Stretch


class Layout:
    """The stretches of the output so far; `out` is its next field."""

    def __init__(self, sources: Sequence[Source], is_film: bool) -> None:
        self._sources, self._is_film = sources, is_film
        self._pairs = [straightened(source.answer) for source in sources]
        self._phases = PHASES[sources[0].answer.system]
        self.stretches: List[Stretch] = []
        self.out = 1

    def fits(self, source: int, field: int, fields: int) -> bool:
        """Whether a field of a capture can follow what is there, after so many fields of padding: by its frame and its
        colour."""
        last = self._last()
        return last is None or self._follows(last, self.out + fields - last.outs()[-1], source, field)

    def _last(self) -> Optional[Stretch]:
        """The last stretch that is taken from a capture."""
        return next((one for one in reversed(self.stretches) if one.source is not None), None)

    def _follows(self, last: Stretch, apart: int, source: int, field: int) -> bool:
        """Whether a field can come so many fields after the last one of a stretch."""
        assert last.source is not None
        ones, others, other = self._sources[source].facts, self._sources[last.source].facts, last.taken()[-1]
        if ones.first and others.first and (ones.first[field - 1] == others.first[other - 1]) != (apart % 2 == 0):
            return False
        return not (ones.phase and others.phase and ones.phase[field - 1] and others.phase[other - 1] and (
            ones.phase[field - 1] - others.phase[other - 1] - apart) % self._phases)

    def pad(self, fields: int, first: Optional[int], last: Optional[int]) -> None:
        """Adds padding in the place of these numbers."""
        if fields > 0:
            self._add(Stretch(self.out, fields, first, last, None, None, PADDING))

    def take(self, source: int, field: int, fields: int, number: Optional[int], how: str) -> None:
        """Adds fields of a capture that have this number, those of a swapped pair in their right order."""
        for place in range(field, field + fields):  # those that go on become one stretch
            one = self._pairs[source].get(place, place)
            if self._is_film and self.stretches and self.stretches[-1].source is None:
                self._fit_padding(source, one, number)
            self._add(Stretch(self.out, 1, number, number, source, one, how))

    def _fit_padding(self, source, field, number):
        """Makes the padding before a field a field or two longer or shorter, if only so the two go on as on the disc:
        if a picture of film is lost in part, its length is a guess. After two fewer the colour is as after two more. A
        picture has two fields or three, of which those that are lost in part have one at least elsewhere."""
        padding, last = self.stretches[-1], self._last()
        numbers = set(padding.numbers())
        whole = numbers - {number, last and last.last}
        for off in (0, 1, -1, 2):
            fields = padding.fields + off
            if 2 * len(whole) <= fields <= 2 * len(numbers) + len(whole) and self.fits(source, field, off):
                self.out += off
                self.stretches[-1:] = [padding._replace(fields=fields)] * (fields > 0)
                return

    def _add(self, one: Stretch) -> None:
        before = self.stretches[-1] if self.stretches else None
        self.out += one.fields
        if before and _is_one(before, one):
            self.stretches[-1] = before._replace(fields=before.fields + one.fields, last=one.last)
        else:
            self.stretches.append(one)

    def shift(self) -> None:
        """Puts one field of padding before all, which stands for no number."""
        self.stretches = [Stretch(1, 1, None, None, None, None, PADDING),
                          *(one._replace(out=one.out + 1) for one in self.stretches)]
        self.out += 1


def _is_one(before: Stretch, one: Stretch) -> bool:
    """Whether two neighbours are one stretch."""
    if (before.source, before.how, before.first is None) != (one.source, one.how, one.first is None):
        return False
    return before.field is None or before.field + before.fields == one.field
