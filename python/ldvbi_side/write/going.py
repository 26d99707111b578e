"""How far fields of a capture go on as those of the disc do, by their frames and the colour's phase."""

from .sources import Source, straightened


class Going:
    """A capture whose fields are followed from one on, forwards or backwards. Fields of a swapped pair count as if they
    stood right. Lead-in, lead-out and padding end it."""

    def __init__(self, source: Source) -> None:
        self._source, self._pairs = source, straightened(source.answer)
        self._ends = {field for one in source.answer.lead_in + source.answer.lead_out
                      for field in range(one.first, one.last + 1)}
        self._pad = source.facts.pad
        self._fields = source.answer.fields

    def count(self, field: int, step: int, most: int) -> int:
        """How many fields go on after this one (step 1), or precede it (-1), at most so many."""
        count = 0
        while count < most:
            here, there = field + count * step, field + (count + 1) * step
            if self.is_end(there):
                break
            one, other = self._pairs.get(here, here), self._pairs.get(there, there)
            if self._pad and self._pad[other - 1]:
                break
            if not self._source.goes_on(*((one, other) if step > 0 else (other, one))):
                break
            count += 1
        return count

    def takes_turns(self, field: int, count: int) -> bool:
        """Whether first and second fields take turns in so many fields from this one on."""
        first = self._source.facts.first
        turns = [first[self._pairs.get(one, one) - 1] for one in range(field, field + count)] if first else []
        return all(one != other for one, other in zip(turns, turns[1:]))

    def is_end(self, field: int) -> bool:
        """Whether lead-in or lead-out stands in a field, or the capture has none there."""
        return field in self._ends or not 1 <= field <= self._fields

    def is_pad(self, field: int) -> bool:
        """Whether a field of the capture is padding."""
        return self._pad is not None and self._pad[field - 1]

    def is_marked(self, field: int) -> bool:
        """Whether lead-in or lead-out stands in a field."""
        return field in self._ends
