"""The fields of a side along a drawing, shared by bands, curve and lanes, and the forms that a drawing has."""

from typing import NamedTuple, Tuple


class Form(NamedTuple):
    """How wide a drawing is, in pixels: the axis, and what is left and right of it. Further where a text stands that
    goes up, about how many labels have room along the axis, and how large letters are."""
    left: int
    width: int
    right: int
    upright: int
    labels: int
    letters: int

    def whole(self) -> int:
        """The width of the whole drawing."""
        return self.left + self.width + self.right


BROAD, NARROW = Form(150, 960, 30, 36, 10, 13), Form(124, 242, 22, 12, 4, 11)


class Axis:
    """The fields of a side from left to right. `step` fields share a column of pixels. If these are more than one, they
    are whole pairs, since one of each two fields usually lacks a number."""

    def __init__(self, count: int, form: Form = BROAD) -> None:
        self.form, self.left, self.width = form, form.left, form.width
        self.count = max(count, 1)
        fields = -(-self.count // self.width)
        self.step = fields if fields == 1 else 2 * -(-fields // 2)

    def x(self, field: float) -> float:
        """Where a field begins. The field after the last is the end."""
        return self.left + self.width * (field - 1) / self.count

    def pixel(self, field: int) -> int:
        """The same as a whole pixel, so that nothing shows between two columns."""
        return round(self.x(field))

    def extent(self, first: int, last: int) -> Tuple[int, int]:
        """The pixels of fields, at least two. What is beyond the axis is at its end."""
        end = self.left + self.width
        begin = min(max(self.pixel(first), self.left), end - 2)
        return begin, min(max(self.pixel(last + 1), begin + 2), end)
