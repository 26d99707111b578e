"""How far a run over the fields of a TBC file is, or over many sides. It is shown on standard error if that is a
terminal."""

import contextlib
import sys
import time
from typing import Callable, Iterable, Iterator, List, Optional, Sequence, TypeVar

PAUSE = 0.2  # seconds between two messages
Item = TypeVar("Item")
Listener = Callable[[int, int], None]
_listeners: List[Listener] = []


@contextlib.contextmanager
def heard_by(listener: Listener) -> Iterator[None]:
    """Has a function get what `Progress` would show, instead of it: how many fields are read, and of how many, unless
    there are none."""
    _listeners.append(listener)
    try:
        yield
    finally:
        _listeners.pop()


class Progress:
    """Messages that say how many of the fields are read, what part that is, and the time left at this pace. There are
    none if standard error is no terminal. The line is empty again at the end of the `with` block."""

    def __init__(self, fields: int, is_wanted: bool = True) -> None:
        self._fields = fields
        self._listener: Optional[Listener] = _listeners[-1] if _listeners else None
        self._is_shown = self._listener is not None or is_wanted and _is_terminal()
        self._begin = self._last = time.monotonic()

    def __enter__(self) -> "Progress":
        self._show(0)
        return self

    def __exit__(self, *_: object) -> None:
        self._write("")

    def over(self, items: Iterable[Item], step: int = 1) -> Iterator[Item]:
        """Yields the items, each with this many fields, and shows how many fields have come with them."""
        done = 0
        for item in items:
            yield item
            done = min(done + step, self._fields)
            self.reached(done)

    def reached(self, done: int) -> None:
        """Takes in that so many fields are done."""
        if done == self._fields or time.monotonic() >= self._last + PAUSE:
            self._show(done)

    def _show(self, done):
        self._last = time.monotonic()
        if self._listener:
            if self._fields:
                self._listener(done, self._fields)
            return
        text = "%d of %d fields, %d %%" % (done, self._fields, 100 * done // self._fields if self._fields else 100)
        if 0 < done < self._fields:
            text += ", %s left" % _clock_text((self._last - self._begin) * (self._fields - done) / done)
        self._write(text)

    def _write(self, text):
        if self._is_shown and not self._listener:
            _show_line(text)


class SidesProgress:
    """Messages that say how many of some sides are done, what part of all their fields that is, and the time left at
    this pace. There are none if standard error is no terminal. `sizes` gives the sides' sizes relative to each other.
    The line is empty again at the end of the `with` block."""

    def __init__(self, sizes: Sequence[float]) -> None:
        self._sizes, self._parts = sizes, [0.0] * len(sizes)
        self._is_shown = _is_terminal()
        self._begin = time.monotonic()
        self._last = self._begin - PAUSE

    def __enter__(self) -> "SidesProgress":
        self._show()
        return self

    def __exit__(self, *_: object) -> None:
        self.clear()

    def reached(self, side: int, part: float) -> None:
        """Takes in that this part of a side, given by its index, is done; 1 is all of it."""
        self._parts[side] = part
        self._show()

    def clear(self) -> None:
        """Empties the line, for a text that comes in its place. It is shown again with the next message."""
        if self._is_shown:
            _show_line("")
            self._last = self._begin - PAUSE

    def _show(self):
        now = time.monotonic()
        if not self._is_shown or not self._sizes or now < self._last + PAUSE:
            return
        self._last = now
        done = sum(size * part for size, part in zip(self._sizes, self._parts)) / (sum(self._sizes) or 1)
        text = "%d of %d sides, %d %%" % (sum(part == 1 for part in self._parts), len(self._parts), 100 * done)
        if 0 < done < 1:
            text += ", %s left" % _clock_text((now - self._begin) * (1 - done) / done)
        _show_line(text)


def _is_terminal():
    return bool(sys.stderr and sys.stderr.isatty())


def _show_line(text):
    # What an older message has to the right of this one is emptied.
    sys.stderr.write("\r%s\x1b[K" % text)
    sys.stderr.flush()


def _clock_text(seconds):
    minutes, seconds = divmod(round(seconds), 60)
    return "%d:%02d" % (minutes, seconds)
