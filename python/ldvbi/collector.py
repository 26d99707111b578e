"""Pauses Python's collector of cycles: there are no cycles here, and looking for them would cost half of the time."""

import contextlib
import gc
from typing import Iterator

_FEW = 10000  # objects made meanwhile, which the collector may as well look through


@contextlib.contextmanager
def paused() -> Iterator[None]:
    """Pauses the collector, if it runs, for the time of a with block or of a function."""
    was_enabled = gc.isenabled()
    gc.disable()
    try:
        yield
    finally:
        if was_enabled:
            # so that it doesn't look through all that was made meanwhile at once; to ask what is frozen counts it all
            if hasattr(gc, "freeze") and gc.get_count()[0] > _FEW and not gc.get_freeze_count():
                gc.freeze()
                gc.unfreeze()
            gc.enable()
