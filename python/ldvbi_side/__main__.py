"""The command `ldvbi-side`, also as `python3 -m ldvbi_side`."""

import gc
import sys
from typing import List, Optional

from .outside import (INTERRUPTED, drop_standard_output, end_at_once, end_by_the_system, end_in_order, heeded,
                      open_streams)


def main(words: Optional[List[str]] = None) -> int:
    """Does what these words ask for, or, without any, what those of the command line ask for. Returns the exit
    status."""
    if words is None:
        end_at_once()
        open_streams()
    try:
        from .command.main import main as command
        if words is None:
            end_in_order()
        try:
            status = command(words)
        finally:
            if words is None:
                end_by_the_system()
                gc.freeze()  # as the process ends all is given back, and nobody has to look through it
        return status
    except KeyboardInterrupt as stop:
        heeded()
        drop_standard_output()
        return getattr(stop, "status", INTERRUPTED)


if __name__ == "__main__":
    sys.exit(main())
