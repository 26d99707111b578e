"""The command `ldvbi-side`, which says what the words of a whole side mean. It builds on the package `ldvbi`. Each of
its rooms builds on those before it.

`judge` says which numbers are believed, and what follows: it takes plain data and returns plain data. `side` joins the
readings of a side with this answer, and `seek` looks up numbers in it. `join` says what several captures of one side
have together. `draw` draws the answers, as SVG and as HTML. `into` puts words into a copy of ld-decode's metadata.
`command` has the options, and writes what they ask for. `outside` has what may be otherwise than these expect: streams,
signals, names and texts."""

import _signal  # type: ignore[import]
import os
import sys

# As `python3 -m ldvbi_side`, and in the script ldvbi-side that pip makes, this is the first of the command that Python
# reads in. Until the command heeds Ctrl-C itself, it ends this without a word of what was being loaded. From Python
# 3.10 on it is known what was asked for by -m.
if ((sys.argv[:1] == ["-m"] and getattr(sys, "orig_argv", ())[-len(sys.argv):][:1] == [__name__]
     or os.path.basename("".join(sys.argv[:1])) == "ldvbi-side")
        and _signal.getsignal(_signal.SIGINT) == _signal.default_int_handler):
    _signal.signal(_signal.SIGINT, lambda *_: os._exit(130))
