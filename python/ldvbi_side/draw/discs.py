"""What an index says of sides that may be captures of one disc."""

import os
from typing import Any, Dict, Iterable

from ..join.discs import TEXT, Discs
from ..join.marks import marks_in
from .svg import escaped


def discs_of(heads: Iterable[Dict[str, Any]]) -> str:
    """A list of the sides that may be captures of one disc, with the command that joins them, or nothing. What the
    heads of their pages say is given; a side whose file isn't there isn't in it."""
    discs = Discs()
    for said in sorted(filter(_is_there, heads), key=lambda said: str(said["side"])):
        discs.add(marks_in(said, said["side"]), said["options"])
    ones = "".join("<li>%s: <code>%s</code></li>\n" % (escaped(", ".join(one.by)), escaped(one.command()))
                   for one in discs.found())
    return '<h2>%s</h2>\n<ul id="discs">\n%s</ul>\n' % (TEXT.capitalize(), ones) if ones else ""


def _is_there(said):
    return said["side"] is not None and not is_gone(said["side"])


def is_gone(side: str) -> bool:
    """Whether the file of a side, by its real path, isn't there any longer. Where its folder isn't there either, it may
    be on another machine."""
    return not os.path.exists(side) and os.path.isdir(os.path.dirname(side))
