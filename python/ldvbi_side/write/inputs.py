"""A capture whose fields are copied: its files, and what has to hold of several."""

import array
import os
from typing import Any, Dict, List, NamedTuple, Optional, Sequence, Tuple

from ldvbi.codes import LINES
from ldvbi.metadata import Metadata
from ..side import RECOVERED, Side
from .told import SOUNDS, Entries, Told, base_of, state_of

# The members of videoParameters in which all captures have to be alike, as far as they have them
ALIKE = ("system", "sampleRate", "black16bIre", "white16bIre", "blanking16bIre", "activeVideoStart", "activeVideoEnd",
         "colourBurstStart", "colourBurstEnd", "isSubcarrierLocked")
State = Tuple[int, int, int, int]


class Input(NamedTuple):
    """A capture: its TBC file and its metadata, with the videoParameters; where a JSON text has its fields (None of a
    database); the bytes of each field of the sound beside it, by the end of that file's name; the words of lines 16 to
    18 of each field that the copy gets; and the state of each file when it was read."""
    path: str
    metadata: str
    parameters: Dict[str, Any]
    entries: Optional[Entries]
    fields: int
    sizes: Dict[str, "array.array[int]"]
    words: "array.array[int]"
    states: Dict[str, State]

    def form(self) -> str:
        """The end of the metadata's name in the output."""
        return ".db" if self.entries is None else ".json"


def states_of(path: str, metadata: str) -> Dict[str, State]:
    """The state of each file of a capture."""
    names = [path, metadata, *(base_of(path) + sound.end for sound in SOUNDS)]
    return {name: state_of(name) for name in names if os.path.exists(name)}


def input_of(path: str, metadata: Metadata, told: Told, side: Side, states: Dict[str, State],
             has_recovered: bool) -> Input:
    """The capture with these parts."""
    assert metadata.parameters is not None  # its settings come from them
    return Input(path, metadata.path, metadata.parameters, told.entries(metadata.path), len(side.readings),
                 told.sizes(path), _words_of(side, has_recovered), states)


def _words_of(side: Side, has_recovered: bool) -> "array.array[int]":
    """The words of each field, with 0 for one whose number is set aside, and for one that is recovered, unless those
    are wanted, too."""
    aside = {one[:2] for one in side.analysis.answer.doubtful}
    found = array.array("I")
    for field, (words, passes) in enumerate(zip(side.readings.words(), side.readings.passes()), 1):
        found.extend([0 if of_pass == RECOVERED and not has_recovered or (field, line) in aside else word
                      for line, word, of_pass in zip(LINES, words, passes)])
    return found


def refuse_unlike(inputs: Sequence[Input]) -> None:
    """Raises a ValueError if the captures were decoded in different ways, or have metadata of different forms."""
    for one in inputs[1:]:
        for name in ALIKE:
            mine, other = inputs[0].parameters.get(name), one.parameters.get(name)
            if mine != other and None not in (mine, other):
                raise ValueError("%s of %s is %s, of %s %s: decode both in one way" % (
                    name, inputs[0].path, mine, one.path, other))
    if len({one.form() for one in inputs}) > 1:
        raise ValueError("metadata of one form is needed: %s" % ", ".join(one.metadata for one in inputs))


def refuse_changed(inputs: Sequence[Input]) -> None:
    """Raises a ValueError if a file isn't any more as it was when it was read."""
    for one in inputs:
        for path, state in one.states.items():
            if not os.path.exists(path) or state_of(path) != state:
                raise ValueError("%s was changed meanwhile" % path)


def ends_of_sound(inputs: Sequence[Input]) -> List[str]:
    """The ends of the names of those files of sound that each capture has."""
    return [sound.end for sound in SOUNDS if all(sound.end in one.sizes for one in inputs)]
