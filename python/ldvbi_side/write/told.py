"""What the metadata of a capture says of its fields beside their numbers, and where its text has them."""

import array
import os
from typing import Any, Dict, List, NamedTuple, Optional, Tuple

from ldvbi.metadata import Metadata, is_database
from ..into.field import place_of_words
from .sources import PHASES, Facts

NONE = -1  # in the place of a count that isn't there


class Sound(NamedTuple):
    """A file of sound beside a TBC file: the end of its name, the member and the column with a field's count of
    values, and the bytes of a value."""
    end: str
    member: str
    column: str
    size: int


PCM = Sound(".pcm", "audioSamples", "audio_samples", 4)
SOUNDS = (PCM, Sound(".efm", "efmTValues", "efm_t_values", 1))


class Entries(NamedTuple):
    """Where a JSON text has each of its fields: its place and its length, in bytes."""
    begins: "array.array[int]"
    lengths: "array.array[int]"

    def end(self) -> int:
        """The place after the last one."""
        return self.begins[-1] + self.lengths[-1]


class Told:
    """The fields of metadata, each of which has to be added as a text is read; those of a database are read by
    `add_rows`. No more of them is kept than counts."""

    def __init__(self, is_copied: bool = True) -> None:
        """`is_copied` says that fields are copied, and not planned alone."""
        self._is_copied = is_copied
        self._begins, self._lengths = array.array("Q"), array.array("I")
        self._phase, self._damage = array.array("B"), array.array("q")
        self._counts = {sound.end: array.array("q") for sound in SOUNDS}
        self.is_database = False

    def __len__(self) -> int:
        return len(self._phase)

    def add(self, begin: int, text: str, field: Any) -> None:
        """Adds the next field of a text: its place, its own text and its value."""
        if self._is_copied:
            self._add_place(begin, text, field)
        self._add(field.get("fieldPhaseID"), [field.get(sound.member) for sound in SOUNDS],
                  _damage(field["dropOuts"]) if "dropOuts" in field else NONE)

    def _add_place(self, begin: int, text: str, field: Any) -> None:
        try:
            place_of_words(text, field, len(self) + 1)  # which refuses what can't be copied
        except ValueError as error:
            raise ValueError("field %d: %s" % (len(self) + 1, error)) from None
        self._begins.append(begin)
        self._lengths.append(len(text))

    def add_rows(self, path: str) -> None:
        """Adds all fields of a database."""
        from ldvbi.database import column_of_fields, columns_of, has_column_of_fields, opened
        self.is_database = True
        with opened(path) as database:
            def column(name: str) -> List[Any]:
                found = column_of_fields(database, name) if has_column_of_fields(database, name) else None
                return [None] * len(fields) if found is None else found
            fields = column_of_fields(database, "field_id") or []
            sums: Dict[Any, Any] = {}
            if {"field_id", "startx", "endx"} <= set(columns_of(database, "drop_outs")):
                sums = dict(database.execute("SELECT field_id, sum(endx - startx + 1) FROM drop_outs "
                                             "GROUP BY field_id"))
            for field, phase, *counts in zip(fields, column("field_phase_id"),
                                             *(column(sound.column) for sound in SOUNDS)):
                self._add(phase, counts, sums.get(field, NONE))

    def _add(self, phase: Any, counts: List[Any], damage: int) -> None:
        self._phase.append(phase if _is_count(phase) and phase <= max(PHASES.values()) else 0)
        for ones, count in zip(self._counts.values(), counts):
            ones.append(count if _is_count(count) else NONE)
        self._damage.append(damage)

    def facts(self, metadata: Metadata) -> Facts:
        """What is known of the fields. Dropouts aren't if no field has any; a field without them has none, then."""
        damage = None
        if max(self._damage, default=NONE) > NONE:
            damage = array.array("q", [max(one, 0) for one in self._damage])
        return Facts(metadata.first, self._phase if any(self._phase) else None, damage, metadata.pad)

    def entries(self, path: str) -> Optional[Entries]:
        """Where the text in this file has the fields, in bytes; None of a database."""
        if self.is_database:
            return None
        begins, lengths, at, place = array.array("Q"), array.array("I"), 0, 0
        with open(path, encoding="utf-8", newline="") as text:
            for begin, length in zip(self._begins, self._lengths):
                place += len(text.read(begin - at).encode())
                size = len(text.read(length).encode())
                begins.append(place)
                lengths.append(size)
                at, place = begin + length, place + size
        return Entries(begins, lengths)

    def sizes(self, path: str) -> Dict[str, "array.array[int]"]:
        """How many bytes each field has of each file of sound that is beside this TBC file, by the ends of their names.
        A ValueError if the file has another size."""
        found = {}
        for sound in SOUNDS:
            name, counts = base_of(path) + sound.end, self._counts[sound.end]
            if not os.path.exists(name):
                continue
            if not os.path.isfile(name):
                raise ValueError("%s is no file" % name)
            size, is_known = os.path.getsize(name), NONE not in counts
            if not is_known or sound.size * sum(counts) != size:
                raise ValueError("%s has %d bytes, and its fields' %s come to %s" % (
                    name, size, sound.member, sound.size * sum(counts) if is_known else "no sum"))
            found[sound.end] = array.array("I", [sound.size * count for count in counts])
        return found


def base_of(path: str) -> str:
    """The name of a TBC file without its end."""
    return path[:-4] if path.endswith(".tbc") else path


def is_database_at(path: str) -> bool:
    """Whether the file of this name is a database. A pipe, which may have been read, is none."""
    if not os.path.isfile(path):
        return False
    with open(path, "rb") as file:
        return is_database(file.read(16))


def _is_count(value: Any) -> bool:
    return type(value) is int and value >= 0


def _damage(dropouts: Any) -> int:
    """How many samples these dropouts have."""
    try:
        return sum(map(int.__sub__, dropouts["endx"], dropouts["startx"])) + len(dropouts["endx"])
    except (KeyError, TypeError):
        return NONE


def state_of(path: str) -> Tuple[int, int, int, int]:
    """What shows whether a file is the same as it was."""
    status = os.stat(path)
    return status.st_dev, status.st_ino, status.st_size, status.st_mtime_ns
