"""The metadata of an output as a JSON text: the entry of each field as its capture has it, with its new number and its
words; around them the text of the first capture."""

import json
import os
import re
from contextlib import ExitStack
from typing import Any, Dict, IO, Mapping, Sequence, Tuple

from ..into.field import place_of_words, value_place
from .inputs import Input
from .kept import Kept, counts_at, fields_of
from .plan import Plan
from .sources import Source
from .told import Entries

_COUNT = re.compile(rb'("numberOfSequentialFields"\s*:\s*)\d+')
_IS_MAPPED = re.compile(rb'("isMapped"\s*:\s*)false')
# The members of a padding field's entry beside its number, if the first capture's fields have them
_NOTHING = {"syncConf": 0, "medianBurstIRE": 0, "decodeFaults": 0}


def write_entries(new: IO[bytes], made: Plan, sources: Sequence[Source], inputs: Sequence[Input],
                  sizes: Mapping[str, Sequence[int]]) -> None:
    """Writes the whole text. `sizes` are the bytes of sound that each field of the output has."""
    with ExitStack() as stack:
        files = [stack.enter_context(open(one.metadata, "rb")) for one in inputs]
        own = _entries_of(inputs[0])
        between = _bytes_at(files[0], own.begins[0] + own.lengths[0], own.begins[1]) if len(own.begins) > 1 else b","
        sample = json.loads(_entry(files[0], own, 1))
        new.write(_with_count(_bytes_at(files[0], 0, own.begins[0]), made.fields))
        for kept in fields_of(made, sources):
            if kept.out > 1:
                new.write(between)
            if kept.source is None:
                entry = _padding_entry(kept, sample, counts_at(kept, sizes))
                new.write(json.dumps(entry, separators=(",", ":")).encode())
            else:
                assert kept.field is not None
                one, place = inputs[kept.source], 3 * kept.field - 3
                text = _entry(files[kept.source], _entries_of(one), kept.field).decode()
                words = one.words[place], one.words[place + 1], one.words[place + 2]
                new.write(_renumbered(text, kept.field, kept.out, words).encode())
        new.write(_with_count(_bytes_at(files[0], own.end(), os.path.getsize(inputs[0].metadata)), made.fields))


def _entries_of(one: Input) -> Entries:
    assert one.entries is not None  # all captures have metadata of one form
    return one.entries


def _bytes_at(file: IO[bytes], begin: int, end: int) -> bytes:
    return os.pread(file.fileno(), end - begin, begin)


def _entry(file: IO[bytes], entries: Entries, field: int) -> bytes:
    begin = entries.begins[field - 1]
    return _bytes_at(file, begin, begin + entries.lengths[field - 1])


def _with_count(text: bytes, fields: int) -> bytes:
    """What stands before the fields, or after them, with their new count."""
    return _IS_MAPPED.sub(rb"\g<1>true", _COUNT.sub(rb"\g<1>%d" % fields, text))


def _renumbered(text: str, field: int, out: int, words: Tuple[int, int, int]) -> str:
    """The text of a field with its number in the output and its words. All else is as it was."""
    value = json.loads(text)
    place = place_of_words(text, value, field)
    text = text[:place.begin] + place.form % words + text[place.end:]
    if "seqNo" in value:
        begin, end = value_place(text, 0, len(text), "seqNo")
        text = text[:begin] + str(out) + text[end:]
    return text


def _padding_entry(kept: Kept, sample: Dict[str, Any], counts: Dict[str, int]) -> Dict[str, Any]:
    """A field of padding, with those members of the first capture's fields that can be said of it."""
    known = {**_NOTHING, "fieldPhaseID": kept.phase, **counts}
    return {"seqNo": kept.out, "isFirstField": kept.is_first, "pad": True, "vbi": {"vbiData": [0, 0, 0]},
            **{name: value for name, value in known.items() if name in sample}}
