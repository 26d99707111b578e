"""The samples of an output and its sound, copied from the captures."""

import array
import contextlib
import itertools
import os
from typing import IO, Callable, Iterator, Optional, Sequence, Tuple

from ldvbi import System, field_bytes
from .inputs import Input
from .plan import Plan
from .stretches import Stretch
from .told import PCM, base_of

PIECE = 1 << 26  # bytes that are copied at once
Pad = Optional[Sequence[bool]]
READ = 1 << 22  # bytes that are held, if the system can't copy by itself


def copy_samples(new: IO[bytes], made: Plan, inputs: Sequence[Input], black: int) -> Iterator[int]:
    """Writes the samples of each field: those of padding are black. Yields how many fields are written by then."""
    size = field_bytes(System[made.system])
    blank, most = black.to_bytes(2, "little") * (size // 2), PIECE // size
    with contextlib.ExitStack() as stack:
        files = [stack.enter_context(open(one.path, "rb")) for one in inputs]
        for one in made.stretches:
            for first in range(0, one.fields, most):
                fields = min(one.fields - first, most)
                if one.source is None:
                    new.writelines(itertools.repeat(blank, fields))
                else:
                    assert one.field is not None
                    copy_bytes(files[one.source], new, (one.field - 1 + first) * size, fields * size)
                yield one.out - 1 + first + fields


def copy_bytes(old: IO[bytes], new: IO[bytes], begin: int, size: int) -> None:
    """Copies bytes of a file to the place of another one where it is written to; by the system itself, if it can."""
    new.flush()
    while size:
        try:
            count = os.copy_file_range(old.fileno(), new.fileno(), size, begin)
        except OSError:  # between two file systems, say
            count = os.write(new.fileno(), os.pread(old.fileno(), min(size, READ), begin))
        if not count:
            raise ValueError("%s was made shorter meanwhile" % old.name)
        begin, size = begin + count, size - count


def copy_sound(new: IO[bytes], made: Plan, inputs: Sequence[Input], pads: Sequence[Pad],
               end: str) -> "array.array[int]":
    """Writes the sound of each field, in step with the samples. The answer is the bytes of each field. `pads` says of
    the fields of each capture which are padding already: such padding keeps its size."""
    offsets = [array.array("Q", [0, *itertools.accumulate(one.sizes[end])]) for one in inputs]
    silent, sizes = _silence(inputs[0].sizes[end], end), array.array("I")
    with contextlib.ExitStack() as stack:
        files = [stack.enter_context(open(base_of(one.path) + end, "rb")) for one in inputs]
        for before, one, after in zip([None, *made.stretches], made.stretches, [*made.stretches[1:], None]):
            if one.source is None:
                older = _older(before, one.fields, after, pads)
                more = inputs[older[0]].sizes[end][older[1]:older[1] + one.fields] if older else array.array(
                    "I", map(silent, one.outs()))
                sizes.extend(more)
                new.write(bytes(sum(more)))
            else:
                assert one.field is not None
                first, last = one.field - 1, one.field - 1 + one.fields
                begin = offsets[one.source][first]
                copy_bytes(files[one.source], new, begin, offsets[one.source][last] - begin)
                sizes.extend(inputs[one.source].sizes[end][first:last])
    return sizes


def _older(before: Optional[Stretch], fields: int, after: Optional[Stretch], pads: Sequence[Pad]
           ) -> Optional[Tuple[int, int]]:
    """The capture and the first field there, from 0, of so many fields of padding that are padding there already,
    beside a field of the stretch before or after them; None if they are new."""
    begins = [(before.source, before.taken().stop - 1)] if before else []
    begins += [(after.source, after.taken().start - 1 - fields)] if after else []
    return next(((source, begin) for source, begin in begins
                 if source is not None and _is_padding(pads[source], begin, begin + fields)), None)


def _is_padding(pad: Pad, begin: int, end: int) -> bool:
    """Whether a capture has these fields, and all of them are padding."""
    return pad is not None and 0 <= begin and end <= len(pad) and all(pad[begin:end])


def _silence(sizes: Sequence[int], end: str) -> Callable[[int], int]:
    """How many bytes of silence a field of padding gets in the output: as many as keep the sound in step, by the mean
    of the first capture. A file without silence gets none: of EFM it isn't known what would have been there."""
    if end != PCM.end:
        return lambda out: 0
    mean = sum(sizes) / PCM.size / len(sizes)
    return lambda out: PCM.size * (round(out * mean) - round((out - 1) * mean))
