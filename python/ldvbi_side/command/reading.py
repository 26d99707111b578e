"""How a side is read that the command line names: a document, or a TBC file with its metadata."""

import argparse
from typing import Any, List, Optional, Tuple, Union

from ldvbi import Stream
from ldvbi.document import is_document
from ldvbi.metadata import Metadata, OnField, OnMember, beside, read_metadata, settings_of
from ldvbi.packed import refuse_packed
from ldvbi.readings import Cut
from ldvbi.regular import regular
from ..outside import bytes_of_document, say
from ..side import Side, side_of_document, side_of_stream, stream_of_tbc
from .faults import (OF_TBC, SETTINGS, STANDARD_INPUT, naming, no_metadata, refuse_folder, refuse_no_document,
                     refuse_packed_side)
from .progress import Progress

Source = Union[Side, Stream]  # what is read of a document, or of a TBC file


def options_of(path: str, settings: argparse.Namespace) -> argparse.Namespace:
    """The options by which a TBC file is read that is one of several, by these settings, with the metadata beside
    it."""
    options = argparse.Namespace(**vars(settings), side=path, waits=True, is_alone=False, is_beside=not settings.meta)
    options.meta = settings.meta or beside(path)
    return options


def settings_given(options: argparse.Namespace) -> List[Any]:
    """What the options have of system and levels, in place of the metadata's."""
    return [options.system, options.black, options.white]


def refuse_settings(options: argparse.Namespace, name: str, is_tbc: bool) -> None:
    """Raises a ValueError if system or levels are given, and the side with this name is a document."""
    if not is_tbc and any(value is not None for value in settings_given(options)):
        raise ValueError("%s: %s" % (name, OF_TBC))


def name_of(options: argparse.Namespace) -> str:
    """What messages call the side."""
    return STANDARD_INPUT if options.side == "-" else options.side


def source_of(options: argparse.Namespace, on_field: Optional[OnField] = None,
              on_member: Optional[OnMember] = None) -> Tuple[Source, Optional[Metadata]]:
    """The side of the document that the options name, or the stream of the TBC file; and the metadata, or None, whose
    fields and other members these functions get."""
    is_standard_input = options.side == "-"
    if not is_standard_input:
        refuse_folder(options.side)
    with naming(name_of(options)), \
            open(0 if is_standard_input else options.side, "rb", closefd=not is_standard_input,
                 opener=None if options.waits else regular) as file:
        begin = file.peek()
        _refuse_begin(options, begin)
        side = None
        if is_standard_input or is_document(options.side, begin):
            side = side_of_document(bytes_of_document(file, begin))
    metadata = _metadata(options, on_field, on_member)
    return side or _stream(options, metadata), metadata


def _refuse_begin(options, begin):
    """Raises a ValueError if a side that begins with these bytes is compressed, or is standard input and no text."""
    if options.side == "-":
        refuse_packed(STANDARD_INPUT, begin)
        refuse_no_document(options, begin)
    elif options.is_alone:
        refuse_packed_side(options, begin)
    else:
        refuse_packed(options.side, begin)


def _metadata(options, on_field, on_member):
    """The metadata that the options name, or None."""
    if not options.meta:
        return None
    with naming(options.meta):
        return read_metadata(options.meta, on_field, not options.is_beside, on_member)


def _stream(options, metadata):
    """The stream of the TBC file."""
    if metadata is None and None in settings_given(options):
        raise ValueError("%s: %s; %s" % (options.side, no_metadata(options.side), SETTINGS))
    with naming(metadata.path if metadata else options.side):
        settings = settings_of(metadata, *settings_given(options))
    for note in settings.notes:
        say("%s: %s" % (options.side, note))
    with naming(options.side):
        return stream_of_tbc(options.side, settings, metadata, not options.no_recover)


def _side_of(source):
    """The side of either source."""
    if isinstance(source, Side):
        return source
    with Progress(len(source)) as progress:
        return side_of_stream(source, progress.over)


def loaded(source: Source, metadata: Optional[Metadata], options: argparse.Namespace, is_asked: bool = False) -> Side:
    """The side of a source, with what the metadata has of its fields. `is_asked` says that it is to be judged, and not
    among others."""
    side = _side_of(source)
    side.is_strict, side.may_end, side.given_last = options.strict, options.open_end, options.last
    if metadata:
        _add_fields(side, name_of(options), metadata, isinstance(source, Side) and is_asked)
    return side


def _add_fields(side, name, metadata, is_all):
    """Adds what the metadata has of the fields to the side, which has this name. `is_all` says that nothing else is
    wanted of it."""
    side.expected, side.sequential = metadata.fields, metadata.sequential()
    if is_of_another(metadata, name, len(side.readings), side.cut, side.samples is not None):
        return
    side.first, side.pad = metadata.first, metadata.pad
    if is_all and side.first is None:
        say("%s has no isFirstField for each field" % metadata.path)


def is_of_another(metadata: Metadata, name: str, count: int, cut: Optional[Cut], is_recovered: bool) -> bool:
    """Whether the metadata has another count of fields than the side with this name, which is said then."""
    if metadata.fields is None or metadata.fields == count:
        return False
    rest = " and %d bytes" % cut.bytes if cut else ""
    say("%s: %d fields%s, %s says %d%s: another system, or another file's metadata?" % (
        name, count, rest, metadata.path, metadata.fields, _unused(metadata, is_recovered)))
    return True


def _unused(metadata, is_recovered):
    """What a message says isn't used of the metadata."""
    names = ["isFirstField"] * bool(metadata.first) + ["dropOuts"] * bool(is_recovered and metadata.dropouts)
    return ", so its %s %s used" % (" and ".join(names), "isn't" if names == ["isFirstField"] else "aren't") \
        if names else ""
