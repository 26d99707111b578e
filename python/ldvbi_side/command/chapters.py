"""The chapters of a side for encoders and players, as ffmpeg's metadata, or for sound editors, as Audacity's labels.
docs/FORMATS.md has both forms."""

import bisect
from typing import Iterable, Iterator, NamedTuple, Sequence

from ..answer.entries import Answer
from ..join.entries import Joined
from ..outside import say
from .outputs import whole_file

LABELS = ".txt"  # how the name of a file with labels ends
FIELD_SECONDS = {"NTSC": (1001, 60000), "PAL": (1, 50)}  # how long a field is, as a fraction


class Span(NamedTuple):
    """A stretch of a chapter, from its first field to the field before which it ends, both counted from 0."""
    chapter: int
    begin: int
    end: int


def chapter_spans(answer: Answer) -> Iterator[Span]:
    """The stretches of believed chapters. Each goes on to the next one, to lead-out, to lead-in, or to the end of the
    side, since the codes of its last fields may be unread."""
    begins = [one.field for one in answer.chapters] + [one.first for one in answer.lead_out + answer.lead_in]
    ends = sorted([begin - 1 for begin in begins] + [answer.fields])
    for one in answer.chapters:
        yield Span(one.chapter, one.field - 1, ends[bisect.bisect_left(ends, one.last)])


def joined_spans(joined: Joined) -> Iterator[Span]:
    """The same of the file that `write` makes of captures. Each chapter goes on to the next one, or to the end."""
    ends = [*(one.written - 1 for one in joined.chapters[1:]), joined.written_fields]
    for one, end in zip(joined.chapters, ends):
        yield Span(one.chapter, one.written - 1, end)


def chapters_text(system: str, spans: Iterable[Span], name: str) -> str:
    """The text of a file with this name."""
    numerator, denominator = FIELD_SECONDS[system]
    if name.endswith(LABELS):
        return "".join("%.6f\t%.6f\tChapter %d\n" % (
            begin * numerator / denominator, end * numerator / denominator, chapter) for chapter, begin, end in spans)
    return ";FFMETADATA1\n" + "".join("\n[CHAPTER]\nTIMEBASE=%d/%d\nSTART=%d\nEND=%d\ntitle=Chapter %d\n" % (
        numerator, denominator, begin, end, chapter) for chapter, begin, end in spans)


def write_chapters(system: str, spans: Sequence[Span], path: str) -> None:
    """Writes the chapters, if there are any: a program that gets a file without one would take its own away."""
    if not spans:
        say("no chapter of the side is believed: %s isn't written" % path)
        return
    with whole_file(path) as file:
        file.write(chapters_text(system, spans, path))
