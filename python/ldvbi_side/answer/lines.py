"""What the lines of a side show if they show no word, and what that says of the levels with which they were read."""

from collections import Counter
from typing import Dict, List, Optional

from ldvbi.codes import LINES
from ..judge.readings import Fields
from .entries import BadLine, FewWords, Rates

SIZES = {"NTSC": (1820, 263), "PAL": (2270, 313)}  # bytes of a line, lines of a field
_GOOD = frozenset(["word", "blank"])
_PASSES = ("", "pass1", "pass2", "near")  # what a line without a word is counted as, its cause says
FEW = 20  # lines to a word: of the lines 17 and 18 of a disc half have one, or a fifth at least


def bad_lines_of(fields: Fields) -> List[BadLine]:
    """The lines that show no word of their own and aren't blank, each with its place in the TBC file, in bytes."""
    size, height = SIZES[fields.system]
    bad = []
    for field, causes in enumerate(fields.causes, 1):
        for line, cause in zip(LINES, causes):
            if cause not in _GOOD:
                _, _, column = cause.partition(" ")
                bad.append(BadLine(field, line, cause, int(column) if column else None,
                                   ((field - 1) * height + line - 1) * size, size))
    return bad


def rates_of(fields: Fields) -> Dict[int, Rates]:
    """For each line, how many fields show each outcome."""
    rates = {}
    alike = Counter(zip(fields.causes, fields.passes))  # many fields are
    for place, line in enumerate(LINES):
        counts = dict.fromkeys(Rates._fields, 0)
        for (causes, passes), count in alike.items():
            # a recovered word has a cause, too
            counts[_PASSES[passes[place]] or causes[place].partition(" ")[0]] += count
        rates[line] = Rates(**counts)
    return rates


def levels_of(rates: Dict[int, Rates], bad: List[BadLine], fields: Fields) -> Optional[FewWords]:
    """Whether the side was read with wrong levels: None if lines 17 and 18 show enough words, also recovered ones;
    else what they show instead, a line to look at, and what other levels read of some lines, if their samples are at
    hand."""
    shown = rates[17], rates[18]
    count, words = len(fields.words), sum(one.words() for one in shown)
    if FEW * words >= 2 * count:
        return None
    lines = [one for one in bad if one.line != 16]
    without, blank = sum(one.bad() for one in shown), sum(one.blank for one in shown)
    is_blank = without <= blank  # else there are lines
    field, line = (count // 2 + 1, 17) if is_blank else lines[len(lines) // 2][:2]
    return FewWords("blank" if is_blank else "bad", words, without, blank, field, line,
                    fields.try_levels() if fields.try_levels else None)
