"""The numbers of rules in sentences where a mark would be in the way, as in the header's comments, manual pages,
schemas and docstrings. Each sentence below has them in the places of `#`, in their order, wherever it stands, in
documents, too."""

import re
from typing import Any, Dict, Iterator, Set, Tuple

from numbers_of import as_there, CARDINALS, margins

FIGURE = r"(\d+(?:,\d{3})*|low|high|%s)" % "|".join(CARDINALS[1:])
ROWS = "one line # # # # either, if they don't agree # # # # lines 17 and 18 together # # # #"
# The names of numbers (numbers_of.py), and the sentences that have all of these
SENTENCES: Tuple[Tuple[str, ...], ...] = (
    ("abi", "the library's name libldvbi.so.# stay"),
    ("byte.first", "the # byte first", "16 bits, # byte first"),
    ("starts.ntsc starts.pal", "from # columns on NTSC, from # on PAL"),
    ("close", "if no word is nearer by more than # columns"),
    ("agree", "is at most # columns farther from the two lines"),
    ("borne", "nearer to both lines together, by # columns"),
    (margins("levelled"), "levelled lines " + ROWS),
    (margins("given"), "lines as they are " + ROWS),
    ("levelled.ends given.ends", "by more than # columns in each levelled line, or # in each line as it is"),
    ("stretched.least stretched.most", "whose cells have # to # hundredths of their length"),
    ("pile.lines", "nearest word of 1 to # lines", "has to be 1 to # times", "word that 1 to # lines say together"),
    ("pile.known pile.else pile.share",
     "by # columns if dropouts are known (`known` is 1), else (`known` is 0) by #, and by a share of #/288"),
    ("pile.known pile.else", "ahead of any other by # columns, else by #"),
    ("pile.other pile.other_share", "Any other word has to be ahead by # columns, and by #/288"),
    ("pile.ends", "may be nearer by # columns in each line"),
    ("second.ntsc second.pal", "as pictures from its beginning: # (NTSC) or # (PAL) a second"),
    ("second.ntsc", "NTSC counts # pictures to a second"),
    ("minutes", "as minute #"),
    ("enough", "it, weigh # or more", "one chapter weigh # or more", "weigh less than #,", "to weigh less than #:",
     "there weigh less than # (a word", "and # or more after it"),
    ("field_most", "half of the weight, and # of it or more", "or less than #, a field gets", "ones weigh at least #"),
    ("part_most", "of at most # readings"),
    ("vote_reach vote_reach", "in the # fields before it and the # after it that go on"),
    ("looked_most", "At most # fields are read"),
    ("reach", "at least # fields in a row", "of each within # fields", "where halving led: # fields in a row",
     "at most # in a row tell", "from none # fields before it"),
    ("reach reach", "all from # before it to # after it", "by the # fields before it and the # after it",
     "lost from # fields after the first to # before the last", "in the # fields before it and in the # after it"),
    ("reach.twice", "With # fields on either side, or all there are"),
    ("begun", "stand there, # at most", "over # fields are before it"),
    ("scratch", "Up to # lost fields", "go on are over # fields",
     "with over # fields in a row without a believed number"),
    ("clear", "no number within # of these two"),
    ("clear clear", "none of the # numbers before the number of either field, nor of the # from it on"),
    ("clock.spacing", "loses a picture each #"),
    ("clock.spacing clock.dropping", "by one in # or #", "with the periods # and #", "speak for # as for #",
     "pictures one in # or #", "left out in # or in #"),
)


def places() -> Iterator[Tuple[str, str, "re.Pattern[str]"]]:
    for names, *sentences in SENTENCES:
        for one in sentences:
            words = r"[\s*]+".join(map(re.escape, one.split()))
            yield one, names, re.compile(r"(?<!\w)" + words.replace(r"\#", FIGURE))


def with_numbers(text: str, numbers: Dict[str, Any], seen: Set[str]) -> str:
    """A text with the numbers of these sentences as the source has them; those that it has are added to `seen`."""
    for sentence, names, pattern in places():
        for found in reversed(list(pattern.finditer(text))):
            seen.add(sentence)
            for place, name in reversed(list(enumerate(names.split(), 1))):
                begin, end = found.span(place)
                text = text[:begin] + as_there(numbers[name], found[place]) + text[end:]
    return text


def all_sentences() -> Set[str]:
    return {sentence for sentence, *_ in places()}
