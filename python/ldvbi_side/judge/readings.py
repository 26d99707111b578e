"""What the lines of a side say, by kind of code: the plain data that the judge takes in, and the codes found in it."""

import functools
from typing import Any, Callable, Dict, Iterable, List, NamedTuple, Optional, Set, Tuple, cast

from ldvbi import Kind, classify
from ldvbi.classes import usual_pictures
from ldvbi.codes import CAV_KINDS, CLV_KINDS, LINES, STANDARD_LINES, code_of, value_of
from ldvbi.readings import Cut

WEIGHTS = {1: 2, 2: 1, 3: 1}  # of a word of pass 1, of pass 2, of a recovered one (pass 3)
Lines = Tuple[int, ...]
Values = Dict[Any, Lines]  # what a field says by codes of one kind, each value with its lines
ByField = Dict[int, Values]
# Of a field, and the first and the last of some of its lines, the word that is nearer to them than any other, or None
NearestWord = Callable[[int, int, int], Optional[int]]


class Fields(NamedTuple):
    """The whole fields of a side as plain data: the words, passes and causes of lines 16, 17 and 18 of each field, as
    the document of `ldvbi extract` has them, and all of them as the library takes them, in `packed`. A recovered word
    has pass 3, and the cause for which its line shows no word of its own. `cut` is the field in which the side was cut.
    `first` says of each field whether it is the first one of its frame (`isFirstField`), and `pad` whether it is
    padding. `expected` is the number of fields that the metadata has. `is_strict` says that a side without lead-in or
    lead-out, or with an unread number, isn't whole, and `may_end` that it may end without lead-out. If the samples are
    at hand, `nearest_word` finds the nearest words of lines, and `try_levels` what other levels would read.
    `is_ahead` says of a field and its worn line whether a picture stop there is far ahead of any other word.
    `given_last` is the number with which the disc is said to end, or the part of a time, as text.
    `sequential` is the number of fields by the metadata's videoParameters."""
    system: str
    words: List[Tuple[int, int, int]]
    passes: List[Tuple[int, int, int]]
    causes: List[Tuple[str, str, str]]
    packed: bytes
    cut: Optional[Cut] = None
    first: Optional[List[bool]] = None
    expected: Optional[int] = None
    is_strict: bool = False
    may_end: bool = False
    nearest_word: Optional[NearestWord] = None
    try_levels: Optional[Callable[[], Any]] = None
    pad: Optional[List[bool]] = None
    given_last: Optional[str] = None
    sequential: Optional[int] = None
    is_ahead: Optional[Callable[[int, int], bool]] = None


class Reading(NamedTuple):
    """A number that a field's lines say, these lines, and their weight. `variant` is what a pace leaves open of it."""
    field: int
    number: int
    weight: int
    lines: Lines
    variant: int = 0


class Stray(NamedTuple):
    """A word that is a code where no disc has it, its kind, its pass, and why it is stray."""
    field: int
    line: int
    word: int
    kind: Kind
    pass_: int
    why: str


class Unknown(NamedTuple):
    """A word that is no code, and its pass."""
    field: int
    line: int
    word: int
    pass_: int


class Codes(NamedTuple):
    """The codes of a side: `kinds` has for each kind its fields, and for each of these the values with their lines;
    `format` is `cav`, `clv` or `neither`; `stray` stand where no disc has them, and `unknown` words are no codes."""
    fields: Fields
    kinds: Dict[Kind, ByField]
    format: str
    stray: List[Stray]
    unknown: List[Unknown]

    def strays(self, kind: Kind, fields: Iterable[int], why: str) -> List[Stray]:
        """The lines of these fields that have a code of this kind, as stray."""
        return [_stray(self.fields, field, line, why)
                for field in fields for lines in self.kinds[kind][field].values() for line in lines]

    def weight(self, field: int, lines: Iterable[int]) -> int:
        """What the words of these lines of a field weigh together. A word of the line itself weighs more than one of
        its smoothed levels or a recovered one, more of which are wrong."""
        return _weight(self.fields.passes[field - 1], tuple(lines))

    def sure_picture(self, field: int) -> Optional[int]:
        """The picture number that a field shows in pass 1 on both lines, or None."""
        shown = self.kinds[Kind.picture].get(field, {})
        return next((number for number, lines in shown.items() if self.weight(field, lines) == 2 * WEIGHTS[1]), None)

    def sure_fields(self, kind: Kind) -> Set[int]:
        """The fields that have a code of this kind on a line of pass 1, or on two lines."""
        passes = self.fields.passes
        return {field for field, values in self.kinds[kind].items()
                if _weight(passes[field - 1], sum(values.values(), ())) >= WEIGHTS[1]}

    def readings(self, found: ByField) -> List[Reading]:
        """The values of these fields as readings."""
        passes = self.fields.passes
        make = cast(Callable[..., Reading], functools.partial(tuple.__new__, Reading))  # there are many
        return [make((field, value, _weight(passes[field - 1], lines), lines, 0))
                for field, values in found.items() for value, lines in values.items()]

    def words_of(self, kinds: Iterable[Kind]) -> List[Tuple[int, int, int, int]]:
        """The different words of kinds that have a line to themselves, in the order of their first fields: each word,
        the count of its fields, and the first and the last of these."""
        found: Dict[int, List[int]] = {}
        for kind in kinds:
            place = STANDARD_LINES[kind][0] - LINES[0]
            for field in self.kinds[kind]:
                found.setdefault(self.fields.words[field - 1][place], []).append(field)
        return sorted([(word, len(fields), fields[0], fields[-1]) for word, fields in found.items()],
                      key=lambda one: one[2])

    def minutes(self) -> ByField:
        """The minutes of CLV times that a clock shows: the values of each field with their lines."""
        shown = self.kinds[Kind.time]
        kept = {field: {value: lines for value, lines in values.items() if value is not None}
                for field, values in shown.items() if None in values}
        return {field: values for field, values in {**shown, **kept}.items() if values}


@functools.lru_cache(maxsize=None)
def _weight(passes: Lines, lines: Lines) -> int:
    """What the words of lines of a field with these passes weigh together: few of either differ."""
    return sum(WEIGHTS[passes[line - LINES[0]]] for line in lines)


def codes_of(fields: Fields) -> Codes:
    """The codes of these fields. If the side has codes of both CAV and CLV, it has the format of which more fields have
    codes, and the codes of the other format are stray."""
    kinds, aside = _collected(fields.words)
    stray = [_stray(fields, field, line, "line") for field, line, is_code in aside if is_code]
    unknown = [Unknown(field, line, *_said(fields, field, line)) for field, line, is_code in aside if not is_code]
    cav, clv = (len(set().union(*(kinds[kind] for kind in names))) for names in (CAV_KINDS, CLV_KINDS))
    is_cav = cav >= clv
    codes = Codes(fields, kinds, "neither" if not cav and not clv else "cav" if is_cav else "clv", stray, unknown)
    for kind in CLV_KINDS if is_cav else CAV_KINDS:
        stray += codes.strays(kind, kinds[kind], "format")
        kinds[kind] = {}
    return codes


class _Known(Dict[int, Any]):
    """Of each word on these lines the fields of its kind, what such a field says by it, and the lines: many fields say
    the same. Where a disc has no such word, nothing is said."""

    def __init__(self, kinds: Dict[Kind, ByField], lines: Lines) -> None:
        self.lines = lines
        self.of_kind = [kinds.get(kind) for kind in Kind]  # by the kind's number
        self.is_there = [lines[0] in STANDARD_LINES.get(kind, ()) for kind in Kind]

    def __missing__(self, word: int) -> Any:
        code = classify(word)
        said = {value_of(code): self.lines} if self.is_there[code.kind] else None
        self[word] = known = self.of_kind[code.kind], said, self.lines
        return known


def _collected(words):
    """Of each kind its fields with what they say; and the lines whose word no disc has there, and if it is a code."""
    kinds, aside = {kind: {} for kind in STANDARD_LINES}, []
    first, second, third, both = [_Known(kinds, lines) for lines in ((16,), (17,), (18,), (17, 18))]

    def take(field, known):
        """Takes in a word of a field."""
        fields, said, lines = known
        if said is None:
            aside.extend((field, line, fields is not None) for line in lines)
        elif field not in fields:
            fields[field] = said
        else:
            fields[field] = merged = dict(fields[field])
            for value in said:
                merged[value] = merged.get(value, ()) + lines

    # no two pictures have the same word, so that it doesn't pay to keep what these say
    pictures, on_both = kinds[Kind.picture], both.lines
    picture_of = usual_pictures(set().union(*([ones[place] for ones in words] for place in (1, 2)))).get
    for field, (one, two, three) in enumerate(words, 1):
        if one:
            take(field, first[one])
        number, other = picture_of(two), picture_of(three)
        if number is not None and other is not None:
            pictures[field] = {number: on_both} if number == other else {number: second.lines, other: third.lines}
        elif two and two == three:
            take(field, both[two])
        else:
            if two:
                take(field, second[two])
            if three:
                take(field, third[three])
    return kinds, aside


def _stray(fields, field, line, why):
    word, of_pass = _said(fields, field, line)
    return Stray(field, line, word, code_of(word).kind, of_pass, why)


def _said(fields, field, line):
    """The word of a line of a field, and its pass."""
    return fields.words[field - 1][line - LINES[0]], fields.passes[field - 1][line - LINES[0]]
