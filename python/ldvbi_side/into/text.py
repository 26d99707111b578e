"""A JSON document of ld-decode's metadata, copied with the words of its fields."""

import heapq
import json
import shutil
from array import array
from typing import IO, Any, Dict, Iterable, Iterator, List, Optional, Tuple

from ldvbi.metadata import read_metadata
from ldvbi.scanner import PIECE
from .field import MEMBER, Words, place_of_member, place_of_words

Edit = Tuple[int, int, str]  # a part of a text, from its begin to its end, and what comes in its place


class Places:
    """Where the words of each field go in a document, and the member that says which words these are. As the document
    is read, each field and each other member has to be added. Nothing more of the document is kept."""

    def __init__(self) -> None:
        self._begins, self._ends, self._forms = array("Q"), array("Q"), array("Q")
        self._numbers: Dict[str, int] = {}  # of each form; a document has few
        self._members: List[Tuple[int, int]] = []  # where an older copy says which words it has
        self._written = array("I")  # the words that a copy has got
        self._said = ""  # which words these are

    def __len__(self) -> int:
        return len(self._begins)

    def add(self, begin: int, text: str, field: Any) -> None:
        """Adds the next field: its place in the document, its text and its value."""
        number = len(self) + 1
        try:
            place = place_of_words(text, field, number)
        except ValueError as error:
            raise ValueError("field %d: %s" % (number, error)) from None
        self._begins.append(begin + place.begin)
        self._ends.append(begin + place.end)
        self._forms.append(self._numbers.setdefault(place.form, len(self._numbers)))

    def add_member(self, name: str, begin: int, text: str) -> None:
        """Adds a member beside the fields: its name, and the place and the text of its value."""
        if name == MEMBER:
            self._members.append((begin, begin + len(text)))

    def copy(self, old: IO[str], new: IO[str], words: Iterable[Words], said: str) -> None:
        """Copies the document, a text file that was opened with newline="", with the words of each field in turn, and
        with what is said of them."""
        self._said = said
        head = old.read(PIECE)
        old.seek(0)
        at = 0
        for begin, end, text in heapq.merge(self._edits(words), self._edits_of_member(head)):
            new.write(old.read(begin - at))
            new.write(text)
            old.read(end - begin)
            at = end
        shutil.copyfileobj(old, new)

    def _edits(self, words: Iterable[Words]) -> Iterator[Edit]:
        forms = list(self._numbers)
        for begin, end, form, three in zip(self._begins, self._ends, self._forms, words):
            self._written.extend(three)
            yield begin, end, forms[form] % three

    def _edits_of_member(self, head: str) -> List[Edit]:
        """Those of the member, in a document that begins so: it is changed if it is there, else added."""
        if self._members:
            return [(begin, end, json.dumps(self._said)) for begin, end in self._members]
        place = place_of_member(head)
        return [(place.begin, place.end, place.form % self._said)]

    def other_in(self, path: str) -> Optional[str]:
        """What a copy has that is other than what was to be written; None if it has all words, and says which."""
        shown, said = array("I"), set()

        def take(_begin: int, _text: str, field: Any) -> None:
            shown.extend(field["vbi"]["vbiData"])

        def take_member(name: str, _begin: int, text: str) -> None:
            if name == MEMBER:
                said.add(text)
        read_metadata(path, take, on_member=take_member)
        if len(shown) != len(self._written):
            return "%d fields" % (len(shown) // 3)
        if said != {json.dumps(self._said)}:
            return MEMBER
        return next(("words in field %d" % (place // 3 + 1) for place, (one, other) in
                     enumerate(zip(shown, self._written)) if one != other), None)
