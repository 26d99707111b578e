"""Due numbers that their lines still show: a worn line shows no word, or another one, but its nearest word is that of
the number. No margin is asked for, since the numbers around leave no other number."""

from typing import Dict, Optional, Tuple

from ..judge.places import Places, Showing
from ..judge.readings import NearestWord
from ..near import says

# Of a unit the lines that are tried together, each time the first and the last of them
_PILES: Dict[Optional[str], Tuple[Tuple[int, int], ...]] = {
    "picture": ((17, 17), (18, 18), (17, 18)), "time": ((16, 16),)}


def with_confirmed(places: Places, nearest_word: Optional[NearestWord]) -> Places:
    """The places, with each due number counted as shown if it is the nearest word of its lines."""
    unit = places.numbers.unit
    if nearest_word is None:
        return places
    confirmed = {(number, field) for number, field in places.due if any(
        says(word, number, unit) for pile in _PILES[unit.name] for word in [nearest_word(field, *pile)] if word)}
    showings = places.showings + [Showing(number, field, field) for number, field in confirmed]
    return places._replace(showings=sorted(showings, key=lambda showing: showing.first),
                           confirmed=tuple(sorted(field for _, field in confirmed)),
                           due=[one for one in places.due if one not in confirmed])
