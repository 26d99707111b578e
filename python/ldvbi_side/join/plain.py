"""What captures have together as plain data, in the form that share/schema/ldvbi-join.schema.json has."""

from typing import Any, Dict

from ..as_json import entries, entry
from .entries import Joined


def as_json(joined: Joined) -> Dict[str, Any]:
    """The plain data of what captures have together."""
    return entry(
        joined, captures=[entry(one, numbers=entry(one.numbers)) for one in joined.captures],
        numbers=entry(joined.numbers), missing=entries(joined.missing), leftOut=entries(joined.left_out),
        lacks=entries(joined.lacks), alone=entries(joined.alone), better=entries(joined.better),
        alike=entries(joined.alike), reasons=entries(joined.reasons), chapters=entries(joined.chapters),
        stops=entries(joined.stops), taken=list(map(list, joined.taken)), ranges=entries(joined.ranges),
        disagreements=[entry(one, between=entries(one.between)) for one in joined.disagreements])
