"""Sides with one fault, or with none: a disc that was played through, and what a capture did to it besides. Also a
lead-out for sides that have none."""

from simulate import KINDS, played_through
from simulated_discs import LEAD_OUT
from truth import said_by

from ldvbi import Kind

CAV = tuple(kind for kind in KINDS if kind.startswith("cav"))
ONE_NUMBER = tuple(kind for kind in KINDS if kind not in ("cav-film", "cav-both", "clv-minutes"))
LEAD_OUT_FIELDS = 20  # of a lead-out that is added


def rearranged(side, fields):
    """The side that has these fields of another one, counted from 0, in this order."""
    records = side.document["fields"]
    misread = {}
    for field, line, true in side.misread:
        misread.setdefault(field - 1, []).append((line, true))
    document = dict(side.document, fields=[dict(records[field], seqNo=place) for place, field in enumerate(fields, 1)])
    return side._replace(
        document=document, first=[side.first[field] for field in fields],
        numbers=[side.numbers[field] for field in fields], order=[side.order[field] for field in fields],
        misread=[(place, *one) for place, field in enumerate(fields, 1) for one in misread.get(field, ())])


def lead_in_of(side):
    """The last field before the first number that shows lead-in surely; None if there is none."""
    return max(_fields_with(side, Kind.lead_in, range(1, min(_numbered(side), default=1))), default=None)


def lead_out_of(side):
    """The first field after the last number that shows lead-out surely; None if there is none."""
    fields = range(max(_numbered(side), default=0) + 1, len(side.order) + 1)
    return min(_fields_with(side, Kind.lead_out, fields), default=None)


def _numbered(side):
    """The fields with a number, whether it can be read or not."""
    return (field for field, number in enumerate(side.numbers, 1) if number is not None)


def _fields_with(side, kind, fields):
    """Those of the fields that show a code of this kind on a line of pass 1, or on both lines."""
    for field in fields:
        record = side.document["fields"][field - 1]
        passes = [of_pass for word, of_pass in zip(record["vbi"]["vbiData"][1:], record["vbiPass"][1:])
                  if said_by(word)[0] == kind]
        if 1 in passes or len(passes) == 2:
            yield field


def with_lead_out(side):
    """A side with a lead-out: with fields of one at its end, if none can be read there."""
    if lead_out_of(side):
        return side
    count = len(side.order)
    records = [{"seqNo": field, "vbi": {"vbiData": [0, LEAD_OUT, LEAD_OUT]}, "vbiPass": [0, 1, 1],
                "vbiCause": ["blank", "word", "word"]} for field in range(count + 1, count + LEAD_OUT_FIELDS + 1)]
    place = max(side.order) + 1
    return side._replace(
        document=dict(side.document, fields=side.document["fields"] + records),
        first=side.first + [side.first[-1] == (more % 2 == 1) for more in range(LEAD_OUT_FIELDS)],
        numbers=side.numbers + [None] * LEAD_OUT_FIELDS, order=side.order + list(range(place, place + LEAD_OUT_FIELDS)))


def programme_of(side):
    """The fields, counted from 0, from the first one with a number to the last one."""
    numbered = list(_numbered(side))
    return range(numbered[0] - 1, numbered[-1])


def fields_in(side):
    """The fields of a side, counted from 0."""
    return list(range(len(side.order)))


def twice(rng, side):
    """The capture has one field twice."""
    fields, at = fields_in(side), rng.choice(programme_of(side)[20:-20])
    return rearranged(side, fields[:at] + fields[at - 1:])


def one_lost(rng, side):
    """The capture lacks one field."""
    fields, at = fields_in(side), rng.choice(programme_of(side)[20:-20])
    return rearranged(side, fields[:at] + fields[at + 1:])


def one_swap(rng, side):
    """The capture has two neighbouring fields in each other's place."""
    fields, at = fields_in(side), rng.choice(programme_of(side)[20:-20])
    fields[at:at + 2] = fields[at + 1], fields[at]
    return rearranged(side, fields)._replace(swaps=[at + 1])


def no_lead_out(rng, side):
    """The capture ends with the field of the disc's last number."""
    return rearranged(side, fields_in(side)[:programme_of(side)[-1] + 1])


def cut_off(rng, side):
    """The capture was stopped early, and lacks the last tenth of the programme."""
    programme = programme_of(side)
    return rearranged(side, fields_in(side)[:programme[9 * len(programme) // 10]])


def begun_late(rng, side):
    """The capture was begun late, and lacks the first tenth of the programme."""
    programme = programme_of(side)
    return rearranged(side, fields_in(side)[programme[len(programme) // 10]:])


def film_cut(rng, side):
    """The film of the disc is cut once or twice: from there on its pictures that would last two fields last three, and
    the other way round."""
    for _ in range(rng.choice((1, 1, 2))):
        begins = [field - 1 for field in _numbered(side)]
        cut = rng.randrange(20, len(begins) - 20)
        fields = list(range(begins[cut]))
        for begin, end in zip(begins[cut:], begins[cut + 1:]):
            fields += (begin, begin + 1) if end - begin == 3 else (begin, begin + 1, begin + 1)
        side = rearranged(side, fields + list(range(begins[-1], len(side.order))))
    return side._replace(order=fields_in(side))


def none(rng, side):
    """Nothing is wrong with the capture."""
    return side


# The faults, each with its layouts in turn
FAULTS = {"sound": (none, KINDS), "twice": (twice, KINDS), "one lost": (one_lost, KINDS),
          "one swap": (one_swap, ONE_NUMBER), "no lead-out": (no_lead_out, KINDS), "cut off": (cut_off, KINDS),
          "begun late": (begun_late, KINDS), "both": (none, ("cav-both",)), "film cut": (film_cut, ("cav-film",))}


def faulty(rng, fault, seed, count=None):
    """The side of this seed with a fault of FAULTS."""
    change, layouts = FAULTS[fault]
    layout = layouts[seed % len(layouts)]
    side = with_lead_out(played_through(seed, layout, count))
    return change(rng, side)._replace(kind=fault)
