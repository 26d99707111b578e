"""Sides as discs and players really are: scratches that stand still, film with video in it, a player that jumps and
comes back, a last number that stays beside lead-out, and a field whose parity the metadata has wrong. Each is made of a
disc that was played through, as the faults of simulated_faults.py are."""

import random

from simulate import KINDS, played_through
from simulated_captures import changeable
from simulated_discs import LEAD_OUT
from simulated_faults import CAV, fields_in, programme_of, rearranged, with_lead_out
from truth import NUMBER_KINDS, said_by

TIMES_OR_PICTURES = tuple(kind for kind in KINDS if kind != "clv-minutes")
SEEN = (1, 1, 0.9, 0.5)  # shares of a scratch's words that are read
OF_OTHER_LINE = (0, 0.5, 1, 1)  # shares of the other line's words that aren't


def begins_of(side):
    """The fields, counted from 0, in which a number begins."""
    return [field for field, number in enumerate(side.numbers) if number is not None and (
        field == 0 or number != side.numbers[field - 1])]


def scratched(rng, side):
    """A scratch stands at the same columns of 5 to 200 pictures: of one line a bit is always 0, or always 1, and the
    other line is read there, or in half of the fields, or not at all. Once or twice on a side."""
    records = [dict(record, vbi={"vbiData": list(record["vbi"]["vbiData"])}, vbiPass=list(record["vbiPass"]),
                    vbiCause=list(record["vbiCause"])) for record in side.document["fields"]]
    true = {(field, line): word for field, line, word in side.misread}
    begins = begins_of(side)
    for _ in range(rng.choice((1, 1, 2))):
        count = min(rng.choice((rng.randrange(5, 20), rng.randrange(10, 60), rng.randrange(40, 200))), len(begins) - 1)
        at = rng.randrange(1, len(begins) - count + 1)
        line = rng.choice((17, 18) if side.layout.startswith("cav") else (16, 17, 18))
        scratch = Scratch(rng, line)
        for field in begins[at:at + count]:
            scratch.read(field + 1, records[field], true)
    document = dict(side.document, fields=records)
    return side._replace(document=document, misread=sorted((*place, word) for place, word in true.items()))


class Scratch:
    """What a scratch makes of words. `digit` and `bit` say which bit of a word, `is_set` what it always is."""

    def __init__(self, rng, line):
        self.rng, self.line = rng, line
        self.bit, self.is_set = 1 << rng.randrange(4), rng.random() < 0.5
        self.of_pass, self.seen, self.other = rng.choice((1, 2, 3, 3)), rng.choice(SEEN), rng.choice(OF_OTHER_LINE)
        self.digit = None

    def read(self, field, record, true):
        """Reads the lines of a field. `true` gets the true word of each that is misread."""
        words = record["vbi"]["vbiData"]
        for line in (17, 18) if self.line > 16 else ():
            if line != self.line and self.rng.random() < self.other:
                _without_word(record, line)
                true.pop((field, line), None)
        word = true.get((field, self.line), words[self.line - 16])
        if said_by(word)[0] not in NUMBER_KINDS:
            return
        if self.rng.random() >= self.seen:
            _without_word(record, self.line)
            true.pop((field, self.line), None)
            return
        if self.digit is None:
            self.digit = self.rng.choice(changeable("%06X" % word))
        mask = self.bit << 4 * (5 - self.digit)
        said = word | mask if self.is_set else word & ~mask
        words[self.line - 16] = said
        record["vbiPass"][self.line - 16] = self.of_pass
        record["vbiCause"][self.line - 16] = "word"
        if said == word:
            true.pop((field, self.line), None)
        else:
            true[field, self.line] = word


def _without_word(record, line):
    """A line of a field shows no word."""
    record["vbi"]["vbiData"][line - 16] = record["vbiPass"][line - 16] = 0
    record["vbiCause"][line - 16] = "change 300"


def video_in_film(rng, side):
    """A film has one to three stretches of video, of 5 to 60 pictures with two fields each. On a third of the sides
    some of these pictures aren't read, and on another third up to 20 fields of the side are lost."""
    begins = begins_of(side)
    gone, stretches = set(), []
    for _ in range(rng.choice((1, 1, 2, 3))):
        count = rng.randrange(5, min(60, len(begins) // 4))
        at = rng.randrange(10, len(begins) - count - 10)
        stretches.append((at, count))
        gone |= {end - 1 for begin, end in zip(begins[at:at + count], begins[at + 1:]) if end - begin == 3}
    kept = [field for field in fields_in(side) if field not in gone]
    damage, (at, count) = rng.randrange(3), stretches[0]
    side = rearranged(side, kept)._replace(order=list(range(len(kept))))
    begins = begins_of(side)
    if damage == 1:
        unread = rng.randrange(1, min(count, 9))
        begin = begins[at + rng.randrange(count - unread)]
        side = _unread(side, [field for field in begins if begin <= field][:unread])
    elif damage == 2:
        programme, many = programme_of(side), rng.randrange(1, 21)
        begin = rng.randrange(programme[0] + 20, programme[-1] - 40)
        fields = fields_in(side)
        side = rearranged(side, fields[:begin] + fields[begin + many:])
    return side


def _unread(side, fields):
    """The side with these fields, counted from 0, without a word."""
    records = list(side.document["fields"])
    for field in fields:
        records[field] = dict(records[field], vbi={"vbiData": [0, 0, 0]}, vbiPass=[0, 0, 0],
                              vbiCause=["change 300"] * 3)
    gone = {field + 1 for field in fields}
    return side._replace(document=dict(side.document, fields=records),
                         misread=[one for one in side.misread if one[0] not in gone])


def away(rng, side):
    """The player jumps 10 pictures or more, plays 3 to 60, and comes back: on a third of the sides to the place from
    which it jumped, on another third as if it had played on meanwhile, else some pictures before or after that."""
    fields, begins = fields_in(side), begins_of(side)
    count = rng.randrange(3, min(61, len(begins) // 4))
    at = rng.randrange(20, len(begins) - count - 20)
    far = [place for place in range(len(begins) - count) if not at - count - 10 < place < at + count + 10]
    to = rng.choice(far or [0])
    shown = fields[begins[to]:begins[to + count]]
    back = begins[at] + rng.choice((0, len(shown), 2 * rng.randrange(-20, 21)))
    back = min(max(back, begins[0]), begins[-1])
    first = begins[at] + 1
    return rearranged(side, fields[:begins[at]] + shown + fields[back:])._replace(
        detours=((first, first + len(shown) - 1),))


def frozen(rng, side):
    """The disc's last number stays for up to 20 pictures, and stands on one line beside lead-out on the other in up to
    five."""
    last = begins_of(side)[-1]
    fields, begin = fields_in(side), last + 2
    stays, beside = rng.randrange(21), rng.randrange(6)
    shown = (stays + beside) * [last, last + 1]
    side = rearranged(side, fields[:begin] + shown + fields[begin:])
    records, misread = list(side.document["fields"]), list(side.misread)
    for place in range(begin + 2 * stays, begin + len(shown)):
        record = dict(records[place], vbi={"vbiData": list(records[place]["vbi"]["vbiData"])},
                      vbiPass=list(records[place]["vbiPass"]), vbiCause=list(records[place]["vbiCause"]))
        for line in (17, 18) if place % 2 != begin % 2 else (rng.choice((17, 18)),):
            record["vbi"]["vbiData"][line - 16] = LEAD_OUT
            record["vbiPass"][line - 16], record["vbiCause"][line - 16] = 1, "word"
            misread = [one for one in misread if one[:2] != (place + 1, line)]
        records[place] = record
    return side._replace(document=dict(side.document, fields=records), misread=misread)


def wrong_parity(rng, side):
    """The metadata has isFirstField of one field wrong."""
    at = rng.choice(programme_of(side)[20:-20])
    return side._replace(first=[is_first != (field == at) for field, is_first in enumerate(side.first)],
                         has_parity=True)


# The kinds, each with its layouts in turn
REAL = {"scratched": (scratched, TIMES_OR_PICTURES), "video in film": (video_in_film, ("cav-film",)),
        "away": (away, TIMES_OR_PICTURES), "frozen": (frozen, CAV),
        "wrong parity": (wrong_parity, TIMES_OR_PICTURES)}


def real(kind, seed, count=None):
    """The side of this seed of a kind of REAL, with a lead-out."""
    change, layouts = REAL[kind]
    rng = random.Random("%s %d" % (kind, seed))
    side = with_lead_out(played_through(seed, layouts[seed % len(layouts)], count))
    return change(rng, side)._replace(kind=kind)
