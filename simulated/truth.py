"""What is to be answered of a simulated side: made from its truth, and from what can still be read of it."""

import bisect
import functools

from ldvbi import Kind
from ldvbi.codes import CAV_KINDS, CLV_KINDS, LINES, STANDARD_LINES, code_of, value_of

NUMBER_KINDS = {Kind.picture, Kind.time, Kind.clv_picture}


def number_of(text, rate, unit):
    """A number of the answer as the count that the truth has; None, and what is a count, as they are."""
    if unit == "picture" or not isinstance(text, str):
        return text
    if unit == "minute":
        hours, minutes = text.split(":")
        return 60 * int(hours) + int(minutes)
    hours, minutes, rest = text.split(":")
    seconds, picture = rest.split(".")
    return ((60 * int(hours) + int(minutes)) * 60 + int(seconds)) * rate + int(picture)


@functools.lru_cache(maxsize=None)
def said_by(word):
    """The kind of a word, its value, and the lines on which it counts."""
    code = code_of(word)
    return (code.kind, value_of(code), STANDARD_LINES.get(code.kind, ())) if code else (None, None, ())


class Truth:
    """`read` is the first field in which each number can be read, `chapters` that of each chapter; `right` and
    `right_chapters` are the lines whose word says a number or a chapter rightly, `wrong` and `wrong_chapters` those
    that say one wrongly; `missing` the numbers of the disc that can't be read, each with why (`unread` where a field
    has it, else `lost`), `left_out` those that the disc hasn't; `due` are pairs of a number and the field that has it
    where it can't be read, between two fields whose numbers can; `lost` how many fields are lost after which field,
    `hidden` the numbers that the disc hasn't inside such a loss, where no field shows that, by its field;
    `backs` the fields after which the disc's order is broken; `inserted` and `replaced` are detours, whose ends are
    neither: the capture goes on after them where it left the disc, or as if it had played on meanwhile; `searches` how
    many fields too many (or, negative, too few) each search in the dark has for the numbers that it passes over,
    `swaps` and `speeds` as far as numbers show them."""

    def __init__(self, side):
        self.side = side
        self.rate = 25 if side.document["videoParameters"]["system"] == "PAL" else 30
        self.misread = {(field, line) for field, line, _ in side.misread}
        self.kinds = {}  # of each field the kinds that can be read
        self.read, self.chapters, self.stops = {}, {}, []
        self.right, self.right_chapters, self.wrong, self.wrong_chapters = set(), set(), set(), set()
        self.numbered = [field for field, record in enumerate(side.document["fields"], 1)
                         if self._look_at(field, record["vbi"]["vbiData"])]
        self.inserted = [one for one in side.detours if self._over(*one) == 1]
        self.replaced = [(first, last) for first, last in side.detours if self._over(first, last) == last - first + 2]
        self._find_missing()
        self._find_due()
        self._find_lost()
        self.searches = [off for off in map(self._searched, self.numbered, self.numbered[1:]) if off is not None]
        self.swaps = [field for field in side.swaps if self._is_seen(field)]
        self.speeds = [] if side.layout == "clv-minutes" else side.speeds

    def _over(self, first, last):
        """How far the field after a detour is from the one before it, on the disc."""
        return self.side.order[last] - self.side.order[first - 2]

    def _look_at(self, field, words):
        """Takes in a field; answers whether its number can be read."""
        kinds = self.kinds[field] = set()
        for line, word in zip(LINES, words):
            kind, value, lines = said_by(word)
            if line not in lines:
                continue
            is_wrong = (field, line) in self.misread
            if kind in NUMBER_KINDS and field not in self.side.other:
                (self.wrong if is_wrong else self.right).add((field, line))
            if kind == Kind.chapter:
                (self.wrong_chapters if is_wrong else self.right_chapters).add((field, line))
            if is_wrong:
                continue
            kinds.add(kind)
            if kind == Kind.chapter:
                self.chapters.setdefault(value, field)
        if Kind.picture_stop in kinds and field not in self.side.other and self._is_told_to_stop(field):
            self.stops.append(field)
        number = self.side.numbers[field - 1]
        if number is None or not kinds & NUMBER_KINDS:
            return False
        if self._is_read(field):
            self.read.setdefault(number, field)
        return True

    def _is_told_to_stop(self, field):
        """Whether lines 16 and 17 show the disc's stop surely: one of them in pass 1, or both."""
        record = self.side.document["fields"][field - 1]
        passes = [of_pass for line, word, of_pass in zip(LINES, record["vbi"]["vbiData"], record["vbiPass"])
                  if line < 18 and said_by(word)[0] == Kind.picture_stop and (field, line) not in self.misread]
        return 1 in passes or len(passes) == 2

    def _is_read(self, field):
        """Whether a field shows its number: of a time its own minute needn't be read."""
        return bool(self.kinds[field] & {Kind.picture, Kind.clv_picture}) or self.side.layout == "clv-minutes"

    def _find_missing(self):
        """Where nothing can be read between two joined discs, what lies between their numbers can't be told from those
        that are missing."""
        on_disc, between = set(self.side.on_disc), set(self.side.between)
        if not self.join_is_seen():
            on_disc |= between
        span = range(min(self.read), max(self.read) + 1) if self.read else ()
        captured = set(self.side.numbers)
        self.missing = {number: "unread" if number in captured else "lost"
                        for number in span if number not in self.read and number in on_disc}
        self.left_out = {number for number in span if number not in on_disc and number not in between}

    def join_is_seen(self):
        """Whether lead-out or lead-in can be read between two joined discs, in pass 1 or on two lines."""
        place = bisect.bisect_left(self.numbered, self.side.second or 0)
        if self.side.second is None or not 0 < place < len(self.numbered):
            return False
        for field in range(self.numbered[place - 1] + 1, self.numbered[place]):
            record = self.side.document["fields"][field - 1]
            passes = [of_pass for word, of_pass in zip(record["vbi"]["vbiData"], record["vbiPass"])
                      if said_by(word)[0] in (Kind.lead_in, Kind.lead_out)]
            if 1 in passes or len(passes) == 2:
                return True
        return False

    def _find_due(self):
        """Of a picture with its number on both fields neither is read, and the first one is meant."""
        self.due, numbers = set(), self.side.numbers
        if not self.numbered or self.side.layout == "clv-minutes":
            return
        for field in range(self.numbered[0], self.numbered[-1]):
            number = numbers[field - 1]
            if number is None or self._is_read(field) or number == numbers[field - 2]:
                continue
            if number != numbers[field] or not self._is_read(field + 1):
                self.due.add((number, field))

    def _find_lost(self):
        """Losses and jumps back that numbers can show: those between two fields whose numbers can be read. Where two
        discs are joined, and at another speed, no field is lost."""
        self.lost, self.hidden, self.backs = {}, {}, []
        side, order = self.side, list(self.side.order)
        if not self.numbered or side.layout == "clv-minutes":
            self._find_lost_of_minutes(order)
            return
        for field in side.swaps:
            order[field - 1:field + 1] = order[field], order[field - 1]
        for place, (before, after) in enumerate(zip(order, order[1:]), 1):
            if not self.numbered[0] <= place < self.numbered[-1] or place + 1 == side.second:
                continue
            if side.dark & {place, place + 1} or any(first <= place < last for first, last, _ in side.speeds):
                continue
            if any(place in (first - 1, last) for first, last in self.inserted + self.replaced):
                continue
            if after - before > 1:
                self.lost[place] = after - before - 1
                self.hidden[place] = self.left_out & set(self._passed_over(place))
            elif after <= before:
                self.backs.append(place)

    def _find_lost_of_minutes(self, order):
        """Minutes show what is lost of one that is neither the first nor the last, in a run without a jump back, where
        that is more than what isn't read at its ends: a hundred fields."""
        numbers, steps = self.side.numbers, list(enumerate(zip(order, order[1:]), 1))
        is_long = len(set(numbers)) > 4 and all(after > before for _, (before, after) in steps)
        for place, (before, after) in steps if is_long else ():
            around = [number for number in numbers[place - 1:place + 1] if number is not None]
            if after - before > 100 and min(set(numbers) - {None}) < min(around, default=-1) and (
                    max(around) < max(set(numbers) - {None})):
                self.lost[place], self.hidden[place] = after - before - 1, set()

    def _searched(self, before, after):
        """The fields that are too many between two that show numbers, or None where there is no search in the dark."""
        if not self.side.dark.intersection(range(before + 1, after)):
            return None
        return after - before - self.side.order[after - 1] + self.side.order[before - 1]

    def _passed_over(self, place):
        """The numbers between the field of this place and the next one."""
        numbers = self.side.numbers
        before = next(number for number in numbers[place - 1::-1] if number is not None)
        return range(before + 1, next(number for number in numbers[place:] if number is not None))

    def _is_seen(self, field):
        """Whether the numbers can show that this field and the next one are swapped."""
        one, other = self.side.numbers[field - 1:field + 1]
        return self.side.layout != "clv-minutes" and one != other and any(
            number is not None and self._is_read(near) for near, number in ((field, one), (field + 1, other)))


class Reasons:
    """Why a side isn't whole, and why that can't be told, as far as its truth says it: of each reason True, False, or
    None where it doesn't."""

    def __init__(self, truth):
        self.truth, self.side = truth, truth.side
        self.no = {
            "lost": self._or_before(self._lost()), "jumps": self._jumps(),
            "missing": self._or_before(self._or_clock("lost" in truth.missing.values())), "begins": self._begins(),
            "joined": self._joined(), "format": self._format(), "metadata": False, "cut": False,
            "swapped": bool(truth.swaps), "speed": self._speed(),
            "detours": bool(truth.inserted) if self.side.detours else None}
        self.open = {"numbers": not truth.read, "line": False, "doubtful": self._doubtful(), "judged": False,
                     "ends": False, "undecided": None, "order": None}

    def _begins(self):
        """Of the numbers before the least that can be read, from the disc's first one on, the capture lacks some."""
        if self.side.second or self._joined():
            return None  # the first side may begin late, and the other one have its numbers
        first = 0 if self.side.layout == "clv-minutes" else 1
        captured, on_disc = set(self.side.numbers), set(self.side.on_disc)
        return any(number not in captured and (number in on_disc or number < min(on_disc))
                   for number in range(first, min(self.truth.read, default=0)))

    def _or_before(self, is_so):
        """What a side lacks at its beginning is lost, too, if its first number is the least one."""
        return is_so or (is_so if self._begins() is False else None)

    def _or_clock(self, is_so):
        """In a short stretch a number that the clock leaves out is undecided."""
        return is_so or (None if self.truth.left_out else False)

    def _speed(self):
        """A disc that is turned by hand may go by as at another speed for a while."""
        return bool(self.truth.speeds) or (None if self.side.kind == "turned" else False)

    def _lost(self):
        if any(off < 0 for off in self.truth.searches):
            return True
        if self.side.layout == "clv-minutes" and not self.truth.lost:
            order = self.side.order
            return None if any(after - before != 1 for before, after in zip(order, order[1:])) else False
        is_so = self._or_clock(bool(self.truth.lost))
        return is_so if self.truth.join_is_seen() else self._beside_a_join(is_so)

    def _beside_a_join(self, is_so):
        """Two discs that are joined look like a jump, and where nothing is seen between them like a loss, too."""
        return is_so or (None if self.side.second and not self.side.other else is_so)

    def _jumps(self):
        """A still is none, but where most of it can't be read it looks like one. Minutes show few jumps."""
        order = self.side.order
        if any(off > 0 for off in self.truth.searches):
            return True
        if self._joined():
            return None  # which looks like another side
        if self.side.layout == "clv-minutes" and any(after <= before for before, after in zip(order, order[1:])):
            return None
        if any(abs(order[place] - order[place - 1]) > 2 for place in self.truth.backs):
            return True
        return None if self.truth.backs else self._beside_a_join(False)

    def _joined(self):
        """The last number may stay beside lead-out."""
        kinds, numbered, numbers = self.truth.kinds, self.truth.numbered, self.side.numbers
        if not numbered:
            return False
        others = (field for field in reversed(numbered) if numbers[field - 1] != numbers[numbered[-1] - 1])
        last = numbered[bisect.bisect(numbered, next(others, 0))]
        return any(Kind.lead_in in kinds[field] and field > numbered[0] or Kind.lead_out in kinds[field] and
                   field < last for field in kinds)

    def _format(self):
        fields = [field for field in sorted(self.side.other) if self.truth.kinds[field] & set(CAV_KINDS + CLV_KINDS)]
        return any(after - before <= 2 for before, after in zip(fields, fields[1:]))

    def _doubtful(self):
        """A tenth of the fields: beside that it isn't known."""
        wrong, shown = ({field for field, _ in places} for places in (self.truth.wrong,
                                                                      self.truth.wrong | self.truth.right))
        return None if 20 * len(wrong) > len(shown) else False
