"""What holds of every answer, by the words of its side alone, whatever the truth is."""

import bisect
import math

import ldvbi
from ldvbi import Kind
from ldvbi.codes import LINES
from truth import NUMBER_KINDS, number_of, said_by

OWN = {"cav": (Kind.picture,), "clv": (Kind.time, Kind.clv_picture)}
CX = (Kind.cx_on, Kind.cx_off)
OTHERS = {"picture": (Kind.chapter,), "time": (Kind.chapter,) + CX}
COUNTED = {Kind.chapter, *NUMBER_KINDS, *CX}
PASS_WEIGHTS = (0, 2, 1, 1)  # of no word, of one of pass 1, of pass 2, and of a recovered one
MINUTE_FIELDS = 3600
SHORTEST = {"NTSC": 3590, "PAL": 3000}  # fields of a minute
SPARSE = 20  # numbers of a disc of which it is seen that it has them on some pictures alone


class Sound:
    """The faults of an answer for the plain data of a side, as texts."""

    def __init__(self, fields, answer):
        self.fields, self.answer = fields, answer
        self.unit, rate = answer["unit"], 25 if fields.system == "PAL" else 30
        self.minute = 60 * rate
        self.number_of = lambda text: number_of(text, rate, self.unit)
        self.faults = []
        places = [(one["field"], one["line"]) for one in answer["doubtful"] + answer["stray"]]
        self.aside = set(places)
        self.believed = {field: self.number_of(number) for number, first, last in answer["showings"]
                         for field in range(first, last + 1)}
        self.numbered = sorted(self.believed)
        self.codes, self.misplaced = self._codes()
        if len(self.aside) < len(places):
            self.faults.append("a word is set aside twice")
        self.ends = [field for field, words in enumerate(fields.words, 1) if self._has_end(field, words)]
        self._look_at_words()
        self._look_at_conflicts()
        self._look_at_whole()
        self._look_at_places()
        if self.unit in OTHERS:
            self._look_at_judged()
            self._look_at_unread()
            self._look_at_doubtful()
            self._look_at_lost()
            self._look_at_dark_and_sparse()
        if self.unit == "picture":
            self._look_at_pictures()
        if self.unit == "time":
            self._look_at_minutes()
        if self.unit == "minute":
            self._look_at_room()

    def _codes(self):
        """The codes with a number, by field: the kind, the value, the line and the pass. Those that stand on a line of
        another kind are for themselves."""
        codes, misplaced = {}, []
        for field, words in enumerate(self.fields.words, 1):
            codes[field] = []
            for line, word in zip(LINES, words):
                kind, value, lines = said_by(word)
                if kind not in COUNTED:
                    continue
                if line in lines:
                    codes[field].append((kind, value, line, self.fields.passes[field - 1][line - LINES[0]]))
                else:
                    misplaced.append((field, line))
        return codes, misplaced

    def around(self, field):
        """The believed fields before and after a field."""
        before, after = bisect.bisect_left(self.numbered, field), bisect.bisect(self.numbered, field)
        return self.numbered[max(before - 1, 0):before] + self.numbered[after:after + 1]

    def _look_at_words(self):
        """Each number and each chapter is believed or set aside, and not both."""
        chapters = {field: one["chapter"] for one in self.answer["chapters"]
                    for field in range(one["field"], one["last"] + 1)}
        torn = {one["field"] for one in self.answer["chapterConflicts"] if one["taken"] is None}
        own = OWN.get(self.answer["format"], ())
        found = []
        for field, codes in self.codes.items():
            for kind, value, line, _ in codes:
                if kind == Kind.chapter:
                    is_so = chapters.get(field) == value and field not in torn
                elif kind in CX:
                    continue
                else:
                    is_so = kind in own and self._says(field, kind, value)
                if is_so == ((field, line) in self.aside):
                    found.append((field, line))
        found += [place for place in self.misplaced if place not in self.aside]
        self.faults += ["field %d, line %d: believed and set aside, or neither" % place for place in found]

    def _says(self, field, kind, value):
        """Whether a number of a field is what is believed of it. Of a field without a believed time the minute is the
        one that the times around it have there."""
        number = self.believed.get(field)
        if kind == Kind.time and self.unit == "time":
            due = [number] if number is not None else [
                self.believed[near] + (field - near) // 2 + more for near in self.around(field) for more in (-1, 0, 1)]
            return value in [one // self.minute for one in due]
        if kind == Kind.clv_picture:
            return self.unit == "time" and number is not None and (
                value == divmod(number % self.minute, self.minute // 60))
        return number is not None and value == number

    def _look_at_judged(self):
        """What the library believes of a field is believed, unless it stands in the place of other numbers."""
        counted = ldvbi.Counted.times if self.unit == "time" else ldvbi.Counted.pictures
        pace = ldvbi.Pace.film if self.answer["pace"] == "film" else ldvbi.Pace.video
        for field, (number, state) in enumerate(ldvbi.judge(self.fields.packed, self.fields.system, counted, pace), 1):
            if state == ldvbi.State.believed and self.believed.get(field) != number and not any(
                    one["kind"] == "replaced" and one["first"] <= field <= one["last"]
                    for one in self.answer["detours"]):
                self.faults.append("field %d: the library believes another number" % field)

    def _look_at_conflicts(self):
        """Each field whose lines 17 and 18 have two numbers is named as that, with the one that is believed."""
        kinds = {"cav": Kind.picture, "clv": Kind.time}
        wanted = []
        own = kinds.get(self.answer["format"])
        for field, codes in self.codes.items():
            values = [value for kind, value, _, _ in codes if kind == own and value is not None]
            if len(set(values)) == 2:
                number = self.believed.get(field)
                taken = number // self.minute if self.unit == "time" and number is not None else number
                wanted.append((field, values, taken if taken in values else None))
        as_number = self.number_of if self.unit == "picture" else lambda text: text and number_of(text, 0, "minute")
        found = [(one["field"], [as_number(one["line17"]), as_number(one["line18"])], as_number(one["taken"]))
                 for one in self.answer["conflicts"]]
        self.faults += ["field %d: lines that differ" % one[0] for one in wanted + found
                        if one not in wanted or one not in found]

    def _look_at_unread(self):
        """No number is due where another code stands, and 'none was read there' is said only where none was."""
        own = Kind.picture if self.unit == "picture" else Kind.clv_picture
        for one in self.answer["unread"]:
            weight = 0
            for kind, _, _, of_pass in self.codes[one["field"]]:
                weight += PASS_WEIGHTS[of_pass] if kind in OTHERS[self.unit] else 0
                if kind == own and one["read"] is None:
                    self.faults.append("a number was read in field %d" % one["field"])
            if weight > 1:
                self.faults.append("due in field %d, which has another code" % one["field"])

    def _has_end(self, field, words):
        """Whether a field has lead-in or lead-out in pass 1, or on two lines."""
        passes = [of_pass for word, of_pass in zip(words[1:], self.fields.passes[field - 1][1:])
                  if said_by(word)[0] in (Kind.lead_in, Kind.lead_out)]
        return 1 in passes or len(passes) == 2

    def _look_at_places(self):
        """Nothing is lost after the last number, or between two sides, but that minute 0 may lack fields after
        lead-in. Before the first number no more is than the disc has there. A still has no other number in between. No
        number is due where both lines say another one in pass 1."""
        for one in self.answer["lost"]:
            is_minute = self.unit == "minute" and one["after"] in self.ends
            if self.numbered and one["before"] == self.numbered[0]:
                each = 2.5 if self.answer["pace"] == "film" else 2 * (self.minute if self.unit == "minute" else 1)
                if each * self.believed[one["before"]] < one["fields"] + one["before"] - one["after"] - 1:
                    self.faults.append("%(fields)d fields are lost before field %(before)d" % one)
            elif not self.numbered or not is_minute and self.numbered[0] > one["after"] or not (
                    one["after"] < one["before"] <= self.numbered[-1]):
                self.faults.append("lost beside the numbers, after field %d" % one["after"])
            if any(one["after"] < field < one["before"] for field in self.ends):
                self.faults.append("lost between two sides, after field %d" % one["after"])
        for one in self.answer["stills"]:
            shown = {self.believed.get(field) for field in range(one["first"], one["last"] + 1)}
            if shown - {None, self.number_of(one["number"])}:
                self.faults.append("another number in the still from field %d on" % one["first"])
        for one in self.answer["unread"]:
            said = [value for kind, value, _, of_pass in self.codes[one["field"]]
                    if kind == Kind.picture and of_pass == 1 and self.unit == "picture"]
            if len(said) == 2 and said[0] == said[1]:
                self.faults.append("due in field %d, which says another number" % one["field"])

    def _look_at_doubtful(self):
        """No number fits the believed ones on both sides of it and is set aside."""
        for one in self.answer["doubtful"]:
            if one["kind"] not in ("picture", "clv picture") or one["number"] is None or one["field"] in self.believed:
                continue
            around = [near for near in (one["before"], one["after"]) if near]
            if [near["field"] for near in around] != self.around(one["field"]):
                self.faults.append("field %d has other numbers around" % one["field"])
            if len(around) == 2 and all(self._fits(one, near) for near in around):
                self.faults.append("field %d fits and is doubtful" % one["field"])

    def _fits(self, one, near):
        """Whether a doubtful number is as far from a believed one on the disc as in the capture. Of film this is sure
        where an even count of pictures lies between."""
        fields, number = one["field"] - near["field"], self.number_of(near["number"])
        if one["kind"] == "clv picture":
            due = number + fields // 2
            return fields % 2 == 0 and one["number"] == "%02d.%02d" % divmod(due % self.minute, self.minute // 60)
        pictures = one["number"] - number
        if self.answer["pace"] == "film":
            return pictures % 2 == 0 and 2 * fields == 5 * pictures
        return fields == 2 * pictures

    def _look_at_lost(self):
        """No more numbers are lost between two fields than fields are lost there: each lost number had a field to
        itself, and what was between two of them is lost, or stands there."""
        found = {}
        for one in self.answer["missing"]:
            if one["why"] == "lost" and one["after"] < one["before"]:
                place = one["after"], one["before"]
                least = max(one["count"], 2 * one["count"] - one["before"] + one["after"])
                found[place] = found.get(place, 0) + least
        lost = [(one["after"], one["before"], one["fields"]) for one in self.answer["lost"]]
        jumps = [(one["after"], one["before"]) for one in self.answer["breaks"] if one["kind"] != "lost"]
        jumps += [(one["first"] - 1, one["last"] + 1) for one in self.answer["speeds"]]
        for (begin, end), least in found.items():
            if end <= self._late_begin() or any(begin < before and after < end for after, before in jumps):
                continue  # more may be passed over there
            there = [count for after, before, count in lost if begin < before and after < end]
            if None not in there and sum(there) < least:
                self.faults.append("numbers are lost between fields %d and %d, and too few fields" % (begin, end))

    def _late_begin(self):
        """The first field of the number before which fields are lost that no list has; else 0."""
        late = [one["text"].rpartition(" ")[2] for one in self.answer["reasons"]
                if one["text"].startswith("fields lost before ")]
        return min((field for number, field, _ in self.answer["showings"] if str(number) in late), default=0)

    def _look_at_minutes(self):
        """The minute of each time was said within a minute, or the minutes that were are those which this time has
        there; where its own field says another one, these outweigh it."""
        said, weights = {}, {}
        for field, codes in self.codes.items():
            for kind, value, _, of_pass in codes:
                if kind == Kind.time and value is not None:
                    said.setdefault(value, []).append(field)
                    weights.setdefault(field, {}).setdefault(value, 0)
                    weights[field][value] += PASS_WEIGHTS[of_pass]
        for field, number in self.believed.items():
            minute, own = number // self.minute, weights.get(field, {})
            fields = said.get(minute, ())
            place = bisect.bisect_left(fields, field - MINUTE_FIELDS)
            is_said = place < len(fields) and fields[place] <= field + MINUTE_FIELDS
            if not is_said and not self._is_outweighed(field, number, weights, 0):
                self.faults.append("field %d has a minute that no field near it says" % field)
            if own and minute not in own and not self._is_outweighed(field, number, weights, max(own.values())):
                self.faults.append("field %d says another minute, and no field near it outweighs that" % field)

    def _is_outweighed(self, field, number, weights, least):
        """Whether the minutes that stand around, where this time has them, weigh more than that."""
        weight = 0
        for near in range(field - MINUTE_FIELDS, field + MINUTE_FIELDS + 1):
            if near in weights:
                weight += weights[near].get((number + (near - field) // 2) // self.minute, 0)
                if weight > least:
                    return True
        return False

    def _look_at_whole(self):
        """Of a side on which something is lost, or not in its place, it is said that it isn't whole. Of one on which
        something is undecided it isn't said that it is."""
        answer = self.answer
        lacking = [one for one in answer["missing"] if one["why"] == "lost"] + answer["swapped"] + answer["speeds"]
        lacking += [one for one in answer["lost"] if one["by"] != "undecided"]
        lacking += [one for one in answer["breaks"] if one["kind"] != "lost"]
        if lacking and answer["whole"] != "no":
            self.faults.append("something is lacking, and whole is: %s" % answer["whole"])
        if answer["whole"] == "yes" and answer["unit"] != "minute" and self._verdict() == ldvbi.Verdict.not_whole:
            self.faults.append("the library says that the side isn't whole, and whole is: yes")
        if answer["whole"] == "yes" and any(one["why"] == "undecided" for one in answer["missing"]):
            self.faults.append("a number is undecided, and the side is whole")
        said = {one["whole"] for one in answer["reasons"]}
        if answer["whole"] != ("no" if "no" in said else "can't tell" if said else "yes"):
            self.faults.append("whole is %s, and the reasons are %s" % (answer["whole"], answer["reasons"]))

    def _verdict(self):
        """What the library says of the side at the pace of the answer, by the clock that it finds."""
        counted = "times" if self.answer["format"] == "clv" else "pictures"
        pace = {"film": "film", None: "find"}.get(self.answer["pace"], "video")
        both = {"both": "on_both", None: "find"}.get(self.answer["pace"], "on_one")
        return ldvbi.judge_side(self.fields.packed, self.fields.system, counted, pace, both,
                                self.fields.may_end, "find").verdict

    def _is_seen(self, field):
        """Whether a line of a field isn't blank, and none shows a code that stands where no number does."""
        return any(cause != "blank" for cause in self.fields.causes[field - 1]) and not any(
            kind in OTHERS[self.unit] for kind, _, _, _ in self.codes[field])

    def _look_at_dark_and_sparse(self):
        """A number that is due in no field is unread only where something was seen among the fields that pass it over:
        else a player may have searched in the dark. Beside a number that the clock left out, a field is there for it.
        Where line 16 has a time on each k-th picture alone, blank ones are no unread ones."""
        due = {self.number_of(one["number"]): one["field"] for one in self.answer["unread"]}
        passed = [(self.number_of(one["from"]), self.number_of(one["to"]), one["after"], one["before"])
                  for one in self.answer["breaks"]]
        clocks = {(one["after"], one["before"]) for one in self.answer["leftOut"]}
        for one in self.answer["missing"]:
            for number in range(self.number_of(one["first"]), self.number_of(one["last"]) + 1):
                if one["why"] != "unread" or number in due or (one["after"], one["before"]) in clocks:
                    continue
                spans = [(after, before) for low, high, after, before in passed if low < number < high]
                if not any(map(self._is_seen, (field for after, before in spans + [(one["after"], one["before"])]
                                               for field in range(after + 1, before)))):
                    self.faults.append("number %d is unread, and nothing was seen there" % number)
        shown = sorted(set(self.believed.values()))
        spacing = math.gcd(*(number - shown[0] for number in shown)) if len(shown) >= SPARSE else 1
        for number, field in due.items() if self.unit == "time" and spacing > 1 else ():
            if (number - shown[0]) % spacing and self.fields.causes[field - 1][0] == "blank":
                self.faults.append("number %d is unread, and the disc hasn't got it" % number)

    def _look_at_pictures(self):
        """One frozen field makes no disc with numbers on both fields. A picture that both lines say in pass 1 isn't set
        aside between two stills that don't fit."""
        said = {}
        for field, codes in self.codes.items():
            for kind, value, _, of_pass in codes:
                if kind == Kind.picture:
                    said.setdefault(field, []).append((value, of_pass))
        twice = {value for field, ones in said.items() for value, _ in ones
                 if value in [other for other, _ in said.get(field + 1, ())]}
        if self.answer["pace"] == "both" and 40 * len(twice) < len({one for ones in said.values() for one, _ in ones}):
            self.faults.append("the pace is both, and %d numbers stand on two fields" % len(twice))
        firsts, lasts = ({one[end]: one["number"] for one in self.answer["stills"]} for end in ("first", "last"))
        for one in self.answer["doubtful"] if self.answer["pace"] == "video" else ():
            before, after, ones = one["before"], one["after"], said.get(one["field"], ())
            if len(ones) == 2 and ones[0] == ones[1] and ones[0][1] == 1 and before and after and (
                    before["field"] in lasts and after["field"] in firsts and before["number"] != after["number"]) and (
                    after["field"] - before["field"] != 2 * (after["number"] - before["number"])) and not any(
                    near in self.believed or near != one["field"] and said.get(near)
                    for near in range(before["field"] + 1, after["field"])):
                self.faults.append("field %d has a picture between two stills, and it is doubtful" % one["field"])

    def _look_at_room(self):
        """Of a minute between two others that has room for fewer fields than a minute has, some are lost."""
        ones = [(self.number_of(number), first, last) for number, first, last in self.answer["showings"]]
        lost = [(one["after"], one["before"]) for one in self.answer["lost"]]
        for before, one, after in zip(ones, ones[1:], ones[2:]):
            room = after[1] - before[2] - 1
            if after[0] - one[0] == one[0] - before[0] == 1 and room < SHORTEST[self.fields.system] and not any(
                    before[2] <= begin and end <= after[1] for begin, end in lost) and not any(
                    before[2] < field < after[1] for field in self.ends):
                self.faults.append("minute %d has %d fields, and none is lost" % (one[0], room))


def faults_of(fields, answer):
    """The faults of an answer for the plain data of a side."""
    return Sound(fields, answer).faults
