"""An answer beside the truth of its simulated side."""

from collections import Counter

from truth import Reasons, number_of

class Comparison:
    """An answer beside its truth. `counts` has what was found of what there is, and 1 for each list that is exact;
    `tell` is called with a name and a text for each difference."""

    def __init__(self, truth, answer, tell=lambda name, text: None):
        self.truth, self.answer, self.tell = truth, answer, tell
        self.counts = Counter(sides=1, fields=answer["fields"])
        self._compare_doubts()
        self._compare_missing()
        self._compare_numbers()
        self._compare_lost()
        self._compare_backs()
        self._compare_played()
        self._compare_reasons()
        self._exact("stops", [one["field"] for one in answer["stops"]], truth.stops)
        self._exact("chapter table", _firsts((one["chapter"], one["field"]) for one in answer["chapters"]),
                    truth.chapters)

    def _exact(self, name, found, wanted):
        self.counts[name] = int(found == wanted)
        if found != wanted:
            self.tell(name, "found %s, wanted %s" % (_differing(found, wanted), _differing(wanted, found)))

    def _share(self, name, found, wanted):
        self.counts[name + " found"] += len(wanted & found)
        self.counts[name] += len(wanted)

    def _number_of(self, text):
        return number_of(text, self.truth.rate, self.answer["unit"])

    def _numbers_in(self, stretches):
        return {number for one in stretches
                for number in range(self._number_of(one["first"]), self._number_of(one["last"]) + 1)}

    def _compare_doubts(self):
        truth = self.truth
        aside = {(one["field"], one["line"]) for one in self.answer["doubtful"] + self.answer["stray"]}
        for name, wanted in (("wrong", truth.wrong), ("right", truth.right), ("wrong chapters", truth.wrong_chapters),
                             ("right chapters", truth.right_chapters)):
            self._share(name, aside, wanted)
        for place in sorted(truth.wrong - aside):
            self.tell("wrong, and believed", place)
        for place in sorted(truth.right & aside):
            self.tell("right, and set aside", place)

    def _compare_missing(self):
        """Which numbers are missing and why; of those that are undecided, how many there are of each."""
        answer, truth = self.answer, self.truth
        least = min(truth.read, default=0)
        missing = {why: self._numbers_in(one for one in answer["missing"] if one["why"] == why)
                   for why in ("unread", "lost", "undecided")}
        for number in sorted(number for number in missing["lost"] & set(truth.side.numbers) if number < least):
            self.tell("not lost", number)
        missing = {why: {number for number in ones if number >= least} for why, ones in missing.items()}
        undecided = missing["undecided"]
        self.counts["undecided"] = len(undecided)
        for why in ("unread", "lost"):
            self.counts["undecided, " + why] = sum(truth.missing.get(number) == why for number in undecided)
            self.counts[why + " numbers"] = len(missing[why])
            self.counts[why + " numbers found"] = sum(truth.missing.get(number) == why for number in missing[why])
            for number in sorted(missing[why]):
                if truth.missing.get(number, why) != why:
                    self.tell("not " + why, number)
        # of a number that is undecided the clock may have left it out
        found = set().union(*missing.values()) - (undecided & truth.left_out)
        left_out, hidden = self._numbers_in(answer["leftOut"]), set().union(*truth.hidden.values())
        self.counts["missing but for hidden"] = int(found - hidden == set(truth.missing))
        self.counts["left out but for hidden"] = int(left_out - undecided - hidden ==
                                                     truth.left_out - undecided - hidden)
        self._exact("missing", found, set(truth.missing))
        self._exact("left out", left_out - undecided, truth.left_out - undecided)

    def _compare_numbers(self):
        """The numbers of fields, those that are read and those that are due."""
        truth, numbers = self.truth, self.truth.side.numbers
        showings = [(self._number_of(number), field) for number, field, _ in self.answer["showings"]]
        self.counts["numbers"] = len(showings)
        self.counts["numbers found"] = sum(numbers[field - 1] == number for number, field in showings)
        self._exact("first fields", _firsts(showings), truth.read)
        due = {(self._number_of(one["number"]), one["field"]) for one in self.answer["unread"]}
        self.counts["due"] = len(due)
        self.counts["due found"] = sum(numbers[field - 1] == number for number, field in due)
        self._share("unread fields", due, truth.due)
        for number, field in sorted(due):
            if numbers[field - 1] != number:
                self.tell("due in the wrong field", (number, field))

    def _compare_lost(self):
        """Of the lost fields in the answer those that are right, and of the places with losses those that are named."""
        truth, answer = self.truth, self.answer
        for one in answer["lost"]:
            if one["after"] < (truth.side.second or 0) <= one["before"]:
                continue  # two discs look like a loss, too
            if truth.side.dark.intersection(range(one["after"] + 1, one["before"])):
                continue  # and so does a search in the dark
            if one["before"] == answer["showings"][0][1]:
                continue  # before the first number no loss is one of the capture's own
            inside = [after for after in truth.lost if one["after"] <= after < one["before"]]
            if one["by"] == "undecided" or one["by"] == "parity" and inside:
                continue
            self.counts["lost"] += 1
            count, hidden = (sum(find(after) for after in inside)
                             for find in (truth.lost.get, lambda after: len(truth.hidden[after])))
            is_least = answer["pace"] != "video" and (one["fields"] or 0) <= self._lost_in(one)
            if count == one["fields"] or is_least:
                self.counts["lost found"] += 1
            elif count + 2 * hidden == one["fields"]:
                self.counts["lost and hidden"] += 1
            else:
                self.tell("lost", "%s, and lost are %s" % (one, {after: truth.lost[after] for after in inside}))
        places = {after for after in truth.lost for one in answer["lost"] + answer["breaks"]
                  if one["after"] <= after < one["before"]}
        self._share("lost places", places, set(truth.lost))

    def _lost_in(self, one):
        """The fields of the disc that the capture hasn't between these two."""
        order = self.truth.side.order
        return sum(after - before - 1 for before, after in zip(order[one["after"] - 1:one["before"] - 1],
                                                               order[one["after"]:one["before"]]) if after > before)

    def _compare_backs(self):
        places = [(one["after"], one["before"]) for one in self.answer["breaks"] if one["kind"] != "lost"]
        places += [(one["first"], one["last"]) for one in self.answer["stills"]]
        found = {place for place in self.truth.backs if any(begin <= place < end for begin, end in places)}
        self._share("backs", found, set(self.truth.backs))

    def _compare_played(self):
        """Swapped fields, and other speeds: a stretch is found where at least nine tenths of it are named."""
        truth = self.truth
        self._share("swaps", {one["field"] for one in self.answer["swapped"]}, set(truth.swaps))
        found = set()
        for first, last, speed in truth.speeds:
            named = sum(max(min(last, one["last"]) - max(first, one["first"]) + 1, 0)
                        for one in self.answer["speeds"] if one["numbers"] == speed)
            if 10 * named >= 9 * (last - first + 1):
                found.add((first, last, speed))
        self._share("speeds", found, set(truth.speeds))

    def _compare_reasons(self):
        """Whether the side is whole, and each reason of which the truth says whether it holds. That it can't be told is
        never wrong."""
        reasons, said = Reasons(self.truth), self.answer["whole"]
        is_lacking = any(reasons.no.values())
        is_known = is_lacking or None not in reasons.no.values()
        self.counts["said " + said] = 1
        self.counts["whole"] = int(not is_known or said != ("yes" if is_lacking else "no"))
        if not self.counts["whole"]:
            self.tell("whole", said)
        wanted = {**reasons.no, **reasons.open}
        found = {one["why"] for one in self.answer["reasons"]}
        if "undecided" in found:
            wanted["missing"] = None
        sure = {why for why, holds in wanted.items() if holds is not None}
        self._exact("reasons", found & sure, {why for why in sure if wanted[why]})


def _firsts(pairs):
    found = {}
    for number, field in pairs:
        found.setdefault(number, field)
    return found


def _differing(one, other):
    """What is in one list, set or table and not in the other, as far as a line of text has room for it."""
    if isinstance(one, dict):
        one, other = one.items(), other.items()
    return str([part for part in one if part not in other][:6])
