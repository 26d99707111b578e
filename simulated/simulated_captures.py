"""How a capture has a simulated disc: the fields in the order in which they were played, and what was read of
their words."""


def played(rng, rows, kind, lost_rate):
    """The places on the disc of the fields in the order in which a capture has them: with a still, a jump back and one
    ahead on some sides."""
    order = list(range(len(rows)))
    if rng.random() < 0.4 and kind.startswith("cav"):  # a still
        at = 2 * rng.randrange(len(order) // 2)
        order[at:at] = order[at:at + 2] * rng.randrange(2, 40)
    if rng.random() < 0.3:  # the player went back
        at, back = 2 * rng.randrange(len(order) // 4, len(order) // 2), 2 * rng.randrange(5, 120)
        back = min(back, at)
        order[at:at] = order[at - back:at]
    if rng.random() < 0.3:  # the player skipped
        at, over = 2 * rng.randrange(len(order) // 8, len(order) // 2 - 1), 2 * rng.randrange(3, 200)
        del order[at:at + min(over, len(order) // 4 * 2)]
    return kept_of(rng, order, lost_rate)


def kept_of(rng, order, lost_rate):
    """What is left of fields of which the capture loses some by chance: one to six at once."""
    kept, drop = [], 0
    for place in order:
        if not drop and rng.random() < lost_rate:
            drop = rng.choice((1, 1, 2, 2, 6))
        if drop and kept:
            drop -= 1
        else:
            kept.append(place)
    return kept


def changeable(text):
    """The places of the digits of a word that may be misread."""
    if text[0] == "F":
        return [1, 4, 5] if text[2] == "D" else [1, 2, 3, 4, 5]
    if text[2] == "E":
        return [1, 3, 4, 5]
    return [1, 2] if text[3:] == "DDD" else [1, 2, 3, 4, 5]


def misread(rng, word):
    """Another word of the same kind where it has a number: one or two digits have a wrong bit."""
    text = list("%06X" % word)
    places = changeable("%06X" % word)
    for place in rng.sample(places, rng.choice((1, 1, 1, 2))):
        digit = int(text[place], 16)
        for _ in range(20):
            flipped = digit ^ rng.choice((1, 2, 4, 8))
            if place == 1 and text[2] == "E":
                is_of_kind = 10 <= flipped <= 15
            else:
                is_of_kind = flipped <= (9 if place > 1 else 7)
            if is_of_kind:
                break
        text[place] = "%X" % flipped
    return int("".join(text), 16)


class Damage:
    """What a capture reads of its fields: `wrong` of the words are misread, `lost` says of each line in how many fields
    it shows none, `second` of the words are of pass 2, many of which are wrong; in bursts most lines show none."""

    def __init__(self, rng, wrong, lost, second):
        self.rng, self.wrong, self.lost, self.second = rng, wrong, lost, second
        self.burst = 0
        self.records, self.misread = [], []

    def read(self, field, true_words):
        rng = self.rng
        if self.burst == 0 and rng.random() < 0.0006:
            self.burst = rng.randrange(4, 60)
        self.burst = max(self.burst - 1, 0)
        both = None  # of line 17, where line 18 is misread as it is
        lines = []
        for line, true in zip((16, 17, 18), true_words):
            word, of_pass, cause, both = self._line(line, true, both)
            if word and word != true:
                self.misread.append((field, line, true))
            lines.append((word, of_pass if word else 0, cause))
        words, passes, causes = map(list, zip(*lines))
        self.records.append({"seqNo": field, "vbi": {"vbiData": words}, "vbiCause": causes, "vbiPass": passes})

    def _line(self, line, true, both):
        rng = self.rng
        lost, wrong = (0.7, max(self.wrong, 0.05)) if self.burst else (self.lost[line], self.wrong)
        of_pass = 2 if rng.random() < self.second else 1
        if not true:
            return 0, 0, "blank", both
        if rng.random() < lost:
            cause = rng.choice(("change %d" % rng.randrange(150, 800), "hold %d" % rng.randrange(190, 800),
                                "unfinished", "blank"))
            return 0, 0, cause, both
        if line == 18 and both and true == both[0]:
            return both[1], both[2], "word", both
        if rng.random() < wrong * (8 if of_pass == 2 else 1):
            of_pass = 2 if rng.random() < 0.6 else of_pass
            word = misread(rng, true)
            if line == 17 and rng.random() < 0.2:
                both = (true, word, of_pass)
            return word, of_pass, "word", both
        return true, of_pass, "word", both
