"""Judges the sides of judged.txt and whole.txt by the library, in arrays that end where no page follows and hold other
bytes each time, and compares what it answers with what stands there."""

import os
import re
import struct

from border import Guarded, NUMBERS, call, expect, finish, layout, named
from discs import chapter, minutes, picture, second

NOTHING, BELIEVED, DOUBTFUL, DUE = named("nothing", "believed", "doubtful", "due")
ALL = {"=": BELIEVED, "?": DOUBTFUL}  # answers of each number of a side
RATES = {"NTSC": 30, "PAL": 25}
BEFORE = b"\xAA", b"\0", b"\xFF", b"\1"  # what the bytes of arrays are before a call
LINE, FIELD, SEEN, NUMBER = map(layout, ("Reading", "FieldReadings", "Sightings", "Number"))
STATE = struct.Struct("I")
BLANK = LINE.pack(NUMBERS.BLANK, 0, 0, 0)
READ, ROOM, FOUND = (Guarded(2000 * one.size) for one in (FIELD, SEEN, FIELD))
LETTERS = {"c": "801DDD", "i": "88FFFF", "o": "80EEEE", "s": "82CFFF", "m": "87FFFF", "t": "F0DD09", "p": "F12345"}
PART = re.compile(r"(\(?)(\w*)(?:\.\.(\d+))?\)?([=~^?]*)(?:/(\w+)([~^]?))?(?:\*(\d+))?")
TIME = re.compile(r"(\d+):(\d+)\.(\d+)([~^]?)([-+/=]?)([~^]?)(c?)")
PASSES = {"": 1, "=": 1, "~": 2, "^": 3}


def tables(name):
    """Of each table of this file its kind, its settings, and its rows with their columns."""
    with open(os.path.join(os.path.dirname(__file__), name)) as file:
        text = re.sub("^#.*\n|^\n", "", file.read().replace("\n    ", " "), flags=re.M)
    for table in re.split("^= ", text, flags=re.M)[1:]:
        head, *rows = re.split(r" \|\| |\n", table.rstrip())
        kind, *settings = head.split()
        yield kind, settings, [[column.strip() for column in row.split("|")] for text in rows for row in expanded(text)]


def expanded(text):
    """What a text with {a,b} stands for."""
    before, _, more = text.partition("{")
    choices, brace, after = more.partition("}")
    return [before + choice + after for choice in choices.split(",")] if brace else [text]


def spread(text, of_part, nothing):
    """What stands in each field of a text."""
    found = []
    for part in text.split():
        if part[0] == ".":
            found += [nothing] * int(part[1:] or 1)
            continue
        due, first, last, marks, other, marked, count = PART.fullmatch(part).groups("")
        between = [] if last and count else [nothing]
        for item in map(str, range(int(first), int(last) + 1)) if last else [first]:
            found += [of_part((item, other), (due + marks, marked))] * int(count or 1) + between
        del found[len(found) - len(between):]
    return found


def line(word, of_pass=1, cause=0, column=0):
    return LINE.pack(cause, of_pass, column, int(word, 16))


def side_of(text, counted, rate):
    """The readings of each field: its items on lines 17 and 18. A time is on line 16, too."""
    def word_of(item):
        if item in LETTERS:
            return LETTERS[item]
        if counted == "times":
            return minutes(*divmod(int(item) // rate // 60, 60))
        return (picture if counted == "pictures" else chapter)(int(item))

    def field_of(items, marks):
        lines = [BLANK] * 3
        for at, (item, mark) in enumerate(zip(items, marks), 1):
            lines[at] = line(word_of(item), PASSES[mark[-1:]]) if item else BLANK
        for item in filter(str.isdigit, items if counted == "times" else ()):
            seconds, number = divmod(int(item), rate)
            lines[0] = line(second(seconds % 60, number))
        if "=" in marks[0]:
            lines[2] = lines[1]
        return b"".join(lines)
    return spread(text, field_of, 3 * BLANK)


def answers_of(text, side):
    """The number and the state of each field."""
    def answer_of(items, marks):
        state = ALL.get(text) or (DUE if "(" in marks[0] else DOUBTFUL if "?" in marks[0] else BELIEVED)
        return int(items[0] or items[1]), state
    return spread(side if text in ALL else text, answer_of, (0, NOTHING))


def answered(name, asked, fields, answer=NUMBER):
    """What is answered and what was seen, whatever stands there before the call. What is read stays as it is."""
    count, read, found = len(fields), b"".join(fields), []
    length = 1 if name == "find_pace" else count
    for before in BEFORE:
        room = () if name in ("judge_stops", "judge_ends") else (ROOM.put(before * SEEN.size * count), count)
        at = FOUND.put(before * answer.size * length)
        status = call(name)(*asked, READ.put(read), count, *room, at, *[count] * (name != "find_pace"))
        seen = ROOM.get(SEEN.size * count if room else 0)
        found.append((list(answer.iter_unpack(FOUND.get(answer.size * length))), seen))
        expect((status, READ.get(len(read))) == (0, read), name, asked, "refused, or changed what it read")
    expect(found == found[:1] * len(BEFORE), name, asked, "leaves what was there", found)
    return found[0]


def test_numbers(setting, text, wanted):
    """A side as a whole, and each field by the part around it that its answer depends on."""
    name, counted, _ = setting.split(":")
    *asked, pace = named(*setting.split(":"))
    fields, wanted = side_of(text, counted, RATES[name]), answers_of(wanted, text)
    found, _ = answered("judge", (*asked, pace), fields)
    expect(found == wanted, setting, text, found)
    for field, answer in enumerate(wanted):
        begin, number = max(field - 2 * NUMBERS.REACH, 0), FOUND.put(bytes(NUMBER.size))
        part = fields[begin:begin + NUMBERS.PART]
        status = call("judge_field")(*asked, pace, READ.put(b"".join(part)), len(part), field - begin, number)
        found = NUMBER.unpack(FOUND.get(NUMBER.size))
        expect((status, found) == (0, answer), setting, text, "alone", field, status, found)
    return asked, pace, fields, wanted


def test_found(*row):
    """The same, whose pace is found."""
    asked, pace, fields, wanted = test_numbers(*row)
    found = answered("judge", (*asked, NUMBERS.FIND_PACE), fields)[0], answered("find_pace", asked, fields, STATE)[0]
    expect(found == (wanted, [(pace, )]), *row, "found", *found)


def test_chapters(setting, text, wanted):
    found, _ = answered("judge_chapters", (), side_of(text, setting, 0))
    expect(found == answers_of(wanted, text), setting, text, found)


def lines_of(text, cause=0, column=0):
    """The readings of words, of which - is none, after which their passes may stand."""
    words = [word.partition("/") for word in text.replace("-", "0/0").split()]
    return b"".join(line(word, int(of_pass or 1), cause, column) for word, _, of_pass in words)


def test_shown(setting, text, wanted):
    """The field alone: its number, of line 17, else of line 18, is in doubt. Causes and columns say nothing."""
    first, other, *instead = wanted.replace("-", "0*0").split()
    lines = [tuple(map(int, shown.split("*"))) for shown in (first, other)]
    number = next(((number, DOUBTFUL) for number, weight in lines if weight), (0, NOTHING))
    name, asked = ("judge_chapters", ()) if setting == "chapters" else ("judge", named(*setting.split(":"), "video"))
    for place, cause in enumerate((0, 1, 2, 3, 4, 5, 255)):
        found = answered(name, asked, [lines_of(text, cause, 1000 * place)])
        expect(found == ([number], SEEN.pack(*lines[0], *lines[1], len(instead))), setting, text, "shows", found)


def test_alone(setting, text, wanted):
    """Of a call that judges each field by itself: the field, and it again after one without words."""
    fields, state = [lines_of(text), 3 * BLANK, lines_of(text)], tuple(named(wanted))
    found, _ = answered("judge_" + setting, (), fields, STATE)
    expect(found == [state, (0, ), state], setting, text, found)


def times_of(text, is_completed):
    """The readings of each field, before and after."""
    fields = []
    for part in text.split():
        if part[0] == ".":
            fields += [3 * BLANK] * int(part[1:] or 1)
            continue
        minute, seconds, number, passed, where, minute_passed, has_chapter = TIME.fullmatch(part).groups()
        lines = [line(second(int(seconds), int(number)), PASSES[passed])] + [
            line(chapter(5)) if has_chapter else BLANK] * 2
        for at in {"": (1, ), "/": (2, ), "=": (1, 2), "+": (1, ) * is_completed, "-": ()}[where]:
            lines[at] = line(minutes(*divmod(int(minute), 60)), PASSES[passed if where == "+" else minute_passed])
        fields.append(b"".join(lines))
    return fields


def test_completed(setting, text):
    """What is completed. What is seen is what the judge of times sees."""
    system, counted, pace = named(setting, "times", "video")
    fields, wanted = times_of(text, False), times_of(text, True)
    done, seen = answered("complete_times", (system, ), fields, FIELD)
    expect(done == list(FIELD.iter_unpack(b"".join(wanted))), setting, text, done)
    _, judged = answered("judge", (system, counted, pace), fields)
    expect(seen == judged, setting, text, "sees something else than the judge")


def test_first(_, number, text, first):
    """Of none nothing is read. Where one is found, nothing is read after it, however many are said to follow."""
    numbers = [NUMBER.pack(*map(int, one.split("*"))) for one in text.split()]
    at_end, is_found = FOUND.put(b"".join(numbers)), int(first) < len(numbers)
    for count, at in ((len(numbers), at_end), (0, FOUND.end), (0, None), *[(2 ** 64 - 1, at_end)] * is_found):
        found = call("first_of")(at, count, int(number))
        expect(found == (int(first) if count else 0), "first of", number, "in", text, "is", found)


# ---- Whole sides, which are judged already

GAP, SIDE, CLOCK = layout("Gap"), layout("Side"), layout("Clock")
VERDICTS = {"?": NUMBERS.CANNOT_TELL, "yes": NUMBERS.WHOLE, "no": NUMBERS.NOT_WHOLE}
REASONS = dict(zip(
    "lost held back joined late swapped off none end begin doubtful open inserted padded blank".split(), named(
        "is_lost", "is_held", "goes_back", "is_joined", "begins_late", "is_swapped", "is_off", "no_numbers",
        "end_unseen", "begin_unseen", "many_doubtful", "is_open", "is_inserted", "is_padded", "is_blank")))
NUMBERED = ("gaps lost held stood stills still_end back joined open_gaps lost_numbers undecided unread "
            "inserted first last swap padded blank").split()  # the members of LdvbiSide before its verdict
PARTS = [Guarded(size * 4000) for size in (SEEN.size, NUMBER.size, STATE.size)]  # so many fields at most
GAPS, ANSWER, KEPT = Guarded(GAP.size * 8), Guarded(SIDE.size), Guarded(CLOCK.size)
ENDS = {"e": NUMBERS.IS_LEAD_OUT, "i": NUMBERS.IS_LEAD_IN, "": NUMBERS.NO_END, "e?": NUMBERS.DOUBTFUL_END,
        "p": NUMBERS.IS_PADDING}


def judged_field(items, marks):
    """What a field shows, its judged number, and whether it is of lead-out or lead-in."""
    item, other = items
    if item in ENDS and not other:
        return *NO_FIELD[:2], STATE.pack(ENDS[item + marks[0]])
    state = DUE if "(" in marks[0] else DOUBTFUL if "?" in marks[0] else BELIEVED
    line_17, line_18 = ((int(one), 1 if "~" in mark else 2) if one.isdigit() else (0, 0)
                        for one, mark in zip(items, marks))
    if state == DUE:
        line_17 = (0, 0)
    elif "=" in marks[0]:
        line_18 = line_17
    number = NUMBER.pack(int(item or other), state)
    return SEEN.pack(*line_17, *line_18, 0), number, STATE.pack(ENDS.get(other, NUMBERS.NO_END))


NO_FIELD = SEEN.pack(0, 0, 0, 0, 0), NUMBER.pack(0, NOTHING), STATE.pack(NUMBERS.NO_END)


def gap_of(text):
    """KIND FIELDS AFTER:FROM BEFORE:TO, and /SHOWN after it if that isn't 0."""
    text, _, shown = text.partition("/")
    kind, fields, begin, end = text.split()
    (after, from_number), (before, to_number) = (map(int, place.split(":")) for place in (begin, end))
    return after, before, int(fields), int(shown or 0), from_number, to_number, *named(kind)


def side_found(text, gaps):
    """The members of LdvbiSide."""
    verdict, *words = text.split()
    found, reasons = {**dict.fromkeys(NUMBERED, 0), "gaps": len(gaps)}, 0
    for word in words:
        name, is_count, count = word.partition("=")
        if is_count:
            found[name] = int(count)
        elif ".." in word:
            found["first"], found["last"] = map(int, word.split(".."))
        else:
            reasons += REASONS[word]
    return *found.values(), VERDICTS[verdict], reasons


def clock_of(text):
    """The clock KIND, or KIND/PERIOD/PHASE, packed."""
    kind, *numbers = text.split("/")
    return CLOCK.pack(*named(kind), *map(int, numbers or (0, 0)))


def rule_of(asked, clock):
    """The rule with this clock, packed. What is asked is a system, what is counted, a pace, and on which fields."""
    return struct.pack("4I", *asked) + clock


def answer_of_side(asked, clock, fields, room, said=None):
    """What is answered by a rule with this clock, and the gaps that are written into room for so many, or for as many
    as is said. Without fields, or without room, null stands for the array."""
    parts = [b"".join(part) for part in zip(*fields)] or [b""] * 3
    arrays = [(memory.put(part) if fields else None, len(fields)) for memory, part in zip(PARTS, parts)]
    gaps, side = GAPS.put(BEFORE[0] * GAP.size * room) if room else None, ANSWER.put(BEFORE[0] * SIDE.size)
    rule = rule_of(asked[:4], clock)
    status = call("judge_side")(KEPT.put(rule), asked[4], *(word for array in arrays for word in array), gaps,
                                said or room, side)
    expect(status == 0, asked, "refused", status)
    expect(KEPT.get(len(rule)) == rule, asked, "changes the rule")
    expect([memory.get(len(part)) for memory, part in zip(PARTS, parts)] == parts, "has changed")
    side = SIDE.unpack(ANSWER.get(SIDE.size))
    written, written_bytes = GAPS.get(GAP.size * room), GAP.size * min(room, side[0])
    expect(written[written_bytes:] == BEFORE[0] * (len(written) - written_bytes), asked, "writes after the gaps")
    return side, list(GAP.iter_unpack(written[:written_bytes]))


def test_side(setting, text, gaps, wanted):
    """With room for none of its gaps, for some, for all, and for one more. A number in a setting stands for itself. Of
    a state that no call answers nothing is believed, and nothing is in doubt. No clock has any period and phase."""
    *words, clock = setting.split(":") if setting.count(":") == 5 else [*setting.split(":"), "plain/7/9"]
    asked = [int(word) if word.isdigit() else named(word)[0] for word in words]
    clocks = [clock_of(clock), bytes(CLOCK.size)][:1 + clock.startswith("plain")]
    fields, gaps = spread(text, judged_field, NO_FIELD), [gap_of(gap) for gap in gaps.split(",") if gap]
    wanted = side_found(wanted, gaps)
    for state in (5, 257, 258, 65537, 65538, 0x80000001, 2 ** 32 - 1):
        odd = spread(text, judged_field, (NO_FIELD[0], NUMBER.pack(700, state), STATE.pack(state)))
        for by in clocks:
            expect(answer_of_side(asked, by, odd, 0) == (wanted, []), setting, text, "with the state", state)
    for room, by in ((room, by) for room in range(len(gaps) + 2) for by in clocks):
        found = answer_of_side(asked, by, fields, room)
        expect(found == (wanted, gaps[:room]), setting, text, room, *found)
    for said, by in ((said, by) for said in (2 ** 64 - 1, 2 ** 63, 2 ** 60) for by in clocks if gaps):
        found = answer_of_side(asked, by, fields, len(gaps), said)
        expect(found == (wanted, gaps), setting, text, "room for", said)


def test_aside(setting, text, gaps, wanted=""):
    """Which fields have their number set aside, and how many, by all gaps; without the last one of two, none. The
    others keep theirs, and what is handed over stays."""
    *words, clock = setting.split(":")
    fields, gaps = spread(text, judged_field, NO_FIELD), [GAP.pack(*gap_of(gap)) for gap in gaps.split(",")]
    numbers, size = b"".join(field[1] for field in fields), NUMBER.size * len(fields)
    rule = rule_of(named(*words), clock_of(clock))
    for count in range(len(gaps) + 1):
        told, aside = b"".join(gaps[:count]), [*map(int, wanted.split())] * (count >= 2)
        left, found, by = FOUND.put(b"\xAA" * size), ANSWER.put(8 * b"\xAA"), KEPT.put(rule)
        status = call("set_aside")(by, GAPS.put(told) if told else None, count, PARTS[1].put(numbers), len(fields),
                                   left, len(fields), found)
        made = [(number, DOUBTFUL if field in aside else state)
                for field, (number, state) in enumerate(NUMBER.iter_unpack(numbers))]
        written = [*NUMBER.iter_unpack(FOUND.get(size))]
        expect((status, written, ANSWER.get(8)) == (0, made, struct.pack("Q", len(aside))), setting, text, count,
               written)
        expect(PARTS[1].get(size) + GAPS.get(len(told)) == numbers + told, setting, text, "has changed")


def test_clock(setting, text, wanted):
    """The clock of believed numbers, whatever stands there before the call, or as the rule's clock. The numbers stay as
    they are."""
    asked, numbers = named(*setting.split(":")), b"".join(field[1] for field in spread(text, judged_field, NO_FIELD))
    for before in BEFORE:
        at = KEPT.put(before * CLOCK.size)
        rule = GAPS.put(rule_of(asked, before * CLOCK.size))
        status = call("find_clock")(rule, PARTS[1].put(numbers), len(numbers) // NUMBER.size, at)
        found = KEPT.get(CLOCK.size)
        expect((status, found) == (0, clock_of(wanted)), setting, text, status, CLOCK.unpack(found))
        expect(PARTS[1].get(len(numbers)) == numbers, setting, text, "has changed")


def main():
    rows = [(kind, setting, row) for name in ("judged.txt", "whole.txt") for kind, settings, rows in tables(name)
            for setting in settings for row in rows]
    expect(len(rows) == 548, "there are more rows, or fewer:", len(rows))
    for kind, setting, row in rows:
        globals()["test_" + kind](setting, *row)
    finish()


if __name__ == "__main__":
    main()
