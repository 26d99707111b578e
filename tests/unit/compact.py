"""Sides and answers as compact texts, for tables of tests.

A side is a text of parts, from left to right. These add fields:

    7  1..30  0..60/3  9..5   the two fields of each of these pictures (discs.pictures)
    0..99!4,7  0..99!4%10     the same without some, or without those that have this rest
    f1..30  e1..30  b1..30    pictures of film, the odd or the even ones having 3 fields; each field with a number
    t0..60  u0..60  d0..60    times, counted from the disc's start; with line 16 alone; with each on both fields
    m9  n9                    a field with this minute on line 18 beside a mark, or on lines 17 and 18
    L O B ? C                 lead-in, lead-out, a blank field, `- ? ?`, chapter 0
    -/#17/#7                  a row of discs.py, with / for its spaces: #17 is picture 17, c7 chapter 7, @1:09 a minute,
                              s7.12 a picture of a second, S a stop, M the mark of CLV; * or ^ stands after them

and x9 after one of these has each nine times. The others change the fields that are there by then, counted from 1;
<1..9/2 2N-1=N+40 B> has these parts for each N:

    13=-/#17/#7   61:73/2=?   another row in field 13, or in each second one from 61 to 73
    15.18=@0:09   1:60.16=?   another item on this line
    -41  -41:43  +41=Bx10     these fields are gone; others before field 41
    ~11                       fields 11 and 12 in each other's place

Its system may stand before it, and after a / whether its parity is known: by turns with NTSC/0; with PAL/40 field 40
is a first field or a second one as field 39 is; with PAL/1 a side begins with a second field.

An answer is a text of members, each with what it is (`of_member`): nothing where it is empty, or x6 where it has six;
where `..` stands at the end or the beginning, it begins or ends so."""

import re
import sys

from discs import (BLANK, LEAD_IN, LEAD_OUT, STOP, answer, chapter, item, minutes, picture, pictures, plain, second,
                   times)
from ldvbi_side.answer.analysis import analysed
from ldvbi_side.as_json import as_json

NAMED = {"L": LEAD_IN, "O": LEAD_OUT, "B": BLANK, "?": "- ? ?", "C": "- 800DDD 800DDD"}
FIELDS = {
    "": lambda numbers, rate: pictures(numbers), "f": lambda numbers, rate: pictures(numbers, 1),
    "e": lambda numbers, rate: pictures(numbers, 0), "t": times,
    "b": lambda numbers, rate: ["- %s %s" % (picture(number), picture(number)) for number in numbers for _ in (1, 2)],
    "u": lambda numbers, rate: [row.split(" ")[0] + " - -" if row[2] == "E" else BLANK for row in times(numbers, rate)],
    "d": lambda numbers, rate: [row for row in times(numbers, rate)[::2] for _ in (1, 2)],
    "m": lambda numbers, rate: ["- 87FFFF " + minutes(*divmod(number, 60)) for number in numbers],
    "n": lambda numbers, rate: ["- {0} {0}".format(minutes(*divmod(number, 60))) for number in numbers]}
NUMBERS = re.compile(r"([a-z]?)(\d+)(?:\.\.(\d+)(?:/(\d+))?)?(?:!([\d,]+)(?:%(\d+))?)?")
PLACES = r"(\d+)(?::(\d+)(?:/(\d+))?)?"
CHANGE, GONE = re.compile(PLACES + r"(?:\.(\d\d))?=(.+)"), re.compile("-" + PLACES)
WORDS = {"#": lambda text: picture(int(text)), "c": lambda text: chapter(int(text)),
         "@": lambda text: minutes(*map(int, text.split(":"))), "s": lambda text: second(*map(int, text.split(".")))}


def word_of(text):
    """An item of a row."""
    word = text.rstrip("*^")
    found = WORDS[word[0]](word[1:]) if word[0] in WORDS else {"S": STOP, "M": "87FFFF"}.get(word, word)
    return found + text[len(word):]


def fields_of(part, rate):
    """The rows that a part adds."""
    part, _, count = part.partition("x")
    count = int(count or 1)
    if part in NAMED:
        return [NAMED[part]] * count
    if part.count("/") == 2:
        return [" ".join(map(word_of, part.split("/")))] * count
    kind, first, last, step, without, by = NUMBERS.fullmatch(part).groups()
    first, last, by = int(first), int(last or first), int(by or sys.maxsize)
    step = int(step or 1) if last >= first else -int(step or 1)
    gone = set(map(int, without.split(","))) if without else ()
    return FIELDS[kind]([number for number in range(first, last + (1 if step > 0 else -1), step)
                         if number % by not in gone for _ in range(count)], rate)


def places_of(first, last, step):
    return range(int(first) - 1, int(last or first), int(step or 1))


def repeated(loop):
    """The parts of a loop, for each of its numbers."""
    first, last, step, parts = loop.groups()
    return " ".join(re.sub(r"(\d*)N([+-]\d+)?", lambda one: str(int(one[1] or 1) * number + int(one[2] or 0)), parts)
                    for number in range(int(first), int(last) + 1, int(step or 1)))


def rows(text, rate=25):
    """The rows of a side."""
    found = []
    for part in re.sub(r"<(\d+)\.\.(\d+)(?:/(\d+))? (.*?)>", repeated, text).split():
        change, gone = CHANGE.fullmatch(part), GONE.fullmatch(part)
        if gone:
            for place in reversed(places_of(*gone.groups())):
                del found[place]
        elif part[0] == "+":
            place, _, more = part[1:].partition("=")
            found[int(place) - 1:int(place) - 1] = fields_of(more, rate)
        elif part[0] == "~" and "/" not in part:
            place = int(part[1:])
            found[place - 1:place + 1] = found[place], found[place - 1]
        elif change:
            line, more = change.groups()[3:]
            for place in places_of(*change.groups()[:3]):
                items = found[place].split(" ")
                if line:
                    items[int(line) - 16] = word_of(more)
                found[place] = " ".join(items) if line else fields_of(more, rate)[0]
        else:
            found += fields_of(part, rate)
    return found


def words_of(text, rate=25):
    """The words of the lines of each field of a side, which `streams` draws."""
    return [[item(part).word for part in row.split()] for row in rows(text, rate)]


def made(text, make=answer, **more):
    """What `make` of discs.py makes of the side with this text."""
    head, _, parts = text.partition(" ")
    system, slash, alike = head.partition("/")
    if system not in ("NTSC", "PAL"):
        system, slash, parts = "PAL", "", text
    found = rows(parts, 30 if system == "NTSC" else 25)
    firsts, is_first = [], False
    for field in range(1, len(found) + 1):
        is_first = is_first == (str(field) in alike.split(","))
        firsts.append(is_first)
    return make(found, system, firsts if slash else None, **more)


def span(one, first="first", last="last"):
    return str(one[first]) if one[first] == one[last] else "%s-%s" % (one[first], one[last])


def place(one):
    return "%s/%s" % (one["field"], one["line"])


# What stands for an item of each list
ITEMS = {
    "missing": lambda one: "%s %s" % (span(one), one["why"]), "leftOut": span,
    "lost": lambda one: "%s %s %s" % (span(one, "after", "before"), one["fields"], one["by"]),
    "breaks": lambda one: "%s %s %s to %s, %s" % (one["kind"], span(one, "after", "before"), one["from"], one["to"],
                                                 one["fields"]),
    "detours": lambda one: "%s %s %s" % (one["kind"], span(one), span(one, "from", "to")),
    "unread": lambda one: "%s@%s" % (one["number"], one["field"]) + ("" if one["read"] is None
                                                                     else "=%s" % one["read"]),
    "stills": lambda one: "%s@%s" % (one["number"], span(one)),
    "repeated": lambda one: "%s@%s after %s" % (span(one), span(one, "field", "lastField"), one["before"]),
    "doubtful": lambda one: "%s %s %s" % (place(one), one["number"], one["why"]),
    "stray": lambda one: "%s %s %s" % (place(one), one["kind"], one["why"]),
    "conflicts": lambda one: "%s %s|%s %s" % (one["field"], one["line17"], one["line18"], one["taken"]),
    "chapters": lambda one: "%s@%s" % (one["chapter"], span(one, "field")),
    "stops": lambda one: "%s@%s" % (one["number"], one["field"]),
    "unsureStops": lambda one: "%s@%s" % (one["number"], one["field"]),
    "leadIn": lambda one: "%s %s" % (span(one), one["count"]),
    "swapped": lambda one: "%s@%s" % (one["number"], one["field"]),
    "speeds": lambda one: "%s %s" % (one["numbers"], span(one)),
    "secondRows": lambda one: "%s@%s %s %s:%s" % (span(one), span(one, "field", "lastField"), one["count"],
                                                  one["weight"], one["against"]),
    "badLines": lambda one: "%s %s" % (place(one), one["cause"]), "reasons": lambda one: one["why"],
    "showings": lambda one: "%s@%s" % (one[0], span(one, 1, 2)), "completed": str, "confirmed": str,
    "programmeStatus": lambda one: "%s@%s" % (one["digits"], span(one)),
    "own": lambda one: "%s %d-%d %s to %s, %d" % one}
ITEMS.update(leadOut=ITEMS["leadIn"], chapterConflicts=ITEMS["conflicts"])


def said_of(found):
    """The answer with its reasons, as the first line of the summary has them."""
    reasons = "; ".join(one["text"] for one in found["reasons"])
    kinds = {one["whole"] for one in found["reasons"]}
    assert found["whole"] == ("no" if "no" in kinds else "can't tell" if kinds else "yes"), found["reasons"]
    return found["whole"] + (": " + reasons if reasons else "")


# Of `numbers` the count and the ends; the fields of what is doubtful; why numbers are missing; the summary's first line
MEMBERS = {
    "numbers": lambda found: "{count} {least} to {greatest}".format(**found["numbers"]),
    "count": lambda found: str(found["numbers"]["count"]),
    "whys": lambda found: ", ".join(sorted({one["why"] for one in found["missing"] + found["leftOut"]})),
    "orMore": lambda found: ", ".join(str(one["after"]) for one in found["lost"] if one["orMore"]),
    "aside": lambda found: ", ".join(str(one["field"]) for one in found["doubtful"]),
    "levels": lambda found: found["levels"] and "{shows} {words} {bad} {blank} {field}/{line}".format(
        **found["levels"]) or "", "said": said_of}


def of_member(found, name):
    """A member of an answer as a text; with @15 the number of field 15."""
    if name[0] == "@":
        return ", ".join(str(number) for number, first, last in found["showings"] if first <= int(name[1:]) <= last)
    if name in MEMBERS:
        return MEMBERS[name](found)
    return ", ".join(map(ITEMS[name], found[name])) if name in ITEMS else str(found[name])


def cells_of(table):
    """The rows of a table, with their cells; a row goes on where the next line begins with more than four spaces, and
    || stands between two rows on a line."""
    text = re.sub(r"\n {5,}", " ", table)
    return [[cell.strip() for cell in row.split(" | ")] for row in re.split(r"\n| \|\| ", text) if row.strip()]


def table_in(path):
    """The rows of a file, with what is known or asked besides, which lines in brackets have for those after them. A
    line with # is a comment, and one with = a name, whose text {NAME} stands for."""
    with open(path, encoding="ascii") as file:
        lines = re.sub(r"\n {5,}", " ", file.read()).split("\n")
    names, more = {}, {}
    for line in lines:
        if line.startswith("= "):
            _, name, text = line.split(" ", 2)
            names["{%s}" % name] = re.sub(r"{\w+}", lambda one: names[one[0]], text)
        elif line.startswith("["):
            more = {name: value == "True" for name, value in re.findall(r"(\w+)=(\w+)", line)}
        elif not line.startswith("#"):
            for cells in cells_of(re.sub(r"{\w+}", lambda one: names[one[0]], line)):
                yield cells, more


def check_row(name, side, *members, **more):
    """A row has a name, a side, and members of its answer, or its `own` breaks. What is known besides, `Fields` has."""
    known = analysed(made(side, plain)._replace(**more))
    found = {**as_json(known.answer), "own": known.breaks}
    for member in members:
        asked, _, wanted = member.partition(" ")
        if asked == "no":
            assert {one: found[one] for one in wanted.split()} == dict.fromkeys(wanted.split(), []), name
            continue
        said = "x%d" % len(found[asked]) if re.fullmatch(r"x\d+", wanted) else of_member(found, asked)
        if wanted.endswith(".."):
            said = said[:len(wanted) - 2] + ".."
        elif wanted.startswith(".."):
            said = ".." + said[len(said) - len(wanted) + 2:]
        assert said == wanted, (name, asked)
