"""What each call of the library refuses, and in which order. Some numbers have bits that a parameter of 8 or of 16 bits
would cut off. A call that refuses touches no array: here none can be touched. A list of erased columns is looked at
last of all, and before that it may be of any length. And what some calls answer, which attributes they have, and how
their numbers are named."""

import itertools
import pathlib
import re
import struct
from collections import defaultdict

from border import Guarded, HEADER, NUMBERS, call, expect, finish, layout, parameters, protect

SOURCES = pathlib.Path(__file__).parents[2] / "crates/vbi_c/src"
LINE_BYTES, LINES = {NUMBERS.NTSC: 1820, NUMBERS.PAL: 2270}, {NUMBERS.NTSC: 263, NUMBERS.PAL: 313}
MOST, MOST_BYTES = 2 ** 32 - 1, 2 ** 64 - 1
CUT_OFF = (256, 257, 258, 259, 65536, 65537, 65538, 65539, 0x80000001, MOST)
PAIRS = ((0, 1), (0, 65535), (65534, 65535), (0, 256), (256, 257))
BAD_PAIRS = (2, 2), (65535, 0), (65536, 65537), (65536, 51200), (0, 65536), (16384, 65536 + 51200), (1 << 31, MOST)
BAD_WORDS = 1, 256, 257, 65535, 65536, 0x7FFFFF, 0x1000000, 0x1800000, 0x80000000, 0x80800000, MOST
OPEN, CLOSED = defaultdict(lambda: Guarded(2 * 2270 * 313)), Guarded(4096)

# Lists of erased columns: of each entry the field, the line, the first and the last column; by how many fields are read
TAKEN = {0: ("", ), 1: ("", "0 16 0 0, 0 17 0 9, 0 17 1 1, 0 17 1 3000, 0 18 4294967295 4294967295"),
         2: ("0 18 9 9, 1 16 0 0, 1 17 0 0", "1 18 0 4294967295")}
REFUSED = {
    0: ("0 16 0 0", ),
    1: ("0 15 3 4", "0 19 3 4", "0 0 3 4", "0 17 1 0", "0 17 4294967295 0", "0 272 3 4", "0 65552 3 4",
        "0 2147483664 3 4", "1 16 3 4", "256 16 3 4", "65536 16 3 4", "4294967295 16 3 4", "0 16 3 4, 1 16 3 4",
        "0 16 5 9, 0 16 4 9", "0 17 0 0, 0 16 0 0", "0 18 0 0, 0 17 9 9", "0 16 65536 65536, 0 16 1 1",
        "0 16 0 0, 0 17 0 0, 0 18 4 4, 0 18 3 4", "0 16 5 5, 0 16 6 5, 0 16 7 7"),
    2: ("2 16 0 0", "1 16 0 0, 0 17 5 5", "0 16 0 0, 1 18 0 0, 1 17 0 0", "258 16 0 0")}


def erased(text):
    """The arguments of a list, whose bytes stand for their address."""
    entries = [layout("Erased").pack(*map(int, entry.split())) for entry in text.split(",") if entry]
    return {"erased": b"".join(entries), "erased_count": len(entries)}


def one(name, numbers):
    return [{name: number} for number in numbers]


# What is refused of a parameter by its name, whatever the call, by its status
BAD = {
    NUMBERS.BAD_SYSTEM: one("system", {*range(256), *CUT_OFF} - {*LINES}),
    NUMBERS.BAD_LEVELS: [{"black": black, "white": white} for black, white in BAD_PAIRS],
    NUMBERS.BAD_LENGTH: [],
    NUMBERS.BAD_WORD: [bad for name in ("word", "first", "second", "third") for bad in one(name, BAD_WORDS)],
    NUMBERS.BAD_COUNTED: one("counted", (0, 3, 4, *CUT_OFF)),
    NUMBERS.BAD_PACE: one("pace", (0, 4, 5, *CUT_OFF)),
    NUMBERS.BAD_LINE: one("line", (0, 15, 19, 16 + 65536, 17 + 256)),
    NUMBERS.BAD_KNOWN: one("known", (2, 256, 65537)),
    NUMBERS.BAD_CLOCK: one("clock", [layout("Clock").pack(*numbers) for numbers in (
        (3, 1000, 0), (256, 1000, 0), (257, 0, 0), (MOST, 0, 0), (2, 0, 0), (2, 1000, 1000), (2, 1, 1), (2, 1000, MOST),
        (2, 65536, 65536), (2, 65536, 65537), (2, 0, MOST))]),
    NUMBERS.BAD_ERASED: []}


def answered(name, words, is_open, is_listed=True):
    """The status of a call. Arrays are as long as the numbers after them say, and end where no page follows; null
    stands for those of no bytes."""
    arguments, taken = [], parameters(name)
    for (key, kind, is_pointer), (after, after_kind, _) in zip(taken, [*taken[1:], ("", "", False)]):
        size = {"void": 1, "uint32_t": 4, "size_t": 8}.get(kind) or is_pointer and layout(kind).size
        if not is_pointer:
            arguments.append(words[key])
        elif key == "rule":
            rule = [words[name] for name in ("system", "counted", "pace", "both")]
            arguments.append(OPEN[key].put(struct.pack("4I", *rule) + words.get("clock", b"\xFF" * 12)))
        elif isinstance(words.get(key), bytes) and (is_listed or key == "clock"):
            arguments.append(OPEN[key].put(words[key]) if words[key] else None)
        elif is_open:
            size *= words[after] if after_kind == "size_t" else 1
            arguments.append(OPEN[key].put(b"\x55" * size) if size else None)
        else:
            arguments.append(CLOSED.end - 8)
    return call(name)(*arguments)


def test_call(name, right, **more):
    """What is right is done. What is wrong has the status of what is tested first, by the order of statuses, though all
    that is tested after it is wrong as well. `more` has what this call alone refuses, by the names of statuses."""
    found = answered(name, right, True)
    expect(found == NUMBERS.DONE, name, right, "is refused", found)
    own = {getattr(NUMBERS, status): changes for status, changes in more.items()}
    numbers = {key for key, _, is_pointer in parameters(name) if not is_pointer} | {"clock"} & {*right}
    numbers |= {"system", "counted", "pace"} if "both" in right else set()
    tests = [(status, [change for change in changes + own.get(status, []) if set(change) <= {*numbers, "erased"}])
             for status, changes in BAD.items()]
    for place, (status, changes) in enumerate(tests):
        later = {key: value for _, others in tests[:place:-1] for key, value in (others or [{}])[0].items()}
        for change in changes:
            words, is_last = {**right, **later, **change}, status == NUMBERS.BAD_ERASED
            if "erased" in right and not is_last:
                words["erased_count"] = MOST_BYTES
            found = answered(name, words, False, is_last)
            expect(found == status, name, change, later, found, "isn't", status)


def test_video(system):
    """Calls that take a system, levels and samples."""
    line = LINE_BYTES[system]
    field = line * LINES[system]
    fields = [dict(length=length, count=count) for length, count in (
        (field, 0), (field, 2), (field, MOST_BYTES), (0, 1), (0, MOST_BYTES // field + 1), (field - 1, 0),
        (0, 1 << 62), (0, 1 << 63))]  # by which the product may be 0
    piles = one("length", (0, line - 2, 28 * line + 1, 29 * line, MOST_BYTES))

    def test(name, right, lengths=None, **more):
        size = right["length"]
        more["BAD_LENGTH"] = lengths or one("length", {0, 7, line, size - 1, size + 1, size - line // 2, field + line}
                                            - {size})
        for black, white in PAIRS:
            test_call(name, {"system": system, "black": black, "white": white, **right}, **more)

    for name, lines in (("read_line", 1), ("read_rows", 3), ("read_field", LINES[system])):
        test(name, {"length": lines * line})
    test("draw_line", {"length": line, "word": 0xF12345})
    test("nearest", {"length": line}, piles)
    test("read_fields", {"length": field, "count": 1}, fields)
    for name, places in (("read_fields", 2), ("recover_fields", 3)):
        expect(call(name)(system, 0, 1, *[None, 0] * places) == NUMBERS.DONE, name, "of no field")
    for name in ("recover_rows", "recovered_record"):
        for entries in TAKEN[1]:
            test(name, {"length": 3 * line, "number": MOST, **erased(entries)}, BAD_ERASED=[*map(erased, REFUSED[1])])
    for count, several in TAKEN.items():
        right = {"length": count * field, "count": count}
        for entries in several:
            test("recover_fields", {**right, **erased(entries)}, [one for one in fields if one != right],
                 BAD_ERASED=[*map(erased, REFUSED[count])])
    test("recover_pile", {"line": 17, "known": 1, "length": 2 * line, **erased("0 17 3 4, 1 17 3 4")}, piles,
         BAD_ERASED=[*map(erased, ("0 18 3 4", "2 17 3 4", "0 17 4 3", "1 17 3 4, 0 17 3 4"))])


def test_judges():
    """Calls that judge."""
    sizes = (0, 1, 3, 4, MOST_BYTES, MOST_BYTES >> 1, MOST_BYTES >> 3)
    no_found = {"BAD_PACE": one("pace", (NUMBERS.FIND_PACE, ))}
    for name in ("judge", "find_pace", "judge_side", "complete_times", "judge_chapters", "judge_stops", "judge_ends"):
        counts = [key for key, kind, _ in parameters(name) if kind == "size_t" and key != "gap_room"]
        lengths = [dict(zip(counts, some)) for some in itertools.product(sizes, repeat=len(counts)) if len({*some}) > 1]
        more = no_found if name == "judge_side" else {}
        for count, clock in ((0, (0, 5, 9)), (2, (2, MOST, MOST - 1))):
            rule = {"both": MOST, "clock": layout("Clock").pack(*clock)} if name == "judge_side" else {}
            for system, counted, pace in ((1, 1, 1), (2, 2, 2), (2, 1, 1 if more else 3)):
                test_call(name, {"system": system, "counted": counted, "pace": pace, "may_end": MOST, "gap_room": 1,
                                 **rule, **dict.fromkeys(counts, count)}, BAD_LENGTH=lengths, **more)
    for system, counted, pace in ((1, 1, 1), (2, 2, 2), (2, 1, 3)):
        right, part = {"system": system, "counted": counted, "pace": pace}, NUMBERS.PART
        test_call("judge_field", {**right, "pace": min(pace, 2), "count": part, "field": part - 1}, **no_found,
                  BAD_LENGTH=[dict(count=count, field=field) for count, field in (
                      (0, 0), (5, 5), (5, MOST_BYTES), (part + 1, 5), (MOST_BYTES, 0))])
        for count in (0, 2):
            test_call("find_clock", {**right, "pace": min(pace, 2), "both": MOST, "number_count": count}, **no_found)
            expect(OPEN["clock"].get(12) == bytes(12), "the clock of a side without numbers")
        for count in (0, 2):
            test_call("set_aside", {**right, "pace": min(pace, 2), "both": MOST, "clock": bytes(12), "gap_count": 1,
                                    "number_count": count, "left_count": count}, **no_found,
                      BAD_LENGTH=[{"number_count": one, "left_count": other} for one in sizes for other in sizes
                                  if one != other and min(one, other) < 5])
        test_call("seek", {**right, "black": 5, "white": 6, "length": 0, "number": 7})
        expect(OPEN["sought"].get(56) == bytes(56), "what was sought in a side without fields")
    for system in LINES:
        right = {"system": system, "black": 5, "white": 6, "length": 0}
        test_call("seek_chapter", {**right, "chapter": 7})
        test_call("next_stop", {**right, "field": MOST_BYTES, "most": MOST_BYTES})
        expect(OPEN["place"].get(16) + OPEN["stop"].get(16) == bytes(32), "what is sought in a side without fields")


def test_words():
    """Codes and formats. What each word says, tests/unit/test_classes.py compares."""
    test_call("classify", {"word": 0xF9DD59}, BAD_WORD=one("word", (0, )))
    expect(OPEN["code"].get(12) == layout("Code").pack(NUMBERS.TIME, 9, 59), "classify", OPEN["code"].get(12))
    for *words, wanted in ((0, 0, 0, NUMBERS.NEITHER), (0x88FFFF, 0x88FFFF, 0x88FFFF, NUMBERS.NEITHER),
                           (0, 0xF00001, 0, NUMBERS.CAV), (0, 0, 0xF0DD00, NUMBERS.CLV),
                           (0x82CFFF, 0x87FFFF, 0, NUMBERS.BOTH)):
        test_call("format", dict(zip(("first", "second", "third"), words)))
        expect(OPEN["format"].get(4) == struct.pack("I", wanted), "format", words, OPEN["format"].get(4))


def test_attributes():
    """Calls with a status have it looked at. A pointer with no count after it is what is written, and never null; any
    other is an array, which may be null if it has nothing."""
    for attributes, name in re.findall(r"^(.*)\buint32_t ldvbi_(\w+)\([^)]*\*", HEADER, re.M):
        taken = parameters(name)
        written = [place for place, (_, _, is_pointer) in enumerate(taken, 1)
                   if is_pointer and (taken + [("", "", False)])[place][1] != "size_t"]
        wanted = "LDVBI_RESULT " + "".join("LDVBI_POINTER(%d) " % place for place in written)
        expect(attributes == wanted or name == "find_both", name, "has", attributes, "and not", wanted)


def test_names():
    """A number has the name that it has in the library's own source, in its place, and a pointer leads to the struct
    that it has there. An array has its length after it."""
    for path in sorted(SOURCES.glob("*.rt")):
        for name, text in re.findall(r'extern "C" fn ldvbi_(\w+)\(([^)]+)\)', path.read_text("utf-8")):
            own = []
            for key, kind in re.findall(r"(\w+): (.+?)(?:,|$)", text, re.M):
                own += [key] if "&" not in kind else re.findall(r"Ldvbi(\w+)", kind) or [None]
                own += [None] * ("[" in kind)
            taken = [kind if is_pointer else key for key, kind, is_pointer in parameters(name)]
            expect(len(own) == len(taken) and all(one in (None, other) for one, other in zip(own, taken)),
                   name, taken, own)


if __name__ == "__main__":
    protect(CLOSED.end - 4096, 4096)
    for number in LINE_BYTES:
        test_video(number)
    test_judges()
    test_words()
    test_attributes()
    test_names()
    finish()
