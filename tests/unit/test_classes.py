"""The classes of words in Python: those of texts/classes.txt, what words say, and each word beside the library."""

import collections
import ctypes
import itertools
import os
import pathlib
import re
import struct

from ldvbi.classes import Class, CLASSES, classify, Format, format_of, Kind, usual_pictures
from ldvbi.codes import code, code_of, codes_by_kind, name_of, STANDARD_LINES, value_of
from room import reason
from streams import TOP

# What words say: kind and numbers by name, and the one that counts
MEANINGS = (
    (0x88FFFF, {"kind": "lead-in"}, None), (0xABCDEF, {"kind": "other"}, None),
    (0xF12345, {"kind": "picture", "number": 12345}, 12345), (0x8F9DDD, {"kind": "chapter", "number": 79}, 79),
    (0xF9DD59, {"kind": "time", "hours": 9, "minutes": 59}, 599),
    (0xF0DD60, {"kind": "time", "hours": 0, "minutes": 60}, None),
    (0x8FE929, {"kind": "clv picture", "seconds": 59, "picture": 29}, (59, 29)),
    (0x8DC0A1, {"kind": "cx on", "number": 0x0A1}, None),
    (0x83D0A1, {"kind": "users", "digit": 3, "number": 0x0A1}, None))
# The codes of three words that stand on a line of their kind; two lines that differ are two codes
BY_KIND = (
    ((0x82CFFF, 0x82CFFF, 0xF00002), [{"kind": "picture stop", "lines": [16, 17]},
                                      {"kind": "picture", "number": 2, "lines": [18]}]),
    ((0, 0xF00001, 0xF00003), [{"kind": "picture", "number": 1, "lines": [17]},
                               {"kind": "picture", "number": 3, "lines": [18]}]),
    ((0xF00001, 0x8DC0A1, 0xABCDEF), []), ((0x87FFFF, 0x8AE000, 0), []))
FORMATS = (
    ((0, 0, 0), "neither"), ((0x88FFFF, 0x800DDD, 0x8DC000), "neither"), ((0xF00001, 0, 0), "cav"),
    ((0, 0, 0x82CFFF), "cav"), ((0, 0x87FFFF, 0), "clv"), ((0, 0, 0xF0DD00), "clv"), ((0x8AE000, 0, 0), "clv"),
    ((0x82CFFF, 0x87FFFF, 0), "both"))
# Digits from the second one on: each next to what any class has there, after 8 and F; after others such as a class has
EDGES = ("012789ABCDEF", *["01789ABCDEF"] * 4)
OTHERS = "0BDF", "0ACDEF", "0DF", "0DF", "0DF"


def test_the_classes():
    found = []
    for text in re.split(r"\nclass +", pathlib.Path(TOP, "texts", "classes.txt").read_text("utf-8"))[1:]:
        of = dict(re.findall(r"^(\w+)  +(.*)$", text, re.M))
        kind = Kind[re.sub(r"(?<=[a-z])(?=[A-Z])", "_", text.split("\n")[0]).lower()]
        assert kind == int(of["number"])
        lines = tuple(map(int, re.findall(r"\d+", of.get("lines", ""))))
        found.append(Class(kind, of["text"].partition(" {")[0], tuple(re.findall(r"^(\w+) =", text, re.M)), lines,
                           of.get("disc", "").lower()))
    assert (CLASSES, len(Kind)) == (tuple(found), len(found))
    assert STANDARD_LINES == {one.kind: one.lines for one in found if one.kind != Kind.other}


def test_what_words_say():
    assert repr(classify(0xF12345)) == "Code(kind=<Kind.picture: 1>, first=12345, second=0)"
    for word, meaning, value in MEANINGS:
        assert (code(word), value_of(code_of(word))) == (meaning, value)
        assert name_of(code_of(word).kind) == meaning["kind"]
    assert [code(0), code_of(0)] == [None, None]
    for words, wanted in BY_KIND:
        assert codes_by_kind(words) == wanted
    for words, wanted in FORMATS:
        assert format_of(*words) is Format[wanted]


def test_no_words():
    for text, *values in (("number is no code word", 1, 0x7FFFFF, 0x1000000, 2 ** 32 + 0x800000, -1, -0x800000),
                          ("word is not a whole number", 15803205.0, "F12345", None, b"\xF1")):
        for value in values:
            assert {reason(classify, value), reason(format_of, value, 0, 0), reason(format_of, 0, value, 0)} == {text}
    assert reason(classify, 0) == "number is no code word"


def test_words_beside_the_library():
    """The greatest numbers of each kind are those that include/ldvbi.h has after `0 to`."""
    call = ctypes.CDLL(os.environ["LDVBI_LIBRARY"]).ldvbi_classify
    call.argtypes = ctypes.c_uint32, ctypes.c_void_p
    greatest = collections.Counter()
    for first, digits in (*((first, EDGES) for first in "8F"), *((first, OTHERS) for first in "9ABCDE")):
        words = [int(first + "".join(rest), 16) for rest in itertools.product(*digits)]
        codes = (ctypes.c_uint32 * (3 * len(words)))()
        assert not any(map(call, words, itertools.count(ctypes.addressof(codes), 12)))
        wanted = list(struct.iter_unpack("=III", codes))
        wrong = ("%06X: %s" % (word, known) for word, known, one in zip(words, map(classify, words), wanted)
                 if known != one)
        assert next(wrong, None) is None
        assert usual_pictures(words) == {word: number for word, (kind, number, _) in zip(words, wanted) if kind ==
                                         Kind.picture and word < 0xF80000}
        for kind, *numbers in set(wanted):
            for place, number in enumerate(numbers):
                greatest[kind, place] = max(greatest[kind, place], number)
    header = pathlib.Path(TOP, "include", "ldvbi.h").read_text("ascii")
    kinds = re.findall(r"^    LDVBI_\w+ = (\d+), +/\* (first: .*) \*/$", header, re.M)
    assert +greatest == {(int(kind), place): int(said.rpartition(", 0 to ")[2])
                         for kind, text in kinds for place, said in enumerate(text.split("; "))}
