"""JSON texts that are read in pieces: each value with its place, whatever the pieces are, and what is refused."""

import io
import itertools
import json
import pathlib
import sys
import tracemalloc
from unittest import mock

from hypothesis import given, strategies as some
from ldvbi import scanner
from ldvbi.scanner import NotJson, Scanner
import pytest
from room import reason
from streams import TOP

LEAVES = some.one_of(some.none(), some.booleans(), some.integers(-2 ** 60, 2 ** 60), some.text(max_size=9),
                     some.floats(allow_nan=False, allow_infinity=False))
VALUES = some.recursive(LEAVES, lambda inner: some.lists(inner, max_size=3) | some.dictionaries(
    some.text(max_size=3), inner, max_size=3), max_leaves=9)
BLANKS = some.sampled_from(["", "\n", " \t\r\n  "])
DEEP = "[" * 125 + "]" * 125  # in the object of a list
ITEMS = some.sampled_from([{"a": [{"b": 1}, {"c": 2}]}, {"a": "},{"}, {"a": {}}, {}, 5, [{}, {}],
                           {"a": [[], "ü", {"b": [None]}]}, {"a": json.loads(DEEP)}])
# How a list ends, soundly and otherwise
ENDS = ("]", ",]", ",5", "}", "", ',{"a":[%s]},{}]' % DEEP, ",{},1e999,{},{}]", ",{},[1.],{},{}]")
# What has to stand at a place, and texts that have something else there
NO_JSON = (
    ("[", 0, "", "x", "5", "\ufeff[]"), ("]", 2, "[1}"), ("}", 6, '{"a":1]'), ("the end", 3, "[1]]", "[] []"),
    ("a name", 1, "{", "{5:1}", "{'a':1}"), ("a name", 7, '{"a":1,}', '{"a":1,5'), ("a colon", 4, '{"a"}'),
    ("a colon", 5, '{"a" 1}'), ("a comma or an end", 2, "[1", "[01]", "[1.]", "[1e+]"),
    ("a comma or an end", 6, '{"a":1'), ("a comma or an end", 7, '{"a":1 2}'),
    ("a value", 1, "[tru]", "[nul", "[-]", '["a]'), ("a value", 2, '["\\x"]'), ("a value", 3, "[1,]", '["a\n"]', "[1,"),
    ("a value", 4, "[[1,]]"), ("a value", 5, '{"a":}'))


def scanned(file, piece):
    """The values of a text, or of a file, which is an object or a list: of each its name or nothing, the value, its own
    text, and where that begins."""
    one = Scanner(io.StringIO(file, newline="") if isinstance(file, str) else file, piece)
    found = [(name, one.value(), one.text, one.begin) for name in (one.members() if one.comes("{") else one.items())]
    one.end()
    return found


@given(some.lists(VALUES, max_size=5) | some.dictionaries(some.text(max_size=3), VALUES, max_size=5),
       some.sampled_from([None, 0, 3]), some.booleans(), BLANKS, BLANKS)
def test_whatever_the_pieces_are(whole, indent, is_ascii, before, after):
    text = before + json.dumps(whole, indent=indent, ensure_ascii=is_ascii) + after
    for piece in (1, 2, 3, 5, 7, 16, 1 << 18):
        found = scanned(text, piece)
        assert [(name, value) for name, value, _, _ in found] == list(
            whole.items() if isinstance(whole, dict) else ((None, value) for value in whole))
        for _, value, own, begin in found:
            assert (own, json.loads(own)) == (text[begin:begin + len(own)], value)


@given(some.lists(ITEMS, max_size=9), some.sampled_from(ENDS), some.sampled_from([None, 1]),
       some.sampled_from([None, (",", ":")]), some.sampled_from([100, 1 << 18]))
def test_several_together(items, end, indent, separators, piece):
    """The values of a list are those that come one by one, whichever are read together; and so are its faults."""
    text = json.dumps(4 * items, indent=indent, separators=separators)[:-1] + end
    one, found = Scanner(io.StringIO(text, newline=""), piece), []
    with mock.patch.object(scanner, "_TOGETHER", 200):
        why = reason(lambda: (found.extend(itertools.chain.from_iterable(one.values())), one.end()))
    assert why == reason(scanned, text, piece)
    assert (why is None) == (end == "]")
    assert why or found == 4 * items


def test_no_more_is_held_than_a_value_and_a_piece():
    text = '{"fields":[' + ",".join(json.dumps({"a": [place] * 100}) for place in range(3000))
    one, count = Scanner(io.StringIO(text), 4096), 0  # about two million characters
    tracemalloc.start()
    next(one.members())
    with pytest.raises(NotJson, match=r"^not JSON at character 1\d{6}, where a comma or an end "):
        for count, _ in enumerate(one.items(), 1):
            assert len(one.value()["a"]) == 100
    most = tracemalloc.get_traced_memory()[1]
    tracemalloc.stop()
    assert count == 3000 and most < 100000


def test_a_long_value_is_begun_a_few_times():
    """As often as what is read is twice as long: a value that is longer by far than a piece takes no longer."""
    with mock.patch.object(scanner, "_DECODER", mock.Mock(wraps=json.JSONDecoder())) as decoder:
        assert scanned('["%s"]' % ("a" * 100000), 1)[0][1] == "a" * 100000
        assert decoder.raw_decode.call_count < 40
        decoder.raw_decode.reset_mock()
        many = Scanner(io.StringIO("[%s{}]" % ("{}, " * 99)))  # of which all but the last are read together
        assert sum(map(len, many.values())) == 100 and decoder.raw_decode.call_count == 1


@pytest.mark.parametrize("wanted, place, texts", [(*row[:2], row[2:]) for row in NO_JSON])
def test_what_is_no_json(wanted, place, texts):
    for text, piece in itertools.product(texts, (1, 2, 3, 7, 1 << 18)):
        assert reason(scanned, text, piece, kind=NotJson) == "not JSON at character %d, where %s has to stand" % (
            place, wanted)


def test_limits_of_the_program():
    formats = pathlib.Path(TOP, "docs", "FORMATS.md").read_text("utf-8")
    assert "META_LIMIT-->%s bytes" % format(scanner.MOST, ",") in formats and scanner.LONGEST == scanner.MOST
    assert "nested at most %d deep" % scanner.DEEPEST in formats


def test_nested_and_long():
    """As deep as the program has it: 127 lists and objects in each other, also those that are gone through one by one;
    numbers, values and texts without an end; and bytes that aren't UTF-8."""
    deep = "nested too deep, or with too large a number, at character %d"
    for inner in ("[" * 100000, "NaN", "-Infinity", "1e999", '{"a":[NaN]}',
                  *["1" * 5000] * hasattr(sys, "set_int_max_str_digits")):
        assert reason(scanned, "[%s]" % inner, 1 << 18, kind=NotJson) == deep % 1
    for before, inner in (("", "[" * 126 + "]" * 126), ("", "[" * 125 + "[],[]" + "]" * 125),
                          ("1, ", '{"a":[' * 62 + '{"a":[]},[]' + "]}" * 62)):
        assert scanned("[%s%s]" % (before, inner), 50)[-1][2] == inner
        assert reason(scanned, "[%s[%s]]" % (before, inner), 50, kind=NotJson) == deep % (1 + len(before))
    together = Scanner(io.StringIO('[{"a":%s}, {}, {}]' % ("[" * 126 + "]" * 126)))
    assert reason(lambda: list(together.values()), kind=NotJson) == deep % 1
    many = "[%s]" % ",".join(["[[]]"] * 200)  # none of which is deep
    one = Scanner(io.StringIO(many))
    assert (len(scanned(many, 50)), [one.value() for _ in one.items() for _ in one.items()]) == (200, [[]] * 200)
    assert [value for _, value, *_ in scanned("[1e308,-1e-999]", 50)] == [1e308, 0]
    file = io.StringIO("[[1 2" + "," * 100)  # what comes after a fault isn't read
    assert (reason(scanned, file, 50, kind=NotJson) is not None, file.tell()) == (True, 50)
    with mock.patch.object(scanner, "LONGEST", 20):
        assert len(scanned('["%s"]' % ("a" * 18), 1)) == 1
        assert reason(scanned, '["%s"]' % ("a" * 100), 5, kind=NotJson) == "too long: what begins at character 1"
    with mock.patch.object(scanner, "MOST", 10000):
        for endless in ("[" + 20000 * " ", "[1" + 10000 * ",1", "{" + 4000 * '"a":1,'):
            assert reason(scanned, endless, 700, kind=NotJson) == "too long"
    other = io.TextIOWrapper(io.BytesIO("[]".encode("utf-16")), encoding="utf-8")
    assert reason(scanned, other, scanner.PIECE, kind=NotJson) == "not UTF-8"
