"""The schemas of share/schema/: what the program and the command print of sides of every kind is valid, and each list
has an item there. At each place other values are tried: what schema.txt allows is valid, and all else is refused."""

import itertools
import json
import os
import pathlib
import re
import subprocess
import sys

from compact import cells_of, made
from discs import answer, joined, pictures, plain, side
from jsonschema import Draft202012Validator
from ldvbi.readings import Cut
from ldvbi_side.answer.analysis import analyse
from ldvbi_side.join.plain import as_json
from ldvbi_side.levels import Best, Tried
from measure import fields_of
import pytest
from simulate import KINDS, simulated
from streams import TOP

pytestmark = pytest.mark.unrecorded

# Of each kind of value one that stands nowhere, unless a row says so
WRONG = (-1, 0.5, True, "x", [], {}, None)
# Sides with each form of a member that simulated ones lack
SIDES = """
    none | PAL || blank | Bx3 || stop | S/-/- || tie | -/#3/#5 || swapped | 1..8 ~7 || speed | t0..57/3
    bad | NTSC ?/!/~x3 || lead-in | L 88FFFF/-/- || undecided | NTSC t0..1 t3..4 || wrong | t0..29 s44.7/-/@9:59
    line 16 | 83D0A1/88FFFB/- 8DC0A1/-/- 8BAFFF/-/- || conflict | -/#4/#5 -/c0/c1 || second | s7.0/-/- s7.1/-/- s7.2/-/-
    clock | 8AE025/87FFFF/F0DD60x2 || left out | NTSC t0..2409!400%1001 || far | 1..30 60001..60030 60030x9
"""
# Captures that have each form of a member together
TOGETHER = (("1..50 151..170 71..100", "1..98"), ("1..3 6..8", "6..9", "1..3"), ("m58..59x3000", "m58..59x3000"),
            ("NTSC t0..4499!7%1000", "NTSC t0..4499!7%1000 -1:200 401=-/-/-"), ("1..9 5=S/#3/#3", "2..9"))
# White, the width of a line, and the first column before which no level is held too long; and fields with each cause,
# with the least and the greatest columns, and with each pass, as described.py makes them
SYSTEMS = {
    "NTSC": ("51200", 910, 40, "82CFFF|82CFFF @170-171L|-\nL900 H10|82CFFF @170-174L|L164 H746\n"
                               "H1|L908 H1|L11 H11\nL873 H37|-|-"),
    "PAL": ("54016", 1135, 50, "8AE012|8AE012 @220-221L|8AE012 @220-224L\nL1130 H5|H1|L1133 H1\n-|L14 H14|L1090 H45")}
# What the first six lines of NTSC show
FIRST_LINES = [(0x82CFFF, "word", 1), (0x82CFFF, "word", 2), (0, "blank", 0), (0, "unfinished", 0),
               (0, "change 170", 0), (0, "hold 200", 0)]
# What a schema may say: an unknown word would say nothing
KEYWORDS = {*Draft202012Validator.VALIDATORS, "$schema", "$id", "$comment", "$defs", "title", "description"}
WRONG_CAUSES = ("Word %s", "%s", "%s ", "%s 0100", "%s 100.0", "%s  100", "%s 100 ", "%s100", "x%s 100")


def schema_of(kind):
    schema = json.loads(pathlib.Path(TOP, "share", "schema", "ldvbi%s.schema.json" % kind).read_text("ascii"))
    assert schema["$schema"] == Draft202012Validator.META_SCHEMA["$id"]
    Draft202012Validator.check_schema(schema)
    all_known(schema)
    return schema


def all_known(schema):
    """Each word of a schema is a known one, at all depths; below some are names or values instead."""
    assert {*schema} <= KEYWORDS
    for word, value in schema.items():
        for one in value.values() if word in ("properties", "$defs") else value if isinstance(value, list) else [value]:
            if isinstance(one, dict):
                all_known(one)


def read_table(*kinds):
    """The words of each place in schema.txt, by the rows of all kinds and those of these ones."""
    text = re.sub(r"^#.*\n", "", pathlib.Path(TOP, "tests", "unit", "schema.txt").read_text("ascii"), flags=re.M)
    alike, *parts = re.split(r"^= (.*)\n", text, flags=re.M)
    rows = alike + "".join(part for kind, part in zip(parts[::2], parts[1::2]) if kind in kinds)
    table = {}
    for row in re.split(r"\n| \|\| ", rows.strip()):
        words = re.findall('!?"[^"]*"|[^" ]+', row)
        places = [word for word in words if word.startswith((".", "*."))] or words[:1]
        for place in places:
            table.setdefault(place, []).extend(
                one for word in words if word not in places for one in table.get(word, [word]))
    return {place: words for place, words in table.items() if place.startswith((".", "*."))}


def others(value, words):
    """Yields what is put in place of a value whose row has these words, and whether it may stand there. As JSON has it,
    true isn't 1."""
    is_fixed, found = words == ["fixed"], {json.dumps(one): False for one in WRONG}
    if isinstance(value, dict):
        yield from (({other: value[other] for other in value if other != name}, False) for name in value)
        yield {**value, "more": 0}, False
    elif is_fixed:
        yield from [(value + value[-1:], False), (value[:-1], False)]
    elif isinstance(value, list):
        words = [*words, "[]"]
    for word in [] if is_fixed else words:
        ends = re.fullmatch(r"(\d+)\.\.(\d*)", word)
        if ends:
            least, greatest = int(ends[1]), int(ends[2] or 10 ** 9)
            found.update({str(least - 1): False, str(greatest + 1): not ends[2], str(least): True, str(greatest): True})
        else:
            text = word.lstrip("!")
            text = text.replace("'", '"') if text[0] == "[" else text
            is_json = re.fullmatch(r'null|true|false|\[.*\]|[0-9]+|".*"', text)
            found[text if is_json else json.dumps(text)] = word[0] != "!"
    yield from ((json.loads(text), is_allowed) for text, is_allowed in found.items())


def changes(value, table, tried, place=""):
    """Yields the value at a place with something else in it, or in its stead: where that is, and whether it may be."""
    row = place if place in table else "*" + place[place.rfind("."):]
    words = table.get(row, [])
    is_object, is_list = isinstance(value, dict), isinstance(value, list)
    assert words or is_object or is_list or place[-2:-1].isdecimal(), place + " has no row"
    if (place, type(value)) not in tried and (words or is_object or is_list):
        tried[place, type(value)] = row
        yield from ((other, place, is_valid) for other, is_valid in others(value, words))
    for key, item in value.items() if is_object else enumerate(value) if is_list else ():
        inner = "%s.%s" % (place, key) if is_object else "%s[%s]" % (place, key if words == ["fixed"] else "")
        for other, where, is_valid in changes(item, table, tried, inner):
            changed = value.copy()
            changed[key] = other
            yield changed, where, is_valid


def shortened(members):
    """An object with one or two items in each list, or as many as one of a fixed length has."""
    return {name: value[:2 if value and isinstance(value[0], (dict, list)) else 5] if isinstance(value, list) else value
            for name, value in members.items()}


def validators(schema):
    """What says whether a document is valid, by the member that has been changed: of all others it is known."""
    whole = {name: value for name, value in schema.items() if name not in ("required", "additionalProperties")}
    found = {name: Draft202012Validator({**whole, "properties": {name: one}}).is_valid
             for name, one in schema["properties"].items()}
    return {"": Draft202012Validator(schema).is_valid, **found}


def each_place(schema, table, documents):
    """All documents are valid, and what is made of them is as the table has it, each row of which is of some place."""
    are_valid, tried = validators(schema), {}
    assert all(map(are_valid[""], documents))
    for text in sorted(map(json.dumps, documents), key=len):
        for changed, place, may_be in changes(json.loads(text, object_hook=shortened), table, tried):
            assert are_valid[re.match(r"\.?(\w*)", place)[1]](changed) == may_be, (place, changed)
    assert set(table) <= set(tried.values())


def answers():
    """A simulated side of each kind, and sides by hand."""
    for _, text in cells_of(SIDES):
        yield made(text)
    yield answer(pictures([1, 2]), cut=Cut(5, 7), first=[False, True, True, False])
    yield made(" ".join("-/#%d/#%d B" % (number, number + 1000) for number in range(60)))  # a second row
    yield analyse(made("1..2 ? B 4..6", plain)._replace(nearest_word=lambda *_: 0xF00003))  # a confirmed number
    yield made("1..30 11..20 31..60")  # a detour
    yield made("1..9 5=S^/#3/#3")  # a worn stop
    yield analyse(made("1..8", plain)._replace(may_end=False, given_last="9", sequential=9))
    yield analyse(made("1..3 Bx2 5..8", plain)._replace(pad=[field in (6, 7) for field in range(16)]))
    yield analyse(made("Bx3", plain)._replace(
        try_levels=lambda: Tried(6, 0, 16384, 51200, Best("NTSC", None, 30000, 6))))
    for seed, kind in enumerate(KINDS):
        yield analyse(fields_of(simulated(seed, kind, 0.02, 200), seed % 2 == 0))


def together():
    return [as_json(joined(*(made(text, side) for text in texts))) for texts in TOGETHER]


@pytest.mark.parametrize("kind, make", (("side", answers), ("join", together)))
def test_answers(kind, make):
    schema, documents = schema_of("-" + kind), list(make())
    lists = {name for name, one in schema["properties"].items() if one.get("type") == "array"}
    assert lists <= {name for one in documents for name, value in one.items() if isinstance(value, list) and value}
    each_place(schema, read_table("answer", kind), documents)


def test_scans(room):
    """Of sides of which some weren't read."""
    for name in ("side.tbc", "worn.tbc", "absent.tbc"):
        room.add(name, "83D0A1/-/- 1..2")
    os.unlink(room.named("absent.tbc"))
    for kind, words in (("read", "-j 1 --html pages side.tbc worn.tbc"), ("failed", "-j 1 absent.tbc no")):
        each_place(schema_of("-scan"), read_table("version 2", kind), [json.loads(room.scan("--json " + words)[1])])


def each_line(schema, record):
    """What may stand beside each other for a line: its word, cause and pass, and the word nearest to it."""
    words, near = (0x800000, 0xFFFFFF), {"word": 0, "distance": 0, "rival": 0}
    allowed = [*itertools.product([0], ("blank", "unfinished"), [0], [None]),
               *itertools.product(words, ["word"], (1, 2), [None]),
               *itertools.product(words, ("word", "unfinished"), [3], [near])]
    is_valid = Draft202012Validator({"$ref": "#/$defs/record", "$defs": schema["$defs"]}).is_valid
    lists = [record["vbi"]["vbiData"], record["vbiCause"], record["vbiPass"], record.get("vbiNear", [None] * 3)]
    for line in range(3):
        before = [one[line] for one in lists]
        for members in itertools.product((0, 0x7FFFFF, *words, 0x1000000, 8388608.5), ("word", "blank", "unfinished"),
                                         range(5), (None, near) if "vbiNear" in record else [None]):
            for one, member in zip(lists, members):
                one[line] = member
            assert is_valid(record) == (members in allowed), members
        for one, member in zip(lists, before):
            one[line] = member


@pytest.mark.parametrize("system", SYSTEMS)
@pytest.mark.parametrize("kind, version, options, passes", (
    ("", "version 2", (), {0, 1, 2}), ("-recovered", "version 3", ("--recover",), {0, 1, 2, 3})))
def test_documents(room, system, kind, version, options, passes):
    """Those of no field, of all fields, and of one of which a byte is there or lacks; which columns a cause has."""
    white, width, hold, signal = SYSTEMS[system]
    ran = subprocess.run([sys.executable, os.path.join(TOP, "tests", "cli", "described.py"), system, "1"],
                         input=signal.encode(), stdout=subprocess.PIPE, check=True)
    settings, documents = ["--system", system, "--black", "16384", "--white", white], []
    for data in (b"", ran.stdout[:1], ran.stdout[:-1], ran.stdout):
        room.write("side.tbc", data)
        documents.append(json.loads(room.extracted("side.tbc", [*settings, *options])))
    by_command = room.printed("side.tbc", *settings, "--document", *["--recovered"] * len(options))
    assert json.loads(by_command) == documents[-1]
    fields, schema = documents[-1]["fields"], schema_of(kind)
    if (system, kind) == ("NTSC", ""):
        assert FIRST_LINES == [line for one in fields[:2]
                               for line in zip(one["vbi"]["vbiData"], one["vbiCause"], one["vbiPass"])]
    assert {one for record in fields for one in record["vbiPass"]} == passes
    assert {"word", "blank", "unfinished", "change 0", "change %d" % (width - 1), "hold %d" % hold,
            "hold %d" % (width - 1)} <= {cause for record in fields for cause in record["vbiCause"]}
    assert schema["properties"]["fields"]["maxItems"] == 1000000
    each_place(schema, read_table("document", system, version), documents)
    name = "cause" + system.title()
    if kind:
        assert schema["$defs"][name] == schema_of("")["$defs"][name]
    too_far = json.dumps(documents[-1]).replace("change %d" % (width - 1), "change %d" % width)
    assert not Draft202012Validator(schema).is_valid(json.loads(too_far))
    if system == "NTSC":
        each_line(schema, fields[0])


@pytest.mark.parametrize("system", SYSTEMS)
def test_causes(system):
    schema, (_, width, hold, _) = schema_of(""), SYSTEMS[system]
    is_cause = Draft202012Validator({**schema["$defs"]["cause" + system.title()], "$defs": schema["$defs"]}).is_valid
    for name, least in (("change", 0), ("hold", hold)):
        columns = (*range(-1, 1200), 1910, 9099, 9100, 11350)
        assert [column for column in columns if is_cause("%s %d" % (name, column))] == list(range(least, width))
        assert not any(is_cause(form % name) for form in WRONG_CAUSES)
