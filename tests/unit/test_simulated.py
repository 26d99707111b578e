"""Simulated sides beside their truth: bounds for sides of each kind, and whether those with one fault are whole. The
comparison with the truth, and what holds of every answer, find what is wrong with a changed answer."""

import copy
import random
import re
from collections import Counter

from compact import cells_of, made
from comparison import Comparison
from discs import plain
from ldvbi_side.answer.analysis import analyse
from measure import fields_of, measured
import pytest
from simulate import KINDS, PLAYED, simulated
from simulated_faults import faulty, lead_out_of
from simulated_real import real
from sound import faults_of
from truth import Truth
from verdicts import said_of, true_of

pytestmark = pytest.mark.unrecorded
# Of sides that were played in other ways the pictures of a side, and how many of two at least have exact missing
# numbers, exact first fields, and just the reasons why they aren't whole
SIDES = {"skips": (None, 1, 1, 0), "worn": (300, 2, 2, 2), "swapped": (200, 2, 2, 1), "speeds": (1100, 2, 2, 1),
         "joined": (150, 2, 2, 2), "losses": (600, 0, 0, 2), "restarts": (150, 2, 2, 2), "loops": (300, 0, 2, 1),
         "turned": (300, 0, 2, 1), "searched": (500, 0, 1, 0), "sides": (200, 0, 2, 2), "minutes": (None, 0, 2, 2)}
SEEDS = {"joined": (0, 2), "sides": (0, 3)}  # the truth of two discs with numbers far apart takes long


def within(counts, table):
    """Each row has a count's name, and what it is, or between what; then the same of those that aren't found."""
    for row in re.split(r";\s+", table.strip()):
        name, _, bounds = row.partition(": ")
        for count, bound in zip((counts[name], counts[name] - counts[name + " found"]), bounds.split()):
            least, _, most = bound.partition("..") if ".." in bound else (bound, "", bound)
            assert int(least or 0) <= count <= int(most or 10 ** 9), row


def measure(kinds, sides):
    """What is found of sides, of which each has the words of `measured`: of each kind, of all, and faults."""
    totals, told = {kind: Counter() for kind in kinds}, []
    for seed, more in sides:
        kind, counts = measured(seed, tell=told.append, **more)
        totals[kind].update(counts)
    return totals, sum(totals.values(), Counter()), told


def test_bounds():
    """No answer contradicts the words of its side, of some of them. All wrong numbers are set aside, and hardly a right
    one; no field has another number than on the disc. It is seldom left open whether a side is whole, but of few
    minutes alone. Single fields of a disc with a number on both fields of its pictures, or of film, are no gap."""
    totals, of_all, told = measure(KINDS, [(seed, {"sound": seed % 7 == 0}) for seed in range(2000, 2014)])
    within(of_all, """
        faults: 0; wrong: 160 0; wrong chapters: 215 0; right: 32491; right found: ..1; right chapters: 29118;
        right chapters found: 0; numbers: 15001.. 0; due: 471.. 0; unread numbers: 441.. 0; lost numbers: 401.. ..1;
        undecided: ..49; lost places: 103; backs: 52 0; lost: 70.. 0; stops: 14..; missing: 13..; left out: 14..;
        first fields: 13..; chapter table: 14..; whole: 14..; reasons: 13..; said yes: 2..; said can't tell: ..2""")
    assert sum(of_all["said " + word] for word in ("yes", "no", "can't tell")) == 14
    within(of_all - totals["cav-both"] - totals["cav-film"], "lost places: 47 0")
    for counts in totals.values():
        within(counts, "sides: 2; right: 1..; numbers: 1..")


def test_sides_that_were_played_in_other_ways():
    """No answer contradicts the words of its side. Where few times have their minute, the library believes few of them.
    Of film that is turned by hand numbers may be called unread that were never shown; of no other kind."""
    totals, of_all, told = measure(PLAYED, [
        (seed, {"kind": kind, "count": count, "sound": kind != "minutes" and seed == 0})
        for kind, (count, *_) in SIDES.items() for seed in SEEDS.get(kind, range(2))])
    within(of_all, "sides: 24; faults: 0; whole: 24; wrong: 76 0; right: 55001..; right found: ..12")
    within(of_all - totals["turned"], """
        numbers: 10601.. ..1; due: 381.. ..1; unread numbers: 361.. ..1; lost numbers: 6400.. ..10; swaps: 3 ..1;
        speeds: 2 0""")
    within(of_all - totals["turned"] - totals["skips"] - totals["sides"], "lost places: 71 0")
    for kind, (_, *least) in SIDES.items():
        within(totals[kind], "missing: %d..; first fields: %d..; reasons: %d.." % tuple(least))
    for kind, table in (("turned", "backs: 185.. ..25; unread numbers: 1.. ..4"), ("loops", "backs: 11.. ..3"),
                        ("restarts", "backs: 3 ..1; lost: 1 0"), ("worn", "backs: 1 0; lost: 4 0"),
                        ("losses", "lost: 41.. ..2"), ("sides", "lost: 4 0"), ("minutes", "lost: 1 0")):
        within(totals[kind], table)


# ---- The comparison, and what holds of every answer

# Changes of an answer after which less is as it should be, of what the comparison counts by this name
LESS = {"wrong found": "doubtful.clear()", "first fields": "showings.pop()", "chapter table": "chapters.pop(0)",
        "stops": "stops.append({'field': 1})",
        "missing": "missing.append(dict(first=99999, last=99999, why='lost'))"}
# Others, and a part of the fault that is found then
FAULTY = {"doubtful.clear()": "believed and set aside, or neither", "doubtful.append(doubtful[0])": "set aside twice",
          "unread.append(dict(number=1, read=None, field=chapters[0]['field']))": "which has another code",
          "unread.append(dict(number=1, read=None, field=showings[0][1]))": "a number was read in field",
          "lost.append(dict(after=1, before=2, fields=9, by='parity'))": "lost beside the numbers, after field 1",
          "stills.append(dict(number=1, first=1, last=99))": "another number in the still from field 1 on",
          "swapped.append({})": "something is lacking, and whole is: yes", "whole = 'no'": "whole is no, and the",
          "missing.append(dict(why='undecided', first=1, last=1))": "a number is undecided, and the side is whole",
          "pace = 'both'": "the pace is both, and 0 numbers stand on two fields"}
# Sides whose answers have had faults
BY_HAND = """
    1..29 19=-/#10/#77 || t1000..1029 19.17=@0:09 || Lx3 1..29 Ox4 100..129 14=70000 || 101..130 || NTSC 1..29 -21:24
    NTSC t0..20 t22..40 || NTSC B || 1..29 19=-/#70000/#70000* || NTSC f1..29 23:30=B 26=-/#70000/#70000*
    1..29 Bx40 34..59 || t1000..1059 3:120/4.16=- || 1..59 -/#60/#60x2 61..99 || n0..2x3000 -4001:5000
    1..29 -/#30/#30x42 -/#31/#31 -/#32/#32x41 B 33..59 || n0..2x3000 -4001:5000 3101=O
"""


def changed(known, change):
    """An answer after these statements, in which its members have their names."""
    found = copy.deepcopy(known)
    exec(change, found)
    return found


def test_each_change():
    side = simulated(2000, "cav-pal", 0.02, 300)
    fields, truth = fields_of(side), Truth(side)
    known = analyse(fields)

    def counts(change):
        told = []
        return Comparison(truth, changed(known, change), lambda *one: told.append(one[0])).counts, told

    before, told = counts("")
    assert (told, [before[name] for name in LESS][1:]) == ([], [1] * 4)
    for name, change in LESS.items():
        found, told = counts(change)
        assert found[name] < before[name] and told
    found, told = counts("lost.append(dict(after=5, before=7, fields=9, by='number')); "
                         "unread.append(dict(number=1, field=300))")
    assert told == ["due in the wrong field", "lost"]
    for name in ("lost", "due"):
        assert found[name] - found[name + " found"] == before[name] - before[name + " found"] + 1
    for change, fault in FAULTY.items():
        assert [one for one in faults_of(fields, changed(known, change)) if fault in one]


def test_sides_by_hand():
    for text, in cells_of(BY_HAND):
        fields = made(text, plain)
        assert faults_of(fields, analyse(fields)) == []


# Of sides as discs and players are what is true, and what may be said. Detours, and a last number that stays beside
# lead-out, are the library's. A player that comes back as if it had played on meanwhile looks like misread numbers.
REAL_TRUE = {"wrong parity": ({"yes"}, "can't tell"), "away": ({"no"}, "no, can't tell"),
             "video in film": ({"yes", "no"}, "yes, no, can't tell"), "frozen": ({"yes"}, "yes, no, can't tell"),
             "scratched": ({"yes"}, "yes, no, can't tell")}


@pytest.mark.parametrize("kind, wanted, said", [(kind, *row) for kind, row in REAL_TRUE.items()])
def test_real_sides(kind, wanted, said):
    """No answer contradicts the words of its side, and none is falsely yes."""
    sides = [real(kind, seed, 120) for seed in range(8)]
    found = [(true_of(side, may_end=True), said_of(side, may_end=True)[0]) for side in sides]
    assert {true for true, _ in found} == wanted and ("no", "yes") not in found
    assert [one for _, one in found if one not in said] == []
    for side in sides[:2]:
        assert faults_of(fields_of(side), analyse(fields_of(side))) == []


# What is true of sides with a fault, whether they have a lead-out, and what may be said of them
TRUE = {"sound": ("yes", True, "yes"), "both": ("yes", True, "yes"), "film cut": ("yes", True, "yes"),
        "no lead-out": ("yes", False, "can't tell"), "cut off": ("no", False, "can't tell"),
        "begun late": ("no", True, "no"), "twice": ("no", True, "no, can't tell"), "one lost": ("no", True, "no")}


@pytest.mark.parametrize("fault, wanted, has_end, said", [(fault, *row) for fault, row in TRUE.items()])
def test_faults(fault, wanted, has_end, said):
    """Minutes alone don't show one field more or less, nor the ends of their disc, nor how long a minute is that
    doesn't stand between two others. A capture that was cut off is whole only if it may end."""
    sides = [faulty(random.Random(seed), fault, seed, 120) for seed in range(7)]  # one of each layout
    others = [side for side in sides if side.layout != "clv-minutes"]
    assert {(true_of(side), lead_out_of(side) is not None) for side in others} == {(wanted, has_end)}
    assert [side.settings for side in others if said_of(side)[0] not in said] == []
    if fault == "cut off":
        assert {true_of(side, may_end=True) for side in others} == {"yes"}
    of_minutes = [true_of(side) for side in sides if side.layout == "clv-minutes"]
    assert of_minutes == ["either"] * (fault not in ("both", "film cut"))
