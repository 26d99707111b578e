#!/usr/bin/env python3
"""How many numbers `ldvbi_seek` misses, and how many fields it reads: on drawn sides, of which each number that is
asked for is one that `ldvbi_judge` answers by what `ldvbi_recover_fields` reads of the whole side.

usage: seeks.py KIND [FROM TO [EACH]]     the seeds FROM to TO - 1 (0 to 99), EACH numbers of a side (10)

KIND is `clean`: any lead-in, pictures and lead-out, every line read; or `noise`: the same of 1,000 pictures at most,
with noise whose deviation is 35 % of white - black on each line with a word; or a kind of PLAYED in
simulated_kinds.py, as `worn`, or `skips`, CLV sides whose minutes are mostly unread; or `all`, the kinds of KINDS in
turn. A side is a file with holes in TMPDIR. LDVBI_LIBRARY names another library. A line of totals is printed for each
layout."""

import array
import collections
import os
import random
import sys
import tempfile

import ldvbi
from simulate import simulated

NTSC, PAL = ("NTSC", 16384, 51200), ("PAL", 16384, 54016)
LEAD_IN, LEAD_OUT = 0x88FFFF, 0x80EEEE


def clean(seed, pictures=(300, 500, 1000, 3000, 10000)):
    """The words of the fields of a side of which each line is read, and its layout."""
    rng = random.Random("clean %d" % seed)
    pictures = rng.choice(pictures)
    lead_in, lead_out = (rng.choice((0, 8, 100, 600, 2000, 6000, rng.randrange(8000))) for _ in range(2))
    most = 7 * pictures  # each end
    fields = [[0, LEAD_IN, LEAD_IN]] * min(lead_in, most)
    for picture in range(1, pictures + 1):
        word = 0xF00000 | int(str(picture), 16)
        fields += [[0, word, word], [0, 0, 0]]
    return fields + [[0, LEAD_OUT, LEAD_OUT]] * min(lead_out, most), "cav-ntsc"


def played(seed, kind):
    side = simulated(seed, None if kind == "all" else kind)
    return [field["vbi"]["vbiData"] for field in side.document["fields"]], side.layout


def noisy(row, noise, rng, deviation=0.35 * (NTSC[2] - NTSC[1])):
    """A row of samples with noise, of which `noise` has many values of deviation 1."""
    samples = array.array("H", row)
    begin = rng.randrange(len(noise) - len(samples))
    return array.array("H", (min(max(int(sample + deviation * one), 0), 65535)
                             for sample, one in zip(samples, noise[begin:]))).tobytes()


def write(path, setup, fields, seed=None):
    """A file with the three lines of each field that have words; with noise on them if a seed is given."""
    size, row = ldvbi.field_bytes(setup[0]), ldvbi.line_bytes(setup[0])
    rng = random.Random("noise %s" % seed)
    noise = [] if seed is None else [rng.gauss(0, 1) for _ in range(100000)]
    drawn = {}
    with open(path, "wb") as file:
        file.truncate(size * len(fields))
        for field, words in enumerate(fields):
            for line, word in enumerate(words, 15):
                if word:
                    if word not in drawn:
                        drawn[word] = ldvbi.draw_line(word, *setup)
                    file.seek(size * field + row * line)
                    file.write(noisy(drawn[word], noise, rng) if noise else drawn[word])


def sought(seed, kind, each, path):
    """The layout of a side, and of each number that is asked for whether it is found, and the fields that are read."""
    is_noisy = kind == "noise"
    if is_noisy:
        fields, layout = clean(seed, (300, 500, 1000))
    else:
        fields, layout = clean(seed) if kind == "clean" else played(seed, kind)
    setup = PAL if "pal" in layout else NTSC
    counted = "times" if layout.startswith("clv") else "pictures"
    write(path, setup, fields, seed if is_noisy else None)
    with ldvbi.Stream(path, *setup, recover=True) as side:
        known = {}
        for field, answer in enumerate(ldvbi.judge(side, setup[0], counted)):
            if answer.state in (ldvbi.State.believed, ldvbi.State.due):
                known.setdefault(answer.number, field)
        asked = sorted(known)
        rng = random.Random("asked %d" % seed)
        some = set(rng.sample(asked, min(each, len(asked))))
        if kind == "clean":
            some |= set(asked[:3] + asked[-3:])
        for number in sorted(some):
            found = ldvbi.seek(side, number, counted)
            yield layout, found is not None, found.looked if found else None, (seed, number, known[number], len(side))


def main():
    kind, *numbers = sys.argv[1:]
    first, last, each = (list(map(int, numbers)) + [0, 100, 10][len(numbers):])
    totals = collections.defaultdict(collections.Counter)
    with tempfile.TemporaryDirectory() as folder:
        path = os.path.join(folder, "side.tbc")
        for seed in range(first, last):
            for layout, is_found, looked, place in sought(seed, kind, each, path):
                counts = totals[layout]
                counts["asked"] += 1
                if is_found:
                    counts["looked"] += looked
                    counts["most"] = max(counts["most"], looked)
                else:
                    counts["missed"] += 1
                    if os.environ.get("SHOW"):
                        print("missed: seed %d, number %d, field %d of %d" % place, file=sys.stderr)
    for layout, counts in sorted(totals.items()):
        found = counts["asked"] - counts["missed"]
        print("%s, %s: asked %d, missed %d; of those found %d fields were read, %d at most" % (
            kind, layout, counts["asked"], counts["missed"], counts["looked"] // max(found, 1), counts["most"]))


if __name__ == "__main__":
    main()
