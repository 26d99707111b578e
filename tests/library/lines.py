"""Hands lines that are drawn here to the library, and compares what is drawn, read and nearest with them: words of
either system, and lines of other sample rates, 8-bit samples among them, with changes of level a sample early or late.
Lines end where no page follows; of fields the pages of lines 16 to 18 alone can be read."""

import ctypes
import itertools
import mmap
import random
from array import array
from collections import namedtuple

from border import Guarded, NUMBERS, call, expect, finish, layout, named, protect

READING, NEAR, ERASED = map(layout, ("Reading", "Near", "Erased"))
BLANK, FIELDS, WORDS, MOST_LINES = NUMBERS.BLANK, 3, 500, 28
SAMPLES, LIST, ANSWER = map(Guarded, (30 * 313 * 2270, 4096, 4096))
chance = random.Random(60856)


# Words are drawn from column start / over on, with half cells of one microsecond: rate / over samples
Television = namedtuple("Television", "system black white samples lines over start rate")
TELEVISIONS = NTSC, PAL = (Television(1, 16384, 51200, 910, 263, 22, 22 * 150, 315),
                           Television(2, 16384, 54016, 1135, 313, 40000, 40000 * 190, 709379))


def edges_of(tv, off=0):
    """The columns between which the 48 half cells lie, those after the first up to so many early or late."""
    return [(tv.start + half * tv.rate) // tv.over + (chance.randint(-off, off) if half else 0) for half in range(49)]


def drawn(tv, word, off=0):
    """A line that shows the word, or a blank one for 0: a one is low and then high, a zero is high and then low."""
    line, edges = array("H", [tv.black]) * tv.samples, edges_of(tv, off)
    for half, (begin, end) in enumerate(zip(edges, edges[1:])):
        if word and (word >> (23 - half // 2) & 1) == half % 2:
            line[begin:end] = array("H", [tv.white]) * (end - begin)
    return line


def answered(name, asked, samples, size, *count, erased=None):
    """What a call writes that reads these samples, or bytes from an address on (with their length): so many bytes.
    `erased` are the entries of a list."""
    read = samples if isinstance(samples, tuple) else (SAMPLES.put(samples.tobytes()), 2 * len(samples))
    listed = () if erased is None else (
        LIST.put(b"".join(ERASED.pack(*entry) for entry in erased)) if erased else None, len(erased))
    answer = ANSWER.put(b"\xAA" * size)
    status = call(name)(*asked, *read, *listed, answer, *count)
    expect(status == NUMBERS.DONE, name, asked, erased, "has the status", status)
    return ANSWER.get(size)


def read(tv, line):
    return READING.unpack(answered("read_line", tv[:3], line, READING.size))


def some_words():
    """Words, the least and the greatest first."""
    return [0x800000, 0xFFFFFF] + [chance.randrange(0x800000, 0x1000000) for _ in range(WORDS - 2)]


# ---- Words, and the sizes of lines. Causes at their limits are tested in crates/vbi_line_tests.

def test_words(tv):
    """Each word as the library draws it, and as it reads it, drawn here with changes a sample early or late as well."""
    for word in (0, *some_words()):
        line = drawn(tv, word).tobytes()
        at = SAMPLES.put(b"\xAA" * len(line))
        status = call("draw_line")(*tv[:3], word, at, len(line))
        expect(status == 0 and SAMPLES.get(len(line)) == line, tv.system, "draws", hex(word))
        for off in (0, 1):
            found = read(tv, drawn(tv, word, off))
            expect(found == ((0, 1, 0, word) if word else (BLANK, 0, 0, 0)), tv.system, hex(word), "is read as", found)


def test_sizes():
    calls = [call(name) for name in ("line_samples", "line_bytes", "lines", "field_bytes")]
    for number in (*range(258), 65535, 65537, 1 << 31, (1 << 32) - 1):
        tv = {tv.system: tv for tv in TELEVISIONS}.get(number)
        wanted = [tv.samples, 2 * tv.samples, tv.lines, 2 * tv.samples * tv.lines] if tv else [0] * 4
        expect([size(number) for size in calls] == wanted, "the sizes of system", number)
    expect(named("reach", "part", "looked", "vote_reach") == [24, 97, 1000, 240], "a reach has changed")


# ---- Lines of other sample rates, as the header says they are handed over

# Rates in kilohertz of which whole lines show their words; and those of lines whose changes come a sample early or late
WHOLE, JITTERED = (11500, 12000, 13500, 14318, 14750, 17000, 17700), (13000, 13500, 14318, 14750, 16000)
# Rates; from which microsecond on lines are read (0: whole lines, or from 10 on, if they are longer than one of NTSC is
# here); by how many samples a change may come early or late; and how many of the words are read
RATES = ((WHOLE, 0, 0, WORDS, WORDS), ((10400, 18600), 0, 0, 0, 0), (JITTERED, 0, 1, WORDS, WORDS),
         ((12000, 17000), 0, 1, 0, WORDS // 10), *(((17700, ), begin, 0, WORDS, WORDS) for begin in (9, 9.5, 10.4)),
         *(((17700, ), begin, 0, 0, 0) for begin in (19, 19.5, 20.4)))


def at_rate(kilohertz):
    """Lines of 8-bit samples, times 257, after which there is black. Their words begin at 10.5 microseconds."""
    return Television(1, 257 * 60, 257 * 200, 4000, 263, 10 ** 6, 10500 * kilohertz, 1000 * kilohertz)


def test_rate(kilohertz, begin, off, least, most):
    found, tv = 0, at_rate(kilohertz)
    for place, word in enumerate(some_words()):
        is_longer = int((64 if place % 2 else 572 / 9) * kilohertz / 1000) > NTSC.samples
        first = int((begin or 10 * is_longer) * kilohertz / 1000)
        found += read(tv, drawn(tv, word, off)[first:first + NTSC.samples]) == (0, 1, 0, word)
    expect(least <= found <= most, kilohertz, "kHz from", begin, off, "off:", found)


def test_rates():
    for rates, *more in RATES:
        for kilohertz in rates:
            test_rate(kilohertz, *more)
    # At 13.5 MHz the half cells of a PAL disc, too, are too short for PAL.
    cause, _, _, word = read(at_rate(13500)._replace(system=PAL.system), drawn(at_rate(13500), 0xF12345)[:PAL.samples])
    expect(cause != 0 and word == 0, "13.5 MHz as PAL")


# ---- The nearest word, off by what is counted on paper, in columns, each of which costs seven tenths of white - black

# Of 48 half cells of NTSC 15 have 15 columns and the others 14, the first two 14 each; of those of PAL 13 have 17, the
# first of all among them, and the others 18. No cell has two of the rarer ones. So many columns may be a word's first;
# and so many has the shortest cell after the first, each half cell of the first, and the words with the fewest and the
# most high columns.
NEARS = ((NTSC, 224, 28, 14, 14, 24 * 14, 15 * 15 + 9 * 14), (PAL, 285, 35, 17, 18, 12 * 17 + 12 * 18, 24 * 18))


def far(tv):
    """What a sample of the other level costs: seven tenths, rounded up."""
    return -(-7 * (tv.white - tv.black) // 10)


def test_near(tv, starts, cell, shorter, longer, fewest, most):
    def near(samples, tv=tv):
        return NEAR.unpack(answered("nearest", tv[:3], samples, NEAR.size))

    column = far(tv)
    # Another word differs by one cell, a longer one by one half cell. The level of the second changes at each edge.
    for start, word in [(start, word) for start in range(starts) for word in (0xF12345, 0xFFFFFF)]:
        found = near(drawn(tv._replace(start=start * tv.over), word))
        expect(found == (word, start, 0, cell * column, shorter * column), tv.system, start, found)
    # Lines of one word, of which the first is off by 700 in all, in its high byte and its low one; and black lines, of
    # which the row of no word is nearest.
    one, blank = drawn(tv, 0x82CFFF), drawn(tv, 0)
    first, start = one[:], tv.start // tv.over
    first[0] += 612
    first[-1] -= 88
    for count in range(1, MOST_LINES + 1):
        wanted = 0x82CFFF, start, 700, count * cell * column + 700, count * shorter * column + 700
        expect(near(first + one * (count - 1)) == wanted, tv.system, count, "lines")
        expect(near(blank * count) == (0, 0, 0, count * fewest * column, 0), tv.system, count, "black lines")
    # White lines, whose sums are greatest: several words have the most high columns.
    whole = tv._replace(black=0, white=65535)
    found, column = near(array("H", [65535]) * tv.samples * MOST_LINES, whole), MOST_LINES * far(whole)
    off = (tv.samples - most) * column
    expect(found[0] >= 0x800000 and found[2:] == (off, off, off - longer * column), tv.system, found)
    # A sample 0.69 of the way from white counts so much, one that is black no more than seven tenths.
    for off in (69 * (tv.white - tv.black) // 100, tv.white - tv.black):
        line = one[:]
        line[start + shorter] -= off
        expect(near(line)[:3] == (0x82CFFF, start, min(off, far(tv))), tv.system, "a sample is off by", off)


# ---- Fields of which the pages of rows 15 to 17 alone can be read: a call that looks at any other ends Python by a
# signal. The rows begin where a page does, or end where one does: a page is the least that can be taken away.

def word_of(field, row):
    return 0 if (field, row) == (0, 2) else 0x800000 + 1000 * field + row


def are_read(tv, name, address, length, places, *count):
    """The call answers with the words that these rows of fields show."""
    erased = [] if "recover" in name else None
    packed = answered(name, tv[:3], (address, length), READING.size * len(places), *count, erased=erased)
    wanted = [(0, 1, 0, word) if word else (BLANK, 0, 0, 0) for word in (word_of(*place) for place in places)]
    expect([*READING.iter_unpack(packed)] == wanted, name, tv.system, places, packed)


def test_pages(tv, at, is_end):
    """Calls that take all fields, or the one `at`, or its rows, or one of these."""
    row, field = 2 * tv.samples, 2 * tv.samples * tv.lines
    memory = Guarded(FIELDS * field + 2 * mmap.PAGESIZE)
    edge = at * field + (18 if is_end else 15) * row
    begin = memory.end - memory.pages + mmap.PAGESIZE - edge % mmap.PAGESIZE
    rows = [begin + place * field + 15 * row for place in range(FIELDS)]
    for place, address in enumerate(rows):
        lines = b"".join(drawn(tv, word_of(place, line)).tobytes() for line in range(3))
        ctypes.memmove(address, lines, len(lines))
    protect(memory.end - memory.pages, memory.pages)
    protect(rows[at], 3 * row, mmap.PROT_READ)
    places = [(at, line) for line in range(3)]
    are_read(tv, "read_field", begin + at * field, field, places)
    for name in ("read_rows", "recover_rows"):
        are_read(tv, name, rows[at], 3 * row, places)
    are_read(tv, "read_line", rows[at] + 2 * row * is_end, row, places[2:] if is_end else places[:1])
    for name in ("read_fields", "recover_fields"):
        are_read(tv, name, begin + at * field, field, places, 1)
    for address in rows:
        protect(address, 3 * row, mmap.PROT_READ)
    for name in ("read_fields", "recover_fields"):
        are_read(tv, name, begin, FIELDS * field, [divmod(line, 3) for line in range(3 * FIELDS)], FIELDS)


if __name__ == "__main__":
    test_sizes()
    test_rates()
    for near_row in NEARS:
        test_near(*near_row)
    for system in TELEVISIONS:
        test_words(system)
        for field_at, are_ends in itertools.product(range(FIELDS), (False, True)):
            test_pages(system, field_at, are_ends)
    finish()
