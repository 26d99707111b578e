"""The readers: each answers a word for each line, or 0 where it says none. `ldvbi` and its library also answer the pass
of the word."""

import array
import json
import os
import subprocess
import tempfile

import avi
from lines import BLACK, HEIGHT, OPTIONS, WHITE, WIDTH


def said(*words):
    """What a program prints that has to succeed."""
    return subprocess.run(words, capture_output=True, check=True).stdout.decode()


def answers_of(command, lines):
    """What a program prints of each line on its standard input: a word, with its pass where the program has passes, or
    `none`, which is a word of 0."""
    text = subprocess.run(command, input=b"".join(lines), capture_output=True, check=True).stdout.decode()
    return ["0" if answer == "none" else answer for answer in text.splitlines()]


def words_and_passes(answers):
    """Words, and their passes, of answers that have a pass after each word."""
    pairs = [(answer + " 0").split() for answer in answers]
    return [int(pair[0], 16) for pair in pairs], [int(pair[1]) for pair in pairs]


# ---- ldvbi and its library

def by_ldvbi(program, lines):
    """The words and the passes that `ldvbi extract` has for fields with three of these lines each."""
    black = array.array("H", [BLACK]) * WIDTH
    with subprocess.Popen([program, "extract", *OPTIONS], stdin=subprocess.PIPE, stdout=subprocess.PIPE) as run, \
            tempfile.TemporaryFile() as stream:
        for field in range(0, len(lines), 3):
            rows = [black] * 15 + lines[field:field + 3] + [black] * (HEIGHT - 18)
            stream.write(b"".join(row.tobytes() for row in rows))
        stream.seek(0)
        while piece := stream.read(1 << 20):
            run.stdin.write(piece)
        run.stdin.close()
        fields = json.loads(run.stdout.read())["fields"]
    return ([word for field in fields for word in field["vbi"]["vbiData"]],
            [number for field in fields for number in field["vbiPass"]])


def recovered(folder, lines):
    """The words that the library recovers of each line, where it is alone in its field, and their passes."""
    return words_and_passes(answers_of([os.path.join(folder, "recovered"), str(BLACK), str(WHITE), "1"], lines))


def recovered_of_both(folder, lines, others):
    """The same, of two lines in a field that bear the same word."""
    pairs = [line for pair in zip(lines, others) for line in pair]
    return words_and_passes(answers_of([os.path.join(folder, "recovered"), str(BLACK), str(WHITE), "2"], pairs))


# ---- the others

def in_eight_bits(lines, white=WHITE):
    """Black as 16 and white as 235."""
    return [bytes(min(max(round(16 + (sample - BLACK) * 219 / (white - BLACK)), 0), 255) for sample in line)
            for line in lines]


def disc_of_mame(folder, lines, rate=avi.NTSC_RATE):
    """The path of a disc that chdman makes of these lines of 8 bits, and of this rate in MHz."""
    video, disc = os.path.join(folder, "side.avi"), os.path.join(folder, "side.chd")
    avi.write(video, [lines[field:field + 3] for field in range(0, len(lines), 3)], 16, rate)
    said("chdman", "createld", "-f", "-np", "1", "-i", video, "-o", disc)
    return disc


def by_mame(lines, rate=avi.NTSC_RATE):
    """The words in the AVLD metadata that chdman writes: 16 bytes a field, with the words of lines 16, 17 and 18 after
    the field's number and its white flag."""
    with tempfile.TemporaryDirectory() as folder:
        disc, metadata = disc_of_mame(folder, lines, rate), os.path.join(folder, "side.meta")
        said("chdman", "dumpmeta", "-f", "-t", "AVLD", "-i", disc, "-o", metadata)
        with open(metadata, "rb") as file:
            packed = file.read()
    return [int.from_bytes(packed[start:start + 3], "big")
            for field in range(len(lines) // 3) for start in range(16 * field + 4, 16 * field + 13, 3)]


def by_edges(folder, lines, white=WHITE, system="NTSC"):
    """The words of edges.c."""
    command = [os.path.join(folder, "edges"), str(BLACK), str(white)] + ([] if system == "NTSC" else [system])
    return [int(answer, 16) for answer in answers_of(command, lines)]


def by_zvbi(folder, lines):
    """The words of zvbi.c."""
    return [int(answer, 16) for answer in answers_of([os.path.join(folder, "zvbi")], lines)]


def by_mames_verifier(lines):
    """What ldverify says of a disc with these lines of 8 bits."""
    with tempfile.TemporaryDirectory() as folder:
        return said("ldverify", disc_of_mame(folder, lines))
