"""The lines that the readers are tried on: words at random, the lines that `ldvbi draw` makes of them, and what can be
wrong with a line."""

import array
import math
import subprocess

BLACK, WHITE = 16384, 51200
WIDTH, HEIGHT = 910, 263
OPTIONS = ["--system=NTSC", f"--black={BLACK}", f"--white={WHITE}"]


def drawn_words(fields, chance):
    """Three words a field: half of them any word, half codes of a disc."""
    words = []
    for _ in range(3 * fields):
        code = chance.choice([
            int(f"F{chance.randrange(80000):05d}", 16), int(f"8{chance.randrange(80):02d}DDD", 16),
            int(f"F0DD{chance.randrange(60):02d}", 16), int(f"8AE{chance.randrange(300):03d}", 16),
            0x88FFFF, 0x80EEEE, 0x82CFFF, 0x87FFFF, chance.randrange(0xFFF800, 0x1000000),
        ])
        words.append(chance.choice([code, chance.randrange(0x800000, 0x1000000)]))
    return words


def drawn_lines(program, words):
    """The lines that `ldvbi draw` makes of the words."""
    rows = "".join("%06X %06X %06X\n" % tuple(words[field:field + 3]) for field in range(0, len(words), 3))
    stream = subprocess.run([program, "draw", *OPTIONS], input=rows.encode(), capture_output=True, check=True).stdout
    lines = []
    for field in range(len(words) // 3):
        for row in (15, 16, 17):
            start = 2 * WIDTH * (HEIGHT * field + row)
            lines.append(array.array("H", stream[start:start + 2 * WIDTH]))
    return lines


# ---- what can be wrong with a line: each takes a line, an amount and a source of chance, and answers another line

def samples_of(values):
    """A line of these values, each the nearest sample."""
    return array.array("H", (min(max(round(value), 0), 65535) for value in values))


def as_drawn(line, _amount, _chance):
    return line


def with_noise(line, percent, chance):
    """Noise with a standard deviation of so many percent of the way from black to white."""
    deviation = percent / 100 * (WHITE - BLACK)
    return samples_of(chance.gauss(sample, deviation) for sample in line)


def with_jitter(line, columns, chance):
    """Each edge moved by up to so many columns."""
    moved = array.array("H", line)
    for column in range(1, WIDTH):
        if line[column] != line[column - 1]:
            by = chance.randint(-columns, columns)
            for other in range(column, column + by):
                moved[other] = line[column - 1]
            for other in range(column + by, column):
                moved[other] = line[column]
    return moved


def replaced(line, columns, chance, change):
    """So many columns, at one place within the word, as `change` makes them of what is there."""
    start = chance.randrange(150, 837 - columns)
    changed = array.array("H", change(line[start:start + columns]))
    return line[:start] + changed + line[start + columns:]


def with_glitch(line, columns, chance):
    """So many columns turned over."""
    return replaced(line, columns, chance, lambda samples: [BLACK + WHITE - sample for sample in samples])


def with_long_glitch(line, lengths, chance):
    """As many columns turned over, from the least to the most of two numbers."""
    return with_glitch(line, chance.randint(*lengths), chance)


def with_dropout(line, amount, chance):
    """In so many percent of the lines a dropout, from the least to the most columns long, of noise or of black. Each
    sample of noise is any from black to white."""
    what, percent, least, most = amount
    if 100 * chance.random() >= percent:
        return line
    return replaced(line, chance.randint(least, most), chance, lambda samples: [
        chance.randint(BLACK, WHITE) if what == "noise" else BLACK for _ in samples])


def rounded(line, columns, _chance):
    """Edges rounded: each sample is the mean of so many around it."""
    half = columns // 2
    padded = array.array("H", [line[0]] * half) + line + array.array("H", [line[-1]] * half)
    return samples_of(sum(padded[column:column + columns]) / columns for column in range(WIDTH))


def noisy_and_rounded(line, percent, chance):
    """Noise, and then edges rounded over five columns, which takes most of its high frequencies."""
    return rounded(with_noise(line, percent, chance), 5, chance)


def stretched_and_noisy(line, percent, chance):
    """Cells longer by so many percent of their length, or shorter where it is negative, and then noise of 30 %."""
    values = []
    for column in range(WIDTH):
        place = min(column / (1 + percent / 100), WIDTH - 2)
        left = int(place)
        values.append(line[left] + (line[left + 1] - line[left]) * (place - left))
    return with_noise(values, 30, chance)


def with_hum(line, percent, chance):
    """A sine that lasts one line, in any phase, whose amplitude is so many percent of the way from black to white."""
    amplitude, phase = percent / 100 * (WHITE - BLACK), chance.random()
    return samples_of(sample + amplitude * math.sin(2 * math.pi * (column / WIDTH + phase))
                      for column, sample in enumerate(line))


def faint_and_noisy(line, percent, chance):
    """White at so many percent of its way from black, and then noise of 10 %."""
    return with_noise([BLACK + (sample - BLACK) * percent / 100 for sample in line], 10, chance)
