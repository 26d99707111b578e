"""Writes what examples/pixels.c has to hand to the library of lines of 8 bits at 13.5 MHz on standard input: of three
lines each black, white and the samples at four times the colour subcarrier."""
import sys
WIDTH, WHOLE, BEFORE = {"NTSC": (910, 858, 122), "PAL": (1135, 864, 132)}[sys.argv[1]]
pixels = sys.stdin.buffer.read()
for begin in range(0, len(pixels), 720):
    line = pixels[begin:begin + 720]
    if begin % 2160 == 0:
        sys.stdout.buffer.write(b"%d %d " % (16 * 257, 235 * 257))
    for place, part in (divmod(column * WHOLE, WIDTH) for column in range(WIDTH)):
        one, other = line[place - BEFORE:][:2] if BEFORE <= place < BEFORE + 719 else (16, 16)
        level = (one * (WIDTH - part) + other * part) * 257 // WIDTH
        sys.stdout.buffer.write(level.to_bytes(2, "little"))
