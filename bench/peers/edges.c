/* Reads words by their edges, as ld-process-vbi is known to do: lines of 910 samples of 16 bits on standard input, or
 * of 1,135 of PAL, and for each line six hexadecimal digits or `none` on standard output. It is our own making of a
 * known way, and not that program: what it reads says nothing of how well that one reads.
 *
 * A sample above the middle of black and white is high. The level has changed once four samples in a row differ from it
 * (the debounce). The first rise within the active picture is the first bit, a one. From there on each bit is the first
 * change that comes 1.5 microseconds or more after the one before: a rise is a one, a fall a zero.
 *
 * usage: edges BLACK WHITE [PAL] < LINES
 */
#include <stdint.h>
#include <stdio.h>
#include <stdlib.h>
#include <string.h>

enum {
    MOST_SAMPLES = 1135,
    DEBOUNCE = 4, /* samples */
    BITS = 24
};

typedef struct System {
    int width;
    int active;         /* where ld-decode has the active picture begin */
    int least_distance; /* 1.5 microseconds, at 14.318 MHz and at 17.734 MHz */
} System;

static const System ntsc = {910, 134, 21}, pal = {MOST_SAMPLES, 185, 26};

static void slice(const System *system, const uint8_t *line, int middle, uint8_t *levels)
{
    int level = 0, differing = 0;

    for (int column = 0; column < system->width; column++) {
        int sample = line[2 * column] + 256 * line[2 * column + 1];

        differing = (sample > middle) == level ? 0 : differing + 1;
        if (differing == DEBOUNCE) {
            level = !level;
            differing = 0;
        }
        levels[column] = (uint8_t)level;
    }
}

/* The first column from this one on whose level is not `level`, or the width. */
static int next_change(const System *system, const uint8_t *levels, int column, int level)
{
    while (column < system->width && levels[column] == level)
        column++;
    return column;
}

/* The word, or 0 where the line has fewer bits. */
static uint32_t read_word(const System *system, const uint8_t *levels)
{
    uint32_t word = 1;
    int column = next_change(system, levels, system->active, 0);

    for (int bits = 1; bits < BITS; bits++) {
        int from = column + system->least_distance;

        if (from >= system->width)
            return 0;
        column = next_change(system, levels, from, levels[from]);
        if (column == system->width)
            return 0;
        word = 2 * word + levels[column];
    }
    return word;
}

int main(int count, char **words)
{
    static uint8_t line[2 * MOST_SAMPLES], levels[MOST_SAMPLES];

    if (count != 3 && (count != 4 || strcmp(words[3], "PAL") != 0))
        return 2;
    const System *system = count == 4 ? &pal : &ntsc;
    int black = atoi(words[1]), white = atoi(words[2]);

    while (fread(line, 2, (size_t)system->width, stdin) == (size_t)system->width) {
        slice(system, line, black + (white - black) / 2, levels);
        uint32_t word = read_word(system, levels);

        if (word == 0)
            puts("none");
        else
            printf("%06X\n", (unsigned)word);
    }
    return 0;
}
