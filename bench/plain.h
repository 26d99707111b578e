/* What the library is timed beside: readers and writers as one writes them without it, sample by sample, and tests
   of a word's digits; clocks and random words. Lines are of NTSC where nothing else is said. */
#include <ldvbi.h>
#include <stdio.h>
#include <stdlib.h>
#include <string.h>
#include <time.h>

enum { LINE = 1820, ROWS = 263, FIELD = LINE * ROWS, PAL_LINE = 2270, PAL_FIELD = PAL_LINE * 313 };

static double seconds(void)
{
    struct timespec now;

    clock_gettime(CLOCK_MONOTONIC, &now);
    return (double)now.tv_sec + (double)now.tv_nsec * 1e-9;
}

static uint32_t random_word(void)
{
    static uint32_t state = 12345;

    state ^= state << 13;
    state ^= state >> 17;
    state ^= state << 5;
    return 0x800000 | (state & 0x7FFFFF);
}

static void draw(uint32_t word, uint8_t *line)
{
    if (ldvbi_draw_line(LDVBI_NTSC, 16384, 51200, word, line, LINE) != LDVBI_DONE)
        exit(2);
}

static void draw_field(uint8_t *field)
{
    for (size_t row = 0; row < ROWS; row++)
        draw(15 <= row && row < 18 ? random_word() : 0, field + row * LINE);
}

static int in_order(const void *a, const void *b)
{
    double first = *(const double *)a, second = *(const double *)b;

    return (first > second) - (first < second);
}

/* Sorts them. */
static double median(double *numbers, size_t count)
{
    qsort(numbers, count, sizeof *numbers, in_order);
    return numbers[count / 2];
}

/* ---- Noise */

static void put_sample(uint8_t *bytes, int sample)
{
    sample = sample < 0 ? 0 : sample > 65535 ? 65535 : sample;
    bytes[0] = (uint8_t)sample;
    bytes[1] = (uint8_t)(sample >> 8);
}

/* Adds noise to each sample: a sum of four random numbers, which is nearly normal, of so many hundredths of white -
   black. */
static void add_noise(uint8_t *line, size_t line_bytes, int hundredths)
{
    for (size_t at = 0; at < line_bytes; at += 2) {
        int noise = 0;

        for (size_t i = 0; i < 4; i++)
            noise += (int)(random_word() % 60001) - 30000;
        put_sample(line + at, (line[at] | line[at + 1] << 8) + noise * hundredths / 100);
    }
}

/* ---- The plain reader: the word that a line shows, or 0, with the same tolerances, and no cause */

typedef struct {
    int high, middle;
    unsigned run, cells;
    uint32_t word;
} Runs;

#define READER plain_word
#define TURN turn
#define BYTES LINE
#define LEAST 11
#define MOST 18
#include "plain_reader.h"

#define READER plain_pal_word
#define TURN turn_of_pal
#define BYTES PAL_LINE
#define LEAST 14
#define MOST 22
#include "plain_reader.h"

/* The same of NTSC with a second reading where the first finds no word: of the levels of the latest four equal columns,
   in which there are no short glitches. */
static uint32_t plain_word_in_two(const uint8_t *line)
{
    uint32_t word = plain_word(line);
    uint8_t smooth[LINE];
    int before = 0, latest = 0;

    if (word != 0)
        return word;
    for (size_t at = 0, equal = 0; at < LINE; at += 2) {
        int high = (line[at] | line[at + 1] << 8) > 33792;

        equal = high == before ? equal + 1 : 1;
        before = high;
        if (equal >= 4)
            latest = high;
        smooth[at] = smooth[at + 1] = latest ? 255 : 0;
    }
    return plain_word(smooth);
}

/* ---- The plain writer */

static void plain_draw(uint32_t word, uint8_t *line)
{
    for (unsigned column = 0; column < LINE / 2; column++) {
        unsigned half = column < 150 ? 48 : ((column - 149) * 22 - 1) / 315;
        int high = half < 48 && (word >> (23 - half / 2) & 1) == half % 2;
        unsigned sample = high ? 51200 : 16384;

        line[2 * column] = (uint8_t)sample;
        line[2 * column + 1] = (uint8_t)(sample >> 8);
    }
}

/* ---- A plain test for each class over a word's digits */

static LdvbiCode code_of(uint32_t kind, uint32_t first, uint32_t second)
{
    LdvbiCode code = {kind, first, second};
    return code;
}

static LdvbiCode plain_code(uint32_t word)
{
    unsigned d[6];

    for (int i = 0; i < 6; i++)
        d[i] = word >> (20 - 4 * i) & 15;
    /* from texts/classes.txt: code */
    if (word == 0x88FFFF)
        return code_of(LDVBI_LEAD_IN, 0, 0);
    if (word == 0x80EEEE)
        return code_of(LDVBI_LEAD_OUT, 0, 0);
    if (d[0] == 15 && d[2] < 10 && d[3] < 10 && d[4] < 10 && d[5] < 10)
        return code_of(LDVBI_PICTURE, 10000 * (d[1] % 8) + 1000 * d[2] + 100 * d[3] + 10 * d[4] + d[5], 0);
    if (word == 0x82CFFF)
        return code_of(LDVBI_PICTURE_STOP, 0, 0);
    if (d[0] == 8 && d[2] < 10 && d[3] == 13 && d[4] == 13 && d[5] == 13)
        return code_of(LDVBI_CHAPTER, 10 * (d[1] % 8) + d[2], 0);
    if (word == 0x87FFFF)
        return code_of(LDVBI_CLV_MARK, 0, 0);
    if (d[0] == 15 && d[1] < 10 && d[2] == 13 && d[3] == 13 && d[4] < 10 && d[5] < 10)
        return code_of(LDVBI_TIME, d[1], 10 * d[4] + d[5]);
    if (d[0] == 8 && d[1] >= 10 && d[2] == 14 && d[3] < 10 && d[4] < 10 && d[5] < 10)
        return code_of(LDVBI_CLV_PICTURE, 10 * (d[1] % 10) + d[3], 10 * d[4] + d[5]);
    if (d[0] == 8 && d[1] == 13 && d[2] == 12)
        return code_of(LDVBI_CX_ON, 256 * d[3] + 16 * d[4] + d[5], 0);
    if (d[0] == 8 && d[1] == 11 && d[2] == 10)
        return code_of(LDVBI_CX_OFF, 256 * d[3] + 16 * d[4] + d[5], 0);
    if (d[0] == 8 && d[1] < 8 && d[2] == 13)
        return code_of(LDVBI_USERS, d[1], 256 * d[3] + 16 * d[4] + d[5]);
    /* to here */
    return code_of(LDVBI_OTHER, 0, 0);
}

static uint32_t plain_format(const uint32_t *words)
{
    uint32_t cav = 0, clv = 0;

    for (int i = 0; i < 3; i++) {
        if (words[i] == 0)
            continue;
        uint32_t kind = plain_code(words[i]).kind;
        cav |= kind == LDVBI_PICTURE || kind == LDVBI_PICTURE_STOP;
        clv |= kind == LDVBI_CLV_MARK || kind == LDVBI_TIME || kind == LDVBI_CLV_PICTURE;
    }
    return cav | clv << 1;
}
