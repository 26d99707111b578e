/* Worn lines with their truth: words that are drawn and then damaged sample by sample, and words as a player plays
   them. A sample is a number here, 0 for black and 1 for white, until the whole line is made. */
#define _DEFAULT_SOURCE
#include <ldvbi.h>
#include <math.h>
#include <stddef.h>
#include <stdio.h>
#include <stdlib.h>
#include <string.h>
#include <sys/mman.h>

typedef struct {
    uint32_t system, black, white;
    size_t samples, lines, start;
    uint64_t numerator, denominator; /* samples of a microsecond */
} Television;

static const Television televisions[] = {
    {LDVBI_NTSC, 16384, 51200, 910, 263, 150, 315, 22},
    {LDVBI_PAL, 16384, 54016, 1135, 313, 190, 709379, 40000},
};

static int wrong;

#define CHECK(test)                                                      \
    do {                                                                 \
        if (!(test)) {                                                   \
            fprintf(stderr, "%s:%d: %s\n", __FILE__, __LINE__, #test);   \
            wrong++;                                                     \
        }                                                                \
    } while (0)

/* This many bytes, all 0xAA, with no page after the last. */
static uint8_t *guarded(size_t size)
{
    size_t pages = (size + 4095) / 4096 * 4096;
    uint8_t *begin = mmap(NULL, pages + 4096, PROT_READ | PROT_WRITE, MAP_PRIVATE | MAP_ANONYMOUS, -1, 0);

    if (begin == MAP_FAILED || mprotect(begin + pages, 4096, PROT_NONE) != 0) {
        perror("mmap");
        exit(2);
    }
    memset(begin, 0xAA, pages);
    return begin + pages - size;
}

enum { WIDEST = 1135, HALVES = 48, TAPS = 20 };

static const double turn_of_circle = 6.283185307179586;

/* ---- Random numbers, the same on every machine */

static uint64_t number_state;

static void begin_numbers(uint64_t seed)
{
    number_state = seed * 0x9E3779B97F4A7C15;
}

static uint64_t next_number(void)
{
    uint64_t mixed = number_state += 0x9E3779B97F4A7C15;

    mixed = (mixed ^ mixed >> 30) * 0xBF58476D1CE4E5B9;
    mixed = (mixed ^ mixed >> 27) * 0x94D049BB133111EB;
    return mixed ^ mixed >> 31;
}

/* From 0 to below the limit. */
static uint32_t below(uint32_t limit)
{
    return (uint32_t)((next_number() >> 32) * limit >> 32);
}

static int between(int least, int most)
{
    return least + (int)below((uint32_t)(most - least + 1));
}

/* From 0 to below 1. */
static double evenly(void)
{
    return (double)(next_number() >> 11) / 9007199254740992.0;
}

/* With a mean of 0 and a standard deviation of 1: the sum of twelve even ones, which is nearly normal. */
static double normally(void)
{
    int64_t sum = -6 * 65535;

    for (int i = 0; i < 3; i++)
        for (uint64_t number = next_number(), part = 0; part < 4; part++, number >>= 16)
            sum += (int64_t)(number & 0xFFFF);
    return (double)sum / 65536;
}

/* ---- Words of picture numbers, times and chapters */

/* What is judged beside LDVBI_PICTURES and LDVBI_TIMES */
enum { CHAPTERS = 3 };

/* The last so many decimal digits of a number, four bits each. */
static uint32_t digits_of(uint32_t number, int count)
{
    return count == 0 ? 0 : digits_of(number / 10, count - 1) << 4 | number % 10;
}

/* The word of line 16 that belongs to a time, of seconds and the picture in its second. */
static uint32_t seconds_word(uint32_t system, uint32_t number)
{
    uint32_t rate = system == LDVBI_NTSC ? 30 : 25, seconds = number / rate % 60;

    return 0x8AE000 + (seconds / 10 << 16) + (seconds % 10 << 8) + digits_of(number % rate, 2);
}

/* The word of line 17 or 18: a picture's number, a chapter, or the hours and minutes of a time. */
static uint32_t number_word(uint32_t system, uint32_t counted, uint32_t number)
{
    uint32_t minutes = number / (system == LDVBI_NTSC ? 30 : 25) / 60;

    if (counted == LDVBI_PICTURES)
        return 0xF00000 | digits_of(number, 5);
    if (counted == CHAPTERS)
        return 0x800DDD | digits_of(number, 2) << 12;
    return 0xF0DD00 | minutes / 60 << 16 | digits_of(minutes % 60, 2);
}

/* ---- Damage */

enum Filling { OF_NOISE, OF_BLACK, OF_WHITE, OF_ANY };

/* What is done to a line. What is 0 isn't done. */
typedef struct {
    const char *name;
    double noise;      /* of each sample, its standard deviation */
    int moved;         /* columns by which each edge may come early or late, each for itself */
    int dropouts;      /* how many there are within the word */
    int shortest, longest; /* columns of each */
    enum Filling filling;
    int is_played;     /* sync and colour burst before it, edges of 3.5 MHz that ring, and noise that is coloured */
} Wear;

static double samples_of_microsecond(const Television *tv)
{
    return (double)tv->numerator / (double)tv->denominator;
}

static size_t word_columns(const Television *tv)
{
    return HALVES * tv->numerator / tv->denominator;
}

static void hold(const Television *tv, double from, double to, double level, double *line)
{
    for (size_t column = (size_t)from; column < (size_t)to && column < tv->samples; column++)
        line[column] = level;
}

/* The word's levels from this column on, with edges that are moved by up to so many columns. */
static void draw_word(const Television *tv, uint32_t word, size_t start, int moved, double *line)
{
    size_t begin = 0;
    unsigned level = 0;

    for (unsigned half = 0; half <= HALVES; half++) {
        unsigned next = half < HALVES && (word >> (23 - half / 2) & 1) == half % 2;
        size_t end = start + half * tv->numerator / tv->denominator;

        if (next == level)
            continue;
        end += (size_t)between(-moved, moved);
        hold(tv, (double)begin, (double)end, level, line);
        begin = end;
        level = next;
    }
    hold(tv, (double)begin, (double)tv->samples, 0, line);
}

/* Lets through what is below 3.5 MHz, so that edges are slow, and ring by some 9 % before and after. */
static void limit_band(const Television *tv, double *line)
{
    double sharp[WIDEST + 2 * TAPS] = {0}, taps[2 * TAPS + 1], sum = 0;
    double cycles = 3.5 / samples_of_microsecond(tv);

    for (int i = -TAPS; i <= TAPS; i++) {
        taps[i + TAPS] = i == 0 ? 2 * cycles : sin(turn_of_circle * cycles * i) / (turn_of_circle / 2 * i);
        sum += taps[i + TAPS];
    }
    memcpy(sharp + TAPS, line, sizeof *line * tv->samples);
    for (size_t column = 0; column < tv->samples; column++) {
        double filtered = 0;

        for (size_t i = 0; i <= 2 * TAPS; i++)
            filtered += taps[i] * sharp[column + i];
        line[column] = filtered / sum;
    }
}

/* A line's sync and its colour burst, which has four samples a cycle. */
static void put_sync(const Television *tv, double *line)
{
    static const double cycle[4] = {0.2, 0, -0.2, 0};
    double microsecond = samples_of_microsecond(tv);
    size_t begin = (size_t)(5.3 * microsecond), end = (size_t)(7.8 * microsecond);

    hold(tv, 0, 4.7 * microsecond, -0.4, line);
    for (size_t column = begin; column < end; column++)
        line[column] = cycle[column % 4];
}

static void add_noise(const Television *tv, double noise, int is_coloured, double *line)
{
    double kept = is_coloured ? 0.6 : 0, latest = normally(), own = sqrt(1 - kept * kept);

    for (size_t column = 0; column < tv->samples; column++) {
        latest = kept * latest + own * normally();
        line[column] += noise * latest;
    }
}

static void put_dropout(const Television *tv, const Wear *wear, size_t start, double *line)
{
    int columns = between(wear->shortest, wear->longest);
    size_t begin = start + below((uint32_t)(word_columns(tv) - (size_t)columns));
    enum Filling filling = wear->filling == OF_ANY ? (enum Filling)below(3) : wear->filling;

    for (size_t column = begin; column < begin + (size_t)columns; column++)
        line[column] = filling == OF_NOISE ? evenly() : filling == OF_WHITE;
}

/* ---- Whole lines */

static void put_line(const Television *tv, const double *line, uint8_t *bytes)
{
    for (size_t column = 0; column < tv->samples; column++) {
        double level = (double)tv->black + line[column] * (double)(tv->white - tv->black);
        uint32_t sample = level < 0 ? 0 : level > 65535 ? 65535 : (uint32_t)level;

        bytes[2 * column] = (uint8_t)(sample & 0xFF);
        bytes[2 * column + 1] = (uint8_t)(sample >> 8);
    }
}

/* A line of the word, or of none for 0, which begins up to three columns early or late. */
static void draw_worn(const Television *tv, const Wear *wear, uint32_t word, uint8_t *bytes)
{
    double line[WIDEST] = {0};
    size_t start = tv->start + (size_t)between(-3, 3);

    if (word != 0)
        draw_word(tv, word, start, wear->moved, line);
    if (wear->is_played) {
        put_sync(tv, line);
        limit_band(tv, line);
    }
    if (wear->noise > 0)
        add_noise(tv, wear->noise, wear->is_played, line);
    for (int i = 0; i < wear->dropouts; i++)
        put_dropout(tv, wear, start, line);
    put_line(tv, line, bytes);
}
