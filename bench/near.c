/* Times ldvbi_nearest beside a plain way to find the nearest word of a line, and over PAL beside NTSC, in turn: the two
   have to agree. The lines are words with noise of half of the way from black to white.
   usage: near */
#define _GNU_SOURCE
#include "plain.h"

enum { LINES = 256, ROUNDS = 21 };
#include "compare.h"
#include "plain_near.h"

static uint8_t lines[LINES][LINE], pal_lines[LINES][PAL_LINE];

static uint32_t sum_of(uint32_t word, uint32_t start, uint64_t distance, uint64_t rival)
{
    return word + start + (uint32_t)(distance + 3 * rival);
}

static void find(uint32_t system, const uint8_t *line, size_t line_bytes)
{
    LdvbiNear near;

    done(ldvbi_nearest(system, 16384, 51200, line, line_bytes, &near));
    sum += sum_of(near.word, near.start, near.distance, near.rival);
}

static void find_plainly(const PlainSystem *system, const uint8_t *line)
{
    PlainNear near = plain_nearest(system, 16384, 51200, line);

    sum += sum_of(near.word, near.start, near.distance, near.rival);
}

static void find_ntsc(void)
{
    for (size_t i = 0; i < LINES; i++)
        find(LDVBI_NTSC, lines[i], LINE);
}

static void find_ntsc_plainly(void)
{
    for (size_t i = 0; i < LINES; i++)
        find_plainly(&plain_ntsc, lines[i]);
}

static void find_pal(void)
{
    for (size_t i = 0; i < LINES; i++)
        find(LDVBI_PAL, pal_lines[i], PAL_LINE);
}

static void find_pal_plainly(void)
{
    for (size_t i = 0; i < LINES; i++)
        find_plainly(&plain_pal, pal_lines[i]);
}

int main(void)
{
    for (size_t i = 0; i < LINES; i++) {
        uint32_t word = random_word();

        draw(word, lines[i]);
        add_noise(lines[i], LINE, 50);
        done(ldvbi_draw_line(LDVBI_PAL, 16384, 51200, word, pal_lines[i], PAL_LINE));
        add_noise(pal_lines[i], PAL_LINE, 50);
    }
    compare("the nearest word", LINES, find_ntsc, find_ntsc_plainly);
    compare("the nearest word, PAL", LINES, find_pal, find_pal_plainly);
    return 0;
}
