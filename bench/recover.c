/* Times ldvbi_recover_rows on fields of words, of which none has to be recovered, beside ldvbi_read_rows on the same;
   and on fields whose lines 17 and 18 are worn, noise, or video, beside ldvbi_nearest on their line 17, in turn. Noise
   is of 90 % of white - black on worn lines, of 80 % about grey, and of 5 % on video.
   usage: recover */
#define _GNU_SOURCE
#include "plain.h"

enum { FIELDS = 64, ROUNDS = 21, BLACK = 16384, WHITE = 51200 };
#include "compare.h"

/* Lines 16, 17 and 18 of some fields. */
typedef struct {
    uint32_t system;
    size_t line_bytes;
    uint8_t rows[FIELDS][3 * PAL_LINE];
} Fields;

static Fields fields;

/* ---- What is on a line */

static void draw_on(uint32_t word, uint8_t *line)
{
    done(ldvbi_draw_line(fields.system, BLACK, WHITE, word, line, fields.line_bytes));
}

/* The word of a random picture. */
static uint32_t picture(void)
{
    uint32_t number = random_word(), word = 0xF00000 | (number % 8) << 16;

    for (int place = 0; place < 16; place += 4, number /= 10)
        word |= number / 8 % 10 << place;
    return word;
}

/* One level, about half way between black and white. */
static void put_grey(uint8_t *line)
{
    for (size_t at = 0; at < fields.line_bytes; at += 2)
        put_sample(line + at, (BLACK + WHITE) / 2);
}

/* A level that goes on towards another one, which is a new one in 3 columns of 100. */
static void put_wandering(uint8_t *line)
{
    int level = (BLACK + WHITE) / 2, other = level;

    for (size_t at = 0; at < fields.line_bytes; at += 2) {
        if (random_word() % 100 < 3)
            other = BLACK + (int)(random_word() % (WHITE - BLACK));
        level += (other - level) * 3 / 10;
        put_sample(line + at, level);
    }
}

/* ---- Fields of one kind */

static void put_words(uint8_t *rows)
{
    for (size_t row = 0; row < 3; row++)
        draw_on(picture(), rows + row * fields.line_bytes);
}

static void put_worn(uint8_t *rows)
{
    uint32_t word = picture();

    for (size_t row = 1; row < 3; row++) {
        draw_on(word, rows + row * fields.line_bytes);
        add_noise(rows + row * fields.line_bytes, fields.line_bytes, 90);
    }
}

static void put_noise(uint8_t *rows)
{
    for (size_t row = 1; row < 3; row++) {
        put_grey(rows + row * fields.line_bytes);
        add_noise(rows + row * fields.line_bytes, fields.line_bytes, 80);
    }
}

static void put_video(uint8_t *rows)
{
    for (size_t row = 1; row < 3; row++) {
        put_wandering(rows + row * fields.line_bytes);
        add_noise(rows + row * fields.line_bytes, fields.line_bytes, 5);
    }
}

/* ---- What is timed, in microseconds of a field */

static void add_words(const LdvbiFieldReadings *readings)
{
    for (size_t i = 0; i < 3; i++)
        sum += readings->lines[i].word;
}

static void recover(void)
{
    LdvbiFieldReadings readings;

    for (size_t i = 0; i < FIELDS; i++) {
        done(ldvbi_recover_rows(fields.system, BLACK, WHITE, fields.rows[i], 3 * fields.line_bytes, NULL, 0,
                                &readings));
        add_words(&readings);
    }
}

static void read_alone(void)
{
    LdvbiFieldReadings readings;

    for (size_t i = 0; i < FIELDS; i++) {
        done(ldvbi_read_rows(fields.system, BLACK, WHITE, fields.rows[i], 3 * fields.line_bytes, NULL, 0,
                                &readings));
        add_words(&readings);
    }
}

static void find_nearest(void)
{
    LdvbiNear near;

    for (size_t i = 0; i < FIELDS; i++) {
        const uint8_t *line = fields.rows[i] + fields.line_bytes;

        done(ldvbi_nearest(fields.system, BLACK, WHITE, line, fields.line_bytes, &near));
        sum += near.word;
    }
}

static double microseconds_of(void (*call)(void))
{
    double begin = seconds();

    call();
    return (seconds() - begin) * 1e6 / FIELDS;
}

static void measure(const char *name, void (*put)(uint8_t *), void (*plain)(void))
{
    double ours[ROUNDS], beside[ROUNDS];

    for (size_t i = 0; i < FIELDS; i++) {
        draw_on(0, fields.rows[i]);
        put(fields.rows[i]);
    }
    for (size_t i = 0; i < ROUNDS; i++) {
        ours[i] = microseconds_of(recover);
        beside[i] = microseconds_of(plain);
    }
    double middle_of_ours = median(ours, ROUNDS), middle_of_theirs = median(beside, ROUNDS);
    printf("%-32s best %6.2f us, median %6.2f; beside it %6.2f, %6.2f; ratio %.2f\n", name, ours[0], middle_of_ours,
           beside[0], middle_of_theirs, ours[0] / beside[0]);
}

int main(void)
{
    fields.system = LDVBI_NTSC;
    fields.line_bytes = LINE;
    measure("recover_rows, words", put_words, read_alone);
    measure("recover_rows, worn lines", put_worn, find_nearest);
    measure("recover_rows, noise", put_noise, find_nearest);
    measure("recover_rows, video", put_video, find_nearest);
    fields.system = LDVBI_PAL;
    fields.line_bytes = PAL_LINE;
    measure("recover_rows of PAL, words", put_words, read_alone);
    measure("recover_rows of PAL, worn lines", put_worn, find_nearest);
    measure("recover_rows of PAL, noise", put_noise, find_nearest);
    measure("recover_rows of PAL, video", put_video, find_nearest);
    return 0;
}
