/* Times the library for C, each call beside a plain way to do the same, and calls over PAL beside those over NTSC with
   the same words, in turn: the two have to agree.
   usage: library */
#define _GNU_SOURCE
#include "plain.h"

enum { LINES = 1024, FIELDS = 64, WORDS = 4096, DRAWN = 128, ROUNDS = 41 };
#include "compare.h"

static uint8_t lines[LINES][LINE], pal_lines[LINES][PAL_LINE], *fields, *pal_fields;
static uint32_t words[WORDS];

/* ---- Lines and fields */

static void read_lines(void)
{
    LdvbiReading reading;

    for (size_t i = 0; i < LINES; i++) {
        done(ldvbi_read_line(LDVBI_NTSC, 16384, 51200, lines[i], LINE, &reading));
        sum += reading.word;
    }
}

static void read_plain_lines(void)
{
    for (size_t i = 0; i < LINES; i++)
        sum += plain_word(lines[i]);
}

static void read_plain_lines_in_two(void)
{
    for (size_t i = 0; i < LINES; i++)
        sum += plain_word_in_two(lines[i]);
}

static void read_pal_lines(void)
{
    LdvbiReading reading;

    for (size_t i = 0; i < LINES; i++) {
        done(ldvbi_read_line(LDVBI_PAL, 16384, 51200, pal_lines[i], PAL_LINE, &reading));
        sum += reading.word;
    }
}

static void read_plain_pal_lines(void)
{
    for (size_t i = 0; i < LINES; i++)
        sum += plain_pal_word(pal_lines[i]);
}

static void add_words(const LdvbiFieldReadings *readings)
{
    for (size_t i = 0; i < 3; i++)
        sum += readings->lines[i].word;
}

static void read_fields_one_by_one(void)
{
    LdvbiFieldReadings readings;

    for (size_t i = 0; i < FIELDS; i++) {
        done(ldvbi_read_field(LDVBI_NTSC, 16384, 51200, fields + i * FIELD, FIELD, &readings));
        add_words(&readings);
    }
}

static void read_rows_one_by_one(void)
{
    LdvbiFieldReadings readings;

    for (size_t i = 0; i < FIELDS; i++) {
        done(ldvbi_read_rows(LDVBI_NTSC, 16384, 51200, fields + i * FIELD + 15 * LINE, 3 * LINE, &readings));
        add_words(&readings);
    }
}

static void read_block(uint32_t system, const uint8_t *bytes, size_t field_bytes)
{
    static LdvbiFieldReadings readings[FIELDS];

    done(ldvbi_read_fields(system, 16384, 51200, bytes, FIELDS * field_bytes, readings, FIELDS));
    for (size_t i = 0; i < FIELDS; i++)
        add_words(&readings[i]);
}

static void read_fields_in_a_block(void)
{
    read_block(LDVBI_NTSC, fields, FIELD);
}

static void read_pal_fields_in_a_block(void)
{
    read_block(LDVBI_PAL, pal_fields, PAL_FIELD);
}

static void read_plain_fields(void)
{
    for (size_t i = 0; i < FIELDS; i++)
        for (size_t row = 15; row < 18; row++)
            sum += plain_word(fields + i * FIELD + row * LINE);
}

/* ---- Words, and drawn lines */

static void classify_words(void)
{
    for (size_t i = 0; i < WORDS; i++) {
        LdvbiCode code;

        done(ldvbi_classify(words[i], &code));
        sum += code.kind + code.first + code.second;
    }
}

static void classify_plainly(void)
{
    for (size_t i = 0; i < WORDS; i++) {
        LdvbiCode code = plain_code(words[i]);

        sum += code.kind + code.first + code.second;
    }
}

static void find_formats(void)
{
    for (size_t i = 0; i + 2 < WORDS; i++) {
        uint32_t format;

        done(ldvbi_format(words[i], words[i + 1], words[i + 2], &format));
        sum += format;
    }
}

static void find_formats_plainly(void)
{
    for (size_t i = 0; i + 2 < WORDS; i++)
        sum += plain_format(words + i);
}

static uint32_t sum_of(const uint8_t *line)
{
    uint64_t here, all = 0;

    for (size_t at = 0; at + sizeof here <= LINE; at += 64) {
        memcpy(&here, line + at, sizeof here);
        all = all * 31 + here;
    }
    return (uint32_t)(all >> 32 ^ all);
}

static void draw_lines(void)
{
    for (size_t i = 0; i < DRAWN; i++) {
        done(ldvbi_draw_line(LDVBI_NTSC, 16384, 51200, words[i], lines[i], LINE));
        sum += sum_of(lines[i]);
    }
}

/* Draws them and hands on the word that each is, so that what is drawn for PAL sums up to what is drawn for NTSC. */
static void draw_for(uint32_t system, uint8_t *line, size_t line_bytes)
{
    for (size_t i = 0; i < DRAWN; i++) {
        done(ldvbi_draw_line(system, 16384, 51200, words[i], line, line_bytes));
        sum += words[i] + line[line_bytes - 1];
    }
}

static void draw_ntsc_lines(void)
{
    draw_for(LDVBI_NTSC, lines[0], LINE);
}

static void draw_pal_lines(void)
{
    draw_for(LDVBI_PAL, pal_lines[0], PAL_LINE);
}

static void draw_plain_lines(void)
{
    for (size_t i = 0; i < DRAWN; i++) {
        plain_draw(words[i], lines[i]);
        sum += sum_of(lines[i]);
    }
}

/* Turns the level of so many columns from this one on, which stand in the middle of a half cell. */
static void damage(uint8_t *line, size_t from, size_t columns)
{
    for (size_t column = from; column < from + columns; column++) {
        unsigned sample = (line[2 * column] | line[2 * column + 1] << 8) == 16384 ? 51200 : 16384;

        line[2 * column] = (uint8_t)sample;
        line[2 * column + 1] = (uint8_t)(sample >> 8);
    }
}

/* Lines of both systems with the same words, or of none. They are drawn, and then damaged in so many columns of a half
   cell that has columns 436 to 449, or 544 to 561 for PAL. */
static void fill_lines(int have_words, size_t damaged)
{
    for (size_t i = 0; i < LINES; i++) {
        uint32_t word = have_words ? random_word() : 0;

        draw(word, lines[i]);
        damage(lines[i], 442, damaged);
        done(ldvbi_draw_line(LDVBI_PAL, 16384, 51200, word, pal_lines[i], PAL_LINE));
        damage(pal_lines[i], 551, damaged);
    }
}

/* Lines whose level changes at every column. */
static void alternate(uint8_t *line, size_t line_bytes)
{
    for (size_t at = 0; at < line_bytes; at += 2) {
        line[at] = 0;
        line[at + 1] = at % 4 == 0 ? 0x40 : 0xC8;
    }
}

static void alternate_lines(void)
{
    for (size_t i = 0; i < LINES; i++) {
        alternate(lines[i], LINE);
        alternate(pal_lines[i], PAL_LINE);
    }
}

static void compare_lines(void)
{
    fill_lines(1, 0);
    compare("a drawn line", LINES, read_lines, read_plain_lines);
    compare("a line of PAL", LINES, read_pal_lines, read_plain_pal_lines);
    compare("PAL beside NTSC, drawn lines", LINES, read_pal_lines, read_lines);
    fill_lines(1, 3);
    compare("a line with a glitch", LINES, read_lines, read_plain_lines_in_two);
    compare("PAL beside NTSC, glitches", LINES, read_pal_lines, read_lines);
    fill_lines(1, 5);
    compare("a damaged line", LINES, read_lines, read_plain_lines_in_two);
    compare("PAL beside NTSC, damaged lines", LINES, read_pal_lines, read_lines);
    alternate_lines();
    compare("the worst line", LINES, read_lines, read_plain_lines_in_two);
    compare("PAL beside NTSC, worst lines", LINES, read_pal_lines, read_lines);
    fill_lines(0, 0);
    compare("a blank line", LINES, read_lines, read_plain_lines);
    compare("PAL beside NTSC, blank lines", LINES, read_pal_lines, read_lines);
}

/* Fields of both systems with the same words on their lines 16 to 18. */
static void fill_fields(void)
{
    memset(fields, 0, (size_t)FIELDS * FIELD);
    memset(pal_fields, 0, (size_t)FIELDS * PAL_FIELD);
    for (size_t i = 0; i < FIELDS; i++)
        for (size_t row = 15; row < 18; row++) {
            uint32_t word = random_word();

            draw(word, fields + i * FIELD + row * LINE);
            done(ldvbi_draw_line(LDVBI_PAL, 16384, 51200, word, pal_fields + i * PAL_FIELD + row * PAL_LINE, PAL_LINE));
        }
}

static void compare_fields(void)
{
    fill_fields();
    compare("a field", FIELDS, read_fields_one_by_one, read_plain_fields);
    compare("its three lines alone", FIELDS, read_rows_one_by_one, read_plain_fields);
    compare("a field of a block", FIELDS, read_fields_in_a_block, read_plain_fields);
    compare("PAL beside NTSC, fields", FIELDS, read_pal_fields_in_a_block, read_fields_in_a_block);
}

/* The words of real sides in turn, then random ones. */
static void fill_words(int is_random)
{
    static const uint32_t side[] = {0x82CFFF, 0xF12345, 0xF12346, 0x800DDD, 0x87FFFF, 0xF0DD09, 0x8AE712,
                                    0x8DC0A1, 0x8BA0A1, 0x83D0A1, 0x88FFFF, 0x80EEEE};

    for (size_t i = 0; i < WORDS; i++)
        words[i] = is_random ? random_word() : side[random_word() % (sizeof side / sizeof *side)];
}

int main(void)
{
    fields = malloc((size_t)FIELDS * FIELD);
    pal_fields = malloc((size_t)FIELDS * PAL_FIELD);
    if (fields == NULL || pal_fields == NULL)
        return 2;
    compare_lines();
    compare_fields();
    fill_words(0);
    compare("classify, a side's words", WORDS, classify_words, classify_plainly);
    compare("format, a side's words", WORDS - 2, find_formats, find_formats_plainly);
    fill_words(1);
    compare("classify, random words", WORDS, classify_words, classify_plainly);
    compare("format, random words", WORDS - 2, find_formats, find_formats_plainly);
    compare("draw_line", DRAWN, draw_lines, draw_plain_lines);
    compare("PAL beside NTSC, draw_line", DRAWN, draw_pal_lines, draw_ntsc_lines);
    free(pal_fields);
    free(fields);
    return 0;
}
