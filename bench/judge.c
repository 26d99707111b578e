/* Times ldvbi_judge over half an hour of NTSC, 108,000 fields, beside a plain way to do the same, in turn: the two have
   to agree. Each picture's number is on both lines of its first field, and a chapter in the field after it; of 100
   lines 10 show nothing, 4 were read in pass 2 and 1 was misread. The pace is given; for film it is found, too.
   usage: judge */
#define _GNU_SOURCE
#include "plain.h"
#include "plain_judge.h"

enum { FIELDS = 108000, ROUNDS = 15 };
#include "compare.h"

static LdvbiFieldReadings readings[FIELDS];
static LdvbiSightings seen[FIELDS];
static LdvbiNumber numbers[FIELDS];
static uint32_t pace;

static void add_numbers(void)
{
    for (uint32_t i = 0; i < FIELDS; i++)
        sum += (4 * numbers[i].number + numbers[i].state) * (2 * i + 1);
}

static void judge(void)
{
    done(ldvbi_judge(LDVBI_NTSC, LDVBI_PICTURES, pace, readings, FIELDS, seen, FIELDS, numbers, FIELDS));
    add_numbers();
}

static void judge_plainly(void)
{
    plain_judge(pace, readings, FIELDS, seen, numbers);
    add_numbers();
}

static uint32_t picture_word(uint32_t number)
{
    uint32_t word = 0xF;

    for (uint32_t digit = 10000; digit > 0; digit /= 10)
        word = word << 4 | number / digit % 10;
    return word;
}

static LdvbiReading reading_of(uint32_t word)
{
    LdvbiReading shown = {LDVBI_WORD, 1, 0, word}, blank = {LDVBI_BLANK, 0, 0, 0};
    uint32_t chance = random_word() % 100;

    if (chance < 10)
        return blank;
    if (chance < 14)
        shown.pass = 2;
    if (chance == 14)
        shown.word = picture_word(random_word() % 80000);
    return shown;
}

/* A side whose pictures last so many fields by turns. */
static void fill(size_t first, size_t second)
{
    uint32_t picture = 0;
    size_t lasts = 0;

    memset(readings, 0, sizeof readings);
    for (size_t field = 0; field < FIELDS; field += lasts) {
        lasts = picture % 2 == 0 ? first : second;
        for (size_t line = 1; line < 3; line++) {
            readings[field].lines[line] = reading_of(picture_word(picture));
            if (field + 1 < FIELDS)
                readings[field + 1].lines[line] = reading_of(0x801DDD);
        }
        picture++;
    }
}

/* The times are those of a field. */
int main(void)
{
    fill(2, 2);
    pace = LDVBI_VIDEO;
    compare("judge, video", FIELDS, judge, judge_plainly);
    fill(2, 3);
    pace = LDVBI_FILM;
    compare("judge, film", FIELDS, judge, judge_plainly);
    pace = LDVBI_FIND_PACE;
    compare("judge, the pace found", FIELDS, judge, judge_plainly);
    return 0;
}
