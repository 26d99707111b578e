/* Judges the numbers of sides whose lines are worn, by the words that are read and by those that are recovered, and
   holds both against what was recorded: prints a table with a row for each damage, as
   docs/measured/worn_sides.txt has it.
   usage: worn_sides [PICTURES]     so many pictures of each side, or 900 */
#include "worn.h"

enum { KINDS = 4 };

/* What is done to one line in so many. */
typedef struct {
    Wear wear;
    uint32_t one_in;
} SideWear;

static const SideWear side_wears[] = {
    {{.name = "as drawn"}, 1},
    {{.name = "noise 20 %", .noise = 0.2}, 1},
    {{.name = "noise 30 %", .noise = 0.3}, 1},
    {{.name = "noise 50 %", .noise = 0.5}, 1},
    {{.name = "noise 70 %", .noise = 0.7}, 1},
    {{.name = "noise 90 %", .noise = 0.9}, 1},
    {{.name = "noise 120 %", .noise = 1.2}, 1},
    {{.name = "edges off by up to 2 columns", .moved = 2}, 1},
    {{.name = "edges off by up to 3 columns", .moved = 3}, 1},
    {{.name = "edges off by up to 4 columns", .moved = 4}, 1},
    {{.name = "a dropout of noise, 10 to 30 columns", .dropouts = 1, .shortest = 10, .longest = 30}, 1},
    {{.name = "a black dropout, 10 to 30 columns", .dropouts = 1, .shortest = 10, .longest = 30, .filling = OF_BLACK},
     1},
    {{.name = "three dropouts, 10 to 30 columns", .dropouts = 3, .shortest = 10, .longest = 30, .filling = OF_ANY}, 1},
    {{.name = "as a player plays them, with noise of 20 %", .noise = 0.2, .is_played = 1}, 1},
    {{.name = "as a player plays them, with noise of 20 %, and a dropout of 8 to 50 columns", .noise = 0.2,
      .dropouts = 1, .shortest = 8, .longest = 50, .filling = OF_ANY, .is_played = 1}, 1},
    {{.name = "a third of the lines with noise of 70 %", .noise = 0.7}, 3},
    {{.name = "a third of the lines with three dropouts", .dropouts = 3, .shortest = 10, .longest = 30,
      .filling = OF_ANY}, 3},
};

enum { WEARS = sizeof side_wears / sizeof *side_wears };

/* ---- Recorded sides */

typedef struct {
    const Television *tv;
    uint32_t counted, pictures, least; /* the number of the first picture */
} Recorded;

/* The words of a field. A picture has its number, or its time, on its first field alone. */
static void words_of(const Recorded *side, uint32_t field, uint32_t *words)
{
    uint32_t number = side->least + field / 2, system = side->tv->system;
    uint32_t chapter = number_word(system, CHAPTERS, field / 400);

    words[0] = 0;
    if (field % 2 == 0) {
        words[0] = side->counted == LDVBI_TIMES ? seconds_word(system, number) : 0;
        words[1] = words[2] = number_word(system, side->counted, number);
    } else if (side->counted == LDVBI_PICTURES) {
        words[0] = 0x80D000 | field / 100;
        words[1] = words[2] = chapter;
    } else {
        words[1] = 0x87FFFF;
        words[2] = field / 2 % 50 == 0 ? chapter : 0;
    }
}

/* ---- What is known of them */

typedef struct {
    int right, wrong, found, misplaced; /* words, and numbers that are believed or due */
} Score;

/* Room for this many bytes. */
static void *room_of(size_t bytes)
{
    void *room = malloc(bytes);

    if (room == NULL)
        exit(2);
    return room;
}

static void add_score(const Recorded *side, const LdvbiFieldReadings *readings, Score *score)
{
    size_t fields = 2 * (size_t)side->pictures;
    LdvbiSightings *seen = room_of(fields * sizeof *seen);
    LdvbiNumber *numbers = room_of(fields * sizeof *numbers);

    CHECK(ldvbi_judge(side->tv->system, side->counted, LDVBI_VIDEO, readings, fields, seen, fields, numbers, fields)
          == LDVBI_DONE);
    for (uint32_t field = 0; field < fields; field++) {
        int is_known = numbers[field].state == LDVBI_BELIEVED || numbers[field].state == LDVBI_DUE;
        int is_right = field % 2 == 0 && numbers[field].number == side->least + field / 2;
        uint32_t words[3];

        words_of(side, field, words);
        for (size_t row = 0; row < 3; row++) {
            uint32_t word = readings[field].lines[row].word;

            score->right += word != 0 && word == words[row];
            score->wrong += word != 0 && word != words[row];
        }
        score->found += is_known && is_right;
        score->misplaced += is_known && !is_right;
    }
    free(seen);
    free(numbers);
}

/* Adds to the scores of the words that are read, and of the recovered ones. Returns how many lines have a word. */
static int play(const Recorded *side, const SideWear *worn, Score *read, Score *recovered)
{
    static const Wear none = {.name = ""};
    const Television *tv = side->tv;
    size_t fields = 2 * (size_t)side->pictures, line = 2 * tv->samples;
    LdvbiFieldReadings *own = room_of(fields * sizeof *own), *near = room_of(fields * sizeof *near);
    uint8_t *rows = guarded(3 * line);
    int lines = 0;

    for (uint32_t field = 0; field < fields; field++) {
        uint32_t words[3];

        words_of(side, field, words);
        for (size_t row = 0; row < 3; row++) {
            lines += words[row] != 0;
            draw_worn(tv, below(worn->one_in) == 0 ? &worn->wear : &none, words[row], rows + row * line);
        }
        CHECK(ldvbi_read_rows(tv->system, tv->black, tv->white, rows, 3 * line, &own[field]) == LDVBI_DONE);
        CHECK(ldvbi_recover_rows(tv->system, tv->black, tv->white, rows, 3 * line, NULL, 0, &near[field])
              == LDVBI_DONE);
    }
    add_score(side, own, read);
    add_score(side, near, recovered);
    free(own);
    free(near);
    return lines;
}

/* ---- All of them */

/* CAV and CLV, NTSC and PAL. The times begin shortly before a new minute, and the pictures before a new digit. */
static Recorded side_of(uint32_t kind, uint32_t pictures)
{
    const Television *tv = &televisions[kind % 2];
    int is_cav = kind < 2;

    return (Recorded){tv, is_cav ? LDVBI_PICTURES : LDVBI_TIMES, pictures, is_cav ? 9700 : 59 * 25};
}

static void print_row(const SideWear *worn, uint32_t pictures)
{
    Score read = {0, 0, 0, 0}, recovered = {0, 0, 0, 0};
    int lines = 0;

    for (uint32_t kind = 0; kind < KINDS; kind++) {
        Recorded side = side_of(kind, pictures);

        begin_numbers(100 + kind);
        lines += play(&side, worn, &read, &recovered);
    }
    printf("| %s | %d / %d | %d / %d | %d / %d | %d / %d |\n", worn->wear.name, read.right, read.wrong, recovered.right,
           recovered.wrong, read.found, read.misplaced, recovered.found, recovered.misplaced);
    if (worn == side_wears)
        fprintf(stderr, "%d lines with a word, %d pictures\n", lines, KINDS * (int)pictures);
}

int main(int count, char **arguments)
{
    puts("| Each line | Words read, right / wrong | Recovered | Numbers by the words read, right / wrong | "
         "By the recovered ones |\n|---|---|---|---|---|");
    for (size_t i = 0; i < WEARS; i++)
        print_row(&side_wears[i], count > 1 ? (uint32_t)atoi(arguments[1]) : 900);
    return wrong != 0;
}
