/* Recovers words by ldvbi_recover_rows: lines of 910 samples of 16 bits on standard input, and for each field the word
 * of its lines 17 and 18 on standard output, as six hexadecimal digits and its pass, or `none`. Each line of the input
 * is line 17 of a field whose other lines are blank, or each two of them are lines 17 and 18 of a field.
 *
 * usage: recovered BLACK WHITE 1|2 < LINES
 */
#include <ldvbi.h>
#include <stdio.h>
#include <stdlib.h>

enum { WIDTH = 910, LINE_BYTES = 2 * WIDTH };

static void print_reading(const LdvbiReading *reading)
{
    if (reading->cause == LDVBI_WORD)
        printf("%06X %u\n", (unsigned)reading->word, (unsigned)reading->pass);
    else
        puts("none");
}

/* Of two words that say the same it is that of the lower pass; where they differ, there is none. */
static void print_field(const LdvbiReading *line_17, const LdvbiReading *line_18)
{
    int has_17 = line_17->cause == LDVBI_WORD, has_18 = line_18->cause == LDVBI_WORD;

    if (has_17 && has_18 && line_17->word != line_18->word)
        puts("none");
    else
        print_reading(!has_18 || (has_17 && line_17->pass <= line_18->pass) ? line_17 : line_18);
}

int main(int count, char **words)
{
    static uint8_t rows[3 * LINE_BYTES];

    if (count != 4)
        return 2;
    uint32_t black = (uint32_t)atoi(words[1]), white = (uint32_t)atoi(words[2]), status;
    size_t length = (size_t)atoi(words[3]) * LINE_BYTES;
    LdvbiFieldReadings readings;

    if (length == 0 || length > 2 * LINE_BYTES)
        return 2;
    status = ldvbi_draw_line(LDVBI_NTSC, black, white, 0, rows, LINE_BYTES);
    if (status == LDVBI_DONE)
        status = ldvbi_draw_line(LDVBI_NTSC, black, white, 0, rows + 2 * LINE_BYTES, LINE_BYTES);
    while (status == LDVBI_DONE && fread(rows + LINE_BYTES, 1, length, stdin) == length) {
        status = ldvbi_recover_rows(LDVBI_NTSC, black, white, rows, sizeof rows, NULL, 0, &readings);
        if (status == LDVBI_DONE)
            print_field(&readings.lines[1], &readings.lines[2]);
    }
    return status != LDVBI_DONE;
}
