/* Prints the words of lines that come from no TBC file: 720 samples of 8 bits at 13.5 MHz to a line, as frame grabbers,
 * DVDs and captures of emulators have them. Standard input has lines 16, 17 and 18 of each field, one after the other.
 * A field is a line of text: its three words, with - for none, and `stop` if the library believes that the field has a
 * picture stop. Status 2: the lines can't be read, and standard error says why.
 *
 *     cc -std=c99 -o pixels pixels.c -lldvbi && ./pixels NTSC 16 235 < lines.y8 */
#include <errno.h>
#include <ldvbi.h>
#include <stdio.h>
#include <stdlib.h>
#include <string.h>

/* The 720 samples are active video (ITU-R BT.601). This many others stand before them, from the line's beginning on. */
enum { PIXELS = 720, NTSC_BEFORE = 122, PAL_BEFORE = 132 };

/* Samples of 16 bits as the library takes them: the low byte first. */
static void put(uint8_t *line, size_t column, uint32_t sample) {
    line[2 * column] = (uint8_t)(sample & 0xFF);
    line[2 * column + 1] = (uint8_t)(sample >> 8);
}

/* Samples a line anew, at four times the colour subcarrier: 910 samples of NTSC last as long as 858 at 13.5 MHz, and
 * 1135 of PAL as long as 864. Each new one lies on the straight line between the two pixels around its moment. The
 * line is black where there is no pixel. A sample of 8 bits times 257 is one of 16. */
static void resample(uint32_t system, uint32_t black, const uint8_t *pixels, uint8_t *line) {
    size_t width = ldvbi_line_samples(system), whole = system == LDVBI_NTSC ? 858 : 864;
    size_t before = system == LDVBI_NTSC ? NTSC_BEFORE : PAL_BEFORE;
    for (size_t column = 0; column < width; column++) {
        size_t moment = column * whole; /* in parts of a pixel, of which it has `width` */
        uint32_t sample = black;
        if (moment >= before * width && moment < (before + PIXELS - 1) * width) {
            const uint8_t *pixel = pixels + moment / width - before;
            uint32_t part = (uint32_t)(moment % width), rest = (uint32_t)width - part;
            sample = (pixel[0] * rest + pixel[1] * part) * 257 / (uint32_t)width;
        }
        put(line, column, sample);
    }
}

static void print_field(const LdvbiFieldReadings *field, uint32_t stop) {
    for (size_t i = 0; i < 3; i++) {
        if (i > 0) putchar(' ');
        if (field->lines[i].cause == LDVBI_WORD) printf("%06X", (unsigned)field->lines[i].word);
        else putchar('-');
    }
    puts(stop == LDVBI_BELIEVED ? " stop" : "");
}

static int refuse(const char *why) {
    fprintf(stderr, "pixels: %s\n", why);
    return 2;
}

/* Ends the program if a call of the library refuses what it is given. */
static void check(uint32_t status) {
    if (status != LDVBI_DONE) exit(refuse(ldvbi_status_text(status)));
}

/* Reads whole fields until there are no more. Returns the program's status. */
static int print_fields(uint32_t system, uint32_t black, uint32_t white) {
    size_t length, line = ldvbi_line_bytes(system), whole = 3 * line;
    uint8_t pixels[3 * PIXELS], lines[whole];
    while ((length = fread(pixels, 1, sizeof pixels, stdin)) == sizeof pixels) {
        LdvbiFieldReadings field;
        uint32_t stop;
        for (size_t i = 0; i < 3; i++) resample(system, black, pixels + i * PIXELS, lines + i * line);
        check(ldvbi_recover_rows(system, black, white, lines, whole, NULL, 0, &field));
        check(ldvbi_judge_stops(&field, 1, &stop, 1));
        print_field(&field, stop);
    }
    if (ferror(stdin)) return refuse(strerror(errno));
    if (length > 0) return refuse("the last field is cut");
    fflush(stdout);
    return ferror(stdout) ? refuse(strerror(errno)) : 0;
}

/* A whole number from 0 to 255, as a sample of 16 bits. */
static int parse_level(const char *text, uint32_t *level) {
    size_t length = strlen(text);
    *level = (uint32_t)strtoul(text, NULL, 10) * 257;
    return length > 0 && length <= 3 && strspn(text, "0123456789") == length && *level <= 65535;
}

int main(int count, char **words) {
    uint32_t black, white;
    if (ldvbi_abi() != LDVBI_ABI) return refuse("the library has another interface");
    if (count != 4) return refuse("usage: pixels NTSC|PAL BLACK WHITE < FILE");
    uint32_t system = strcmp(words[1], "NTSC") == 0 ? LDVBI_NTSC : strcmp(words[1], "PAL") == 0 ? LDVBI_PAL : 0;
    if (!parse_level(words[2], &black)) return refuse("black is not a whole number from 0 to 255");
    if (!parse_level(words[3], &white)) return refuse("white is not a whole number from 0 to 255");
    check(ldvbi_recover_fields(system, black, white, NULL, 0, NULL, 0, NULL, 0)); /* tests the numbers */
    return print_fields(system, black, white);
}
