/* Prints the picture whose number a line shows: the bytes of one NTSC line on standard input, 1,820 of them. It prints
 * nothing if the line shows no word, or a word that says something else. Status 1: there are fewer bytes.
 *
 *     cc -std=c99 -o say say.c -lldvbi
 *     ./say < line.raw */
#include <ldvbi.h>
#include <stdio.h>

int main(void) {
    uint8_t line[1820];
    if (fread(line, 1, sizeof line, stdin) != sizeof line) return 1;
    LdvbiReading reading;
    LdvbiCode code;
    if (ldvbi_read_line(LDVBI_NTSC, 16384, 51200, line, sizeof line, &reading) == LDVBI_DONE
            && ldvbi_classify(reading.word, &code) == LDVBI_DONE && code.kind == LDVBI_PICTURE)
        printf("picture %u\n", code.first);
}
