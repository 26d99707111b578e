/* Prints the fields of a TBC stream on standard input that have a picture stop, from 1, each as soon as it is read, and
 * then how many there are. A stop is one that the library believes: line 16 or 17 shows it in pass 1, or both do. Words
 * of worn lines are recovered. Only lines 16 to 18 of a file are read. Status 2: the stream can't be read, and standard
 * error says why. If the stream ends inside a field, standard error says where.
 *
 *     cc -std=c99 -o stops stops.c -lldvbi && ./stops NTSC 16384 51200 < side.tbc */
#define _DEFAULT_SOURCE
#include <errno.h>
#include <ldvbi.h>
#include <stdio.h>
#include <stdlib.h>
#include <string.h>
#include <sys/stat.h>
#include <unistd.h>

static int refuse(const char *why) {
    fprintf(stderr, "stops: %s\n", why);
    return 2;
}

/* A whole number, in at most nine decimal digits alone. */
static int parse_number(const char *text, uint32_t *number) {
    size_t length = strspn(text, "0123456789");
    *number = (uint32_t)strtoul(text, NULL, 10);
    return 0 < length && length < 10 && text[length] == '\0';
}

/* Reads a field of standard input. If that is a file, the field begins at its byte `at`, and only lines 16 to 18 are
 * read; a pipe can only be read whole. Returns how many bytes of the field there are, or -1 if reading fails. */
static ssize_t read_field(uint32_t system, off_t at, uint8_t *field) {
    size_t whole = ldvbi_field_bytes(system), line = ldvbi_line_bytes(system);
    struct stat about;
    if (fstat(STDIN_FILENO, &about) != 0) return -1;
    if (!S_ISREG(about.st_mode)) {
        size_t length = fread(field, 1, whole, stdin);
        return ferror(stdin) ? -1 : (ssize_t)length;
    }
    if (about.st_size - at < (off_t)whole) return about.st_size < at ? 0 : about.st_size - at;
    errno = EIO; /* the file was made shorter meanwhile */
    ssize_t length = pread(STDIN_FILENO, field + 15 * line, 3 * line, at + (off_t)(15 * line));
    return length == (ssize_t)(3 * line) ? (ssize_t)whole : -1;
}

/* Whether a player stops at the field with these bytes. */
static uint32_t judge_field(uint32_t system, uint32_t black, uint32_t white, const uint8_t *field, int *is_stop) {
    LdvbiFieldReadings readings;
    uint32_t stop, status = ldvbi_recover_fields(system, black, white, field, ldvbi_field_bytes(system), NULL, 0,
                                                 &readings, 1);
    if (status == LDVBI_DONE) status = ldvbi_judge_stops(&readings, 1, &stop, 1);
    *is_stop = status == LDVBI_DONE && stop == LDVBI_BELIEVED;
    return status;
}

/* Reads whole fields into this room until the stream ends. Returns the program's status. */
static int list_stops(uint32_t system, uint32_t black, uint32_t white, uint8_t *field) {
    unsigned long fields = 0, stops = 0;
    ssize_t length, whole = (ssize_t)ldvbi_field_bytes(system);
    off_t begin = lseek(STDIN_FILENO, 0, SEEK_CUR); /* if it is a file */
    while ((length = read_field(system, begin + (off_t)fields * whole, field)) == whole) {
        int is_stop;
        uint32_t status = judge_field(system, black, white, field, &is_stop);
        if (status != LDVBI_DONE) return refuse(ldvbi_status_text(status));
        fields++;
        if (!is_stop) continue;
        stops++;
        printf("field %lu\n", fields);
        fflush(stdout); /* for whoever waits at the other end of a pipe */
    }
    if (length == -1) return refuse(strerror(errno));
    if (length > 0)
        fprintf(stderr, "stops: the last field is cut: field %lu has %zd of %zd bytes\n", fields + 1, length, whole);
    printf("%lu stops\n", stops);
    fflush(stdout);
    return ferror(stdout) ? refuse(strerror(errno)) : 0;
}

int main(int count, char **words) {
    uint32_t black, white;
    if (ldvbi_abi() != LDVBI_ABI) return refuse("the library has another interface");
    if (count != 4) return refuse("usage: stops NTSC|PAL BLACK WHITE < FILE");
    uint32_t system = strcmp(words[1], "NTSC") == 0 ? LDVBI_NTSC : strcmp(words[1], "PAL") == 0 ? LDVBI_PAL : 0;
    if (!parse_number(words[2], &black)) return refuse("black is not a whole number");
    if (!parse_number(words[3], &white)) return refuse("white is not a whole number");
    /* With no field, the library tests only the numbers. */
    uint32_t status = ldvbi_recover_fields(system, black, white, NULL, 0, NULL, 0, NULL, 0);
    if (status != LDVBI_DONE) return refuse(ldvbi_status_text(status));
    uint8_t *field = malloc(ldvbi_field_bytes(system));
    if (field == NULL) return refuse(strerror(ENOMEM));
    int ended = list_stops(system, black, white, field);
    free(field);
    return ended;
}
